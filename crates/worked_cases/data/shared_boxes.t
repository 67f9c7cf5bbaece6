Proofs of version 2 whose leaves show boxes of codes, and those of several records: the boxes stay in the leaves, and the
lines that fail are named in the table.

Boxes of codes: a child who is married and somebody's spouse.

  $ cat >rules <<EOF
  > code Age in {child, adult}
  > code Status in {single, married}
  > code Rel in {spouse, other}
  > if Age in {child} then Status in {single}
  > if Rel in {spouse} then Status in {married}
  > EOF
  $ cat >records <<EOF
  > Age,Status,Rel
  > child,married,spouse
  > EOF
  $ forxainde edit --rules rules --records records --released released --reasons reasons --proof proof
  records 1 clean 0 changed 1 unresolved 0 weight 1
  claims 1 given 0
  $ cat released
  Age,Status,Rel
  adult,married,spouse
  $ cat proof
  fh-proof 2
  limit 1 near 5 budget 1000000
  lines 2
  keep
  keep
  table 2
  given 1
  given 2
  records 1
  change 1 CKK 6
  box KK 4
  shared 1
  fail 1
  fix 1 2
  fix 2 3
  box KCK 7
  shared 2
  fail 1
  shared 1
  fail 3
  fix 1 4
  cover 2 2 5
  fix 3 6
  bound KCC
  bound CKK
  bound CKC
  bound CC
  claims 1
  claim 1 0
  end
  $ forxainde check --rules rules --records records --released released --proof proof
  valid records 1 released 1
  $ cp proof right.proof

A given line in the place of a shared one; the other line, whose box has not the record's status; a line past the table, and
one past the rules; a shared line that stands twice in a leaf; a step that names itself; and a cover whose parts are turned.

  $ cp right.proof proof
  $ sed -i -e '12c\given 1' proof
  $ forxainde check --rules rules --records records --released released --proof proof
  valid records 1 released 1
  $ cp right.proof proof
  $ sed -i -e '12c\shared 2' proof
  $ forxainde check --rules rules --records records --released released --proof proof
  fault: proof line 15 Cert
  [9]
  $ cp right.proof proof
  $ sed -i -e '12c\shared 3' proof
  $ forxainde check --rules rules --records records --released released --proof proof
  fault: proof line 12 Cert
  [9]
  $ cp right.proof proof
  $ sed -i -e '12c\given 3' proof
  $ forxainde check --rules rules --records records --released released --proof proof
  fault: proof line 12 Grammar
  [9]
  $ cp right.proof proof
  $ sed -i -e '16c\box KCK 8' -e '19c\shared 1\nshared 1' -e '20c\fail 4' -e '21c\fix 1 5' -e '22c\cover 2 2 6' -e '23c\fix 3 7' proof
  $ forxainde check --rules rules --records records --released released --proof proof
  valid records 1 released 1
  $ cp right.proof proof
  $ sed -i -e '18c\fail 2' proof
  $ forxainde check --rules rules --records records --released released --proof proof
  fault: proof line 18 Cert
  [9]
  $ cp right.proof proof
  $ sed -i -e '22c\cover 2 5 2' proof
  $ forxainde check --rules rules --records records --released released --proof proof
  fault: proof line 22 Cert
  [9]

A box leaf without steps, one whose last step is a shared line, and a line leaf whose line is not for all codes.

  $ cp right.proof proof
  $ sed -i -e '11c\box KK 0' -e '12d' -e '13d' -e '14d' -e '15d' proof
  $ forxainde check --rules rules --records records --released released --proof proof
  fault: proof line 11 Cert
  [9]
  $ cp right.proof proof
  $ sed -i -e '11c\box KK 1' -e '13d' -e '14d' -e '15d' proof
  $ forxainde check --rules rules --records records --released released --proof proof
  fault: proof line 11 Cert
  [9]
  $ cp right.proof proof
  $ sed -i -e '11c\line KK 1' -e '13d' -e '14d' -e '15d' proof
  $ forxainde check --rules rules --records records --released released --proof proof
  fault: proof line 11 Cert
  [9]

The released row and the claims behind a table are told by their own lines.

  $ sed -i -e '2c\child,married,spouse' released
  $ cp right.proof proof
  $ forxainde check --rules rules --records records --released released --proof proof
  fault: proof line 10 RowText
  [9]
  $ sed -i -e '2c\adult,married,spouse' released
  $ cp right.proof proof
  $ sed -i -e '29c\claim 1 1 1' proof
  $ forxainde check --rules rules --records records --released released --proof proof
  fault: proof line 29 Claims
  [9]
  $ cp right.proof proof
  $ sed -i -e '28c\claims 0' -e '29d' proof
  $ forxainde check --rules rules --records records --released released --proof proof
  fault: proof line 28 Claims
  [9]

A line that is derived for some codes alone. In version 1 the leaf of the changed number has the steps of that line; in
version 2 they stand in the table, and the numbers of the boxes are renewed.

  $ cat >rules <<EOF
  > number A
  > code B weight 3 in {x, y}
  > if B in {x} then A >= 5
  > if B in {x} then A <= 3
  > EOF
  $ cat >records <<EOF
  > A,B
  > 4,x
  > EOF
  $ forxainde edit --rules rules --records records --released released --reasons reasons --proof proof
  records 1 clean 0 changed 1 unresolved 0 weight 3
  claims 1 given 0
  $ cat released
  A,B
  4,y
  $ cat proof
  fh-proof 2
  limit 1 near 5 budget 1000000
  lines 2
  keep
  keep
  table 3
  given 1
  given 2
  combine 1 1 2 1 2
  records 1
  change 3 KC 4
  box KK 3
  shared 1
  fail 1
  fix 2 2
  bound KC
  box CK 3
  shared 3
  fail 1
  fix 2 2
  bound CC
  claims 1
  claim 1 0
  end
  $ forxainde check --rules rules --records records --released released --proof proof
  valid records 1 released 1
  $ cp proof right.proof
  $ cat >first.proof <<EOF
  > fh-proof 1
  > limit 1 near 5 budget 1000000
  > lines 2
  > keep
  > keep
  > records 1
  > change 3 KC 4
  > box KK 3
  > given 1
  > fail 1
  > fix 2 2
  > bound KC
  > box CK 5
  > given 1
  > given 2
  > combine 1 1 2 1 2
  > fail 3
  > fix 2 4
  > bound CC
  > claims 1
  > claim 1 0
  > end
  > EOF
  $ cp first.proof proof
  $ forxainde check --rules rules --records records --released released --proof proof
  valid records 1 released 1

The numbers as they were in version 1; the steps of the line in the leaf, from lines of the table; and a line in which the
changed number stands.

  $ cp right.proof proof
  $ sed -i -e '19c\fail 3' proof
  $ forxainde check --rules rules --records records --released released --proof proof
  fault: proof line 19 Cert
  [9]
  $ cp right.proof proof
  $ sed -i -e '20c\fix 2 4' proof
  $ forxainde check --rules rules --records records --released released --proof proof
  fault: proof line 20 Cert
  [9]
  $ cp right.proof proof
  $ sed -i -e '17c\box CK 5' -e '18c\shared 1\nshared 2\ncombine 1 1 2 1 2' -e '19c\fail 3' -e '20c\fix 2 4' proof
  $ forxainde check --rules rules --records records --released released --proof proof
  valid records 1 released 1
  $ cp right.proof proof
  $ sed -i -e '18c\shared 1' proof
  $ forxainde check --rules rules --records records --released released --proof proof
  fault: proof line 19 Cert
  [9]

Two records that break one rule: its line stands in the table once, and both name it.

  $ cat >rules <<EOF
  > number A
  > number B
  > A + B <= 6
  > EOF
  $ cat >records <<EOF
  > A,B
  > 3,4
  > 5,4
  > EOF
  $ forxainde edit --rules rules --records records --released released --reasons reasons --proof proof
  records 2 clean 0 changed 2 unresolved 0 weight 2
  claims 2 given 0
  $ cat released
  A,B
  3,0
  5,0
  $ cat proof
  fh-proof 2
  limit 1 near 5 budget 1000000
  lines 1
  keep
  table 1
  given 1
  records 2
  change 1 KC 3
  line KK 1
  shared 1
  bound KC
  bound C
  change 1 KC 3
  line KK 1
  shared 1
  bound KC
  bound C
  claims 2
  claim 1 0
  claim 2 0
  end
  $ forxainde check --rules rules --records records --released released --proof proof
  valid records 2 released 2
  $ cp proof right.proof

The same in version 1.

  $ cat >proof <<EOF
  > fh-proof 1
  > limit 1 near 5 budget 1000000
  > lines 1
  > keep
  > records 2
  > change 1 KC 3
  > line KK 1
  > given 1
  > bound KC
  > bound C
  > change 1 KC 3
  > line KK 1
  > given 1
  > bound KC
  > bound C
  > claims 2
  > claim 1 0
  > claim 2 0
  > end
  > EOF
  $ forxainde check --rules rules --records records --released released --proof proof
  valid records 2 released 2

A step that is not there, told for the record that names it; and a step of the table that is not valid, told once, before all
records.

  $ cp right.proof proof
  $ sed -i -e '10c\shared 2' -e '15c\shared 2' proof
  $ forxainde check --rules rules --records records --released released --proof proof
  fault: proof line 10 Cert
  [9]
  $ cp right.proof proof
  $ sed -i -e '15c\shared 2' proof
  $ forxainde check --rules rules --records records --released released --proof proof
  fault: proof line 15 Cert
  [9]
  $ cp right.proof proof
  $ sed -i -e '6c\given 2' proof
  $ forxainde check --rules rules --records records --released released --proof proof
  fault: proof line 6 Table
  [9]
  $ cp right.proof proof
  $ sed -i -e '5c\table 2' -e '6c\given 1\ncombine 1 1 1 1 2' -e '15c\shared 2' proof
  $ forxainde check --rules rules --records records --released released --proof proof
  valid records 2 released 2

The second record is told to have been given no value. Its tree is checked with the same table.

  $ sed -i -e '3d' released
  $ cp right.proof proof
  $ sed -i -e '13c\gift 1 KC 2 1 3' proof
  $ forxainde check --rules rules --records records --released released --proof proof
  valid records 2 released 1
  $ cp right.proof proof
  $ sed -i -e '13c\gift 1 KC 2 1 3' -e '15c\shared 2' proof
  $ forxainde check --rules rules --records records --released released --proof proof
  fault: proof line 15 Cert
  [9]
  $ cp right.proof proof
  $ sed -i -e '13c\budget KC 3' -e '14d' -e '15d' -e '16d' -e '17d' -e '18c\claims 1' -e '20d' proof
  $ forxainde check --rules rules --records records --released released --proof proof
  valid records 2 released 1

A line of the table fails at one record, and holds at another: of that it shows nothing.

  $ cat >records <<EOF
  > A,B
  > 3,4
  > 1,4
  > EOF
  $ cat >released <<EOF
  > A,B
  > 3,0
  > 1,0
  > EOF
  $ cp right.proof proof
  $ forxainde check --rules rules --records records --released released --proof proof
  fault: proof line 14 Cert
  [9]
