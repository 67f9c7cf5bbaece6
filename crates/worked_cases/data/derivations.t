Steps of derivations: which of them the audit takes, in the tree of a record and in what drops a line of the rules.

A record of rules that no number meets. The last step is the sum of both lines.

  $ cat >rules <<EOF
  > number A
  > A >= 5
  > A <= 3
  > EOF
  $ cat >records <<EOF
  > A
  > 4
  > EOF
  $ cat >released <<EOF
  > A
  > EOF
  $ cat >right.proof <<EOF
  > fh-proof 1
  > limit 1 near 5 budget 1000000
  > lines 2
  > keep
  > keep
  > records 1
  > contradictory 2
  > line K 1
  > given 1
  > line C 3
  > given 1
  > given 2
  > combine 1 1 2 1 2
  > claims 0
  > end
  > EOF
  $ cp right.proof proof
  $ forxainde check --rules rules --records records --released released --proof proof
  valid records 1 released 0

The divisor need not be the greatest, and multiples of both lines do as well.

  $ cp right.proof proof
  $ sed -i -e '13c\combine 1 1 2 1 1' proof
  $ forxainde check --rules rules --records records --released released --proof proof
  valid records 1 released 0
  $ cp right.proof proof
  $ sed -i -e '13c\combine 1 2 2 2 4' proof
  $ forxainde check --rules rules --records records --released released --proof proof
  valid records 1 released 0

Multipliers by which the field does not go, those below 0 and 0, a divisor 0 and one that divides not all, a step that is
not there, one that is the step itself or past the end, a number past 128 bits, and a word too little.

  $ cp right.proof proof
  $ sed -i -e '13c\combine 1 1 2 2 2' proof
  $ forxainde check --rules rules --records records --released released --proof proof
  fault: proof line 13 Cert
  [9]
  $ cp right.proof proof
  $ sed -i -e '13c\combine 1 2 2 1 1' proof
  $ forxainde check --rules rules --records records --released released --proof proof
  fault: proof line 10 Cert
  [9]
  $ cp right.proof proof
  $ sed -i -e '13c\combine 1 -1 2 1 2' proof
  $ forxainde check --rules rules --records records --released released --proof proof
  fault: proof line 13 Cert
  [9]
  $ cp right.proof proof
  $ sed -i -e '13c\combine 1 1 2 -1 2' proof
  $ forxainde check --rules rules --records records --released released --proof proof
  fault: proof line 13 Cert
  [9]
  $ cp right.proof proof
  $ sed -i -e '13c\combine 1 1 2 0 1' proof
  $ forxainde check --rules rules --records records --released released --proof proof
  fault: proof line 13 Cert
  [9]
  $ cp right.proof proof
  $ sed -i -e '13c\combine 1 1 2 1 0' proof
  $ forxainde check --rules rules --records records --released released --proof proof
  fault: proof line 13 Cert
  [9]
  $ cp right.proof proof
  $ sed -i -e '13c\combine 1 1 2 1 3' proof
  $ forxainde check --rules rules --records records --released released --proof proof
  fault: proof line 13 Cert
  [9]
  $ cp right.proof proof
  $ sed -i -e '13c\combine 1 1 3 1 2' proof
  $ forxainde check --rules rules --records records --released released --proof proof
  fault: proof line 13 Cert
  [9]
  $ cp right.proof proof
  $ sed -i -e '13c\combine 1 1 4 1 2' proof
  $ forxainde check --rules rules --records records --released released --proof proof
  fault: proof line 13 Cert
  [9]
  $ cp right.proof proof
  $ sed -i -e '13c\combine 18446744073709551616 1 2 1 2' proof
  $ forxainde check --rules rules --records records --released released --proof proof
  fault: proof line 13 Cert
  [9]
  $ cp right.proof proof
  $ sed -i -e '13c\combine 1 170141183460469231731687303715884105727 2 1 2' proof
  $ forxainde check --rules rules --records records --released released --proof proof
  fault: proof line 13 Cert
  [9]
  $ cp right.proof proof
  $ sed -i -e '13c\combine' proof
  $ forxainde check --rules rules --records records --released released --proof proof
  fault: proof line 13 Grammar
  [9]

A row is released that is told to have no correction.

  $ cp right.proof proof
  $ sed -i -e '1a\4' released
  $ forxainde check --rules rules --records records --released released --proof proof
  fault: proof line 0 RowText
  [9]

Boxes of codes. The household's record: a child who is married and somebody's spouse.

  $ cat >rules <<EOF
  > code Age in {child, adult}
  > code Status in {single, married}
  > code Rel in {spouse, other}
  > if Age in {child} then Status in {single}
  > if Rel in {spouse} then Status in {married}
  > EOF
  $ cat >records <<EOF
  > Age,Status,Rel
  > child,married,spouse
  > EOF
  $ forxainde edit --rules rules --records records --released released --reasons reasons --proof proof
  records 1 clean 0 changed 1 unresolved 0 weight 1
  claims 1 given 0
  $ cat proof
  fh-proof 2
  limit 1 near 5 budget 1000000
  lines 2
  keep
  keep
  table 2
  given 1
  given 2
  records 1
  change 1 CKK 6
  box KK 4
  shared 1
  fail 1
  fix 1 2
  fix 2 3
  box KCK 7
  shared 2
  fail 1
  shared 1
  fail 3
  fix 1 4
  cover 2 2 5
  fix 3 6
  bound KCC
  bound CKK
  bound CKC
  bound CC
  claims 1
  claim 1 0
  end

The same in version 1, where each leaf has its steps itself.

  $ cat >right.proof <<EOF
  > fh-proof 1
  > limit 1 near 5 budget 1000000
  > lines 2
  > keep
  > keep
  > records 1
  > change 1 CKK 6
  > box KK 4
  > given 1
  > fail 1
  > fix 1 2
  > fix 2 3
  > box KCK 7
  > given 2
  > fail 1
  > given 1
  > fail 3
  > fix 1 4
  > cover 2 2 5
  > fix 3 6
  > bound KCC
  > bound CKK
  > bound CKC
  > bound CC
  > claims 1
  > claim 1 0
  > end
  > EOF
  $ cp right.proof proof
  $ forxainde check --rules rules --records records --released released --proof proof
  valid records 1 released 1

Line 19 covers Status with a part for each of its codes: a part that has not the code, the parts in another order, one less,
a field that is not there, and parts that have nothing in common elsewhere.

  $ cp right.proof proof
  $ sed -i -e '19c\cover 2 2 2' proof
  $ forxainde check --rules rules --records records --released released --proof proof
  fault: proof line 19 Cert
  [9]
  $ cp right.proof proof
  $ sed -i -e '19c\cover 2 5 2' proof
  $ forxainde check --rules rules --records records --released released --proof proof
  fault: proof line 19 Cert
  [9]
  $ cp right.proof proof
  $ sed -i -e '19c\cover 2 2' proof
  $ forxainde check --rules rules --records records --released released --proof proof
  fault: proof line 19 Cert
  [9]
  $ cp right.proof proof
  $ sed -i -e '19c\cover 4 2 5' proof
  $ forxainde check --rules rules --records records --released released --proof proof
  fault: proof line 19 Cert
  [9]
  $ cp right.proof proof
  $ sed -i -e '19c\cover 1 2 5' proof
  $ forxainde check --rules rules --records records --released released --proof proof
  fault: proof line 19 Cert
  [9]

A field is fixed that is changed, one of which the path says nothing, one at which the box has not the record's code, and a
line in the place of a box.

  $ cp right.proof proof
  $ sed -i -e '18c\fix 2 4' proof
  $ forxainde check --rules rules --records records --released released --proof proof
  fault: proof line 18 Cert
  [9]
  $ cp right.proof proof
  $ sed -i -e '11c\fix 3 2' proof
  $ forxainde check --rules rules --records records --released released --proof proof
  fault: proof line 11 Cert
  [9]
  $ cp right.proof proof
  $ sed -i -e '9c\given 2' -e '11c\fix 2 2' proof
  $ forxainde check --rules rules --records records --released released --proof proof
  fault: proof line 11 Cert
  [9]
  $ cp right.proof proof
  $ sed -i -e '11c\fix 1 1' proof
  $ forxainde check --rules rules --records records --released released --proof proof
  fault: proof line 11 Cert
  [9]

A box that is not whole, and a line that is not for all codes. To fix a field at which a box is whole changes nothing of it.

  $ cp right.proof proof
  $ sed -i -e '8c\box KK 3' -e '12d' proof
  $ forxainde check --rules rules --records records --released released --proof proof
  fault: proof line 8 Cert
  [9]
  $ cp right.proof proof
  $ sed -i -e '18c\fix 3 4' -e '20c\fix 1 6' proof
  $ forxainde check --rules rules --records records --released released --proof proof
  fault: proof line 13 Cert
  [9]
  $ cp right.proof proof
  $ sed -i -e '8c\line KK 1' -e '10d' -e '11d' -e '12d' proof
  $ forxainde check --rules rules --records records --released released --proof proof
  fault: proof line 8 Cert
  [9]

A code and a number: the record is a child with a wage, and the wage changes.

  $ cat >rules <<EOF
  > code Status weight 3 in {child, adult}
  > number Wage
  > if Status in {child} then Wage = 0
  > if Status in {adult} then Wage >= 60
  > EOF
  $ cat >records <<EOF
  > Status,Wage
  > child,50
  > EOF
  $ forxainde edit --rules rules --records records --released released --reasons reasons --proof proof
  records 1 clean 0 changed 1 unresolved 0 weight 1
  claims 1 given 0
  $ cat proof
  fh-proof 2
  limit 1 near 5 budget 1000000
  lines 3
  keep
  keep
  keep
  table 1
  given 2
  records 1
  change 1 CK 4
  box KK 3
  shared 1
  fail 1
  fix 1 2
  bound KC
  bound CK
  bound CC
  claims 1
  claim 1 0
  end

The same in version 1.

  $ cat >right.proof <<EOF
  > fh-proof 1
  > limit 1 near 5 budget 1000000
  > lines 3
  > keep
  > keep
  > keep
  > records 1
  > change 1 CK 4
  > box KK 3
  > given 2
  > fail 1
  > fix 1 2
  > bound KC
  > bound CK
  > bound CC
  > claims 1
  > claim 1 0
  > end
  > EOF
  $ cp right.proof proof
  $ forxainde check --rules rules --records records --released released --proof proof
  valid records 1 released 1

A line that holds at the record, one in which a field stands that is not kept, and two lines that no code meets.

  $ cp right.proof proof
  $ sed -i -e '10c\given 1' proof
  $ forxainde check --rules rules --records records --released released --proof proof
  fault: proof line 11 Cert
  [9]
  $ cp right.proof proof
  $ sed -i -e '14c\box CK 3\ngiven 2\nfail 1\nfix 1 2' proof
  $ forxainde check --rules rules --records records --released released --proof proof
  fault: proof line 16 Cert
  [9]
  $ cp right.proof proof
  $ sed -i -e '9c\box KK 5' -e '10c\given 2\ngiven 3\ncombine 1 1 2 1 1' -e '11c\fail 1' -e '12c\fix 1 4' proof
  $ forxainde check --rules rules --records records --released released --proof proof
  fault: proof line 12 Cert
  [9]
