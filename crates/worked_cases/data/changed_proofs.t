A release of one record, of two fields whose sum is at most 6, and the audit of it where lines of its proof are others: the
first condition that fails is told, with the line of the proof that it fails at.

  $ cat >rules <<EOF
  > number A
  > number B
  > A + B <= 6
  > EOF
  $ cat >records <<EOF
  > A,B
  > 3,4
  > EOF
  $ cat >released <<EOF
  > A,B
  > 3,0
  > EOF
  $ cat >right.proof <<EOF
  > fh-proof 1
  > limit 1 near 5 budget 1000000
  > lines 1
  > keep
  > records 1
  > change 1 KC 3
  > line KK 1
  > given 1
  > bound KC
  > bound C
  > claims 1
  > claim 1 0
  > end
  > EOF
  $ cp right.proof proof
  $ forxainde check --rules rules --records records --released released --proof proof
  valid records 1 released 1

The editor makes these files itself.

  $ rm released proof
  $ forxainde edit --rules rules --records records --released released --reasons reasons --proof proof
  records 1 clean 0 changed 1 unresolved 0 weight 1
  claims 1 given 0
  $ cat released
  A,B
  3,0
  $ cat proof
  fh-proof 2
  limit 1 near 5 budget 1000000
  lines 1
  keep
  table 1
  given 1
  records 1
  change 1 KC 3
  line KK 1
  shared 1
  bound KC
  bound C
  claims 1
  claim 1 0
  end

No bytes, lines that are missing, and counts of lines that are not there.

  $ cat >proof <<EOF
  > EOF
  $ forxainde check --rules rules --records records --released released --proof proof
  fault: proof line 1 Grammar
  [9]
  $ cp right.proof proof
  $ sed -i -e '1d' proof
  $ forxainde check --rules rules --records records --released released --proof proof
  fault: proof line 1 Grammar
  [9]
  $ cp right.proof proof
  $ sed -i -e '13d' proof
  $ forxainde check --rules rules --records records --released released --proof proof
  fault: proof line 13 Grammar
  [9]
  $ cp right.proof proof
  $ sed -i -e '3c\lines 2' proof
  $ forxainde check --rules rules --records records --released released --proof proof
  fault: proof line 5 Grammar
  [9]
  $ cp right.proof proof
  $ sed -i -e '3c\lines 4000000000' proof
  $ forxainde check --rules rules --records records --released released --proof proof
  fault: proof line 5 Grammar
  [9]
  $ cp right.proof proof
  $ sed -i -e '5c\records 2' proof
  $ forxainde check --rules rules --records records --released released --proof proof
  fault: proof line 11 Grammar
  [9]
  $ cp right.proof proof
  $ sed -i -e '7c\line KK 99999999' proof
  $ forxainde check --rules rules --records records --released released --proof proof
  fault: proof line 9 Grammar
  [9]

Each number of the head at its limit, and past it.

  $ cp right.proof proof
  $ sed -i -e '2c\limit 1000 near 64 budget 1000000000' proof
  $ forxainde check --rules rules --records records --released released --proof proof
  valid records 1 released 1
  $ cp right.proof proof
  $ sed -i -e '2c\limit 0 near 5 budget 1' proof
  $ forxainde check --rules rules --records records --released released --proof proof
  fault: proof line 2 Head
  [9]
  $ cp right.proof proof
  $ sed -i -e '2c\limit 1001 near 5 budget 1' proof
  $ forxainde check --rules rules --records records --released released --proof proof
  fault: proof line 2 Head
  [9]
  $ cp right.proof proof
  $ sed -i -e '2c\limit 1 near 0 budget 1' proof
  $ forxainde check --rules rules --records records --released released --proof proof
  fault: proof line 2 Head
  [9]
  $ cp right.proof proof
  $ sed -i -e '2c\limit 1 near 65 budget 1' proof
  $ forxainde check --rules rules --records records --released released --proof proof
  fault: proof line 2 Head
  [9]
  $ cp right.proof proof
  $ sed -i -e '2c\limit 1 near 5 budget 0' proof
  $ forxainde check --rules rules --records records --released released --proof proof
  fault: proof line 2 Head
  [9]
  $ cp right.proof proof
  $ sed -i -e '2c\limit 1 near 5 budget 1000000001' proof
  $ forxainde check --rules rules --records records --released released --proof proof
  fault: proof line 2 Head
  [9]

Another number of lines or of records, each of them told before what stands behind it.

  $ cp right.proof proof
  $ sed -i -e '3c\lines 0' -e '4d' proof
  $ forxainde check --rules rules --records records --released released --proof proof
  fault: proof line 3 Head
  [9]
  $ cp right.proof proof
  $ sed -i -e '3c\lines 2' -e '4c\drop 0\nkeep' proof
  $ forxainde check --rules rules --records records --released released --proof proof
  fault: proof line 3 Head
  [9]
  $ cp right.proof proof
  $ sed -i -e '4c\drop 1\ngiven 1' -e '5c\records 2\nclean' proof
  $ forxainde check --rules rules --records records --released released --proof proof
  fault: proof line 6 Head
  [9]

The only line, dropped without a step.

  $ cp right.proof proof
  $ sed -i -e '4c\drop 0' proof
  $ forxainde check --rules rules --records records --released released --proof proof
  fault: proof line 4 Drop
  [9]

The head of the record: another weight, a path that says too little or too much, a leaf less, no leaves, and a record that
is told to be clean.

  $ cp right.proof proof
  $ sed -i -e '6c\change 2 KC 3' proof
  $ forxainde check --rules rules --records records --released released --proof proof
  fault: proof line 6 Cert
  [9]
  $ cp right.proof proof
  $ sed -i -e '6c\change 1 K 3' proof
  $ forxainde check --rules rules --records records --released released --proof proof
  fault: proof line 6 Cert
  [9]
  $ cp right.proof proof
  $ sed -i -e '6c\change 1 KCK 3' proof
  $ forxainde check --rules rules --records records --released released --proof proof
  fault: proof line 6 Cert
  [9]
  $ cp right.proof proof
  $ sed -i -e '6c\change 1 KC 2' -e '10d' proof
  $ forxainde check --rules rules --records records --released released --proof proof
  fault: proof line 9 Cert
  [9]
  $ cp right.proof proof
  $ sed -i -e '6c\change 1 KC 0' -e '7d' -e '8d' -e '9d' -e '10d' proof
  $ forxainde check --rules rules --records records --released released --proof proof
  fault: proof line 6 Cert
  [9]
  $ cp right.proof proof
  $ sed -i -e '6c\clean' -e '7d' -e '8d' -e '9d' -e '10d' proof
  $ forxainde check --rules rules --records records --released released --proof proof
  fault: proof line 6 RowText
  [9]

Its tree: a path that is not the first, a field that is told to have no value, a leaf without steps, steps that are none,
paths that are not the next ones, and a leaf behind the tree.

  $ cp right.proof proof
  $ sed -i -e '7c\line KKK 1' proof
  $ forxainde check --rules rules --records records --released released --proof proof
  fault: proof line 7 Cert
  [9]
  $ cp right.proof proof
  $ sed -i -e '7c\bad KK' -e '8d' proof
  $ forxainde check --rules rules --records records --released released --proof proof
  fault: proof line 7 Cert
  [9]
  $ cp right.proof proof
  $ sed -i -e '7c\line KK 0' -e '8d' proof
  $ forxainde check --rules rules --records records --released released --proof proof
  fault: proof line 7 Cert
  [9]
  $ cp right.proof proof
  $ sed -i -e '8c\given 2' proof
  $ forxainde check --rules rules --records records --released released --proof proof
  fault: proof line 8 Cert
  [9]
  $ cp right.proof proof
  $ sed -i -e '8c\fail 1' proof
  $ forxainde check --rules rules --records records --released released --proof proof
  fault: proof line 8 Cert
  [9]
  $ cp right.proof proof
  $ sed -i -e '7c\line KK 2' -e '8c\given 1\ncombine 1 1 2 1 1' proof
  $ forxainde check --rules rules --records records --released released --proof proof
  fault: proof line 9 Cert
  [9]
  $ cp right.proof proof
  $ sed -i -e '9c\bound KK' proof
  $ forxainde check --rules rules --records records --released released --proof proof
  fault: proof line 9 Cert
  [9]
  $ cp right.proof proof
  $ sed -i -e '10c\bound CC' proof
  $ forxainde check --rules rules --records records --released released --proof proof
  fault: proof line 10 Cert
  [9]
  $ cp right.proof proof
  $ sed -i -e '6c\change 1 KC 4' -e '10c\bound C\nbound C' proof
  $ forxainde check --rules rules --records records --released released --proof proof
  fault: proof line 11 Cert
  [9]

Leaves that do not show what they say: a box of a line is no line, a line is no box, and a leaf that weighs too little.

  $ cp right.proof proof
  $ sed -i -e '7c\line KK 2' -e '8c\given 1\nfail 1' proof
  $ forxainde check --rules rules --records records --released released --proof proof
  fault: proof line 7 Cert
  [9]
  $ cp right.proof proof
  $ sed -i -e '7c\box KK 1' proof
  $ forxainde check --rules rules --records records --released released --proof proof
  fault: proof line 7 Cert
  [9]
  $ cp right.proof proof
  $ sed -i -e '7c\box KK 2' -e '8c\given 1\nfail 1' proof
  $ forxainde check --rules rules --records records --released released --proof proof
  valid records 1 released 1
  $ cp right.proof proof
  $ sed -i -e '7c\bound KK' -e '8d' proof
  $ forxainde check --rules rules --records records --released released --proof proof
  fault: proof line 7 Cert
  [9]
  $ cp right.proof proof
  $ sed -i -e '9c\line KC 1\ngiven 1' proof
  $ forxainde check --rules rules --records records --released released --proof proof
  fault: proof line 9 Cert
  [9]

Steps that name themselves, a later one, one past the end, and none.

  $ cp right.proof proof
  $ sed -i -e '7c\line KK 2' -e '8c\combine 1 1 1 1 1\ngiven 1' proof
  $ forxainde check --rules rules --records records --released released --proof proof
  fault: proof line 8 Cert
  [9]
  $ cp right.proof proof
  $ sed -i -e '7c\line KK 2' -e '8c\fail 2\ngiven 1' proof
  $ forxainde check --rules rules --records records --released released --proof proof
  fault: proof line 8 Cert
  [9]
  $ cp right.proof proof
  $ sed -i -e '7c\line KK 2' -e '8c\given 1\nfail 18446744073709551616' proof
  $ forxainde check --rules rules --records records --released released --proof proof
  fault: proof line 9 Cert
  [9]
  $ cp right.proof proof
  $ sed -i -e '7c\line KK 2' -e '8c\given 1\nfix 1 1' proof
  $ forxainde check --rules rules --records records --released released --proof proof
  fault: proof line 9 Cert
  [9]
  $ cp right.proof proof
  $ sed -i -e '7c\line KK 2' -e '8c\given 1\ncover 1 1' proof
  $ forxainde check --rules rules --records records --released released --proof proof
  fault: proof line 9 Cert
  [9]

The claims: one of a donor that is not there, and none.

  $ cp right.proof proof
  $ sed -i -e '12c\claim 1 1 1' proof
  $ forxainde check --rules rules --records records --released released --proof proof
  fault: proof line 12 Claims
  [9]
  $ cp right.proof proof
  $ sed -i -e '11c\claims 0' -e '12d' proof
  $ forxainde check --rules rules --records records --released released --proof proof
  fault: proof line 11 Claims
  [9]

The released row: not changed, not written as it is to be, and one row more.

  $ cp right.proof proof
  $ sed -i -e '2c\3,4' released
  $ forxainde check --rules rules --records records --released released --proof proof
  fault: proof line 6 RowText
  [9]
  $ sed -i -e '2c\3,0.0' released
  $ forxainde check --rules rules --records records --released released --proof proof
  fault: proof line 6 RowText
  [9]
  $ sed -i -e '2c\3,0' -e '2a\1,1' released
  $ forxainde check --rules rules --records records --released released --proof proof
  fault: proof line 0 RowText
  [9]

The same proof, where no row is released. A record may be told to have been given no value, by a bound of a field or by the
test of a rule; its tree is checked all the same, and then whether there is such a field or such a rule.

  $ sed -i -e '2d' -e '3d' released
  $ forxainde check --rules rules --records records --released released --proof proof
  fault: proof line 0 RowText
  [9]
  $ cp right.proof proof
  $ sed -i -e '6c\gift 1 KC 2 1 3' proof
  $ forxainde check --rules rules --records records --released released --proof proof
  valid records 1 released 0
  $ cp right.proof proof
  $ sed -i -e '6c\gift 1 KC 3 1 3' proof
  $ forxainde check --rules rules --records records --released released --proof proof
  fault: proof line 6 Cert
  [9]
  $ cp right.proof proof
  $ sed -i -e '6c\gift 1 KC 0 1 3' proof
  $ forxainde check --rules rules --records records --released released --proof proof
  valid records 1 released 0
  $ cp right.proof proof
  $ sed -i -e '6c\gift 1 KC 0 2 3' proof
  $ forxainde check --rules rules --records records --released released --proof proof
  fault: proof line 6 Cert
  [9]
  $ cp right.proof proof
  $ sed -i -e '6c\gift 2 KC 0 1 3' proof
  $ forxainde check --rules rules --records records --released released --proof proof
  fault: proof line 6 Cert
  [9]
  $ cp right.proof proof
  $ sed -i -e '6c\gift 1 KC 0 2 3' -e '8c\given 2' proof
  $ forxainde check --rules rules --records records --released released --proof proof
  fault: proof line 8 Cert
  [9]
  $ cp right.proof proof
  $ sed -i -e '6c\contradictory 3' proof
  $ forxainde check --rules rules --records records --released released --proof proof
  fault: proof line 9 Cert
  [9]

A change without values claims a donor too.

  $ cp right.proof proof
  $ sed -i -e '6c\gift 1 KC 2 1 3' -e '11c\claims 0' -e '12d' proof
  $ forxainde check --rules rules --records records --released released --proof proof
  fault: proof line 11 Claims
  [9]

A record that is told to have passed its budget, which is 1000000.

  $ cat >right.proof <<EOF
  > fh-proof 1
  > limit 1 near 5 budget 1000000
  > lines 1
  > keep
  > records 1
  > budget KC 1000000
  > claims 0
  > end
  > EOF
  $ cp right.proof proof
  $ forxainde check --rules rules --records records --released released --proof proof
  valid records 1 released 0
  $ cp right.proof proof
  $ sed -i -e '6c\budget KC 1000001' proof
  $ forxainde check --rules rules --records records --released released --proof proof
  fault: proof line 6 Cert
  [9]

Other heads of a record without a change of some weight: what they tell is checked for its form alone.

  $ cp right.proof proof
  $ sed -i -e '6c\gift 0 KK 0 1 1\nbound -' proof
  $ forxainde check --rules rules --records records --released released --proof proof
  valid records 1 released 0
  $ cp right.proof proof
  $ sed -i -e '6c\step KC 9 9 0' proof
  $ forxainde check --rules rules --records records --released released --proof proof
  valid records 1 released 0
  $ cp right.proof proof
  $ sed -i -e '6c\step KC 9 9 2' proof
  $ forxainde check --rules rules --records records --released released --proof proof
  valid records 1 released 0
  $ cp right.proof proof
  $ sed -i -e '6c\step KC 9 9 3' proof
  $ forxainde check --rules rules --records records --released released --proof proof
  fault: proof line 6 Cert
  [9]
  $ cp right.proof proof
  $ sed -i -e '6c\step KCC 9 9 0' proof
  $ forxainde check --rules rules --records records --released released --proof proof
  fault: proof line 6 Cert
  [9]
  $ cp right.proof proof
  $ sed -i -e '6c\test KC 9 2' proof
  $ forxainde check --rules rules --records records --released released --proof proof
  valid records 1 released 0
  $ cp right.proof proof
  $ sed -i -e '6c\test KC 9 3' proof
  $ forxainde check --rules rules --records records --released released --proof proof
  fault: proof line 6 Cert
  [9]
  $ cp right.proof proof
  $ sed -i -e '6c\contradictory 0' proof
  $ forxainde check --rules rules --records records --released released --proof proof
  fault: proof line 6 Cert
  [9]

None of them claims a donor.

  $ cp right.proof proof
  $ sed -i -e '7c\claims 1\nclaim 1 0' proof
  $ forxainde check --rules rules --records records --released released --proof proof
  fault: proof line 8 Claims
  [9]
  $ cp right.proof proof
  $ sed -i -e '6c\gift 0 KK 0 1 1\nbound -' -e '7c\claims 1\nclaim 1 0' proof
  $ forxainde check --rules rules --records records --released released --proof proof
  fault: proof line 9 Claims
  [9]
