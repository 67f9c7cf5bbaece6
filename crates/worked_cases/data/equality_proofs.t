Proofs over rules that are equalities: which multipliers the audit takes in a step, and that no equality may be dropped.

An equality and two inequalities. A + B is 10, A - B is at least 4 and B at least 5, which no numbers meet.

  $ cat >rules <<EOF
  > number A
  > number B
  > A + B = 10
  > A - B >= 4
  > B >= 5
  > EOF
  $ cat >records <<EOF
  > A,B
  > 1,1
  > EOF
  $ forxainde edit --rules rules --records records --released released --reasons reasons --proof proof
  records 1 clean 0 changed 0 unresolved 1 weight 0
  claims 0 given 0
  [1]
  $ cat released
  A,B
  $ cat reasons
  record,cause,field,before,after,donor,detail
  1,contradictory,,,,,
  $ cat proof
  fh-proof 2
  limit 1 near 5 budget 1000000
  lines 3
  keep
  keep
  keep
  table 6
  given 1
  given 2
  combine 1 1 2 1 2
  given 3
  combine 1 -1 2 1 2
  combine 4 1 5 1 2
  records 1
  contradictory 4
  line KK 1
  shared 1
  line KC 1
  shared 3
  line CK 1
  shared 4
  line CC 1
  shared 6
  claims 0
  end
  $ forxainde check --rules rules --records records --released released --proof proof
  valid records 1 released 0

Line 12 is the fifth step of the table, which substitutes the equality, with -1, into the first inequality. Multiples of both
do as well, and so does the inequality if it is named first.

  $ cp proof right.proof
  $ cp right.proof proof
  $ sed -i -e '12c\combine 1 -2 2 2 4' proof
  $ forxainde check --rules rules --records records --released released --proof proof
  valid records 1 released 0
  $ cp right.proof proof
  $ sed -i -e '12c\combine 1 -2 2 2 1' -e '13c\combine 4 4 5 1 8' proof
  $ forxainde check --rules rules --records records --released released --proof proof
  valid records 1 released 0
  $ cp right.proof proof
  $ sed -i -e '12c\combine 2 1 1 -1 2' proof
  $ forxainde check --rules rules --records records --released released --proof proof
  valid records 1 released 0

A multiplier by which A does not go, after which the next step's divisor does not divide; the multiplier 0, and one by which the
numbers leave 128 bits; a multiplier below 0 for the inequality; and a step with one that is valid, by which B stays in a leaf.

  $ cp right.proof proof
  $ sed -i -e '12c\combine 1 1 2 1 2' proof
  $ forxainde check --rules rules --records records --released released --proof proof
  fault: proof line 13 Table
  [9]
  $ cp right.proof proof
  $ sed -i -e '12c\combine 1 0 2 1 1' proof
  $ forxainde check --rules rules --records records --released released --proof proof
  fault: proof line 12 Table
  [9]
  $ cp right.proof proof
  $ sed -i -e '12c\combine 1 -170141183460469231731687303715884105727 2 1 1' proof
  $ forxainde check --rules rules --records records --released released --proof proof
  fault: proof line 12 Table
  [9]
  $ cp right.proof proof
  $ sed -i -e '12c\combine 1 1 2 -1 2' proof
  $ forxainde check --rules rules --records records --released released --proof proof
  fault: proof line 12 Table
  [9]
  $ cp right.proof proof
  $ sed -i -e '12c\combine 2 -1 1 1 2' proof
  $ forxainde check --rules rules --records records --released released --proof proof
  fault: proof line 12 Table
  [9]
  $ cp right.proof proof
  $ sed -i -e '12c\combine 1 -1 2 -1 2' proof
  $ forxainde check --rules rules --records records --released released --proof proof
  fault: proof line 12 Table
  [9]
  $ cp right.proof proof
  $ sed -i -e '10c\combine 1 -1 2 1 2' proof
  $ forxainde check --rules rules --records records --released released --proof proof
  fault: proof line 18 Cert
  [9]

The same in version 1, where each leaf has its steps itself. Line 21 substitutes the equality, with -1, into the first
inequality, which gives that B is at most 3. Multiples of both do as well, and so does the inequality if it is named first.

  $ cat >right.proof <<EOF
  > fh-proof 1
  > limit 1 near 5 budget 1000000
  > lines 3
  > keep
  > keep
  > keep
  > records 1
  > contradictory 4
  > line KK 1
  > given 1
  > line KC 3
  > given 1
  > given 2
  > combine 1 1 2 1 2
  > line CK 1
  > given 3
  > line CC 5
  > given 3
  > given 1
  > given 2
  > combine 2 -1 3 1 2
  > combine 1 1 4 1 2
  > claims 0
  > end
  > EOF
  $ cp right.proof proof
  $ forxainde check --rules rules --records records --released released --proof proof
  valid records 1 released 0
  $ cp right.proof proof
  $ sed -i -e '21c\combine 2 -2 3 2 4' proof
  $ forxainde check --rules rules --records records --released released --proof proof
  valid records 1 released 0
  $ cp right.proof proof
  $ sed -i -e '21c\combine 2 -2 3 2 1' -e '22c\combine 1 4 4 1 8' proof
  $ forxainde check --rules rules --records records --released released --proof proof
  valid records 1 released 0
  $ cp right.proof proof
  $ sed -i -e '21c\combine 3 1 2 -1 2' proof
  $ forxainde check --rules rules --records records --released released --proof proof
  valid records 1 released 0

A multiplier by which A does not go, the multiplier 0, and one by which the numbers leave 128 bits.

  $ cp right.proof proof
  $ sed -i -e '21c\combine 2 1 3 1 2' proof
  $ forxainde check --rules rules --records records --released released --proof proof
  fault: proof line 22 Cert
  [9]
  $ cp right.proof proof
  $ sed -i -e '21c\combine 2 0 3 1 1' proof
  $ forxainde check --rules rules --records records --released released --proof proof
  fault: proof line 21 Cert
  [9]
  $ cp right.proof proof
  $ sed -i -e '21c\combine 2 -170141183460469231731687303715884105727 3 1 1' proof
  $ forxainde check --rules rules --records records --released released --proof proof
  fault: proof line 21 Cert
  [9]

A multiplier below 0 for the inequality, whichever is named first. With B kept instead, the sum of both is what is asked
for, and the difference is not.

  $ cp right.proof proof
  $ sed -i -e '21c\combine 2 1 3 -1 2' proof
  $ forxainde check --rules rules --records records --released released --proof proof
  fault: proof line 21 Cert
  [9]
  $ cp right.proof proof
  $ sed -i -e '21c\combine 3 -1 2 1 2' proof
  $ forxainde check --rules rules --records records --released released --proof proof
  fault: proof line 21 Cert
  [9]
  $ cp right.proof proof
  $ sed -i -e '21c\combine 2 -1 3 -1 2' proof
  $ forxainde check --rules rules --records records --released released --proof proof
  fault: proof line 21 Cert
  [9]
  $ cp right.proof proof
  $ sed -i -e '14c\combine 1 -1 2 1 2' proof
  $ forxainde check --rules rules --records records --released released --proof proof
  fault: proof line 11 Cert
  [9]

Two equalities, of which any multiples but by 0 may be added: the sum is an equality again, which fails above and below.

  $ cat >rules <<EOF
  > number A
  > number B
  > A + B = 10
  > A - B = 4
  > EOF
  $ forxainde edit --rules rules --records records --released released --reasons reasons --proof proof
  records 1 clean 0 changed 1 unresolved 0 weight 2
  claims 1 given 0
  $ cat proof
  fh-proof 2
  limit 1 near 5 budget 1000000
  lines 2
  keep
  keep
  table 4
  given 1
  given 2
  combine 1 1 2 1 2
  combine 1 -1 2 1 2
  records 1
  change 2 CC 4
  line KK 1
  shared 1
  line KC 1
  shared 3
  line CK 1
  shared 4
  bound CC
  claims 1
  claim 1 0
  end

The same in version 1.

  $ cat >right.proof <<EOF
  > fh-proof 1
  > limit 1 near 5 budget 1000000
  > lines 2
  > keep
  > keep
  > records 1
  > change 2 CC 4
  > line KK 1
  > given 1
  > line KC 3
  > given 1
  > given 2
  > combine 1 1 2 1 2
  > line CK 3
  > given 1
  > given 2
  > combine 1 -1 2 1 2
  > bound CC
  > claims 1
  > claim 1 0
  > end
  > EOF
  $ cp right.proof proof
  $ forxainde check --rules rules --records records --released released --proof proof
  valid records 1 released 1
  $ cp right.proof proof
  $ sed -i -e '13c\combine 1 -1 2 -1 2' proof
  $ forxainde check --rules rules --records records --released released --proof proof
  valid records 1 released 1
  $ cp right.proof proof
  $ sed -i -e '13c\combine 2 3 1 3 6' proof
  $ forxainde check --rules rules --records records --released released --proof proof
  valid records 1 released 1
  $ cp right.proof proof
  $ sed -i -e '17c\combine 1 1 2 -1 2' proof
  $ forxainde check --rules rules --records records --released released --proof proof
  valid records 1 released 1
  $ cp right.proof proof
  $ sed -i -e '17c\combine 2 -7 1 7 14' proof
  $ forxainde check --rules rules --records records --released released --proof proof
  valid records 1 released 1
  $ cp right.proof proof
  $ sed -i -e '17c\combine 1 0 2 1 1' proof
  $ forxainde check --rules rules --records records --released released --proof proof
  fault: proof line 17 Cert
  [9]
  $ cp right.proof proof
  $ sed -i -e '17c\combine 1 1 2 0 1' proof
  $ forxainde check --rules rules --records records --released released --proof proof
  fault: proof line 17 Cert
  [9]
  $ cp right.proof proof
  $ sed -i -e '17c\combine 1 1 2 1 2' proof
  $ forxainde check --rules rules --records records --released released --proof proof
  fault: proof line 14 Cert
  [9]
  $ cp right.proof proof
  $ sed -i -e '17c\combine 1 -1 2 1 -2' proof
  $ forxainde check --rules rules --records records --released released --proof proof
  fault: proof line 17 Grammar
  [9]

Both hold at 7 and 3, where no step can show that they fail.

  $ cat >records <<EOF
  > A,B
  > 7,3
  > EOF
  $ cp right.proof proof
  $ forxainde check --rules rules --records records --released released --proof proof
  fault: proof line 8 Cert
  [9]
  $ forxainde edit --rules rules --records records --released released --reasons reasons --proof proof
  records 1 clean 1 changed 0 unresolved 0 weight 0
  claims 0 given 0
  $ forxainde check --rules rules --records records --released released --proof proof
  valid records 1 released 1

A proof that takes an equality for two lines is one of other rules.

  $ cat >rules <<EOF
  > number A
  > number B
  > A + B = 10
  > EOF
  $ cat >records <<EOF
  > A,B
  > 3,4
  > EOF
  $ cat >released <<EOF
  > A,B
  > 3,7
  > EOF
  $ cat >proof <<EOF
  > fh-proof 1
  > limit 1 near 5 budget 1000000
  > lines 2
  > keep
  > keep
  > records 1
  > change 1 KC 3
  > line KK 1
  > given 1
  > bound KC
  > bound C
  > claims 1
  > claim 1 0
  > end
  > EOF
  $ forxainde check --rules rules --records records --released released --proof proof
  fault: proof line 3 Head
  [9]
  $ sed -i -e '3c\lines 1' -e '5d' proof
  $ forxainde check --rules rules --records records --released released --proof proof
  valid records 1 released 1

An equality that is dropped: the line of the drop is told, whether its steps are valid or not, or there are none.

  $ cat >rules <<EOF
  > number A
  > A = 3
  > A = 3
  > A >= 3
  > EOF
  $ cat >records <<EOF
  > A
  > 3
  > EOF
  $ forxainde edit --rules rules --records records --released released --reasons reasons --proof proof
  records 1 clean 1 changed 0 unresolved 0 weight 0
  claims 0 given 0
  $ cat released
  A
  3
  $ cat reasons
  record,cause,field,before,after,donor,detail
  $ cat proof
  fh-proof 2
  limit 1 near 5 budget 1000000
  lines 3
  keep
  keep
  drop 3
  given 1
  given 4
  combine 1 1 2 1 1
  table 0
  records 1
  clean
  claims 0
  end
  $ forxainde check --rules rules --records records --released released --proof proof
  valid records 1 released 1
  $ cp proof right.proof
  $ cp right.proof proof
  $ sed -i -e '5c\drop 1\ngiven 1' proof
  $ forxainde check --rules rules --records records --released released --proof proof
  fault: proof line 5 Drop
  [9]
  $ cp right.proof proof
  $ sed -i -e '5c\drop 1\ngiven 9' proof
  $ forxainde check --rules rules --records records --released released --proof proof
  fault: proof line 5 Drop
  [9]
  $ cp right.proof proof
  $ sed -i -e '5c\drop 0' proof
  $ forxainde check --rules rules --records records --released released --proof proof
  fault: proof line 5 Drop
  [9]
  $ cp right.proof proof
  $ sed -i -e '4c\drop 3\ngiven 2\ngiven 4\ncombine 1 1 2 1 1' proof
  $ forxainde check --rules rules --records records --released released --proof proof
  fault: proof line 4 Drop
  [9]

What follows from an equality may be dropped with a multiplier below 0, and not with one of its negation.

  $ cat >rules <<EOF
  > number A
  > A = 3
  > A <= 3
  > EOF
  $ forxainde edit --rules rules --records records --released released --reasons reasons --proof proof
  records 1 clean 1 changed 0 unresolved 0 weight 0
  claims 0 given 0
  $ cat proof
  fh-proof 2
  limit 1 near 5 budget 1000000
  lines 2
  keep
  drop 3
  given 1
  given 3
  combine 1 -1 2 1 1
  table 0
  records 1
  clean
  claims 0
  end
  $ cp proof right.proof
  $ cp right.proof proof
  $ sed -i -e '8c\combine 2 1 1 -1 1' proof
  $ forxainde check --rules rules --records records --released released --proof proof
  valid records 1 released 1
  $ cp right.proof proof
  $ sed -i -e '8c\combine 1 1 2 -1 1' proof
  $ forxainde check --rules rules --records records --released released --proof proof
  fault: proof line 8 Drop
  [9]
