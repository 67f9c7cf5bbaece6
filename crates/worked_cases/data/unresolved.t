Records that are not released: rules that contradict each other, and numbers that leave 128 bits.

No number is at least 5 and at most 3. The tree of the proof has two leaves, and none of them is by weight.

  $ cat >rules <<EOF
  > number A
  > A >= 5
  > A <= 3
  > EOF
  $ cat >records <<EOF
  > A
  > 4
  > EOF
  $ forxainde edit --rules rules --records records --released released --reasons reasons --proof proof
  records 1 clean 0 changed 0 unresolved 1 weight 0
  claims 0 given 0
  [1]
  $ cat released
  A
  $ cat reasons
  record,cause,field,before,after,donor,detail
  1,contradictory,,,,,
  $ cat proof
  fh-proof 2
  limit 1 near 5 budget 1000000
  lines 2
  keep
  keep
  table 3
  given 1
  given 2
  combine 1 1 2 1 2
  records 1
  contradictory 2
  line K 1
  shared 1
  line C 1
  shared 3
  claims 0
  end
  $ forxainde check --rules rules --records records --released released --proof proof
  valid records 1 released 0

A rule that is never true says so of every record, whatever it holds.

  $ cat >rules <<EOF
  > code B in {x, y}
  > B not in {x, y}
  > EOF
  $ cat >records <<EOF
  > B
  > x
  > q
  > EOF
  $ forxainde edit --rules rules --records records --released released --reasons reasons --proof proof
  records 2 clean 0 changed 0 unresolved 2 weight 0
  claims 0 given 0
  [1]
  $ cat released
  B
  $ cat reasons
  record,cause,field,before,after,donor,detail
  1,contradictory,,,,,
  2,contradictory,,,,,
  $ cat proof
  fh-proof 2
  limit 1 near 5 budget 1000000
  lines 1
  keep
  table 1
  given 1
  records 2
  contradictory 1
  line - 1
  shared 1
  contradictory 1
  line - 1
  shared 1
  claims 0
  end
  $ forxainde check --rules rules --records records --released released --proof proof
  valid records 2 released 0

A factor past 128 bits: five rules chain six fields, of which the four in the middle are missing. The fourth elimination
needs 999999999^5.

  $ cat >rules <<EOF
  > number x1
  > number x2
  > number x3
  > number x4
  > number x5
  > number x6
  > 999999999 x1 >= 1000000000 x2
  > 999999999 x2 >= 1000000000 x3
  > 999999999 x3 >= 1000000000 x4
  > 999999999 x4 >= 1000000000 x5
  > 999999999 x5 >= 1000000000 x6
  > EOF
  $ cat >records <<EOF
  > x1,x2,x3,x4,x5,x6
  > 1,,,,,0
  > EOF
  $ forxainde edit --rules rules --records records --released released --reasons reasons --proof proof
  records 1 clean 0 changed 0 unresolved 1 weight 0
  claims 0 given 0
  [1]
  $ cat released
  x1,x2,x3,x4,x5,x6
  $ cat reasons
  record,cause,field,before,after,donor,detail
  1,overflow,,,,,path KCCCC lines 1 2 at x1
  $ cat proof
  fh-proof 2
  limit 1 near 5 budget 1000000
  lines 5
  keep
  keep
  keep
  keep
  keep
  table 0
  records 1
  step KCCCC 1 2 1
  claims 0
  end
  $ forxainde check --rules rules --records records --released released --proof proof
  valid records 1 released 0

A constant past 128 bits, where the factors still fit.

  $ cat >rules <<EOF
  > number x1
  > number x2
  > number x3
  > number x4
  > number x5
  > 999999999 x1 >= 1000000000 x2 + 1000000000000000
  > 999999999 x2 >= 1000000000 x3 + 1000000000000000
  > 999999999 x3 >= 1000000000 x4 + 1000000000000000
  > 999999999 x4 >= 1000000000 x5 + 1000000000000000
  > EOF
  $ cat >records <<EOF
  > x1,x2,x3,x4,x5
  > 1,,,,0
  > EOF
  $ forxainde edit --rules rules --records records --released released --reasons reasons --proof proof
  records 1 clean 0 changed 0 unresolved 1 weight 0
  claims 0 given 0
  [1]
  $ cat released
  x1,x2,x3,x4,x5
  $ cat reasons
  record,cause,field,before,after,donor,detail
  1,overflow,,,,,path KCCC lines 1 2 at constant
  $ cat proof
  fh-proof 2
  limit 1 near 5 budget 1000000
  lines 4
  keep
  keep
  keep
  keep
  table 0
  records 1
  step KCCC 1 2 0
  claims 0
  end
  $ forxainde check --rules rules --records records --released released --proof proof
  valid records 1 released 0

A bound past 128 bits: which fields change is found, but that of x5 needs 1000 times 999999999^4. A record that claims
has claimed before; here nobody is there to be claimed.

  $ cat >rules <<EOF
  > number x1
  > number x2
  > number x3
  > number x4
  > number x5
  > 999999999 x1 >= 1000000000 x2
  > 999999999 x2 >= 1000000000 x3
  > 999999999 x3 >= 1000000000 x4
  > 999999999 x4 >= 1000000000 x5
  > EOF
  $ cat >records <<EOF
  > x1,x2,x3,x4,x5
  > 1000,,,,
  > EOF
  $ forxainde edit --rules rules --records records --released released --reasons reasons --proof proof
  records 1 clean 0 changed 0 unresolved 1 weight 0
  claims 1 given 0
  [1]
  $ cat released
  x1,x2,x3,x4,x5
  $ cat reasons
  record,cause,field,before,after,donor,detail
  1,overflow,,,,,giving x5 line 1
  $ cat proof
  fh-proof 2
  limit 1 near 5 budget 1000000
  lines 4
  keep
  keep
  keep
  keep
  table 0
  records 1
  gift 4 KCCCC 5 1 9
  bad KK
  bad KCK
  bad KCCK
  bad KCCCK
  bound KCCCC
  bad CK
  bad CCK
  bad CCCK
  bound CCCC
  claims 1
  claim 1 0
  end
  $ forxainde check --rules rules --records records --released released --proof proof
  valid records 1 released 0

A sum past 128 bits, tried at the record as it is: the denominators are three primes, and at the third field the sum of
the three numbers has a numerator of 140 bits.

  $ cat >rules <<EOF
  > number A
  > number B
  > number C
  > 1000000000 A + 999999999 B + 999999998 C >= 0
  > EOF
  $ cat >records <<EOF
  > A,B,C
  > 999999999999999999999/999983,999999999999999999999/999979,999999999999999999999/999961
  > EOF
  $ forxainde edit --rules rules --records records --released released --reasons reasons --proof proof
  records 1 clean 0 changed 0 unresolved 1 weight 0
  claims 0 given 0
  [1]
  $ cat released
  A,B,C
  $ cat reasons
  record,cause,field,before,after,donor,detail
  1,overflow,,,,,path KKK line 1 at C
  $ cat proof
  fh-proof 2
  limit 1 near 5 budget 1000000
  lines 1
  keep
  table 0
  records 1
  test KKK 1 3
  claims 0
  end
  $ forxainde check --rules rules --records records --released released --proof proof
  valid records 1 released 0

A sum that only the rule as it is written has: as a line its factors are divided by 1000000000. The record needs no
change, but its final test leaves 128 bits. It is no donor, and claims none.

  $ cat >rules <<EOF
  > number A
  > number B
  > number C
  > 1000000000 A + 1000000000 B + 1000000000 C >= 0
  > EOF
  $ cat >records <<EOF
  > A,B,C
  > 999999999999999999999/999983,999999999999999999999/999979,999999999999999999999/999961
  > 1,1,
  > EOF
  $ forxainde edit --rules rules --records records --released released --reasons reasons --proof proof
  records 2 clean 0 changed 1 unresolved 1 weight 1
  claims 1 given 0
  [1]
  $ cat released
  A,B,C
  1,1,0
  $ cat reasons
  record,cause,field,before,after,donor,detail
  1,overflow,,,,,giving rule 1
  2,changed,C,,0,,default
  $ cat proof
  fh-proof 2
  limit 1 near 5 budget 1000000
  lines 1
  keep
  table 0
  records 2
  gift 0 KKK 0 1 1
  bound -
  change 1 KKC 4
  bad KKK
  bound KKC
  bound KC
  bound C
  claims 1
  claim 2 0
  end
  $ forxainde check --rules rules --records records --released released --proof proof
  valid records 2 released 1
