Releases whose proofs are of version 1, in which each leaf has its steps itself: they are valid, as those of version 2 that
the editor writes now.

The trade survey: a clean record, a wrong profit, two fields that change, and two missing values.

  $ cat >rules <<EOF
  > number Turnover weight 2
  > number Costs
  > number Profit
  > Turnover >= 0
  > Costs >= 0
  > Turnover - Costs - Profit = 0
  > 10 Profit <= 6 Turnover
  > EOF
  $ cat >records <<EOF
  > firm,Turnover,Costs,Profit
  > "Baker, J.",100,60,40
  > Miller,100,60,400
  > Smith,100,30,70
  > Cooper,100,,
  > EOF
  $ cat >released <<EOF
  > firm,Turnover,Costs,Profit
  > "Baker, J.",100,60,40
  > Miller,100,60,40
  > Smith,100,100,0
  > Cooper,100,100,0
  > EOF
  $ cat >proof <<EOF
  > fh-proof 1
  > limit 1 near 5 budget 1000000
  > lines 4
  > keep
  > drop 9
  > given 3
  > given 1
  > combine 1 -1 2 1 1
  > given 5
  > combine 3 1 4 1 1
  > given 4
  > combine 1 -3 6 1 1
  > combine 7 1 4 3 2
  > combine 5 1 8 1 1
  > keep
  > keep
  > records 4
  > clean
  > change 1 KKC 4
  > line KKK 1
  > given 3
  > bound KKC
  > bound KC
  > bound C
  > change 2 KCC 5
  > line KKK 1
  > given 4
  > line KKC 3
  > given 3
  > given 4
  > combine 1 -5 2 1 1
  > line KCK 1
  > given 4
  > bound KCC
  > bound C
  > change 2 KCC 4
  > bad KK
  > bad KCK
  > bound KCC
  > bound C
  > claims 3
  > claim 2 1 1
  > claim 3 0 1
  > claim 4 0 1
  > end
  > EOF
  $ forxainde check --rules rules --records records --released released --proof proof
  valid records 4 released 4

The editor makes the same release, with a proof of version 2.

  $ rm released
  $ forxainde edit --rules rules --records records --released released --reasons reasons --proof proof
  records 4 clean 1 changed 3 unresolved 0 weight 5
  claims 3 given 1
  $ cat released
  firm,Turnover,Costs,Profit
  "Baker, J.",100,60,40
  Miller,100,60,40
  Smith,100,100,0
  Cooper,100,100,0
  $ cat proof
  fh-proof 2
  limit 1 near 5 budget 1000000
  lines 4
  keep
  drop 9
  given 3
  given 1
  combine 1 -1 2 1 1
  given 5
  combine 3 1 4 1 1
  given 4
  combine 1 -3 6 1 1
  combine 7 1 4 3 2
  combine 5 1 8 1 1
  keep
  keep
  table 3
  given 3
  given 4
  combine 1 -5 2 1 1
  records 4
  clean
  change 1 KKC 4
  line KKK 1
  shared 1
  bound KKC
  bound KC
  bound C
  change 2 KCC 5
  line KKK 1
  shared 2
  line KKC 1
  shared 3
  line KCK 1
  shared 2
  bound KCC
  bound C
  change 2 KCC 4
  bad KK
  bad KCK
  bound KCC
  bound C
  claims 3
  claim 2 1 1
  claim 3 0 1
  claim 4 0 1
  end
  $ forxainde check --rules rules --records records --released released --proof proof
  valid records 4 released 4

A search that would pass its budget.

  $ cat >rules <<EOF
  > number A
  > number B
  > A + B >= 10
  > A + B <= 10
  > EOF
  $ cat >records <<EOF
  > A,B
  > 3,4
  > EOF
  $ cat >released <<EOF
  > A,B
  > EOF
  $ cat >proof <<EOF
  > fh-proof 1
  > limit 1 near 5 budget 4
  > lines 2
  > keep
  > keep
  > records 1
  > budget KC 3
  > claims 0
  > end
  > EOF
  $ forxainde check --rules rules --records records --released released --proof proof
  valid records 1 released 0

A factor past 128 bits, in an elimination.

  $ cat >rules <<EOF
  > number x1
  > number x2
  > number x3
  > number x4
  > number x5
  > number x6
  > 999999999 x1 >= 1000000000 x2
  > 999999999 x2 >= 1000000000 x3
  > 999999999 x3 >= 1000000000 x4
  > 999999999 x4 >= 1000000000 x5
  > 999999999 x5 >= 1000000000 x6
  > EOF
  $ cat >records <<EOF
  > x1,x2,x3,x4,x5,x6
  > 1,,,,,0
  > EOF
  $ cat >released <<EOF
  > x1,x2,x3,x4,x5,x6
  > EOF
  $ cat >proof <<EOF
  > fh-proof 1
  > limit 1 near 5 budget 1000000
  > lines 5
  > keep
  > keep
  > keep
  > keep
  > keep
  > records 1
  > step KCCCC 1 2 1
  > claims 0
  > end
  > EOF
  $ forxainde check --rules rules --records records --released released --proof proof
  valid records 1 released 0

A bound past 128 bits, while values are given, and a sum where a rule is tried, of a record that needs no change and of one
that does.

  $ cat >rules <<EOF
  > number x1
  > number x2
  > number x3
  > number x4
  > number x5
  > 999999999 x1 >= 1000000000 x2
  > 999999999 x2 >= 1000000000 x3
  > 999999999 x3 >= 1000000000 x4
  > 999999999 x4 >= 1000000000 x5
  > EOF
  $ cat >records <<EOF
  > x1,x2,x3,x4,x5
  > 1000,,,,
  > EOF
  $ cat >released <<EOF
  > x1,x2,x3,x4,x5
  > EOF
  $ cat >proof <<EOF
  > fh-proof 1
  > limit 1 near 5 budget 1000000
  > lines 4
  > keep
  > keep
  > keep
  > keep
  > records 1
  > gift 4 KCCCC 5 1 9
  > bad KK
  > bad KCK
  > bad KCCK
  > bad KCCCK
  > bound KCCCC
  > bad CK
  > bad CCK
  > bad CCCK
  > bound CCCC
  > claims 1
  > claim 1 0
  > end
  > EOF
  $ forxainde check --rules rules --records records --released released --proof proof
  valid records 1 released 0
  $ cat >rules <<EOF
  > number A
  > number B
  > number C
  > 1000000000 A + 999999999 B + 999999998 C >= 0
  > EOF
  $ cat >records <<EOF
  > A,B,C
  > 999999999999999999999/999983,999999999999999999999/999979,999999999999999999999/999961
  > EOF
  $ cat >released <<EOF
  > A,B,C
  > EOF
  $ cat >proof <<EOF
  > fh-proof 1
  > limit 1 near 5 budget 1000000
  > lines 1
  > keep
  > records 1
  > test KKK 1 3
  > claims 0
  > end
  > EOF
  $ forxainde check --rules rules --records records --released released --proof proof
  valid records 1 released 0
  $ cat >rules <<EOF
  > number A
  > number B
  > number C
  > 1000000000 A + 1000000000 B + 1000000000 C >= 0
  > EOF
  $ cat >records <<EOF
  > A,B,C
  > 999999999999999999999/999983,999999999999999999999/999979,999999999999999999999/999961
  > 1,1,
  > EOF
  $ cat >released <<EOF
  > A,B,C
  > 1,1,0
  > EOF
  $ cat >proof <<EOF
  > fh-proof 1
  > limit 1 near 5 budget 1000000
  > lines 1
  > keep
  > records 2
  > gift 0 KKK 0 1 1
  > bound -
  > change 1 KKC 4
  > bad KKK
  > bound KKC
  > bound KC
  > bound C
  > claims 1
  > claim 2 0
  > end
  > EOF
  $ forxainde check --rules rules --records records --released released --proof proof
  valid records 2 released 1
