The trade survey: turnover is costs and profit, and profit is at most 60 % of turnover. Turnover weighs 2. Of the four
lines of its rules the second, that costs are not below 0, follows from the others and is dropped.

  $ cat >rules <<EOF
  > number Turnover weight 2
  > number Costs
  > number Profit
  > Turnover >= 0
  > Costs >= 0
  > Turnover - Costs - Profit = 0
  > 10 Profit <= 6 Turnover
  > EOF
  $ forxainde rules --rules rules
  1 kept needed Turnover >= 0
  2 dropped Costs >= 0
    given 3
    given 1
    combine 1 -1 2 1 1
    given 5
    combine 3 1 4 1 1
    given 4
    combine 1 -3 6 1 1
    combine 7 1 4 3 2
    combine 5 1 8 1 1
  3 kept equality Turnover - Costs - Profit = 0
  4 kept needed 3 Turnover - 5 Profit >= 0

A record that meets all rules keeps its bytes, and has no line in the reasons.

  $ cat >records <<EOF
  > Turnover,Costs,Profit
  > 100,60,40
  > EOF
  $ forxainde edit --rules rules --records records --released released --reasons reasons --proof proof
  records 1 clean 1 changed 0 unresolved 0 weight 0
  claims 0 given 0
  $ cat released
  Turnover,Costs,Profit
  100,60,40
  $ cat reasons
  record,cause,field,before,after,donor,detail
  $ cat proof
  fh-proof 2
  limit 1 near 5 budget 1000000
  lines 4
  keep
  drop 9
  given 3
  given 1
  combine 1 -1 2 1 1
  given 5
  combine 3 1 4 1 1
  given 4
  combine 1 -3 6 1 1
  combine 7 1 4 3 2
  combine 5 1 8 1 1
  keep
  keep
  table 0
  records 1
  clean
  claims 0
  end
  $ forxainde check --rules rules --records records --released released --proof proof
  valid records 1 released 1

One wrong value. Costs alone would have to be -300, with a profit past 60 %; turnover alone 460, of which 400 is more
than 60 %.

  $ cat >records <<EOF
  > Turnover,Costs,Profit
  > 100,60,400
  > EOF
  $ forxainde edit --rules rules --records records --released released --reasons reasons --proof proof
  records 1 clean 0 changed 1 unresolved 0 weight 1
  claims 1 given 0
  $ cat released
  Turnover,Costs,Profit
  100,60,40
  $ cat reasons
  record,cause,field,before,after,donor,detail
  1,changed,Profit,400,40,,nearest
  $ cat proof
  fh-proof 2
  limit 1 near 5 budget 1000000
  lines 4
  keep
  drop 9
  given 3
  given 1
  combine 1 -1 2 1 1
  given 5
  combine 3 1 4 1 1
  given 4
  combine 1 -3 6 1 1
  combine 7 1 4 3 2
  combine 5 1 8 1 1
  keep
  keep
  table 1
  given 3
  records 1
  change 1 KKC 4
  line KKK 1
  shared 1
  bound KKC
  bound KC
  bound C
  claims 1
  claim 1 0
  end
  $ forxainde check --rules rules --records records --released released --proof proof
  valid records 1 released 1

The work for this record is 6: with that budget it is corrected, and with one less it is not.

  $ forxainde edit --rules rules --records records --released released --reasons reasons --proof proof --budget 6
  records 1 clean 0 changed 1 unresolved 0 weight 1
  claims 1 given 0
  $ cat released
  Turnover,Costs,Profit
  100,60,40
  $ forxainde edit --rules rules --records records --released released --reasons reasons --proof proof --budget 5
  records 1 clean 0 changed 0 unresolved 1 weight 0
  claims 0 given 0
  [1]
  $ cat released
  Turnover,Costs,Profit
  $ cat reasons
  record,cause,field,before,after,donor,detail
  1,budget,,,,,path KKC work 4

Two fields of weight 1, where turnover alone, of weight 2, is impossible.

  $ cat >records <<EOF
  > Turnover,Costs,Profit
  > 100,30,70
  > EOF
  $ forxainde edit --rules rules --records records --released released --reasons reasons --proof proof
  records 1 clean 0 changed 1 unresolved 0 weight 2
  claims 1 given 0
  $ cat released
  Turnover,Costs,Profit
  100,100,0
  $ cat reasons
  record,cause,field,before,after,donor,detail
  1,changed,Costs,30,100,,nearest
  1,changed,Profit,70,0,,default
  $ cat proof
  fh-proof 2
  limit 1 near 5 budget 1000000
  lines 4
  keep
  drop 9
  given 3
  given 1
  combine 1 -1 2 1 1
  given 5
  combine 3 1 4 1 1
  given 4
  combine 1 -3 6 1 1
  combine 7 1 4 3 2
  combine 5 1 8 1 1
  keep
  keep
  table 3
  given 4
  given 3
  combine 2 -5 1 1 1
  records 1
  change 2 KCC 5
  line KKK 1
  shared 1
  line KKC 1
  shared 3
  line KCK 1
  shared 1
  bound KCC
  bound C
  claims 1
  claim 1 0
  end
  $ forxainde check --rules rules --records records --released released --proof proof
  valid records 1 released 1

Two missing values: both change, and nothing else.

  $ cat >records <<EOF
  > Turnover,Costs,Profit
  > 100,,
  > EOF
  $ forxainde edit --rules rules --records records --released released --reasons reasons --proof proof
  records 1 clean 0 changed 1 unresolved 0 weight 2
  claims 1 given 0
  $ cat released
  Turnover,Costs,Profit
  100,100,0
  $ cat reasons
  record,cause,field,before,after,donor,detail
  1,changed,Costs,,100,,nearest
  1,changed,Profit,,0,,default
  $ cat proof
  fh-proof 2
  limit 1 near 5 budget 1000000
  lines 4
  keep
  drop 9
  given 3
  given 1
  combine 1 -1 2 1 1
  given 5
  combine 3 1 4 1 1
  given 4
  combine 1 -3 6 1 1
  combine 7 1 4 3 2
  combine 5 1 8 1 1
  keep
  keep
  table 0
  records 1
  change 2 KCC 4
  bad KK
  bad KCK
  bound KCC
  bound C
  claims 1
  claim 1 0
  end
  $ forxainde check --rules rules --records records --released released --proof proof
  valid records 1 released 1

A donor whose values are not allowed: of the profit 80 only 60 is, and then of the costs 120 only 40.

  $ cat >records <<EOF
  > Turnover,Costs,Profit
  > 200,120,80
  > 100,,400
  > EOF
  $ forxainde edit --rules rules --records records --released released --reasons reasons --proof proof
  records 2 clean 1 changed 1 unresolved 0 weight 2
  claims 1 given 1
  $ cat released
  Turnover,Costs,Profit
  200,120,80
  100,40,60
  $ cat reasons
  record,cause,field,before,after,donor,detail
  2,changed,Costs,,40,1,nearest
  2,changed,Profit,400,60,1,nearest
  $ cat proof
  fh-proof 2
  limit 1 near 5 budget 1000000
  lines 4
  keep
  drop 9
  given 3
  given 1
  combine 1 -1 2 1 1
  given 5
  combine 3 1 4 1 1
  given 4
  combine 1 -3 6 1 1
  combine 7 1 4 3 2
  combine 5 1 8 1 1
  keep
  keep
  table 1
  given 4
  records 2
  clean
  change 2 KCC 4
  bad KK
  line KCK 1
  shared 1
  bound KCC
  bound C
  claims 1
  claim 2 1 1
  end
  $ forxainde check --rules rules --records records --released released --proof proof
  valid records 2 released 2

Nothing is known of a record: every field is given the donor's value, and all are allowed.

  $ cat >records <<EOF
  > Turnover,Costs,Profit
  > 200,120,80
  > ,,none
  > EOF
  $ forxainde edit --rules rules --records records --released released --reasons reasons --proof proof
  records 2 clean 1 changed 1 unresolved 0 weight 4
  claims 1 given 1
  $ cat released
  Turnover,Costs,Profit
  200,120,80
  200,120,80
  $ cat reasons
  record,cause,field,before,after,donor,detail
  2,changed,Turnover,,200,1,donor
  2,changed,Costs,,120,1,donor
  2,changed,Profit,none,80,1,donor
  $ forxainde check --rules rules --records records --released released --proof proof
  valid records 2 released 2
