Printed lines that fail, each in its turn. The files are stored then, and the status is 6, whatever it had been; but a
refusal keeps its own.

  $ cat >rules <<EOF
  > number Turnover weight 2
  > number Costs
  > number Profit
  > Turnover >= 0
  > Costs >= 0
  > Turnover - Costs - Profit = 0
  > 10 Profit <= 6 Turnover
  > EOF
  $ cat >records <<EOF
  > Turnover,Costs,Profit
  > 100,60,400
  > EOF

A summary that can't be printed: all three files are whole.

  $ fail line 1
  $ forxainde edit --rules rules --records records --released released --reasons reasons --proof proof
  [6]
  $ cat released
  Turnover,Costs,Profit
  100,60,40
  $ cat reasons
  record,cause,field,before,after,donor,detail
  1,changed,Profit,400,40,,nearest
  $ cat proof
  fh-proof 2
  limit 1 near 5 budget 1000000
  lines 4
  keep
  drop 9
  given 3
  given 1
  combine 1 -1 2 1 1
  given 5
  combine 3 1 4 1 1
  given 4
  combine 1 -3 6 1 1
  combine 7 1 4 3 2
  combine 5 1 8 1 1
  keep
  keep
  table 1
  given 3
  records 1
  change 1 KKC 4
  line KKK 1
  shared 1
  bound KKC
  bound KC
  bound C
  claims 1
  claim 1 0
  end
  $ forxainde check --rules rules --records records --released released --proof proof
  valid records 1 released 1
  $ rm proof reasons released
  $ fail line 2
  $ forxainde edit --rules rules --records records --released released --reasons reasons --proof proof
  records 1 clean 0 changed 1 unresolved 0 weight 1
  [6]
  $ cat released
  Turnover,Costs,Profit
  100,60,40
  $ cat reasons
  record,cause,field,before,after,donor,detail
  1,changed,Profit,400,40,,nearest
  $ forxainde check --rules rules --records records --released released --proof proof
  valid records 1 released 1
  $ fail line 3
  $ forxainde edit --rules rules --records records --released released --reasons reasons --proof proof
  records 1 clean 0 changed 1 unresolved 0 weight 1
  claims 1 given 0

Nor is a record left out without it: the status is 6 then too, and not 1.

  $ fail line 1
  $ forxainde edit --rules rules --records records --released released --reasons reasons --proof proof --budget 5
  [6]
  $ cat released
  Turnover,Costs,Profit
  $ fail line 2
  $ forxainde edit --rules rules --records records --released released --reasons reasons --proof proof --budget 5
  records 1 clean 0 changed 0 unresolved 1 weight 0
  [6]
  $ forxainde edit --rules rules --records records --released released --reasons reasons --proof proof --budget 5
  records 1 clean 0 changed 0 unresolved 1 weight 0
  claims 0 given 0
  [1]
  $ forxainde edit --rules rules --records records --released released --reasons reasons --proof proof
  records 1 clean 0 changed 1 unresolved 0 weight 1
  claims 1 given 0

The one line of a check.

  $ fail line 1
  $ forxainde check --rules rules --records records --released released --proof proof
  [6]
  $ fail line 2
  $ forxainde check --rules rules --records records --released released --proof proof
  valid records 1 released 1

The one line of a filling. The released file is whole, and the status is 6 and not 1 where a record is stopped too.

  $ cat >holes <<EOF
  > Turnover,Costs,Profit
  > 100,,40
  > EOF
  $ fail line 1
  $ forxainde fill --rules rules --records holes --released filled
  [6]
  $ cat filled
  Turnover,Costs,Profit
  100,60,40
  $ fail line 1
  $ forxainde fill --rules rules --records holes --released filled --budget 1
  [6]
  $ cat filled
  Turnover,Costs,Profit
  100,,40
  $ fail line 2
  $ forxainde fill --rules rules --records holes --released filled --budget 1
  records 1 filled 0 blocked 0 stopped 1
  [1]
  $ fail line 2
  $ forxainde fill --rules rules --records holes --released filled
  records 1 filled 1 blocked 0 stopped 0
  $ rm holes filled

The lines that are printed of rules, and the steps of those that are dropped.

  $ cat >some.rules <<EOF
  > number A
  > A >= 1
  > A >= 0
  > EOF
  $ fail line 1
  $ forxainde rules --rules some.rules
  [6]
  $ fail line 2
  $ forxainde rules --rules some.rules
  1 kept needed A - 1 >= 0
  [6]
  $ fail line 3
  $ forxainde rules --rules some.rules
  1 kept needed A - 1 >= 0
  2 dropped A >= 0
  [6]
  $ fail line 4
  $ forxainde rules --rules some.rules
  1 kept needed A - 1 >= 0
  2 dropped A >= 0
    given 1
  [6]
  $ fail line 5
  $ forxainde rules --rules some.rules
  1 kept needed A - 1 >= 0
  2 dropped A >= 0
    given 1
    given 3
  [6]
  $ fail line 6
  $ forxainde rules --rules some.rules
  1 kept needed A - 1 >= 0
  2 dropped A >= 0
    given 1
    given 3
    combine 1 1 2 1 1

A refusal that can't be printed keeps its status.

  $ fail line 1
  $ forxainde
  [2]
  $ fail line 1
  $ forxainde rules --rules none.rules
  [5]
  $ fail call 3 keep 3
  $ fail line 1
  $ forxainde edit --rules rules --records records --released released --reasons reasons --proof proof
  [6]
  $ cat proof
  fh- (no-eol)
  $ fail line 1
  $ forxainde check --rules rules --records records --released released --proof proof
  [9]
  $ cat >records <<EOF
  > Turnover,Costs
  > EOF
  $ fail line 1
  $ forxainde edit --rules rules --records records --released released --reasons reasons --proof proof
  [4]
  $ fail line 1
  $ forxainde fill --rules rules --records records --released released
  [4]
  $ cat >rules <<EOF
  > A >= 0
  > EOF
  $ fail line 1
  $ forxainde fill --rules rules --records records --released released
  [3]
  $ fail line 1
  $ forxainde edit --rules rules --records records --released released --reasons reasons --proof proof
  [3]
  $ fail line 1
  $ forxainde check --rules rules --records records --released released --proof proof
  [3]
  $ fail line 1
  $ forxainde rules --rules rules
  [3]

So does that of each call that fails, one after the other. What is stored is the same as with a printer that works.

  $ cat >rules <<EOF
  > number A
  > A >= 0
  > EOF
  $ cat >records <<EOF
  > A
  > 4
  > EOF
  $ cat >released <<EOF
  > A
  > 4
  > EOF
  $ cat >proof <<EOF
  > fh-proof 1
  > limit 1 near 5 budget 1000000
  > lines 1
  > keep
  > records 1
  > clean
  > claims 0
  > end
  > EOF
  $ fail call 1 keep 0
  $ fail line 1
  $ forxainde edit --rules rules --records records --released released --reasons reasons --proof proof
  [5]
  $ fail call 2 keep 0
  $ fail line 1
  $ forxainde edit --rules rules --records records --released released --reasons reasons --proof proof
  [5]
  $ fail call 1 keep 0
  $ fail line 1
  $ forxainde check --rules rules --records records --released released --proof proof
  [5]
  $ fail call 2 keep 0
  $ fail line 1
  $ forxainde check --rules rules --records records --released released --proof proof
  [5]
  $ fail call 3 keep 0
  $ fail line 1
  $ forxainde check --rules rules --records records --released released --proof proof
  [5]
  $ fail call 4 keep 0
  $ fail line 1
  $ forxainde check --rules rules --records records --released released --proof proof
  [5]
  $ fail call 1 keep 0
  $ fail line 1
  $ forxainde rules --rules rules
  [5]
  $ fail call 1 keep 0
  $ fail line 1
  $ forxainde fill --rules rules --records records --released filled
  [5]
  $ fail call 2 keep 0
  $ fail line 1
  $ forxainde fill --rules rules --records records --released filled
  [5]
  $ fail call 3 keep 3
  $ fail line 1
  $ forxainde fill --rules rules --records records --released filled
  [6]
  $ cat filled
  A
  4 (no-eol)
  $ forxainde check --rules rules --records records --released released --proof proof
  valid records 1 released 1
  $ rm released
  $ fail call 4 keep 3
  $ fail line 1
  $ forxainde edit --rules rules --records records --released released --reasons reasons --proof proof
  [6]
  $ cat reasons
  rec (no-eol)
  $ cat released
  cat: released: no such file
  [1]
  $ fail call 5 keep 3
  $ fail line 1
  $ forxainde edit --rules rules --records records --released released --reasons reasons --proof proof
  [6]
  $ cat released
  A
  4 (no-eol)
  $ fail call 1 keep 0
  $ fail line 1
  $ forxainde make --rules some.rules --records some.records --rows 1
  [6]
  $ fail call 2 keep 0
  $ fail line 1
  $ forxainde make --rules some.rules --records some.records --rows 1
  [6]
  $ calls
  store some.rules
  store some.records failed

A refusal has one line: where a second one would fail, there is none.

  $ fail line 2
  $ forxainde
  fault: usage
  [2]
  $ cat >rules <<EOF
  > A >= 0
  > EOF
  $ fail line 2
  $ forxainde edit --rules rules --records records --released released --reasons reasons --proof proof
  fault: rules line 1 kind 3 UnknownField
  [3]
  $ calls
  fetch rules
  $ fail line 1
  $ forxainde edit --rules rules --records records --released released --reasons reasons --proof proof
  [3]
  $ calls
  fetch rules
  $ cat >rules <<EOF
  > number A
  > number B
  > EOF
  $ fail line 2
  $ forxainde edit --rules rules --records records --released released --reasons reasons --proof proof
  fault: records kind 12 NoColumn field B
  [4]
  $ fail line 1
  $ forxainde check --rules rules --records records --released released --proof proof
  [4]
  $ calls
  fetch rules
  fetch records
  $ fail line 2
  $ forxainde rules --rules none.rules
  fault: read none.rules
  [5]
  $ fail line 2
  $ forxainde make --rules some.rules --records some.records --rows 1
  made rows 1

Of rules that make no lines nothing is printed, so that no line of them can fail.

  $ fail line 1
  $ forxainde rules --rules rules
