The normal lines of rules, each behind the number of its rule; what is left of lines that say less than others; their
negations, and their sums at records.

The balance of the trade survey is an equality; its other rules are lines as they stand, divided by what their numbers have in
common.

  $ cat >trade <<EOF
  > number Turnover
  > number Costs
  > number Profit
  > Turnover >= 0
  > Costs >= 0
  > Turnover - Costs - Profit = 0
  > 10 Profit <= 6 Turnover
  > EOF
  $ lines trade
  1 Turnover >= 0
  2 Costs >= 0
  3 Turnover - Costs - Profit = 0
  4 3 Turnover - 5 Profit >= 0

A rule on codes alone is never met where its conditions hold and its conclusion does not.

  $ cat >household <<EOF
  > code Age in {child, adult}
  > code Status in {single, married}
  > code Rel in {spouse, other}
  > if Age in {child} then Status in {single}
  > if Rel in {spouse} then Status in {married}
  > EOF
  $ lines household
  1 if Age in {child} and Status in {married} then never
  2 if Status in {single} and Rel in {spouse} then never

Each comparison, and conditions of both kinds; no codes are left for the last rule.

  $ cat >mixed <<EOF
  > number A
  > code C in {x, y, z}
  > number B
  > 2 A - 4 B + 6 > 0
  > 2 A - 4 B + 6 <= 0
  > if A >= 1 then C in {x}
  > if A < 1 then C not in {x}
  > if C in {x, y} and C not in {x} then B = 0
  > if C in {x} and C in {y} then B >= 0
  > EOF
  $ lines mixed
  1 A - 2 B + 3 > 0
  2 -A + 2 B - 3 >= 0
  3 if C in {y, z} then -A + 1 > 0
  4 if C in {x} then A - 1 >= 0
  5 if C in {y} then B >= 0
  5 if C in {y} then -B >= 0

Where x is never the code, and A is at least 1, nothing more is said by the others.

  $ cat >needless <<EOF
  > number A
  > code C in {x, y}
  > A > 0
  > if C in {x} then A >= 0
  > C not in {x}
  > A >= 1
  > A >= 0
  > EOF
  $ system needless
  given 3: if C in {x} then never
  given 4: A - 1 >= 0

The negation of a line: the contrary of its sum, and never for the codes outside its sets. An equality has none.

  $ cat >eight <<EOF
  > number A
  > number B
  > number C
  > number D
  > number E
  > number F
  > number G
  > number H
  > code I in {x, y, z}
  > if I in {x, y} then 2 A + 3 G - 5 H > 4
  > EOF
  $ lines eight
  1 if I in {x, y} then 2 A + 3 G - 5 H - 4 > 0
  $ negations eight
  1 -2 A - 3 G + 5 H + 4 >= 0
  1 if I in {z} then never
  $ negations trade
  1 -Turnover > 0
  2 -Costs > 0
  3 none
  4 -3 Turnover + 5 Profit > 0

The sum of that line at records, and whether it fails there. A number past 2^127 - 1 is told by the first field at which it
comes.

  $ sums eight '2 ? ? ? ? ? 1 0 x'
  1 3 holds
  $ sums eight '-1 ? ? ? ? ? 0 1 x'
  1 -11 fails
  $ sums eight '0 ? ? ? ? ? 170141183460469231731687303715884105727 0 x'
  1 overflow at G overflow at G
  $ sums eight '85070591730234615865843651857942052863 ? ? ? ? ? 2 0 x'
  1 overflow at G overflow at G

A rule file that has no reading is told by its line, and so is a record that is none.

  $ cat >faulty <<EOF
  > number A
  > A >= B
  > EOF
  $ lines faulty
  rules: line 2: UnknownField
  [1]
  $ lines nowhere
  no such file
  [1]
  $ sums eight '2 ? ? ? ? ? 1 0 w'
  no such field or code
  [1]
  $ sums eight '2 ? ? ? ? ? 1 0'
  no record
  [1]
