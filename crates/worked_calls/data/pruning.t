Which lines of rules follow from the others, within a budget of work for each.

No work at all; work of 2, where the walk of the second line has two paths and one pair; and work of 3.

  $ cat >rules <<EOF
  > number A
  > A >= 0
  > 2 A - 1 >= 0
  > EOF
  $ prune rules 0
  1 kept budget A >= 0
  2 kept budget 2 A - 1 >= 0
  $ cat >rules <<EOF
  > number A
  > A >= 1
  > A >= 0
  > EOF
  $ prune rules 2
  1 kept budget A - 1 >= 0
  2 kept budget A >= 0
  $ prune rules 3
  1 kept needed A - 1 >= 0
  2 dropped A >= 0
  $ dropped rules 3
  1 kept needed A - 1 >= 0
  2 dropped A >= 0
    given 1
    given 3
    combine 1 1 2 1 1

Always true: its negation is false.

  $ cat >rules <<EOF
  > number A
  > 1 >= 0
  > EOF
  $ prune rules 2000
  1 dropped 1 >= 0

No value meets the first two, so that anything follows.

  $ cat >rules <<EOF
  > number A
  > A >= 5
  > A <= 3
  > A >= 0
  > EOF
  $ prune rules 2000
  1 kept needed A - 5 >= 0
  2 kept needed -A + 3 >= 0
  3 dropped A >= 0

Either code asks for it.

  $ cat >rules <<EOF
  > number A
  > code C in {x, y}
  > if C in {x} then A >= 0
  > if C in {y} then A >= 0
  > A >= 0
  > EOF
  $ prune rules 2000
  1 kept needed if C in {x} then A >= 0
  2 kept needed if C in {y} then A >= 0
  3 dropped A >= 0

A child is single, who is single is no spouse: so a child is none.

  $ cat >rules <<EOF
  > code Age in {child, adult}
  > code Status in {single, married}
  > code Rel in {spouse, other}
  > if Age in {child} then Status in {single}
  > if Status in {single} then Rel in {other}
  > if Age in {child} then Rel in {other}
  > EOF
  $ prune rules 2000
  1 kept needed if Age in {child} and Status in {married} then never
  2 kept needed if Status in {single} and Rel in {spouse} then never
  3 dropped if Age in {child} and Rel in {spouse} then never

Without F, the number at G would be 10^45.

  $ cat >rules <<EOF
  > number B
  > number C
  > number D
  > number E
  > number F
  > number G
  > number H
  > B >= 1
  > 1000000000 C >= 999999999 B
  > 1000000000 D >= 999999999 C
  > 1000000000 E >= 999999999 D
  > 1000000000 F >= 999999999 E
  > 1000000000 G >= 999999999 F
  > H >= 0
  > EOF
  $ prune rules 2000
  1 kept needed B - 1 >= 0
  2 kept needed -999999999 B + 1000000000 C >= 0
  3 kept needed -999999999 C + 1000000000 D >= 0
  4 kept needed -999999999 D + 1000000000 E >= 0
  5 kept needed -999999999 E + 1000000000 F >= 0
  6 kept needed -999999999 F + 1000000000 G >= 0
  7 kept overflow H >= 0

The trade survey: costs of at least 0 follow from the other lines, by nine steps over them and the negation, line 5. The balance is
an equality, which is not tried.

  $ cat >trade <<EOF
  > number Turnover
  > number Costs
  > number Profit
  > Turnover >= 0
  > Costs >= 0
  > Turnover - Costs - Profit = 0
  > 10 Profit <= 6 Turnover
  > EOF
  $ prune trade 2000
  1 kept needed Turnover >= 0
  2 dropped Costs >= 0
  3 kept equality Turnover - Costs - Profit = 0
  4 kept needed 3 Turnover - 5 Profit >= 0
  $ dropped trade 2000
  1 kept needed Turnover >= 0
  2 dropped Costs >= 0
    given 3
    given 1
    combine 1 -1 2 1 1
    given 5
    combine 3 1 4 1 1
    given 4
    combine 1 -3 6 1 1
    combine 7 1 4 3 2
    combine 5 1 8 1 1
  3 kept equality Turnover - Costs - Profit = 0
  4 kept needed 3 Turnover - 5 Profit >= 0
