Systems without some of their fields: each line behind where it comes from, a line of the rules, or lines of the list before the
last step.

A chain of bounds. Without fields its lines are those of the rules; without all but A one bound is left, two lines of which
three is a common divisor.

  $ cat >chain <<EOF
  > number A
  > number B
  > number C
  > number D
  > A >= 2 B
  > 3 B >= C
  > 2 C >= D
  > D >= 6
  > EOF
  $ system chain
  given 1: A - 2 B >= 0
  given 2: 3 B - C >= 0
  given 3: 2 C - D >= 0
  given 4: D - 6 >= 0
  $ system chain D B C
  combine 1 1 2 1 3: A - 2 >= 0
  $ system chain B C
  same 2: D - 6 >= 0
  combine 1 1 3 1 1: 3 A - D >= 0

An equality that has the field is substituted into the other lines that have it: without Costs one pair is combined, and then
without Profit none, since both other lines bound it from above.

  $ cat >trade <<EOF
  > number Turnover
  > number Costs
  > number Profit
  > Turnover >= 0
  > Costs >= 0
  > Turnover - Costs - Profit = 0
  > 10 Profit <= 6 Turnover
  > EOF
  $ system trade Costs
  same 1: Turnover >= 0
  same 4: 3 Turnover - 5 Profit >= 0
  combine 3 1 2 1 1: Turnover - Profit >= 0
  $ system trade Costs Profit
  same 1: Turnover >= 0
  $ pairs trade Costs
  1 pairs
  $ pairs trade Costs Profit
  0 pairs

The same with the equality as two inequalities: without Costs two pairs are combined, of which one says nothing.

  $ cp trade two
  $ sed -i -e '6c\Turnover - Costs - Profit >= 0\nTurnover - Costs - Profit <= 0' two
  $ system two Costs
  same 1: Turnover >= 0
  same 5: 3 Turnover - 5 Profit >= 0
  combine 2 1 3 1 1: Turnover - Profit >= 0
  $ system two Costs Profit
  same 1: Turnover >= 0
  $ pairs two Costs
  2 pairs
  $ pairs two Costs Profit
  0 pairs

Two equalities: the first is substituted into the second, and their common divisor is 2.

  $ cat >sums <<EOF
  > number A
  > number B
  > A + B = 10
  > A - B = 4
  > EOF
  $ system sums A
  combine 1 -1 2 1 2: -B + 3 = 0

Above 0 and at most 0: what is left is false, since one of the two is strict.

  $ cat >strict <<EOF
  > number A
  > A > 0
  > A <= 0
  > EOF
  $ system strict A
  combine 1 1 2 1 1: never
  $ sed -i -e '3c\-A >= 0' strict
  $ system strict
  given 1: A > 0
  given 2: -A >= 0
  $ system strict A
  combine 1 1 2 1 1: never
  $ cat >touching <<EOF
  > number A
  > A >= 0
  > A <= 0
  > EOF
  $ system touching A

A number past 2^127 - 1 is told by the field that is eliminated, the two lines, and its place. Seven lines stand before the
chain; without V, W and X it says that Z is at least 10^36 U, and 10^9 times that is too much.

  $ cat >far <<EOF
  > number P
  > number Q
  > number R
  > number S
  > number L
  > number M
  > number N
  > number V
  > number W
  > number X
  > number Z
  > number U
  > number T
  > P >= 0
  > Q >= 0
  > R >= 0
  > S >= 0
  > L >= 0
  > M >= 0
  > N >= 0
  > Z >= 1000000000 V
  > V >= 1000000000 W
  > W >= 1000000000 X
  > X >= 1000000000 U
  > T >= 1000000000 Z
  > EOF
  $ system far V W X
  same 1: P >= 0
  same 2: Q >= 0
  same 3: R >= 0
  same 4: S >= 0
  same 5: L >= 0
  same 6: M >= 0
  same 7: N >= 0
  same 9: -1000000000 Z + T >= 0
  combine 8 1000000000000000000000000000 10 1 1: Z - 1000000000000000000000000000000000000 U >= 0
  $ system far V W X Z
  overflow at Z lines 9 8 at U

The same with a bound of 10^33.

  $ cat >constant <<EOF
  > number P
  > number Q
  > number R
  > number S
  > number L
  > number M
  > number N
  > number V
  > number W
  > number Z
  > number T
  > P >= 0
  > Q >= 0
  > R >= 0
  > S >= 0
  > L >= 0
  > M >= 0
  > N >= 0
  > Z >= 1000000000 V
  > V >= 1000000000 W
  > W >= 1000000000000000
  > T >= 1000000000 Z
  > EOF
  $ system constant V W Z
  overflow at Z lines 9 8 at constant

A categorical field, and one that is not there, are eliminated by no system.

  $ cat >code <<EOF
  > code C in {x, y}
  > number A
  > EOF
  $ system code C
  no such field or code
  [1]
  $ system code B
  no such field or code
  [1]
