What steps prove from the lines of rules, where some are not usable, of a record whose fields are kept as a path says.

Costs below 0, line 5, are in contradiction with the other lines, of which `Costs >= 0` is not usable: 0 is above 0, which is
false.

  $ cat >contrary <<EOF
  > number Turnover
  > number Costs
  > number Profit
  > Turnover >= 0
  > Costs >= 0
  > Turnover - Costs - Profit = 0
  > 10 Profit <= 6 Turnover
  > Costs < 0
  > EOF
  $ cat >refutation <<EOF
  > given 3
  > given 1
  > combine 1 -1 2 1 1
  > given 5
  > combine 3 1 4 1 1
  > given 4
  > combine 1 -3 6 1 1
  > combine 7 1 4 3 2
  > combine 5 1 8 1 1
  > EOF
  $ steps contrary '? ? ?' - refutation 2
  line never

The steps before that prove lines; a line that is not usable is not given; an inequality is not multiplied by a number below 0.

  $ cp refutation part
  $ sed -i -e '9d' part
  $ steps contrary '? ? ?' - part 2
  line -Profit > 0
  $ sed -i -e '7d' -e '8d' part
  $ steps contrary '? ? ?' - part 2
  line 3 Turnover - 5 Profit >= 0
  $ sed -i -e '2c\given 2' part
  $ steps contrary '? ? ?' - part 2
  no step 2
  $ cp refutation part
  $ sed -i -e '3c\combine 2 -1 1 1 1' part
  $ steps contrary '? ? ?' - part 2
  no step 3

No steps prove nothing: the first place is told.

  $ cat >none <<EOF
  > EOF
  $ steps contrary '? ? ?' - none 2
  no step 1

A child that is a married spouse, with Age and Rel kept: no Status makes it right. A cover needs the box of each code.

  $ cat >household <<EOF
  > code Age in {child, adult}
  > code Status in {single, married}
  > code Rel in {spouse, other}
  > if Age in {child} then Status in {single}
  > if Rel in {spouse} then Status in {married}
  > EOF
  $ cat >kept <<EOF
  > given 2
  > fail 1
  > given 1
  > fail 3
  > fix 1 4
  > cover 2 2 5
  > fix 3 6
  > EOF
  $ steps household 'child married spouse' KCK kept
  box never
  $ cp kept part
  $ sed -i -e '7d' part
  $ steps household 'child married spouse' KCK part
  box if Rel in {spouse} then never
  $ cp kept part
  $ sed -i -e '6c\cover 2 2 2' part
  $ steps household 'child married spouse' KCK part
  no step 6

Where Age is not kept, it is not fixed.

  $ steps household 'child married spouse' CCK kept
  no step 5

A file of steps that has no reading is told by its line.

  $ sed -i -e '2c\fails 1' part
  $ steps household 'child married spouse' KCK part
  steps: line 2
  [1]
