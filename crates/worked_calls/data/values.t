What records are given in the place of their changed fields: the values in the end, and how each changed one was found, in path
order. A donor may stand behind the record; without one 0 and the first code are aimed at.

The trade survey.

  $ cat >trade <<EOF
  > number Turnover weight 2
  > number Costs
  > number Profit
  > Turnover >= 0
  > Costs >= 0
  > Turnover - Costs - Profit = 0
  > 10 Profit <= 6 Turnover
  > EOF
  $ values trade '100 60 40'
  100 60 40:
  $ values trade '100 60 400'
  100 60 40: nearest
  $ values trade '100 30 70'
  100 100 0: nearest default
  $ values trade '100 ? ?'
  100 100 0: nearest default
  $ values trade '100 ? 400' '200 120 80'
  100 40 60: nearest nearest

Fractions are exact.

  $ cat >triple <<EOF
  > number A
  > number B weight 2
  > 3 A - B = 0
  > EOF
  $ values triple '5 7'
  7/3 7: nearest
  $ cat >sum <<EOF
  > number A
  > number B
  > A + B = 10
  > EOF
  $ values sum '3 4'
  3 7: nearest
  $ cat >two <<EOF
  > number A
  > number B
  > A + B = 10
  > A - B = 4
  > EOF
  $ values two '1 1'
  7 3: nearest nearest

Codes, and codes beside numbers.

  $ cat >household <<EOF
  > code Age in {child, adult}
  > code Status in {single, married}
  > code Rel in {spouse, other}
  > if Age in {child} then Status in {single}
  > if Rel in {spouse} then Status in {married}
  > EOF
  $ values household 'child married spouse'
  adult married spouse: nearest
  $ cat >wage <<EOF
  > code Status in {child, adult}
  > number Wage weight 3
  > if Status in {child} then Wage = 0
  > EOF
  $ values wage 'child 50'
  adult 50: nearest
  $ cat >wage <<EOF
  > code Status weight 3 in {child, adult}
  > number Wage
  > if Status in {child} then Wage = 0
  > EOF
  $ values wage 'child 50'
  child 0: default

A donor's value is taken where it is allowed.

  $ cat >bounded <<EOF
  > number A
  > number B
  > A >= 1
  > B >= 1
  > B <= 9
  > EOF
  $ values bounded '5 ?' '5 4'
  5 4: donor
  $ values bounded '6 ?'
  6 1: nearest

B is given where H is x and A is 7, and a donor tells the target: no bound, and a target that is within.

  $ cat >rules <<EOF
  > code H in {x, y, z}
  > number A
  > number B
  > EOF
  $ values rules 'x 7 ?' 'x 7 8'
  x 7 8: donor
  $ cat >rules <<EOF
  > code H in {x, y, z}
  > number A
  > number B
  > B >= 2
  > B <= 5
  > EOF
  $ values rules 'x 7 ?' 'x 7 3'
  x 7 3: donor

A closed lower and a closed upper end, and a target on each.

  $ cat >rules <<EOF
  > code H in {x, y, z}
  > number A
  > number B
  > B >= 2
  > B <= 5
  > EOF
  $ values rules 'x 7 ?' 'x 7 0'
  x 7 2: nearest
  $ values rules 'x 7 ?' 'x 7 9'
  x 7 5: nearest
  $ cat >rules <<EOF
  > code H in {x, y, z}
  > number A
  > number B
  > B >= 2
  > EOF
  $ values rules 'x 7 ?' 'x 7 2'
  x 7 2: donor
  $ cat >rules <<EOF
  > code H in {x, y, z}
  > number A
  > number B
  > B <= 5
  > EOF
  $ values rules 'x 7 ?' 'x 7 5'
  x 7 5: donor

An open end without another: one further in.

  $ cat >rules <<EOF
  > code H in {x, y, z}
  > number A
  > number B
  > B > 2
  > EOF
  $ values rules 'x 7 ?' 'x 7 0'
  x 7 3: nearest
  $ values rules 'x 7 ?' 'x 7 2'
  x 7 3: nearest
  $ cat >rules <<EOF
  > code H in {x, y, z}
  > number A
  > number B
  > B < 5
  > EOF
  $ values rules 'x 7 ?' 'x 7 9'
  x 7 4: nearest
  $ values rules 'x 7 ?' 'x 7 5'
  x 7 4: nearest

An open end with another: the middle.

  $ cat >rules <<EOF
  > code H in {x, y, z}
  > number A
  > number B
  > B > 0
  > B < 1
  > EOF
  $ values rules 'x 7 ?' 'x 7 0'
  x 7 1/2: nearest
  $ values rules 'x 7 ?' 'x 7 7'
  x 7 1/2: nearest
  $ cat >rules <<EOF
  > code H in {x, y, z}
  > number A
  > number B
  > B > 2
  > B <= 5
  > EOF
  $ values rules 'x 7 ?' 'x 7 0'
  x 7 7/2: nearest
  $ cat >rules <<EOF
  > code H in {x, y, z}
  > number A
  > number B
  > B >= 2
  > B < 5
  > EOF
  $ values rules 'x 7 ?' 'x 7 5'
  x 7 7/2: nearest

Of equal bounds the open one holds.

  $ cat >rules <<EOF
  > code H in {x, y, z}
  > number A
  > number B
  > A + B >= 9
  > B > 2
  > EOF
  $ values rules 'x 7 ?' 'x 7 0'
  x 7 3: nearest
  $ cat >rules <<EOF
  > code H in {x, y, z}
  > number A
  > number B
  > B > 2
  > A + B >= 9
  > EOF
  $ values rules 'x 7 ?' 'x 7 0'
  x 7 3: nearest
  $ cat >rules <<EOF
  > code H in {x, y, z}
  > number A
  > number B
  > A + B <= 12
  > B < 5
  > EOF
  $ values rules 'x 7 ?' 'x 7 9'
  x 7 4: nearest

The greatest lower and the least upper one.

  $ cat >rules <<EOF
  > code H in {x, y, z}
  > number A
  > number B
  > A + B >= 9
  > B >= 3
  > B - A >= -6
  > EOF
  $ values rules 'x 7 ?' 'x 7 0'
  x 7 3: nearest
  $ cat >rules <<EOF
  > code H in {x, y, z}
  > number A
  > number B
  > A + B <= 12
  > B <= 3
  > B - A <= -3
  > EOF
  $ values rules 'x 7 ?' 'x 7 9'
  x 7 3: nearest

Fractions are not rounded, and A is in the rest.

  $ cat >rules <<EOF
  > code H in {x, y, z}
  > number A
  > number B
  > 3 B >= 1
  > EOF
  $ values rules 'x 7 ?' 'x 7 0'
  x 7 1/3: nearest
  $ cat >rules <<EOF
  > code H in {x, y, z}
  > number A
  > number B
  > 3 B >= A
  > 3 B <= A
  > EOF
  $ values rules 'x 7 ?' 'x 7 0'
  x 7 7/3: nearest

An equality gives its number for each target.

  $ cat >rules <<EOF
  > code H in {x, y, z}
  > number A
  > number B
  > B = 4
  > EOF
  $ values rules 'x 7 ?' 'x 7 9'
  x 7 4: nearest
  $ cat >rules <<EOF
  > code H in {x, y, z}
  > number A
  > number B
  > 8 = 2 B
  > EOF
  $ values rules 'x 7 ?' 'x 7 0'
  x 7 4: nearest
  $ cat >rules <<EOF
  > code H in {x, y, z}
  > number A
  > number B
  > A = B
  > B >= 0
  > EOF
  $ values rules 'x 7 ?' 'x 7 0'
  x 7 7: nearest

A line for other codes bounds nothing.

  $ cat >rules <<EOF
  > code H in {x, y, z}
  > number A
  > number B
  > if H in {y, z} then B >= 4
  > if H in {x} then B >= 2
  > EOF
  $ values rules 'x 7 ?' 'x 7 0'
  x 7 2: nearest

A number past 2^127 - 1 is told by its line: the rest, 2 A; and the bound, A / 2.

  $ cat >rules <<EOF
  > code H in {x, y, z}
  > number A
  > number B
  > B >= 0
  > 2 A + B >= 0
  > EOF
  $ values rules 'x 170141183460469231731687303715884105727 ?'
  overflow at B line 2
  $ cat >rules <<EOF
  > code H in {x, y, z}
  > number A
  > number B
  > A >= 2 B
  > EOF
  $ values rules 'x 1/170141183460469231731687303715884105727 ?'
  overflow at B line 1

One more and one less than an open end.

  $ cat >rules <<EOF
  > code H in {x, y, z}
  > number A
  > number B
  > B >= 0
  > B > A
  > EOF
  $ values rules 'x 170141183460469231731687303715884105727 ?'
  overflow at B line 2
  $ cat >rules <<EOF
  > code H in {x, y, z}
  > number A
  > number B
  > A + B < 0
  > EOF
  $ values rules 'x 170141183460469231731687303715884105727 ?'
  overflow at B line 1

The sum of which an open end's middle is the half, below it and above it.

  $ cat >rules <<EOF
  > code H in {x, y, z}
  > number A
  > number B
  > B <= A
  > B > A - 2
  > EOF
  $ values rules 'x 170141183460469231731687303715884105727 ?'
  overflow at B line 2
  $ cat >rules <<EOF
  > code H in {x, y, z}
  > number A
  > number B
  > B < 2 - A
  > A + B >= 0
  > EOF
  $ values rules 'x 170141183460469231731687303715884105727 ?'
  overflow at B line 1

A code that a rule forbids is not given: the first that is left is, or the donor's, where it is left.

  $ cat >rules <<EOF
  > code H in {x, y, z}
  > number A
  > number B
  > EOF
  $ values rules '? 0 0'
  x 0 0: default
  $ values rules '? 0 0' 'x 0 0'
  x 0 0: donor
  $ values rules '? 0 0' 'y 0 0'
  y 0 0: donor
  $ values rules '? 0 0' 'z 0 0'
  z 0 0: donor
  $ cat >rules <<EOF
  > code H in {x, y, z}
  > number A
  > number B
  > H not in {x, y}
  > EOF
  $ values rules '? 0 0'
  z 0 0: nearest
  $ values rules '? 0 0' 'x 0 0'
  z 0 0: nearest
  $ values rules '? 0 0' 'y 0 0'
  z 0 0: nearest
  $ values rules '? 0 0' 'z 0 0'
  z 0 0: donor
  $ cat >rules <<EOF
  > code H in {x, y, z}
  > number A
  > number B
  > H not in {x}
  > H not in {z}
  > EOF
  $ values rules '? 0 0'
  y 0 0: nearest
  $ values rules '? 0 0' 'x 0 0'
  y 0 0: nearest
  $ values rules '? 0 0' 'y 0 0'
  y 0 0: donor
  $ values rules '? 0 0' 'z 0 0'
  y 0 0: nearest
  $ cat >rules <<EOF
  > code H in {x, y, z}
  > number A
  > number B
  > H not in {x, z}
  > H not in {y}
  > EOF
  $ values rules '? 0 0'
  no change
  [1]

A donor has a value at each field.

  $ values rules '? 0 0' 'x 0 ?'
  no record
  [1]
