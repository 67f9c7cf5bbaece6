What the command `rules` prints of the lines of rules: each is kept for a cause, or dropped with the steps that refute its
negation, whose lines are numbered behind all others.

A line that follows from another.

  $ cat >rules <<EOF
  > number A
  > A >= 1
  > A >= 0
  > EOF
  $ forxainde rules --rules rules
  1 kept needed A - 1 >= 0
  2 dropped A >= 0
    given 1
    given 3
    combine 1 1 2 1 1

The same line twice, since it is divided by its common divisor; and equal rules.

  $ cat >same.rules <<EOF
  > number A
  > A >= 0
  > 2 A >= 0
  > EOF
  $ forxainde rules --rules same.rules
  1 kept needed A >= 0
  2 dropped A >= 0
    given 1
    given 3
    combine 1 1 2 1 1
  $ cat >same.rules <<EOF
  > number A
  > A >= 1
  > A >= 1
  > EOF
  $ forxainde rules --rules same.rules
  1 kept needed A - 1 >= 0
  2 dropped A - 1 >= 0
    given 1
    given 3
    combine 1 1 2 1 1

Comparisons of each kind. What is to be at most something is turned, so that each line says at least, above, or equal.

  $ cat >some.rules <<EOF
  > number A
  > number B
  > number C
  > number D
  > number E
  > A >= 1
  > B > 2 A + 3
  > 4 C <= 10 A - 6
  > D + 1 < A
  > 3 * E = A + 6 - 9 A
  > EOF
  $ forxainde rules --rules some.rules
  1 kept needed A - 1 >= 0
  2 kept needed -2 A + B - 3 > 0
  3 kept needed 5 A - 2 C - 3 >= 0
  4 kept needed A - D - 1 > 0
  5 kept equality 8 A + 3 E - 6 = 0

Rules on codes, and on a code and a number. A number in a condition is turned too.

  $ cat >some.rules <<EOF
  > code B in {x, y, z}
  > code C in {u, v}
  > number A
  > B in {x, z}
  > if B in {x} then C not in {u}
  > if B not in {x} and C in {u} then A > 3
  > if A > 5 then C in {v}
  > if 2 A <= 7 then B in {y, x}
  > EOF
  $ forxainde rules --rules some.rules
  1 kept needed if B in {y} then never
  2 kept needed if B in {x} and C in {u} then never
  3 dropped if B in {y, z} and C in {u} then A - 3 > 0
    given 7
    fail 1
    given 1
    fail 3
    given 5
    given 6
    combine 5 1 6 2 1
    fail 7
    cover 1 2 4 8
  4 kept needed if C in {u} then -A + 5 >= 0
  5 kept needed if B in {z} then 2 A - 7 > 0

A rule that some condition or the conclusion makes true for all codes has no line.

  $ cat >some.rules <<EOF
  > code B in {x, y}
  > number A
  > if B in {x} and B in {y} then A >= 1
  > B in {y, x}
  > if A >= 3 then B in {x, y}
  > A >= 4
  > EOF
  $ forxainde rules --rules some.rules
  1 kept needed A - 4 >= 0

A rule that is always true has a line, and one that never is.

  $ cat >some.rules <<EOF
  > number A
  > A >= A
  > EOF
  $ forxainde rules --rules some.rules
  1 dropped 0 >= 0
    given 2
  $ cat >some.rules <<EOF
  > number A
  > 1 >= 2
  > A > A
  > EOF
  $ forxainde rules --rules some.rules
  1 kept needed never
  2 dropped never
    given 1

Whatever is said of B follows from rules that contradict each other.

  $ cat >some.rules <<EOF
  > number A
  > number B
  > A >= 5
  > A <= 3
  > B >= 0
  > EOF
  $ forxainde rules --rules some.rules
  1 kept needed A - 5 >= 0
  2 kept needed -A + 3 >= 0
  3 dropped B >= 0
    given 1
    given 2
    combine 1 1 2 1 2

A line that only the combination of codes makes redundant.

  $ cat >some.rules <<EOF
  > code Age in {child, adult}
  > code Status in {single, married}
  > code Rel in {spouse, other}
  > if Age in {child} then Status in {single}
  > if Rel in {spouse} then Status in {married}
  > if Age in {child} then Rel in {other}
  > EOF
  $ forxainde rules --rules some.rules
  1 kept needed if Age in {child} and Status in {married} then never
  2 kept needed if Status in {single} and Rel in {spouse} then never
  3 dropped if Age in {child} and Rel in {spouse} then never
    given 2
    fail 1
    given 1
    fail 3
    given 5
    fail 5
    cover 1 4 6
    cover 2 2 7
    given 6
    fail 9
    cover 3 8 10

A line of a code and a number follows from a later one of the number alone.

  $ cat >some.rules <<EOF
  > code Status in {child, adult}
  > number Wage
  > if Status in {child} then Wage = 0
  > Wage >= 0
  > EOF
  $ forxainde rules --rules some.rules
  1 dropped if Status in {child} then Wage >= 0
    given 3
    given 4
    combine 1 1 2 1 1
  2 kept needed if Status in {child} then -Wage >= 0
  3 kept needed Wage >= 0

A line that follows from two others, one for each code.

  $ cat >some.rules <<EOF
  > number Stock
  > code Size in {small, large}
  > if Size in {small} then Stock >= 0
  > if Size in {large} then Stock >= 0
  > Stock >= 0
  > EOF
  $ forxainde rules --rules some.rules
  1 kept needed if Size in {small} then Stock >= 0
  2 kept needed if Size in {large} then Stock >= 0
  3 dropped Stock >= 0
    given 1
    given 4
    combine 1 1 2 1 1
    fail 3
    given 2
    combine 5 1 2 1 1
    fail 6
    cover 2 4 7

Four fields and nine rules. One line follows from five others; of one it is not found out with a work of 2000.

  $ cat >some.rules <<EOF
  > number x1
  > number x2
  > number x3
  > number x4
  > 3 x1 + x2 - 3 x3 - x4 <= 4
  > 2 x1 + x2 + x3 + x4 <= 4
  > -2 x1 + 3 x2 + x3 + 2 x4 <= 3
  > 3 x1 + 2 x2 + x3 + 3 x4 <= 2
  > x1 - 3 x2 + 3 x3 + 3 x4 <= 2
  > 2 x1 + 3 x2 + 3 x3 - 3 x4 <= 3
  > x1 - 2 x2 + 3 x3 - 3 x4 <= 4
  > -2 x1 + 2 x2 + 2 x3 + 2 x4 <= 4
  > 3 x1 + x2 - 2 x3 + 3 x4 <= 1
  > EOF
  $ forxainde rules --rules some.rules
  1 kept needed -3 x1 - x2 + 3 x3 + x4 + 4 >= 0
  2 dropped -2 x1 - x2 - x3 - x4 + 4 >= 0
    given 10
    given 1
    combine 1 3 2 2 1
    given 4
    combine 1 3 4 2 1
    combine 3 1 5 1 2
    given 3
    given 5
    combine 7 1 8 2 1
    given 6
    combine 1 1 10 1 1
    combine 9 2 11 3 1
    combine 6 4 12 1 13
  3 kept needed 2 x1 - 3 x2 - x3 - 2 x4 + 3 >= 0
  4 kept budget -3 x1 - 2 x2 - x3 - 3 x4 + 2 >= 0
  5 kept needed -x1 + 3 x2 - 3 x3 - 3 x4 + 2 >= 0
  6 kept needed -2 x1 - 3 x2 - 3 x3 + 3 x4 + 3 >= 0
  7 kept needed -x1 + 2 x2 - 3 x3 + 3 x4 + 4 >= 0
  8 kept needed x1 - x2 - x3 - x4 + 2 >= 0
  9 kept needed -3 x1 - x2 + 2 x3 - 3 x4 + 1 >= 0

A ring of fields, in whose elimination numbers leave 128 bits.

  $ cat >some.rules <<EOF
  > number x1
  > number x2
  > number x3
  > number x4
  > number x5
  > number x6
  > 999999999 x1 >= 1000000000 x2
  > 999999999 x2 >= 1000000000 x3
  > 999999999 x3 >= 1000000000 x4
  > 999999999 x4 >= 1000000000 x5
  > 999999999 x5 >= 1000000000 x6
  > 999999999 x6 >= 1000000000 x1
  > EOF
  $ forxainde rules --rules some.rules
  1 kept needed 999999999 x1 - 1000000000 x2 >= 0
  2 kept needed 999999999 x2 - 1000000000 x3 >= 0
  3 kept needed 999999999 x3 - 1000000000 x4 >= 0
  4 kept needed 999999999 x4 - 1000000000 x5 >= 0
  5 kept overflow 999999999 x5 - 1000000000 x6 >= 0
  6 kept needed -1000000000 x1 + 999999999 x6 >= 0

Of lines that are all the same the first is kept, since it is tried last.

  $ cat >some.rules <<EOF
  > number A
  > A >= 0
  > A >= 0
  > A >= 0
  > A >= 0
  > EOF
  $ forxainde rules --rules some.rules
  1 kept needed A >= 0
  2 dropped A >= 0
    given 1
    given 5
    combine 1 1 2 1 1
  3 dropped A >= 0
    given 1
    given 5
    combine 1 1 2 1 1
  4 dropped A >= 0
    given 1
    given 5
    combine 1 1 2 1 1

No rules, and not even a field.

  $ cat >some.rules <<EOF
  > number A
  > EOF
  $ forxainde rules --rules some.rules
  $ cat >some.rules <<EOF
  > EOF
  $ forxainde rules --rules some.rules

A file that is not there.

  $ forxainde rules --rules none
  fault: read none
  [5]
  $ calls
  fetch none failed
