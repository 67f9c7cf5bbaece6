Rules that are equalities. One without conditions is one line, in whose elimination it is substituted into the others; one
with conditions is two lines, as if it were written as two inequalities. An equality is never dropped.

A sum. The work is 4, one for each path up to B's change and none for pairs.

  $ cat >sum.rules <<EOF
  > number A
  > number B
  > A + B = 10
  > EOF
  $ forxainde rules --rules sum.rules
  1 kept equality A + B - 10 = 0
  $ cat >sum.csv <<EOF
  > A,B
  > 3,4
  > EOF
  $ forxainde edit --rules sum.rules --records sum.csv --released released --reasons reasons --proof proof
  records 1 clean 0 changed 1 unresolved 0 weight 1
  claims 1 given 0
  $ cat released
  A,B
  3,7
  $ cat reasons
  record,cause,field,before,after,donor,detail
  1,changed,B,4,7,,nearest
  $ cat proof
  fh-proof 2
  limit 1 near 5 budget 1000000
  lines 1
  keep
  table 1
  given 1
  records 1
  change 1 KC 3
  line KK 1
  shared 1
  bound KC
  bound C
  claims 1
  claim 1 0
  end
  $ forxainde check --rules sum.rules --records sum.csv --released released --proof proof
  valid records 1 released 1
  $ forxainde edit --rules sum.rules --records sum.csv --released released --reasons reasons --proof proof --budget 4
  records 1 clean 0 changed 1 unresolved 0 weight 1
  claims 1 given 0
  $ cat released
  A,B
  3,7
  $ forxainde edit --rules sum.rules --records sum.csv --released released --reasons reasons --proof proof --budget 3
  records 1 clean 0 changed 0 unresolved 1 weight 0
  claims 0 given 0
  [1]
  $ cat released
  A,B
  $ cat reasons
  record,cause,field,before,after,donor,detail
  1,budget,,,,,path KC work 3
  $ cat proof
  fh-proof 2
  limit 1 near 5 budget 3
  lines 1
  keep
  table 0
  records 1
  budget KC 3
  claims 0
  end
  $ forxainde check --rules sum.rules --records sum.csv --released released --proof proof
  valid records 1 released 0

A fraction: the value that the equality forces is not rounded.

  $ cat >rules <<EOF
  > number A
  > number B weight 2
  > 3 A - B = 0
  > EOF
  $ cat >records <<EOF
  > A,B
  > 5,7
  > EOF
  $ forxainde edit --rules rules --records records --released released --reasons reasons --proof proof
  records 1 clean 0 changed 1 unresolved 0 weight 1
  claims 1 given 0
  $ cat released
  A,B
  7/3,7
  $ cat reasons
  record,cause,field,before,after,donor,detail
  1,changed,A,5,7/3,,nearest
  $ cat proof
  fh-proof 2
  limit 1 near 5 budget 1000000
  lines 1
  keep
  table 1
  given 1
  records 1
  change 1 CK 4
  line KK 1
  shared 1
  bound KC
  bound CK
  bound CC
  claims 1
  claim 1 0
  end
  $ forxainde check --rules rules --records records --released released --proof proof
  valid records 1 released 1

Two equalities: only 7 and 3 meet both, and the work for it is 9. Where A changes and B is kept, the first is substituted
into the second with a factor below 0, which an equality may have.

  $ cat >rules <<EOF
  > number A
  > number B
  > A + B = 10
  > A - B = 4
  > EOF
  $ cat >records <<EOF
  > A,B
  > 1,1
  > EOF
  $ forxainde edit --rules rules --records records --released released --reasons reasons --proof proof --budget 9
  records 1 clean 0 changed 1 unresolved 0 weight 2
  claims 1 given 0
  $ cat released
  A,B
  7,3
  $ cat reasons
  record,cause,field,before,after,donor,detail
  1,changed,A,1,7,,nearest
  1,changed,B,1,3,,nearest
  $ cat proof
  fh-proof 2
  limit 1 near 5 budget 9
  lines 2
  keep
  keep
  table 4
  given 1
  given 2
  combine 1 1 2 1 2
  combine 1 -1 2 1 2
  records 1
  change 2 CC 4
  line KK 1
  shared 1
  line KC 1
  shared 3
  line CK 1
  shared 4
  bound CC
  claims 1
  claim 1 0
  end
  $ forxainde check --rules rules --records records --released released --proof proof
  valid records 1 released 1
  $ forxainde edit --rules rules --records records --released released --reasons reasons --proof proof --budget 8
  records 1 clean 0 changed 0 unresolved 1 weight 0
  claims 0 given 0
  [1]
  $ cat reasons
  record,cause,field,before,after,donor,detail
  1,budget,,,,,path CC work 8

An equality with a condition stays a pair, whatever its lines would be worth as one.

  $ cat >rules <<EOF
  > code Status in {child, adult}
  > number Wage
  > if Status in {child} then Wage = 0
  > EOF
  $ forxainde rules --rules rules
  1 kept needed if Status in {child} then Wage >= 0
  2 kept needed if Status in {child} then -Wage >= 0

So it does where the condition holds for each code.

  $ cat >rules <<EOF
  > code B in {x, y}
  > number A
  > if B in {x, y} then A = 3
  > EOF
  $ forxainde rules --rules rules
  1 kept needed A - 3 >= 0
  2 kept needed -A + 3 >= 0

Equalities that are equal, written in the same way, as a multiple, and with the other sign. All are kept. The search takes
the first and passes the second by, and the third becomes nothing by it: the work is one more than for the sum alone, for
its substitution.

  $ cat >rules <<EOF
  > number A
  > number B
  > A + B = 10
  > 2 A + 2 B = 20
  > -A - B = -10
  > EOF
  $ forxainde rules --rules rules
  1 kept equality A + B - 10 = 0
  2 kept equality A + B - 10 = 0
  3 kept equality -A - B + 10 = 0
  $ forxainde edit --rules rules --records sum.csv --released released --reasons reasons --proof proof --budget 5
  records 1 clean 0 changed 1 unresolved 0 weight 1
  claims 1 given 0
  $ cat released
  A,B
  3,7
  $ cat reasons
  record,cause,field,before,after,donor,detail
  1,changed,B,4,7,,nearest
  $ cat proof
  fh-proof 2
  limit 1 near 5 budget 5
  lines 3
  keep
  keep
  keep
  table 1
  given 1
  records 1
  change 1 KC 3
  line KK 1
  shared 1
  bound KC
  bound C
  claims 1
  claim 1 0
  end
  $ forxainde check --rules rules --records sum.csv --released released --proof proof
  valid records 1 released 1
  $ forxainde edit --rules rules --records sum.csv --released released --reasons reasons --proof proof --budget 4
  records 1 clean 0 changed 0 unresolved 1 weight 0
  claims 0 given 0
  [1]
  $ cat reasons
  record,cause,field,before,after,donor,detail
  1,budget,,,,,path KC work 3

Two lines of one conditional equality that is written twice: of an inequality that stands twice one is dropped.

  $ cat >rules <<EOF
  > code B in {x, y}
  > number A
  > if B in {x} then A = 0
  > if B in {x} then A = 0
  > EOF
  $ forxainde rules --rules rules
  1 kept needed if B in {x} then A >= 0
  2 kept needed if B in {x} then -A >= 0
  3 dropped if B in {x} then A >= 0
    given 1
    given 5
    combine 1 1 2 1 1
    fail 3
    given 6
    fail 5
    cover 1 4 6
  4 dropped if B in {x} then -A >= 0
    given 5
    given 2
    combine 1 1 2 1 1
    fail 3
    given 6
    fail 5
    cover 1 4 6

An equality that is false, and one that is always true.

  $ cat >rules <<EOF
  > number A
  > A = A + 5
  > A = A
  > EOF
  $ forxainde rules --rules rules
  1 kept equality never
  2 kept equality 0 = 0
  $ cat >records <<EOF
  > A
  > 4
  > EOF
  $ forxainde edit --rules rules --records records --released released --reasons reasons --proof proof
  records 1 clean 0 changed 0 unresolved 1 weight 0
  claims 0 given 0
  [1]
  $ cat released
  A
  $ cat reasons
  record,cause,field,before,after,donor,detail
  1,contradictory,,,,,
  $ cat proof
  fh-proof 2
  limit 1 near 5 budget 1000000
  lines 2
  keep
  keep
  table 1
  given 1
  records 1
  contradictory 1
  line - 1
  shared 1
  claims 0
  end
  $ forxainde check --rules rules --records records --released released --proof proof
  valid records 1 released 0

Inequalities that follow from an equality are dropped, before and behind it. To bound its field from above its factor is
below 0.

  $ cat >rules <<EOF
  > number A
  > A >= 3
  > A = 3
  > A >= 2
  > A <= 3
  > A > 2
  > EOF
  $ forxainde rules --rules rules
  1 dropped A - 3 >= 0
    given 2
    given 6
    combine 1 1 2 1 1
  2 kept equality A - 3 = 0
  3 dropped A - 2 >= 0
    given 2
    given 6
    combine 1 1 2 1 1
  4 dropped -A + 3 >= 0
    given 2
    given 6
    combine 1 -1 2 1 1
  5 dropped A - 2 > 0
    given 2
    given 6
    combine 1 1 2 1 1

A strict one does not follow from it, and contradicts it. So do two equalities, from which all follows.

  $ cat >rules <<EOF
  > number A
  > A = 3
  > A > 3
  > EOF
  $ forxainde rules --rules rules
  1 kept equality A - 3 = 0
  2 kept needed A - 3 > 0
  $ forxainde edit --rules rules --records records --released released --reasons reasons --proof proof
  records 1 clean 0 changed 0 unresolved 1 weight 0
  claims 0 given 0
  [1]
  $ cat released
  A
  $ cat reasons
  record,cause,field,before,after,donor,detail
  1,contradictory,,,,,
  $ cat proof
  fh-proof 2
  limit 1 near 5 budget 1000000
  lines 2
  keep
  keep
  table 3
  given 1
  given 2
  combine 1 -1 2 1 1
  records 1
  contradictory 2
  line K 1
  shared 1
  line C 1
  shared 3
  claims 0
  end
  $ forxainde check --rules rules --records records --released released --proof proof
  valid records 1 released 0
  $ cat >rules <<EOF
  > number A
  > A = 3
  > A = 4
  > A >= 7
  > EOF
  $ forxainde rules --rules rules
  1 kept equality A - 3 = 0
  2 kept equality A - 4 = 0
  3 dropped A - 7 >= 0
    given 1
    given 2
    combine 1 -1 2 1 1

An equality and rules on codes: by it the second rule gives, for the code x, what the third says.

  $ cat >rules <<EOF
  > code B weight 9 in {x, y}
  > number A
  > number C
  > A = C
  > if B in {x} then A >= 5
  > if B in {x} then C >= 4
  > EOF
  $ forxainde rules --rules rules
  1 kept equality A - C = 0
  2 kept needed if B in {x} then A - 5 >= 0
  3 dropped if B in {x} then C - 4 >= 0
    given 1
    given 2
    combine 1 -1 2 1 1
    given 4
    combine 3 1 4 1 1
    fail 5
    given 5
    fail 7
    cover 1 6 8
  $ cat >records <<EOF
  > A,B,C
  > 1,x,1
  > 6,x,2
  > EOF
  $ forxainde edit --rules rules --records records --released released --reasons reasons --proof proof
  records 2 clean 0 changed 2 unresolved 0 weight 3
  claims 2 given 0
  $ cat released
  A,B,C
  5,x,5
  6,x,6
  $ cat reasons
  record,cause,field,before,after,donor,detail
  1,changed,A,1,5,,nearest
  1,changed,C,1,5,,nearest
  2,changed,C,2,6,,nearest
  $ cat proof
  fh-proof 2
  limit 1 near 5 budget 1000000
  lines 3
  keep
  keep
  drop 9
  given 1
  given 2
  combine 1 -1 2 1 1
  given 4
  combine 3 1 4 1 1
  fail 5
  given 5
  fail 7
  cover 1 6 8
  table 3
  given 2
  given 1
  combine 2 -1 1 1 1
  records 2
  change 2 CCK 8
  box KKK 3
  shared 1
  fail 1
  fix 1 2
  bound KKC
  box KCK 3
  shared 1
  fail 1
  fix 1 2
  bound KCC
  box CKK 3
  shared 3
  fail 1
  fix 1 2
  bound CKC
  bound CCK
  bound CCC
  change 1 KCK 4
  line KK 1
  shared 2
  bound KCK
  bound KCC
  bound C
  claims 2
  claim 1 0
  claim 2 0
  end
  $ forxainde check --rules rules --records records --released released --proof proof
  valid records 2 released 2

The donor's value is not taken where the equality forces another one.

  $ cat >records <<EOF
  > A,B,C
  > 8,x,8
  > 6,x,
  > ,x,
  > EOF
  $ forxainde edit --rules rules --records records --released released --reasons reasons --proof proof --limit 2
  records 3 clean 1 changed 2 unresolved 0 weight 3
  claims 2 given 2
  $ cat released
  A,B,C
  8,x,8
  6,x,6
  8,x,8
  $ cat reasons
  record,cause,field,before,after,donor,detail
  2,changed,C,,6,1,nearest
  3,changed,A,,8,1,donor
  3,changed,C,,8,1,donor
  $ forxainde check --rules rules --records records --released released --proof proof
  valid records 3 released 3

A factor past 128 bits in a substitution: the equality is told first, though its line is the second of the two.

  $ cat >rules <<EOF
  > number x1
  > number x2
  > number x3
  > number x4
  > number x5
  > number x6
  > 999999999 x5 >= 1000000000 x6
  > 999999999 x1 = 1000000000 x2
  > 999999999 x2 = 1000000000 x3
  > 999999999 x3 = 1000000000 x4
  > 999999999 x4 = 1000000000 x5
  > EOF
  $ cat >records <<EOF
  > x1,x2,x3,x4,x5,x6
  > 1,,,,,0
  > EOF
  $ forxainde edit --rules rules --records records --released released --reasons reasons --proof proof
  records 1 clean 0 changed 0 unresolved 1 weight 0
  claims 0 given 0
  [1]
  $ cat released
  x1,x2,x3,x4,x5,x6
  $ cat reasons
  record,cause,field,before,after,donor,detail
  1,overflow,,,,,path KCCCC lines 2 1 at x1
  $ cat proof
  fh-proof 2
  limit 1 near 5 budget 1000000
  lines 5
  keep
  keep
  keep
  keep
  keep
  table 0
  records 1
  step KCCCC 2 1 1
  claims 0
  end
  $ forxainde check --rules rules --records records --released released --proof proof
  valid records 1 released 0
