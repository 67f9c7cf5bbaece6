What the search finds of records within a budget of work: the least change, with the tree that shows that none is lighter; where
the budget or the range of numbers ends it; or that there is no correction.

The trade survey, where a change of Turnover weighs 2: a record that is right, and the work of its search.

  $ cat >trade <<EOF
  > number Turnover weight 2
  > number Costs
  > number Profit
  > Turnover >= 0
  > Costs >= 0
  > Turnover - Costs - Profit = 0
  > 10 Profit <= 6 Turnover
  > EOF
  $ search trade '100 60 40' 4
  change 0 KKK 1
  bound -

A profit that is too high is changed alone, by a work of 6.

  $ search trade '100 60 400' 6
  change 1 KKC 4
  line KKK 1
  given 3
  bound KKC
  bound KC
  bound C
  $ search trade '100 60 400' 5
  budget KKC 4

The profit passes 6 tenths of the turnover; with the balance neither the profit nor the costs alone can change.

  $ search trade '100 30 70' 1000
  change 2 KCC 5
  line KKK 1
  given 4
  line KKC 3
  given 3
  given 4
  combine 1 -5 2 1 1
  line KCK 1
  given 4
  bound KCC
  bound C

Fields without a value change in any correction.

  $ search trade '100 ? ?' 1000
  change 2 KCC 4
  bad KK
  bad KCK
  bound KCC
  bound C
  $ search trade '? ? ?' 1000
  change 4 CCC 4
  bad K
  bad CK
  bad CCK
  bound CCC

The lighter of two fields changes; of two that weigh the same the later one.

  $ cat >triple <<EOF
  > number A
  > number B weight 2
  > 3 A - B = 0
  > EOF
  $ search triple '5 7' 1000
  change 1 CK 4
  line KK 1
  given 1
  bound KC
  bound CK
  bound CC
  $ cat >sum <<EOF
  > number A
  > number B
  > A + B = 10
  > EOF
  $ search sum '3 4' 4
  change 1 KC 3
  line KK 1
  given 1
  bound KC
  bound C
  $ search sum '3 4' 3
  budget KC 3

Two equalities, whose only point is 7 and 3.

  $ cat >two <<EOF
  > number A
  > number B
  > A + B = 10
  > A - B = 4
  > EOF
  $ search two '1 1' 9
  change 2 CC 4
  line KK 1
  given 1
  line KC 3
  given 1
  given 2
  combine 1 1 2 1 2
  line CK 3
  given 1
  given 2
  combine 1 -1 2 1 2
  bound CC
  $ search two '1 1' 8
  budget CC 8

Rules that no value meets.

  $ cat >apart <<EOF
  > number A
  > A >= 5
  > A <= 3
  > EOF
  $ search apart '4' 1000
  contradictory 2
  line K 1
  given 1
  line C 3
  given 1
  given 2
  combine 1 1 2 1 2

A chain of bounds, of which the last elimination leaves the range of numbers.

  $ cat >chain <<EOF
  > number x1
  > number x2
  > number x3
  > number x4
  > number x5
  > number x6
  > 999999999 x1 >= 1000000000 x2
  > 999999999 x2 >= 1000000000 x3
  > 999999999 x3 >= 1000000000 x4
  > 999999999 x4 >= 1000000000 x5
  > 999999999 x5 >= 1000000000 x6
  > EOF
  $ search chain '1 ? ? ? ? 0' 1000000
  step KCCCC 1 2 1

Codes: the rules of the household survey are broken whatever the status is.

  $ cat >household <<EOF
  > code Age in {child, adult}
  > code Status in {single, married}
  > code Rel in {spouse, other}
  > if Age in {child} then Status in {single}
  > if Rel in {spouse} then Status in {married}
  > EOF
  $ search household 'child married spouse' 11
  change 1 CKK 6
  box KK 4
  given 1
  fail 1
  fix 1 2
  fix 2 3
  box KCK 7
  given 2
  fail 1
  given 1
  fail 3
  fix 1 4
  cover 2 2 5
  fix 3 6
  bound KCC
  bound CKK
  bound CKC
  bound CC
  $ search household 'child married spouse' 10
  budget CKK 10

A child with a wage: the path order has the numerical field first, and the lighter of both changes.

  $ cat >wage <<EOF
  > code Status in {child, adult}
  > number Wage weight 3
  > if Status in {child} then Wage = 0
  > EOF
  $ search wage 'child 50' 1000
  change 1 KC 3
  box KK 3
  given 2
  fail 1
  fix 1 2
  bound KC
  bound C
  $ cat >wage <<EOF
  > code Status weight 3 in {child, adult}
  > number Wage
  > if Status in {child} then Wage = 0
  > EOF
  $ search wage 'child 50' 1000
  change 1 CK 4
  box KK 3
  given 2
  fail 1
  fix 1 2
  bound KC
  bound CK
  bound CC

Surveys at their limits: no fields, no rules, one code.

  $ cat >nothing <<EOF
  > EOF
  $ search nothing '' 1
  change 0 - 1
  bound -
  $ cat >free <<EOF
  > number A
  > EOF
  $ search free '5' 2
  change 0 K 1
  bound -
  $ search free '5' 1
  budget K 1
  $ cat >one <<EOF
  > code A in {x}
  > EOF
  $ search one 'x' 1000
  change 0 K 1
  bound -
  $ search one '?' 1000
  change 1 C 2
  bad K
  bound C

64 numbers, each at least 0, of which the last is not: 63 are kept, by a work of 66.

  $ cat >many <<EOF
  > number x1
  > number x2
  > number x3
  > number x4
  > number x5
  > number x6
  > number x7
  > number x8
  > number x9
  > number x10
  > number x11
  > number x12
  > number x13
  > number x14
  > number x15
  > number x16
  > number x17
  > number x18
  > number x19
  > number x20
  > number x21
  > number x22
  > number x23
  > number x24
  > number x25
  > number x26
  > number x27
  > number x28
  > number x29
  > number x30
  > number x31
  > number x32
  > number x33
  > number x34
  > number x35
  > number x36
  > number x37
  > number x38
  > number x39
  > number x40
  > number x41
  > number x42
  > number x43
  > number x44
  > number x45
  > number x46
  > number x47
  > number x48
  > number x49
  > number x50
  > number x51
  > number x52
  > number x53
  > number x54
  > number x55
  > number x56
  > number x57
  > number x58
  > number x59
  > number x60
  > number x61
  > number x62
  > number x63
  > number last
  > x1 >= 0
  > x2 >= 0
  > x3 >= 0
  > x4 >= 0
  > x5 >= 0
  > x6 >= 0
  > x7 >= 0
  > x8 >= 0
  > x9 >= 0
  > x10 >= 0
  > x11 >= 0
  > x12 >= 0
  > x13 >= 0
  > x14 >= 0
  > x15 >= 0
  > x16 >= 0
  > x17 >= 0
  > x18 >= 0
  > x19 >= 0
  > x20 >= 0
  > x21 >= 0
  > x22 >= 0
  > x23 >= 0
  > x24 >= 0
  > x25 >= 0
  > x26 >= 0
  > x27 >= 0
  > x28 >= 0
  > x29 >= 0
  > x30 >= 0
  > x31 >= 0
  > x32 >= 0
  > x33 >= 0
  > x34 >= 0
  > x35 >= 0
  > x36 >= 0
  > x37 >= 0
  > x38 >= 0
  > x39 >= 0
  > x40 >= 0
  > x41 >= 0
  > x42 >= 0
  > x43 >= 0
  > x44 >= 0
  > x45 >= 0
  > x46 >= 0
  > x47 >= 0
  > x48 >= 0
  > x49 >= 0
  > x50 >= 0
  > x51 >= 0
  > x52 >= 0
  > x53 >= 0
  > x54 >= 0
  > x55 >= 0
  > x56 >= 0
  > x57 >= 0
  > x58 >= 0
  > x59 >= 0
  > x60 >= 0
  > x61 >= 0
  > x62 >= 0
  > x63 >= 0
  > last >= 0
  > EOF
  $ search many '0 0 0 0 0 0 0 0 0 0 0 0 0 0 0 0 0 0 0 0 0 0 0 0 0 0 0 0 0 0 0 0 0 0 0 0 0 0 0 0 0 0 0 0 0 0 0 0 0 0 0 0 0 0 0 0 0 0 0 0 0 0 0 -1' 66
  change 1 KKKKKKKKKKKKKKKKKKKKKKKKKKKKKKKKKKKKKKKKKKKKKKKKKKKKKKKKKKKKKKKC 65
  line KKKKKKKKKKKKKKKKKKKKKKKKKKKKKKKKKKKKKKKKKKKKKKKKKKKKKKKKKKKKKKKK 1
  given 64
  bound KKKKKKKKKKKKKKKKKKKKKKKKKKKKKKKKKKKKKKKKKKKKKKKKKKKKKKKKKKKKKKKC
  bound KKKKKKKKKKKKKKKKKKKKKKKKKKKKKKKKKKKKKKKKKKKKKKKKKKKKKKKKKKKKKKC
  bound KKKKKKKKKKKKKKKKKKKKKKKKKKKKKKKKKKKKKKKKKKKKKKKKKKKKKKKKKKKKKC
  bound KKKKKKKKKKKKKKKKKKKKKKKKKKKKKKKKKKKKKKKKKKKKKKKKKKKKKKKKKKKKC
  bound KKKKKKKKKKKKKKKKKKKKKKKKKKKKKKKKKKKKKKKKKKKKKKKKKKKKKKKKKKKC
  bound KKKKKKKKKKKKKKKKKKKKKKKKKKKKKKKKKKKKKKKKKKKKKKKKKKKKKKKKKKC
  bound KKKKKKKKKKKKKKKKKKKKKKKKKKKKKKKKKKKKKKKKKKKKKKKKKKKKKKKKKC
  bound KKKKKKKKKKKKKKKKKKKKKKKKKKKKKKKKKKKKKKKKKKKKKKKKKKKKKKKKC
  bound KKKKKKKKKKKKKKKKKKKKKKKKKKKKKKKKKKKKKKKKKKKKKKKKKKKKKKKC
  bound KKKKKKKKKKKKKKKKKKKKKKKKKKKKKKKKKKKKKKKKKKKKKKKKKKKKKKC
  bound KKKKKKKKKKKKKKKKKKKKKKKKKKKKKKKKKKKKKKKKKKKKKKKKKKKKKC
  bound KKKKKKKKKKKKKKKKKKKKKKKKKKKKKKKKKKKKKKKKKKKKKKKKKKKKC
  bound KKKKKKKKKKKKKKKKKKKKKKKKKKKKKKKKKKKKKKKKKKKKKKKKKKKC
  bound KKKKKKKKKKKKKKKKKKKKKKKKKKKKKKKKKKKKKKKKKKKKKKKKKKC
  bound KKKKKKKKKKKKKKKKKKKKKKKKKKKKKKKKKKKKKKKKKKKKKKKKKC
  bound KKKKKKKKKKKKKKKKKKKKKKKKKKKKKKKKKKKKKKKKKKKKKKKKC
  bound KKKKKKKKKKKKKKKKKKKKKKKKKKKKKKKKKKKKKKKKKKKKKKKC
  bound KKKKKKKKKKKKKKKKKKKKKKKKKKKKKKKKKKKKKKKKKKKKKKC
  bound KKKKKKKKKKKKKKKKKKKKKKKKKKKKKKKKKKKKKKKKKKKKKC
  bound KKKKKKKKKKKKKKKKKKKKKKKKKKKKKKKKKKKKKKKKKKKKC
  bound KKKKKKKKKKKKKKKKKKKKKKKKKKKKKKKKKKKKKKKKKKKC
  bound KKKKKKKKKKKKKKKKKKKKKKKKKKKKKKKKKKKKKKKKKKC
  bound KKKKKKKKKKKKKKKKKKKKKKKKKKKKKKKKKKKKKKKKKC
  bound KKKKKKKKKKKKKKKKKKKKKKKKKKKKKKKKKKKKKKKKC
  bound KKKKKKKKKKKKKKKKKKKKKKKKKKKKKKKKKKKKKKKC
  bound KKKKKKKKKKKKKKKKKKKKKKKKKKKKKKKKKKKKKKC
  bound KKKKKKKKKKKKKKKKKKKKKKKKKKKKKKKKKKKKKC
  bound KKKKKKKKKKKKKKKKKKKKKKKKKKKKKKKKKKKKC
  bound KKKKKKKKKKKKKKKKKKKKKKKKKKKKKKKKKKKC
  bound KKKKKKKKKKKKKKKKKKKKKKKKKKKKKKKKKKC
  bound KKKKKKKKKKKKKKKKKKKKKKKKKKKKKKKKKC
  bound KKKKKKKKKKKKKKKKKKKKKKKKKKKKKKKKC
  bound KKKKKKKKKKKKKKKKKKKKKKKKKKKKKKKC
  bound KKKKKKKKKKKKKKKKKKKKKKKKKKKKKKC
  bound KKKKKKKKKKKKKKKKKKKKKKKKKKKKKC
  bound KKKKKKKKKKKKKKKKKKKKKKKKKKKKC
  bound KKKKKKKKKKKKKKKKKKKKKKKKKKKC
  bound KKKKKKKKKKKKKKKKKKKKKKKKKKC
  bound KKKKKKKKKKKKKKKKKKKKKKKKKC
  bound KKKKKKKKKKKKKKKKKKKKKKKKC
  bound KKKKKKKKKKKKKKKKKKKKKKKC
  bound KKKKKKKKKKKKKKKKKKKKKKC
  bound KKKKKKKKKKKKKKKKKKKKKC
  bound KKKKKKKKKKKKKKKKKKKKC
  bound KKKKKKKKKKKKKKKKKKKC
  bound KKKKKKKKKKKKKKKKKKC
  bound KKKKKKKKKKKKKKKKKC
  bound KKKKKKKKKKKKKKKKC
  bound KKKKKKKKKKKKKKKC
  bound KKKKKKKKKKKKKKC
  bound KKKKKKKKKKKKKC
  bound KKKKKKKKKKKKC
  bound KKKKKKKKKKKC
  bound KKKKKKKKKKC
  bound KKKKKKKKKC
  bound KKKKKKKKC
  bound KKKKKKKC
  bound KKKKKKC
  bound KKKKKC
  bound KKKKC
  bound KKKC
  bound KKC
  bound KC
  bound C
