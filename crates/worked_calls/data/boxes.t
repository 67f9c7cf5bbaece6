Boxes of records, each behind where it comes from: a line that fails, or boxes before the last change.

A child that is a married spouse breaks both rules.

  $ cat >household <<EOF
  > code Age in {child, adult}
  > code Status in {single, married}
  > code Rel in {spouse, other}
  > if Age in {child} then Status in {single}
  > if Rel in {spouse} then Status in {married}
  > EOF
  $ boxes household 'child married spouse'
  line 1: if Age in {child} and Status in {married} then never
  line 2: if Status in {single} and Rel in {spouse} then never
  $ boxes household 'child married spouse' pick 1 1
  line 1: if Age in {child} and Status in {married} then never
  line 1: if Age in {child} and Status in {married} then never

Without Status a child is no spouse: one cover is left, from two pairs, which one pair is not enough for.

  $ boxes household 'child married spouse' cover Status 2
  cover 2 1: if Age in {child} and Rel in {spouse} then never
  2 pairs
  $ boxes household 'child married spouse' cover Status 1
  passed

The code child is kept: the first box says nothing of it any more, and the second box stays as it was.

  $ boxes household 'child married spouse' fix Age child
  fixed 1: if Status in {married} then never
  same 2: if Status in {single} and Rel in {spouse} then never

Of boxes of which it is not known that they lie apart the same is told.

  $ boxes household 'child married spouse' pick 1 2 fix Age child
  fixed 1: if Status in {married} then never
  same 2: if Status in {single} and Rel in {spouse} then never
  $ boxes household 'child married spouse' pick 1 2 cover Status 2
  cover 2 1: if Age in {child} and Rel in {spouse} then never
  2 pairs
  $ boxes household 'child married spouse' pick 1 2 cover Status 1
  passed

A box inside another is left out.

  $ boxes household 'child married spouse' pick 2 2 fix Age child
  same 1: if Status in {single} and Rel in {spouse} then never
  $ boxes household 'child married spouse' pick 2 2 cover Age 0
  same 1: if Status in {single} and Rel in {spouse} then never
  0 pairs

The code of the record is kept at Age and at Rel, and no code is left at Status.

  $ boxes household 'child married spouse' fix Age child cover Status 2 fix Rel spouse
  fixed 1: never

A sum past 2^127 - 1 is told by its line and field. Six lines that hold stand before the first of two such.

  $ cat >eight <<EOF
  > number A
  > number B
  > number C
  > number D
  > number E
  > number F
  > number G
  > number H
  > code I in {x, y, z}
  > H >= 1
  > H >= 1
  > H >= 1
  > H >= 1
  > H >= 1
  > H >= 1
  > 3 H + 1 >= 0
  > 3 H + 1 >= 0
  > EOF
  $ boxes eight '2 2 2 2 2 2 2 170141183460469231731687303715884105727 ?'
  overflow in line 7 at H
  $ cat >first <<EOF
  > number A
  > number B
  > 3 A + B >= 0
  > EOF
  $ boxes first '170141183460469231731687303715884105727 0'
  overflow in line 1 at A
