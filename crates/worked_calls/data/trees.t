Proof trees of a record, checked leaf by leaf. The head says what a tree is to show: a weight that no correction is below, or that
there is none.

A child that is a married spouse: the lightest correction weighs 1.

  $ cat >household <<EOF
  > code Age in {child, adult}
  > code Status in {single, married}
  > code Rel in {spouse, other}
  > if Age in {child} then Status in {single}
  > if Rel in {spouse} then Status in {married}
  > EOF
  $ cat >tree <<EOF
  > change 1 CKK 6
  > box KK 4
  > given 1
  > fail 1
  > fix 1 2
  > fix 2 3
  > box KCK 7
  > given 2
  > fail 1
  > given 1
  > fail 3
  > fix 1 4
  > cover 2 2 5
  > fix 3 6
  > bound KCC
  > bound CKK
  > bound CKC
  > bound CC
  > EOF
  $ tree household 'child married spouse' tree
  valid

Not all of them weigh 2.

  $ cp tree other
  $ sed -i -e '1c\change 2 CKK 6' other
  $ tree household 'child married spouse' other
  no leaf 4

No leaves; a branch is missing, within and at the end; leaves are swapped.

  $ cat >other <<EOF
  > change 1 CKK 0
  > EOF
  $ tree household 'child married spouse' other
  no leaf 1
  $ cat >other <<EOF
  > change 1 CKK 4
  > box KK 4
  > given 1
  > fail 1
  > fix 1 2
  > fix 2 3
  > bound CKK
  > bound CKC
  > bound CC
  > EOF
  $ tree household 'child married spouse' other
  no leaf 2
  $ cp tree other
  $ sed -i -e '1c\change 1 CKK 5' -e '18d' other
  $ tree household 'child married spouse' other
  no leaf 5
  $ cp tree other
  $ sed -i -e '16c\bound CKC' -e '17c\bound CKK' other
  $ tree household 'child married spouse' other
  no leaf 4

Steps of another leaf, where Status is not kept.

  $ cat >other <<EOF
  > change 1 CKK 6
  > box KK 4
  > given 1
  > fail 1
  > fix 1 2
  > fix 2 3
  > box KCK 4
  > given 1
  > fail 1
  > fix 1 2
  > fix 2 3
  > bound KCC
  > bound CKK
  > bound CKC
  > bound CC
  > EOF
  $ tree household 'child married spouse' other
  no leaf 2 step 4

No correction: what is not known is not kept, and the lines contradict each other.

  $ cat >apart <<EOF
  > number A
  > number B
  > number C
  > A >= 5
  > A <= 3
  > EOF
  $ cat >tree <<EOF
  > contradictory 2
  > bad K
  > line C 3
  > given 1
  > given 2
  > combine 1 1 2 1 2
  > EOF
  $ tree apart '? ? ?' tree
  valid
  $ tree apart '4 ? ?' tree
  no leaf 1
