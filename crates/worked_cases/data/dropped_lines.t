Releases whose proofs drop lines of the rules, and the audit of them where the steps do not refute the line's negation.

Of two lower bounds the less is dropped: with the other one its negation, line 3, says that -1 is above 0.

  $ cat >rules <<EOF
  > number A
  > A >= 1
  > A >= 0
  > EOF
  $ cat >records <<EOF
  > A
  > 3
  > EOF
  $ forxainde edit --rules rules --records records --released released --reasons reasons --proof proof
  records 1 clean 1 changed 0 unresolved 0 weight 0
  claims 0 given 0
  $ cat released
  A
  3
  $ cat proof
  fh-proof 2
  limit 1 near 5 budget 1000000
  lines 2
  keep
  drop 3
  given 1
  given 3
  combine 1 1 2 1 1
  table 0
  records 1
  clean
  claims 0
  end
  $ forxainde check --rules rules --records records --released released --proof proof
  valid records 1 released 1
  $ cp proof right.proof
  $ cp right.proof proof
  $ sed -i -e '8c\combine 1 2 2 2 1' proof
  $ forxainde check --rules rules --records records --released released --proof proof
  valid records 1 released 1

No steps, and steps that end in what some point meets.

  $ cp right.proof proof
  $ sed -i -e '5c\drop 0' -e '6d' -e '7d' -e '8d' proof
  $ forxainde check --rules rules --records records --released released --proof proof
  fault: proof line 5 Drop
  [9]
  $ cp right.proof proof
  $ sed -i -e '5c\drop 2' -e '8d' proof
  $ forxainde check --rules rules --records records --released released --proof proof
  fault: proof line 5 Drop
  [9]
  $ cp right.proof proof
  $ sed -i -e '8c\combine 1 1 2 2 1' proof
  $ forxainde check --rules rules --records records --released released --proof proof
  fault: proof line 5 Drop
  [9]

The first step that is not valid: the line itself, a line past its negation, a step that is no earlier one, a field that is
kept nowhere.

  $ cp right.proof proof
  $ sed -i -e '7c\given 2' proof
  $ forxainde check --rules rules --records records --released released --proof proof
  fault: proof line 7 Drop
  [9]
  $ cp right.proof proof
  $ sed -i -e '7c\given 4' proof
  $ forxainde check --rules rules --records records --released released --proof proof
  fault: proof line 7 Drop
  [9]
  $ cp right.proof proof
  $ sed -i -e '8c\combine 1 1 3 1 1' proof
  $ forxainde check --rules rules --records records --released released --proof proof
  fault: proof line 8 Drop
  [9]
  $ cp right.proof proof
  $ sed -i -e '8c\fail 1' proof
  $ forxainde check --rules rules --records records --released released --proof proof
  fault: proof line 8 Drop
  [9]

A line that is needed, and one that builds on a later line that is dropped too.

  $ cp right.proof proof
  $ sed -i -e '4c\drop 1\ngiven 3' proof
  $ forxainde check --rules rules --records records --released released --proof proof
  fault: proof line 4 Drop
  [9]
  $ cp right.proof proof
  $ sed -i -e '4c\drop 2\ngiven 3\ngiven 2' proof
  $ forxainde check --rules rules --records records --released released --proof proof
  fault: proof line 6 Drop
  [9]

Of two equal lines either may be dropped, and not both.

  $ cat >rules <<EOF
  > number A
  > A >= 0
  > A >= 0
  > EOF
  $ cat >right.proof <<EOF
  > fh-proof 1
  > limit 1 near 5 budget 1000000
  > lines 2
  > drop 3
  > given 2
  > given 3
  > combine 1 1 2 1 1
  > drop 3
  > given 1
  > given 3
  > combine 1 1 2 1 1
  > records 1
  > clean
  > claims 0
  > end
  > EOF
  $ cp right.proof proof
  $ forxainde check --rules rules --records records --released released --proof proof
  fault: proof line 5 Drop
  [9]
  $ cp right.proof proof
  $ sed -i -e '4c\keep' -e '5d' -e '6d' -e '7d' proof
  $ forxainde check --rules rules --records records --released released --proof proof
  valid records 1 released 1
  $ cp right.proof proof
  $ sed -i -e '8c\keep' -e '9d' -e '10d' -e '11d' proof
  $ forxainde check --rules rules --records records --released released --proof proof
  valid records 1 released 1

Both lines forbid the code y. The negation of the second has a line 4, that the code x is none.

  $ cat >rules <<EOF
  > code B in {x, y}
  > B in {x}
  > B not in {y}
  > EOF
  $ cat >records <<EOF
  > B
  > x
  > EOF
  $ cat >released <<EOF
  > B
  > x
  > EOF
  $ cat >right.proof <<EOF
  > fh-proof 1
  > limit 1 near 5 budget 1000000
  > lines 2
  > keep
  > drop 5
  > given 1
  > fail 1
  > given 4
  > fail 3
  > cover 1 4 2
  > records 1
  > clean
  > claims 0
  > end
  > EOF
  $ cp right.proof proof
  $ forxainde check --rules rules --records records --released released --proof proof
  valid records 1 released 1

A box and a false line that are of some codes alone; the negation's first line, which holds; parts in the wrong order; and
a field that is not kept.

  $ cp right.proof proof
  $ sed -i -e '5c\drop 4' -e '10d' proof
  $ forxainde check --rules rules --records records --released released --proof proof
  fault: proof line 5 Drop
  [9]
  $ cp right.proof proof
  $ sed -i -e '5c\drop 1' -e '7d' -e '8d' -e '9d' -e '10d' proof
  $ forxainde check --rules rules --records records --released released --proof proof
  fault: proof line 5 Drop
  [9]
  $ cp right.proof proof
  $ sed -i -e '8c\given 3' proof
  $ forxainde check --rules rules --records records --released released --proof proof
  fault: proof line 9 Drop
  [9]
  $ cp right.proof proof
  $ sed -i -e '10c\cover 1 2 4' proof
  $ forxainde check --rules rules --records records --released released --proof proof
  fault: proof line 10 Drop
  [9]
  $ cp right.proof proof
  $ sed -i -e '10c\fix 1 2' proof
  $ forxainde check --rules rules --records records --released released --proof proof
  fault: proof line 10 Drop
  [9]
