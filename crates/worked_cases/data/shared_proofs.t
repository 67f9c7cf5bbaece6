Proofs of version 2: the lines that are derived stand in a table, each once for all records, and the leaves name them there.
What the editor writes is of this version; version 1 is checked as before.

No number is at least 5 and at most 3. Line 9 is the third step of the table, the sum of both rules, which the second leaf
names.

  $ cat >rules <<EOF
  > number A
  > A >= 5
  > A <= 3
  > EOF
  $ cat >records <<EOF
  > A
  > 4
  > EOF
  $ forxainde edit --rules rules --records records --released released --reasons reasons --proof proof
  records 1 clean 0 changed 0 unresolved 1 weight 0
  claims 0 given 0
  [1]
  $ cat released
  A
  $ cat proof
  fh-proof 2
  limit 1 near 5 budget 1000000
  lines 2
  keep
  keep
  table 3
  given 1
  given 2
  combine 1 1 2 1 2
  records 1
  contradictory 2
  line K 1
  shared 1
  line C 1
  shared 3
  claims 0
  end
  $ forxainde check --rules rules --records records --released released --proof proof
  valid records 1 released 0
  $ cp proof right.proof

The same in version 1.

  $ cat >first.proof <<EOF
  > fh-proof 1
  > limit 1 near 5 budget 1000000
  > lines 2
  > keep
  > keep
  > records 1
  > contradictory 2
  > line K 1
  > given 1
  > line C 3
  > given 1
  > given 2
  > combine 1 1 2 1 2
  > claims 0
  > end
  > EOF
  $ cp first.proof proof
  $ forxainde check --rules rules --records records --released released --proof proof
  valid records 1 released 0

A step of the table that is not valid is told by its own line, and not where it is named: a divisor that divides not all, a
step that names itself, a later one or none, and a line that is not there.

  $ cp right.proof proof
  $ sed -i -e '9c\combine 1 1 2 2 2' proof
  $ forxainde check --rules rules --records records --released released --proof proof
  fault: proof line 9 Table
  [9]
  $ cp right.proof proof
  $ sed -i -e '9c\combine 1 1 3 1 2' proof
  $ forxainde check --rules rules --records records --released released --proof proof
  fault: proof line 9 Table
  [9]
  $ cp right.proof proof
  $ sed -i -e '8c\combine 2 1 1 1 1' proof
  $ forxainde check --rules rules --records records --released released --proof proof
  fault: proof line 8 Table
  [9]
  $ cp right.proof proof
  $ sed -i -e '7c\combine 2 1 2 1 2' proof
  $ forxainde check --rules rules --records records --released released --proof proof
  fault: proof line 7 Table
  [9]
  $ cp right.proof proof
  $ sed -i -e '9c\combine 1 1 4 1 2' proof
  $ forxainde check --rules rules --records records --released released --proof proof
  fault: proof line 9 Table
  [9]
  $ cp right.proof proof
  $ sed -i -e '9c\combine 1 1 18446744073709551616 1 2' proof
  $ forxainde check --rules rules --records records --released released --proof proof
  fault: proof line 9 Table
  [9]
  $ cp right.proof proof
  $ sed -i -e '8c\given 3' proof
  $ forxainde check --rules rules --records records --released released --proof proof
  fault: proof line 8 Table
  [9]
  $ cp right.proof proof
  $ sed -i -e '8c\given 18446744073709551616' proof
  $ forxainde check --rules rules --records records --released released --proof proof
  fault: proof line 8 Table
  [9]

A multiplier below 0 for what is no equality, the multiplier 0, the divisor 0, and a number past 128 bits. Of two steps that
are not valid the first is told.

  $ cp right.proof proof
  $ sed -i -e '9c\combine 1 -1 2 1 2' proof
  $ forxainde check --rules rules --records records --released released --proof proof
  fault: proof line 9 Table
  [9]
  $ cp right.proof proof
  $ sed -i -e '9c\combine 1 1 2 0 1' proof
  $ forxainde check --rules rules --records records --released released --proof proof
  fault: proof line 9 Table
  [9]
  $ cp right.proof proof
  $ sed -i -e '9c\combine 1 1 2 1 0' proof
  $ forxainde check --rules rules --records records --released released --proof proof
  fault: proof line 9 Table
  [9]
  $ cp right.proof proof
  $ sed -i -e '9c\combine 1 170141183460469231731687303715884105727 2 1 2' proof
  $ forxainde check --rules rules --records records --released released --proof proof
  fault: proof line 9 Table
  [9]
  $ cp right.proof proof
  $ sed -i -e '8c\given 3' -e '9c\combine 1 1 2 2 2' proof
  $ forxainde check --rules rules --records records --released released --proof proof
  fault: proof line 8 Table
  [9]

Other tables that show the same: another divisor, or other multiples; a step that stands there twice, or that no leaf names;
and none at all, or a part of the steps, where the leaves have the others, as in version 1.

  $ cp right.proof proof
  $ sed -i -e '9c\combine 1 1 2 1 1' proof
  $ forxainde check --rules rules --records records --released released --proof proof
  valid records 1 released 0
  $ cp right.proof proof
  $ sed -i -e '9c\combine 1 2 2 2 4' proof
  $ forxainde check --rules rules --records records --released released --proof proof
  valid records 1 released 0
  $ cp right.proof proof
  $ sed -i -e '6c\table 4' -e '7c\given 1\ngiven 1' -e '9c\combine 2 1 3 1 2' -e '15c\shared 4' proof
  $ forxainde check --rules rules --records records --released released --proof proof
  valid records 1 released 0
  $ cp right.proof proof
  $ sed -i -e '6c\table 5' -e '9c\combine 1 1 2 1 2\ncombine 1 1 2 1 2\ngiven 2' proof
  $ forxainde check --rules rules --records records --released released --proof proof
  valid records 1 released 0
  $ cp right.proof proof
  $ sed -i -e '6c\table 0' -e '7d' -e '8d' -e '9d' -e '13c\given 1' -e '14c\line C 3' -e '15c\given 1\ngiven 2\ncombine 1 1 2 1 2' proof
  $ forxainde check --rules rules --records records --released released --proof proof
  valid records 1 released 0
  $ cp right.proof proof
  $ sed -i -e '6c\table 2' -e '9d' -e '14c\line C 3' -e '15c\shared 1\nshared 2\ncombine 1 1 2 1 2' proof
  $ forxainde check --rules rules --records records --released released --proof proof
  valid records 1 released 0
  $ cp right.proof proof
  $ sed -i -e '6c\table 1' -e '8d' -e '9d' -e '14c\line C 3' -e '15c\given 2\nshared 1\ncombine 2 1 1 1 2' proof
  $ forxainde check --rules rules --records records --released released --proof proof
  valid records 1 released 0

A step in a leaf that is not valid, behind a table of two steps, is told by its own line.

  $ cp right.proof proof
  $ sed -i -e '6c\table 2' -e '9d' -e '14c\line C 3' -e '15c\shared 1\nshared 2\ncombine 1 1 2 2 2' proof
  $ forxainde check --rules rules --records records --released released --proof proof
  fault: proof line 16 Cert
  [9]
  $ cp right.proof proof
  $ sed -i -e '6c\table 2' -e '9d' -e '14c\line C 3' -e '15c\shared 1\nshared 2\ncombine 1 1 3 1 2' proof
  $ forxainde check --rules rules --records records --released released --proof proof
  fault: proof line 16 Cert
  [9]
  $ cp right.proof proof
  $ sed -i -e '6c\table 2' -e '9d' -e '14c\line C 3' -e '15c\shared 1\nshared 3\ncombine 1 1 2 1 2' proof
  $ forxainde check --rules rules --records records --released released --proof proof
  fault: proof line 15 Cert
  [9]

Which lines the leaves name: of those that fail at the record another one, and the last, which is false; one in which A
stands, which the second leaf does not keep; a combination by which A does not go; a line past the table, and a leaf without
steps.

  $ cp right.proof proof
  $ sed -i -e '13c\shared 2' proof
  $ forxainde check --rules rules --records records --released released --proof proof
  valid records 1 released 0
  $ cp right.proof proof
  $ sed -i -e '13c\shared 3' proof
  $ forxainde check --rules rules --records records --released released --proof proof
  valid records 1 released 0
  $ cp right.proof proof
  $ sed -i -e '13c\given 2' proof
  $ forxainde check --rules rules --records records --released released --proof proof
  valid records 1 released 0
  $ cp right.proof proof
  $ sed -i -e '15c\shared 1' proof
  $ forxainde check --rules rules --records records --released released --proof proof
  fault: proof line 14 Cert
  [9]
  $ cp right.proof proof
  $ sed -i -e '9c\combine 1 2 2 1 1' proof
  $ forxainde check --rules rules --records records --released released --proof proof
  fault: proof line 14 Cert
  [9]
  $ cp right.proof proof
  $ sed -i -e '15c\shared 4' proof
  $ forxainde check --rules rules --records records --released released --proof proof
  fault: proof line 15 Cert
  [9]
  $ cp right.proof proof
  $ sed -i -e '13c\shared 4' -e '15c\shared 4' proof
  $ forxainde check --rules rules --records records --released released --proof proof
  fault: proof line 13 Cert
  [9]
  $ cp right.proof proof
  $ sed -i -e '14c\line C 0' -e '15d' proof
  $ forxainde check --rules rules --records records --released released --proof proof
  fault: proof line 14 Cert
  [9]

The number of a shared line is at least 1, and at most 2^64 with the count of the rules' lines, which is 2; that of a given
line is at most this count. In version 1 it may be any, as here, and is then no line.

  $ cp right.proof proof
  $ sed -i -e '15c\shared 18446744073709551614' proof
  $ forxainde check --rules rules --records records --released released --proof proof
  fault: proof line 15 Cert
  [9]
  $ cp right.proof proof
  $ sed -i -e '15c\shared 18446744073709551615' proof
  $ forxainde check --rules rules --records records --released released --proof proof
  fault: proof line 15 Grammar
  [9]
  $ cp right.proof proof
  $ sed -i -e '15c\shared 18446744073709551617' proof
  $ forxainde check --rules rules --records records --released released --proof proof
  fault: proof line 15 Grammar
  [9]
  $ cp right.proof proof
  $ sed -i -e '15c\shared 0' proof
  $ forxainde check --rules rules --records records --released released --proof proof
  fault: proof line 15 Grammar
  [9]
  $ cp right.proof proof
  $ sed -i -e '15c\shared 03' proof
  $ forxainde check --rules rules --records records --released released --proof proof
  fault: proof line 15 Grammar
  [9]
  $ cp right.proof proof
  $ sed -i -e '15c\shared 3 1' proof
  $ forxainde check --rules rules --records records --released released --proof proof
  fault: proof line 15 Grammar
  [9]
  $ cp right.proof proof
  $ sed -i -e '15c\shared' proof
  $ forxainde check --rules rules --records records --released released --proof proof
  fault: proof line 15 Grammar
  [9]
  $ cp right.proof proof
  $ sed -i -e '15c\given 2' proof
  $ forxainde check --rules rules --records records --released released --proof proof
  fault: proof line 14 Cert
  [9]
  $ cp right.proof proof
  $ sed -i -e '15c\given 3' proof
  $ forxainde check --rules rules --records records --released released --proof proof
  fault: proof line 15 Grammar
  [9]
  $ cp right.proof proof
  $ sed -i -e '13c\given 3' proof
  $ forxainde check --rules rules --records records --released released --proof proof
  fault: proof line 13 Grammar
  [9]
  $ cp first.proof proof
  $ sed -i -e '9c\given 3' proof
  $ forxainde check --rules rules --records records --released released --proof proof
  fault: proof line 9 Cert
  [9]

Version 1 has no table, and no step of it is shared; version 2 has one table, behind the lines of the rules; and there is no
third.

  $ cp first.proof proof
  $ sed -i -e '5a\table 0' proof
  $ forxainde check --rules rules --records records --released released --proof proof
  fault: proof line 6 Grammar
  [9]
  $ cp first.proof proof
  $ sed -i -e '9c\shared 1' proof
  $ forxainde check --rules rules --records records --released released --proof proof
  fault: proof line 9 Grammar
  [9]
  $ cp right.proof proof
  $ sed -i -e '1c\fh-proof 1' proof
  $ forxainde check --rules rules --records records --released released --proof proof
  fault: proof line 6 Grammar
  [9]
  $ cp first.proof proof
  $ sed -i -e '1c\fh-proof 2' proof
  $ forxainde check --rules rules --records records --released released --proof proof
  fault: proof line 6 Grammar
  [9]
  $ cp right.proof proof
  $ sed -i -e '6d' -e '7d' -e '8d' -e '9d' proof
  $ forxainde check --rules rules --records records --released released --proof proof
  fault: proof line 6 Grammar
  [9]
  $ cp right.proof proof
  $ sed -i -e '5a\table 0' proof
  $ forxainde check --rules rules --records records --released released --proof proof
  fault: proof line 7 Grammar
  [9]
  $ cp right.proof proof
  $ sed -i -e '3a\table 0' proof
  $ forxainde check --rules rules --records records --released released --proof proof
  fault: proof line 4 Grammar
  [9]
  $ cp right.proof proof
  $ sed -i -e '1c\fh-proof 3' proof
  $ forxainde check --rules rules --records records --released released --proof proof
  fault: proof line 1 Grammar
  [9]
  $ cp right.proof proof
  $ sed -i -e '1c\fh-proof 02' proof
  $ forxainde check --rules rules --records records --released released --proof proof
  fault: proof line 1 Grammar
  [9]
  $ cp right.proof proof
  $ sed -i -e '1c\fh-proof 2 ' proof
  $ forxainde check --rules rules --records records --released released --proof proof
  fault: proof line 1 Grammar
  [9]

The count of the table's steps: less and more than stand there, a count past 64 bits, and words that are no count.

  $ cp right.proof proof
  $ sed -i -e '6c\table 2' proof
  $ forxainde check --rules rules --records records --released released --proof proof
  fault: proof line 9 Grammar
  [9]
  $ cp right.proof proof
  $ sed -i -e '6c\table 4' proof
  $ forxainde check --rules rules --records records --released released --proof proof
  fault: proof line 10 Grammar
  [9]
  $ cp right.proof proof
  $ sed -i -e '6c\table 4000000000' proof
  $ forxainde check --rules rules --records records --released released --proof proof
  fault: proof line 10 Grammar
  [9]
  $ cp right.proof proof
  $ sed -i -e '6c\table 18446744073709551615' proof
  $ forxainde check --rules rules --records records --released released --proof proof
  fault: proof line 10 Grammar
  [9]
  $ cp right.proof proof
  $ sed -i -e '6c\table 18446744073709551616' proof
  $ forxainde check --rules rules --records records --released released --proof proof
  fault: proof line 6 Grammar
  [9]
  $ cp right.proof proof
  $ sed -i -e '6c\table 03' proof
  $ forxainde check --rules rules --records records --released released --proof proof
  fault: proof line 6 Grammar
  [9]
  $ cp right.proof proof
  $ sed -i -e '6c\table' proof
  $ forxainde check --rules rules --records records --released released --proof proof
  fault: proof line 6 Grammar
  [9]
  $ cp right.proof proof
  $ sed -i -e '6c\table 3 3' proof
  $ forxainde check --rules rules --records records --released released --proof proof
  fault: proof line 6 Grammar
  [9]
  $ cp right.proof proof
  $ sed -i -e '10d' -e '11d' -e '12d' -e '13d' -e '14d' -e '15d' -e '16d' -e '17d' proof
  $ forxainde check --rules rules --records records --released released --proof proof
  fault: proof line 10 Grammar
  [9]

No step that makes a box stands in the table, and none that is shared; the numbers are those of every step.

  $ cp right.proof proof
  $ sed -i -e '9c\fail 1' proof
  $ forxainde check --rules rules --records records --released released --proof proof
  fault: proof line 9 Grammar
  [9]
  $ cp right.proof proof
  $ sed -i -e '9c\cover 1 1' proof
  $ forxainde check --rules rules --records records --released released --proof proof
  fault: proof line 9 Grammar
  [9]
  $ cp right.proof proof
  $ sed -i -e '9c\fix 1 1' proof
  $ forxainde check --rules rules --records records --released released --proof proof
  fault: proof line 9 Grammar
  [9]
  $ cp right.proof proof
  $ sed -i -e '9c\shared 1' proof
  $ forxainde check --rules rules --records records --released released --proof proof
  fault: proof line 9 Grammar
  [9]
  $ cp right.proof proof
  $ sed -i -e '9c\keep' proof
  $ forxainde check --rules rules --records records --released released --proof proof
  fault: proof line 9 Grammar
  [9]
  $ cp right.proof proof
  $ sed -i -e '9c\given 0' proof
  $ forxainde check --rules rules --records records --released released --proof proof
  fault: proof line 9 Grammar
  [9]
  $ cp right.proof proof
  $ sed -i -e '9c\given 18446744073709551617' proof
  $ forxainde check --rules rules --records records --released released --proof proof
  fault: proof line 9 Grammar
  [9]
  $ cp right.proof proof
  $ sed -i -e '9c\combine 1 1 0 1 2' proof
  $ forxainde check --rules rules --records records --released released --proof proof
  fault: proof line 9 Grammar
  [9]
  $ cp right.proof proof
  $ sed -i -e '9c\combine 1 1 2 1 -2' proof
  $ forxainde check --rules rules --records records --released released --proof proof
  fault: proof line 9 Grammar
  [9]
  $ cp right.proof proof
  $ sed -i -e '9c\combine 1 -170141183460469231731687303715884105728 2 1 2' proof
  $ forxainde check --rules rules --records records --released released --proof proof
  fault: proof line 9 Grammar
  [9]

The order: limits and counts are told before the table, the table before the released rows, and these before the records.

  $ cp right.proof proof
  $ sed -i -e '2c\limit 0 near 5 budget 1000000' -e '8c\given 3' proof
  $ forxainde check --rules rules --records records --released released --proof proof
  fault: proof line 2 Head
  [9]
  $ cp right.proof proof
  $ sed -i -e '3c\lines 1' -e '4d' -e '8c\given 3' proof
  $ forxainde check --rules rules --records records --released released --proof proof
  fault: proof line 3 Head
  [9]
  $ cp right.proof proof
  $ sed -i -e '8c\given 3' -e '10c\records 2\nclean' proof
  $ forxainde check --rules rules --records records --released released --proof proof
  fault: proof line 10 Head
  [9]
  $ sed -i -e '1a\4' released
  $ cp right.proof proof
  $ sed -i -e '8c\given 3' -e '15c\shared 4' proof
  $ forxainde check --rules rules --records records --released released --proof proof
  fault: proof line 8 Table
  [9]
  $ cp right.proof proof
  $ sed -i -e '15c\shared 4' proof
  $ forxainde check --rules rules --records records --released released --proof proof
  fault: proof line 0 RowText
  [9]
  $ sed -i -e '2d' released
  $ cp right.proof proof
  $ sed -i -e '8c\given 3' -e '13c\shared 4' proof
  $ forxainde check --rules rules --records records --released released --proof proof
  fault: proof line 8 Table
  [9]
  $ cp right.proof proof
  $ sed -i -e '12c\line KK 1' -e '15c\shared 4' proof
  $ forxainde check --rules rules --records records --released released --proof proof
  fault: proof line 12 Cert
  [9]

A line that is dropped: the second rule follows from the first. The table builds on the lines that are kept alone, not on the
one that is dropped, nor on its negation, which is line 3 for the steps of the drop alone; and so do the leaves. The steps of
the drop are as in version 1, and name no line of the table.

  $ cat >rules <<EOF
  > number A
  > A >= 1
  > A >= 0
  > EOF
  $ cat >records <<EOF
  > A
  > 0
  > EOF
  $ forxainde edit --rules rules --records records --released released --reasons reasons --proof proof
  records 1 clean 0 changed 1 unresolved 0 weight 1
  claims 1 given 0
  $ cat released
  A
  1
  $ cat proof
  fh-proof 2
  limit 1 near 5 budget 1000000
  lines 2
  keep
  drop 3
  given 1
  given 3
  combine 1 1 2 1 1
  table 1
  given 1
  records 1
  change 1 C 2
  line K 1
  shared 1
  bound C
  claims 1
  claim 1 0
  end
  $ forxainde check --rules rules --records records --released released --proof proof
  valid records 1 released 1
  $ cp proof right.proof
  $ cp right.proof proof
  $ sed -i -e '10c\given 2' proof
  $ forxainde check --rules rules --records records --released released --proof proof
  fault: proof line 10 Table
  [9]
  $ cp right.proof proof
  $ sed -i -e '10c\given 3' proof
  $ forxainde check --rules rules --records records --released released --proof proof
  fault: proof line 10 Table
  [9]
  $ cp right.proof proof
  $ sed -i -e '14c\given 1' proof
  $ forxainde check --rules rules --records records --released released --proof proof
  valid records 1 released 1
  $ cp right.proof proof
  $ sed -i -e '14c\given 2' proof
  $ forxainde check --rules rules --records records --released released --proof proof
  fault: proof line 14 Cert
  [9]
  $ cp right.proof proof
  $ sed -i -e '14c\given 3' proof
  $ forxainde check --rules rules --records records --released released --proof proof
  fault: proof line 14 Grammar
  [9]
  $ cp right.proof proof
  $ sed -i -e '14c\shared 2' proof
  $ forxainde check --rules rules --records records --released released --proof proof
  fault: proof line 14 Cert
  [9]
  $ cp right.proof proof
  $ sed -i -e '6c\shared 1' proof
  $ forxainde check --rules rules --records records --released released --proof proof
  fault: proof line 6 Grammar
  [9]
  $ cp right.proof proof
  $ sed -i -e '9c\table 2' -e '10c\given 1\ncombine 1 1 1 1 2' -e '14c\shared 2' proof
  $ forxainde check --rules rules --records records --released released --proof proof
  valid records 1 released 1
  $ cp right.proof proof
  $ sed -i -e '9c\table 2' -e '10c\given 1\ncombine 1 3 1 4 1' -e '14c\shared 2' proof
  $ forxainde check --rules rules --records records --released released --proof proof
  valid records 1 released 1
  $ cp right.proof proof
  $ sed -i -e '8c\combine 1 1 3 1 1' -e '10c\given 2' proof
  $ forxainde check --rules rules --records records --released released --proof proof
  fault: proof line 8 Drop
  [9]
  $ cp right.proof proof
  $ sed -i -e '5c\drop 2' -e '8d' -e '10c\given 2' proof
  $ forxainde check --rules rules --records records --released released --proof proof
  fault: proof line 5 Drop
  [9]
