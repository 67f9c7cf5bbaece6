Files that are no proofs, by the lines that stand once and those of counts: the first line that can't go on is told. Of two
numbers one is at a limit of the grammar and the other past it; where the grammar takes a line, the audit tells of
something else.

  $ cat >rules <<EOF
  > number A
  > number B
  > A + B <= 6
  > EOF
  $ cat >records <<EOF
  > A,B
  > 3,4
  > EOF
  $ cat >released <<EOF
  > A,B
  > 3,0
  > EOF
  $ cat >right.proof <<EOF
  > fh-proof 1
  > limit 1 near 5 budget 1000000
  > lines 1
  > keep
  > records 1
  > change 1 KC 3
  > line KK 1
  > given 1
  > bound KC
  > bound C
  > claims 1
  > claim 1 0
  > end
  > EOF
  $ cp right.proof proof
  $ forxainde check --rules rules --records records --released released --proof proof
  valid records 1 released 1

The first line: another version, blanks that are none, a carriage return, a byte order mark, and an empty line.

  $ cp right.proof proof
  $ sed -i -e '1c\fh-proof 3' proof
  $ forxainde check --rules rules --records records --released released --proof proof
  fault: proof line 1 Grammar
  [9]
  $ cp right.proof proof
  $ sed -i -e '1c\fh-proof  1' proof
  $ forxainde check --rules rules --records records --released released --proof proof
  fault: proof line 1 Grammar
  [9]
  $ cp right.proof proof
  $ sed -i -e '1c\ fh-proof 1' proof
  $ forxainde check --rules rules --records records --released released --proof proof
  fault: proof line 1 Grammar
  [9]
  $ cp right.proof proof
  $ sed -i -e '1c\fh-proof\x091' proof
  $ forxainde check --rules rules --records records --released released --proof proof
  fault: proof line 1 Grammar
  [9]
  $ cp right.proof proof
  $ sed -i -e '1c\fh-proof 1\x0d' proof
  $ forxainde check --rules rules --records records --released released --proof proof
  fault: proof line 1 Grammar
  [9]
  $ cp right.proof proof
  $ sed -i -e '1c\\xef\xbb\xbffh-proof 1' proof
  $ forxainde check --rules rules --records records --released released --proof proof
  fault: proof line 1 Grammar
  [9]
  $ cp right.proof proof
  $ sed -i -e '1c\' proof
  $ forxainde check --rules rules --records records --released released --proof proof
  fault: proof line 1 Grammar
  [9]

A proof of version 2 has a table behind the lines of the rules.

  $ cp right.proof proof
  $ sed -i -e '1c\fh-proof 2' proof
  $ forxainde check --rules rules --records records --released released --proof proof
  fault: proof line 5 Grammar
  [9]

The head: numbers of 32 and of 64 bits, without zeros in front and without signs, in this order.

  $ cp right.proof proof
  $ sed -i -e '2c\limit 4294967295 near 0 budget 18446744073709551615' proof
  $ forxainde check --rules rules --records records --released released --proof proof
  fault: proof line 2 Head
  [9]
  $ cp right.proof proof
  $ sed -i -e '2c\limit 4294967296 near 5 budget 1' proof
  $ forxainde check --rules rules --records records --released released --proof proof
  fault: proof line 2 Grammar
  [9]
  $ cp right.proof proof
  $ sed -i -e '2c\limit 1 near 4294967296 budget 1' proof
  $ forxainde check --rules rules --records records --released released --proof proof
  fault: proof line 2 Grammar
  [9]
  $ cp right.proof proof
  $ sed -i -e '2c\limit 1 near 5 budget 18446744073709551616' proof
  $ forxainde check --rules rules --records records --released released --proof proof
  fault: proof line 2 Grammar
  [9]
  $ cp right.proof proof
  $ sed -i -e '2c\limit 01 near 5 budget 1' proof
  $ forxainde check --rules rules --records records --released released --proof proof
  fault: proof line 2 Grammar
  [9]
  $ cp right.proof proof
  $ sed -i -e '2c\limit +1 near 5 budget 1' proof
  $ forxainde check --rules rules --records records --released released --proof proof
  fault: proof line 2 Grammar
  [9]
  $ cp right.proof proof
  $ sed -i -e '2c\limit 1 budget 1 near 5' proof
  $ forxainde check --rules rules --records records --released released --proof proof
  fault: proof line 2 Grammar
  [9]

The lines of the rules: fewer and more of them than stand there, and a count past 64 bits.

  $ cp right.proof proof
  $ sed -i -e '3c\lines 0' proof
  $ forxainde check --rules rules --records records --released released --proof proof
  fault: proof line 4 Grammar
  [9]
  $ cp right.proof proof
  $ sed -i -e '3c\lines 2' proof
  $ forxainde check --rules rules --records records --released released --proof proof
  fault: proof line 5 Grammar
  [9]
  $ cp right.proof proof
  $ sed -i -e '3c\lines 4000000000' proof
  $ forxainde check --rules rules --records records --released released --proof proof
  fault: proof line 5 Grammar
  [9]
  $ cp right.proof proof
  $ sed -i -e '3c\lines 18446744073709551616' proof
  $ forxainde check --rules rules --records records --released released --proof proof
  fault: proof line 3 Grammar
  [9]
  $ cp right.proof proof
  $ sed -i -e '3c\lines 1keep' -e '4d' proof
  $ forxainde check --rules rules --records records --released released --proof proof
  fault: proof line 3 Grammar
  [9]
  $ cp right.proof proof
  $ sed -i -e '4d' proof
  $ forxainde check --rules rules --records records --released released --proof proof
  fault: proof line 4 Grammar
  [9]
  $ cp right.proof proof
  $ sed -i -e '4c\' proof
  $ forxainde check --rules rules --records records --released released --proof proof
  fault: proof line 4 Grammar
  [9]
  $ cp right.proof proof
  $ sed -i -e '4c\ keep' proof
  $ forxainde check --rules rules --records records --released released --proof proof
  fault: proof line 4 Grammar
  [9]
  $ cp right.proof proof
  $ sed -i -e '4c\keep\x20' proof
  $ forxainde check --rules rules --records records --released released --proof proof
  fault: proof line 4 Grammar
  [9]
  $ cp right.proof proof
  $ sed -i -e '4c\keep\xff' proof
  $ forxainde check --rules rules --records records --released released --proof proof
  fault: proof line 4 Grammar
  [9]
  $ cp right.proof proof
  $ sed -i -e '4c\drop 0' proof
  $ forxainde check --rules rules --records records --released released --proof proof
  fault: proof line 4 Drop
  [9]
  $ cp right.proof proof
  $ sed -i -e '4c\drop 00' proof
  $ forxainde check --rules rules --records records --released released --proof proof
  fault: proof line 4 Grammar
  [9]
  $ cp right.proof proof
  $ sed -i -e '4c\drop 1' proof
  $ forxainde check --rules rules --records records --released released --proof proof
  fault: proof line 5 Grammar
  [9]

The counts of records and of claims.

  $ cp right.proof proof
  $ sed -i -e '5c\records 2' proof
  $ forxainde check --rules rules --records records --released released --proof proof
  fault: proof line 11 Grammar
  [9]
  $ cp right.proof proof
  $ sed -i -e '11c\claims 0' proof
  $ forxainde check --rules rules --records records --released released --proof proof
  fault: proof line 12 Grammar
  [9]
  $ cp right.proof proof
  $ sed -i -e '11c\claims 18446744073709551615' proof
  $ forxainde check --rules rules --records records --released released --proof proof
  fault: proof line 13 Grammar
  [9]

A claim: records and donors are numbers up to 2^32, and only the donor that is given may be 0.

  $ cp right.proof proof
  $ sed -i -e '12c\claim 4294967296 4294967296 4294967296 1' proof
  $ forxainde check --rules rules --records records --released released --proof proof
  fault: proof line 12 Claims
  [9]
  $ cp right.proof proof
  $ sed -i -e '12c\claim 4294967297 0' proof
  $ forxainde check --rules rules --records records --released released --proof proof
  fault: proof line 12 Grammar
  [9]
  $ cp right.proof proof
  $ sed -i -e '12c\claim 1 1 1' proof
  $ forxainde check --rules rules --records records --released released --proof proof
  fault: proof line 12 Claims
  [9]
  $ cp right.proof proof
  $ sed -i -e '12c\claim 1 1 0' proof
  $ forxainde check --rules rules --records records --released released --proof proof
  fault: proof line 12 Grammar
  [9]
  $ cp right.proof proof
  $ sed -i -e '12c\claim 0 0' proof
  $ forxainde check --rules rules --records records --released released --proof proof
  fault: proof line 12 Grammar
  [9]
  $ cp right.proof proof
  $ sed -i -e '12c\claim 1' proof
  $ forxainde check --rules rules --records records --released released --proof proof
  fault: proof line 12 Grammar
  [9]
  $ cp right.proof proof
  $ sed -i -e '12c\claim 1 0\x0d' proof
  $ forxainde check --rules rules --records records --released released --proof proof
  fault: proof line 12 Grammar
  [9]

The end: none, and something behind it.

  $ cp right.proof proof
  $ sed -i -e '13d' proof
  $ forxainde check --rules rules --records records --released released --proof proof
  fault: proof line 13 Grammar
  [9]
  $ cp right.proof proof
  $ sed -i -e '13c\end\n' proof
  $ forxainde check --rules rules --records records --released released --proof proof
  fault: proof line 14 Grammar
  [9]
  $ cp right.proof proof
  $ sed -i -e '13c\end\nend' proof
  $ forxainde check --rules rules --records records --released released --proof proof
  fault: proof line 14 Grammar
  [9]

A last line without a line feed: the first line, one in the middle, and the end; and a line behind the end.

  $ cat >proof <<EOF
  > fh-proof 1 (no-eol)
  > EOF
  $ forxainde check --rules rules --records records --released released --proof proof
  fault: proof line 1 Grammar
  [9]
  $ cat >proof <<EOF
  > fh-proof 1
  > limit 1 near 5 budget 1000000
  > lines 1 (no-eol)
  > EOF
  $ forxainde check --rules rules --records records --released released --proof proof
  fault: proof line 3 Grammar
  [9]
  $ cat >proof <<EOF
  > fh-proof 1
  > limit 1 near 5 budget 1000000
  > lines 1
  > keep
  > records 1
  > change 1 KC 3
  > line KK 1
  > given 1
  > bound KC
  > bound C
  > claims 1
  > claim 1 0
  > end (no-eol)
  > EOF
  $ forxainde check --rules rules --records records --released released --proof proof
  fault: proof line 13 Grammar
  [9]
  $ cat >proof <<EOF
  > fh-proof 1
  > limit 1 near 5 budget 1000000
  > lines 1
  > keep
  > records 1
  > change 1 KC 3
  > line KK 1
  > given 1
  > bound KC
  > bound C
  > claims 1
  > claim 1 0
  > end
  > end (no-eol)
  > EOF
  $ forxainde check --rules rules --records records --released released --proof proof
  fault: proof line 14 Grammar
  [9]
