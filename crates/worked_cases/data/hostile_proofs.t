Proofs that promise more than they have, and proofs whose parts point where nothing is. A count is no more than how many lines
are read: the first line that is not what was promised is told, and no memory is taken for the others. A step, a line, a field,
a record or a donor that is pointed at ahead, at the place itself or past the end is refused at its place.

  $ cat >rules <<EOF
  > number A
  > number B
  > A + B <= 6
  > EOF
  $ cat >records <<EOF
  > A,B
  > 3,4
  > EOF
  $ cat >released <<EOF
  > A,B
  > 3,0
  > EOF
  $ cat >right.proof <<EOF
  > fh-proof 1
  > limit 1 near 5 budget 1000000
  > lines 1
  > keep
  > records 1
  > change 1 KC 3
  > line KK 1
  > given 1
  > bound KC
  > bound C
  > claims 1
  > claim 1 0
  > end
  > EOF
  $ cp right.proof proof
  $ forxainde check --rules rules --records records --released released --proof proof
  valid records 1 released 1

Each count in turn: four thousand million, the greatest number of 64 bits, and one more, which is no count. The line behind the
last that is there is told: of the lines of the rules, `records`; of records and of leaves, `claims`; of steps, the next leaf; and of
claims, `end`.

  $ cp right.proof proof
  $ sed -i -e '3c\lines 4000000000' proof
  $ forxainde check --rules rules --records records --released released --proof proof
  fault: proof line 5 Grammar
  [9]
  $ cp right.proof proof
  $ sed -i -e '3c\lines 18446744073709551615' proof
  $ forxainde check --rules rules --records records --released released --proof proof
  fault: proof line 5 Grammar
  [9]
  $ cp right.proof proof
  $ sed -i -e '3c\lines 18446744073709551616' proof
  $ forxainde check --rules rules --records records --released released --proof proof
  fault: proof line 3 Grammar
  [9]
  $ cp right.proof proof
  $ sed -i -e '4c\drop 4000000000' proof
  $ forxainde check --rules rules --records records --released released --proof proof
  fault: proof line 5 Grammar
  [9]
  $ cp right.proof proof
  $ sed -i -e '4c\drop 18446744073709551615' proof
  $ forxainde check --rules rules --records records --released released --proof proof
  fault: proof line 5 Grammar
  [9]
  $ cp right.proof proof
  $ sed -i -e '4c\drop 18446744073709551616' proof
  $ forxainde check --rules rules --records records --released released --proof proof
  fault: proof line 4 Grammar
  [9]
  $ cp right.proof proof
  $ sed -i -e '5c\records 4000000000' proof
  $ forxainde check --rules rules --records records --released released --proof proof
  fault: proof line 11 Grammar
  [9]
  $ cp right.proof proof
  $ sed -i -e '5c\records 18446744073709551615' proof
  $ forxainde check --rules rules --records records --released released --proof proof
  fault: proof line 11 Grammar
  [9]
  $ cp right.proof proof
  $ sed -i -e '5c\records 18446744073709551616' proof
  $ forxainde check --rules rules --records records --released released --proof proof
  fault: proof line 5 Grammar
  [9]
  $ cp right.proof proof
  $ sed -i -e '6c\change 1 KC 4000000000' proof
  $ forxainde check --rules rules --records records --released released --proof proof
  fault: proof line 11 Grammar
  [9]
  $ cp right.proof proof
  $ sed -i -e '6c\change 1 KC 18446744073709551615' proof
  $ forxainde check --rules rules --records records --released released --proof proof
  fault: proof line 11 Grammar
  [9]
  $ cp right.proof proof
  $ sed -i -e '6c\change 1 KC 18446744073709551616' proof
  $ forxainde check --rules rules --records records --released released --proof proof
  fault: proof line 6 Grammar
  [9]
  $ cp right.proof proof
  $ sed -i -e '6c\gift 1 KC 2 1 4000000000' proof
  $ forxainde check --rules rules --records records --released released --proof proof
  fault: proof line 11 Grammar
  [9]
  $ cp right.proof proof
  $ sed -i -e '6c\gift 1 KC 2 1 18446744073709551615' proof
  $ forxainde check --rules rules --records records --released released --proof proof
  fault: proof line 11 Grammar
  [9]
  $ cp right.proof proof
  $ sed -i -e '6c\gift 1 KC 2 1 18446744073709551616' proof
  $ forxainde check --rules rules --records records --released released --proof proof
  fault: proof line 6 Grammar
  [9]
  $ cp right.proof proof
  $ sed -i -e '6c\contradictory 4000000000' proof
  $ forxainde check --rules rules --records records --released released --proof proof
  fault: proof line 11 Grammar
  [9]
  $ cp right.proof proof
  $ sed -i -e '6c\contradictory 18446744073709551615' proof
  $ forxainde check --rules rules --records records --released released --proof proof
  fault: proof line 11 Grammar
  [9]
  $ cp right.proof proof
  $ sed -i -e '6c\contradictory 18446744073709551616' proof
  $ forxainde check --rules rules --records records --released released --proof proof
  fault: proof line 6 Grammar
  [9]
  $ cp right.proof proof
  $ sed -i -e '7c\line KK 4000000000' proof
  $ forxainde check --rules rules --records records --released released --proof proof
  fault: proof line 9 Grammar
  [9]
  $ cp right.proof proof
  $ sed -i -e '7c\line KK 18446744073709551615' proof
  $ forxainde check --rules rules --records records --released released --proof proof
  fault: proof line 9 Grammar
  [9]
  $ cp right.proof proof
  $ sed -i -e '7c\line KK 18446744073709551616' proof
  $ forxainde check --rules rules --records records --released released --proof proof
  fault: proof line 7 Grammar
  [9]
  $ cp right.proof proof
  $ sed -i -e '7c\box KK 4000000000' proof
  $ forxainde check --rules rules --records records --released released --proof proof
  fault: proof line 9 Grammar
  [9]
  $ cp right.proof proof
  $ sed -i -e '7c\box KK 18446744073709551615' proof
  $ forxainde check --rules rules --records records --released released --proof proof
  fault: proof line 9 Grammar
  [9]
  $ cp right.proof proof
  $ sed -i -e '7c\box KK 18446744073709551616' proof
  $ forxainde check --rules rules --records records --released released --proof proof
  fault: proof line 7 Grammar
  [9]
  $ cp right.proof proof
  $ sed -i -e '11c\claims 4000000000' proof
  $ forxainde check --rules rules --records records --released released --proof proof
  fault: proof line 13 Grammar
  [9]
  $ cp right.proof proof
  $ sed -i -e '11c\claims 18446744073709551615' proof
  $ forxainde check --rules rules --records records --released released --proof proof
  fault: proof line 13 Grammar
  [9]
  $ cp right.proof proof
  $ sed -i -e '11c\claims 18446744073709551616' proof
  $ forxainde check --rules rules --records records --released released --proof proof
  fault: proof line 11 Grammar
  [9]

Every count at once, and a proof that ends behind a count.

  $ cp right.proof proof
  $ sed -i -e '3c\lines 4000000000' -e '5c\records 4000000000' -e '6c\change 1 KC 4000000000' -e '7c\line KK 4000000000' -e '11c\claims 4000000000' proof
  $ forxainde check --rules rules --records records --released released --proof proof
  fault: proof line 5 Grammar
  [9]
  $ cp right.proof proof
  $ sed -i -e '5c\records 4000000000' -e '6c\change 1 KC 4000000000' -e '7c\line KK 4000000000' -e '11c\claims 4000000000' proof
  $ forxainde check --rules rules --records records --released released --proof proof
  fault: proof line 9 Grammar
  [9]
  $ cp right.proof proof
  $ sed -i -e '3c\lines 18446744073709551615' -e '4d' -e '5d' -e '6d' -e '7d' -e '8d' -e '9d' -e '10d' -e '11d' -e '12d' -e '13d' proof
  $ forxainde check --rules rules --records records --released released --proof proof
  fault: proof line 4 Grammar
  [9]
  $ cp right.proof proof
  $ sed -i -e '5c\records 18446744073709551615' -e '6d' -e '7d' -e '8d' -e '9d' -e '10d' -e '11d' -e '12d' -e '13d' proof
  $ forxainde check --rules rules --records records --released released --proof proof
  fault: proof line 6 Grammar
  [9]
  $ cp right.proof proof
  $ sed -i -e '11c\claims 18446744073709551615' -e '12d' -e '13d' proof
  $ forxainde check --rules rules --records records --released released --proof proof
  fault: proof line 12 Grammar
  [9]

A record, a donor and a field past the end, and a donor that is the record itself.

  $ cp right.proof proof
  $ sed -i -e '12c\claim 2 0' proof
  $ forxainde check --rules rules --records records --released released --proof proof
  fault: proof line 12 Claims
  [9]
  $ cp right.proof proof
  $ sed -i -e '12c\claim 4294967296 0' proof
  $ forxainde check --rules rules --records records --released released --proof proof
  fault: proof line 12 Claims
  [9]
  $ cp right.proof proof
  $ sed -i -e '12c\claim 1 2 2' proof
  $ forxainde check --rules rules --records records --released released --proof proof
  fault: proof line 12 Claims
  [9]
  $ cp right.proof proof
  $ sed -i -e '12c\claim 1 4294967296 4294967296' proof
  $ forxainde check --rules rules --records records --released released --proof proof
  fault: proof line 12 Claims
  [9]
  $ cp right.proof proof
  $ sed -i -e '12c\claim 1 1 1' proof
  $ forxainde check --rules rules --records records --released released --proof proof
  fault: proof line 12 Claims
  [9]
  $ cp right.proof proof
  $ sed -i -e '12c\claim 1 0 1' proof
  $ forxainde check --rules rules --records records --released released --proof proof
  fault: proof line 12 Claims
  [9]
  $ sed -i -e '2d' released
  $ cp right.proof proof
  $ sed -i -e '6c\gift 1 KC 3 1 3' proof
  $ forxainde check --rules rules --records records --released released --proof proof
  fault: proof line 6 Cert
  [9]
  $ cp right.proof proof
  $ sed -i -e '6c\gift 1 KC 4294967296 1 3' proof
  $ forxainde check --rules rules --records records --released released --proof proof
  fault: proof line 6 Cert
  [9]
  $ cp right.proof proof
  $ sed -i -e '6c\gift 1 KC 0 2 3' proof
  $ forxainde check --rules rules --records records --released released --proof proof
  fault: proof line 6 Cert
  [9]
  $ cp right.proof proof
  $ sed -i -e '6c\gift 1 KC 0 4294967296 3' proof
  $ forxainde check --rules rules --records records --released released --proof proof
  fault: proof line 6 Cert
  [9]
  $ sed -i -e '1a\3,0' released

A leaf of one step: a line of the rules past the end, and steps that name themselves or the next one; and the same as the second
of two.

  $ cp right.proof proof
  $ sed -i -e '8c\given 2' proof
  $ forxainde check --rules rules --records records --released released --proof proof
  fault: proof line 8 Cert
  [9]
  $ cp right.proof proof
  $ sed -i -e '8c\given 18446744073709551616' proof
  $ forxainde check --rules rules --records records --released released --proof proof
  fault: proof line 8 Cert
  [9]
  $ cp right.proof proof
  $ sed -i -e '8c\combine 1 1 1 1 1' proof
  $ forxainde check --rules rules --records records --released released --proof proof
  fault: proof line 8 Cert
  [9]
  $ cp right.proof proof
  $ sed -i -e '8c\fail 1' proof
  $ forxainde check --rules rules --records records --released released --proof proof
  fault: proof line 8 Cert
  [9]
  $ cp right.proof proof
  $ sed -i -e '8c\fix 1 1' proof
  $ forxainde check --rules rules --records records --released released --proof proof
  fault: proof line 8 Cert
  [9]
  $ cp right.proof proof
  $ sed -i -e '8c\cover 1 1' proof
  $ forxainde check --rules rules --records records --released released --proof proof
  fault: proof line 8 Cert
  [9]
  $ cp right.proof proof
  $ sed -i -e '8c\fail 2' proof
  $ forxainde check --rules rules --records records --released released --proof proof
  fault: proof line 8 Cert
  [9]
  $ cp right.proof proof
  $ sed -i -e '8c\combine 2 1 2 1 1' proof
  $ forxainde check --rules rules --records records --released released --proof proof
  fault: proof line 8 Cert
  [9]
  $ cp right.proof proof
  $ sed -i -e '7c\line KK 2' -e '8c\given 1\ncombine 1 1 2 1 1' proof
  $ forxainde check --rules rules --records records --released released --proof proof
  fault: proof line 9 Cert
  [9]
  $ cp right.proof proof
  $ sed -i -e '7c\line KK 2' -e '8c\given 1\ncombine 2 1 1 1 1' proof
  $ forxainde check --rules rules --records records --released released --proof proof
  fault: proof line 9 Cert
  [9]
  $ cp right.proof proof
  $ sed -i -e '7c\line KK 2' -e '8c\given 1\nfail 2' proof
  $ forxainde check --rules rules --records records --released released --proof proof
  fault: proof line 9 Cert
  [9]
  $ cp right.proof proof
  $ sed -i -e '7c\line KK 2' -e '8c\given 1\nfail 3' proof
  $ forxainde check --rules rules --records records --released released --proof proof
  fault: proof line 9 Cert
  [9]
  $ cp right.proof proof
  $ sed -i -e '7c\line KK 2' -e '8c\given 1\ncombine 1 1 3 1 1' proof
  $ forxainde check --rules rules --records records --released released --proof proof
  fault: proof line 9 Cert
  [9]
  $ cp right.proof proof
  $ sed -i -e '7c\line KK 2' -e '8c\given 1\ncombine 3 1 1 1 1' proof
  $ forxainde check --rules rules --records records --released released --proof proof
  fault: proof line 9 Cert
  [9]

Combinations of two lines that no number meets. Line 13 is the third step of the second leaf, which has four here. In each of
its two places: the step itself, the next one, one past the end, and the greatest number of a step.

  $ cat >rules <<EOF
  > number A
  > A >= 5
  > A <= 3
  > EOF
  $ cat >records <<EOF
  > A
  > 4
  > EOF
  $ cat >released <<EOF
  > A
  > EOF
  $ cat >right.proof <<EOF
  > fh-proof 1
  > limit 1 near 5 budget 1000000
  > lines 2
  > keep
  > keep
  > records 1
  > contradictory 2
  > line K 1
  > given 1
  > line C 4
  > given 1
  > given 2
  > combine 1 1 2 1 2
  > combine 1 1 2 1 2
  > claims 0
  > end
  > EOF
  $ cp right.proof proof
  $ forxainde check --rules rules --records records --released released --proof proof
  valid records 1 released 0
  $ cp right.proof proof
  $ sed -i -e '13c\combine 3 1 2 1 2' proof
  $ forxainde check --rules rules --records records --released released --proof proof
  fault: proof line 13 Cert
  [9]
  $ cp right.proof proof
  $ sed -i -e '13c\combine 1 1 3 1 2' proof
  $ forxainde check --rules rules --records records --released released --proof proof
  fault: proof line 13 Cert
  [9]
  $ cp right.proof proof
  $ sed -i -e '13c\combine 4 1 2 1 2' proof
  $ forxainde check --rules rules --records records --released released --proof proof
  fault: proof line 13 Cert
  [9]
  $ cp right.proof proof
  $ sed -i -e '13c\combine 1 1 4 1 2' proof
  $ forxainde check --rules rules --records records --released released --proof proof
  fault: proof line 13 Cert
  [9]
  $ cp right.proof proof
  $ sed -i -e '13c\combine 5 1 2 1 2' proof
  $ forxainde check --rules rules --records records --released released --proof proof
  fault: proof line 13 Cert
  [9]
  $ cp right.proof proof
  $ sed -i -e '13c\combine 1 1 5 1 2' proof
  $ forxainde check --rules rules --records records --released released --proof proof
  fault: proof line 13 Cert
  [9]
  $ cp right.proof proof
  $ sed -i -e '13c\combine 18446744073709551616 1 2 1 2' proof
  $ forxainde check --rules rules --records records --released released --proof proof
  fault: proof line 13 Cert
  [9]
  $ cp right.proof proof
  $ sed -i -e '13c\combine 1 1 18446744073709551616 1 2' proof
  $ forxainde check --rules rules --records records --released released --proof proof
  fault: proof line 13 Cert
  [9]
  $ cp right.proof proof
  $ sed -i -e '12c\given 3' proof
  $ forxainde check --rules rules --records records --released released --proof proof
  fault: proof line 12 Cert
  [9]
  $ cp right.proof proof
  $ sed -i -e '12c\given 18446744073709551616' proof
  $ forxainde check --rules rules --records records --released released --proof proof
  fault: proof line 12 Cert
  [9]

Boxes of codes. Line 10 is the second of four steps, line 11 the third, and line 19 the sixth of seven.

  $ cat >rules <<EOF
  > code Age in {child, adult}
  > code Status in {single, married}
  > code Rel in {spouse, other}
  > if Age in {child} then Status in {single}
  > if Rel in {spouse} then Status in {married}
  > EOF
  $ cat >records <<EOF
  > Age,Status,Rel
  > child,married,spouse
  > EOF
  $ cat >released <<EOF
  > Age,Status,Rel
  > adult,married,spouse
  > EOF
  $ cat >right.proof <<EOF
  > fh-proof 1
  > limit 1 near 5 budget 1000000
  > lines 2
  > keep
  > keep
  > records 1
  > change 1 CKK 6
  > box KK 4
  > given 1
  > fail 1
  > fix 1 2
  > fix 2 3
  > box KCK 7
  > given 2
  > fail 1
  > given 1
  > fail 3
  > fix 1 4
  > cover 2 2 5
  > fix 3 6
  > bound KCC
  > bound CKK
  > bound CKC
  > bound CC
  > claims 1
  > claim 1 0
  > end
  > EOF
  $ cp right.proof proof
  $ forxainde check --rules rules --records records --released released --proof proof
  valid records 1 released 1
  $ cp right.proof proof
  $ sed -i -e '10c\fail 2' proof
  $ forxainde check --rules rules --records records --released released --proof proof
  fault: proof line 10 Cert
  [9]
  $ cp right.proof proof
  $ sed -i -e '10c\fail 3' proof
  $ forxainde check --rules rules --records records --released released --proof proof
  fault: proof line 10 Cert
  [9]
  $ cp right.proof proof
  $ sed -i -e '10c\fail 5' proof
  $ forxainde check --rules rules --records records --released released --proof proof
  fault: proof line 10 Cert
  [9]
  $ cp right.proof proof
  $ sed -i -e '10c\fail 18446744073709551616' proof
  $ forxainde check --rules rules --records records --released released --proof proof
  fault: proof line 10 Cert
  [9]
  $ cp right.proof proof
  $ sed -i -e '11c\fix 1 3' proof
  $ forxainde check --rules rules --records records --released released --proof proof
  fault: proof line 11 Cert
  [9]
  $ cp right.proof proof
  $ sed -i -e '11c\fix 1 4' proof
  $ forxainde check --rules rules --records records --released released --proof proof
  fault: proof line 11 Cert
  [9]
  $ cp right.proof proof
  $ sed -i -e '11c\fix 1 5' proof
  $ forxainde check --rules rules --records records --released released --proof proof
  fault: proof line 11 Cert
  [9]
  $ cp right.proof proof
  $ sed -i -e '11c\fix 1 18446744073709551616' proof
  $ forxainde check --rules rules --records records --released released --proof proof
  fault: proof line 11 Cert
  [9]
  $ cp right.proof proof
  $ sed -i -e '11c\fix 4 2' proof
  $ forxainde check --rules rules --records records --released released --proof proof
  fault: proof line 11 Cert
  [9]
  $ cp right.proof proof
  $ sed -i -e '11c\fix 4294967296 2' proof
  $ forxainde check --rules rules --records records --released released --proof proof
  fault: proof line 11 Cert
  [9]
  $ cp right.proof proof
  $ sed -i -e '19c\cover 2 6 5' proof
  $ forxainde check --rules rules --records records --released released --proof proof
  fault: proof line 19 Cert
  [9]
  $ cp right.proof proof
  $ sed -i -e '19c\cover 2 2 6' proof
  $ forxainde check --rules rules --records records --released released --proof proof
  fault: proof line 19 Cert
  [9]
  $ cp right.proof proof
  $ sed -i -e '19c\cover 2 7 5' proof
  $ forxainde check --rules rules --records records --released released --proof proof
  fault: proof line 19 Cert
  [9]
  $ cp right.proof proof
  $ sed -i -e '19c\cover 2 2 7' proof
  $ forxainde check --rules rules --records records --released released --proof proof
  fault: proof line 19 Cert
  [9]
  $ cp right.proof proof
  $ sed -i -e '19c\cover 2 8 5' proof
  $ forxainde check --rules rules --records records --released released --proof proof
  fault: proof line 19 Cert
  [9]
  $ cp right.proof proof
  $ sed -i -e '19c\cover 2 2 8' proof
  $ forxainde check --rules rules --records records --released released --proof proof
  fault: proof line 19 Cert
  [9]
  $ cp right.proof proof
  $ sed -i -e '19c\cover 2 18446744073709551616 5' proof
  $ forxainde check --rules rules --records records --released released --proof proof
  fault: proof line 19 Cert
  [9]
  $ cp right.proof proof
  $ sed -i -e '19c\cover 2 2 18446744073709551616' proof
  $ forxainde check --rules rules --records records --released released --proof proof
  fault: proof line 19 Cert
  [9]
  $ cp right.proof proof
  $ sed -i -e '19c\cover 4 2 5' proof
  $ forxainde check --rules rules --records records --released released --proof proof
  fault: proof line 19 Cert
  [9]
  $ cp right.proof proof
  $ sed -i -e '19c\cover 4294967296 2 5' proof
  $ forxainde check --rules rules --records records --released released --proof proof
  fault: proof line 19 Cert
  [9]

The same in version 2, where the lines of both rules stand in a table, on lines 7 and 8. Line 12 names its first line, and is the
first of four steps; line 13 is the second, and line 22 the sixth of seven.

  $ cat >right.proof <<EOF
  > fh-proof 2
  > limit 1 near 5 budget 1000000
  > lines 2
  > keep
  > keep
  > table 2
  > given 1
  > given 2
  > records 1
  > change 1 CKK 6
  > box KK 4
  > shared 1
  > fail 1
  > fix 1 2
  > fix 2 3
  > box KCK 7
  > shared 2
  > fail 1
  > shared 1
  > fail 3
  > fix 1 4
  > cover 2 2 5
  > fix 3 6
  > bound KCC
  > bound CKK
  > bound CKC
  > bound CC
  > claims 1
  > claim 1 0
  > end
  > EOF
  $ cp right.proof proof
  $ forxainde check --rules rules --records records --released released --proof proof
  valid records 1 released 1
  $ cp right.proof proof
  $ sed -i -e '12c\shared 3' proof
  $ forxainde check --rules rules --records records --released released --proof proof
  fault: proof line 12 Cert
  [9]
  $ cp right.proof proof
  $ sed -i -e '12c\shared 4000000000' proof
  $ forxainde check --rules rules --records records --released released --proof proof
  fault: proof line 12 Cert
  [9]
  $ cp right.proof proof
  $ sed -i -e '12c\shared 18446744073709551614' proof
  $ forxainde check --rules rules --records records --released released --proof proof
  fault: proof line 12 Cert
  [9]
  $ cp right.proof proof
  $ sed -i -e '12c\shared 18446744073709551615' proof
  $ forxainde check --rules rules --records records --released released --proof proof
  fault: proof line 12 Grammar
  [9]
  $ cp right.proof proof
  $ sed -i -e '13c\fail 2' proof
  $ forxainde check --rules rules --records records --released released --proof proof
  fault: proof line 13 Cert
  [9]
  $ cp right.proof proof
  $ sed -i -e '13c\fail 3' proof
  $ forxainde check --rules rules --records records --released released --proof proof
  fault: proof line 13 Cert
  [9]
  $ cp right.proof proof
  $ sed -i -e '13c\fail 5' proof
  $ forxainde check --rules rules --records records --released released --proof proof
  fault: proof line 13 Cert
  [9]
  $ cp right.proof proof
  $ sed -i -e '22c\cover 2 2 6' proof
  $ forxainde check --rules rules --records records --released released --proof proof
  fault: proof line 22 Cert
  [9]
  $ cp right.proof proof
  $ sed -i -e '22c\cover 2 2 7' proof
  $ forxainde check --rules rules --records records --released released --proof proof
  fault: proof line 22 Cert
  [9]
  $ cp right.proof proof
  $ sed -i -e '22c\cover 2 2 8' proof
  $ forxainde check --rules rules --records records --released released --proof proof
  fault: proof line 22 Cert
  [9]
  $ cp right.proof proof
  $ sed -i -e '7c\given 3' proof
  $ forxainde check --rules rules --records records --released released --proof proof
  fault: proof line 7 Table
  [9]
  $ cp right.proof proof
  $ sed -i -e '7c\combine 1 1 1 1 1' proof
  $ forxainde check --rules rules --records records --released released --proof proof
  fault: proof line 7 Table
  [9]
  $ cp right.proof proof
  $ sed -i -e '7c\combine 2 1 2 1 1' proof
  $ forxainde check --rules rules --records records --released released --proof proof
  fault: proof line 7 Table
  [9]
  $ cp right.proof proof
  $ sed -i -e '7c\combine 3 1 3 1 1' proof
  $ forxainde check --rules rules --records records --released released --proof proof
  fault: proof line 7 Table
  [9]
  $ cp right.proof proof
  $ sed -i -e '8c\combine 1 1 2 1 1' proof
  $ forxainde check --rules rules --records records --released released --proof proof
  fault: proof line 8 Table
  [9]
  $ cp right.proof proof
  $ sed -i -e '8c\combine 1 1 3 1 1' proof
  $ forxainde check --rules rules --records records --released released --proof proof
  fault: proof line 8 Table
  [9]
  $ cp right.proof proof
  $ sed -i -e '6c\table 4000000000' proof
  $ forxainde check --rules rules --records records --released released --proof proof
  fault: proof line 9 Grammar
  [9]

A line of the rules that is dropped: line 7 of the proof names the line itself, one past the negation, which is line 3, and
past all; line 8 the step itself, the next one, and one past the end, in both places.

  $ cat >rules <<EOF
  > number A
  > A >= 1
  > A >= 0
  > EOF
  $ cat >records <<EOF
  > A
  > 1
  > EOF
  $ cat >released <<EOF
  > A
  > 1
  > EOF
  $ cat >right.proof <<EOF
  > fh-proof 1
  > limit 1 near 5 budget 1000000
  > lines 2
  > keep
  > drop 4
  > given 1
  > given 3
  > combine 1 1 2 1 1
  > combine 1 1 2 1 1
  > records 1
  > clean
  > claims 0
  > end
  > EOF
  $ cp right.proof proof
  $ forxainde check --rules rules --records records --released released --proof proof
  valid records 1 released 1
  $ cp right.proof proof
  $ sed -i -e '7c\given 2' proof
  $ forxainde check --rules rules --records records --released released --proof proof
  fault: proof line 7 Drop
  [9]
  $ cp right.proof proof
  $ sed -i -e '7c\given 4' proof
  $ forxainde check --rules rules --records records --released released --proof proof
  fault: proof line 7 Drop
  [9]
  $ cp right.proof proof
  $ sed -i -e '7c\given 18446744073709551616' proof
  $ forxainde check --rules rules --records records --released released --proof proof
  fault: proof line 7 Drop
  [9]
  $ cp right.proof proof
  $ sed -i -e '8c\combine 3 1 2 1 1' proof
  $ forxainde check --rules rules --records records --released released --proof proof
  fault: proof line 8 Drop
  [9]
  $ cp right.proof proof
  $ sed -i -e '8c\combine 1 1 3 1 1' proof
  $ forxainde check --rules rules --records records --released released --proof proof
  fault: proof line 8 Drop
  [9]
  $ cp right.proof proof
  $ sed -i -e '8c\combine 4 1 2 1 1' proof
  $ forxainde check --rules rules --records records --released released --proof proof
  fault: proof line 8 Drop
  [9]
  $ cp right.proof proof
  $ sed -i -e '8c\combine 1 1 4 1 1' proof
  $ forxainde check --rules rules --records records --released released --proof proof
  fault: proof line 8 Drop
  [9]
  $ cp right.proof proof
  $ sed -i -e '8c\combine 5 1 2 1 1' proof
  $ forxainde check --rules rules --records records --released released --proof proof
  fault: proof line 8 Drop
  [9]
  $ cp right.proof proof
  $ sed -i -e '8c\combine 1 1 5 1 1' proof
  $ forxainde check --rules rules --records records --released released --proof proof
  fault: proof line 8 Drop
  [9]
  $ cp right.proof proof
  $ sed -i -e '8c\combine 18446744073709551616 1 2 1 1' proof
  $ forxainde check --rules rules --records records --released released --proof proof
  fault: proof line 8 Drop
  [9]
  $ cp right.proof proof
  $ sed -i -e '8c\combine 1 1 18446744073709551616 1 1' proof
  $ forxainde check --rules rules --records records --released released --proof proof
  fault: proof line 8 Drop
  [9]
  $ cp right.proof proof
  $ sed -i -e '5c\drop 4000000000' proof
  $ forxainde check --rules rules --records records --released released --proof proof
  fault: proof line 10 Grammar
  [9]
