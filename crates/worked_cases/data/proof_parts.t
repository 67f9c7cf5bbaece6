The heads of records in a proof, their leaves, and steps: which of them the grammar takes. Where it takes a line, the audit
tells of something else, or of nothing; where a head has no leaves, or a leaf no steps, the line behind it can't go on.

  $ cat >rules <<EOF
  > number A
  > number B
  > A + B <= 6
  > EOF
  $ cat >records <<EOF
  > A,B
  > 3,4
  > EOF
  $ cat >released <<EOF
  > A,B
  > 3,0
  > EOF
  $ cat >right.proof <<EOF
  > fh-proof 1
  > limit 1 near 5 budget 1000000
  > lines 1
  > keep
  > records 1
  > change 1 KC 3
  > line KK 1
  > given 1
  > bound KC
  > bound C
  > claims 1
  > claim 1 0
  > end
  > EOF
  $ cp right.proof proof
  $ forxainde check --rules rules --records records --released released --proof proof
  valid records 1 released 1

A clean record, which has no leaves.

  $ cp right.proof proof
  $ sed -i -e '6c\clean' proof
  $ forxainde check --rules rules --records records --released released --proof proof
  fault: proof line 7 Grammar
  [9]
  $ cp right.proof proof
  $ sed -i -e '6c\clean 1' proof
  $ forxainde check --rules rules --records records --released released --proof proof
  fault: proof line 6 Grammar
  [9]

A change: its weight is at least 1 and has 64 bits, and its path has letters, or is `-`.

  $ cp right.proof proof
  $ sed -i -e '6c\change 2 KC 3' proof
  $ forxainde check --rules rules --records records --released released --proof proof
  fault: proof line 6 Cert
  [9]
  $ cp right.proof proof
  $ sed -i -e '6c\change 18446744073709551615 - 3' proof
  $ forxainde check --rules rules --records records --released released --proof proof
  fault: proof line 6 Cert
  [9]
  $ cp right.proof proof
  $ sed -i -e '6c\change 18446744073709551616 KC 3' proof
  $ forxainde check --rules rules --records records --released released --proof proof
  fault: proof line 6 Grammar
  [9]
  $ cp right.proof proof
  $ sed -i -e '6c\change 0 KC 3' proof
  $ forxainde check --rules rules --records records --released released --proof proof
  fault: proof line 6 Grammar
  [9]
  $ cp right.proof proof
  $ sed -i -e '6c\change 1 KX 3' proof
  $ forxainde check --rules rules --records records --released released --proof proof
  fault: proof line 6 Grammar
  [9]
  $ cp right.proof proof
  $ sed -i -e '6c\change 1 -K 3' proof
  $ forxainde check --rules rules --records records --released released --proof proof
  fault: proof line 6 Grammar
  [9]
  $ cp right.proof proof
  $ sed -i -e '6c\change 1  3' proof
  $ forxainde check --rules rules --records records --released released --proof proof
  fault: proof line 6 Grammar
  [9]
  $ cp right.proof proof
  $ sed -i -e '6c\change 1 KC 2' proof
  $ forxainde check --rules rules --records records --released released --proof proof
  fault: proof line 10 Grammar
  [9]
  $ cp right.proof proof
  $ sed -i -e '6c\change 1 KC 4' proof
  $ forxainde check --rules rules --records records --released released --proof proof
  fault: proof line 11 Grammar
  [9]

A record that was given no value: a field of up to 2^32 and a line of up to 2^64, or a rule of up to 2^32.

  $ cp right.proof proof
  $ sed -i -e '6c\gift 0 KC 4294967296 18446744073709551616 3' proof
  $ forxainde check --rules rules --records records --released released --proof proof
  fault: proof line 0 RowText
  [9]
  $ cp right.proof proof
  $ sed -i -e '6c\gift 0 KC 4294967297 1 3' proof
  $ forxainde check --rules rules --records records --released released --proof proof
  fault: proof line 6 Grammar
  [9]
  $ cp right.proof proof
  $ sed -i -e '6c\gift 0 KC 1 18446744073709551617 3' proof
  $ forxainde check --rules rules --records records --released released --proof proof
  fault: proof line 6 Grammar
  [9]
  $ cp right.proof proof
  $ sed -i -e '6c\gift 0 KC 1 0 3' proof
  $ forxainde check --rules rules --records records --released released --proof proof
  fault: proof line 6 Grammar
  [9]
  $ cp right.proof proof
  $ sed -i -e '6c\gift 0 KC 0 4294967296 3' proof
  $ forxainde check --rules rules --records records --released released --proof proof
  fault: proof line 0 RowText
  [9]
  $ cp right.proof proof
  $ sed -i -e '6c\gift 0 KC 0 4294967297 3' proof
  $ forxainde check --rules rules --records records --released released --proof proof
  fault: proof line 6 Grammar
  [9]

The heads without leaves, which leave the line behind them where it can't stand.

  $ cp right.proof proof
  $ sed -i -e '6c\budget KC 18446744073709551615' proof
  $ forxainde check --rules rules --records records --released released --proof proof
  fault: proof line 7 Grammar
  [9]
  $ cp right.proof proof
  $ sed -i -e '6c\budget KC 18446744073709551616' proof
  $ forxainde check --rules rules --records records --released released --proof proof
  fault: proof line 6 Grammar
  [9]
  $ cp right.proof proof
  $ sed -i -e '6c\step KC 18446744073709551616 2 0' proof
  $ forxainde check --rules rules --records records --released released --proof proof
  fault: proof line 7 Grammar
  [9]
  $ cp right.proof proof
  $ sed -i -e '6c\step KC 1 2 4294967296' proof
  $ forxainde check --rules rules --records records --released released --proof proof
  fault: proof line 7 Grammar
  [9]
  $ cp right.proof proof
  $ sed -i -e '6c\step KC 1 2 4294967297' proof
  $ forxainde check --rules rules --records records --released released --proof proof
  fault: proof line 6 Grammar
  [9]
  $ cp right.proof proof
  $ sed -i -e '6c\test KC 1 4294967296' proof
  $ forxainde check --rules rules --records records --released released --proof proof
  fault: proof line 7 Grammar
  [9]
  $ cp right.proof proof
  $ sed -i -e '6c\test KC 1 0' proof
  $ forxainde check --rules rules --records records --released released --proof proof
  fault: proof line 6 Grammar
  [9]

A contradiction, which has no path.

  $ cp right.proof proof
  $ sed -i -e '6c\contradictory 3' proof
  $ forxainde check --rules rules --records records --released released --proof proof
  fault: proof line 0 RowText
  [9]
  $ cp right.proof proof
  $ sed -i -e '6c\contradictory KC 3' proof
  $ forxainde check --rules rules --records records --released released --proof proof
  fault: proof line 6 Grammar
  [9]

Leaves.

  $ cp right.proof proof
  $ sed -i -e '7c\line KKK 1' proof
  $ forxainde check --rules rules --records records --released released --proof proof
  fault: proof line 7 Cert
  [9]
  $ cp right.proof proof
  $ sed -i -e '7c\line KK 99999999' proof
  $ forxainde check --rules rules --records records --released released --proof proof
  fault: proof line 9 Grammar
  [9]
  $ cp right.proof proof
  $ sed -i -e '7c\line KK' proof
  $ forxainde check --rules rules --records records --released released --proof proof
  fault: proof line 7 Grammar
  [9]
  $ cp right.proof proof
  $ sed -i -e '7c\bad KK' proof
  $ forxainde check --rules rules --records records --released released --proof proof
  fault: proof line 8 Grammar
  [9]
  $ cp right.proof proof
  $ sed -i -e '7c\bound KK 1' proof
  $ forxainde check --rules rules --records records --released released --proof proof
  fault: proof line 7 Grammar
  [9]
  $ cp right.proof proof
  $ sed -i -e '9c\bound KK' proof
  $ forxainde check --rules rules --records records --released released --proof proof
  fault: proof line 9 Cert
  [9]

Steps that name lines, steps and fields: from 1, and up to 2^64 or, for a field, 2^32.

  $ cp right.proof proof
  $ sed -i -e '8c\given 18446744073709551616' proof
  $ forxainde check --rules rules --records records --released released --proof proof
  fault: proof line 8 Cert
  [9]
  $ cp right.proof proof
  $ sed -i -e '8c\given 18446744073709551617' proof
  $ forxainde check --rules rules --records records --released released --proof proof
  fault: proof line 8 Grammar
  [9]
  $ cp right.proof proof
  $ sed -i -e '8c\given 0' proof
  $ forxainde check --rules rules --records records --released released --proof proof
  fault: proof line 8 Grammar
  [9]
  $ cp right.proof proof
  $ sed -i -e '8c\given 01' proof
  $ forxainde check --rules rules --records records --released released --proof proof
  fault: proof line 8 Grammar
  [9]
  $ cp right.proof proof
  $ sed -i -e '8c\given 1 1' proof
  $ forxainde check --rules rules --records records --released released --proof proof
  fault: proof line 8 Grammar
  [9]
  $ cp right.proof proof
  $ sed -i -e '8c\fail 1' proof
  $ forxainde check --rules rules --records records --released released --proof proof
  fault: proof line 8 Cert
  [9]
  $ cp right.proof proof
  $ sed -i -e '8c\fix 4294967296 1' proof
  $ forxainde check --rules rules --records records --released released --proof proof
  fault: proof line 8 Cert
  [9]
  $ cp right.proof proof
  $ sed -i -e '8c\fix 4294967297 1' proof
  $ forxainde check --rules rules --records records --released released --proof proof
  fault: proof line 8 Grammar
  [9]
  $ cp right.proof proof
  $ sed -i -e '8c\cover 1' proof
  $ forxainde check --rules rules --records records --released released --proof proof
  fault: proof line 8 Cert
  [9]
  $ cp right.proof proof
  $ sed -i -e '8c\cover 1 2 0' proof
  $ forxainde check --rules rules --records records --released released --proof proof
  fault: proof line 8 Grammar
  [9]

The multipliers and the divisor of a combination: of 128 bits, the divisor not below 0, and no number -0.

  $ cp right.proof proof
  $ sed -i -e '8c\combine 1 -1 1 0 0' proof
  $ forxainde check --rules rules --records records --released released --proof proof
  fault: proof line 8 Cert
  [9]
  $ cp right.proof proof
  $ sed -i -e '8c\combine 1 -0 1 1 1' proof
  $ forxainde check --rules rules --records records --released released --proof proof
  fault: proof line 8 Grammar
  [9]
  $ cp right.proof proof
  $ sed -i -e '8c\combine 1 1 1 1 -1' proof
  $ forxainde check --rules rules --records records --released released --proof proof
  fault: proof line 8 Grammar
  [9]
  $ cp right.proof proof
  $ sed -i -e '8c\combine 1 170141183460469231731687303715884105727 1 1 170141183460469231731687303715884105727' proof
  $ forxainde check --rules rules --records records --released released --proof proof
  fault: proof line 8 Cert
  [9]
  $ cp right.proof proof
  $ sed -i -e '8c\combine 1 -170141183460469231731687303715884105727 1 1 1' proof
  $ forxainde check --rules rules --records records --released released --proof proof
  fault: proof line 8 Cert
  [9]
  $ cp right.proof proof
  $ sed -i -e '8c\combine 1 170141183460469231731687303715884105728 1 1 1' proof
  $ forxainde check --rules rules --records records --released released --proof proof
  fault: proof line 8 Grammar
  [9]
  $ cp right.proof proof
  $ sed -i -e '8c\combine 1 -170141183460469231731687303715884105728 1 1 1' proof
  $ forxainde check --rules rules --records records --released released --proof proof
  fault: proof line 8 Grammar
  [9]
  $ cp right.proof proof
  $ sed -i -e '8c\combine 1 1 1 1 170141183460469231731687303715884105728' proof
  $ forxainde check --rules rules --records records --released released --proof proof
  fault: proof line 8 Grammar
  [9]
