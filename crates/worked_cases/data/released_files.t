Released files of three records, of which the second is changed, and the audit of them. In the proof the change stands on
line 7, and the clean records on lines 6 and 14.

  $ cat >rules <<EOF
  > number A
  > code B in {x, y}
  > if B in {x} then 3 A <= 7
  > EOF
  $ cat >records <<EOF
  > id,A,B
  > 1, 02.0 ,x
  > 2,3, x
  > 3,9,y
  > EOF
  $ cat >proof <<EOF
  > fh-proof 1
  > limit 1 near 5 budget 1000000
  > lines 1
  > keep
  > records 3
  > clean
  > change 1 CK 3
  > box KK 3
  > given 1
  > fail 1
  > fix 2 2
  > bound KC
  > bound C
  > clean
  > claims 1
  > claim 2 1 1 3
  > end
  > EOF
  $ cat >right.csv <<EOF
  > id,A,B
  > 1, 02.0 ,x
  > 2,7/3, x
  > 3,9,y
  > EOF
  $ cp right.csv released
  $ forxainde check --rules rules --records records --released released --proof proof
  valid records 3 released 3

Other bytes that are the same rows.

  $ cat >released <<EOF
  > \xef\xbb\xbf"id",A,B\x0d (esc)
  > 1, 02.0 ,x\x0d (esc)
  > \x0d (esc)
  > 2,7/3, x\x0d (esc)
  > 3,9,"y" (no-eol)
  > EOF
  $ forxainde check --rules rules --records records --released released --proof proof
  valid records 3 released 3

Any allowed value may be given.

  $ cp right.csv released
  $ sed -i -e '3c\2,-5, x' released
  $ forxainde check --rules rules --records records --released released --proof proof
  valid records 3 released 3

No other spelling of it, no number past the rule, and not the value that the record had.

  $ cp right.csv released
  $ sed -i -e '3c\2,14/6, x' released
  $ forxainde check --rules rules --records records --released released --proof proof
  fault: proof line 7 RowText
  [9]
  $ cp right.csv released
  $ sed -i -e '3c\2,2.0, x' released
  $ forxainde check --rules rules --records records --released released --proof proof
  fault: proof line 7 RowText
  [9]
  $ cp right.csv released
  $ sed -i -e '3c\2, 2, x' released
  $ forxainde check --rules rules --records records --released released --proof proof
  fault: proof line 7 RowText
  [9]
  $ cp right.csv released
  $ sed -i -e '3c\2,+2, x' released
  $ forxainde check --rules rules --records records --released released --proof proof
  fault: proof line 7 RowText
  [9]
  $ cp right.csv released
  $ sed -i -e '3c\2,2/1, x' released
  $ forxainde check --rules rules --records records --released released --proof proof
  fault: proof line 7 RowText
  [9]
  $ cp right.csv released
  $ sed -i -e '3c\2,-0, x' released
  $ forxainde check --rules rules --records records --released released --proof proof
  fault: proof line 7 RowText
  [9]
  $ cp right.csv released
  $ sed -i -e '3c\2,, x' released
  $ forxainde check --rules rules --records records --released released --proof proof
  fault: proof line 7 RowText
  [9]
  $ cp right.csv released
  $ sed -i -e '3c\2,8/3, x' released
  $ forxainde check --rules rules --records records --released released --proof proof
  fault: proof line 7 RowText
  [9]
  $ cp right.csv released
  $ sed -i -e '3c\2,3, x' released
  $ forxainde check --rules rules --records records --released released --proof proof
  fault: proof line 7 RowText
  [9]
  $ cp right.csv released
  $ sed -i -e '3c\2,-170141183460469231731687303715884105728, x' released
  $ forxainde check --rules rules --records records --released released --proof proof
  fault: proof line 7 RowText
  [9]

A kept field keeps its bytes, and so does another column.

  $ cp right.csv released
  $ sed -i -e '3c\2,2,x' released
  $ forxainde check --rules rules --records records --released released --proof proof
  fault: proof line 7 RowText
  [9]
  $ cp right.csv released
  $ sed -i -e '3c\2,2,y' released
  $ forxainde check --rules rules --records records --released released --proof proof
  fault: proof line 7 RowText
  [9]
  $ cp right.csv released
  $ sed -i -e '3c\02,2, x' released
  $ forxainde check --rules rules --records records --released released --proof proof
  fault: proof line 7 RowText
  [9]
  $ cp right.csv released
  $ sed -i -e '2c\1,2,x' -e '3c\2,2, x' released
  $ forxainde check --rules rules --records records --released released --proof proof
  fault: proof line 6 RowText
  [9]
  $ cp right.csv released
  $ sed -i -e '3c\2,2, x' -e '4c\3,9,x' released
  $ forxainde check --rules rules --records records --released released --proof proof
  fault: proof line 14 RowText
  [9]

The rows in another order, one less, one more, and one of another length.

  $ cp right.csv released
  $ sed -i -e '2c\2,2, x' -e '3c\1, 02.0 ,x' released
  $ forxainde check --rules rules --records records --released released --proof proof
  fault: proof line 6 RowText
  [9]
  $ cp right.csv released
  $ sed -i -e '3c\3,9,y' -e '4c\2,2, x' released
  $ forxainde check --rules rules --records records --released released --proof proof
  fault: proof line 7 RowText
  [9]
  $ cp right.csv released
  $ sed -i -e '4d' released
  $ forxainde check --rules rules --records records --released released --proof proof
  fault: proof line 0 RowText
  [9]
  $ cp right.csv released
  $ sed -i -e '4a\3,9,y' released
  $ forxainde check --rules rules --records records --released released --proof proof
  fault: proof line 0 RowText
  [9]
  $ cp right.csv released
  $ sed -i -e '4c\3,9,y,' released
  $ forxainde check --rules rules --records records --released released --proof proof
  fault: proof line 0 RowText
  [9]

Another header, and none.

  $ cp right.csv released
  $ sed -i -e '1c\id,A,C' released
  $ forxainde check --rules rules --records records --released released --proof proof
  fault: proof line 0 RowText
  [9]
  $ cp right.csv released
  $ sed -i -e '1c\id,A, B' released
  $ forxainde check --rules rules --records records --released released --proof proof
  fault: proof line 0 RowText
  [9]
  $ cp right.csv released
  $ sed -i -e '1c\id,A' -e '2c\1,02.0' -e '3c\2,2' -e '4c\3,9' released
  $ forxainde check --rules rules --records records --released released --proof proof
  fault: proof line 0 RowText
  [9]
  $ cat >released <<EOF
  > EOF
  $ forxainde check --rules rules --records records --released released --proof proof
  fault: proof line 0 RowText
  [9]
