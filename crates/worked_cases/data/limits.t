Files at the limits of what is read, and one past them.

A file of 67,108,864 bytes is read: here it has nothing but comments. One byte more is too long, whichever file it is, and nothing
that comes behind it is fetched.

  $ yes ############################################################################################################################################################################################################################################################### | head -n 262144 >longest
  $ forxainde rules --rules longest
  $ yes ######################################################################################################################################################################################################################################################################## | head -n 253241 >longer
  $ forxainde rules --rules longer
  fault: too long longer
  [8]
  $ calls
  fetch longer
  $ cat >rules <<EOF
  > number A
  > EOF
  $ forxainde edit --rules longer --records rules --released released --reasons reasons --proof proof
  fault: too long longer
  [8]
  $ calls
  fetch longer
  $ forxainde edit --rules rules --records longer --released released --reasons reasons --proof proof
  fault: too long longer
  [8]
  $ calls
  fetch rules
  fetch longer
  $ forxainde fill --rules longer --records rules --released released
  fault: too long longer
  [8]
  $ calls
  fetch longer
  $ forxainde fill --rules rules --records longer --released released
  fault: too long longer
  [8]
  $ calls
  fetch rules
  fetch longer
  $ forxainde panel --rules rules --records longer --last last --released released --reasons reasons --proof proof --key A
  fault: too long longer
  [8]
  $ calls
  fetch rules
  fetch longer
  $ cat >coded <<EOF
  > code A in {a, b}
  > EOF
  $ forxainde classed --rules longer --records rules --released released --reasons reasons --proof proof --class B
  fault: too long longer
  [8]
  $ calls
  fetch longer
  $ forxainde classed --rules coded --records longer --released released --reasons reasons --proof proof --class B
  fault: class B
  [11]
  $ calls
  fetch coded
  $ forxainde classed --rules coded --records longer --released released --reasons reasons --proof proof --class A
  fault: too long longer
  [8]
  $ calls
  fetch coded
  fetch longer
  $ rm coded
  $ ls
  longer
  longest
  rules
  $ fail line 1
  $ forxainde edit --rules rules --records longer --released released --reasons reasons --proof proof
  [8]
  $ fail line 1
  $ forxainde fill --rules rules --records longer --released released
  [8]

So it is of each file that a check reads, but for the proof, which may have 536,870,912 bytes: here it has a byte more than the
others may have, and its first line is no proof's.

  $ cat >records <<EOF
  > A
  > 1
  > EOF
  $ cat >released <<EOF
  > A
  > 1
  > EOF
  $ cat >proof <<EOF
  > fh-proof 1
  > limit 1 near 5 budget 1000000
  > lines 0
  > records 1
  > clean
  > claims 0
  > end
  > EOF
  $ forxainde check --rules rules --records records --released released --proof proof
  valid records 1 released 1
  $ forxainde check --rules longer --records records --released released --proof proof
  fault: too long longer
  [8]
  $ calls
  fetch longer
  $ forxainde check --rules rules --records longer --released released --proof proof
  fault: too long longer
  [8]
  $ calls
  fetch rules
  fetch longer
  $ forxainde check --rules rules --records records --released longer --proof proof
  fault: too long longer
  [8]
  $ calls
  fetch rules
  fetch records
  fetch longer
  $ fail line 1
  $ forxainde check --rules rules --records records --released longer --proof proof
  [8]
  $ forxainde check --rules rules --records records --released released --proof longer
  fault: proof line 1 Grammar
  [9]
  $ calls
  fetch rules
  fetch records
  fetch released
  fetch longer

So it is of the file of the last period.

  $ forxainde panel --rules rules --records records --last longer --released released --reasons reasons --proof proof --key A
  fault: too long longer
  [8]
  $ calls
  fetch rules
  fetch records
  fetch longer

A file that can't be read is told before a later one that is too long, and so is one that has no reading.

  $ fail call 1 keep 0
  $ forxainde edit --rules rules --records longer --released released --reasons reasons --proof proof
  fault: read rules
  [5]
  $ fail call 2 keep 0
  $ forxainde check --rules rules --records records --released longer --proof proof
  fault: read records
  [5]
  $ cat >faulty <<EOF
  > A >= 0
  > EOF
  $ forxainde edit --rules faulty --records longer --released released --reasons reasons --proof proof
  fault: rules line 1 kind 3 UnknownField
  [3]
  $ forxainde check --rules rules --records faulty --released longer --proof proof
  fault: records kind 12 NoColumn field A
  [4]
  $ rm records released proof faulty

A record file has at most 200,000 records. One with a record more has no reading: here each line is `A`, the header too.

  $ yes A | head -n 200002 >records
  $ forxainde edit --rules rules --records records --released released --reasons reasons --proof proof
  fault: records kind 15 TooManyRows
  [4]
  $ forxainde fill --rules rules --records records --released released
  fault: records kind 15 TooManyRows
  [4]
  $ cat >coded <<EOF
  > code A in {a, b}
  > EOF
  $ forxainde classed --rules coded --records records --released released --reasons reasons --proof proof --class A
  fault: records kind 15 TooManyRows
  [4]
  $ rm coded
  $ cat >last <<EOF
  > A
  > EOF
  $ forxainde panel --rules rules --records records --last last --released released --reasons reasons --proof proof --key A
  fault: records kind 15 TooManyRows
  [4]
  $ forxainde panel --rules rules --records last --last records --released released --reasons reasons --proof proof --key A
  fault: last kind 15 TooManyRows
  [4]
  $ rm last
  $ ls
  longer
  longest
  records
  rules


Of its records the first faulty one is told: one of another length before record 200,001, and not one behind it. Nor does it
matter how long that record is itself. A header without a column is told before all of them.

  $ yes A | head -n 200003 >records
  $ sed -i -e '6c\A,B' records
  $ forxainde edit --rules rules --records records --released released --reasons reasons --proof proof
  fault: records kind 14 RowLength row 5
  [4]
  $ sed -i -e '6c\A' -e '200001c\A,B' records
  $ forxainde edit --rules rules --records records --released released --reasons reasons --proof proof
  fault: records kind 14 RowLength row 200000
  [4]
  $ sed -i -e '200001c\A' -e '200002c\A,B' records
  $ forxainde edit --rules rules --records records --released released --reasons reasons --proof proof
  fault: records kind 15 TooManyRows
  [4]
  $ sed -i -e '200002c\A' -e '200003c\A,B' records
  $ forxainde edit --rules rules --records records --released released --reasons reasons --proof proof
  fault: records kind 15 TooManyRows
  [4]
  $ sed -i -e '1c\B' records
  $ forxainde edit --rules rules --records records --released released --reasons reasons --proof proof
  fault: records kind 12 NoColumn field A
  [4]
200,000 records are read: all are clean.

  $ yes 1 | head -n 200001 >records
  $ sed -i -e '1c\A' records
  $ forxainde edit --rules rules --records records --released released --reasons reasons --proof proof
  records 200000 clean 200000 changed 0 unresolved 0 weight 0
  claims 0 given 0
  $ cat reasons
  record,cause,field,before,after,donor,detail
  $ cat >coded <<EOF
  > code A in {a, b}
  > EOF
  $ yes b | head -n 200001 >records
  $ sed -i -e '1c\A' records
  $ forxainde classed --rules coded --records records --released released --reasons reasons --proof proof --class A
  records 200000 clean 200000 changed 0 unresolved 0 weight 0
  claims 0 given 0
