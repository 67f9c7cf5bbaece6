Edits by several workers, which draw the records side by side and claim donors as they go. What they find of a record is the same
for any number of them. In which order they claim is not said, so where several records claim, only what is the same for each
order is shown.

Clean records are drawn by one worker or another, and nothing is changed. The calls on the desk are those of any edit.

  $ cat >rules <<EOF
  > number A
  > A >= 0
  > EOF
  $ cat >records <<EOF
  > A
  > 1
  > 2
  > EOF
  $ forxainde edit --rules rules --records records --released released --reasons reasons --proof proof --workers 2
  records 2 clean 2 changed 0 unresolved 0 weight 0
  claims 0 given 0
  $ calls
  fetch rules
  fetch records
  store proof
  store reasons
  store released
  $ cat released
  A
  1
  2
  $ cat reasons
  record,cause,field,before,after,donor,detail
  $ cat proof
  fh-proof 2
  limit 1 near 5 budget 1000000
  lines 1
  keep
  table 0
  records 2
  clean
  clean
  claims 0
  end
  $ forxainde check --rules rules --records records --released released --proof proof
  valid records 2 released 2

Workers work at once, each under a number of its own: none goes on with the first record that it drew before all others drew one, too.

  $ cat >records <<EOF
  > A
  > 1
  > 2
  > 3
  > 4
  > EOF
  $ meet 2
  $ forxainde edit --rules rules --records records --released released --reasons reasons --proof proof --workers 2
  records 4 clean 4 changed 0 unresolved 0 weight 0
  claims 0 given 0
  $ meet 4
  $ forxainde edit --rules rules --records records --released released --reasons reasons --proof proof --workers 4
  records 4 clean 4 changed 0 unresolved 0 weight 0
  claims 0 given 0
  $ meet 3
  $ forxainde classed --rules rules --records records --released released --reasons reasons --proof proof --workers 3 --class A
  fault: class A
  [11]
  not met

One record claims a donor. The three files are the same for each order in which the workers go.

  $ cat >rules <<EOF
  > number A
  > number B
  > A >= 1
  > B >= 1
  > B <= 9
  > EOF
  $ cat >records <<EOF
  > A,B
  > 5,4
  > 5,
  > EOF
  $ forxainde edit --rules rules --records records --released released --reasons reasons --proof proof --near 1 --workers 2
  records 2 clean 1 changed 1 unresolved 0 weight 1
  claims 1 given 1
  $ cat released
  A,B
  5,4
  5,4
  $ cat reasons
  record,cause,field,before,after,donor,detail
  2,changed,B,,4,1,donor
  $ cat proof
  fh-proof 2
  limit 1 near 1 budget 1000000
  lines 3
  keep
  keep
  keep
  table 0
  records 2
  clean
  change 1 KC 3
  bad KK
  bound KC
  bound C
  claims 1
  claim 2 1 1
  end
  $ forxainde check --rules rules --records records --released released --proof proof
  valid records 2 released 2

The same by as many workers as there may be: most of them find no record left.

  $ cp proof by_two.proof
  $ forxainde edit --rules rules --records records --released released --reasons reasons --proof proof --near 1 --workers 64
  records 2 clean 1 changed 1 unresolved 0 weight 1
  claims 1 given 1
  $ cat released
  A,B
  5,4
  5,4
  $ forxainde check --rules rules --records records --released released --proof by_two.proof
  valid records 2 released 2

Two records claim one donor, which is given once. Whoever claims first is given it, so that one donor is given for each order.

  $ cat >records <<EOF
  > A,B
  > 5,4
  > 5,
  > 6,
  > EOF
  $ forxainde edit --rules rules --records records --released released --reasons reasons --proof proof --near 1 --limit 1 --workers 2
  records 3 clean 1 changed 2 unresolved 0 weight 2
  claims 2 given 1
  $ forxainde check --rules rules --records records --released released --proof proof
  valid records 3 released 3

Where it may be given twice, both are given it. The claims in the proof stand in either order.

  $ forxainde edit --rules rules --records records --released released --reasons reasons --proof proof --near 1 --limit 2 --workers 2
  records 3 clean 1 changed 2 unresolved 0 weight 2
  claims 2 given 2
  $ cat released
  A,B
  5,4
  5,4
  6,4
  $ cat reasons
  record,cause,field,before,after,donor,detail
  2,changed,B,,4,1,donor
  3,changed,B,,4,1,donor
  $ forxainde check --rules rules --records records --released released --proof proof
  valid records 3 released 3

Two records with a donor each.

  $ cat >records <<EOF
  > A,B
  > 1,7
  > 2,8
  > 1,
  > 2,
  > EOF
  $ forxainde edit --rules rules --records records --released released --reasons reasons --proof proof --near 1 --workers 3
  records 4 clean 2 changed 2 unresolved 0 weight 2
  claims 2 given 2
  $ cat released
  A,B
  1,7
  2,8
  1,7
  2,8
  $ cat reasons
  record,cause,field,before,after,donor,detail
  3,changed,B,,7,1,donor
  4,changed,B,,8,2,donor
  $ forxainde check --rules rules --records records --released released --proof proof
  valid records 4 released 4

A budget that is too small for each of the records leaves them unresolved, whoever draws them.

  $ cat >rules <<EOF
  > number A
  > A >= 3
  > EOF
  $ cat >records <<EOF
  > A
  > 1
  > 2
  > EOF
  $ forxainde edit --rules rules --records records --released released --reasons reasons --proof proof --budget 2 --workers 2
  records 2 clean 0 changed 0 unresolved 2 weight 0
  claims 0 given 0
  [1]
  $ cat released
  A
  $ cat reasons
  record,cause,field,before,after,donor,detail
  1,budget,,,,,path C work 2
  2,budget,,,,,path C work 2
  $ cat proof
  fh-proof 2
  limit 1 near 5 budget 2
  lines 1
  keep
  table 0
  records 2
  budget C 2
  budget C 2
  claims 0
  end
  $ forxainde check --rules rules --records records --released released --proof proof
  valid records 2 released 0

No records at all.

  $ cat >records <<EOF
  > A
  > EOF
  $ forxainde edit --rules rules --records records --released released --reasons reasons --proof proof --workers 2
  records 0 clean 0 changed 0 unresolved 0 weight 0
  claims 0 given 0
  $ cat released
  A
