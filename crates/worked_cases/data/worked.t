Records of small surveys: what is released of them, why, and the proof of it.

A tie is won by the first set in path order: of A and B, each of weight 1, the later one changes. The same rule without
an equality, as two inequalities, is two lines, and takes one pair more than the equality: a work of 5.

  $ cat >rules <<EOF
  > number A
  > number B
  > A + B >= 10
  > A + B <= 10
  > EOF
  $ cat >records <<EOF
  > A,B
  > 3,4
  > EOF
  $ forxainde edit --rules rules --records records --released released --reasons reasons --proof proof --budget 5
  records 1 clean 0 changed 1 unresolved 0 weight 1
  claims 1 given 0
  $ cat released
  A,B
  3,7
  $ cat reasons
  record,cause,field,before,after,donor,detail
  1,changed,B,4,7,,nearest
  $ cat proof
  fh-proof 2
  limit 1 near 5 budget 5
  lines 2
  keep
  keep
  table 1
  given 1
  records 1
  change 1 KC 3
  line KK 1
  shared 1
  bound KC
  bound C
  claims 1
  claim 1 0
  end
  $ forxainde check --rules rules --records records --released released --proof proof
  valid records 1 released 1
  $ forxainde edit --rules rules --records records --released released --reasons reasons --proof proof --budget 4
  records 1 clean 0 changed 0 unresolved 1 weight 0
  claims 0 given 0
  [1]
  $ cat released
  A,B
  $ cat reasons
  record,cause,field,before,after,donor,detail
  1,budget,,,,,path KC work 3
  $ cat proof
  fh-proof 2
  limit 1 near 5 budget 4
  lines 2
  keep
  keep
  table 0
  records 1
  budget KC 3
  claims 0
  end
  $ forxainde check --rules rules --records records --released released --proof proof
  valid records 1 released 0

Rules on codes. A married child is wrong, and so is a child who is somebody's spouse: no status alone mends the
record, which only both rules together show. The work is 11.

  $ cat >household.rules <<EOF
  > code Age in {child, adult}
  > code Status in {single, married}
  > code Rel in {spouse, other}
  > if Age in {child} then Status in {single}
  > if Rel in {spouse} then Status in {married}
  > EOF
  $ cat >records <<EOF
  > Age,Status,Rel
  > child,married,spouse
  > EOF
  $ forxainde edit --rules household.rules --records records --released released --reasons reasons --proof proof
  records 1 clean 0 changed 1 unresolved 0 weight 1
  claims 1 given 0
  $ cat released
  Age,Status,Rel
  adult,married,spouse
  $ cat reasons
  record,cause,field,before,after,donor,detail
  1,changed,Age,child,adult,,nearest
  $ cat proof
  fh-proof 2
  limit 1 near 5 budget 1000000
  lines 2
  keep
  keep
  table 2
  given 1
  given 2
  records 1
  change 1 CKK 6
  box KK 4
  shared 1
  fail 1
  fix 1 2
  fix 2 3
  box KCK 7
  shared 2
  fail 1
  shared 1
  fail 3
  fix 1 4
  cover 2 2 5
  fix 3 6
  bound KCC
  bound CKK
  bound CKC
  bound CC
  claims 1
  claim 1 0
  end
  $ forxainde check --rules household.rules --records records --released released --proof proof
  valid records 1 released 1
  $ forxainde edit --rules household.rules --records records --released released --reasons reasons --proof proof --budget 11
  records 1 clean 0 changed 1 unresolved 0 weight 1
  claims 1 given 0
  $ cat released
  Age,Status,Rel
  adult,married,spouse
  $ forxainde edit --rules household.rules --records records --released released --reasons reasons --proof proof --budget 10
  records 1 clean 0 changed 0 unresolved 1 weight 0
  claims 0 given 0
  [1]
  $ cat released
  Age,Status,Rel
  $ cat reasons
  record,cause,field,before,after,donor,detail
  1,budget,,,,,path CKK work 10

The middle of an open interval.

  $ cat >rules <<EOF
  > number A
  > A > 0
  > A < 1
  > EOF
  $ cat >records <<EOF
  > id,A
  > 1,
  > EOF
  $ forxainde edit --rules rules --records records --released released --reasons reasons --proof proof
  records 1 clean 0 changed 1 unresolved 0 weight 1
  claims 1 given 0
  $ cat released
  id,A
  1,1/2
  $ cat reasons
  record,cause,field,before,after,donor,detail
  1,changed,A,,1/2,,nearest
  $ cat proof
  fh-proof 2
  limit 1 near 5 budget 1000000
  lines 2
  keep
  keep
  table 0
  records 1
  change 1 C 2
  bad K
  bound C
  claims 1
  claim 1 0
  end
  $ forxainde check --rules rules --records records --released released --proof proof
  valid records 1 released 1

An open interval without an upper end: one further in.

  $ cat >rules <<EOF
  > number A
  > A > 0
  > EOF
  $ forxainde edit --rules rules --records records --released released --reasons reasons --proof proof
  records 1 clean 0 changed 1 unresolved 0 weight 1
  claims 1 given 0
  $ cat released
  id,A
  1,1
  $ cat reasons
  record,cause,field,before,after,donor,detail
  1,changed,A,,1,,nearest
  $ cat proof
  fh-proof 2
  limit 1 near 5 budget 1000000
  lines 1
  keep
  table 0
  records 1
  change 1 C 2
  bad K
  bound C
  claims 1
  claim 1 0
  end
  $ forxainde check --rules rules --records records --released released --proof proof
  valid records 1 released 1

The same from above; and a closed end below 0, beside an open interval at whose upper end 0 stands, of which the middle
is given.

  $ cat >rules <<EOF
  > number A
  > A < -2
  > EOF
  $ forxainde edit --rules rules --records records --released released --reasons reasons --proof proof
  records 1 clean 0 changed 1 unresolved 0 weight 1
  claims 1 given 0
  $ cat released
  id,A
  1,-3
  $ cat >rules <<EOF
  > number A
  > number B
  > A <= -1
  > B < 0
  > 2 B > -3
  > EOF
  $ cat >records <<EOF
  > A,B
  > 4,4
  > EOF
  $ forxainde edit --rules rules --records records --released released --reasons reasons --proof proof
  records 1 clean 0 changed 1 unresolved 0 weight 2
  claims 1 given 0
  $ cat released
  A,B
  -1,-3/4
  $ cat reasons
  record,cause,field,before,after,donor,detail
  1,changed,A,4,-1,,nearest
  1,changed,B,4,-3/4,,nearest
  $ forxainde check --rules rules --records records --released released --proof proof
  valid records 1 released 1

A rule of a code and a number, of which the code is lighter: an adult may have a wage.

  $ cat >rules <<EOF
  > code Status in {child, adult}
  > number Wage weight 3
  > if Status in {child} then Wage = 0
  > EOF
  $ cat >records <<EOF
  > Status,Wage
  > child,50
  > EOF
  $ forxainde edit --rules rules --records records --released released --reasons reasons --proof proof
  records 1 clean 0 changed 1 unresolved 0 weight 1
  claims 1 given 0
  $ cat released
  Status,Wage
  adult,50
  $ cat reasons
  record,cause,field,before,after,donor,detail
  1,changed,Status,child,adult,,nearest
  $ cat proof
  fh-proof 2
  limit 1 near 5 budget 1000000
  lines 2
  keep
  keep
  table 1
  given 2
  records 1
  change 1 KC 3
  box KK 3
  shared 1
  fail 1
  fix 1 2
  bound KC
  bound C
  claims 1
  claim 1 0
  end
  $ forxainde check --rules rules --records records --released released --proof proof
  valid records 1 released 1

And of which the number is: the child has none.

  $ cat >rules <<EOF
  > code Status weight 3 in {child, adult}
  > number Wage
  > if Status in {child} then Wage = 0
  > EOF
  $ forxainde edit --rules rules --records records --released released --reasons reasons --proof proof
  records 1 clean 0 changed 1 unresolved 0 weight 1
  claims 1 given 0
  $ cat released
  Status,Wage
  child,0
  $ cat reasons
  record,cause,field,before,after,donor,detail
  1,changed,Wage,50,0,,default
  $ cat proof
  fh-proof 2
  limit 1 near 5 budget 1000000
  lines 2
  keep
  keep
  table 1
  given 2
  records 1
  change 1 CK 4
  box KK 3
  shared 1
  fail 1
  fix 1 2
  bound KC
  bound CK
  bound CC
  claims 1
  claim 1 0
  end
  $ forxainde check --rules rules --records records --released released --proof proof
  valid records 1 released 1

Bounds of two fields, and no rule that ties them: each record is corrected for itself, and the clean one is a donor.

  $ cat >rules <<EOF
  > number A
  > number B weight 2
  > A >= 3
  > A <= 9
  > B <= 5
  > EOF
  $ cat >records <<EOF
  > A,B
  > 10,7
  > 4,
  > 3,5
  > EOF
  $ forxainde edit --rules rules --records records --released released --reasons reasons --proof proof
  records 3 clean 1 changed 2 unresolved 0 weight 5
  claims 2 given 1
  $ cat released
  A,B
  3,5
  4,0
  3,5
  $ cat reasons
  record,cause,field,before,after,donor,detail
  1,changed,A,10,3,3,donor
  1,changed,B,7,5,3,donor
  2,changed,B,,0,,default
  $ forxainde check --rules rules --records records --released released --proof proof
  valid records 3 released 3

Without the clean record there is no donor: a changed field is given 0 where its bounds allow that, and else the end that is nearest to it.

  $ sed -i -e '4d' records
  $ forxainde edit --rules rules --records records --released released --reasons reasons --proof proof
  records 2 clean 0 changed 2 unresolved 0 weight 5
  claims 2 given 0
  $ cat released
  A,B
  3,0
  4,0
  $ cat reasons
  record,cause,field,before,after,donor,detail
  1,changed,A,10,3,,nearest
  1,changed,B,7,0,,default
  2,changed,B,,0,,default
  $ forxainde check --rules rules --records records --released released --proof proof
  valid records 2 released 2

The greatest value that a bound below 0 allows.

  $ cat >rules <<EOF
  > number A
  > A <= -1
  > EOF
  $ cat >records <<EOF
  > A
  > 4
  > EOF
  $ forxainde edit --rules rules --records records --released released --reasons reasons --proof proof
  records 1 clean 0 changed 1 unresolved 0 weight 1
  claims 1 given 0
  $ cat released
  A
  -1

A record that meets a strict rule, and one that stands at its end.

  $ cat >rules <<EOF
  > number A
  > A > 3
  > EOF
  $ cat >records <<EOF
  > id,A
  > 1,4
  > 2,3
  > EOF
  $ forxainde edit --rules rules --records records --released released --reasons reasons --proof proof
  records 2 clean 1 changed 1 unresolved 0 weight 1
  claims 1 given 1
  $ cat released
  id,A
  1,4
  2,4

Codes that are missing, unknown or not allowed. Without a donor the first one that is allowed is given, and else the donor's.

  $ cat >rules <<EOF
  > code B in {x, y, z}
  > B not in {x}
  > EOF
  $ cat >records <<EOF
  > id,B
  > 1,
  > 2,w
  > 3,x
  > 4,Y
  > 5, z
  > EOF
  $ forxainde edit --rules rules --records records --released released --reasons reasons --proof proof
  records 5 clean 1 changed 4 unresolved 0 weight 4
  claims 4 given 1
  $ cat released
  id,B
  1,z
  2,y
  3,y
  4,y
  5, z
  $ cat reasons
  record,cause,field,before,after,donor,detail
  1,changed,B,,z,5,donor
  2,changed,B,w,y,,nearest
  3,changed,B,x,y,,nearest
  4,changed,B,Y,y,,nearest
  $ cat proof
  fh-proof 2
  limit 1 near 5 budget 1000000
  lines 1
  keep
  table 1
  given 1
  records 5
  change 1 C 2
  bad K
  bound C
  change 1 C 2
  bad K
  bound C
  change 1 C 2
  box K 3
  shared 1
  fail 1
  fix 1 2
  bound C
  change 1 C 2
  bad K
  bound C
  clean
  claims 4
  claim 1 5 5
  claim 2 0 5
  claim 3 0 5
  claim 4 0 5
  end
  $ forxainde check --rules rules --records records --released released --proof proof
  valid records 5 released 5

No records.

  $ cat >rules <<EOF
  > number A
  > A >= 5
  > A <= 3
  > EOF
  $ cat >records <<EOF
  > A
  > EOF
  $ forxainde edit --rules rules --records records --released released --reasons reasons --proof proof
  records 0 clean 0 changed 0 unresolved 0 weight 0
  claims 0 given 0
  $ cat released
  A
  $ cat reasons
  record,cause,field,before,after,donor,detail
  $ cat proof
  fh-proof 2
  limit 1 near 5 budget 1000000
  lines 2
  keep
  keep
  table 0
  records 0
  claims 0
  end
  $ forxainde check --rules rules --records records --released released --proof proof
  valid records 0 released 0
