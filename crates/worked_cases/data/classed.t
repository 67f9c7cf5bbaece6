Imputation classes. `classed` is an edit in which a record takes its new values from clean records that have its own code at one field, the class
field. Claims come class by class, in the order in which the field's codes are declared.

The third and the fifth record are of class s, the fourth of class n. Each class has one clean record, which gives its A once. The claims of n
come first, and those of a class in the order of its records.

  $ cat >rules <<EOF
  > code Reg in {n, s}
  > number A
  > A >= 1
  > A <= 9
  > EOF
  $ cat >records <<EOF
  > Reg,A
  > n,4
  > s,6
  > s,
  > n,
  > s,
  > EOF
  $ forxainde classed --rules rules --records records --released released --reasons reasons --proof proof --class Reg --limit 1
  records 5 clean 2 changed 3 unresolved 0 weight 3
  claims 3 given 2
  $ calls
  fetch rules
  fetch records
  store proof
  store reasons
  store released
  $ cat released
  Reg,A
  n,4
  s,6
  s,6
  n,4
  s,1
  $ cat reasons
  record,cause,field,before,after,donor,detail
  3,changed,A,,6,2,donor
  4,changed,A,,4,1,donor
  5,changed,A,,1,,nearest
  $ cat proof
  fh-proof 2
  limit 1 near 5 budget 1000000
  lines 2
  keep
  keep
  table 0
  records 5
  clean
  clean
  change 1 CK 3
  bad K
  bound CK
  bound CC
  change 1 CK 3
  bad K
  bound CK
  bound CC
  change 1 CK 3
  bad K
  bound CK
  bound CC
  claims 3
  claim 4 1 1
  claim 3 2 2
  claim 5 0 2
  end
  $ forxainde check --rules rules --records records --released released --proof proof
  valid records 5 released 5

By several workers one of the two records of s is given its donor, and the other is not.

  $ forxainde classed --rules rules --records records --released released --reasons reasons --proof proof --class Reg --limit 1 --workers 4
  records 5 clean 2 changed 3 unresolved 0 weight 3
  claims 3 given 2
  $ forxainde check --rules rules --records records --released released --proof proof
  valid records 5 released 5

With a limit of 2 both are, whoever claims first.

  $ forxainde classed --rules rules --records records --released released --reasons reasons --proof proof --class Reg --limit 2 --workers 4
  records 5 clean 2 changed 3 unresolved 0 weight 3
  claims 3 given 3
  $ cat released
  Reg,A
  n,4
  s,6
  s,6
  n,4
  s,6
  $ cat reasons
  record,cause,field,before,after,donor,detail
  3,changed,A,,6,2,donor
  4,changed,A,,4,1,donor
  5,changed,A,,6,2,donor
  $ forxainde check --rules rules --records records --released released --proof proof
  valid records 5 released 5

An edit of the same records has one row of claims in row order, and each record ranks both clean ones. A code that differs is 1000 away.

  $ forxainde edit --rules rules --records records --released released --reasons reasons --proof proof
  records 5 clean 2 changed 3 unresolved 0 weight 3
  claims 3 given 2
  $ cat proof
  fh-proof 2
  limit 1 near 5 budget 1000000
  lines 2
  keep
  keep
  table 0
  records 5
  clean
  clean
  change 1 CK 3
  bad K
  bound CK
  bound CC
  change 1 CK 3
  bad K
  bound CK
  bound CC
  change 1 CK 3
  bad K
  bound CK
  bound CC
  claims 3
  claim 3 2 2 1
  claim 4 1 1 2
  claim 5 0 2 1
  end

Codes that are declared the other way round: then s comes first. Nothing else is changed.

  $ sed -i -e '1c\code Reg in {s, n}' rules
  $ forxainde classed --rules rules --records records --released released --reasons reasons --proof proof --class Reg --limit 1
  records 5 clean 2 changed 3 unresolved 0 weight 3
  claims 3 given 2
  $ cat released
  Reg,A
  n,4
  s,6
  s,6
  n,4
  s,1
  $ cat proof
  fh-proof 2
  limit 1 near 5 budget 1000000
  lines 2
  keep
  keep
  table 0
  records 5
  clean
  clean
  change 1 CK 3
  bad K
  bound CK
  bound CC
  change 1 CK 3
  bad K
  bound CK
  bound CC
  change 1 CK 3
  bad K
  bound CK
  bound CC
  claims 3
  claim 3 2 2
  claim 5 0 2
  claim 4 1 1
  end

A record whose code is none of the field's is of no class of donors, whatever it is given: the first code, and 1, which is nearest to 0.

  $ sed -i -e '1c\code Reg in {n, s}' rules
  $ cat >records <<EOF
  > Reg,A
  > n,4
  > x,
  > EOF
  $ forxainde classed --rules rules --records records --released released --reasons reasons --proof proof --class Reg --limit 1
  records 2 clean 1 changed 1 unresolved 0 weight 2
  claims 1 given 0
  $ cat released
  Reg,A
  n,4
  n,1
  $ cat reasons
  record,cause,field,before,after,donor,detail
  2,changed,A,,1,,nearest
  2,changed,Reg,x,n,,default
  $ cat proof
  fh-proof 2
  limit 1 near 5 budget 1000000
  lines 2
  keep
  keep
  table 0
  records 2
  clean
  change 2 CC 3
  bad K
  bad CK
  bound CC
  claims 1
  claim 2 0
  end
  $ forxainde check --rules rules --records records --released released --proof proof
  valid records 2 released 2

So it is with a code that is missing, or in other letters. A code is read without the blanks at its ends: the fourth record is clean, and of n.

  $ cat >records <<EOF
  > Reg,A
  > ,5
  > N,5
  > n,
  >  n ,4
  > EOF
  $ forxainde classed --rules rules --records records --released released --reasons reasons --proof proof --class Reg --workers 4
  records 4 clean 1 changed 3 unresolved 0 weight 3
  claims 3 given 1
  $ cat released
  Reg,A
  n,5
  n,5
  n,4
   n ,4
  $ cat reasons
  record,cause,field,before,after,donor,detail
  1,changed,Reg,,n,,default
  2,changed,Reg,N,n,,default
  3,changed,A,,4,4,donor
  $ forxainde check --rules rules --records records --released released --proof proof
  valid records 4 released 4

With one worker those without a class come in row order too, behind all others.

  $ forxainde classed --rules rules --records records --released released --reasons reasons --proof proof --class Reg
  records 4 clean 1 changed 3 unresolved 0 weight 3
  claims 3 given 1
  $ cat proof
  fh-proof 2
  limit 1 near 5 budget 1000000
  lines 2
  keep
  keep
  table 0
  records 4
  change 1 KC 3
  bad KK
  bound KC
  bound C
  change 1 KC 3
  bad KK
  bound KC
  bound C
  change 1 CK 3
  bad K
  bound CK
  bound CC
  clean
  claims 3
  claim 3 4 4
  claim 1 0
  claim 2 0
  end

A record that is given another code had a good one. In n A is at most 5, so the second record is not right; A weighs 2, and the code 1. With its A of 7
it can be in s alone. It is of neither class: the clean record of s, which has the code that it gets, is none of its donors, nor is that of n.
Lines 1 and 2 are the bounds of A, and line 3 says `-A + 5 >= 0` where Reg is n, which is false at 7.

  $ cat >rules <<EOF
  > code Reg in {n, s}
  > number A weight 2
  > A >= 1
  > A <= 9
  > if Reg in {n} then A <= 5
  > EOF
  $ cat >records <<EOF
  > Reg,A
  > n,4
  > n,7
  > s,6
  > s,
  > n,
  > EOF
  $ forxainde classed --rules rules --records records --released released --reasons reasons --proof proof --class Reg
  records 5 clean 2 changed 3 unresolved 0 weight 5
  claims 3 given 2
  $ cat released
  Reg,A
  n,4
  s,7
  s,6
  s,6
  n,4
  $ cat reasons
  record,cause,field,before,after,donor,detail
  2,changed,Reg,n,s,,nearest
  4,changed,A,,6,3,donor
  5,changed,A,,4,1,donor
  $ cat proof
  fh-proof 2
  limit 1 near 5 budget 1000000
  lines 3
  keep
  keep
  keep
  table 1
  given 3
  records 5
  clean
  change 1 KC 3
  box KK 3
  shared 1
  fail 1
  fix 1 2
  bound KC
  bound C
  clean
  change 2 CK 3
  bad K
  bound CK
  bound CC
  change 2 CK 3
  bad K
  bound CK
  bound CC
  claims 3
  claim 5 1 1
  claim 4 3 3
  claim 2 0
  end
  $ forxainde check --rules rules --records records --released released --proof proof
  valid records 5 released 5

An edit ranks both clean records for the second one. Without a scale a difference of 1 is 1000 thousandths, as far as numbers can be apart, so both are
2000 away at A, which it keeps, and the earlier comes first. Its code n is not allowed, and s is given. The fifth record then finds no use left.

  $ forxainde edit --rules rules --records records --released released --reasons reasons --proof proof
  records 5 clean 2 changed 3 unresolved 0 weight 5
  claims 3 given 2
  $ cat reasons
  record,cause,field,before,after,donor,detail
  2,changed,Reg,n,s,1,nearest
  4,changed,A,,6,3,donor
  5,changed,A,,1,,nearest

Where A weighs less than the code it is A that changes, and the record stays in its class. Without A nothing is left of the three lines, since 1 is no more
than 5.

  $ sed -i -e '1c\code Reg weight 3 in {n, s}' rules
  $ forxainde classed --rules rules --records records --released released --reasons reasons --proof proof --class Reg --limit 2
  records 5 clean 2 changed 3 unresolved 0 weight 6
  claims 3 given 3
  $ cat released
  Reg,A
  n,4
  n,4
  s,6
  s,6
  n,4
  $ cat reasons
  record,cause,field,before,after,donor,detail
  2,changed,A,7,4,1,donor
  4,changed,A,,6,3,donor
  5,changed,A,,4,1,donor
  $ cat proof
  fh-proof 2
  limit 2 near 5 budget 1000000
  lines 3
  keep
  keep
  keep
  table 1
  given 3
  records 5
  clean
  change 2 CK 4
  box KK 3
  shared 1
  fail 1
  fix 1 2
  bound KC
  bound CK
  bound CC
  clean
  change 2 CK 3
  bad K
  bound CK
  bound CC
  change 2 CK 3
  bad K
  bound CK
  bound CC
  claims 3
  claim 2 1 1
  claim 5 1 1
  claim 4 3 3
  end
  $ forxainde check --rules rules --records records --released released --proof proof
  valid records 5 released 5

A class without clean records gives nobody anything: its records claim in the place of their class, and rank none. Of e there is no record at all.

  $ cat >rules <<EOF
  > code Reg in {n, m, e, s}
  > number A
  > A >= 1
  > EOF
  $ cat >records <<EOF
  > Reg,A
  > s,6
  > m,
  > s,
  > m,
  > n,
  > n,4
  > EOF
  $ forxainde classed --rules rules --records records --released released --reasons reasons --proof proof --class Reg
  records 6 clean 2 changed 4 unresolved 0 weight 4
  claims 4 given 2
  $ cat released
  Reg,A
  s,6
  m,1
  s,6
  m,1
  n,4
  n,4
  $ cat reasons
  record,cause,field,before,after,donor,detail
  2,changed,A,,1,,nearest
  3,changed,A,,6,1,donor
  4,changed,A,,1,,nearest
  5,changed,A,,4,6,donor
  $ cat proof
  fh-proof 2
  limit 1 near 5 budget 1000000
  lines 1
  keep
  table 0
  records 6
  clean
  change 1 CK 3
  bad K
  bound CK
  bound CC
  change 1 CK 3
  bad K
  bound CK
  bound CC
  change 1 CK 3
  bad K
  bound CK
  bound CC
  change 1 CK 3
  bad K
  bound CK
  bound CC
  clean
  claims 4
  claim 5 6 6
  claim 2 0
  claim 4 0
  claim 3 1 1
  end
  $ forxainde check --rules rules --records records --released released --proof proof
  valid records 6 released 6

By many workers the files are the same, but for the order in which the two records of m claim nobody.

  $ forxainde classed --rules rules --records records --released released --reasons reasons --proof proof --class Reg --workers 64
  records 6 clean 2 changed 4 unresolved 0 weight 4
  claims 4 given 2
  $ cat released
  Reg,A
  s,6
  m,1
  s,6
  m,1
  n,4
  n,4
  $ forxainde check --rules rules --records records --released released --proof proof
  valid records 6 released 6

A field of one code makes one class, and an edit of the same records has the same files. Only a record without that code is none of it.

  $ cat >rules <<EOF
  > code Reg in {n}
  > number A
  > A >= 1
  > EOF
  $ cat >records <<EOF
  > Reg,A
  > n,
  > n,4
  > n,
  > n,6
  > EOF
  $ forxainde classed --rules rules --records records --released released --reasons reasons --proof proof --class Reg --near 2
  records 4 clean 2 changed 2 unresolved 0 weight 2
  claims 2 given 2
  $ cat released
  Reg,A
  n,4
  n,4
  n,6
  n,6
  $ cp proof classed.proof
  $ forxainde edit --rules rules --records records --released released --reasons reasons --proof proof --near 2
  records 4 clean 2 changed 2 unresolved 0 weight 2
  claims 2 given 2
  $ cat classed.proof
  fh-proof 2
  limit 1 near 2 budget 1000000
  lines 1
  keep
  table 0
  records 4
  change 1 CK 3
  bad K
  bound CK
  bound CC
  clean
  change 1 CK 3
  bad K
  bound CK
  bound CC
  clean
  claims 2
  claim 1 2 2 4
  claim 3 4 2 4
  end
  $ cat proof
  fh-proof 2
  limit 1 near 2 budget 1000000
  lines 1
  keep
  table 0
  records 4
  change 1 CK 3
  bad K
  bound CK
  bound CC
  clean
  change 1 CK 3
  bad K
  bound CK
  bound CC
  clean
  claims 2
  claim 1 2 2 4
  claim 3 4 2 4
  end
  $ rm classed.proof
  $ sed -i -e '2c\x,' records
  $ forxainde classed --rules rules --records records --released released --reasons reasons --proof proof --class Reg --near 2
  records 4 clean 2 changed 2 unresolved 0 weight 3
  claims 2 given 1
  $ cat released
  Reg,A
  n,1
  n,4
  n,4
  n,6
  $ cat proof
  fh-proof 2
  limit 1 near 2 budget 1000000
  lines 1
  keep
  table 0
  records 4
  change 2 CC 3
  bad K
  bad CK
  bound CC
  clean
  change 1 CK 3
  bad K
  bound CK
  bound CC
  clean
  claims 2
  claim 3 2 2 4
  claim 1 0
  end
  $ forxainde check --rules rules --records records --released released --proof proof
  valid records 4 released 4

No records, and records that are all clean.

  $ cat >records <<EOF
  > Reg,A
  > EOF
  $ forxainde classed --rules rules --records records --released released --reasons reasons --proof proof --class Reg
  records 0 clean 0 changed 0 unresolved 0 weight 0
  claims 0 given 0
  $ cat released
  Reg,A
  $ cat reasons
  record,cause,field,before,after,donor,detail
  $ cat proof
  fh-proof 2
  limit 1 near 5 budget 1000000
  lines 1
  keep
  table 0
  records 0
  claims 0
  end
  $ forxainde check --rules rules --records records --released released --proof proof
  valid records 0 released 0
  $ cat >records <<EOF
  > A,id,Reg
  > 4,"a, b", n
  > 06,,n
  > EOF
  $ forxainde classed --rules rules --records records --released released --reasons reasons --proof proof --class Reg --workers 3 --budget 3
  records 2 clean 2 changed 0 unresolved 0 weight 0
  claims 0 given 0
  $ cat released
  A,id,Reg
  4,"a, b", n
  06,,n
  $ cat proof
  fh-proof 2
  limit 1 near 5 budget 3
  lines 1
  keep
  table 0
  records 2
  clean
  clean
  claims 0
  end
  $ forxainde check --rules rules --records records --released released --proof proof
  valid records 2 released 2

All records without a class.

  $ cat >records <<EOF
  > Reg,A
  > x,4
  > y,
  > EOF
  $ forxainde classed --rules rules --records records --released released --reasons reasons --proof proof --class Reg
  records 2 clean 0 changed 2 unresolved 0 weight 3
  claims 2 given 0
  $ cat released
  Reg,A
  n,4
  n,1
  $ forxainde check --rules rules --records records --released released --proof proof
  valid records 2 released 2

The limit is of each donor, and each class has its own row of claims: the same number of claims in two classes, with one donor each. With a limit of 1 the
first of each class is given it, and with 2 both are.

  $ cat >rules <<EOF
  > code Reg in {n, s}
  > number A
  > A >= 1
  > A <= 9
  > EOF
  $ cat >records <<EOF
  > Reg,A
  > n,4
  > s,6
  > s,
  > n,
  > s,
  > n,
  > EOF
  $ forxainde classed --rules rules --records records --released released --reasons reasons --proof proof --class Reg --limit 1
  records 6 clean 2 changed 4 unresolved 0 weight 4
  claims 4 given 2
  $ cat released
  Reg,A
  n,4
  s,6
  s,6
  n,4
  s,1
  n,1
  $ cat reasons
  record,cause,field,before,after,donor,detail
  3,changed,A,,6,2,donor
  4,changed,A,,4,1,donor
  5,changed,A,,1,,nearest
  6,changed,A,,1,,nearest
  $ forxainde check --rules rules --records records --released released --proof proof
  valid records 6 released 6
  $ forxainde classed --rules rules --records records --released released --reasons reasons --proof proof --class Reg --limit 2 --workers 2
  records 6 clean 2 changed 4 unresolved 0 weight 4
  claims 4 given 4
  $ cat released
  Reg,A
  n,4
  s,6
  s,6
  n,4
  s,6
  n,4
  $ forxainde check --rules rules --records records --released released --proof proof
  valid records 6 released 6

A donor of another class is no donor, however near it is. Two clean records: the second has 5 at A as the fourth record has, and the first 11, which is
600 thousandths of the scale away, at the weight 2: 1200. A code that differs is 1000. So an edit ranks the other class's record first.

  $ cat >rules <<EOF
  > code Reg in {n, s}
  > number A weight 2 scale 10
  > number B
  > B >= 1
  > EOF
  $ cat >records <<EOF
  > Reg,A,B
  > n,11,21
  > s,5,22
  > s,11,
  > n,5,
  > EOF
  $ forxainde edit --rules rules --records records --released released --reasons reasons --proof proof --near 1
  records 4 clean 2 changed 2 unresolved 0 weight 2
  claims 2 given 2
  $ cat released
  Reg,A,B
  n,11,21
  s,5,22
  s,11,21
  n,5,22
  $ forxainde classed --rules rules --records records --released released --reasons reasons --proof proof --near 1 --class Reg
  records 4 clean 2 changed 2 unresolved 0 weight 2
  claims 2 given 2
  $ cat released
  Reg,A,B
  n,11,21
  s,5,22
  s,11,22
  n,5,21
  $ cat reasons
  record,cause,field,before,after,donor,detail
  3,changed,B,,22,2,donor
  4,changed,B,,21,1,donor
  $ cat proof
  fh-proof 2
  limit 1 near 1 budget 1000000
  lines 1
  keep
  table 0
  records 4
  clean
  clean
  change 1 KCK 4
  bad KK
  bound KCK
  bound KCC
  bound C
  change 1 KCK 4
  bad KK
  bound KCK
  bound KCC
  bound C
  claims 2
  claim 4 1 1
  claim 3 2 2
  end
  $ forxainde check --rules rules --records records --released released --proof proof
  valid records 4 released 4

The same where more donors may be ranked than the class has.

  $ forxainde classed --rules rules --records records --released released --reasons reasons --proof proof --near 64 --class Reg --workers 2
  records 4 clean 2 changed 2 unresolved 0 weight 2
  claims 2 given 2
  $ cat released
  Reg,A,B
  n,11,21
  s,5,22
  s,11,22
  n,5,21
  $ forxainde check --rules rules --records records --released released --proof proof
  valid records 4 released 4

Within a class the nearest is found, of equal ones the earlier, as in an edit. The class field is kept by both, so it is 0 apart.
Of x the fourth record has 9 at 300 and 1 at 500, and the sixth has them the other way round.

  $ cat >rules <<EOF
  > number A scale 10
  > code S weight 3 in {x, y}
  > number B
  > B >= 1
  > EOF
  $ cat >records <<EOF
  > A,S,B
  > 1,x,11
  > 9,x,12
  > 6,y,13
  > 6,x,
  > 6,y,
  > 4,x,
  > 5,x,
  > EOF
  $ forxainde classed --rules rules --records records --released released --reasons reasons --proof proof --near 2 --limit 3 --class S
  records 7 clean 3 changed 4 unresolved 0 weight 4
  claims 4 given 4
  $ cat released
  A,S,B
  1,x,11
  9,x,12
  6,y,13
  6,x,12
  6,y,13
  4,x,11
  5,x,11
  $ cat proof
  fh-proof 2
  limit 3 near 2 budget 1000000
  lines 1
  keep
  table 0
  records 7
  clean
  clean
  clean
  change 1 KCK 4
  bad KK
  bound KCK
  bound KCC
  bound C
  change 1 KCK 4
  bad KK
  bound KCK
  bound KCC
  bound C
  change 1 KCK 4
  bad KK
  bound KCK
  bound KCC
  bound C
  change 1 KCK 4
  bad KK
  bound KCK
  bound KCC
  bound C
  claims 4
  claim 4 2 2 1
  claim 6 1 1 2
  claim 7 1 1 2
  claim 5 3 3
  end
  $ forxainde check --rules rules --records records --released released --proof proof
  valid records 7 released 7

Two fields of codes, of which one or the other makes the classes.

  $ cat >rules <<EOF
  > code Reg in {n, s}
  > code Kind in {a, b}
  > number A
  > A >= 1
  > EOF
  $ cat >records <<EOF
  > Reg,Kind,A
  > n,a,11
  > n,b,12
  > s,a,13
  > s,b,
  > EOF
  $ forxainde classed --rules rules --records records --released released --reasons reasons --proof proof --class Reg
  records 4 clean 3 changed 1 unresolved 0 weight 1
  claims 1 given 1
  $ cat reasons
  record,cause,field,before,after,donor,detail
  4,changed,A,,13,3,donor
  $ forxainde classed --rules rules --records records --released released --reasons reasons --proof proof --class Kind
  records 4 clean 3 changed 1 unresolved 0 weight 1
  claims 1 given 1
  $ cat reasons
  record,cause,field,before,after,donor,detail
  4,changed,A,,12,2,donor
  $ cat proof
  fh-proof 2
  limit 1 near 5 budget 1000000
  lines 1
  keep
  table 0
  records 4
  clean
  clean
  clean
  change 1 CKK 4
  bad K
  bound CKK
  bound CKC
  bound CC
  claims 1
  claim 4 2 2
  end

A change of another code field leaves the record in its class.

  $ sed -i -e '5c\s,?,' records
  $ forxainde classed --rules rules --records records --released released --reasons reasons --proof proof --class Reg
  records 4 clean 3 changed 1 unresolved 0 weight 2
  claims 1 given 1
  $ cat released
  Reg,Kind,A
  n,a,11
  n,b,12
  s,a,13
  s,a,13
  $ forxainde classed --rules rules --records records --released released --reasons reasons --proof proof --class Kind
  records 4 clean 3 changed 1 unresolved 0 weight 2
  claims 1 given 0
  $ cat released
  Reg,Kind,A
  n,a,11
  n,b,12
  s,a,13
  s,a,1

A record that stops at its budget claims nothing. A missing A takes 5: `-` and `K` 1 each, `C` 1 and the pair of both bounds, and `CK` 1; and where the code
is bad as well `CC` comes behind them.

  $ cat >rules <<EOF
  > code Reg in {n, s}
  > number A
  > A >= 1
  > A <= 9
  > EOF
  $ cat >records <<EOF
  > Reg,A
  > x,
  > s,6
  > s,
  > EOF
  $ forxainde classed --rules rules --records records --released released --reasons reasons --proof proof --class Reg --budget 5
  records 3 clean 1 changed 1 unresolved 1 weight 1
  claims 1 given 1
  [1]
  $ cat released
  Reg,A
  s,6
  s,6
  $ cat reasons
  record,cause,field,before,after,donor,detail
  1,budget,,,,,path CC work 5
  3,changed,A,,6,2,donor
  $ cat proof
  fh-proof 2
  limit 1 near 5 budget 5
  lines 2
  keep
  keep
  table 0
  records 3
  budget CC 5
  clean
  change 1 CK 3
  bad K
  bound CK
  bound CC
  claims 1
  claim 3 2 2
  end
  $ forxainde check --rules rules --records records --released released --proof proof
  valid records 3 released 2
  $ forxainde classed --rules rules --records records --released released --reasons reasons --proof proof --class Reg --budget 4 --workers 2
  records 3 clean 1 changed 0 unresolved 2 weight 0
  claims 0 given 0
  [1]
  $ cat reasons
  record,cause,field,before,after,donor,detail
  1,budget,,,,,path CK work 4
  3,budget,,,,,path CK work 4
  $ forxainde check --rules rules --records records --released released --proof proof
  valid records 3 released 1

Nor does one whose search leaves 128 bits: the fourth elimination of the chain needs 999999999^5, where x1 is the second field. The next record,
without x6, claims.

  $ cat >rules <<EOF
  > code Reg in {n, s}
  > number x1
  > number x2
  > number x3
  > number x4
  > number x5
  > number x6
  > 999999999 x1 >= 1000000000 x2
  > 999999999 x2 >= 1000000000 x3
  > 999999999 x3 >= 1000000000 x4
  > 999999999 x4 >= 1000000000 x5
  > 999999999 x5 >= 1000000000 x6
  > EOF
  $ cat >records <<EOF
  > Reg,x1,x2,x3,x4,x5,x6
  > n,0,0,0,0,0,0
  > n,1,,,,,0
  > n,0,0,0,0,0,
  > EOF
  $ forxainde classed --rules rules --records records --released released --reasons reasons --proof proof --class Reg
  records 3 clean 1 changed 1 unresolved 1 weight 1
  claims 1 given 1
  [1]
  $ cat released
  Reg,x1,x2,x3,x4,x5,x6
  n,0,0,0,0,0,0
  n,0,0,0,0,0,0
  $ cat reasons
  record,cause,field,before,after,donor,detail
  2,overflow,,,,,path KCCCC lines 1 2 at x1
  3,changed,x6,,0,1,donor
  $ cat proof
  fh-proof 2
  limit 1 near 5 budget 1000000
  lines 5
  keep
  keep
  keep
  keep
  keep
  table 0
  records 3
  clean
  step KCCCC 1 2 2
  change 1 KKKKKCK 8
  bad KKKKKK
  bound KKKKKCK
  bound KKKKKCC
  bound KKKKC
  bound KKKC
  bound KKC
  bound KC
  bound C
  claims 1
  claim 3 1 1
  end
  $ forxainde check --rules rules --records records --released released --proof proof
  valid records 3 released 2

A record whose giving stops had claimed before, in its class or behind all: the fourth is given nobody, since the third had the donor of n. The fifth,
of s, has its own, and the sixth has no class.

  $ sed -i -e '7d' -e '12d' rules
  $ cat >records <<EOF
  > Reg,x1,x2,x3,x4,x5
  > n,0,0,0,0,0
  > s,0,0,0,0,0
  > n,1000,,,,
  > n,1,0,0,0,
  > s,1,0,0,0,
  > x,1000,,,,
  > EOF
  $ forxainde classed --rules rules --records records --released released --reasons reasons --proof proof --class Reg
  records 6 clean 2 changed 2 unresolved 2 weight 2
  claims 4 given 2
  [1]
  $ cat released
  Reg,x1,x2,x3,x4,x5
  n,0,0,0,0,0
  s,0,0,0,0,0
  n,1,0,0,0,0
  s,1,0,0,0,0
  $ cat reasons
  record,cause,field,before,after,donor,detail
  3,overflow,,,,,giving x5 line 1
  4,changed,x5,,0,,default
  5,changed,x5,,0,2,donor
  6,overflow,,,,,giving x5 line 1
  $ cat proof
  fh-proof 2
  limit 1 near 5 budget 1000000
  lines 4
  keep
  keep
  keep
  keep
  table 0
  records 6
  clean
  clean
  gift 4 KCCCCK 6 1 10
  bad KK
  bad KCK
  bad KCCK
  bad KCCCK
  bound KCCCCK
  bound KCCCCC
  bad CK
  bad CCK
  bad CCCK
  bound CCCC
  change 1 KKKKCK 7
  bad KKKKK
  bound KKKKCK
  bound KKKKCC
  bound KKKC
  bound KKC
  bound KC
  bound C
  change 1 KKKKCK 7
  bad KKKKK
  bound KKKKCK
  bound KKKKCC
  bound KKKC
  bound KKC
  bound KC
  bound C
  gift 5 KCCCCC 6 1 11
  bad KK
  bad KCK
  bad KCCK
  bad KCCCK
  bad KCCCCK
  bound KCCCCC
  bad CK
  bad CCK
  bad CCCK
  bad CCCCK
  bound CCCCC
  claims 4
  claim 3 1 1
  claim 4 0 1
  claim 5 2 2
  claim 6 0
  end
  $ forxainde check --rules rules --records records --released released --proof proof
  valid records 6 released 4

A check knows nothing of classes. It accepts the claims in another order, and claims of donors of other classes.

  $ cat >rules <<EOF
  > code Reg in {n, s}
  > number A
  > A >= 1
  > A <= 9
  > EOF
  $ cat >records <<EOF
  > Reg,A
  > n,4
  > s,6
  > s,
  > n,
  > EOF
  $ forxainde classed --rules rules --records records --released released --reasons reasons --proof proof --class Reg
  records 4 clean 2 changed 2 unresolved 0 weight 2
  claims 2 given 2
  $ sed -i -e '19c\claim 3 2 2' -e '20c\claim 4 1 1' proof
  $ forxainde check --rules rules --records records --released released --proof proof
  valid records 4 released 4
  $ sed -i -e '19c\claim 3 1 1 2' -e '20c\claim 4 2 1 2' proof
  $ forxainde check --rules rules --records records --released released --proof proof
  valid records 4 released 4

Shops of three branches. Claus has Adler's sales: by staff, of weight 2 and scale 10, and wages, of scale 200, Adler is 200 and 100 away, Kern 200 and 150,
Berg 600 and 500. Of the two clean filling stations Dorn is nearer to Ebert and to Otto, and Imhof to Moser, so nothing is left for Otto, whose sales are
no less than 1000. Graf and Jung are nearest to Fink, who gives once; Jung has Noll's amounts. Haas sells 900 with three people, far more than a bakery:
the branch is what changes, since it comes last in path order, and a filling station sells that much. Lang's branch is none of the three, and may be the first.

  $ cat >rules <<EOF
  > # Shops, with amounts in thousands. What a filling station sells with four people is no measure for a bakery, so values come from
  > # shops of the same branch. A shop of which the branch itself is wrong takes nothing from others.
  > code Branch in {bakery, fuel, clothes}
  > number Staff weight 2 scale 10
  > number Sales scale 1000
  > number Wages scale 200
  > Staff >= 1
  > Sales >= 0
  > Wages >= 10 Staff
  > Wages <= 60 Staff
  > Wages <= Sales
  > # A bakery sells no more than 100 a head, and a filling station no less than 200.
  > if Branch in {bakery} then Sales <= 100 Staff
  > if Branch in {fuel} then Sales >= 200 Staff
  > EOF
  $ cat >records <<EOF
  > shop,Branch,Staff,Sales,Wages
  > Adler,bakery,4,240,100
  > Berg,bakery,8,560,220
  > Claus,bakery,5,,120
  > Dorn,fuel,4,2100,130
  > Ebert,fuel,4,,120
  > Fink,clothes,6,700,170
  > Graf,clothes,5,,150
  > Haas,bakery,3,900,90
  > Imhof,fuel,7,4200,210
  > Jung,clothes,6,,
  > Kern,bakery,6,430,150
  > Lang,tailor,3,260,80
  > Moser,fuel,6,,
  > Noll,clothes,2,180,70
  > Otto,fuel,5,,150
  > EOF
  $ forxainde classed --rules rules --records records --released released --reasons reasons --proof proof --class Branch
  records 15 clean 7 changed 8 unresolved 0 weight 10
  claims 8 given 5
  $ cat released
  shop,Branch,Staff,Sales,Wages
  Adler,bakery,4,240,100
  Berg,bakery,8,560,220
  Claus,bakery,5,240,120
  Dorn,fuel,4,2100,130
  Ebert,fuel,4,2100,120
  Fink,clothes,6,700,170
  Graf,clothes,5,700,150
  Haas,fuel,3,900,90
  Imhof,fuel,7,4200,210
  Jung,clothes,6,180,70
  Kern,bakery,6,430,150
  Lang,bakery,3,260,80
  Moser,fuel,6,4200,210
  Noll,clothes,2,180,70
  Otto,fuel,5,1000,150
  $ cat reasons
  record,cause,field,before,after,donor,detail
  3,changed,Sales,,240,1,donor
  5,changed,Sales,,2100,4,donor
  7,changed,Sales,,700,6,donor
  8,changed,Branch,bakery,fuel,,nearest
  10,changed,Sales,,180,14,donor
  10,changed,Wages,,70,14,donor
  12,changed,Branch,tailor,bakery,,default
  13,changed,Sales,,4200,9,donor
  13,changed,Wages,,210,9,donor
  15,changed,Sales,,1000,,nearest
  $ forxainde check --rules rules --records records --released released --proof proof
  valid records 15 released 15
  $ forxainde classed --rules rules --records records --released released --reasons reasons --proof proof --class Branch --workers 4
  records 15 clean 7 changed 8 unresolved 0 weight 10
  claims 8 given 5
  $ forxainde check --rules rules --records records --released released --proof proof
  valid records 15 released 15
