Runs of `classed` that do not end whole: words that are no such command, a class field that is none, files that have no reading, calls that fail.

  $ cat >rules <<EOF
  > code Reg in {n, s}
  > number A
  > A >= 1
  > A <= 9
  > EOF
  $ cat >records <<EOF
  > Reg,A
  > n,4
  > s,6
  > s,
  > n,
  > EOF

The class field has to be named, once, and so have all files. The other options are those of an edit, with the same limits; options of other commands
are none of them. No other command takes `--class`.

  $ forxainde classed --rules rules --records records --released released --reasons reasons --proof proof
  fault: usage
  [2]
  $ forxainde classed --rules rules --records records --released released --reasons reasons --proof proof --class
  fault: usage
  [2]
  $ forxainde classed --rules rules --records records --released released --reasons reasons --proof proof --class Reg --class Reg
  fault: usage
  [2]
  $ forxainde classed --rules rules --records records --released released --reasons reasons --proof proof --class Reg --class=A
  fault: usage
  [2]
  $ forxainde classed --rules rules --records records --released released --reasons reasons --class Reg
  fault: usage
  [2]
  $ forxainde classed --rules rules --records records --released records --reasons reasons --proof proof --class Reg
  fault: usage
  [2]
  $ forxainde classed --rules rules --records records --released released --reasons reasons --proof proof --class Reg --limit 0
  fault: usage
  [2]
  $ forxainde classed --rules rules --records records --released released --reasons reasons --proof proof --class Reg --near 65
  fault: usage
  [2]
  $ forxainde classed --rules rules --records records --released released --reasons reasons --proof proof --class Reg --workers 65
  fault: usage
  [2]
  $ forxainde classed --rules rules --records records --released released --reasons reasons --proof proof --class Reg --key Reg
  fault: usage
  [2]
  $ forxainde classed --rules rules --records records --released released --reasons reasons --proof proof --class Reg Reg
  fault: usage
  [2]
  $ forxainde edit --rules rules --records records --released released --reasons reasons --proof proof --class Reg
  fault: usage
  [2]
  $ forxainde check --rules rules --records records --released released --proof proof --class Reg
  fault: usage
  [2]
  $ forxainde fill --rules rules --records records --released released --class Reg
  fault: usage
  [2]
  $ forxainde rules --rules rules --class Reg
  fault: usage
  [2]
  $ calls
  $ ls
  records
  rules

A name that no field has, that of a numerical field, no name, names that are written otherwise, and that of a code: the records are not fetched then. The
name may be that of a file.

  $ forxainde classed --rules rules --records records --released released --reasons reasons --proof proof --class A
  fault: class A
  [11]
  $ calls
  fetch rules
  $ forxainde classed --rules rules --records records --released released --reasons reasons --proof proof --class Region
  fault: class Region
  [11]
  $ forxainde classed --rules rules --records records --released released --reasons reasons --proof proof --class Re
  fault: class Re
  [11]
  $ forxainde classed --rules rules --records records --released released --reasons reasons --proof proof --class reg
  fault: class reg
  [11]
  $ forxainde classed --rules rules --records records --released released --reasons reasons --proof proof --class ' Reg'
  fault: class  Reg
  [11]
  $ forxainde classed --rules rules --records records --released released --reasons reasons --proof proof --class n
  fault: class n
  [11]
  $ forxainde classed --rules rules --records records --released released --reasons reasons --proof proof --class=
  fault: class 
  [11]
  $ forxainde classed --rules rules --records records --released released --reasons reasons --proof proof --class ''
  fault: class 
  [11]
  $ forxainde classed --rules rules --records records --released released --reasons reasons --proof proof --class=-Reg
  fault: class -Reg
  [11]
  $ forxainde classed --rules rules --records records --released released --reasons reasons --proof proof --class records
  fault: class records
  [11]
  $ calls
  fetch rules
  $ fail line 1
  $ forxainde classed --rules rules --records records --released released --reasons reasons --proof proof --class A
  [11]
  $ ls
  records
  rules

Rules without a reading come before the class, and the class before the records, be they missing or faulty.

  $ cp rules right.rules
  $ sed -i -e '2d' rules
  $ forxainde classed --rules rules --records records --released released --reasons reasons --proof proof --class A
  fault: rules line 2 kind 3 UnknownField
  [3]
  $ calls
  fetch rules
  $ forxainde classed --rules missing --records records --released released --reasons reasons --proof proof --class A
  fault: read missing
  [5]
  $ calls
  fetch missing failed
  $ cp right.rules rules
  $ forxainde classed --rules rules --records missing --released released --reasons reasons --proof proof --class A
  fault: class A
  [11]
  $ calls
  fetch rules
  $ forxainde classed --rules rules --records missing --released released --reasons reasons --proof proof --class Reg
  fault: read missing
  [5]
  $ calls
  fetch rules
  fetch missing failed
  $ cat >faulty <<EOF
  > Reg
  > n
  > EOF
  $ forxainde classed --rules rules --records faulty --released released --reasons reasons --proof proof --class A
  fault: class A
  [11]
  $ calls
  fetch rules
  $ forxainde classed --rules rules --records faulty --released released --reasons reasons --proof proof --class Reg
  fault: records kind 12 NoColumn field A
  [4]
  $ calls
  fetch rules
  fetch faulty
  $ sed -i -e '1c\Reg,A' faulty
  $ forxainde classed --rules rules --records faulty --released released --reasons reasons --proof proof --class Reg
  fault: records kind 14 RowLength row 1
  [4]
  $ rm faulty right.rules

Rules without a field have no class field, and those without a field of codes have none either.

  $ cat >empty <<EOF
  > EOF
  $ forxainde classed --rules empty --records records --released released --reasons reasons --proof proof --class Reg
  fault: class Reg
  [11]
  $ forxainde edit --rules empty --records records --released released --reasons reasons --proof proof
  records 4 clean 4 changed 0 unresolved 0 weight 0
  claims 0 given 0
  $ rm empty released reasons proof

Each call that fails ends the run, and what was stored before it stands; a file of which the store fails may have some first bytes.

  $ fail call 1 keep 0
  $ forxainde classed --rules rules --records records --released released --reasons reasons --proof proof --class Reg
  fault: read rules
  [5]
  $ calls
  fetch rules failed
  $ fail call 1 keep 0
  $ forxainde classed --rules rules --records records --released released --reasons reasons --proof proof --class A
  fault: read rules
  [5]
  $ fail call 2 keep 3
  $ forxainde classed --rules rules --records records --released released --reasons reasons --proof proof --class Reg
  fault: read records
  [5]
  $ calls
  fetch rules
  fetch records failed
  $ fail call 2 keep 0
  $ forxainde classed --rules rules --records records --released released --reasons reasons --proof proof --class A
  fault: class A
  [11]
  $ ls
  records
  rules
  $ cat >released <<EOF
  > an older file
  > EOF
  $ fail call 3 keep 9
  $ forxainde classed --rules rules --records records --released released --reasons reasons --proof proof --class Reg
  fault: write proof
  [6]
  $ calls
  fetch rules
  fetch records
  store proof failed
  $ cat proof
  fh-proof  (no-eol)
  $ ls
  proof
  records
  released
  rules
  $ fail call 4 keep 3
  $ forxainde classed --rules rules --records records --released released --reasons reasons --proof proof --class Reg
  fault: write reasons
  [6]
  $ calls
  fetch rules
  fetch records
  store proof
  store reasons failed
  $ cat proof
  fh-proof 2
  limit 1 near 5 budget 1000000
  lines 2
  keep
  keep
  table 0
  records 4
  clean
  clean
  change 1 CK 3
  bad K
  bound CK
  bound CC
  change 1 CK 3
  bad K
  bound CK
  bound CC
  claims 2
  claim 4 1 1
  claim 3 2 2
  end
  $ cat reasons
  rec (no-eol)
  $ cat released
  an older file
  $ fail call 5 keep 1000
  $ forxainde classed --rules rules --records records --released released --reasons reasons --proof proof --class Reg
  fault: write released
  [6]
  $ calls
  fetch rules
  fetch records
  store proof
  store reasons
  store released failed
  $ cat reasons
  record,cause,field,before,after,donor,detail
  3,changed,A,,6,2,donor
  4,changed,A,,4,1,donor
  $ cat released
  Reg,A
  n,4
  s,6
  s,6
  n,4

There is no sixth call.

  $ fail call 6 keep 0
  $ forxainde classed --rules rules --records records --released released --reasons reasons --proof proof --class Reg
  records 4 clean 2 changed 2 unresolved 0 weight 2
  claims 2 given 2

A class field that is none leaves older files as they were.

  $ cat >proof <<EOF
  > an older proof
  > EOF
  $ cat >released <<EOF
  > an older release
  > EOF
  $ cat >reasons <<EOF
  > older reasons
  > EOF
  $ forxainde classed --rules rules --records records --released released --reasons reasons --proof proof --class A
  fault: class A
  [11]
  $ cat proof
  an older proof
  $ cat released
  an older release
  $ cat reasons
  older reasons

Where a line that counts can't be printed, the status is 6, whatever it had been, and the three files are whole.

  $ rm proof reasons released
  $ fail line 1
  $ forxainde classed --rules rules --records records --released released --reasons reasons --proof proof --class Reg
  [6]
  $ calls
  fetch rules
  fetch records
  store proof
  store reasons
  store released
  $ forxainde check --rules rules --records records --released released --proof proof
  valid records 4 released 4
  $ rm proof reasons released
  $ fail line 2
  $ forxainde classed --rules rules --records records --released released --reasons reasons --proof proof --class Reg --budget 4
  records 4 clean 2 changed 0 unresolved 2 weight 0
  [6]
  $ forxainde check --rules rules --records records --released released --proof proof
  valid records 4 released 2
