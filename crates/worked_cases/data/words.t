Words that are a command, and words that are none: then nothing is fetched, nothing is stored, and the status is 2.

  $ cat >rules <<EOF
  > number A
  > A >= 3
  > EOF
  $ cat >records <<EOF
  > A
  > 1
  > EOF

The options stand in any order, with numbers at their limits and with zeros in front.

  $ forxainde edit --proof proof --near 64 --reasons reasons --workers 64 --released released --records records --limit 1000 --rules rules --budget 1000000000
  records 1 clean 0 changed 1 unresolved 0 weight 1
  claims 1 given 0
  $ forxainde edit --rules rules --records records --released released --reasons reasons --proof proof --near 0000000001 --limit 007 --budget 0000000002 --workers 01
  records 1 clean 0 changed 0 unresolved 1 weight 0
  claims 0 given 0
  [1]
  $ cat proof
  fh-proof 2
  limit 7 near 1 budget 2
  lines 1
  keep
  table 0
  records 1
  budget C 2
  claims 0
  end
  $ forxainde check --proof proof --released released --records records --rules rules
  valid records 1 released 0
  $ forxainde fill --released filled --budget 0001000000 --records records --rules rules
  records 1 filled 0 blocked 0 stopped 0
  $ rm released reasons proof filled

No command, or another one.

  $ forxainde
  fault: usage
  [2]
  $ calls
  $ forxainde ''
  fault: usage
  [2]
  $ forxainde Edit --rules rules --records records --released released --reasons reasons --proof proof
  fault: usage
  [2]
  $ forxainde --rules rules rules
  fault: usage
  [2]
  $ forxainde Fill --rules rules --records records --released released
  fault: usage
  [2]
  $ forxainde Classed --rules rules --records records --released released --reasons reasons --proof proof --class A
  fault: usage
  [2]
  $ forxainde edit edit --rules rules --records records --released released --reasons reasons --proof proof
  fault: usage
  [2]

An option that is missing, each in turn.

  $ forxainde edit --records records --released released --reasons reasons --proof proof
  fault: usage
  [2]
  $ forxainde edit --rules rules --released released --reasons reasons --proof proof
  fault: usage
  [2]
  $ forxainde edit --rules rules --records records --reasons reasons --proof proof
  fault: usage
  [2]
  $ forxainde edit --rules rules --records records --released released --proof proof
  fault: usage
  [2]
  $ forxainde edit --rules rules --records records --released released --reasons reasons
  fault: usage
  [2]
  $ calls
  $ forxainde check --rules rules --records records --released released
  fault: usage
  [2]
  $ forxainde rules
  fault: usage
  [2]
  $ forxainde fill --records records --released released
  fault: usage
  [2]
  $ forxainde fill --rules rules --released released
  fault: usage
  [2]
  $ forxainde fill --rules rules --records records
  fault: usage
  [2]

An option without a value, with an empty one, with one that begins as an option does, or one that is given again.

  $ forxainde edit --rules rules --records records --released released --reasons reasons --proof proof --near
  fault: usage
  [2]
  $ forxainde rules --rules
  fault: usage
  [2]
  $ forxainde edit --rules rules --records records --released released --reasons reasons --proof
  fault: usage
  [2]
  $ forxainde edit --rules rules --records records --released released --reasons reasons --proof proof --limit ''
  fault: usage
  [2]
  $ forxainde edit --rules rules --records records --released released --reasons reasons --proof proof --limit -1
  fault: usage
  [2]
  $ forxainde edit --rules rules --records records --released released --reasons reasons --proof proof --rules others
  fault: usage
  [2]
  $ forxainde edit --rules rules --records records --released released --reasons reasons --proof proof --near 5 --near 5
  fault: usage
  [2]
  $ forxainde edit --rules rules --records records --released released --reasons reasons --proof proof --workers 2 --workers 2
  fault: usage
  [2]
  $ forxainde check --rules rules --records records --released released --proof proof --proof others
  fault: usage
  [2]
  $ forxainde rules --rules rules --rules others
  fault: usage
  [2]
  $ forxainde fill --rules rules --records records --released
  fault: usage
  [2]
  $ forxainde fill --rules rules --records records --released released --budget
  fault: usage
  [2]
  $ forxainde fill --rules rules --records records --released released --budget 5 --budget 5
  fault: usage
  [2]
  $ calls

Two names that lead to one file, so that one would be stored over the other, or over what was read.

  $ forxainde edit --rules rules --records records --released ./records --reasons reasons --proof proof
  fault: usage
  [2]
  $ forxainde edit --rules rules --records records --released released --reasons .//rules --proof proof
  fault: usage
  [2]
  $ forxainde edit --rules rules --records records --released a/released --reasons reasons --proof a/./released
  fault: usage
  [2]
  $ forxainde check --rules rules --records records --released ./rules --proof proof
  fault: usage
  [2]
  $ forxainde make --rules rules --records ./rules
  fault: usage
  [2]
  $ forxainde fill --rules rules --records records --released ./records
  fault: usage
  [2]
  $ calls

The options stand as `clap` takes them: with their values behind a sign of equality too, which may be empty or begin with a dash;
a dash alone is a value, and two dashes may end the words.

  $ forxainde rules --rules=rules
  1 kept needed A - 3 >= 0
  $ forxainde rules --rules rules --
  1 kept needed A - 3 >= 0
  $ forxainde rules --rules=-x
  fault: read -x
  [5]
  $ forxainde rules --rules -
  fault: read -
  [5]
  $ forxainde rules --rules ''
  fault: read 
  [5]
  $ forxainde rules --rules=
  fault: read 
  [5]

A value behind a blank that begins as an option does, a word behind two dashes, a part of an option's name, and flags that ask for help.

  $ forxainde rules --rules -x
  fault: usage
  [2]
  $ forxainde rules -- --rules rules
  fault: usage
  [2]
  $ forxainde rules --rule rules
  fault: usage
  [2]
  $ forxainde rules --help
  fault: usage
  [2]
  $ forxainde rules -h
  fault: usage
  [2]
  $ forxainde --help
  fault: usage
  [2]
  $ forxainde --version
  fault: usage
  [2]
  $ calls

Options of other commands, and of none.

  $ forxainde edit --rules rules --records records --released released --reasons reasons --proof proof --far 5
  fault: usage
  [2]
  $ forxainde edit --rules rules --records records --released released --reasons reasons --proof proof --Near 5
  fault: usage
  [2]
  $ forxainde edit --rules rules --records records --released released --reasons reasons --proof proof near 5
  fault: usage
  [2]
  $ forxainde check --rules rules --records records --released released --proof proof --budget 5
  fault: usage
  [2]
  $ forxainde check --rules rules --records records --released released --proof proof --near 5
  fault: usage
  [2]
  $ forxainde check --rules rules --records records --released released --proof proof --workers 2
  fault: usage
  [2]
  $ forxainde check --rules rules --records records --released released --proof proof --reasons reasons
  fault: usage
  [2]
  $ forxainde rules --rules rules --records records
  fault: usage
  [2]
  $ forxainde rules --rules rules --limit 1
  fault: usage
  [2]
  $ forxainde rules --rules rules others
  fault: usage
  [2]
  $ forxainde fill --rules rules --records records --released released --workers 2
  fault: usage
  [2]
  $ forxainde fill --rules rules --records records --released released --near 5
  fault: usage
  [2]
  $ forxainde fill --rules rules --records records --released released --proof proof
  fault: usage
  [2]
  $ forxainde edit --rules rules --records records --released released --reasons reasons --proof proof --class A
  fault: usage
  [2]
  $ forxainde classed --rules rules --records records --released released --reasons reasons --proof proof --class A --key A
  fault: usage
  [2]

Two files of one name.

  $ forxainde edit --rules rules --records rules --released released --reasons reasons --proof proof
  fault: usage
  [2]
  $ forxainde edit --rules rules --records records --released records --reasons reasons --proof proof
  fault: usage
  [2]
  $ forxainde edit --rules rules --records records --released released --reasons others --proof others
  fault: usage
  [2]
  $ forxainde edit --rules rules --records records --released released --reasons reasons --proof rules
  fault: usage
  [2]
  $ forxainde check --rules rules --records records --released rules --proof proof
  fault: usage
  [2]
  $ forxainde fill --rules rules --records records --released records
  fault: usage
  [2]
  $ forxainde fill --rules rules --records rules --released released
  fault: usage
  [2]
  $ calls

Numbers past their limits, and texts that are no numbers: 1 to 10 digits.

  $ forxainde edit --rules rules --records records --released released --reasons reasons --proof proof --limit 0
  fault: usage
  [2]
  $ forxainde edit --rules rules --records records --released released --reasons reasons --proof proof --limit 1001
  fault: usage
  [2]
  $ forxainde edit --rules rules --records records --released released --reasons reasons --proof proof --near 0
  fault: usage
  [2]
  $ forxainde edit --rules rules --records records --released released --reasons reasons --proof proof --near 65
  fault: usage
  [2]
  $ forxainde edit --rules rules --records records --released released --reasons reasons --proof proof --workers 0
  fault: usage
  [2]
  $ forxainde edit --rules rules --records records --released released --reasons reasons --proof proof --workers 65
  fault: usage
  [2]
  $ forxainde edit --rules rules --records records --released released --reasons reasons --proof proof --workers x
  fault: usage
  [2]
  $ forxainde edit --rules rules --records records --released released --reasons reasons --proof proof --workers 4294967297
  fault: usage
  [2]
  $ forxainde edit --rules rules --records records --released released --reasons reasons --proof proof --budget 0
  fault: usage
  [2]
  $ forxainde edit --rules rules --records records --released released --reasons reasons --proof proof --budget 1000000001
  fault: usage
  [2]
  $ forxainde edit --rules rules --records records --released released --reasons reasons --proof proof --near 00000000064
  fault: usage
  [2]
  $ forxainde edit --rules rules --records records --released released --reasons reasons --proof proof --budget 01000000000
  fault: usage
  [2]
  $ forxainde edit --rules rules --records records --released released --reasons reasons --proof proof --limit 4294967297
  fault: usage
  [2]
  $ forxainde edit --rules rules --records records --released released --reasons reasons --proof proof --budget +5
  fault: usage
  [2]
  $ forxainde edit --rules rules --records records --released released --reasons reasons --proof proof --near 5.
  fault: usage
  [2]
  $ forxainde edit --rules rules --records records --released released --reasons reasons --proof proof --near 0x5
  fault: usage
  [2]
  $ forxainde edit --rules rules --records records --released released --reasons reasons --proof proof --near ' 5'
  fault: usage
  [2]
  $ forxainde fill --rules rules --records records --released released --budget 0
  fault: usage
  [2]
  $ forxainde fill --rules rules --records records --released released --budget 1000000001
  fault: usage
  [2]
  $ forxainde fill --rules rules --records records --released released --budget 1e6
  fault: usage
  [2]
  $ calls
  $ ls
  records
  rules
