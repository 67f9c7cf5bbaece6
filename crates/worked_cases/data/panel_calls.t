Runs of `panel` that do not end whole: words that are no such command, files that have no reading, calls that fail.

  $ cat >rules <<EOF
  > number last_Staff
  > number Staff
  > Staff <= 2 last_Staff
  > 2 Staff >= last_Staff
  > EOF
  $ cat >last <<EOF
  > id,Staff
  > 7,10
  > EOF
  $ cat >records <<EOF
  > id,Staff
  > 7,50
  > 8,5
  > EOF

A file or the key that is not named, two names that lead to one file, a budget out of its range, and options of other commands. The name of the key
is none of a file: it may be that of one.

  $ forxainde panel --rules rules --records records --last last --released released --reasons reasons --proof proof
  fault: usage
  [2]
  $ forxainde panel --rules rules --records records --released released --reasons reasons --proof proof --key id
  fault: usage
  [2]
  $ forxainde panel --rules rules --records records --last ./records --released released --reasons reasons --proof proof --key id
  fault: usage
  [2]
  $ forxainde panel --rules rules --records records --last last --released last --reasons reasons --proof proof --key id
  fault: usage
  [2]
  $ forxainde panel --rules rules --records records --last last --released released --reasons reasons --proof proof --key id --budget 0
  fault: usage
  [2]
  $ forxainde panel --rules rules --records records --last last --released released --reasons reasons --proof proof --key id --workers 2
  fault: usage
  [2]
  $ calls
  $ ls
  last
  records
  rules
  $ forxainde panel --rules rules --records records --last last --released released --reasons reasons --proof proof --key rules
  fault: records kind 17 NoKey
  [4]
  $ calls
  fetch rules
  fetch records

Each file is read before the next is fetched: rules without a reading, records without one or without a key, and then the rows of the last
period. Of a file the key comes last.

  $ cp rules right.rules
  $ sed -i -e '2d' rules
  $ forxainde panel --rules rules --records records --last last --released released --reasons reasons --proof proof --key id
  fault: rules line 2 kind 3 UnknownField
  [3]
  $ calls
  fetch rules
  $ cp right.rules rules
  $ cp records right.records
  $ cat >records <<EOF
  > Town,Town
  > 7
  > EOF
  $ forxainde panel --rules rules --records records --last last --released released --reasons reasons --proof proof --key Town
  fault: records kind 12 NoColumn field Staff
  [4]
  $ sed -i -e '1c\Staff,Town,Town' -e '2c\7,a,a' records
  $ forxainde panel --rules rules --records records --last last --released released --reasons reasons --proof proof --key Town
  fault: records kind 17 NoKey
  [4]
  $ calls
  fetch rules
  fetch records
  $ cp right.records records
  $ cp last right.last
  $ cat >last <<EOF
  > EOF
  $ forxainde panel --rules rules --records records --last last --released released --reasons reasons --proof proof --key id
  fault: last kind 11 NoHeader
  [4]
  $ calls
  fetch rules
  fetch records
  fetch last
  $ cat >last <<EOF
  > last_Staff
  > 10,7
  > EOF
  $ forxainde panel --rules rules --records records --last last --released released --reasons reasons --proof proof --key id
  fault: last kind 12 NoColumn field Staff
  [4]
  $ sed -i -e '1c\Staff, Staff' last
  $ forxainde panel --rules rules --records records --last last --released released --reasons reasons --proof proof --key id
  fault: last kind 13 DoubleColumn field Staff
  [4]
  $ sed -i -e '1c\Staff' -e '2c\10\n10,7' last
  $ forxainde panel --rules rules --records records --last last --released released --reasons reasons --proof proof --key id
  fault: last kind 14 RowLength row 2
  [4]
  $ sed -i -e '3d' last
  $ forxainde panel --rules rules --records records --last last --released released --reasons reasons --proof proof --key id
  fault: last kind 17 NoKey
  [4]
  $ sed -i -e '1c\id,Staff, id' -e '2c\7,10,7' last
  $ forxainde panel --rules rules --records records --last last --released released --reasons reasons --proof proof --key id
  fault: last kind 17 NoKey
  [4]
  $ calls
  fetch rules
  fetch records
  fetch last
  $ fail line 1
  $ forxainde panel --rules rules --records records --last last --released released --reasons reasons --proof proof --key id
  [4]
  $ cp right.last last
  $ rm right.rules right.records right.last
  $ ls
  last
  records
  rules

Each call that fails ends the run, and what was stored before it stands; a file of which the store fails may have some first bytes.

  $ fail call 1 keep 0
  $ forxainde panel --rules rules --records records --last last --released released --reasons reasons --proof proof --key id
  fault: read rules
  [5]
  $ calls
  fetch rules failed
  $ forxainde panel --rules rules --records missing --last last --released released --reasons reasons --proof proof --key id
  fault: read missing
  [5]
  $ calls
  fetch rules
  fetch missing failed
  $ forxainde panel --rules rules --records records --last missing --released released --reasons reasons --proof proof --key id
  fault: read missing
  [5]
  $ calls
  fetch rules
  fetch records
  fetch missing failed
  $ ls
  last
  records
  rules
  $ cat >released <<EOF
  > an older file
  > EOF
  $ fail call 4 keep 9
  $ forxainde panel --rules rules --records records --last last --released released --reasons reasons --proof proof --key id
  fault: write proof
  [6]
  $ calls
  fetch rules
  fetch records
  fetch last
  store proof failed
  $ cat proof
  fh-panel  (no-eol)
  $ ls
  last
  proof
  records
  released
  rules
  $ fail call 5 keep 3
  $ forxainde panel --rules rules --records records --last last --released released --reasons reasons --proof proof --key id
  fault: write reasons
  [6]
  $ calls
  fetch rules
  fetch records
  fetch last
  store proof
  store reasons failed
  $ cat proof
  fh-panel 1
  budget 1000000
  lines 2
  records 2
  change 1 KC 3
  line KK 1
  given 1
  bound KC
  bound C
  nolast
  end
  $ cat reasons
  rec (no-eol)
  $ cat released
  an older file
  $ fail call 6 keep 1000
  $ forxainde panel --rules rules --records records --last last --released released --reasons reasons --proof proof --key id
  fault: write released
  [6]
  $ calls
  fetch rules
  fetch records
  fetch last
  store proof
  store reasons
  store released failed
  $ cat reasons
  record,cause,field,before,after,donor,detail
  1,changed,Staff,50,5,,nearest
  2,nolast,,,,,
  $ cat released
  id,Staff
  7,5

Where the line that counts can't be printed, the status is 6 too, and the three files are whole.

  $ rm proof reasons released
  $ fail line 1
  $ forxainde panel --rules rules --records records --last last --released released --reasons reasons --proof proof --key id
  [6]
  $ calls
  fetch rules
  fetch records
  fetch last
  store proof
  store reasons
  store released
  $ ls
  last
  proof
  reasons
  records
  released
  rules
