Record files: what a text stands for, what of it is kept, and which files have no reading.

A header alone.

  $ cat >rules <<EOF
  > number A
  > A >= 0
  > EOF
  $ cat >records <<EOF
  > A
  > EOF
  $ forxainde edit --rules rules --records records --released released --reasons reasons --proof proof
  records 0 clean 0 changed 0 unresolved 0 weight 0
  claims 0 given 0
  $ cat released
  A

Further columns, quotes, and a numeral with zeros: of a clean record every byte is kept, and a text that is no numeral is a
missing value. The clean record gives its number to the next one, and has no more to give to the last.

  $ cat >records <<EOF
  > id,A
  > "x, y",007.50
  > 1,1e3
  > 2,-4
  > EOF
  $ forxainde edit --rules rules --records records --released released --reasons reasons --proof proof
  records 3 clean 1 changed 2 unresolved 0 weight 2
  claims 2 given 1
  $ cat released
  id,A
  "x, y",007.50
  1,15/2
  2,0
  $ cat reasons
  record,cause,field,before,after,donor,detail
  2,changed,A,1e3,15/2,1,donor
  3,changed,A,-4,0,,default
  $ cat proof
  fh-proof 2
  limit 1 near 5 budget 1000000
  lines 1
  keep
  table 1
  given 1
  records 3
  clean
  change 1 C 2
  bad K
  bound C
  change 1 C 2
  line K 1
  shared 1
  bound C
  claims 2
  claim 2 1 1
  claim 3 0 1
  end
  $ forxainde check --rules rules --records records --released released --proof proof
  valid records 3 released 3
  $ cat >records <<EOF
  > id,A
  > "x, y",007.50
  > EOF
  $ forxainde edit --rules rules --records records --released released --reasons reasons --proof proof
  records 1 clean 1 changed 0 unresolved 0 weight 0
  claims 0 given 0
  $ cat released
  id,A
  "x, y",007.50
  $ cat >records <<EOF
  > id,A
  > 1,1e3
  > 2,abc
  > EOF
  $ forxainde edit --rules rules --records records --released released --reasons reasons --proof proof
  records 2 clean 0 changed 2 unresolved 0 weight 2
  claims 2 given 0
  $ cat released
  id,A
  1,0
  2,0
  $ cat reasons
  record,cause,field,before,after,donor,detail
  1,changed,A,1e3,0,,default
  2,changed,A,abc,0,,default

A byte order mark and carriage returns are not released.

  $ cat >records <<EOF
  > \xef\xbb\xbfid,A\x0d (esc)
  > 1,.5\x0d (esc)
  > EOF
  $ forxainde edit --rules rules --records records --released released --reasons reasons --proof proof
  records 1 clean 1 changed 0 unresolved 0 weight 0
  claims 0 given 0
  $ cat released
  id,A
  1,.5
  $ forxainde check --rules rules --records records --released released --proof proof
  valid records 1 released 1

Numerals, one a record: all are clean, and released as they are.

  $ cat >records <<EOF
  > A
  >  12
  > +12
  > 12.
  > .5
  > 1/2
  > 0.50
  > +6/8
  > -0
  > 0/7
  > \x0912\x09 (esc)
  > 123456789012345.123456
  > 999999999999999999999/1000000
  > 000000000000000000021/0000003
  > EOF
  $ forxainde edit --rules rules --records records --released released --reasons reasons --proof proof
  records 13 clean 13 changed 0 unresolved 0 weight 0
  claims 0 given 0
  $ cat released
  A
   12
  +12
  12.
  .5
  1/2
  0.50
  +6/8
  -0
  0/7
  \x0912\x09 (esc)
  123456789012345.123456
  999999999999999999999/1000000
  000000000000000000021/0000003

Texts that are no numerals: each is given 0.

  $ cat >records <<EOF
  > id,A
  > 1,.
  > 2,+
  > 3,0x1
  > 4,"1,000"
  > 5,--1
  > 6,- 1
  > 7,1/-2
  > 8,1/ 2
  > 9,1./2
  > 10,1/0
  > 11,1/1000001
  > 12,1/00000001
  > 13,1234567890123456
  > 14,0.1234567
  > 15,1000000000000000000000/1
  > 16,\x09 (esc)
  > 17,1 2
  > EOF
  $ forxainde edit --rules rules --records records --released released --reasons reasons --proof proof
  records 17 clean 0 changed 17 unresolved 0 weight 17
  claims 17 given 0
  $ cat released
  id,A
  1,0
  2,0
  3,0
  4,0
  5,0
  6,0
  7,0
  8,0
  9,0
  10,0
  11,0
  12,0
  13,0
  14,0
  15,0
  16,0
  17,0
  $ cat reasons
  record,cause,field,before,after,donor,detail
  1,changed,A,.,0,,default
  2,changed,A,+,0,,default
  3,changed,A,0x1,0,,default
  4,changed,A,"1,000",0,,default
  5,changed,A,--1,0,,default
  6,changed,A,- 1,0,,default
  7,changed,A,1/-2,0,,default
  8,changed,A,1/ 2,0,,default
  9,changed,A,1./2,0,,default
  10,changed,A,1/0,0,,default
  11,changed,A,1/1000001,0,,default
  12,changed,A,1/00000001,0,,default
  13,changed,A,1234567890123456,0,,default
  14,changed,A,0.1234567,0,,default
  15,changed,A,1000000000000000000000/1,0,,default
  16,changed,A,\x09,0,,default (esc)
  17,changed,A,1 2,0,,default

Columns in another order, with blanks around their names, and of names that stand twice but are no fields. Blank lines are
no records.

  $ cat >rules <<EOF
  > number A
  > code B in {x, 01}
  > A >= 3
  > EOF
  $ cat >records <<EOF
  > id,B , A ,id
  >  (esc)
  > 7,01,5,8
  >  (esc)
  > "7 ""a""",1,5," b"
  > EOF
  $ forxainde edit --rules rules --records records --released released --reasons reasons --proof proof
  records 2 clean 1 changed 1 unresolved 0 weight 1
  claims 1 given 1
  $ cat released
  id,B , A ,id
  7,01,5,8
  "7 ""a""",01,5, b
  $ cat reasons
  record,cause,field,before,after,donor,detail
  2,changed,B,1,01,1,donor
  $ forxainde check --rules rules --records records --released released --proof proof
  valid records 2 released 2

A record of one field that is empty is one where the field is quoted, and is written so.

  $ cat >rules <<EOF
  > number A
  > A >= 0
  > EOF
  $ cat >records <<EOF
  > A
  > ""
  > EOF
  $ forxainde edit --rules rules --records records --released released --reasons reasons --proof proof
  records 1 clean 0 changed 1 unresolved 0 weight 1
  claims 1 given 0
  $ cat released
  A
  0
  $ cat >rules <<EOF
  > EOF
  $ forxainde edit --rules rules --records records --released released --reasons reasons --proof proof
  records 1 clean 1 changed 0 unresolved 0 weight 0
  claims 0 given 0
  $ cat released
  A
  ""
  $ forxainde check --rules rules --records records --released released --proof proof
  valid records 1 released 1

Names with a line feed in a further column are quoted again.

  $ cat >rules <<EOF
  > number A
  > A >= 3
  > EOF
  $ cat >records <<EOF
  > "a
  > b",A
  > "c""d",1
  > EOF
  $ forxainde edit --rules rules --records records --released released --reasons reasons --proof proof
  records 1 clean 0 changed 1 unresolved 0 weight 1
  claims 1 given 0
  $ cat released
  "a
  b",A
  "c""d",3
  $ forxainde check --rules rules --records records --released released --proof proof
  valid records 1 released 1

No bytes at all, a byte order mark alone, and empty lines: no header.

  $ cat >rules <<EOF
  > number A
  > number B
  > A >= 3
  > EOF
  $ cat >records <<EOF
  > EOF
  $ forxainde edit --rules rules --records records --released released --reasons reasons --proof proof
  fault: records kind 11 NoHeader
  [4]
  $ cat >records <<EOF
  > \xef\xbb\xbf (esc) (no-eol)
  > EOF
  $ forxainde edit --rules rules --records records --released released --reasons reasons --proof proof
  fault: records kind 11 NoHeader
  [4]
  $ cat >records <<EOF
  >  (esc)
  > \x0d (esc)
  > EOF
  $ forxainde edit --rules rules --records records --released released --reasons reasons --proof proof
  fault: records kind 11 NoHeader
  [4]

A field without a column, or with two. The first such field is told.

  $ cat >records <<EOF
  > id,B
  > 1,1
  > EOF
  $ forxainde edit --rules rules --records records --released released --reasons reasons --proof proof
  fault: records kind 12 NoColumn field A
  [4]
  $ cat >records <<EOF
  > A,B, A
  > 1,1,1
  > EOF
  $ forxainde edit --rules rules --records records --released released --reasons reasons --proof proof
  fault: records kind 13 DoubleColumn field A
  [4]
  $ cat >records <<EOF
  > B,B
  > 1,1
  > EOF
  $ forxainde edit --rules rules --records records --released released --reasons reasons --proof proof
  fault: records kind 12 NoColumn field A
  [4]
  $ cat >records <<EOF
  > A,A
  > 1,1
  > EOF
  $ forxainde edit --rules rules --records records --released released --reasons reasons --proof proof
  fault: records kind 13 DoubleColumn field A
  [4]

Rows of another length than the header: the first of them is told, and only where the columns are right.

  $ cat >records <<EOF
  > id,A,B
  > 1,2,3
  > 7
  > 1,2,3,4
  > EOF
  $ forxainde edit --rules rules --records records --released released --reasons reasons --proof proof
  fault: records kind 14 RowLength row 2
  [4]
  $ cat >records <<EOF
  > A,B
  > 1,2,3
  > EOF
  $ forxainde edit --rules rules --records records --released released --reasons reasons --proof proof
  fault: records kind 14 RowLength row 1
  [4]
  $ cat >records <<EOF
  > A
  > 1,2,3
  > EOF
  $ forxainde edit --rules rules --records records --released released --reasons reasons --proof proof
  fault: records kind 12 NoColumn field B
  [4]
  $ cat >rules <<EOF
  > number A
  > A >= 0
  > EOF
  $ cat >records <<EOF
  > id,A
  > 7
  > EOF
  $ forxainde edit --rules rules --records records --released released --reasons reasons --proof proof
  fault: records kind 14 RowLength row 1
  [4]

More columns than there may be: 257, whatever they are; and 256.

  $ cat >records <<EOF
  > A,,,,,,,,,,,,,,,,,,,,,,,,,,,,,,,,,,,,,,,,,,,,,,,,,,,,,,,,,,,,,,,,,,,,,,,,,,,,,,,,,,,,,,,,,,,,,,,,,,,,,,,,,,,,,,,,,,,,,,,,,,,,,,,,,,,,,,,,,,,,,,,,,,,,,,,,,,,,,,,,,,,,,,,,,,,,,,,,,,,,,,,,,,,,,,,,,,,,,,,,,,,,,,,,,,,,,,,,,,,,,,,,,,,,,,,,,,,,,,,,,,,,,,,,,,,,,,,,
  > 1
  > EOF
  $ forxainde edit --rules rules --records records --released released --reasons reasons --proof proof
  fault: records kind 16 TooManyColumns
  [4]
  $ forxainde fill --rules rules --records records --released released
  fault: records kind 16 TooManyColumns
  [4]
  $ cat >records <<EOF
  > A,,,,,,,,,,,,,,,,,,,,,,,,,,,,,,,,,,,,,,,,,,,,,,,,,,,,,,,,,,,,,,,,,,,,,,,,,,,,,,,,,,,,,,,,,,,,,,,,,,,,,,,,,,,,,,,,,,,,,,,,,,,,,,,,,,,,,,,,,,,,,,,,,,,,,,,,,,,,,,,,,,,,,,,,,,,,,,,,,,,,,,,,,,,,,,,,,,,,,,,,,,,,,,,,,,,,,,,,,,,,,,,,,,,,,,,,,,,,,,,,,,,,,,,,,,,,,,,
  > 1,,,,,,,,,,,,,,,,,,,,,,,,,,,,,,,,,,,,,,,,,,,,,,,,,,,,,,,,,,,,,,,,,,,,,,,,,,,,,,,,,,,,,,,,,,,,,,,,,,,,,,,,,,,,,,,,,,,,,,,,,,,,,,,,,,,,,,,,,,,,,,,,,,,,,,,,,,,,,,,,,,,,,,,,,,,,,,,,,,,,,,,,,,,,,,,,,,,,,,,,,,,,,,,,,,,,,,,,,,,,,,,,,,,,,,,,,,,,,,,,,,,,,,,,,,,,,,,
  > EOF
  $ forxainde edit --rules rules --records records --released released --reasons reasons --proof proof
  records 1 clean 1 changed 0 unresolved 0 weight 0
  claims 0 given 0

Of rules and records that both have no reading the rules are told, and the records are not fetched; nothing is stored.

  $ rm released reasons proof
  $ cat >rules <<EOF
  > A >= 0
  > EOF
  $ forxainde edit --rules rules --records records --released released --reasons reasons --proof proof
  fault: rules line 1 kind 3 UnknownField
  [3]
  $ calls
  fetch rules
  $ cat >rules <<EOF
  > number A
  > EOF
  $ cat >records <<EOF
  > B
  > EOF
  $ forxainde edit --rules rules --records records --released released --reasons reasons --proof proof
  fault: records kind 12 NoColumn field A
  [4]
  $ calls
  fetch rules
  fetch records
  $ ls
  records
  rules

A text in quotes is kept where it is no value of a field, and is told as it was read where it is one.

  $ cat >rules <<EOF
  > number A
  > number B
  > A + B = 10
  > EOF
  $ cat >records <<EOF
  > id,A,B
  > "c, ""d""","1, ""e""",4
  > EOF
  $ forxainde edit --rules rules --records records --released released --reasons reasons --proof proof
  records 1 clean 0 changed 1 unresolved 0 weight 1
  claims 1 given 0
  $ cat released
  id,A,B
  "c, ""d""",6,4
  $ cat reasons
  record,cause,field,before,after,donor,detail
  1,changed,A,"1, ""e""",6,,nearest
