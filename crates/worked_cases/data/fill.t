Missing values that the rules force are filled, and no others. What is printed counts the records, the fields that were filled,
the records that no values can complete, and those at which the budget or the range of numbers ended the work.

Turnover, Costs and Profit. Where Turnover is 100 and Profit is 40, Costs can only be 60. Where Turnover alone is known, Costs and
Profit may share it in many ways, and both stay missing. A Profit of 90 is more than six tenths of 100, whatever the Costs are: no
values complete that record, and it stays as it is.

  $ cat >rules <<EOF
  > number Turnover weight 2
  > number Costs
  > number Profit
  > Turnover >= 0
  > Costs >= 0
  > Turnover - Costs - Profit = 0
  > 10 Profit <= 6 Turnover
  > EOF
  $ cat >records <<EOF
  > Turnover,Costs,Profit
  > 100,,40
  > 100,,
  > 100,,90
  > EOF
  $ forxainde fill --rules rules --records records --released released
  records 3 filled 1 blocked 1 stopped 0
  $ calls
  fetch rules
  fetch records
  store released
  $ cat released
  Turnover,Costs,Profit
  100,60,40
  100,,
  100,,90
  $ ls
  records
  released
  rules

Nothing is left to be filled in a file that was filled. It may not be stored over the one that was read, so it is stored over an
older one.

  $ cat >filled <<EOF
  > an older file
  > EOF
  $ forxainde fill --rules rules --records released --released filled
  records 3 filled 0 blocked 1 stopped 0
  $ cat filled
  Turnover,Costs,Profit
  100,60,40
  100,,
  100,,90

A file of no records, and rules of which every value follows from another one: of each pair either may be missing.

  $ cat >records <<EOF
  > Turnover,Costs,Profit
  > EOF
  $ forxainde fill --rules rules --records records --released released
  records 0 filled 0 blocked 0 stopped 0
  $ cat released
  Turnover,Costs,Profit
  $ cat >records <<EOF
  > Turnover,Costs,Profit
  > ,60,40
  > 100,,40
  > 100,60,
  > ,,
  > EOF
  $ forxainde fill --rules rules --records records --released released
  records 4 filled 3 blocked 0 stopped 0
  $ cat released
  Turnover,Costs,Profit
  100,60,40
  100,60,40
  100,60,40
  ,,

Bounds that meet force a value as well. Without Costs the whole Turnover is Profit, of which at most six tenths may be: so both are 0.
A Turnover of 0 leaves open how large Costs and the loss are, and a Profit of 60 how far above 100 the Turnover is.

  $ cat >records <<EOF
  > Turnover,Costs,Profit
  > ,0,
  > 0,,
  > ,,60
  > EOF
  $ forxainde fill --rules rules --records records --released released
  records 3 filled 2 blocked 0 stopped 0
  $ cat released
  Turnover,Costs,Profit
  0,0,0
  0,,
  ,,60

A budget of 1 is spent on the first look at a record. That ends the work on it: the record stays as it is, and the status is 1.

  $ cat >records <<EOF
  > Turnover,Costs,Profit
  > 100,,40
  > EOF
  $ forxainde fill --rules rules --records records --released released --budget 1
  records 1 filled 0 blocked 0 stopped 1
  [1]
  $ calls
  fetch rules
  fetch records
  store released
  $ cat released
  Turnover,Costs,Profit
  100,,40

The work is that of the search: 1 for each path that is looked at, and 1 for each pair of lines that is combined where its last field is
changed. A record's own path keeps what it has and changes what is missing. Of 100,,40 the walk over the rules takes `-`, `K`, `KC` and
`KCK`, and at `KC` the sum is put into `Costs >= 0`: 4 and 1, which is 5. It stays open, and the candidate is 60. The test of more than 60
costs 5 too: the line `Costs > 60` says more than `Costs >= 0`, which goes, so the sum is put into the new line alone. The test of less than
60 costs 6, since the sum is put into both lines. Each closes at `KCK`, so that 60 is forced after a work of 5, 10 and 16.

Of 100,, the walk takes `-`, `K`, `KC` and `KCC`: 5 again, since at Profit both lines that are left bound it from above, and no pair is
combined. In the candidate Costs are 100 and Profit is 0. The test of more Costs costs 5 and stays open, so Costs are not forced. In the test
of more Profit the new line bounds it from below, and is combined with both: 4, 1 and 2, which is 7, and open. That nothing is forced is told
after a work of 5, 10 and 17. Of 100,,90 the walk closes at `KCK`, with a work of 5.

  $ cat >records <<EOF
  > Turnover,Costs,Profit
  > 100,,40
  > 100,,
  > 100,,90
  > EOF
  $ forxainde fill --rules rules --records records --released released --budget 17
  records 3 filled 1 blocked 1 stopped 0
  $ forxainde fill --rules rules --records records --released released --budget 16
  records 3 filled 1 blocked 1 stopped 1
  [1]
  $ cat released
  Turnover,Costs,Profit
  100,60,40
  100,,
  100,,90
  $ forxainde fill --rules rules --records records --released released --budget 15
  records 3 filled 0 blocked 1 stopped 2
  [1]
  $ cat released
  Turnover,Costs,Profit
  100,,40
  100,,
  100,,90
  $ forxainde fill --rules rules --records records --released released --budget 10
  records 3 filled 0 blocked 1 stopped 2
  [1]
  $ forxainde fill --rules rules --records records --released released --budget 5
  records 3 filled 0 blocked 1 stopped 2
  [1]
  $ forxainde fill --rules rules --records records --released released --budget 4
  records 3 filled 0 blocked 0 stopped 3
  [1]
  $ cat released
  Turnover,Costs,Profit
  100,,40
  100,,
  100,,90

A record without a missing value is not looked at, also where it breaks a rule, or where a sum of it would leave 128 bits (the
denominators below are three primes). It stays as it is, and is neither filled nor blocked nor stopped.

  $ cat >records <<EOF
  > Turnover,Costs,Profit
  > 100,60,40
  > 100,60,400
  > -1,7/3,0.50
  > EOF
  $ forxainde fill --rules rules --records records --released released --budget 1
  records 3 filled 0 blocked 0 stopped 0
  $ cat released
  Turnover,Costs,Profit
  100,60,40
  100,60,400
  -1,7/3,0.50
  $ cat >rules <<EOF
  > number A
  > number B
  > number C
  > 1000000000 A + 999999999 B + 999999998 C >= 0
  > EOF
  $ cat >records <<EOF
  > A,B,C
  > 999999999999999999999/999983,999999999999999999999/999979,999999999999999999999/999961
  > EOF
  $ forxainde fill --rules rules --records records --released released
  records 1 filled 0 blocked 0 stopped 0

What is forced is written in lowest terms: a third of 7, of 9, of -7 and of seven tenths, and three times a third and a half.

  $ cat >rules <<EOF
  > number A
  > number B weight 2
  > 3 A - B = 0
  > EOF
  $ cat >records <<EOF
  > A,B
  > ,7
  > ,9
  > ,-7
  > ,0.7
  > 7/3,
  > 0.50,
  > EOF
  $ forxainde fill --rules rules --records records --released released
  records 6 filled 6 blocked 0 stopped 0
  $ cat released
  A,B
  7/3,7
  3,9
  -7/3,-7
  7/30,0.7
  7/3,7
  0.50,3/2

Two missing values that force each other: by two equalities, and by bounds that leave one pair. A third one that is only bounded stays
missing beside the two that are filled; where it contradicts them, nothing is filled.

  $ cat >rules <<EOF
  > number A
  > number B
  > number C
  > A + B = 10
  > A - B = 4
  > C >= A
  > EOF
  $ cat >records <<EOF
  > A,B,C
  > ,,8
  > ,,
  > ,,6
  > EOF
  $ forxainde fill --rules rules --records records --released released
  records 3 filled 4 blocked 1 stopped 0
  $ cat released
  A,B,C
  7,3,8
  7,3,
  ,,6
  $ cat >rules <<EOF
  > number A
  > number B
  > A >= 4
  > B >= 6
  > A + B <= 10
  > EOF
  $ cat >records <<EOF
  > A,B
  > ,
  > 4,
  > ,7
  > EOF
  $ forxainde fill --rules rules --records records --released released
  records 3 filled 3 blocked 1 stopped 0
  $ cat released
  A,B
  4,6
  4,6
  ,7

Bounds that leave more than one value force none, however near to each other they are; bounds that leave no value block the record.

  $ cat >rules <<EOF
  > number A
  > number B
  > A >= B
  > 1000000000 A < 1000000000 B + 1
  > EOF
  $ cat >records <<EOF
  > A,B
  > ,5
  > EOF
  $ forxainde fill --rules rules --records records --released released
  records 1 filled 0 blocked 0 stopped 0
  $ cat >rules <<EOF
  > number A
  > number B
  > A >= B
  > A < B
  > EOF
  $ forxainde fill --rules rules --records records --released released
  records 1 filled 0 blocked 1 stopped 0

A household. A child is single, and a spouse is married: so a child's missing status is single, and a child who is a spouse is blocked.

  $ cat >rules <<EOF
  > code Age in {child, adult}
  > code Status in {single, married}
  > code Rel in {spouse, other}
  > if Age in {child} then Status in {single}
  > if Rel in {spouse} then Status in {married}
  > EOF
  $ cat >records <<EOF
  > Age,Status,Rel
  > child,,other
  > child,,spouse
  > EOF
  $ forxainde fill --rules rules --records records --released released
  records 2 filled 1 blocked 1 stopped 0
  $ cat released
  Age,Status,Rel
  child,single,other
  child,,spouse

With codes the work is counted in the same way. Of child,,other the walk takes `-`, `K`, `KC` and `KCK`. At `KC` each code of Status is met with
one box of forbidden codes, single with that of spouses and married with that of children: 4 and 2, which is 6. The candidate is single.
In its test the single are forbidden whatever Rel is, so that no code of Status is left at `KC`: it closes there, with 3 and 2. So single
is forced after a work of 6 and 11. Of child,,spouse the walk closes at `KCK`, with a work of 6.

  $ forxainde fill --rules rules --records records --released released --budget 11
  records 2 filled 1 blocked 1 stopped 0
  $ forxainde fill --rules rules --records records --released released --budget 10
  records 2 filled 0 blocked 1 stopped 1
  [1]
  $ forxainde fill --rules rules --records records --released released --budget 6
  records 2 filled 0 blocked 1 stopped 1
  [1]
  $ forxainde fill --rules rules --records records --released released --budget 5
  records 2 filled 0 blocked 0 stopped 2
  [1]

Other records of a household: the status of an adult is open unless the adult is a spouse, a married person is an adult, and a single one
is no spouse. Where nothing is known, nothing is forced.

  $ cat >records <<EOF
  > Age,Status,Rel
  > adult,,other
  > adult,,spouse
  > ,married,other
  > ,,spouse
  > ,single,
  > child,,
  > ,,
  > EOF
  $ forxainde fill --rules rules --records records --released released
  records 7 filled 7 blocked 0 stopped 0
  $ cat released
  Age,Status,Rel
  adult,,other
  adult,married,spouse
  adult,married,other
  adult,married,spouse
  ,single,other
  child,single,other
  ,,

Rules that tie numbers to codes. A firm with a staff of 3 is one that has some, and one with a staff of 0 has none; a firm that has none has
a staff of 0, and one that has some has at least 1. No firm has a staff of one half.

  $ cat >rules <<EOF
  > code Kind in {none, some}
  > number Staff
  > Staff >= 0
  > if Staff > 0 then Kind in {some}
  > if Kind in {some} then Staff >= 1
  > EOF
  $ cat >records <<EOF
  > Kind,Staff
  > ,3
  > ,0
  > none,
  > some,
  > ,
  > ,1/2
  > EOF
  $ forxainde fill --rules rules --records records --released released
  records 6 filled 3 blocked 1 stopped 0
  $ cat released
  Kind,Staff
  some,3
  none,0
  none,0
  some,
  ,
  ,1/2

A survey of firms, of which returns come with gaps: costs by the balance, a tax of a fifth of the profit, and a size by the staff; a profit by the
balance, and the tax by that profit; a record that nothing can complete, and two that stay open.

  $ cat >rules <<EOF
  > number Turnover weight 2
  > number Costs
  > number Profit
  > number Tax
  > number Staff
  > code Size in {small, large}
  > Turnover >= 0
  > Costs >= 0
  > Staff >= 0
  > Turnover - Costs - Profit = 0
  > 10 Profit <= 6 Turnover
  > 5 Tax = Profit
  > if Size in {small} then Staff <= 9
  > if Size in {large} then Staff >= 10
  > EOF
  $ cat >records <<EOF
  > firm,Turnover,Costs,Profit,Tax,Staff,Size
  > "Baker, J.",100,,40,,12,
  > Miller,100,,,,4,small
  > Smith,100,,90,,4,small
  > Cooper,101,100,,,15,large
  > Fisher,50,50,0,0,9,
  > Green,,,,,,
  > EOF
  $ forxainde fill --rules rules --records records --released released
  records 6 filled 6 blocked 1 stopped 0
  $ cat released
  firm,Turnover,Costs,Profit,Tax,Staff,Size
  "Baker, J.",100,60,40,8,12,large
  Miller,100,,,,4,small
  Smith,100,,90,,4,small
  Cooper,101,100,1,1/5,15,large
  Fisher,50,50,0,0,9,small
  Green,,,,,,

A record of which everything is missing, under rules with one solution.

  $ cat >rules <<EOF
  > code Size in {small, large}
  > number A
  > number B
  > A + B = 10
  > A - B = 4
  > if A > 5 then Size in {large}
  > EOF
  $ cat >records <<EOF
  > Size,A,B
  > ,,
  > EOF
  $ forxainde fill --rules rules --records records --released released
  records 1 filled 3 blocked 0 stopped 0
  $ cat released
  Size,A,B
  large,7,3

Rules that contradict each other have no solution: every record with a missing value is blocked, whatever it holds, and one without is as it was.

  $ cat >rules <<EOF
  > number A
  > number B
  > A >= 5
  > A <= 3
  > EOF
  $ cat >records <<EOF
  > A,B
  > ,1
  > 4,2
  > 4,
  > ,
  > EOF
  $ forxainde fill --rules rules --records records --released released
  records 4 filled 0 blocked 3 stopped 0
  $ cat released
  A,B
  ,1
  4,2
  4,
  ,
  $ cat >rules <<EOF
  > number A
  > number B
  > code C in {x, y}
  > C not in {x, y}
  > EOF
  $ cat >records <<EOF
  > A,B,C
  > ,,x
  > 1,2,x
  > EOF
  $ forxainde fill --rules rules --records records --released released
  records 2 filled 0 blocked 1 stopped 0

Without rules nothing is forced but the code of a field that has no other one.

  $ cat >rules <<EOF
  > number A
  > code Country in {nl}
  > code Sex in {f, m}
  > EOF
  $ cat >records <<EOF
  > A,Country,Sex
  > ,,
  > EOF
  $ forxainde fill --rules rules --records records --released released
  records 1 filled 1 blocked 0 stopped 0
  $ cat released
  A,Country,Sex
  ,nl,
  $ cat >rules <<EOF
  > EOF
  $ forxainde fill --rules rules --records records --released released
  records 1 filled 0 blocked 0 stopped 0
  $ cat released
  A,Country,Sex
  ,,

Further columns, columns in another order, blanks, quotes and the spelling of numbers: all but what is filled is as it was read. A text that is
no numeral, or no code of its field, is a missing value: it gives way where a value is forced, and else it stays.

  $ cat >rules <<EOF
  > number Turnover weight 2
  > number Costs
  > number Profit
  > code Open in {yes, no}
  > Turnover >= 0
  > Costs >= 0
  > Turnover - Costs - Profit = 0
  > 10 Profit <= 6 Turnover
  > if Turnover > 0 then Open in {yes}
  > EOF
  $ cat >records <<EOF
  > id, Profit ,Open,"the ""note""",Costs,Turnover,id
  > 1, 40 , yes ,"a, b",n/a,+100.0,7
  > 2,?,maybe,"say ""so""",  ,0100,8
  > "3, 3",20/1, no ,,"6,0",99.,9
  > EOF
  $ forxainde fill --rules rules --records records --released released
  records 3 filled 2 blocked 1 stopped 0
  $ cat released
  id, Profit ,Open,"the ""note""",Costs,Turnover,id
  1, 40 , yes ,"a, b",60,+100.0,7
  2,?,yes,"say ""so""",  ,0100,8
  "3, 3",20/1, no ,,"6,0",99.,9

A file of one column: a missing value is an empty field in quotes there, so that its line is not empty. A byte order mark and carriage
returns are not written.

  $ cat >rules <<EOF
  > number A
  > A >= 0
  > EOF
  $ cat >records <<EOF
  > \xef\xbb\xbfA\x0d (esc)
  > ""\x0d (esc)
  > 4\x0d (esc)
  > EOF
  $ forxainde fill --rules rules --records records --released released
  records 2 filled 0 blocked 0 stopped 0
  $ cat released
  A
  ""
  4
  $ cat >rules <<EOF
  > number A
  > 2 A = 5
  > EOF
  $ forxainde fill --rules rules --records records --released released
  records 2 filled 1 blocked 0 stopped 0
  $ cat released
  A
  5/2
  4

Numbers that leave 128 bits end the work on a record, which stays as it is; the others are filled. In the first record below the walk over the
rules eliminates x2 to x5, and the last of these steps needs 999999999^5. In the second x5 and x6 are known, and nothing is so large.

  $ cat >rules <<EOF
  > number x1
  > number x2
  > number x3
  > number x4
  > number x5
  > number x6
  > number y
  > 999999999 x1 >= 1000000000 x2
  > 999999999 x2 >= 1000000000 x3
  > 999999999 x3 >= 1000000000 x4
  > 999999999 x4 >= 1000000000 x5
  > 999999999 x5 >= 1000000000 x6
  > y - x1 = 1
  > EOF
  $ cat >records <<EOF
  > x1,x2,x3,x4,x5,x6,y
  > 1,,,,,0,
  > 1,,,,0,0,
  > EOF
  $ forxainde fill --rules rules --records records --released released
  records 2 filled 1 blocked 0 stopped 1
  [1]
  $ cat released
  x1,x2,x3,x4,x5,x6,y
  1,,,,,0,
  1,,,,0,0,2

A candidate that can't be given: what is left for 10^36 times x5 is 1000 times 999999999^4, which leaves 128 bits.

  $ cat >rules <<EOF
  > number x1
  > number x2
  > number x3
  > number x4
  > number x5
  > 999999999 x1 >= 1000000000 x2
  > 999999999 x2 >= 1000000000 x3
  > 999999999 x3 >= 1000000000 x4
  > 999999999 x4 >= 1000000000 x5
  > EOF
  $ cat >records <<EOF
  > x1,x2,x3,x4,x5
  > 1000,,,,
  > EOF
  $ forxainde fill --rules rules --records records --released released
  records 1 filled 0 blocked 0 stopped 1
  [1]
  $ cat released
  x1,x2,x3,x4,x5
  1000,,,,

A sum of what is known: where D alone is missing, A, B and C are looked at together, and the sum of the three has a numerator past 128 bits.

  $ cat >rules <<EOF
  > number A
  > number B
  > number C
  > number D
  > 1000000000 A + 999999999 B + 999999998 C >= 0
  > EOF
  $ cat >records <<EOF
  > A,B,C,D
  > 999999999999999999999/999983,999999999999999999999/999979,999999999999999999999/999961,
  > EOF
  $ forxainde fill --rules rules --records records --released released
  records 1 filled 0 blocked 0 stopped 1
  [1]

A test that can't be made, where there is a candidate. The least A is a thousand-millionth of the sum of four fractions, whose denominators are four
primes: so that of A has 109 bits, and it is a factor of the line that says more than A. The pair of this line with the last rule needs a
thousand million times that factor, which has 139 bits.

  $ cat >rules <<EOF
  > number A
  > number B
  > number C
  > number D
  > number E
  > number Z
  > 1000000000 A - B - C - D - E >= 0
  > A <= 1000000000 Z
  > EOF
  $ cat >records <<EOF
  > A,B,C,D,E,Z
  > ,1/999983,1/999979,1/999961,1/999959,1/999983
  > ,1,1,1,1,1
  > EOF
  $ forxainde fill --rules rules --records records --released released
  records 2 filled 0 blocked 0 stopped 1
  [1]

Words that are no command: a file that is not named, a file that is named twice or in two ways, a budget of 0 or past 1,000,000,000, and options
of other commands. Nothing is fetched.

  $ cat >rules <<EOF
  > number A
  > A >= 0
  > EOF
  $ cat >records <<EOF
  > A
  > 1
  > EOF
  $ rm released filled
  $ forxainde fill
  fault: usage
  [2]
  $ forxainde fill --records records --released released
  fault: usage
  [2]
  $ forxainde fill --rules rules --released released
  fault: usage
  [2]
  $ forxainde fill --rules rules --records records
  fault: usage
  [2]
  $ forxainde fill --rules rules --records records --released records
  fault: usage
  [2]
  $ forxainde fill --rules rules --records records --released ./records
  fault: usage
  [2]
  $ forxainde fill --rules rules --records .//rules --released released
  fault: usage
  [2]
  $ forxainde fill --rules rules --records records --released released --released other
  fault: usage
  [2]
  $ forxainde fill --rules rules --records records --released released --budget 0
  fault: usage
  [2]
  $ forxainde fill --rules rules --records records --released released --budget 1000000001
  fault: usage
  [2]
  $ forxainde fill --rules rules --records records --released released --budget few
  fault: usage
  [2]
  $ forxainde fill --rules rules --records records --released released --workers 2
  fault: usage
  [2]
  $ forxainde fill --rules rules --records records --released released --limit 1
  fault: usage
  [2]
  $ forxainde fill --rules rules --records records --released released --near 5
  fault: usage
  [2]
  $ forxainde fill --rules rules --records records --released released --reasons reasons --proof proof
  fault: usage
  [2]
  $ calls
  $ ls
  records
  rules

With the options in another order, and a budget with zeros in front or as large as it may be, they are one.

  $ forxainde fill --released=released --budget 0000000001 --records records --rules rules
  records 1 filled 0 blocked 0 stopped 0
  $ forxainde fill --budget=1000000000 --rules rules --released released --records records --
  records 1 filled 0 blocked 0 stopped 0
  $ rm released

Rules that have no reading, one of each kind. The records are not fetched, and nothing is stored.

  $ cat >rules <<EOF
  > \xc3number A (esc)
  > EOF
  $ forxainde fill --rules rules --records records --released released
  fault: rules line 1 kind 1 BadByte
  [3]
  $ calls
  fetch rules
  $ cat >rules <<EOF
  > number A >= 0
  > EOF
  $ forxainde fill --rules rules --records records --released released
  fault: rules line 1 kind 2 Syntax
  [3]
  $ cat >rules <<EOF
  > A >= 0
  > EOF
  $ forxainde fill --rules rules --records records --released released
  fault: rules line 1 kind 3 UnknownField
  [3]
  $ cat >rules <<EOF
  > number A
  > number A
  > EOF
  $ forxainde fill --rules rules --records records --released released
  fault: rules line 2 kind 4 DoubleField
  [3]
  $ cat >rules <<EOF
  > code B in {x, y}
  > B in {z}
  > EOF
  $ forxainde fill --rules rules --records records --released released
  fault: rules line 2 kind 5 UnknownCode
  [3]
  $ cat >rules <<EOF
  > code B in {x, x}
  > EOF
  $ forxainde fill --rules rules --records records --released released
  fault: rules line 1 kind 6 DoubleCode
  [3]
  $ cat >rules <<EOF
  > number A
  > 0.5 A >= 0
  > EOF
  $ forxainde fill --rules rules --records records --released released
  fault: rules line 2 kind 7 NumberRange
  [3]
  $ yes 'A >= 0' | head -n 502 >rules
  $ sed -i -e '1c\number A' rules
  $ forxainde fill --rules rules --records records --released released
  fault: rules line 502 kind 8 TooMany
  [3]
  $ cat >rules <<EOF
  > number A
  > code B in {x, y}
  > if A = 0 then B in {x}
  > EOF
  $ forxainde fill --rules rules --records records --released released
  fault: rules line 3 kind 9 ConditionForm
  [3]
  $ ls
  records
  rules

Records that have no reading, one of each kind but two, which stand with the other limits. Nothing is stored.

  $ cat >rules <<EOF
  > number A
  > number B
  > A >= 0
  > EOF
  $ cat >records <<EOF
  > EOF
  $ forxainde fill --rules rules --records records --released released
  fault: records kind 11 NoHeader
  [4]
  $ calls
  fetch rules
  fetch records
  $ cat >records <<EOF
  > A
  > 1
  > EOF
  $ forxainde fill --rules rules --records records --released released
  fault: records kind 12 NoColumn field B
  [4]
  $ cat >records <<EOF
  > A,B, A
  > 1,1,1
  > EOF
  $ forxainde fill --rules rules --records records --released released
  fault: records kind 13 DoubleColumn field A
  [4]
  $ cat >records <<EOF
  > A,B
  > ,2
  > 3
  > EOF
  $ forxainde fill --rules rules --records records --released released
  fault: records kind 14 RowLength row 2
  [4]
  $ ls
  records
  rules

A file that can't be read is the status 5, and one that can't be stored the status 6. Of the released file it leaves some first bytes, whatever
stood there before.

  $ cat >records <<EOF
  > A,B
  > ,2
  > EOF
  $ forxainde fill --rules rules --records missing --released released
  fault: read missing
  [5]
  $ calls
  fetch rules
  fetch missing failed
  $ forxainde fill --rules missing --records records --released released
  fault: read missing
  [5]
  $ calls
  fetch missing failed
  $ cat >released <<EOF
  > an older file
  > EOF
  $ fail call 3 keep 5
  $ forxainde fill --rules rules --records records --released released
  fault: write released
  [6]
  $ calls
  fetch rules
  fetch records
  store released failed
  $ cat released
  A,B
  , (no-eol)

Where the line that counts can't be printed, the status is 6 too, and not 1; the released file is whole.

  $ fail line 1
  $ forxainde fill --rules rules --records records --released released
  [6]
  $ cat released
  A,B
  ,2
  $ fail line 1
  $ forxainde fill --rules rules --records records --released released --budget 1
  [6]
  $ calls
  fetch rules
  fetch records
  store released
  $ forxainde fill --rules rules --records records --released released --budget 1
  records 1 filled 0 blocked 0 stopped 1
  [1]
