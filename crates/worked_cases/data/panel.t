Records of respondents who answered before. A field whose name begins with `last_` has the value of the last period: it stands in a second
file, in the row with the same key, and is never changed. The other fields are corrected beside it, at the least weight. What is printed
is the first line of an edit.

Staff may at most double from one period to the next, and at most halve. Firm 7 had 10 and now tells 50: the least that 10 allows is 5,
which is the nearest to 0. Firm 8 has no row in the file of the last period.

  $ cat >rules <<EOF
  > number last_Staff
  > number Staff
  > Staff <= 2 last_Staff
  > 2 Staff >= last_Staff
  > EOF
  $ cat >last <<EOF
  > id,Staff
  > 7,10
  > EOF
  $ cat >records <<EOF
  > id,Staff
  > 7,50
  > 8,5
  > EOF
  $ forxainde panel --rules rules --records records --last last --released released --reasons reasons --proof proof --key id
  records 2 clean 0 changed 1 unresolved 1 weight 1
  [1]
  $ calls
  fetch rules
  fetch records
  fetch last
  store proof
  store reasons
  store released
  $ cat released
  id,Staff
  7,5
  $ cat reasons
  record,cause,field,before,after,donor,detail
  1,changed,Staff,50,5,,nearest
  2,nolast,,,,,
  $ cat proof
  fh-panel 1
  budget 1000000
  lines 2
  records 2
  change 1 KC 3
  line KK 1
  given 1
  bound KC
  bound C
  nolast
  end

The work is that of the search over the lines of the rules and, behind them, the pin `last_Staff - 10 = 0`: `-`, `K` and `KK` 1 each, where
20 - 50 closes the last, and `KC` 2, which combines both rules to `last_Staff >= 0`, less than what the pin says. In all 5.

  $ forxainde panel --rules rules --records records --last last --released released --reasons reasons --proof proof --key id --budget 5
  records 2 clean 0 changed 1 unresolved 1 weight 1
  [1]
  $ forxainde panel --rules rules --records records --last last --released released --reasons reasons --proof proof --key id --budget 4
  records 2 clean 0 changed 0 unresolved 2 weight 0
  [1]
  $ cat proof
  fh-panel 1
  budget 4
  lines 2
  records 2
  budget KC 3
  nolast
  end

A weight of 5 for what is told now does not buy a change of what was told then, of weight 1. `C` gives up last_Staff: the pin is substituted
into both rules (1 + 2), which leaves `-Staff + 20 >= 0` and `Staff - 5 >= 0`. `CK` is closed by the first, 20 - 50. Then `KC` comes: 3 + 3 + 1 + 2 = 9.

  $ sed -i -e '2c\number Staff weight 5' rules
  $ sed -i -e '3d' records
  $ forxainde panel --rules rules --records records --last last --released released --reasons reasons --proof proof --key id --budget 9
  records 1 clean 0 changed 1 unresolved 0 weight 5
  $ cat released
  id,Staff
  7,5
  $ cat proof
  fh-panel 1
  budget 9
  lines 2
  records 1
  change 5 KC 4
  line KK 1
  given 1
  bound KC
  line CK 3
  given 3
  given 1
  combine 1 -2 2 1 1
  bound CC
  end

A staff of at least 30 that may at most double contradicts the 10 of the last period. With 25 in its place the record would be right; but what was
told then stays, so there is no correction. Lines 1 and 2 are the rules, line 3 is the pin. Each leaf derives what it needs: `KC` says that
last_Staff is at least 15, and `CK`, where the pin is substituted into line 1, that Staff is at most 20. The work is 3, 2 for `KC`, 2 for `C`, 1 and 2.

  $ cat >rules <<EOF
  > number last_Staff
  > number Staff
  > Staff <= 2 last_Staff
  > Staff >= 30
  > EOF
  $ cat >records <<EOF
  > id,Staff
  > 7,50
  > EOF
  $ forxainde panel --rules rules --records records --last last --released released --reasons reasons --proof proof --key id --budget 10
  records 1 clean 0 changed 0 unresolved 1 weight 0
  [1]
  $ cat reasons
  record,cause,field,before,after,donor,detail
  1,nocorrection,,,,,
  $ cat proof
  fh-panel 1
  budget 10
  lines 2
  records 1
  contradictory 4
  line KK 1
  given 1
  line KC 3
  given 2
  given 1
  combine 1 1 2 1 2
  line CK 3
  given 3
  given 1
  combine 1 -2 2 1 1
  line CC 5
  given 2
  given 3
  given 1
  combine 2 -2 3 1 1
  combine 1 1 4 1 10
  end
  $ forxainde panel --rules rules --records records --last last --released released --reasons reasons --proof proof --key id --budget 9
  records 1 clean 0 changed 0 unresolved 1 weight 0
  [1]
  $ cat reasons
  record,cause,field,before,after,donor,detail
  1,budget,,,,,path CC work 8

Keys are texts without the blanks at their ends: `7  ` and ` 7 ` are the key 7, but 8 is not 08, nor X the key x. A key may be empty. One that
several rows of the last period have is nobody's, also where they say the same; of the records several may have one key. Both files have
further columns, in an order of their own: a column last_Staff of the records is one of them. Firm 7 had 10, 08 had 30, the one without a key
12. All that is not changed has its bytes; the one wrong record, 20.5 after 10, is worked as above.

  $ cat >rules <<EOF
  > number last_Staff
  > number Staff
  > Staff <= 2 last_Staff
  > 2 Staff >= last_Staff
  > EOF
  $ cat >last <<EOF
  > Staff, id ,Town
  > 10, 7 ,"a, b"
  > 30.0,08,
  > 12,,
  > 40,9,
  > 40,9 ,
  > 20,x,
  > EOF
  $ cat >records <<EOF
  > id,Staff,last_Staff,"the ""note"""
  > 7  , 18 ,1,"a, b"
  > 8,30,,
  > 08,030,,
  > ,24,,
  > 9,40,,
  > X,20,,
  > 7,20.5,,
  > EOF
  $ forxainde panel --rules rules --records records --last last --released released --reasons reasons --proof proof --key id
  records 7 clean 3 changed 1 unresolved 3 weight 1
  [1]
  $ cat released
  id,Staff,last_Staff,"the ""note"""
  7  , 18 ,1,"a, b"
  08,030,,
  ,24,,
  7,5,,
  $ cat reasons
  record,cause,field,before,after,donor,detail
  2,nolast,,,,,
  5,nolast,,,,,
  6,nolast,,,,,
  7,changed,Staff,20.5,5,,nearest
  $ cat proof
  fh-panel 1
  budget 1000000
  lines 2
  records 7
  clean
  nolast
  clean
  clean
  nolast
  nolast
  change 1 KC 3
  line KK 1
  given 1
  bound KC
  bound C
  end

The key may be a column of any name, also one without a name, and a field of the rules; its own name is compared as it stands.

  $ cat >last <<EOF
  > ,Staff
  > 7,10
  > EOF
  $ cat >records <<EOF
  >  ,Staff
  > 10,5
  > 7,10
  > EOF
  $ forxainde panel --rules rules --records records --last last --released released --reasons reasons --proof proof --key ''
  records 2 clean 1 changed 0 unresolved 1 weight 0
  [1]
  $ forxainde panel --rules rules --records records --last last --released released --reasons reasons --proof proof --key Staff
  records 2 clean 1 changed 0 unresolved 1 weight 0
  [1]
  $ cat released
   ,Staff
  7,10
  $ forxainde panel --rules rules --records records --last last --released released --reasons reasons --proof proof --key ' '
  fault: records kind 17 NoKey
  [4]

A file of the last period without rows, and records without rows. A clean record needs a budget of one more than there are fields.

  $ cat >last <<EOF
  > id,Staff
  > EOF
  $ cat >records <<EOF
  > id,Staff
  > 7,10
  > EOF
  $ forxainde panel --rules rules --records records --last last --released released --reasons reasons --proof proof --key id
  records 1 clean 0 changed 0 unresolved 1 weight 0
  [1]
  $ cat reasons
  record,cause,field,before,after,donor,detail
  1,nolast,,,,,
  $ sed -i -e '1a\7,10' last
  $ forxainde panel --rules rules --records records --last last --released released --reasons reasons --proof proof --key id --budget 3
  records 1 clean 1 changed 0 unresolved 0 weight 0
  $ forxainde panel --rules rules --records records --last last --released released --reasons reasons --proof proof --key id --budget 2
  records 1 clean 0 changed 0 unresolved 1 weight 0
  [1]
  $ cat reasons
  record,cause,field,before,after,donor,detail
  1,budget,,,,,path KK work 2
  $ sed -i -e '2d' records
  $ forxainde panel --rules rules --records records --last last --released released --reasons reasons --proof proof --key id
  records 0 clean 0 changed 0 unresolved 0 weight 0
  $ cat released
  id,Staff
  $ cat proof
  fh-panel 1
  budget 1000000
  lines 2
  records 0
  end

A last field without a value: a text that is no numeral, no code, or nothing, also where no rule has the field. Nothing is searched then.

  $ cat >rules <<EOF
  > number last_A
  > number last_B
  > code last_C in {x, y}
  > number A
  > A >= last_A
  > EOF
  $ cat >last <<EOF
  > id,A,B,C
  > 1,5,6,x
  > 2,,6,x
  > 3,5,1e3,x
  > 4,5,6,X
  > EOF
  $ cat >records <<EOF
  > id,A
  > 1,
  > 2,7
  > 3,7
  > 4,
  > EOF
  $ forxainde panel --rules rules --records records --last last --released released --reasons reasons --proof proof --key id
  records 4 clean 0 changed 1 unresolved 3 weight 1
  [1]
  $ cat released
  id,A
  1,5
  $ cat reasons
  record,cause,field,before,after,donor,detail
  1,changed,A,,5,,nearest
  2,nolast,,,,,
  3,nolast,,,,,
  4,nolast,,,,,

Codes: who was married is not single now. Of the lines, 1 is the rule, with the box married or widowed and now single, and 2 the pin of married,
with the box single or widowed. `K` fixes last_Status at married, which leaves now single; `KK` fixes that, and the box is whole. `KC` meets
single with one box and nothing with the other codes: 1 + 1 + 1 + 2 = 5. Married is the first code that is left.

  $ cat >rules <<EOF
  > code last_Status in {single, married, widowed}
  > code Status in {single, married, widowed}
  > if last_Status in {married, widowed} then Status not in {single}
  > EOF
  $ cat >last <<EOF
  > id,Status
  > 7,married
  > 8,single
  > EOF
  $ cat >records <<EOF
  > id,Status
  > 7,single
  > 8,single
  > 8,
  > EOF
  $ forxainde panel --rules rules --records records --last last --released released --reasons reasons --proof proof --key id --budget 5
  records 3 clean 1 changed 2 unresolved 0 weight 2
  $ cat released
  id,Status
  7,married
  8,single
  8,single
  $ cat reasons
  record,cause,field,before,after,donor,detail
  1,changed,Status,single,married,,nearest
  3,changed,Status,,single,,default
  $ cat proof
  fh-panel 1
  budget 5
  lines 1
  records 3
  change 1 KC 3
  box KK 4
  given 1
  fail 1
  fix 1 2
  fix 2 3
  bound KC
  bound C
  clean
  change 1 KC 3
  bad KK
  bound KC
  bound C
  end

A last field with one code has no pin: line 2 is the pin of last_Kind, with the box of all but y. Line 1 is the rule, with the box of y. There is no
other field, so nothing can be corrected. `KK` fixes last_Kind at y; `KC` and `CC` meet x with line 2's box and y with line 1's, in 2 pairs each;
`C` gives up last_Land, at which both boxes are whole. In all 1, 1, 1, 3, 1, 1, 3: 11. A code that is not the one code is no value.

  $ cat >rules <<EOF
  > code last_Land in {nl}
  > code last_Kind in {x, y}
  > last_Kind in {x}
  > EOF
  $ cat >last <<EOF
  > id,Land,Kind
  > 1,nl,x
  > 2,nl,y
  > 3,be,x
  > EOF
  $ cat >records <<EOF
  > id
  > 1
  > 2
  > 3
  > EOF
  $ forxainde panel --rules rules --records records --last last --released released --reasons reasons --proof proof --key id --budget 11
  records 3 clean 1 changed 0 unresolved 2 weight 0
  [1]
  $ cat released
  id
  1
  $ cat reasons
  record,cause,field,before,after,donor,detail
  2,nocorrection,,,,,
  3,nolast,,,,,
  $ cat proof
  fh-panel 1
  budget 11
  lines 1
  records 3
  clean
  contradictory 4
  box KK 3
  given 1
  fail 1
  fix 2 2
  box KC 5
  given 2
  fail 1
  given 1
  fail 3
  cover 2 2 4
  box CK 3
  given 1
  fail 1
  fix 2 2
  box CC 5
  given 2
  fail 1
  given 1
  fail 3
  cover 2 2 4
  nolast
  end

No last field at all: no record lacks its last values, though the key stands in both files, and each is corrected as without a donor. Without
any field all records are clean.

  $ cat >rules <<EOF
  > number A
  > number B
  > A + B = 10
  > EOF
  $ cat >last <<EOF
  > id
  > EOF
  $ cat >records <<EOF
  > id,A,B
  > 1,3,4
  > EOF
  $ forxainde panel --rules rules --records records --last last --released released --reasons reasons --proof proof --key id --budget 4
  records 1 clean 0 changed 1 unresolved 0 weight 1
  $ cat released
  id,A,B
  1,3,7
  $ cat >rules <<EOF
  > EOF
  $ forxainde panel --rules rules --records records --last last --released released --reasons reasons --proof proof --key id --budget 1
  records 1 clean 1 changed 0 unresolved 0 weight 0
  $ cat proof
  fh-panel 1
  budget 1
  lines 0
  records 1
  clean
  end

Only what is a name behind `last_` makes a last field: nothing is none, nor is what begins with a digit, or a word of the language. last_last_A
is one, in the column last_A; where it is 6, no correction leaves it alone.

  $ cat >rules <<EOF
  > number last_last_A
  > number last_
  > number last_1
  > number last_number
  > number Last_B
  > last_ = 1
  > last_1 = 2
  > last_number = 3
  > Last_B = 4
  > last_last_A = 5
  > EOF
  $ cat >last <<EOF
  > id,last_A
  > 7,5
  > 8,6
  > EOF
  $ cat >records <<EOF
  > id,last_,last_1,last_number,Last_B
  > 7,,2,,5
  > 8,1,2,3,4
  > EOF
  $ forxainde panel --rules rules --records records --last last --released released --reasons reasons --proof proof --key id
  records 2 clean 0 changed 1 unresolved 1 weight 3
  [1]
  $ cat released
  id,last_,last_1,last_number,Last_B
  7,1,2,3,4
  $ cat reasons
  record,cause,field,before,after,donor,detail
  1,changed,last_,,1,,nearest
  1,changed,last_number,,3,,nearest
  1,changed,Last_B,5,4,,nearest
  2,nocorrection,,,,,

A fraction of the last period: the pin, line 2, is `3 last_Rate - 2 = 0`, and half as much again is 1. It costs a weight of 3, and not the 1 of
last_Rate: `C` substitutes line 1, an equality itself, into the pin, which leaves `Rate - 1 = 0`.

  $ cat >rules <<EOF
  > number last_Rate
  > number Rate weight 3
  > 2 Rate = 3 last_Rate
  > EOF
  $ cat >last <<EOF
  > id,Rate
  > 7,4/6
  > EOF
  $ cat >records <<EOF
  > id,Rate
  > 7,0.5
  > EOF
  $ forxainde panel --rules rules --records records --last last --released released --reasons reasons --proof proof --key id
  records 1 clean 0 changed 1 unresolved 0 weight 3
  $ cat released
  id,Rate
  7,1
  $ cat proof
  fh-panel 1
  budget 1000000
  lines 1
  records 1
  change 3 KC 4
  line KK 1
  given 1
  bound KC
  line CK 3
  given 1
  given 2
  combine 1 1 2 1 2
  bound CC
  end

Numbers past 128 bits. Of five rules that chain six fields x1 is known from the last period and x6 from this one: the fourth elimination needs
999999999^5, where the last rule is line 1 of what is left, the pin line 2 and what came of the others line 3.

  $ cat >rules <<EOF
  > number last_x1
  > number x2
  > number x3
  > number x4
  > number x5
  > number x6
  > 999999999 last_x1 >= 1000000000 x2
  > 999999999 x2 >= 1000000000 x3
  > 999999999 x3 >= 1000000000 x4
  > 999999999 x4 >= 1000000000 x5
  > 999999999 x5 >= 1000000000 x6
  > EOF
  $ cat >last <<EOF
  > id,x1
  > 7,1000
  > EOF
  $ cat >records <<EOF
  > id,x2,x3,x4,x5,x6
  > 7,,,,,0
  > EOF
  $ forxainde panel --rules rules --records records --last last --released released --reasons reasons --proof proof --key id
  records 1 clean 0 changed 0 unresolved 1 weight 0
  [1]
  $ cat reasons
  record,cause,field,before,after,donor,detail
  1,overflow,,,,,path KCCCC lines 1 3 at last_x1
  $ cat proof
  fh-panel 1
  budget 1000000
  lines 5
  records 1
  step KCCCC 1 3 1
  end

Without x6 and its rule the change is found, but the bound of x5 needs 1000 times 999999999^4: it is set by line 2, behind the pin.

  $ sed -i -e '6d' -e '11d' rules
  $ sed -i -e '1c\id,x2,x3,x4,x5' -e '2c\7,,,,' records
  $ forxainde panel --rules rules --records records --last last --released released --reasons reasons --proof proof --key id
  records 1 clean 0 changed 0 unresolved 1 weight 0
  [1]
  $ cat released
  id,x2,x3,x4,x5
  $ cat reasons
  record,cause,field,before,after,donor,detail
  1,overflow,,,,,giving x5 line 2
  $ cat proof
  fh-panel 1
  budget 1000000
  lines 4
  records 1
  gift 4 KCCCC 5 2 9
  bad KK
  bad KCK
  bad KCCK
  bad KCCCK
  bound KCCCC
  bad CK
  bad CCK
  bad CCCK
  bound CCCC
  end

Sums at the record as it is. The denominators are three primes: in the first rule the sum leaves 128 bits at its third field. The second, of which
the line is divided by 1000000000, does so only where it is tried itself, at the end.

  $ cat >rules <<EOF
  > number last_A
  > number B
  > number C
  > 1000000000 last_A + 999999999 B + 999999998 C >= 0
  > EOF
  $ cat >last <<EOF
  > id,A
  > 7,999999999999999999999/999983
  > EOF
  $ cat >records <<EOF
  > id,B,C
  > 7,999999999999999999999/999979,999999999999999999999/999961
  > EOF
  $ forxainde panel --rules rules --records records --last last --released released --reasons reasons --proof proof --key id
  records 1 clean 0 changed 0 unresolved 1 weight 0
  [1]
  $ cat reasons
  record,cause,field,before,after,donor,detail
  1,overflow,,,,,path KKK line 1 at C
  $ cat proof
  fh-panel 1
  budget 1000000
  lines 1
  records 1
  test KKK 1 3
  end
  $ sed -i -e '4c\1000000000 last_A + 1000000000 B + 1000000000 C >= 0' rules
  $ forxainde panel --rules rules --records records --last last --released released --reasons reasons --proof proof --key id
  records 1 clean 0 changed 0 unresolved 1 weight 0
  [1]
  $ cat reasons
  record,cause,field,before,after,donor,detail
  1,overflow,,,,,giving rule 1
  $ cat proof
  fh-panel 1
  budget 1000000
  lines 1
  records 1
  gift 0 KKK 0 1 1
  bound -
  end

A panel of firms. Baker grows within what the rules allow. Miller's staff of 60 is no more than 12, and at least 3 for a turnover of 300; Smith's turnover
is missing, and at least half of 400; Cooper's firm was a company, and stays one; Clark's turnover and staff are both far past the double. Green had
no staff, which no firm may have now; Fisher was not asked; and of Evans, who did not answer now, nothing is told.

  $ cat >rules <<EOF
  > # A panel of firms: what they tell this year, beside what they told last year, which stays as it is.
  > number last_Turnover
  > number last_Staff
  > number Turnover weight 2
  > number Staff
  > code last_Form in {sole, company}
  > code Form in {sole, company}
  > 
  > Turnover >= 0
  > Staff >= 1
  > Turnover <= 100 Staff
  > # From one year to the next both at most double, and at most halve.
  > Turnover <= 2 last_Turnover
  > 2 Turnover >= last_Turnover
  > Staff <= 2 last_Staff
  > 2 Staff >= last_Staff
  > # A company is none of a sole owner again.
  > if last_Form in {company} then Form in {company}
  > EOF
  $ cat >records <<EOF
  > firm,Turnover,Staff,Form
  > "Baker, J.",450,11,company
  > Miller,300,60,sole
  > Smith,,6,sole
  > Cooper,90,3,sole
  > Clark,900,9,company
  > Green,80,1,sole
  > Fisher,120,5,sole
  > EOF
  $ cat >last <<EOF
  > firm,Staff,Turnover,Form,Region
  > "Baker, J.",10,400,company,north
  > Clark,2,50,company,west
  > Cooper,3,100,company,east
  > Evans,4,100,sole,west
  > Green,0,70,sole,south
  > Miller,6,280,sole,south
  > Smith,5,400,sole,north
  > EOF
  $ forxainde panel --rules rules --records records --last last --released released --reasons reasons --proof proof --key firm
  records 7 clean 1 changed 4 unresolved 2 weight 7
  [1]
  $ cat released
  firm,Turnover,Staff,Form
  "Baker, J.",450,11,company
  Miller,300,3,sole
  Smith,200,6,sole
  Cooper,90,3,company
  Clark,25,1,company
  $ cat reasons
  record,cause,field,before,after,donor,detail
  2,changed,Staff,60,3,,nearest
  3,changed,Turnover,,200,,nearest
  4,changed,Form,sole,company,,nearest
  5,changed,Turnover,900,25,,nearest
  5,changed,Staff,9,1,,nearest
  6,nocorrection,,,,,
  7,nolast,,,,,
