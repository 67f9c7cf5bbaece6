A page that shows what an edit changed. What is printed counts the records that were clean, changed and left out. The page itself is
compared with counts over its files outside the gate; here it is seen that it is stored, that it is the same each time, when it is
refused, and how it counts numbers that a record file could not hold.

Turnover, Costs and Profit: the first record is right, the second gets the Profit of the first, the others have no donor.

  $ cat >rules <<EOF
  > number Turnover weight 2
  > number Costs
  > number Profit
  > Turnover >= 0
  > Costs >= 0
  > Turnover - Costs - Profit = 0
  > 10 Profit <= 6 Turnover
  > EOF
  $ cat >records <<EOF
  > Turnover,Costs,Profit
  > 100,60,40
  > 100,60,400
  > 100,30,70
  > 100,,
  > EOF
  $ forxainde edit --rules rules --records records --released released --reasons reasons --proof proof
  records 4 clean 1 changed 3 unresolved 0 weight 5
  claims 3 given 1
  $ forxainde page --rules rules --records records --released released --reasons reasons --page page
  page records 4 clean 1 changed 3 left out 0
  $ calls
  fetch rules
  fetch records
  fetch released
  fetch reasons
  store page
  $ ls
  page
  proof
  reasons
  records
  released
  rules

A file of no records, and rules of no fields.

  $ cat >none <<EOF
  > Turnover,Costs,Profit
  > EOF
  $ cat >said <<EOF
  > record,cause,field,before,after,donor,detail
  > EOF
  $ forxainde page --rules rules --records none --released none.released --reasons said --page page
  fault: read none.released
  [5]
  $ calls
  fetch rules
  fetch none
  fetch none.released failed
  $ cp none none.released
  $ forxainde page --rules rules --records none --released none.released --reasons said --page page
  page records 0 clean 0 changed 0 left out 0
  $ cat >empty <<EOF
  > EOF
  $ cat >some <<EOF
  > Name
  > Baker
  > EOF
  $ cp some some.released
  $ forxainde page --rules empty --records some --released some.released --reasons said --page page
  page records 1 clean 1 changed 0 left out 0

A new number of 16 digits is a value of the released record, though no record file spells it so. The 11 bins are 10^14 wide: with
half of that, 21 would be needed.

  $ cat >great <<EOF
  > number A
  > A >= 1000000000000000
  > EOF
  $ cat >five <<EOF
  > A
  > 5
  > EOF
  $ forxainde edit --rules great --records five --released great.released --reasons great.reasons --proof great.proof
  records 1 clean 0 changed 1 unresolved 0 weight 1
  claims 1 given 0
  $ cat great.released
  A
  1000000000000000
  $ forxainde check --rules great --records five --released great.released --proof great.proof
  valid records 1 released 1
  $ forxainde page --rules great --records five --released great.released --reasons great.reasons --page great.page
  page records 1 clean 0 changed 1 left out 0
  $ grep -oF '<tr><th scope="row">sum</th><td>5</td><td>1000000000000000</td></tr>' great.page
  <tr><th scope="row">sum</th><td>5</td><td>1000000000000000</td></tr>
  $ grep -oF '<tr><th scope="row">no value</th><td class="number">0</td><td class="number">0</td></tr>' great.page
  <tr><th scope="row">no value</th><td class="number">0</td><td class="number">0</td></tr>
  $ grep -oF '<tr><th scope="row">in no bin</th><td class="number">0</td><td class="number">0</td></tr>' great.page
  <tr><th scope="row">in no bin</th><td class="number">0</td><td class="number">0</td></tr>
  $ grep -oF '<tr><th scope="row">0</th><td class="number">1</td><td class="number">0</td></tr>' great.page
  <tr><th scope="row">0</th><td class="number">1</td><td class="number">0</td></tr>
  $ grep -oF '<tr><th scope="row">1000000000000000</th><td class="number">0</td><td class="number">1</td></tr>' great.page
  <tr><th scope="row">1000000000000000</th><td class="number">0</td><td class="number">1</td></tr>

The same digits behind a zero are no printed number, and as ever no numeral. Before, no text is a number but a numeral: the 16 digits are a
value after, and none before.

  $ cp great.released zero.released
  $ sed -i -e '2c\01000000000000000' zero.released
  $ forxainde page --rules great --records five --released zero.released --reasons great.reasons --page zero.page
  page records 1 clean 0 changed 1 left out 0
  $ grep -oF '<tr><th scope="row">sum</th><td>5</td><td>0</td></tr>' zero.page
  <tr><th scope="row">sum</th><td>5</td><td>0</td></tr>
  $ grep -oF '<tr><th scope="row">no value</th><td class="number">0</td><td class="number">1</td></tr>' zero.page
  <tr><th scope="row">no value</th><td class="number">0</td><td class="number">1</td></tr>
  $ cp great.released digits
  $ forxainde page --rules great --records digits --released great.released --reasons great.reasons --page same.page
  page records 1 clean 0 changed 1 left out 0
  $ grep -oF '<tr><th scope="row">sum</th><td>0</td><td>1000000000000000</td></tr>' same.page
  <tr><th scope="row">sum</th><td>0</td><td>1000000000000000</td></tr>
  $ grep -oF '<tr><th scope="row">no value</th><td class="number">1</td><td class="number">0</td></tr>' same.page
  <tr><th scope="row">no value</th><td class="number">1</td><td class="number">0</td></tr>
  $ rm digits great great.page great.proof great.reasons great.released five same.page zero.page zero.released

So is a new fraction with a denominator above 1,000,000. The 9 bins are 0.5 wide: with 0.2, 21 would be needed.

  $ cat >parts <<EOF
  > number A
  > 1000003 A = 1
  > EOF
  $ cat >wholes <<EOF
  > A
  > 0
  > 4
  > EOF
  $ forxainde edit --rules parts --records wholes --released parts.released --reasons parts.reasons --proof parts.proof
  records 2 clean 0 changed 2 unresolved 0 weight 2
  claims 2 given 0
  $ cat parts.released
  A
  1/1000003
  1/1000003
  $ forxainde page --rules parts --records wholes --released parts.released --reasons parts.reasons --page parts.page
  page records 2 clean 0 changed 2 left out 0
  $ grep -oF '<tr><th scope="row">sum</th><td>4</td><td>2/1000003</td></tr>' parts.page
  <tr><th scope="row">sum</th><td>4</td><td>2/1000003</td></tr>
  $ grep -oF '<tr><th scope="row">no value</th><td class="number">0</td><td class="number">0</td></tr>' parts.page
  <tr><th scope="row">no value</th><td class="number">0</td><td class="number">0</td></tr>
  $ grep -oF '<tr><th scope="row">0</th><td class="number">1</td><td class="number">2</td></tr>' parts.page
  <tr><th scope="row">0</th><td class="number">1</td><td class="number">2</td></tr>
  $ grep -oF '<tr><th scope="row">4</th><td class="number">1</td><td class="number">0</td></tr>' parts.page
  <tr><th scope="row">4</th><td class="number">1</td><td class="number">0</td></tr>
  $ rm parts parts.page parts.proof parts.reasons parts.released wholes

The released file has to have a row for each record that was not left out, and no other.

  $ cat >records <<EOF
  > Turnover,Costs,Profit
  > 100,60,40
  > 200,100,100
  > EOF
  $ cp none short
  $ forxainde page --rules rules --records records --released short --reasons said --page page.new
  fault: released rows 0 of 2
  [9]
  $ calls
  fetch rules
  fetch records
  fetch short
  fetch said
  $ cat >said <<EOF
  > record,cause,field,before,after,donor,detail
  > 2,contradictory,,,,,
  > EOF
  $ forxainde page --rules rules --records records --released short --reasons said --page page.new
  fault: released rows 0 of 1
  [9]
  $ cat >short <<EOF
  > Turnover,Costs,Profit
  > 100,60,40
  > EOF
  $ forxainde page --rules rules --records records --released short --reasons said --page page.new
  page records 2 clean 1 changed 0 left out 1

A released file without a reading is told with the kinds of a record file, before the reasons are fetched.

  $ cat >odd <<EOF
  > Turnover,Costs
  > 100,60
  > EOF
  $ rm page.new
  $ forxainde page --rules rules --records records --released odd --reasons said --page page.new
  fault: released kind 12 NoColumn field Profit
  [9]
  $ calls
  fetch rules
  fetch records
  fetch odd
  $ cat >odd <<EOF
  > Turnover,Costs,Profit
  > 100,60,40
  > 100,60
  > EOF
  $ forxainde page --rules rules --records records --released odd --reasons said --page page.new
  fault: released kind 14 RowLength row 2
  [9]
  $ cat >odd <<EOF
  > EOF
  $ forxainde page --rules rules --records records --released odd --reasons said --page page.new
  fault: released kind 11 NoHeader
  [9]

Reasons without a reading.

  $ cat >odd <<EOF
  > record,cause,field,before,after,donor
  > EOF
  $ forxainde page --rules rules --records records --released short --reasons odd --page page.new
  fault: reasons the header of the reasons file is not record,cause,field,before,after,donor,detail
  [9]
  $ calls
  fetch rules
  fetch records
  fetch short
  fetch odd
  $ cat >odd <<EOF
  > record,cause,field,before,after,donor,detail
  > 2,contradictory,,,,,
  > 3,contradictory,,,,,
  > EOF
  $ forxainde page --rules rules --records records --released short --reasons odd --page page.new
  fault: reasons line 2 behind the header of the reasons file does not have the number of a record
  [9]

The rules and the records are refused as for an edit, the rules first.

  $ cat >odd <<EOF
  > number A
  > A >= B
  > EOF
  $ forxainde page --rules odd --records none.such --released short --reasons said --page page.new
  fault: rules line 2 kind 3 UnknownField
  [3]
  $ calls
  fetch odd
  $ forxainde page --rules rules --records none.such --released short --reasons said --page page.new
  fault: read none.such
  [5]
  $ forxainde page --rules rules --records rules.such --released short --reasons said --page page.new
  fault: read rules.such
  [5]
  $ cat >odd <<EOF
  > Turnover,Costs
  > EOF
  $ forxainde page --rules rules --records odd --released short --reasons said --page page.new
  fault: records kind 12 NoColumn field Profit
  [4]
  $ calls
  fetch rules
  fetch odd
  $ ls
  empty
  none
  none.released
  odd
  page
  proof
  reasons
  records
  released
  rules
  said
  short
  some
  some.released

A call that fails, and a line that cannot be printed. A page that cannot be written is cut off, and every other file is as it was.

  $ fail call 4 keep 0
  $ forxainde page --rules rules --records records --released short --reasons said --page page.new
  fault: read said
  [5]
  $ fail call 5 keep 15
  $ forxainde page --rules rules --records records --released short --reasons said --page page.new
  fault: write page.new
  [6]
  $ cat page.new
  <!DOCTYPE html> (no-eol)
  $ fail line 1
  $ forxainde page --rules rules --records records --released short --reasons said --page page.new
  [6]
  $ calls
  fetch rules
  fetch records
  fetch short
  fetch said
  store page.new

Words that are no page.

  $ forxainde page
  fault: usage
  [2]
  $ calls
  $ forxainde page --rules rules --records records --released short --reasons said
  fault: usage
  [2]
  $ forxainde page --rules rules --records records --released short --reasons said --page said
  fault: usage
  [2]
  $ forxainde page --rules rules --records records --released short --reasons said --page ./short
  fault: usage
  [2]
  $ forxainde page --rules rules --records records --released short --reasons said --page page.new --workers 2
  fault: usage
  [2]
