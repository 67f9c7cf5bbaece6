A survey that is made, to try everything on: its rules and its records are stored, and how many records there are is printed.

Without numbers the records follow from 1, and there are 100.

  $ forxainde make --rules rules --records records
  made rows 100
  $ calls
  store rules
  store records
  $ ls
  records
  rules
  $ cat rules
  number Turnover weight 2 scale 1000
  number Goods weight 1 scale 1000
  number Bought weight 1 scale 1000
  number Wages weight 1 scale 1000
  number Social weight 1 scale 1000
  number Other weight 1 scale 1000
  number Costs weight 2 scale 1000
  number Profit weight 1 scale 1000
  number Staff weight 1 scale 1000
  number Full weight 1 scale 1000
  number Part weight 1 scale 1000
  number Invest weight 1 scale 1000
  code Activity weight 1 in {farm, industry, trade, service}
  code Size weight 1 in {micro, small, medium, large}
  code Region weight 1 in {north, south, east, west}
  code Form weight 1 in {sole, company, public}
  Turnover >= 0
  Goods >= 0
  Bought >= 0
  Wages >= 0
  Social >= 0
  Other >= 0
  Costs >= 0
  Staff >= 0
  Full >= 0
  Part >= 0
  Invest >= 0
  Goods + Bought + Wages + Social + Other - Costs = 0
  Turnover - Costs - Profit = 0
  -6 Turnover + 10 Profit <= 0
  5 Turnover + 10 Profit >= 0
  -Staff + Full + Part = 0
  -Wages + Social <= 0
  -2 Turnover + Invest <= 0
  Wages - 5 Full >= 0
  Wages - 100 Staff <= 0
  if Size in {micro} then Staff - 9 <= 0
  if Size in {small} then Staff - 10 >= 0
  if Size in {small} then Staff - 49 <= 0
  if Size in {medium} then Staff - 50 >= 0
  if Size in {medium} then Staff - 249 <= 0
  if Size in {large} then Staff - 250 >= 0
  if Form in {sole} then Size in {micro, small}
  if Activity in {farm} then Form not in {public}
  if Size in {large} then Form not in {sole}
  if Invest - 1000000 > 0 then Size not in {micro}
  $ forxainde edit --rules rules --records records --released released --reasons reasons --proof proof --limit 1000
  records 100 clean 81 changed 19 unresolved 0 weight 23
  claims 19 given 19
  $ rm released reasons proof

The numbers are drawn as `docs/made-survey.md` says. Here no number of the first three records is wrong; in a survey from another
start the first of three has ten times the part-time staff and one more, and the second no full-time staff.

  $ forxainde make --rules rules --records records --rows 3
  made rows 3
  $ cat records
  id,Turnover,Goods,Bought,Wages,Social,Other,Costs,Profit,Staff,Full,Part,Invest,Activity,Size,Region,Form
  1,17359,8700,34,4060,812,295,13901,3458,203,11,192,22,industry,medium,east,company
  2,10043,8120,890,80,16,495,9601,442,4,0,4,5,service,micro,south,sole
  3,11792,8720,121,360,72,468,9741,2051,18,18,0,18,farm,small,south,sole
  $ forxainde make --start=18 --rows=3 --records=records --rules=rules
  made rows 3
  $ cat records
  id,Turnover,Goods,Bought,Wages,Social,Other,Costs,Profit,Staff,Full,Part,Invest,Activity,Size,Region,Form
  1,15479,6440,954,5200,1040,312,13946,1533,260,220,401,32,trade,large,east,company
  2,14724,8360,618,4340,868,445,14631,93,217,,110,31,service,medium,south,company
  3,7700,110,577,4620,924,234,6465,1235,231,198,33,6,service,medium,east,company

The start is any number of 32 bits, and there are 1 to 200,000 records. (200,000 are not made here, since that takes a while.)

  $ forxainde make --rules rules --records records --start 0 --rows 1
  made rows 1
  $ cat records
  id,Turnover,Goods,Bought,Wages,Social,Other,Costs,Profit,Staff,Full,Part,Invest,Activity,Size,Region,Form
  1,13300,2360,125,8480,1696,391,13052,248,424,62,362,15,farm,large,west,company
  $ forxainde make --rules rules --records records --start 4294967295 --rows 0000000001
  made rows 1
  $ cat records
  id,Turnover,Goods,Bought,Wages,Social,Other,Costs,Profit,Staff,Full,Part,Invest,Activity,Size,Region,Form
  1,12177,2510,270,5720,1144,459,10103,2074,286,78,208,0,service,large,north,company
  $ rm rules records
  $ forxainde make --rules rules --records records --start 4294967296
  fault: usage
  [2]
  $ forxainde make --rules rules --records records --start -1
  fault: usage
  [2]
  $ forxainde make --rules rules --records records --start=-1
  fault: usage
  [2]
  $ forxainde make --rules rules --records records --start ''
  fault: usage
  [2]
  $ forxainde make --rules rules --records records --rows 200001
  fault: usage
  [2]
  $ forxainde make --rules rules --records records --rows 0
  fault: usage
  [2]
  $ forxainde make --rules rules --records records --rows +3
  fault: usage
  [2]
  $ forxainde make --rules rules --records records --rows 3 --rows 3
  fault: usage
  [2]
  $ forxainde make --rules rules --records records --limit 3
  fault: usage
  [2]
  $ calls

Both files are named, and differ.

  $ forxainde make
  fault: usage
  [2]
  $ forxainde make --rules rules
  fault: usage
  [2]
  $ forxainde make --records records
  fault: usage
  [2]
  $ forxainde make --rules rules --records rules
  fault: usage
  [2]
  $ forxainde make --rules rules --records=rules --rows 3
  fault: usage
  [2]
  $ forxainde make --rules rules --records records --released released
  fault: usage
  [2]
  $ calls
  $ ls

What was there under the two names is written over, and nothing else is touched.

  $ cat >rules <<EOF
  > old
  > EOF
  $ cat >records <<EOF
  > old
  > EOF
  $ cat >others <<EOF
  > old
  > EOF
  $ forxainde make --rules rules --records records --rows 1
  made rows 1
  $ cat records
  id,Turnover,Goods,Bought,Wages,Social,Other,Costs,Profit,Staff,Full,Part,Invest,Activity,Size,Region,Form
  1,17359,8700,34,4060,812,295,13901,3458,203,11,192,22,industry,medium,east,company
  $ cat others
  old
  $ rm rules records others

A store that fails is the status 6. Where the rules can't be stored, the records are not tried.

  $ fail call 1 keep 0
  $ forxainde make --rules rules --records records --rows 3
  fault: write rules
  [6]
  $ calls
  store rules failed
  $ ls
  rules
  $ cat rules
  $ fail call 1 keep 3
  $ forxainde make --rules rules --records records --rows 3
  fault: write rules
  [6]
  $ ls
  rules
  $ cat rules
  num (no-eol)
  $ fail call 1 keep 1000
  $ forxainde make --rules rules --records records --rows 3
  fault: write rules
  [6]
  $ ls
  rules
  $ cat rules
  number Turnover weight 2 scale 1000
  number Goods weight 1 scale 1000
  number Bought weight 1 scale 1000
  number Wages weight 1 scale 1000
  number Social weight 1 scale 1000
  number Other weight 1 scale 1000
  number Costs weight 2 scale 1000
  number Profit weight 1 scale 1000
  number Staff weight 1 scale 1000
  number Full weight 1 scale 1000
  number Part weight 1 scale 1000
  number Invest weight 1 scale 1000
  code Activity weight 1 in {farm, industry, trade, service}
  code Size weight 1 in {micro, small, medium, large}
  code Region weight 1 in {north, south, east, west}
  code Form weight 1 in {sole, company, public}
  Turnover >= 0
  Goods >= 0
  Bought >= 0
  Wages >= 0
  Social >= 0
  Other >= 0
  Costs >= 0
  Staff >= 0
  Full >= 0
  Part >= 0
  Invest >= 0
  Goods + Bought + Wages + Social + Other - Costs = 0
  Turnover - Costs - Profit = 0
  -6 Turnover + 10 Profit <= 0
  5 Turnover + 10 Profit >= 0
  -Staff + Full + Part = 0
  -Wages + Social <= 0
  -2 Turnover + Invest <= 0
  Wages - 5 Full >= 0
  Wages - 100 Staff <= 0
  if Size in { (no-eol)
  $ cat >records <<EOF
  > old
  > EOF
  $ fail call 1 keep 3
  $ forxainde make --rules rules --records records --rows 3
  fault: write rules
  [6]
  $ cat records
  old
  $ rm rules records

Where the records can't be stored, the rules are, whole. Of what is kept there may be more than the records have.

  $ fail call 2 keep 0
  $ forxainde make --rules rules --records records --rows 3
  fault: write records
  [6]
  $ calls
  store rules
  store records failed
  $ ls
  records
  rules
  $ cat records
  $ cat rules
  number Turnover weight 2 scale 1000
  number Goods weight 1 scale 1000
  number Bought weight 1 scale 1000
  number Wages weight 1 scale 1000
  number Social weight 1 scale 1000
  number Other weight 1 scale 1000
  number Costs weight 2 scale 1000
  number Profit weight 1 scale 1000
  number Staff weight 1 scale 1000
  number Full weight 1 scale 1000
  number Part weight 1 scale 1000
  number Invest weight 1 scale 1000
  code Activity weight 1 in {farm, industry, trade, service}
  code Size weight 1 in {micro, small, medium, large}
  code Region weight 1 in {north, south, east, west}
  code Form weight 1 in {sole, company, public}
  Turnover >= 0
  Goods >= 0
  Bought >= 0
  Wages >= 0
  Social >= 0
  Other >= 0
  Costs >= 0
  Staff >= 0
  Full >= 0
  Part >= 0
  Invest >= 0
  Goods + Bought + Wages + Social + Other - Costs = 0
  Turnover - Costs - Profit = 0
  -6 Turnover + 10 Profit <= 0
  5 Turnover + 10 Profit >= 0
  -Staff + Full + Part = 0
  -Wages + Social <= 0
  -2 Turnover + Invest <= 0
  Wages - 5 Full >= 0
  Wages - 100 Staff <= 0
  if Size in {micro} then Staff - 9 <= 0
  if Size in {small} then Staff - 10 >= 0
  if Size in {small} then Staff - 49 <= 0
  if Size in {medium} then Staff - 50 >= 0
  if Size in {medium} then Staff - 249 <= 0
  if Size in {large} then Staff - 250 >= 0
  if Form in {sole} then Size in {micro, small}
  if Activity in {farm} then Form not in {public}
  if Size in {large} then Form not in {sole}
  if Invest - 1000000 > 0 then Size not in {micro}
  $ fail call 2 keep 3
  $ forxainde make --rules rules --records records --rows 3
  fault: write records
  [6]
  $ cat records
  id, (no-eol)
  $ fail call 2 keep 1000
  $ forxainde make --rules rules --records records --rows 3
  fault: write records
  [6]
  $ cat records
  id,Turnover,Goods,Bought,Wages,Social,Other,Costs,Profit,Staff,Full,Part,Invest,Activity,Size,Region,Form
  1,17359,8700,34,4060,812,295,13901,3458,203,11,192,22,industry,medium,east,company
  2,10043,8120,890,80,16,495,9601,442,4,0,4,5,service,micro,south,sole
  3,11792,8720,121,360,72,468,9741,2051,18,18,0,18,farm,small,south,sole
  $ rm rules records

A line that can't be printed is the status 6 too, and both files are stored. A refusal keeps its status.

  $ fail line 1
  $ forxainde make --rules rules --records records --rows 3
  [6]
  $ calls
  store rules
  store records
  $ cat records
  id,Turnover,Goods,Bought,Wages,Social,Other,Costs,Profit,Staff,Full,Part,Invest,Activity,Size,Region,Form
  1,17359,8700,34,4060,812,295,13901,3458,203,11,192,22,industry,medium,east,company
  2,10043,8120,890,80,16,495,9601,442,4,0,4,5,service,micro,south,sole
  3,11792,8720,121,360,72,468,9741,2051,18,18,0,18,farm,small,south,sole
  $ fail line 1
  $ forxainde make --rules rules --records records --rows 0
  [2]
  $ fail call 2 keep 3
  $ fail line 1
  $ forxainde make --rules rules --records records --rows 3
  [6]
  $ cat records
  id, (no-eol)
  $ rm rules records
