A business survey of 12 numerical and 4 categorical fields: balances, ratios, size classes and legal forms. What is missing or
wrong in a record is told by its name; each is corrected by the fewest fields.

  $ cat >rules <<EOF
  > number Turnover weight 2 scale 1000
  > number Goods scale 1000
  > number Bought scale 1000
  > number Wages scale 1000
  > number Social scale 1000
  > number Other scale 1000
  > number Costs weight 2 scale 1000
  > number Profit scale 1000
  > number Staff scale 1000
  > number Full scale 1000
  > number Part scale 1000
  > number Invest scale 1000
  > code Activity in {farm, industry, trade, service}
  > code Size in {micro, small, medium, large}
  > code Region in {north, south, east, west}
  > code Form in {sole, company, public}
  > Turnover >= 0
  > Goods >= 0
  > Bought >= 0
  > 0 <= Wages
  > 0 <= Social
  > Other >= 0
  > Costs >= 0
  > Staff >= 0
  > Full >= 0
  > Part >= 0
  > Invest >= 0
  > Goods + Bought + Wages + Social + Other = Costs
  > Turnover - Costs - Profit = 0
  > Full + Part = Staff
  > 10 Profit <= 6 Turnover
  > 10*Profit + 5*Turnover >= 0
  > Social <= Wages
  > Invest <= 2 Turnover
  > Wages >= 5 Full
  > Wages <= 100 Staff
  > if Size in {micro} then Staff <= 9
  > if Size in {small} then Staff >= 10
  > if Size in {small} then Staff <= 49
  > if Size in {medium} then Staff >= 50
  > if Size in {medium} then Staff <= 249
  > if Size not in {micro, small, medium} then Staff >= 250
  > if Form in {sole} then Size in {micro, small}
  > if Activity in {farm} then Form not in {public}
  > if Activity in {farm} and Size in {large} then Staff <= 5000
  > if Invest > 1000000 then Size not in {micro}
  > EOF

Of the 30 lines four follow from others.

  $ forxainde rules --rules rules
  1 dropped Turnover >= 0
    given 13
    given 16
    combine 1 -1 2 1 1
    given 31
    combine 1 1 4 1 1
    combine 3 1 5 1 2
    given 15
    combine 1 -3 7 1 1
    combine 8 1 5 3 5
    combine 6 1 9 1 1
  2 kept needed Goods >= 0
  3 kept needed Bought >= 0
  4 dropped Wages >= 0
    given 5
    given 17
    given 31
    combine 2 1 3 1 1
    combine 1 1 4 1 1
  5 kept needed Social >= 0
  6 kept needed Other >= 0
  7 dropped Costs >= 0
    given 6
    given 5
    given 4
    given 3
    given 12
    given 2
    combine 5 -1 6 1 1
    combine 4 1 7 1 1
    combine 3 1 8 1 1
    combine 2 1 9 1 1
    combine 1 1 10 1 1
    given 31
    combine 11 1 12 1 1
  8 dropped Staff >= 0
    given 14
    given 4
    given 20
    combine 2 1 3 1 100
    combine 1 1 4 1 1
    given 31
    combine 1 -1 6 1 1
    combine 5 1 7 1 1
  9 kept needed Full >= 0
  10 kept needed Part >= 0
  11 kept needed Invest >= 0
  12 kept equality Goods + Bought + Wages + Social + Other - Costs = 0
  13 kept equality Turnover - Costs - Profit = 0
  14 kept equality -Staff + Full + Part = 0
  15 kept needed 3 Turnover - 5 Profit >= 0
  16 kept needed Turnover + 2 Profit >= 0
  17 kept needed Wages - Social >= 0
  18 kept needed 2 Turnover - Invest >= 0
  19 kept needed Wages - 5 Full >= 0
  20 kept needed -Wages + 100 Staff >= 0
  21 kept needed if Size in {micro} then -Staff + 9 >= 0
  22 kept needed if Size in {small} then Staff - 10 >= 0
  23 kept needed if Size in {small} then -Staff + 49 >= 0
  24 kept needed if Size in {medium} then Staff - 50 >= 0
  25 kept needed if Size in {medium} then -Staff + 249 >= 0
  26 kept needed if Size in {large} then Staff - 250 >= 0
  27 kept needed if Size in {medium, large} and Form in {sole} then never
  28 kept needed if Activity in {farm} and Form in {public} then never
  29 kept needed if Activity in {farm} and Size in {large} then -Staff + 5000 >= 0
  30 kept needed if Size in {micro} then -Invest + 1000000 >= 0
  $ cat >records <<EOF
  > id,name,Turnover,Goods,Bought,Wages,Social,Other,Costs,Profit,Staff,Full,Part,Invest,Activity,Size,Region,Form
  > 1,all rules hold,17359,8700,34,4060,812,295,13901,3458,203,11,192,22,industry,medium,east,company
  > 2,a missing amount,10043,8120,890,,16,495,9601,442,4,0,4,5,service,micro,south,sole
  > 3,a profit ten times too large,11792,8720,121,360,72,468,9741,20511,18,18,0,18,farm,small,south,sole
  > 4,a wrong size class,10181,5890,455,2160,432,172,9109,1072,108,34,74,0,industry,micro,east,company
  > 5,a large firm of one owner,23675,5440,636,12880,2576,294,21826,1849,644,287,357,0,trade,large,west,sole
  > 6,"a code that is none, and blanks around another",5410,3410,151,640,128,55,4384,1026,32,23,9,16, trade ,tiny,west,company
  > 7,a farm that is public,12926,9880,89,760,152,94,10975,1951,38,18,20,5,farm,small,south,public
  > 8,staff that is not the sum of its parts,5124,1310,448,2140,428,42,4368,756,7,63,44,8,service,medium,east,company
  > 9,an investment past all bounds,1402,400,369,280,56,264,1369,33,14,5,9,2000001,trade,small,south,sole
  > 10,two errors that have nothing to do with each other,10591,4480,883,3640,728,49,9780,8110,182,220,160,9,service,medium,north,company
  > 11,a decimal and a fraction,4148.50,970,75.5,1880,376,369,3670.5,478,94,141/2,47/2,8,trade,medium,north,company
  > EOF
  $ forxainde edit --rules rules --records records --released released --reasons reasons --proof proof
  records 11 clean 2 changed 9 unresolved 0 weight 10
  claims 9 given 2
  $ cat released
  id,name,Turnover,Goods,Bought,Wages,Social,Other,Costs,Profit,Staff,Full,Part,Invest,Activity,Size,Region,Form
  1,all rules hold,17359,8700,34,4060,812,295,13901,3458,203,11,192,22,industry,medium,east,company
  2,a missing amount,10043,8120,890,80,16,495,9601,442,4,0,4,5,service,micro,south,sole
  3,a profit ten times too large,11792,8720,121,360,72,468,9741,2051,18,18,0,18,farm,small,south,sole
  4,a wrong size class,10181,5890,455,2160,432,172,9109,1072,108,34,74,0,industry,medium,east,company
  5,a large firm of one owner,23675,5440,636,12880,2576,294,21826,1849,644,287,357,0,trade,large,west,company
  6,"a code that is none, and blanks around another",5410,3410,151,640,128,55,4384,1026,32,23,9,16, trade ,small,west,company
  7,a farm that is public,12926,9880,89,760,152,94,10975,1951,38,18,20,5,farm,small,south,sole
  8,staff that is not the sum of its parts,5124,1310,448,2140,428,42,4368,756,107,63,44,8,service,medium,east,company
  9,an investment past all bounds,1402,400,369,280,56,264,1369,33,14,5,9,0,trade,small,south,sole
  10,two errors that have nothing to do with each other,10591,4480,883,3640,728,49,9780,811,182,22,160,9,service,medium,north,company
  11,a decimal and a fraction,4148.50,970,75.5,1880,376,369,3670.5,478,94,141/2,47/2,8,trade,medium,north,company
  $ cat reasons
  record,cause,field,before,after,donor,detail
  2,changed,Wages,,80,11,nearest
  3,changed,Profit,20511,2051,1,nearest
  4,changed,Size,micro,medium,,nearest
  5,changed,Form,sole,company,,nearest
  6,changed,Size,tiny,small,,nearest
  7,changed,Form,public,sole,,default
  8,changed,Staff,7,107,,nearest
  9,changed,Invest,2000001,0,,default
  10,changed,Profit,8110,811,,nearest
  10,changed,Full,220,22,,nearest
  $ cat proof
  fh-proof 2
  limit 1 near 5 budget 1000000
  lines 30
  drop 10
  given 13
  given 16
  combine 1 -1 2 1 1
  given 31
  combine 1 1 4 1 1
  combine 3 1 5 1 2
  given 15
  combine 1 -3 7 1 1
  combine 8 1 5 3 5
  combine 6 1 9 1 1
  keep
  keep
  drop 5
  given 5
  given 17
  given 31
  combine 2 1 3 1 1
  combine 1 1 4 1 1
  keep
  keep
  drop 13
  given 6
  given 5
  given 4
  given 3
  given 12
  given 2
  combine 5 -1 6 1 1
  combine 4 1 7 1 1
  combine 3 1 8 1 1
  combine 2 1 9 1 1
  combine 1 1 10 1 1
  given 31
  combine 11 1 12 1 1
  drop 8
  given 14
  given 4
  given 20
  combine 2 1 3 1 100
  combine 1 1 4 1 1
  given 31
  combine 1 -1 6 1 1
  combine 5 1 7 1 1
  keep
  keep
  keep
  keep
  keep
  keep
  keep
  keep
  keep
  keep
  keep
  keep
  keep
  keep
  keep
  keep
  keep
  keep
  keep
  keep
  keep
  keep
  table 9
  given 13
  given 21
  given 27
  given 28
  given 20
  given 18
  given 14
  given 10
  combine 7 -1 8 1 1
  records 11
  clean
  change 1 KKKCKKKKKKKKKKKK 17
  bad KKKK
  bound KKKCKKKKKKKKKKKK
  bound KKKCKKKKKKKKKKKC
  bound KKKCKKKKKKKKKKC
  bound KKKCKKKKKKKKKC
  bound KKKCKKKKKKKKC
  bound KKKCKKKKKKKC
  bound KKKCKKKKKKC
  bound KKKCKKKKKC
  bound KKKCKKKKC
  bound KKKCKKKC
  bound KKKCKKC
  bound KKKCKC
  bound KKKCC
  bound KKC
  bound KC
  bound C
  change 1 KKKKKKKCKKKKKKKK 17
  line KKKKKKKK 1
  shared 1
  bound KKKKKKKCKKKKKKKK
  bound KKKKKKKCKKKKKKKC
  bound KKKKKKKCKKKKKKC
  bound KKKKKKKCKKKKKC
  bound KKKKKKKCKKKKC
  bound KKKKKKKCKKKC
  bound KKKKKKKCKKC
  bound KKKKKKKCKC
  bound KKKKKKKCC
  bound KKKKKKC
  bound KKKKKC
  bound KKKKC
  bound KKKC
  bound KKC
  bound KC
  bound C
  change 1 KKKKKKKKKKKKKCKK 17
  box KKKKKKKKKKKKKK 3
  shared 2
  fail 1
  fix 14 2
  bound KKKKKKKKKKKKKCKK
  bound KKKKKKKKKKKKKCKC
  bound KKKKKKKKKKKKKCC
  bound KKKKKKKKKKKKC
  bound KKKKKKKKKKKC
  bound KKKKKKKKKKC
  bound KKKKKKKKKC
  bound KKKKKKKKC
  bound KKKKKKKC
  bound KKKKKKC
  bound KKKKKC
  bound KKKKC
  bound KKKC
  bound KKC
  bound KC
  bound C
  change 1 KKKKKKKKKKKKKKKC 17
  box KKKKKKKKKKKKKKKK 4
  shared 3
  fail 1
  fix 14 2
  fix 16 3
  bound KKKKKKKKKKKKKKKC
  bound KKKKKKKKKKKKKKC
  bound KKKKKKKKKKKKKC
  bound KKKKKKKKKKKKC
  bound KKKKKKKKKKKC
  bound KKKKKKKKKKC
  bound KKKKKKKKKC
  bound KKKKKKKKC
  bound KKKKKKKC
  bound KKKKKKC
  bound KKKKKC
  bound KKKKC
  bound KKKC
  bound KKC
  bound KC
  bound C
  change 1 KKKKKKKKKKKKKCKK 17
  bad KKKKKKKKKKKKKK
  bound KKKKKKKKKKKKKCKK
  bound KKKKKKKKKKKKKCKC
  bound KKKKKKKKKKKKKCC
  bound KKKKKKKKKKKKC
  bound KKKKKKKKKKKC
  bound KKKKKKKKKKC
  bound KKKKKKKKKC
  bound KKKKKKKKC
  bound KKKKKKKC
  bound KKKKKKC
  bound KKKKKC
  bound KKKKC
  bound KKKC
  bound KKC
  bound KC
  bound C
  change 1 KKKKKKKKKKKKKKKC 17
  box KKKKKKKKKKKKKKKK 4
  shared 4
  fail 1
  fix 13 2
  fix 16 3
  bound KKKKKKKKKKKKKKKC
  bound KKKKKKKKKKKKKKC
  bound KKKKKKKKKKKKKC
  bound KKKKKKKKKKKKC
  bound KKKKKKKKKKKC
  bound KKKKKKKKKKC
  bound KKKKKKKKKC
  bound KKKKKKKKC
  bound KKKKKKKC
  bound KKKKKKC
  bound KKKKKC
  bound KKKKC
  bound KKKC
  bound KKC
  bound KC
  bound C
  change 1 KKKKKKKKCKKKKKKK 17
  line KKKKKKKKK 1
  shared 5
  bound KKKKKKKKCKKKKKKK
  bound KKKKKKKKCKKKKKKC
  bound KKKKKKKKCKKKKKC
  bound KKKKKKKKCKKKKC
  bound KKKKKKKKCKKKC
  bound KKKKKKKKCKKC
  bound KKKKKKKKCKC
  bound KKKKKKKKCC
  bound KKKKKKKC
  bound KKKKKKC
  bound KKKKKC
  bound KKKKC
  bound KKKC
  bound KKC
  bound KC
  bound C
  change 1 KKKKKKKKKKKCKKKK 17
  line KKKKKKKKKKKK 1
  shared 6
  bound KKKKKKKKKKKCKKKK
  bound KKKKKKKKKKKCKKKC
  bound KKKKKKKKKKKCKKC
  bound KKKKKKKKKKKCKC
  bound KKKKKKKKKKKCC
  bound KKKKKKKKKKC
  bound KKKKKKKKKC
  bound KKKKKKKKC
  bound KKKKKKKC
  bound KKKKKKC
  bound KKKKKC
  bound KKKKC
  bound KKKC
  bound KKC
  bound KC
  bound C
  change 2 KKKKKKKCKCKKKKKK 38
  line KKKKKKKK 1
  shared 1
  line KKKKKKKCKKK 1
  shared 7
  line KKKKKKKCKKC 1
  shared 9
  bound KKKKKKKCKCKKKKKK
  bound KKKKKKKCKCKKKKKC
  bound KKKKKKKCKCKKKKC
  bound KKKKKKKCKCKKKC
  bound KKKKKKKCKCKKC
  bound KKKKKKKCKCKC
  bound KKKKKKKCKCC
  bound KKKKKKKCC
  bound KKKKKKC
  line KKKKKCKK 1
  shared 1
  bound KKKKKCKC
  bound KKKKKCC
  line KKKKCKKK 1
  shared 1
  bound KKKKCKKC
  bound KKKKCKC
  bound KKKKCC
  line KKKCKKKK 1
  shared 1
  bound KKKCKKKC
  bound KKKCKKC
  bound KKKCKC
  bound KKKCC
  line KKCKKKKK 1
  shared 1
  bound KKCKKKKC
  bound KKCKKKC
  bound KKCKKC
  bound KKCKC
  bound KKCC
  line KCKKKKKK 1
  shared 1
  bound KCKKKKKC
  bound KCKKKKC
  bound KCKKKC
  bound KCKKC
  bound KCKC
  bound KCC
  bound C
  clean
  claims 9
  claim 2 11 11 1
  claim 3 1 1 11
  claim 4 0 1 11
  claim 5 0 11 1
  claim 6 0 11 1
  claim 7 0 11 1
  claim 8 0 11 1
  claim 9 0 11 1
  claim 10 0 1 11
  end
  $ forxainde check --rules rules --records records --released released --proof proof
  valid records 11 released 11

With a budget of 25 two of the records are not released: the eighth would need one more, and the tenth many more.

  $ forxainde edit --rules rules --records records --released released --reasons reasons --proof proof --budget 25
  records 11 clean 2 changed 7 unresolved 2 weight 7
  claims 7 given 2
  [1]
  $ cat reasons
  record,cause,field,before,after,donor,detail
  2,changed,Wages,,80,11,nearest
  3,changed,Profit,20511,2051,1,nearest
  4,changed,Size,micro,medium,,nearest
  5,changed,Form,sole,company,,nearest
  6,changed,Size,tiny,small,,nearest
  7,changed,Form,public,sole,,default
  8,budget,,,,,path KKKKKKKKCKKKKKKK work 25
  9,changed,Invest,2000001,0,,default
  10,budget,,,,,path KKKC work 25
  $ forxainde check --rules rules --records records --released released --proof proof
  valid records 11 released 9
