What stands behind a call that fails, where files of an earlier run stood under the names: those of the calls before it are the
new ones, whole, the one that failed has the first bytes of the new one, and every later one is as it was.

  $ cat >rules <<EOF
  > number Turnover weight 2
  > number Costs
  > number Profit
  > Turnover >= 0
  > Costs >= 0
  > Turnover - Costs - Profit = 0
  > 10 Profit <= 6 Turnover
  > EOF
  $ cat >records <<EOF
  > Turnover,Costs,Profit
  > 100,60,400
  > EOF
  $ cat >old.proof <<EOF
  > the old proof
  > EOF
  $ cat >old.reasons <<EOF
  > the old reasons
  > EOF
  $ cat >old.released <<EOF
  > the old release
  > EOF

A fetch that fails leaves all three as they were.

  $ cp old.proof proof
  $ cp old.reasons reasons
  $ cp old.released released
  $ fail call 1 keep 0
  $ forxainde edit --rules rules --records records --released released --reasons reasons --proof proof
  fault: read rules
  [5]
  $ fail call 1 keep 3
  $ forxainde edit --rules rules --records records --released released --reasons reasons --proof proof
  fault: read rules
  [5]
  $ fail call 1 keep 1000
  $ forxainde edit --rules rules --records records --released released --reasons reasons --proof proof
  fault: read rules
  [5]
  $ fail call 2 keep 0
  $ forxainde edit --rules rules --records records --released released --reasons reasons --proof proof
  fault: read records
  [5]
  $ fail call 2 keep 3
  $ forxainde edit --rules rules --records records --released released --reasons reasons --proof proof
  fault: read records
  [5]
  $ fail call 2 keep 1000
  $ forxainde edit --rules rules --records records --released released --reasons reasons --proof proof
  fault: read records
  [5]
  $ cat proof
  the old proof
  $ cat reasons
  the old reasons
  $ cat released
  the old release

The store of the proof, which keeps nothing, three bytes, and all it has: it has less than 1,000.

  $ cp old.proof proof
  $ cp old.reasons reasons
  $ cp old.released released
  $ fail call 3 keep 0
  $ forxainde edit --rules rules --records records --released released --reasons reasons --proof proof
  fault: write proof
  [6]
  $ cat proof
  $ cat reasons
  the old reasons
  $ cat released
  the old release
  $ cp old.proof proof
  $ cp old.reasons reasons
  $ cp old.released released
  $ fail call 3 keep 3
  $ forxainde edit --rules rules --records records --released released --reasons reasons --proof proof
  fault: write proof
  [6]
  $ cat proof
  fh- (no-eol)
  $ cat reasons
  the old reasons
  $ cat released
  the old release
  $ cp old.proof proof
  $ cp old.reasons reasons
  $ cp old.released released
  $ fail call 3 keep 1000
  $ forxainde edit --rules rules --records records --released released --reasons reasons --proof proof
  fault: write proof
  [6]
  $ cat proof
  fh-proof 2
  limit 1 near 5 budget 1000000
  lines 4
  keep
  drop 9
  given 3
  given 1
  combine 1 -1 2 1 1
  given 5
  combine 3 1 4 1 1
  given 4
  combine 1 -3 6 1 1
  combine 7 1 4 3 2
  combine 5 1 8 1 1
  keep
  keep
  table 1
  given 3
  records 1
  change 1 KKC 4
  line KKK 1
  shared 1
  bound KKC
  bound KC
  bound C
  claims 1
  claim 1 0
  end
  $ cat reasons
  the old reasons
  $ cat released
  the old release

That of the reasons, behind a whole proof.

  $ cp old.proof proof
  $ cp old.reasons reasons
  $ cp old.released released
  $ fail call 4 keep 0
  $ forxainde edit --rules rules --records records --released released --reasons reasons --proof proof
  fault: write reasons
  [6]
  $ cat proof
  fh-proof 2
  limit 1 near 5 budget 1000000
  lines 4
  keep
  drop 9
  given 3
  given 1
  combine 1 -1 2 1 1
  given 5
  combine 3 1 4 1 1
  given 4
  combine 1 -3 6 1 1
  combine 7 1 4 3 2
  combine 5 1 8 1 1
  keep
  keep
  table 1
  given 3
  records 1
  change 1 KKC 4
  line KKK 1
  shared 1
  bound KKC
  bound KC
  bound C
  claims 1
  claim 1 0
  end
  $ cat reasons
  $ cat released
  the old release
  $ cp old.proof proof
  $ cp old.reasons reasons
  $ cp old.released released
  $ fail call 4 keep 3
  $ forxainde edit --rules rules --records records --released released --reasons reasons --proof proof
  fault: write reasons
  [6]
  $ cat proof
  fh-proof 2
  limit 1 near 5 budget 1000000
  lines 4
  keep
  drop 9
  given 3
  given 1
  combine 1 -1 2 1 1
  given 5
  combine 3 1 4 1 1
  given 4
  combine 1 -3 6 1 1
  combine 7 1 4 3 2
  combine 5 1 8 1 1
  keep
  keep
  table 1
  given 3
  records 1
  change 1 KKC 4
  line KKK 1
  shared 1
  bound KKC
  bound KC
  bound C
  claims 1
  claim 1 0
  end
  $ cat reasons
  rec (no-eol)
  $ cat released
  the old release
  $ cp old.proof proof
  $ cp old.reasons reasons
  $ cp old.released released
  $ fail call 4 keep 1000
  $ forxainde edit --rules rules --records records --released released --reasons reasons --proof proof
  fault: write reasons
  [6]
  $ cat proof
  fh-proof 2
  limit 1 near 5 budget 1000000
  lines 4
  keep
  drop 9
  given 3
  given 1
  combine 1 -1 2 1 1
  given 5
  combine 3 1 4 1 1
  given 4
  combine 1 -3 6 1 1
  combine 7 1 4 3 2
  combine 5 1 8 1 1
  keep
  keep
  table 1
  given 3
  records 1
  change 1 KKC 4
  line KKK 1
  shared 1
  bound KKC
  bound KC
  bound C
  claims 1
  claim 1 0
  end
  $ cat reasons
  record,cause,field,before,after,donor,detail
  1,changed,Profit,400,40,,nearest
  $ cat released
  the old release

That of the released file, behind two whole files. Where it kept all, the files are a valid release; the status is 6 all the same.

  $ cp old.proof proof
  $ cp old.reasons reasons
  $ cp old.released released
  $ fail call 5 keep 0
  $ forxainde edit --rules rules --records records --released released --reasons reasons --proof proof
  fault: write released
  [6]
  $ cat proof
  fh-proof 2
  limit 1 near 5 budget 1000000
  lines 4
  keep
  drop 9
  given 3
  given 1
  combine 1 -1 2 1 1
  given 5
  combine 3 1 4 1 1
  given 4
  combine 1 -3 6 1 1
  combine 7 1 4 3 2
  combine 5 1 8 1 1
  keep
  keep
  table 1
  given 3
  records 1
  change 1 KKC 4
  line KKK 1
  shared 1
  bound KKC
  bound KC
  bound C
  claims 1
  claim 1 0
  end
  $ cat reasons
  record,cause,field,before,after,donor,detail
  1,changed,Profit,400,40,,nearest
  $ cat released
  $ cp old.proof proof
  $ cp old.reasons reasons
  $ cp old.released released
  $ fail call 5 keep 3
  $ forxainde edit --rules rules --records records --released released --reasons reasons --proof proof
  fault: write released
  [6]
  $ cat proof
  fh-proof 2
  limit 1 near 5 budget 1000000
  lines 4
  keep
  drop 9
  given 3
  given 1
  combine 1 -1 2 1 1
  given 5
  combine 3 1 4 1 1
  given 4
  combine 1 -3 6 1 1
  combine 7 1 4 3 2
  combine 5 1 8 1 1
  keep
  keep
  table 1
  given 3
  records 1
  change 1 KKC 4
  line KKK 1
  shared 1
  bound KKC
  bound KC
  bound C
  claims 1
  claim 1 0
  end
  $ cat reasons
  record,cause,field,before,after,donor,detail
  1,changed,Profit,400,40,,nearest
  $ cat released
  Tur (no-eol)
  $ cp old.proof proof
  $ cp old.reasons reasons
  $ cp old.released released
  $ fail call 5 keep 1000
  $ forxainde edit --rules rules --records records --released released --reasons reasons --proof proof
  fault: write released
  [6]
  $ cat proof
  fh-proof 2
  limit 1 near 5 budget 1000000
  lines 4
  keep
  drop 9
  given 3
  given 1
  combine 1 -1 2 1 1
  given 5
  combine 3 1 4 1 1
  given 4
  combine 1 -3 6 1 1
  combine 7 1 4 3 2
  combine 5 1 8 1 1
  keep
  keep
  table 1
  given 3
  records 1
  change 1 KKC 4
  line KKK 1
  shared 1
  bound KKC
  bound KC
  bound C
  claims 1
  claim 1 0
  end
  $ cat reasons
  record,cause,field,before,after,donor,detail
  1,changed,Profit,400,40,,nearest
  $ cat released
  Turnover,Costs,Profit
  100,60,40
  $ forxainde check --rules rules --records records --released released --proof proof
  valid records 1 released 1

A check of these files of which a call fails; no file is changed by it.

  $ fail call 1 keep 0
  $ forxainde check --rules rules --records records --released released --proof proof
  fault: read rules
  [5]
  $ fail call 1 keep 3
  $ forxainde check --rules rules --records records --released released --proof proof
  fault: read rules
  [5]
  $ fail call 1 keep 1000
  $ forxainde check --rules rules --records records --released released --proof proof
  fault: read rules
  [5]
  $ fail call 2 keep 0
  $ forxainde check --rules rules --records records --released released --proof proof
  fault: read records
  [5]
  $ fail call 2 keep 3
  $ forxainde check --rules rules --records records --released released --proof proof
  fault: read records
  [5]
  $ fail call 2 keep 1000
  $ forxainde check --rules rules --records records --released released --proof proof
  fault: read records
  [5]
  $ fail call 3 keep 0
  $ forxainde check --rules rules --records records --released released --proof proof
  fault: read released
  [5]
  $ fail call 3 keep 3
  $ forxainde check --rules rules --records records --released released --proof proof
  fault: read released
  [5]
  $ fail call 3 keep 1000
  $ forxainde check --rules rules --records records --released released --proof proof
  fault: read released
  [5]
  $ fail call 4 keep 0
  $ forxainde check --rules rules --records records --released released --proof proof
  fault: read proof
  [5]
  $ fail call 4 keep 3
  $ forxainde check --rules rules --records records --released released --proof proof
  fault: read proof
  [5]
  $ fail call 4 keep 1000
  $ forxainde check --rules rules --records records --released released --proof proof
  fault: read proof
  [5]
  $ cat rules
  number Turnover weight 2
  number Costs
  number Profit
  Turnover >= 0
  Costs >= 0
  Turnover - Costs - Profit = 0
  10 Profit <= 6 Turnover
  $ cat records
  Turnover,Costs,Profit
  100,60,400
  $ cat proof
  fh-proof 2
  limit 1 near 5 budget 1000000
  lines 4
  keep
  drop 9
  given 3
  given 1
  combine 1 -1 2 1 1
  given 5
  combine 3 1 4 1 1
  given 4
  combine 1 -3 6 1 1
  combine 7 1 4 3 2
  combine 5 1 8 1 1
  keep
  keep
  table 1
  given 3
  records 1
  change 1 KKC 4
  line KKK 1
  shared 1
  bound KKC
  bound KC
  bound C
  claims 1
  claim 1 0
  end
  $ cat reasons
  record,cause,field,before,after,donor,detail
  1,changed,Profit,400,40,,nearest
  $ cat released
  Turnover,Costs,Profit
  100,60,40
  $ fail call 1 keep 3
  $ forxainde rules --rules rules
  fault: read rules
  [5]
  $ cat rules
  number Turnover weight 2
  number Costs
  number Profit
  Turnover >= 0
  Costs >= 0
  Turnover - Costs - Profit = 0
  10 Profit <= 6 Turnover
  $ forxainde check --rules rules --records records --released released --proof proof
  valid records 1 released 1

Files that are longer than what a store keeps of them. The proof of 200 clean records: 74 bytes of it stand before the first
record, and `clean` takes 6.

  $ cat >rules <<EOF
  > number A
  > A >= 0
  > EOF
  $ yes 1,xxxxxxxxxxxxxxxxxxxxxxxxxxxxxxxxxxxxxxxxxxxxxxxxxxxxxxxxxxxxxxxxxxxxxxxxxxxxxxxxxxxxxxxxxxxxxxxxx | head -n 201 >records
  $ sed -i -e '1c\A,note' records
  $ fail call 3 keep 1000
  $ forxainde edit --rules rules --records records --released released --reasons reasons --proof proof
  fault: write proof
  [6]
  $ cat proof
  fh-proof 2
  limit 1 near 5 budget 1000000
  lines 1
  keep
  table 0
  records 200
  clean
  clean
  clean
  clean
  clean
  clean
  clean
  clean
  clean
  clean
  clean
  clean
  clean
  clean
  clean
  clean
  clean
  clean
  clean
  clean
  clean
  clean
  clean
  clean
  clean
  clean
  clean
  clean
  clean
  clean
  clean
  clean
  clean
  clean
  clean
  clean
  clean
  clean
  clean
  clean
  clean
  clean
  clean
  clean
  clean
  clean
  clean
  clean
  clean
  clean
  clean
  clean
  clean
  clean
  clean
  clean
  clean
  clean
  clean
  clean
  clean
  clean
  clean
  clean
  clean
  clean
  clean
  clean
  clean
  clean
  clean
  clean
  clean
  clean
  clean
  clean
  clean
  clean
  clean
  clean
  clean
  clean
  clean
  clean
  clean
  clean
  clean
  clean
  clean
  clean
  clean
  clean
  clean
  clean
  clean
  clean
  clean
  clean
  clean
  clean
  clean
  clean
  clean
  clean
  clean
  clean
  clean
  clean
  clean
  clean
  clean
  clean
  clean
  clean
  clean
  clean
  clean
  clean
  clean
  clean
  clean
  clean
  clean
  clean
  clean
  clean
  clean
  clean
  clean
  clean
  clean
  clean
  clean
  clean
  clean
  clean
  clean
  clean
  clean
  clean
  clean
  clean
  clean
  clean
  clean
  clean
  clean
  clean
  clean
  clean
  clean
  clean
  clean
  clean
  cl (no-eol)
  $ cat reasons
  record,cause,field,before,after,donor,detail
  1,changed,Profit,400,40,,nearest

The released file of 20 of them: 7 bytes are its header, and each record has 100.

  $ yes 1,xxxxxxxxxxxxxxxxxxxxxxxxxxxxxxxxxxxxxxxxxxxxxxxxxxxxxxxxxxxxxxxxxxxxxxxxxxxxxxxxxxxxxxxxxxxxxxxxx | head -n 21 >records
  $ sed -i -e '1c\A,note' records
  $ fail call 5 keep 1000
  $ forxainde edit --rules rules --records records --released released --reasons reasons --proof proof
  fault: write released
  [6]
  $ cat released
  A,note
  1,xxxxxxxxxxxxxxxxxxxxxxxxxxxxxxxxxxxxxxxxxxxxxxxxxxxxxxxxxxxxxxxxxxxxxxxxxxxxxxxxxxxxxxxxxxxxxxxxx
  1,xxxxxxxxxxxxxxxxxxxxxxxxxxxxxxxxxxxxxxxxxxxxxxxxxxxxxxxxxxxxxxxxxxxxxxxxxxxxxxxxxxxxxxxxxxxxxxxxx
  1,xxxxxxxxxxxxxxxxxxxxxxxxxxxxxxxxxxxxxxxxxxxxxxxxxxxxxxxxxxxxxxxxxxxxxxxxxxxxxxxxxxxxxxxxxxxxxxxxx
  1,xxxxxxxxxxxxxxxxxxxxxxxxxxxxxxxxxxxxxxxxxxxxxxxxxxxxxxxxxxxxxxxxxxxxxxxxxxxxxxxxxxxxxxxxxxxxxxxxx
  1,xxxxxxxxxxxxxxxxxxxxxxxxxxxxxxxxxxxxxxxxxxxxxxxxxxxxxxxxxxxxxxxxxxxxxxxxxxxxxxxxxxxxxxxxxxxxxxxxx
  1,xxxxxxxxxxxxxxxxxxxxxxxxxxxxxxxxxxxxxxxxxxxxxxxxxxxxxxxxxxxxxxxxxxxxxxxxxxxxxxxxxxxxxxxxxxxxxxxxx
  1,xxxxxxxxxxxxxxxxxxxxxxxxxxxxxxxxxxxxxxxxxxxxxxxxxxxxxxxxxxxxxxxxxxxxxxxxxxxxxxxxxxxxxxxxxxxxxxxxx
  1,xxxxxxxxxxxxxxxxxxxxxxxxxxxxxxxxxxxxxxxxxxxxxxxxxxxxxxxxxxxxxxxxxxxxxxxxxxxxxxxxxxxxxxxxxxxxxxxxx
  1,xxxxxxxxxxxxxxxxxxxxxxxxxxxxxxxxxxxxxxxxxxxxxxxxxxxxxxxxxxxxxxxxxxxxxxxxxxxxxxxxxxxxxxxxxxxxxxxxx
  1,xxxxxxxxxxxxxxxxxxxxxxxxxxxxxxxxxxxxxxxxxxxxxxxxxxxxxxxxxxxxxxxxxxxxxxxxxxxxxxxxxxxxxxxxxxx (no-eol)

The reasons of 10 records without a number: 45 bytes are their header.

  $ yes xxxxxxxxxxxxxxxxxxxxxxxxxxxxxxxxxxxxxxxxxxxxxxxxxxxxxxxxxxxxxxxxxxxxxxxxxxxxxxxxxxxxxxxxxxxxxxxxxxxxxxxxxxxxxxxxxxxxxxxxxxxxxxxxxxxxxxxxxxxxxxxxxxxxxx | head -n 11 >records
  $ sed -i -e '1c\A' records
  $ rm released
  $ fail call 4 keep 1000
  $ forxainde edit --rules rules --records records --released released --reasons reasons --proof proof
  fault: write reasons
  [6]
  $ cat reasons
  record,cause,field,before,after,donor,detail
  1,changed,A,xxxxxxxxxxxxxxxxxxxxxxxxxxxxxxxxxxxxxxxxxxxxxxxxxxxxxxxxxxxxxxxxxxxxxxxxxxxxxxxxxxxxxxxxxxxxxxxxxxxxxxxxxxxxxxxxxxxxxxxxxxxxxxxxxxxxxxxxxxxxxxxxxxxxxx,0,,default
  2,changed,A,xxxxxxxxxxxxxxxxxxxxxxxxxxxxxxxxxxxxxxxxxxxxxxxxxxxxxxxxxxxxxxxxxxxxxxxxxxxxxxxxxxxxxxxxxxxxxxxxxxxxxxxxxxxxxxxxxxxxxxxxxxxxxxxxxxxxxxxxxxxxxxxxxxxxxx,0,,default
  3,changed,A,xxxxxxxxxxxxxxxxxxxxxxxxxxxxxxxxxxxxxxxxxxxxxxxxxxxxxxxxxxxxxxxxxxxxxxxxxxxxxxxxxxxxxxxxxxxxxxxxxxxxxxxxxxxxxxxxxxxxxxxxxxxxxxxxxxxxxxxxxxxxxxxxxxxxxx,0,,default
  4,changed,A,xxxxxxxxxxxxxxxxxxxxxxxxxxxxxxxxxxxxxxxxxxxxxxxxxxxxxxxxxxxxxxxxxxxxxxxxxxxxxxxxxxxxxxxxxxxxxxxxxxxxxxxxxxxxxxxxxxxxxxxxxxxxxxxxxxxxxxxxxxxxxxxxxxxxxx,0,,default
  5,changed,A,xxxxxxxxxxxxxxxxxxxxxxxxxxxxxxxxxxxxxxxxxxxxxxxxxxxxxxxxxxxxxxxxxxxxxxxxxxxxxxxxxxxxxxxxxxxxxxxxxxxxxxxxxxxxxxxxxxxxxxxxxxxxxxxxxxxxxxxxxxxxxxxxxxxxxx,0,,default
  6,changed,A,xxxxxxxxxxxxxxxxxxxxxxxxxxxxxxxxxxxxxxxxxxxxxxxxxxxxxxxxxxxxxxxxxxxxxxxxx (no-eol)
  $ ls
  old.proof
  old.reasons
  old.released
  proof
  reasons
  records
  rules

A survey that is made over old files: the store of the rules, and that of the records, behind whole rules.

  $ cat >old.rules <<EOF
  > the old rules
  > EOF
  $ cat >old.records <<EOF
  > the old records
  > EOF
  $ cp old.rules rules
  $ cp old.records records
  $ fail call 1 keep 0
  $ forxainde make --rules rules --records records --rows 3
  fault: write rules
  [6]
  $ cat rules
  $ cat records
  the old records
  $ cp old.rules rules
  $ cp old.records records
  $ fail call 1 keep 3
  $ forxainde make --rules rules --records records --rows 3
  fault: write rules
  [6]
  $ cat rules
  num (no-eol)
  $ cat records
  the old records
  $ cp old.rules rules
  $ cp old.records records
  $ fail call 1 keep 1000
  $ forxainde make --rules rules --records records --rows 3
  fault: write rules
  [6]
  $ cat rules
  number Turnover weight 2 scale 1000
  number Goods weight 1 scale 1000
  number Bought weight 1 scale 1000
  number Wages weight 1 scale 1000
  number Social weight 1 scale 1000
  number Other weight 1 scale 1000
  number Costs weight 2 scale 1000
  number Profit weight 1 scale 1000
  number Staff weight 1 scale 1000
  number Full weight 1 scale 1000
  number Part weight 1 scale 1000
  number Invest weight 1 scale 1000
  code Activity weight 1 in {farm, industry, trade, service}
  code Size weight 1 in {micro, small, medium, large}
  code Region weight 1 in {north, south, east, west}
  code Form weight 1 in {sole, company, public}
  Turnover >= 0
  Goods >= 0
  Bought >= 0
  Wages >= 0
  Social >= 0
  Other >= 0
  Costs >= 0
  Staff >= 0
  Full >= 0
  Part >= 0
  Invest >= 0
  Goods + Bought + Wages + Social + Other - Costs = 0
  Turnover - Costs - Profit = 0
  -6 Turnover + 10 Profit <= 0
  5 Turnover + 10 Profit >= 0
  -Staff + Full + Part = 0
  -Wages + Social <= 0
  -2 Turnover + Invest <= 0
  Wages - 5 Full >= 0
  Wages - 100 Staff <= 0
  if Size in { (no-eol)
  $ cat records
  the old records
  $ cp old.rules rules
  $ cp old.records records
  $ fail call 2 keep 0
  $ forxainde make --rules rules --records records --rows 3
  fault: write records
  [6]
  $ cat rules
  number Turnover weight 2 scale 1000
  number Goods weight 1 scale 1000
  number Bought weight 1 scale 1000
  number Wages weight 1 scale 1000
  number Social weight 1 scale 1000
  number Other weight 1 scale 1000
  number Costs weight 2 scale 1000
  number Profit weight 1 scale 1000
  number Staff weight 1 scale 1000
  number Full weight 1 scale 1000
  number Part weight 1 scale 1000
  number Invest weight 1 scale 1000
  code Activity weight 1 in {farm, industry, trade, service}
  code Size weight 1 in {micro, small, medium, large}
  code Region weight 1 in {north, south, east, west}
  code Form weight 1 in {sole, company, public}
  Turnover >= 0
  Goods >= 0
  Bought >= 0
  Wages >= 0
  Social >= 0
  Other >= 0
  Costs >= 0
  Staff >= 0
  Full >= 0
  Part >= 0
  Invest >= 0
  Goods + Bought + Wages + Social + Other - Costs = 0
  Turnover - Costs - Profit = 0
  -6 Turnover + 10 Profit <= 0
  5 Turnover + 10 Profit >= 0
  -Staff + Full + Part = 0
  -Wages + Social <= 0
  -2 Turnover + Invest <= 0
  Wages - 5 Full >= 0
  Wages - 100 Staff <= 0
  if Size in {micro} then Staff - 9 <= 0
  if Size in {small} then Staff - 10 >= 0
  if Size in {small} then Staff - 49 <= 0
  if Size in {medium} then Staff - 50 >= 0
  if Size in {medium} then Staff - 249 <= 0
  if Size in {large} then Staff - 250 >= 0
  if Form in {sole} then Size in {micro, small}
  if Activity in {farm} then Form not in {public}
  if Size in {large} then Form not in {sole}
  if Invest - 1000000 > 0 then Size not in {micro}
  $ cat records
  $ cp old.rules rules
  $ cp old.records records
  $ fail call 2 keep 3
  $ forxainde make --rules rules --records records --rows 3
  fault: write records
  [6]
  $ cat rules
  number Turnover weight 2 scale 1000
  number Goods weight 1 scale 1000
  number Bought weight 1 scale 1000
  number Wages weight 1 scale 1000
  number Social weight 1 scale 1000
  number Other weight 1 scale 1000
  number Costs weight 2 scale 1000
  number Profit weight 1 scale 1000
  number Staff weight 1 scale 1000
  number Full weight 1 scale 1000
  number Part weight 1 scale 1000
  number Invest weight 1 scale 1000
  code Activity weight 1 in {farm, industry, trade, service}
  code Size weight 1 in {micro, small, medium, large}
  code Region weight 1 in {north, south, east, west}
  code Form weight 1 in {sole, company, public}
  Turnover >= 0
  Goods >= 0
  Bought >= 0
  Wages >= 0
  Social >= 0
  Other >= 0
  Costs >= 0
  Staff >= 0
  Full >= 0
  Part >= 0
  Invest >= 0
  Goods + Bought + Wages + Social + Other - Costs = 0
  Turnover - Costs - Profit = 0
  -6 Turnover + 10 Profit <= 0
  5 Turnover + 10 Profit >= 0
  -Staff + Full + Part = 0
  -Wages + Social <= 0
  -2 Turnover + Invest <= 0
  Wages - 5 Full >= 0
  Wages - 100 Staff <= 0
  if Size in {micro} then Staff - 9 <= 0
  if Size in {small} then Staff - 10 >= 0
  if Size in {small} then Staff - 49 <= 0
  if Size in {medium} then Staff - 50 >= 0
  if Size in {medium} then Staff - 249 <= 0
  if Size in {large} then Staff - 250 >= 0
  if Form in {sole} then Size in {micro, small}
  if Activity in {farm} then Form not in {public}
  if Size in {large} then Form not in {sole}
  if Invest - 1000000 > 0 then Size not in {micro}
  $ cat records
  id, (no-eol)
  $ cp old.rules rules
  $ cp old.records records
  $ fail call 2 keep 1000
  $ forxainde make --rules rules --records records --rows 3
  fault: write records
  [6]
  $ cat rules
  number Turnover weight 2 scale 1000
  number Goods weight 1 scale 1000
  number Bought weight 1 scale 1000
  number Wages weight 1 scale 1000
  number Social weight 1 scale 1000
  number Other weight 1 scale 1000
  number Costs weight 2 scale 1000
  number Profit weight 1 scale 1000
  number Staff weight 1 scale 1000
  number Full weight 1 scale 1000
  number Part weight 1 scale 1000
  number Invest weight 1 scale 1000
  code Activity weight 1 in {farm, industry, trade, service}
  code Size weight 1 in {micro, small, medium, large}
  code Region weight 1 in {north, south, east, west}
  code Form weight 1 in {sole, company, public}
  Turnover >= 0
  Goods >= 0
  Bought >= 0
  Wages >= 0
  Social >= 0
  Other >= 0
  Costs >= 0
  Staff >= 0
  Full >= 0
  Part >= 0
  Invest >= 0
  Goods + Bought + Wages + Social + Other - Costs = 0
  Turnover - Costs - Profit = 0
  -6 Turnover + 10 Profit <= 0
  5 Turnover + 10 Profit >= 0
  -Staff + Full + Part = 0
  -Wages + Social <= 0
  -2 Turnover + Invest <= 0
  Wages - 5 Full >= 0
  Wages - 100 Staff <= 0
  if Size in {micro} then Staff - 9 <= 0
  if Size in {small} then Staff - 10 >= 0
  if Size in {small} then Staff - 49 <= 0
  if Size in {medium} then Staff - 50 >= 0
  if Size in {medium} then Staff - 249 <= 0
  if Size in {large} then Staff - 250 >= 0
  if Form in {sole} then Size in {micro, small}
  if Activity in {farm} then Form not in {public}
  if Size in {large} then Form not in {sole}
  if Invest - 1000000 > 0 then Size not in {micro}
  $ cat records
  id,Turnover,Goods,Bought,Wages,Social,Other,Costs,Profit,Staff,Full,Part,Invest,Activity,Size,Region,Form
  1,17359,8700,34,4060,812,295,13901,3458,203,11,192,22,industry,medium,east,company
  2,10043,8120,890,80,16,495,9601,442,4,0,4,5,service,micro,south,sole
  3,11792,8720,121,360,72,468,9741,2051,18,18,0,18,farm,small,south,sole

Two failures, of which the first ends the run; and one of a third call, which there is not.

  $ cp old.rules rules
  $ cp old.records records
  $ fail call 1 keep 3
  $ fail call 2 keep 3
  $ forxainde make --rules rules --records records --rows 3
  fault: write rules
  [6]
  $ calls
  store rules failed
  $ cat records
  the old records
  $ fail call 3 keep 0
  $ forxainde make --rules rules --records records --rows 3
  made rows 3
  $ calls
  store rules
  store records
  $ cat records
  id,Turnover,Goods,Bought,Wages,Social,Other,Costs,Profit,Staff,Full,Part,Invest,Activity,Size,Region,Form
  1,17359,8700,34,4060,812,295,13901,3458,203,11,192,22,industry,medium,east,company
  2,10043,8120,890,80,16,495,9601,442,4,0,4,5,service,micro,south,sole
  3,11792,8720,121,360,72,468,9741,2051,18,18,0,18,farm,small,south,sole
