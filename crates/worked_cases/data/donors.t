Records that are given values of donors, or are not.

The nearest clean record gives its value, once: the second record has it, and the third, which would have it too, is
given nobody.

  $ cat >rules <<EOF
  > number A
  > number B
  > A >= 1
  > B >= 1
  > B <= 9
  > EOF
  $ cat >records <<EOF
  > A,B
  > 5,4
  > 5,
  > 6,
  > EOF
  $ forxainde edit --rules rules --records records --released released --reasons reasons --proof proof --near 1
  records 3 clean 1 changed 2 unresolved 0 weight 2
  claims 2 given 1
  $ cat released
  A,B
  5,4
  5,4
  6,1
  $ cat reasons
  record,cause,field,before,after,donor,detail
  2,changed,B,,4,1,donor
  3,changed,B,,1,,nearest
  $ cat proof
  fh-proof 2
  limit 1 near 1 budget 1000000
  lines 3
  keep
  keep
  keep
  table 0
  records 3
  clean
  change 1 KC 3
  bad KK
  bound KC
  bound C
  change 1 KC 3
  bad KK
  bound KC
  bound C
  claims 2
  claim 2 1 1
  claim 3 0 1
  end
  $ forxainde check --rules rules --records records --released released --proof proof
  valid records 3 released 3

Twice, where the limit is two.

  $ forxainde edit --rules rules --records records --released released --reasons reasons --proof proof --limit 2 --near 1
  records 3 clean 1 changed 2 unresolved 0 weight 2
  claims 2 given 2
  $ cat released
  A,B
  5,4
  5,4
  6,4
  $ cat reasons
  record,cause,field,before,after,donor,detail
  2,changed,B,,4,1,donor
  3,changed,B,,4,1,donor
  $ cat proof
  fh-proof 2
  limit 2 near 1 budget 1000000
  lines 3
  keep
  keep
  keep
  table 0
  records 3
  clean
  change 1 KC 3
  bad KK
  bound KC
  bound C
  change 1 KC 3
  bad KK
  bound KC
  bound C
  claims 2
  claim 2 1 1
  claim 3 1 1
  end
  $ forxainde check --rules rules --records records --released released --proof proof
  valid records 3 released 3

A limit that is reached in the middle of a ranking, which has fewer donors than it may have. Of two that are as near the
earlier is first.

  $ cat >rules <<EOF
  > number A
  > number B
  > B >= 1
  > EOF
  $ cat >records <<EOF
  > A,B
  > 1,10
  > 2,20
  > 1,
  > 1,
  > 1,
  > EOF
  $ forxainde edit --rules rules --records records --released released --reasons reasons --proof proof --near 64
  records 5 clean 2 changed 3 unresolved 0 weight 3
  claims 3 given 2
  $ cat released
  A,B
  1,10
  2,20
  1,10
  1,20
  1,1
  $ cat reasons
  record,cause,field,before,after,donor,detail
  3,changed,B,,10,1,donor
  4,changed,B,,20,2,donor
  5,changed,B,,1,,nearest
  $ cat proof
  fh-proof 2
  limit 1 near 64 budget 1000000
  lines 1
  keep
  table 0
  records 5
  clean
  clean
  change 1 KC 3
  bad KK
  bound KC
  bound C
  change 1 KC 3
  bad KK
  bound KC
  bound C
  change 1 KC 3
  bad KK
  bound KC
  bound C
  claims 3
  claim 3 1 1 2
  claim 4 2 1 2
  claim 5 0 1 2
  end
  $ forxainde check --rules rules --records records --released released --proof proof
  valid records 5 released 5

Numbers are apart by thousandths of the scale, rounded down. With the scale 1000 a thousandth is 1, so 0.9 is 0 from 1 as
it is from 0, though 1 is in the next bucket; of the two donors the earlier is given.

  $ cat >rules <<EOF
  > number A scale 1000
  > number B
  > A >= 0
  > B >= 1
  > EOF
  $ cat >records <<EOF
  > A,B
  > 1,2
  > 0,3
  > 0.9,
  > EOF
  $ forxainde edit --rules rules --records records --released released --reasons reasons --proof proof --near 1
  records 3 clean 2 changed 1 unresolved 0 weight 1
  claims 1 given 1
  $ cat released
  A,B
  1,2
  0,3
  0.9,2
  $ cat reasons
  record,cause,field,before,after,donor,detail
  3,changed,B,,2,1,donor
  $ cat proof
  fh-proof 2
  limit 1 near 1 budget 1000000
  lines 2
  keep
  keep
  table 0
  records 3
  clean
  clean
  change 1 KC 3
  bad KK
  bound KC
  bound C
  claims 1
  claim 3 1 1
  end
  $ forxainde check --rules rules --records records --released released --proof proof
  valid records 3 released 3

A donor that is far away at the first field is behind, whichever is earlier.

  $ cat >records <<EOF
  > A,B
  > 0,3
  > 5000,4
  > 0.9,
  > EOF
  $ forxainde edit --rules rules --records records --released released --reasons reasons --proof proof --near 1
  records 3 clean 2 changed 1 unresolved 0 weight 1
  claims 1 given 1
  $ cat released
  A,B
  0,3
  5000,4
  0.9,3
  $ cat reasons
  record,cause,field,before,after,donor,detail
  3,changed,B,,3,1,donor
  $ cat proof
  fh-proof 2
  limit 1 near 1 budget 1000000
  lines 2
  keep
  keep
  table 0
  records 3
  clean
  clean
  change 1 KC 3
  bad KK
  bound KC
  bound C
  claims 1
  claim 3 1 1
  end
  $ forxainde check --rules rules --records records --released released --proof proof
  valid records 3 released 3
  $ cat >records <<EOF
  > A,B
  > 5000,4
  > 0,3
  > 0.9,
  > EOF
  $ forxainde edit --rules rules --records records --released released --reasons reasons --proof proof --near 1
  records 3 clean 2 changed 1 unresolved 0 weight 1
  claims 1 given 1
  $ cat released
  A,B
  5000,4
  0,3
  0.9,3

The nearest is found on both sides of the record, and the weight of a field counts: a code that differs is 3000 away, as
far as numbers can be at a field of that weight.

  $ cat >rules <<EOF
  > number A scale 10
  > code S weight 3 in {x, y}
  > number B
  > B >= 1
  > EOF
  $ cat >records <<EOF
  > A,S,B
  > 1,x,11
  > 9,x,12
  > 6,y,13
  > 6,x,
  > 6,y,
  > 4,x,
  > EOF
  $ forxainde edit --rules rules --records records --released released --reasons reasons --proof proof --near 2 --limit 3
  records 6 clean 3 changed 3 unresolved 0 weight 3
  claims 3 given 3
  $ cat released
  A,S,B
  1,x,11
  9,x,12
  6,y,13
  6,x,12
  6,y,13
  4,x,11
  $ cat reasons
  record,cause,field,before,after,donor,detail
  4,changed,B,,12,2,donor
  5,changed,B,,13,3,donor
  6,changed,B,,11,1,donor
  $ cat proof
  fh-proof 2
  limit 3 near 2 budget 1000000
  lines 1
  keep
  table 0
  records 6
  clean
  clean
  clean
  change 1 KCK 4
  bad KK
  bound KCK
  bound KCC
  bound C
  change 1 KCK 4
  bad KK
  bound KCK
  bound KCC
  bound C
  change 1 KCK 4
  bad KK
  bound KCK
  bound KCC
  bound C
  claims 3
  claim 4 2 2 1
  claim 5 3 3 2
  claim 6 1 1 2
  end
  $ forxainde check --rules rules --records records --released released --proof proof
  valid records 6 released 6

Where no numerical field is kept all donors are as near as their codes say.

  $ cat >records <<EOF
  > A,S,B
  > 1,x,11
  > 9,y,12
  > ,y,
  > EOF
  $ forxainde edit --rules rules --records records --released released --reasons reasons --proof proof --near 2
  records 3 clean 2 changed 1 unresolved 0 weight 2
  claims 1 given 1
  $ cat released
  A,S,B
  1,x,11
  9,y,12
  9,y,12
  $ cat reasons
  record,cause,field,before,after,donor,detail
  3,changed,A,,9,2,donor
  3,changed,B,,12,2,donor

Farms, with fields of several weights and scales. The fifth is given the harvest of the nearest one, which is the nearest
to the sixth as well, but has been given once; the seventh, of 10 hectares, can't have harvested as much as its donor did;
and the eighth had harvested more than it can.

  $ cat >rules <<EOF
  > code Crop weight 4 in {wheat, barley, rye}
  > number Area weight 2 scale 100
  > number Harvest scale 500
  > number Sold scale 500
  > Area >= 1
  > Harvest >= 0
  > Harvest <= 12 Area
  > Sold >= 0
  > Sold <= Harvest
  > EOF
  $ cat >records <<EOF
  > farm,Crop,Area,Harvest,Sold
  > Adams,wheat,50,300,250
  > Brown,wheat,60,420,400
  > Clark,barley,50,240,200
  > Davis,rye,20,80,30
  > Evans,wheat,52,,240
  > Frank,wheat,55,,300
  > Green,barley,10,,
  > Hill,rye,20,900,10
  > EOF
  $ forxainde edit --rules rules --records records --released released --reasons reasons --proof proof --near 3
  records 8 clean 4 changed 4 unresolved 0 weight 5
  claims 4 given 4
  $ cat released
  farm,Crop,Area,Harvest,Sold
  Adams,wheat,50,300,250
  Brown,wheat,60,420,400
  Clark,barley,50,240,200
  Davis,rye,20,80,30
  Evans,wheat,52,300,240
  Frank,wheat,55,420,300
  Green,barley,10,120,120
  Hill,rye,20,80,10
  $ cat reasons
  record,cause,field,before,after,donor,detail
  5,changed,Harvest,,300,1,donor
  6,changed,Harvest,,420,2,donor
  7,changed,Harvest,,120,3,nearest
  7,changed,Sold,,120,3,nearest
  8,changed,Harvest,900,80,4,donor
  $ cat proof
  fh-proof 2
  limit 1 near 3 budget 1000000
  lines 5
  keep
  drop 5
  given 4
  given 5
  given 6
  combine 2 1 3 1 1
  combine 1 1 4 1 1
  keep
  keep
  keep
  table 1
  given 3
  records 8
  clean
  clean
  clean
  clean
  change 1 KCKK 5
  bad KK
  bound KCKK
  bound KCKC
  bound KCC
  bound C
  change 1 KCKK 5
  bad KK
  bound KCKK
  bound KCKC
  bound KCC
  bound C
  change 2 KCCK 5
  bad KK
  bad KCK
  bound KCCK
  bound KCCC
  bound C
  change 1 KCKK 5
  line KK 1
  shared 1
  bound KCKK
  bound KCKC
  bound KCC
  bound C
  claims 4
  claim 5 1 1 2 3
  claim 6 2 1 2 3
  claim 7 3 3 4 1
  claim 8 4 4 3 1
  end
  $ forxainde check --rules rules --records records --released released --proof proof
  valid records 8 released 8

With a limit of 2 the sixth farm has the donor of the fifth. Where but one donor is ranked, the sixth has none.

  $ forxainde edit --rules rules --records records --released released --reasons reasons --proof proof --limit 2
  records 8 clean 4 changed 4 unresolved 0 weight 5
  claims 4 given 4
  $ cat reasons
  record,cause,field,before,after,donor,detail
  5,changed,Harvest,,300,1,donor
  6,changed,Harvest,,300,1,donor
  7,changed,Harvest,,120,3,nearest
  7,changed,Sold,,120,3,nearest
  8,changed,Harvest,900,80,4,donor
  $ forxainde edit --rules rules --records records --released released --reasons reasons --proof proof --near 1
  records 8 clean 4 changed 4 unresolved 0 weight 5
  claims 4 given 3
  $ cat reasons
  record,cause,field,before,after,donor,detail
  5,changed,Harvest,,300,1,donor
  6,changed,Harvest,,300,,nearest
  7,changed,Harvest,,120,3,nearest
  7,changed,Sold,,120,3,nearest
  8,changed,Harvest,900,80,4,donor
  $ forxainde check --rules rules --records records --released released --proof proof
  valid records 8 released 8

A record whose giving stops had claimed its donor before, and the next one is given nobody.

  $ cat >rules <<EOF
  > number x1
  > number x2
  > number x3
  > number x4
  > number x5
  > 999999999 x1 >= 1000000000 x2
  > 999999999 x2 >= 1000000000 x3
  > 999999999 x3 >= 1000000000 x4
  > 999999999 x4 >= 1000000000 x5
  > EOF
  $ cat >records <<EOF
  > x1,x2,x3,x4,x5
  > 0,0,0,0,0
  > 1000,,,,
  > 1,0,0,0,
  > EOF
  $ forxainde edit --rules rules --records records --released released --reasons reasons --proof proof
  records 3 clean 1 changed 1 unresolved 1 weight 1
  claims 2 given 1
  [1]
  $ cat released
  x1,x2,x3,x4,x5
  0,0,0,0,0
  1,0,0,0,0
  $ cat reasons
  record,cause,field,before,after,donor,detail
  2,overflow,,,,,giving x5 line 1
  3,changed,x5,,0,,default
  $ cat proof
  fh-proof 2
  limit 1 near 5 budget 1000000
  lines 4
  keep
  keep
  keep
  keep
  table 0
  records 3
  clean
  gift 4 KCCCC 5 1 9
  bad KK
  bad KCK
  bad KCCK
  bad KCCCK
  bound KCCCC
  bad CK
  bad CCK
  bad CCCK
  bound CCCC
  change 1 KKKKC 6
  bad KKKKK
  bound KKKKC
  bound KKKC
  bound KKC
  bound KC
  bound C
  claims 2
  claim 2 1 1
  claim 3 0 1
  end
  $ forxainde check --rules rules --records records --released released --proof proof
  valid records 3 released 2
