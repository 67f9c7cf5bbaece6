Calls that fail, each in its turn: what stands then, and with which status the run ends. A fetch that fails is the status
5, a store 6. What a store keeps of the bytes may be none, some, or more than there are.

  $ cat >rules <<EOF
  > number Turnover weight 2
  > number Costs
  > number Profit
  > Turnover >= 0
  > Costs >= 0
  > Turnover - Costs - Profit = 0
  > 10 Profit <= 6 Turnover
  > EOF
  $ cat >records <<EOF
  > Turnover,Costs,Profit
  > 100,60,400
  > EOF

An edit whose first or second call fails has nothing to read, and stores nothing.

  $ fail call 1 keep 0
  $ forxainde edit --rules rules --records records --released released --reasons reasons --proof proof
  fault: read rules
  [5]
  $ calls
  fetch rules failed
  $ fail call 1 keep 3
  $ forxainde edit --rules rules --records records --released released --reasons reasons --proof proof
  fault: read rules
  [5]
  $ fail call 1 keep 1000
  $ forxainde edit --rules rules --records records --released released --reasons reasons --proof proof
  fault: read rules
  [5]
  $ fail call 2 keep 0
  $ forxainde edit --rules rules --records records --released released --reasons reasons --proof proof
  fault: read records
  [5]
  $ calls
  fetch rules
  fetch records failed
  $ fail call 2 keep 3
  $ forxainde edit --rules rules --records records --released released --reasons reasons --proof proof
  fault: read records
  [5]
  $ fail call 2 keep 1000
  $ forxainde edit --rules rules --records records --released released --reasons reasons --proof proof
  fault: read records
  [5]
  $ ls
  records
  rules

The proof is stored first. Where that fails, the other two files are not there.

  $ fail call 3 keep 0
  $ forxainde edit --rules rules --records records --released released --reasons reasons --proof proof
  fault: write proof
  [6]
  $ calls
  fetch rules
  fetch records
  store proof failed
  $ ls
  proof
  records
  rules
  $ cat proof
  $ rm proof
  $ fail call 3 keep 3
  $ forxainde edit --rules rules --records records --released released --reasons reasons --proof proof
  fault: write proof
  [6]
  $ cat proof
  fh- (no-eol)
  $ rm proof
  $ fail call 3 keep 1000
  $ forxainde edit --rules rules --records records --released released --reasons reasons --proof proof
  fault: write proof
  [6]
  $ cat proof
  fh-proof 2
  limit 1 near 5 budget 1000000
  lines 4
  keep
  drop 9
  given 3
  given 1
  combine 1 -1 2 1 1
  given 5
  combine 3 1 4 1 1
  given 4
  combine 1 -3 6 1 1
  combine 7 1 4 3 2
  combine 5 1 8 1 1
  keep
  keep
  table 1
  given 3
  records 1
  change 1 KKC 4
  line KKK 1
  shared 1
  bound KKC
  bound KC
  bound C
  claims 1
  claim 1 0
  end
  $ rm proof

The reasons are stored next, behind a whole proof.

  $ fail call 4 keep 0
  $ forxainde edit --rules rules --records records --released released --reasons reasons --proof proof
  fault: write reasons
  [6]
  $ calls
  fetch rules
  fetch records
  store proof
  store reasons failed
  $ ls
  proof
  reasons
  records
  rules
  $ cat reasons
  $ cat proof
  fh-proof 2
  limit 1 near 5 budget 1000000
  lines 4
  keep
  drop 9
  given 3
  given 1
  combine 1 -1 2 1 1
  given 5
  combine 3 1 4 1 1
  given 4
  combine 1 -3 6 1 1
  combine 7 1 4 3 2
  combine 5 1 8 1 1
  keep
  keep
  table 1
  given 3
  records 1
  change 1 KKC 4
  line KKK 1
  shared 1
  bound KKC
  bound KC
  bound C
  claims 1
  claim 1 0
  end
  $ rm proof reasons
  $ fail call 4 keep 3
  $ forxainde edit --rules rules --records records --released released --reasons reasons --proof proof
  fault: write reasons
  [6]
  $ cat reasons
  rec (no-eol)
  $ rm proof reasons
  $ fail call 4 keep 1000
  $ forxainde edit --rules rules --records records --released released --reasons reasons --proof proof
  fault: write reasons
  [6]
  $ cat reasons
  record,cause,field,before,after,donor,detail
  1,changed,Profit,400,40,,nearest
  $ rm proof reasons

The released file is stored last, behind two whole files.

  $ fail call 5 keep 0
  $ forxainde edit --rules rules --records records --released released --reasons reasons --proof proof
  fault: write released
  [6]
  $ calls
  fetch rules
  fetch records
  store proof
  store reasons
  store released failed
  $ ls
  proof
  reasons
  records
  released
  rules
  $ cat released
  $ cat proof
  fh-proof 2
  limit 1 near 5 budget 1000000
  lines 4
  keep
  drop 9
  given 3
  given 1
  combine 1 -1 2 1 1
  given 5
  combine 3 1 4 1 1
  given 4
  combine 1 -3 6 1 1
  combine 7 1 4 3 2
  combine 5 1 8 1 1
  keep
  keep
  table 1
  given 3
  records 1
  change 1 KKC 4
  line KKK 1
  shared 1
  bound KKC
  bound KC
  bound C
  claims 1
  claim 1 0
  end
  $ cat reasons
  record,cause,field,before,after,donor,detail
  1,changed,Profit,400,40,,nearest
  $ rm proof reasons released
  $ fail call 5 keep 3
  $ forxainde edit --rules rules --records records --released released --reasons reasons --proof proof
  fault: write released
  [6]
  $ cat released
  Tur (no-eol)
  $ rm proof reasons released
  $ fail call 5 keep 1000
  $ forxainde edit --rules rules --records records --released released --reasons reasons --proof proof
  fault: write released
  [6]
  $ cat released
  Turnover,Costs,Profit
  100,60,40
  $ rm proof reasons released

There is no sixth call. Two that fail in one run: the first ends it.

  $ fail call 6 keep 0
  $ forxainde edit --rules rules --records records --released released --reasons reasons --proof proof
  records 1 clean 0 changed 1 unresolved 0 weight 1
  claims 1 given 0
  $ cat released
  Turnover,Costs,Profit
  100,60,40
  $ cat reasons
  record,cause,field,before,after,donor,detail
  1,changed,Profit,400,40,,nearest
  $ cat proof
  fh-proof 2
  limit 1 near 5 budget 1000000
  lines 4
  keep
  drop 9
  given 3
  given 1
  combine 1 -1 2 1 1
  given 5
  combine 3 1 4 1 1
  given 4
  combine 1 -3 6 1 1
  combine 7 1 4 3 2
  combine 5 1 8 1 1
  keep
  keep
  table 1
  given 3
  records 1
  change 1 KKC 4
  line KKK 1
  shared 1
  bound KKC
  bound KC
  bound C
  claims 1
  claim 1 0
  end
  $ forxainde check --rules rules --records records --released released --proof proof
  valid records 1 released 1
  $ calls
  fetch rules
  fetch records
  fetch released
  fetch proof
  $ rm proof reasons released
  $ fail call 2 keep 0
  $ fail call 3 keep 3
  $ forxainde edit --rules rules --records records --released released --reasons reasons --proof proof
  fault: read records
  [5]
  $ ls
  records
  rules
  $ fail call 4 keep 3
  $ fail call 5 keep 3
  $ forxainde edit --rules rules --records records --released released --reasons reasons --proof proof
  fault: write reasons
  [6]
  $ ls
  proof
  reasons
  records
  rules
  $ rm proof reasons

Where a file stood before, a store that failed leaves the first bytes of the new one alone, and the later files are as they
were.

  $ cat >proof <<EOF
  > the old proof
  > EOF
  $ cat >reasons <<EOF
  > the old reasons
  > EOF
  $ cat >released <<EOF
  > the old release
  > EOF
  $ fail call 2 keep 0
  $ forxainde edit --rules rules --records records --released released --reasons reasons --proof proof
  fault: read records
  [5]
  $ cat proof
  the old proof
  $ fail call 3 keep 3
  $ forxainde edit --rules rules --records records --released released --reasons reasons --proof proof
  fault: write proof
  [6]
  $ cat proof
  fh- (no-eol)
  $ cat reasons
  the old reasons
  $ fail call 4 keep 0
  $ forxainde edit --rules rules --records records --released released --reasons reasons --proof proof
  fault: write reasons
  [6]
  $ cat reasons
  $ cat released
  the old release
  $ fail call 5 keep 3
  $ forxainde edit --rules rules --records records --released released --reasons reasons --proof proof
  fault: write released
  [6]
  $ cat released
  Tur (no-eol)

A check of which a call fails fetches no more, and changes nothing.

  $ fail call 1 keep 0
  $ forxainde check --rules rules --records records --released released --proof proof
  fault: read rules
  [5]
  $ calls
  fetch rules failed
  $ fail call 1 keep 3
  $ forxainde check --rules rules --records records --released released --proof proof
  fault: read rules
  [5]
  $ fail call 1 keep 1000
  $ forxainde check --rules rules --records records --released released --proof proof
  fault: read rules
  [5]
  $ fail call 2 keep 0
  $ forxainde check --rules rules --records records --released released --proof proof
  fault: read records
  [5]
  $ calls
  fetch rules
  fetch records failed
  $ fail call 2 keep 3
  $ forxainde check --rules rules --records records --released released --proof proof
  fault: read records
  [5]
  $ fail call 2 keep 1000
  $ forxainde check --rules rules --records records --released released --proof proof
  fault: read records
  [5]
  $ fail call 3 keep 0
  $ forxainde check --rules rules --records records --released released --proof proof
  fault: read released
  [5]
  $ calls
  fetch rules
  fetch records
  fetch released failed
  $ fail call 3 keep 3
  $ forxainde check --rules rules --records records --released released --proof proof
  fault: read released
  [5]
  $ fail call 3 keep 1000
  $ forxainde check --rules rules --records records --released released --proof proof
  fault: read released
  [5]
  $ fail call 4 keep 0
  $ forxainde check --rules rules --records records --released released --proof proof
  fault: read proof
  [5]
  $ calls
  fetch rules
  fetch records
  fetch released
  fetch proof failed
  $ fail call 4 keep 3
  $ forxainde check --rules rules --records records --released released --proof proof
  fault: read proof
  [5]
  $ fail call 4 keep 1000
  $ forxainde check --rules rules --records records --released released --proof proof
  fault: read proof
  [5]
  $ fail call 5 keep 0
  $ forxainde check --rules rules --records records --released released --proof proof
  fault: proof line 0 RowText
  [9]
  $ calls
  fetch rules
  fetch records
  fetch released
  fetch proof
  $ ls
  proof
  reasons
  records
  released
  rules

A filling of which the first or the second call fails has nothing to read, and stores nothing.

  $ cat >holes <<EOF
  > Turnover,Costs,Profit
  > 100,,40
  > EOF
  $ fail call 1 keep 0
  $ forxainde fill --rules rules --records holes --released filled
  fault: read rules
  [5]
  $ calls
  fetch rules failed
  $ fail call 1 keep 3
  $ forxainde fill --rules rules --records holes --released filled
  fault: read rules
  [5]
  $ fail call 1 keep 1000
  $ forxainde fill --rules rules --records holes --released filled
  fault: read rules
  [5]
  $ fail call 2 keep 0
  $ forxainde fill --rules rules --records holes --released filled
  fault: read holes
  [5]
  $ calls
  fetch rules
  fetch holes failed
  $ fail call 2 keep 3
  $ forxainde fill --rules rules --records holes --released filled
  fault: read holes
  [5]
  $ fail call 2 keep 1000
  $ forxainde fill --rules rules --records holes --released filled
  fault: read holes
  [5]
  $ ls
  holes
  proof
  reasons
  records
  released
  rules

Its third call stores the released file. There is no fourth.

  $ fail call 3 keep 0
  $ forxainde fill --rules rules --records holes --released filled
  fault: write filled
  [6]
  $ calls
  fetch rules
  fetch holes
  store filled failed
  $ cat filled
  $ rm filled
  $ fail call 3 keep 3
  $ forxainde fill --rules rules --records holes --released filled
  fault: write filled
  [6]
  $ cat filled
  Tur (no-eol)
  $ rm filled
  $ fail call 3 keep 1000
  $ forxainde fill --rules rules --records holes --released filled
  fault: write filled
  [6]
  $ cat filled
  Turnover,Costs,Profit
  100,60,40
  $ rm filled
  $ fail call 4 keep 0
  $ forxainde fill --rules rules --records holes --released filled
  records 1 filled 1 blocked 0 stopped 0
  $ calls
  fetch rules
  fetch holes
  store filled
  $ cat filled
  Turnover,Costs,Profit
  100,60,40

What stood under its name before is as it was, or gives way to the first bytes of the new file. Of two calls that fail the first ends it.

  $ cat >filled <<EOF
  > an older file
  > EOF
  $ fail call 2 keep 3
  $ fail call 3 keep 3
  $ forxainde fill --rules rules --records holes --released filled
  fault: read holes
  [5]
  $ cat filled
  an older file
  $ fail call 3 keep 3
  $ forxainde fill --rules rules --records holes --released filled
  fault: write filled
  [6]
  $ cat filled
  Tur (no-eol)
  $ rm holes filled

The command of the rules makes one call.

  $ fail call 1 keep 0
  $ forxainde rules --rules rules
  fault: read rules
  [5]
  $ calls
  fetch rules failed
  $ fail call 1 keep 3
  $ forxainde rules --rules rules
  fault: read rules
  [5]
  $ fail call 1 keep 1000
  $ forxainde rules --rules rules
  fault: read rules
  [5]
  $ fail call 2 keep 0
  $ forxainde rules --rules rules
  1 kept needed Turnover >= 0
  2 dropped Costs >= 0
    given 3
    given 1
    combine 1 -1 2 1 1
    given 5
    combine 3 1 4 1 1
    given 4
    combine 1 -3 6 1 1
    combine 7 1 4 3 2
    combine 5 1 8 1 1
  3 kept equality Turnover - Costs - Profit = 0
  4 kept needed 3 Turnover - 5 Profit >= 0
  $ calls
  fetch rules

A file that is not there is a fault too.

  $ rm rules
  $ forxainde edit --rules rules --records records --released released --reasons reasons --proof proof
  fault: read rules
  [5]
  $ calls
  fetch rules failed
  $ cat >rules <<EOF
  > number A
  > EOF
  $ rm records
  $ forxainde edit --rules rules --records records --released released --reasons reasons --proof proof
  fault: read records
  [5]
  $ calls
  fetch rules
  fetch records failed
  $ forxainde fill --rules rules --records records --released released
  fault: read records
  [5]
  $ calls
  fetch rules
  fetch records failed
  $ forxainde check --rules rules --records records --released released --proof proof
  fault: read records
  [5]
  $ cat >records <<EOF
  > A
  > EOF
  $ rm released proof
  $ forxainde check --rules rules --records records --released released --proof proof
  fault: read released
  [5]
  $ calls
  fetch rules
  fetch records
  fetch released failed
  $ cat >released <<EOF
  > A
  > EOF
  $ forxainde check --rules rules --records records --released released --proof proof
  fault: read proof
  [5]
  $ calls
  fetch rules
  fetch records
  fetch released
  fetch proof failed
