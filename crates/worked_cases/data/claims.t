A release of four records, of which the first and the third are changed and claim the others as donors, and the audit of it
where its claims are others. Which values a donor gave is not checked.

  $ cat >rules <<EOF
  > number A
  > number B
  > A + B <= 6
  > EOF
  $ cat >records <<EOF
  > A,B
  > 3,4
  > 1,2
  > 5,4
  > 2,2
  > EOF
  $ cat >released <<EOF
  > A,B
  > 3,0
  > 1,2
  > 5,0
  > 2,2
  > EOF
  $ cat >right.proof <<EOF
  > fh-proof 1
  > limit 1 near 2 budget 1000000
  > lines 1
  > keep
  > records 4
  > change 1 KC 3
  > line KK 1
  > given 1
  > bound KC
  > bound C
  > clean
  > change 1 KC 3
  > line KK 1
  > given 1
  > bound KC
  > bound C
  > clean
  > claims 2
  > claim 1 2 2 4
  > claim 3 4 2 4
  > end
  > EOF
  $ cp right.proof proof
  $ forxainde check --rules rules --records records --released released --proof proof
  valid records 4 released 4

In another order than that of the records.

  $ cp right.proof proof
  $ sed -i -e '19c\claim 3 2 2 4' -e '20c\claim 1 4 2 4' proof
  $ forxainde check --rules rules --records records --released released --proof proof
  valid records 4 released 4

One donor for two records, where the limit is 2; and rankings of one donor each.

  $ cp right.proof proof
  $ sed -i -e '2c\limit 2 near 2 budget 1000000' -e '20c\claim 3 2 2 4' proof
  $ forxainde check --rules rules --records records --released released --proof proof
  valid records 4 released 4
  $ cp right.proof proof
  $ sed -i -e '2c\limit 1 near 1 budget 1000000' -e '19c\claim 1 4 4' -e '20c\claim 3 2 2' proof
  $ forxainde check --rules rules --records records --released released --proof proof
  valid records 4 released 4

Nobody, where no donor is ranked or each was given to another record.

  $ cp right.proof proof
  $ sed -i -e '19c\claim 1 0' -e '20c\claim 3 2 2 4' proof
  $ forxainde check --rules rules --records records --released released --proof proof
  valid records 4 released 4
  $ cp right.proof proof
  $ sed -i -e '19c\claim 1 2 2' -e '20c\claim 3 0 2' proof
  $ forxainde check --rules rules --records records --released released --proof proof
  valid records 4 released 4

A record that changes has no claim.

  $ cp right.proof proof
  $ sed -i -e '18c\claims 0' -e '19d' -e '20d' proof
  $ forxainde check --rules rules --records records --released released --proof proof
  fault: proof line 18 Claims
  [9]
  $ cp right.proof proof
  $ sed -i -e '18c\claims 1' -e '19d' -e '20c\claim 3 2 2 4' proof
  $ forxainde check --rules rules --records records --released released --proof proof
  fault: proof line 18 Claims
  [9]
  $ cp right.proof proof
  $ sed -i -e '18c\claims 1' -e '20d' proof
  $ forxainde check --rules rules --records records --released released --proof proof
  fault: proof line 18 Claims
  [9]

A claim of a clean record, of one that is not there, and two of the same one.

  $ cp right.proof proof
  $ sed -i -e '19c\claim 2 0' proof
  $ forxainde check --rules rules --records records --released released --proof proof
  fault: proof line 19 Claims
  [9]
  $ cp right.proof proof
  $ sed -i -e '20c\claim 5 0' proof
  $ forxainde check --rules rules --records records --released released --proof proof
  fault: proof line 20 Claims
  [9]
  $ cp right.proof proof
  $ sed -i -e '20c\claim 1 4 2 4' proof
  $ forxainde check --rules rules --records records --released released --proof proof
  fault: proof line 20 Claims
  [9]
  $ cp right.proof proof
  $ sed -i -e '18c\claims 3' -e '20c\claim 3 4 2 4\nclaim 3 0 2 4' proof
  $ forxainde check --rules rules --records records --released released --proof proof
  fault: proof line 21 Claims
  [9]

A donor that is not clean, given or ranked alone, one that is not there, and one that stands twice.

  $ cp right.proof proof
  $ sed -i -e '19c\claim 1 3 3 4' proof
  $ forxainde check --rules rules --records records --released released --proof proof
  fault: proof line 19 Claims
  [9]
  $ cp right.proof proof
  $ sed -i -e '20c\claim 3 4 4 1' proof
  $ forxainde check --rules rules --records records --released released --proof proof
  fault: proof line 20 Claims
  [9]
  $ cp right.proof proof
  $ sed -i -e '20c\claim 3 4 4 5' proof
  $ forxainde check --rules rules --records records --released released --proof proof
  fault: proof line 20 Claims
  [9]
  $ cp right.proof proof
  $ sed -i -e '20c\claim 3 4 4 4' proof
  $ forxainde check --rules rules --records records --released released --proof proof
  fault: proof line 20 Claims
  [9]

More donors than may be ranked.

  $ cp right.proof proof
  $ sed -i -e '2c\limit 1 near 1 budget 1000000' proof
  $ forxainde check --rules rules --records records --released released --proof proof
  fault: proof line 19 Claims
  [9]

A donor that is not the first, nobody where there is one, one that is not ranked, and one that was given before.

  $ cp right.proof proof
  $ sed -i -e '19c\claim 1 4 2 4' proof
  $ forxainde check --rules rules --records records --released released --proof proof
  fault: proof line 19 Claims
  [9]
  $ cp right.proof proof
  $ sed -i -e '19c\claim 1 0 2 4' proof
  $ forxainde check --rules rules --records records --released released --proof proof
  fault: proof line 19 Claims
  [9]
  $ cp right.proof proof
  $ sed -i -e '19c\claim 1 4 2' proof
  $ forxainde check --rules rules --records records --released released --proof proof
  fault: proof line 19 Claims
  [9]
  $ cp right.proof proof
  $ sed -i -e '20c\claim 3 2 2 4' proof
  $ forxainde check --rules rules --records records --released released --proof proof
  fault: proof line 20 Claims
  [9]

The first wrong claim is told, whatever is wrong with it, and before a record without one.

  $ cp right.proof proof
  $ sed -i -e '19c\claim 1 0 2 4' -e '20c\claim 5 0' proof
  $ forxainde check --rules rules --records records --released released --proof proof
  fault: proof line 19 Claims
  [9]
  $ cp right.proof proof
  $ sed -i -e '19c\claim 2 0' -e '20c\claim 3 2 2 4' proof
  $ forxainde check --rules rules --records records --released released --proof proof
  fault: proof line 19 Claims
  [9]
  $ cp right.proof proof
  $ sed -i -e '18c\claims 1' -e '19d' -e '20c\claim 3 4 2 4' proof
  $ forxainde check --rules rules --records records --released released --proof proof
  fault: proof line 19 Claims
  [9]

What is said of a record is told before all claims.

  $ cp right.proof proof
  $ sed -i -e '12c\change 2 KC 3' -e '19c\claim 2 0' proof
  $ forxainde check --rules rules --records records --released released --proof proof
  fault: proof line 12 Cert
  [9]
