The nearest donors of a record, at the fields that a path keeps: a donor is a record that is right as it stands.

Of donors that are as near the earlier comes first. A is measured by its scale, in thousandths.

  $ cat >rules <<EOF
  > number A
  > number B
  > A >= 0
  > B >= 1
  > EOF
  $ cat >records <<EOF
  > A,B
  > 2/3,1
  > 1/3,1
  > 0.6,1
  > 1/2,
  > EOF
  $ rank rules records KC 4 2
  donors 3 1
  $ rank rules records KC 4 9
  donors 3 1 2
  $ cat >scaled <<EOF
  > number A scale 1000
  > number B
  > A >= 0
  > B >= 1
  > EOF
  $ cat >records <<EOF
  > A,B
  > 1,2
  > 0,3
  > 0.9,
  > EOF
  $ rank scaled records KC 3 1
  donors 1

No donor is measured of which the bucket is too far.

  $ measured scaled records KC 3 1 2
  at most 2
  $ cat >records <<EOF
  > A,B
  > 0,3
  > 5000,4
  > 0.9,
  > EOF
  $ rank scaled records KC 3 1
  donors 1
  $ measured scaled records KC 3 1 1
  at most 1
  $ measured scaled records KC 3 1 0
  1

Records that break a rule or lack a value are no donors.

  $ cat >records <<EOF
  > A,B
  > -1,2
  > 0,0
  > 0.9,
  > EOF
  $ rank rules records KC 3 5
  donors

Of 70 donors, each 1 nearer than the one before, the 64 last are the nearest, the last one first; by a scale of a million all are
as near, and the 64 first are told.

  $ cat >records <<EOF
  > A,B
  > 100,1
  > 99,1
  > 98,1
  > 97,1
  > 96,1
  > 95,1
  > 94,1
  > 93,1
  > 92,1
  > 91,1
  > 90,1
  > 89,1
  > 88,1
  > 87,1
  > 86,1
  > 85,1
  > 84,1
  > 83,1
  > 82,1
  > 81,1
  > 80,1
  > 79,1
  > 78,1
  > 77,1
  > 76,1
  > 75,1
  > 74,1
  > 73,1
  > 72,1
  > 71,1
  > 70,1
  > 69,1
  > 68,1
  > 67,1
  > 66,1
  > 65,1
  > 64,1
  > 63,1
  > 62,1
  > 61,1
  > 60,1
  > 59,1
  > 58,1
  > 57,1
  > 56,1
  > 55,1
  > 54,1
  > 53,1
  > 52,1
  > 51,1
  > 50,1
  > 49,1
  > 48,1
  > 47,1
  > 46,1
  > 45,1
  > 44,1
  > 43,1
  > 42,1
  > 41,1
  > 40,1
  > 39,1
  > 38,1
  > 37,1
  > 36,1
  > 35,1
  > 34,1
  > 33,1
  > 32,1
  > 31,1
  > 0,
  > EOF
  $ rank scaled records KC 71 64
  donors 70 69 68 67 66 65 64 63 62 61 60 59 58 57 56 55 54 53 52 51 50 49 48 47 46 45 44 43 42 41 40 39 38 37 36 35 34 33 32 31 30 29 28 27 26 25 24 23 22 21 20 19 18 17 16 15 14 13 12 11 10 9 8 7
  $ cat >coarse <<EOF
  > number A scale 1000000
  > number B
  > A >= 0
  > B >= 1
  > EOF
  $ rank coarse records KC 71 64
  donors 1 2 3 4 5 6 7 8 9 10 11 12 13 14 15 16 17 18 19 20 21 22 23 24 25 26 27 28 29 30 31 32 33 34 35 36 37 38 39 40 41 42 43 44 45 46 47 48 49 50 51 52 53 54 55 56 57 58 59 60 61 62 63 64

The nearest of the donors that have the record's code at the class field. The sixth record is 1 from the first, 3 from the second and 4 from the fourth, which
are of its class; the third has its A, and another code, which is 1000 away; the fifth breaks a rule. The record's code counts for its class whether the
path keeps it or not.

  $ cat >classes <<EOF
  > number A scale 1000
  > number B
  > code Reg in {n, s, e}
  > A >= 0
  > B >= 1
  > EOF
  $ cat >records <<EOF
  > A,B,Reg
  > 6,2,n
  > 8,2,n
  > 5,2,s
  > 1,2,n
  > 5,0,n
  > 5,,n
  > 5,,e
  > 5,,
  > EOF
  $ rank classes records KCK 6 5
  donors 1 2 4 3
  $ rank classes records KCK 6 5 Reg
  donors 1 2 4
  $ rank classes records KCC 6 2 Reg
  donors 1 2
  $ rank classes records KCK 3 5 Reg
  donors 3

A class without donors, a record without a code there, a numerical field, and none.

  $ rank classes records KCK 7 5 Reg
  donors
  $ rank classes records KCC 8 5 Reg
  no such field or code
  [1]
  $ rank classes records KCK 6 5 A
  no such field or code
  [1]
  $ rank classes records KCK 6 5 Region
  no such field or code
  [1]
  $ rank classes records KCK 6 5 Reg Reg
  words out of form
  [1]

No donor of another class is measured, and of the class one alone: the first, of which the next bucket tells nothing. The second is 2 whole buckets away.

  $ measured classes records KCK 6 1 2 Reg
  at most 2
