Rule files that have no reading: the first line that has a fault, and the least kind of fault that it has. The records are
not asked for.

A byte that is none of the text's, at the beginning, and on a later line.

  $ cat >rules <<EOF
  > \xc3number A (esc)
  > EOF
  $ forxainde rules --rules rules
  fault: rules line 1 kind 1 BadByte
  [3]
  $ cat >rules <<EOF
  > number A
  > A >= \x00 0 (esc)
  > EOF
  $ forxainde rules --rules rules
  fault: rules line 2 kind 1 BadByte
  [3]
  $ cat >rules <<EOF
  > number A
  > A \x0d >= 0 (esc)
  > EOF
  $ forxainde rules --rules rules
  fault: rules line 2 kind 1 BadByte
  [3]
  $ cat >rules <<EOF
  > \xef\xbb\xbf\xef\xbb\xbfnumber A (esc)
  > EOF
  $ forxainde rules --rules rules
  fault: rules line 1 kind 1 BadByte
  [3]

In a comment any byte may stand, and so may a byte order mark at the beginning, carriage returns at the ends of lines, and
tabs.

  $ cat >rules <<EOF
  > \xef\xbb\xbfnumber A # \x00 \xc3 \x0d \xff\x0d (esc)
  > #\x00 (esc)
  > \x0d (esc)
  > \x09A\x09>=\x091\x0d (esc) (no-eol)
  > EOF
  $ forxainde rules --rules rules
  1 kept needed A - 1 >= 0

Words that make no statement.

  $ cat >rules <<EOF
  > number A >= 0
  > EOF
  $ forxainde rules --rules rules
  fault: rules line 1 kind 2 Syntax
  [3]
  $ cat >rules <<EOF
  > number A
  > 0.5 A >= >= 0
  > EOF
  $ forxainde rules --rules rules
  fault: rules line 2 kind 2 Syntax
  [3]
  $ cat >rules <<EOF
  > number in
  > EOF
  $ forxainde rules --rules rules
  fault: rules line 1 kind 2 Syntax
  [3]
  $ cat >rules <<EOF
  > number a23456789012345678901234567890123
  > EOF
  $ forxainde rules --rules rules
  fault: rules line 1 kind 2 Syntax
  [3]
  $ cat >rules <<EOF
  > code B in {}
  > EOF
  $ forxainde rules --rules rules
  fault: rules line 1 kind 2 Syntax
  [3]
  $ cat >rules <<EOF
  > number A
  > .5 A >= 1
  > EOF
  $ forxainde rules --rules rules
  fault: rules line 2 kind 2 Syntax
  [3]
  $ cat >rules <<EOF
  > number A
  > if A >= 1
  > EOF
  $ forxainde rules --rules rules
  fault: rules line 2 kind 2 Syntax
  [3]

A name that is not declared on an earlier line, or as a field of another kind.

  $ cat >rules <<EOF
  > A >= 0
  > EOF
  $ forxainde rules --rules rules
  fault: rules line 1 kind 3 UnknownField
  [3]
  $ cat >rules <<EOF
  > A >= 0
  > number A
  > EOF
  $ forxainde rules --rules rules
  fault: rules line 1 kind 3 UnknownField
  [3]
  $ cat >rules <<EOF
  > number A
  >  (esc)
  > 0.5 B >= 0
  > EOF
  $ forxainde rules --rules rules
  fault: rules line 3 kind 3 UnknownField
  [3]
  $ cat >rules <<EOF
  > number A
  > A in {x}
  > EOF
  $ forxainde rules --rules rules
  fault: rules line 2 kind 3 UnknownField
  [3]
  $ cat >rules <<EOF
  > code B in {x, y}
  > B >= 1
  > EOF
  $ forxainde rules --rules rules
  fault: rules line 2 kind 3 UnknownField
  [3]

A name that is declared again, also as a field of the other kind.

  $ cat >rules <<EOF
  > number A
  > number A
  > EOF
  $ forxainde rules --rules rules
  fault: rules line 2 kind 4 DoubleField
  [3]
  $ cat >rules <<EOF
  > number A
  > code A weight 0 in {x, x}
  > EOF
  $ forxainde rules --rules rules
  fault: rules line 2 kind 4 DoubleField
  [3]

A code that its field has not, and one that stands twice in a list.

  $ cat >rules <<EOF
  > code B in {x, y}
  > B in {x, z}
  > EOF
  $ forxainde rules --rules rules
  fault: rules line 2 kind 5 UnknownCode
  [3]
  $ cat >rules <<EOF
  > code B in {x}
  > B in {y, y}
  > EOF
  $ forxainde rules --rules rules
  fault: rules line 2 kind 5 UnknownCode
  [3]
  $ cat >rules <<EOF
  > code B in {x, x}
  > EOF
  $ forxainde rules --rules rules
  fault: rules line 1 kind 6 DoubleCode
  [3]
  $ cat >rules <<EOF
  > code B in {x, y}
  > B not in {y, x, y}
  > EOF
  $ forxainde rules --rules rules
  fault: rules line 2 kind 6 DoubleCode
  [3]

A numeral with a point, and numbers past their limits: a weight, a scale, a factor and a constant, and sums of them.

  $ cat >rules <<EOF
  > number A
  > 0.5 A >= 0
  > EOF
  $ forxainde rules --rules rules
  fault: rules line 2 kind 7 NumberRange
  [3]
  $ cat >rules <<EOF
  > number A weight 0
  > EOF
  $ forxainde rules --rules rules
  fault: rules line 1 kind 7 NumberRange
  [3]
  $ cat >rules <<EOF
  > number A weight 1001
  > EOF
  $ forxainde rules --rules rules
  fault: rules line 1 kind 7 NumberRange
  [3]
  $ cat >rules <<EOF
  > number A scale 0
  > EOF
  $ forxainde rules --rules rules
  fault: rules line 1 kind 7 NumberRange
  [3]
  $ cat >rules <<EOF
  > number A scale 1000000000001
  > EOF
  $ forxainde rules --rules rules
  fault: rules line 1 kind 7 NumberRange
  [3]
  $ cat >rules <<EOF
  > number A
  > 1000000001 A - A >= 0
  > EOF
  $ forxainde rules --rules rules
  fault: rules line 2 kind 7 NumberRange
  [3]
  $ cat >rules <<EOF
  > number A
  > 1000000000 A + A >= 0
  > EOF
  $ forxainde rules --rules rules
  fault: rules line 2 kind 7 NumberRange
  [3]
  $ cat >rules <<EOF
  > number A
  > A >= 1000000000000001
  > EOF
  $ forxainde rules --rules rules
  fault: rules line 2 kind 7 NumberRange
  [3]
  $ cat >rules <<EOF
  > number A
  > A + 1000000000000000 >= -1
  > EOF
  $ forxainde rules --rules rules
  fault: rules line 2 kind 7 NumberRange
  [3]

Each at its limit.

  $ cat >rules <<EOF
  > number A weight 1000 scale 1000000000000
  > code B weight 1 in {x, y}
  > 999999999 A + A >= -1000000000000000
  > 1000000000 A <= 1000000000000000
  > EOF
  $ forxainde rules --rules rules
  1 kept needed A + 1000000 >= 0
  2 kept needed -A + 1000000 >= 0

A number in a condition, where it is an equality, where there is another condition, and where the conclusion is on a number
too.

  $ cat >rules <<EOF
  > number A
  > code B in {x, y}
  > if A = 0 then B in {x}
  > EOF
  $ forxainde rules --rules rules
  fault: rules line 3 kind 9 ConditionForm
  [3]
  $ cat >rules <<EOF
  > number A
  > code B in {x, y}
  > if B in {y} and A > 0 then B in {x}
  > EOF
  $ forxainde rules --rules rules
  fault: rules line 3 kind 9 ConditionForm
  [3]
  $ cat >rules <<EOF
  > number A
  > if A > 1 then A > 2
  > EOF
  $ forxainde rules --rules rules
  fault: rules line 2 kind 9 ConditionForm
  [3]

The 65th code of a declaration, and as many as there may be.

  $ cat >rules <<EOF
  > code B in {a,b,c,d,e,f,g,h,i,j,k,l,m,n,o,p,q,r,s,t,u,v,w,x,y,z,0,1,2,3,4,5,6,7,8,9,A,B,C,D,E,F,G,H,I,J,K,L,M,N,O,P,Q,R,S,T,U,V,W,X,Y,Z,_,-,.}
  > EOF
  $ forxainde rules --rules rules
  fault: rules line 1 kind 8 TooMany
  [3]
  $ cat >rules <<EOF
  > code B in {a,b,c,d,e,f,g,h,i,j,k,l,m,n,o,p,q,r,s,t,u,v,w,x,y,z,0,1,2,3,4,5,6,7,8,9,A,B,C,D,E,F,G,H,I,J,K,L,M,N,O,P,Q,R,S,T,U,V,W,X,Y,Z,_,-}
  > B not in {a}
  > EOF
  $ forxainde rules --rules rules
  1 kept needed if B in {a} then never

The 65th field, on line 65, and as many as there may be.

  $ cat >rules <<EOF
  > number B1
  > number B2
  > number B3
  > number B4
  > number B5
  > number B6
  > number B7
  > number B8
  > number B9
  > number B10
  > number B11
  > number B12
  > number B13
  > number B14
  > number B15
  > number B16
  > number B17
  > number B18
  > number B19
  > number B20
  > number B21
  > number B22
  > number B23
  > number B24
  > number B25
  > number B26
  > number B27
  > number B28
  > number B29
  > number B30
  > number B31
  > number B32
  > number B33
  > number B34
  > number B35
  > number B36
  > number B37
  > number B38
  > number B39
  > number B40
  > number B41
  > number B42
  > number B43
  > number B44
  > number B45
  > number B46
  > number B47
  > number B48
  > number B49
  > number B50
  > number B51
  > number B52
  > number B53
  > number B54
  > number B55
  > number B56
  > number B57
  > number B58
  > number B59
  > number B60
  > number B61
  > number B62
  > number B63
  > number B64
  > B64 >= 1
  > EOF
  $ forxainde rules --rules rules
  1 kept needed B64 - 1 >= 0
  $ sed -i -e '65c\number C' rules
  $ forxainde rules --rules rules
  fault: rules line 65 kind 8 TooMany
  [3]

The 501st rule, on line 502: behind one rule, ten times fifty more.

  $ cat >rules <<EOF
  > number A
  > A>=0
  > EOF
  $ sed -i -e '2a\A>=0\nA>=0\nA>=0\nA>=0\nA>=0\nA>=0\nA>=0\nA>=0\nA>=0\nA>=0\nA>=0\nA>=0\nA>=0\nA>=0\nA>=0\nA>=0\nA>=0\nA>=0\nA>=0\nA>=0\nA>=0\nA>=0\nA>=0\nA>=0\nA>=0\nA>=0\nA>=0\nA>=0\nA>=0\nA>=0\nA>=0\nA>=0\nA>=0\nA>=0\nA>=0\nA>=0\nA>=0\nA>=0\nA>=0\nA>=0\nA>=0\nA>=0\nA>=0\nA>=0\nA>=0\nA>=0\nA>=0\nA>=0\nA>=0\nA>=0' rules
  $ sed -i -e '2a\A>=0\nA>=0\nA>=0\nA>=0\nA>=0\nA>=0\nA>=0\nA>=0\nA>=0\nA>=0\nA>=0\nA>=0\nA>=0\nA>=0\nA>=0\nA>=0\nA>=0\nA>=0\nA>=0\nA>=0\nA>=0\nA>=0\nA>=0\nA>=0\nA>=0\nA>=0\nA>=0\nA>=0\nA>=0\nA>=0\nA>=0\nA>=0\nA>=0\nA>=0\nA>=0\nA>=0\nA>=0\nA>=0\nA>=0\nA>=0\nA>=0\nA>=0\nA>=0\nA>=0\nA>=0\nA>=0\nA>=0\nA>=0\nA>=0\nA>=0' rules
  $ sed -i -e '2a\A>=0\nA>=0\nA>=0\nA>=0\nA>=0\nA>=0\nA>=0\nA>=0\nA>=0\nA>=0\nA>=0\nA>=0\nA>=0\nA>=0\nA>=0\nA>=0\nA>=0\nA>=0\nA>=0\nA>=0\nA>=0\nA>=0\nA>=0\nA>=0\nA>=0\nA>=0\nA>=0\nA>=0\nA>=0\nA>=0\nA>=0\nA>=0\nA>=0\nA>=0\nA>=0\nA>=0\nA>=0\nA>=0\nA>=0\nA>=0\nA>=0\nA>=0\nA>=0\nA>=0\nA>=0\nA>=0\nA>=0\nA>=0\nA>=0\nA>=0' rules
  $ sed -i -e '2a\A>=0\nA>=0\nA>=0\nA>=0\nA>=0\nA>=0\nA>=0\nA>=0\nA>=0\nA>=0\nA>=0\nA>=0\nA>=0\nA>=0\nA>=0\nA>=0\nA>=0\nA>=0\nA>=0\nA>=0\nA>=0\nA>=0\nA>=0\nA>=0\nA>=0\nA>=0\nA>=0\nA>=0\nA>=0\nA>=0\nA>=0\nA>=0\nA>=0\nA>=0\nA>=0\nA>=0\nA>=0\nA>=0\nA>=0\nA>=0\nA>=0\nA>=0\nA>=0\nA>=0\nA>=0\nA>=0\nA>=0\nA>=0\nA>=0\nA>=0' rules
  $ sed -i -e '2a\A>=0\nA>=0\nA>=0\nA>=0\nA>=0\nA>=0\nA>=0\nA>=0\nA>=0\nA>=0\nA>=0\nA>=0\nA>=0\nA>=0\nA>=0\nA>=0\nA>=0\nA>=0\nA>=0\nA>=0\nA>=0\nA>=0\nA>=0\nA>=0\nA>=0\nA>=0\nA>=0\nA>=0\nA>=0\nA>=0\nA>=0\nA>=0\nA>=0\nA>=0\nA>=0\nA>=0\nA>=0\nA>=0\nA>=0\nA>=0\nA>=0\nA>=0\nA>=0\nA>=0\nA>=0\nA>=0\nA>=0\nA>=0\nA>=0\nA>=0' rules
  $ sed -i -e '2a\A>=0\nA>=0\nA>=0\nA>=0\nA>=0\nA>=0\nA>=0\nA>=0\nA>=0\nA>=0\nA>=0\nA>=0\nA>=0\nA>=0\nA>=0\nA>=0\nA>=0\nA>=0\nA>=0\nA>=0\nA>=0\nA>=0\nA>=0\nA>=0\nA>=0\nA>=0\nA>=0\nA>=0\nA>=0\nA>=0\nA>=0\nA>=0\nA>=0\nA>=0\nA>=0\nA>=0\nA>=0\nA>=0\nA>=0\nA>=0\nA>=0\nA>=0\nA>=0\nA>=0\nA>=0\nA>=0\nA>=0\nA>=0\nA>=0\nA>=0' rules
  $ sed -i -e '2a\A>=0\nA>=0\nA>=0\nA>=0\nA>=0\nA>=0\nA>=0\nA>=0\nA>=0\nA>=0\nA>=0\nA>=0\nA>=0\nA>=0\nA>=0\nA>=0\nA>=0\nA>=0\nA>=0\nA>=0\nA>=0\nA>=0\nA>=0\nA>=0\nA>=0\nA>=0\nA>=0\nA>=0\nA>=0\nA>=0\nA>=0\nA>=0\nA>=0\nA>=0\nA>=0\nA>=0\nA>=0\nA>=0\nA>=0\nA>=0\nA>=0\nA>=0\nA>=0\nA>=0\nA>=0\nA>=0\nA>=0\nA>=0\nA>=0\nA>=0' rules
  $ sed -i -e '2a\A>=0\nA>=0\nA>=0\nA>=0\nA>=0\nA>=0\nA>=0\nA>=0\nA>=0\nA>=0\nA>=0\nA>=0\nA>=0\nA>=0\nA>=0\nA>=0\nA>=0\nA>=0\nA>=0\nA>=0\nA>=0\nA>=0\nA>=0\nA>=0\nA>=0\nA>=0\nA>=0\nA>=0\nA>=0\nA>=0\nA>=0\nA>=0\nA>=0\nA>=0\nA>=0\nA>=0\nA>=0\nA>=0\nA>=0\nA>=0\nA>=0\nA>=0\nA>=0\nA>=0\nA>=0\nA>=0\nA>=0\nA>=0\nA>=0\nA>=0' rules
  $ sed -i -e '2a\A>=0\nA>=0\nA>=0\nA>=0\nA>=0\nA>=0\nA>=0\nA>=0\nA>=0\nA>=0\nA>=0\nA>=0\nA>=0\nA>=0\nA>=0\nA>=0\nA>=0\nA>=0\nA>=0\nA>=0\nA>=0\nA>=0\nA>=0\nA>=0\nA>=0\nA>=0\nA>=0\nA>=0\nA>=0\nA>=0\nA>=0\nA>=0\nA>=0\nA>=0\nA>=0\nA>=0\nA>=0\nA>=0\nA>=0\nA>=0\nA>=0\nA>=0\nA>=0\nA>=0\nA>=0\nA>=0\nA>=0\nA>=0\nA>=0\nA>=0' rules
  $ sed -i -e '2a\A>=0\nA>=0\nA>=0\nA>=0\nA>=0\nA>=0\nA>=0\nA>=0\nA>=0\nA>=0\nA>=0\nA>=0\nA>=0\nA>=0\nA>=0\nA>=0\nA>=0\nA>=0\nA>=0\nA>=0\nA>=0\nA>=0\nA>=0\nA>=0\nA>=0\nA>=0\nA>=0\nA>=0\nA>=0\nA>=0\nA>=0\nA>=0\nA>=0\nA>=0\nA>=0\nA>=0\nA>=0\nA>=0\nA>=0\nA>=0\nA>=0\nA>=0\nA>=0\nA>=0\nA>=0\nA>=0\nA>=0\nA>=0\nA>=0\nA>=0' rules
  $ forxainde rules --rules rules
  fault: rules line 502 kind 8 TooMany
  [3]

With one rule less there is no fault: a survey of 500 rules has no record here, and its lines are all the same.

  $ sed -i -e '502d' rules
  $ cat >records <<EOF
  > A
  > EOF
  $ forxainde edit --rules rules --records records --released released --reasons reasons --proof proof
  records 0 clean 0 changed 0 unresolved 0 weight 0
  claims 0 given 0
  $ cat released
  A

501 rules with spaces. Where the line of the last one has a fault of a lesser kind, that is told, and one on a line before it, whatever
its kind; but not what stands behind it. In a comment there is no fault, and the line is no rule.

  $ yes 'A >= 0' | head -n 502 >rules
  $ sed -i -e '1c\number A' rules
  $ forxainde rules --rules rules
  fault: rules line 502 kind 8 TooMany
  [3]
  $ sed -i -e '502c\A >= 0 \x00' rules
  $ forxainde rules --rules rules
  fault: rules line 502 kind 1 BadByte
  [3]
  $ sed -i -e '502c\A >=' rules
  $ forxainde rules --rules rules
  fault: rules line 502 kind 2 Syntax
  [3]
  $ sed -i -e '502c\B >= 0' rules
  $ forxainde rules --rules rules
  fault: rules line 502 kind 3 UnknownField
  [3]
  $ sed -i -e '502c\0.5 A >= 0' rules
  $ forxainde rules --rules rules
  fault: rules line 502 kind 7 NumberRange
  [3]
  $ sed -i -e '502c\if A > 1 then A > 2' rules
  $ forxainde rules --rules rules
  fault: rules line 502 kind 8 TooMany
  [3]
  $ sed -i -e '2c\A >= 1 1' rules
  $ forxainde rules --rules rules
  fault: rules line 2 kind 2 Syntax
  [3]
  $ sed -i -e '2c\A >= 0' -e '502c\A >= 0' -e '502a\\x00' rules
  $ forxainde rules --rules rules
  fault: rules line 502 kind 8 TooMany
  [3]
  $ sed -i -e '502c\# A >= 0 \x00' -e '503c\# \x00\xff' rules
  $ forxainde edit --rules rules --records records --released released --reasons reasons --proof proof
  records 0 clean 0 changed 0 unresolved 0 weight 0
  claims 0 given 0

A list of 65 codes of which two are the same; and 65 in a rule, whose field has only two.

  $ cat >rules <<EOF
  > code B in {a,b,c,d,e,f,g,h,i,j,k,l,m,n,o,p,q,r,s,t,u,v,w,x,y,z,0,1,2,3,4,5,6,7,8,9,A,B,C,D,E,F,G,H,I,J,K,L,M,N,O,P,Q,R,S,T,U,V,W,X,Y,Z,_,-,a}
  > EOF
  $ forxainde rules --rules rules
  fault: rules line 1 kind 6 DoubleCode
  [3]
  $ cat >rules <<EOF
  > code B in {x, y}
  > B in {a,b,c,d,e,f,g,h,i,j,k,l,m,n,o,p,q,r,s,t,u,v,w,x,y,z,0,1,2,3,4,5,6,7,8,9,A,B,C,D,E,F,G,H,I,J,K,L,M,N,O,P,Q,R,S,T,U,V,W,X,Y,Z,_,-,.}
  > EOF
  $ forxainde rules --rules rules
  fault: rules line 2 kind 5 UnknownCode
  [3]
