What these files can say of bytes and lines: how bytes that are not printable are spelled, and a file without a last line feed;
how lines are changed; and what a command says that cannot do its work.

  $ cat >odd <<EOF
  > plain
  > \x00\\\xff (esc)
  > ends in (esc) (esc)
  >
  > cut (no-eol)
  > EOF
  $ cat odd
  plain
  \x00\\\xff (esc)
  ends in (esc) (esc)
  
  cut (no-eol)

Lines are put first, left out, and put last.

  $ sed -i -e '0a\first\nsecond' -e '2d' -e '5a\last \x41' odd
  $ cat odd
  first
  second
  plain
  ends in (esc) (esc)
  
  cut
  last A

A line, or a file, that is not there is told.

  $ sed -i -e '9d' odd
  sed: odd: no line 9
  [1]
  $ cp odd 'two words'
  $ ls
  odd
  two words
  $ rm odd none
  rm: none: no such file
  [1]
  $ cat odd
  cat: odd: no such file
  [1]

Where no word is given the program prints that the words are faulty; here that line fails. An empty word is one.

  $ fail line 1
  $ forxainde
  [2]
  $ forxainde ''
  fault: usage
  [2]
