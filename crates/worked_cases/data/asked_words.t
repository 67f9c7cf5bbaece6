What words ask for: the command, its files in the order of its options, and its numbers; or nothing.

Further words of an edit of five files: how many workers it has, its budget, its limit and how many donors a record ranks.

  $ words edit --rules r --records c --released d --reasons w --proof p
  edit r c d w p 1 1000000 1 5
  $ words edit --rules r --records c --released d --reasons w --proof p --workers 0
  nothing
  $ words edit --rules r --records c --released d --reasons w --proof p --workers 1
  edit r c d w p 1 1000000 1 5
  $ words edit --rules r --records c --released d --reasons w --proof p --workers 2
  edit r c d w p 2 1000000 1 5
  $ words edit --rules r --records c --released d --reasons w --proof p --workers 64
  edit r c d w p 64 1000000 1 5
  $ words edit --rules r --records c --released d --reasons w --proof p --workers 65
  nothing
  $ words edit --rules r --records c --released d --reasons w --proof p --workers 4294967297
  nothing
  $ words edit --rules r --records c --released d --reasons w --proof p --workers 3 --workers 3
  nothing
  $ words edit --rules r --records c --released d --reasons w --proof p --budget 1
  edit r c d w p 1 1 1 5
  $ words edit --rules r --records c --released d --reasons w --proof p --budget 1000000000
  edit r c d w p 1 1000000000 1 5
  $ words edit --rules r --records c --released d --reasons w --proof p --budget 1000000001
  nothing
  $ words edit --rules r --records c --released d --reasons w --proof p --limit 0
  nothing
  $ words edit --rules r --records c --released d --reasons w --proof p --limit 1
  edit r c d w p 1 1000000 1 5
  $ words edit --rules r --records c --released d --reasons w --proof p --limit 1000
  edit r c d w p 1 1000000 1000 5
  $ words edit --rules r --records c --released d --reasons w --proof p --limit 1001
  nothing
  $ words edit --rules r --records c --released d --reasons w --proof p --near 0
  nothing
  $ words edit --rules r --records c --released d --reasons w --proof p --near 1
  edit r c d w p 1 1000000 1 1
  $ words edit --rules r --records c --released d --reasons w --proof p --near 64
  edit r c d w p 1 1000000 1 64
  $ words edit --rules r --records c --released d --reasons w --proof p --near 65
  nothing
  $ words edit --rules r --records c --released d --reasons w --proof p --budget 3 --near 2
  edit r c d w p 1 3 1 2
  $ words edit --rules r --records c --released d --reasons w --proof p --near 9 --workers 008 --limit 2 --budget 7
  edit r c d w p 8 7 2 9
  $ words edit --rules r --records c --released d --reasons w --proof p --near 64 --limit 1000 --budget 1000000000
  edit r c d w p 1 1000000000 1000 64

Ten digits, eleven, and one more than 32 bits hold.

  $ words edit --rules r --records c --released d --reasons w --proof p --limit 007
  edit r c d w p 1 1000000 7 5
  $ words edit --rules r --records c --released d --reasons w --proof p --near 0000000064
  edit r c d w p 1 1000000 1 64
  $ words edit --rules r --records c --released d --reasons w --proof p --near 00000000064
  nothing
  $ words edit --rules r --records c --released d --reasons w --proof p --budget 01000000000
  nothing
  $ words edit --rules r --records c --released d --reasons w --proof p --limit 4294967297
  nothing

No digits alone.

  $ words edit --rules r --records c --released d --reasons w --proof p --budget +5
  nothing
  $ words edit --rules r --records c --released d --reasons w --proof p --budget=+5
  nothing
  $ words edit --rules r --records c --released d --reasons w --proof p --limit -1
  nothing
  $ words edit --rules r --records c --released d --reasons w --proof p --limit=-1
  nothing
  $ words edit --rules r --records c --released d --reasons w --proof p --near 5.
  nothing
  $ words edit --rules r --records c --released d --reasons w --proof p --near 0x5
  nothing
  $ words edit --rules r --records c --released d --reasons w --proof p --near ''
  nothing
  $ words edit --rules r --records c --released d --reasons w --proof p --near=
  nothing
  $ words edit --rules r --records c --released d --reasons w --proof p --near -
  nothing
  $ words edit --rules r --records c --released d --reasons w --proof p --near=5=5
  nothing

The value behind the option's name.

  $ words edit --rules r --records c --released d --reasons w --proof p --near=64
  edit r c d w p 1 1000000 1 64
  $ words edit --rules r --records c --released d --reasons w --proof p --limit=007 --workers 2
  edit r c d w p 2 1000000 7 5
  $ words edit --rules r --records c --released d --reasons w --proof p --budget=3 --
  edit r c d w p 1 3 1 5
  $ words edit --rules r --records c --released d --reasons w --proof p --
  edit r c d w p 1 1000000 1 5

An option for a value, again, unknown, and without a value.

  $ words edit --rules r --records c --released d --reasons w --proof p --near --limit
  nothing
  $ words edit --rules r --records c --released d --reasons w --proof p --near 5 --near 5
  nothing
  $ words edit --rules r --records c --released d --reasons w --proof p --near=5 --near=5
  nothing
  $ words edit --rules r --records c --released d --reasons w --proof p --near 5 --near=6
  nothing
  $ words edit --rules r --records c --released d --reasons w --proof p --limit 2 --budget 4 --limit 3
  nothing
  $ words edit --rules r --records c --released d --reasons w --proof p --far 5
  nothing
  $ words edit --rules r --records c --released d --reasons w --proof p --Near 5
  nothing
  $ words edit --rules r --records c --released d --reasons w --proof p near 5
  nothing
  $ words edit --rules r --records c --released d --reasons w --proof p --limit
  nothing
  $ words edit --rules r --records c --released d --reasons w --proof p --limit 2 --near
  nothing
  $ words edit --rules r --records c --released d --reasons w --proof p --nea 5
  nothing
  $ words edit --rules r --records c --released d --reasons w --proof p -n 5
  nothing
  $ words edit --rules r --records c --released d --reasons w --proof p -near 5
  nothing

Behind two dashes there is nothing to be named.

  $ words edit --rules r --records c --released d --reasons w --proof p --near --
  nothing
  $ words edit --rules r --records c --released d --reasons w --proof p --near -- 5
  nothing
  $ words edit --rules r --records c --released d --reasons w --proof p -- --near 5
  nothing
  $ words edit --rules r --records c --released d --reasons w --proof p -- --
  nothing

Words, and what they ask for.

  $ words edit --proof p --near 9 --reasons w --released d --records c --limit 3 --rules r
  edit r c d w p 1 1000000 3 9
  $ words edit --rules edit --records a-b --released 5 --reasons r. --proof é
  edit edit a-b 5 r. \xc3\xa9 1 1000000 1 5 (esc)

A file that is not named.

  $ words edit --records c --released d --reasons w --proof p
  nothing
  $ words edit --rules r --released d --reasons w --proof p
  nothing
  $ words edit --rules r --records c --reasons w --proof p
  nothing
  $ words edit --rules r --records c --released d --proof p
  nothing
  $ words edit --rules r --records c --released d --reasons w
  nothing

Two files of the same name.

  $ words edit --rules r --records r --released d --reasons w --proof p
  nothing
  $ words edit --rules r --records c --released d --reasons w --proof r
  nothing
  $ words edit --rules r --records c --released c --reasons w --proof p
  nothing
  $ words edit --rules r --records c --released d --reasons w --proof w
  nothing

An empty name is a name, but not twice.

  $ words edit --rules '' --records c --released d --reasons w --proof p
  edit  c d w p 1 1000000 1 5
  $ words edit --rules r --records= --released d --reasons w --proof p --near 9
  edit r  d w p 1 1000000 1 9
  $ words edit --rules= --records '' --released d --reasons w --proof p
  nothing

A name that begins with a dash.

  $ words edit --rules r --records -c --released d --reasons w --proof p
  nothing
  $ words edit --rules r --records=-c --released - --reasons=--near --proof=5
  edit r -c - --near 5 1 1000000 1 5

The same name in two ways.

  $ words edit --rules r --records c --released d --reasons=r --proof p
  nothing

Names that lead to one file: a dot in front, dots and slashes between the folders, and slashes behind. From the root, in a folder,
or to a folder above, they lead elsewhere.

  $ words edit --rules r --records c --released ./c --reasons w --proof p
  nothing
  $ words edit --rules ./r --records c --released d --reasons w --proof .//./r
  nothing
  $ words edit --rules r --records a/c --released d --reasons a//c --proof p
  nothing
  $ words edit --rules r --records c --released a/./d --reasons w --proof a/d/
  nothing
  $ words edit --rules r --records /c --released d --reasons //c --proof p
  nothing
  $ words edit --rules '' --records ./. --released d --reasons w --proof p
  nothing
  $ words edit --rules r --records c --released /c --reasons a/c --proof ../c
  edit r c /c a/c ../c 1 1000000 1 5
  $ words edit --rules .r --records r. --released ..r --reasons r/r --proof a/../r
  edit .r r. ..r r/r a/../r 1 1000000 1 5
  $ words check --rules r --records c --released d --proof ./d
  nothing
  $ words check --rules r --records ./c --released d --proof p
  check r ./c d p
  $ words make --rules r --records ./r
  nothing
  $ words make --rules a/r --records a/./r
  nothing

No command, or behind its options.

  $ words ''
  nothing
  $ words edit
  nothing
  $ words Edit --rules r --records c --released d --reasons w --proof p
  nothing
  $ words --rules r --records c --released d --reasons w --proof p edit
  nothing
  $ words edit edit --rules r --records c --released d --reasons w --proof p
  nothing

A check takes four of the files, and no number.

  $ words check --rules r --records c --released d --proof p
  check r c d p
  $ words check --proof p --released d --records c --rules r
  check r c d p
  $ words check --rules r --records c --released d --reasons w --proof p
  nothing
  $ words check --rules r --records c --released d --proof p --near 5
  nothing
  $ words check --rules r --records c --released d
  nothing
  $ words check --rules=a=b --proof=é --records c --released d --
  check a=b c d \xc3\xa9 (esc)
  $ words check --rules r --records c --released d --proof p --help
  nothing
  $ words check --rules r --records c --released r --proof p
  nothing
  $ words check --rules r --records c --released d --proof p --proof p
  nothing

The command of the rules takes one.

  $ words rules --rules r
  rules r
  $ words rules --rules rules
  rules rules
  $ words rules --rules r --limit 1
  nothing
  $ words rules --rules r --rules r
  nothing
  $ words rules --records r
  nothing
  $ words rules --rules r r
  nothing
  $ words rules --rules
  nothing
  $ words rules --rules ''
  rules 
  $ words rules --rules=
  rules 
  $ words rules --rules -
  rules -
  $ words rules --rules=r
  rules r
  $ words rules --rules=-x
  rules -x
  $ words rules --rules=--
  rules --
  $ words rules --rules -x
  nothing
  $ words rules --rules --x
  nothing
  $ words rules --rules --rules
  nothing
  $ words rules --rules r --
  rules r
  $ words rules --rules=r --
  rules r
  $ words rules --rules r -- r
  nothing
  $ words rules --rules r -- --
  nothing
  $ words rules --rules r -
  nothing
  $ words rules --rules r ''
  nothing
  $ words rules --rules --
  nothing
  $ words rules --rules -- r
  nothing
  $ words rules -- --rules r
  nothing
  $ words rules r --rules r
  nothing
  $ words rules --rules r --rules=r
  nothing
  $ words rules --=r
  nothing
  $ words rules --rule r
  nothing
  $ words rules --Rules r
  nothing
  $ words rules -rules r
  nothing
  $ words rules --
  nothing
  $ words rules
  nothing

The command that fills records takes three, and a budget.

  $ words fill --rules r --records c --released d
  fill r c d 1000000
  $ words fill --released d --budget 7 --records c --rules r
  fill r c d 7
  $ words fill --rules r --records c --released d --budget 1
  fill r c d 1
  $ words fill --rules r --records c --released d --budget=1000000000 --
  fill r c d 1000000000
  $ words fill --rules r --records c --released d --budget 0000000001
  fill r c d 1
  $ words fill --rules r --records c --released d --budget 0
  nothing
  $ words fill --rules r --records c --released d --budget 1000000001
  nothing
  $ words fill --rules r --records c --released d --budget 01000000000
  nothing
  $ words fill --rules r --records c --released d --budget 4294967297
  nothing
  $ words fill --rules r --records c --released d --budget=+5
  nothing
  $ words fill --rules r --records c --released d --budget ''
  nothing
  $ words fill --rules r --records c --released d --budget
  nothing
  $ words fill --rules r --records c --released d --budget 5 --budget=5
  nothing
  $ words fill --rules fill --records= --released=-d
  fill fill  -d 1000000
  $ words fill --records c --released d
  nothing
  $ words fill --rules r --released d
  nothing
  $ words fill --rules r --records c
  nothing
  $ words fill --rules r --records c --released c
  nothing
  $ words fill --rules r --records c --released r
  nothing
  $ words fill --rules a/r --records c --released ./a//r
  nothing
  $ words fill --rules r --records c --released /c
  fill r c /c 1000000
  $ words fill --rules r --records c --released d --released d
  nothing
  $ words fill --rules r --records c --released d --workers 2
  nothing
  $ words fill --rules r --records c --released d --near 5
  nothing
  $ words fill --rules r --records c --released d --limit 1
  nothing
  $ words fill --rules r --records c --released d --reasons w
  nothing
  $ words fill --rules r --records c --released d --proof p
  nothing
  $ words fill --rules r --records c --released d e
  nothing
  $ words fill --rules r --records c --released d --help
  nothing
  $ words fill
  nothing
  $ words Fill --rules r --records c --released d
  nothing
  $ words fill fill --rules r --records c --released d
  nothing

The command that edits records beside those of the last period takes six files and a key, and a budget. The key may be any text: it is no file.

  $ words panel --rules r --records c --last l --released d --reasons w --proof p --key k
  panel r c l d w p k 1000000
  $ words panel --key k --proof p --budget 007 --last l --reasons w --released d --records c --rules r
  panel r c l d w p k 7
  $ words panel --rules r --records c --last l --released d --reasons w --proof p --key=r --budget=1000000000 --
  panel r c l d w p r 1000000000
  $ words panel --rules r --records c --last l --released d --reasons w --proof p --key ''
  panel r c l d w p  1000000
  $ words panel --rules r --records c --last l --released d --reasons w --proof p --key '7 9'
  panel r c l d w p 7 9 1000000
  $ words panel --rules r --records c --last l --released d --reasons w --proof p --key=-k
  panel r c l d w p -k 1000000
  $ words panel --rules r --records c --last l --released d --reasons w --proof p --key -k
  nothing
  $ words panel --rules r --records c --last l --released d --reasons w --proof p --key k --key k
  nothing
  $ words panel --rules r --records c --last l --released d --reasons w --proof p
  nothing
  $ words panel --rules r --records c --released d --reasons w --proof p --key k
  nothing
  $ words panel --rules r --records c --last l --released d --proof p --key k
  nothing
  $ words panel --rules r --records c --last l --released d --reasons w --proof p --key k --budget 0
  nothing
  $ words panel --rules r --records c --last l --released d --reasons w --proof p --key k --budget 1000000001
  nothing
  $ words panel --rules r --records c --last c --released d --reasons w --proof p --key k
  nothing
  $ words panel --rules r --records c --last ./l --released d --reasons w --proof l --key k
  nothing
  $ words panel --rules a/r --records c --last .//a/./r --released d --reasons w --proof p --key k
  nothing
  $ words panel --rules r --records c --last /c --released d --reasons w --proof p --key k
  panel r c /c d w p k 1000000
  $ words panel --rules r --records c --last l --released d --reasons w --proof p --key k --near 5
  nothing
  $ words panel --rules r --records c --last l --released d --reasons w --proof p --key k --class k
  nothing
  $ words panel --rules r --records c --last l --released d --reasons w --proof p --key k e
  nothing
  $ words edit --rules r --records c --last l --released d --reasons w --proof p
  nothing

The edit by imputation classes takes what an edit takes, and the name of a field, which may be any text: it is no file.

  $ words classed --rules r --records c --released d --reasons w --proof p --class f
  classed r c d w p f 1 1000000 1 5
  $ words classed --class f --proof p --near 9 --reasons w --workers 008 --released d --limit 2 --records c --budget 7 --rules r
  classed r c d w p f 8 7 2 9
  $ words classed --rules r --records c --released d --reasons w --proof p --class=r --workers 64 --budget=1000000000 --limit 1000 --near=64 --
  classed r c d w p r 64 1000000000 1000 64
  $ words classed --rules r --records c --released d --reasons w --proof p --class ''
  classed r c d w p  1 1000000 1 5
  $ words classed --rules r --records c --released d --reasons w --proof p --class=
  classed r c d w p  1 1000000 1 5
  $ words classed --rules r --records c --released d --reasons w --proof p --class 'f g'
  classed r c d w p f g 1 1000000 1 5
  $ words classed --rules r --records c --released d --reasons w --proof p --class=-f
  classed r c d w p -f 1 1000000 1 5
  $ words classed --rules r --records c --released d --reasons w --proof p --class=f=g
  classed r c d w p f=g 1 1000000 1 5
  $ words classed --rules r --records c --released d --reasons w --proof p --class ./r
  classed r c d w p ./r 1 1000000 1 5
  $ words classed --rules r --records c --released d --reasons w --proof p
  nothing
  $ words classed --rules r --records c --released d --reasons w --proof p --class
  nothing
  $ words classed --rules r --records c --released d --reasons w --proof p --class -f
  nothing
  $ words classed --rules r --records c --released d --reasons w --proof p --class f --class f
  nothing
  $ words classed --rules r --records c --released d --reasons w --proof p --class=f --class g
  nothing
  $ words classed --rules r --records c --released d --reasons w --proof p --Class f
  nothing
  $ words classed --rules r --records c --released d --reasons w --proof p --clas f
  nothing
  $ words classed --rules r --records c --released d --reasons w --proof p class f
  nothing
  $ words classed --rules r --records c --released d --reasons w --proof p --class f g
  nothing
  $ words classed --records c --released d --reasons w --proof p --class f
  nothing
  $ words classed --rules r --released d --reasons w --proof p --class f
  nothing
  $ words classed --rules r --records c --reasons w --proof p --class f
  nothing
  $ words classed --rules r --records c --released d --proof p --class f
  nothing
  $ words classed --rules r --records c --released d --reasons w --class f
  nothing
  $ words classed --rules r --records c --released d --reasons w --proof p --class f --workers 0
  nothing
  $ words classed --rules r --records c --released d --reasons w --proof p --class f --workers 65
  nothing
  $ words classed --rules r --records c --released d --reasons w --proof p --class f --budget 0
  nothing
  $ words classed --rules r --records c --released d --reasons w --proof p --class f --budget 1000000001
  nothing
  $ words classed --rules r --records c --released d --reasons w --proof p --class f --limit 0
  nothing
  $ words classed --rules r --records c --released d --reasons w --proof p --class f --limit 1001
  nothing
  $ words classed --rules r --records c --released d --reasons w --proof p --class f --near 0
  nothing
  $ words classed --rules r --records c --released d --reasons w --proof p --class f --near 65
  nothing
  $ words classed --rules r --records c --released d --reasons w --proof p --class f --near 5 --near 5
  nothing
  $ words classed --rules r --records r --released d --reasons w --proof p --class f
  nothing
  $ words classed --rules r --records c --released d --reasons w --proof ./d --class f
  nothing
  $ words classed --rules r --records c --released d --reasons w --proof p --class f --key k
  nothing
  $ words classed --rules r --records c --released d --reasons w --proof p --class f --last l
  nothing
  $ words classed --rules r --records c --released d --reasons w --proof p --class f --help
  nothing
  $ words Classed --rules r --records c --released d --reasons w --proof p --class f
  nothing
  $ words classed classed --rules r --records c --released d --reasons w --proof p --class f
  nothing
  $ words classed
  nothing
  $ words edit --rules r --records c --released d --reasons w --proof p --class f
  nothing
  $ words check --rules r --records c --released d --proof p --class f
  nothing
  $ words fill --rules r --records c --released d --class f
  nothing
  $ words rules --rules r --class f
  nothing

Help and the version are no commands.

  $ words rules --rules r --help
  nothing
  $ words rules --help
  nothing
  $ words rules -h
  nothing
  $ words rules --version
  nothing
  $ words rules -V
  nothing
  $ words rules help
  nothing
  $ words edit --help
  nothing
  $ words --help
  nothing
  $ words -h
  nothing
  $ words --version
  nothing
  $ words help
  nothing

Words of a survey that is made.

  $ words make --rules r --records c
  make r c 1 100
  $ words make --records c --rules r
  make r c 1 100
  $ words make --rules r --records c --start 0
  make r c 0 100
  $ words make --rules r --records c --start 4294967295
  make r c 4294967295 100
  $ words make --rules r --records c --start 4294967296
  nothing
  $ words make --rules r --records c --start 9999999999
  nothing
  $ words make --rules r --records c --start 00000000001
  nothing
  $ words make --rules r --records c --start -1
  nothing
  $ words make --rules r --records c --start=+1
  nothing
  $ words make --rules r --records c --rows 0
  nothing
  $ words make --rules r --records c --rows 1
  make r c 1 1
  $ words make --rules r --records c --rows 200000
  make r c 1 200000
  $ words make --rules r --records c --rows 200001
  nothing
  $ words make --rules r --records c --rows 4294967297
  nothing
  $ words make --rows=0000000009 --start 007 --rules=a --records= --
  make a  7 9
  $ words make --rules r --records c --rows 3 --rows 3
  nothing
  $ words make --rules r --records c --rows
  nothing
  $ words make --rules r --records c --workers 2
  nothing
  $ words make --rules r --records c --released d
  nothing
  $ words make --rules r --records r
  nothing
  $ words make --rules r --records=r
  nothing
  $ words make --rules r
  nothing
  $ words make --records c
  nothing
  $ words make
  nothing
  $ words Make --rules r --records c
  nothing
  $ words make make --rules r --records c
  nothing
  $ words make --rules r --records c --help
  nothing

No words at all.

  $ words
  nothing

A page of four files.

  $ words page --rules r --records c --released d --reasons w --page p
  page r c d w p
  $ words page --page=p --reasons=w --released=d --records=c --rules=r
  page r c d w p
  $ words page --rules r --records c --released d --reasons w
  nothing
  $ words page --rules r --records c --released d --reasons w --page ./w
  nothing
  $ words page --rules r --records c --released d --reasons w --page p --page p
  nothing
  $ words page --rules r --records c --released d --reasons w --page p --proof q
  nothing
  $ words pages --rules r --records c --released d --reasons w --page p
  nothing
