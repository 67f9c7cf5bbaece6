#!/bin/bash
# Changes the files of five worked releases in many small ways, and runs `check` on each.
#
# usage: bench/audit.sh [SEED]      (default: 1; of the bytes that are drawn)
#
# The releases are what `edit` writes of a record each: of a trade survey with a balance and a ratio, of a sum of two
# fields, of a household survey of codes alone, of two bounds that no value meets, and of two records with the same bounds
# for one code, which share the lines of a table. In the proof of each, and in the same proof of version 1
# (`first_version.py`), each word in turn becomes another (a number itself plus 1 and minus 1, 0, its negative, 2^64 and
# 2^127; a path each that has one letter changed, one more or one less, and the empty one; a keyword each other of the
# grammar), is left out, or stands there twice; each line is left out or stands there twice; and each two lines that
# follow each other change places. Then single bytes of the rules, the records and the released files become others, 2,000
# of each kind, drawn with the seed.
#
# Each check of a changed proof has to end with status 0 or 9, and of another changed file with 0, 3, 4 or 9 (3 and 4 only
# where rules or records changed), and print just the line that belongs to its status; the line of the proof that is told
# with 9 is at most the one behind its last. The first that ends otherwise is printed, and ends the script with status 1.
#
# How to read the output: for each release and version a line with what `check` prints of it, how many changes of its
# proof there were, no two of them to the same text, and how many of these are valid, and how many rejected. Under it
# stands each that is valid, for a reader to judge: it has to be a proof of the same release. So it may name other limits,
# since no donor was given and no search broken off; another line that fails at the record too, or the same as `given` and
# not as `shared`; steps or claims in another order; or a combination that is divided by less. Then there is a line for each other
# kind of file, with the statuses, and how often each came. There 0 comes where the byte is in a comment, or changes a
# rule, a weight or a number of which the release says nothing.
set -eu
. "$(dirname "$0")/lib.sh"
find_program
exec python3 "$top/bench/audit/change_tokens.py" "$program" "$top/examples" "${1:-1}"
