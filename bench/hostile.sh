#!/bin/bash
# Runs the built program on files that nobody should send: random bytes, files that are cut off anywhere, files
# with one byte changed, files at each limit and one past it, and large files that are made to be hard.
#
# usage: bench/hostile.sh [SEED [GROUP..]]      (default: 1, and all groups)
#
# Each run has to end with a status of docs/commands.md, never by a signal, and within a time that grows with
# the files and their wrong values; where nothing was released, the files under the three names that `edit` writes have to
# be as they were. Where the rules of a file say which status is right, it has to be that one. What an edit wrote is checked,
# and has to be valid, with as many records as it counted: after each edit, and of the random, cut and changed files
# after each fourth that released something. On these files `fill` is run as well, and then on the file that it wrote, which has
# to stay as it is. The group `classes` runs `classed` on two such files, and then `check`; a class field that is none is told where
# the rules were read, and only there. The group `panels` runs `panel` on three such files, and then on what it released, which has to be clean
# beside the same last values. The group `proofs` has rules, records and released files that are right, and proofs of both
# versions that are not. The group `memory_a_byte` measures the most memory that a run has at a time, on proofs that
# promise more than they have and on large files of one kind: beyond what a run of that command has over files of a few bytes it may be 32
# bytes for each byte of the files that are read, and 1 MiB, and no more; a line for each file says how much it was.
# A line for each group of cases counts the runs and how many of them were checks,
# and names the slowest; the first failure is printed with its files, and ends the script with status 1.
set -eu
. "$(dirname "$0")/lib.sh"
find_program
exec python3 "$top/bench/hostile/attack.py" "$program" "$top/examples" "${@:-1}"
