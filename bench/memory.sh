#!/bin/bash
# Refuses memory to the built program: each request in turn, and then all that goes past a limit, which is set ever lower.
#
# usage: bench/memory.sh [JOB..]      (default: tie, donor, nearest and workers; needs gcc)
#
# The jobs are edits of worked cases: `tie`, a record of two fields whose sum is to be 10; `donor`, three records of which the second is given the
# number of the first, and the third nothing; `nearest`, a record of a trade survey whose donor's values are not allowed; and `workers`, two
# records by two workers. A library that is loaded before the system's makes the program's N-th request for memory fail (`malloc` and `realloc`,
# where they are called from the program itself), for N from 1 up to where the runs make no N-th request. Then
# `ulimit -v` is set 64 KiB lower each time, from what the whole run maps down to where the program can't be loaded.
#
# Each run has to end with status 7, or as the job does that is refused nothing; and of proof, reasons and released the first some have to
# stand whole, all where it did not end with 7, and the later ones have to be as they were. A line for each job and each way counts the
# runs, those with 7, and how many files stood after these. The first run that ends otherwise is printed, and ends the script with status 1.
# `rt try --fail-alloc N` refuses the N-th request as well, before anything is proved, but the kit compiles the program anew for each N.
set -eu
. "$(dirname "$0")/lib.sh"
find_program
make_work_folder
gcc -O2 -shared -fPIC -o "$work/refuse.so" "$top/bench/hostile/refuse.c" -ldl || fail "refuse.so was not built"
python3 "$top/bench/hostile/memory.py" "$program" "$work/refuse.so" "$work" "$@"
