#!/bin/bash
# Edits a small survey by 2 to 8 workers whose threads are stopped at random instants for random times, and checks each release.
#
# usage: bench/interleavings.sh [SEED [RUNS [ROWS]]]      (default: 1, 10,000 runs, and 60 records of the made survey)
#
# A small library that is loaded into the program, `bench/hostile/delays.c`, sends its threads signals now and then, in whose handler they sleep up to a fifth of
# a millisecond, wherever they are just then: between two steps on what they share, too. The first line of the summary has to be that of one worker,
# the status too, and `check` has to accept each release. The last lines say in how many different orders the donors were claimed, and how often
# each second line of the summary came. The first run that is otherwise is printed, and ends the script with status 1.
set -eu
. "$(dirname "$0")/lib.sh"
find_program
make_work_folder
cc -O2 -shared -fPIC -pthread -o "$work/delays.so" "$top/bench/hostile/delays.c" || fail "delays.c was not built"
python3 "$top/bench/hostile/interleavings.py" "$program" "$work/delays.so" "${1:-1}" "${2:-10000}" "${3:-60}"
