#!/bin/bash
# Kills the built program while it edits, at random times, and looks at what stands then.
#
# usage: bench/killed.sh [SEED [RUNS [ROWS]]]      (default: 1, 200 runs, and 20,000 records of the made survey)
#
# The records are those of `make`. In half of the runs the program is killed (SIGKILL) at a time that is drawn from the whole length of
# a run, in the other half at one that is drawn from the time in which it stores its files. No file stands when a run begins.
# After each run the proof, the reasons and the released file are compared with those of a run that ended: some first of them have to be whole, the
# one behind these may have some first bytes, and the later ones have to be missing. So a released file stands only behind a whole proof and whole
# reasons. Then `check` has to say what stands: 0 where the released file is whole, but for its last line feed, and else 9, or 5 where the
# proof or the released file is missing. Every tenth run is made again to its end, and has to give the files of the first.
#
# The last lines count the runs by what stood, and the statuses of `check`. The first that is otherwise is printed, and ends the script with status 1.
set -eu
. "$(dirname "$0")/lib.sh"
find_program
exec python3 "$top/bench/hostile/killed.py" "$program" "${1:-1}" "${2:-200}" "${3:-20000}"
