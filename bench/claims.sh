#!/bin/bash
# Times the drawing of tickets and the claiming of donors, by 1, 2 and 4 threads.
#
# usage: bench/claims.sh [COUNT] [RUNS]      (default: 200,000 tickets, and 5 runs, of which the best time counts)
#
# The work: there are so many tickets, and as many rows. Each thread draws a number and claims a donor for the row of
# that number, until none is left. A row ranks 4 donors, which 3 other rows rank too, and each donor is given once.
#
# How to read a line: the threads; the seconds of the clock for the whole run, less those of a run with one ticket; what one
# ticket with its claim takes of them, in nanoseconds; and the seconds of all processors, the user's and the system's, less
# the same. The memory for the book, its table and its passes is taken within the run. All claims are one history, and each
# thread reads what the others have claimed before it claims itself, so more threads make this no faster: the work that is
# done between two claims, which the program leaves out, is what threads share. With one thread the nanoseconds are
# what a draw and a claim cost, with more what they cost where nothing is done but drawing and claiming.
# The counts that are printed have to be those of the count, whatever the schedule, and else the run ends with status 1.
set -eu
. "$(dirname "$0")/lib.sh"
count=${1:-200000}
runs=${2:-5}
make_work_folder
build_bench claims_bench

# The best seconds of the runs with so many tickets and threads: of the clock, and of the processors.
best() {
    for _ in $(seq "$runs"); do
        times_of 1 "$program" "$1" "$2"
        echo "drawn $1 claimed $1 given $1 nobody 0" | cmp - "$work/printed" >&2 || exit 1
    done >"$work/times"
    sort -n "$work/times" | head -n 1
}

echo "threads | seconds | nanoseconds a ticket and its claim | seconds of all processors"
for threads in 1 2 4; do
    start=$(best 1 "$threads")
    whole=$(best "$count" "$threads")
    awk -v threads="$threads" -v count="$count" -v start="$start" -v whole="$whole" 'BEGIN {
        split(start, s); split(whole, w)
        printf "%d | %.3f | %.0f | %.3f\n", threads, w[1] - s[1], (w[1] - s[1]) * 1e9 / count, w[2] - s[2]
    }'
done
