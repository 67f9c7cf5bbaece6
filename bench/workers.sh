#!/bin/bash
# Times `edit` by 1, 2, 4 and 8 workers, over records of a business survey of 16 fields and 30 rules.
#
# usage: [WORKERS='1 2 4'] bench/workers.sh [ROWS..]     (default: 20000 and 50000 records, at most 200000)
#
# The workers draw the records side by side, search them, rank donors and claim them; then values are given side by side. What
# is read, pruned, written and printed is one thread's work, and so is the index of the donors. Each line has the workers; the
# seconds of the clock, the best of three runs; how many times as fast as one worker that is; the seconds of all processors;
# and what share of one worker's time is left to one thread, by the seconds that more workers did not save: of t seconds by one
# worker and u by n of them, (n u - t) / (n - 1) would be one thread's. More workers than the machine has free processors save
# nothing, and a machine with other work says little. The records are those that `make` makes: in about one of four a number is
# wrong. The line `clean` is as many records of the same survey without an error: what is read, tested and written, mostly one
# thread's.
#
# Whatever the workers, the first line of the summary is the same, where no number leaves 128 bits while values are given; the
# script says whether it was.
set -eu
. "$(dirname "$0")/lib.sh"
find_program
make_work_folder

# The best seconds of the clock of three runs by so many workers, and the seconds of all processors in that run.
best() {
    for _ in 1 2 3; do
        measure 1 "${edit_words[@]}" --workers "$1"
        head -n 1 "$work/measured" >>"$work/summaries"
        echo "$seconds $processor"
    done >"$work/times"
    sort -n "$work/times" | head -n 1
}

read_counts '20000 50000' "$@"
for count in "${counts[@]}"; do
    "$program" make --rules "$work/rules" --records "$work/records" --rows "$count" >"$work/made"
    : >"$work/summaries"
    one=
    for workers in ${WORKERS:-1 2 4 8}; do
        found=$(best "$workers")
        one=${one:-$found}
        echo "$one $found" | awk -v rows="$count" -v n="$workers" '{
            printf "%d records, %d workers: %.2f s, %.2f times as fast, %.2f s of all processors", rows, n, $3, $1 / $3, $4
            if (n > 1) printf ", one thread has %.0f %%", 100 * (n * $3 - $1) / (n - 1) / $1
            print "" }'
    done
    sort -u "$work/summaries" | awk 'END { if (NR > 1) print "the summaries differ"; else print $0, "(each time)" }'
    make_business_survey "$count" --one-in 1000000000
    found=$(best 1)
    echo "$found" | awk -v rows="$count" '{ printf "%d records, clean, 1 worker: %.2f s\n", rows, $1 }'
done
