#!/bin/bash
# Times `panel`, over the business survey with three last fields, beside `edit` over the same records without them.
#
# usage: [ONE_IN=K] bench/panel.sh [ROWS..]      (default: 10000 50000 200000, and one in 20; ONE_IN=1000000000: none is wrong)
#
# The records are those of bench/yardstick/business_survey.py, of which about one in K has a wrong number; the last period is made by
# bench/yardstick/last_period.py: its rows stand in another order, and one in 50 is not there. Each line has the rows, how many were
# changed and left out, the seconds, the rows a second, and the peak bytes of memory for each byte of both files; then the seconds of
# `edit` on the records alone, by the rules without the last fields. Time and memory should grow in proportion to the rows: a
# record's row of the last period is found by its key, and nothing is kept of a record that was told.
set -eu
. "$(dirname "$0")/lib.sh"
find_program
make_work_folder

read_counts '10000 50000 200000' "$@"
for count in "${counts[@]}"; do
    make_business_survey "$count" --one-in "${ONE_IN:-20}"
    measure 1 "${edit_words[@]}"
    edited=$seconds
    python3 "$yardstick/last_period.py" --rules "$work/rules" --records "$work/records" --last "$work/last"
    size=$(($(stat -c %s "$work/records") + $(stat -c %s "$work/last")))
    measure 1 panel "${edit_words[@]:1}" --last "$work/last" --key id
    read -r _ _ _ _ _ changed _ unresolved _ < <(head -n 1 "$work/measured")
    awk -v n="$count" -v changed="$changed" -v out="$unresolved" -v size="$size" -v s="$seconds" -v peak="$peak" -v edited="$edited" 'BEGIN {
        printf "panel: %d rows, %d changed, %d left out, %.1f MiB: %.2f s, %d rows a second, %.1f bytes a byte; edit %.2f s\n", \
            n, changed, out, size / 1048576, s, n / s, peak / size, edited }'
done
