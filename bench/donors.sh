#!/bin/bash
# Times the imputation by donors: `edit` over a business survey of 16 fields and 30 rules of which one row in four is wrong,
# so that each of these walks over those that are clean.
#
# usage: bench/donors.sh [ROWS..]      (default: 5000 10000 20000)
#
# The survey is that of bench/yardstick/business_survey.py. Each line has the rows, how many of them claimed a donor, how many
# pairs of a changed and a clean row that are, the seconds of the processor, those of the changed rows alone, without a
# clean row to rank, and the pairs a second; the best of three runs each. The time grows with the pairs, so fourfold where
# the rows double.
set -eu
. "$(dirname "$0")/lib.sh"
find_program
make_work_folder

read_counts '5000 10000 20000' "$@"
for count in "${counts[@]}"; do
    make_business_survey "$count"
    all=$(least_seconds 3 "$program" "${edit_words[@]}")
    clean=$(awk 'NR == 1 { print $4 }' "$work/printed")
    changed=$(awk 'NR == 2 { print $2 }' "$work/printed")
    awk -F, 'NR == FNR { if (FNR > 1) wrong[$1] = 1; next } FNR == 1 || (FNR - 1) in wrong' "$work/reasons" "$work/records" >"$work/alone"
    mv "$work/alone" "$work/records"
    alone=$(least_seconds 3 "$program" "${edit_words[@]}")
    awk -v n="$count" -v clean="$clean" -v changed="$changed" -v all="$all" -v alone="$alone" 'BEGIN {
        pairs = clean * changed
        printf "%d rows, %d claims, %.1f million pairs: %.2f s, %.2f s without donors, %.1f million pairs a second\n", \
            n, changed, pairs / 1e6, all, alone, pairs / 1e6 / (all - alone + 0.001)
    }'
done
