#!/bin/bash
# Times `edit` and the `check` of what it wrote, over a business survey of 16 fields and 30 rules, and, beside a branch and
# bound, over a labour force survey and over records of the business survey with several wrong values.
#
# usage: [ONE_IN=K] bench/edit.sh [ROWS..]      (default: 10000 50000 100000, and one in 20; ONE_IN=1000000000: none is wrong)
#
# It needs g++, by which the branch and bound is compiled.
#
# The business survey (bench/yardstick/business_survey.py): about one row in K has a wrong number. Each line has the
# rows, how many of them were changed, the MiB of the record file, the seconds, the rows a second, and the peak bytes of
# memory for each byte of input. Memory should grow in proportion to the rows, and so should the time of `check`; that of `edit`
# grows with the changed rows times the clean ones, since each changed row walks over the donors, most of them by blocks. Then come the seconds of `check`
# on the files that were just written, and what share that is of the time of `edit`: of the seconds of the processor,
# which say more than those of the clock where the machine has other work. A check reads the proof and goes through its
# steps, and neither searches nor eliminates; it is to take at most half the time of the edit.
#
# The labour force survey (bench/yardstick/labour_survey.py): 22 fields, 65 rules and 1,000 records, of which 256
# break a rule. The line has the processor's seconds of `edit`, which finds the least sets of fields with their
# certificates, gives values and writes three files; those of the branch and bound in doubles
# (bench/yardstick/branch_and_bound.cpp), which finds the weights alone; and those of `check` on the files that the edit
# wrote, with its share of the edit's: small, since most of the edit is search; the best of five runs each. The line
# `several` has the same of 1,000 records of the business survey, of which about one in 3 has two or three wrong numbers.
set -eu
. "$(dirname "$0")/lib.sh"
find_program
make_work_folder

# Times the program beside the branch and bound, over the survey of this name.
beside() {
    local ours theirs check
    ours=$(least_seconds 5 "$program" "${edit_words[@]}")
    theirs=$(least_seconds 5 "$work/yardstick" --rules "$work/rules" --records "$work/records" --out "$work/weights")
    check=$(least_seconds 5 "$program" "${check_words[@]}")
    awk -v name="$1" -v ours="$ours" -v theirs="$theirs" -v check="$check" 'BEGIN {
        printf "%s: program %.3f s | branch and bound %.3f s | %.1f times as long | check %.3f s, %.2f of edit\n", \
            name, ours, theirs, ours / theirs, check, check / ours
    }'
}

read_counts '10000 50000 100000' "$@"
for count in "${counts[@]}"; do
    make_business_survey "$count" --one-in "${ONE_IN:-20}"
    size=$(stat -c %s "$work/records")
    measure 0 "${edit_words[@]}"
    changed=$(awk 'NR == 1 { print $6 }' "$work/measured")
    edited="$seconds $peak $processor"
    measure 0 "${check_words[@]}"
    echo "$edited $seconds $processor" | awk -v n="$count" -v changed="$changed" -v size="$size" '{
        printf "business: %d rows, %d changed, %.1f MiB: %.2f s, %d rows a second, %.1f bytes a byte; check %.2f s, %.2f of edit\n", \
            n, changed, size / 1048576, $1, n / $1, $2 / size, $4, $5 / $3
    }'
done

build_branch_and_bound
make_labour_survey 1000
beside labour
make_business_survey 1000 --one-in 3 --wrong 2 3
beside several
