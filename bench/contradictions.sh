#!/bin/bash
# Times `edit` over records whose rules nothing meets, and the `check` of what it wrote.
#
# usage: bench/contradictions.sh [ROWS]      (default: 10)
#
# The rules are those of the business survey (bench/yardstick/business_survey.py: 12 numerical and 4 categorical fields), and two
# more that contradict each other. Before a record is said to be contradictory, each path that the rules leave open is looked
# into, and its tree has a leaf for each that they close. So the later the fields of the contradiction stand in the path order,
# the more a record costs. In `numbers` it is at the last numerical field, and in `codes` at the last field of all: then there are
# 65,536 leaves.
#
# How to read a line: the kind; the records; the seconds of the processor a record, the leaves of its tree, and the KiB that it
# takes of the proof; and the seconds of the check a record.
set -eu
. "$(dirname "$0")/lib.sh"
find_program
rows=${1:-10}
make_work_folder

# The seconds of the processor of the program with these words behind the status that it has to end with.
seconds_of() {
    measure "$1" "${@:2}"
    [ "$status" = "$1" ] || fail "the program ended with status $status"
    echo "$processor"
}

make_business_survey "$rows"
mv "$work/rules" "$work/survey"
for kind in numbers codes; do
    cp "$work/survey" "$work/rules"
    case $kind in
        numbers) printf 'Invest >= 5\nInvest <= 3\n' ;;
        codes) printf 'Form in {sole}\nForm in {company}\n' ;;
    esac >>"$work/rules"
    edit=$(seconds_of 1 "${edit_words[@]}")
    check=$(seconds_of 0 "${check_words[@]}")
    leaves=$(awk '$1 == "contradictory" { sum += $2 } END { print sum }' "$work/proof")
    awk -v kind="$kind" -v n="$rows" -v edit="$edit" -v check="$check" -v leaves="$leaves" -v size="$(stat -c %s "$work/proof")" 'BEGIN {
        printf "%s: %d records, %.3f s, %.0f leaves and %.0f KiB a record; check %.3f s\n", kind, n, edit / n, leaves / n, size / 1024 / n, check / n
    }'
done
