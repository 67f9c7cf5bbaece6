#!/bin/bash
# Times `classed`, over the business survey with a field of eight codes, beside `edit` over the same records.
#
# usage: [ONE_IN=K] [WORKERS=N] [CLASSES=N] bench/classes.sh [ROWS..]     (default: 10000 50000 200000, one in 20, one worker, eight codes)
#
# The records are those of bench/yardstick/business_survey.py, of which about one in K has a wrong number; its field Branch is in no
# rule, and is the class field. For each number of rows there is a line of either command, with how many records claimed a donor and how
# many were given one, the seconds, the peak memory in MiB and for each byte of the records, and the seconds of `check` on what was
# written. An edit ranks among all clean records, `classed` among those of the record's own code, so its rankings should take less
# time. Its decks together have the donors of the one of an edit, and share the marks of the records. Each worker knows of each class
# what was claimed there, as far as it has seen: WORKERS=64 shows what that takes beside the one book of an edit, which is a book of
# one class.
set -eu
. "$(dirname "$0")/lib.sh"
find_program
make_work_folder

# Times the command with these further words, and the check of what it wrote.
tell() {
    measure 1 "$1" "${edit_words[@]:1}" --workers "${WORKERS:-1}" "${@:2}"
    read -r _ claims _ given < <(sed -n 2p "$work/measured")
    local took=$seconds most=$peak
    measure 1 "${check_words[@]}"
    awk -v name="$1" -v n="$count" -v claims="$claims" -v given="$given" -v s="$took" -v peak="$most" -v size="$size" -v checked="$seconds" 'BEGIN {
        printf "%s: %d rows, %d claims, %d given: %.2f s, %.0f MiB, %.1f bytes a byte; check %.2f s\n", \
            name, n, claims, given, s, peak / 1048576, peak / size, checked }'
}

read_counts '10000 50000 200000' "$@"
for count in "${counts[@]}"; do
    make_business_survey "$count" --one-in "${ONE_IN:-20}" --classes "${CLASSES:-8}"
    size=$(stat -c %s "$work/records")
    tell edit
    tell classed --class Branch
done
