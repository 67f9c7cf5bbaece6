#!/bin/bash
# Times elimination over generated edits, beside a plain Python script that does the same fold with exact
# integers; and the check of long lists of derivation steps.
#
# usage: bench/elimination.sh [RUNS]      (default: 5 runs, of which the best time counts)
#
# The edits: for each ordered pair of n numerical fields the line x - y + c >= 0, c drawn from 0 to 999, so
# n (n - 1) lines. In `plain` n is 32 and each line holds whatever the code; then a step over m fields
# combines (m - 1)^2 pairs, of which the trivial ones (x - x + c) and those that are not the tightest on their
# two fields fall away, so that (m - 1) (m - 2) lines are left. Without 8 fields the pairs are
# 31^2 + 30^2 + .. + 24^2 = 6092, and 24 * 23 = 552 lines are left. In `codes` n is 20 and each line holds for
# some of 8 codes, drawn, so that lines on the same two fields stand beside each other, and pairs without a
# common code are not combined.
#
# All seconds are those of the processor. How to read the first table: the edits' kind, the fields that are eliminated, the edits, the pairs that are
# combined, the lines that are left; the program's seconds for the fold alone (the time of a run over no
# field, which makes the same edits, is taken off) and its pairs a second; and where the script runs too, its
# seconds for the fold alone and how many times as fast the program is. The script's pairs and lines are
# compared, step by step, and a difference ends the run with status 1. It is not run where it takes minutes.
# The pairs a second fall with the lines that are kept, since the key of each new line is compared with those of all.
#
# How to read the second table: the kind of step, the steps, the seconds of the whole run, and the steps a
# second, which should stay the same however many steps there are. `given` steps name given lines, `sums` add
# two lines of 32 fields each.
set -eu
. "$(dirname "$0")/lib.sh"
script="$yardstick/elimination.py"
runs=${1:-5}
make_work_folder
build_bench elimination_bench

# The script's seconds for the fold; its steps and totals have to be the program's.
compared() {
    python3 "$script" "$@" >"$work/script" 2>"$work/seconds"
    cmp "$work/script" "$work/program" >&2 || exit 1
    cat "$work/seconds"
}

fold() {
    local kind=$1 count=$2 with_script=$3
    local words=()
    [ "$kind" = plain ] || words=("$kind")
    "$program" pairs "$count" "${words[@]}" >"$work/program"
    "$program" fold "$count" "${words[@]}" >>"$work/program"
    local pairs edits lines start whole theirs
    pairs=$(awk '$1 == "field" { sum += $4 } END { print sum }' "$work/program")
    read -r _ _ _ edits _ lines < <(tail -n 1 "$work/program")
    start=$(least_seconds "$runs" "$program" fold 0 "${words[@]}")
    whole=$(least_seconds "$runs" "$program" fold "$count" "${words[@]}")
    theirs=
    [ "$with_script" = no ] || theirs=$(compared "$count" "${words[@]}")
    awk -v kind="$kind" -v count="$count" -v edits="$edits" -v pairs="$pairs" -v lines="$lines" \
        -v s="$start" -v w="$whole" -v t="$theirs" 'BEGIN {
        ours = w - s
        if (ours < 0.001) ours = 0.001
        printf "%s %d %d %d %d | %.3f %.0f", kind, count, edits, pairs, lines, ours, pairs / ours
        if (t != "") printf " | %.3f %.1f", t, t / ours
        printf "\n"
    }'
}

steps() {
    local kind=$1 count=$2
    local words=()
    [ "$kind" = given ] || words=("$kind")
    local whole
    whole=$(least_seconds "$runs" "$program" steps "$count" "${words[@]}")
    awk -v kind="$kind" -v n="$count" -v w="$whole" 'BEGIN { printf "%s %d | %.3f %.0f\n", kind, n, w, n / w }'
}

echo "edits fields edits pairs lines | program: s pairs/s | script: s times-as-fast"
for count in 8 12 16; do fold plain "$count" yes; done
fold codes 8 yes
for count in 12 16; do fold codes "$count" no; done
echo "steps count | s steps/s"
for count in 250000 500000 1000000; do steps given "$count"; done
for count in 25000 50000 100000; do steps sums "$count"; done
