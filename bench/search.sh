#!/bin/bash
# Times the search for the least set of fields to change, beside a plain branch and bound in doubles.
#
# usage: bench/search.sh [RUNS]      (default: 5 runs, of which the best time counts)
#
# It needs g++, by which the branch and bound is compiled.
#
# The records: a labour force survey of 5 numerical and 17 categorical fields and 65 rules, with 1,000 generated
# records, of which 256 break a rule (bench/yardstick/labour_survey.py). The program finds for each the least
# weight, with the certificate that none is less, over exact numbers, and folds each system anew. The yardstick
# (bench/yardstick/branch_and_bound.cpp, after De Waal) finds the weights alone, and is exact only as far as
# doubles are.
#
# How to read the line: the seconds of each, of the processor, the user's and the system's, reading included; how many
# times as long the program takes; and the paths that it looks into and the pairs of lines and of boxes that it
# combines, a second. On these records there are 54,000 paths in all, and 145,000 pairs: 104,000 of boxes, and 41,000
# of lines, since each path folds its own system. The weights of both are compared, and a difference ends the run with
# status 1.
set -eu
. "$(dirname "$0")/lib.sh"
runs=${1:-5}
make_work_folder
build_bench search_bench

build_branch_and_bound
make_labour_survey 1000
ours=$(least_seconds "$runs" "$program" "$work/rules" "$work/records")
theirs=$(least_seconds "$runs" "$work/yardstick" --rules "$work/rules" --records "$work/records" --out "$work/weights")
"$program" "$work/rules" "$work/records" >"$work/found"
cmp "$work/weights" "$work/found" >&2 || exit 1
awk -v ours="$ours" -v theirs="$theirs" 'BEGIN {
    printf "program %.3f s | yardstick %.3f s | %.1f times as long | %.0f paths, %.0f pairs a second\n", ours, theirs, ours / theirs, 54000 / ours, 145000 / ours
}'
