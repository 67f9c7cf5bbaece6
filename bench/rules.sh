#!/bin/bash
# Times `rules`: which lines of 500 rules over 64 fields follow from the others.
#
# usage: bench/rules.sh
#
# The rule files are written by bench/yardstick/rule_sets.py, one in each of six shapes. Each line has the shape, how many lines
# the rules have, how many of them are kept as equalities, kept as needed, kept since the work would pass 2,000 or a number 128
# bits, and dropped, and the seconds of the processor. An edit prunes its rules in the same way, once, before it looks at any record.
set -eu
. "$(dirname "$0")/lib.sh"
find_program
make_work_folder
for shape in balances sums ratios late codes bounds; do
    python3 "$yardstick/rule_sets.py" "$shape" "$work/rules"
    seconds=$(least_seconds 1 "$program" rules --rules "$work/rules")
    awk -v shape="$shape" -v seconds="$seconds" '
        / kept equality / { equal++ } / kept needed / { needed++ } / kept budget / || / kept overflow / { open++ } / dropped / { dropped++ }
        END { printf "%s: %d lines, %d equalities, %d needed, %d kept unknown, %d dropped: %.2f s\n", \
            shape, equal + needed + open + dropped, equal, needed, open, dropped, seconds }' "$work/printed"
done
