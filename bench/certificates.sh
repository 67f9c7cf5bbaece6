#!/bin/bash
# Times the checking of certificates, beside a plain Python script that makes and checks the same ones.
#
# usage: bench/certificates.sh [RUNS]      (default: 5 runs, of which the best time counts)
#
# The certificates: in `leaves D` the 2^D leaves of the full tree over D fields, each closed by one step that
# names a given line, `-1 >= 0`, which is false whatever the record. In `steps N` the one leaf of the empty
# path, closed by N such steps. There is no weight, and nothing is known of the record.
#
# How to read a line: the kind, its number, the leaves and the steps; the seconds of the program, and its
# leaves or steps a second, which should stay nearly the same however many there are (a leaf of the next depth
# has one field more); the script's seconds, and how many times as fast the program is. All seconds are those
# of the processor, the user's and the system's, for making the certificate and checking it together; the time
# of the smallest certificate, one leaf with one step, is taken off. In `steps` much of the program's time is
# the system's, for the memory: a million steps take some 95 MB. The two verdicts are compared, also where the
# last step names a line that is not there, and a difference ends the run with status 1.
set -eu
. "$(dirname "$0")/lib.sh"
script="$yardstick/certificates.py"
runs=${1:-5}
make_work_folder
build_bench certificate_bench

# The script's best seconds.
script_best() {
    for _ in $(seq "$runs"); do
        python3 "$script" "$@" 2>&1 >"$work/script"
    done | sort -n | head -n 1
}

# The verdicts of both on the certificate of these words have to be the same.
compare() {
    "$program" "$@" >"$work/program"
    python3 "$script" "$@" >"$work/script" 2>"$work/seconds"
    cmp "$work/script" "$work/program" >&2 || exit 1
}

certificate() {
    local kind=$1 number=$2 leaves=$3 steps=$4
    compare "$kind" "$number"
    compare "$kind" "$number" broken
    local ours theirs
    ours=$(least_seconds "$runs" "$program" "$kind" "$number")
    theirs=$(script_best "$kind" "$number")
    awk -v kind="$kind" -v number="$number" -v leaves="$leaves" -v steps="$steps" -v w="$ours" \
        -v s="$start" -v t="$theirs" 'BEGIN {
        ours = w - s
        if (ours < 0.001) ours = 0.001
        printf "%s %d %d %d | %.3f %.0f | %.3f %.1f\n", kind, number, leaves, steps, ours, (kind == "leaves" ? leaves : steps) / ours, t, t / ours
    }'
}

start=$(least_seconds "$runs" "$program" steps 1)
echo "kind number leaves steps | program: s a-second | script: s times-as-fast"
for depth in 15 16 17; do certificate leaves "$depth" $((2 ** depth)) $((2 ** depth)); done
for count in 250000 500000 1000000; do certificate steps "$count" 1 "$count"; done
