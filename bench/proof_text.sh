#!/bin/bash
# Times the reading of proof files, and tells how much memory it takes.
#
# usage: bench/proof_text.sh [MIB] [RUNS]      (default: files of 64 MiB, and 3 runs, of which the best counts)
#
# The files, each of about so many MiB: in `given`, `fail`, `fix` and `combine` one line of the rules is dropped by
# so many such steps; in `cover` by covers of three parts; in `tree` one record has the leaves of a full tree, each
# with a path of 20 letters and one step; in `short` the leaves have the empty path; in `claims` there are claims
# that rank three donors; in `clean` and `bad` the records, or the leaves, are the shortest there are. These are of
# version 1. In `table` a proof of version 2 has so many combinations in its table, and in `shared` one step, which each leaf
# of the empty path names. The last two files have the line `lines 4000000000`, or `table 4000000000`, and a few more.
#
# How to read a line: the kind of file; its MiB; the seconds of the program, the user's and the system's, with the
# seconds for reading the bytes of the file; the MiB a second; and the bytes of memory at the highest, without
# those of the file itself, a byte of the file. Reading should stay above 50 MiB a second, and, but for `clean` and
# `bad`, below 12 bytes a byte. At 512 MiB it needs 7 GiB of memory, and 14 for the last two kinds, which are
# then left out.
set -eu
. "$(dirname "$0")/lib.sh"
mib=${1:-64}
runs=${2:-3}
make_work_folder
build_bench proof_bench

# A file of this version (1 where none is named) with so many times this text, behind this front and before this end.
file_of() {
    local front=$1 text=$2 end=$3 count
    count=$((mib * 1048576 / $(printf '%b' "$text" | wc -c)))
    printf "fh-proof ${version:-1}\nlimit 1 near 5 budget 1000000\n$front" "$count"
    yes "$(printf '%b' "$text")" | head -n $((count * $(printf '%b' "$text" | wc -l)))
    printf '%b' "$end"
}

steps_of() { file_of 'lines 1\ndrop %d\n' "$1" 'records 0\nclaims 0\nend\n'; }
leaves_of() { file_of 'lines 0\nrecords 1\ncontradictory %d\n' "$1" 'claims 0\nend\n'; }

# The leaves of a full tree, in order: number I of 2^20, with K for a bit that is 0.
tree() {
    local count=$((mib * 1048576 / 36))
    printf 'fh-proof 1\nlimit 1 near 5 budget 1000000\nlines 0\nrecords 1\ncontradictory %d\n' "$count"
    awk -v count="$count" 'BEGIN {
        for (i = 0; i < 1024; i++) {
            word = ""
            for (bit = 512; bit >= 1; bit /= 2) word = word (int(i / bit) % 2 ? "C" : "K")
            words[i] = word
        }
        for (i = 0; i < count; i++) printf "line %s%s 1\ngiven 12\n", words[int(i / 1024) % 1024], words[i % 1024]
    }'
    printf 'claims 0\nend\n'
}

# The best run on the file: its seconds, and its peak of memory in bytes.
best() {
    for _ in $(seq "$runs"); do
        measure 0 "$work/file"
        grep -q '^lines ' "$work/measured" || { head -n 1 "$work/measured" >&2; fail "the program failed"; }
        echo "$processor $peak"
    done >"$work/times"
    sort -n "$work/times" | head -n 1
}

tell() {
    local kind=$1 size
    size=$(stat -c %s "$work/file")
    best >"$work/best"
    awk -v kind="$kind" -v size="$size" '{
        seconds = $1 < 0.001 ? 0.001 : $1
        printf "%s %.1f | %.3f s %.0f MiB/s | %.2f bytes a byte\n", kind, size / 1048576, seconds, size / 1048576 / seconds, ($2 - size) / size
    }' "$work/best"
}

echo "kind MiB | seconds MiB/s | memory"
for step in 'given 1' 'fail 1' 'fix 1 1' 'combine 1 1 2 1 1' 'cover 1 1 2 3'; do
    steps_of "$step\n" >"$work/file"
    tell "${step%% *}"
done
tree >"$work/file"
tell tree
leaves_of 'line - 1\ngiven 1\n' >"$work/file"
tell short
file_of 'lines 0\nrecords 0\nclaims %d\n' 'claim 123 77 77 12 230\n' 'end\n' >"$work/file"
tell claims
version=2 file_of 'lines 0\ntable %d\n' 'combine 1 1 2 1 1\n' 'records 0\nclaims 0\nend\n' >"$work/file"
tell table
version=2 file_of 'lines 0\ntable 1\ngiven 1\nrecords 1\ncontradictory %d\n' 'line - 1\nshared 1\n' 'claims 0\nend\n' >"$work/file"
tell shared
if [ "$mib" -le 256 ]; then
    file_of 'lines 0\nrecords %d\n' 'clean\n' 'claims 0\nend\n' >"$work/file"
    tell clean
    leaves_of 'bad K\n' >"$work/file"
    tell bad
fi

# A count that no file has the lines of costs nothing.
counted() {
    local word=$1
    "$program" "$work/file"
    measure 255 "$work/file"
    awk -v word="$word" -v s="$seconds" -v peak="$peak" 'BEGIN { printf "%s 4000000000: %s s, %.1f MiB\n", word, s, peak / 1048576 }'
}

printf 'fh-proof 1\nlimit 1 near 5 budget 1000000\nlines 4000000000\nkeep\nkeep\n' >"$work/file"
counted lines
printf 'fh-proof 2\nlimit 1 near 5 budget 1000000\nlines 0\ntable 4000000000\ngiven 1\n' >"$work/file"
counted table
