# What the scripts of this folder share; each of them reads it first, with `set -eu`.
# shellcheck shell=bash disable=SC2034

# The top of the checkout, and the scripts that make surveys and measure.
top=$(cd "$(dirname "${BASH_SOURCE[0]}")/.." && pwd)
yardstick="$top/bench/yardstick"

# Says on standard error what went wrong, and ends the script with status 1.
fail() {
    echo "${0##*/}: $1" >&2
    exit 1
}

# Finds the program, and puts its path into `program`: another build, where PROGRAM names one, or the checkout's, which is built first
# where it is not.
find_program() {
    local found=${PROGRAM:-}
    [ -n "$found" ] || found=$("$top/forxainde" --where) || fail "edit_program was not built"
    program=$(command -v "$found") || fail "$found is no program"
    program=$(realpath "$program")
}

# Puts the path of the program of pages into `pages`: another build, where PAGES names one, or the script that builds the checkout's, where it
# is not built, and runs it.
find_pages() {
    local found=${PAGES:-"$top/forxainde"}
    pages=$(command -v "$found") || fail "$found is no program"
    pages=$(realpath "$pages")
}

# Puts the path of the program of the crate $1, which times something, into `program`. It is proved and built where a crate was changed.
build_bench() {
    program="$top/crates/$1/out/$1"
    [ ! -x "$program" ] || [ -n "$(find "$top/crates" "$top/crates.txt" -name out -prune -o -type f -newer "$program" -print -quit)" ] || return 0
    echo "${0##*/}: proving and building the program; this takes minutes the first time" >&2
    rm -f "$program"
    (cd "$top/crates/$1" && rt run >"$work/log" 2>&1 </dev/null) || true       # (it is run without words, and says so)
    [ -x "$program" ] || { cat "$work/log" >&2; fail "$1 was not built"; }
}

# Compiles the branch and bound in doubles, as `yardstick` in the folder `work`.
build_branch_and_bound() {
    g++ -O3 -march=native -std=c++17 -o "$work/yardstick" "$yardstick/branch_and_bound.cpp" || fail "branch_and_bound was not built"
}

# Makes a folder `work`, which is removed when the script ends, and the words of an edit and of a check of files in it.
make_work_folder() {
    work=$(mktemp -d)
    trap 'rm -rf "$work"' EXIT
    edit_words=(edit --rules "$work/rules" --records "$work/records" --released "$work/released" --reasons "$work/reasons" --proof "$work/proof")
    check_words=(check --rules "$work/rules" --records "$work/records" --released "$work/released" --proof "$work/proof")
}

# Puts the numbers behind $1, or those in $1 where there are none, into `counts`.
read_counts() {
    local default=$1
    shift
    read -ra counts <<<"${*:-$default}"
}

# Makes $1 records of the business survey, and its rules, with further words of its script.
make_business_survey() {
    python3 "$yardstick/business_survey.py" --rules "$work/rules" --records "$work/records" --rows "$@"
}

# Makes $1 records of the labour force survey, and its rules.
make_labour_survey() {
    python3 "$yardstick/labour_survey.py" --rules "$work/rules" --records "$work/records" --rows "$1"
}

# Runs a command $1 times, and prints for each run its seconds of the clock, and of the processor, the user's and the system's together.
# What it prints goes into the file `printed`, and each run has to end with status 0.
times_of() {
    local TIMEFORMAT='%R %U %S'
    for _ in $(seq "$1"); do
        { time "${@:2}" >"$work/printed" 2>"$work/said"; } 2>"$work/time" || { cat "$work/printed" "$work/said" >&2; fail "the program failed"; }
        awk '{ print $1, $2 + $3 }' "$work/time"
    done
}

# The least seconds of the processor of so many runs of a command.
least_seconds() {
    times_of "$@" >"$work/times"
    awk '{ print $2 }' "$work/times" | sort -n | head -n 1
}

# Runs the program with these words behind $1, puts what it prints into the file `measured`, and its status, seconds, peak of memory in
# bytes and seconds of the processor into variables. A status above $1 ends the script.
measure() {
    python3 "$yardstick/measure.py" "$program" "${@:2}" >"$work/measured"
    read -r status seconds peak processor < <(tail -n 1 "$work/measured")
    if [ "$status" -lt 0 ] || [ "$status" -gt "$1" ]; then
        head -n 1 "$work/measured" >&2
        fail "the program ended with status $status"
    fi
}
