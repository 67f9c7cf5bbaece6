#!/bin/bash
# Runs the commands over examples/ that the documents show, and compares all that they print and write with examples/expected/.
#
# usage: bench/examples.sh [EXAMPLE..]      (default: all, as trade, business, ..; PAGES=no leaves the pages out)
#
# The commands are those of README.md, docs/ and examples/README.md as they stand there, but that they write into a folder for each example,
# which is named as its rules; and for each example that no document edits, an `edit` and a `check` of what it wrote. Of each command
# examples/expected/EXAMPLE.COMMAND.printed has what it prints, and where it ends with a status other than 0, a last line as `[1]`;
# examples/expected/EXAMPLE.NAME.csv has the file NAME.csv that it writes. All is compared byte for byte, and a file that is missing, or written and
# not expected, differs too.
#
# What is expected was worked out from the rules and records and from docs/ by hand, never by the program; of business too, of which nine records
# break a rule, each in the way that its name tells. No proof has an expected file: a proof may be long, and `check` judges it. The proof of a panel is
# read by no command. Of a page what is printed is compared; bench/page.sh compares its bytes with a page by another hand.
#
# A line is printed for each command, with its example, `as expected` or what differs; and a last line counts both. The status is 1 where one differs.
set -eu
. "$(dirname "$0")/lib.sh"
find_program
[ "${PAGES:-}" = no ] || find_pages
make_work_folder
expected="$top/examples/expected"
right=0
wrong=0

# The commands over examples/ that the documents show, each once, in their order.
documented() {
    grep -h '^    \./forxainde .* examples/' "$top/README.md" "$top"/docs/*.md "$top/examples/README.md" | sed 's/^ *//' | awk '!shown[$0]++'
}

# An edit of the records $2 by the rules $1, as the documents write it; and a check of it.
edit_of() { echo "./forxainde edit --rules examples/$1.rules --records examples/$2.csv --released /tmp/released.csv --reasons /tmp/reasons.csv --proof /tmp/proof.txt"; }
check_of() { echo "./forxainde check --rules examples/$1.rules --records examples/$2.csv --released /tmp/released.csv --proof /tmp/proof.txt"; }

others() {
    local name
    for name in household wages donors export redundant; do
        edit_of "$name" "$name"
        check_of "$name" "$name"
    done
    check_of classes classes
    edit_of impossible wages
    check_of impossible wages
    edit_of faulty wages
}

# Says of the file $2 that was made, and of the one $1 that is expected, what differs, if anything does; neither need be there.
compare() {
    [ -e "$1" ] || [ -e "$2" ] || return 0
    [ -e "$1" ] || { echo "${2##*/} is written, and none is expected"; return 0; }
    [ -e "$2" ] || { echo "${1##*/} is expected, and none is written"; return 0; }
    cmp -s "$1" "$2" || { echo "${1##*/} differs (< expected, > made):"; diff -a "$1" "$2" || true; }
}

# Whether this word of the command is a file that it writes, and that has an expected one; where it has failed, that none is expected
# holds of its proof too.
is_compared() {
    [[ " edit classed panel fill " == *" $command "* && $1 == "$folder"/* ]] && [[ $1 == *.csv || $status -gt 1 ]]
}

# Runs a command as the documents write it, in the folder of its example, and compares.
try() {
    local name command run status=0 folder word words=()
    name=$(sed 's/.* --rules examples\/\([a-z]*\)\.rules.*/\1/' <<<"$1")
    read -r _ command _ <<<"$1"
    [[ " ${chosen:-$name} " == *" $name "* ]] || return 0
    run=$program
    if [ "$command" = page ]; then
        [ "${PAGES:-}" != no ] || return 0
        run=$pages
    fi
    folder="$work/$name"
    mkdir -p "$folder"
    for word in ${1#./forxainde }; do words+=("${word/#\/tmp\//$folder/}"); done
    (cd "$top" && "$run" "${words[@]}") >"$folder/printed" 2>&1 || status=$?
    [ "$status" = 0 ] || echo "[$status]" >>"$folder/printed"
    {
        compare "$expected/$name.$command.printed" "$folder/printed"
        for word in "${words[@]}"; do
            if is_compared "$word"; then compare "$expected/$name.${word##*/}" "$word"; fi
        done
    } >"$folder/differs"
    tell "$name $command" "$folder/differs"
}

# Tells what became of a command, and counts it.
tell() {
    if [ -s "$2" ]; then
        wrong=$((wrong + 1))
        echo "$1: $(cat "$2")"
    else
        right=$((right + 1))
        echo "$1: as expected"
    fi
}

chosen="$*"
while read -r line; do
    try "$line"
done < <(documented; others)
echo "$right as expected, $wrong not"
[ "$wrong" = 0 ] && [ "$right" -gt 0 ]
