#!/bin/bash
# Makes the pages of edits, compares what they say with a plain count over the files, and all their bytes with a page by another hand, and
# takes pictures of them in a browser.
#
# usage: bench/page.sh [FOLDER]                  (default: a new folder below /tmp, whose name is printed)
#        ROWS=N [ROWS=..] bench/page.sh time     times the page of N made records, one in four wrong, beside `check` (default 200000)
#
# The pages are those of the examples trade and business, of a business survey of 10,000 records, and of trade records that need no change.
# Each is compared with the counts of bench/page_counts.py and the text of bench/page_text.py. Where the browser chromium is there, a picture
# of each is taken at two widths, and each is printed to PDF: look at them. docs/page.png is the picture of the top of the third.
set -eu
. "$(dirname "$0")/lib.sh"
find_program
find_pages

# Edits the records $2 by the rules $1, and writes the page, all in the folder $3.
make_page() {
    local status=0
    mkdir -p "$3"
    cp "$1" "$3/rules"
    cp "$2" "$3/records"
    (cd "$3" && "$program" edit --rules rules --records records --released released --reasons reasons --proof proof --workers 4) || status=$?
    [ "$status" -le 1 ]
    (cd "$3" && "$pages" page --rules rules --records records --released released --reasons reasons --page page.html)
    python3 -B "$top/bench/page_counts.py" "$3/rules" "$3/records" "$3/released" "$3/reasons" "$3/page.html"
    python3 -B "$top/bench/page_text.py" "$3/rules" "$3/records" "$3/released" "$3/reasons" "$3/page.html" | cmp - "$3/page.html"
}

# Takes pictures of the page in the folder $1.
take_pictures() {
    command -v chromium >/dev/null || return 0
    local width
    for width in 1000 500; do
        chromium --headless --no-sandbox --disable-gpu --hide-scrollbars --window-size="$width,${HEIGHT:-6000}" \
            --screenshot="$1/page-$width.png" "file://$1/page.html" 2>/dev/null
    done
    chromium --headless --no-sandbox --disable-gpu --no-pdf-header-footer --print-to-pdf="$1/page.pdf" "file://$1/page.html" 2>/dev/null
}

time_page() {
    make_work_folder
    local rows
    for rows in ${ROWS:-200000}; do
        "$program" make --rules "$work/rules" --records "$work/records" --rows "$rows"
        (cd "$work" && "$program" edit --rules rules --records records --released released --reasons reasons --proof proof --workers 4) || true
        for _ in 1 2 3 4 5; do
            (cd "$work" && python3 "$yardstick/measure.py" "$program" check --rules rules --records records --released released --proof proof | tail -n 1 | sed 's/^/check /')
            (cd "$work" && python3 "$yardstick/measure.py" "$pages" page --rules rules --records records --released released --reasons reasons --page page.html | tail -n 1 | sed 's/^/page /')
        done
    done
}

if [ "${1-}" = time ]; then
    time_page
    exit
fi
out=${1:-$(mktemp -d /tmp/pages-XXXXXX)}
mkdir -p "$out"
out=$(cd "$out" && pwd)
make_page "$top/examples/trade.rules" "$top/examples/trade.csv" "$out/trade"
make_page "$top/examples/business.rules" "$top/examples/business.csv" "$out/business"
"$program" make --rules "$out/made.rules" --records "$out/made.records" --rows 10000
make_page "$out/made.rules" "$out/made.records" "$out/made"
printf 'firm,Turnover,Costs,Profit\nBaker,100,60,40\nMiller,200,150,50\n' >"$out/right.records"
make_page "$top/examples/trade.rules" "$out/right.records" "$out/right"
for page in trade business made right; do
    take_pictures "$out/$page"
done
echo "pages and pictures are in $out"
