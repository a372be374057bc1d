#!/usr/bin/env bash
# strike.sh [TRACEDETAIL [DIRECTORY]]: document 01's demand 3, tested from outside. For each trace N of DIRECTORY/traces,
# N.book says of each line after the configuration whether it is kept or struck (`none` if it is not an event). The
# lines that are kept are given to a fresh run, which must print the same states, notices, octets and bearers for
# them as the run of the whole trace did. The book is an outside program's; both runs are tracedetail's (default: the
# built one, crates/tracedetail/out/tracedetail). DIRECTORY is tests/vectors by default. Ends with status 1 if a line differs.
set -u
cd "$(dirname "$0")/.." || exit 2
. tests/program.sh tracedetail "${1:-}"
vectors=${2:-tests/vectors}
work=$(mktemp -d)
trap 'rm -rf "$work"' EXIT
status=0
traces=0
lines=0
struck=0
for in in "$vectors"/traces/*.in; do
    book=${in%.in}.book
    "$program" < "$in" > "$work/whole"
    if [ "$(cat "$work/whole")" = refused-12 ]; then
        continue
    fi
    # The configuration is everything before the events; the book has a line for each event.
    front=$(($(awk 'END { print NR }' "$in") - $(wc -l < "$book")))
    awk -v front="$front" -v book="$book" '
        NR <= front { print; next }
        { getline b < book; if (b == "kept") print }' "$in" > "$work/kept.in"
    "$program" < "$work/kept.in" > "$work/kept"
    # State, notice, octets and bearer: fields 3, 4, 7 and 8, without the line of field names.
    awk -v book="$book" 'NR > 1 { getline b < book; if (b == "kept") print $3, $4, $7, $8 }' "$work/whole" > "$work/want"
    awk 'NR > 1 { print $3, $4, $7, $8 }' "$work/kept" > "$work/got"
    if cmp -s "$work/want" "$work/got"; then
        traces=$((traces + 1))
        lines=$((lines + $(wc -l < "$work/got")))
        struck=$((struck + $(grep -c '^struck$' "$book")))
        continue
    fi
    status=1
    echo "$in: the run of the lines that are kept differs"
    diff "$work/want" "$work/got" | head -4
done
echo "$traces traces agree: $lines lines kept, $struck struck"
exit $status
