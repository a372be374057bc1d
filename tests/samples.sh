#!/usr/bin/env bash
# samples.sh [BEARERTRACE [INSPECT]]: compares what the programs print for samples/ with what README.md and
# docs/PROGRAMS.md say that they print. In the table of docs/PROGRAMS.md `..` stands for digits that are left out. The
# programs are the built ones by default (crates/NAME/out/NAME). Ends with status 1 if a line differs.
set -u
cd "$(dirname "$0")/.." || exit 2
. tests/program.sh bearertrace "${1:-}"
trace=$program
. tests/program.sh inspect "${2:-}"
status=0
# what the README shows: the indented lines after this sentence
told=$(awk '/^It prints, with a line of field names first:/ { on = 1; next } on && /^    / { print substr($0, 5); seen = 1; next } seen { exit }' README.md)
if [ -z "$told" ] || [ "$told" != "$("$trace" < samples/trace.txt)" ]; then
    echo "README.md shows another answer to samples/trace.txt"
    status=1
fi
# the rows of the table: a line and its answer between backquotes
rows=$(awk -F'`' '/^\| `(elements|rewrite|match|tunnel|message|address) / { print $2 "\t" $4 }' docs/PROGRAMS.md)
lines=$(paste samples/inspect.txt <("$program" < samples/inspect.txt))
if [ "$(printf '%s\n' "$rows" | wc -l)" != "$(printf '%s\n' "$lines" | wc -l)" ]; then
    echo "docs/PROGRAMS.md has another number of lines than samples/inspect.txt"
    status=1
fi
# `..` matches any digits, everything else itself
while IFS=$'\t' read -r line answer told_line told_answer; do
    for pair in "$line|$told_line" "$answer|$told_answer"; do
        got=${pair%|*}
        shown=${pair##*|}
        pattern=$(printf '%s' "$shown" | sed 's/[][\\*^$.]/\\&/g; s/\\\.\\\./[0-9A-F]*/')
        if ! printf '%s\n' "$got" | grep -q -x -- "$pattern"; then
            echo "docs/PROGRAMS.md shows $shown for $got"
            status=1
        fi
    done
done < <(paste <(printf '%s\n' "$lines") <(printf '%s\n' "$rows"))
[ $status -eq 0 ] && echo "README.md and docs/PROGRAMS.md show what is printed: $(printf '%s\n' "$told" | wc -l) and $(printf '%s\n' "$lines" | wc -l) lines"
exit $status
