#!/usr/bin/env bash
# vectors.sh [PROGRAM [MODE..]]: runs tests/vectors/MODE.in through inspect, for these modes or for all, each
# line after its mode word, and compares the answers with MODE.out. PROGRAM is the built inspect (default:
# crates/inspect/out/inspect); it can also be tests/model.py. Ends with status 1 if a line differs.
set -u
. "$(dirname "$0")/program.sh" inspect "${1:-}"
cd "$(dirname "$0")/.." || exit 2
got=$(mktemp)
trap 'rm -f "$got"' EXIT
status=0
modes=("${@:2}")
if [ ${#modes[@]} -eq 0 ]; then
    for in in tests/vectors/*.in; do
        modes+=("$(basename "$in" .in)")
    done
fi
for mode in "${modes[@]}"; do
    in=tests/vectors/$mode.in
    want=tests/vectors/$mode.out
    sed "s/^/$mode /" "$in" | "$program" > "$got"
    if cmp -s "$got" "$want"; then
        echo "$mode: $(wc -l < "$want") lines agree"
        continue
    fi
    status=1
    awk -v mode="$mode" -v want="$want" -v in_="$in" '
        {
            if ((getline w < want) <= 0) w = "(no line)"
            getline i < in_
            if ($0 != w) {
                printf "%s: line %d differs\n  in   %s\n  want %s\n  got  %s\n", mode, NR, i, w, $0
                differs = 1
                exit
            }
        }
        END {
            if (!differs) printf "%s: only %d lines came out\n", mode, NR
        }' "$got"
done
exit $status
