#!/usr/bin/env bash
# traces.sh [BEARERTRACE [TRACEDETAIL [DIRECTORY]]]: runs each trace of DIRECTORY/plain-traces through bearertrace and
# each of DIRECTORY/traces through tracedetail, and compares what they print with the answers next to it (N.out,
# N.octets). By default the programs are the built ones (crates/NAME/out/NAME), and DIRECTORY is tests/vectors. Names the
# first line of each trace that differs, and ends with status 1 if there is one.
set -u
cd "$(dirname "$0")/.." || exit 2
. tests/program.sh bearertrace "${1:-}"
bearertrace=$program
. tests/program.sh tracedetail "${2:-}"
tracedetail=$program
vectors=${3:-tests/vectors}
got=$(mktemp)
trap 'rm -f "$got"' EXIT
status=0

# compare PROGRAM ENDING TRACE..
compare() {
    local run=$1 ending=$2 agree=0 in want
    shift 2
    for in in "$@"; do
        want=${in%.in}.$ending
        "$run" < "$in" > "$got"
        if cmp -s "$got" "$want"; then
            agree=$((agree + 1))
            continue
        fi
        status=1
        awk -v in_="$in" -v want="$want" '
            {
                if ((getline w < want) <= 0) w = "(no line)"
                if ($0 != w) {
                    printf "%s: line %d differs\n  want %s\n  got  %s\n", in_, NR, w, $0
                    differs = 1
                    exit
                }
            }
            END {
                if (!differs) printf "%s: only %d lines came out\n", in_, NR
            }' "$got"
    done
    echo "$(basename "$run"): $agree of $# traces agree"
}
compare "$bearertrace" out "$vectors"/plain-traces/*.in
compare "$tracedetail" octets "$vectors"/traces/*.in
exit $status
