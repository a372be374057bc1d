#!/usr/bin/env bash
# stack.sh [DIRECTORY]: runs the programs with just the stack that docs/PROMISES.md assumes, and with no environment,
# and compares what they print with the expected answers: on the gate's inputs (crates/*/stdin, data and stdout), which
# have the longest lines and every kind of event; on all traces and vectors of tests/vectors; and on the
# Recommendation's examples. The programs are those in DIRECTORY (default: the built ones, crates/NAME/out/NAME). Ends
# with status 1 if something differs. Not part of the gate; needs Linux.
set -uo pipefail
cd "$(dirname "$0")/.." || exit 2
# KiB of stack
limit=192
# Linux moves the start of a stack down by up to 8 KiB, at random, so the gate's inputs are run this often.
turns=20
directory=${1:-}
work=$(mktemp -d)
trap 'rm -rf "$work"' EXIT
status=0

# Each program is a script that sets the limit and runs the built one in its place.
for name in bearertrace tracedetail traces inspect; do
    . tests/program.sh $name "${directory:+$directory/$name}"
    printf '#!/usr/bin/env bash\nulimit -s %d && exec -c "%s" "$@"\n' $limit "$program" > "$work/$name"
    chmod +x "$work/$name"
done
mapfile -t words < crates/traces/args
# answers NAME: what the program prints for what the gate gives it
answers() {
    if [ "$1" = traces ]; then
        (cd crates/traces/data && "$work/traces" "${words[@]}")
    else
        "$work/$1" < "crates/$1/stdin"
    fi
}
for name in bearertrace tracedetail traces inspect; do
    agree=0
    for ((turn = 0; turn < turns; turn++)); do
        answers $name | cmp -s - crates/$name/stdout && agree=$((agree + 1))
    done
    echo "$name: $agree of $turns runs print crates/$name/stdout"
    [ $agree -eq $turns ] || status=1
done
tests/traces.sh "$work/bearertrace" "$work/tracedetail" || status=1
tests/vectors.sh "$work/inspect" || status=1
tests/appendix.sh "$work/inspect" || status=1
[ $status -eq 0 ] && echo "each program does with $limit KiB of stack"
exit $status
