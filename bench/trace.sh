#!/usr/bin/env bash
# trace.sh: how many instructions bearertrace takes for an event, how long, and how much memory, as a table; and for
# comparison floor.c, which reads the same lines and prints as much, without the card. callgrind counts two runs of
# different length, and their difference gives the cost of one event. Time is that of the whole run, the least of
# several. Not part of the gate. Needs rt, valgrind, a C compiler and Linux.
set -euo pipefail
export LC_ALL=C
root=$(cd "$(dirname "$0")/.." && pwd)
. "$root/bench/inputs.sh"
# lines of a round of trace.txt, and how many of them are not events
round=100
bad_lines=2
# events of the runs that are counted
short=5000
long=10000
# events of the runs that are timed, and how often each is repeated
few=10000
few_times=100
many=1000000
many_times=5
work=$(mktemp -d)
trap 'rm -rf "$work"' EXIT
log=$(cd "$root/crates/bearertrace" && rt run < /dev/null 2>&1) || {
    printf '%s\n' "$log" >&2
    exit 1
}
cc -std=c11 -O2 -Wall -Wextra "$root/bench/floor.c" -o "$work/floor"
for n in $short $long $few $many; do
    trace "$n" > "$work/$n"
done
mkfifo "$work/pipe"

# count PROGRAM EVENTS: the instructions of such a run
count() {
    valgrind --tool=callgrind --callgrind-out-file=/dev/null "$1" < "$work/$2" 2>&1 > /dev/null |
        sed -n 's/.*Collected *: *//p'
}
# took PROGRAM EVENTS TIMES: nanoseconds an event, in the fastest of TIMES runs
took() {
    local least=0 start now turn
    for ((turn = 0; turn < $3; turn++)); do
        start=${EPOCHREALTIME/./}
        "$1" < "$work/$2" > /dev/null
        now=$((${EPOCHREALTIME/./} - start))
        if [ $least -eq 0 ] || [ $now -lt $least ]; then least=$now; fi
    done
    echo $((least * 1000 / $2))
}
# memory PROGRAM EVENTS: the peak of its memory in KiB, once all of the trace has gone into its pipe
memory() {
    "$1" < "$work/pipe" > /dev/null &
    { cat "$work/$2"; awk '/^VmHWM/ { print $2 }' "/proc/$!/status" >&3; } 3>&1 > "$work/pipe"
    wait
}
bearertrace=$root/crates/bearertrace/out/bearertrace
# A line for each event, after the line of field names. A round has two bad lines and ends idle, so all rounds are alike.
"$bearertrace" < "$work/$few" > "$work/printed"
lines=$(wc -l < "$work/printed")
bad=$(grep -c ' bad ' "$work/printed")
last=$(tail -n 1 "$work/printed" | cut -d ' ' -f 3)
if [ "$lines $bad $last" != "$((few + 1)) $((few / round * bad_lines)) idle" ]; then
    echo "bearertrace prints $lines lines for $few events, of which $bad are bad, and ends $last" >&2
    exit 1
fi
# The floor prints as much, to within one per cent.
octets=$(wc -c < "$work/printed")
floor=$("$work/floor" < "$work/$few" | wc -c)
if [ $((floor * 100 / octets)) -lt 99 ] || [ $((floor * 100 / octets)) -gt 100 ]; then
    echo "floor prints $floor octets, bearertrace $octets" >&2
    exit 1
fi
echo "| an event | instructions | ns, of $few | ns, of $many | KiB, of $few | KiB, of $many |"
echo "|---|---|---|---|---|---|"
for program in "$bearertrace" "$work/floor"; do
    instructions=$((($(count "$program" $long) - $(count "$program" $short)) / (long - short)))
    echo "| \`$(basename "$program")\` | $instructions | $(took "$program" $few $few_times) |" \
        "$(took "$program" $many $many_times) | $(memory "$program" $few) | $(memory "$program" $many) |"
done
