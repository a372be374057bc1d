#!/usr/bin/env bash
# faults.sh [INSPECT [BEARERTRACE [TRACEDETAIL]]]: faults of input and output. Gives each program input that is closed,
# can't be read, is empty, is cut at every octet, comes an octet at a time, is interrupted or is not there yet; and
# output that is full, closed, limited, has no reader or a slow one. Each time the program must end by itself, say on
# standard error what has failed and nothing else, and print the right answers, or the first octets of them if the
# output is not taken (docs/DECISIONS.md, "Failures of input and output"). The programs are the built ones by default
# (crates/NAME/out/NAME). Ends with status 1 if something is wrong. Not part of the gate; needs Linux and Python.
set -u
export LC_ALL=C
cd "$(dirname "$0")/.." || exit 2
declare -A programs
place=("$@")
for name in inspect bearertrace tracedetail; do
    . tests/program.sh $name "${place[0]:-}"
    programs[$name]=$program
    place=("${place[@]:1}")
done
work=$(mktemp -d)
trap 'rm -rf "$work"' EXIT
# What a program says on standard error if a read fails, and if its output is not taken.
unread="the input can't be read"
untaken='the output was not taken'
# The most seconds that a program may take.
limit=20
checks=0
status=0

# wrong WHAT..
wrong() {
    echo "WRONG $name: $*"
    status=1
}
# run COMMAND..: runs it for `limit` seconds at most; what it writes to standard error is kept.
run() {
    timeout -k 1 $limit "$@" 2> "$work/err"
}
# ended WHAT STATUS WANTED [COMPLAINT]: how the program has ended, and what it has said on standard error.
ended() {
    checks=$((checks + 1))
    if [ "$2" = 124 ] || [ "$2" = 137 ]; then
        wrong "$1: does not end within $limit s"
    elif [ "$2" != "$3" ]; then
        wrong "$1: status $2, not $3"
    fi
    if [ "$(cat "$work/err")" != "${4:-}" ]; then
        wrong "$1: says '$(head -c 200 "$work/err")' on standard error, not '${4:-}'"
    fi
}
# printed WHAT FILE: what was printed is the contents of FILE.
printed() {
    checks=$((checks + 1))
    cmp -s "$work/out" "$2" || wrong "$1: prints something else: $(diff -a "$2" "$work/out" | head -3 | cut -c1-200)"
}
# printed_front WHAT FILE: what was printed is the front of FILE.
printed_front() {
    checks=$((checks + 1))
    cmp -s -n "$(wc -c < "$work/out")" "$work/out" "$2" || wrong "$1: what is printed is not the front of what is right"
}
# end_of PID: its status once it has ended; it is given `limit` seconds, and 137 is the status of one that was killed.
end_of() {
    local turns=$((limit * 20))
    while kill -0 "$1" 2> /dev/null && [ $turns -gt 0 ]; do
        sleep 0.05
        turns=$((turns - 1))
    done
    if [ $turns = 0 ]; then kill -KILL "$1"; fi
    wait "$1"
}

# What each program is given, and what is right: a sample, and an input whose answers are too many for a pipe to hold.
# The answers of inspect and bearertrace do not come from this repository's programs; those of tracedetail are its own,
# with bearertrace's as first columns.
prepare_inspect() {
    local mode
    cp samples/inspect.txt "$work/inspect.in"
    tests/model.py < "$work/inspect.in" > "$work/inspect.right"
    for mode in elements rewrite match tunnel message address; do
        sed "s/^/$mode /" "tests/vectors/$mode.in" >> "$work/inspect.long"
        cat "tests/vectors/$mode.out" >> "$work/inspect.long-right"
    done
}
# The sample's answers, repeated.
trace_answers() {
    echo 'n event state notice dropped written'
    for ((i = 0; i < $1; i++)); do
        printf '%s\n' 'U await-setup none no 120' 'M up up no 0' 'C await-change none no 143' 'M up changed no 0' \
            'C await-change none no 120' 'M up change-failed no 0' 'T2 up discarded no 0' 'C up refused-5 no 0' \
            'bad up refused-13 no 0' 'X idle released no 0' 'X idle refused-11 no 0'
    done | awk '{ print NR, $0 }'
}
prepare_traces() {
    local i
    for name in bearertrace tracedetail; do
        cp samples/trace.txt "$work/$name.in"
        head -n 3 samples/trace.txt > "$work/$name.long"
        for ((i = 0; i < 400; i++)); do tail -n +4 samples/trace.txt; done >> "$work/$name.long"
    done
    trace_answers 1 > "$work/bearertrace.right"
    trace_answers 400 > "$work/bearertrace.long-right"
}
# tracedetail's own answers, once their first columns are right.
prepare_detail() {
    local in right
    name=tracedetail
    for in in in:right long:long-right; do
        right=${in#*:}
        run "${programs[tracedetail]}" < "$work/tracedetail.${in%:*}" > "$work/tracedetail.$right"
        ended "whole $in" $? 0
        cut -d ' ' -f 1-6 "$work/tracedetail.$right" > "$work/out"
        printed "first columns" "$work/bearertrace.$right"
    done
}

# ---- input
whole_input() {
    run "$program" < "$work/$name.in" > "$work/out"
    ended whole $? 0
    printed whole "$work/$name.right"
    run "$program" < "$work/$name.long" > "$work/out"
    ended long $? 0
    printed long "$work/$name.long-right"
}
# No line comes: a trace has no configuration then.
no_input() {
    : > "$work/none"
    if [ "$name" != inspect ]; then echo refused-12 > "$work/none"; fi
    run "$program" < /dev/null > "$work/out"
    ended 'empty input' $? 0
    printed 'empty input' "$work/none"
    run "$program" <&- > "$work/out"
    ended 'closed input' $? 0 "$unread"
    printed 'closed input' "$work/none"
    run "$program" < "$work" > "$work/out"
    ended 'a directory as input' $? 0 "$unread"
    printed 'a directory as input' "$work/none"
}
octet_by_octet() {
    dd bs=1 status=none < "$work/$name.in" | run "$program" > "$work/out"
    ended 'an octet at a time' "${PIPESTATUS[1]}" 0
    printed 'an octet at a time' "$work/$name.right"
}
# want_front LINES PART ANSWER: what is right for LINES whole lines and a part of the next. In inspect that part is
# answered as a line; in a trace it is bad, or spoils the configuration, which has three lines.
want_front() {
    local last events=$(($1 - 3))
    if [ "$name" = inspect ]; then
        head -n "$1" "$work/$name.right"
        if [ -n "$2" ]; then echo "$3"; fi
    elif [ "$1" -lt 2 ] || { [ "$1" = 2 ] && [ -n "$2" ]; }; then
        echo refused-12
    elif [ -z "$2" ]; then
        head -n $((events < 0 ? 1 : events + 1)) "$work/$name.right"
    else
        head -n $((events + 1)) "$work/$name.right" | tee "$work/before"
        read -r -a last < <(tail -n 1 "$work/before")
        if [ $events = 0 ]; then last=(0 - idle - - - - -); fi
        if [ "$name" = bearertrace ]; then last[7]=; fi
        echo "$((events + 1)) bad ${last[2]} refused-13 no 0${last[7]:+ - ${last[7]}}"
    fi
}
# cut_everywhere: the sample cut at every octet.
cut_everywhere() {
    local text front part ends p answers
    text=$(cat "$work/$name.in" && echo .)
    text=${text%.}
    # The parts of lines are answered by the outside reader, all of them at once.
    mapfile -t answers < <(for ((p = 0; p <= ${#text}; p++)); do
        front=${text:0:p}
        echo "${front##*$'\n'}"
    done | tests/model.py)
    for ((p = 0; p <= ${#text}; p++)); do
        front=${text:0:p}
        part=${front##*$'\n'}
        ends=${front//[!$'\n']/}
        want_front ${#ends} "$part" "${answers[p]}" > "$work/want"
        printf %s "$front" > "$work/front"
        run "$program" < "$work/front" > "$work/out"
        ended "cut at octet $p" $? 0
        printed "cut at octet $p" "$work/want"
    done
}
# Each answer is there before the next line is given.
line_by_line() {
    local line got count=0 first=0
    if [ "$name" != inspect ]; then first=3; fi
    coproc DIALOGUE { run "$program"; }
    local pid=$DIALOGUE_PID
    : > "$work/out"
    while IFS= read -r line; do
        printf '%s\n' "$line" >&"${DIALOGUE[1]}"
        count=$((count + 1))
        if [ $count -le $first ]; then continue; fi
        # The field names come before the first event's answer.
        if [ $count = $((first + 1)) ] && [ $first = 3 ]; then
            IFS= read -r -t 5 got <&"${DIALOGUE[0]}" && printf '%s\n' "$got" >> "$work/out"
        fi
        IFS= read -r -t 5 got <&"${DIALOGUE[0]}" || break
        printf '%s\n' "$got" >> "$work/out"
    done < "$work/$name.in"
    eval "exec ${DIALOGUE[1]}>&-"
    wait "$pid"
    ended 'line by line' $? 0
    printed 'line by line' "$work/$name.right"
}
# The program is stopped and goes on while it waits for input.
stopped() {
    local pid size
    size=$(($(wc -c < "$work/$name.in") / 2))
    rm -f "$work/fifo" && mkfifo "$work/fifo"
    "$program" < "$work/fifo" > "$work/out" 2> "$work/err" &
    pid=$!
    {
        head -c $size "$work/$name.in"
        sleep 0.2
        kill -STOP $pid
        sleep 0.1
        kill -CONT $pid
        sleep 0.1
        kill -STOP $pid
        tail -c +$((size + 1)) "$work/$name.in"
        kill -CONT $pid
    } > "$work/fifo"
    end_of $pid
    ended 'stopped and continued' $? 0
    printed 'stopped and continued' "$work/$name.right"
}

# ---- output
# not_taken WHAT STATUS COMPLAINT: input of which more might come, and an output, descriptor 3, that takes nothing.
not_taken() {
    local input pid
    exec {input}< <(cat "$work/$name.long" && exec sleep $((limit * 2)))
    pid=$!
    run "${@:4}" "$program" <&$input >&3
    ended "$1" $? "$2" "$3"
    exec {input}<&-
    kill $pid 2> /dev/null
}
no_output() {
    not_taken 'a full disk' 0 "$untaken" env 3> /dev/full
    run "$program" < "$work/$name.long" >&-
    ended 'closed output' $? 0 "$untaken"
    # A pipe that has lost its reader. A program of today's kit ignores the signal from its start, whatever it was set to.
    local both
    rm -f "$work/fifo" && mkfifo "$work/fifo"
    exec {both}<> "$work/fifo" 3> "$work/fifo" {both}>&-
    not_taken 'no reader' 0 "$untaken" env --default-signal=PIPE
    not_taken 'no reader, and the signal is ignored' 0 "$untaken" env --ignore-signal=PIPE
    exec 3>&-
}
# A file that may have 1,024 octets.
limited() {
    (trap '' XFSZ && ulimit -f 1 && run "$program" < "$work/$name.long") > "$work/out"
    ended 'a limited file' $? 0 "$untaken"
    printed_front 'a limited file' "$work/$name.long-right"
    [ "$(wc -c < "$work/out")" = 1024 ] || wrong "a limited file: $(wc -c < "$work/out") octets, not 1024"
}
slow_reader() {
    run "$program" < "$work/$name.long" | { sleep 0.3 && dd bs=1 status=none; } > "$work/out"
    ended 'a slow reader' "${PIPESTATUS[0]}" 0
    printed 'a slow reader' "$work/$name.long-right"
}
# The program is stopped and goes on while it waits for its reader.
stopped_writing() {
    local pid
    rm -f "$work/fifo" && mkfifo "$work/fifo"
    "$program" < "$work/$name.long" > "$work/fifo" 2> "$work/err" &
    pid=$!
    {
        sleep 0.2
        kill -STOP $pid
        sleep 0.1
        kill -CONT $pid
        sleep 0.1
        cat
    } < "$work/fifo" > "$work/out"
    end_of $pid
    ended 'stopped while writing' $? 0
    printed 'stopped while writing' "$work/$name.long-right"
}

# ---- descriptors that do not wait
# unblocked END: runs the program with a pipe that does not wait as its input (in) or output (out). As input it has the
# sample's first octets, and more would come; as output it is read once the program has ended.
unblocked() {
    run python3 - "$1" "$program" "$work/$name" "$limit" 2> "$work/err" << 'END'
import os, subprocess, sys
end, program, place, limit = sys.argv[1:]
r, w = os.pipe()
if end == "in":
    os.set_blocking(r, False)
    with open(place + ".in", "rb") as f:
        os.write(w, f.read(300))
    done = subprocess.run([program], stdin=r, stdout=open(place + ".part", "wb"), timeout=int(limit) - 2)
else:
    os.set_blocking(w, False)
    done = subprocess.run([program], stdin=open(place + ".long", "rb"), stdout=w, timeout=int(limit) - 2)
    os.close(w)
    with open(r, "rb") as f, open(place + ".part", "wb") as out:
        out.write(f.read())
sys.exit(done.returncode)
END
}
# A read that fails is the end of the input, so what has come is answered, the last line as one that is cut; output that
# is not taken ends the program.
not_waiting() {
    unblocked in
    ended 'input that is not there yet' $? 0 "$unread"
    head -c 300 "$work/$name.in" > "$work/front"
    run "$program" < "$work/front" > "$work/out"
    printed 'input that is not there yet' "$work/$name.part"
    unblocked out
    ended 'output that is not taken yet' $? 0 "$untaken"
    cp "$work/$name.part" "$work/out"
    printed_front 'output that is not taken yet' "$work/$name.long-right"
}

prepare_inspect
prepare_traces
prepare_detail
for name in inspect bearertrace tracedetail; do
    program=${programs[$name]}
    for fault in whole_input no_input octet_by_octet line_by_line stopped no_output limited slow_reader \
        stopped_writing not_waiting cut_everywhere; do
        $fault
    done
    echo "$name: $checks checks so far"
done
if [ $status = 0 ]; then echo "faults: $checks checks, all right"; fi
exit $status
