# shellcheck shell=bash
# Sourced by the other scripts: makes the inputs of the benchmarks from messages.txt and trace.txt.
bench=$(dirname "${BASH_SOURCE[0]}")

# message NAME: the octets of that message
message() {
    awk -v head="[$1]" '
        /^(#|\[|$)/ { on = $0 == head; next }
        on { gsub(/\\r/, "\r"); gsub(/\\n/, "\n"); printf "%s", $0 }' "$bench/messages.txt"
}
# trace N: the configuration and N events, repeating the round of trace.txt
trace() {
    awk -v n="$1" '
        BEGIN { for (i = 1; i < 128; i++) digits[sprintf("%c", i)] = sprintf("%02X", i) }
        function hex(text,    i, all) {
            gsub(/\\r/, "\r", text)
            gsub(/\\n/, "\n", text)
            for (i = 1; i <= length(text); i++) all = all digits[substr(text, i, 1)]
            return all
        }
        /^(#|$)/ { next }
        FNR == NR && /^\[/ { name = substr($0, 2, length($0) - 2); next }
        FNR == NR { message[name] = message[name] hex($0); next }
        $1 == "M" && $2 in message { $2 = message[$2] }
        { gsub(/ /, "\t") }
        $1 == "G" || $1 == "K" { print; next }
        { event[events++] = $0 }
        END { for (i = 0; i < n; i++) print event[i % events] }' "$bench/messages.txt" "$bench/trace.txt"
}
