#!/usr/bin/env bash
# match.sh: how many instructions it takes to match two codec lists and to write the reduced list (bat_match, a static
# library), as a table. callgrind counts two runs of different length, and their difference gives the cost of one call.
# Not part of the gate. Needs rt, valgrind and a C compiler.
set -euo pipefail
root=$(cd "$(dirname "$0")/.." && pwd)
work=$(mktemp -d)
trap 'rm -rf "$work"' EXIT
"$root/tools/staticlib.sh" bat_match
cc -std=c11 -O2 -Wall -Wextra -I"$root/include" "$root/bench/match.c" "$root/target/staticlib/libbat_match.a" \
    -o "$work/match"

# list CODEC..: a codec list of these, in digits, written in the shortest form
list() {
    local codecs length
    codecs=$(printf %s "$@")
    length=$((${#codecs} / 2 + 1))
    if [ $length -lt 128 ]; then
        printf '04%02X80%s' $((128 + length)) "$codecs"
    else
        printf '04%02X%02X80%s' $((length % 128)) $((128 + length / 128)) "$codecs"
    fi
}
# many COUNT ORGANISATION [FIRST DIFFERENT]: that many codecs of an organisation, of five octets each: so many different
# ones (default: 256) with last octets from FIRST (default: 0) on, then repeats
many() {
    local i
    for ((i = 0; i < $1; i++)); do printf '058380%02X%02X' "$2" $((${3:-0} + i % ${4:-256})); done
}
# octets: what digits on standard input stand for
octets() {
    printf '%b' "$(sed 's/../\\x&/g')"
}
# count NAME TURNS: the instructions of such a run, the offered list leading; leaves its answer in $work/answer
count() {
    valgrind --tool=callgrind --callgrind-out-file=/dev/null "$work/match" "$work/$1.offered" "$work/$1.own" 0 "$2" \
        2>&1 > "$work/answer" | sed -n 's/.*Collected *: *//p'
}
# row NAME TURNS OFFERED OWN ANSWER WHAT: a row of the table, from runs of TURNS calls and of twice as many
row() {
    printf %s "$3" | octets > "$work/$1.offered"
    printf %s "$4" | octets > "$work/$1.own"
    local took=$((($(count "$1" $((2 * $2))) - $(count "$1" "$2")) / $2))
    if [ "$(cat "$work/answer")" != "$5" ]; then
        echo "the card answers $(cat "$work/answer") to $1, not $5" >&2
        exit 1
    fi
    echo "| \`$1\`: $6 | $took |"
}

# ITU-T: G.711 A-law and mu-law, G.722, G.723.1 and its Annex A, G.728, G.729 and its Annex B; G.726 and G.727 with a
# configuration octet.
alaw=0583800101 ulaw=0583800102 g722=0583800105 g7231=0583800106 g7231a=0583800107 g728=058380010A g729=058380010B
g729b=058380010C g726=058480010804 g727=058480010902
# ETSI: GSM full rate, half rate and enhanced full rate; AMR for full rate and half rate, UMTS AMR and UMTS AMR 2, each
# with its active and supported rates and how many of them may be active.
fr=0583800200 hr=0583800201 efr=0583800202 amrfr=0586800203959504 amrhr=0586800204151503 umts=0586800205959504
umts2=0586800206959504 umts2one=0586800206808001

offered=$(list $umts2 $umts $amrfr $amrhr $efr $fr $hr $g729b $g729 $g7231a $alaw $ulaw)
own=$(list $g722 $g728 $g726 $g7231 $g7231a $umts2one $umts $g729 $g729b $g727 $ulaw $alaw)
echo '| codec lists | instructions a call |'
echo '|---|---|'
# The second codec is the first in common: the own list has UMTS AMR 2 at one rate only.
row twelve 1000 "$offered" "$own" "0 11 8 $(list $umts $g729b $g729 $g7231a $alaw $ulaw)" '12 against 12, 6 in common'
row none 10 "$(list "$(many 400 0)")" "$(list "$(many 400 2)")" '15 0 0 -' '400 against 400, none in common'
row alike 10 "$(list "$(many 400 0 0 128)")" "$(list "$(many 400 0 128 128)")" '15 0 0 -' \
    '400 against 400, none in common, all of one organisation'
row last 10 "$(list "$(many 399 0)" $alaw)" "$(list "$(many 399 2)" $alaw)" "0 1999 5 $(list $alaw)" \
    '400 against 400, only the last in common'
