#!/usr/bin/env bash
# message.sh: how many instructions it takes to read a message, as a table: the card's reader (card_message_c, a static
# library); libosip2 and Sofia-SIP, if they are installed, and how many times the card's instructions they take; and two
# passes over the octets that only look for line ends. callgrind counts two runs of different length, and their
# difference gives the cost of one message. Not part of the gate. Needs rt, valgrind and a C compiler; the parsers need
# pkg-config (apt-get install libosip2-dev libsofia-sip-ua-dev).
set -euo pipefail
root=$(cd "$(dirname "$0")/.." && pwd)
. "$root/bench/inputs.sh"
short=1000
long=2000
# the messages: name, octets, and the card's answer: 1000 plus the port, 256 for a type alone, or a refusal
messages=(request:171:5000 longest:512:5000 confused:85:256 wrong:170:10)
work=$(mktemp -d)
trap 'rm -rf "$work"' EXIT
"$root/tools/staticlib.sh" card_message

# build READER FLAG..
build() {
    cc -std=c11 -O2 -Wall -Wextra "-D$1" "$root/bench/message.c" "${@:2}" -o "$work/$1"
}
# count READER FILE TURNS: the instructions of such a run; leaves its answer in $work/answer
count() {
    valgrind --tool=callgrind --callgrind-out-file=/dev/null "$work/$1" "$2" "$3" 2>&1 > "$work/answer" |
        sed -n 's/.*Collected *: *//p'
}
build CARD "$root/target/staticlib/libcard_message.a"
readers=(CARD)
names='card'
for parser in OSIP:libosip2:libosip2 SOFIA:sofia-sip-ua:Sofia-SIP; do
    IFS=: read -r reader package name <<< "$parser"
    if ! pkg-config --exists "$package" 2> /dev/null; then
        echo "no $name is installed" >&2
        continue
    fi
    # shellcheck disable=SC2046
    build "$reader" $(pkg-config --cflags --libs "$package")
    readers+=("$reader")
    names+=" | $name"
done
build OCTETS -fno-tree-vectorize
build MEMCHR
readers+=(OCTETS MEMCHR)
echo "| instructions a message | $names | octet by octet | memchr |"
echo "|---|$(printf -- '---|%.0s' "${readers[@]}")"
for m in "${messages[@]}"; do
    IFS=: read -r name octets want <<< "$m"
    message "$name" > "$work/$name"
    if [ "$(wc -c < "$work/$name")" != "$octets" ]; then
        echo "$name is not of $octets octets" >&2
        exit 1
    fi
    row="| \`$name\`, $octets octets |"
    card=
    for reader in "${readers[@]}"; do
        took=$((($(count "$reader" "$work/$name" $long) - $(count "$reader" "$work/$name" $short)) / (long - short)))
        answer=$(cat "$work/answer")
        case $reader in
        CARD)
            if [ "$answer" != "$want" ]; then
                echo "the card answers $answer to $name, not $want" >&2
                exit 1
            fi
            card=$took
            ;;
        OCTETS | MEMCHR)
            if [ "$answer" != "$(wc -l < "$work/$name")" ]; then
                echo "$reader counts $answer line ends in $name" >&2
                exit 1
            fi
            ;;
        OSIP | SOFIA)
            took+=" ($(awk "BEGIN { printf \"%.1f\", $took / $card }"))"
            [ "$answer" = 1 ] || took+=" refused"
            ;;
        esac
        row+=" $took |"
    done
    echo "$row"
done
