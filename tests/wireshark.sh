#!/usr/bin/env bash
# wireshark.sh [--messages] [DIRECTORY [PACKET]]: has Wireshark's dissectors read what the card writes (elements, tunnel
# replies, messages, packets with a message), and compares what they show with what is expected: wireshark.py does it
# and says how. DIRECTORY has inspect and tracedetail (default: the built ones, crates/NAME/out/NAME). PACKET is the program
# of packet.c; by default it is linked here with the library that `tools/staticlib.sh card_packet` proves and writes, and
# `-` leaves that part out. With --messages the messages are printed for sdp.sh instead. Not part of the gate. Needs Python
# 3 and tshark (apt-get install tshark), and rt and a C compiler for PACKET. Ends with status 1 if something differs.
set -eu
root=$(cd "$(dirname "$0")/.." && pwd)
mode=()
if [ "${1:-}" = --messages ]; then
    mode=(--messages)
    shift
elif ! command -v tshark > /dev/null; then
    echo "no tshark (apt-get install tshark)" >&2
    exit 2
else
    # The faults of dissectors that wireshark.py names are those of TShark 4.0.17.
    tshark --version 2> /dev/null | sed -n 1p
fi
work=$(mktemp -d)
trap 'rm -rf "$work"' EXIT
for name in tracedetail inspect; do
    . "$root/tests/program.sh" $name "${1:+$1/$name}"
    ln -s "$program" "$work/$name"
done
packet=${2:-}
if [ -z "$packet" ]; then
    "$root/tools/staticlib.sh" card_packet
    packet=$work/packet
    cc -std=c11 -D_POSIX_C_SOURCE=200809L -O2 -Wall -Wextra "$root/tests/packet.c" \
        "$root/target/staticlib/libcard_packet.a" -o "$packet"
elif [ "$packet" = - ]; then
    packet=
fi
python3 -B "$root/tests/wireshark.py" "${mode[@]}" "$work" ${packet:+"$packet"}
