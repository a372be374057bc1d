#!/usr/bin/env bash
# sdp.sh [DIRECTORY [PACKET]]: has two SDP parsers, libosip2's and Sofia-SIP's (in strict mode, sdp_f_strict), read the
# messages that the card writes, and compares what they show with the expected message: sdp.c does it and says how.
# The messages are those of wireshark.sh, which has the same arguments. Not part of the gate. Needs Python 3, a C
# compiler, pkg-config and the parsers (apt-get install libosip2-dev libsofia-sip-ua-dev). Ends with status 1 if a
# message differs.
set -euo pipefail
root=$(cd "$(dirname "$0")/.." && pwd)
if ! pkg-config --exists libosip2 sofia-sip-ua; then
    echo "no libosip2 or no Sofia-SIP (apt-get install libosip2-dev libsofia-sip-ua-dev)" >&2
    exit 2
fi
work=$(mktemp -d)
trap 'rm -rf "$work"' EXIT
"$root/tests/wireshark.sh" --messages "$@" > "$work/messages"
status=0
# build and run one parser: its name in sdp.c, and in pkg-config
for parser in OSIP:libosip2 SOFIA:sofia-sip-ua; do
    # shellcheck disable=SC2046
    cc -std=c11 -D_GNU_SOURCE -O2 -Wall -Wextra "-D${parser%:*}" "$root/tests/sdp.c" \
        $(pkg-config --cflags --libs "${parser#*:}") -o "$work/sdp"
    "$work/sdp" < "$work/messages" || status=1
done
exit $status
