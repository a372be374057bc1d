#!/usr/bin/env bash
# choose.sh: writes crates/inspect/stdin and crates/inspect/stdout, which the gate runs: every fifth line of
# each mode in tests/vectors, from the first on, with its answer; the examples in tests/appendix; then lines
# whose answers are written by hand from the format and from documents 01 and 02: bad ones, one of each kind, and
# the edges of each mode. No answer comes from inspect's output.
set -eu
cd "$(dirname "$0")/.."
. tests/hex.sh
in=crates/inspect/stdin
out=crates/inspect/stdout
: > "$in"
: > "$out"
for mode in elements rewrite match tunnel message address; do
    awk -v mode="$mode" 'NR % 5 == 1 { print mode, $0 }' "tests/vectors/$mode.in" >> "$in"
    awk 'NR % 5 == 1' "tests/vectors/$mode.out" >> "$out"
done
tests/appendix-lines.sh >> "$in"
cat tests/appendix/*.out >> "$out"

# line TEXT ANSWER
line() {
    printf '%s\n' "$1" >> "$in"
    printf '%s\n' "$2" >> "$out"
}
# bad TEXT
bad() {
    line "$1" bad-line
}

# No mode, or one that does not exist.
bad ''
bad ' '
bad '1 1 01828108'
bad 'element 1 1 01828108'
bad 'ELEMENTS 1 1 01828108'
bad ' elements 1 1 01828108'
# A missing field, one too many, or an empty one.
bad 'elements'
bad 'elements 1 1'
bad 'elements 1 1 '
bad 'elements 1  01828108'
bad 'elements 1 1 01828108 '
bad 'elements 1 1 01828108 00'
bad 'rewrite 9 5'
bad 'rewrite 9 5 01828108 1'
# A CR is not part of a line's end.
bad $'elements 1 1 01828108\r'
# Digits: an odd number of them, or none.
bad 'elements 1 1 0182810'
bad 'elements 1 1 0182810G'
bad 'elements 1 1 --'
bad 'rewrite 9 5 0x828108'
# Numbers: a leading zero, a sign, no digit; passing on is 0 or 1.
bad 'elements 01 1 01828108'
bad 'elements 1 01 01828108'
bad 'elements 1 00 01828108'
bad 'elements 2 1 01828108'
bad 'elements 1 -1 01828108'
bad 'elements 1 065536 01828108'
bad 'elements 1 65536x 01828108'
bad 'elements 65536 1 01828108'
bad 'rewrite 9 005 01828108'
bad 'rewrite 9 x 01828108'
# The longest line has 16,384 octets with its LF; one more is too many.
digits=$(printf '%016370d' 0)
line "elements 1 0 $digits" refused-1
bad "elements 1 10 $digits"
bad "elements 1 0 $digits$digits"
# The program goes on after a bad line. The values follow from the document: data over 2,048 octets is refused by
# 1. In rewrite, no element is refused by 2, two by 3, a compatibility over 255 by 5, and a refusal of the data
# comes first.
line 'elements 1 1 01828108' 'neither 1 1/0/4/action=8 listed=-'
line 'elements 1 65535 -' 'neither 0 listed=-'
line 'elements 1 99999999999999999999 01828108' 'neither 1 1/0/4/action=8 listed=-'
line 'rewrite 4 5 01828108' 01828508
line 'rewrite 65536 5 01828108' 01828508
line 'rewrite 4 256 01828108' refused-5
line 'rewrite 4 1000000 01828108' refused-5
line 'rewrite 3 256 01828108' refused-5
line 'rewrite 3 255 01828108' refused-4
line 'rewrite 65535 65535 -' refused-2
line 'rewrite 65535 65535 0182810801828108' refused-3
line 'rewrite 65535 65535 0180' refused-2
line 'rewrite 65535 65535 E08185' unknown
# Fields of the other modes: missing, one too many, empty, of the wrong digits, word or family.
bad 'match'
bad 'match offered'
bad 'match offered 8'
bad 'match offered 8 0486800583800101'
bad 'match offered 8 0486800583800101 '
bad 'match offered 8  0486800583800101'
bad 'match offered  0486800583800101 0486800583800101'
bad 'match  8 0486800583800101 0486800583800101'
bad 'match 8 0486800583800101 0486800583800101'
bad 'match offered 0486800583800101 0486800583800101'
bad 'match offered 8 0486800583800101 0486800583800101 '
bad 'match offered 8 0486800583800101 0486800583800101 -'
bad 'match 8 offered 0486800583800101 0486800583800101'
bad 'match Offered 8 0486800583800101 0486800583800101'
bad 'match OWN 8 0486800583800101 0486800583800101'
bad 'match owner 8 0486800583800101 0486800583800101'
bad 'match ow 8 0486800583800101 0486800583800101'
bad 'match 1 8 0486800583800101 0486800583800101'
bad 'match - 8 0486800583800101 0486800583800101'
bad 'match offered 08 0486800583800101 0486800583800101'
bad 'match offered 00 0486800583800101 0486800583800101'
bad 'match offered -1 0486800583800101 0486800583800101'
bad 'match offered - 0486800583800101 0486800583800101'
bad 'match offered 8x 0486800583800101 0486800583800101'
bad 'match offered 8 048680058380010 0486800583800101'
bad 'match offered 8 0486800583800101 048680058380010'
bad 'match offered 8 048680058380010G 0486800583800101'
bad 'match offered 8 0486800583800101 048680058380010G'
bad 'match offered 8 -- 0486800583800101'
bad 'match offered 8 0486800583800101 --'
bad 'MATCH offered 8 0486800583800101 0486800583800101'
bad 'matches offered 8 0486800583800101 0486800583800101'
bad $'match offered 8 0486800583800101 0486800583800101\r'
bad 'tunnel'
bad 'tunnel 2'
bad 'tunnel 2020'
bad 'tunnel 2 '
bad 'tunnel  2020'
bad 'tunnel 2 2020 '
bad 'tunnel 2 2020 2020'
bad 'tunnel 2 202'
bad 'tunnel 2 20G0'
bad 'tunnel 02 2020'
bad 'tunnel -1 2020'
bad 'tunnel - 2020'
bad 'tunnel x 2020'
bad 'TUNNEL 2 2020'
bad 'message'
bad 'message '
bad 'message  613D'
bad 'message 613'
bad 'message a='
bad 'message - -'
bad 'message 613D '
bad 'messages 613D'
bad 'address'
bad 'address 4'
bad 'address 4 '
bad 'address 4 3'
bad 'address 4 1.2.3.4'
bad 'address 4 3A3A31 '
bad 'address 04 3A3A31'
bad 'address 0 3A3A31'
bad 'address 5 3A3A31'
bad 'address 65536 3A3A31'
bad 'address IP6 3A3A31'
bad 'address - 3A3A31'
bad 'address 5 -'

# Match. ITU-T codecs of types 1, 2, 11 and 12, and the first octets of a list of one, two and three of them.
t1=0583800101
t2=0583800102
t11=058380010B
t12=058380010C
one=048680
two=048B80
three=049080
# either ANSWER STRING OTHER: the answer without a buffer, whichever leads and in whichever order the strings are given
either() {
    local lead
    for lead in offered own; do
        line "match $lead 0 $2 $3" "$1"
        line "match $lead 0 $3 $2" "$1"
    done
}
# zeros N: N octets that are 0
zeros() {
    printf "%0$((2 * $1))d" 0
}
# Number 1 is for data over 2,048 octets: each string, not both together. This list has 2,048: one codec of 2,044.
full=047D8F8005798F80$(zeros 2040)
line "match offered 2048 $full $full" "4/2044 $full"
line "match own 4096 $full $full" "4/2044 $full"
line "match offered 2047 $full $full" '4/2044 refused-4'
# It comes before 2, 14, 15 and 4: in the other string, in the same one, for both together.
either refused-1 "${full}00" "$full"
either refused-1 "${full}00" "$one$t1"
either refused-1 "${full}00" 0480
either refused-1 "${full}00" -
# The longest line, and one octet more.
line "match own 10 - ${digits:2}" refused-1
bad "match own 100 - ${digits:2}"
# Number 2, in each way: no length octet, a second one that goes on, a length of 0, an element past the end, compatibility
# without an end. What follows the list is framed too.
for text in 04 0400 "040600$t1" 0480 040080 "048780$t1" 048100 "$one${t1}00" "$one${t1}0180" "$one${t1}048780$t1" \
    "${t1}0584"; do
    either refused-2 "$text" "$one$t1"
done
# It comes before 14, in the other string or in the same one, before 15 and before 4.
either refused-2 0480 -
either refused-2 0480 "$t1"
either refused-2 0480 "$one$t2"
either refused-2 "$one${t1}01" "$one${t1}01828108"
either refused-2 "${one}058380010D00" "$one$t1"
# Number 14: not one decoded codec list and nothing else. No element, two lists, a list and another element, a single
# codec, other elements, also with the contents of a list.
for text in - "$one$t1$one$t1" "$one${t1}01828108" "01828108$one$t1" "$one${t1}E08180" "$one$t1$t1" "$t1" 01828108 \
    E08180 "058680$t1" "0B8680$t1" "E08680$t1"; do
    either refused-14 "$text" "$one$t1"
done
# A list with one fault is no list: it has no codec, or an inner element is wrong, can't be framed (which is not number
# 2) or is not a single codec.
for text in 048180 "${one}058380010D" 048780058480010100 "${one}0583800301" 04858005828001 048480058180 \
    04858001828108 "${one}0584800101" "048780${t1}05" "$two${t1}058380010D" "${two}058380010D$t1" \
    "048F80${t1}01828108$t2" "048980$one$t1"; do
    either refused-14 "$text" "$one$t1"
done
# What its compatibility octet asks plays no part.
for asked in 81 82 83 84 85 86 87 90 A0 B0 C0 D0 E0 F7; do
    either refused-14 "0486${asked}058380010D" "$one$t1"
done
# It comes before 15 and before 4, and both strings may have the fault.
either refused-14 "$t1" "$one$t2"
either refused-14 "${one}058380010D" "${one}058380010D"
either refused-14 "$t1" -
line 'match own 2048 - -' refused-14
# Number 15: no codec is in both, and before 4. A codec is the same if organisation, type and configuration octets are,
# in every organisation. Here the type differs, the organisation, how many octets follow, and the last of them.
either refused-15 "$one$t1" "$one$t2"
either refused-15 "$two$t1$t11" "$two$t2$t12"
either refused-15 "${one}0583800001" "${one}0583800201"
either refused-15 "${one}0583800001" "$one$t1"
either refused-15 "${one}0583800108" 04878005848001088F
either refused-15 04888005858000010203 04888005858000010204
either refused-15 04888005858002050A0B 04888005858002050A0C
either refused-15 04888005858002050A0B 04878005848002050A
line "match offered 2048 $one$t1 $one$t2" refused-15
# The first codec of the leading list that the other also has, and the common codecs in the leading list's order.
line "match offered 13 $three$t1$t2$t11 $two$t11$t2" "8/5 $two$t2$t11"
line "match own 13 $three$t1$t2$t11 $two$t11$t2" "3/5 $two$t11$t2"
line "match own 13 $three$t1$t2$t11 $three$t12$t11$t2" "8/5 $two$t11$t2"
line "match offered 8 $three$t1$t2$t12 $two$t11$t12" "13/5 $one$t12"
line "match own 8 $three$t1$t2$t12 $two$t11$t12" "8/5 $one$t12"
line "match offered 8 ${one}058380010c ${one}058380010c" "3/5 $one$t12"
# The codecs of every organisation, with all their octets.
for text in 04878005848001088F 04888005858000010203 04888005858002050A0B; do
    line "match own 10 $text $text" "3/$((${#text} / 2 - 3)) $text"
done
# Number 4 is last, and for the writing only. A buffer of the list's length is enough.
for lead in offered own; do
    line "match $lead 8 $one$t1 $one$t1" "3/5 $one$t1"
    line "match $lead 7 $one$t1 $one$t1" '3/5 refused-4'
    line "match $lead 0 $one$t1 $one$t1" '3/5 refused-4'
    line "match $lead 65536 $one$t1 $one$t1" "3/5 $one$t1"
    line "match $lead 99999999999999999999 $one$t1 $one$t1" "3/5 $one$t1"
done
line "match offered 12 $three$t1$t2$t11 $two$t11$t2" '8/5 refused-4'
line "match own 12 $three$t1$t2$t11 $two$t11$t2" '3/5 refused-4'
# The chosen codec's whole element: this one has a length of two octets, with ignored bits, and three compatibility
# octets, after a list's length and compatibility of two octets each. Such a length is
# read, but a short one is written, and of the compatibility octets only the first, with bit 8 set.
long=0505F00102830101
line "match offered 8 040A900081$long $one$t1" '5/8 0486800583810101'
line "match offered 7 040A900081$long $one$t1" '5/8 refused-4'
line "match own 8 040A900081$long $one$t1" "3/5 $one$t1"
line "match own 8 $one$t1 040A900081$long" '5/8 0486800583810101'
line "match offered 8 040F900081$t2$long $one$t1" '10/8 0486800583810101'
line "match offered 13 040F900081$t2$long $two$t1$t2" '5/5 048B8005838001020583810101'
# The length of a list, and of a codec, on both sides of 128.
list127=04FF8005FC80$(zeros 123)
list128=0400818005FD80$(zeros 124)
codec127=0402818005FF80$(zeros 126)
codec128=0404818005008180$(zeros 127)
line "match offered 129 $list127 $list127" "3/126 $list127"
line "match offered 129 047F808005FC80$(zeros 123) $list127" "4/126 $list127"
line "match offered 129 04008180057C8080$(zeros 123) $list127" "4/127 $list127"
line "match offered 128 04008180057C8080$(zeros 123) $list127" '4/127 refused-4'
line "match offered 131 $list128 $list128" "4/127 $list128"
line "match offered 130 $list128 $list128" '4/127 refused-4'
line "match own 133 $codec127 $codec127" "4/129 $codec127"
line "match own 133 $codec127 04038180057F8080$(zeros 126)" "4/130 $codec127"
line "match own 132 $codec127 04038180057F8080$(zeros 126)" '4/130 refused-4'
line "match own 135 $codec128 $codec128" "4/131 $codec128"
line "match own 134 $codec128 $codec128" '4/131 refused-4'
# Compatibility octets are not compared. The list and each codec are written with their own first, bit 8 set: the
# leading list's.
line "match offered 8 0486850583810101 048682$t1" '3/5 0486850583810101'
line "match own 8 0486850583810101 048682$t1" "3/5 048682$t1"
line "match offered 8 04870580$t1 048682$t1" "4/5 048685$t1"
line "match offered 8 04878005847F800101 048682$t1" '3/6 0486800583FF0101'
# Later repeats are dropped: the first stays, with its own compatibility octet. Repeats in the other list, and of codecs
# that are not common, change nothing.
first=0583810101
later=0583820101
line "match offered 13 $three$first$t2$later $two$t2$t1" "3/5 $two$first$t2"
line "match own 13 $two$t2$t1 $three$first$t2$later" "3/5 $two$first$t2"
line "match offered 13 $two$t2$t1 $three$first$t2$later" "3/5 $two$t2$t1"
line "match offered 13 049580$t1$t2$later$t2 $two$t2$later" "3/5 $two$t1$t2"
line "match offered 8 $three$t2$t2$t1 $one$later" "13/5 $one$t1"
line "match offered 8 $three$t1$t1$t1 $three$t1$t1$t1" "3/5 $one$t1"
line "match offered 8 048E80$t1$long $one$t1" "3/5 $one$t1"
line "match offered 8 048E80$long$t1 $one$t1" '3/8 0486800583810101'
# As many codecs as a list has room for, 408: all in common, and all the same one. 256 with only the last in common.
zero=$(printf '05838000%02X' {0..255})
etsi=$(printf '05838002%02X' {0..255})
many=04798F80$zero${etsi::1520}
line "match offered 2044 $many $many" "4/5 $many"
line "match own 2043 $many $many" '4/5 refused-4'
line "match own 8 $one$t1 04798F80$(printf "$t1%.0s" {1..408})" "4/5 $one$t1"
line "match offered 8 04018A80${zero::2550}$t1 04018A80${etsi::2550}$t1" "1279/5 $one$t1"
either refused-15 "04018A80$zero" "04018A80$etsi"

# Tunnel: 6 comes first, then 7, whatever the error bits, then notice, whatever version and protocol.
line 'tunnel 2 -' refused-6
line 'tunnel 0 -' refused-6
line 'tunnel 2 20' refused-6
line 'tunnel 0 80' refused-6
line 'tunnel 2 A020' refused-7
line 'tunnel 2 0020' refused-7
line 'tunnel 2 20A0' refused-7
line 'tunnel 2 4020' refused-7
line 'tunnel 2 60E0' refused-7
line 'tunnel 0 01A1' refused-7
line 'tunnel 0 6020' notice
line 'tunnel 1 2060' notice
line 'tunnel 2 6060' notice
line 'tunnel 2 7F7F' notice
line 'tunnel 2 6020613D' notice
# A reply is due: 4 for a buffer under 2. The version comes first, with no protocol error.
for buffer in 0 1; do
    line "tunnel $buffer 2021" refused-4
    line "tunnel $buffer 2120" refused-4
    line "tunnel $buffer 2121" refused-4
done
line 'tunnel 2 2021' 'reply 2061'
line 'tunnel 2 2120' 'reply 6020'
line 'tunnel 2 2121' 'reply 6021'
line 'tunnel 2 3F3F' 'reply 603F'
line 'tunnel 2 2100' 'reply 6000'
line 'tunnel 2 203F' 'reply 207F'
line 'tunnel 2 2000' 'reply 2040'
line 'tunnel 3 2021613D' 'reply 2061'
line 'tunnel 65536 2120' 'reply 6020'
# A message needs no buffer, and may be empty. The longest that a line has room for.
for buffer in 0 1 2; do
    line "tunnel $buffer 2020" 'message -'
    line "tunnel $buffer 2020613d0d0a" 'message 613D0D0A'
done
line "tunnel 0 2020$digits" "message $digits"

# octets ANSWER TEXT: the message that printf makes of TEXT
octets() {
    line "message $(printf "$2" | hex)" "$1"
}
# message ANSWER LINE..: the message of these lines, each ended by CRLF
message() {
    local answer=$1
    shift
    line "message $(printf '%s\r\n' "$@" | hex)" "$answer"
}
# letters N: N letters
letters() {
    printf "%0$1d" 0 | tr 0 x
}
v=v=0
o='o=- 0 0 IN IP4 192.0.2.1'
s='s= '
c='c=IN IP4 192.0.2.1'
t='t=0 0'
request='a=ipbcp:1 Request'
m='m=audio 4000 RTP/AVP 96'
# What these lines say, but for the attributes: audio and RTP/AVP in digits.
front='IP4 192.0.2.1 4000 617564696F 5254502F415650 96'
said="1 Request $front"
session=("$v" "$o" "$s" "$c" "$t" "$request")
right=("${session[@]}" "$m")

# Number 8: over 512 octets, before 9. The ipbcp line of a Rejected has 20 octets with its end, the
# seven lines of the Request 107; the line that fills the rest has four more than its letters.
message '1 Rejected' 'a=ipbcp:1 Rejected' "i=$(letters 488)"
message refused-8 'a=ipbcp:1 Rejected' "i=$(letters 489)"
message "$said - - 0" "${right[@]}" "i=$(letters 401)"
message refused-8 "${right[@]}" "i=$(letters 402)"
octets refused-9 "$(letters 512)"
octets refused-8 "$(letters 513)"

# Number 9: lines. Each has an end, a lower-case letter and `=`, and no 0 or CR after that.
line 'message -' refused-9
octets '1 Confused' 'a=ipbcp:1 Confused\n'
octets refused-9 'a=ipbcp:1 Confused'
octets refused-9 'a=ipbcp:1 Confused\r'
octets refused-9 'a=ipbcp:1 Confused\r\r\n'
octets refused-9 'a=ipbcp:1 Confused\n\n'
octets refused-9 'a=ipbcp:1 Confused\ni=\0\n'
octets refused-9 'a=ipbcp:1 Confused\ni=\rx\n'
octets refused-9 'a=ipbcp:1 Confused\nI=x\n'
octets refused-9 'a=ipbcp:1 Confused\ni\n'
octets refused-9 'a=ipbcp:1 Confused\ni =x\n'
octets refused-9 'a=ipbcp:2 Confused\ni'
octets refused-9 'a=ipbcp:1 Confused\n`=x\n'
octets refused-9 'a=ipbcp:1 Confused\n{=x\n'
octets '1 Confused' 'q=\na=ipbcp:1 Confused\nx=\377\t\001\n'
# Number 9: the first line that begins `a=ipbcp:`.
message refused-9 "$v" "$o" "$s" "$c" "$t" "$m"
message refused-9 'a=ipbcp 1 Rejected'
message refused-9 'a=IPBCP:1 Rejected'
message refused-9 'i=a=ipbcp:1 Rejected'
message '1 Rejected' 'a=ipbcp: 1 Rejected'
message refused-9 'a=ipbcp:  1 Rejected'
message refused-9 'a=ipbcp:1  Rejected'
message refused-9 'a=ipbcp:1 Rejected '
message refused-9 'a=ipbcp:1Rejected'
message refused-9 'a=ipbcp:1'
message refused-9 'a=ipbcp:'
message refused-9 'a=ipbcp: Rejected'
message refused-9 'a=ipbcp:1 rejected'
message refused-9 'a=ipbcp:1 Reject'
message refused-9 'a=ipbcp:1 Requested'
message refused-9 'a=ipbcp:01 Rejected'
message refused-9 'a=ipbcp:-1 Rejected'
message refused-9 'a=ipbcp:1.0 Rejected'
message refused-9 'a=ipbcp:256 Rejected'
message refused-9 'a=ipbcp:65537 Rejected'
message refused-9 'a=ipbcp:256 Rejected' 'a=ipbcp:1 Rejected'
message '1 Rejected' 'a=ipbcp:1 Rejected' 'a=ipbcp:256 Rejected'
# Another version is answered as such. Of Confused and Rejected no more is read either.
message '0 Request' 'a=ipbcp:0 Request'
message '2 Request' 'a=ipbcp:2 Request' 'a=ipbcp:1 Request'
message '255 Accepted' 'm=' 'a=ipbcp: 255 Accepted' 'v=9'
message '10 Confused' 'a=ipbcp:10 Confused'
message '1 Confused' "$m" 'a=ipbcp:1 Confused' 'v=7'
message '1 Rejected' 'a=ipbcp:1 Rejected' 'a=ipbcp:1 Request'

# Number 10: each line once and in its order. Other lines are skipped, wherever they are.
message "$said - - 0" "${right[@]}"
message "1 Accepted $front - - 0" "$v" "$o" "$s" "$c" "$t" 'a=ipbcp: 1 Accepted' "$m"
message refused-10 "$request"
message refused-10 "$o" "$s" "$c" "$t" "$request" "$m"
message refused-10 "$v" "$s" "$c" "$t" "$request" "$m"
message refused-10 "$v" "$o" "$c" "$t" "$request" "$m"
message refused-10 "$v" "$o" "$s" "$t" "$request" "$m"
message refused-10 "$v" "$o" "$s" "$c" "$request" "$m"
message refused-10 "${session[@]}"
message refused-10 "$v" "$o" "$s" "$t" "$c" "$request" "$m"
message refused-10 "$v" "$o" "$s" "$c" "$request" "$t" "$m"
message refused-10 "$v" "$o" "$s" "$c" "$t" "$m" "$request"
message refused-10 "$v" "${right[@]}"
message refused-10 "${right[@]}" "$c"
message refused-10 "${right[@]}" "$m"
message refused-10 "$v" "$o" "$s" "$c" "$t" "$request" "$request" "$m"
message "$said - - 0" i= u= e= p= b= "${session[@]}" z= k= r= 'a=sendrecv' "$m" 'a=mid:1' i= b= k=
message "$said - - 0" 'a=rtpmap 96 AMR' a= "${right[@]}" 'a=ptime' 'a=fmtp'
message refused-10 "${right[@]}" 'x=0'
message refused-10 'd=0' "${right[@]}"
# The fields of v, o, s and t.
message refused-10 'v=1' "$o" "$s" "$c" "$t" "$request" "$m"
message refused-10 'v=00' "$o" "$s" "$c" "$t" "$request" "$m"
message "$said - - 0" "$v" 'o=me x -1 IN IP6 here' s= "$c" "$t" "$request" "$m"
message refused-10 "$v" 'o=- 0 0 IN IP4' "$s" "$c" "$t" "$request" "$m"
message refused-10 "$v" 'o=- 0 0 IN IP4 h h' "$s" "$c" "$t" "$request" "$m"
message refused-10 "$v" 'o=- 0  0 IN IP4 h' "$s" "$c" "$t" "$request" "$m"
message refused-10 "$v" 'o=- 0 0 in IP4 h' "$s" "$c" "$t" "$request" "$m"
message refused-10 "$v" 'o=- 0 0 IN IP5 h' "$s" "$c" "$t" "$request" "$m"
message "$said - - 0" "$v" "$o" "$s" "$c" 't=00 99999999999999999999' "$request" "$m"
message refused-10 "$v" "$o" "$s" "$c" 't=0' "$request" "$m"
message refused-10 "$v" "$o" "$s" "$c" 't=0 0 0' "$request" "$m"
message refused-10 "$v" "$o" "$s" "$c" 't=0 ' "$request" "$m"
message refused-10 "$v" "$o" "$s" "$c" 't=0 -1' "$request" "$m"
# connection ANSWER C: the Request with this c line
connection() {
    message "$1" "$v" "$o" "$s" "$2" "$t" "$request" "$m"
}
rest='4000 617564696F 5254502F415650 96 - - 0'
connection "1 Request IP4 223.255.255.255 $rest" 'c=IN IP4 223.255.255.255'
connection refused-10 'c=IN IP4 224.0.0.1'
connection refused-10 'c=IN IP4 0.0.0.0'
connection refused-10 'c=IN IP4 192.0.2.1/127'
connection refused-10 'c=IN IP4 192.0.2.1 '
connection refused-10 'c= IN IP4 192.0.2.1'
connection refused-10 'c=IN IP4'
connection "1 Request IP6 2001:db8::1 $rest" 'c=IN IP6 2001:0DB8:0::0001'
connection refused-10 'c=IN IP6 192.0.2.1'
connection refused-10 'c=IN IP4 2001:db8::1'
connection refused-10 'c=IN IP6 ::'
connection refused-10 'c=IN IP6 ff02::1'
# The media line.
message '1 Request IP4 192.0.2.1 1 FF 2F 0 - - 0' "${session[@]}" $'m=\377 1 / 0'
message '1 Request IP4 192.0.2.1 65535 78 79 127 - - 0' "${session[@]}" 'm=x 65535 y 127'
message refused-10 "${session[@]}" 'm=audio 0 RTP/AVP 8'
message refused-10 "${session[@]}" 'm=audio 65536 RTP/AVP 8'
message refused-10 "${session[@]}" 'm=audio 04000 RTP/AVP 8'
message refused-10 "${session[@]}" 'm=audio 4000/2 RTP/AVP 8'
message refused-10 "${session[@]}" 'm=audio 4000 RTP/AVP 128'
message refused-10 "${session[@]}" 'm=audio 4000 RTP/AVP 08'
message refused-10 "${session[@]}" 'm=audio 4000 RTP/AVP 8 0'
message refused-10 "${session[@]}" 'm=audio 4000 RTP/AVP'
message refused-10 "${session[@]}" 'm=audio 4000  8'
# The attributes: after m=, in any order, no more of each than allowed. AMR/8000 and mode-set=7 in digits.
amr=414D522F38303030
mode=3936206D6F64652D7365743D37
message "$said $amr $mode 20" "${right[@]}" 'a=rtpmap:96 AMR/8000' 'a=fmtp:96 mode-set=7' 'a=ptime:20'
message "$said $amr empty,78,empty 255" "${right[@]}" 'a=ptime:255' a=fmtp: a=fmtp:x a=fmtp: 'a=rtpmap:96 AMR/8000'
message "$said 20 78,2078 1" "${right[@]}" 'a=fmtp:x' 'a=rtpmap:96  ' 'a=ptime:1' 'a=fmtp: x'
message refused-10 "${right[@]}" 'a=rtpmap:96 '
message refused-10 "${right[@]}" 'a=rtpmap:96'
message refused-10 "${right[@]}" 'a=rtpmap:97 AMR/8000'
message refused-10 "${right[@]}" 'a=rtpmap:096 AMR/8000'
message refused-10 "${right[@]}" 'a=rtpmap: 96 AMR/8000'
message refused-10 "${right[@]}" 'a=rtpmap:96 A' 'a=rtpmap:96 A'
message refused-10 "${right[@]}" a=fmtp: a=fmtp: a=fmtp: a=fmtp:
message refused-10 "${right[@]}" 'a=ptime:0'
message refused-10 "${right[@]}" 'a=ptime:256'
message refused-10 "${right[@]}" 'a=ptime:020'
message refused-10 "${right[@]}" 'a=ptime: 20'
message refused-10 "${right[@]}" 'a=ptime:'
message refused-10 "${right[@]}" 'a=ptime:20' 'a=ptime:20'
message refused-10 "${session[@]}" 'a=rtpmap:96 AMR/8000' "$m"
message refused-10 "${session[@]}" 'a=fmtp:' "$m"
message refused-10 "$v" 'a=ptime:20' "$o" "$s" "$c" "$t" "$request" "$m"
# rtpmap and fmtp lines have at most 256 octets: `a=rtpmap:96 ` is 12 of them and `a=fmtp:` 7 each.
message "$said $(letters 237 | hex) empty 0" "${right[@]}" "a=rtpmap:96 $(letters 237)" a=fmtp:
message refused-10 "${right[@]}" "a=rtpmap:96 $(letters 238)" a=fmtp:
message "$said - $(letters 249 | hex) 9" "${right[@]}" "a=fmtp:$(letters 249)" 'a=ptime:9'
message refused-10 "${right[@]}" "a=fmtp:$(letters 250)"
message refused-10 "${right[@]}" a=fmtp: a=fmtp: "a=fmtp:$(letters 236)"
message "$said - empty,empty,$(letters 235 | hex) 0" "${right[@]}" a=fmtp: a=fmtp: "a=fmtp:$(letters 235)"

# address FAMILY TEXT ANSWER
address() {
    line "address $1 $(printf %s "$2" | hex)" "$3"
}
line 'address 4 -' no
line 'address 6 -' no
address 4 1.0.0.0 1.0.0.0
address 4 223.255.255.255 223.255.255.255
address 4 127.0.0.1 127.0.0.1
for text in 0.0.0.0 0.255.255.255 224.0.0.1 255.255.255.255 256.0.0.1 1.2.3.256 1.2.3.04 01.2.3.4 \
    1.2.3 1.2.3.4.5 1.2.3.4. .1.2.3.4 1..3.4 '1.2.3.4 ' ' 1.2.3.4' 1.2.3.x 1.2.3.-4 1,2.3.4 ::1; do
    address 4 "$text" no
done
address 6 ::1 ::1
address 6 1:: 1::
address 6 1:2:3:4:5:6:7:8 1:2:3:4:5:6:7:8
address 6 0001:0023:0456:789A:BcDe:FfFf:0010:00f0 1:23:456:789a:bcde:ffff:10:f0
address 6 1:2:3:4:5:6:7:: 1:2:3:4:5:6:7:0
address 6 ::2:3:4:5:6:7:8 0:2:3:4:5:6:7:8
address 6 1::3:4:5:6:7:8 1:0:3:4:5:6:7:8
address 6 1:0:0:4:5:6:7:8 1::4:5:6:7:8
address 6 2001:db8:0:0:1:0:0:1 2001:db8::1:0:0:1
address 6 1:0:0:4:0:0:0:8 1:0:0:4::8
address 6 0:0:3:4:5:6:0:0 ::3:4:5:6:0:0
address 6 ::ffff:c000:201 ::ffff:c000:201
address 6 0:0:0:0:0:0:1:: ::1:0
address 6 feff:ffff:ffff:ffff:ffff:ffff:ffff:ffff feff:ffff:ffff:ffff:ffff:ffff:ffff:ffff
address 6 ff:: ff::
address 6 FE80::0 fe80::
for text in :: 0:0:0:0:0:0:0:0 ff00:: FF02::1 ffff:ffff:ffff:ffff:ffff:ffff:ffff:ffff \
    ::ffff:192.0.2.1 1:2:3:4:5:6:7.8.9.10 192.0.2.1 1:2:3:4:5:6:7 1:2:3:4:5:6:7:8:9 1:2:3:4:5:6:7:8:: \
    ::1:2:3:4:5:6:7:8 1:2:3:4::5:6:7:8 1::2::3 ::: 1:::2 : :1 1: :1:2:3:4:5:6:7 1:2:3:4:5:6:7: \
    00001:: 1::10000 g:: 1::x '1:: ' ' ::1' fe80::1%1 2001:db8::/32; do
    address 6 "$text" no
done

# The last line has no LF.
printf 'elements 1 1 0183810108' >> "$in"
echo 'neither 1 1/0/5/unknown:element:0:1,0 listed=-' >> "$out"
