#!/usr/bin/env bash
# choose-traces.sh: writes crates/traces/args, data and stdout, which the gate runs: every tenth trace of
# tests/vectors/plain-traces and tests/vectors/traces and those whose configuration is refused or whose last line has no
# LF, with their answers; some of them again, read one octet at a time; then short traces whose answers are written by
# hand from document 01. Also writes crates/tracedetail/stdin and stdout, a short trace. No answer comes from a program
# of this repository.
set -eu
cd "$(dirname "$0")/.."
. tests/hex.sh
crate=crates/traces
rm -rf $crate/data
mkdir $crate/data
: > $crate/args
: > $crate/stdout

# manner WORD
manner() {
    echo "$1" >> $crate/args
}
# outside KIND ENDING LETTER N..
outside() {
    local kind=$1 ending=$2 letter=$3 n
    shift 3
    for n in "$@"; do
        cp "tests/vectors/$kind/$n.in" "$crate/data/$letter$n"
        echo "$letter$n" >> $crate/args
        { echo "== $letter$n" && cat "tests/vectors/$kind/$n.$ending"; } >> $crate/stdout
    done
}
# own NAME INPUT LINE..: the trace that printf makes of INPUT, and the lines to be printed
own() {
    printf "$2" > "$crate/data/$1"
    echo "$1" >> $crate/args
    printf '== %s\n' "$1" >> $crate/stdout
    shift 2
    if [ $# -gt 0 ]; then printf '%s\n' "$@" >> $crate/stdout; fi
}
head='n event state notice dropped written'
G='G\t192.0.2.10\t4000\t10\t40\t5\t5\n'
K='K\t8\n'
# letters N: N letters
letters() {
    printf "%0$1d" 0 | tr 0 x
}
# digits N: N zeros
digits() {
    printf "%0$1d" 0
}
# message LINE..: the digits of these lines, each ended by CRLF
message() {
    printf '%s\r\n' "$@" | hex
}
# octets LINE..: how many octets that message has
octets() {
    printf '%s\r\n' "$@" | wc -c
}

manner plain
outside plain-traces out p 0 10 14 20 30 33 40 50
manner detailed
outside traces octets d 0 4 10 12 18 20 30 39 40 50 55

# ---- the configuration: a G line and one to eight K lines, each ended by LF
manner plain
own empty '' refused-12
own lf '\n' refused-12
own no-g "$K" refused-12
own g-alone "$G" refused-12
own g-cut 'G\t192.0.2.10\t4000\t10\t40\t5\t5' refused-12
own g-then-event "${G}X\n" refused-12
own g-then-bad "${G}\n" refused-12
own configured "$G$K" "$head"
own k-cut "$G${K}K\t9" refused-12
own k-first-cut "${G}K\t8" refused-12
own g-twice "$G$G$K" refused-12
own k8 "${G}$(printf 'K\\t%s\\n' 0 1 2 3 4 5 6 7)X\n" "$head" '1 X idle refused-11 no 0'
own k9 "${G}$(printf 'K\\t%s\\n' 0 1 2 3 4 5 6 7 8)X\n" refused-12
own g-v6 "G\t2001:db8::a\t65535\t1\t255\t1\t30\n$K" "$head"
n=0
for g in '192.0.2.10\t0\t10\t40\t5\t5' '192.0.2.10\t65536\t10\t40\t5\t5' '192.0.2.10\t04000\t10\t40\t5\t5' \
    '192.0.2.10\t4000\t0\t40\t5\t5' '192.0.2.10\t4000\t10\t256\t5\t5' '192.0.2.10\t4000\t266\t296\t5\t5' \
    '192.0.2.10\t4000\t41\t40\t5\t5' '192.0.2.10\t4000\t10\t40\t0\t5' '192.0.2.10\t4000\t10\t40\t31\t5' \
    '192.0.2.10\t4000\t10\t40\t5\t0' '192.0.2.10\t4000\t10\t40\t5\t31' '192.0.2.10\t4000\t10\t40\t261\t261' \
    '224.0.0.1\t4000\t10\t40\t5\t5' '0.0.2.10\t4000\t10\t40\t5\t5' '::\t4000\t10\t40\t5\t5' \
    'ff02::1\t4000\t10\t40\t5\t5' '\t4000\t10\t40\t5\t5' '192.0.2.10\t4000\t10\t40\t5' \
    '192.0.2.10\t4000\t10\t40\t5\t5\t' '192.0.2.10\t4000\t10\t40\t5\t5\r' '192.0.2.10\t4000\t10\t40\t5\t '; do
    n=$((n + 1))
    own "g$n" "G\t$g\n${K}X\n" refused-12
done
own g-small "g\t192.0.2.10\t4000\t10\t40\t5\t5\n$K" refused-12
own g-blanks "G 192.0.2.10 4000 10 40 5 5\n$K" refused-12
# A payload 0 to 95, or a name of 1 to 32 octets, each 33 to 126.
n=0
for k in 96 256 65536 08 '' "$(letters 33)" 'AMR 8000' 'AMR\b' 'AMR\177' '8\t8' '8\t' '8\r'; do
    n=$((n + 1))
    own "k-wrong$n" "$G${K}K\t$k\nX\n" refused-12
done
own k-word "$G${K}K\n" refused-12
own k-long "$G${K}K\t$(letters 2000)\nX\n" refused-12
n=0
for k in 0 95 "$(letters 32)" 8x '!' '~' -1 8.; do
    n=$((n + 1))
    own "k-right$n" "${G}K\t$k\nX\n" "$head" '1 X idle refused-11 no 0'
done
own k-late "$G${K}X\n${K}${G}X\n" "$head" '1 X idle refused-11 no 0' '2 bad idle refused-13 no 0' '3 bad idle refused-13 no 0' \
    '4 X idle refused-11 no 0'

# ---- lines that are not events, one of each kind: each is numbered, and the run goes on
bads=('' ' ' 'hello' 'x' 'X ' ' X' 'X\t' 'X\t1' 'X\r' 'T3' 'T' 'T11' 'T1\t' 'U' 'U\t' 'U\t1\t8' 'U\t1\t8\t20\t' 'U\t1\t8\t20\t0'
    'U 1 8 20' 'u\t1\t8\t20' 'U\t01\t8\t20' 'U\t1\t08\t20' 'U\t1\t8\t020' 'U\t1\t8\t00' 'U\t65536\t8\t20' 'U\t1\t65536\t20'
    'U\t1\t8\t65536' 'U\t1\t8\t' 'U\t-1\t8\t20' 'U\t+1\t8\t20' 'U\t1\t8\tx' 'UC\t1\t8\t20' 'C\t1\t8' 'M' 'm\t' 'M\t6' 'M\t6G' 'M\t 61'
    'M\t61 ' 'M\t61\t' 'M\t61\t61' 'M\t61\t61\t61' 'M61' 'MX\t61' '\0' 'X\0' 'B\t512\tX' 'G' 'K' "$(letters 1199)" "$(letters 1200)"
    "$(letters 100000)" "M\t$(digits 1197)" "M\t$(digits 1198)" "M\t$(digits 70000)")
trace=$G$K
lines=("$head")
for bad in "${bads[@]}"; do
    trace+=$bad'\n'
    lines+=("${#lines[@]} bad idle refused-13 no 0")
done
own bads "$trace" "${lines[@]}"
# A last line without LF is bad, whatever it says; an empty one is not a line.
own cut "$G${K}U\t1\t8\t20\nX" "$head" '1 U await-setup none no 120' '2 bad await-setup refused-13 no 0'

# Our own Request, with no packet time.
offered=(v=0 'o=- 0 0 IN IP4 192.0.2.10' 's= ' 'c=IN IP4 192.0.2.10' 't=0 0' 'a=ipbcp:1 Request' 'm=audio 4000 RTP/AVP 8')

# ---- commands and timers that don't suit the state, and numbers out of range: 11 comes before 5
own commands "$G${K}T1\nT2\nX\nC\t1\t8\t20\nC\t0\t8\t20\nU\t0\t8\t20\nU\t2\t8\t20\nU\t65535\t65535\t65535\nU\t1\t9\t20\nU\t1\t8\t9\nU\t1\t8\t41\nU\t1\t8\t0\nU\t0\t0\t0\nT2\nC\t1\t8\t20\nX\n" \
    "$head" '1 T1 idle discarded no 0' '2 T2 idle discarded no 0' '3 X idle refused-11 no 0' '4 C idle refused-11 no 0' \
    '5 C idle refused-11 no 0' '6 U idle refused-5 no 0' '7 U idle refused-5 no 0' '8 U idle refused-5 no 0' '9 U idle refused-5 no 0' \
    '10 U idle refused-5 no 0' '11 U idle refused-5 no 0' "12 U await-setup none no $(octets "${offered[@]}")" '13 U await-setup refused-11 no 0' \
    '14 T2 await-setup discarded no 0' '15 C await-setup refused-11 no 0' '16 X idle released no 0'

# ---- messages: the longest line, an empty one, 512 octets and one more, and digits of either case
front=(v=0 'o=- 0 0 IN IP4 198.51.100.7' 's= ' 'c=IN IP4 198.51.100.7' 't=0 0')
request=("${front[@]}" 'a=ipbcp:1 Request' 'm=audio 6000 RTP/AVP 8')
accepted=(v=0 'o=- 0 0 IN IP4 192.0.2.10' 's= ' 'c=IN IP4 192.0.2.10' 't=0 0' 'a=ipbcp:1 Accepted' 'm=audio 4000 RTP/AVP 8')
rest=$((512 - $(octets "${request[@]}") - 4))
most=$(message "${request[@]}" "i=$(letters $rest)")
over=$(message "${request[@]}" "i=$(letters $((rest + 1)))")
long="M\t$(digits 1196)"
written=$(octets "${accepted[@]}")
own messages "$G$K$long\nM\t\nM\t$over\nM\t$most\nM\t${over,,}\nM\t${most,,}\n" "$head" '1 M idle discarded no 0' \
    '2 M idle discarded no 0' '3 M idle discarded no 0' "4 M up up no $written" '5 M up discarded no 0' "6 M up changed no $written"

# ---- detailed: the length of the output buffer
manner detailed
force='198.51.100.7;6000;audio;RTP/AVP;8;-;-;0'
right=$(message "${accepted[@]}")
own rooms "$G${K}B\t511\tX\nB\t512\tX\nB\t0\tU\t1\t8\t20\nB\t65535\tX\nB\t65536\tX\nB\t99999999999999999999\tX\nB\t512\t$long\nB\t511\tM\t$most\nB\t512\tM\t$most\nB\t1\tT1\n" \
    "$head" '1 X idle refused-4 no 0 - -' '2 X idle refused-11 no 0 - -' '3 U idle refused-4 no 0 - -' '4 X idle refused-11 no 0 - -' \
    '5 X idle refused-11 no 0 - -' '6 X idle refused-11 no 0 - -' '7 M idle discarded no 0 - -' '8 M idle refused-4 no 0 - -' \
    "9 M up up no $written $right $force" "10 T1 up refused-4 no 0 - $force"
bads=('B' 'B\t' 'B\t512' 'B\t512\t' 'B\t\tX' 'B\t0512\tX' 'B\t00\tX' 'B\t5a\tX' 'B\t-1\tX' 'B\t 512\tX' 'B\t512\t X' 'B\t512\tB\t512\tX' 'b\t512\tX'
    'B 512 X' 'B512\tX' 'B\t512\thello' 'B\t512\tK\t8' "B\t512\tM\t$(digits 1198)" "B\t512\t$(letters 5000)" '' "$(letters 1200)")
trace=$G$K
lines=("$head")
for bad in "${bads[@]}"; do
    trace+=$bad'\n'
    lines+=("${#lines[@]} bad idle refused-13 no 0 - -")
done
own room-bads "$trace" "${lines[@]}"

# ---- detailed: the longest message that is written, 447 octets
name=$(letters 32)
f1=$(letters 63)
f2=$(letters 64)
attributes=("a=rtpmap:127 $name" "a=fmtp:$f1" "a=fmtp:$f1" "a=fmtp:$f2" 'a=ptime:255')
peer=(v=0 'o=- 0 0 IN IP6 2::2' 's= ' 'c=IN IP6 2::2' 't=0 0' 'a=ipbcp:1 Request' 'm=audio 5000 RTP/AVP 127' "${attributes[@]}")
own=1111:2222:3333:4444:5555:6666:7777:8888
ours=(v=0 "o=- 0 0 IN IP6 $own" 's= ' "c=IN IP6 $own" 't=0 0' 'a=ipbcp:1 Accepted' 'm=audio 65535 RTP/AVP 127' "${attributes[@]}")
n1=$(printf %s "$f1" | hex)
n2=$(printf %s "$f2" | hex)
own longest "G\t$own\t65535\t1\t255\t30\t1\nK\t$name\nM\t$(message "${peer[@]}")\n" "$head" \
    "1 M up up no 447 $(message "${ours[@]}") 2::2;5000;audio;RTP/AVP;127;$(printf %s "$name" | hex);$n1,$n1,$n2;255"
# Empty fmtp texts, and an rtpmap for a payload that is configured by its number.
own texts "$G${K}M\t$(message "${request[@]}" a=fmtp: 'a=rtpmap:8 x' a=fmtp:)\nX\n" "$head" \
    "1 M up up no $((written + $(octets 'a=rtpmap:8 x' a=fmtp: a=fmtp:))) $(message "${accepted[@]}" 'a=rtpmap:8 x' a=fmtp: a=fmtp:) 198.51.100.7;6000;audio;RTP/AVP;8;78;empty,empty;0" \
    '2 X idle released no 0 - -'

# ---- again, read one octet at a time
manner octets
again() {
    local name
    for name in "$@"; do
        echo "$name" >> $crate/args
        awk -v name="$name" '/^== / { on = $2 == name && !seen[$2]++ } on' $crate/first >> $crate/stdout
    done
}
cp $crate/stdout $crate/first
again d18 d30 rooms room-bads longest
manner plain
again p33 p14 empty g-cut configured k-cut bads messages
rm $crate/first

# tracedetail's own test
cp tests/vectors/traces/58.in crates/tracedetail/stdin
cp tests/vectors/traces/58.octets crates/tracedetail/stdout
