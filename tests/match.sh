#!/usr/bin/env bash
# match.sh [DIRECTORY]: proves the matching of codec lists, links it into the C program match.c, and matches the lists
# of DIRECTORY/match.in, which must give what DIRECTORY/match.out says (default: tests/vectors). Not part of the gate.
# Needs rt and a C compiler. Ends with status 1 if an answer differs.
set -eu
root=$(cd "$(dirname "$0")/.." && pwd)
vectors=${1:-$root/tests/vectors}
work=$(mktemp -d)
trap 'rm -rf "$work"' EXIT
"$root/tools/staticlib.sh" bat_match
cc -std=c11 -D_POSIX_C_SOURCE=200809L -O2 -Wall -Wextra -I"$root/include" "$root/tests/match.c" \
    "$root/target/staticlib/libbat_match.a" -o "$work/match"
"$work/match" "$vectors/match.in" "$vectors/match.out"
