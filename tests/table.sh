#!/usr/bin/env bash
# table.sh [DIRECTORY]: proves the table of element entries, links it into the C program table.c, and fills tables from
# DIRECTORY/elements.in, which must then hold what DIRECTORY/elements.out says (default: tests/vectors). Not part of
# the gate. Needs rt and a C compiler. Ends with status 1 if a table differs.
set -eu
root=$(cd "$(dirname "$0")/.." && pwd)
vectors=${1:-$root/tests/vectors}
work=$(mktemp -d)
trap 'rm -rf "$work"' EXIT
"$root/tools/staticlib.sh" bat_table
cc -std=c11 -D_POSIX_C_SOURCE=200809L -O2 -Wall -Wextra -I"$root/include" "$root/tests/table.c" \
    "$root/target/staticlib/libbat_table.a" -o "$work/table"
"$work/table" "$vectors/elements.in" "$vectors/elements.out"
