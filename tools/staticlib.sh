#!/usr/bin/env bash
# staticlib.sh NAME: proves what NAME exports to C, and writes target/staticlib/libNAME.a for C programs to link. The
# exports are in the static library NAME_c, which calls the library NAME. Prints nothing unless the check fails; then it
# ends with status 1. Needs rt.
set -eu
root=$(cd "$(dirname "$0")/.." && pwd)
name=${1:?"which one? bat_table, bat_match, card_message or card_packet"}
crate=${name}_c
log=$(cd "$root/crates/$crate" && rt lib 2>&1) || {
    printf '%s\n' "$log" >&2
    exit 1
}
mkdir -p "$root/target/staticlib"
cp "$root/crates/$crate/out/lib$crate.a" "$root/target/staticlib/lib$name.a"
