#!/usr/bin/env bash
# run.sh: all benchmarks, as tables for README.md. message.sh, match.sh and trace.sh say what they measure and what they
# need.
set -eu
cd "$(dirname "$0")"
./message.sh
echo
./match.sh
echo
./trace.sh
