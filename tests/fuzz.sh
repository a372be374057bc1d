#!/usr/bin/env bash
# fuzz.sh [LINES [SEED [CHECKED [INSPECT [BEARERTRACE [TRACEDETAIL]]]]]]: fuzzing. Makes LINES random lines (default:
# 1,000,000) from those of tests/vectors, tests/appendix and samples, gives three fifths of them to inspect and a fifth
# each to bearertrace and tracedetail, and checks that each program
#   - ends by itself in time, with status 0, and writes nothing to standard error;
#   - answers each line with one line, in a valid format for that kind of line and with the right number;
#   - answers as tests/model.py does (inspect), or as the rules of one endpoint in fuzz.py say (traces);
#   - answers the same if the input comes in pieces, and if bad lines are put in between (some of the lines).
# bearertrace and tracedetail are given the same traces, and must agree. CHECKED more lines (default: 4,000; 0 for none)
# are run under valgrind. SEED (default: 1) chooses the lines. By default the programs are the built ones
# (crates/NAME/out/NAME). Prints how often each kind of answer came up; in a run of 500,000 lines or more each has to.
# Ends with status 1 if something is wrong, and keeps the input in a file. Not part of the gate. Needs Python 3.
set -u
lines=${1:-1000000}
seed=${2:-1}
checked=${3:-4000}
here=$(cd "$(dirname "$0")" && pwd)
. "$here/program.sh" inspect "${4:-}"
inspect=$program
. "$here/program.sh" bearertrace "${5:-}"
bearertrace=$program
. "$here/program.sh" tracedetail "${6:-}"
exec python3 "$here/fuzz.py" "$lines" "$seed" "$checked" "$inspect" "$bearertrace" "$program"
