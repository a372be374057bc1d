#!/usr/bin/env bash
# appendix.sh [PROGRAM]: gives the Recommendation's own examples (tests/appendix) to inspect and compares its
# answers with those next to the examples. PROGRAM is the built inspect (default:
# crates/inspect/out/inspect). Ends with status 1 if a line differs.
set -u
. "$(dirname "$0")/program.sh" inspect "${1:-}"
cd "$(dirname "$0")" || exit 2
diff <(cat appendix/*.out) <(./appendix-lines.sh | "$program") || exit 1
echo "appendix: $(cat appendix/*.out | wc -l) lines agree"
