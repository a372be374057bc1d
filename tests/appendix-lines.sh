#!/usr/bin/env bash
# appendix-lines.sh: prints the messages of tests/appendix as lines for inspect, each in three forms: unchanged,
# with the colon and the blank of the field rule, and as version 1 (the README there says why).
set -eu
cd "$(dirname "$0")"
. ./hex.sh
for example in appendix/*.txt; do
    for form in '' 's/^a=ipbcp /a=ipbcp: /' 's/^a=ipbcp 2 /a=ipbcp:1 /'; do
        echo "message $(sed -e "$form" -e 's/$/\r/' "$example" | hex)"
    done
done
