#!/bin/sh
# Times the check of long sections of certificates: so many lines of a refutation, nodes, and lines of an
# expansion list, a million each where nothing else is said. Each is timed beside a run that reads the same
# bytes and judges none of them. Builds the driver of their cases first, with `rt run`.
#
#     bench/measure/sections.sh [LINES]
set -eu
count=${1:-1000000}
cd "$(dirname "$0")/../../crates/qv_check_cases"
rt run < /dev/null > /dev/null

for kind in steps nodes lines; do
    for row in "$kind" "-$kind"; do
        python3 ../../bench/measure/sections.py "$row" "$count" > out/bench.in
        /usr/bin/time -f "$row: %U seconds of the processor, %M kB at most" out/qv_check_cases < out/bench.in
    done
done
rm out/bench.in
