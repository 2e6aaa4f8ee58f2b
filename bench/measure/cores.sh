#!/usr/bin/env bash
# Asks for the cores of generated scripts (cores_problems.py): 20, 200 and 2,000 named assertions over words of
# 32 bits, with one minimal core and with many. Processor seconds and sizes, beside z3 and cvc5 in the same run,
# where these are there. z3 says of each core whether it is one, and whether it is minimal. A dash stands for
# what isn't decided within SECONDS. The last line counts the cores that are none.
# usage: bench/measure/cores.sh [SECONDS [PART-OF-A-NAME [PROGRAM]]]
set -eu
top=$(cd "$(dirname "$0")/../.." && pwd)
python3 "$top/bench/measure/cores_times.py" "${3:-$top/crates/qbv/out/qbv}" "${1:-60}" "${2:-}"
