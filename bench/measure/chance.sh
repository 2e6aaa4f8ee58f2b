#!/usr/bin/env bash
# Solves small scripts by chance beside z3 (chance.py): answers that differ, certificates that aren't accepted, and what isn't
# decided are named, and counted in the last line.
# usage: bench/measure/chance.sh [PROGRAM [SEED [COUNT]]]
set -eu
top=$(cd "$(dirname "$0")/../.." && pwd)
python3 "$top/bench/measure/chance.py" "${1:-$top/dist/qbv}" "${2:-1}" "${3:-400}"
