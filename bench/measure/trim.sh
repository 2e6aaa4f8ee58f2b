#!/usr/bin/env bash
# Trims the certificates of the scripts of solve_problems.py that are unsat within SECONDS: bytes before and after,
# processor seconds of `check`, of `trim` and of `check` on what was trimmed. What is trimmed has to be accepted with the
# same answers, and to stay as it is when it is trimmed again. Of the largest certificate also the memory of both.
# usage: bench/measure/trim.sh [SECONDS [PART-OF-A-NAME [PROGRAM]]]
set -eu
top=$(cd "$(dirname "$0")/../.." && pwd)
python3 "$top/bench/measure/trim_times.py" "${3:-$top/crates/qbv/out/qbv}" "${1:-10}" "${2:-}"
