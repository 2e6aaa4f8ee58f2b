#!/usr/bin/env bash
# Decides generated quantified Boolean formulas (qsolve_problems.py: six families of ten). Processor seconds of
# `qbv qsolve`, depqbf and, over the same formula as a script, z3 and cvc5 in the same run, where these are there; a dash
# stands for what isn't decided within SECONDS. Answers are compared, and each certificate is checked.
# usage: bench/measure/qsolve.sh [SECONDS [PART-OF-A-NAME [PROGRAM]]]
set -eu
top=$(cd "$(dirname "$0")/../.." && pwd)
python3 "$top/bench/measure/qsolve_times.py" "${3:-$top/crates/qbv/out/qbv}" "${1:-10}" "${2:-}"
