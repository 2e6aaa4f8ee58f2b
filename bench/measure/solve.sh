#!/usr/bin/env bash
# Solves generated and written scripts with the built program (solve_problems.py), has it check each
# certificate, and prints the processor seconds of both and the certificate's size, beside the seconds of z3,
# cvc5 and boolector in the same run, where these are there. A dash stands for a script that isn't decided
# within SECONDS; answers that differ and certificates that aren't accepted are named, and counted in the last
# line.
# usage: bench/measure/solve.sh [SECONDS [PART-OF-A-NAME [PROGRAM]]]
set -eu
top=$(cd "$(dirname "$0")/../.." && pwd)
python3 "$top/bench/measure/solve_times.py" "${3:-$top/crates/qbv/out/qbv}" "${1:-10}" "${2:-}"
