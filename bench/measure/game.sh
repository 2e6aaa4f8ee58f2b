#!/usr/bin/env bash
# Plays the level game on worked problems and on families of one to five blocks at widths of 4 to 32
# (game_problems.py), with the program of qv_solve_cases, and prints instances, conflicts and processor seconds
# of each, beside those of z3 and cvc5 in the same run, where these are there. A dash stands for a problem
# that isn't decided within SECONDS.
# usage: bench/measure/game.sh [SECONDS [PART-OF-A-NAME]]
set -eu
top=$(cd "$(dirname "$0")/../.." && pwd)
cd "$top/crates/qv_solve_cases"
rt run > /dev/null 2>&1
python3 "$top/bench/measure/game_times.py" "$PWD/out/qv_solve_cases" "${1:-10}" "${2:-}"
