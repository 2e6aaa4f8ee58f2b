#!/usr/bin/env bash
# What it costs that the clauses of a file in the QDIMACS format are taken as trees of gates: for ten DIMACS problems of
# core_problems.py, the variables and clauses of the file and those of the list that `qbv qsolve` refutes or finds true,
# and the processor seconds of `qsolve` beside those of minisat on the file as it stands, where it is there.
# usage: bench/measure/gates.sh [SECONDS [PROGRAM]]
set -eu
top=$(cd "$(dirname "$0")/../.." && pwd)
room=$(mktemp -d)
trap 'rm -rf "$room"' EXIT
python3 "$top/bench/cases/core_problems.py" "$room"
python3 "$top/bench/measure/gates_times.py" "${2:-$top/crates/qbv/out/qbv}" "$room" "${1:-60}"
