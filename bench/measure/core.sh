#!/usr/bin/env bash
# Times the core, with the program of qv_sat_dimacs_cases, beside minisat, cadical and a plain solver with the
# core's policy (core_policy.cpp: what the policy costs, whatever the code), on problems that are written from
# fixed seeds: random clauses, pigeons, parities, multipliers, squares and adders against each other, sums of
# three terms in two orders, quotients by constants, a number's factors, and designs that yosys unrolls. Each
# answer of the core is checked in a run of its own. Needs minisat, cadical and a C++ compiler; without yosys
# there are no designs.
# `qbv solve` gets the same gates as terms, and `qbv check` its certificates: there closure on gates comes before the
# search. QBV is its program, or dist/qbv.
# usage: bench/measure/core.sh [SECONDS [QBV]]   SECONDS is the limit for one problem
set -eu
top=$(cd "$(dirname "$0")/../.." && pwd)
cd "$top/crates/qv_sat_dimacs_cases"
rt run > /dev/null 2>&1
room=$(mktemp -d)
trap 'rm -rf "$room"' EXIT
python3 "$top/bench/cases/core_problems.py" "$room"
unroll() {
    yosys -q -p "read_verilog -sv -formal $top/bench/measure/core_designs.sv; prep -top $1; memory_map; opt -full;
        sat -set-init-zero -prove-asserts -seq $2 -timeout 1 -dump_cnf $room/$1-$2.cnf" > /dev/null 2>&1 || true
}
if command -v yosys > /dev/null; then
    for steps in 4 6 8; do unroll sums "$steps"; done
    for steps in 8 12 16; do unroll queue "$steps"; done
fi
c++ -O2 -o "$room/policy" "$top/bench/measure/core_policy.cpp"
python3 "$top/bench/measure/core_times.py" "$PWD/out/qv_sat_dimacs_cases" "$room/policy" "$room" "${1:-100}" "${2:-$top/dist/qbv}"
