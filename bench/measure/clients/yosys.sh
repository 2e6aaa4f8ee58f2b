#!/usr/bin/env bash
# Four designs through yosys-smtbmc, each in three modes: a line for each run says what came, with a checksum of the trace.
# usage: bench/measure/clients/yosys.sh SOLVER FOLDER    SOLVER is z3 or cvc4, which `recorded` stands in for; FOLDER is for files
set -u
here=$(cd "$(dirname "$0")" && pwd)
solver=$1 room=$2
mkdir -p "$room/bin"
ln -sf "$here/recorded" "$room/bin/$solver"
PATH=$room/bin:$PATH

# DESIGN TASK OPTIONS..: in its default mode, unrolled, and with states as words
try() {
    local design=$1 task=$2 mode out
    shift 2
    for mode in default unroll stbv; do
        local flags=() write=()
        [ "$mode" = unroll ] && flags=(--unroll)
        [ "$mode" = stbv ] && write=(-stbv)
        [ -e "$room/$design-$mode.smt2" ] ||
            yosys -q -p "read_verilog -sv -formal $here/designs.sv; prep -top $design -flatten; write_smt2 -wires ${write[*]} $room/$design-$mode.smt2" >"$room/yosys.out" 2>&1 || { echo "$design: yosys failed"; return; }
        rm -f "$room/trace.vcd"
        out=$(QV_GOAL=$design-$task-$mode timeout 120 yosys-smtbmc -s "$solver" "${flags[@]}" "$@" --dump-vcd "$room/trace.vcd" "$room/$design-$mode.smt2" 2>&1)
        echo "$design-$task-$mode: $(grep -o 'Status: .*' <<<"$out" || echo "failed: $(tail -n 1 <<<"$out")")$(traced)"
    done
}

# The values of the trace, without the names that yosys gives by itself.
traced() {
    [ -e "$room/trace.vcd" ] && echo ", trace $(grep -v '^\$\|smt_step\|smt_clock' "$room/trace.vcd" | cksum | cut -d' ' -f1)"
}

try counter run -t 20
try lights run -t 15
try lights induction -i -t 12
try feedback cover -c -t 20
try sums run -t 6
try sums cover -c -t 6
