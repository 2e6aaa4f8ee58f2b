#!/usr/bin/env bash
# Times circuits alone: how many clauses a second are written, printed as a checksum and dropped, and the peak
# of memory of a list. Uses the program of qv_blast_cases.
# usage: bench/measure/circuits.sh
set -eu
cd "$(dirname "$0")/../../crates/qv_blast_cases"
rt run > /dev/null 2>&1
room=$(mktemp -d)
trap 'rm -rf "$room"' EXIT
measure() {
    local count=$1
    shift
    yes "circuit $*" | head -n "$count" > "$room/in"
    /usr/bin/time -o "$room/time" -f "%U %S %M" ./out/qv_blast_cases < "$room/in" > "$room/out"
    awk -v count="$count" -v case="$*" '
        NR == FNR { seconds = $1 + $2; peak = $3; next }
        { split($0, parts, "; "); split(parts[3], last, " "); clauses = last[1] - 2 }
        END { printf "%s: %d clauses, %.1f million a second, %d KB at most\n", case, clauses, count * clauses / seconds / 1e6, peak }
    ' "$room/time" <(tail -n 1 "$room/out")
}
measure 1000 bvmul 32 32
measure 20000 bvadd 32 32
for width in 16 32 64 128; do
    measure $((4000000 / width / width)) bvmul "$width" "$width"
    measure $((2000000 / width / width)) bvudiv "$width" "$width"
    measure $((800000 / width)) bvshl "$width" "$width"
done
