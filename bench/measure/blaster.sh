#!/usr/bin/env bash
# Times formulas that become clauses: how many clauses a second come through `Blaster::assert` (the terms are
# put into the store and a checksum of the list is taken in the same time), and how many bytes of memory a
# clause takes at the peak. Uses the program of qv_blast_cases.
#
# On a busy machine of four processors: 9 to 50 million clauses a second, the same at each width, so the time
# is linear in the gates; 20 to 33 bytes a clause at the peak beside those of the program itself (1.2 MB), in
# lists of 8,751 to 10,062,501 clauses.
# usage: bench/measure/blaster.sh
set -eu
cd "$(dirname "$0")/../../crates/qv_blast_cases"
rt run > /dev/null 2>&1
room=$(mktemp -d)
trap 'rm -rf "$room"' EXIT
echo "# nothing" | /usr/bin/time -o "$room/time" -f "%M" ./out/qv_blast_cases > /dev/null
floor=$(cat "$room/time")
# TIMES COUNT OPERATOR WIDTH: as many lists, one after another, of as many equations
measure() {
    local times=$1
    shift
    yes "many $*" | head -n "$times" > "$room/in"
    /usr/bin/time -o "$room/time" -f "%U %S %M" ./out/qv_blast_cases < "$room/in" > "$room/out"
    awk -v times="$times" -v floor="$floor" -v case="$*" '
        NR == FNR { seconds = $1 + $2; peak = $3; next }
        { clauses = $2 - 1 }
        END { printf "%s: %d clauses, %.1f million a second, %.1f bytes a clause at the peak\n", case, clauses, times * clauses / (seconds + 0.001) / 1e6, (peak - floor) * 1024 / clauses }
    ' "$room/time" "$room/out"
}
echo "lists of 10,000 to 10,000,000 clauses"
for count in 1 12 115; do measure 1 "$count" bvmul 32; done
measure 1 1150 bvmul 32
measure 1 15000 bvadd 32
echo "one alone, again and again"
measure 100 1 bvmul 128
measure 100 1 bvudiv 128
measure 2000 1 bvshl 128
echo "equally many gates at each width"
for width in 16 32 64 128; do
    measure 1 $((1000000 / width / width)) bvmul "$width"
    measure 1 $((500000 / width / width)) bvudiv "$width"
    measure 1 $((200000 / width)) bvshl "$width"
done
