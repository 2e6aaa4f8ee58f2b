#!/usr/bin/env bash
# Times `qbv lrat` beside a plain checker in C on LRAT proofs: those that the core writes of problems of core.sh, by the
# program of qv_sat_dimacs_cases, and the same lines with ten times as many hints, of which the further ones stand
# behind those that do. Both run one after the other on each proof; each has to accept it.
# usage: bench/measure/proofs.sh [PROGRAM [PART-OF-A-NAME]]
set -eu
top=$(cd "$(dirname "$0")/../.." && pwd)
program=${1:-$top/crates/qbv/out/qbv}
room=$(mktemp -d)
trap 'rm -rf "$room"' EXIT
cd "$top/crates/qv_sat_dimacs_cases"
[ -x out/qv_sat_dimacs_cases ] || rt run > /dev/null 2>&1
cc -O2 -o "$room/proof_check" "$top/bench/measure/proof_check.c"
python3 "$top/bench/cases/core_problems.py" "$room"
echo "problem | MB of proof | qbv lrat: seconds, MiB | in C: seconds, MiB"
for cnf in "$room"/*"${2:-}"*.cnf; do
    name=$(basename "$cnf" .cnf)
    { cat "$cnf"; echo 'solve 1000000'; echo steps; } | timeout 100 out/qv_sat_dimacs_cases | grep -E '^[0-9]+ (d )?.*0$' > "$room/proof" || true
    tail -n 1 "$room/proof" | grep -qE '^[0-9]+ 0 ' || continue
    awk '$2 == "d" { print; next }
        { first = 2; while ($first != 0) first++
          hints = ""; for (at = first + 1; at < NF; at++) hints = hints " " $at
          line = $1; for (at = 2; at <= first; at++) line = line " " $at
          for (times = 0; times < 10; times++) line = line hints
          print line " 0" }' "$room/proof" > "$room/many"
    for proof in proof many; do
        mega=$(($(stat -c %s "$room/$proof") / 100000))
        /usr/bin/env time -o "$room/ours" -f '%U %M' "$program" lrat "$cnf" "$room/$proof" | grep -q '^accepted$'
        /usr/bin/env time -o "$room/theirs" -f '%U %M' "$room/proof_check" "$cnf" "$room/$proof" > /dev/null
        read -r ours memory < "$room/ours"
        read -r theirs other < "$room/theirs"
        echo "$name${proof#proof} | $((mega / 10)).$((mega % 10)) | $ours $((memory / 1024)) | $theirs $((other / 1024))"
    done
done
