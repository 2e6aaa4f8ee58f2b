#!/usr/bin/env bash
# Times `choose` with the program of qv_choose_cases: regions of about so many distinct terms, comparisons of
# sums with their values at the point joined by `and`, over 10 places of a block and 10 before it. Each region
# is read TIMES times and a choice made; then as many times with its negation, which is read and refused as
# false at the point. The difference is `choose`.
#
# usage: bench/measure/choose.sh [TERMS ..]
set -eu
cd "$(dirname "$0")/../../crates/qv_choose_cases"
rt run > /dev/null 2>&1
room=$(mktemp -d)
trap 'rm -rf "$room"' EXIT
for terms in "${@:-100 1000 10000}"; do
    for count in $terms; do
        times=$((100000 / count))
        python3 - "$count" "$times" "$room" <<'P'
import random
import sys

count, times, room = int(sys.argv[1]), int(sys.argv[2]), sys.argv[3]
random.seed(count)
WIDTH, PLACES = 32, 20
MASK = 2**WIDTH - 1
point = [random.getrandbits(WIDTH) for _ in range(PLACES)]
ops = {"bvadd": lambda a, b: a + b & MASK, "bvxor": lambda a, b: a ^ b, "bvmul": lambda a, b: a * b & MASK}


def side():
    words, stack = [], []
    for _ in range(3):
        place = random.randrange(PLACES)
        words.append(f"v{place}:{WIDTH}")
        stack.append(point[place])
    for _ in range(2):
        op = random.choice(list(ops))
        b, a = stack.pop(), stack.pop()
        stack.append(ops[op](a, b))
        words.append(op)
    return words, stack[0]


region, parts = [], 0
while 5 * parts < count:
    words, value = side()
    region += words + [f"{WIDTH}:{value:x}", random.choice(["=", "bvule", "bvuge"])]
    parts += 1
    if parts > 1:
        region.append("and")
line = f"choose 10 20 {' '.join(f'{WIDTH}:{v:x}' for v in point)} | {' '.join(region)}"
with open(f"{room}/whole", "w") as file:
    file.write(f"{line}\n" * times)
with open(f"{room}/refused", "w") as file:
    file.write(f"{line} not\n" * times)
P
        for name in whole refused; do
            /usr/bin/time -o "$room/$name.time" -f "%U %S %M" ./out/qv_choose_cases < "$room/$name" > "$room/$name.out"
        done
        awk -v count="$count" -v times="$times" '
            NR == FNR { whole = $1 + $2; next }
            { printf "%d terms: %.3f ms a choice of 10 terms\n", count, (whole - $1 - $2) * 1000 / times }
        ' "$room/whole.time" "$room/refused.time"
        if grep -q 'bad case' "$room/whole.out"; then exit 1; fi
    done
done
