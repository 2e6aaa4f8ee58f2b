#!/usr/bin/env bash
# Times `prenex` with the program of qv_rewrite_cases: on one formula of so many distinct terms without
# quantifiers; on 1,000, 2,000 and 4,000 formulas side by side, each a quantifier above the same term of as
# many distinct ones; and on 500, 1,000 and 2,000 comparisons side by side, each above the same sum of as many
# literals and an `ite` with a quantified condition. A line of the formulas is timed as it is, and with a
# constant of another sort, which is read and refused (`bad case`): their difference is that of the tests of a
# case and of `prenex`. Prints the seconds of both, and the peaks of memory.
#
# With real-time priority on a machine whose threads were all taken: 1,000,000 terms in 0.9 to 1.2 seconds,
# and 116 bytes each; 4,000 formulas in no more than reading them takes (3.2 seconds for the 16,000,000 terms
# of the text), so the shared term isn't gone through for each; 2,000 comparisons above one sum of 4,000 terms
# in 0.0 to 0.5 seconds beside reading them (1.6).
# usage: bench/measure/prenex.sh [TERMS ..]
set -eu
cd "$(dirname "$0")/../../crates/qv_rewrite_cases"
rt run >/dev/null
room=$(mktemp -d)
trap 'rm -rf "$room"' EXIT
# KIND FORMULAS TERMS: the two lines of a case. A formula is `plain`, or below a quantifier (`bound`), or is
# `split`
write() {
    python3 - "$1" "$2" "$3" "$room" <<'P'
import sys
kind, formulas, count, room = sys.argv[1], int(sys.argv[2]), int(sys.argv[3]), sys.argv[4]
# a sum of so many different literals, half of the terms each
words = ["c0:64"]
if kind == "split":
    words = "v0:64 64:0 = Ex:0:64 c0:64 64:1 ite".split()
for n in range(count // 2):
    words += [f"64:{n:x}", "bvadd"]
text = " ".join(words)
if kind == "plain":
    text += " 64:0 ="
if kind == "bound":
    text = ";".join(f"{text} 64:0 = v0:64 64:{n:x} = or Ex:0:64" for n in range(formulas))
if kind == "split":
    text = ";".join(f"{text} 64:{n:x} =" for n in range(formulas))
for name, width in ("whole", 64), ("refused", 63):
    with open(f"{room}/{name}", "w") as file:
        file.write(f"count {width}/{text}\n")
P
}
measure() {
    write "$1" "$2" "$3"
    for part in refused whole; do
        printf '%s, %s formulas, %s terms, %s: ' "$1" "$2" "$3" "$part"
        /usr/bin/env time -f '%U s, %M KiB at most' ./out/qv_rewrite_cases < "$room/$part" 2>&1 | tr '\n' ' '
        echo
    done
}
for terms in "${@:-1000000}"; do
    measure plain 1 "$terms"
done
for count in 1000 2000 4000; do
    measure bound "$count" "$count"
done
for count in 500 1000 2000; do
    measure split "$count" "$((2 * count))"
done
