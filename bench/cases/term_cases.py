#!/usr/bin/env python3
"""Writes the cases of crates/qv_choose_cases (stdin) and what must come (stdout).

    bench/cases/term_cases.py            writes both files
    bench/cases/term_cases.py --check    tries each inverse term at widths up to 4 on all values

The inverse terms and the scripts come from the tables below, which were written from the rules, and
from nothing of this repository. That a term solves its operator is tried with the values of
bench/cases/word_cases.py.
"""
import itertools
import random
import sys

from rows import write_part
from word_cases import LOGIC, NAMES, TESTS, TWO, apply, evaluate, parts, rank, read

ALIKE = ["bvadd", "bvxor", "bvxnor", "bvand", "bvor", "bvnand", "bvnor"]
SHIFTS = ["bvshl", "bvlshr", "bvashr"]


# --- inverse terms ----------------------------------------------------------------------------------

def literal(width, value):
    assert 0 <= value < 2**width
    return f"{width}:{value:x}"


def inverse(op, position, sorts, other):
    """The term for the argument at a position, over v0, the other one, and v1, the target."""
    name, indices = parts(op)
    if "bool" in sorts or len(sorts) > 2:
        return "none"
    w, result = sorts[position], rank(op, sorts)
    t, s = f"v1:{result}", f"v0:{sorts[1 - position]}" if len(sorts) == 2 else None
    if name in ["bvnot", "bvneg"]:
        return f"({name} {t})"
    if name == "bvadd":
        return f"(bvsub {t} {s})"
    if name == "bvsub":
        return f"(bvadd {t} {s})" if position == 0 else f"(bvsub {s} {t})"
    if name in ["bvxor", "bvxnor"]:
        return f"({name} {t} {s})"
    if name in ["bvand", "bvor"]:
        return t
    if name in ["bvnand", "bvnor"]:
        return f"(bvnot {t})"
    if name == "bvmul" and other:
        zeros = (other & -other).bit_length() - 1
        odd = pow(other >> zeros, -1, 2**w)
        return f"(bvmul (bvlshr {t} {literal(w, zeros)}) {literal(w, odd)})"
    if name == "bvudiv":
        return f"(bvmul {s} {t})" if position == 0 else f"(bvudiv {s} {t})"
    if name == "bvurem":
        return t if position == 0 else f"(ite (= {s} {t}) {literal(w, 0)} (bvsub {s} {t}))"
    if name in SHIFTS and position == 1:
        chain = literal(w, w)
        for i in reversed(range(w)):
            amount = literal(w, i)
            chain = f"(ite (= ({name} {s} {amount}) {t}) {amount} {chain})"
        return chain
    if name == "bvshl":
        return f"(bvlshr {t} {s})"
    if name == "bvlshr":
        return f"(bvshl {t} {s})"
    if name == "bvashr":
        return f"(ite (bvult {s} {literal(w, w)}) (bvshl {t} {s}) {t})"
    if name == "concat":
        low = sorts[1] if position == 0 else 0
        return f"(extract:{low + w - 1}:{low} {t})"
    if name == "extract":
        high, low = indices
        behind = f"(concat {t} {literal(low, 0)})" if low else t
        before = w - 1 - high
        return f"(concat {literal(before, 0)} {behind})" if before else behind
    if name in ["repeat", "zero_extend", "sign_extend"]:
        return f"(extract:{w - 1}:0 {t})"
    if name in ["rotate_left", "rotate_right"]:
        back = {"rotate_left": "rotate_right", "rotate_right": "rotate_left"}[name]
        return f"({back}:{indices[0]} {t})"
    return "none"


# --- the generator ----------------------------------------------------------------------------------

def next_state(state):
    return (state * 6364136223846793005 + 1442695040888963407) % 2**64


BLOCK = """(push 1)
(assert (forall ((x (_ BitVec 8))) (exists ((y (_ BitVec 8))) (= (bvadd y #xCC) (bvxor x #xDD)))))
(check-sat)
(assert (forall ((z (_ BitVec 8))) (bvult z #xCC)))
(check-sat)
(pop 1)
"""


def block(state):
    c, d = state // 2**56, state // 2**48 % 256
    return BLOCK.replace("CC", f"{c:02x}").replace("DD", f"{d:02x}")


def script(number):
    text, state = ["(set-logic BV)\n"], number
    for _ in range(number):
        state = next_state(state)
        text.append(block(state))
    return "".join(text)


def checksum(text):
    """FNV-1a, of 64 bits."""
    sum = 0xCBF29CE484222325
    for byte in text.encode():
        sum = (sum ^ byte) * 0x100000001B3 % 2**64
    return sum


# --- the cases --------------------------------------------------------------------------------------

LINES = []  # each case with its answer; a comment or a blank line with None
ASKED = []  # inverse terms


def note(text):
    LINES.extend([("", None)] if LINES else [])
    LINES.append((f"# {text}", None))


def case(line, answer):
    LINES.append((line, str(answer)))


def inverted(op, position, sorts, other=None):
    shown = "-" if other is None else literal(sorts[1 - position], other)
    line = f"invert {op} {position} {shown} {' '.join(map(str, sorts))}"
    row = inverse(op, position, sorts, other)
    ASKED.append((op, position, sorts, other, row))
    case(line, row)


def inverses(chosen):
    note("the worked rows")
    inverted("bvadd", 0, [8, 8])
    inverted("bvmul", 0, [8, 8], 3)
    inverted("bvmul", 0, [8, 8])
    inverted("ite", 1, ["bool", 8, 8])
    note("two arguments of one width, on either side")
    for name in [*TWO, *TESTS, "=", "bvcomp"]:
        for w in [1, 2, 3, 4, 8, 64, 127, 128]:
            for position in [0, 1]:
                if name not in SHIFTS or position == 0 or w < 64 or w == 128:
                    inverted(name, position, [w, w])
    note("products with a literal")
    for w in [1, 2, 3, 4]:
        for value in range(2**w):
            inverted("bvmul", value % 2, [w, w], value)
    for w in [5, 8, 31, 32, 63, 64, 65, 126, 127, 128]:
        values = [0, 1, 2, 3, 2**w - 1, 2**w - 2, 2 ** (w - 1), 2 ** (w - 2), 3 * 2 ** (w - 3)]
        values += [chosen.randrange(2**w) << chosen.randrange(w) & 2**w - 1 for _ in range(6)]
        for value in values:
            inverted("bvmul", chosen.randrange(2), [w, w], value)
    note("a literal changes no other row")
    for name in TWO:
        if name != "bvmul":
            inverted(name, 0, [4, 4], 0)
            inverted(name, 1, [4, 4], 11)
    note("one argument")
    for name in ["bvnot", "bvneg", "bvnego"]:
        for w in [1, 2, 3, 4, 8, 64, 127, 128]:
            inverted(name, 0, [w])
    for w in [1, 2, 3, 4]:
        for i in range(w):
            for j in range(i + 1):
                inverted(f"extract:{i}:{j}", 0, [w])
    for w, i, j in [(8, 7, 0), (8, 6, 0), (8, 7, 1), (8, 5, 3), (127, 126, 126), (128, 127, 0), (128, 127, 127),
                    (128, 0, 0), (128, 126, 1), (128, 64, 63)]:
        inverted(f"extract:{i}:{j}", 0, [w])
    for w in [1, 2, 3, 4, 8, 127, 128]:
        for k in [0, 1, 2, 3, 5, 16, 127]:
            for name in ["repeat", "zero_extend", "sign_extend"]:
                if not isinstance(rank(f"{name}:{k}", [w]), str):
                    inverted(f"{name}:{k}", 0, [w])
        for k in [0, 1, 2, 5, w - 1, w, w + 1, 2**128 - 1]:
            for name in ["rotate_left", "rotate_right"]:
                inverted(f"{name}:{k}", 0, [w])
    note("parts of one width or two")
    for v, w in [*itertools.product([1, 2, 3, 4], repeat=2), (8, 1), (1, 127), (127, 1), (64, 64), (100, 28)]:
        for position in [0, 1]:
            inverted("concat", position, [v, w])
    note("operators on truth values, and choices, have none")
    for position in [0, 1]:
        for name in [*LOGIC, "="]:
            inverted(name, position, ["bool", "bool"])
    inverted("not", 0, ["bool"])
    for position in [0, 1, 2]:
        for sort in ["bool", 1, 8, 128]:
            inverted("ite", position, ["bool", sort, sort])
    note("these aren't cases")
    for line in ["bvadd 2 - 8 8", "bvnot 1 - 8", "bvadd 0 - 8 9", "bvadd 0 - 8", "bvadd 0 8:100 8 8", "nand 0 - 8 8",
                 "ite 3 - bool 8 8", "extract:0:1 0 - 8", "bvnot 0 - 129"]:
        case(f"invert {line}", "bad case")


def scripts(chosen):
    note("states")
    for state in [0, 1, 2, 2**63, 2**64 - 1, 7806831264735756412, *(chosen.randrange(2**64) for _ in range(20))]:
        case(f"state {state}", next_state(state))
    note("blocks")
    states = [7806831264735756412, 0, 2**64 - 1, 2**48, 2**56, 2**56 - 1, 2**48 - 1, 0x0F_F0 << 48, 0xA0_0A << 48,
              0x99_9A << 48, 0x9F_FF << 48]
    for state in [*states, *(chosen.randrange(2**64) for _ in range(20))]:
        case(f"block {state}", block(state).replace("\n", "|"))
    note("whole scripts")
    for number in [0, 1, 2, 3, 5]:
        case(f"script {number}", script(number).replace("\n", "|"))
    note("their lengths and checksums")
    for number in [0, 1, 2, 7, 100, 1000]:
        text = script(number)
        case(f"sum {number}", f"{len(text)} {checksum(text):x}")
    note("a number is at most 100000")
    for line in ["script 100001", "sum 18446744073709551615", "block 18446744073709551616", "state -1"]:
        case(line, "bad case")


def solves(op, position, sorts, other, row):
    """Whether, wherever some value gives the target, the term does: on all values."""
    term, result = read(row)[0], rank(op, sorts)
    mine = sorts[position]
    others = [None] if len(sorts) == 1 else [other] if other is not None else range(2 ** sorts[1 - position])
    for s in others:
        def value(x):
            if s is None:
                return apply(op, [(mine, x)])[1]
            args = [(mine, x), (sorts[1 - position], s)]
            return apply(op, args if position == 0 else args[::-1])[1]

        reached = {value(x) for x in range(2**mine)}
        for t in reached:
            found = evaluate(term, [], [(sorts[1 - position], s) if s is not None else (1, 0), (result, t)])
            if found is None or found[0] != mine or value(found[1]) != t:
                return False
    return True


def check():
    tried = 0
    for op, position, sorts, other, row in ASKED:
        if row != "none" and all(s != "bool" and s <= 4 for s in sorts) and rank(op, sorts) <= 16:
            assert solves(op, position, sorts, other, row), (op, position, sorts, other, row)
            tried += 1
    print(f"{tried} inverse terms solve their operators")


def main():
    chosen = random.Random(16)
    inverses(chosen)
    scripts(chosen)
    assert set(NAMES) == {parts(op)[0] for op, *_ in ASKED}
    if "--check" in sys.argv:
        check()
        return
    write_part("qv_choose_cases", "inverse terms and generated scripts", LINES)
    print(f"{len(ASKED)} inverse terms, {len(LINES)} lines")


if __name__ == "__main__":
    main()
