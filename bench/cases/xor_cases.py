#!/usr/bin/env python3
"""The cases of the pass of exclusive or, as written from its rules: terms as sums modulo 2, bit by bit.
bench/cases/rewrite_cases.py writes them with its own.

    bench/cases/xor_cases.py --check    compares the examples, and values of random terms before and after
    bench/cases/xor_cases.py --show     prints what the examples become

Terms are written as in bench/cases/rewrite_cases.py. A chain is a pair of its number and of a dictionary from the
texts of its terms to the terms, in the order in which they came.
"""
import random
import sys

from pass_rows import at_row, check, pass_row, present, twice
from rewrite_cases import SORTS, at_point, literal, random_known, random_term, show, sort_of, value_of
from sum_cases import bits, place

MOST = 64


def from_left(op, terms):
    made = terms[0]
    for t in terms[1:]:
        made = op, [made, t]
    return made


def toggle(atoms, t):
    """One term more in a dictionary, which drops it where it is there."""
    atoms = dict(atoms)
    if atoms.pop(repr(t), None) is None:
        atoms[repr(t)] = t
    return atoms


def all_bits(t):
    return 2 ** bits(t) - 1


def flips(t):
    """The bits that an operator turns beside adding its arguments, or None where it does something else."""
    op, args = t
    if op in ["xor", "bvxor"]:
        return 0
    if op in ["not", "bvnot", "bvxnor"]:
        return all_bits(t)
    if op in ["=", "bvcomp"] and bits(args[0]) == 1:
        return 1


def chain(t):
    if isinstance(t, str):
        return (0, {repr(t): t}) if t[0] in "cv" else (value_of(t), {})
    op, args = t
    parts = [chain(a) for a in args]
    number = flips(t)
    if number is not None:
        atoms = {}
        for n, others in parts:
            number ^= n
            for other in others.values():
                atoms = toggle(atoms, other)
        if len(atoms) <= MOST:
            return number, atoms
    made = op, [term(sort_of(a), p) for a, p in zip(args, parts)]
    return 0, {repr(made): made}


def term(sort, p):
    number, atoms = p
    ordered = sorted(atoms.values(), key=place)
    if not ordered:
        return literal(sort, number)
    if sort == "bool":
        made = from_left("xor", [t if sort_of(t) == "bool" else ("=", [t, "1:1"]) for t in ordered])
        return ("not", [made]) if number else made
    made = from_left("bvxor", ordered)
    if number == 2**sort - 1:
        return "bvnot", [made]
    return ("bvxor", [made, literal(sort, number)]) if number else made


def xored(t):
    return term(sort_of(t), chain(t))


# --- random terms, in which chains come often ---------------------------------------------------------


def random_chain(chosen, sort, depth):
    if depth == 0 or chosen.random() < 0.1:
        if chosen.random() < 0.3:
            most = 2 if sort == "bool" else 2**sort
            return literal(sort, chosen.choice([0, most - 1, chosen.randrange(most)]))
        return f"{chosen.choice('cv')}{chosen.randrange(2)}:{sort}"
    if sort == "bool":
        of = chosen.choice(["bool", "bool", "bool", 1, 1, 3])
        a, b = random_chain(chosen, of, depth - 1), random_chain(chosen, of, depth - 1)
        if of != "bool":
            return chosen.choice(["=", "=", "=", "bvult"]), [a, b]
        op = chosen.choice(["xor", "xor", "=", "not", "and"])
        return op, [a] if op == "not" else [a, b]
    if sort == 1 and chosen.random() < 0.3:
        of = chosen.choice([1, 1, 3])
        return "bvcomp", [random_chain(chosen, of, depth - 1), random_chain(chosen, of, depth - 1)]
    a, b = random_chain(chosen, sort, depth - 1), random_chain(chosen, sort, depth - 1)
    op = chosen.choice(["bvxor", "bvxor", "bvxor", "bvxnor", "bvnot", "bvand"])
    return op, [a] if op == "bvnot" else [a, b]


def total(op, sort, k):
    """The first k + 1 variables of a sort, joined from the left."""
    return f"v0:{sort}" if k == 0 else f"{total(op, sort, k - 1)} v{k}:{sort} {op}"


def back(op, sort, k):
    """The same from the last one down."""
    return " ".join([f"v{k}:{sort}", *(f"v{i}:{sort} {op}" for i in range(k - 1, -1, -1))])


# the terms of proofs/XorsExample.antt, and what becomes of them
EXAMPLES = [
    # what comes twice goes
    ("v0:bool v1:bool xor v0:bool xor", "v1:bool"),
    ("v0:bool v0:bool xor", "bool:0"),
    ("v0:bool v0:bool =", "bool:1"),
    ("v0:8 v1:8 bvxor v1:8 v0:8 bvxor bvxor", "8:0"),
    ("v0:8 v1:8 bvxor v1:8 v0:8 bvxor =", "v0:8 v1:8 bvxor v0:8 v1:8 bvxor ="),
    ("v0:bool v1:bool xor v2:bool xor v2:bool v1:bool xor v0:bool xor =", "bool:1"),
    # leaves come in the order of their numbers, constants first
    ("v2:bool v1:bool xor v0:bool xor", "v0:bool v1:bool xor v2:bool xor"),
    ("v0:8 c5:8 bvxor", "c5:8 v0:8 bvxor"),
    ("v0:8 v1:8 bvand v1:8 bvxor v0:8 v1:8 bvor bvxor c0:8 bvxor", "c0:8 v1:8 bvxor v0:8 v1:8 bvand bvxor v0:8 v1:8 bvor bvxor"),
    # negations
    ("v0:bool not v1:bool xor", "v0:bool v1:bool xor not"),
    ("v0:bool not v1:bool not xor", "v0:bool v1:bool xor"),
    ("v0:bool v1:bool =", "v0:bool v1:bool xor not"),
    ("v0:bool v1:bool = v2:bool =", "v0:bool v1:bool xor v2:bool xor"),
    ("v0:bool not not", "v0:bool"),
    ("v0:bool bool:1 xor", "v0:bool not"),
    ("bool:1 not", "bool:0"),
    # numbers in words: the last term, or one negation
    ("v0:8 8:f bvxor v1:8 8:3 bvxor bvxor", "v0:8 v1:8 bvxor 8:c bvxor"),
    ("v0:8 8:ff bvxor", "v0:8 bvnot"),
    ("v0:8 v1:8 bvxnor", "v0:8 v1:8 bvxor bvnot"),
    ("v0:8 bvnot v1:8 bvnot bvxnor", "v0:8 v1:8 bvxor bvnot"),
    ("v0:8 bvnot 8:f bvxor", "v0:8 8:f0 bvxor"),
    ("8:a5 bvnot", "8:5a"),
    # bits are words and truth values
    ("v0:1 v1:1 =", "v0:1 1:1 = v1:1 1:1 = xor not"),
    ("v0:1 1:1 =", "v0:1 1:1 ="),
    ("v0:1 1:0 =", "v0:1 1:1 = not"),
    ("v0:1 v1:1 = v1:1 v2:1 = xor", "v0:1 1:1 = v2:1 1:1 = xor"),
    ("v0:1 v1:1 bvcomp", "v0:1 v1:1 bvxor bvnot"),
    ("v0:1 v0:1 bvcomp", "1:1"),
    ("v1:8 v0:8 bvxor v2:8 bvcomp 1:1 bvxor", "v0:8 v1:8 bvxor v2:8 bvcomp bvnot"),
    ("v0:1 v1:1 bvxnor 1:1 = v3:bool xor", "v0:1 1:1 = v1:1 1:1 = xor v3:bool xor not"),
    # other operators are terms of a chain, over their arguments' terms
    ("v1:8 v0:8 bvxor v2:8 bvand v0:8 v1:8 bvxor v2:8 bvand bvxor", "8:0"),
    ("v1:bool v0:bool xor v2:bool and", "v0:bool v1:bool xor v2:bool and"),
    ("v0:8 v1:8 bvxor bvneg", "v0:8 v1:8 bvxor bvneg"),
    # 64 terms are a chain, and 65 aren't
    (f"{total('bvxor', 8, 63)} {back('bvxor', 8, 63)} bvxor", "8:0"),
    (f"{total('bvxor', 8, 64)} v0:8 bvxor", f"v0:8 {total('bvxor', 8, 64)} bvxor"),
]


# --- rows -------------------------------------------------------------------------------------------


def made_of(chosen, i):
    make = [random_term, random_known, random_chain, random_chain][i % 4]
    return make(chosen, chosen.choice(SORTS), chosen.randrange(1, 6))


def rows(chosen):
    yield "# exclusive or: the examples", None
    for text, made in EXAMPLES:
        yield f"pass xor {text}", made
    yield "", None
    yield "# shared terms, each joined with itself", None
    for op, t in [("bvxor", "v0:8"), ("bvxnor", "v0:8"), ("xor", "v0:bool"), ("=", "v0:bool"), ("bvand", "v0:8")]:
        yield pass_row("xor", xored, twice(op, t, 9))
    yield "", None
    yield "# terms without rows", None
    for text in ["pass xor v0:8 v1:8", "pass xor v0:8 v1:4 bvxor", "pass xor v0:8 v1:8 xor", "pass xors v0:8", "at xor | v0:8"]:
        yield text, "bad case"
    yield "", None
    yield "# random terms", None
    for i in range(400):
        yield pass_row("xor", xored, made_of(chosen, i))
    yield "", None
    yield "# and with values", None
    for i in range(120):
        yield at_row("xor", xored, chosen, at_point(made_of(chosen, i)))


def main():
    if "--show" in sys.argv:
        present(xored, EXAMPLES)
    elif "--check" in sys.argv:
        chosen = random.Random(1000)
        check(xored, EXAMPLES, (at_point(made_of(chosen, i)) for i in range(4000)), chosen)


if __name__ == "__main__":
    main()
