#!/usr/bin/env python3
"""The cases of the pass of sums, as written from its rules: terms as sums of products modulo 2^w.
bench/cases/rewrite_cases.py writes them with its own.

    bench/cases/sum_cases.py --check    compares the examples, and values of random terms before and after
    bench/cases/sum_cases.py --show     prints what the examples become

Terms are written as in bench/cases/rewrite_cases.py. A sum is a dictionary from the texts of its factors, sorted,
to a pair of its coefficient and the factors as they first came.
"""
import random
import sys

from pass_rows import at_row, check, pass_row, present, twice
from rewrite_cases import SORTS, at_point, literal, random_known, random_term, show, sort_of, value_of

MOST_RAW, MOST_MONOMIALS, MOST_FACTORS = 48, 24, 4


def key(factors):
    return tuple(sorted(map(repr, factors)))


def collect(w, raw):
    """Like monomials put together, each where it first came."""
    made = {}
    for c, factors in raw:
        k = key(factors)
        was, first = made.get(k, (0, factors))
        c = (was + c) % 2**w
        if c:
            made[k] = c, first
        else:
            made.pop(k, None)
    return list(made.values())


def bits(t):
    of = sort_of(t)
    return 1 if of == "bool" else of


def place(t):
    """Constants by index, variables by level, all else behind them."""
    if isinstance(t, str) and t[0] in "cv":
        return "cv".index(t[0]), int(t[1:].split(":")[0])
    return 2, 0


def monomial_place(m):
    return [place(f) for f in m[1]] + [(3, 0)]


def from_left(op, none, terms):
    if not terms:
        return none
    made = terms[0]
    for t in terms[1:]:
        made = op, [made, t]
    return made


def product_term(w, c, factors):
    if not factors:
        return literal(w, c)
    made = from_left("bvmul", None, factors)
    return made if c == 1 else ("bvmul", [made, literal(w, c)])


def sum_term(w, p):
    return from_left("bvadd", literal(w, 0), [product_term(w, c, factors) for c, factors in p])


def in_order(p):
    return sorted(((c, sorted(factors, key=place)) for c, factors in p), key=monomial_place)


def sides(w, p):
    """What is added and what is subtracted."""
    minus = [bin(2**w - c).count("1") < bin(c).count("1") for c, _ in p]
    return [m for m, less in zip(p, minus) if not less], [(2**w - c, f) for (c, f), less in zip(p, minus) if less]


def opposite_term(w, p):
    if p[-1] == (1, []):
        return "bvnot", [sum_term(w, p[:-1])]
    return "bvneg", [sum_term(w, p)]


def term(w, p):
    if all(not factors for _, factors in p):
        return literal(w, p[0][0] if p else 0)
    plus, less = sides(w, in_order(p))
    if not less:
        return sum_term(w, plus)
    if not plus:
        return opposite_term(w, less)
    return "bvsub", [sum_term(w, plus), sum_term(w, less)]


def equation(w, p):
    if all(not factors for _, factors in p):
        return "bool:0" if p else "bool:1"
    if all(c % 2 == (not factors) for c, factors in p) and not all(factors for _, factors in p):
        return "bool:0"
    p = in_order(p)
    plus, less = sides(w, p)
    turned = sides(w, p[:1])[1]
    left, right = (less, plus) if turned else (plus, less)
    return "=", [sum_term(w, left), sum_term(w, right)]


def opposite(p):
    return [(-c, factors) for c, factors in p]


def raw_of(op, w, ps):
    if op == "bvadd":
        return ps[0] + ps[1]
    if op == "bvsub":
        return ps[0] + opposite(ps[1])
    if op == "bvneg":
        return opposite(ps[0])
    if op == "bvnot":
        return opposite(ps[0] + [(1, [])])
    if op == "bvmul":
        return [(c * d, f + g) for c, f in ps[0] for d, g in ps[1]]
    if op == "bvshl" and all(not f for _, f in ps[1]):
        k = ps[1][0][0] if ps[1] else 0
        if k < w:
            return [(c * 2**k, f) for c, f in ps[0]]


def polynomial(t):
    if isinstance(t, str):
        if t[0] in "cv" or sort_of(t) == "bool":
            return [(1, [t])]
        return collect(sort_of(t), [(value_of(t), [])])
    op, args = t
    ps = [polynomial(a) for a in args]
    w = bits(t)
    raw = raw_of(op, w, ps)
    if raw is not None and len(raw) <= MOST_RAW:
        p = collect(w, raw)
        if len(p) <= MOST_MONOMIALS and all(len(f) <= MOST_FACTORS for _, f in p):
            return p
    if op == "=" and sort_of(args[0]) != "bool":
        n = bits(args[0])
        return [(1, [equation(n, collect(n, ps[0] + opposite(ps[1])))])]
    return [(1, [(op, [term(bits(a), p) for a, p in zip(args, ps)])])]


def summed(t):
    return term(bits(t), polynomial(t))


# --- random terms, in which sums and products come often ----------------------------------------------


def random_sum(chosen, sort, depth):
    if sort == "bool":
        w = chosen.choice([1, 3, 8, 128])
        a, b = random_sum(chosen, w, depth), random_sum(chosen, w, depth)
        return chosen.choice([("=", [a, b]), ("=", [a, a]), ("bvult", [a, b]), ("not", [("=", [a, b])])])
    if depth == 0 or chosen.random() < 0.1:
        if chosen.random() < 0.4:
            return literal(sort, chosen.choice([0, 1, 2, 2**sort - 1, chosen.randrange(2**sort)]) % 2**sort)
        return f"{chosen.choice('cv')}{chosen.randrange(2)}:{sort}"
    a, b = random_sum(chosen, sort, depth - 1), random_sum(chosen, sort, depth - 1)
    op = chosen.choice(["bvadd", "bvadd", "bvsub", "bvmul", "bvmul", "bvneg", "bvnot", "bvshl", "bvand"])
    if op in ["bvneg", "bvnot"]:
        return op, [a]
    if op == "bvshl" and chosen.random() < 0.7:
        b = literal(sort, chosen.randrange(min(2**sort, sort + 2)))
    return op, [a, b]


FOURTH, SQUARE = "v0:8 v0:8 bvmul v0:8 bvmul v0:8 bvmul", "v0:8 v0:8 bvmul"


def total(k):
    return "v0:8" if k == 0 else f"{total(k - 1)} v{k}:8 bvadd"


# the terms of proofs/SumsExample.antt, and what becomes of them
EXAMPLES = [
    ("v0:8 v1:8 v2:8 bvadd bvmul v0:8 v1:8 bvmul v0:8 v2:8 bvmul bvadd =", "bool:1"),
    ("v0:8 v1:8 bvmul v2:8 bvmul v2:8 v1:8 v0:8 bvmul bvmul =", "bool:1"),
    ("v0:8 v1:8 bvadd v2:8 bvadd v2:8 v1:8 v0:8 bvadd bvadd =", "bool:1"),
    ("v1:8 v0:8 bvmul", "v0:8 v1:8 bvmul"),
    ("v2:8 v1:8 bvadd v0:8 bvadd", "v0:8 v1:8 bvadd v2:8 bvadd"),
    ("v1:8 v0:8 bvadd v0:8 v1:8 bvadd bvult", "v0:8 v1:8 bvadd v0:8 v1:8 bvadd bvult"),
    ("8:1 c5:8 bvadd", "c5:8 8:1 bvadd"),
    ("v0:8 c5:8 bvadd", "c5:8 v0:8 bvadd"),
    ("v0:8 v0:8 bvsub", "8:0"),
    ("v0:8 bvneg v1:8 bvneg bvmul", "v0:8 v1:8 bvmul"),
    ("v0:8 8:fc bvmul", "v0:8 8:4 bvmul bvneg"),
    ("v0:8 8:f8 bvmul 8:1 bvadd", "8:1 v0:8 8:8 bvmul bvsub"),
    ("v0:8 8:3 bvshl v0:8 bvadd", "v0:8 8:9 bvmul"),
    ("v0:8 8:80 bvmul", "v0:8 8:80 bvmul"),
    ("8:ff", "8:ff"),
    ("v0:8 bvnot", "v0:8 bvnot"),
    ("v0:8 bvneg bvnot", "v0:8 8:1 bvsub"),
    ("v0:8 v1:8 bvsub bvnot", "v1:8 v0:8 8:1 bvadd bvsub"),
    ("v0:8 bvnot bvneg", "v0:8 8:1 bvadd"),
    ("v0:8 8:8 bvshl", "v0:8 8:8 bvshl"),
    ("v0:8 v1:8 bvshl", "v0:8 v1:8 bvshl"),
    ("v0:8 8:2 bvmul 8:1 bvadd v1:8 8:4 bvmul =", "bool:0"),
    ("v0:8 8:2 bvadd v0:8 =", "bool:0"),
    ("v0:8 8:1 bvsub v1:8 =", "v0:8 v1:8 8:1 bvadd ="),
    ("v1:8 v0:8 =", "v0:8 v1:8 ="),
    ("v0:8 8:2 bvmul v1:8 8:4 bvmul =", "v0:8 8:2 bvmul v1:8 8:4 bvmul ="),
    ("v3:bool v3:bool =", "v3:bool v3:bool ="),
    ("v0:8 v1:8 bvadd v1:8 v2:8 bvadd = not", "v0:8 v2:8 = not"),
    ("v1:8 v0:8 bvadd v2:8 bvand v0:8 v1:8 bvadd v2:8 bvand bvadd", "v0:8 v1:8 bvadd v2:8 bvand 8:2 bvmul"),
    ("v0:8 v1:8 bvand v2:8 bvmul", "v2:8 v0:8 v1:8 bvand bvmul"),
    (f"{FOURTH} {SQUARE} {SQUARE} bvmul =", "bool:1"),
    (f"{FOURTH} v0:8 bvmul v0:8 {FOURTH} bvmul =", f"{FOURTH} v0:8 bvmul v0:8 {FOURTH} bvmul ="),
    (f"{total(23)} {total(23)} bvsub", "8:0"),
    (f"{total(24)} v0:8 bvsub", f"{total(24)} v0:8 bvsub"),
]


# --- rows -------------------------------------------------------------------------------------------


def made_of(chosen, i):
    make = [random_term, random_known, random_sum, random_sum][i % 4]
    return make(chosen, chosen.choice(SORTS), chosen.randrange(1, 5))


def rows(chosen):
    yield "# the examples", None
    for text, made in EXAMPLES:
        yield f"pass sum {text}", made
    yield "", None
    yield "# shared terms, each joined with itself: products stay below 4 factors, and powers of two of them are 0", None
    for t in [twice("bvadd", "v0:8", 9), twice("bvmul", "v0:8", 4), twice("bvadd", ("bvadd", ["v0:8", "v1:8"]), 6)]:
        yield pass_row("sum", summed, t)
    yield "", None
    yield "# terms without rows", None
    for text in ["pass sum v0:8 v1:8", "pass sum v0:8 v1:4 bvadd", "pass sum bvadd", "pass sums v0:8", "at sum | v0:8"]:
        yield text, "bad case"
    yield "", None
    yield "# random terms", None
    for i in range(400):
        yield pass_row("sum", summed, made_of(chosen, i))
    yield "", None
    yield "# and with values", None
    for i in range(120):
        yield at_row("sum", summed, chosen, at_point(made_of(chosen, i)))


def main():
    if "--show" in sys.argv:
        present(summed, EXAMPLES)
    elif "--check" in sys.argv:
        chosen = random.Random(1000)
        check(summed, EXAMPLES, (at_point(made_of(chosen, i)) for i in range(2000)), chosen)


if __name__ == "__main__":
    main()
