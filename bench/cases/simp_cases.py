#!/usr/bin/env python3
"""The cases of the pass of small rules, as written from their table in docs/REWRITES.md.
bench/cases/rewrite_cases.py writes them with its own.

    bench/cases/simp_cases.py --check    compares the examples, and values of random terms before and after
    bench/cases/simp_cases.py --show     prints what the examples become
    bench/cases/simp_cases.py --smt      writes scripts to the standard output, one a rule, which hold a rule's terms apart:
                                         any solver of bit-vectors answers unsat to each

Terms are written as in bench/cases/rewrite_cases.py. A row of the table is a pair of texts: a form, and what it
becomes. In them x stands for any word and p for any truth value of the sort that is tried, 0 for the literal of no bit,
* for that of all bits, and 1 for that of the lowest. As signed numbers - is the least, all bits but the highest are +, the greatest.
"""
import random
import sys

from pass_rows import at_row, check, pass_row, present, read, twice
from rewrite_cases import SORTS, at_point, literal, random_known, random_term, show, sort_of, value_of

TABLE = """
and p 0 > 0     and p * > p     or p 0 > p      or p * > *      xor p 0 > p     xor p * > not p
= p 0 > not p   = p * > p
bvand x 0 > 0   bvand x * > x   bvor x 0 > x    bvor x * > *    bvxor x 0 > x   bvxor x * > bvnot x
bvnand x 0 > *  bvnand x * > bvnot x            bvnor x 0 > bvnot x             bvnor x * > 0
bvxnor x 0 > bvnot x            bvxnor x * > x  bvadd x 0 > x   bvmul x 0 > 0   bvmul x 1 > x
"""

# the same with the arguments as they stand
ONE_WAY = """
=> 0 p > true   => * p > p      => p 0 > not p  => p * > true
bvsub x 0 > x   bvudiv x 0 > *  bvudiv x 1 > x  bvurem x 0 > x  bvurem x 1 > 0  bvurem 0 x > 0
bvshl x 0 > x   bvlshr x 0 > x  bvashr x 0 > x  bvshl 0 x > 0   bvlshr 0 x > 0
bvult x 0 > false               bvult x 1 > = x 0               bvult * x > false
bvule x 0 > = x 0               bvule x * > true                bvule 0 x > true                bvule * x > = x *
bvugt x * > false               bvugt 0 x > false               bvugt 1 x > = x 0
bvuge x 0 > true                bvuge x * > = x *               bvuge 0 x > = x 0               bvuge * x > true
bvslt x - > false               bvslt + x > false               bvsgt x + > false               bvsgt - x > false
bvsle x + > true                bvsle x - > = x -               bvsle - x > true                bvsle + x > = x +
bvsge x - > true                bvsge x + > = x +               bvsge + x > true                bvsge - x > = x -
"""

# a term and itself, and a term and its complement
TWINS = """
and p p > p     or p p > p      xor p p > 0     => p p > *      = x x > true
bvand x x > x   bvor x x > x    bvxor x x > 0   bvnand x x > bvnot x            bvnor x x > bvnot x
bvxnor x x > *  bvsub x x > 0   bvurem x x > 0
bvult x x > false               bvule x x > true                bvugt x x > false               bvuge x x > true
bvslt x x > false               bvsle x x > true                bvsgt x x > false               bvsge x x > true
"""

OPPOSITES = """
and p ~p > 0    or p ~p > *     xor p ~p > *    = x ~x > false
bvand x ~x > 0  bvor x ~x > *   bvxor x ~x > *  bvxnor x ~x > 0
"""


def table(text):
    """The rows of a text: an operator's two arguments, and what they become."""
    rows = {}
    for line in text.strip().splitlines():
        words = line.split()
        while words:
            op, a, b, _ = words[:4]
            more = {"not": 2, "bvnot": 2, "=": 3}.get(words[4], 1)
            rows[op, a, b] = words[4:4 + more]
            words = words[4 + more:]
    return rows


EITHER, WAY, SAME, OTHER = map(table, [TABLE, ONE_WAY, TWINS, OPPOSITES])


def number(sort, mark):
    w = 1 if sort == "bool" else sort
    return literal(sort, {"0": 0, "1": 1, "*": 2**w - 1, "-": 2**(w - 1), "+": 2**(w - 1) - 1}[mark])


def opposite(t):
    op = "not" if sort_of(t) == "bool" else "bvnot"
    return t[1][0] if not isinstance(t, str) and t[0] == op else (op, [t])


def is_opposite(a, b):
    return any(not isinstance(t, str) and t[0] in ["not", "bvnot"] and t[1][0] == u for t, u in [(a, b), (b, a)])


def right_side(words, t):
    """What a row makes of the term that x or p stands for."""
    if words[0] == "=":
        return "=", [t, number(sort_of(t), words[2])]
    if words[0] in ["not", "bvnot"]:
        return opposite(t)
    if words[0] in ["true", "false"]:
        return literal("bool", int(words[0] == "true"))
    return t if words[0] in "xp" else number(sort_of(t), words[0])


def marks(sort, t):
    """The marks of a literal, those that stand first in the table first."""
    return [mark for mark in "01*-+" if value_of(t) is not None and t == number(sort, mark)]


def beside(op, t, mark, rows, place):
    """The row of a term beside a literal, which stands at this place."""
    for name in "xp":
        if (name == "p") == (sort_of(t) == "bool"):
            key = (op, name, mark) if place else (op, mark, name)
            if key in rows:
                return rows[key]
            if rows is EITHER and (op, name, mark) in rows:
                return rows[op, name, mark]


def behind(op, t, n):
    """A shift by the width or more, and division by a power of two above 1."""
    w = sort_of(t)
    if op in ["bvshl", "bvlshr"] and n >= w:
        return literal(w, 0)
    if op == "bvashr" and n >= w:
        return op, [t, literal(w, w - 1)]
    k = n.bit_length() - 1
    if n == 2**k > 1 and op == "bvudiv":
        return "bvlshr", [t, literal(w, k)]
    if n == 2**k > 1 and op == "bvurem":
        return "bvand", [t, literal(w, n - 1)]


def of_two(op, a, b):
    if a == b:
        row = SAME.get((op, "x", "x")) or SAME.get((op, "p", "p"))
        return right_side(row, a) if row else None
    if is_opposite(a, b):
        row = OTHER.get((op, "x", "~x")) or OTHER.get((op, "p", "~p"))
        return right_side(row, a) if row else None
    for place, known, t in [(1, b, a), (0, a, b)]:
        if value_of(known) is None:
            continue
        row = behind(op, t, value_of(known)) if place else None
        if row:
            return row
        for mark in marks(sort_of(t), known):
            row = beside(op, t, mark, WAY, place) or beside(op, t, mark, EITHER, place)
            if row:
                return right_side(row, t)


def of_one(op, t):
    name, *number = op.split(":")
    if (name == "repeat" and number == ["1"]) or (name in ["zero_extend", "sign_extend"] and number == ["0"]):
        return t
    if name in ["rotate_left", "rotate_right"] and int(number[0]) % sort_of(t) == 0:
        return t
    if name == "extract" and number == [str(sort_of(t) - 1), "0"]:
        return t


def choice(c, a, b):
    if not isinstance(c, str) and c[0] == "not":
        return choice_by(c[1][0], b, a)
    return choice_by(c, a, b)


def choice_by(c, a, b):
    if c == "bool:1" or a == b:
        return a
    if c == "bool:0":
        return b
    if [a, b] == ["bool:1", "bool:0"]:
        return c
    return opposite(c) if [a, b] == ["bool:0", "bool:1"] else ("ite", [c, a, b])


def simped(t):
    if isinstance(t, str):
        return t
    op, args = t[0], [simped(a) for a in t[1]]
    if op == "ite":
        return choice(*args)
    made = of_one(op, *args) if len(args) == 1 else of_two(op, *args)
    return (op, args) if made is None else made


# --- random terms, in which the rules fit often -------------------------------------------------------


def random_small(chosen, sort, depth):
    if depth == 0 or chosen.random() < 0.1:
        w = 1 if sort == "bool" else sort
        if chosen.random() < 0.5:
            return literal(sort, chosen.choice([0, 0, 1, 2**w - 1, 2**w - 1, min(w, 2**w - 1), 2**(w - 1), 2**(w - 1) - 1, 2**chosen.randrange(w), chosen.randrange(2**w)]))
        return f"{chosen.choice('cv')}{chosen.randrange(2)}:{sort}"
    if chosen.random() < 0.15:
        c, a = random_small(chosen, "bool", depth - 1), random_small(chosen, sort, depth - 1)
        return "ite", [chosen.choice([c, ("not", [c])]), a, chosen.choice([a, random_small(chosen, sort, depth - 1)])]
    names = [*EITHER, *WAY, *SAME, *OTHER]
    truths = [op for op, a, b in names if "p" in a + b]
    words = [op for op, a, b in names if op.startswith("bv") and not compares(op)]
    compared = [op for op, a, b in names if compares(op) or op == "="]
    of = sort
    if sort == "bool" and chosen.random() < 0.5:
        op, of = chosen.choice(compared), chosen.choice(SORTS[1:])
    else:
        op = chosen.choice(truths if sort == "bool" else words)
    if sort != "bool" and chosen.random() < 0.1:
        one = chosen.choice(["bvnot", "repeat:1", "zero_extend:0", "sign_extend:0", f"extract:{sort - 1}:0", f"rotate_right:{chosen.choice([0, sort, 1, 2 * sort])}"])
        return one, [random_small(chosen, sort, depth - 1)]
    a = random_small(chosen, of, depth - 1)
    b = chosen.choice([a, (("not" if of == "bool" else "bvnot"), [a]), *[random_small(chosen, of, depth - 1)] * 4])
    return op, chosen.choice([[a, b], [b, a]])


def compares(op):
    return op[:3] in ["bvu", "bvs"] and op[3:] in ["lt", "le", "gt", "ge"]


# the terms of proofs/SimpsExample.antt, and what becomes of them
EXAMPLES = [
    # a literal beside a term
    ("v0:8 8:0 bvand", "8:0"), ("8:ff v0:8 bvand", "v0:8"), ("v0:8 8:0 bvor", "v0:8"), ("8:ff v0:8 bvor", "8:ff"),
    ("v0:8 8:ff bvxor", "v0:8 bvnot"), ("8:0 v0:8 bvxor", "v0:8"), ("v0:8 8:0 bvxnor", "v0:8 bvnot"),
    ("v0:8 8:f bvand", "v0:8 8:f bvand"), ("v0:8 8:ff bvnand", "v0:8 bvnot"), ("v0:8 8:ff bvnor", "8:0"),
    ("v0:bool bool:1 xor", "v0:bool not"), ("v0:bool bool:0 =", "v0:bool not"), ("v0:1 1:0 =", "v0:1 1:0 ="),
    ("bool:0 v0:bool =>", "bool:1"), ("v0:bool bool:0 =>", "v0:bool not"),
    # two negations behind one another go
    ("v0:bool not bool:1 xor", "v0:bool"), ("v0:8 bvnot 8:ff bvxor", "v0:8"),
    # shifts, division and remainder
    ("v0:8 8:0 bvshl", "v0:8"), ("v0:8 8:8 bvshl", "8:0"), ("v0:8 8:7 bvshl", "v0:8 8:7 bvshl"),
    ("v0:8 8:ff bvlshr", "8:0"), ("v0:8 8:0 bvashr", "v0:8"),
    ("8:0 v0:8 bvlshr", "8:0"), ("v0:8 8:1 bvudiv", "v0:8"), ("v0:8 8:0 bvudiv", "8:ff"),
    ("v0:8 8:1 bvurem", "8:0"), ("v0:8 8:0 bvurem", "v0:8"),
    # division and remainder by a power of two, and by what is beside one
    ("v0:8 8:2 bvudiv", "v0:8 8:1 bvlshr"), ("v0:8 8:40 bvudiv", "v0:8 8:6 bvlshr"),
    ("v0:8 8:80 bvudiv", "v0:8 8:7 bvlshr"),
    ("v0:128 128:80000000000000000000000000000000 bvudiv", "v0:128 128:7f bvlshr"),
    ("v0:8 8:3 bvudiv", "v0:8 8:3 bvudiv"), ("v0:8 8:3f bvudiv", "v0:8 8:3f bvudiv"),
    ("v0:8 8:41 bvudiv", "v0:8 8:41 bvudiv"), ("8:2 v0:8 bvudiv", "8:2 v0:8 bvudiv"), ("v0:1 1:1 bvudiv", "v0:1"),
    ("v0:1 1:0 bvudiv", "1:1"), ("v0:8 8:2 bvurem", "v0:8 8:1 bvand"), ("v0:8 8:10 bvurem", "v0:8 8:f bvand"),
    ("v0:8 8:80 bvurem", "v0:8 8:7f bvand"), ("v0:8 8:7f bvurem", "v0:8 8:7f bvurem"),
    ("v0:8 8:ff bvurem", "v0:8 8:ff bvurem"), ("8:10 v0:8 bvurem", "8:10 v0:8 bvurem"), ("v0:1 1:1 bvurem", "1:0"),
    # an arithmetic shift by the width or more
    ("v0:8 8:8 bvashr", "v0:8 8:7 bvashr"), ("v0:8 8:ff bvashr", "v0:8 8:7 bvashr"),
    ("v0:8 8:7 bvashr", "v0:8 8:7 bvashr"), ("8:8 v0:8 bvashr", "8:8 v0:8 bvashr"),
    ("v0:128 128:80 bvashr", "v0:128 128:7f bvashr"), ("v0:1 1:1 bvashr", "v0:1 1:0 bvashr"),
    ("v0:1 1:0 bvashr", "v0:1"),
    # comparisons with an end of the range
    ("v0:8 8:0 bvult", "bool:0"), ("v0:8 8:1 bvult", "v0:8 8:0 ="), ("v0:8 8:0 bvule", "v0:8 8:0 ="),
    ("8:ff v0:8 bvule", "v0:8 8:ff ="), ("8:1 v0:8 bvugt", "v0:8 8:0 ="), ("v0:8 8:ff bvuge", "v0:8 8:ff ="),
    ("8:0 v0:8 bvult", "8:0 v0:8 bvult"), ("v0:1 1:1 bvult", "v0:1 1:0 ="),
    # comparisons of signed numbers with the least and the greatest, and beside them
    ("v0:8 8:80 bvslt", "bool:0"), ("v0:8 8:7f bvslt", "v0:8 8:7f bvslt"), ("v0:8 8:81 bvslt", "v0:8 8:81 bvslt"),
    ("v0:8 8:7f bvsle", "bool:1"), ("v0:8 8:80 bvsle", "v0:8 8:80 ="), ("v0:8 8:7e bvsle", "v0:8 8:7e bvsle"),
    ("v0:8 8:7f bvsgt", "bool:0"), ("v0:8 8:80 bvsgt", "v0:8 8:80 bvsgt"), ("v0:8 8:80 bvsge", "bool:1"),
    ("v0:8 8:7f bvsge", "v0:8 8:7f ="), ("v0:8 8:81 bvsge", "v0:8 8:81 bvsge"), ("8:7f v0:8 bvslt", "bool:0"),
    ("8:80 v0:8 bvslt", "8:80 v0:8 bvslt"), ("8:80 v0:8 bvsle", "bool:1"), ("8:7f v0:8 bvsle", "v0:8 8:7f ="),
    ("8:ff v0:8 bvsle", "8:ff v0:8 bvsle"), ("8:80 v0:8 bvsgt", "bool:0"), ("8:7f v0:8 bvsgt", "8:7f v0:8 bvsgt"),
    ("8:7f v0:8 bvsge", "bool:1"), ("8:80 v0:8 bvsge", "v0:8 8:80 ="), ("8:0 v0:8 bvsge", "8:0 v0:8 bvsge"),
    # the same at one bit, where the least is 1 and the greatest 0
    ("v0:1 1:1 bvslt", "bool:0"), ("v0:1 1:0 bvslt", "v0:1 1:0 bvslt"), ("v0:1 1:0 bvsle", "bool:1"),
    ("v0:1 1:1 bvsle", "v0:1 1:1 ="), ("v0:1 1:0 bvsgt", "bool:0"), ("v0:1 1:1 bvsge", "bool:1"),
    ("v0:1 1:0 bvsge", "v0:1 1:0 ="), ("1:0 v0:1 bvslt", "bool:0"), ("1:1 v0:1 bvsle", "bool:1"),
    ("1:0 v0:1 bvsle", "v0:1 1:0 ="), ("1:1 v0:1 bvsgt", "bool:0"), ("1:0 v0:1 bvsge", "bool:1"),
    ("1:1 v0:1 bvsge", "v0:1 1:1 ="),
    # a term and itself, and a term and its complement
    ("v0:8 v0:8 bvxor", "8:0"), ("v0:8 v0:8 bvnand", "v0:8 bvnot"), ("v0:8 v0:8 bvsub", "8:0"),
    ("v0:8 v0:8 bvslt", "bool:0"), ("v0:bool v0:bool =>", "bool:1"), ("v0:8 v0:8 bvudiv", "v0:8 v0:8 bvudiv"),
    ("v0:8 v0:8 bvnot bvor", "8:ff"), ("v0:8 bvnot v0:8 =", "bool:0"), ("v0:bool not v0:bool and", "bool:0"),
    # choices
    ("v0:bool not v0:8 v1:8 ite", "v0:bool v1:8 v0:8 ite"), ("v0:bool bool:0 bool:1 ite", "v0:bool not"),
    ("v0:bool not bool:0 bool:1 ite", "v0:bool"), ("v0:bool v0:8 v0:8 ite", "v0:8"),
    # what a rule makes is met by the rules above it
    ("v0:8 8:ff bvule v0:bool and", "v0:bool"), ("v0:8 v0:8 bvxor v1:8 bvor", "v1:8"),
    ("v0:bool v0:8 8:0 bvuge v0:8 8:0 bvult ite", "v0:bool"),
    ("v0:bool v0:8 8:7f bvsle v0:8 8:7f bvsgt ite", "v0:bool"),
    ("v0:8 8:4 bvudiv 8:4 bvurem", "v0:8 8:2 bvlshr 8:3 bvand"),
]


# --- rows -------------------------------------------------------------------------------------------


def made_of(chosen, i):
    make = [random_term, random_known, random_small, random_small][i % 4]
    return make(chosen, chosen.choice(SORTS), chosen.randrange(1, 6))


def each_row():
    """Each operator of the tables beside each end of the range, at several sorts: of signed numbers at those without examples."""
    for rows in [EITHER, WAY, SAME, OTHER]:
        for op, a, b in rows:
            for sort in ["bool"] if "p" in a + b else [3, 128] if set("+-") & {a, b} else [1, 3, 8, 128]:
                t = f"v0:{sort}"
                sides = [t if side in "xp" else opposite(t) if side[0] == "~" else number(sort, side) for side in [a, b]]
                yield op, sides
                yield op, sides[::-1]


def rows(chosen):
    yield "# small rules: the examples", None
    for text, made in EXAMPLES:
        yield f"pass simp {text}", made
    yield "", None
    yield "# each row of the tables, both ways", None
    seen = set()
    for t in each_row():
        if repr(t) not in seen:
            seen.add(repr(t))
            yield pass_row("simp", simped, t)
    for t in [("repeat:1", ["v0:8"]), ("repeat:2", ["v0:8"]), ("zero_extend:0", ["v0:8"]), ("zero_extend:1", ["v0:8"]), ("sign_extend:0", ["v0:8"]),
              ("rotate_right:0", ["v0:8"]), ("rotate_right:16", ["v0:8"]), ("rotate_right:9", ["v0:8"]), ("rotate_left:8", ["v0:8"]),
              ("rotate_left:3", ["v0:8"]), ("extract:7:0", ["v0:8"]), ("extract:7:1", ["v0:8"]), ("extract:6:0", ["v0:8"]), ("extract:0:0", ["v0:1"])]:
        yield pass_row("simp", simped, t)
    yield "", None
    yield "# shared terms, each joined with itself", None
    for op, t in [("bvadd", "v0:8"), ("bvand", "v0:8"), ("bvnor", "v0:8"), ("=>", "v0:bool"), ("bvudiv", "v0:8")]:
        yield pass_row("simp", simped, twice(op, t, 9))
    yield "", None
    yield "# terms without rows", None
    for text in ["pass simp v0:8 v1:8", "pass simp v0:8 v1:4 bvxor", "pass simps v0:8", "at simp | v0:8"]:
        yield text, "bad case"
    yield "", None
    yield "# random terms", None
    for i in range(360):
        yield pass_row("simp", simped, made_of(chosen, i))
    yield "", None
    yield "# and with values", None
    for i in range(120):
        yield at_row("simp", simped, chosen, at_point(made_of(chosen, i)))


# --- the rules, for a solver -----------------------------------------------------------------------------


def smt(t, names):
    if isinstance(t, str):
        if t[0] in "cv":
            name = t.replace(":", "_")
            names[name] = "Bool" if t.endswith("bool") else f"(_ BitVec {t.split(':')[1]})"
            return name
        sort = sort_of(t)
        return str(bool(value_of(t))).lower() if sort == "bool" else f"(_ bv{value_of(t)} {sort})"
    op, *n = t[0].split(":")
    return f"({f'(_ {op} {n[0]})' if n else op} {' '.join(smt(a, names) for a in t[1])})"


def scripts():
    for t in [*each_row(), *[read(text) for text, _ in EXAMPLES]]:
        if simped(t) != t:
            names = {}
            sides = [smt(t, names), smt(simped(t), names)]
            yield "\n".join([*(f"(declare-const {name} {sort})" for name, sort in names.items()), f"(assert (distinct {' '.join(sides)}))", "(check-sat)"])


def main():
    if "--show" in sys.argv:
        present(simped, EXAMPLES)
    elif "--check" in sys.argv:
        chosen = random.Random(1000)
        check(simped, EXAMPLES, (at_point(made_of(chosen, i)) for i in range(6000)), chosen)
    elif "--smt" in sys.argv:
        print("\n(reset)\n".join(scripts()))


if __name__ == "__main__":
    main()
