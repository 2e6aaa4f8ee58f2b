"""Problems of the level game for bench/measure/game.sh: worked ones, and families of one to five blocks at widths from 4 to 32.

A problem is a name, its number of blocks, and formulas as bench/cases/tree_cases.py has them."""
import random

from game_formulas import every, lit, no, pigeons, random_formula, same, some, var
from tree_cases import app, bind

WIDTHS = [4, 8, 16, 32]

# --- worked problems -------------------------------------------------------------------------------


def worked():
    x, y, z = (lambda w: var(0, w)), (lambda w: var(1, w)), (lambda w: var(2, w))
    low = lambda t: app("extract:0:0", t)
    yield "division by zero", 0, [same(app("bvudiv", lit(8, 5), lit(8, 0)), lit(8, 255))]
    yield "not at 128", 2, [every(0, 128, some(1, 128, same(y(128), app("bvnot", x(128)))))]
    yield "greatest value", 2, [some(0, 8, every(1, 8, app("bvuge", x(8), y(8))))]
    yield "nothing below zero", 2, [every(0, 8, some(1, 8, app("bvult", y(8), x(8))))]
    body = app("bvule", app("bvand", y(4), z(4)), x(4))
    yield "three levels", 3, [every(0, 4, some(1, 4, every(2, 4, body)))]
    body = app("and", same(low(x(2)), lit(1, 1)), same(low(y(2)), lit(1, 0)))
    yield "siblings", 2, [every(0, 2, some(1, 2, body))]
    p, q = var(0, "bool"), var(1, "bool")
    yield "quantified equality", 2, [same(every(0, "bool", p), some(1, "bool", no(q)))]
    there = some(1, 4, same(y(4), lit(4, 3)))
    below = app("=>", there, app("bvule", x(4), lit(4, 15)))
    yield "macros and lets", 2, [every(0, 4, some(1, 4, no(same(y(4), x(4))))), app("and", there, every(0, 4, below))]
    yield "pigeons", 1, pigeons(5, 4)


# --- families --------------------------------------------------------------------------------------


def closed(prefix, width, body):
    """The body below a quantifier for each letter, A or E, of the prefix."""
    for level in reversed(range(len(prefix))):
        body = bind({"A": "All", "E": "Ex"}[prefix[level]], level, width, body)
    return body


def families(w):
    """Name, prefix and body: the letters are the quantifiers of v0, v1, .."""
    a, b, c, d, e = (var(level, w) for level in range(5))
    one, zero, top = lit(w, 1), lit(w, 0), lit(w, 2**w - 1)
    add, xor, conj, mul = (lambda op: lambda s, t: app(op, s, t))("bvadd"), *(
        (lambda op: lambda s, t: app(op, s, t))(op) for op in ["bvxor", "bvand", "bvmul"])
    below, at_most = (lambda s, t: app("bvult", s, t)), (lambda s, t: app("bvule", s, t))
    yield "sum of two", "EE", app("and", same(add(a, b), lit(w, 11)), below(add(a, a), b))
    yield "and plus or", "AA", same(add(conj(a, b), app("bvor", a, b)), add(a, b))
    yield "negation", "AE", same(b, app("bvnot", a))
    yield "difference", "AE", same(add(a, b), lit(w, 9))
    yield "three times", "AE", same(mul(b, lit(w, 3)), a)
    yield "halves", "AE", same(add(b, b), a)
    yield "something below", "AE", below(b, a)
    yield "something above or top", "AE", app("or", below(a, b), same(a, top))
    yield "greatest", "EA", app("bvuge", a, b)
    yield "least and odd", "EA", app("and", at_most(a, app("bvor", b, one)), same(conj(a, one), one))
    yield "bits between", "AEA", at_most(conj(b, c), a)
    yield "sum in the middle", "EAE", same(add(a, c), b)
    yield "product in the middle", "EAE", same(mul(a, c), b)
    yield "no bound", "AEA", app("or", at_most(c, b), below(a, b))
    yield "differing", "AEAE", same(add(b, d), xor(a, c))
    yield "masked", "EAEA", at_most(conj(c, d), app("bvor", a, b))
    yield "one step up", "AEAE", app("=>", below(a, c), app("and", below(a, d), at_most(d, c)))
    yield "chain of sums", "EAEAE", same(e, add(xor(a, b), xor(c, d)))
    yield "sum hit", "AEAEA", no(same(add(add(b, d), e), a))
    yield "two masks", "AEAEA", app("and", at_most(conj(b, e), a), at_most(conj(d, e), c))


def chance(w, blocks, number):
    """A formula by chance with so many blocks, each with one place."""
    chosen = random.Random(f"{w} {blocks} {number}")
    first = chosen.randrange(2)
    prefix = [("AE"[(first + level) % 2], level, w) for level in range(blocks)]
    while True:
        body = random_formula(chosen, prefix, 3)
        if all(f"v{level}:{w}" in leaves(body) for level in range(blocks)):
            return closed([letter for letter, _, _ in prefix], w, body)


def leaves(t):
    return set().union(*map(leaves, t[1])) if t[1] else {t[0]}


def generated(widths=WIDTHS, by_chance=4):
    for w in widths:
        for name, prefix, body in families(w):
            blocks = sum(x != y for x, y in zip(" " + prefix, prefix))
            yield f"{name} {w}", blocks, [closed(prefix, w, body)]
        for blocks in range(1, 6):
            for number in range(by_chance):
                yield f"by chance {w}.{blocks}.{number}", blocks, [chance(w, blocks, number)]
