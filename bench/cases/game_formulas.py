"""Formulas of games, and the scripts that assert them.

Formulas are terms as in bench/cases/tree_cases.py has them. A script declares the constants up to the greatest index that occurs,
so that their indices are those of the formulas, and names the variable of level n `vn`.
"""
from tree_cases import app, bind, is_binder, is_named, leaf, named

# the sorts of the constants, which prenex_cases.py knows by these too
CONSTANTS = ["bool", 3, "bool", 8, 2, "bool"]

# --- formulas --------------------------------------------------------------------------------------


def every(level, sort, body):
    return bind("All", level, sort, body)


def some(level, sort, body):
    return bind("Ex", level, sort, body)


def var(level, sort):
    return leaf(f"v{level}:{sort}")


def lit(sort, number):
    return leaf(f"{sort}:{number:x}")


def no(t):
    return app("not", t)


def same(a, b):
    return app("=", a, b)


TRUE, FALSE = lit("bool", 1), lit("bool", 0)
A, C = leaf("c0:bool"), leaf("c2:bool")
B, E = leaf("c1:3"), leaf("c4:2")


def greatest(w):
    return some(0, w, every(1, w, app("bvuge", var(0, w), var(1, w))))


def below_zero(w):
    return every(0, w, some(1, w, app("bvult", var(1, w), var(0, w))))


def negation_of(w):
    return every(0, w, some(1, w, same(var(1, w), app("bvnot", var(0, w)))))


def three_levels(w):
    body = app("bvule", app("bvand", var(1, w), var(2, w)), var(0, w))
    return every(0, w, some(1, w, every(2, w, body)))


def factors(w):
    """Whether each number but 0 has a factor that gives 1, which only the odd ones have."""
    some_factor = some(1, w, same(app("bvmul", var(0, w), var(1, w)), lit(w, 1)))
    return every(0, w, app("or", same(var(0, w), lit(w, 0)), some_factor))


def pigeons(many, holes):
    """A hole for each pigeon, and none with two."""
    here = [[leaf(f"c{p * holes + h}:bool") for h in range(holes)] for p in range(many)]
    each = [joined("or", row) for row in here]
    apart = [no(app("and", here[p][h], here[q][h])) for h in range(holes) for p in range(many) for q in range(p)]
    return each + apart


def joined(op, terms):
    whole = terms[0]
    for t in terms[1:]:
        whole = app(op, whole, t)
    return whole


# --- formulas by chance ---------------------------------------------------------------------------

SORTS = ["bool", 1, 2, 3]


def joined_leaves(t):
    return set().union(*map(joined_leaves, t[1])) if t[1] else {t[0]}


def random_formula(chosen, prefix, depth):
    if depth == 0 or chosen.random() < 0.2:
        return random_atom(chosen, prefix)
    op = chosen.choice(["and", "or", "not", "=>", "xor", "=", "ite"])
    arity = {"not": 1, "ite": 3}.get(op, 2)
    return app(op, *(random_formula(chosen, prefix, depth - 1) for _ in range(arity)))


def random_atom(chosen, prefix):
    truths = [var(level, "bool") for _, level, sort in prefix if sort == "bool"]
    if truths and chosen.random() < 0.4:
        return chosen.choice(truths)
    w = chosen.choice([sort for _, _, sort in prefix if sort != "bool"] or [2])
    op = chosen.choice(["=", "bvult", "bvule", "bvslt", "bvsge"])
    return app(op, random_word(chosen, prefix, w, 2), random_word(chosen, prefix, w, 1))


def random_word(chosen, prefix, w, depth):
    if depth > 0 and chosen.random() < 0.5:
        op = chosen.choice(["bvadd", "bvand", "bvor", "bvxor", "bvmul", "bvsub", "bvnot", "bvneg", "bvshl", "bvudiv"])
        arity = 1 if op in ["bvnot", "bvneg"] else 2
        return app(op, *(random_word(chosen, prefix, w, depth - 1) for _ in range(arity)))
    names = [var(level, sort) for _, level, sort in prefix if sort == w]
    return chosen.choice(names * 3 + [lit(w, chosen.randrange(2**w))])


# --- scripts ---------------------------------------------------------------------------------------


def sort_text(sort):
    return "Bool" if sort == "bool" else f"(_ BitVec {sort})"


def name_text(t):
    letter, number, _ = named(t[0])
    return f"{letter}{number}"


def term_text(t):
    if is_binder(t):
        quantifier, level, sort = t[0].split(":")
        word = "forall" if quantifier == "All" else "exists"
        return f"({word} ((v{level} {sort_text(sort)})) {term_text(t[1][0])})"
    if is_named(t):
        return name_text(t)
    if not t[1]:
        sort, digits = t[0].split(":")
        value = int(digits, 16)
        return ["false", "true"][value] if sort == "bool" else f"(_ bv{value} {sort})"
    op, *indices = t[0].split(":")
    head = f"(_ {op} {' '.join(indices)})" if indices else op
    return f"({head} {' '.join(map(term_text, t[1]))})"


def constants_of(t):
    """The constants of a term, by index, with their sorts."""
    found = {named(t[0])[1]: named(t[0])[2]} if is_named(t) and t[0][0] == "c" else {}
    for a in t[1]:
        found |= constants_of(a)
    return found


def commands(formulas):
    """The commands of the script in which the formulas are checked."""
    sorts = {}
    for t in formulas:
        sorts |= constants_of(t)
    for index in range(max(sorts, default=-1) + 1):
        yield f"(declare-const c{index} {sort_text(sorts.get(index, 'bool'))})"
    yield from (f"(assert {term_text(t)})" for t in formulas)
    yield "(check-sat)"


def line_of(formulas):
    """The script in one line."""
    return "".join(commands(formulas))


def script(formulas):
    return "\n".join(["(set-logic BV)", *commands(formulas), ""])
