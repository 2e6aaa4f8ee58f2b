#!/usr/bin/env python3
"""Writes the cases of crates/qv_rewrite_cases (stdin) and what must come (stdout).

    bench/cases/prenex_cases.py             writes both files
    bench/cases/prenex_cases.py --check     compares the truth of problems with that of the formulas, for
                                      those with few values

A case is the sorts of the constants, by index, and asserted formulas, with a semicolon between them.
Terms are written as in bench/cases/tree_cases.py. The prenex form is made here tree by tree, from the rules
and not from the code: each visit of a quantifier makes an object of its own, and numbers are given at
the end.
"""
import random
import sys
import threading
from itertools import product

from rows import write_part
from tree_cases import app, bind, is_binder, is_named, is_quantified, leaf, named, show, sort_of
from word_cases import apply

LIMIT = 4096

# the sorts of the constants and of the levels, which stay the same throughout
CONSTANTS = ["bool", 3, "bool", 8, 2, "bool"]
LEVELS = ["bool", 3, "bool", 8, 2]

# --- the form of a formula: blocks of variables, and a matrix over them ----------------------------


class Variable:
    """A variable of a form; its place is known at the end."""

    def __init__(self, sort):
        self.sort = sort
        self.place = None


def with_variables(t, env):
    """A term without quantifiers, with what the levels stand for."""
    if is_named(t) and t[0][0] == "v":
        return env[named(t[0])[1]]
    if not t[1]:
        return t
    return t[0], tuple(with_variables(a, env) for a in t[1])


def first_choice(t):
    """The first choice between bit-vectors with a quantified condition, in pre-order, below no quantifier."""
    if is_binder(t):
        return None
    if t[0] == "ite" and sort_of(t) != "bool" and is_quantified(t[1][0]):
        return t
    return next((c for a in t[1] if (c := first_choice(a)) is not None), None)


def put_for(t, choice, put):
    if t == choice:
        return put
    if is_binder(t) or not t[1]:
        return t
    return t[0], tuple(put_for(a, choice, put) for a in t[1])


def joined(op, a, b):
    blocks = []
    for i in range(max(len(a[0]), len(b[0]))):
        blocks.append((a[0][i] if i < len(a[0]) else []) + (b[0][i] if i < len(b[0]) else []))
    return blocks, (op, (a[1], b[1]))


def crossed(a, b, c, d):
    return joined("or", joined("and", a, b), joined("and", c, d))


def form(t, plus, env):
    if not is_quantified(t):
        matrix = with_variables(t, env)
        return [], matrix if plus else ("not", (matrix,))
    if is_binder(t):
        quantifier, level, sort = t[0].split(":")
        variable = Variable(sort if sort == "bool" else int(sort))
        blocks, matrix = form(t[1][0], plus, {**env, int(level): variable})
        if (quantifier == "Ex") == plus:
            blocks = [[variable] + (blocks[0] if blocks else [])] + blocks[1:]
        elif not blocks or not blocks[0]:
            blocks = [[], [variable] + (blocks[1] if len(blocks) > 1 else [])] + blocks[2:]
        else:
            blocks = [[], [variable]] + blocks
        return blocks, matrix
    op, args = t
    if op == "not":
        return form(args[0], not plus, env)
    if op in ["and", "or"]:
        return joined("and" if (op == "and") == plus else "or", form(args[0], plus, env), form(args[1], plus, env))
    if op == "=>":
        return form(("or", (("not", (args[0],)), args[1])), plus, env)
    if op == "xor" or op == "=" and sort_of(args[0]) == "bool":
        alike = (op == "=") == plus
        a, b = args
        return crossed(form(a, True, env), form(b, alike, env), form(a, False, env), form(b, not alike, env))
    if op == "ite" and sort_of(t) == "bool":
        c, a, b = args
        return crossed(form(c, True, env), form(a, plus, env), form(c, False, env), form(b, plus, env))
    choice = first_choice(t)
    c, a, b = choice[1]
    return form(("ite", (c, put_for(t, choice, a), put_for(t, choice, b))), plus, env)


# --- problems --------------------------------------------------------------------------------------


def conjunction(formulas):
    if not formulas:
        return leaf("bool:1")
    t = formulas[0]
    for u in formulas[1:]:
        t = app("and", t, u)
    return t


def constants_of(t, found):
    if is_named(t) and t[0][0] == "c":
        found.add(named(t[0])[1])
    for a in t[1]:
        constants_of(a, found)


def problem(formulas):
    """The places, each a player and a sort, the indices of the constants, and the matrix."""
    found = set()
    for t in formulas:
        constants_of(t, found)
    constants = sorted(found)
    blocks, matrix = form(conjunction(formulas), True, {})
    places = [("Exists", CONSTANTS[i]) for i in constants]
    for number, block in enumerate(blocks):
        for variable in block:
            variable.place = len(places)
            places.append((["Exists", "Forall"][number % 2], variable.sort))
    at = {i: n for n, i in enumerate(constants)}

    def placed(t):
        if isinstance(t, Variable):
            return leaf(f"v{t.place}:{t.sort}")
        if is_named(t):
            return leaf(f"v{at[named(t[0])[1]]}:{named(t[0])[2]}")
        return t[0], tuple(map(placed, t[1]))

    return places, constants, placed(matrix)


def answer(formulas):
    places, constants, matrix = problem(formulas)
    if len(places) > LIMIT:
        return "prefix limit"
    prefix = "".join(f"{player}:{sort} " for player, sort in places)
    return f"{prefix}/{''.join(f'{i} ' for i in constants)}/ {show(matrix)}"


# --- what formulas and problems mean ---------------------------------------------------------------


def values(sort):
    return range(2 if sort == "bool" else 2**sort)


def value(t, constants, levels):
    if is_binder(t):
        quantifier, level, sort = t[0].split(":")
        every = quantifier == "All"
        held = (value(t[1][0], constants, {**levels, int(level): v}) for v in values(sort if sort == "bool" else int(sort)))
        return int(all(held) if every else any(held))
    if is_named(t):
        letter, number, _ = named(t[0])
        return (constants if letter == "c" else levels)[number]
    if not t[1]:
        return int(t[0].split(":")[1], 16)
    return apply(t[0], [(sort_of(a), value(a, constants, levels)) for a in t[1]])[1]


def holds(places, matrix, levels=(), start=0):
    """Whether the matrix means 1, closed by the places behind those that have values."""
    at = len(levels)
    if at == len(places):
        return value(matrix, {}, dict(enumerate(levels))) == 1
    player, sort = places[at]
    results = (holds(places, matrix, levels + (v,)) for v in values(sort))
    return any(results) if player == "Exists" else all(results)


def agree(formulas):
    """Whether under all values of the constants the problem holds exactly where the formulas do."""
    places, constants, matrix = problem(formulas)
    for chosen in product(*(values(CONSTANTS[i]) for i in constants)):
        under = dict(zip(constants, chosen))
        if holds(places, matrix, chosen) != all(value(t, under, {}) == 1 for t in formulas):
            return False
    return True


def cost(places):
    size = 1
    for _, sort in places:
        size *= len(values(sort))
    return size


# --- the cases -------------------------------------------------------------------------------------

LINES = []
POSED = []


def note(text):
    LINES.extend([("", None)] if LINES else [])
    LINES.append((f"# {text}", None))


def line_of(formulas, texts=None):
    sorts = " ".join(map(str, CONSTANTS))
    return f"prenex {sorts}/{';'.join(texts or map(show, formulas))}"


def posed(*formulas):
    POSED.append(list(formulas))
    LINES.append((line_of(formulas), answer(list(formulas))))


P, X, Q, Y, Z = (leaf(f"v{level}:{sort}") for level, sort in enumerate(LEVELS))
A, B, C, D, E, F = (leaf(f"c{index}:{sort}") for index, sort in enumerate(CONSTANTS))
TRUE, FALSE = leaf("bool:1"), leaf("bool:0")


def every(level, body):
    return bind("All", level, LEVELS[level], body)


def some(level, body):
    return bind("Ex", level, LEVELS[level], body)


def no(t):
    return app("not", t)


def choice(c, a, b):
    return app("ite", c, a, b)


def same(a, b):
    return app("=", a, b)


SMALL = [every(0, P), some(0, P), every(1, same(X, B)), some(1, same(X, B)), A, no(C)]


def joins(a, b):
    return [app(op, a, b) for op in ["and", "or", "=>", "xor", "="]] + [choice(A, a, b), choice(a, b, C), choice(a, A, b)]


def chosen_cases():
    note("no formulas, formulas without quantifiers, and several")
    posed()
    posed(TRUE)
    posed(A)
    posed(no(A))
    posed(same(B, leaf("3:5")), A, no(C))
    posed(app("bvult", D, D), same(E, leaf("2:1")))
    note("one quantifier, under each sign")
    for t in SMALL[:4]:
        posed(t)
        posed(no(t))
        posed(no(no(t)))
    note("each rule under each sign, with quantifiers on either side and on both")
    for a in SMALL:
        for b in SMALL:
            if is_quantified(a) or is_quantified(b):
                for t in joins(a, b):
                    posed(t)
                    posed(no(t))
    note("alternations: a universal variable before blocks that begin empty, and before others")
    for outer in [every, some]:
        for middle in [every, some]:
            for inner in [every, some]:
                t = outer(0, middle(2, inner(4, app("and", app("or", P, Q), same(Z, E)))))
                posed(t)
                posed(no(t))
                posed(app("and", t, some(0, P)))
                posed(every(1, app("or", same(X, B), t)))
    note("a level that is bound twice on a path, and one that is bound again beside it")
    posed(every(0, app("and", P, some(0, P))))
    posed(every(0, app("or", some(0, P), P)))
    posed(some(0, every(0, some(0, P))))
    posed(every(0, app("=", some(0, P), P)))
    posed(every(1, app("and", same(X, B), app("or", some(1, same(X, B)), same(X, leaf("3:0"))))))
    posed(every(0, some(2, app("=", every(0, app("or", P, Q)), app("and", P, Q)))))
    note("a level that is used below no quantifier of its own twice, and shared terms")
    t = every(0, some(2, app("xor", P, Q)))
    posed(app("and", t, t))
    posed(app("or", t, no(t)))
    posed(t, t, no(t))
    u = app("and", app("or", A, C), same(B, leaf("3:1")))
    posed(app("or", app("and", u, t), app("and", u, no(t))))
    posed(every(0, app("and", app("or", P, u), some(0, app("or", P, u)))))
    note("choices of bit-vectors with quantified conditions")
    s = some(1, same(X, B))
    posed(same(choice(s, B, leaf("3:2")), B))
    posed(no(same(choice(s, B, leaf("3:2")), B)))
    posed(app("bvult", choice(every(0, P), B, leaf("3:2")), choice(s, leaf("3:1"), B)))
    posed(app("bvult", choice(s, B, leaf("3:2")), choice(s, B, leaf("3:2"))))
    posed(same(choice(s, choice(every(0, P), B, leaf("3:2")), leaf("3:4")), B))
    posed(same(choice(app("and", A, same(choice(s, B, leaf("3:1")), B)), B, leaf("3:6")), leaf("3:1")))
    posed(app("bvult", choice(A, B, leaf("3:2")), choice(s, leaf("3:1"), B)))
    posed(every(1, same(choice(some(0, app("and", P, same(X, B))), X, leaf("3:2")), B)))
    posed(app("and", app("bvult", B, choice(every(0, P), B, leaf("3:2"))), some(0, P)))
    posed(app("bvnego", choice(every(0, P), D, leaf("8:80"))))
    posed(same(app("bvadd", choice(s, B, leaf("3:1")), app("bvmul", choice(s, B, leaf("3:1")), choice(A, B, leaf("3:3")))), B))
    posed(choice(some(1, same(choice(every(0, P), X, leaf("3:2")), B)), A, C))
    note("constants below quantifiers, met in another order than that of their indices")
    posed(every(0, app("or", P, F)), some(1, same(X, B)), A)
    posed(some(3, app("and", same(Y, D), app("or", F, C))), A)
    note("the form of an equation")
    posed(app("=", every(0, P), every(2, Q)))


def random_formula(chosen, bound, depth):
    if depth == 0:
        return random_atom(chosen, bound, 1)
    roll = chosen.random()
    if roll < 0.3:
        level = chosen.randrange(len(LEVELS))
        return chosen.choice([every, some])(level, random_formula(chosen, bound | {level}, depth - 1))
    if roll < 0.36:
        return random_atom(chosen, bound, depth)
    op = chosen.choice(["and", "or", "not", "=>", "xor", "=", "ite", "and", "or", "not"])

    def part():
        return random_formula(chosen, bound, depth - 1)

    if op == "not":
        return no(part())
    if op == "ite":
        return choice(part(), part(), part())
    return app(op, part(), part())


def random_atom(chosen, bound, depth):
    roll = chosen.random()
    if roll < 0.4:
        return chosen.choice([A, C, F, TRUE, FALSE] + [t for level, t in [(0, P), (2, Q)] if level in bound] * 4)
    a, b = random_word(chosen, bound, depth), random_word(chosen, bound, depth)
    return app(chosen.choice(["=", "bvult", "bvsle"]), a, b)


def random_word(chosen, bound, depth):
    roll = chosen.random()
    if depth > 0 and roll < 0.2:
        c = random_formula(chosen, bound, depth - 1)
        return choice(c, random_word(chosen, bound, 0), random_word(chosen, bound, 0))
    if depth > 0 and roll < 0.35:
        return app("bvadd", random_word(chosen, bound, depth - 1), random_word(chosen, bound, depth - 1))
    return chosen.choice([B, leaf(f"3:{chosen.randrange(8)}")] + [X] * (4 if 1 in bound else 0))


def random_cases(chosen, count):
    note("formulas by chance")
    done = 0
    while done < count:
        formulas = [random_formula(chosen, frozenset(), chosen.randrange(1, 5)) for _ in range(chosen.choice([1, 1, 1, 2, 3]))]
        places = problem(formulas)[0]
        if not any(map(is_quantified, formulas)) or len(places) > 40 or sum(map(len, map(show, formulas))) > 1200:
            continue
        posed(*formulas)
        done += 1


def shared_cases():
    note("terms that share a part above an `ite` that is split, under either sign, in its sides and in its condition")
    s, t = some(1, same(X, B)), every(1, same(X, leaf("3:1")))
    one = choice(s, B, leaf("3:2"))
    two = app("bvadd", app("bvadd", one, leaf("3:1")), B)
    posed(same(two, B), same(two, leaf("3:3")))
    posed(same(two, B), no(same(two, leaf("3:3"))), app("bvult", app("bvmul", two, B), two))
    posed(app("xor", same(two, B), same(app("bvmul", two, two), leaf("3:3"))))
    posed(app("or", same(two, one), app("bvult", app("bvneg", one), two)))
    other = choice(t, two, app("bvadd", two, leaf("3:1")))
    posed(same(other, B), same(app("bvmul", other, two), one))
    posed(same(choice(t, leaf("3:5"), one), two), app("bvult", two, choice(t, one, leaf("3:5"))))
    posed(same(choice(same(two, B), two, B), leaf("3:3")), same(two, leaf("3:6")))
    posed(same(choice(s, one, one), two), no(same(choice(s, two, B), B)))
    posed(same(choice(s, B, B), two), same(app("bvadd", choice(s, B, B), two), B))
    posed(same(choice(s, leaf("3:2"), B), two), same(app("bvadd", two, choice(s, leaf("3:2"), B)), B))
    posed(every(1, app("and", same(app("bvadd", choice(some(0, app("and", P, same(X, B))), X, B), X), two), same(two, X))))
    posed(every(1, same(app("bvadd", X, two), B)), some(1, app("bvult", app("bvadd", X, two), two)))
    posed(same(two, B), some(0, app("and", P, same(app("bvadd", two, leaf("3:1")), B))), same(app("bvadd", two, leaf("3:1")), leaf("3:4")))


def random_shared_cases(chosen, count):
    note("words by chance of which several stand in each other, and comparisons of them")
    done = 0
    while done < count:
        words = [B, leaf(f"3:{chosen.randrange(8)}")]
        for _ in range(chosen.randrange(3, 8)):
            a, b = chosen.choice(words[-3:]), chosen.choice(words)
            if chosen.random() < 0.4:
                words.append(choice(chosen.choice(SMALL[:4] + [some(1, same(X, leaf("3:4"))), same(a, b)]), a, b))
            else:
                words.append(app(chosen.choice(["bvadd", "bvmul", "bvxor"]), a, b))
        pairs = [(chosen.choice(words[-3:]), chosen.choice(words)) for _ in range(chosen.randrange(2, 5))]
        formulas = [app(chosen.choice(["=", "bvult"]), a, b) for a, b in pairs]
        formulas = [no(t) if chosen.random() < 0.3 else t for t in formulas]
        if sum(map(is_quantified, formulas)) < 2 or sum(map(len, map(show, formulas))) > 1200:
            continue
        if len(problem(formulas)[0]) > 24 or len(answer(formulas)) > 2400:
            continue
        posed(*formulas)
        done += 1


def large_cases():
    note("4,096 and 4,097 quantifiers, in turn and of one kind; the answer of a large problem is how many places and blocks it has")

    def chain(count, names):
        binders = [f"{names[n % len(names)]}:{n % 8}:bool" for n in range(count)]
        return f"v5:bool {' '.join(binders)}"

    for names, blocks in [(["All", "Ex"], 4096), (["All"], 1)]:
        LINES.append((f"count /{chain(4096, names)}", f"4096 {blocks}"))
        LINES.append((f"count /{chain(4097, names)}", "prefix limit"))
    note("4,096 and 4,097 constants in one balanced `and`")

    def balanced(first, end):
        if end - first == 1:
            return f"c{first}:bool"
        middle = (first + end) // 2
        return f"{balanced(first, middle)} {balanced(middle, end)} and"

    for count, text in [(4096, "4096 1"), (4097, "prefix limit")]:
        LINES.append((f"count {' '.join(['bool'] * count)}/{balanced(0, count)}", text))
    note("4,095 constants and two quantifiers, and one")
    sorts = " ".join(["bool"] * 4095)
    LINES.append((f"count {sorts}/{balanced(0, 4095)};v0:bool Ex:0:bool", "4096 1"))
    LINES.append((f"count {sorts}/{balanced(0, 4095)};v0:bool Ex:0:bool;v0:bool All:0:bool", "prefix limit"))
    note("nested equations of a formula with itself: each has four times the variables, and 40 of them are refused at once")
    for depth, text in [(6, "4096 2"), (7, "prefix limit"), (40, "prefix limit")]:
        LINES.append((f"count /v0:bool Ex:0:bool {('dup = ' * depth).strip()}", text))
    note("conjunctions of a universal formula with itself, 40 of them, and choices that are split 40 times")
    LINES.append((f"count /v0:bool All:0:bool {('dup and ' * 40).strip()}", "prefix limit"))
    choices = "v0:bool Ex:0:bool 8:1 8:2 ite"
    for n in range(39):
        choices += f" v0:bool Ex:0:bool 8:{n:x} 8:{n + 1:x} ite bvadd"
    LINES.append((f"count /{choices} 8:0 =", "prefix limit"))


def limit_cases():
    note("other limits: none at all, one place and two, constants and quantifiers")
    two, both, doubled = "c0:bool c1:bool and", "c0:bool v0:bool All:0:bool and", "v0:bool Ex:0:bool dup ="
    for limit, case, text in [(0, "bool/bool:1", "0 0"), (0, "bool/c0:bool", None), (1, "bool/c0:bool", "1 1"), (1, f"bool bool/{two}", None),
                              (2, f"bool bool/{two}", "2 1"), (0, "/v0:bool Ex:0:bool", None), (1, "/v0:bool Ex:0:bool", "1 1"),
                              (1, f"bool/{both}", None), (2, f"bool/{both}", "2 2"), (3, f"bool/{doubled}", None),
                              (4, f"bool/{doubled}", "4 2"), (2**32 - 1, f"bool/{both}", "2 2")]:
        LINES.append((f"within {limit} {case}", text or "prefix limit"))


def bad_cases():
    note("these aren't cases: no formula, a free variable, a constant of another sort or without one")
    for line in ["prenex /v0:bool", "prenex bool/c0:3 c0:3 =", "prenex /c0:bool", "prenex /3:1", "prenex /v0:bool All:1:bool",
                 "prenex", "pose /bool:1", "count bool:1", "prenex /bool:1 bool:1", "prenex bool/c0:bool All:0:bool;c1:bool",
                 "within 4294967296 bool/c0:bool", "within x bool/c0:bool"]:
        LINES.append((line, "bad case"))


def main():
    chosen = random.Random(20)
    chosen_cases()
    random_cases(chosen, 320)
    shared_cases()
    random_shared_cases(random.Random(14), 80)
    if sys.argv[1:] == ["--check"]:
        tried = [fs for fs in POSED if cost(problem(fs)[0]) <= 2**13]
        wrong = [fs for fs in tried if not agree(fs)]
        print(f"{len(POSED)} problems, {len(tried)} compared, {len(wrong)} differ")
        for fs in wrong[:5]:
            print(line_of(fs))
        return
    large_cases()
    limit_cases()
    bad_cases()
    write_part("qv_rewrite_cases", "prenex problems", LINES)
    print(f"{len(POSED)} problems, {len(LINES)} lines")


if __name__ == "__main__":
    sys.setrecursionlimit(100_000)
    threading.stack_size(512 * 2**20)
    thread = threading.Thread(target=main)
    thread.start()
    thread.join()
