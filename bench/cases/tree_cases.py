#!/usr/bin/env python3
"""Writes the cases of crates/qv_store_cases (stdin) and what must come (stdout).

    bench/cases/tree_cases.py

Terms are written with the arguments before their operator, and a quantifier behind its body. A store
is a list of distinct terms here, in the order in which their last words come. Values are those of
bench/cases/word_cases.py. Nothing here was taken from the program's answers.
"""
import random
from functools import lru_cache

from rows import write_rows
from word_cases import apply, rank


# --- terms: the text of what stands at the top, and the terms below --------------------------------


def leaf(text):
    return text, ()


def app(op, *args):
    return op, args


def bind(quantifier, level, sort, body):
    return f"{quantifier}:{level}:{sort}", (body,)


def is_binder(t):
    return t[0].startswith(("All:", "Ex:"))


def named(text):
    """The letter, the number and the sort of a constant or a variable."""
    number, sort = text[1:].split(":")
    return text[0], int(number), sort if sort == "bool" else int(sort)


def is_named(t):
    return not t[1] and t[0][0] in "cv"


@lru_cache(maxsize=None)
def sort_of(t):
    if is_binder(t):
        return "bool"
    if t[1]:
        return rank(t[0], [sort_of(a) for a in t[1]])
    sort = named(t[0])[2] if is_named(t) else t[0].split(":")[0]
    return sort if sort == "bool" else int(sort)


@lru_cache(maxsize=None)
def depth_of(t):
    return 1 + max(map(depth_of, t[1]), default=0)


@lru_cache(maxsize=None)
def is_quantified(t):
    return is_binder(t) or any(map(is_quantified, t[1]))


def show(t):
    return " ".join([*map(show, t[1]), t[0]])


def store_of(terms):
    """The distinct terms of a list's terms, each behind those below it."""
    store = {}

    def put(t):
        if t not in store:
            for a in t[1]:
                put(a)
            store[t] = len(store)

    for t in terms:
        put(t)
    return store


def value_at(t, consts, places):
    done = {}
    for u in store_of([t]):
        if is_named(u):
            letter, number, _ = named(u[0])
            done[u] = (consts if letter == "c" else places)[number]
        elif u[1]:
            done[u] = apply(u[0], [done[a] for a in u[1]])
        else:
            done[u] = (sort_of(u), int(u[0].split(":")[1], 16))
    return done[t]


def put_in(t, terms):
    if is_named(t) and t[0][0] == "v":
        number = named(t[0])[1]
        return terms[number] if number < len(terms) and terms[number] is not None else t
    return t[0], tuple(put_in(a, terms) for a in t[1])


# --- the cases -------------------------------------------------------------------------------------

LINES = []


def note(text):
    LINES.extend([("", None)] if LINES else [])
    LINES.append((f"# {text}", None))


def case(line, answer):
    LINES.append((line, answer))


def word(w):
    return f"{w[0]}:{w[1]:x}"


def words(ws):
    return " ".join(map(word, ws))


def facts(t, text=None):
    mark = "quantified" if is_quantified(t) else "free"
    case(f"facts {text or show(t)}", f"{sort_of(t)} {depth_of(t)} {mark} {len(store_of([t]))}")


def evaluated(t, consts, places, text=None):
    case(f"eval {words(consts)}/{words(places)}/{text or show(t)}", word(value_at(t, consts, places)))


def replaced(terms, t):
    given = ";".join("-" if u is None else show(u) for u in terms)
    case(f"put_in {given}/{show(t)}", show(put_in(t, terms)))


def node(store, t):
    return " ".join([*(f"#{store[a]}" for a in t[1]), t[0]])


def copied(t, text=None):
    store = store_of([t])
    case(f"copy {text or show(t)}", ", ".join(node(store, u) for u in store))


def rounded(t):
    size = len(store_of([t]))
    case(f"round {show(t)}", f"#{size - 1} {size} {show(t)} #{size - 1} {size} #{size - 1} {size}")


def walked(keep, terms):
    store, order = store_of(terms), list(store_of(terms[::-1]))
    ids = "".join(f"#{store[t]} " for t in order)
    at = order.index(terms[0])
    mark = "kept" if at < keep else "gone"
    case(f"walk {keep}/{';'.join(map(show, terms))}", f"{ids}@{at} {mark} {min(keep, len(order))}")


def apart(others, terms):
    store = store_of(terms)
    nodes = ", ".join(node(store, u) for u in store)
    numbers = "".join(f" @{store[t]}" for t in terms)
    case(f"apart {';'.join(map(show, others))}/{';'.join(map(show, terms))}", nodes + numbers or "no terms")


def posed(places, constants, matrix):
    blocks, before = [], None
    for place in places:
        player = place.split(":")[0]
        blocks.append((blocks[-1] if blocks else 0) + (player != before))
        before = player
    count = blocks[-1] if blocks else 0
    parts = [f"={count}", *map(str, blocks), *places, *map(str, constants)]
    numbers = " ".join(map(str, constants))
    case(f"problem {' '.join(places)}/{numbers}/{show(matrix)}", " ".join(parts) + f"#{len(store_of([matrix])) - 1}")


# --- chosen terms ----------------------------------------------------------------------------------

X, Y, Z = leaf("v0:8"), leaf("v1:8"), leaf("v2:8")
P, Q = leaf("v3:bool"), leaf("v4:bool")
A, B = leaf("c0:8"), leaf("c1:8")
C = leaf("c2:bool")
LEAVES = [X, P, A, C, leaf("8:ff"), leaf("bool:1"), leaf("bool:0"), leaf("128:ffffffffffffffffffffffffffffffff"),
          leaf("v200:128"), leaf("c200:1"), leaf("1:0"), leaf("7:55")]
PLAIN = [
    app("bvnot", X), app("not", P), app("bvneg", A), app("bvnego", B), app("extract:6:2", X), app("repeat:3", X),
    app("zero_extend:4", X), app("sign_extend:4", A), app("rotate_left:3", X), app("rotate_right:3", X),
    app("bvadd", X, Y), app("bvsub", X, Y), app("bvsub", Y, X), app("bvudiv", A, B), app("bvurem", B, A), app("bvult", X, A),
    app("bvslt", X, A), app("concat", X, A), app("concat", A, X), app("=", X, X), app("=", P, C), app("and", P, Q),
    app("xor", P, P), app("=>", P, Q), app("=>", Q, P), app("bvcomp", X, Y), app("bvshl", X, Y), app("bvashr", A, B),
    app("ite", P, X, Y), app("ite", Q, X, Y), app("ite", C, P, Q), app("ite", app("bvult", X, Y), X, app("bvmul", X, X)),
    app("bvadd", app("bvmul", X, leaf("8:3")), app("bvmul", X, leaf("8:3"))),
    app("bvsub", app("bvsub", X, Y), app("bvsub", Y, X)),
    app("and", app("or", app("not", P), Q), app("not", app("not", P))),
    app("bvadd", app("bvadd", app("bvadd", X, leaf("8:1")), leaf("8:2")), leaf("8:3")),
    app("bvadd", leaf("8:1"), app("bvadd", leaf("8:2"), app("bvadd", leaf("8:3"), X))),
]
BOUND = [
    bind("All", 0, 8, app("=", X, X)), bind("Ex", 0, 8, app("=", X, X)), bind("All", 3, "bool", P),
    bind("Ex", 3, "bool", P), bind("All", 9, 128, C), bind("Ex", 9, 1, leaf("bool:1")),
    bind("All", 0, 8, bind("Ex", 1, 8, app("bvult", X, Y))), bind("Ex", 1, 8, bind("All", 0, 8, app("bvult", X, Y))),
    app("and", bind("All", 0, 8, app("=", X, A)), bind("Ex", 0, 8, app("=", X, A))),
    app("ite", C, bind("All", 3, "bool", P), P), app("not", bind("All", 3, "bool", bind("All", 3, "bool", P))),
]
CONSTS = [(8, 0xC8), (8, 0x07), ("bool", 0)]
PLACES = [(8, 0x85), (8, 0x03), (8, 0xFF), ("bool", 1), ("bool", 0)]
DIVISORS = [(8, 0xC8), (8, 0), ("bool", 1)]


def doubling(start, times):
    """A term that is added to itself so many times: its text writes it out, so it is short."""
    t = start
    for _ in range(times):
        t = app("bvadd", t, t)
    return t


def random_term(chosen, sort, depth):
    if depth == 0 or chosen.random() < 0.15:
        if sort == "bool":
            return chosen.choice([P, Q, C, leaf("bool:0"), leaf("bool:1")])
        return chosen.choice([X, Y, Z, A, B, leaf(f"8:{chosen.choice([0, 1, 128, 255, chosen.randrange(256)]):x}")])

    def some(of):
        return random_term(chosen, of, depth - 1)

    if chosen.random() < 0.2:
        return app("ite", some("bool"), some(sort), some(sort))
    if sort == "bool":
        op = chosen.choice(["not", "and", "or", "xor", "=>", "=", "bvult", "bvsle", "bvnego", "bvsmulo"])
        if op == "not":
            return app(op, some("bool"))
        if op == "bvnego":
            return app(op, some(8))
        of = "bool" if op in ["and", "or", "xor", "=>"] else 8
        return app(op, some(of), some(of))
    op = chosen.choice(["bvnot", "bvneg", "bvadd", "bvsub", "bvmul", "bvand", "bvudiv", "bvsrem", "bvshl", "rotate_left:5"])
    if op in ["bvnot", "bvneg", "rotate_left:5"]:
        return app(op, some(8))
    return app(op, some(8), some(8))


def random_bound(chosen, depth):
    if depth == 0:
        return random_term(chosen, "bool", 2)
    inner = random_bound(chosen, depth - 1)
    if chosen.random() < 0.3:
        return app(chosen.choice(["and", "or", "="]), inner, random_bound(chosen, depth - 1))
    level, sort = chosen.choice([(0, 8), (1, 8), (2, 8), (3, "bool"), (4, "bool"), (5, 3)])
    return bind(chosen.choice(["All", "Ex"]), level, sort, inner)


def random_word(chosen, sort):
    return sort, chosen.randrange(2 if sort == "bool" else 2**sort)


def cases(chosen):
    note("the sort, the depth, whether a quantifier stands in it, and how many terms there are")
    for t in LEAVES + PLAIN + BOUND:
        facts(t)
    note("values: of literals, of constants and variables, and of applications to one, two and three arguments")
    for t in LEAVES[4:8]:
        evaluated(t, [], [])
    for t in LEAVES[:4] + PLAIN:
        evaluated(t, CONSTS, PLACES)
    for t in PLAIN:
        evaluated(t, DIVISORS, PLACES[1::-1] + PLACES[2:3] + PLACES[:2:-1])
    note("words behind those that are asked for change nothing")
    evaluated(X, [], [(8, 5), (1, 1)])
    evaluated(leaf("c1:1"), [(8, 5), (1, 1), (8, 7)], [])
    note("terms put in for levels; `-` puts in nothing, and a level behind the list keeps its variable")
    for t in LEAVES + PLAIN:
        replaced([], t)
    for terms in [[A], [None, A], [Y, X], [leaf("8:0"), None, X], [app("bvadd", X, X), app("bvsub", Y, A)],
                  [X, Y, Z, Q, P], [None, None, None, app("not", P)], [app("ite", P, X, Y), Y, Y, C, C]]:
        for t in PLAIN[10:]:
            replaced(terms, t)
    note("copies: each node with the numbers of those below it")
    for t in LEAVES + PLAIN + BOUND:
        copied(t)
    note("grown, and planted again here and in an empty store")
    for t in LEAVES + PLAIN + BOUND:
        rounded(t)
    note("sums of one term with itself: as many terms as sums, and one")
    for times in [1, 2, 8]:
        t = doubling(X, times)
        facts(t)
        copied(t)
        rounded(t)
        evaluated(t, [], [(8, 0x85)])
        evaluated(t, [], [(8, 1)])
        replaced([A], t) if times < 4 else None
    note("twenty sums of one term with itself, a million leaves as a tree: `dup` is the last term once more")
    sums = " dup bvadd" * 20
    case(f"facts v0:32{sums}", "32 21 free 21")
    case(f"copy v0:32{sums}", ", ".join(["v0:32", *(f"#{i} #{i} bvadd" for i in range(20))]))
    for value in [0, 1, 0xFFF, 0x12345678]:
        case(f"eval /32:{value:x}/v0:32{sums}", f"32:{value * 2**20 % 2**32:x}")
        case(f"eval 32:{value:x}//c0:32{sums} 32:1 bvadd", f"32:{(value * 2**20 + 1) % 2**32:x}")
    case(f"walk 7/v0:32{sums}", "".join(f"#{i} " for i in range(21)) + "@20 gone 7")
    case(f"facts v0:32{sums} dup = All:0:32", "bool 23 quantified 23")
    note("walks, the last term first")
    for terms in [[X], [X, Y], [X, X], [app("bvadd", X, Y), X], [X, app("bvadd", X, Y)], [app("bvadd", X, Y), app("bvadd", Y, X)],
                  [app("ite", P, X, Y), app("bvadd", Y, X)], BOUND[:3], [BOUND[6], BOUND[7], X], [P, BOUND[10]],
                  [app("=", X, A), BOUND[8]], [app("bvsub", X, Y), doubling(X, 4)]]:
        for keep in [0, 1, 3, 100]:
            walked(keep, terms)
    note("terms in a store of their own, where others stand beside them: the nodes there, and the numbers of the terms")
    for others, terms in [([], []), ([X, PLAIN[31]], []), ([], [X]), ([Y, P, PLAIN[30]], [X]), ([X], [Y, X]), ([], [PLAIN[10], PLAIN[10]]),
                          (PLAIN[:4], [PLAIN[31], X, PLAIN[31], app("bvmul", X, X)]), ([PLAIN[33]], [PLAIN[33][1][1], PLAIN[33][1][0]]),
                          ([PLAIN[35]], [PLAIN[35][1][0], Y, PLAIN[35]]), ([BOUND[6]], [BOUND[7], BOUND[6][1][0]]), (BOUND[::-1], BOUND),
                          ([BOUND[8]], [BOUND[8][1][1], BOUND[10], P]), ([doubling(Y, 2)], [doubling(X, 3), doubling(Y, 2), doubling(X, 4)]),
                          (LEAVES[::-1], LEAVES), ([], PLAIN[::-1]), ([X, Y, P, Q, C], [PLAIN[32], PLAIN[28], PLAIN[30], PLAIN[29]])]:
        apart(others, terms)
    note("problems: blocks, the block of each place, and a copy")
    for places in [[], ["Exists:8"], ["Forall:8"], ["Exists:8", "Exists:bool"], ["Exists:8", "Forall:bool"],
                   ["Forall:1", "Exists:128", "Exists:2", "Forall:3"],
                   ["Forall:1", "Forall:1", "Exists:8", "Forall:8", "Forall:bool", "Exists:3", "Exists:8", "Exists:8"]]:
        for constants in [[], [7], [0, 3, 1]]:
            posed(places, constants, PLAIN[15])
    note("random terms")
    for i in range(120):
        t = random_term(chosen, chosen.choice(["bool", 8]), chosen.randrange(1, 5))
        evaluated(t, [random_word(chosen, s) for s, _ in CONSTS], [random_word(chosen, s) for s, _ in PLACES])
        if i % 3 == 0:
            facts(t)
            copied(t)
            rounded(t)
        if i % 3 == 1:
            replaced([random_term(chosen, named(v[0])[2], 1) if chosen.random() < 0.7 else None for v in [X, Y, Z, P, Q]], t)
        if i % 3 == 2:
            walked(chosen.randrange(12), [random_term(chosen, 8, 2), t])
    for i in range(40):
        t = random_bound(chosen, chosen.randrange(1, 5))
        [facts, copied, rounded][i % 3](t)
        walked(chosen.randrange(12), [t, random_bound(chosen, 2)])
    for i in range(12):
        posed([f"{chosen.choice(['Exists', 'Forall'])}:{chosen.choice(['bool', 1, 8])}" for _ in range(chosen.randrange(12))],
              [chosen.randrange(99) for _ in range(chosen.randrange(4))], random_term(chosen, "bool", 3))
    note("these aren't cases: no one term, no rank, no word of its sort, a quantifier, another sort put in")
    for line in ["facts v0:8 v1:8", "facts dup", "facts bvadd", "facts v0:8 bvadd", "facts v0:8 v1:7 bvadd", "facts v0:129", "facts 8:100",
                 "facts 0:0", "facts bool:2", "facts v0:8 All:0:8", "facts v0:8 v0:8 = All:0:7", "facts v0:8 v0:8 = Any:0:8",
                 "eval //v0:8", "eval /7:5/v0:8", "eval 8:5//c1:8", "eval bool:1//c0:1", "eval /bool:1/v0:bool All:0:bool",
                 "put_in v0:7/v0:8", "put_in bool:1/v0:1", "put_in bool:1/v0:bool Ex:0:bool", "walk 1/", "walk x/v0:8",
                 "apart v0:8", "apart v0:8/bvadd", "apart nand/v0:8", "apart v0:8/v0:8;",
                 "problem Some:8//bool:1", "problem Exists:0//bool:1", "round v0:8 v0:8 nand", "turn v0:8"]:
        case(line, "bad case")


def main():
    cases(random.Random(1100))
    write_rows("qv_store_cases", LINES)
    print(f"{len(LINES)} lines")


if __name__ == "__main__":
    main()
