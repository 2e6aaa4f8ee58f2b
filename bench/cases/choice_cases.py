#!/usr/bin/env python3
"""Writes the cases of crates/qv_choose_cases (stdin) and what must come (stdout).

    bench/cases/choice_cases.py          writes both files
    bench/cases/choice_cases.py N        prints N random cases, and of each place its candidates and its term

Candidates and chosen terms come from the rules below, which were written from the rules and not from the code.
Terms are those of bench/cases/rewrite_cases.py: a leaf is a text, an application a pair of its operator and
its arguments. Inverse terms are those of bench/cases/term_cases.py, values those of bench/cases/word_cases.py.
"""
import random
import sys

from rewrite_cases import literal, show, sort_of, value_of
from rows import write_part
from term_cases import inverse
from word_cases import evaluate, read

COMPARISONS = ["bvult", "bvule", "bvugt", "bvuge", "bvslt", "bvsle", "bvsgt", "bvsge"]


def level_of(t):
    return int(t.split(":")[0][1:]) if isinstance(t, str) and t[0] == "v" else None


def args_of(t):
    return [] if isinstance(t, str) else t[1]


def levels_of(t):
    return [level_of(t)] if level_of(t) is not None else [x for a in args_of(t) for x in levels_of(a)]


def below_choice(x, t):
    here = not isinstance(t, str) and t[0] == "ite" and x in levels_of(t)
    return here or any(below_choice(x, a) for a in args_of(t))


def replaced(t, put):
    """The term with others put in for variables, by level."""
    if isinstance(t, str):
        return put.get(level_of(t), t)
    return t[0], [replaced(a, put) for a in t[1]]


def put_in_row(row, other, target):
    """A row of bench/cases/term_cases.py as a term, over v0 and v1."""
    def made(form):
        return form if isinstance(form, str) else (form[0], [made(a) for a in form[1]])

    return replaced(made(read(row)[0]), {0: other, 1: target})


def nodes_of(t, seen):
    """The distinct subtrees in post-order."""
    if t not in seen:
        for a in args_of(t):
            nodes_of(a, seen)
        if t not in seen:
            seen.append(t)
    return seen


def descend(x, t, target):
    while level_of(t) != x:
        args = args_of(t)
        position = next((i for i, a in enumerate(args) if x in levels_of(a)), None)
        if position is None or len(args) > 2:
            return None
        other = args[1 - position] if len(args) == 2 else target
        row = inverse(t[0], position, [sort_of(a) for a in args], value_of(other) if len(args) == 2 else None)
        if row == "none":
            return None
        t, target = args[position], put_in_row(row, other, target)
    return target


def targets(op, b):
    if op == "=":
        return [b]
    w = sort_of(b)
    one = literal(w, 1)
    return [("bvsub", [b, one]), ("bvadd", [b, one]), b, literal(w, 0), literal(w, 2**w - 1)]


def joined(op, t):
    """The conjuncts of a term, or its disjuncts."""
    return [part for a in t[1] for part in joined(op, a)] if not isinstance(t, str) and t[0] == op else [t]


def is_inside(first, end, t):
    return any(first <= level < end for level in levels_of(t))


def definitions(first, end, region, x):
    """The conjunction of what the clauses with the negation of the place say where it is true."""
    no = "not", [f"v{x}:bool"]

    def says(c):
        others = [d for d in joined("or", c) if d != no]
        return no in joined("or", c) and not any(x in levels_of(d) or is_inside(first, end, d) for d in others)

    conjuncts = joined("and", region)
    clauses = [replaced(c, {x: "bool:1"}) for c in nodes_of(region, []) if c in conjuncts and says(c)]
    return [joined_left(clauses)] if clauses else []


def candidates(first, end, region, x):
    found = definitions(first, end, region, x)
    for t in nodes_of(region, []):
        if level_of(t) == x and sort_of(t) == "bool":
            found += ["bool:1", "bool:0"]
        if isinstance(t, str) or t[0] not in ["=", *COMPARISONS] or sort_of(t[1][0]) == "bool":
            continue
        if levels_of(t).count(x) != 1 or below_choice(x, t):
            continue
        side, other = t[1] if x in levels_of(t[1][0]) else t[1][::-1]
        found += [u for b in targets(t[0], other) if (u := descend(x, side, b)) is not None]
    return [u for u in found if not is_inside(first, end, u)]


def is_true(region, point):
    return evaluate(region, [], point) == ("bool", 1)


def choose(first, end, region, point):
    """For each place the region in which the earlier terms stand, its candidates and its term."""
    answers = []
    for x in range(first, end):
        offers = candidates(first, end, region, x)
        good = (u for u in offers if is_true(replaced(region, {x: u}), point))
        own = literal(*point[x])
        term = next(good, own) if first > 0 else own
        answers.append((region, offers, term))
        region = replaced(region, {x: term})
    assert is_true(region, point)
    return answers


def random_word(chosen, sort):
    top = 2 if sort == "bool" else 2**sort
    return sort, chosen.choice([0, 1, top - 1, chosen.randrange(top), chosen.randrange(top)])


def random_side(chosen, point, w, depth):
    places = [f"v{i}:{w}" for i, (sort, _) in enumerate(point) if sort == w]
    if depth == 0 or chosen.random() < 0.2:
        return chosen.choice(places) if places and chosen.random() < 0.7 else literal(*random_word(chosen, w))
    some = lambda: random_side(chosen, point, w, depth - 1)
    op = chosen.choice(["bvadd", "bvsub", "bvxor", "bvxnor", "bvand", "bvor", "bvnand", "bvnor", "bvmul", "bvudiv",
                        "bvurem", "bvshl", "bvlshr", "bvashr", "bvnot", "bvneg", "ite", "rotate_left:1", "bvsdiv"])
    if op in ["bvnot", "bvneg", "rotate_left:1"]:
        return op, [some()]
    if op == "ite":
        return op, [random_region(chosen, point, depth - 1), some(), some()]
    return op, [some(), some()]


def random_region(chosen, point, depth):
    truths = [f"v{i}:bool" for i, (sort, _) in enumerate(point) if sort == "bool"]
    if truths and chosen.random() < 0.15:
        return chosen.choice(truths)
    some = lambda: random_region(chosen, point, depth - 1)
    kind = chosen.random()
    if depth > 0 and kind < 0.4:
        return chosen.choice(["and", "or", "xor", "=>"]), [some(), some()]
    if depth > 0 and kind < 0.5:
        return "not", [some()]
    w = chosen.choice([sort for sort, _ in point if sort != "bool"] or [4])
    return chosen.choice(["=", "=", *COMPARISONS]), [random_side(chosen, point, w, 2), random_side(chosen, point, w, 2)]


def random_case(chosen):
    """A block, a point and a region that holds there."""
    while True:
        point = [random_word(chosen, chosen.choice(["bool", 1, 4, 4, 4, 8])) for _ in range(chosen.randrange(1, 6))]
        region = random_region(chosen, point, 3)
        if is_true(region, point):
            return chosen.randrange(len(point) + 1), len(point), point, region


def line_of(first, point, region):
    return f"choose {first} {len(point)} {' '.join(literal(*w) for w in point)} | {show(region)}"


# --- the cases --------------------------------------------------------------------------------------

LINES = []
# the rows of candidates, once each, in the order in which their regions come
OFFERED = {}


def note(text):
    LINES.extend([("", None)] if LINES else [])
    LINES.append((f"# {text}", None))


def asked(first, point, region, wanted=None):
    """A case, and the answer of a worked example."""
    steps = choose(first, len(point), region, point)
    answer = texts(term for _, _, term in steps)
    assert wanted in [None, answer], (show(region), answer)
    LINES.append((line_of(first, point, region), answer))
    for x, (there, offers, _) in enumerate(steps, first):
        OFFERED[f"candidates {first} {len(point)} {x} | {show(there)}"] = texts(offers)


def texts(terms):
    return "; ".join(map(show, terms)) or "no terms"


def offered(first, end, x, region, wanted):
    """The candidates of one place."""
    answer = texts(candidates(first, end, region, x))
    assert answer == wanted, (show(region), answer)
    LINES.append((f"candidates {first} {end} {x} | {show(region)}", answer))


def few():
    x, y, z, p = "v0:8", "v1:8", "v2:8", "v0:bool"
    note("an equation, solved for the place behind")
    asked(1, [(8, 15), (8, 240)], ("=", [y, ("bvnot", [x])]), "v0:8 bvnot")
    asked(1, [(8, 15), (8, 240)], ("=", [("bvnot", [y]), x]), "v0:8 bvnot")
    asked(1, [(8, 15), (8, 15)], ("=", [y, x]), "v0:8")
    note("the place in both sides, below a choice, twice, in a product, and in a truth value alone")
    asked(1, [(8, 0), (8, 3)], ("=", [y, ("bvsub", [y, x])]), "8:3")
    asked(1, [(8, 3), (8, 3)], ("=", [x, ("ite", [("=", [x, x]), y, x])]), "8:3")
    asked(1, [(8, 6), (8, 3)], ("=", [x, ("bvadd", [y, y])]), "8:3")
    asked(1, [(8, 12), (8, 4)], ("=", [("bvmul", [y, "8:3"]), x]), "v0:8 8:0 bvlshr 8:ab bvmul")
    asked(1, [(8, 12), (8, 2)], ("=", [("bvmul", ["8:6", y]), x]), "v0:8 8:1 bvlshr 8:ab bvmul")
    asked(1, [(8, 12), (8, 4)], ("=", [("bvmul", [y, "8:0"]), "8:0"]), "8:4")
    asked(0, [("bool", 0)], ("or", [p, "bool:1"]), "bool:0")
    asked(0, [("bool", 0)], ("not", [p]), "bool:0")
    asked(0, [("bool", 1)], ("=", [p, "bool:1"]), "bool:1")
    note("another place of the block in what is found: the point's value, and then the other place")
    asked(1, [(8, 1), (8, 7), (8, 6)], ("=", [y, ("bvadd", [z, x])]), "8:7; 8:7 v0:8 bvsub")
    asked(0, [(8, 1), (8, 7), (8, 6)], ("=", [y, ("bvadd", [z, x])]), "8:1; 8:7; 8:6")
    asked(0, [(8, 5), (8, 3)], ("bvuge", [x, y]), "8:5; 8:3")
    asked(0, [(8, 5), (8, 3)], ("not", [("bvule", [x, y])]), "8:5; 8:3")
    note("each target of a comparison")
    later = lambda *wrong: [("not", [("=", [y, t])]) for t in wrong]
    targets = [("bvsub", [x, "8:1"]), ("bvadd", [x, "8:1"]), x, "8:0", "8:ff"]
    for op in COMPARISONS:
        for n in range(len(targets) + 1):
            for value in [0, 2, 128, 255]:
                for own in [0, 1, 2, 127, 200, 255]:
                    region = (op, [y, x])
                    for t in later(*targets[:n]):
                        region = ("and", [region, t])
                    if is_true(region, [(8, value), (8, own)]):
                        asked(1, [(8, value), (8, own)], region)
                        break
    note("an empty block, and a region without places")
    asked(2, [(8, 1), (8, 1)], ("=", [x, y]), "no terms")
    asked(0, [], "bool:1", "no terms")
    asked(0, [(8, 5), ("bool", 0)], "bool:1", "8:5; bool:0")
    asked(1, [(128, 2**128 - 1), (128, 0)], ("=", ["v0:128", ("bvnot", ["v1:128"])]), "v0:128 bvnot")


def chain(chosen, x, w, point):
    """Some operators with rows, one on the other, and the place below them."""
    t = x
    for _ in range(chosen.randrange(4)):
        op = chosen.choice(["bvadd", "bvsub", "bvxor", "bvxnor", "bvand", "bvor", "bvmul", "bvudiv", "bvurem", "bvshl",
                            "bvlshr", "bvashr", "bvnot", "bvneg", "rotate_right:1", "concat"])
        other = random_side(chosen, point, w, 1)
        if op in ["bvnot", "bvneg", "rotate_right:1"]:
            t = op, [t]
        elif op == "concat":
            t = ("extract:%d:1" % w), [(op, [t, "1:1"])]
        else:
            t = op, [t, other] if chosen.random() < 0.5 else [other, t]
    return t


def chained_case(chosen):
    """An equation or a comparison with the last place on one side, and something that is asked beside."""
    while True:
        w = chosen.choice([1, 4, 4, 8])
        point = [random_word(chosen, chosen.choice(["bool", w, w])) for _ in range(chosen.randrange(1, 4))]
        x = f"v{len(point)}:{w}"
        sides = [chain(chosen, x, w, point), random_side(chosen, point, w, 1)]
        if chosen.random() < 0.5:
            sides.reverse()
        region = chosen.choice(["=", *COMPARISONS]), sides
        for _ in range(chosen.randrange(3)):
            beside = chosen.choice(["=", *COMPARISONS]), [x, random_side(chosen, point, w, 1)]
            region = "and", [region, ("not", [beside]) if chosen.random() < 0.6 else beside]
        for _ in range(20):
            whole = [*point, random_word(chosen, w)]
            if is_true(region, whole):
                return len(point) - chosen.randrange(2), whole, region


def cases(chosen):
    few()
    note("random regions")
    for _ in range(500):
        first, _, point, region = random_case(chosen)
        asked(first, point, region)
    note("random ways down to a place")
    for _ in range(500):
        asked(*chained_case(chosen))
    note("these aren't cases: no truth value, a level behind the point, another sort, not true at the point")
    refused = [
        "choose 0 1 8:1 | v0:8", "choose 0 1 8:1 | v1:8 8:1 =", "choose 0 1 8:1 | v0:4 4:1 =", "choose 0 1 bool:1 | v0:8 8:1 =",
        "choose 0 1 8:1 | v0:8 8:2 =", "choose 0 1 8:1 | bool:0",
    ]
    LINES.extend((line, "bad case") for line in refused)
    note("nor are these: a block that ends elsewhere, constants, a quantifier, and what can't be read")
    refused = [
        "choose 2 1 8:1 | v0:8 8:1 =", "choose 0 2 8:1 | v0:8 8:1 =", "choose 0 1 8:1 8:1 | v0:8 8:1 =", "choose 0 0  | v0:8 8:1 =",
        "choose 0 1 8:1 | c0:8 8:1 =", "choose 0 1 8:1 | c0:8 c0:8 =", "choose 0 1 8:1 | v0:8 8:1 = All:0:8",
        "choose 0 1 8:1 | v0:8 8:1 = v0:8", "choose 0 1 8:1 | v0:8 4:1 =", "choose 0 1 8:1 | =", "choose 0 1 8:1 |", "choose 0 1 8:1",
        "choose 0 1 8:100 | v0:8 8:0 =", "choose 0 x 8:1 | v0:8 8:1 =", "choose 0", "choose", "chosen 0 1 8:1 | v0:8 8:1 =",
        "choose -1 1 8:1 | v0:8 8:1 =", "choose 18446744073709551616 1 8:1 | v0:8 8:1 =", "choose 0 1 8:1 | v18446744073709551616:8 8:1 =",
    ]
    LINES.extend((line, "bad case") for line in refused)
    note("the candidates of each place above, in the region in which the earlier terms stand")
    LINES.extend(OFFERED.items())
    note("constants, terms that are no truth values, places outside the block, and a level with two sorts")
    x, y, z, c = "v0:8", "v1:8", "v2:8", "c0:8"
    offered(0, 1, 0, ("=", [x, c]), "c0:8")
    offered(0, 1, 0, ("bvult", [("bvxor", [c, x]), y]), "v1:8 8:1 bvsub c0:8 bvxor; v1:8 8:1 bvadd c0:8 bvxor; v1:8 c0:8 bvxor; 8:0 c0:8 bvxor; 8:ff c0:8 bvxor")
    offered(0, 1, 0, ("ite", [("=", [x, y]), x, y]), "v1:8")
    offered(0, 1, 0, x, "no terms")
    offered(0, 0, 0, ("=", [x, y]), "v1:8")
    offered(0, 0, 0, ("=", [x, x]), "no terms")
    offered(1, 2, 0, ("=", [("bvadd", [x, y]), z]), "no terms")
    offered(2, 3, 0, ("bvuge", [x, z]), "8:0; 8:ff")
    offered(1, 2, 0, ("=", [("bvadd", [x, z]), z]), "v2:8 v2:8 bvsub")
    offered(5, 9, 7, ("=", [x, y]), "no terms")
    offered(0, 1, 0, ("and", [("=", [x, y]), "v0:bool"]), "v1:8; bool:1; bool:0")
    offered(0, 1, 1_000_000, ("=", ["v1000000:8", y]), "v1:8")
    offered(2**64 - 1, 2**64 - 1, 0, ("=", [x, y]), "v1:8")
    note("these aren't cases: a quantifier, and what can't be read")
    refused = [
        "candidates 0 1 0 | v0:8 8:1 = All:0:8", "candidates 0 1 0 | v0:8 8:1 = Ex:1:8", "candidates 0 1 0 | v0:8 4:1 =", "candidates 0 1 0 |", "candidates 0 1 0",
        "candidates 0 1 | v0:8 8:1 =", "candidates 0 x 0 | v0:8 8:1 =", "candidates 0 1 18446744073709551616 | v0:8 8:1 =", "candidates", "candidate 0 1 0 | v0:8 8:1 =",
    ]
    LINES.extend((line, "bad case") for line in refused)


def joined_left(parts):
    """The conjunction of some formulas from left to right."""
    whole = parts[0]
    for part in parts[1:]:
        whole = "and", [whole, part]
    return whole


def joined_at_random(chosen, parts):
    """The same, with the `and`s nested at random."""
    if len(parts) == 1:
        return parts[0]
    cut = chosen.randrange(1, len(parts))
    return "and", [joined_at_random(chosen, parts[:cut]), joined_at_random(chosen, parts[cut:])]


def by_conjuncts(first, point, region, wanted=None):
    """A case, without rows of candidates."""
    answer = texts(term for _, _, term in choose(first, len(point), region, point))
    assert wanted in [None, answer], (show(region), answer)
    LINES.append((line_of(first, point, region), answer))


def conjoined_case(chosen):
    """A conjunction of formulas that share terms, each over some of the places."""
    while True:
        point = [random_word(chosen, chosen.choice(["bool", 4, 4, 4])) for _ in range(chosen.randrange(2, 7))]
        shared = [random_side(chosen, point, 4, 2) for _ in range(2)]
        parts = []
        while len(parts) < chosen.randrange(2, 7):
            kind = chosen.random()
            if parts and kind < 0.1:
                part = chosen.choice(parts)
            elif parts and kind < 0.25:
                part = "or", [random_region(chosen, point, 1), chosen.choice(parts)]
            elif kind < 0.6:
                part = chosen.choice(["=", *COMPARISONS]), [chosen.choice(shared), random_side(chosen, point, 4, 1)]
            else:
                part = random_region(chosen, point, 1)
            if is_true(part, point):
                parts.append(part)
        if chosen.random() < 0.3:
            parts.append(("or", [("and", [parts[0], random_region(chosen, point, 1)]), parts[-1]]))
        region = joined_at_random(chosen, parts)
        if is_true(region, point):
            return chosen.randrange(len(point)), point, region


def conjoined(chosen):
    x, y, z, w, p = "v0:8", "v1:8", "v2:8", "v3:8", "v2:bool"
    note("conjuncts: a place in some of them, in none, and in all")
    point = [(8, 5), (8, 6), (8, 7), (8, 5)]
    parts = [("=", [y, ("bvadd", [x, "8:1"])]), ("=", [z, ("bvadd", [x, "8:2"])]), ("bvule", [y, z]), ("bvult", [x, "8:9"])]
    by_conjuncts(1, point, joined_left(parts), "v0:8 8:1 bvadd; v0:8 8:2 bvadd; 8:5")
    by_conjuncts(1, point, joined_left(parts[::-1]))
    by_conjuncts(0, point, joined_left([*parts, ("=", [w, x])]))
    by_conjuncts(1, point, joined_left([("=", [y, "8:6"]), ("=", [z, "8:7"]), ("=", [w, "8:5"])]), "8:6; 8:7; 8:5")
    by_conjuncts(1, point, joined_left([("bvule", [y, z]), ("bvule", [z, ("bvadd", [y, "8:1"])]), ("bvule", [w, y])]))
    note("a candidate of one conjunct with which another one doesn't stay true")
    by_conjuncts(1, [(8, 9), (8, 4)], joined_left([("bvult", [y, x]), ("not", [("=", [y, ("bvsub", [x, "8:1"])])]), ("bvule", [y, "8:4"])]))
    by_conjuncts(1, [(8, 9), (8, 4)], joined_left([("bvule", [y, "8:4"]), ("bvult", [y, x]), ("bvuge", [y, "8:3"])]))
    note("subterms that conjuncts share, and conjuncts that stand in others or twice")
    both = "bvadd", [y, z]
    by_conjuncts(1, [(8, 5), (8, 2), (8, 3)], joined_left([("=", [both, x]), ("bvule", [both, "8:7"]), ("bvuge", [y, "8:1"])]))
    small, least = ("bvule", [y, z]), ("=", [y, x])
    by_conjuncts(1, [(8, 2), (8, 2), (8, 2)], ("and", [("or", [least, small]), small]))
    by_conjuncts(1, [(8, 2), (8, 2), (8, 2)], ("and", [small, ("or", [least, small])]))
    by_conjuncts(1, [(8, 2), (8, 2), (8, 2)], joined_left([("xor", [least, ("not", [small])]), small, least, small]))
    by_conjuncts(1, [(8, 2), (8, 2), (8, 2)], ("and", [("and", [small, least]), ("and", [small, least])]))
    note("a variable that is a conjunct, and a literal")
    by_conjuncts(1, [(8, 5), (8, 5), ("bool", 1)], joined_left([p, ("=", [y, x])]), "v0:8; bool:1")
    by_conjuncts(1, [(8, 5), (8, 5), ("bool", 1)], joined_left([("or", [("not", [p]), ("=", [y, x])]), p, "bool:1"]))
    by_conjuncts(0, [("bool", 1), ("bool", 1)], ("and", ["v0:bool", "v1:bool"]), "bool:1; bool:1")
    by_conjuncts(0, [("bool", 1), ("bool", 1)], ("and", ["v1:bool", ("and", ["v0:bool", "v1:bool"])]))
    note("an `and` below other operators")
    low = "and", [("=", [y, x]), ("bvule", [z, y])]
    by_conjuncts(1, [(8, 5), (8, 5), (8, 3)], ("or", [low, ("bvult", [z, y])]))
    by_conjuncts(1, [(8, 5), (8, 5), (8, 3)], ("and", [("or", [low, ("bvult", [z, y])]), ("bvule", [z, x])]))
    by_conjuncts(1, [(8, 5), (8, 5), (8, 3)], ("and", [("not", [("and", [("not", [("=", [y, x])]), ("bvult", [y, z])])]), low]))
    note("chains of equations, each of a place of its own, from the left and from the right")
    many = [("=", [f"v{k}:8", ("bvadd", [f"v{k - 1}:8", f"8:{k % 7:x}"])]) for k in range(1, 40)]
    point = [(8, 1)]
    for k in range(1, 40):
        point.append((8, (point[-1][1] + k % 7) % 256))
    by_conjuncts(1, point, joined_left(many))
    right = many[-1]
    for part in many[-2::-1]:
        right = "and", [part, right]
    by_conjuncts(20, point, right)
    note("conjuncts that share so much that the region counts as one")
    deep = x
    for k in range(20):
        deep = "bvxor", [deep, f"8:{k:x}"]
    value = evaluate(deep, [], [(8, 7), (8, 0)])[1]
    fans = [("bvule", [deep, ("bvor", [literal(8, value), literal(8, k)])]) for k in range(8)]
    by_conjuncts(1, [(8, 7), (8, value)], joined_left([*fans, ("=", [y, deep])]))
    note("random conjunctions of formulas that share terms")
    for _ in range(300):
        by_conjuncts(*conjoined_case(chosen))


def negated(t):
    return "not", [t]


def clause(*literals):
    """A disjunction, by halves."""
    cut = len(literals) // 2
    return literals[0] if len(literals) == 1 else ("or", [clause(*literals[:cut]), clause(*literals[cut:])])


def gate(kind, g, a, b, c):
    """The clauses of a gate, and what it computes."""
    no = negated
    return {
        "and": ([(g, no(a), no(b)), (no(g), a), (no(g), b)], lambda x, y, z: x & y),
        "or": ([(no(g), a, b), (g, no(a)), (g, no(b))], lambda x, y, z: x | y),
        "xor": ([(no(g), a, b), (g, a, no(b)), (no(g), no(a), no(b)), (g, no(a), b)], lambda x, y, z: x ^ y),
        "ite": ([(no(a), no(g), b), (no(a), g, no(b)), (a, no(g), c), (a, g, no(c))], lambda x, y, z: y if x else z),
        "same": ([(no(g), a), (g, no(a))], lambda x, y, z: x),
        "not": ([(no(g), no(a)), (g, a)], lambda x, y, z: 1 - x),
        "true": ([(g,)], lambda x, y, z: 1),
        "false": ([(no(g),)], lambda x, y, z: 0),
    }[kind]


def bools(*values):
    return [("bool", value) for value in values]


def circuit_case(chosen):
    """Gates over the places before them, some of the block's, in clauses in any order, and more clauses."""
    values = [chosen.randrange(2) for _ in range(chosen.randrange(1, 4))]
    first, clauses = len(values), []
    places = [f"v{k}:bool" for k in range(8)]
    for _ in range(chosen.randrange(1, 5)):
        inputs = [chosen.randrange(len(values)) for _ in range(3)]
        kind = chosen.choice(["and", "and", "or", "xor", "xor", "ite", "same", "not", "true", "false"])
        own, computed = gate(kind, places[len(values)], *(places[k] for k in inputs))
        values.append(computed(*(values[k] for k in inputs)))
        clauses += own if chosen.random() < 0.8 else chosen.sample(own, 1)
    for _ in range(chosen.randrange(4)):
        some = [chosen.randrange(len(values)) for _ in range(chosen.randrange(1, 4))]
        literals = [places[k] if chosen.random() < 0.5 else negated(places[k]) for k in some]
        if is_true(clause(*literals), bools(*values)):
            clauses.append(literals)
    chosen.shuffle(clauses)
    parts = []
    for literals in clauses:
        literals = list(literals)
        chosen.shuffle(literals)
        parts.append(clause(*literals))
    return first, bools(*values), joined_at_random(chosen, parts)


def defined(chosen):
    a, b, c, g, h = (f"v{k}:bool" for k in range(5))
    no = negated
    note("what clauses define a truth value by: gates, at each point")
    for kind in ["and", "or", "xor", "ite", "same", "not", "true", "false"]:
        for x, y, z in [(0, 0, 1), (0, 1, 0), (1, 0, 1), (1, 1, 0)]:
            clauses, computed = gate(kind, g, a, b, c)
            asked(3, bools(x, y, z, computed(x, y, z)), joined_left([clause(*literals) for literals in clauses]))
    one, both = "bool:1 not v0:bool or", "bool:1 not v0:bool or bool:1 not v1:bool or and"
    note("the same as worked examples")
    left = lambda kind, g: [clause(*literals) for literals in gate(kind, g, a, b, c)[0]]
    asked(2, bools(1, 0, 0), joined_left([clause("v2:bool", no(a), no(b)), clause(no("v2:bool"), a), clause(no("v2:bool"), b)]), both)
    asked(1, bools(1, 1), joined_left([clause(no(b), a), clause(b, no(a))]), one)
    asked(1, bools(0, 0), no(b), "bool:1 not")
    asked(1, bools(1, 1), clause(no(a), b), "bool:1")
    note("a clause of a reader of the block, which says nothing of it, and a gate over a gate")
    asked(3, bools(1, 0, 1, 0, 1), joined_left([*left("and", g), clause(no(g), h), clause(h, c)]))
    asked(3, bools(1, 1, 0, 1, 1), joined_left([*left("and", g), clause(no(h), g), clause(h, no(g))]))
    asked(3, bools(1, 1, 0, 1, 1), joined_left([clause(no(h), g), clause(h, no(g)), *left("and", g)]))
    note("a definition with which the region doesn't stay true, and one that is true too often")
    asked(1, bools(1, 0), joined_left([clause(no(b), a), clause(no(b), no(a))]))
    asked(1, bools(1, 0), joined_left([clause(no(b), a), ("xor", [b, a])]))
    asked(1, bools(1, 0), ("and", [clause(no(b), a), ("=", [no(b), a])]))
    note("clauses below other operators, in several conjuncts, and twice")
    asked(1, bools(1, 1), no(clause(no(b), no(a))))
    asked(1, bools(1, 1), ("or", [("and", [clause(no(b), a), b]), no(a)]))
    asked(1, bools(1, 1), joined_left([clause(no(b), a), ("or", [no(a), clause(no(b), a)]), clause(no(b), a)]))
    asked(2, bools(1, 1, 1), ("and", [clause(no(c), a), ("and", [clause(no(c), b), clause(no(c), a)])]))
    note("the place twice in a clause, as its negation, and otherwise")
    asked(1, bools(1, 1), clause(no(b), a, no(b)))
    asked(1, bools(1, 1), clause(no(b), b, a))
    asked(1, bools(1, 1), clause(no(b), ("xor", [b, no(a)])))
    note("literals on bit-vectors beside the place")
    asked(2, [(8, 5), (8, 7), ("bool", 1)], joined_left([clause(no("v2:bool"), ("bvult", ["v0:8", "v1:8"])), clause("v2:bool", ("bvuge", ["v0:8", "v1:8"]))]), "bool:1 not v0:8 v1:8 bvult or")
    asked(1, [(8, 5), (8, 7), ("bool", 1)], joined_left([clause(no("v2:bool"), ("bvult", ["v0:8", "v1:8"])), ("bvule", ["v1:8", "8:7"])]))
    note("places outside the block, and conjunctions that share so much that they count as one")
    offered(0, 0, 0, clause(no(a), b), "bool:1 not v1:bool or; bool:1; bool:0")
    offered(0, 0, 0, clause(no(a), b, ("xor", [a, c])), "bool:1; bool:0")
    offered(0, 1, 0, ("and", [clause(no(a), b), "c0:bool"]), "bool:1 not v1:bool or; bool:1; bool:0")
    offered(1, 2, 0, ("and", [clause(no(a), b), clause(no(a), c)]), "bool:1 not v2:bool or; bool:1; bool:0")
    offered(5, 9, 7, ("=", ["v7:8", "v0:8"]), "v0:8")
    offered(0, 1, 0, clause(no(a), ("=", ["v0:8", "8:1"])), "bool:1; bool:0; 8:1")
    doubled = ("and", [clause(no(b), a), b])
    for _ in range(12):
        doubled = "and", [doubled, doubled]
    by_conjuncts(1, bools(1, 1), doubled, one)
    note("random circuits")
    for _ in range(120):
        asked(*circuit_case(chosen))
    note("their candidates")
    shown = {line for line, _ in LINES}
    LINES.extend((line, answer) for line, answer in OFFERED.items() if line not in shown)


def main():
    chosen = random.Random(16)
    if len(sys.argv) > 1:
        for _ in range(int(sys.argv[1])):
            first, end, point, region = random_case(chosen)
            print(line_of(first, point, region))
            for _, offers, term in choose(first, end, region, point):
                print(f"  {', '.join(map(show, offers))} -> {show(term)}")
        return
    cases(chosen)
    conjoined(random.Random(17))
    defined(random.Random(37))
    write_part("qv_choose_cases", "choices", LINES)
    told = [line.split()[0] for line, answer in LINES if answer not in [None, "bad case"]]
    print(f"{told.count('choose')} regions, {told.count('candidates')} places, {len(LINES)} lines")


if __name__ == "__main__":
    main()
