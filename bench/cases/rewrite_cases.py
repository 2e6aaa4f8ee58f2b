#!/usr/bin/env python3
"""Writes the cases of crates/qv_rewrite_cases (stdin) and what must come (stdout).

    bench/cases/rewrite_cases.py            writes both files
    bench/cases/rewrite_cases.py --check    compares the values of terms before and after, at random points

A pass is the table of rules below, which was written from the rules and not from the code. A simplified
term is rebuilt from its leaves up, each application by the first rule that fits, those of passes first.
Values are those of bench/cases/word_cases.py. Terms are written with the arguments before their operator.
"""
import random
import sys

from rows import write_part
from word_cases import apply, evaluate, parts, rank


# --- terms: a leaf is a text, an application is a pair of its operator and its arguments -------------


def sort_of(t):
    if isinstance(t, str):
        text = t.split(":")[1 if t[0] in "cv" else 0]
        return "bool" if text == "bool" else int(text)
    return rank(t[0], [sort_of(a) for a in t[1]])


def value_of(t):
    """The value of a literal."""
    return int(t.split(":")[1], 16) if isinstance(t, str) and t[0] not in "cv" else None


def literal(sort, value):
    return f"{sort}:{value:x}"


def show(t):
    return t if isinstance(t, str) else " ".join([*map(show, t[1]), t[0]])


# --- the rules --------------------------------------------------------------------------------------

def beside(n, a, b):
    return b if value_of(a) == n else a if value_of(b) == n else None


def among(n, a, b):
    return a if value_of(a) == n else b if value_of(b) == n else None


def fold(op, args):
    if None not in [value_of(a) for a in args]:
        sort, value = apply(op, [(sort_of(a), value_of(a)) for a in args])
        return literal(sort, value)


def not_not(op, args):
    if op in ["not", "bvnot", "bvneg"] and not isinstance(args[0], str) and args[0][0] == op:
        return args[0][1][0]


def ite_known(op, args):
    if op == "ite" and value_of(args[0]) is not None:
        return args[1] if value_of(args[0]) == 1 else args[2]


def add_zero(op, args):
    if op == "bvadd":
        return beside(0, *args)
    if op == "bvsub" and value_of(args[1]) == 0:
        return args[0]


RULES = {
    "Fold": fold,
    "Same": lambda op, args: "bool:1" if op == "=" and args[0] == args[1] else None,
    "NotNot": not_not,
    "Unit": lambda op, args: beside(1, *args) if op == "and" else beside(0, *args) if op == "or" else None,
    "Absorb": lambda op, args: among(0, *args) if op == "and" else among(1, *args) if op == "or" else None,
    "IteKnown": ite_known,
    "IteSame": lambda op, args: args[1] if op == "ite" and args[1] == args[2] else None,
    "AddZero": add_zero,
    "MulOne": lambda op, args: beside(1, *args) if op == "bvmul" else None,
    "MulZero": lambda op, args: among(0, *args) if op == "bvmul" else None,
}


def name_of(rule):
    """The name of a rule in certificates."""
    return "".join(f"-{c.lower()}" if c.isupper() else c for c in rule)[1:]


def passed(rule, t):
    if isinstance(t, str):
        return t
    args = [passed(rule, a) for a in t[1]]
    made = RULES[rule](t[0], args)
    return (t[0], args) if made is None else made


# --- the rules by which terms are simplified besides, in their order ----------------------------------


def twins(op, args):
    if len(args) == 2 and args[0] == args[1]:
        if op in ["and", "or", "bvand", "bvor"]:
            return args[0]
        if op in ["bvxor", "bvsub"]:
            return literal(sort_of(args[0]), 0)
        if op in ["xor", "bvult", "bvugt", "bvslt", "bvsgt"]:
            return "bool:0"
        if op in ["=>", "bvule", "bvuge", "bvsle", "bvsge"]:
            return "bool:1"


def past_ends(op, args):
    if op in ["bvult", "bvugt", "bvule", "bvuge"]:
        low, high = args if op in ["bvugt", "bvule"] else args[::-1]
        if value_of(low) == 0 or value_of(high) == 2 ** sort_of(high) - 1:
            return "bool:0" if op in ["bvult", "bvugt"] else "bool:1"


def opposites(op, args):
    if op in ["and", "or"] and (args[0] == ("not", [args[1]]) or args[1] == ("not", [args[0]])):
        return "bool:0" if op == "and" else "bool:1"


def other_side(op, known, t, sides):
    """What stands beside a term under this operator, before it (side 0) or behind it (side 1)."""
    for side in sides:
        if not isinstance(t, str) and t[0] == op and t[1][1 - side] == known:
            return t[1][side]


def undone(op, args):
    forms = {
        "bvadd": [("bvsub", 0, [0]), ("bvsub", 1, [0])],
        "bvsub": [("bvadd", 0, [0, 1]), ("bvsub", 1, [1])],
        "bvxor": [("bvxor", 0, [0, 1]), ("bvxor", 1, [0, 1])],
        "bvxnor": [("bvxnor", 0, [0, 1]), ("bvxnor", 1, [0, 1])],
    }
    for below, place, sides in forms.get(op, []):
        made = other_side(below, args[1 - place], args[place], sides)
        if made is not None:
            return made


def known(op, args):
    if op == "=":
        return args[1] if args[0] == "bool:1" else args[0] if args[1] == "bool:1" else None


def chosen_truth(op, args):
    if op == "ite" and args[1:] == ["bool:1", "bool:0"]:
        return args[0]


FURTHER = [twins, past_ends, opposites, undone, known, chosen_truth]


def simple(t):
    if isinstance(t, str):
        return t
    args = [simple(a) for a in t[1]]
    made = (rule(t[0], args) for rule in [*RULES.values(), *FURTHER])
    return next((u for u in made if u is not None), (t[0], args))


# --- random terms -----------------------------------------------------------------------------------

WIDTHS = [1, 3, 8, 128]


def random_leaf(chosen, sort):
    if chosen.random() < 0.55:
        top = 2 if sort == "bool" else 2**sort
        return literal(sort, chosen.choice([0, 0, 1, top - 1, chosen.randrange(top)]))
    return f"{chosen.choice('cvv')}{chosen.randrange(2)}:{sort}"


def random_term(chosen, sort, depth):
    if depth == 0 or chosen.random() < 0.15:
        return random_leaf(chosen, sort)

    def some(of):
        return random_term(chosen, of, depth - 1)

    same = some(sort)
    either = lambda: same if chosen.random() < 0.3 else some(sort)
    if chosen.random() < 0.2:
        return "ite", [some("bool"), same, either()]
    if sort == "bool":
        w = chosen.choice(WIDTHS)
        side = some(w)
        op = chosen.choice(["not", "not", "and", "or", "xor", "=>", "=", "=", "bvult", "bvsle", "bvnego"])
        if op == "not":
            return op, [("not", [same]) if chosen.random() < 0.5 else same]
        if op in ["and", "or", "xor", "=>"]:
            return op, [same, either()]
        if op == "bvnego":
            return op, [side]
        return op, [side, side if chosen.random() < 0.4 else some(w)]
    op = chosen.choice(["bvnot", "bvneg", "bvadd", "bvsub", "bvmul", "bvand", "bvxor", "bvudiv", "bvshl",
                        f"rotate_left:{chosen.randrange(9)}"])
    if op in ["bvnot", "bvneg"]:
        return op, [(op, [same]) if chosen.random() < 0.5 else same]
    if op.startswith("rotate"):
        return op, [same]
    args = [same, either()]
    chosen.shuffle(args)
    return op, args


def further_terms(x, y, p, q):
    """The forms of the further rules, and others that look alike."""
    truths, compared = ["and", "or", "xor", "=>"], [f"bv{sign}{which}" for sign in "us" for which in ["lt", "le", "gt", "ge"]]
    counted = ["bvand", "bvor", "bvxor", "bvxnor", "bvnand", "bvadd", "bvsub", "bvmul", "bvudiv", "bvshl"]
    terms = [(op, [p, other]) for op in truths for other in [p, q]]
    terms += [(op, [x, other]) for op in counted + compared for other in [x, y]]
    terms += [(op, sides) for op in compared for end in ["8:0", "8:1", "8:7f", "8:80", "8:fe", "8:ff"] for sides in [[x, end], [end, x]]]
    terms += [(op, ["v0:128", literal(128, 2**128 - 1)]) for op in compared]
    terms += [(op, sides) for op in truths for sides in [[p, ("not", [p])], [("not", [p]), p], [p, ("not", [q])], [("not", [q]), ("not", [p])]]]
    crossed = ["bvadd", "bvsub", "bvxor", "bvxnor", "bvand"]
    for outer in crossed:
        for inner in crossed:
            for below in [[y, x], [x, y]]:
                terms += [(outer, [(inner, below), x]), (outer, [x, (inner, below)])]
    terms += [("=", [p, lit]) for lit in ["bool:1", "bool:0"]] + [("=", [lit, p]) for lit in ["bool:1", "bool:0"]]
    terms += [("=", ["v0:1", "1:1"]), ("=", ["1:1", "v0:1"])]
    terms += [("ite", [p, a, b]) for a in ["bool:1", "bool:0", q] for b in ["bool:1", "bool:0", q]]
    terms += [("ite", [p, "1:1", "1:0"]), ("ite", [p, "8:1", "8:0"]), ("ite", [p, x, "8:0"])]
    return terms


def random_known(chosen, sort, depth):
    """A random term in which the forms of the further rules come often."""
    t = random_term(chosen, sort, depth)
    if sort == "bool":
        w = chosen.choice(WIDTHS)
        a, end = random_term(chosen, w, depth), chosen.choice([0, 2**w - 1])
        compared = [f"bv{sign}{which}" for sign in "us" for which in ["lt", "le", "gt", "ge"]]
        return chosen.choice([
            (chosen.choice(["and", "or"]), [t, ("not", [t])]), (chosen.choice(["and", "or", "=>", "xor"]), [t, t]),
            (chosen.choice(compared), [a, literal(w, end)]), (chosen.choice(compared), [literal(w, end), a]),
            (chosen.choice(compared), [a, a]), ("=", [t, "bool:1"]), ("ite", [t, "bool:1", "bool:0"]),
        ])
    other = random_term(chosen, sort, depth)
    outer, inner = chosen.choice(["bvadd", "bvsub", "bvxor", "bvxnor"]), chosen.choice(["bvadd", "bvsub", "bvxor", "bvxnor"])
    below = (inner, chosen.choice([[t, other], [other, t]]))
    return chosen.choice([(outer, [below, t]), (outer, [t, below]), (chosen.choice(["bvand", "bvor", "bvsub", "bvxor"]), [t, t])])


SORTS = ["bool", *WIDTHS]


def at_point(t):
    """The term with a number for each constant and each variable that tells its sort."""
    if not isinstance(t, str):
        return t[0], [at_point(a) for a in t[1]]
    if t[0] not in "cv":
        return t
    return f"{t[0]}{2 * SORTS.index(sort_of(t)) + int(t[1])}:{sort_of(t)}"


# --- the cases --------------------------------------------------------------------------------------

LINES = []
ASKED = []


def note(text):
    LINES.extend([("", None)] if LINES else [])
    LINES.append((f"# {text}", None))


def asked(command, t, made):
    ASKED.append((t, made))
    LINES.append((f"{command} {show(t)}", show(made)))


def asked_all(rule, terms):
    made = [passed(rule, t) for t in terms]
    ASKED.extend(zip(terms, made))
    line = f"pass {name_of(rule)} {'; '.join(map(show, terms))}" if terms else f"pass {name_of(rule)}"
    LINES.append((line, "; ".join(map(show, made)) if made else "no terms"))


def cases(chosen):
    x, y, p, q = "v0:8", "v1:8", "v0:bool", "v1:bool"
    note("the passes by their names")
    names = list(map(name_of, RULES))
    for name in [*names, "sum", "xor", "simp", "", "su", "sums", "xo", "xors", "sim", "simps", "melt", "Fold", "fol", "folds", "not_not", "mul-two", "-"]:
        LINES.append((f"name {name}", name if name in [*names, "sum", "xor", "simp"] else "none"))
    note("each rule, where it fits and where it doesn't")
    chosen_terms = [
        ("=", [x, x]), ("=", [x, y]), ("=", [p, p]), ("not", [("not", [p])]), ("bvnot", [("bvnot", [x])]),
        ("bvneg", [("bvneg", [x])]), ("bvneg", [("bvnot", [x])]), ("and", [p, "bool:1"]), ("and", ["bool:1", p]),
        ("or", [p, "bool:0"]), ("or", ["bool:0", p]), ("and", [p, "bool:0"]), ("and", ["bool:0", p]),
        ("or", [p, "bool:1"]), ("or", ["bool:1", p]), ("xor", [p, "bool:0"]), ("ite", ["bool:1", x, y]),
        ("ite", ["bool:0", x, y]), ("ite", [p, x, x]), ("ite", [p, x, y]), ("bvadd", [x, "8:0"]), ("bvadd", ["8:0", x]),
        ("bvsub", [x, "8:0"]), ("bvsub", ["8:0", x]), ("bvmul", [x, "8:1"]), ("bvmul", ["8:1", x]), ("bvmul", [x, "8:0"]),
        ("bvmul", ["8:0", x]), ("bvmul", [x, "8:2"]), ("bvadd", ["8:1", "8:ff"]), ("bvnot", ["8:f0"]),
        ("ite", ["bool:0", "8:1", "8:2"]), ("=", ["8:1", "8:1"]), ("concat", ["8:1", "8:2"]), ("bvadd", [x, "8:1"]),
        ("and", ["bool:1", "bool:1"]), ("bvmul", ["8:0", "8:1"]), ("not", [("=", [("bvadd", [x, "8:0"]), x])]),
    ]
    for t in chosen_terms:
        for rule in RULES:
            asked(f"pass {name_of(rule)}", t, passed(rule, t))
        asked("simplify", t, simple(t))
    note("an equation of a term with itself, and a sum of literals")
    same = ("bvnot", [x])
    for t in [("=", [same, same]), ("bvadd", ["8:1", "8:2"])]:
        asked("simplify", t, simple(t))
    note("each further rule, where it fits and where it doesn't")
    for t in further_terms(x, y, p, q):
        asked("simplify", t, simple(t))
    note("terms that rules leave alone, and leaves")
    for t in [x, "c0:bool", "8:ff", "128:ffffffffffffffffffffffffffffffff", ("bvadd", [x, y])]:
        asked("pass fold", t, t)
        asked("simplify", t, t)
    note("random terms")
    for i in range(1000):
        t = random_term(chosen, chosen.choice(["bool", *WIDTHS]), chosen.randrange(1, 5))
        if i % 2:
            asked("simplify", t, simple(t))
        else:
            rule = chosen.choice(list(RULES))
            asked(f"pass {name_of(rule)}", t, passed(rule, t))
    note("random terms in which the further rules fit")
    for _ in range(300):
        t = random_known(chosen, chosen.choice(SORTS), chosen.randrange(1, 4))
        asked("simplify", t, simple(t))
    note("random terms with their values before and after at random points")
    for i in range(1000):
        make = random_known if i % 4 == 0 else random_term
        t = at_point(make(chosen, chosen.choice(SORTS), chosen.randrange(1, 4)))
        rule = None if i % 2 == 0 else chosen.choice(list(RULES))
        made = passed(rule, t) if rule else simple(t)
        words = [[(of, chosen.randrange(2 if of == "bool" else 2**of)) for of in SORTS for _ in range(2)] for _ in range(2)]
        values = " ".join(literal(*evaluate(u, *words)) for u in [t, made])
        ASKED.append((t, made))
        line = f"at {name_of(rule) if rule else 'simplify'} {' | '.join(' '.join(literal(*word) for word in each) for each in words)} | {show(t)}"
        LINES.append((line, f"{show(made)} {values}"))
    note("lists: none, the same term twice, and terms that share others")
    zero, twice = ("bvadd", [x, "8:0"]), ("not", [("not", [p])])
    lists = [
        [], [x, y], [y, x], [x, x], [zero, zero], [zero, x], [x, zero], [zero, ("bvadd", [y, "8:0"]), zero],
        [zero, ("=", [zero, x]), ("bvmul", [zero, zero])], [("=", [zero, x]), zero, ("not", [("=", [zero, x])])],
        [twice, ("not", [twice]), p], [p, ("not", [p]), twice, ("and", [twice, "bool:1"])],
        [("ite", ["bool:1", zero, y]), y, zero], ["8:1", ("bvadd", ["8:1", "8:ff"]), "8:0", ("bvmul", [x, "8:0"])],
        [("=", [x, x]), ("=", [x, y]), ("and", [("=", [x, x]), ("=", [x, y])])],
    ]
    for terms in lists:
        for rule in RULES:
            asked_all(rule, terms)
    note("random lists, in which a term comes again, alone and below others")
    for _ in range(200):
        terms = [random_term(chosen, chosen.choice(["bool", *WIDTHS]), chosen.randrange(1, 4)) for _ in range(chosen.randrange(1, 4))]
        again = chosen.choice(terms)
        terms += [again, ("=", [again, again]), ("not", [("=", [again, again])])]
        chosen.shuffle(terms)
        asked_all(chosen.choice(list(RULES)), terms)
    note("these aren't cases")
    for line in ["simplify v0:8 v1:8", "simplify v0:8 v1:7 bvadd", "simplify bvadd", "simplify v0:8 bvadd",
                 "pass Fold v0:8", "pass folds", "pass fold v0:8;", "pass fold v0:8; v0:8 v1:8; v1:8", "pass fold v0:129", "simplify v0:8 v1:8 nand",
                 "at simplify 8:1 | v0:8", "at simplify | 8:1 | v1:8", "at simplify | 7:1 | v0:8", "at simple | 8:1 | v0:8", "at fold | 8:1 | v0:8 v0:8"]:
        LINES.append((line, "bad case"))


def check(chosen):
    for t, made in ASKED:
        for _ in range(4):
            def put(u):
                if isinstance(u, str):
                    if u[0] not in "cv":
                        return u
                    if u not in points:
                        of = sort_of(u)
                        points[u] = literal(of, chosen.randrange(2 if of == "bool" else 2**of))
                    return points[u]
                return u[0], [put(a) for a in u[1]]

            points = {}
            assert evaluate(put(t), [], []) == evaluate(put(made), [], []), (t, made)
    print(f"{len(ASKED)} terms keep their values")


def main():
    chosen = random.Random(1000)
    cases(chosen)
    if "--check" in sys.argv:
        check(chosen)
        return
    import simp_cases, sum_cases, xor_cases
    for others in [sum_cases, xor_cases, simp_cases]:
        LINES.append(("", None))
        LINES.extend(others.rows(random.Random(1000)))
    write_part("qv_rewrite_cases", "passes and simplification", LINES)
    print(f"{len(ASKED)} terms, {len(LINES)} lines")


if __name__ == "__main__":
    main()
