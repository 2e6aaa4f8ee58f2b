#!/usr/bin/env python3
"""Writes the cases of crates/qv_words_cases (stdin) and what must come (stdout).

    bench/cases/word_cases.py            writes both files
    bench/cases/word_cases.py --check    asks z3 and cvc5 whether the values that are wanted are theirs

The values come from the operators' definitions over whole numbers, below, and from nothing of this
repository. A value is a number from 0; w is the width of the arguments, m is 2^w, s(a) is a where its
highest bit is 0 and a - m otherwise.
"""
import random
import subprocess
import sys

from rows import write_rows

ALL_WIDTHS = [1, 2, 3, 4, 8, 64, 127, 128]
MOST = 2**128 - 1


# --- operators over whole numbers -------------------------------------------------------------------

def signed(a, w):
    return a - (1 << w) if a >> (w - 1) else a


def magnitude(a, w):
    return (2**w - a) % 2**w if a >> (w - 1) else a


def udiv(a, b, w):
    return 2**w - 1 if b == 0 else a // b


def urem(a, b, w):
    return a if b == 0 else a % b


def sdiv(a, b, w):
    q = udiv(magnitude(a, w), magnitude(b, w), w)
    return -q % 2**w if a >> (w - 1) != b >> (w - 1) else q


def srem(a, b, w):
    r = urem(magnitude(a, w), magnitude(b, w), w)
    return -r % 2**w if a >> (w - 1) else r


def smod(a, b, w):
    m, u = 2**w, urem(magnitude(a, w), magnitude(b, w), w)
    if u == 0:
        return 0
    minus_a, minus_b = a >> (w - 1), b >> (w - 1)
    if minus_a and minus_b:
        return (m - u) % m
    if minus_a:
        return (b - u) % m
    return (u + b) % m if minus_b else u


def outside(x, w):
    return int(not -(2 ** (w - 1)) <= x < 2 ** (w - 1))


# two bit-vectors of one width give a third
TWO = {
    "bvand": lambda a, b, w: a & b,
    "bvor": lambda a, b, w: a | b,
    "bvxor": lambda a, b, w: a ^ b,
    "bvnand": lambda a, b, w: 2**w - 1 - (a & b),
    "bvnor": lambda a, b, w: 2**w - 1 - (a | b),
    "bvxnor": lambda a, b, w: 2**w - 1 - (a ^ b),
    "bvadd": lambda a, b, w: (a + b) % 2**w,
    "bvsub": lambda a, b, w: (a - b) % 2**w,
    "bvmul": lambda a, b, w: a * b % 2**w,
    "bvudiv": udiv,
    "bvurem": urem,
    "bvsdiv": sdiv,
    "bvsrem": srem,
    "bvsmod": smod,
    "bvshl": lambda a, b, w: 0 if b >= w else (a << b) % 2**w,
    "bvlshr": lambda a, b, w: 0 if b >= w else a >> b,
    "bvashr": lambda a, b, w: (signed(a, w) >> min(b, w)) % 2**w,
}

# or a truth value
TESTS = {
    "bvult": lambda a, b, w: int(a < b),
    "bvule": lambda a, b, w: int(a <= b),
    "bvugt": lambda a, b, w: int(a > b),
    "bvuge": lambda a, b, w: int(a >= b),
    "bvslt": lambda a, b, w: int(signed(a, w) < signed(b, w)),
    "bvsle": lambda a, b, w: int(signed(a, w) <= signed(b, w)),
    "bvsgt": lambda a, b, w: int(signed(a, w) > signed(b, w)),
    "bvsge": lambda a, b, w: int(signed(a, w) >= signed(b, w)),
    "bvuaddo": lambda a, b, w: int(a + b >= 2**w),
    "bvsaddo": lambda a, b, w: outside(signed(a, w) + signed(b, w), w),
    "bvumulo": lambda a, b, w: int(a * b >= 2**w),
    "bvsmulo": lambda a, b, w: outside(signed(a, w) * signed(b, w), w),
    "bvusubo": lambda a, b, w: int(a < b),
    "bvssubo": lambda a, b, w: outside(signed(a, w) - signed(b, w), w),
    "bvsdivo": lambda a, b, w: int(signed(a, w) == -(2 ** (w - 1)) and signed(b, w) == -1),
}

LOGIC = {
    "and": lambda a, b: a & b,
    "or": lambda a, b: a | b,
    "xor": lambda a, b: a ^ b,
    "=>": lambda a, b: (1 - a) | b,
}

VARIANTS = {"=>": "Implies", "=": "Equal"}
ONE = ["bvnot", "bvneg", "bvnego"]
INDEXED = {"extract": 2, "repeat": 1, "zero_extend": 1, "sign_extend": 1, "rotate_left": 1, "rotate_right": 1}
NAMES = ["not", *LOGIC, "=", "ite", "bvnot", "bvneg", *TWO, *[t for t in TESTS if not t.endswith("o")],
         "bvcomp", "concat", *INDEXED, "bvnego", *[t for t in TESTS if t.endswith("o")]]


def parts(op):
    name, *indices = op.split(":")
    return name, [int(i) for i in indices]


def variant(name, indices=()):
    """What the code calls an operator."""
    called = VARIANTS.get(name)
    if called is None:
        words = name.split("_")
        called = "".join("Bv" + p[2:].capitalize() if p.startswith("bv") else p.capitalize() for p in words)
    return called + (f"({', '.join(map(str, indices))})" if indices else "")


def one(name, indices, a, w):
    """The sort and the value of an operator of one bit-vector."""
    m = 2**w
    if name == "bvnot":
        return w, m - 1 - a
    if name == "bvneg":
        return w, (m - a) % m
    if name == "bvnego":
        return "bool", int(a == m // 2)
    if name == "extract":
        i, j = indices
        return i - j + 1, a // 2**j % 2 ** (i - j + 1)
    k = indices[0]
    if name == "repeat":
        return k * w, sum(a * 2 ** (w * i) for i in range(k))
    if name == "zero_extend":
        return w + k, a
    if name == "sign_extend":
        return w + k, signed(a, w) % 2 ** (w + k)
    by = k % w if name == "rotate_left" else -k % w
    return w, sum((a >> i & 1) << (i + by) % w for i in range(w))


def rank(op, sorts):
    """The sort of an application, or its first fault."""
    name, indices = parts(op)
    widths = [s for s in sorts if s != "bool"]
    booleans = len(sorts) - len(widths)
    arity = 1 if name in ["not", *ONE, *INDEXED] else 3 if name == "ite" else 2
    if len(sorts) != arity:
        return "Arity"
    if name in ["not", *LOGIC]:
        return "bool" if not widths else "Sorts"
    if name == "=":
        return "bool" if sorts[0] == sorts[1] else "Sorts"
    if name == "ite":
        return sorts[1] if sorts[0] == "bool" and sorts[1] == sorts[2] else "Sorts"
    if booleans or (arity == 2 and name != "concat" and len(set(widths)) > 1):
        return "Sorts"
    w = widths[0]
    if name == "extract" and not w > indices[0] >= indices[1] or name == "repeat" and indices[0] < 1:
        return "Index"
    if name in TESTS or name == "bvnego":
        return "bool"
    wide = {"bvcomp": 1, "concat": sum(widths), "repeat": (indices or [1])[0] * w,
            "zero_extend": w + sum(indices), "sign_extend": w + sum(indices),
            "extract": indices[0] - indices[-1] + 1 if indices else 0}.get(name, w)
    return wide if wide <= 128 else "Width"


def apply(op, args):
    """The sort and the value of an application to words that have a rank."""
    name, indices = parts(op)
    sort, values = rank(op, [s for s, _ in args]), [v for _, v in args]
    if name == "not":
        value = 1 - values[0]
    elif name in LOGIC:
        value = LOGIC[name](*values)
    elif name in ["=", "bvcomp"]:
        value = int(values[0] == values[1])
    elif name == "ite":
        value = values[1] if values[0] == 1 else values[2]
    elif name == "concat":
        value = values[0] * 2 ** args[1][0] + values[1]
    elif name in TWO or name in TESTS:
        value = (TWO.get(name) or TESTS[name])(*values, args[0][0])
    else:
        value = one(name, indices, values[0], args[0][0])[1]
    return sort, value


# --- terms ------------------------------------------------------------------------------------------

def read(text):
    """The terms of a text: leaves are words, and a form is its head and its terms."""
    stack = [[]]
    for token in text.replace("(", " ( ").replace(")", " ) ").split():
        if token == "(":
            stack.append([])
        elif token == ")":
            form = stack.pop()
            stack[-1].append((form[0], form[1:]))
        else:
            stack[-1].append(token)
    return stack[0]


def sort_named(text):
    return "bool" if text == "bool" else int(text)


def leaf_sort(leaf):
    return sort_named(leaf.split(":")[1 if leaf[0] in "cv" else 0])


def term_sort(t):
    if isinstance(t, str):
        return leaf_sort(t)
    head, kids = t
    sorts = [term_sort(k) for k in kids]
    if "none" in sorts:
        return "none"
    if head.split(":")[0] in ["forall", "exists"]:
        return "bool" if sorts == ["bool"] else "none"
    found = rank(head, sorts)
    return "none" if found in ["Arity", "Sorts", "Index", "Width"] else found


def show(t):
    if isinstance(t, str):
        of, value = t.split(":")
        return t if t[0] in "cv" else f"{of}:{int(value, 16):x}"
    return "(" + " ".join([t[0], *map(show, t[1])]) + ")"


def put_in(t, terms):
    if isinstance(t, str):
        if t[0] != "v":
            return t
        level = int(t[1:].split(":")[0])
        return terms[level] if level < len(terms) and terms[level] != "-" else t
    return t[0], [put_in(k, terms) for k in t[1]]


def quantified(t):
    return not isinstance(t, str) and (t[0].startswith(("forall", "exists")) or any(map(quantified, t[1])))


def evaluate(t, consts, levels):
    """The word that a term means, or nothing where a leaf has no word of its sort."""
    if isinstance(t, str):
        if t[0] not in "cv":
            of, value = t.split(":")
            return sort_named(of), int(value, 16)
        number, words = int(t[1:].split(":")[0]), consts if t[0] == "c" else levels
        return words[number] if number < len(words) and words[number][0] == leaf_sort(t) else None
    args = [evaluate(k, consts, levels) for k in t[1]]
    return None if None in args else apply(t[0], args)


# --- the cases --------------------------------------------------------------------------------------

LINES = []  # each case with its answer; a comment or a blank line with None
APPLIED = []  # what is asked outside


def note(text):
    LINES.extend([("", None)] if LINES else [])
    LINES.append((f"# {text}", None))


def case(line, answer):
    LINES.append((line, str(answer)))


def word(w):
    return f"{w[0]}:{w[1]:x}"


def applied(op, *args):
    wanted = apply(op, args)
    APPLIED.append((op, args, wanted))
    case(f"apply {op} {' '.join(map(word, args))}", word(wanted))


def ranked(op, *sorts):
    case(f"rank {op} {' '.join(map(str, sorts))}".strip(), rank(op, list(sorts)))


def sorts_and_words():
    note("widths are from 1 to 128")
    for w in [0, 1, 2, 8, 127, 128, 129, 255, 256, 257, 384, 2**64 + 8, 2**127, MOST]:
        case(f"sort {w}", w if 1 <= w <= 128 else "none")
    for s in ["bool", 1, 8, 127, 128]:
        case(f"width {s}", 1 if s == "bool" else s)
    note("a word is in range of its sort")
    for s, v in [("bool", 0), ("bool", 1), ("bool", 2), ("bool", MOST), (8, 256), (8, 255)]:
        fits = v < 2 ** (1 if s == "bool" else s)
        case(f"word {s} {v:x}", word((s, v)) if fits else "none")
    for w in ALL_WIDTHS:
        for v in [0, 2**w - 1, *([2**w, 2**w + 1, MOST] if w < 128 else [])]:
            case(f"word {w} {v:x}", word((w, v)) if v < 2**w else "none")
    for holds in ["false", "true"]:
        case(f"truth {holds}", f"bool:{int(holds == 'true')}")


# values that were looked at one by one before they were in a table
CHOSEN = [
    (["bvand", "bvor", "bvxor", "bvnand", "bvnor", "bvxnor"],
     [(1, 1, 0), (7, 0x55, 0x33), (128, 0x123456789ABCDEF00000000FEDCBA98, 0xFFFF000000000000000000000F0F0F0F)]),
    (["bvadd", "bvsub", "bvmul"],
     [(1, 1, 1), (8, 0xC8, 0x64), (65, 2**65 - 1, 3), (127, 2**126, 2**126 + 5), (128, 2**128 - 2, 2**128 - 7)]),
    (["bvudiv", "bvurem", "bvsdiv", "bvsrem", "bvsmod"],
     [(1, 1, 1), (8, 0xFB, 3), (8, 5, 0xFD), (8, 0xFB, 0xFD), (8, 0xFB, 0), (8, 0x80, 0xFF), (64, 2**63, 7),
      (128, 2**128 - 21, 6)]),
    (["bvshl", "bvlshr", "bvashr"],
     [(1, 1, 1), (7, 0x55, 3), (8, 0x80, 0xFF), (8, 0x81, 8), (65, 2**64 + 1, 64), (127, 2**126 - 1, 126),
      (128, 2**127 + 3, 127), (128, 2**127 + 3, 128), (128, 2**127 + 3, MOST)]),
    (["bvult", "bvule", "bvugt", "bvuge", "bvslt", "bvsle", "bvsgt", "bvsge", "bvcomp", "="],
     [(1, 0, 1), (8, 0x7F, 0x80), (8, 0xFF, 0xFE), (64, 5, 5), (128, 2**127, 2**127 - 1)]),
    (["bvuaddo", "bvsaddo", "bvumulo", "bvsmulo", "bvusubo", "bvssubo", "bvsdivo"],
     [(1, 1, 1), (8, 0xFF, 1), (8, 0xFE, 1), (8, 0x80, 0xFF), (8, 0x7F, 1), (8, 0x80, 0), (64, 2**32, 2**32),
      (64, 2**32 - 1, 2**32 - 1), (127, 2**126, 2), (128, 2**127, MOST), (128, MOST, MOST), (128, 2**64, 2**63)]),
]


def pairs(w):
    """Two values each: the edges of a width, of its signs and of shifts by it, and some between."""
    m, top = 2**w, 2 ** (w - 1)
    if w == 1:
        return [(a, b) for a in range(2) for b in range(2)]
    if w == 2:
        return [(0, 3), (1, 1), (1, 2), (2, 1), (2, 2), (2, 3), (3, 2), (3, 3)]
    a, b = random.randrange(top, m), random.randrange(1, top)
    edges = [(top, m - 1), (m - 1, 1), (top - 1, 1), (a, w % m), (b, a)]
    if w <= 4:
        return edges
    half = 2 ** (w // 2)
    return edges + [(a, w - 1), (top, 0), (half, half), (a, half - 1)]


def values_of_two():
    for ops, rows in CHOSEN:
        note(f"chosen values of {' '.join(ops)}")
        for w, a, b in rows:
            for op in ops:
                applied(op, (w, a), (w, b))
    note("four quotients and remainders with signs")
    for op, a, b in [("bvsdiv", 0xFB, 3), ("bvsrem", 0xFB, 3), ("bvsmod", 0xFB, 3), ("bvsmod", 5, 0xFD)]:
        applied(op, (8, a), (8, b))
    table = {w: pairs(w) for w in ALL_WIDTHS}
    for op in [*TWO, *TESTS, "bvcomp", "="]:
        note(op)
        for w in ALL_WIDTHS:
            for a, b in table[w]:
                applied(op, (w, a), (w, b))


def values_of_one():
    note("operators of one bit-vector, at chosen values")
    for op, w, a in [("bvnot", 7, 0x55), ("bvnot", 128, 1), ("bvneg", 8, 0x80), ("bvneg", 128, 1), ("bvneg", 64, 0),
                     ("extract:6:2", 8, 0xA5), ("extract:127:127", 128, 2**127), ("extract:0:0", 1, 1),
                     ("repeat:3", 7, 0x41), ("repeat:1", 128, 2**127), ("repeat:128", 1, 1),
                     ("zero_extend:0", 8, 0x80), ("zero_extend:127", 1, 1), ("sign_extend:1", 8, 0x80),
                     ("sign_extend:127", 1, 1), ("sign_extend:63", 65, 5), ("rotate_left:1", 8, 0x81),
                     ("rotate_left:15", 7, 0x41), (f"rotate_left:{MOST}", 128, 3), ("rotate_right:1", 8, 0x81),
                     ("rotate_right:65", 65, 1), ("rotate_right:129", 128, 1), ("bvnego", 1, 1), ("bvnego", 8, 0x80),
                     ("bvnego", 8, 0x7F), ("bvnego", 128, 2**127)]:
        applied(op, (w, a))
    for op in [*ONE, *INDEXED]:
        note(f"{op}, at each width")
        for w in ALL_WIDTHS:
            some = random.randrange(2**w)
            fill = 128 // w
            indices = {"extract": {(0, 0), (w - 1, 0), (w - 1, w - 1), (w - 1, w // 2), (w // 2, w // 4)},
                       "repeat": {(1,), (fill,), ((fill + 1) // 2,)},
                       "zero_extend": {(0,), (128 - w,), ((128 - w) // 2,)},
                       "sign_extend": {(0,), (128 - w,), ((128 - w) // 2,)},
                       "rotate_left": {(0,), (1,), (w,), (w + 1,), (w - 1,), (MOST,)},
                       "rotate_right": {(0,), (1,), (w,), (w + 1,), (w - 1,), (MOST,)}}.get(op, {()})
            for index in sorted(indices):
                for a in sorted({some, 2 ** (w - 1), 2**w - 1} if index else {0, 1, some, 2 ** (w - 1), 2**w - 1}):
                    if a < 2**w:
                        applied(":".join([op, *map(str, index)]), (w, a))


def values_of_others():
    note("truth values")
    for op in LOGIC:
        for a in range(2):
            for b in range(2):
                applied(op, ("bool", a), ("bool", b))
    for a in range(2):
        applied("not", ("bool", a))
        for b in range(2):
            applied("=", ("bool", a), ("bool", b))
            for c in range(2):
                applied("ite", ("bool", a), ("bool", b), ("bool", c))
        for w in ALL_WIDTHS:
            applied("ite", ("bool", a), (w, 2**w - 1), (w, 2 ** (w - 1) - 1))
    note("concat")
    for v, w in [(64, 7), (1, 1), (1, 127), (127, 1), (64, 64), (3, 5), (100, 28), (2, 126)]:
        for a, b in [(2**v - 1, 0), (0, 2**w - 1), (random.randrange(2**v), random.randrange(2**w))]:
            applied("concat", (v, a), (w, b))
    applied("concat", (64, 1), (7, 0x55))


GOOD_RANKS = [
    ("not", "bool"), *[(op, "bool", "bool") for op in LOGIC], ("=", "bool", "bool"), ("=", 8, 8), ("=", 128, 128),
    ("ite", "bool", "bool", "bool"), ("ite", "bool", 8, 8), ("ite", "bool", 3, 3), ("bvnot", 8), ("bvneg", 128),
    ("bvcomp", 128, 128), ("concat", 64, 64), ("concat", 1, 127), ("concat", 127, 1), ("concat", 1, 1),
    ("extract:7:0", 8), ("extract:7:7", 8), ("extract:0:0", 1), ("extract:127:1", 128), ("extract:127:0", 128),
    ("repeat:1", 128), ("repeat:128", 1), ("repeat:4", 32), ("repeat:2", 64), ("zero_extend:0", 8),
    ("zero_extend:127", 1), ("zero_extend:0", 128), ("sign_extend:120", 8), ("sign_extend:0", 1),
    (f"rotate_left:{MOST}", 8), ("rotate_left:0", 128), ("rotate_right:0", 1), ("rotate_right:129", 128),
    ("bvnego", 8), ("bvusubo", 1, 1), ("bvsdivo", 128, 128)]

FAULTY_RANKS = [
    ("not",), ("not", "bool", "bool"), ("and", "bool"), ("=>", 8, 8, 8), ("=", 8), ("=", "bool", "bool", "bool"),
    ("ite", "bool", 8), ("ite", 8, 8, 8, 8), ("bvnot",), ("bvnot", "bool", "bool"), ("bvadd", 8), ("bvadd", 8, 8, 8),
    ("bvult",), ("concat", 128), ("concat", 128, 128, 128), ("extract:3:7", 8, 8), ("repeat:0",),
    (f"zero_extend:{MOST}", "bool", "bool"), ("rotate_right:1", 8, 8), ("bvnego", 8, 8), ("bvuaddo", "bool"),
    ("not", 1), ("and", "bool", 1), ("=", "bool", 1), ("=", 8, 9), ("ite", 1, 3, 3), ("ite", "bool", 3, 4),
    ("ite", "bool", "bool", 1), ("bvnot", "bool"), ("bvadd", "bool", "bool"), ("bvadd", 8, 9), ("bvult", 8, "bool"),
    ("bvcomp", 128, 127), ("concat", "bool", 8), ("concat", 128, "bool"), ("extract:3:7", "bool"),
    ("extract:8:0", "bool"), ("repeat:0", "bool"), (f"sign_extend:{MOST}", "bool"), ("rotate_left:1", "bool"),
    ("bvnego", "bool"), ("bvsmulo", 8, 9),
    ("extract:8:0", 8), ("extract:8:8", 8), ("extract:3:4", 8), ("extract:2:3", 8), ("extract:1:1", 1),
    ("extract:128:0", 128), (f"extract:{MOST}:0", 128), (f"extract:{MOST}:{MOST}", 8), (f"extract:0:{MOST}", 8),
    ("extract:256:0", 8), ("extract:263:256", 8), ("repeat:0", 8), ("repeat:0", 128),
    ("concat", 64, 65), ("concat", 128, 1), ("concat", 1, 128), ("concat", 128, 128), ("repeat:2", 65),
    ("repeat:17", 8), ("repeat:129", 1), (f"repeat:{2**125}", 8), (f"repeat:{2**127}", 2), (f"repeat:{MOST}", 1),
    (f"repeat:{MOST}", 2), (f"repeat:{MOST}", 128), ("zero_extend:121", 8), ("zero_extend:249", 8),
    (f"zero_extend:{MOST}", 1), ("sign_extend:1", 128), (f"sign_extend:{MOST - 127}", 128),
    (f"sign_extend:{MOST}", 8), (f"sign_extend:{MOST}", 128)]


def ranks():
    note("ranks at the edges of widths and indices")
    for op, *sorts in GOOD_RANKS:
        ranked(op, *sorts)
    note("the first fault: the number of arguments, their sorts, the indices, the width")
    for op, *sorts in FAULTY_RANKS:
        ranked(op, *sorts)
    for name in NAMES:
        op = ":".join([name, *["0"] * INDEXED.get(name, 0)])
        note(f"ranks of {op}")
        for sorts in [(), ("bool",), (1,), (128,), ("bool", "bool"), ("bool", 1), (1, "bool"), (1, 1), (7, 7), (7, 8),
                      (128, 128), ("bool", "bool", "bool"), ("bool", 7, 7), ("bool", 7, 8), ("bool", 7, "bool"), (1, 7, 7),
                      ("bool", 7, 7, 7)]:
            ranked(op, *sorts)
    note("the same where only whether there is one matters")
    for op, *sorts in GOOD_RANKS + FAULTY_RANKS:
        found = rank(op, sorts)
        case(f"result {op} {' '.join(map(str, sorts))}".strip(),
             "none" if found in ["Arity", "Sorts", "Index", "Width"] else found)


def names():
    note("each name with its indices names its operator, and the other way")
    index = {"extract": [[7, 3], [3, 7], [MOST, 0]], "repeat": [[0], [128]], "zero_extend": [[5], [0]],
             "sign_extend": [[MOST], [1]], "rotate_left": [[1], [2**64]], "rotate_right": [[129], [0]]}
    for name in NAMES:
        for indices in index.get(name, [[]]):
            case(" ".join(["named", name, *map(str, indices)]), variant(name, indices))
            case("name " + ":".join([name, *map(str, indices)]), name)
    note("with another number of indices")
    for name in NAMES:
        for count in range(4):
            if count != INDEXED.get(name, 0):
                case(" ".join(["named", name, *["0"] * count]), "Indices")
    for text in ["= 1 2", "extract 7", "extract 7 3 0", "rotate_right 1 1"]:
        case(f"named {text}", "Indices")
    note("other names, and names by their bytes")
    for text in ["no", "nott", "Not", "distinct", "bv5 8", "extract_ 7 3", "extract_7_3 1 2 3", "BVADD", "bvAdd", "bvad",
                 "bvaddd", "bvult0", "zero-extend 1", "zero_extendd 1", "rotate 1", "==", "=>=", "<=", "bvsmodo",
                 "bvudivo", "bvuremo", "bvnegoo", "extract_", "bvcompp", "iteite", "bvxnorr", "forall", "let", "true"]:
        case(f"named {text}", "Unknown")
    for name in [b"", b"bvsaddo ", b" not", b"\xff\x00", b"not\x00", b"an\xc3\xa4"]:
        case(f"spelled {name.hex(' ')}".strip(), "Unknown")
    for name in NAMES:
        case(f"spelled {name.encode().hex(' ')}", "Indices" if name in INDEXED else variant(name))


TERMS = [
    "8:07", "bool:1", "c0:8", "v3:bool", "(not bool:1)", "(bvadd 8:05 8:03)", "(= (bvadd 8:05 8:03) 8:08)",
    "(bvadd (= 8:01 8:01) 8:01)", "(= v0:8 v0:9)", "(= v0:8 v1:8)", "(and)", "(and v0:bool)",
    "(and v0:bool v1:bool v2:bool)", "(ite v0:bool c0:64 c1:64)", "(ite v0:bool c0:64 c1:65)",
    "(ite bool:1 bool:1 bool:1 bool:1)", "(concat c0:64 c1:64)", "(concat c0:64 c1:65)", "(extract:7:3 v0:8)",
    "(extract:8:3 v0:8)", "(repeat:16 v0:8)", "(repeat:17 v0:8)", "(bvcomp v0:8 8:ff)", "(forall:0:8 v0:8)",
    "(exists:0:bool v0:bool)", "(forall:0:8 (= v0:8 8:00))", "(exists:0:8 (forall:1:4 (bvult v0:8 v1:8)))",
    "(exists:0:8 (forall:1:4 (bvult v0:8 v1:4)))", "(and (exists:0:8 (bvuge v0:8 c0:8)) v7:bool)",
    "(bvnot (exists:0:8 (bvuge v0:8 c0:8)))", "(bvneg (bvnot (bvneg (bvnot (bvneg v0:128)))))",
    "(forall:0:bool (bvadd v0:bool v0:bool))", "(bvadd (bvmul v0:8 v1:8) (bvudiv v2:8 c3:8))",
    "(bvsdivo (bvsmod v0:127 v1:127) (sign_extend:63 v2:64))", "(ite (not (bvnego v0:4)) (rotate_left:3 v0:4) 4:a)"]

REPLACED = [
    ("8:07", "v0:8"), ("8:07", "v1:8"), ("", "v0:8"), ("-", "v0:8"), ("- 8:07", "v1:8"), ("8:07 - 8:09", "v2:8"),
    ("8:07", "c0:8"), ("8:07", "8:01"), ("(bvnot v1:8)", "(bvadd v0:8 v1:8)"), ("v1:8 v0:8", "(bvsub v0:8 v1:8)"),
    ("(bvnot v0:8) -", "(bvmul v0:8 (bvadd v1:8 v0:8))"), ("bool:1", "(ite v0:bool c0:8 c1:8)"),
    ("(forall:0:8 (= v0:8 v1:8))", "(not v0:bool)"), ("- - (and v0:bool v1:bool)", "(or v2:bool (and v2:bool v0:bool))"),
    ("8:01 8:02 8:03", "(concat v2:8 (concat v1:8 v0:8))"), ("8:07", "(bvadd (bvmul v0:8 v9:8) v18446744073709551615:8)")]

EVALUATED = [
    ("8:fa", "8:09", "(bvadd c0:8 v0:8)"), ("", "", "8:07"), ("", "bool:1", "v0:bool"), ("bool:0", "", "(not c0:bool)"),
    ("8:fa 8:01", "", "(bvsub c1:8 c0:8)"), ("", "4:8 4:f", "(bvsdivo v0:4 v1:4)"), ("", "4:8 4:f", "(bvsdivo v1:4 v0:4)"),
    ("128:8 64:1", "64:2", "(ite (bvult c1:64 v0:64) c0:128 (concat v0:64 v0:64))"),
    ("128:8 64:1", "64:0", "(ite (bvult c1:64 v0:64) c0:128 (concat v0:64 v0:64))"),
    ("", "8:80 8:03", "(bvsmod (bvashr v0:8 v1:8) (bvneg v1:8))"), ("8:ab", "", "(extract:3:0 (rotate_right:4 c0:8))"),
    ("", "8:05 8:0a", "(and (bvult v0:8 v1:8) (=> (= v0:8 v1:8) (bvslt v1:8 v0:8)))"),
    ("8:fa", "8:09", "(bvadd v0:8 c0:8)"), ("8:fa", "8:09", "(bvsub v0:8 c0:8)"),
    ("", "", "(= (bvudiv 8:05 8:00) 8:ff)"), ("", "", "(bvadd bool:1 8:00)"), ("8:fa", "", "v0:8"), ("8:fa", "", "c1:8"),
    ("8:fa", "", "c0:9"), ("", "bool:1", "v0:1"), ("", "", "(forall:0:8 (= v0:8 v0:8))"), ("8:fa", "8:09", "(bvadd c0:8 v1:8)")]


def terms():
    note("the sort of a term")
    for text in TERMS:
        case(f"sort_of {text}", term_sort(read(text)[0]))
    note("a copy of a term is the term")
    for text in TERMS:
        case(f"copy {text}", show(read(text)[0]))
    note("terms put in for variables, by level: - leaves the variable as it is")
    for given, text in REPLACED:
        case(f"subst {given} / {text}", show(put_in(read(text)[0], read(given))))
    note("a term under words for its constants and for its variables; no case where one is missing")
    for consts, levels, text in EVALUATED:
        t = read(text)[0]
        words = [[(sort_named(w.split(":")[0]), int(w.split(":")[1], 16)) for w in given.split()] for given in (consts, levels)]
        fine = not quantified(t) and term_sort(t) != "none" and evaluate(t, *words) is not None
        case(f"eval {consts} / {levels} / {text}", word(evaluate(t, *words)) if fine else "bad case")
    note("no cases")
    for line in ["nothing", "sort", "sort x", "sort -1", "word 8 1ff0000000000000000000000000000000", "word 0 0", "word 129 0",
                 "apply bvadd 8:01 9:01", "apply bvadd 8:01", "apply bvadd 8:100 8:00", "apply nothing 8:01",
                 "apply extract:8:0 8:01", "copy (bvadd 8:01 8:02", "copy 8:01)", "copy 8:01 8:02", "copy",
                 "subst 8:01 / (forall:0:8 v0:bool)"]:
        case(line, "bad case")


# --- outside solvers --------------------------------------------------------------------------------

def literal(w):
    sort, value = w
    return ["false", "true"][value] if sort == "bool" else f"(_ bv{value} {sort})"


def asked(op, args, wanted):
    name, indices = parts(op)
    head = f"(_ {name} {' '.join(map(str, indices))})" if indices else name
    return f"(= ({head} {' '.join(map(literal, args))}) {literal(wanted)})"


def check():
    """Each value that is wanted, by solvers that know the operator."""
    small = [a for a in APPLIED if max(parts(a[0])[1], default=0) < 2**31]
    print(len(APPLIED), "values,", len(small), "of them asked (an index is below 2^31)")
    for solver, extra in [("z3", ["-in"]), ("cvc5", ["--lang=smt2", "--incremental"])]:
        for op in sorted({parts(a[0])[0] for a in small}):
            rows = [a for a in small if parts(a[0])[0] == op]
            script = "(set-logic QF_BV)\n" + "".join(
                f"(push 1)(assert (not {asked(*a)}))(check-sat)(pop 1)\n" for a in rows)
            said = subprocess.run([solver, *extra], input=script, text=True, capture_output=True).stdout.split("\n")
            answers = [line for line in said if line]
            if any(line.startswith("(error") for line in answers):
                print(f"{solver} does not know {op}: {len(rows)} values")
            elif answers != ["unsat"] * len(rows):
                wrong = [asked(*a) for a, s in zip(rows, answers) if s != "unsat"]
                print(f"{solver} disagrees on {op}:", *wrong, sep="\n  ")
        print(solver, "is done")


def main():
    random.seed(20)
    sorts_and_words()
    values_of_two()
    values_of_one()
    values_of_others()
    ranks()
    names()
    terms()
    if "--check" in sys.argv:
        check()
        return
    write_rows("qv_words_cases", LINES)
    print(sum(a is not None for _, a in LINES), "cases")


if __name__ == "__main__":
    main()
