#!/usr/bin/env python3
"""Writes the cases of qv_check_cases, and what must come of each: `cert_cases.py` writes crates/qv_check_cases/stdin and
stdout. The answers are computed here from the grammar of certificates, and not by the program.

Outside a refutation a line is one of OUTER below, in it a line of an LRAT proof or `end`. Words have spaces, tabs or CR
between them, and at both ends where one likes. Numbers are decimal digits and below 2^62, or below 2^128 for a value and an
operator's index. A reader takes the lines of a source, each with its LF, of which the first has to be a header.
"""
import random
import re

from rows import blanks, quoted, words_of, write_part, written

SMALL, LARGE = 2**62, 2**128

# the operators of the theories Core and FixedSizeBitVectors and of QF_BV, as this project's enum names them, with how many
# indices each has; the last row is this project's own
OPERATORS = {}
for row in """not:Not and:And or:Or xor:Xor =>:Implies =:Equal ite:Ite
bvnot:BvNot bvand:BvAnd bvor:BvOr bvxor:BvXor bvnand:BvNand bvnor:BvNor bvxnor:BvXnor
bvneg:BvNeg bvadd:BvAdd bvsub:BvSub bvmul:BvMul bvudiv:BvUdiv bvurem:BvUrem bvsdiv:BvSdiv bvsrem:BvSrem bvsmod:BvSmod
bvshl:BvShl bvlshr:BvLshr bvashr:BvAshr concat:Concat
bvult:BvUlt bvule:BvUle bvugt:BvUgt bvuge:BvUge bvslt:BvSlt bvsle:BvSle bvsgt:BvSgt bvsge:BvSge bvcomp:BvComp
extract:Extract:2 repeat:Repeat:1 zero_extend:ZeroExtend:1 sign_extend:SignExtend:1 rotate_left:RotateLeft:1
rotate_right:RotateRight:1
bvnego:BvNego bvuaddo:BvUaddo bvsaddo:BvSaddo bvumulo:BvUmulo bvsmulo:BvSmulo bvusubo:BvUsubo bvssubo:BvSsubo
bvsdivo:BvSdivo""".split():
    name, variant, count = (row.split(":") + ["0"])[:3]
    OPERATORS[name.encode()] = (variant, int(count))
RULES = {b"fold": "Fold", b"same": "Same", b"not-not": "NotNot", b"unit": "Unit", b"absorb": "Absorb",
         b"ite-known": "IteKnown", b"ite-same": "IteSame", b"add-zero": "AddZero", b"mul-one": "MulOne",
         b"mul-zero": "MulZero"}
PASSES = {name: f"By({variant})" for name, variant in RULES.items()} | {b"sum": "Sum", b"xor": "Xor", b"simp": "Simp"}


# ---- the grammar

N = rb"([0-9]+)"
# each line's words with one space between them, and what its fields are called: names with a bound on their numbers
FORMS = [
    (rb"check " + N + rb" (sat|unsat|unknown)", "Check", ["number", "answer"]),
    (rb"n " + N + rb" v " + N, "VarNode", ["node", "place"]),
    (rb"n " + N + rb" g " + N, "EigenNode", ["node", "line"]),
    (rb"s " + N + rb" " + N, "Skolem", ["place", "node"]),
    (rb"i " + N + rb" " + N + rb" " + N, "Instance", ["line", "parent", "node"]),
    (rb"e " + N + rb" " + N, "Eigen", ["line", "parent"]),
    (rb"lrat", "Lrat", []),
    (rb"end", "End", []),
]


def value(digits):
    """The number that digits write; one of more than sixty digits is any that is too great."""
    digits = digits.lstrip(b"0") or b"0"
    return int(digits) if len(digits) <= 60 else 10**60


def below(word, bound):
    """The number below a bound that a word writes, or None."""
    return value(word) if re.fullmatch(rb"[0-9]+", word) and value(word) < bound else None


def fields(variant, values):
    return variant if not values else f"{variant} {{ " + ", ".join(f"{name}: {value}" for name, value in values) + " }"


def plain(text):
    """A line whose only fault can be its form: its shape and its words, or None."""
    for pattern, variant, names in FORMS:
        found = re.fullmatch(pattern, text, re.DOTALL)
        if found:
            values = [word.decode().capitalize() if name == "answer" else below(word, SMALL)
                      for name, word in zip(names, found.groups())]
            if None in values:
                return None
            printed = b" ".join(b"%d" % value(word) if word.isdigit() else word for word in text.split(b" "))
            return fields(variant, list(zip(names, values))), printed
    return None


def literal(found):
    node, width, number = (value(word) for word in found.groups())
    if node >= SMALL or width >= SMALL or number >= LARGE:
        return "form"
    if width > 128 or number >= 2**max(width, 1):
        return "literal"
    sort = "Bool" if width == 0 else f"Bits({width})"
    return (f"LitNode {{ node: {node}, word: Word {{ sort: {sort}, value: {number} }} }}",
            b"n %d c %d %d" % (node, width, number))


def application(words):
    if len(words) < 5 or b":" not in words[4:] or below(words[1], SMALL) is None:
        return "form"
    colon = words.index(b":", 4)
    indices = [below(word, LARGE) for word in words[4:colon]]
    kids = [below(word, SMALL) for word in words[colon + 1:]]
    if None in indices or None in kids:
        return "form"
    if words[3] not in OPERATORS or OPERATORS[words[3]][1] != len(indices):
        return "operator"
    variant = OPERATORS[words[3]][0] + (f"({', '.join(map(str, indices))})" if indices else "")
    node = value(words[1])
    printed = " ".join(map(str, ["n", node, "o", words[3].decode(), *indices, ":", *kids])).encode()
    return f"OpNode {{ node: {node}, op: {variant}, kids: [{', '.join(map(str, kids))}] }}", printed


def outer(text):
    """The shape of a line outside the refutation with what is printed for it, or its fault."""
    words = words_of(text)
    if not words:
        return "form"
    if words[0] == b"qbv-cert":
        if words[1:] in ([b"1"], [b"2"]):
            return f"Header {{ version: {int(words[1])} }}", b" ".join(words)
        return "header"
    if words[0] == b"w":
        if len(words) != 2:
            return "form"
        return (f"Rewrite {{ pass: {PASSES[words[1]]} }}", b" ".join(words)) if words[1] in PASSES else "rule"
    if words[0] == b"n" and words[2:3] == [b"o"]:
        return application(words)
    found = re.fullmatch(rb"n " + N + rb" c " + N + rb" " + N, b" ".join(words), re.DOTALL)
    if found:
        return literal(found)
    return plain(b" ".join(words)) or "form"


def lrat_number(word, most, sign):
    if not re.fullmatch(rb"-?[0-9]+" if sign else rb"[0-9]+", word):
        return None
    size = value(word.lstrip(b"-"))
    return (-size if word.startswith(b"-") else size) if 1 <= size <= most else None


def to_zero(words, most, sign):
    if b"0" not in words:
        return None
    numbers = [lrat_number(word, most, sign) for word in words[:words.index(b"0")]]
    return None if None in numbers else (numbers, words[words.index(b"0") + 1:])


def inner(text):
    """The same for a line of a refutation."""
    words = words_of(text)
    if words == [b"end"]:
        return "End", b"end"
    if len(words) < 2 or lrat_number(words[0], SMALL - 1, False) is None:
        return "form"
    if words[1] == b"d":
        parts = [to_zero(words[2:], SMALL - 1, False)]
    else:
        parts = [to_zero(words[1:], 2**30, True)]
        parts.append(parts[0] and to_zero(parts[0][1], SMALL - 1, True))
    if parts[-1] is None or parts[-1][1]:
        return "form"
    numbers = [value(words[0])] + (["d"] if words[1] == b"d" else [])
    for part in parts:
        numbers += part[0] + [0]
    return "Step", " ".join(map(str, numbers)).encode()


# ---- readers

LIMIT = 2**62 - 4096
KINDS = {"header": "Header", "form": "Form", "operator": "Operator", "rule": "Rule", "literal": "Literal"}


def reader(give, fails, count, text, show):
    """What a reader answers: the lines of the text one after another, and how often its source was called."""
    left, held, calls, given, version, in_lrat, stopped = text, b"", 0, 0, 0, False, None
    answers = []
    for _ in range(count):
        answer = stopped
        while answer is None and b"\n" not in held:
            calls += 1
            if calls in fails:
                answer = stopped = "ReadFault"
                break
            piece, left = left[:min(give, 4096)], left[min(give, 4096):]
            if not piece:
                answer = stopped = f"Fault {{ number: {given + 1}, kind: Truncated }}" if held else f"End {{ number: {given + 1} }}"
            held += piece
        if answer is None:
            line, held = held.split(b"\n", 1)
            found = inner(line) if in_lrat and given else outer(line)
            if not given and (isinstance(found, str) or not found[0].startswith("Header")):
                found = "header"
            if isinstance(found, str):
                answer = stopped = f"Fault {{ number: {given + 1}, kind: {KINDS[found]} }}"
            else:
                given += 1
                if given == 1:
                    version = int(line.split()[1])
                in_lrat = found[0] == "Lrat" or (in_lrat and found[0] != "End")
                answer = f"{given} {show(found[1] + chr(10).encode())}"
        answers.append(f"{answer} @{calls}; ")
    return "".join(answers) + f"version {version}, left {len(left)}"


def sums(data):
    return f"{len(data)} {sum(i * b for i, b in enumerate(data)) % 2**64}"


# ---- cases, each with its answer

cases = []


def note(text=""):
    cases.append((f"# {text}" if text else "", f"# {text}" if text else ""))


def case(text, answer):
    cases.append((text.rstrip(" "), answer))


def said(found, show):
    return found if isinstance(found, str) else show(found)


def both(data):
    """A line, at both places."""
    full = lambda found: f"{found[0]} -> {quoted(found[1] + chr(10).encode())}"
    case("outer " + written(data), said(outer(data), full))
    case("inner " + written(data), said(inner(data), full))


def one(data):
    """A line, outside the refutation unless it begins with a digit."""
    full = lambda found: f"{found[0]} -> {quoted(found[1] + chr(10).encode())}"
    if data.lstrip()[:1].isdigit():
        case("inner " + written(data), said(inner(data), full))
    else:
        case("outer " + written(data), said(outer(data), full))


def large(place, pieces):
    data = b"".join(text * times for times, text in pieces)
    text = "|".join(f"{times}*{written(text)}" for times, text in pieces)
    case(f"large-{place} {text}", said({"outer": outer, "inner": inner}[place](data), lambda found: sums(found[1] + b"\n")))


def read(give, fails, count, data):
    case(f"reader {give} {','.join(map(str, fails)) or '-'} {count} {written(data)}", reader(give, fails, count, data, quoted))


def large_read(give, count, pieces):
    data = b"".join(text * times for times, text in pieces)
    text = "|".join(f"{times}*{written(text)}" for times, text in pieces)
    case(f"large-reader {give} - {count} {text}", reader(give, [], count, data, sums))


# ---- lines by hand

note("Lines of certificates, written by bench/cases/cert_cases.py. Bytes that are no printable ASCII are \\t, \\n, \\r or \\x")
note("with two hexadecimal digits.")
note()
note("outer LINE, inner LINE: the line that is read, outside a refutation and in it, and what is printed for it; or its fault.")
KINDS_OF_LINES = [b"qbv-cert 1", b"qbv-cert 2", b"check 1 sat", b"check 2 unsat", b"check 3 unknown", b"n 1 v 0", b"n 2 g 5",
                  b"n 3 c 0 1", b"n 3 c 8 255", b"n 4 o not : 1", b"n 5 o extract 3 1 : 4", b"n 6 o bvadd : 1 2", b"s 0 4",
                  b"i 3 0 2", b"e 4 3", b"w fold", b"lrat", b"end", b"26 0 1 13 0", b"9 d 4 7 0", b"9 -5 3 0 4 -7 0"]
for text in KINDS_OF_LINES:
    both(text)

note("the same with blanks of every kind, with an LF, with CR and LF, and with numbers that begin with zeros")
for text in KINDS_OF_LINES:
    both(b" \t\r" + text.replace(b" ", b"\t \r") + b"\r \t")
    both(text + b"\n")
    both(text + b"\r\n")
    both(re.sub(rb"\b(\d)", rb"00\1", text))

note("empty lines, and lines that are no text")
for text in [b"", b" ", b"\t\r ", b"\n", b"\r\n", b"\n\n", b"\0", b"\0\n", b"n\0 1 v 0", b"n 1 v\0 0", b"n 1 v 0\0", b"end\0",
             b"\xff\xfe", b"lrat\x0b", b"lrat\x0c", b"e\xc2\xa01 0", b"qbv-cert\n1", b"end\nend", b"end\n\n", b"\nend",
             b"# comment", b"c comment", b"END", b"Check 1 sat", b"N 1 v 0"]:
    both(text)

note("headers")
for text in [b"qbv-cert", b"qbv-cert 0", b"qbv-cert 3", b"qbv-cert 01", b"qbv-cert 1 1", b"qbv-cert 1 2", b"qbv-cert x",
             b"qbv-cert 1x", b"qbv-cert  1", b"qbv-cert\t2", b"qbv-cert1", b"qbv-cer 1", b"qbv-certs 1", b"Qbv-cert 1",
             b"qbv-cert 9", b"qbv-cert 2\n", b"qbv-cert 1\n\n", b"qbv-cert +1"]:
    both(text)

note("each kind of line with too few words, too many, and a word of another kind at each place")
for text in KINDS_OF_LINES:
    words = text.split(b" ")
    for count in range(1, len(words)):
        one(b" ".join(words[:count]))
    one(text + b" 1")
    one(text + b" x")
    for place in range(len(words)):
        for other in [b"x", b"-1", b"+1", b"1.5", b":", b"0x1", b"sat"]:
            one(b" ".join(words[:place] + [other] + words[place + 1:]))

note("answers")
for word in [b"sat", b"unsat", b"unknown", b"SAT", b"sa", b"sats", b"unsa", b"unknow", b"unknowns", b"true", b""]:
    one(b"check 7 " + word)

# ---- numbers at their limits

note("numbers at their limits, at each place")
BOUNDS = [0, 1, 2**30, 2**31, 2**32, 2**61, 2**62 - 1, 2**62, 2**62 + 1, 2**63 - 1, 2**63, 2**64 - 1, 2**64, 2**64 + 1, 10**19,
          2**127, 2**128 - 1, 2**128, 2**128 + 1, 10**39, 10**60]
for bound in BOUNDS:
    for text in [b"check %d sat", b"n %d v 0", b"n 1 v %d", b"n %d g 0", b"n 1 g %d", b"n %d c 0 0", b"n 1 c 128 %d",
                 b"n 1 c %d 0", b"n %d o not : 1", b"n 1 o not : %d", b"n 1 o bvadd : 1 %d", b"n 1 o repeat %d : 1",
                 b"n 1 o extract %d 0 : 1", b"n 1 o extract 0 %d : 1", b"s %d 0", b"s 0 %d", b"i %d 0 0", b"i 0 %d 0",
                 b"i 0 0 %d", b"e %d 0", b"e 0 %d", b"qbv-cert %d", b"%d 0 0", b"5 %d 0 0", b"5 -%d 0 0", b"5 0 %d 0", b"5 d %d 0"]:
        one(text % bound)
note("long numbers")
one(b"s " + b"0" * 300 + b"7 1")
one(b"s 1" + b"0" * 300 + b" 1")
one(b"n 1 c 4 " + b"0" * 300 + b"15")

note("literals: widths and values")
for width in [0, 1, 2, 4, 8, 63, 64, 127, 128, 129, 130, 255, 256, 257, 2**32, 2**62 - 1]:
    for number in sorted({0, 1, 2, max(2**min(width, 128) - 1, 0), min(2**min(width, 128), 2**128 - 1), 2**128 - 1}):
        one(b"n 1 c %d %d" % (width, number))

# ---- operators and rules

note("each operator with its indices, and with one fewer and one more")
for name, (_, count) in OPERATORS.items():
    for indices in range(4):
        if abs(indices - count) <= 1:
            one(b"n 9 o " + name + b"".join(b" %d" % (k + 3) for k in range(indices)) + b" : 1 2")
note("names that are no operator's, and colons")
for text in [b"n 1 o bvfoo : 1", b"n 1 o Not : 1", b"n 1 o no : 1", b"n 1 o nott : 1", b"n 1 o distinct : 1 2", b"n 1 o : : 1",
             b"n 1 o :", b"n 1 o : 1", b"n 1 o not", b"n 1 o not 1", b"n 1 o not :", b"n 1 o not : :", b"n 1 o not : 1 :",
             b"n 1 o not : 1 : 2", b"n 1 o extract : 3 1 : 4", b"n 1 o extract 3 : 1 4", b"n 1 o extract 3 x : 4",
             b"n 1 o bvfoo x : 4", b"n 1 o bvfoo : x", b"n 1 o bvfoo 5 : x", b"n 1 o not:1", b"n 1 o not :1", b"n 1 o not: 1",
             b"n 1 o not :: 1", b"n 1 o", b"n 1", b"n", b"n 1 x 0", b"n x o not : 1", b"n 1 o \xff : 1", b"n 1 o n\0t : 1",
             b"n 1 o not\n : 1", b"n 1 o not : 1\n", b"n 1 o extract 1 2 3 4 5 6 : 1", b"n 1 oo not : 1", b"n 1 vv 0",
             b"n 1 c : 1", b"n 1 v :"]:
    one(text)
note("rules")
for word in list(PASSES) + [b"melt", b"Fold", b"fol", b"folds", b"not_not", b"notnot", b"unit ", b"add-one", b"mul", b"", b"1",
                            b"fold same", b"\xff", b"fold\n", b"w", b"su", b"summ", b"sums", b"Sum", b"sum\n", b"sum fold", b"xo", b"xors", b"sim", b"simps"]:
    one(b"w " + word)
both(b"w sum")
both(b"w xor")
both(b"w simp")

# ---- prefixes, and each byte changed

note("all prefixes of a few lines, and each byte taken away")
BASES = [b"qbv-cert 2\n", b"check 12 unsat\n", b"n 12 o extract 3 1 : 4 11\r\n", b"n 7 c 8 200\n", b" i\t3 0\r2 \n", b"w ite-same\n",
         b"lrat\n", b"end\n"]
for base in BASES:
    for end in range(len(base)):
        both(base[:end])
        one(base[:end] + base[end + 1:])
note("a few lines with each bit of each byte turned")
for base in BASES:
    for place in range(len(base)):
        for bit in range(8):
            one(base[:place] + bytes([base[place] ^ (1 << bit)]) + base[place + 1:])

# ---- lines by chance

note("lines by chance, with blanks of every kind")
chance = random.Random(2027)


def digits(most):
    return b"0" * chance.choice([0, 0, 0, 2]) + b"%d" % chance.randint(0, chance.choice([9, 1000, most]))


def by_chance():
    name = chance.choice(list(OPERATORS))
    indices = [digits(LARGE + 9) for _ in range(chance.choice([OPERATORS[name][1]] * 5 + [0, 1, 2]))]
    found = chance.choice([
        [b"check", digits(SMALL + 9), chance.choice([b"sat", b"unsat", b"unknown"])],
        [b"n", digits(SMALL + 9), b"v", digits(SMALL + 9)],
        [b"n", digits(SMALL + 9), b"g", digits(SMALL + 9)],
        [b"n", digits(SMALL + 9), b"c", b"%d" % chance.randint(0, 130), digits(LARGE + 9)],
        [b"n", digits(SMALL + 9), b"o", name] + indices + [b":"] + [digits(SMALL + 9) for _ in range(chance.randint(0, 4))],
        [b"s", digits(SMALL + 9), digits(SMALL + 9)],
        [b"i", digits(SMALL + 9), digits(SMALL + 9), digits(SMALL + 9)],
        [b"e", digits(SMALL + 9), digits(SMALL + 9)],
        [b"w", chance.choice(list(RULES))],
    ])
    if chance.random() < 0.2:
        found[chance.randrange(len(found))] = chance.choice([b"", b"0", b"-", b"n", b"+1", b"1x", b":", b"\n", b"end"])
    return blanks(chance, 0) + b"".join(word + blanks(chance, 1) for word in found) + chance.choice([b"", b"\n", b"\r\n"])


for _ in range(400):
    one(by_chance())

# ---- long lines

note("large-outer PIECES, large-inner PIECES: lines in pieces N*TEXT; how many bytes are printed, and the sum of each byte times")
note("its place, modulo 2^64; or the fault.")
large("outer", [(1, b"n 1 o and :"), (524288, b" 1")])
large("outer", [(1, b"n 1 o and :"), (150000, b" 1234567"), (1, b" x")])
large("outer", [(1, b"n 1 o extract"), (400000, b" 7"), (1, b" : 1")])
large("outer", [(1, b"n 1 o extract"), (400000, b" 7"), (1, b" 1")])
large("outer", [(1, b"n 1 o "), (1000000, b"a"), (1, b" : 1")])
large("outer", [(1, b"w "), (1000000, b"f")])
large("outer", [(1000000, b" "), (1, b"end"), (1000000, b"\t"), (1, b"\r\n")])
large("outer", [(1, b"s 7 "), (1000000, b"0"), (1, b"9")])
large("outer", [(1, b"s 7 "), (1000000, b"9")])
large("outer", [(1000000, b"\0")])
large("outer", [(300000, b"n 1 "), (1, b"v 0")])
large("inner", [(1, b"5"), (100000, b" -12345"), (1, b" 0"), (100000, b" 77"), (1, b" 0\n")])
large("inner", [(1, b"5 d"), (300000, b" 12"), (1, b" 0")])
large("inner", [(1, b"5"), (300000, b" 12"), (1, b"\n")])
large("inner", [(1, b"end"), (1000000, b" ")])

# ---- readers

note("reader GIVE FAILS CALLS TEXT: a source of this text gives at most GIVE bytes a call and fails at the calls FAILS; what")
note("CALLS calls of a reader answer, each with the calls of the source so far; then the version, and how many bytes are left.")
SMALLEST = b"qbv-cert 1\ncheck 1 sat\nlrat\n3 0 1 2 0\nend\n"
REWRITTEN = b"qbv-cert 2\ncheck 1 sat\nn 1 c 4 15\ns 0 1\nw fold\nlrat\n3 d 1 0\n4 0 1 2 0\nend\ncheck 2 unknown\nend\n"
for text in [SMALLEST, REWRITTEN]:
    for give in [1, 2, 3, 7, 11, 4096]:
        read(give, [], text.count(b"\n") + 3, text)
note("every prefix")
for give in [1, 7, 4096]:
    for end in range(len(SMALLEST)):
        read(give, [], SMALLEST[:end].count(b"\n") + 3, SMALLEST[:end])
note("each call failing in turn")
for give, most in [(1, len(SMALLEST) + 1), (7, 8), (4096, 3)]:
    for fail in range(1, most + 2):
        read(give, [fail], 8, SMALLEST)
read(7, [3, 4, 5], 8, SMALLEST)
note("faults of lines, and what comes behind one")
for text in [b"\n", b"check 1 sat\n", b"qbv-cert 9\nend\n", b" qbv-cert 1 \r\nend\n", b"foo\n", b"foo", b"qbv-cert", b"w fold\n",
             b"qbv-cert 1\nfoo\nend\n", b"qbv-cert 1\n\nend\n", b"qbv-cert 1\nqbv-cert 2\nend\n", b"qbv-cert 2\nqbv-cert 3\nend\n",
             b"qbv-cert 1\nn 1 c 2 4\nend\n", b"qbv-cert 1\nn 1 o bvfoo : 1\nend\n", b"qbv-cert 1\nw melt\nend\n",
             b"qbv-cert 1\nlrat\nw fold\nend\n", b"qbv-cert 1\nlrat\nqbv-cert 1\n", b"qbv-cert 1\nlrat\n1 0 0\nend\n1 0 0\n",
             b"qbv-cert 1\nlrat\nend\nend\nend", b"qbv-cert 1\nlrat\nlrat\n", b"qbv-cert 1\nend\0\n", b"\0\n", b"qbv-cert 1\n\0",
             b"qbv-cert 1\r", b"qbv-cert 1\r\n", b"1 0 0\n", b"end\n"]:
    for give in [1, 4096]:
        read(give, [], 6, text)
note("pieces of 4,096 bytes: lines that end at an edge, before it and behind it; the buffer of a call holds no more")
for extra in range(-2, 3):
    case_text = [(1, b"qbv-cert 1"), (4096 - 11 + extra, b" "), (1, b"\nend\nend\n")]
    large_read(100000, 5, case_text)
large_read(4095, 6, [(1, b"qbv-cert 2\n"), (3000, b"end\n")])
large_read(5000, 3003, [(1, b"qbv-cert 2\n"), (3000, b"end\n")])
note("a line of a megabyte in pieces, and a text that ends inside one")
large_read(4096, 4, [(1, b"qbv-cert 2\nn 1 o and :"), (524288, b" 1"), (1, b"\nend\n")])
large_read(4096, 3, [(1, b"qbv-cert 2\nn 1 o and :"), (524288, b" 1")])
large_read(777, 3, [(1, b"qbv-cert 2\nlrat\n5"), (60000, b" -12345"), (1, b" 0"), (60000, b" 77"), (1, b" 0\nend\n")])
large_read(4096, 3, [(1, b"qbv-cert 1\n"), (1000000, b"\0")])
note("out of form")
for text in ["", "outer", "inner", "reader", "reader 0 - 1 x", "reader x - 1 x", "reader 1 x 1 x", "reader 1 - x x", "reader 1 -",
             "large-outer", "large-outer x*y", "outer \\", "outer \\x0", "foo 1"]:
    if text in ("outer", "inner"):
        case(text, "form")
    elif text:
        case(text, "bad case")


if __name__ == "__main__":
    write_part("qv_check_cases", "lines of certificates", cases)
