#!/usr/bin/env python3
"""Writes the cases of qv_blast_cases, and what must come of each: `circuit_cases.py` writes
crates/qv_blast_cases/stdin and stdout. The clauses are computed here from the table of gates, the table of routines and
the table of operators, written down as they are, and not by the program.

`circuit OPERATOR SORTS` is the circuit of an operator at new variables from 2 on, in a list that has the clause 1 alone.
The answer has the literals of the result, the next variable, and each clause behind a semicolon; of more than 61 clauses
the next id and a checksum. `limited LIMIT OPERATOR SORTS` is the same under a limit of variables, and
`fresh LIMIT NEXT SORT` takes new variables for a sort. `size OPERATOR SORTS` is how many clauses and literals room is made
for: as many as the circuit has. `at OPERATOR NEXT SORTS/LITERALS/LITERALS..` is a circuit at these
literals, whose first new variable is NEXT; where they are constants, each assignment that satisfies its clauses is shown
here to give the operator's value, as bench/cases/word_cases.py has it.
"""

from rows import write_part
from word_cases import apply

FALSE = -1
TRUE = 1


class TooMany(Exception):
    pass


class Circuit:
    def __init__(self, next_variable, limit):
        self.next = next_variable
        self.limit = limit
        self.clauses = []

    def variable(self):
        if self.next > self.limit:
            raise TooMany()
        self.next += 1
        return self.next - 1

    # ---- gates
    def AND(self, a, b):
        g = self.variable()
        self.clauses += [[-g, a], [-g, b], [g, -a, -b]]
        return g

    def XOR(self, a, b):
        g = self.variable()
        self.clauses += [[-g, a, b], [-g, -a, -b], [g, -a, b], [g, a, -b]]
        return g

    def MUX(self, c, a, b):
        g = self.variable()
        self.clauses += [[-c, -a, g], [-c, a, -g], [c, -b, g], [c, b, -g]]
        return g

    def MAJ(self, a, b, c):
        g = self.variable()
        self.clauses += [[-a, -b, g], [-a, -c, g], [-b, -c, g], [a, b, -g], [a, c, -g], [b, c, -g]]
        return g

    def OR(self, a, b):
        return -self.AND(-a, -b)

    # ---- routines
    def ADD(self, a, b, c):
        s = []
        for i in range(len(a)):
            x = self.XOR(a[i], b[i])
            s.append(self.XOR(x, c))
            c = self.MAJ(a[i], b[i], c)
        return s, c

    def NEG(self, a):
        return self.ADD([-x for x in a], [FALSE] * len(a), TRUE)[0]

    def SUB(self, a, b):
        return self.ADD(a, [-x for x in b], TRUE)

    def SEL(self, c, a, b):
        return [self.MUX(c, a[i], b[i]) for i in range(len(a))]

    def EQ(self, a, b):
        d = [self.XOR(a[i], b[i]) for i in range(len(a))]
        r = -d[0]
        for i in range(1, len(a)):
            r = self.AND(r, -d[i])
        return r

    def ULT(self, a, b):
        c = TRUE
        for i in range(len(a)):
            c = self.MAJ(a[i], -b[i], c)
        return -c

    def SLT(self, a, b):
        return self.ULT(a[:-1] + [-a[-1]], b[:-1] + [-b[-1]])

    def SHIFT(self, a, b, direction, fill):
        w = len(a)
        k = 0
        while 2**k < w:
            k += 1
        bits = list(a)
        for j in range(k):
            n = 2**j
            moved = [bits[i - n] if direction == "left" and i >= n else
                     bits[i + n] if direction == "right" and i + n < w else fill for i in range(w)]
            bits = [self.MUX(b[j], moved[i], bits[i]) for i in range(w)]
        h = b[k]
        for j in range(k + 1, w):
            h = self.OR(h, b[j])
        return [self.MUX(h, fill, bits[i]) for i in range(w)]

    def MUL(self, a, b):
        w = len(a)
        acc = [self.AND(a[i], b[0]) for i in range(w)]
        for j in range(1, w):
            row = [self.AND(a[i], b[j]) for i in range(w - j)]
            acc[j:] = self.ADD(acc[j:], row, FALSE)[0]
        return acc

    def DIV(self, a, b):
        w = len(a)
        r = [FALSE] * w
        q = [None] * w
        for j in range(w - 1, -1, -1):
            shifted = [a[j]] + r
            d, c = self.SUB(shifted, b + [FALSE])
            q[j] = c
            r = self.SEL(c, d[:w], shifted[:w])
        return q, r

    def ABS(self, a):
        n = self.NEG(a)
        return self.SEL(a[-1], n, a)

    # ---- operators
    def operator(self, name, indices, args):
        a = args[0]
        b = args[1] if len(args) > 1 else None
        w = len(a)
        least = [FALSE] * (w - 1) + [TRUE]
        if name in ("not", "bvnot"):
            return [-x for x in a]
        if name in ("and", "bvand"):
            return [self.AND(x, y) for x, y in zip(a, b)]
        if name in ("or", "bvor"):
            return [self.OR(x, y) for x, y in zip(a, b)]
        if name in ("xor", "bvxor"):
            return [self.XOR(x, y) for x, y in zip(a, b)]
        if name == "=>":
            return [self.OR(-a[0], b[0])]
        if name in ("=", "bvcomp"):
            return [self.EQ(a, b)]
        if name == "ite":
            return self.SEL(a[0], args[1], args[2])
        if name == "bvnand":
            return [-self.AND(x, y) for x, y in zip(a, b)]
        if name == "bvnor":
            return [-self.OR(x, y) for x, y in zip(a, b)]
        if name == "bvxnor":
            return [-self.XOR(x, y) for x, y in zip(a, b)]
        if name == "bvneg":
            return self.NEG(a)
        if name == "bvadd":
            return self.ADD(a, b, FALSE)[0]
        if name == "bvsub":
            return self.SUB(a, b)[0]
        if name == "bvmul":
            return self.MUL(a, b)
        if name == "bvudiv":
            return self.DIV(a, b)[0]
        if name == "bvurem":
            return self.DIV(a, b)[1]
        if name == "bvsdiv":
            m = self.ABS(a)
            n = self.ABS(b)
            q = self.DIV(m, n)[0]
            x = self.XOR(a[-1], b[-1])
            n = self.NEG(q)
            return self.SEL(x, n, q)
        if name == "bvsrem":
            m = self.ABS(a)
            n = self.ABS(b)
            r = self.DIV(m, n)[1]
            n = self.NEG(r)
            return self.SEL(a[-1], n, r)
        if name == "bvsmod":
            m = self.ABS(a)
            n = self.ABS(b)
            r = self.DIV(m, n)[1]
            n = self.NEG(r)
            u = self.SEL(a[-1], n, r)
            z = self.EQ(r, [FALSE] * w)
            x = self.XOR(a[-1], b[-1])
            t = self.AND(x, -z)
            g = [self.AND(t, b[i]) for i in range(w)]
            return self.ADD(u, g, FALSE)[0]
        if name == "bvshl":
            return self.SHIFT(a, b, "left", FALSE)
        if name == "bvlshr":
            return self.SHIFT(a, b, "right", FALSE)
        if name == "bvashr":
            return self.SHIFT(a, b, "right", a[-1])
        comparisons = {
            "bvult": (self.ULT, a, b, 1), "bvule": (self.ULT, b, a, -1), "bvugt": (self.ULT, b, a, 1),
            "bvuge": (self.ULT, a, b, -1), "bvslt": (self.SLT, a, b, 1), "bvsle": (self.SLT, b, a, -1),
            "bvsgt": (self.SLT, b, a, 1), "bvsge": (self.SLT, a, b, -1), "bvusubo": (self.ULT, a, b, 1)}
        if name in comparisons:
            test, x, y, sign = comparisons[name]
            return [sign * test(x, y)]
        if name == "concat":
            return b + a
        if name == "extract":
            return a[indices[1]:indices[0] + 1]
        if name == "repeat":
            return a * indices[0]
        if name == "zero_extend":
            return a + [FALSE] * indices[0]
        if name == "sign_extend":
            return a + [a[-1]] * indices[0]
        if name == "rotate_left":
            return [a[(i - indices[0]) % w] for i in range(w)]
        if name == "rotate_right":
            return [a[(i + indices[0]) % w] for i in range(w)]
        if name == "bvnego":
            return [self.EQ(a, least)]
        if name == "bvuaddo":
            return [self.ADD(a, b, FALSE)[1]]
        if name == "bvsaddo":
            s = self.ADD(a, b, FALSE)[0]
            x = self.XOR(a[-1], s[-1])
            y = self.XOR(b[-1], s[-1])
            return [self.AND(x, y)]
        if name == "bvumulo":
            p = self.MUL(a + [FALSE] * w, b + [FALSE] * w)
            r = p[w]
            for i in range(w + 1, 2 * w):
                r = self.OR(r, p[i])
            return [r]
        if name == "bvsmulo":
            p = self.MUL(a + [a[-1]] * w, b + [b[-1]] * w)
            x = [self.XOR(p[i], p[w - 1]) for i in range(w, 2 * w)]
            r = x[0]
            for i in range(1, w):
                r = self.OR(r, x[i])
            return [r]
        if name == "bvssubo":
            s = self.SUB(a, b)[0]
            x = self.XOR(a[-1], b[-1])
            y = self.XOR(a[-1], s[-1])
            return [self.AND(x, y)]
        if name == "bvsdivo":
            e = self.EQ(a, least)
            f = self.EQ(b, [TRUE] * w)
            return [self.AND(e, f)]
        raise KeyError(name)


# ---- answers

def width(sort):
    return 1 if sort == "bool" else int(sort)


def place(lit):
    return 2 * abs(lit) + (lit < 0)


def checksum(clauses):
    total = 0xCBF29CE484222325
    for clause in clauses:
        for number in [place(lit) for lit in clause] + [1]:
            total = (total ^ number) * 0x100000001B3 % 2**64
    return total


def written(clauses):
    end = 2 + len(clauses)
    if end > 64:
        return f"; {end} {checksum(clauses):x}"
    return "".join(";" + "".join(f" {lit}" for lit in clause) for clause in clauses)


def circuit_of(limit, operator, sorts):
    """The circuit of an operator at new variables, with what its bits are, none where there are too many, and the first
    variable behind the arguments."""
    name, *indices = operator.split(":")
    args = []
    first = 2
    for sort in sorts:
        args.append(list(range(first, first + width(sort))))
        first += width(sort)
    circuit = Circuit(first, limit)
    try:
        return circuit, circuit.operator(name, [int(i) for i in indices], args), first
    except TooMany:
        return circuit, None, first


def answer(limit, operator, sorts):
    circuit, bits, first = circuit_of(limit, operator, sorts)
    if bits is None:
        return f" too many; {first}"
    return "".join(f" {lit}" for lit in bits) + f"; {circuit.next}" + written(circuit.clauses)


def variables_of(operator, sorts):
    """The greatest variable of a circuit."""
    circuit, _, first = circuit_of(2**30, operator, sorts)
    return circuit.next - 1, first


def size(operator, sorts):
    """How many clauses a circuit has, and how many literals."""
    clauses = circuit_of(2**30, operator, sorts)[0].clauses
    return f"{len(clauses)} {sum(map(len, clauses))}"


# ---- circuits at literals

def at(operator, first, sorts, args):
    """A case, and the circuit with the bits of its result."""
    name, *indices = operator.split(":")
    circuit = Circuit(first, 2**30)
    bits = circuit.operator(name, [int(i) for i in indices], args)
    given = "/".join(" ".join(map(str, a)) for a in args)
    got = "".join(f" {lit}" for lit in bits) + f"; {circuit.next}" + written(circuit.clauses)
    return f"at {operator} {first} {' '.join(map(str, sorts))}/{given}", got, circuit, bits


def constant(value, w):
    return [TRUE if value >> i & 1 else FALSE for i in range(w)]


def values_under(circuit, first, bits):
    """What the bits are worth in the assignments that satisfy the clauses and make variable 1 true."""
    def satisfied(clause, model):
        return any(model[abs(lit)] == (lit > 0) for lit in clause)

    models = [{1: True}]
    for v in range(first, circuit.next):
        ended = [c for c in circuit.clauses if max(map(abs, c)) == v]
        models = [m for n in models for value in [False, True] for m in [{**n, v: value}] if all(satisfied(c, m) for c in ended)]
    assert all(satisfied(c, m) for c in circuit.clauses for m in models)
    return {sum((m[abs(lit)] == (lit > 0)) << i for i, lit in enumerate(bits)) for m in models}


def at_constants(operator, sorts, values):
    """A circuit at constants. Its clauses leave the one value of the operator."""
    args = [constant(v, width(s)) for s, v in zip(sorts, values)]
    line, got, circuit, bits = at(operator, 2, sorts, args)
    assert values_under(circuit, 2, bits) == {apply(operator, list(zip(sorts, values)))[1]}, line
    return line, got


def circuits_at_literals():
    yield "# nothing divided by nothing: each assignment that satisfies the clauses gives 3", None
    line, got, circuit, bits = at("bvudiv", 2, [2, 2], [[-1, -1], [-1, -1]])
    assert line == "at bvudiv 2 2 2/-1 -1/-1 -1" and values_under(circuit, 2, bits) == {3}
    yield line, got
    yield "# at constants", None
    for operator in DEAR:
        for w in [1, 2]:
            for a in range(2**w):
                for b in range(2**w):
                    yield at_constants(operator, [w, w], [a, b])
    for w in [3, 8]:
        for a, b in [(0, 0), (2**w - 1, 0), (2 ** (w - 1), 2**w - 1), (5, 2), (2**w - 3, 2)]:
            for operator in DEAR + CHEAP:
                yield at_constants(operator, [w, w], [a, b])
            for operator in UNARY + ["extract:2:1", "repeat:2", "sign_extend:3", "zero_extend:3", "rotate_left:1", "rotate_right:1"]:
                yield at_constants(operator, [w], [a])
            for c in [0, 1]:
                yield at_constants("ite", ["bool", w, w], [c, a, b])
    yield "# at literals that come again, negated and in another order", None
    for args in [[[2, 3], [2, 3]], [[2, 3], [3, 2]], [[2, 3], [-2, -3]], [[-1, 2], [2, 1]], [[2, 2], [-2, 1]]]:
        for operator in DEAR + CHEAP:
            for first in [4, 1000]:
                yield at(operator, first, [2, 2], args)[:2]
    yield at("ite", 9, ["bool", 2, 2], [[-8], [8, 7], [-7, 8]])[:2]
    yield at("concat", 9, [1, 2], [[-8], [8, 7]])[:2]


# ---- cases

BOOLS = {"not": 1, "and": 2, "or": 2, "xor": 2, "=>": 2, "=": 2}
UNARY = ["bvnot", "bvneg", "bvnego"]
CHEAP = ["=", "bvand", "bvor", "bvxor", "bvnand", "bvnor", "bvxnor", "bvadd", "bvsub", "bvshl", "bvlshr", "bvashr", "bvult",
         "bvule", "bvugt", "bvuge", "bvslt", "bvsle", "bvsgt", "bvsge", "bvcomp", "bvuaddo", "bvsaddo", "bvusubo", "bvssubo",
         "bvsdivo"]
DEAR = ["bvmul", "bvudiv", "bvurem", "bvsdiv", "bvsrem", "bvsmod", "bvumulo", "bvsmulo"]
# from 64 bits on these alone of the dear ones
LARGE = {64: ["bvmul", "bvudiv"], 65: ["bvmul", "bvumulo"], 127: ["bvsmod"], 128: ["bvmul", "bvurem"]}
WIDTHS = [1, 2, 3, 4, 5, 6, 7, 8, 16, 33, 64, 65, 127, 128]


def operators(w):
    """Each operator with sorts of this width."""
    for name in UNARY:
        yield name, [w]
    for name in CHEAP + LARGE.get(w, DEAR):
        yield name, [w, w]
    yield "ite", ["bool", w, w]
    for v in sorted({1, 3, 128 - w}):
        if 1 <= v and v + w <= 128:
            yield "concat", [w, v]
    for i, j in sorted({(0, 0), (w - 1, 0), (w - 1, w - 1), (w - 1, w // 2), (w // 2, w // 3)}):
        yield f"extract:{i}:{j}", [w]
    for k in sorted({1, 2, 3, 128 // w}):
        if k * w <= 128:
            yield f"repeat:{k}", [w]
    for k in sorted({0, 1, 5, 128 - w}):
        if w + k <= 128:
            yield f"zero_extend:{k}", [w]
            yield f"sign_extend:{k}", [w]
    for k in sorted({0, 1, w - 1, w, w + 1, 2**128 - 1}):
        yield f"rotate_left:{k}", [w]
        yield f"rotate_right:{k}", [w]


def cases():
    yield "# truth values", None
    for name, count in BOOLS.items():
        sorts = ["bool"] * count
        yield f"circuit {name} {' '.join(sorts)}", answer(2**30, name, sorts)
    yield "circuit ite bool bool bool", answer(2**30, "ite", ["bool"] * 3)
    for w in WIDTHS:
        yield f"# width {w}", None
        for operator, sorts in operators(w):
            sorts = [str(s) for s in sorts]
            yield f"circuit {operator} {' '.join(sorts)}", answer(2**30, operator, sorts)
    yield "# limits: the greatest variable, one less, and as many as the arguments have", None
    for w in [1, 2, 8, 33]:
        for operator, sorts in operators(w):
            sorts = [str(s) for s in sorts]
            most, first = variables_of(operator, sorts)
            for limit in sorted({most, most - 1, first - 1}):
                if first <= limit + 1:
                    yield f"limited {limit} {operator} {' '.join(sorts)}", answer(limit, operator, sorts)
    yield from circuits_at_literals()
    yield "# sizes: clauses, and their literals", None
    for name, count in BOOLS.items():
        yield f"size {name} {' '.join(['bool'] * count)}", size(name, ["bool"] * count)
    for w in WIDTHS:
        for operator, sorts in operators(w):
            sorts = [str(s) for s in sorts]
            yield f"size {operator} {' '.join(sorts)}", size(operator, sorts)
    yield "# new variables", None
    for sort in ["bool", "1", "2", "8", "128"]:
        for first in [1, 2, 7, 2**30 - 127, 2**30, 2**30 + 1]:
            end = first + width(sort)
            for limit in sorted({first - 1, end - 2, end - 1, end, 2**30}):
                if first <= limit + 1 and limit <= 2**30:
                    got = "".join(f" {v}" for v in range(first, end)) + f"; {end}"
                    yield f"fresh {limit} {first} {sort}", got if end - 1 <= limit else f" too many; {first}"
    yield "# and-gate: a gate takes 4, as the first row has it, and a new variable is then 5", None
    yield "fresh 1073741824 5 bool", " 5; 6"
    yield "# no cases", None
    for line in ["circuit bvadd 8", "circuit bvadd 8 7", "circuit bvadd 129 129", "circuit bvadd 0 0", "circuit not 1",
                 "circuit ite 1 8 8", "circuit repeat:0 8", "circuit extract:8:0 8", "circuit extract:0:1 8",
                 "circuit nothing 8", "circuit extract:1 8", "limited 1073741825 bvnot 8", "limited 8 bvnot 8",
                 "fresh 8 0 8", "fresh 8 10 8", "fresh 8 9 0", "circuit", "fresh 1 2", "at bvudiv 0 2 2/-1 -1/-1 -1", "at bvudiv 2 2 2/-1 -1/-1",
                 "at bvudiv 2 2 2/-1 -1", "at bvudiv 2 2 2/-1 -1/-1 -1/-1", "at bvudiv 2 2 2/-1 0/-1 -1", "at bvudiv 2 2 3/-1 -1/-1 -1",
                 "at bvudiv 2 2 2", "at bvudiv 1073741826 2 2/-1 -1/-1 -1"]:
        yield line, "bad case"


if __name__ == "__main__":
    write_part("qv_blast_cases", "circuits", cases())
