#!/usr/bin/env python3
"""Writes the cases of qv_blast_cases, and what must come of each: `blast_cases.py` writes
crates/qv_blast_cases/stdin and stdout. The clauses are computed here from the tables of gates, routines and operators (those
of circuit_cases.py) and from the rule of clause lists: clause 1, then for each formula in turn the clauses of its new nodes,
in post-order of first appearance, and the unit clause of its literal.

`list LIMIT TERM;TERM;..` puts all terms into one store and then asserts them in turn, at most LIMIT being the greatest
variable. The answer has for each formula the ids of its clauses, the end excluded, or `too many`, then the bits of each term
of the store behind its number, and then each clause behind a semicolon; of more than 63 clauses a checksum of the bits, the
next id and a checksum of the clauses. `grow` is the same, but puts each term when those before are asserted.
`many COUNT OPERATOR WIDTH` asserts as many equations with variables of their own.
Terms are written with the arguments before their operator, and `dup` is the last term once more.
"""

from circuit_cases import FALSE, TRUE, Circuit, TooMany, checksum, operators, place, width, WIDTHS, BOOLS
from rows import write_part

MOST = 2**30
ARITY = {"not": 1, "bvnot": 1, "bvneg": 1, "bvnego": 1, "extract": 1, "repeat": 1, "zero_extend": 1, "sign_extend": 1,
         "rotate_left": 1, "rotate_right": 1, "ite": 3}


class Store:
    """Terms by number, each once."""

    def __init__(self):
        self.numbers = {}
        self.nodes = []

    def put(self, node):
        if node not in self.numbers:
            self.numbers[node] = len(self.nodes)
            self.nodes.append(node)
        return self.numbers[node]

    def term(self, text):
        stack = []
        for word in text.split():
            head = word.split(":")[0]
            if word == "dup":
                stack.append(stack[-1])
            elif ":" in word and (head in ("bool",) or head.isdigit()):
                of, value = word.split(":")
                stack.append(self.put(("literal", of, int(value, 16))))
            elif ":" in word and head[0] in "cv" and head[1:].isdigit():
                stack.append(self.put(("leaf", head, word.split(":")[1])))
            else:
                count = ARITY.get(head, 2)
                kids = tuple(stack[-count:])
                del stack[-count:]
                stack.append(self.put(("apply", word, kids)))
        assert len(stack) == 1, text
        return stack[0]


class Blaster:
    def __init__(self, store, limit):
        self.store = store
        self.circuit = Circuit(2, limit)
        self.circuit.clauses = [[TRUE]]
        self.bits = {}

    def new_nodes(self, root):
        """The terms below a term that have no bits, children first, each once."""
        order, seen, stack = [], set(), [(root, False)]
        while stack:
            number, leave = stack.pop()
            if leave:
                order.append(number)
            elif number not in self.bits and number not in seen:
                seen.add(number)
                stack.append((number, True))
                node = self.store.nodes[number]
                if node[0] == "apply":
                    stack += [(kid, False) for kid in reversed(node[2])]
        return order

    def blast(self, number):
        node = self.store.nodes[number]
        if node[0] == "literal":
            return [TRUE if node[2] >> i & 1 else FALSE for i in range(width(node[1]))]
        if node[0] == "leaf":
            return [self.circuit.variable() for _ in range(width(node[2]))]
        name, *indices = node[1].split(":")
        return self.circuit.operator(name, [int(i) for i in indices], [list(self.bits[kid]) for kid in node[2]])

    def formula(self, root):
        first, before = 1 + len(self.circuit.clauses), self.circuit.next
        fresh = self.new_nodes(root)
        try:
            for number in fresh:
                self.bits[number] = self.blast(number)
        except TooMany:
            for number in fresh:
                self.bits.pop(number, None)
            del self.circuit.clauses[first - 1:]
            self.circuit.next = before
            return " too many"
        assert len(self.bits[root]) == 1
        self.circuit.clauses.append(list(self.bits[root]))
        return f" {first}-{1 + len(self.circuit.clauses)}"


def terms_sum(blaster):
    total = 0xCBF29CE484222325
    for number in range(len(blaster.store.nodes)):
        for part in [place(lit) for lit in blaster.bits.get(number, [])] + [1]:
            total = (total ^ part) * 0x100000001B3 % 2**64
    return total


def written(lits):
    return "".join(f" {lit}" for lit in lits)


def shown(blaster):
    clauses = blaster.circuit.clauses
    end = 1 + len(clauses)
    if end > 64:
        return f"; {terms_sum(blaster):x}; {end} {checksum(clauses):x}"
    bits = "".join("; #" + (written(blaster.bits[n]) if n in blaster.bits else " -") for n in range(len(blaster.store.nodes)))
    return bits + "".join(";" + written(clause) for clause in clauses)


def blasted(limit, terms):
    store = Store()
    roots = [store.term(t) for t in terms]
    blaster = Blaster(store, limit)
    answers = "".join(blaster.formula(root) for root in roots)
    return answers + shown(blaster), blaster


def listed(limit, *terms):
    return f"list {limit} {';'.join(terms)}", blasted(limit, terms)[0]


def growing(limit, *terms):
    store = Store()
    blaster = Blaster(store, limit)
    answers = "".join(blaster.formula(store.term(t)) for t in terms)
    return f"grow {limit} {';'.join(terms)}", answers + shown(blaster)


def greatest(*terms):
    return blasted(MOST, terms)[1].circuit.next - 1


def many(count, operator, w):
    terms = [f"v{3 * n}:{w} v{3 * n + 1}:{w} {operator} v{3 * n + 2}:{w} =" for n in range(count)]
    blaster = blasted(MOST, terms)[1]
    clauses = blaster.circuit.clauses
    end = 1 + len(clauses)
    got = f"; {end} {checksum(clauses):x}" if end > 64 else "".join(";" + written(c) for c in clauses)
    return f"many {count} {operator} {w}", got


# ---- formulas

def result_width(operator, sorts):
    """How many bits the operator's result has, or `bool`."""
    name, *indices = operator.split(":")
    if name in ("=", "bvult", "bvule", "bvugt", "bvuge", "bvslt", "bvsle", "bvsgt", "bvsge", "bvnego", "bvuaddo", "bvsaddo",
                "bvumulo", "bvsmulo", "bvusubo", "bvssubo", "bvsdivo") or name in BOOLS:
        return "bool"
    if name == "bvcomp":
        return 1
    if name == "concat":
        return sum(sorts)
    if name == "extract":
        return int(indices[0]) - int(indices[1]) + 1
    if name == "repeat":
        return int(indices[0]) * sorts[0]
    if name in ("zero_extend", "sign_extend"):
        return int(indices[0]) + sorts[0]
    return sorts[-1]


def formula(operator, leaves, w):
    """A formula of an operator's value at leaves: the value, or whether it is that of a new variable."""
    value = f"{' '.join(leaves)} {operator}"
    return value if w == "bool" else f"{value} v9:{w} ="


def leaf(kind, index, sort):
    if kind == "literal":
        return f"{sort}:{(2 if index else 5) % 2**width(sort):x}"
    return f"{'v' if kind == 'variable' else 'c'}{index}:{sort}"


def cases():
    yield "# the least limit, and one constant more", None
    line, got = listed(2, "c0:bool", "c1:bool")
    assert got == " 2-3 too many; # 2; # -; 1; 2"
    yield line, got
    yield "# and-gate", None
    line, got = listed(MOST, "v0:bool v1:bool and")
    assert got == " 2-6; # 2; # 3; # 4; 1; -4 2; -4 3; 4 -2 -3; 4"
    yield line, got
    yield "# sibling-clauses: variable 2 stands at two places", None
    half = "{} extract:0:0 1:1 = {} extract:0:0 1:0 = and"
    line, got = listed(MOST, half.format("2:1", "v2:2"), half.format("v2:2", "v4:2"))
    assert got.startswith(" 2-14 14-26") and got.endswith(
        "; 1; -2 1 1; -2 -1 -1; 2 -1 1; 2 1 -1; -5 3 -1; -5 -3 1; 5 -3 -1; 5 3 1; -6 -2; -6 -5; 6 2 5; 6"
        "; -7 3 1; -7 -3 -1; 7 -3 1; 7 3 -1; -10 8 -1; -10 -8 1; 10 -8 -1; 10 8 1; -11 -7; -11 -10; 11 7 10; 11")
    yield line, got
    yield "# leaves alone, once more, and terms that stand in no formula that was added", None
    for terms in [["bool:1"], ["bool:0"], ["v0:bool"], ["c7:bool"], ["v0:bool", "v0:bool"], ["bool:1", "bool:0", "bool:1"],
                  ["v0:bool not", "v0:bool"], ["v0:bool", "v0:bool not"], ["v0:bool", "c0:bool"], ["v0:8 v0:8 =", "v1:8 v0:8 ="],
                  ["v0:bool v0:bool xor"], ["v0:bool v1:bool xor", "v1:bool v0:bool xor"]]:
        yield listed(MOST, *terms)
    yield "# operators of truth values", None
    for kinds in [("variable", "constant"), ("constant", "literal"), ("literal", "variable")]:
        for name, count in BOOLS.items():
            yield listed(MOST, formula(name, [leaf(kinds[i], i, "bool") for i in range(count)], "bool"))
        yield listed(MOST, formula("ite", [leaf(kinds[i % 2], i, "bool") for i in range(3)], "bool"))
    for w in WIDTHS:
        yield f"# width {w}", None
        for operator, sorts in operators(w):
            for kinds in [("variable", "constant"), ("constant", "literal")] if w <= 8 else [("variable", "constant")]:
                leaves = [leaf(kinds[i % 2], i, s) for i, s in enumerate(sorts)]
                yield listed(MOST, formula(operator, leaves, result_width(operator, sorts)))
    yield "# several formulas with common terms", None
    common = {w: [f"v0:{w} v1:{w} bvadd v1:{w} bvult", f"v1:{w} v0:{w} bvult", f"v0:{w} v1:{w} bvadd v0:{w} v1:{w} bvmul =",
                  f"v0:{w} v1:{w} bvult not", f"v0:{w} v1:{w} bvmul c0:{w} bvudiv v1:{w} =", f"c0:{w} v0:{w} bvslt",
                  f"v0:{w} v1:{w} bvadd v1:{w} bvult"] for w in [1, 2, 3, 8, 33]}
    for w, terms in common.items():
        for count in range(2, len(terms) + 1):
            yield listed(MOST, *terms[:count])
        yield listed(MOST, *reversed(terms))
    yield "# limits: what the first formulas take, one less, and what comes behind a refusal", None
    for w, terms in common.items():
        for count in range(1, 5):
            for limit in sorted({greatest(*terms[:count]), greatest(*terms[:count]) - 1, 2 * w + 1, 2 * w}):
                yield listed(limit, *terms, "v0:bool", *terms[1::2])
    for limit in range(1, 14):
        yield listed(limit, "v0:2 v1:2 bvult", "v0:2 v1:2 =", "v2:bool", "v0:2 extract:0:0 1:1 =", "v2:bool not")
    yield "# a store that grows between the formulas", None
    yield growing(2, "c0:bool", "c1:bool")
    for w, terms in common.items():
        yield growing(MOST, *terms)
        yield growing(MOST, *reversed(terms))
        for limit in sorted({greatest(*terms[:count]) - less for count in range(1, 5) for less in (0, 1)}):
            yield growing(limit, *terms, "v0:bool", *terms[1::2])
    yield "# a term that stands in itself often, and deep ones", None
    yield listed(MOST, "v0:8" + " dup bvadd" * 60 + " v0:8 =")
    yield listed(MOST, "v0:bool" + " v1:bool and" * 3000, "v0:bool" + " v1:bool and" * 3000 + " v2:bool or" * 3000)
    yield listed(MOST, "v0:8" + " bvnot" * 5000 + " v1:8 bvult")
    yield "# equations with variables of their own", None
    for operator, w in [("bvadd", 1), ("bvmul", 2), ("bvadd", 32), ("bvmul", 32), ("bvudiv", 8)]:
        for count in [1, 2, 10]:
            yield many(count, operator, w)
    yield "many 0 bvadd 8", "; 1"
    yield "# no cases", None
    for line in ["list 0 v0:bool", "list 1073741825 v0:bool", "list v0:bool", "list 8 v0:8 v1:7 bvadd", "list 8 v0:bool v1:bool",
                 "list 8", "list", "many 1 bvnot 8", "many 1 bvadd 0", "many 1 bvult 8", "many x bvadd 8", "put 8 v0:bool", "grow 0 v0:bool", "grow 8",
                 "grow 8 v0:bool;v0:8 v1:7 bvadd"]:
        yield line, "bad case"


if __name__ == "__main__":
    write_part("qv_blast_cases", "clause lists of formulas", cases())
