#!/usr/bin/env python3
"""Writes the cases of crates/qv_check_cases (stdin) and what must come (stdout): whole sections of certificates, each for
asserted formulas.

The verdicts are computed here from the rules of certificates and not by the program: lines by the grammar of
bench/cases/cert_cases.py, problems by bench/cases/prenex_cases.py, passes by bench/cases/rewrite_cases.py and
bench/cases/sum_cases.py, xor_cases.py and simp_cases.py, clause lists by bench/cases/blast_cases.py and refutations by bench/cases/clause_cases.py. Accepted sections are made by brute force over the values of small problems, and
refutations by cases; others are these with something changed.

`check NUMBER GIVE TERM;TERM;..|CERT` reads line 1 and then a section for the formulas, from a source that gives at most GIVE
bytes a call. `each GIVE ..` does so for each front of the certificate, and `bits GIVE ..` with each of its bits turned, and
says how many were accepted, with a checksum of all verdicts. `fails GIVE ..` lets the first, the second, .. call of the source
fail.
"""
import random
from itertools import product

from blast_cases import MOST, Blaster, Store
from cert_cases import inner, outer
from clause_cases import Checker
from circuit_cases import TooMany
from prenex_cases import CONSTANTS, LEVELS, LIMIT, holds, problem, value
from rewrite_cases import RULES, passed
from rows import shown, write_part
from simp_cases import simped
from sum_cases import summed
from xor_cases import xored
from tree_cases import app, bind, is_named, leaf, named, put_in, show, sort_of
from word_cases import rank

RANDOM = random.Random(20261127)


# ---- the judgement of a section, by the rules


class Refused(Exception):
    """At a line, by a kind."""


FAULTS = {"operator": "Operator", "literal": "Literal", "rule": "Rule"}
LRAT_FAULTS = {"order": "Id", "open": "Open"}


def plain_sort(width):
    return "bool" if width == 0 else width


def sort_or_none(op, kids):
    found = rank(op, [sort_of(kid) for kid in kids])
    return found if found == "bool" or isinstance(found, int) else None


def leaves_in(t):
    if is_named(t):
        return {named(t[0])[1]}
    return set().union(*map(leaves_in, t[1])) if t[1] else set()


def to_passes(t):
    return t[0] if not t[1] else (t[0], [to_passes(a) for a in t[1]])


def from_passes(t):
    return leaf(t) if isinstance(t, str) else (t[0], tuple(map(from_passes, t[1])))


def behind(name, formulas):
    """The formulas behind the pass of this name."""
    rule = "".join(part.capitalize() for part in name.split("-"))
    by = {"sum": summed, "xor": xored, "simp": simped}.get(name, lambda t: passed(rule, t))
    return [from_passes(by(to_passes(t))) for t in formulas]


def clauses_of(formulas):
    """The clause list, or None where it has too many variables."""
    store = Store()
    roots = [store.term(show(t)) for t in formulas]
    blaster = Blaster(store, MOST)
    for root in roots:
        if blaster.formula(root) == " too many":
            return None
    return blaster.circuit.clauses


class Section:
    """A section of a certificate of this version for a problem, line by line."""

    def __init__(self, places, matrix, number, version):
        self.places, self.matrix, self.number, self.version = places, matrix, number, version
        self.state, self.answer = "opening", None
        self.nodes, self.terms, self.grown = [], {}, [{"path": [], "eigen": None}]
        self.formulas, self.checker = None, None

    def line(self, text):
        """Takes a line. It gives the kind of a refusal, `accepted`, or None."""
        found = inner(text) if self.state == "refuting" else outer(text)
        if isinstance(found, str):
            return self.own_fault(found)
        words = found[1].decode().split()
        return getattr(self, self.state)(words)

    def own_fault(self, fault):
        among = {"listing": ["operator", "literal"] + (["rule"] if self.version == 2 else []), "rewriting": ["rule"]}
        return FAULTS[fault] if fault in among.get(self.state, []) else "Form"

    def opening(self, words):
        if words[0] != "check":
            return "Form"
        if int(words[1]) != self.number:
            return "Section"
        self.answer = words[2]
        self.state = "closing" if self.answer == "unknown" else "listing"

    def closing(self, words):
        return "accepted" if words == ["end"] else "Form"

    def listing(self, words):
        if words[0] == "lrat" or words[0] == "w":
            return self.leave(words)
        if words[0] == "n":
            if words[2] == ("g" if self.answer == "sat" else "v"):
                return "Form"
            return self.node(words)
        if words[0] == "s" and self.answer == "sat":
            return self.term(*map(int, words[1:]))
        if words[0] == "i" and self.answer == "unsat":
            return self.instance(*map(int, words[1:]))
        if words[0] == "e" and self.answer == "unsat":
            return self.eigen(*map(int, words[1:]))
        return "Form"

    def given(self, node):
        return 1 <= node <= len(self.nodes)

    def node(self, words):
        if int(words[1]) != len(self.nodes) + 1:
            return "Order"
        if words[2] == "v":
            place = int(words[3])
            if place >= len(self.places) or self.places[place][0] != "Forall":
                return "Place"
            self.nodes.append(leaf(f"v{place}:{self.places[place][1]}"))
        elif words[2] == "g":
            line = int(words[3])
            if not 1 <= line < len(self.grown) or self.grown[line]["eigen"] is None:
                return "Eigenvariable"
            self.nodes.append(leaf(f"v{line}:{self.grown[line]['eigen']}"))
        elif words[2] == "c":
            self.nodes.append(leaf(f"{plain_sort(int(words[3]))}:{int(words[4]):x}"))
        else:
            colon = words.index(":")
            kids = list(map(int, words[colon + 1:]))
            if not all(map(self.given, kids)):
                return "Node"
            op = ":".join(words[3:colon])
            trees = tuple(self.nodes[kid - 1] for kid in kids)
            if sort_or_none(op, trees) is None:
                return "Rank"
            self.nodes.append((op, trees))

    def is_place(self, place, player):
        return place < len(self.places) and self.places[place][0] == player

    def term(self, place, node):
        if not self.given(node):
            return "Node"
        if not self.is_place(place, "Exists"):
            return "Place"
        if place in self.terms:
            return "Repeated"
        tree = self.nodes[node - 1]
        if sort_of(tree) != self.places[place][1]:
            return "Sort"
        if any(other >= place for other in leaves_in(tree)):
            return "Dependence"
        self.terms[place] = tree

    def instance(self, line, parent, node):
        if line != len(self.grown):
            return "Order"
        if not self.given(node):
            return "Node"
        fault = self.parent_fault(parent, "Forall")
        if fault:
            return fault
        path = self.grown[parent]["path"]
        if sort_of(self.nodes[node - 1]) != self.places[len(path)][1]:
            return "Sort"
        self.grown.append({"path": path + [self.nodes[node - 1]], "eigen": None})

    def eigen(self, line, parent):
        if line != len(self.grown):
            return "Order"
        fault = self.parent_fault(parent, "Exists")
        if fault:
            return fault
        path = self.grown[parent]["path"]
        sort = self.places[len(path)][1]
        self.grown.append({"path": path + [leaf(f"v{line}:{sort}")], "eigen": sort})

    def parent_fault(self, parent, player):
        if parent >= len(self.grown) or len(self.grown[parent]["path"]) == len(self.places):
            return "Parent"
        return None if self.is_place(len(self.grown[parent]["path"]), player) else "Quantifier"

    def leave(self, words):
        if words[0] == "w" and self.version == 1:
            return "Form"
        if self.answer == "sat":
            if any(self.is_place(j, "Exists") and j not in self.terms for j in range(len(self.places))):
                return "Missing"
            self.formulas = [app("not", put_in(self.matrix, [self.terms.get(j) for j in range(len(self.places))]))]
        else:
            self.formulas = [put_in(self.matrix, grown["path"]) for grown in self.grown if len(grown["path"]) == len(self.places)]
        self.state = "rewriting"
        return self.rewriting(words)

    def rewriting(self, words):
        if words[0] == "w":
            self.formulas = behind(words[1], self.formulas)
            return None
        if words[0] != "lrat":
            return "Form"
        clauses = clauses_of(self.formulas)
        if clauses is None:
            return "Variables"
        self.checker = Checker()
        for id, lits in enumerate(clauses, 1):
            self.checker.original(id, lits)
        self.state = "refuting"

    def refuting(self, words):
        if words == ["end"]:
            return "accepted" if self.checker.refuted else "Refutation"
        if self.checker.refuted:
            return None
        if words[1] == "d":
            self.checker.delete(map(int, words[2:-1]))
            return None
        numbers = list(map(int, words))
        zero = numbers.index(0, 1)
        said = self.checker.add(numbers[0], numbers[1:zero], numbers[zero + 1:-1])
        if said == "ok":
            return None
        name, _, place = said.partition(" ")
        return LRAT_FAULTS.get(name) or f"{name.capitalize()} {{ hint: {place} }}"


def verdict(formulas, number, cert):
    """What the driver says of a certificate for these formulas."""
    lines = cert.split(b"\n")
    rest = lines.pop()
    if not lines:
        return "no header"
    found = outer(lines[0])
    if isinstance(found, str) or not found[0].startswith("Header"):
        return "no header"
    places, _, matrix = problem(formulas)
    if len(places) > LIMIT:
        return "prefix limit"
    section = Section(places, matrix, number, int(lines[0].split()[1]))
    for at, text in enumerate(lines[1:], 2):
        said = section.line(text)
        if said == "accepted":
            return f"{section.answer.capitalize()}, line {at + 1} {next_line(lines[at:], rest)}"
        if said:
            return f"refused {at} {said}"
    return f"refused {len(lines) + 1} Truncated"


def next_line(lines, rest):
    """What the reader says behind the section."""
    if not lines:
        return "cut" if rest else "end"
    return "fault" if isinstance(outer(lines[0]), str) else "line"


# ---- sections that are accepted


def values_of(sort):
    return range(2 if sort == "bool" else 2**sort)


def literal(sort, number):
    return leaf(f"{sort}:{number:x}")


def at_place(place, sort):
    return leaf(f"v{place}:{sort}")


def by_value(variable, sort, branches):
    """The branch of the variable's value."""
    chosen = branches[-1]
    for number in reversed(values_of(sort)[:-1]):
        if branches[number] != chosen:
            test = app("=", variable, literal(sort, number)) if sort != "bool" else app("not", variable)
            chosen = app("ite", test, branches[number], chosen)
    return chosen


def strategy(places, matrix, player, levels=()):
    """A term for each place of the player who wins from here, over the places of the other one before it."""
    place = len(levels)
    if place == len(places):
        return {}
    owner, sort = places[place]
    wins = player == "Exists"
    if owner == player:
        number = next(n for n in values_of(sort) if holds(places, matrix, levels + (n,)) == wins)
        return {place: literal(sort, number), **strategy(places, matrix, player, levels + (number,))}
    below = [strategy(places, matrix, player, levels + (n,)) for n in values_of(sort)]
    return {j: by_value(at_place(place, sort), sort, [terms[j] for terms in below]) for j in below[0]}


class Writer:
    """The lines of a section."""

    def __init__(self, letter, header):
        self.lines, self.letter, self.numbers, self.count = header, letter, {}, 0

    def node(self, t):
        """The number of a tree's node, whose lines come where they aren't there."""
        if t not in self.numbers:
            kids = [self.node(a) for a in t[1]]
            number = len(self.numbers) + 1
            if kids:
                name, *indices = t[0].split(":")
                form = " ".join(map(str, ["o", name, *indices, ":", *kids]))
            elif is_named(t):
                form = f"{self.letter} {named(t[0])[1]}"
            else:
                sort, number_of = t[0].split(":")
                form = f"c {0 if sort == 'bool' else sort} {int(number_of, 16)}"
            self.lines.append(f"n {number} {form}")
            self.numbers[t] = number
        return self.numbers[t]

    def grow(self, form):
        self.count += 1
        self.lines.append(form.format(self.count))
        return self.count


def refutation(formulas):
    """Lines that refute the clause list of formulas, by cases on the bits of their variables."""
    store = Store()
    roots = [store.term(show(t)) for t in formulas]
    blaster = Blaster(store, MOST)
    for root in roots:
        blaster.formula(root)
    clauses = dict(enumerate(blaster.circuit.clauses, 1))
    bits = [bit for n, node in enumerate(store.nodes) if node[0] == "leaf" for bit in blaster.bits.get(n, [])]
    lines = []

    def add(lits, hints):
        id = max(clauses) + 1
        clauses[id] = lits
        lines.append(" ".join(map(str, [id, *lits, 0, *hints, 0])))
        return id

    def learnt(assumed, reasons, last):
        used, wanted, lits = [last], {-lit for lit in clauses[last]}, []
        for lit, reason in reversed(reasons):
            if lit in wanted:
                used.append(reason)
                wanted |= {-other for other in clauses[reason] if other != lit}
        lits = [-lit for lit in assumed if lit in wanted]
        return add(lits, used[::-1])

    def refute(assumed):
        true, reasons, more = set(assumed), [], True
        while more:
            more = False
            for id, lits in clauses.items():
                left = {lit for lit in lits if -lit not in true}
                if not left:
                    return learnt(assumed, reasons, id)
                if len(left) == 1 and not left & true:
                    true |= left
                    reasons.append((*left, id))
                    more = True
        bit = next(b for b in bits if b not in true and -b not in true)
        first = refute(assumed + [bit])
        if -bit not in clauses[first]:
            return first
        second = refute(assumed + [-bit])
        if bit not in clauses[second]:
            return second
        lits = [lit for lit in clauses[first] if lit != -bit]
        lits += [lit for lit in clauses[second] if lit != bit and lit not in lits]
        return add(lits, [first, second])

    refute([])
    return lines


def closed(writer, formulas, version, rules):
    """The end of a section, behind its nodes."""
    for rule in rules if version == 2 else []:
        writer.lines.append(f"w {rule}")
        formulas = behind(rule, formulas)
    writer.lines += ["lrat", *refutation(formulas), "end"]
    return "".join(line + "\n" for line in writer.lines).encode()


def sat_cert(formulas, number, version=1, rules=()):
    places, _, matrix = problem(formulas)
    terms = strategy(places, matrix, "Exists")
    writer = Writer("v", [f"qbv-cert {version}", f"check {number} sat"])
    order = list(terms)
    RANDOM.shuffle(order)
    for place in order:
        writer.lines.append(f"s {place} {writer.node(terms[place])}")
    goal = app("not", put_in(matrix, [terms.get(j) for j in range(len(places))]))
    return closed(writer, [goal], version, rules)


def unsat_cert(formulas, number, version=1, rules=(), wide=0.0):
    """An expansion, in which a universal has its term, or a line for each of its values."""
    places, _, matrix = problem(formulas)
    terms = strategy(places, matrix, "Forall")
    writer = Writer("g", [f"qbv-cert {version}", f"check {number} unsat"])
    open_lines, leaves = [(0, [])], []
    while open_lines:
        parent, path = open_lines.pop(RANDOM.randrange(len(open_lines)))
        place = len(path)
        if place == len(places):
            leaves.append((parent, put_in(matrix, path)))
            continue
        owner, sort = places[place]
        if owner == "Exists":
            line = writer.grow(f"e {{}} {parent}")
            open_lines.append((line, path + [at_place(line, sort)]))
            continue
        chosen = [put_in(terms[place], path)]
        if RANDOM.random() < wide:
            chosen = [literal(sort, n) for n in values_of(sort)]
        for term in chosen:
            line = writer.grow(f"i {{}} {parent} {writer.node(term)}")
            open_lines.append((line, path + [term]))
    leaves.sort(key=lambda found: found[0])
    return closed(writer, [t for _, t in leaves], version, rules)


def is_true(formulas):
    places, _, matrix = problem(formulas)
    return holds(places, matrix)


# ---- sections with something changed

GREAT = [0, 1, 2, 3, 7, 63, 2**32, 2**62 - 1, 2**62, 2**64, 10**40]
STRAY = ["", "end", "lrat", "check 1 sat", "check 1 unsat", "check 2 unknown", "qbv-cert 1", "w fold", "w same", "w melt",
         "n 1 c 2 0", "n 1 c 2 4", "n 1 c 129 0", "n 1 v 0", "n 1 g 1", "n 1 o not : 1", "n 1 o bvadd : 1 1", "n 1 o nothing : 1",
         "n 1 o extract 1 : 1", "s 0 1", "i 1 0 1", "e 1 0", "5 0 1 0", "5 1 0 0", "5 d 1 0", "7", "\t", "n", "x"]


def changed_number(words):
    at = RANDOM.choice([n for n, word in enumerate(words) if word.lstrip("-").isdigit()] or [0])
    if not words[at].lstrip("-").isdigit():
        return words
    number = int(words[at])
    put = RANDOM.choice([number + 1, max(number - 1, 0), -number, RANDOM.choice(GREAT), RANDOM.randrange(12)])
    return words[:at] + [str(put)] + words[at + 1:]


def spoiled(cert):
    """The certificate with one thing changed."""
    lines = cert.decode().split("\n")[:-1]
    at = RANDOM.randrange(len(lines)) if RANDOM.random() < 0.4 else RANDOM.randrange(min(len(lines), 16))
    way = RANDOM.randrange(10)
    if way <= 4:
        lines[at] = " ".join(changed_number(lines[at].split(" ")))
    elif way == 5:
        del lines[at]
    elif way == 6:
        lines.insert(at, RANDOM.choice(lines))
    elif way == 7:
        other = min(at + 1, len(lines) - 1)
        lines[at], lines[other] = lines[other], lines[at]
    elif way == 8:
        lines.insert(at, RANDOM.choice(STRAY))
    else:
        words = lines[at].split(" ")
        words[RANDOM.randrange(len(words))] = RANDOM.choice(["", "x", "sat", "unsat", "unknown", "v", "g", "c", "o", ":", "d", "end"])
        lines[at] = " ".join(words)
    return "".join(line + "\n" for line in lines).encode()


# ---- small problems


def random_term(sort, depth, level_of):
    """A term over the leaves that a list has for each sort."""
    if depth == 0 or RANDOM.random() < 0.2:
        return RANDOM.choice(level_of[sort] + [literal(sort, RANDOM.choice(list(values_of(sort))))])
    if sort == "bool":
        op = RANDOM.choice(["and", "or", "xor", "=>", "not", "=", "bvult", "bvsle", "ite"])
        if op in ["=", "bvult", "bvsle"]:
            of = RANDOM.choice([w for w in level_of if w != "bool"])
            return app(op, random_term(of, depth - 1, level_of), random_term(of, depth - 1, level_of))
        kids = [random_term("bool", depth - 1, level_of) for _ in range({"not": 1, "ite": 3}.get(op, 2))]
        return app(op, *kids)
    op = RANDOM.choice(["bvadd", "bvsub", "bvand", "bvor", "bvxor", "bvnot", "bvneg", "ite", "bvmul"])
    if op == "ite":
        return app(op, random_term("bool", depth - 1, level_of), *[random_term(sort, depth - 1, level_of) for _ in range(2)])
    return app(op, *[random_term(sort, depth - 1, level_of) for _ in range(1 if op in ["bvnot", "bvneg"] else 2)])


def random_formula():
    """A formula with up to four quantifiers before a term, whose sorts are those of the levels, and constants."""
    bound = [(RANDOM.choice(["All", "Ex"]), level) for level in RANDOM.sample([0, 1, 2], RANDOM.randrange(1, 4))]
    leaves = {"bool": [leaf("c0:bool")], 2: [leaf("c1:2")], 3: []}
    for _, level in bound:
        leaves[LEVELS[level]].append(leaf(f"v{level}:{LEVELS[level]}"))
    leaves = {sort: found for sort, found in leaves.items() if found or sort == "bool"}
    t = random_term("bool", 3, leaves)
    for quantifier, level in bound:
        t = bind(quantifier, level, LEVELS[level], t)
    return t


# ---- rows

ROWS = []


def note(text):
    ROWS.extend([("", None)] if ROWS else [])
    ROWS.append((f"# {text}", None))


def text_of(formulas):
    return ";".join(map(show, formulas))


def row(formulas, cert, number=1, give=4096):
    cert = cert.encode() if isinstance(cert, str) else cert
    ROWS.append((f"check {number} {give} {text_of(formulas)}|{shown(cert)}", verdict(formulas, number, cert)))


def hashed(verdicts):
    total = 0xCBF29CE484222325
    for text in verdicts:
        for byte in text.encode():
            total = (total ^ byte) * 0x100000001B3 % 2**64
    accepted = sum(not text.startswith(("refused", "no header", "prefix limit")) for text in verdicts)
    return f"{accepted} of {len(verdicts)} accepted, {total:x}"


def each_front(formulas, cert, give):
    fronts = [verdict(formulas, 1, cert[:end]) for end in range(len(cert) + 1)]
    ROWS.append((f"each {give} {text_of(formulas)}|{shown(cert)}", hashed(fronts)))
    return fronts


def each_bit(formulas, cert, give):
    turned = [verdict(formulas, 1, cert[:at] + bytes([cert[at] ^ 1 << bit]) + cert[at + 1:]) for at in range(len(cert)) for bit in range(8)]
    ROWS.append((f"bits {give} {text_of(formulas)}|{shown(cert)}", hashed(turned)))


def each_failure(formulas, cert, give):
    """The source is called until the last line that was read is whole, or its end was met."""
    cert = cert.encode() if isinstance(cert, str) else cert
    said = verdict(formulas, 1, cert)
    ends = [at + 1 for at, byte in enumerate(cert) if byte == 10]
    if said.endswith((" Truncated", " end", " cut")) or not ends:
        calls = -(-len(cert) // give) + 1
    else:
        line = 1 if said in ["no header", "prefix limit"] else int(said.replace("line ", "").split()[1])
        calls = -(-ends[line - 1] // give)
    ROWS.append((f"fails {give} {text_of(formulas)}|{shown(cert)}", f"{calls} read faults, {said}"))


# ---- the cases

CONSTANTS[:] = ["bool", 2]
LEVELS[:] = [2, 2, "bool"]
X, Y, B = leaf("v0:2"), leaf("v1:2"), leaf("v2:bool")


def low(t, bit):
    return app("=", app("extract:0:0", t), leaf(f"1:{bit}"))


SIBLINGS = [bind("All", 0, 2, bind("Ex", 1, 2, app("and", low(X, 1), low(Y, 0))))]
SIBLINGS_CERT = """qbv-cert 1
check 1 unsat
n 1 c 2 1
i 1 0 1
e 2 1
n 2 g 2
i 3 0 2
e 4 3
lrat
26 0 1 13 11 25 22 17 8 0
end
"""
GREATEST = [bind("Ex", 0, 2, bind("All", 1, 2, app("bvuge", X, Y)))]
SMALLEST = "qbv-cert 1\ncheck 1 sat\nlrat\n3 0 1 2 0\nend\n"
SUCCESSOR = [bind("All", 0, 2, bind("Ex", 1, 2, app("=", Y, app("bvadd", X, leaf("2:1")))))]
DISTRIBUTED = [bind("All", 0, 2, bind("All", 1, 2, app("=", app("bvmul", X, app("bvadd", X, Y)), app("bvadd", app("bvmul", Y, X), app("bvmul", X, X)))))]
TURNED = [bind("All", 0, 1, bind("All", 1, 1, app("=", app("bvxor", leaf("v0:1"), leaf("v1:1")), app("bvxor", leaf("v1:1"), leaf("v0:1")))))]
OPPOSITE = [bind("Ex", 0, 1, app("=", leaf("v0:1"), app("bvnot", leaf("v0:1"))))]
BOUNDED = [bind("All", 0, 2, app("and", app("bvule", X, leaf("2:3")), app("=", app("bvor", X, leaf("2:0")), app("bvand", leaf("2:3"), X))))]
SHIFTED = [bind("Ex", 0, 2, app("not", app("=", app("bvshl", X, leaf("2:2")), app("bvurem", X, leaf("2:1")))))]
ODD = [bind("Ex", 0, 2, app("=", app("bvadd", app("bvmul", X, leaf("2:2")), leaf("2:1")), leaf("2:0")))]


def with_line(cert, number, *lines):
    """The certificate with these lines in place of one."""
    all_lines = cert.split("\n")
    return "\n".join(all_lines[:number - 1] + list(lines) + all_lines[number:])


def before_line(cert, number, *lines):
    all_lines = cert.split("\n")
    return "\n".join(all_lines[:number - 1] + list(lines) + all_lines[number - 1:])


def exchanged():
    return with_line(with_line(SIBLINGS_CERT, 5, "n 2 g 2"), 6, "e 2 1")


def by_hand():
    note("check NUMBER GIVE TERM;TERM;..|CERT: how the section of the formulas ends, and what comes behind it.")
    note("Two siblings' leaves, with a term over the other's eigenvariable.")
    for give in [1, 7, 4096]:
        row(SIBLINGS, SIBLINGS_CERT, give=give)
    row(SIBLINGS, exchanged())
    row(SIBLINGS, with_line(SIBLINGS_CERT, 10, "26 0 1 13 13 11 25 22 17 8 0"))
    row(SIBLINGS, with_line(SIBLINGS_CERT, 10, "26 0 1 13 13 11 25 22 17 8 0"), give=1)
    row(SIBLINGS, SIBLINGS_CERT[:SIBLINGS_CERT.index("26 ") + 12])
    row(SIBLINGS, SIBLINGS_CERT, number=2)
    row(SIBLINGS, SIBLINGS_CERT.replace("check 1", "check 4611686018427387903"), number=2**62 - 1)
    row(SIBLINGS, with_line(SIBLINGS_CERT, 7, "i 3 0 1"))
    row(SIBLINGS, with_line(SIBLINGS_CERT, 8))
    row(SIBLINGS, with_line(SIBLINGS_CERT, 6, "n 2 g 4"))
    note("The least refutation, and changes of it.")
    row([], SMALLEST)
    row([], with_line(SMALLEST.replace("sat", "unsat"), 4).replace("lrat\nend", "lrat\nend"))
    for number, line in [(1, "qbv-cert 9"), (2, "check 2 sat"), (4, "2 0 1 2 0"), (4, "3 0 1 0"), (4, "3 0 -1 0"), (4, "3 0 7 0"), (4, "3 x 0"),
                         (2, "check 1 unknown"), (2, "check 1 unsat"), (3, "w fold"), (5, "end end"), (5, "4 0 9 0"), (5, "x")]:
        row([], with_line(SMALLEST, number, line))
    for number, lines in [(3, ["n 2 c 0 1"]), (3, ["n 1 c 2 4"]), (3, ["n 1 v 0"]), (3, ["n 1 c 2 3", "n 2 o not : 1"]),
                          (3, ["n 1 c 2 3", "n 2 o bvfoo : 1"]), (3, ["w fold"]), (5, ["4 9 0 8 0"]), (5, ["9 d 1 2 0", "4 0 0"])]:
        row([], before_line(SMALLEST, number, *lines))
        row([], before_line(SMALLEST.replace("qbv-cert 1", "qbv-cert 2"), number, *lines))
    row([], with_line(SMALLEST, 2, "check 1 unsat", "e 1 0"))
    row([], SMALLEST + "check 2 sat\n")
    row([], SMALLEST + "check 2")
    row([], SMALLEST + "end\n5 0\n")
    row([leaf("bool:0")], SMALLEST.replace("sat", "unsat"))
    row([leaf("bool:0")], SMALLEST)
    for rule in ["fold", "same", "not-not", "unit", "absorb", "ite-known", "ite-same", "add-zero", "mul-one", "mul-zero", "melt"]:
        row([], f"qbv-cert 2\ncheck 1 sat\nw {rule}\nlrat\n3 0 1 2 0\nend\n")
    row([], "qbv-cert 2\ncheck 1 sat\nw fold\nn 1 c 2 0\nlrat\n3 0 1 2 0\nend\n")
    won, lost = "check 1 sat\n", "check 1 unsat\ne 1 0\n"
    passes = [
        ("sums", ["sum", "su", "summ", "sums"], [(DISTRIBUTED, won), (ODD, lost)],
         ["w sum\n", "", "w fold\n", "w fold\nw sum\nw same\n"]),
        ("exclusive or", ["xor", "xo", "xors"], [(TURNED, won), (OPPOSITE, lost), (ODD, lost)],
         ["w xor\n", "", "w sum\n", "w fold\nw xor\nw same\n"]),
        ("small rules", ["simp", "sim", "simps"], [(BOUNDED, won), (SHIFTED, lost), (OPPOSITE, lost), (ODD, lost)],
         ["w simp\n", "", "w xor\n", "w simp\nw fold\n", "w fold\nw unit\nw same\n"]),
    ]
    for what, names, problems, lists in passes:
        note(f"The pass of {what}.")
        for name in names:
            row([], f"qbv-cert 2\ncheck 1 sat\nw {name}\nlrat\n3 0 1 2 0\nend\n")
        for formulas, begin in problems:
            for lines in lists:
                row(formulas, f"qbv-cert 2\n{begin}{lines}lrat\n3 0 1 2 0\nend\n")
            row(formulas, f"qbv-cert 1\n{begin}w {names[0]}\nlrat\n3 0 1 2 0\nend\n")
    note("An unknown section.")
    for cert in ["qbv-cert 1\ncheck 1 unknown\nend\n", "qbv-cert 2\ncheck 1 unknown\nlrat\nend\n", "qbv-cert 1\ncheck 1 unknown\nn 1 c 2 0\nend\n",
                 "qbv-cert 2\ncheck 1 unknown\nw melt\nend\n", "qbv-cert 2\ncheck 1 unknown\nw fold\nend\n", "qbv-cert 1\ncheck 2 unknown\nend\n",
                 "qbv-cert 1\ncheck 1 unknown\n", "qbv-cert 1\n", "qbv-cert 1\ncheck 1 unknown\nn 1 o bvfoo : 1\nend\n"]:
        row(SIBLINGS, cert)
    note("Terms over places that come later, and over none.")
    head = "qbv-cert 1\ncheck 1 sat\n"
    row(GREATEST, head + "n 1 v 1\ns 0 1\nlrat\nend\n")
    row(GREATEST, head + "n 1 c 2 3\ns 0 1\nlrat\nend\n")
    row(GREATEST, head + "n 1 c 2 3\ns 0 1\ns 0 1\nlrat\nend\n")
    row(GREATEST, head + "n 1 c 2 3\ns 1 1\nlrat\nend\n")
    row(GREATEST, head + "n 1 c 2 3\ns 2 1\nlrat\nend\n")
    row(GREATEST, head + "n 1 c 3 3\ns 0 1\nlrat\nend\n")
    row(GREATEST, head + "s 0 1\nlrat\nend\n")
    row(GREATEST, head + "n 1 c 2 3\nlrat\nend\n")
    row(GREATEST, "qbv-cert 2\ncheck 1 sat\nn 1 c 2 3\nw fold\nlrat\nend\n")
    row(GREATEST, head + "n 1 v 0\nlrat\nend\n")
    row(GREATEST, head + "n 1 g 1\nlrat\nend\n")
    row(GREATEST, head + "i 1 0 1\nlrat\nend\n")
    note("A prefix that is too long.")
    many = bind("All", 2, "bool", B)
    for _ in range(6):
        many = app("xor", many, many)
    row([many], "qbv-cert 1\ncheck 1 unknown\nend\n")
    row([app("xor", many, many)], "qbv-cert 1\ncheck 1 unknown\nend\n")
    note("Numbers past every range.")
    for number in GREAT:
        for line in ["n {} c 2 1", "n 1 c {} 0", "n 1 c 2 {}", "n 1 v {}", "n 1 o extract {} 0 : 1", "n 1 o not : {}", "s {} 1", "s 0 {}"]:
            row(SUCCESSOR, head + line.format(number) + "\nlrat\nend\n")
        for line in ["i {} 0 1", "i 1 {} 1", "i 1 0 {}", "e {} 0", "e 1 {}", "n 2 g {}"]:
            row(SIBLINGS, "qbv-cert 1\ncheck 1 unsat\nn 1 c 2 1\n" + line.format(number) + "\nlrat\nend\n")
        for line in ["{} 0 1 2 0", "3 {} 0 1 2 0", "3 0 {} 0", "3 0 1 -{} 0", "3 d {} 0"]:
            row([], with_line(SMALLEST, 4, line.format(number)))


def random_formulas():
    """Formulas with constants and quantifiers whose problem has few values."""
    while True:
        formulas = [random_formula() for _ in range(RANDOM.choice([1, 1, 2]))]
        places, _, matrix = problem(formulas)
        size = 1
        for _, sort in places:
            size *= len(values_of(sort))
        if 2 <= len(places) <= 6 and size <= 512:
            return formulas


def random_rules():
    return RANDOM.sample(["fold", "same", "not-not", "unit", "absorb", "ite-known", "ite-same", "add-zero", "mul-one", "mul-zero"],
                         RANDOM.randrange(4))


def random_sections(count, changes):
    made = []
    for _ in range(count):
        formulas = random_formulas()
        version = RANDOM.choice([1, 2])
        if is_true(formulas):
            cert = sat_cert(formulas, 1, version, random_rules())
        else:
            cert = unsat_cert(formulas, 1, version, random_rules(), RANDOM.choice([0.0, 0.5, 1.0]))
        if len(cert) > 3000:
            continue
        assert not verdict(formulas, 1, cert).startswith("refused"), (text_of(formulas), cert, verdict(formulas, 1, cert))
        row(formulas, cert, give=RANDOM.choice([1, 7, 4096]))
        for _ in range(changes):
            row(formulas, spoiled(cert), give=RANDOM.choice([1, 7, 4096]))
        made.append((formulas, cert))
    return made


def cases():
    by_hand()
    note("Random formulas: an accepted section, and then some with something changed.")
    made = random_sections(45, 8)
    note("each GIVE TERMS|CERT: how many fronts are accepted, and a checksum of all verdicts.")
    fronts = each_front([], SMALLEST.encode(), 4096)
    assert fronts[1:42] == [f"refused {SMALLEST[:end].count(chr(10)) + 1} Truncated" if chr(10) in SMALLEST[:end] else "no header" for end in range(1, 42)]
    each_front(SIBLINGS, SIBLINGS_CERT.encode(), 1)
    each_front(SIBLINGS, SIBLINGS_CERT.encode(), 7)
    note("bits GIVE TERMS|CERT: the same of all certificates with one bit turned.")
    each_bit([], SMALLEST.encode(), 4096)
    each_bit(SIBLINGS, SIBLINGS_CERT.encode(), 4096)
    short = sorted(made, key=lambda found: len(found[1]))
    each_bit(*short[len(short) // 2], 4096)
    each_front(*short[len(short) // 2], 4096)
    note("fails GIVE TERMS|CERT: how many calls of the source lead to a verdict where each fails, and the verdict behind them.")
    for give in [1, 7, 4096]:
        each_failure([], SMALLEST, give)
        each_failure(SIBLINGS, SIBLINGS_CERT, give)
        each_failure(SIBLINGS, exchanged(), give)
        each_failure([], SMALLEST + "check 2 sat\n", give)
        each_failure([], SMALLEST[:-2], give)
        each_failure([], "qbv-cert 3\n", give)
        each_failure([], "qbv-cert", give)
    note("no cases")
    for text in ["", "check", "check 1", "check 1 0 bool:1|x", "check x 1 bool:1|x", "check 1 1 bool:1", "check 1 1 v0:2|x", "check 1 1 2:1|x",
                 "check 1 1 c0:2|qbv-cert 1\\n", "check 1 1 v0:bool|qbv-cert 1\\n", "check 1 1 bool:1|\\y", "each 0 bool:1|x", "bits x bool:1|x"]:
        if text:
            ROWS.append((text, "bad case"))


if __name__ == "__main__":
    cases()
    write_part("qv_check_cases", "sections", ROWS)
    print(f"{len(ROWS)} rows")
