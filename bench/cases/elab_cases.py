#!/usr/bin/env python3
"""Writes the cases of crates/qv_elab_cases (stdin) and what must come (stdout).

    bench/cases/elab_cases.py          writes both files
    bench/cases/elab_cases.py TEXT     prints the answer to one text

The terms and faults come from the rules of the language, below, and from nothing of this repository.
A text is a list of commands of the driver; `{N:..}` in it stands for N times what is behind the colon.
"""
import re
import sys
import threading

from rows import write_rows
from word_cases import INDEXED, NAMES, rank

LIMIT = 10000
MOST_SHOWN = 40
RESERVED = {"!", "_", "as", "exists", "forall", "lambda", "let", "match", "par"}
LEFT = {"and", "or", "xor", "bvand", "bvor", "bvxor", "bvadd", "bvmul", "concat"}
TOKEN = re.compile(
    rb"[ \t\r\n]+|;[^\r\n]*|(?P<open>\()|(?P<close>\))|(?P<quoted>\|[^|\\]*\|)|(?P<string>\"(?:[^\"]|\"\")*\")"
    rb"|(?P<hex>#x[0-9a-fA-F]+)|(?P<binary>#b[01]+)|(?P<decimal>(?:0|[1-9][0-9]*)\.[0-9]+)|(?P<numeral>0|[1-9][0-9]*)"
    rb"|(?P<keyword>:[A-Za-z0-9~!@$%^&*_+=<>.?/-]+)|(?P<simple>[A-Za-z~!@$%^&*_+=<>.?/-][A-Za-z0-9~!@$%^&*_+=<>.?/-]*)")


class Fault(Exception):
    def __init__(self, kind, place):
        super().__init__(kind, place)
        self.text = f"{kind}@{place}"


class Atom:
    def __init__(self, kind, text, place):
        self.kind, self.text, self.place = kind, text, place
        self.name = None
        if kind == "quoted":
            self.name = text[1:-1]
        elif kind == "simple" and text.decode() not in RESERVED:
            self.name = text
        self.word = text.decode() if kind == "simple" and self.name is None else None


class Form:
    name = word = None
    kind = "list"

    def __init__(self, place):
        self.place, self.parts = place, []


def read(text):
    """The expressions of a text."""
    stack, at = [Form(0)], 0
    while at < len(text):
        found = TOKEN.match(text, at)
        kind = found.lastgroup
        if kind == "open":
            stack.append(Form(at))
        elif kind == "close":
            form = stack.pop()
            stack[-1].parts.append(form)
        elif kind:
            stack[-1].parts.append(Atom(kind, found.group(), at))
        at = found.end()
    assert len(stack) == 1, text[:200]
    return stack[0].parts


# --- terms: numbers of nodes, equal ones having one number ------------------------------------------

class Terms:
    def __init__(self):
        self.nodes, self.number, self.sorts, self.depths = [], {}, [], []

    def put(self, shown, sort, kids=()):
        key = shown, tuple(kids)
        if key not in self.number:
            self.number[key] = len(self.nodes)
            self.nodes.append(key)
            self.sorts.append(sort)
            self.depths.append(1 + max((self.depths[k] for k in kids), default=0))
        return self.number[key]

    def below(self, top):
        """The distinct terms below one, children first."""
        order, seen, stack = [], set(), [(top, False)]
        while stack:
            t, left = stack.pop()
            if left:
                order.append(t)
            elif t not in seen:
                seen.add(t)
                stack.append((t, True))
                stack.extend((k, False) for k in reversed(self.nodes[t][1]) if k not in seen)
        return order

    def show(self, top):
        order = self.below(top)
        number = {t: i for i, t in enumerate(order)}

        def node(t):
            shown, kids = self.nodes[t]
            return " ".join([shown, *(str(number[k]) for k in kids)])

        if len(order) > MOST_SHOWN:
            return f"{len(order)} terms, depth {self.depths[top]}, {node(top)}"
        return "; ".join(node(t) for t in order)


def named(letter, number, sort):
    return f"{letter}{number}:{sort}"


# --- sorts ------------------------------------------------------------------------------------------

def wanted(numeral):
    value = int(numeral.text)
    if value >= 2**128:
        raise Fault("Literal", numeral.place)
    return value


def indexed(parts):
    """What follows `_`, where that is a symbol and at least one numeral."""
    if len(parts) >= 2 and parts[0].name is not None and all(p.kind == "numeral" for p in parts[1:]):
        return parts[0], parts[1:]
    return None


def sort_key(name):
    """A name of the table of sorts."""
    return "sort", name


def sort_of(e, scope):
    if isinstance(e, Atom):
        if e.name is None:
            raise Fault("Form", e.place)
        if sort_key(e.name) in scope:
            return scope[sort_key(e.name)]
        if e.name == b"Bool":
            return "bool"
        raise Fault("Index" if e.name == b"BitVec" else "UnknownName", e.place)
    if not e.parts:
        raise Fault("Form", e.place)
    head, rest = e.parts[0], e.parts[1:]
    if head.word in ["as", "lambda", "match", "par"]:
        raise Fault("NotSupported", e.place)
    if head.word == "_":
        found = indexed(rest)
        if found is None:
            raise Fault("Form", e.place)
        name, numerals = found
        if name.name not in [b"BitVec", b"Bool"]:
            raise Fault("UnknownName", name.place)
        values = [wanted(n) for n in numerals]
        if name.name == b"Bool" or len(values) != 1:
            raise Fault("Index", e.place)
        if not 1 <= values[0] <= 128:
            raise Fault("Width", e.place)
        return values[0]
    raise Fault("NotSupported" if head.name is not None and rest else "Form", e.place)


# --- elaboration ------------------------------------------------------------------------------------

class Constant:
    def __init__(self, index, sort):
        self.index, self.sort = index, sort


class Macro:
    def __init__(self, scope, parameters, body):
        self.scope, self.parameters, self.body, self.uses = scope, parameters, body, {}


def attributes_of(e):
    """How attributes name a term: not, by a name, or wrongly (False); None where they are none."""
    parts, names, behind_key = e.parts[2:], [], False
    if not parts:
        return None
    for i, p in enumerate(parts):
        if p.kind == "keyword":
            behind_key = True
            if p.text == b":named":
                value = parts[i + 1] if i + 1 < len(parts) else None
                names.append(value if value is not None and value.kind != "keyword" else None)
        elif behind_key:
            behind_key = False
        else:
            return None
    if not names:
        return ()
    if len(names) > 1 or names[0] is None or names[0].name is None:
        return False
    return names[0].name


def pairs_of(e):
    """The pairs of a symbol and an expression, where a list has nothing else."""
    if not isinstance(e, Form):
        return None
    pairs = [p.parts for p in e.parts if isinstance(p, Form) and len(p.parts) == 2 and p.parts[0].name is not None]
    return pairs if len(pairs) == len(e.parts) else None


class Elaborator:
    def __init__(self, terms):
        self.terms = terms

    def elab(self, e, scope, bound, binders):
        return self.atom(e, scope, bound, binders) if isinstance(e, Atom) else self.form(e, scope, bound, binders)

    def literal(self, sort, value):
        return self.terms.put(f"{sort}={value:x}", sort)

    def atom(self, e, scope, bound, binders):
        if e.kind in ["hex", "binary"]:
            digits, base = e.text[2:], 16 if e.kind == "hex" else 2
            width = len(digits) * (4 if base == 16 else 1)
            if width > 128:
                raise Fault("Width", e.place)
            return self.literal(width, int(digits, base))
        if e.name is None:
            raise Fault("Form", e.place)
        if e.name in bound:
            return bound[e.name]
        if e.name in [b"true", b"false"]:
            return self.literal("bool", int(e.name == b"true"))
        entry = scope.get(e.name)
        if entry is None:
            raise Fault("UnknownName", e.place)
        if isinstance(entry, Constant):
            return self.terms.put(named("c", entry.index, entry.sort), entry.sort)
        if entry.parameters:
            raise Fault("Arity", e.place)
        return self.use(entry, [], binders, e.place)

    def use(self, macro, args, binders, place):
        """The body at the depth of the use."""
        key = binders, tuple(args)
        if key not in macro.uses:
            bound = {name: t for (name, _), t in zip(macro.parameters, args)}
            try:
                macro.uses[key] = self.elab(macro.body, macro.scope, bound, binders)
            except Fault as fault:
                macro.uses[key] = fault
        if isinstance(macro.uses[key], Fault):
            raise Fault(macro.uses[key].text.split("@")[0], place)
        return macro.uses[key]

    def form(self, e, scope, bound, binders):
        if not e.parts:
            raise Fault("Form", e.place)
        word = e.parts[0].word
        if word == "let":
            return self.let(e, scope, bound, binders)
        if word in ["forall", "exists"]:
            return self.quantifier(e, word, scope, bound, binders)
        if word == "!":
            return self.annotated(e, scope, bound, binders)
        if word == "_":
            return self.indexed_literal(e)
        if word is not None:
            raise Fault("NotSupported", e.place)
        return self.application(e, scope, bound, binders)

    def let(self, e, scope, bound, binders):
        pairs = pairs_of(e.parts[1]) if len(e.parts) == 3 else None
        if not pairs:
            raise Fault("Form", e.place)
        names = {}
        for x, t in pairs:
            if x.name in names:
                raise Fault("RepeatedName", x.place)
            names[x.name] = self.elab(t, scope, bound, binders)
        return self.elab(e.parts[2], scope, {**bound, **names}, binders)

    def quantifier(self, e, word, scope, bound, binders):
        pairs = pairs_of(e.parts[1]) if len(e.parts) == 3 else None
        if not pairs:
            raise Fault("Form", e.place)
        sorts = [sort_of(s, scope) for _, s in pairs]
        inner = dict(bound)
        for i, ((x, _), s) in enumerate(zip(pairs, sorts)):
            inner[x.name] = self.terms.put(named("v", binders + i, s), s)
        t = self.elab(e.parts[2], scope, inner, binders + len(pairs))
        if self.terms.sorts[t] != "bool":
            raise Fault("Sorts", e.parts[2].place)
        for i in reversed(range(len(pairs))):
            t = self.terms.put(named("A" if word == "forall" else "E", binders + i, sorts[i]), "bool", [t])
        return self.shallow(t, e.place)

    def annotated(self, e, scope, bound, binders):
        naming = attributes_of(e) if len(e.parts) > 1 else None
        if naming is None or naming is False:
            raise Fault("Form", e.place)
        return self.elab(e.parts[1], scope, bound, binders)

    def indexed_literal(self, e):
        found = indexed(e.parts[1:])
        if found is None or len(found[1]) != 1 or not re.fullmatch(rb"bv(0|[1-9][0-9]*)", found[0].name):
            raise Fault("Form", e.place)
        width = wanted(found[1][0])
        if not 1 <= width <= 128:
            raise Fault("Width", e.place)
        value = int(found[0].name[2:])
        if value >= 2**width:
            raise Fault("Literal", e.place)
        return self.literal(width, value)

    def head(self, e, scope):
        """A macro, or an operator with its indices, or `distinct`."""
        first = e.parts[0]
        if first.name is not None:
            entry = scope.get(first.name)
            if isinstance(entry, Macro):
                return entry
            name = first.name.decode(errors="replace")
            if name == "distinct":
                return name
            if name not in NAMES:
                raise Fault("UnknownName", first.place)
            if name in INDEXED:
                raise Fault("Index", first.place)
            return name
        if isinstance(first, Atom) or not first.parts or first.parts[0].word not in ["_", "as"]:
            raise Fault("Form", e.place)
        if first.parts[0].word == "as":
            raise Fault("NotSupported", first.place)
        found = indexed(first.parts[1:])
        if found is None:
            raise Fault("Form", first.place)
        name = found[0].name.decode(errors="replace")
        is_macro = isinstance(scope.get(found[0].name), Macro)
        if not is_macro and name != "distinct" and name not in NAMES:
            raise Fault("UnknownName", found[0].place)
        values = [wanted(n) for n in found[1]]
        if is_macro or INDEXED.get(name) != len(values):
            raise Fault("Index", first.place)
        return ":".join([name, *map(str, values)])

    def application(self, e, scope, bound, binders):
        if len(e.parts) == 1:
            raise Fault("Form", e.place)
        head = self.head(e, scope)
        args = [self.elab(a, scope, bound, binders) for a in e.parts[1:]]
        if isinstance(head, Macro):
            self.fit([s for _, s in head.parameters], args, e.place)
            return self.use(head, args, binders, e.place)
        return self.shallow(self.applied(head, args, e.place), e.place)

    def fit(self, sorts, args, place):
        if len(sorts) != len(args):
            raise Fault("Arity", place)
        if sorts != [self.terms.sorts[a] for a in args]:
            raise Fault("Sorts", place)

    def op(self, op, args, place):
        sort = rank(op, [self.terms.sorts[a] for a in args])
        if sort in ["Arity", "Sorts", "Index", "Width"]:
            raise Fault(sort, place)
        return self.terms.put(op, sort, args)

    def joined(self, terms, place):
        t = terms[0]
        for other in terms[1:]:
            t = self.op("and", [t, other], place)
        return t

    def applied(self, op, args, place):
        if op == "distinct":
            if len(args) == 1:
                raise Fault("Arity", place)
            # the first pair that has no rank counts, which is one of the first argument
            for other in args[1:]:
                self.op("=", [args[0], other], place)
            if len(args) > 142:
                raise Fault("DepthLimit", place)
            return self.joined([self.op("not", [self.op("=", [a, b], place)], place)
                                for i, a in enumerate(args) for b in args[i + 1:]], place)
        if op == "=" and len(args) > 2:
            return self.joined([self.op("=", list(pair), place) for pair in zip(args, args[1:])], place)
        if op in ["and", "or"] and len(args) == 1:
            if self.terms.sorts[args[0]] != "bool":
                raise Fault("Sorts", place)
            return args[0]
        if op in LEFT and len(args) > 2:
            t = args[0]
            for other in args[1:]:
                t = self.op(op, [t, other], place)
            return t
        if op == "=>" and len(args) > 2:
            t = args[-1]
            for other in reversed(args[:-1]):
                t = self.op(op, [other, t], place)
            return t
        return self.op(op, args, place)

    def shallow(self, t, place):
        if self.terms.depths[t] > LIMIT:
            raise Fault("DepthLimit", place)
        return t


# --- the driver's commands --------------------------------------------------------------------------

class Session:
    def __init__(self):
        self.terms, self.levels = Terms(), [{}]
        self.elaborator = Elaborator(self.terms)

    def scope(self):
        return {name: entry for level in self.levels for name, entry in level.items()}

    def add(self, name, entry):
        self.levels[-1][name] = entry

    def is_taken(self, name):
        return name in self.scope() or name.decode(errors="replace") in [*NAMES, "distinct", "true", "false"]

    def sort(self, x, s):
        sort = sort_of(s, self.scope())
        if sort_key(x.name) in self.scope() or x.name in [b"Bool", b"BitVec"]:
            return "name in use"
        self.add(sort_key(x.name), sort)
        return "ok"

    def constant(self, x, s):
        sort = sort_of(s, self.scope())
        if self.is_taken(x.name):
            return "name in use"
        index = sum(isinstance(entry, Constant) for entry in self.scope().values())
        self.add(x.name, Constant(index, sort))
        return f"c{index}"

    def define(self, x, ps, s, body):
        parameters = []
        for p, q in pairs_of(ps):
            if p.name in [name for name, _ in parameters]:
                raise Fault("RepeatedName", p.place)
            parameters.append((p.name, sort_of(q, self.scope())))
        sort = sort_of(s, self.scope())
        bound = {name: self.terms.put(named("v", i, of), of) for i, (name, of) in enumerate(parameters)}
        t = self.elaborator.elab(body, self.scope(), bound, len(parameters))
        if self.terms.sorts[t] != sort:
            raise Fault("Sorts", body.place)
        if self.is_taken(x.name):
            return "name in use"
        self.add(x.name, Macro(self.scope(), parameters, body))
        return "ok"

    def follow(self, e):
        head, args = e.parts[0].name, e.parts[1:]
        try:
            if head == b"sort":
                return self.sort(*args) if len(args) == 2 else str(sort_of(*args, self.scope()))
            if head == b"term":
                return self.terms.show(self.elaborator.elab(*args, self.scope(), {}, 0))
            if head == b"const":
                return self.constant(*args)
            if head == b"define":
                return self.define(*args)
            if head == b"open":
                self.levels.append({})
            else:
                self.levels.pop()
            return "ok"
        except Fault as fault:
            return fault.text


def text_of(written):
    return re.sub(r"\{(\d+):([^}]*)\}", lambda m: int(m[1]) * m[2], written).encode()


def answer(written):
    session = Session()
    return " | ".join(session.follow(e) for e in read(text_of(written)))


# --- rows -------------------------------------------------------------------------------------------

CONSTANTS = "(const p Bool)(const q Bool)(const x (_ BitVec 8))(const y (_ BitVec 8))"
HUGE = "340282366920938463463374607431768211456"
FAULTS = {
    "Form": "()", "NotSupported": "(as p Bool)", "UnknownName": "zz", "Arity": "(not p q)", "Sorts": "(not x)",
    "Index": "((_ extract 0 1) x)", "Width": "#x000000000000000000000000000000000", "Literal": "(_ bv256 8)",
    "RepeatedName": "(let ((a p) (a p)) a)", "DepthLimit": "(and q{10000: p})",
}


def sorts():
    yield "# sorts"
    for s in ["Bool", "|Bool|", "(_ BitVec 1)", "(_ BitVec 128)", "( _ |BitVec| 7 )", "(_ BitVec 0)", "(_ BitVec 129)",
              f"(_ BitVec {HUGE})", f"(_ BitVec {int(HUGE) - 1})", f"(_ BitVec 1 {HUGE})", f"(_ BitVec {HUGE} 1)", "BitVec", "(_ BitVec 1 2)",
              "(_ Bool 1)", f"(_ Bool {HUGE})", "(_ Foo 3)", f"(_ Foo {HUGE})", "Foo", "bool", "(Array Bool Bool)", "()", "(Bool)", "(BitVec 8)",
              "(_ BitVec)", "(_ BitVec x)", "(_ BitVec #b1)", "(_ BitVec 1 x)", "(_ 8)", "(_)", "_", "let", ":Bool", "5", "1.5", "#b1", '"Bool"',
              "((_ BitVec 8))", "((_ BitVec 8) Bool)", "((Bool) Bool)", "(as Bool Bool)", "(par (x) Bool)", "(lambda)", "(match)", "(as)",
              "(let Bool)", "(forall Bool)", "(exists)", "(! Bool)", "(5 Bool)", "(|_| BitVec 8)", "(_ :BitVec 8)", "(_ (BitVec) 8)"]:
        yield f"(sort {s})"
    yield "# sorts that are defined"
    byte = "(sort byte (_ BitVec 8))"
    for t in [
        "(sort byte)(const a byte)(term a)(const byte Bool)(term byte)(term (and byte byte))(term (bvult a a))", "(sort |byte|)(sort (byte))(sort (_ byte 8))(sort (byte 8))(sort (byte Bool))(sort ((byte)))(sort (as byte Bool))(sort Byte)",
        "(term byte)(term (byte))(term (byte byte))(term (not byte))(term ((_ byte 1) byte))(term (let ((byte #b1)) byte))", "(sort byte Bool)(sort byte (_ BitVec 8))(sort Byte byte)(sort word Byte)(sort word)(const w word)(term w)",
        "(const x byte)(term (forall ((y byte) (z |byte|)) (= x y z)))(term (exists ((byte byte)) (= byte x)))(term (forall ((y byte) (z Foo)) true))(term (exists ((y (byte))) true))",
        "(define f ((a byte) (b Bool)) byte (ite b a (bvnot a)))(const a byte)(term (f a true))(term (f true a))(define g () byte true)(define g ((a byte) (a byte)) byte a)(define g ((a Foo) (b byte)) byte b)(define g () byt #x00)",
        "(open)(sort bit (_ BitVec 1))(const b bit)(term b)(sort byte Bool)(close)(sort bit)(const b bit)(sort bit Bool)(const b bit)(term b)", "(open)(define f ((a byte)) Bool (exists ((b byte)) (bvult a b)))(term (f #x00))(close)(term (f #x00))(sort byte)",
    ]:
        yield byte + t
    for t in [
        "(sort Bool Bool)(sort BitVec Bool)(sort |Bool| (_ BitVec 1))(sort bool Bool)(sort bool)", "(sort a a)(sort a b)(sort a (_ BitVec 0))(sort a)", "(sort bvadd Bool)(sort true (_ BitVec 2))(sort distinct Bool)(const a bvadd)(const b true)(term (= a (not a)))(term (= b #b01))(sort bvadd Foo)",
        "(const x Bool)(sort x (_ BitVec 3))(const y x)(term y)(term (not x))(define z () x #b101)(sort z Bool)(term z)(sort z)", "(sort |a b| (_ BitVec 4))(const c |a b|)(term c)(sort || Bool)(sort ||)(sort |let| Bool)(sort |let|)(sort let)",
        "(sort s Bool)(define f ((a s)) s (forall ((b s)) (or a b)))(open)(sort t (_ BitVec 2))(define g ((a t)) s (f (= a #b01)))(term (g #b10))(close)(term (g #b10))(term (f true))(open)(sort t Bool)(term (forall ((c t)) (f c)))(close)",
    ]:
        yield t


def literals():
    yield "# literals and other leaves"
    for t in ["true", "false", "|true|", "#b0", "#b1", "#b0101", "#xff", "#xFf", "#xAbCdEf0123456789", "#b{128:1}", "#b{129:0}", "#x{32:f}", "#x{33:0}",
              "(_ bv0 1)", "(_ bv1 1)", "(_ bv2 1)", "(_ bv255 8)", "(_ bv256 8)", f"(_ bv{int(HUGE) - 1} 128)", f"(_ bv{HUGE} 128)",
              f"(_ bv5 {HUGE})", f"(_ bv{HUGE} {HUGE})", f"(_ bv5 {int(HUGE) - 1})", "(_ bv5 0)", "(_ bv5 129)", f"(_ bv{HUGE} 129)", "(_ |bv5| 8)", "(_ bv05 8)", "(_ bv00 8)",
              "(_ bv 8)", "(_ bv5)", "(_ bv5 8 8)", "(_ bv5 x)", "(_ bv5 #b1)", "(_ bv-5 8)", "(_ bv5a 8)", "(_ bvx 8)", "(_ BV5 8)", "(_ b5 8)",
              "(_ x 8)", "(_ extract 1 0)", "(_ 5 8)", "(_)", "(_ (bv5) 8)", "(_ bv1 (8))", "5", "0", "1.0", HUGE, '"a"', '""', ":k", "_", "!", "as",
              "let", "forall", "exists", "lambda", "match", "par", "bvadd", "not", "and", "=", "distinct", "extract", "bvnego", "()", "(p)", "(not)",
              "(distinct)", "(zz)", "(())", "((p))", "(\"a\")", "(:k)", "(5)", "|let|", "|p|", "||", "p", "x", "zz", "|z z|"]:
        yield CONSTANTS + f"(term {t})"


def applications():
    yield "# operators, chains, indices"
    ones = ["p", "x", "#b1", "#x1"]
    for op in ["and", "or", "xor", "=>", "=", "distinct", "bvand", "bvor", "bvxor", "bvadd", "bvmul", "concat"]:
        for args in ["p", "x", "p q", "x y", "p x", "x #b1", "p q p", "x y x", "x p y", "p p x", "p q p q", "#b1 #b0 #b1 #b1", "x x x p", "#b1 #b11 #b1"]:
            yield CONSTANTS + f"(term ({op} {args}))"
    for op in ["not", "ite", "bvnot", "bvneg", "bvsub", "bvudiv", "bvurem", "bvsdiv", "bvsrem", "bvsmod", "bvshl", "bvlshr", "bvashr", "bvnand", "bvnor",
               "bvxnor", "bvult", "bvule", "bvugt", "bvuge", "bvslt", "bvsle", "bvsgt", "bvsge", "bvcomp", "bvnego", "bvuaddo", "bvsaddo", "bvumulo",
               "bvsmulo", "bvusubo", "bvssubo", "bvsdivo"]:
        for args in ["p", "x", "x y", "p x y", "x y x"]:
            yield CONSTANTS + f"(term ({op} {args}))"
    for head in ["(_ extract 7 0)", "(_ extract 8 0)", "(_ extract 0 1)", "(_ extract 3 3)", "(_ extract 1)", "(_ extract 1 0 0)", "extract", f"(_ extract {HUGE} 0)",
                 f"(_ extract 0 {HUGE})", f"(_ extract {int(HUGE) - 1} 0)", "(_ repeat 0)", "(_ repeat 1)", "(_ repeat 16)", "(_ repeat 17)", f"(_ repeat {int(HUGE) - 1})", "repeat",
                 "(_ zero_extend 0)", "(_ zero_extend 120)", "(_ zero_extend 121)", "(_ sign_extend 120)", "(_ sign_extend 121)", f"(_ sign_extend {int(HUGE) - 1})",
                 "(_ rotate_left 0)", "(_ rotate_left 9)", f"(_ rotate_right {int(HUGE) - 1})", f"(_ rotate_right {HUGE})", "(_ bvnot 1)", "(_ not 0)", "(_ distinct 1)", f"(_ distinct {HUGE})",
                 "(_ foo 1)", f"(_ foo {HUGE})", f"(_ bvadd {HUGE})", "(_ x 1)", "(_ true 1)", "(_ extract)", "(_ extract x)", "(_ 5 5)", "(_)", "(as bvnot Bool)", "(as)", "(bvnot)", "(let 1)",
                 "(! bvnot :k)", "()", "(forall)", "(|_| extract 1 0)", "5", "#b1", ":bvnot", '"bvnot"', "1.5", "foo", "|bvnot|", "x", "p", "true", "bv5", "|extract|"]:
        yield CONSTANTS + f"(term ({head} x))"
        yield CONSTANTS + f"(term ({head}))"
    for head in ["(_ extract 0 1)", "(_ repeat 0)", "(_ zero_extend 200)", "(_ rotate_left 1)"]:
        yield CONSTANTS + f"(term ({head} p))"
        yield CONSTANTS + f"(term ({head} x x))"
    yield CONSTANTS + "(term (concat #x{32:0} #b1))(term (concat #x{32:0} #b1 true))(term (concat true #x{32:0} #b1))(term (concat #b1 #x{31:0}))"
    yield "# the head, then the arguments, then the rank"
    for t in ["(zz ww)", "(and ww zz)", "(not zz p)", "(not p zz)", "(ite p zz ww)", "(ite p x zz)", "(distinct zz)", "(= zz)", "((_ foo 1) zz)", "((_ extract 0) zz)",
              "(extract zz)", "((as zz Bool) ww)", "(5 zz)", "(bvadd p (not x))", "(bvadd p (and))", "(bvadd (and zz) (and))"]:
        yield CONSTANTS + f"(term {t})"


def binders():
    yield "# let"
    for t in ["(let ((a p)) a)", "(let ((a p) (b q)) (and a b))", "(let ((p q) (q p)) (and p q))", "(let ((x p)) (let ((x x)) x))", "(let ((a p)) (let ((b a) (a q)) (and a b)))",
              "(let ((a p) (a q)) a)", "(let ((a zz) (a true)) a)", "(let ((a p) (a zz)) a)", "(let ((a p) (b zz) (a p)) a)", "(let ((a p) (|a| q)) a)", "(let ((a p)) |a|)",
              "(let ((true q)) true)", "(let ((not p)) not)", "(let ((not p)) (not not))", "(let ((bvadd x)) (bvadd bvadd bvadd))", "(let ((distinct p)) distinct)",
              "(let ((a p)) (a p))", "(let ((a x)) (not a))", "(let ((a x)) zz)", "(let ((a (zz p))) a)", "(let ((a b) (b p)) a)", "(let () p)", "(let)", "(let p)", "(let ((a p)))", "(let ((a p)) a a)",
              "(let (a p) a)", "(let a p)", "(let ((a)) a)", "(let ((a p q)) a)", "(let ((5 p)) p)", "(let ((:a p)) p)", "(let ((let p)) p)", "(let ((|let| p)) |let|)", "(let (((a) p)) p)",
              "(let ((a p) b) a)", "(let ((a p) ()) zz)", "(let ((a zz) (b)) a)", "(let ((a (let ((b p)) b))) b)", "(let ((a p)) (let ((a (not a))) (let ((a (not a))) a)))",
              "(let ((a p)) (and a (let ((a q)) a) a))", "(let ((|| p)) ||)", "(let ((a! p)) a!)", "(let ((|a b| p)) |a b|)", "(let ((é p)) p)"]:
        if "é" not in t:
            yield CONSTANTS + f"(term {t})"
    yield CONSTANTS + "(term (let ((|é| p)) |é|))(term (let ((|é| p) (|é| q)) |é|))(const |ü;\"(| Bool)(term |ü;\"(|)(term |ü|)"
    yield "# quantifiers"
    bv = "(_ BitVec 8)"
    for q in ["forall", "exists"]:
        for t in [f"(({'a'} Bool)) a", f"((a {bv})) (= a x)", f"((a Bool) (b {bv})) (and a (= b x))", "((a Bool) (a Bool)) a", f"((a Bool) (a {bv})) (= a x)", f"((a {bv}) (a Bool)) (= a x)",
                  "((a Bool)) x", "((a Bool)) zz", "((a Bool)) ()", "() p", "((a)) p", "((a Bool Bool)) p", "(a Bool) p", "a p", "((a Bool))", "((a Bool)) p p", "((5 Bool)) p",
                  "((a Foo)) p", "((a (_ BitVec 0))) p", f"((a (_ BitVec {HUGE}))) p", "((a Foo) (b Bar)) zz", "((a ()) (b Bar)) x", "((p Bool)) p", "((not Bool)) (not not)", "((true Bool)) true",
                  "((a Bool)) (let ((b a) (a q)) (and a b))", f"((a Bool)) (exists ((b Bool)) (forall ((a Bool)) (and a b)))", f"((a Bool)) (and a ({q} ((b Bool)) b) ({q} ((a Bool)) a))",
                  "((a Bool)) (let ((b (exists ((c Bool)) (= c a)))) (forall ((d Bool)) (and b d)))", "((|a| Bool)) a", f"((a Bool) (b Bool) (c Bool)) (= a b c)", "((exists Bool)) p"]:
            yield CONSTANTS + f"(term ({q} {t}))"
        yield CONSTANTS + f"(term (= x ({q} ((a Bool)) a)))(term ({q}))(term ({q} ((a Bool)) (! a :k)))(term ({q} ((a Bool)) (! x :k)))"
    yield "# annotated terms"
    for t in ["(! p :k)", "(! p :k v)", "(! p :k (v w) :l)", "(! p :k :l 5 :m)", "(! p)", "(!)", "(! p v)", "(! p :k v w)", "(! p :k v :l v v)", "(! zz :k)", "(! zz)", "(! (not x) :pattern (x))",
              "(! p :named a)", "(! zz :named a)", "(! p :named)", "(! zz :named)", "(! p :named 5)", "(! p :named :k)", "(! p :named (a))", "(! p :named a :named b)", "(! p :named a :named)",
              "(! p :k :named a)", "(! p :k named)", "(! p :k v :named a w)", "(! p :named a w)", "(! p :named |a b|)", "(! p :named let)", "(! zz :k let)", "(! x :k)", "(not (! x :k))", "(not (! p :k))", "(! (! p :k) :l)",
              "(! (! p :named a) :k)", "(! p :pattern (p) :pattern (q))", "(! p :k #b1)", "(! p :k \"s\")", "(! p :k ())", "(! p k)", "(! :k p)", "(! p :k 1 2)"]:
        yield CONSTANTS + f"(term {t})"


def definitions():
    yield "# definitions"
    bv = "(_ BitVec 8)"
    for t in [
        "(define d () Bool (and p q))(term d)(term (not d))(term (d))(term (d p))(term ((_ d 1) p))",
        f"(define f ((a {bv})) {bv} (bvadd a x))(term (f y))(term (f (f y)))(term f)(term (f))(term (f p))(term (f x y))(term (f zz))(term ((_ f 1) x))(term ((_ f {HUGE}) x))(term ((as f Bool) x))",
        "(define f ((a Bool) (b Bool)) Bool (and a b a))(term (f p q))(term (f (f p q) (f q p)))(term (f p))(term (f p x))(term (f x p))",
        "(define f ((a Bool)) Bool (forall ((b Bool)) (= a b)))(term (f p))(term (forall ((b Bool)) (f b)))(term (exists ((b Bool)) (forall ((c Bool)) (f (and b c)))))",
        "(define f ((a Bool) (b Bool)) Bool (exists ((a Bool)) (and a b)))(term (f p q))(term (forall ((a Bool)) (f a a)))",
        "(define g () Bool (forall ((b Bool)) b))(term g)(term (forall ((a Bool)) (and a g)))(term (forall ((a Bool) (b Bool)) g))",
        "(define f ((a Bool)) Bool (let ((b (not a)) (c a)) (or b c)))(term (let ((b p)) (f b)))(term (f (let ((c q)) c)))",
        "(define d () Bool p)(define e () Bool (not d))(term e)(open)(const r Bool)(define h () Bool (and r e))(term h)(close)(term h)(term e)",
        "(define f ((p Bool)) Bool (not p))(term (f q))(term (f p))",
        "(define f ((a Bool)) Bool a)(term (let ((f p)) (f q)))(term (let ((f p)) f))(term (forall ((f Bool)) (f f)))",
        "(define f ((a Bool) (a Bool)) Bool a)", "(define f ((a Foo) (a Bool)) Bool a)", "(define f ((a Bool) (b Foo) (a Bool)) Bool a)", "(define f ((a Bool)) Foo zz)", "(define f ((a Bool)) Bool zz)",
        "(define f ((a Bool)) Bool x)", f"(define f () {bv} p)", f"(define f ((a {bv})) Bool a)", "(define f () Bool (! x :k))", "(define p () Bool q)", "(define and () Bool p)", "(define distinct () Bool p)", "(define true () Bool p)",
        "(define bv5 () Bool p)(term bv5)", "(define f () Bool f)", "(define f ((a Bool)) Bool (f a))", "(define d () Bool p)(define d () Bool q)", "(define |let| () Bool p)(term |let|)(term let)",
        "(const a Bool)(const a Bool)", "(const p Bool)", "(const bvadd Bool)", "(const a Foo)(const a Bool)(term a)", "(const |a| Bool)(const a Bool)",
        "(open)(open)(const a Bool)(open)(const b Bool)(term (and a b))(close)(close)(term a)(const b Bool)(term b)(term a)", "(open)(define p2 () Bool p)(close)(const p2 Bool)(term p2)",
        "(define f ((a Bool)) Bool (not a))(open)(const f2 Bool)(term (f f2))(close)(term (f q))(term f2)",
        "(define f ((a Bool)) Bool (and a (forall ((b Bool)) (or b a))))(define g ((a Bool)) Bool (forall ((c Bool)) (f (and a c))))(term (g p))(term (exists ((d Bool)) (g d)))",
        "(define k ((a Bool) (b Bool)) Bool a)(term (k p q))(term (k p x))(term (k p zz))", "(define n ((a Bool)) Bool true)(term (n p))(term (n x))",
        f"(define w ((a {bv})) (_ BitVec 16) (concat a a))(term (w x))(term (concat (w x) (w y)))(term (w (w x)))", "(define p3 () Bool (and p q))(term (and p3 p3 (p3)))",
        "(define d () Bool p)(term (let ((d q)) d))(term (forall ((d Bool)) d))(term ((_ d 0) p))(term (and d))",
    ]:
        yield CONSTANTS + t


def depths():
    yield "# depth and sharing"
    deep = "(let ((a {3900:(not }p{3900:)})) (let ((a {3900:(not }a{3900:)})) "
    for n in [2198, 2199, 2200]:
        yield CONSTANTS + f"(term {deep}{{{n}:(not }}a{{{n}:)}})))"
    around_deep = ["(and a a)", "(not (and a a))", "(and a p)", "(= a a a)", "(distinct a a)", "(forall ((b Bool)) a)", "(forall ((b Bool) (c Bool)) a)", "(! a :k)", "(let ((c a)) c)", "(ite a a a)", "(ite p x (ite a x y))"]
    for n in [9998, 9999]:
        yield CONSTANTS + f"(define a () Bool (and q{{{n}: p}}))" + "".join(f"(term {t})" for t in around_deep)
        yield CONSTANTS + f"(term (let ((a (and q{{{n}: p}}))) (not (and a a))))"
    yield CONSTANTS + "(term (let ((a (and p q))) {59:(let ((a (and a (not a)))) }a{59:)}))"
    yield CONSTANTS + "(term (let ((a x)) {60:(let ((a (bvadd a a))) }a{60:)}))"
    yield CONSTANTS + "(term (let ((a x)) {3000:(let ((a (bvmul a a))) }a{3000:)}))"
    yield CONSTANTS + "(term {3990:(not }p{3990:)})(term {3990:(and p }q{3990:)})(term {3990:(! }p{3990: :k)})(term {1990:(exists ((a Bool)) }a{1990:)})"
    for op in ["and", "or", "xor", "=>"]:
        for n in [9999, 10000]:
            yield CONSTANTS + f"(term ({op} q{{{n}: p}}))"
    for n in [100, 141, 142, 143, 500]:
        yield CONSTANTS + f"(term (distinct{{{n}: x}}))(term (distinct{{{n}: x}} p))(term (distinct p{{{n}: x}}))"
    for n in [2, 3, 10000, 10001]:
        yield CONSTANTS + f"(term (={{{n}: x}}))"
    yield CONSTANTS + "(term (concat{128: #b1}))(term (concat{129: #b1}))(term (concat{129: #b1} p))(term (bvadd{5000: x y}))(term (bvadd{5000: x y} p))"
    yield "# uses of definitions at the limit of depth"
    more = "(define n1 ((a Bool)) Bool {3000:(not }a{3000:)})(define n3 ((a Bool)) Bool (n1 (n1 (n1 a))))"
    for n in [998, 999, 1000]:
        yield CONSTANTS + more + f"(term (n3 {{{n}:(not }}p{{{n}:)}}))(term {{{n}:(not }}(n3 p){{{n}:)}})"
    yield CONSTANTS + more + "(define n9 () Bool (n3 {999:(not }p{999:)}))(term n9)(term (not n9))(term (forall ((b Bool)) n9))(term (and n9 n9))(define m () Bool (n3 (n1 p)))"
    yield CONSTANTS + more + "(define k ((a Bool) (b Bool)) Bool (and (n3 a) b))(term (k p q))(term (k {997:(not }p{997:)} q))(term (k {998:(not }p{998:)} q))(term (k {999:(not }p{999:)} q))(term (k p (n3 {997:(not }p{997:)})))(term (k p (n3 {998:(not }p{998:)})))(term (k p (n3 {999:(not }p{999:)})))"
    yield CONSTANTS + more + "(define u ((a Bool)) Bool (let ((b (n3 a))) q))(term (u p))(term (u {998:(not }p{998:)}))(term (u {999:(not }p{999:)}))(term (u {1000:(not }p{1000:)}))"
    yield CONSTANTS + "".join(f"(define d{i} () Bool (and d{i - 1} d{i - 2}))" if i > 1 else f"(define d{i} () Bool {'pq'[i]})" for i in range(80)) + "(term d79)"
    yield CONSTANTS + "".join(f"(define f{i} ((a Bool)) Bool {f'(and (f{i - 1} a) (f{i - 1} (not a)))' if i else '(not a)'})" for i in range(60)) + "(term (f59 p))"
    yield CONSTANTS + "".join(f"(define g{i} ((a Bool)) Bool (exists ((b Bool)) {f'(and (g{i - 1} b) (g{i - 1} a))' if i else '(= a b)'}))" for i in range(12)) + "(term (g11 p))(term (forall ((c Bool)) (g11 c)))"


def around(t):
    """A term with a place for another, and how the place is filled."""
    return [("(and p {})", t), ("(and {} zz)", t), ("(let ((a {})) zz)", t), ("(let ((a p)) {})", t), ("(let ((a p) (b {}) (a p)) zz)", t), ("(forall ((a Bool)) {})", t), ("(exists ((a Bool) (b Bool)) (not {}))", t),
            ("(! {} :k)", t), ("(distinct p {} p)", t), ("(= p q {})", t), ("(=> {} p zz)", t), ("(ite p p {})", t), ("(f {})", t), ("(f (f {}))", t), ("(bvadd x {})", t)]


def faults():
    yield "# every fault in every construct"
    use = CONSTANTS + "(define f ((b Bool)) Bool (not b))"
    for kind, t in FAULTS.items():
        for form, inner in around(t):
            yield use + f"(term {form.replace('{}', inner)})"
        yield CONSTANTS + f"(define h () Bool {t})(define h ((a Bool)) Bool (and a {t}))(const h Bool)"


GROUPS = [sorts, literals, applications, binders, definitions, faults, depths]


def rows():
    for group in GROUPS:
        for line in group():
            yield line, None if line.startswith("#") else answer(line)


def main():
    if len(sys.argv) > 1:
        print(answer(sys.argv[1]))
    else:
        note = "# Sorts and terms of expressions. bench/cases/elab_cases.py writes this file and what must come."
        write_rows("qv_elab_cases", [(note, None), *rows()])


if __name__ == "__main__":
    sys.setrecursionlimit(10**6)
    threading.stack_size(2**29)
    thread = threading.Thread(target=main)
    thread.start()
    thread.join()
