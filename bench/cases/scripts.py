#!/usr/bin/env python3
"""What a script prints, by the rules of the language and by nothing of this repository.

    bench/cases/scripts.py FILE      prints it, and ends with the status

A check is answered by trying all values of the constants and of the quantifiers. Where these are too many, the answer is
given beforehand: `Known`. What `get-value` and `get-model` print is said where all models agree on it. Tokens and commands
are read as bench/cases/run_cases.py says, terms as bench/cases/elab_cases.py does.
"""
import re
import sys
import threading
from itertools import product

import elab_cases as terms
from elab_cases import Atom, Constant, Elaborator, Form, Macro, Terms, attributes_of, pairs_of, sort_key, sort_of, wanted
from prenex_cases import CONSTANTS, LIMIT, problem
from word_cases import NAMES, apply

KINDS = {"Command": "command", "Literal": "literal", "Form": "form", "NotSupported": "not supported", "NotSupportedYet": "not supported yet",
         "UnknownName": "unknown name", "Arity": "arity", "Sorts": "sorts", "Index": "index", "Width": "width", "RepeatedName": "repeated name",
         "DepthLimit": "depth limit", "NameInUse": "name in use", "Logic": "logic", "PopBelow": "pop below the first level",
         "LevelLimit": "level limit", "NoModel": "no model", "NoReason": "no reason", "Quantifier": "quantifier",
         "NoCore": "no core"}
LEVEL_LIMIT = 10**6
MOST_TRIED = 2**18
SYMBOL_START = set(b"abcdefghijklmnopqrstuvwxyzABCDEFGHIJKLMNOPQRSTUVWXYZ~!@$%^&*_-+=<>.?/")
SYMBOL = SYMBOL_START | set(b"0123456789")
INFOS = {b":name": b'"qbv"', b":version": b'"1"', b":authors": b'"qbv"', b":error-behavior": b"immediate-exit"}
UNSUPPORTED = ["define-fun-rec", "define-funs-rec", "declare-sort", "declare-datatype", "declare-datatypes", "declare-sort-parameter",
               "get-proof", "get-assertions", "get-assignment"]
LOGIC = re.compile(rb"(QF_)?(AX?)?(UF)?BV(FP)?(DT)?(S)?(LIA|LRA|LIRA|NIA|NRA|NIRA|IDL|RDL)?")
# the options of the standard, with what they take and what they are before they are set
TRUTHS = [b"produce-models", b"produce-unsat-cores", b"produce-unsat-assumptions", b"produce-assignments", b"produce-assertions", b"interactive-mode"]
OPTIONS = {b":print-success": ("truth", b"false"), b":global-declarations": ("truth", b"false"), **{b":" + k: ("truth", b"false") for k in TRUTHS},
           b":verbosity": ("numeral", b"0"), b":random-seed": ("numeral", b"0"), b":reproducible-resource-limit": ("numeral", b"0"),
           b":regular-output-channel": ([b'"stdout"'], b'"stdout"'), b":diagnostic-output-channel": ([b'"stdout"', b'"stderr"'], b'"stderr"')}
# other solvers' own, besides those with a dot
FOREIGN = [b":" + k for k in (b"auto_config memory_max_size model model_validate proof rlimit smtlib2_compliant stats timeout trace type_check unsat_core "
                              b"verbose warning well_sorted_check bv-solver fmf-bound incremental rlimit-per sat-solver seed strings-exp time-limit-per "
                              b"tlimit tlimit-per yices-ef-max-iters").split()]


class Refused(Exception):
    def __init__(self, kind, place):
        super().__init__(kind, place)
        self.kind, self.place = KINDS.get(kind, kind), place


class Left(Exception):
    """The script leaves."""


def expression(part):
    """What run_cases.Reader reads, as elab_cases has it."""
    kind, place, content = part
    if kind == "list":
        # children first, without recursion
        todo, done = [(part, False)], []
        while todo:
            (k, at, inner), ready = todo.pop()
            if k != "list":
                done.append(leaf(k, at, inner))
            elif not ready:
                todo.append(((k, at, inner), True))
                todo.extend((p, False) for p in reversed(inner))
            else:
                form = Form(at)
                form.parts = done[len(done) - len(inner):]
                del done[len(done) - len(inner):]
                done.append(form)
        return done[0]
    return leaf(kind, place, content)


def leaf(kind, place, text):
    if kind == "symbol":
        kind = "quoted" if text[:1] == b"|" else "simple"
    elif kind == "reserved":
        kind = "simple"
    return Atom(kind, text, place)


# --- printing ---------------------------------------------------------------------------------------

def value_text(sort, value):
    if sort == "bool":
        return b"true" if value else b"false"
    if sort % 4 == 0:
        return b"#x%0*x" % (sort // 4, value)
    return b"#b" + bin(value)[2:].zfill(sort).encode()


def sort_text(sort):
    return b"Bool" if sort == "bool" else b"(_ BitVec %d)" % sort


def symbol_text(name):
    simple = name and name[0] in SYMBOL_START and all(b in SYMBOL for b in name)
    return name if simple and name.decode() not in terms.RESERVED else b"|" + name + b"|"


def spaced(e):
    if isinstance(e, Atom):
        return e.text
    return b"(" + b" ".join(map(spaced, e.parts)) + b")"


# --- values -----------------------------------------------------------------------------------------

def split(shown):
    """A leaf's or node's kind: c, v, A, E, = or an operator."""
    if shown[0] in "cvAE" and shown[1:].split(":")[0].isdigit():
        return shown[0]
    return "=" if "=" in shown and shown != "=" and shown != "=>" else "op"


def tree_of(store, top):
    """A term of a script as problems have it."""
    done = {}
    for t in store.below(top):
        text, kids = store.nodes[t]
        kind = split(text)
        if kind == "=":
            text = text.replace("=", ":", 1)
        elif kind in ["A", "E"]:
            text = f"{'All' if kind == 'A' else 'Ex'}:{text[1:]}"
        done[t] = text, tuple(done[k] for k in kids)
    return done[top]


def named(shown):
    """The number and the sort of a constant, a variable or a quantifier."""
    number, sort = shown[1:].split(":")
    return int(number), sort if sort == "bool" else int(sort)


def all_values(sort):
    return range(2 if sort == "bool" else 2**sort)


class Values:
    def __init__(self, store):
        self.store, self.orders = store, {}

    def holds(self, top, kinds):
        return any(split(self.store.nodes[t][0]) in kinds for t in self.store.below(top))

    def constants(self, top):
        """The constants that occur, by index, with their sorts."""
        shown = (self.store.nodes[t][0] for t in self.store.below(top))
        return dict(named(text) for text in shown if split(text) == "c")

    def tries(self, top):
        """How many values of quantifiers are tried at most."""
        size = 1
        for t in self.store.below(top):
            if split(self.store.nodes[t][0]) in ["A", "E"]:
                size *= len(all_values(named(self.store.nodes[t][0])[1]))
        return size

    def order(self, top):
        """The distinct terms below one but not below quantifiers, children first."""
        if top not in self.orders:
            order, seen, stack = [], set(), [(top, False)]
            while stack:
                t, left = stack.pop()
                if left:
                    order.append(t)
                elif t not in seen:
                    seen.add(t)
                    stack.append((t, True))
                    shown, kids = self.store.nodes[t]
                    if split(shown) not in ["A", "E"]:
                        stack.extend((k, False) for k in kids)
            self.orders[top] = order
        return self.orders[top]

    def of(self, top, constants=(), levels=()):
        """A term's word; a constant without a value has the value 0."""
        constants, levels, words = dict(constants), dict(levels), {}
        for t in self.order(top):
            shown, kids = self.store.nodes[t]
            kind = split(shown)
            if kind in ["c", "v"]:
                number, sort = named(shown)
                words[t] = sort, constants.get(number, 0) if kind == "c" else levels[number]
            elif kind in ["A", "E"]:
                level, sort = named(shown)
                tried = (self.of(kids[0], constants, {**levels, level: value})[1] for value in all_values(sort))
                words[t] = "bool", int(all(tried) if kind == "A" else any(tried))
            elif kind == "=":
                words[t] = self.store.sorts[t], int(shown.split("=")[1], 16)
            else:
                words[t] = apply(shown, [words[k] for k in kids])
        return words[top]

    def models(self, formulas):
        """The values of the constants under which all formulas mean 1."""
        sorts, tries = {}, 1
        for t in formulas:
            sorts |= self.constants(t)
            tries *= self.tries(t)
        for sort in sorts.values():
            tries *= len(all_values(sort))
        if tries > MOST_TRIED:
            raise TooMany(tries)
        for chosen in product(*map(all_values, sorts.values())):
            model = dict(zip(sorts, chosen))
            if all(self.of(t, model)[1] == 1 for t in formulas):
                yield model


class TooMany(Exception):
    """There are too many values to try, so the answer has to be known."""


class Undetermined(Exception):
    """Models differ in what is printed."""


class Known:
    """The answer to a check: sat, unsat or unknown; with the one model by names, with what was spent, or with the values that are
    asked for behind it, in their order; with how many conflicts and instances were counted, and the greatest variable of the clauses
    that its section refutes, where these are asked for."""

    def __init__(self, word, model=None, spent=None, values=None, counts=None):
        self.word, self.model, self.spent, self.values, self.counts = word, model, spent, values, counts


# --- commands ---------------------------------------------------------------------------------------

class Level:
    def __init__(self):
        self.scope, self.assertions, self.names, self.constants = {}, [], [], 0


class Script:
    """What commands have led to. `known` gives answers to checks, by number from 1; `write_section` is called for each that
    is answered, before its answer is printed."""

    def __init__(self, known=None, write_section=lambda: None):
        self.known, self.write_section, self.answers = known or {}, write_section, []
        self.store = Terms()
        self.elaborator, self.values = Elaborator(self.store), Values(self.store)
        self.reset()

    def reset(self):
        self.levels, self.merged = [Level()], None
        self.logic = self.begun = self.nested = self.success = self.everywhere = self.sat = False
        self.options = {}
        self.counts = None

    @property
    def sat(self):
        return self.last == "sat"

    @sat.setter
    def sat(self, value):
        assert not value
        self.last = self.checked = self.written = self.reason = None

    # what is in force
    def scope(self):
        if self.merged is None:
            self.merged = {}
            for level in self.levels:
                self.merged.update(level.scope)
        return self.merged

    def in_force(self):
        return [t for level in self.levels for t in level.assertions]

    def constants(self):
        return [(name, entry.sort) for level in self.levels for name, entry in level.scope.items() if isinstance(entry, Constant)]

    # parts of commands
    def need(self, test, kind, place):
        if not test:
            raise Refused(kind, place)

    def fresh(self, name, place):
        taken = name in self.scope() or name.decode(errors="replace") in [*NAMES, "distinct", "true", "false"]
        self.need(not taken, "NameInUse", place)

    def term(self, e):
        return self.elaborator.elab(e, self.scope(), {}, 0)

    def formula(self, e, whole):
        t = self.term(e)
        self.need(self.store.sorts[t] == "bool", "Sorts", whole.place)
        return t

    def add(self, name, entry):
        self.levels[-1].scope[name] = entry
        self.levels[-1].constants += isinstance(entry, Constant)
        self.merged = None
        self.begun = True

    def changed(self):
        self.begun, self.sat = True, False

    def declare(self, x, s, place):
        self.fresh(x.name, place)
        self.add(x.name, Constant(sum(level.constants for level in self.levels), sort_of(s, self.scope())))

    def define(self, x, pairs, s, body, place):
        self.fresh(x.name, place)
        parameters = []
        for p, q in pairs:
            self.need(p.name not in [name for name, _ in parameters], "RepeatedName", p.place)
            parameters.append((p.name, sort_of(q, self.scope())))
        sort = sort_of(s, self.scope())
        bound = {name: self.store.put(terms.named("v", i, of), of) for i, (name, of) in enumerate(parameters)}
        t = self.elaborator.elab(body, self.scope(), bound, len(parameters))
        self.need(self.store.sorts[t] == sort, "Sorts", body.place)
        self.add(x.name, Macro(self.scope(), parameters, body))

    def asserted(self, e):
        """The term, and its name if it has one."""
        if isinstance(e, Form) and len(e.parts) > 1 and e.parts[0].word == "!":
            name = attributes_of(e)
            if isinstance(name, bytes):
                return e.parts[1], name
        return e, None

    def labels(self, e, inner=frozenset(), outer=frozenset(), at=None):
        """The names of terms within a term with these terms, inner ones first. Names are bound within the innermost term around that has
        one, which stands at a place, and outside of it."""
        if isinstance(e, Atom):
            self.need(e.name is None or e.name not in outer or e.name in inner, "NotSupported", at)
            return
        first, rest = (e.parts[0].word if e.parts else "_"), e.parts[1:]
        if first in ["let", "forall", "exists"]:
            pairs = pairs_of(rest[0]) if len(rest) == 2 else None
            if pairs:
                for _, t in pairs if first == "let" else []:
                    yield from self.labels(t, inner, outer, at)
                yield from self.labels(rest[1], inner | {x.name for x, _ in pairs}, outer, at)
        elif first == "!" and rest:
            name = attributes_of(e)
            if isinstance(name, bytes):
                yield from self.labels(rest[0], frozenset(), inner | outer, e.place)
                yield name, rest[0]
            else:
                yield from self.labels(rest[0], inner, outer, at)
        elif first is None:
            for part in rest:
                yield from self.labels(part, inner, outer, at)

    def labels_of(self, name, args):
        """Those of a command's terms. An assertion's own name is none of them."""
        terms, bound = [], frozenset()
        if name == "assert":
            terms = [self.asserted(args[0])[0]]
        elif name in ["check-sat-assuming", "get-value"]:
            terms = args[0].parts if isinstance(args[0], Form) else []
        elif name == "define-const":
            terms = args[2:]
        elif name == "define-fun" and pairs_of(args[1]) is not None:
            terms, bound = args[3:], frozenset(x.name for x, _ in pairs_of(args[1]))
        return [label for t in terms for label in self.labels(t, bound)]

    def count(self, args, place):
        self.need(len(args) < 2 and all(a.kind == "numeral" for a in args), "Form", place)
        return wanted(args[0]) if args else 1

    def places(self, trees):
        """How many places the problem of formulas has."""
        if not any(self.values.holds(t, "AE") for t in trees):
            return len(set().union(*map(self.values.constants, trees)))
        CONSTANTS[:] = [sort for _, sort in self.constants()]
        return len(problem([tree_of(self.store, t) for t in trees])[0])

    def decide(self, trees):
        """The answer to the check of formulas: its word, its models, and what was spent."""
        known = self.known.get(len(self.answers) + 1) or self.known.get("all")
        if known is None:
            found = next(self.values.models(trees), None)
            return ("unsat" if found is None else "sat"), None, None
        if known.values is not None:
            return known.word, iter(known.values), None
        if known.model is None:
            return known.word, None, known.spent
        at = {name: index for index, (name, _) in enumerate(self.constants())}
        model = {at[name]: value for name, value in known.model.items()}
        assert all(self.values.of(t, model)[1] == 1 for t in trees)
        return known.word, [model], None

    def check(self, trees, place):
        self.sat = False
        self.need("all" in self.known or self.places(trees) <= LIMIT, "prefix limit", place)
        known = self.known.get(len(self.answers) + 1) or self.known.get("all")
        self.counts = known and known.counts or "not known"
        self.last, models, self.reason = self.decide(trees)
        self.checked = trees, models
        self.answers.append(self.last.encode() + b"\n")
        self.write_section()
        return self.answers[-1]

    def model_value(self, t):
        """A term's word, where all models of the last check agree on it."""
        trees, models = self.checked
        if models is not None and not isinstance(models, list):
            return self.store.sorts[t], next(models)
        if models is None:
            models = list(self.values.models(trees))
            self.checked = trees, models
        words = {self.values.of(t, model) for model in models}
        if len(words) != 1:
            raise Undetermined(words)
        return words.pop()

    # the commands: what each prints, or None where it prints nothing
    def set_logic(self, p, l):
        self.need(l.name is not None, "Form", p)
        self.need(not self.logic and not self.begun and (l.name in [b"ALL", b"ALL_SUPPORTED"] or LOGIC.fullmatch(l.name)), "Logic", p)
        self.logic = True

    def set_option(self, p, k, v):
        self.need(k.kind == "keyword", "Form", p)
        if b"." in k.text or k.text in FOREIGN:
            self.options[k.text] = spaced(v)
            return None
        if k.text not in OPTIONS:
            return b"unsupported\n"
        takes, _ = OPTIONS[k.text]
        self.need({"truth": v.name in [b"true", b"false"], "numeral": v.kind == "numeral"}[takes] if isinstance(takes, str) else v.kind == "string", "Form", p)
        if isinstance(takes, list) and v.text not in takes:
            return b"unsupported\n"
        if k.text == b":print-success":
            self.success = v.name == b"true"
        if k.text == b":global-declarations":
            self.need(not self.begun and not self.nested, "Form", p)
            self.everywhere = v.name == b"true"
        self.options[k.text] = spaced(v)
        return None

    def get_option(self, p, k):
        self.need(k.kind == "keyword", "Form", p)
        text = self.options.get(k.text, OPTIONS[k.text][1] if k.text in OPTIONS else None)
        return b"unsupported\n" if text is None else text + b"\n"

    def set_info(self, p, k, v=None):
        self.need(k.kind == "keyword", "Form", p)

    def declare_const(self, p, x, s):
        self.need(x.name is not None, "Form", p)
        self.declare(x, s, p)

    def declare_fun(self, p, x, args, s):
        self.need(x.name is not None and isinstance(args, Form), "Form", p)
        self.need(not args.parts, "NotSupported", p)
        self.declare(x, s, p)

    def define_fun(self, p, f, parameters, s, t):
        pairs = pairs_of(parameters)
        self.need(f.name is not None and pairs is not None, "Form", p)
        self.define(f, pairs, s, t, p)

    def define_const(self, p, f, s, t):
        self.need(f.name is not None, "Form", p)
        self.define(f, [], s, t, p)

    def define_sort(self, p, x, parameters, s):
        self.need(x.name is not None and isinstance(parameters, Form), "Form", p)
        self.need(not parameters.parts, "NotSupported", p)
        self.need(sort_key(x.name) not in self.scope() and x.name not in [b"Bool", b"BitVec"], "NameInUse", p)
        self.add(sort_key(x.name), sort_of(s, self.scope()))

    def assert_(self, p, e):
        term, name = self.asserted(e)
        if name is not None:
            self.fresh(name, p)
        t = self.formula(term, e)
        self.levels[-1].assertions.append(t)
        self.levels[-1].names.append(name)
        if name is not None:
            self.add(name, Macro(self.scope(), [], term))
        self.changed()

    def push(self, p, *args):
        n = self.count(args, p)
        self.need(len(self.levels) - 1 + n <= LEVEL_LIMIT, "LevelLimit", p)
        self.levels += [Level() for _ in range(n)]
        self.nested, self.sat = True, False

    def pop(self, p, *args):
        n = self.count(args, p)
        self.need(n < len(self.levels), "PopBelow", p)
        gone = self.levels[len(self.levels) - n:]
        del self.levels[len(self.levels) - n:]
        self.outlive(self.levels[-1], gone)
        self.merged, self.sat = None, False

    def outlive(self, level, gone):
        """What is global goes from levels that go into one that stays."""
        if self.everywhere:
            for other in gone:
                level.scope.update(other.scope)
                level.constants += other.constants

    def check_sat(self, p):
        return self.check(self.in_force(), p)

    def check_sat_assuming(self, p, ts):
        self.need(isinstance(ts, Form), "Form", p)
        said = self.check(self.in_force() + [self.formula(e, e) for e in ts.parts], p)
        self.written = [spaced(e) for e in ts.parts]
        return said

    def get_value(self, p, ts):
        self.need(isinstance(ts, Form) and ts.parts, "Form", p)
        self.need(self.sat, "NoModel", p)
        found = []
        for e in ts.parts:
            t = self.term(e)
            self.need(not self.values.holds(t, "AE"), "Quantifier", e.place)
            found.append(b"(" + spaced(e) + b" " + value_text(*self.model_value(t)) + b")")
        return b"(" + b" ".join(found) + b")\n"

    def get_model(self, p):
        self.need(self.sat, "NoModel", p)
        lines = []
        for index, (x, s) in enumerate(self.constants()):
            t = self.store.put(terms.named("c", index, s), s)
            lines.append(b"(define-fun " + symbol_text(x) + b" () " + sort_text(s) + b" " + value_text(*self.model_value(t)) + b")\n")
        return b"(\n" + b"".join(lines) + b")\n"

    def are_true(self, trees):
        return next(self.values.models(trees), None) is not None

    def core(self, texts):
        """The texts, by the places of their trees, of what each core has, where this alone makes one. It has all trees without a text."""
        trees = self.checked[0]
        without = lambda out: [t for i, t in enumerate(trees) if i not in out]
        kept = [i for i in texts if self.are_true(without([i]))]
        if self.are_true(without([i for i in texts if i not in kept])):
            raise Undetermined(texts)
        return b"(" + b" ".join(texts[i] for i in kept) + b")\n"

    def get_unsat_core(self, p):
        self.need(self.last == "unsat", "NoCore", p)
        names = [name for level in self.levels for name in level.names]
        return self.core({i: symbol_text(name) for i, name in enumerate(names) if name is not None})

    def get_unsat_assumptions(self, p):
        self.need(self.last == "unsat" and self.written is not None, "NoCore", p)
        return self.core(dict(enumerate(self.written, len(self.in_force()))))

    def get_info(self, p, k):
        self.need(k.kind == "keyword", "Form", p)
        self.need(k.text != b":reason-unknown" or self.last == "unknown", "NoReason", p)
        if k.text == b":all-statistics":
            return b"()\n" if self.counts is None else b"(:conflicts %d :instances %d :variables %d)\n" % self.counts
        texts = {**INFOS, b":assertion-stack-levels": b"%d" % (len(self.levels) - 1), b":reason-unknown": (self.reason or "").encode()}
        text = texts.get(k.text)
        return b"unsupported\n" if text is None else b"(" + k.text + b" " + text + b")\n"

    def echo(self, p, e):
        self.need(e.kind == "string", "Form", p)
        return e.text + b"\n"

    def reset_assertions(self, p):
        gone, self.levels = self.levels, [Level()]
        self.outlive(self.levels[0], gone)
        self.merged, self.sat = None, False

    def reset_(self, p):
        self.reset()

    def exit(self, p):
        raise Left

    COMMANDS = {"set-logic": (set_logic, 1, 1), "set-option": (set_option, 2, 2), "set-info": (set_info, 1, 2),
                "declare-const": (declare_const, 2, 2), "declare-fun": (declare_fun, 3, 3), "define-fun": (define_fun, 4, 4),
                "define-const": (define_const, 3, 3), "define-sort": (define_sort, 3, 3), "assert": (assert_, 1, 1), "push": (push, 0, None), "pop": (pop, 0, None),
                "check-sat": (check_sat, 0, 0), "check-sat-assuming": (check_sat_assuming, 1, 1), "get-value": (get_value, 1, 1),
                "get-model": (get_model, 0, 0), "get-unsat-core": (get_unsat_core, 0, 0), "get-unsat-assumptions": (get_unsat_assumptions, 0, 0),
                "get-info": (get_info, 1, 1), "get-option": (get_option, 1, 1), "echo": (echo, 1, 1),
                "reset-assertions": (reset_assertions, 0, 0), "reset": (reset_, 0, 0), "exit": (exit, 0, 0)}

    def step(self, e):
        """What a command prints."""
        name = e.parts[0].name if e.parts else None
        name = None if name is None else name.decode(errors="replace")
        if name in UNSUPPORTED:
            raise Refused("NotSupported", e.place)
        self.need(name in self.COMMANDS, "Command", e.place)
        command, least, most = self.COMMANDS[name]
        count = len(e.parts) - 1
        self.need(least <= count and (most is None or count <= most), "Form", e.place)
        try:
            for label, term in self.labels_of(name, e.parts[1:]):
                self.fresh(label, e.place)
                self.term(term)
                self.add(label, Macro(self.scope(), [], term))
            said = command(self, e.place, *e.parts[1:])
        except terms.Fault as fault:
            kind, place = fault.args
            raise Refused(kind, place)
        return (b"success\n" if self.success else b"") if said is None else said


def refusal(kind, place):
    return b'(error "at %d: %s")\n' % (place, kind.encode())


def follow(next_command, put, script=None):
    """Follows commands; answers the status. Faults of reading come from `next_command`."""
    script = script or Script()
    while True:
        e = next_command()
        if e is None:
            return 0
        try:
            put(script.step(expression(e)))
        except Left:
            put(b"success\n" if script.success else b"")
            return 0
        except Refused as fault:
            put(refusal(fault.kind, fault.place))
            return 1


def transcript(text):
    """What a script prints, and its status."""
    import run_cases
    reader, out = run_cases.Reader(run_cases.Source(text)), []
    try:
        status = follow(reader.command, out.append)
    except run_cases.Fault as fault:
        out.append(refusal(fault.kind, fault.place))
        status = 1
    return b"".join(out), status


def main():
    with open(sys.argv[1], "rb") as script:
        out, status = transcript(script.read())
    sys.stdout.buffer.write(out)
    sys.stdout.flush()
    ended.append(status)


if __name__ == "__main__":
    ended = []
    sys.setrecursionlimit(10**6)
    threading.stack_size(2**29)
    thread = threading.Thread(target=main)
    thread.start()
    thread.join()
    sys.exit(ended[0] if ended else 70)
