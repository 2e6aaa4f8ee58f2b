#!/usr/bin/env python3
"""Writes the cases of qv_shell_cases and qv_sexpr_cases (stdin) and what must come (stdout).

The answers come from what stands below, from bench/cases/scripts.py and from nothing of the program: tokens, commands,
faults, and sources and sinks that give and take pieces and fail at some of their calls. Checks are answered by trying all
values; where these are too many, or a budget is spent, the answer is given with the row. A certificate depends on the program,
so a row says how many sections it has and what comes of its check. So does a model: a row of `model` says that what was
printed before it comes again where its definitions stand in place of the declarations.

usage: bench/cases/run_cases.py     writes stdin and stdout of crates/qv_shell_cases and crates/qv_sexpr_cases
"""
import os
import random
import sys
import threading
from itertools import product

import calls_cases
import elab_cases
import scripts
import word_cases
from chance_scripts import following_script, random_script
from rows import write_part
from scripts import Known

HERE = os.path.dirname(os.path.abspath(__file__))
WRITTEN = os.path.join(HERE, "../written")
SENT = os.path.join(HERE, "../measure/clients/sent")
USAGE = (b"usage: qbv solve SCRIPT CERT [--conflicts N] [--instances N] [--variables N] | qbv check SCRIPT CERT"
         b" | qbv gen N | qbv bench N | qbv lrat CNF PROOF | qbv trim SCRIPT CERT NEW"
         b" | qbv qsolve FILE CERT [--conflicts N] [--instances N] [--variables N] | qbv qcheck FILE CERT"
         b" | qbv clauses SCRIPT CERT\n")
HELP = open(os.path.join(HERE, "help.txt"), "rb").read()

# --- tokens -------------------------------------------------------------------------------------

WHITE = b"\t\n\r "
DIGITS = b"0123456789"
HEX = b"0123456789abcdefABCDEF"
LETTERS = b"abcdefghijklmnopqrstuvwxyzABCDEFGHIJKLMNOPQRSTUVWXYZ"
SYMBOL_START = LETTERS + b"~!@$%^&*_-+=<>.?/"
SYMBOL = SYMBOL_START + DIGITS
NESTING = 1000000
RESERVED = {b"!", b"_", b"as", b"exists", b"forall", b"lambda", b"let", b"match", b"par"}


class Fault(Exception):
    def __init__(self, kind, place):
        super().__init__(kind)
        self.kind, self.place = kind, place


class More(Exception):
    """What is there doesn't decide what is next."""


def run_of(chars, text, at):
    while at < len(text) and text[at] in chars:
        at += 1
    return at


def next_token(text, at, whole):
    """The kind, the start and the end of the next token, or None at the end of a whole text."""
    def open_end():
        # At the end of what is there: more may come, or the text ends.
        if not whole:
            raise More

    while True:
        at = run_of(WHITE, text, at)
        if at < len(text) and text[at] == ord(";"):
            while at < len(text) and text[at] not in b"\n\r":
                at += 1
            continue
        break
    if at == len(text):
        open_end()
        return None
    first, start = text[at], at
    if first == ord("("):
        return "open", start, start + 1
    if first == ord(")"):
        return "close", start, start + 1
    if first == ord('"'):
        at += 1
        while True:
            if at == len(text):
                open_end()
                raise Fault("string", start)
            if text[at] == ord('"'):
                if at + 1 == len(text):
                    open_end()
                    return "string", start, at + 1
                if text[at + 1] != ord('"'):
                    return "string", start, at + 1
                at += 1
            at += 1
    if first == ord("|"):
        at += 1
        while True:
            if at == len(text):
                open_end()
                raise Fault("quoted symbol", start)
            if text[at] == ord("\\"):
                raise Fault("quoted symbol", start)
            if text[at] == ord("|"):
                return "symbol", start, at + 1
            at += 1
    if first == ord(":"):
        if at + 1 == len(text):
            open_end()
        if at + 1 == len(text) or text[at + 1] not in SYMBOL_START:
            raise Fault("character", start)
        at = run_of(SYMBOL, text, at + 1)
        if at == len(text):
            open_end()
        return "keyword", start, at
    if first == ord("#"):
        if at + 1 == len(text):
            open_end()
            raise Fault("character", start)
        if text[at + 1] not in b"bx":
            raise Fault("character", start)
        kind, digits = ("binary", b"01") if text[at + 1] == ord("b") else ("hex", HEX)
        if at + 2 == len(text):
            open_end()
        at = run_of(digits, text, at + 2)
        if at == start + 2:
            raise Fault("literal", start)
        if at == len(text):
            open_end()
        return kind, start, at
    if first in DIGITS:
        at = run_of(DIGITS, text, at)
        if first == ord("0") and at > start + 1:
            raise Fault("numeral", start)
        if at == len(text):
            open_end()
            return "numeral", start, at
        if text[at] == ord("."):
            if at + 1 == len(text):
                open_end()
            end = run_of(DIGITS, text, at + 1)
            if end > at + 1:
                if end == len(text):
                    open_end()
                return "decimal", start, end
        return "numeral", start, at
    if first in SYMBOL_START:
        at = run_of(SYMBOL, text, at)
        if at == len(text):
            open_end()
        return ("reserved" if text[start:at] in RESERVED else "symbol"), start, at
    raise Fault("character", start)


# --- sources and sinks --------------------------------------------------------------------------

class Failed(Exception):
    pass


class Source:
    def __init__(self, text, give=4096, fails=()):
        self.left, self.give, self.fails = text, give, set(fails)
        self.calls = self.faults = 0

    def read(self, size):
        self.calls += 1
        if self.calls in self.fails:
            self.faults += 1
            raise Failed
        n = min(size, self.give, len(self.left))
        given, self.left = self.left[:n], self.left[n:]
        return given


class StdSource:
    """Over a reader that fails where the source does: for good, or by a signal."""

    def __init__(self, source, signal):
        self.source, self.signal = source, signal
        self.given = self.faults = 0
        self.failed = False

    def read(self, size):
        while not self.failed:
            try:
                given = self.source.read(size)
            except Failed:
                self.failed = not self.signal
            else:
                self.given += len(given)
                return given
        self.faults += 1
        raise Failed


class Sink:
    def __init__(self, take=4096, room=4096, fails=()):
        self.held, self.take, self.room, self.fails = b"", take, room, set(fails)
        self.calls = self.faults = 0

    def write(self, piece):
        self.calls += 1
        if self.calls in self.fails or (piece and len(self.held) == self.room):
            self.faults += 1
            raise Failed
        n = min(len(piece), self.take, self.room - len(self.held))
        self.held += piece[:n]
        return n

    def put(self, piece):
        while piece:
            piece = piece[self.write(piece):]


class StdSink:
    """Over a writer that fails where the sink does: for good, or by a signal."""

    def __init__(self, sink, signal):
        self.sink, self.signal = sink, signal
        self.faults = 0
        self.failed = False

    def write(self, piece):
        while not self.failed:
            try:
                return self.sink.write(piece)
            except Failed:
                self.failed = not self.signal
        self.faults += 1
        raise Failed

    put = Sink.put


# --- commands -----------------------------------------------------------------------------------

class SourceFailed(Exception):
    pass


class Reader:
    def __init__(self, source):
        self.source, self.text, self.at, self.whole = source, b"", 0, False

    def token(self):
        while True:
            try:
                found = next_token(self.text, self.at, self.whole)
            except More:
                try:
                    given = self.source.read(4096)
                except Failed:
                    raise SourceFailed
                self.text += given
                self.whole = not given
                continue
            if found:
                self.at = found[2]
            return found

    def command(self):
        """A list of its parts, each (kind, place, text) or ('list', place, parts), or None."""
        stack = []
        while True:
            found = self.token()
            if not found:
                if stack:
                    raise Fault("unfinished", stack[0][1])
                return None
            kind, start, end = found
            if kind == "open":
                if len(stack) == NESTING:
                    raise Fault("nesting limit", start)
                stack.append(("list", start, []))
            elif kind == "close":
                if not stack:
                    raise Fault("close", start)
                done = stack.pop()
                if not stack:
                    return done
                stack[-1][2].append(done)
            elif not stack:
                raise Fault("atom", start)
            else:
                stack[-1][2].append((kind, start, self.text[start:end]))


def apply(operator, arguments):
    """The value of one of two operators on words of one width."""
    (w, a), (_, b) = arguments
    return w, (a + b) % 2**w if operator == b"bvadd" else (2**w - 1 if b == 0 else a // b)


HEADER = b"qbv-cert 2\n"


class Certificate:
    """What is written of a certificate. Only the section of an unknown answer is known; each other takes a call."""

    def __init__(self, sink):
        self.sink, self.sections, self.script = sink, 0, None

    def write_section(self):
        answer = self.script.answers[-1]
        is_known = answer == b"unknown\n"
        assert is_known or self.sink.take == self.sink.room == 4096
        self.sink.put(b"check %d unknown\nend\n" % len(self.script.answers) if is_known else b"?")
        self.sections += 1


def solve(source, sink, cert=None, known=None):
    """Follows a script: the status, the certificate, and what comes of its check, where it is whole."""
    reader, certificate = Reader(source), Certificate(cert or Sink())
    script = certificate.script = scripts.Script(known, certificate.write_section)
    told = b"accepted\n"

    def put(text):
        nonlocal told
        told = text if text.startswith(b"(error ") else told
        sink.put(text)

    try:
        certificate.sink.put(HEADER)
        try:
            status = scripts.follow(reader.command, put, script)
        except Fault as fault:
            put(scripts.refusal(fault.kind, fault.place))
            status = 1
    except SourceFailed:
        status = 3
    except Failed:
        status = 4
    return status, certificate, b"".join(script.answers) + told


# --- cases --------------------------------------------------------------------------------------

# the rows of each driver
RUNS, SERIES, OBJECTS = [], [], []
PARTS = [("qv_shell_cases", "runs", RUNS, ""), ("qv_sexpr_cases", "sources and sinks", OBJECTS, "io")]
RUN_COMMANDS, SERIES_COMMANDS = {"run", "std-run", "words"}, {"model", "fronts", "each"}


def note(text, rows=RUNS):
    for line in text.split("\n"):
        rows.append(("# " + line if line else "", None))


def quoted(text):
    out = ""
    for b in text:
        if b == 10:
            out += "\\n"
        elif b == 34:
            out += '\\"'
        elif 32 <= b <= 126 and b != 92:
            out += chr(b)
        else:
            out += "\\x%02x" % b
    return '"' + out + '"'


def case(command, settings, texts, answer):
    head = " ".join([command] + ["%s=%s" % (k, v) for k, v in settings.items()])
    for text in texts:
        assert '" "' not in text[1:-1]
    rows = RUNS if command in RUN_COMMANDS else SERIES if command in SERIES_COMMANDS else OBJECTS
    rows.append((" ".join([head] + list(texts)), answer))


def listed(calls):
    return ",".join(str(k) for k in calls)


def settings_of(give, give_fails, take, take_fails, room):
    settings = {}
    if give != 4096:
        settings["give"] = give
    if give_fails:
        settings["give-fails"] = listed(give_fails)
    if take != 4096:
        settings["take"] = take
    if take_fails:
        settings["take-fails"] = listed(take_fails)
    if room != 4096:
        settings["room"] = room
    return settings


def cert_settings(take, fails, room):
    settings = settings_of(4096, (), take, fails, room)
    return {"cert-" + name.replace("take-fails", "fails"): value for name, value in settings.items()}


def answer_of(status, source, sink):
    return "status=%d %s reads=%d left=%d writes=%d" % (
        status, quoted(sink.held), source.calls, len(source.left), sink.calls)


def numbered(*known):
    """Known answers to the first checks."""
    return dict(enumerate(known, 1))


def run(text, give=4096, give_fails=(), take=4096, take_fails=(), room=4096, shown=None, std=False, known=None,
        cert_take=4096, cert_fails=(), cert_room=4096, **budgets):
    source, sink, cert = Source(text, give, give_fails), Sink(take, room, take_fails), Sink(cert_take, cert_room, cert_fails)
    status, certificate, told = solve(source, sink, cert, known)
    settings = {**settings_of(give, give_fails, take, take_fails, room), **cert_settings(cert_take, cert_fails, cert_room), **budgets}
    answer = answer_of(status, source, sink)
    if std:
        answer += " faults=%d,%d,%d" % (source.faults, sink.faults, cert.faults)
    answer += " sections=%d" % certificate.sections
    if status < 2:
        answer += " check=%d %s" % (status, quoted(told))
    case("std-run" if std else "run", settings, [shown or quoted(text)], answer)
    return source.calls, sink.calls, cert.calls


def fronts(text, known=None, **budgets):
    """The certificate can't be written from some byte on."""
    said = []
    for failing in range(1, 1000):
        source, sink = Source(text), Sink()
        status, certificate, _ = solve(source, sink, Sink(fails=[failing]), known)
        said.append("%d %s" % (status, quoted(sink.held)))
        if status != 4:
            break
    case("fronts", budgets, [quoted(text)], "; ".join(dict.fromkeys(said)))


def each(kind, most, text, *known):
    """The answers with budgets from 1 on, where they differ from the one before."""
    said = []
    for answers in known:
        sink = Sink()
        status, _, _ = solve(Source(text), sink, None, answers)
        said.append("%d %s" % (status, quoted(sink.held)))
    case("each", {kind: most}, [quoted(text)], "; ".join(said))


def model(declared, rest, known=None):
    """The model isn't known, but it leads to the same again."""
    script = scripts.Script(known)
    reader = Reader(Source(declared + rest))
    said = []
    while not script.answers:
        said.append(script.step(scripts.expression(reader.command())))
    case("model", {}, [quoted(declared), quoted(rest)], "0 %s, again" % said[-1].decode().strip())


def generated(number):
    """The generator's script of a number."""
    text, state = b"(set-logic BV)\n", number
    for _ in range(number):
        state = (state * 6364136223846793005 + 1442695040888963407) % 2**64
        c, d = state >> 56, (state >> 48) % 256
        text += (b"(push 1)\n(assert (forall ((x (_ BitVec 8))) (exists ((y (_ BitVec 8))) (= (bvadd y #x%02x) (bvxor x #x%02x)))))\n"
                 b"(check-sat)\n(assert (forall ((z (_ BitVec 8))) (bvult z #x%02x)))\n(check-sat)\n(pop 1)\n" % (c, d, c))
    return text


def called(all_words):
    """What words ask for: the plan, and the text and the status of a run that reads nothing but an empty certificate."""
    try:
        command, *rest = calls_cases.called([word.decode() for word in all_words])
    except calls_cases.Refused:
        return "refused:", USAGE, 2
    if command == "help":
        return "alone:", HELP, 0
    if command == "version":
        return "alone:", b"qbv 1\nrattle-kit-13f logic dac8208d650f15bf\n", 0
    if command == "gen":
        return "alone:", generated(int(rest[0])), 0
    if command == "bench":
        n = int(rest[0])
        return "alone:", b"checks %d\nsat %d\nunsat %d\nunknown 0\naccepted\n" % (2 * n, n, n), 0
    files = " ".join(quoted(word.encode()) for word in rest[:3 if command == "trim" else 2])
    plan = "%s %s:" % ({"lrat": "check", "qcheck": "check", "clauses": "check", "qsolve": "solve"}.get(command, command), files)
    if command in ("lrat", "qsolve"):
        return plan, b'(error "at 0: problem line")\n', 1
    if command == "clauses":
        return plan, b"c refused 1 truncated\n", 6
    return plan, *((None, None) if command == "solve" else (b"refused 1 truncated\n", 6))


def words(*all_words, take=4096, take_fails=(), room=4096):
    source, sink = Source(b"(check-sat)"), Sink(take, room, take_fails)
    plan, text, status = called(all_words)
    sections = 0
    if all_words[:1] in ((b"lrat",), (b"qsolve",)) and status == 1 or all_words[:1] == (b"clauses",) and status == 6:
        # The line of the fault has no LF: it ends where the source does. A quantified formula is taken whole, and
        # so is a script whose clauses are listed.
        source.read(4096), source.read(4096)
    if text is None:
        status, certificate, _ = solve(source, sink)
        sections = certificate.sections
    else:
        try:
            sink.put(text)
        except Failed:
            status = 4
    case("words", settings_of(4096, (), take, take_fails, room), [quoted(w) for w in all_words],
         "%s %s sections=%d" % (plan, answer_of(status, source, sink), sections))


def reads(source, sizes, buf):
    out = ""
    for size in sizes:
        try:
            given = source.read(min(size, 8))
            buf[:len(given)] = given
            out += "%d " % len(given)
        except Failed:
            out += "failed "
        out += quoted(bytes(buf)) + " "
    return out


def writes(sink, pieces):
    out = ""
    for piece in pieces:
        try:
            out += "%d " % sink.write(piece)
        except Failed:
            out += "failed "
    return out


def puts(sink, pieces):
    out = ""
    for piece in pieces:
        try:
            sink.put(piece)
            out += "put "
        except Failed:
            out += "failed "
    return out


def source_cases(text, sizes, give=4096, fails=()):
    settings = settings_of(give, fails, 4096, (), 4096)
    settings["sizes"] = listed(sizes)
    source = Source(text, give, fails)
    out = reads(source, sizes, bytearray(b"." * 8))
    case("source", settings, [quoted(text)],
         out + "left=%s calls=%d faults=%d" % (quoted(source.left), source.calls, source.faults))
    for signal in (False, True):
        source = Source(text, give, fails)
        std = StdSource(source, signal)
        out = reads(std, sizes, bytearray(b"." * 8))
        case("signal-source" if signal else "std-source", settings, [quoted(text)],
             out + "given=%d calls=%d faults=%d" % (std.given, source.calls, std.faults))
    settings = {"sizes": listed(sizes)}
    out = reads(Source(text), sizes, bytearray(b"." * 8)) + "faults=0"
    case("slice-source", settings, [quoted(text)], out + " " + out)


def sink_cases(pieces, take=4096, room=4096, fails=()):
    settings = settings_of(4096, (), take, fails, room)
    texts = [quoted(p) for p in pieces]
    sink = Sink(take, room, fails)
    out = writes(sink, pieces)
    case("sink", settings, texts,
         out + "%s calls=%d faults=%d" % (quoted(sink.held), sink.calls, sink.faults))
    # (a sink that is full fails for good, so none of these is interrupted)
    for signal in (False, True)[:1 if sum(map(len, pieces)) * 2 > room else 2]:
        sink = Sink(take, room, fails)
        std = StdSink(sink, signal)
        out = writes(std, pieces) + puts(std, pieces)
        case("signal-sink" if signal else "std-sink", settings, texts,
             out + "%s calls=%d faults=%d" % (quoted(sink.held), sink.calls, std.faults))
    sink = Sink(take, room, fails)
    out = puts(sink, pieces)
    case("put", settings, texts,
         out + "%s calls=%d faults=%d" % (quoted(sink.held), sink.calls, sink.faults))


def slice_sink(pieces, room):
    held, faults, out = b"", 0, ""
    for piece in pieces:
        n = min(len(piece), room - len(held))
        if n == 0 and piece:
            faults += 1
            out += "failed "
        else:
            held += piece[:n]
            out += "%d " % n
    held += b"." * (room - len(held))
    case("slice-sink", {"room": room}, [quoted(p) for p in pieces],
         out + "%s faults=%d" % (quoted(held), faults))


def null_sink(pieces):
    out = "".join("%d " % len(p) for p in pieces) + "put " * len(pieces)
    case("null-sink", {}, [quoted(p) for p in pieces], out + "nothing is kept")


# A script with every kind of token.
TOKENS = (b"; x\n(assert (= #x0F #b00001111))\r\n(check-sat)\t(|check-sat|)"
          b" (set-info :kw \"a\"\"b\" 0 12 3.40 let |c d|)")
DIVISION = b"(assert (= (bvudiv #x05 #x00) #xff))(check-sat)"
ANSWERED = b"(assert true)\n(check-sat)\n(assert (bvult #x1 #x0))\n(check-sat)\n(check-sat)\n"


UNLIKE = [
    b"()", b"((check-sat))", b'("check-sat")', b"(check-sat 1)", b"(check-sat ())", b"(assert)", b"(assert true true)", b"(assert x)",
    b"(assert |#x0|)", b"(assert ())", b"(assert (true))", b"(assert ((not) true))", b"(assert (not))", b"(assert (not true false))",
    b"(assert (and true))", b"(assert (and true true true))", b"(assert (= #x0 #x0 #x0))", b"(assert (bvmul #x0 #x0))",
    b"(assert (= #x05 #x001 x))", b"(checksat)", b"(Check-sat)", b"(asserts true)", b"(:check-sat)", b"(let)", b"(12)", b"(#b1)",
    b"(|check-sat | )", b"(assert 1)", b"(assert 1.0)", b'(assert "true")', b"(assert :true)", b"(assert True)", b"(assert let)",
    b"(assert (|let| true))", b"(assert (= #x0))", b"(assert (=))", b"(assert (or true false true))", b"(assert (bvadd #b1))",
    b"(assert (not (true)))", b"(assert (and true (or true)))", b"(assert (and (not x) true))", b"(assert (= #x0 ()))",
    b"(assert (_ bv1 1))", b"(assert (let ((x true)) x))", b"(assert (forall ((x Bool)) true))",
]

# every command, each in a shape that it has
WHOLE = (b"(set-logic ALL)(set-option :print-success true)(set-info :status sat)\n(declare-const x (_ BitVec 8))"
         b"(declare-fun |a b| () Bool)(define-fun f ((a (_ BitVec 8)) (b Bool)) Bool (and b (= a #x0f)))\n"
         b"(define-const c (_ BitVec 5) (_ bv9 5))(push 2)(assert (! (f #x0f true) :named n))(check-sat)\n"
         b"(get-value (x (f x  n) (bvadd c #b00001)))(get-model)(get-info :name)(echo \"a \"\"b\"\"\");\n"
         b"(check-sat-assuming ((= c c) (not n)))(pop)(pop 1)(set-option :print-success false)(reset-assertions)\n"
         b"(check-sat)(reset)(set-logic QF_BV)(push)(exit)(check-sat)")

# for each command, arguments of many shapes
SHAPES = {
    b"set-logic": [b"", b"BV", b"QF_BV", b"ALL", b"|BV|", b"QF_UF", b"bv", b"BV BV", b"(BV)", b"5", b":BV", b'"BV"', b"let",
                   b"ALL_SUPPORTED", b"QF_ABV", b"QF_AUFBV", b"QF_UFBV", b"UFBV", b"QF_AXUFBVFPDTSNIRA", b"ABVFPLRA", b"BVDT", b"BVIDL", b"QF_BVLIRA", b"QF_",
                   b"QF_ALL", b"QF_LIA", b"BVUF", b"UFABV", b"AAXBV", b"XBV", b"BVBV", b"BVLIANIA", b"BVDTFP", b"QF_QF_BV", b"|BV |", b"HORN"],
    b"get-option": [b"", b":print-success", b":produce-models", b":produce-unsat-assumptions", b":interactive-mode", b":global-declarations", b":verbosity", b":random-seed", b":reproducible-resource-limit",
                    b":regular-output-channel", b":diagnostic-output-channel", b":smtlib2_compliant", b":smt.arith.solver", b":zz", b"print-success",
                    b":print-success true", b'":verbosity"', b"()"],
    b"set-option": [b"", b":print-success", b":print-success true", b":print-success |true|", b":print-success 1", b":print-success (true)",
                    b":print-success true true", b":produce-models true", b":produce-models 3", b":produce-unsat-cores false",
                    b":produce-unsat-cores no", b":random-seed 7", b":random-seed (a b)", b":x", b"print-success true", b"true :print-success",
                    b":produce-unsat-assumptions true", b":produce-assignments false", b":produce-assertions 1", b":interactive-mode true", b":verbosity 3", b":verbosity -1",
                    b":verbosity true", b":random-seed 0.5", b":random-seed #x0", b":random-seed 340282366920938463463374607431768211456",
                    b":regular-output-channel \"stdout\"", b":regular-output-channel \"stderr\"", b":regular-output-channel stdout", b":diagnostic-output-channel \"stderr\"",
                    b":diagnostic-output-channel \"stdout\"", b":diagnostic-output-channel \"/tmp/f\"", b":diagnostic-output-channel 2", b":global-declarations true",
                    b":global-declarations false", b":global-declarations 1", b":smtlib2_compliant true", b":timeout 100", b":rlimit (a b)", b":auto_config", b":smt.x y",
                    b":pp.max_depth 5", b":a. ()", b":incremental true", b":zz 1", b":reproducible-resource-limit 5", b":reproducible-resource-limit 0", b":reproducible-resource-limit true", b":reproducible-resource-limit -1",
                    b":reproducible-resource-limit 340282366920938463463374607431768211456"],
    b"set-info": [b"", b":status", b":status sat", b":status (a b)", b":status a b", b"status", b"status sat", b":|x|"],
    b"declare-const": [b"", b"x", b"x Bool", b"x Bool Bool", b"|x y| (_ BitVec 128)", b"x (_ BitVec 0)", b"x (_ BitVec 129)", b"x Foo", b"x ()",
                       b"let Bool", b"|let| Bool", b"5 Bool", b"(x) Bool", b"bvadd Bool", b"true Bool", b"distinct Bool", b"bv5 Bool", b":x Bool", b"|| Bool"],
    b"declare-fun": [b"", b"x", b"x ()", b"x () Bool", b"x (Bool) Bool", b"x (Foo) Bar", b"x Bool", b"x Bool Bool", b"x () Foo", b"let () Bool",
                     b"and () Bool", b"and (Bool) Bool", b"x () Bool Bool", b"x (()) Bool", b"5 (Bool) Bool"],
    b"define-fun": [b"", b"f () Bool true", b"f () Bool", b"f Bool true", b"f () Bool true true", b"f ((a Bool)) Bool a", b"f ((a Bool) (a Bool)) Bool a",
                    b"f ((a Foo)) Bool a", b"f ((a)) Bool a", b"f (a Bool) Bool a", b"f ((a Bool) (b Foo) (a Bool)) Bool a", b"f () Foo zz", b"f () Bool zz",
                    b"f () (_ BitVec 8) true", b"f () Bool #x0", b"f ((a Bool)) Bool (f a)", b"and () Bool zz", b"f x Bool true", b"5 () Bool true",
                    b"let () Bool true", b"f ((5 Bool)) Bool true", b"f ((a Bool)) Bool (forall ((b Bool)) (= a b))"],
    b"define-const": [b"", b"c Bool true", b"c Bool", b"c Bool true true", b"c Bool #b1", b"c (_ BitVec 1) #b1", b"c Foo zz", b"c Bool zz", b"let Bool true",
                      b"not Bool zz", b"5 Bool true", b"c () Bool true"],
    b"define-sort": [b"", b"s", b"s ()", b"s () Bool", b"s () Bool Bool", b"s Bool", b"s Bool Bool", b"s (X) X", b"s (X) Foo", b"Bool (X) Bool", b"s () Foo", b"s () s",
                     b"s () (_ BitVec 8)", b"s () (_ BitVec 0)", b"s () (_ BitVec 129)", b"s () (s)", b"s () (_ s 1)", b"Bool () Bool", b"BitVec () Foo", b"|Bool| () Bool",
                     b"bvadd () Bool", b"true () Bool", b"let () Bool", b"|let| () Bool", b"|a b| () Bool", b"5 () Bool", b"(s) () Bool", b":s () Bool", b"s 5 Bool", b"s () ()"],
    b"assert": [b"true", b"(! true :named a)", b"(! true)", b"(! true :k)", b"(! true :k v :named a)", b"(! true :named)", b"(! true :named a :named b)",
                b"(! true :named 5)", b"(! true :named and)", b"(! zz :named and)", b"(! #x0 :named a)", b"(! #x0 :k)", b"(not (! true :named a))",
                b"#x0", b"(! (! true :named a) :k)", b"(! (! true :named a) :named b)", b"(! true named a)", b"(! true :named |a b|)", b"(|!| true :named a)"],
    b"push": [b"", b"0", b"1", b"2", b"1000000", b"1000001", b"1 1", b"x", b"(1)", b"#b1", b"1.0", b"340282366920938463463374607431768211455",
              b"340282366920938463463374607431768211456", b"999999999999999999999999999999999999999999"],
    b"pop": [b"", b"0", b"1", b"2", b"1 1", b"x", b"340282366920938463463374607431768211455", b"340282366920938463463374607431768211456"],
    b"check-sat": [b"", b"true", b"()"],
    b"check-sat-assuming": [b"", b"()", b"(true)", b"(true false)", b"(false)", b"true", b"((not false) (= #x0 #x0))", b"(zz)", b"(true zz)", b"(#x0)",
                            b"(true) (true)", b"((! true :named a))", b"((! true :k))", b"((forall ((b Bool)) b))"],
    b"get-value": [b"", b"()", b"(true)", b"true", b"(true #x0f #b101 (_ bv5 7))", b"((bvadd  #x1 ( _ bv3\t4 ) ;c\n))", b"(zz)", b"(true zz)", b"((forall ((b Bool)) b))",
                   b"((and true (exists ((b Bool)) b)))", b"((! true :k  v))", b"(true) (true)", b'("a")', b"(|true| ||)", b"((let ((a #x00)) (bvnot a)))"],
    b"get-model": [b"", b"x", b"()"],
    b"get-info": [b"", b":name", b":version", b":authors", b":error-behavior", b":assertion-stack-levels", b":reason-unknown", b":other", b":name :name", b"name", b'":name"'],
    b"echo": [b"", b'""', b'"a"', b'"a ""b"" \x80"', b"a", b'"a" "b"', b"5", b'("a")'],
    b"reset-assertions": [b"", b"1"], b"reset": [b"", b"x"], b"exit": [b"", b"0"], b"get-unsat-core": [b"", b"x"],
    b"define-fun-rec": [b"", b"f () Bool true"], b"define-funs-rec": [b""], b"declare-sort": [b"s 0"], b"declare-datatype": [b"d"],
    b"declare-datatypes": [b""], b"get-proof": [b""], b"get-assertions": [b""], b"get-assignment": [b""],
    b"get-unsat-assumptions": [b"", b"x"], b"declare-sort-parameter": [b"", b"X"],
    b"get-objectives": [b""], b"minimize": [b"x"], b"simplify": [b"true"],
}

# states in which a command finds something else
STATES = [
    b"(declare-const p Bool)(declare-const p Bool)", b"(declare-const p Bool)(push)(declare-const p Bool)", b"(push)(declare-const p Bool)(pop)(declare-const p Bool)(check-sat)(get-model)",
    b"(define-fun p () Bool true)(declare-const p Bool)", b"(declare-const p Bool)(define-fun p () Bool zz)", b"(assert (! true :named p))(declare-const p Bool)",
    b"(assert (! true :named p))(assert (! true :named p))", b"(declare-const p Bool)(assert (! zz :named p))", b"(push)(assert (! false :named p))(check-sat)(pop)(check-sat)(assert p)",
    b"(assert false)(check-sat)(push)(check-sat)(pop)(check-sat)", b"(push)(assert false)(check-sat)(pop)(check-sat)", b"(push 3)(assert false)(push 2)(pop 4)(check-sat)(pop)(check-sat)",
    b"(push 3)(assert false)(push 2)(pop 5)(check-sat)(pop 1)", b"(pop)", b"(push)(pop 2)", b"(push 2)(pop)(pop)(pop)", b"(push 1000000)(push)", b"(push 1000000)(pop 1000000)(push 1000000)(push 0)(pop 0)",
    b"(push 999999)(get-info :assertion-stack-levels)(push 2)", b"(get-value (true))", b"(get-model)", b"(check-sat)(get-model)(get-model)(get-value (true))", b"(assert false)(check-sat)(get-model)",
    b"(assert false)(check-sat)(get-value (true))", b"(check-sat)(assert true)(get-model)", b"(check-sat)(push)(get-model)", b"(push)(check-sat)(pop)(get-model)", b"(check-sat)(push 0)(get-model)",
    b"(check-sat)(declare-const x Bool)(get-model)", b"(check-sat)(define-fun x () Bool true)(get-value (true))", b"(check-sat)(assert (! true :named x))(get-model)", b"(check-sat)(reset-assertions)(get-model)",
    b"(check-sat)(reset)(get-model)", b"(check-sat)(set-info :a)(set-option :produce-models true)(echo \"\")(get-info :name)(get-model)", b"(check-sat)(check-sat-assuming (false))(get-model)",
    b"(check-sat)(check-sat-assuming (true))(get-model)", b"(check-sat)(get-value (zz))", b"(set-logic BV)(set-logic BV)", b"(set-logic BV)(reset)(set-logic BV)", b"(set-logic BV)(reset-assertions)(set-logic BV)",
    b"(declare-const x Bool)(set-logic BV)", b"(declare-const x Bool)(reset-assertions)(set-logic BV)", b"(push)(declare-const x Bool)(pop)(set-logic BV)", b"(push)(pop)(check-sat)(set-logic BV)",
    b"(assert true)(set-logic BV)", b"(define-fun x () Bool true)(set-logic BV)", b"(echo \"a\")(set-logic QF_UF)", b"(declare-const x Bool)(set-logic QF_UF)",
    b"(set-option :print-success true)(set-logic BV)(declare-const x Bool)(push)(pop)(check-sat)(get-model)(set-option :a b)(reset-assertions)(reset)(push)(exit)", b"(set-option :print-success true)(exit)",
    b"(set-option :print-success true)(set-option :print-success false)(push)", b"(set-option :print-success true)(assert true)(define-const c Bool true)(set-info :a)(echo \"\")(get-info :name)(pop)",
    b"(declare-const x Bool)(check-sat)(assert x)(check-sat)", b"(declare-const x Bool)(assert (or x true))(check-sat)", b"(assert (exists ((b Bool)) true))(check-sat)", b"(declare-const x Bool)(push)(assert x)(pop)(check-sat)",
    b"(declare-const x Bool)(check-sat-assuming (x))", b"(check-sat-assuming ((forall ((b Bool)) b)))", b"(declare-const x Bool)(define-fun f () Bool x)(check-sat)(get-value (f x (and f (not x))))",
    b"(declare-const b (_ BitVec 12))(declare-const a (_ BitVec 13))(push)(declare-const c Bool)(check-sat)(get-model)(pop)(check-sat)(get-model)(get-value (a b))",
    b"(declare-const |x y| Bool)(declare-const |z| Bool)(declare-const |let| Bool)(declare-const || Bool)(declare-const |1| Bool)(declare-const |a;b| (_ BitVec 4))(check-sat)(get-model)",
    b"(define-fun f ((a (_ BitVec 4))) (_ BitVec 8) (concat a a))(assert (= (f #xa) #xaa))(check-sat)(define-fun g ((b (_ BitVec 4))) Bool (= (f b) #x33))(assert (g #x3))(check-sat)(assert (g #x4))(check-sat)",
    b"(define-fun f ((a Bool)) Bool (not a))(push)(define-fun g ((a Bool)) Bool (f (f a)))(assert (g true))(check-sat)(pop)(assert (g true))", b"(exit)(", b"(exit))", b"(exit) |", b"(check-sat)(exit)(pop)",
    # sorts
    b"(define-sort |s s| () (_ BitVec 11))(define-fun f ((x |s s|)) Bool (= ((_ extract 0 0) x) #b1))(declare-fun a () |s s|)(assert (f a))(assert (bvult a (_ bv2 11)))(check-sat)(get-model)(get-value (a (f a)))",
    b"(define-sort s () Bool)(declare-const s (_ BitVec 3))(assert (exists ((x s)) (= (bvnot s) (ite x #b101 s))))(check-sat)(get-model)(declare-const t s)(get-value (t s))",
    b"(define-sort s () Bool)(define-sort s () (_ BitVec 8))", b"(define-sort s () Bool)(push)(define-sort s () Bool)", b"(push)(define-sort s () (_ BitVec 2))(declare-const x s)(pop)(define-sort s () Bool)(declare-const x s)(assert x)(check-sat)(get-model)",
    b"(push)(define-sort s () Bool)(pop)(declare-const x s)", b"(push 2)(define-sort s () Bool)(declare-const x s)(pop)(check-sat)(define-const c s true)", b"(define-sort s () Bool)(assert s)", b"(define-sort s () Bool)(assert (s true))",
    b"(define-sort s () Bool)(check-sat)(get-value (s))", b"(define-sort s () s)", b"(define-sort s () t)(define-sort t () Bool)", b"(define-sort s () Bool)(define-sort t () s)(push)(define-sort u () t)(declare-const x u)(assert x)(check-sat)(get-model)(pop)(declare-const x t)(assert (not x))(check-sat)(get-model)(declare-const y u)",
    b"(define-sort s () Bool)(reset-assertions)(declare-const x s)", b"(define-sort s () Bool)(reset)(declare-const x s)", b"(define-sort s () Bool)(reset)(set-logic QF_BV)(define-sort s () (_ BitVec 2))(declare-const x s)(assert (= x #b10))(check-sat)(get-value (x))",
    b"(set-option :global-declarations true)(push)(define-sort s () Bool)(declare-const x s)(assert x)(pop)(declare-const y s)(assert (and x (not y)))(check-sat)(get-model)(reset-assertions)(declare-const z s)(assert (and z x y))(check-sat)(get-model)(define-sort s () Bool)",
    b"(define-sort s () Bool)(set-option :global-declarations true)", b"(define-sort s () Bool)(set-logic BV)", b"(push)(define-sort s () Bool)(pop)(set-logic BV)",
    b"(declare-const x (_ BitVec 4))(assert (= x #xa))(check-sat)(define-sort s () (_ BitVec 4))(get-value (x))(declare-const y s)(get-value (y))(get-model)", b"(check-sat)(define-sort s () Foo)", b"(set-option :print-success true)(define-sort s () Bool)(declare-const x s)",
    b"(define-sort s () Bool)(define-fun f ((x s)) s (forall ((y s)) (or x y)))(push)(define-sort t () (_ BitVec 2))(define-fun g ((x t)) s (f (= x #b01)))(assert (g #b01))(check-sat)(pop)(assert (f false))(check-sat)",
    b"(define-sort s () Bool)(assert (! (forall ((x s)) (exists ((y s)) (= x y))) :named s))(check-sat)(assert s)(check-sat)", b"(define-fun f ((x s)) Bool true)", b"(define-const c s true)", b"(assert (forall ((x s)) true))", b"(declare-fun x (s) Bool)",
    # options, as they were set
    b"(set-option :smt.x (a  ( b\t)c))(get-option :smt.x)(set-option :smt.x 5)(get-option :smt.x)(get-option :smt.y)(reset)(get-option :smt.x)",
    b"(set-option :verbosity 007)", b"(set-option :verbosity 7)(set-option :random-seed 8)(get-option :verbosity)(get-option :random-seed)(reset-assertions)(get-option :verbosity)",
    b"(set-option :print-success true)(get-option :print-success)(set-option :produce-models |true|)(get-option :produce-models)(set-option :print-success false)(get-option :print-success)",
    b"(set-option :diagnostic-output-channel \"stdout\")(get-option :diagnostic-output-channel)(set-option :diagnostic-output-channel \"f\")(get-option :diagnostic-output-channel)",
    b"(set-option :print-success true)(set-option :regular-output-channel \"stderr\")(set-option :smtlib2_compliant true)(set-logic QF_AUFBV)(set-option :zz 1)",
    b"(check-sat)(set-option :verbosity 1)(get-option :verbosity)(get-model)",
    # answers and what is declared or defined behind them
    b"(declare-const x (_ BitVec 8))(assert (= x #x2a))(check-sat)(declare-const y (_ BitVec 5))(declare-fun z () Bool)(get-model)(get-value (x y z (concat x y) (not z)))",
    b"(declare-const x (_ BitVec 8))(assert (= x #x2a))(check-sat)(define-fun f ((a (_ BitVec 8))) Bool (= a x))(define-const c (_ BitVec 8) (bvnot x))(get-value ((f #x2a) c))(assert (f c))(get-value (c))",
    b"(declare-const x Bool)(assert x)(check-sat)(declare-const y Bool)(get-model)(assert y)(check-sat)(get-model)(declare-const z Bool)(get-model)(push)(get-model)",
    b"(assert false)(check-sat)(declare-const x Bool)(get-model)", b"(check-sat)(declare-const x Bool)(declare-const x Bool)", b"(check-sat)(define-const x Bool zz)",
    b"(check-sat)(declare-const x Foo)", b"(push)(check-sat)(declare-const x Bool)(pop)(get-model)", b"(check-sat)(declare-const x Bool)(reset-assertions)(get-model)",
    b"(check-sat-assuming (true))(declare-const x Bool)(get-value (x))(check-sat)(get-value (x))",
    # declarations and definitions that outlive their levels
    b"(set-option :global-declarations true)(push)(declare-const x Bool)(define-fun f () Bool (not x))(assert f)(pop)(assert x)(check-sat)(get-model)(assert f)(check-sat)",
    b"(set-option :global-declarations true)(declare-const a Bool)(push 2)(declare-const b Bool)(push)(declare-const c Bool)(pop 2)(declare-const d Bool)(assert (and a b c d))(check-sat)(get-model)(pop)(check-sat)(get-model)",
    b"(set-option :global-declarations true)(push)(declare-const x Bool)(pop)(declare-const x Bool)", b"(set-option :global-declarations true)(push)(assert (! false :named n))(pop)(check-sat)(assert n)(check-sat)",
    b"(set-option :global-declarations true)(push)(declare-const x Bool)(assert x)(reset-assertions)(check-sat)(get-model)(assert (not x))(check-sat)(get-model)(pop)",
    b"(set-option :global-declarations true)(push)(declare-const x Bool)(reset)(assert x)", b"(set-option :global-declarations true)(reset)(get-option :global-declarations)(push)(declare-const x Bool)(pop)(assert x)",
    b"(set-option :global-declarations false)(push)(declare-const x Bool)(pop)(assert x)", b"(set-option :global-declarations true)(set-option :global-declarations false)(push)(declare-const x Bool)(pop)(assert x)",
    b"(declare-const x Bool)(set-option :global-declarations true)", b"(define-const x Bool true)(set-option :global-declarations true)", b"(assert true)(set-option :global-declarations true)",
    b"(push)(set-option :global-declarations true)", b"(push 0)(set-option :global-declarations true)", b"(push)(pop)(set-option :global-declarations false)",
    b"(declare-const x Bool)(reset-assertions)(set-option :global-declarations true)", b"(assert true)(reset)(set-option :global-declarations true)(get-option :global-declarations)",
    b"(check-sat)(set-logic BV)(set-option :global-declarations true)(get-option :global-declarations)", b"(set-option :global-declarations true)(check-sat)(push)(pop)(get-model)",
    b"(set-option :global-declarations true)(push)(declare-const x Bool)(get-info :assertion-stack-levels)(pop)(get-info :assertion-stack-levels)(pop)",
    b"(assert (let ((x true) (y false)) (let ((x y) (y x)) (and (not x) y))))(check-sat)", b"(assert (distinct #b00 #b01 #b10 #b11))(check-sat)(assert (distinct #b0 #b1 #b0))(check-sat)",
    b"(assert ((_ extract 3 1) #xf))", b"(assert (= ((_ extract 3 1) #xe) #b111))(check-sat)", b"(assert (bvult #x00000000000000000000000000000000 #xffffffffffffffffffffffffffffffff))(check-sat)",
]


def write_runs():
    note("Scripts of literals.")
    for text in [
        b"", b"(check-sat)", b"(assert true)", b"(check-sat)(check-sat)(check-sat)",
        b"(assert (= (bvadd #x05 #x03) #x08)) (check-sat)",
        b"(assert (= (bvadd #x05 #x03) #x09)) (check-sat)",
        DIVISION,
        b"(assert (= #x05 #x001))",
        b"(check-sat)(assert #x05)",
        b"(check-sat)(assert true)(check-sat)(assert (= true (= #x0 #x1)))(check-sat)(assert true)(check-sat)",
        b"(assert (= (bvadd #xFFFFffffFFFFffffFFFFffffFFFFffff #x00000000000000000000000000000002)"
        b" #x00000000000000000000000000000001))(check-sat)",
        b"(assert (= #x000000000000000000000000000000001 #x000000000000000000000000000000001))",
        b"(assert (= #b" + b"1" * 128 + b" #xffffffffffffffffffffffffffffffff))(check-sat)",
        b"(assert (= #b" + b"1" * 129 + b" #b0))",
        b"(assert false)(check-sat)", b"(assert (not false))(check-sat)", b"(assert (not true))(check-sat)",
        b"(assert (and true false))(check-sat)", b"(assert (and true true))(check-sat)",
        b"(assert (or true false))(check-sat)", b"(assert (or false false))(check-sat)",
        b"(assert (bvult #b0011 #x4))(check-sat)", b"(assert (bvult #x4 #x4))(check-sat)",
        b"(assert (bvult #x4 #b0011))(check-sat)",
        b"(|assert| (|=| |true| (|not| |false|)))(|check-sat|)",
        b"(assert (not #b1))", b"(assert (and true #b1))", b"(assert (bvult #b1 #b01))",
    ]:
        run(text)
    note("\nSmall words under each operator.")
    for a in range(4):
        for b in range(4):
            x, y = b"#b" + bin(a)[2:].zfill(2).encode(), b"#b" + bin(b)[2:].zfill(2).encode()
            for operator in (b"bvadd", b"bvudiv"):
                z = b"#b" + bin(apply(operator, [(2, a), (2, b)])[1])[2:].zfill(2).encode()
                run(b"(assert (= (%s %s %s) %s))(check-sat)" % (operator, x, y, z))
            run(b"(assert (bvult %s %s))(check-sat)" % (x, y))
            run(b"(assert (= %s %s))(check-sat)" % (x, y))
    note("\nDigits of both cases: a term that is true only where each has its value.")
    for digit in range(16):
        for text in sorted({b"%x" % digit, b"%X" % digit}):
            run(b"(assert (= #x%s #b%s))(check-sat)" % (text, bin(digit)[2:].zfill(4).encode()))
            run(b"(assert (= #x0%s #b0000%s))(check-sat)" % (text, bin(digit ^ 8)[2:].zfill(4).encode()))
    note("\nTerms without a sort, and terms that aren't Bool.")
    for term in [b"#b1", b"#x0", b"(bvadd #b1 #b1)", b"(bvudiv #b1 #b1)", b"(bvadd #b1 #b01)", b"(bvadd true true)",
                 b"(bvudiv true #b1)", b"(= true #b1)", b"(= #b1 #b01)", b"(and #b1 #b1)", b"(or true #b1)",
                 b"(or #b1 true)", b"(not (not #b1))", b"(bvult true false)", b"(= (= #b1 #b1) #b1)",
                 b"(= (bvadd #b1 #x1) #b1)", b"(and (= #b1 #b01) true)", b"(bvult #x0000 #x00)"]:
        run(b"(check-sat) (assert " + term + b")(check-sat)")
    note("\nTerms and commands that aren't there, that have another shape, or that do something else.")
    for command in UNLIKE:
        run(b"(check-sat)\n" + command + b"(check-sat)")


def write_commands():
    note("\nEvery command, behind a check and in front of another.")
    for name, shapes in SHAPES.items():
        for arguments in shapes:
            run(b"(check-sat)(" + name + (b" " + arguments if arguments else b"") + b")(check-sat)")
    note("\nCommands behind others.")
    for script in STATES:
        run(script)
    note("\nEach prefix of a script of all commands, in pieces of some length.")
    for n in range(len(WHOLE) + 1):
        run(WHOLE[:n], give=1 + n % 13, take=1 + n % 7)
    note("\nEach byte at each place of a short script.")
    short = b"(push 1)(pop)"
    for place in range(len(short)):
        for b in range(256):
            run(short[:place] + bytes([b]) + short[place + 1:])
    note("\nEach fault of a term in each construct, in each command that has a term.")
    start = b"(declare-const p Bool)(declare-const q Bool)(declare-const x (_ BitVec 8))(define-fun f ((b Bool)) Bool (not b))(define-const t Bool true)(check-sat)"
    for kind, fault in elab_cases.FAULTS.items():
        if kind == "DepthLimit":
            continue
        for form, inner in elab_cases.around(fault):
            term = form.replace("{}", inner).encode()
            run(start + b"(assert " + term + b")")
        for command in ("(assert {})", "(assert (! {} :named n))", "(define-fun g () Bool {})", "(define-fun g ((b Bool)) Bool (and b {}))", "(define-const g Bool {})",
                        "(check-sat-assuming (true {}))", "(get-value (true {}))"):
            run(start + command.replace("{}", fault).encode())


# names of terms within terms
LABELS = [
    b"(declare-const a Bool)(assert (not (! a :named n)))(check-sat)(get-value (n a))(assert n)(check-sat)",
    b"(declare-const a (_ BitVec 8))(assert (= (! (bvadd a #x01) :named s) #x05))(check-sat)(get-value (s (bvmul s s)))",
    # used in the rest of its command, and before it; in another name; in its own term
    b"(declare-const a Bool)(assert (and (! a :named n) (=> n (! (not n) :named m))))(check-sat)(get-value (a))",
    b"(declare-const a Bool)(assert (or n (! a :named n)))(check-sat)(get-value (a n))",
    b"(declare-const a Bool)(assert (! (or (! a :named m) (not m)) :named n))(check-sat)(assert (not n))(check-sat)",
    b"(declare-const a Bool)(assert (not (! (or (! a :named m) m) :named n)))(check-sat)(get-value (m n))",
    b"(declare-const a Bool)(assert (not (! (or a n) :named n)))", b"(declare-const a Bool)(assert (and (! (not m) :named n) (! a :named m)))",
    # names that are taken
    b"(declare-const a Bool)(assert (not (! a :named a)))", b"(declare-const a Bool)(assert (and (! a :named n) (! a :named n)))(check-sat)",
    b"(declare-const a Bool)(assert (! (not (! a :named n)) :named n))", b"(define-fun f () Bool (! true :named f))", b"(assert (not (! true :named and)))",
    b"(assert (not (! zz :named true)))", b"(assert (not (! zz :named n)))", b"(assert (not (! true :named |a b|)))(assert |a b|)(check-sat)",
    b"(define-sort s () Bool)(assert (not (! false :named s)))(declare-const x s)(assert (= x s))(check-sat)(get-value (x))",
    # bound variables: of quantifiers, let and parameters, within the term and outside of it
    b"(assert (forall ((x Bool)) (or x (! (not x) :named n))))", b"(assert (forall ((x Bool)) (or x (! true :named n))))(assert n)(check-sat)",
    b"(assert (forall ((x Bool)) (or x (not (! (forall ((x Bool)) x) :named n)))))(assert n)(check-sat)",
    b"(assert (exists ((x Bool) (y Bool)) (! (and x (! y :named m)) :named n)))", b"(assert (exists ((x Bool)) (! (exists ((y Bool)) (and x (! y :named m))) :named n)))",
    b"(assert (let ((x true)) (! x :named n)))", b"(assert (let ((x (! true :named n))) (and x n)))(check-sat)", b"(assert (let ((x true)) (let ((y (! x :named n))) y)))",
    b"(declare-const x Bool)(assert (let ((x true)) (! x :named n)))", b"(declare-const x Bool)(assert (let ((y x)) (and y (! x :named n))))(check-sat)(get-value (n))",
    b"(assert (let ((x false)) (! (let ((x true)) x) :named n)))(check-sat)(get-value (n))", b"(assert (forall ((x Bool)) (let ((y x)) (! (let ((x y)) x) :named n))))",
    b"(define-fun f ((x Bool)) Bool (! x :named n))", b"(define-fun f ((x Bool)) Bool (and x (! true :named n)))(assert (and (f true) n))(check-sat)",
    b"(declare-const x Bool)(define-fun f ((x Bool)) Bool (and x (! (exists ((x Bool)) x) :named n)))(assert (not (= n (f x))))(check-sat)(get-value (x n))",
    b"(define-const c Bool (not (! false :named n)))(assert (and c (not n)))(check-sat)", b"(define-fun bvf ((bvf Bool)) Bool (! (bvf true) :named n))",
    b"(define-fun f ((b Bool)) Bool b)(assert (let ((f true)) (! (f true) :named n)))(check-sat)(get-value (n))",
    b"(assert (forall ((x Bool)) (! (= #b1 ((_ extract 0 0) #b01)) :k x :named n)))(assert n)(check-sat)",
    b"(assert (forall ((x (_ BitVec 2))) (! (exists ((y (_ BitVec 2))) (= y #b00)) :pattern ((! x :named p)) :named n)))(check-sat)(assert p)",
    # in each command that has terms
    b"(check-sat-assuming ((! false :named n) (not (! true :named m))))(check-sat-assuming (n))(check-sat-assuming ((not n) m))",
    b"(check-sat)(get-value ((! true :named n) (not (! #b1 :named m))))", b"(check-sat)(get-value ((! true :named n) (bvnot (! #b1 :named m))))(get-value (n m))(assert n)(check-sat)",
    b"(get-value ((! true :named n)))", b"(check-sat)(get-value ((! (forall ((b Bool)) b) :named n)))", b"(check-sat-assuming ((! #x0 :named n)))", b"(check-sat-assuming (! true :named n))",
    # a command that is refused leaves nothing; levels and global names
    b"(push)(assert (not (! false :named n)))(check-sat)(pop)(declare-const n Bool)(assert (not n))(check-sat)(get-value (n))",
    b"(set-option :global-declarations true)(push)(assert (not (! false :named n)))(pop)(assert n)(check-sat)(reset-assertions)(get-value (n))",
    b"(set-option :global-declarations true)(push)(check-sat-assuming ((! true :named n)))(pop)(reset-assertions)(check-sat)(get-value (n))",
    b"(set-logic QF_BV)(check-sat-assuming ((! true :named n)))(set-logic QF_BV)", b"(assert (not (! true :named)))", b"(assert (not (! true :named a :named b)))", b"(assert (not (!)))",
]


def write_labels():
    note("\nNames of terms within terms.")
    for script in LABELS:
        run(script)


def write_faults():
    note("\nFaults at their places, behind comments and every kind of white space.")
    faults = [b"; x\n(check-sat)", b"(check-sat))", b"(check-sat) 007", b"(check-sat) x", b"(check-sat)\n x)",
              b"(check-sat) (assert true", b"(check-sat)(assert {", b"(check-sat)(assert #", b"(assert #c)",
              b"(assert : x)", b'(echo "a""b)', b"(echo |a b)", b"(echo |a\\b|)", b"(assert #x)",
              b"(assert (= #b2 #b0))", b"(push 00)", b"; no line end (",
              b"(check-sat);(\r)", b"(check-sat) ; a\r\n; b\n\t(check-sat) ,", b" \t\r\n)", b"\t\t|a|", b" :k", b' ""',
              b" #b1", b" 0", b" 1.5", b" let", b"(check-sat)1.", b"(check-sat)12.x", b"(check-sat)#b12",
              b"(check-sat)#x", b"(check-sat)(a 1.)(check-sat)", b"(a 1.x)", b"(a 01.5)", b"(a 0.50)", b"(a #b)",
              b"(a #xg)", b"(a #B1)", b"(a :1)", b"(a ::a)", b"(a :a:b)", b'(a "\n")', b'(a "', b'(a """)', b'(a """")',
              b"(a |\n|)", b"(a |", b"(a ||)", b"(a \\)", b"(a 'b)", b"(a [)", b"(a \x80)", b'(a "\x80\xff")',
              b"(a |\x80|)", b"; \x80\n(check-sat)", b"(a;)\n)", b"(check-sat)(((", b"(check-sat)\n\n(a (b) (c",
              b"(check-sat) )", b"(a))"]
    for text in faults:
        run(text)
    note("\nThe same in pieces, byte by byte and three bytes at a time.")
    for text in faults:
        run(text, give=1, take=1)
        run(text, give=3, take=2)
    note("\nEach byte alone, and each in a command.")
    for b in range(256):
        run(bytes([b]))
    for b in range(256):
        run(b"(check-sat)(a" + bytes([b]) + b"a)", give=7)


def write_cuts():
    note("\nA script with every kind of token, in pieces of each length.")
    for give in list(range(1, 20)) + [50, 101, 102, 103]:
        run(TOKENS, give=give)
    note("\nIts prefixes.")
    for n in range(len(TOKENS) + 1):
        run(TOKENS[:n])
    note("\nThe prefixes of a division by zero.")
    for n in range(len(DIVISION) + 1):
        run(DIVISION[:n])
    note("\nThe prefixes of a script with four answers and a fault, in pieces of five bytes.")
    script = b"(check-sat)(assert (or false (not false)))(check-sat);\n(assert (= #b0 #b1))(check-sat)\n(check-sat)(pop 1)"
    for n in range(len(script) + 1):
        run(script[:n], give=5, take=3)


def write_failing():
    note("\nEach call of a source that gives a byte at a time fails in turn.")
    calls, _, _ = run(ANSWERED, give=1)
    for k in range(1, calls + 1):
        run(ANSWERED, give=1, give_fails=[k])
    note("\nEach call of a sink that takes three bytes at a time fails in turn.")
    _, calls, _ = run(ANSWERED, take=3)
    for k in range(1, calls + 1):
        run(ANSWERED, take=3, take_fails=[k])
    note("\nThe same where a refusal is printed, and over std's reader and writer.")
    refused = b"(check-sat) (check-sat)\n(assert #x0)(check-sat)"
    calls, _, _ = run(refused, give=4, std=True)
    for k in range(1, calls + 2):
        run(refused, give=4, give_fails=[k], std=True)
    _, calls, _ = run(refused, take=3)
    for k in range(1, calls + 2):
        run(refused, take=3, take_fails=[k], std=True)
    note("\nTwo failing calls: the first ends the run.")
    run(ANSWERED, give=16, give_fails=[2, 3])
    run(ANSWERED, give=16, give_fails=[3], take=3, take_fails=[2])
    run(ANSWERED, give=16, give_fails=[2], take=3, take_fails=[4])
    run(b"(check-sat)\n(assert false)\n", give=16, give_fails=[2])
    run(b"(check-sat)", take_fails=[1])
    run(DIVISION, take_fails=[1])
    run(b"", give_fails=[1])
    run(b"(pop 1)", take_fails=[1])
    run(b"(check-sat)(", give=12, give_fails=[2])
    note("\nA sink with room for so many bytes.")
    for room in range(0, 21):
        run(ANSWERED, room=room, take=3)
    for room in range(0, 45, 4):
        run(refused, room=room)


def write_long():
    note("\nLong texts: deep terms, many parentheses, long tokens.")

    def long(shown, text, **how):
        run(text, shown='"' + shown + '"', **how)

    for depth in (10, 9998, 9999, 10000):
        long("(assert \\{%d:(not }true\\{%d:)})(check-sat)" % (depth, depth),
             b"(assert " + b"(not " * depth + b"true" + b")" * depth + b")(check-sat)")
    for depth in (4000, 999998, 999999, 1000000):
        long("(push \\{%d:(}\\{%d:)})" % (depth, depth), b"(push " + b"(" * depth + b")" * depth + b")")
        long("(push \\{%d:(}\\{%d:)})" % (depth, depth), b"(push " + b"(" * depth + b")" * depth + b")",
             give=1000)
    for depth in (4000, 1000000, 1000001):
        long("\\{%d:(}" % depth, b"(" * depth)
    for n in (4095, 4096, 4097, 8192):
        long("\\{%d: }(check-sat)" % n, b" " * n + b"(check-sat)")
        long("(check-sat);\\{%d:x}\\n)" % n, b"(check-sat);" + b"x" * n + b"\n)")
        long("(\\{%d:a} \\\"\\{%d:b}\\\")" % (n, n), b"(" + b"a" * n + b' "' + b"b" * n + b'")')
        long("(check-sat)\\{%d:9}" % n, b"(check-sat)" + b"9" * n)
    for n in (128, 129):
        long("(assert (= #b\\{%d:0} #b\\{%d:0}))(check-sat)" % (n, n),
             b"(assert (= #b" + b"0" * n + b" #b" + b"0" * n + b"))(check-sat)")
    for n in (32, 33):
        long("(assert (= #x\\{%d:f} #x\\{%d:f}))(check-sat)" % (n, n),
             b"(assert (= #x" + b"f" * n + b" #x" + b"f" * n + b"))(check-sat)")
    long("\\{300:(check-sat)}", b"(check-sat)" * 300, give=11, take=1000)
    long("\\{300:(check-sat)}", b"(check-sat)" * 300, give=11, room=999)
    run(b"\x00\xff\x80")


def random_term(rng, width, depth):
    """A term of this width (0 is Bool), now and then with one argument of another sort."""
    if rng.random() < 0.01:
        width = rng.choice([0, 1, 2, 4, 5])
    if depth == 0 or rng.random() < 0.2:
        if width == 0:
            return rng.choice([b"true", b"false", b"|true|"])
        value = rng.choice([0, 1, 2**width - 1, rng.randrange(2**width)])
        if width % 4 == 0 and rng.random() < 0.7:
            return b"#x%0*x" % (width // 4, value)
        return b"#b" + bin(value)[2:].zfill(width).encode()
    gap = rng.choice([b" ", b" ", b"\n", b"\t ", b" ;c\n"])
    if width == 0:
        operator = rng.choice([b"not", b"and", b"or", b"=", b"bvult", b"=", b"bvult"])
        inner = 0 if operator in (b"not", b"and", b"or") else rng.choice([1, 4, 8, 16, 33, 64, 127, 128])
        count = 1 if operator == b"not" else 2
    else:
        operator, inner, count = rng.choice([b"bvadd", b"bvudiv"]), width, 2
    return b"(" + operator + gap + gap.join(random_term(rng, inner, depth - 1) for _ in range(count)) + b")"


def write_random():
    note("\nScripts by a fixed seed, in pieces of some length.")
    rng = random.Random(20)
    for _ in range(150):
        commands = [b"(assert " + random_term(rng, 0, rng.randrange(1, 5)) + b")" if rng.random() < 0.6
                    else b"(check-sat)" for _ in range(rng.randrange(2, 7))]
        run(b"\n".join(commands) + b"(check-sat)", give=rng.choice([1, 2, 3, 7, 16, 64, 4096]),
            take=rng.choice([1, 2, 3, 4096]))


def write_words():
    note("\nWords, with what is planned and what a run makes of them over (check-sat).")
    words(b"solve", b"a", b"b")
    words(b"solve", b"x.smt2", b"-")
    words(b"solve", b"-", b"-")
    words(b"solve", b"", b"")
    words(b"solve", b"solve", b"solve")
    words(b"solve", b"--conflicts", b"5")
    words(b"check", b"x.smt2", b"-")
    words(b"check", b"", b"-")
    words(b"check", b"check", b"check")
    words(b"lrat", b"x.cnf", b"-")
    words(b"lrat", b"-", b"x.lrat")
    words(b"lrat", b"lrat")
    words(b"trim", b"x.smt2", b"x.cert", b"y.cert")
    words(b"trim", b"-", b"-", b"")
    words(b"trim", b"x", b"y", b"-")
    words(b"trim", b"x", b"y")
    words(b"trim", b"trim", b"trim", b"trim")
    words(b"clauses", b"x.smt2", b"x.cert")
    words(b"clauses", b"-", b"-")
    words(b"clauses", b"clauses", b"", b"--places", b"5")
    words(b"clauses", b"x", b"y", b"z")
    words(b"clauses", b"x")
    words(b"qsolve", b"x.qdimacs", b"-")
    words(b"qsolve", b"-", b"x.cert", b"--stats", b"--conflicts=5")
    words(b"qsolve", b"qsolve", b"qsolve", b"--instances", b"0")
    words(b"qsolve", b"a")
    words(b"qcheck", b"-", b"x.cert")
    words(b"qcheck", b"qcheck", b"-")
    words(b"qcheck", b"a", b"b", b"--stats")
    words(b"solve", "a \u00e4".encode(), b"b\nc")
    words()
    for one in (b"solve", b"", b"-", b"check", b"--help", b"--version", b"gen"):
        words(one)
        words(one, b"a")
        words(one, b"a", b"b", b"c")
    for one in (b"", b"Solve", b"SOLVE", b" solve", b"solve ", b"solv", b"solves", b"check", b"Check", b"checks", b"check ", b"gen", b"bench", b"qbv",
                b"solve\n", b"\x00", b"--solve"):
        words(one, b"a", b"b")
    words(b"help")
    words(b"-h", b"a")
    words(b"--version", b"--help")
    words(b"a", b"--variables", b"5")
    words(b"a", b"--variables", b"0")
    words(b"a", b"--help")
    words(b"a", b"solve", b"b")
    words(b"a", b"b", b"solve")
    words(b"a", b"check", b"b")
    words(b"check", b"solve", b"solve", b"--conflicts", b"5")
    words(b"solve", b"a", b"b", b"--conflicts", b"5")
    words(b"gen", b"1")
    words(b"gen", b"0")
    words(b"gen", b"2")
    words(b"bench", b"0")
    words(b"bench", b"1")
    words(b"bench", b"2")
    words(b"gen", b"100001")
    words(b"bench", b"1001")
    words(b"solve", b"a")
    words(b"solve", b"a", b"b", b"--conflicts", b"0")
    words(b"solve", b"a", b"b", b"--variables=1", b"--instances=1", b"--conflicts=1")
    words(b"solve", b"a", b"b", b"--check")
    words(b"a", b"--verbose", b"--check", b"--stats")
    words(b"solve", b"a", b"b", b"--places=1", b"--check")
    words(b"a", b"--places", b"1000000")
    words(b"a", b"--places", b"1000001")
    words(b"check", b"a", b"b", b"--places", b"1")
    words(b"check", b"a", b"b", b"--places", b"0")
    words(b"check", b"a", b"b", b"--check")
    words(b"trim", b"a", b"b", b"c", b"--places=7")
    words(b"qsolve", b"a", b"b", b"--places", b"1")
    words(b"qsolve", b"a", b"b", b"--check")
    words(b"qcheck", b"a", b"b", b"--places=1")
    words(b"lrat", b"a", b"b", b"--places=1")
    note("\nThe usage line, a page and a script alone over sinks that take pieces, fail and are full.")
    words(b"-x", take=1)
    words(b"-x", take=3)
    pieces = (len(USAGE) + 2) // 3
    for k in (1, 2, pieces, pieces + 1):
        words(b"-x", take=3, take_fails=[k])
    for room in (0, 1, len(USAGE) - 1, len(USAGE)):
        words(b"-x", room=room)
    words(b"--version", take=1)
    words(b"--version", take_fails=[1])
    words(b"help", take=3, take_fails=[5])
    for room in (0, 1, 43, 44):
        words(b"--version", room=room)
    words(b"x", take_fails=[1])
    words(b"solve", b"a", b"b", take_fails=[1])
    words(b"solve", b"a", b"b", take=3, take_fails=[2])
    words(b"check", b"a", b"b", take_fails=[1])
    words(b"check", b"a", b"b", take=3, take_fails=[2])
    words(b"lrat", b"a", b"b", take_fails=[1])
    words(b"lrat", b"a", b"b", take=3, take_fails=[2])
    for command in (b"trim", b"a", b"b", b"c"), (b"clauses", b"a", b"b"), (b"qsolve", b"a", b"b"), (b"qcheck", b"a", b"b"):
        words(*command, take_fails=[1])
        words(*command, take=3, take_fails=[2])
    words(b"gen", b"1", take_fails=[1])
    words(b"gen", b"1", take=20, take_fails=[3])
    words(b"gen", b"1", room=100)
    words(b"bench", b"1", take_fails=[1])
    words(b"bench", b"1", take=5, take_fails=[2])
    words(b"bench", b"1", room=20)


def write_objects():
    note("\nSources: the calls ask for so many bytes; behind each stands the buffer, which is kept.\n"
         "Over memory, over a reader of std that fails at the same calls for good, or is interrupted there, and over a slice and a cursor.", OBJECTS)
    source_cases(b"abcdefg", [5, 5, 5, 2, 5, 5], give=3, fails=[2, 3])
    source_cases(b"(exit)", [4, 4, 4])
    source_cases(b"(exit)", [8, 8])
    source_cases(b"", [4, 0, 4])
    source_cases(b"abc", [0, 1, 0, 1, 1, 1, 1])
    source_cases(b"abcdefghijk", [8, 3, 8, 8], give=2)
    for k in range(1, 6):
        source_cases(b"abcdefgh", [3, 3, 3, 3, 3], give=2, fails=[k])
    source_cases(b"abcdef", [2, 2, 2, 2, 2, 2], fails=[1, 2, 4])
    source_cases(b"ab", [1, 1, 1, 1], fails=[3])
    note("\nA source without a reader.", OBJECTS)
    for sizes in ([4], [4, 0], [1, 2, 3]):
        out = ("failed %s " % quoted(b"." * 8)) * len(sizes)
        case("no-source", {"sizes": listed(sizes)}, [], out + "faults=%d" % len(sizes))
    note("\nSinks: what each call takes of its piece. Over memory; over a writer of std that fails at the\n"
         "same calls, to which the pieces are then written whole; and whole pieces over memory.", OBJECTS)
    sink_cases([b"abcdef", b"def", b"de", b""], take=3, room=9, fails=[2])
    sink_cases([b"abc", b"def", b"ef", b"", b"ef"], take=3, room=4)
    sink_cases([b"sat\nunsat\n", b""], take=3, room=20)
    sink_cases([b"unknown\n"], take=3, room=20, fails=[3])
    sink_cases([b"unknown\n"], take=3, room=5)
    sink_cases([b"sat\n", b"unsat\n", b"sat\n"], take=4)
    sink_cases([b""], room=0)
    sink_cases([b"a"], room=0)
    sink_cases([b"", b"", b"a"], fails=[1, 2])
    for k in range(1, 7):
        sink_cases([b"abcde", b"fg", b"h"], take=2, fails=[k])
    for room in range(0, 9):
        sink_cases([b"abcde", b"fg", b"h"], take=2, room=room)
    note("\nA sink without a writer, sinks over a slice, and one that keeps nothing.", OBJECTS)
    for pieces in ([b"sat\n"], [b"sat\n", b""], [b"", b"a", b"b"]):
        case("no-sink", {}, [quoted(p) for p in pieces], "failed " * len(pieces) + "faults=%d" % len(pieces))
    slice_sink([b"sat\n", b"", b"t\n"], 2)
    slice_sink([b"sat\n", b"a"], 8)
    slice_sink([b"a"], 0)
    slice_sink([b""], 0)
    slice_sink([b"abc", b"de", b"f", b"g"], 5)
    null_sink([b"sat\n"])
    null_sink([b"", b"abc", b""])
    note("\nThe bytes of a source at which its limit is met, and the bytes that a call asks for.", OBJECTS)
    case("limits", {}, [], "%d %d" % (2**62 - 4096, 4096))


# --- scripts with a solver ----------------------------------------------------------------------

STATISTICS = b"(get-info :all-statistics)"
ODD = b"(declare-const q (_ BitVec 3))(assert (= (bvadd q q) (_ bv5 3)))(check-sat)"
EXCLUSIVE = b"(declare-const p (_ BitVec 3))(declare-const q (_ BitVec 3))(assert (not (= (bvsub (bvor p q) (bvand p q)) (bvxor p q))))(check-sat)"
SAT, UNSAT = Known("sat"), Known("unsat")
REASON = b"(get-info :reason-unknown)"


def spent(kind):
    return Known("unknown", spent=kind)


def bits(width):
    return b"(_ BitVec %d)" % width


def closed(width, prefix, body):
    """A check of a body below quantifiers over x, y, z, .., of one width."""
    for place, quantifier in reversed(list(enumerate(prefix))):
        body = b"(%s ((%c %s)) %s)" % ({"A": b"forall", "E": b"exists"}[quantifier], b"xyzuv"[place], bits(width), body)
    return b"(assert %s)(check-sat)" % body


def greatest(width):
    return closed(width, "EA", b"(bvuge x y)")


def below_zero(width):
    return closed(width, "AE", b"(bvult y x)")


def three_levels(width):
    return closed(width, "AEA", b"(bvule (bvand y z) x)")


def pigeons(birds, holes):
    names = [[b"p%d%d" % (b + 1, h + 1) for h in range(holes)] for b in range(birds)]
    text = b"".join(b"(declare-const %s Bool)" % name for row in names for name in row)
    text += b"".join(b"(assert (or %s))" % b" ".join(row) for row in names)
    return text + b"".join(b"(assert (not (and %s %s)))" % (names[b][h], names[c][h]) for h in range(holes) for b in range(birds) for c in range(b)) + b"(check-sat)"


BOTH = b"(declare-const p Bool)(assert p)(assert (not p))(check-sat)"
# A pass takes the conjunction away, so its final list has other clauses than its query list.
TWICE = b"(declare-const p Bool)(declare-const q Bool)(assert (and (or p q) (or p (not q)) (or (not p) q) (or (not p) (not q))))(check-sat)"
ONE = b"(declare-const p Bool)(assert p)(check-sat)"
# Of formulas with quantifiers no check offers values to the next.
QUANTIFIED = b"(assert (forall ((q Bool)) (or p q)))"
# The remainder of a negated number is the negated remainder.
REMAINDERS = (b"(declare-const x (_ BitVec 9))(declare-const y (_ BitVec 9))(assert (distinct (ite (= x (bvneg x)) x (bvsrem (bvneg x) y))"
              b" (ite (= x (bvneg x)) x (bvneg (bvsrem x y)))))(check-sat)")
SUCCESSOR = (b"(set-info :status unsat)(set-logic BV)(declare-fun x () (_ BitVec 32))(assert (let ((?v_0 (bvadd x #x00000001))) (= ?v_0 x)))"
             b"(check-sat)(exit)")


def write_worked():
    note("\nThe worked scripts. A program that runs through values doesn't come to the end of the first.")
    run(closed(128, "AE", b"(= y (bvnot x))"), instances=10, known=numbered(SAT))
    run(greatest(8))
    run(below_zero(8))
    run(below_zero(8) + REASON, instances=1, known=numbered(spent("instances")))
    run(three_levels(4))
    run(b"(assert (forall ((x (_ BitVec 2))) (exists ((y (_ BitVec 2))) (and (= ((_ extract 0 0) x) #b1) (= ((_ extract 0 0) y) #b0)))))(check-sat)")
    run(pigeons(5, 4) + REASON, conflicts=1, known=numbered(spent("conflicts")))
    run(pigeons(5, 4), known=numbered(UNSAT))
    run(b"(pop 1)")
    run(b"(declare-const a (_ BitVec 129))")
    run(b"(check-sat)(check-sat)(push 1)(assert false)(check-sat)(pop 1)(check-sat)")
    run(b"(assert (= (forall ((p Bool)) p) (exists ((q Bool)) (not q))))(check-sat)")
    run(b"(define-fun h ((p (_ BitVec 4))) Bool (exists ((y (_ BitVec 4))) (distinct y p)))(define-fun g ((a (_ BitVec 4))) (_ BitVec 4) (bvadd a #x1))"
        b"(assert (forall ((x (_ BitVec 4))) (h x)))(assert (= (g (g #x1)) #x3))"
        b"(assert (let ((f (exists ((y (_ BitVec 4))) (= y #x3)))) (and f (forall ((x (_ BitVec 4))) (=> f (bvule x #xf))))))(check-sat)", known=numbered(SAT))
    run(b"(check-sat)\n(assert false)\n", give=16, give_fails=[2])
    concat = b"(declare-const a (_ BitVec 64))(declare-const b (_ BitVec %d))(assert (= (concat a b) (concat a b)))(check-sat)"
    run(concat % 65)
    run(concat % 64, known=numbered(SAT))
    run(b"(declare-const a (_ BitVec 8))(declare-const p Bool)(assert (= a #x2a))(assert (not p))(check-sat)(get-value (a (bvadd a #x01) p))(get-model)")
    run(b"(assert (and (= (bvsdiv #xfb #x03) #xff) (= (bvsrem #xfb #x03) #xfe) (= (bvsmod #xfb #x03) #x01) (= (bvsmod #x05 #xfd) #xff)))(check-sat)")
    run(b"(get-unsat-core)")
    run(SUCCESSOR, known=numbered(UNSAT))
    run(SUCCESSOR, variables=100, known=numbered(UNSAT))
    note("\nGates of two circuits that are equal: without questions about them the search takes over 10,000 conflicts.")
    run(REMAINDERS, conflicts=6000, known=numbered(UNSAT))
    note("\nPlaces up to the limit on prefixes, and one more.")
    for count in (4096, 4097):
        made = b"".join(b"(declare-const a%d Bool)(assert a%d)" % (n, n) for n in range(count)) + b"(check-sat)"
        run(made, shown='"\\[%d:(declare-const a@ Bool)(assert a@)](check-sat)"' % count, known=numbered(SAT) if count == 4096 else None, give=4000)


def write_budgets():
    note("\nBudgets of 1, and the least that do. Where p and its negation are asserted, instances are spent in the tree; four clauses\n"
         "over two constants need two conflicts in a query.")
    for kind, text in (("conflicts", TWICE), ("instances", BOTH), ("variables", TWICE)):
        run(b"(check-sat)(assert false)(check-sat)", **{kind: 1})
        run(text + REASON, known=numbered(spent(kind)), **{kind: 1})
    run(b"(check-sat)(assert false)(check-sat)", conflicts=1, instances=1, variables=1)
    run(ONE, conflicts=1, instances=1)
    run(ONE, variables=2)
    run(ONE + REASON, variables=1, known=numbered(spent("variables")))
    run(BOTH, conflicts=1, instances=2)
    run(TWICE, conflicts=2, instances=3)
    run(greatest(8) + REASON, instances=1, known=numbered(spent("instances")))
    note("\nEach check has its own budget, and the last answer has its own reason.")
    run(BOTH.replace(b"(check-sat)", b"(check-sat)" * 3) + b"(push)(pop)(check-sat)" + REASON, conflicts=1)
    twice = b"(declare-const p Bool)(push)(assert p)(check-sat)" + REASON + b"(pop)(check-sat)" + QUANTIFIED + b"(check-sat)" + REASON
    run(twice, variables=1, known={1: spent("variables"), 3: spent("variables")})
    note("\nA later check without quantifiers takes values that are offered, where it has four formulas, and needs no clauses for them.")
    run(ONE.replace(b"(assert p)", b"(assert p)" * 4) + b"(check-sat)(get-value (p))", variables=1, known={1: spent("variables")})
    run(b"(declare-const p Bool)(assert (= p p))(check-sat-assuming ((not p)))" + REASON + REASON + b"(get-info :name)" + REASON,
        variables=1, known=numbered(spent("variables")))
    for between in (b"(assert true)", b"(push)", b"(pop)", b"(push 0)", b"(declare-const q Bool)", b"(define-fun q () Bool p)", b"(reset)", b"(reset-assertions)",
                    b"(get-model)", b"(get-value (p))", b"(check-sat-assuming (true))", b"(echo \"\")", b"(set-option :print-success true)"):
        run(b"(push)" + ONE.replace(b"(assert p)", QUANTIFIED) + between + REASON, variables=1, known=numbered(spent("variables"), spent("variables")))
    note("\nA script's own limit of conflicts: the lesser of it and the budget, 0 for none, as it was set last.")
    limit = b"(set-option :reproducible-resource-limit %d)"
    run(limit % 1 + TWICE + REASON, known=numbered(spent("conflicts")))
    run(limit % 0 + TWICE)
    run(limit % 1000 + TWICE + REASON, conflicts=1, known=numbered(spent("conflicts")))
    run(limit % 2**70 + TWICE)
    run(TWICE.replace(b"(check-sat)", b"(check-sat)" + limit % 1 + b"(check-sat)" + REASON + limit % 0 + b"(check-sat)" + limit % 2**128 + b"(check-sat)"), known={2: spent("conflicts")})
    run(limit % 1 + b"(get-option :reproducible-resource-limit)(reset)(get-option :reproducible-resource-limit)" + TWICE)
    note("\nWhat the last check was charged for: nothing before a check, and behind a reset.")
    run(b"(get-info :all-statistics)(check-sat)")
    run(b"(check-sat)(assert false)(reset)(get-info :all-statistics)(check-sat)")
    run(b"(set-option :print-success true)(get-info :all-statistics)(get-info :all-statistics :name)")
    note("\nBehind a check: with one conflict or instance less its budget is spent, and the variables are those of the clauses that its section "
         "refutes,\nby the reference of the certificates. An unknown section refutes none.")
    run(b"(check-sat)" + STATISTICS + b"(assert false)" + STATISTICS + b"(check-sat)" + STATISTICS, known=numbered(Known("sat", counts=(1, 0, 1)), Known("unsat", counts=(1, 0, 1))))
    run(ODD + STATISTICS, known=numbered(Known("unsat", counts=(1, 2, 1))))
    run(EXCLUSIVE + STATISTICS, known=numbered(Known("unsat", counts=(16, 3, 30))))
    run(EXCLUSIVE + STATISTICS, conflicts=16, instances=3, known=numbered(Known("unsat", counts=(16, 3, 30))))
    run(EXCLUSIVE + REASON, conflicts=15, known=numbered(spent("conflicts")))
    run(EXCLUSIVE + REASON, instances=2, known=numbered(spent("instances")))
    run(ONE + STATISTICS, variables=1, known=numbered(Known("unknown", spent="variables", counts=(0, 0, 0))))
    note("\nBudgets from 1 on: what is said, where it differs from the budget before. One is spent in a query or in the tree.", SERIES)
    for kind, most, text, answer in [("conflicts", 4, TWICE, UNSAT), ("instances", 4, BOTH, UNSAT), ("variables", 24, TWICE, UNSAT), ("variables", 8, ONE, SAT),
                                     ("conflicts", 60, pigeons(4, 3), UNSAT), ("instances", 16, greatest(3), SAT), ("instances", 16, below_zero(3), UNSAT),
                                     ("instances", 16, three_levels(2), SAT), ("variables", 64, greatest(3), SAT), ("variables", 64, below_zero(3), UNSAT),
                                     ("variables", 64, three_levels(2), SAT), ("conflicts", 8, three_levels(2), SAT)]:
        each(kind, most, text + REASON, numbered(spent(kind)), numbered(answer))
    each("conflicts", 3, ONE, numbered(SAT))


def write_certificates():
    note("\nA certificate for which there is room for 0 bytes, for 1, and so on: what is said, where it differs from the byte before.", SERIES)
    fronts(b"")
    fronts(b"(pop 1)")
    fronts(b"(echo \"a\")(exit)(")
    fronts(b"(check-sat)")
    fronts(b"(check-sat)(assert false)(check-sat)(pop 1)")
    fronts(b"(set-option :print-success true)(declare-const p Bool)(assert p)(check-sat)(echo \"b\")(get-value (p))(check-sat-assuming ((not p)))(push)(check-sat)")
    fronts(b"(declare-const p Bool)" + QUANTIFIED + b"(check-sat)" + REASON + b"(push)(check-sat)(echo \"c\")(get-model)", variables=1,
           known=numbered(spent("variables"), spent("variables")))
    fronts(below_zero(1) + b"(reset)" + greatest(1) + b"(check-sat)")
    note("\nThe same by the calls of its sink, of which the first writes the first line.")
    script = ONE + b"(check-sat-assuming (p))(echo \"a\")(assert (not p))(check-sat)(pop 1)"
    _, writes, calls = run(script)
    for k in range(1, calls + 2):
        run(script, cert_fails=[k])
        run(script, cert_fails=[k], take_fails=[k])
        run(script, cert_fails=[k], std=True)
    note("\nA script that fails between a section and its answer.")
    for k in range(1, writes + 2):
        run(script, take_fails=[k])
        run(script, take_fails=[k], take=2)
        run(script, take_fails=[k], std=True)
    note("\nSections of unknown answers, whose bytes are known.")
    undecided = b"(declare-const p Bool)" + QUANTIFIED + b"(check-sat)(echo \"a\")(check-sat)"
    known = numbered(spent("variables"), spent("variables"))
    for room in (0, 1, 10, 11, 12, 31, 32, 33, 52, 53, 54):
        run(undecided, cert_room=room, variables=1, known=known)
        run(undecided, cert_room=room, cert_take=3, variables=1, known=known, std=True)
    for k in range(1, 20):
        run(undecided, cert_take=3, cert_fails=[k], variables=1, known=known)
    note("\nA source that fails behind a section.")
    for k in range(1, 10):
        run(undecided, give=10, give_fails=[k], variables=1, known=known)


# what has one model: the declarations, the assertions, and what is asked
MODELS = [
    (b"(declare-const a (_ BitVec 4))", b"(assert (= (bvmul a #x3) #x7))", b"(a (bvnot a) (bvult a #x5))"),
    (b"(declare-const a (_ BitVec 5))(declare-const b (_ BitVec 5))", b"(assert (= (bvadd a b) #b00000))(assert (bvult a #b00010))(assert (distinct a #b00000))", b"(a b)"),
    (b"(declare-const p Bool)(declare-const q Bool)(declare-const r Bool)", b"(assert (not (=> p q)))", b"(p q r (xor p q) (= r q))"),
    (b"(declare-const |x y| (_ BitVec 3))(declare-const q Bool)", b"(assert (forall ((z (_ BitVec 3))) (bvuge |x y| z)))", b"(|x y| ((_ extract 2 1) |x y|))"),
    (b"(declare-const a (_ BitVec 6))", b"(assert (exists ((z (_ BitVec 6))) (= (bvadd z #b000001) #b000000)))(assert (= a (bvneg #b000001)))", b"(a (concat a a))"),
    (b"(declare-const a (_ BitVec 2))(declare-const b (_ BitVec 2))", b"(assert (let ((c (bvand a b))) (= c #b11)))", b"(a b (ite (= a b) #b0 #b1))"),
]

# what has many
MANY_MODELS = [
    (b"(declare-const a (_ BitVec 8))(declare-const b (_ BitVec 8))", b"(assert (bvult a b))(check-sat)(get-value (a b (bvadd a b) (bvult b a)))"),
    (b"(declare-const a (_ BitVec 4))", b"(assert (bvugt a #x3))(check-sat-assuming (true))(get-value (a (bvlshr a #x1)))"),
    (b"(declare-const p Bool)(declare-const q Bool)(declare-const |r s| (_ BitVec 3))", b"(assert (or p q))(assert (distinct |r s| #b000))(check-sat)(get-value ((and p q) |r s|))"),
    (b"(declare-fun a () (_ BitVec 6))(declare-fun b () (_ BitVec 6))", b"(assert (= (bvmul a b) #b001111))(assert (distinct a #b000001))(check-sat)(get-value (a b (bvmul a b)))"),
    (b"(declare-const a (_ BitVec 3))", b"(assert (exists ((x (_ BitVec 3))) (and (bvult a x) (forall ((y (_ BitVec 3))) (=> (bvult y a) (bvult y x))))))(check-sat)(get-value (a))"),
    (b"(declare-const a (_ BitVec 4))(declare-const b (_ BitVec 4))", b"(push)(check-sat-assuming ((distinct a b) (distinct (bvand a b) #x0)))(get-value (a b (bvand a b)))"),
]


def write_models():
    note("\nValues and models, where there is one.")
    for declared, asserted, terms in MODELS:
        run(declared + asserted + b"(check-sat)(get-value " + terms + b")(get-model)")
    run(b"(declare-const p Bool)(declare-const q Bool)(assert (or p q))(check-sat-assuming ((not p)))(get-model)(check-sat-assuming ((not q)))(get-model)"
        b"(check-sat-assuming ((not p) (not q)))(get-model)")
    run(b"(declare-const p Bool)(check-sat-assuming (p))(get-value (p))(check-sat-assuming ((not p)))(get-value (p))(check-sat-assuming (p (not p)))(check-sat)(get-model)")
    note("\nA constant that occurs in no assertion in force is 0, whatever it was before.")
    run(b"(declare-const a (_ BitVec 8))(declare-const p Bool)(push)(assert (= a #xff))(assert p)(check-sat)(get-model)(pop)(check-sat)(get-model)")
    run(b"(declare-const a (_ BitVec 8))(check-sat-assuming ((= a #x11)))(get-value (a))(check-sat)(get-value (a))")
    run(b"(declare-const a (_ BitVec 8))(declare-const b (_ BitVec 8))(push)(assert (= b #x01))(check-sat)(pop)(push)(assert (= a #x02))(check-sat)(get-model)")
    run(b"(declare-const a (_ BitVec 8))(assert (= a #x02))(check-sat)(reset-assertions)(declare-const b Bool)(declare-const a (_ BitVec 4))(check-sat)(get-model)")
    run(b"(declare-const a (_ BitVec 8))(assert (= a #x02))(check-sat)(get-model)(reset)(declare-const a (_ BitVec 8))(check-sat)(get-model)")
    run(b"(push)(declare-const a Bool)(declare-const b Bool)(assert b)(check-sat)(get-model)(pop)(declare-const c (_ BitVec 2))(assert (= c #b10))(check-sat)(get-model)")
    note("\nWhat `get-value` refuses behind a model.")
    run(ONE + b"(get-value (p (forall ((x Bool)) x)))")
    run(ONE + b"(get-value (p z))")
    run(BOTH + b"(get-value (p))")
    run(BOTH + b"(get-model)")
    note("\nWhere there are many models: the first line, and that the rest comes again where the model's definitions stand for the declarations.", SERIES)
    for declared, rest in MANY_MODELS:
        model(declared, rest)
    known = numbered(SAT)
    model(b"(declare-const a (_ BitVec 128))(declare-const b (_ BitVec 128))", b"(assert (bvult a b))(assert (bvugt (bvsub b a) #x%032x))(check-sat)(get-value (a b))" % (2**100), known)
    model(pigeons(4, 4).split(b"(assert")[0], b"(assert" + pigeons(4, 4).split(b"(assert", 1)[1] + b"(get-value (p11 p12 p13 p14))", known)


def write_wide():
    note("\nWidths of 128.")
    value = 0x0123456789abcdef0f1e2d3c4b5a6978
    declared = b"(declare-const a (_ BitVec 128))"
    for equation, solution in [(b"(= (bvadd a #x%032x) #x%032x)" % (value, 5), (5 - value) % 2**128), (b"(= (bvxor a #x%032x) #x%032x)" % (value, value // 3), value ^ (value // 3)),
                               (b"(= (bvnot a) #x%032x)" % value, 2**128 - 1 - value), (b"(= ((_ rotate_left 77) a) #x%032x)" % value, (value >> 77 | value << 51) % 2**128),
                               (b"(= (bvneg a) #x%032x)" % value, -value % 2**128)]:
        run(declared + b"(assert " + equation + b")(check-sat)(get-value (a))(get-model)", known=numbered(Known("sat", {b"a": solution})))
    run(declared + b"(assert (bvult a (bvlshr a #x%032x)))(check-sat)" % 1, known=numbered(UNSAT))
    run(declared + b"(assert (distinct (bvand a (bvnot a)) #x%032x))(check-sat)" % 0, known=numbered(UNSAT))
    run(closed(128, "EA", b"(bvuge x y)"), known=numbered(SAT))
    run(closed(128, "AE", b"(bvult y x)"), known=numbered(UNSAT))
    run(closed(128, "AE", b"(= (bvadd x y) #x%032x)" % value), known=numbered(SAT))
    run(closed(128, "AEA", b"(bvule (bvand y z) x)"), known=numbered(SAT))


def write_growing():
    note("\nMany checks on one script, which grows.")
    every = {"all": SAT}
    one = b"(push 1)(declare-const x%d (_ BitVec 8))(assert (= x%d #x05))(check-sat)(pop 1)"
    run(b"".join(one % (n, n) for n in range(300)), shown='"\\[300:(push 1)(declare-const x@ (_ BitVec 8))(assert (= x@ #x05))(check-sat)(pop 1)]"', known=every, give=1000)
    one = b"(declare-const x%d Bool)(assert (or x%d (not x%d)))(check-sat)"
    run(b"".join(one % (n, n, n) for n in range(60)), shown='"\\[60:(declare-const x@ Bool)(assert (or x@ (not x@)))(check-sat)]"', known=every)
    one = b"(push 1)(assert (forall ((x%d (_ BitVec 4))) (exists ((y (_ BitVec 4))) (= y (bvadd x%d #x3)))))(check-sat)"
    run(b"".join(one % (n, n) for n in range(20)), known=every,
        shown='"\\[20:(push 1)(assert (forall ((x@ (_ BitVec 4))) (exists ((y (_ BitVec 4))) (= y (bvadd x@ #x3)))))(check-sat)]"')
    run(b"".join(b"(check-sat-assuming (false))" for n in range(100)), shown='"\\{100:(check-sat-assuming (false))}"')


def write_quantified():
    note("\nQuantifiers in any alternation.")
    shapes = [("A", b"(bvule x #b11)"), ("A", b"(bvult x #b11)"), ("E", b"(= (bvmul x x) #b10)"), ("E", b"(= (bvmul x #b11) #b10)"),
              ("AE", b"(= (bvadd x y) #b01)"), ("EA", b"(= (bvadd x y) #b01)"), ("EA", b"(= (bvand x y) x)"), ("AE", b"(distinct x y)"), ("AE", b"(bvult x y)"),
              ("AEA", b"(bvule (bvand x z) (bvor y z))"), ("EAE", b"(= (bvadd x y) (bvmul z #b11))"), ("EAE", b"(and (= x z) (= y z))"),
              ("AEAE", b"(= (bvadd y u) (bvxor x z))"), ("EAEA", b"(bvule (bvand z u) (bvor x y))"), ("EAEA", b"(= (bvxor x z) (bvand y u))"), ("AEAEA", b"(=> (= x z) (bvule (bvand y u) (bvor v x)))")]
    for prefix, body in shapes:
        run(closed(2, prefix, body))
        run(closed(2, prefix, b"(not " + body + b")"))
    note("\nConstants beside them, and quantifiers inside terms.")
    start = b"(declare-const a (_ BitVec 2))(declare-const p Bool)"
    for asserted in [b"(= p (forall ((x Bool)) (or x p)))", b"(xor p (exists ((x (_ BitVec 2))) (bvult a x)))", b"(forall ((x (_ BitVec 2))) (or (= x a) p))",
                     b"(= (ite (forall ((x (_ BitVec 2))) (bvuge x a)) #b01 #b10) (bvadd a #b01))", b"(= (exists ((x Bool)) x) (forall ((x Bool)) x))",
                     b"(let ((q (forall ((x (_ BitVec 2))) (bvule x a)))) (and q (= a #b11) (not (xor q p))))",
                     b"(exists ((x (_ BitVec 2)) (y (_ BitVec 2))) (and (bvult x a) (bvult a y) (= (bvadd x y) a)))", b"(distinct p (exists ((p Bool)) p) (forall ((p Bool)) p))"]:
        run(start + b"(assert " + asserted + b")(check-sat)(assert (not p))(check-sat)")
        run(start + b"(assert (not " + asserted + b"))(check-sat-assuming (p))(check-sat-assuming ((= a #b01)))(check-sat)")


def write_chance():
    note("\nScripts by chance with constants, quantifiers and levels; values are asked for only where all models agree.")
    scripts.MOST_TRIED = 2**9
    rng, made = random.Random(21), 0
    while made < 150:
        text = random_script(rng)
        if text.count(b"(check-sat") == 0 and rng.random() < 0.9:
            continue
        try:
            run(text, give=rng.choice([1, 7, 64, 4096]), take=rng.choice([1, 3, 4096, 4096]), take_fails=[rng.randrange(1, 9)] if rng.random() < 0.1 else (),
                cert_fails=[rng.randrange(1, 5)] if rng.random() < 0.1 else ())
        except (scripts.Undetermined, scripts.TooMany):
            continue
        made += 1


def write_following():
    note("\nChecks that follow each other, by chance: constants come, go and come again, maybe with another sort, and assumptions "
         "may contradict each other.")
    scripts.MOST_TRIED = 2**12
    rng, made = random.Random(38), 0
    while made < 500:
        text = following_script(rng)
        if text.count(b"(check-sat") < 3:
            continue
        try:
            run(text)
        except (scripts.Undetermined, scripts.TooMany):
            continue
        made += 1


def write_written():
    note("\nScripts as other programs write them, from bench/written: each is followed to its end, with one variable for its clauses.\n")
    for name in sorted(name for name in os.listdir(WRITTEN) if name.endswith(".smt2")):
        note(name)
        with open(os.path.join(WRITTEN, name), "rb") as file:
            text = file.read()
        if name in ("benchmark-ground.smt2", "yosys-alu-sorts.smt2"):
            run(text)
        else:
            run(text, variables=1, known={"all": spent("variables")})


def word_of(text):
    """A value as it is printed."""
    return {"true": 1, "false": 0}[text] if text[0] != "#" else int(text[2:], 16 if text[1] == "x" else 2)


def write_clients():
    note("\nWhat clients sent, from bench/measure/clients/sent; the answers are another solver's, and the values those of every model.\n")
    for name in sorted(name[:-5] for name in os.listdir(SENT) if name.endswith(".smt2")):
        note(name)
        with open(os.path.join(SENT, name + ".smt2"), "rb") as file:
            text = file.read()
        with open(os.path.join(SENT, name + ".said"), encoding="utf-8") as file:
            checks = [line.split() for line in file]
        known = {n: Known(word, values=list(map(word_of, values))) for n, (word, *values) in enumerate(checks, 1)}
        run(text, known=known, room=65536 if len(text) > 4096 else 4096)


def write_cores():
    note("\nCores, each the only one without a name too many.")
    clash = b"(declare-const a Bool)(assert (! a :named p))(assert (! (not a) :named q))(assert (! (or a (not a)) :named r))"
    check, core = b"(check-sat)", b"(get-unsat-core)"
    run(clash + check + core)
    run(clash + check + core + core + check + core)
    run(b"(set-option :print-success true)" + clash + check + core + b"(exit)")
    note("What has no name, and what is assumed, is in each core.")
    run(b"(assert false)" + check + core)
    run(b"(assert false)(assert (! true :named p))" + check + core)
    run(b"(declare-const a Bool)(assert (! a :named p))(assert (! (or a true) :named q))(check-sat-assuming ((not a)))" + core)
    run(b"(declare-const a Bool)(assert (! a :named p))(check-sat-assuming (false (not a)))" + core)
    run(b"(assert (! true :named p))(check-sat-assuming (false false))" + core)
    run(b"(declare-const a Bool)(assert (! a :named p))(check-sat-assuming ((! (not a) :named n)))" + core + b"(assert (! n :named m))" + check + core)
    note("Names: quoted, of terms within an assertion, used in others, of levels.")
    run(b"(assert (! true :named p))(assert (! false :named |q r|))(assert (! true :named ||))" + check + core)
    run(b"(assert (! (not (! true :named inner)) :named outer))" + check + core)
    run(b"(declare-const a Bool)(assert (! a :named p))(assert (! (not p) :named q))" + check + core)
    run(b"(push)(assert (! true :named p))(assert (! false :named q))" + check + core + b"(pop)(assert (! false :named p))" + check + core)
    run(b"(assert (! true :named p))(push 2)(assert (! false :named q))(push)(assert (! true :named r))" + check + core + b"(pop 3)" + check)
    run(b"(set-option :global-declarations true)(push)(assert (! false :named p))(pop)(assert (! p :named q))" + check + core)
    note("What keeps the answer, and what forgets it.")
    for between in (b"(declare-const b Bool)", b"(define-fun f () Bool a)", b"(define-sort s () Bool)", b"(set-option :produce-unsat-cores false)",
                    b"(set-info :k)", b"(get-info :name)", b'(echo "e")', b"(get-option :produce-models)"):
        run(clash + check + between + core)
    for between in (b"(push)", b"(push 0)", b"(pop 0)", b"(assert a)", b"(reset-assertions)", b"(reset)", b"(check-sat-assuming (true true))"):
        run(clash + check + between + core)
    run(b"(push)" + clash + check + b"(pop)" + core)
    note("No core.")
    run(clash + core)
    run(b"(declare-const a Bool)(assert (! a :named p))" + check + core)
    run(b"(declare-const a Bool)(assert a)(check-sat-assuming ((not a)))(check-sat-assuming (a))" + core)
    run(SUCCESSOR.replace(b"bvadd", b"bvor").replace(b"(exit)", core), variables=100, known=numbered(spent("variables")))
    run(clash + check + b"(get-unsat-core p)")
    run(clash + check + b"(get-unsat-core ())")


def write_assumed():
    note("\nCores among what was assumed, each the only one: the terms as they are written, in their order.")
    check, core, failed = b"(check-sat)", b"(get-unsat-core)", b"(get-unsat-assumptions)"
    clash = b"(declare-const a Bool)(assert a)(check-sat-assuming (true (not a) (or a true)))"
    run(clash + failed)
    run(clash + failed + failed + core + failed)
    run(b"(set-option :print-success true)" + clash + failed + b"(exit)")
    run(b"(declare-const a Bool)(declare-const b Bool)(assert (or a b))(check-sat-assuming ((not a) true (not b) (or a true)))" + failed)
    run(b"(check-sat-assuming (false))" + failed)
    run(b"(assert true)" * 9 + b"(check-sat-assuming (" + b"true " * 9 + b"false true))" + failed)
    note("All assertions are kept, named or not.")
    run(b"(assert false)(check-sat-assuming ())" + failed)
    run(b"(assert false)(check-sat-assuming (true))" + failed)
    run(b"(assert (! false :named p))(check-sat-assuming (true))" + core + failed)
    run(b"(declare-const a Bool)(assert (! a :named p))(assert (! (or a true) :named q))(check-sat-assuming ((not p) true))" + failed + core)
    note("Terms: with spaces and comments, named, quoted, used in others, over levels.")
    run(b"(declare-const |a b| Bool)(check-sat-assuming ((! (not |a b|) :named n) ; c\n ( let ((x |a b|) )  x)))" + failed)
    run(b"(declare-const a Bool)(check-sat-assuming ((! a :named n)\t(not  n)))" + failed + b"(assert n)(check-sat-assuming ((not n)))" + failed)
    run(b"(declare-const x (_ BitVec 4))(check-sat-assuming ((bvult x #x1) (= x ( _ bv3 4 )) (bvule x x)))" + failed)
    run(b"(check-sat-assuming ((forall ((x Bool)) (exists ((y Bool)) (= x y))) (exists ((x Bool)) (forall ((y Bool)) (= x y)))))" + failed)
    run(b"(declare-const a Bool)(push)(assert a)(push)(check-sat-assuming ((not a)))" + failed + b"(pop 2)(check-sat-assuming ((not a) a))" + failed)
    note("What keeps the answer, and what forgets it.")
    for between in (b"(declare-const b Bool)", b"(define-fun f () Bool a)", b"(define-sort s () Bool)", b"(set-option :produce-unsat-assumptions false)",
                    b"(set-info :k)", b"(get-info :name)", b'(echo "e")', b"(get-option :produce-models)"):
        run(clash + between + failed)
    for between in (b"(push)", b"(push 0)", b"(pop 0)", b"(assert a)", b"(reset-assertions)", b"(reset)", check, b"(check-sat-assuming (true))"):
        run(clash + between + failed)
    note("No core.")
    run(failed)
    run(b"(assert false)" + check + core + failed)
    run(clash + b"(assert (not a))" + check + core + failed)
    run(b"(declare-const a Bool)(assert a)(check-sat-assuming (a))" + failed)
    run(SUCCESSOR.replace(b"bvadd", b"bvor").replace(b"(check-sat)", b"(check-sat-assuming (true))").replace(b"(exit)", failed), variables=100, known=numbered(spent("variables")))
    run(clash + b"(get-unsat-assumptions a)")
    run(clash + b"(get-unsat-assumptions ())")


# a script of four checks, and one whose unsat certificate stands beside it
PUSH_AND_POP = b"(check-sat)(check-sat)(push 1)(assert false)(check-sat)(pop 1)(check-sat)"
SIBLINGS = (b"(assert (forall ((x (_ BitVec 2))) (exists ((y (_ BitVec 2))) (and (= ((_ extract 0 0) x) #b1) (= ((_ extract 0 0) y) #b0)))))"
            b"(check-sat)")


def write_overflow():
    note("\nEach overflow predicate at all words of two bits, and at the ends of wide ones.")
    def word(value, width):
        return b"#b" + bin(value)[2:].zfill(width).encode()
    for name, count in [("bvnego", 1), ("bvuaddo", 2), ("bvsaddo", 2), ("bvumulo", 2), ("bvsmulo", 2), ("bvusubo", 2), ("bvssubo", 2), ("bvsdivo", 2)]:
        said = []
        for values in product(range(4), repeat=count):
            term = b"(%s %s)" % (name.encode(), b" ".join(word(v, 2) for v in values))
            said.append(term if word_cases.apply(name, [(2, v) for v in values])[1] else b"(not " + term + b")")
        run(b"(assert (and " + b" ".join(said) + b"))(check-sat)")
        for width in (8, 128):
            least, greatest = 2**(width - 1), 2**(width - 1) - 1
            for values in [(least, 2**width - 1), (greatest, 1), (greatest, greatest), (least, least), (0, 1), (2**width - 1, 1)]:
                values = values[:count]
                term = b"(%s %s)" % (name.encode(), b" ".join(word(v, width) for v in values))
                answer = word_cases.apply(name, [(width, v) for v in values])[1]
                run(b"(assert " + (term if answer else b"(not " + term + b")") + b")(check-sat)(assert " + term + b")(check-sat)")


def write_deep():
    note("\nAs many nested lets as parentheses allow, and one more; and lets that double.")
    for n in (999997, 999998):
        run(b"(assert " + b"(let ((a true)) " * n + b"a" + b")" * n + b")(check-sat)", give=4096,
            shown='"(assert \\{%d:(let ((a true)) }a\\{%d:)})(check-sat)"' % (n, n), known=numbered(SAT))
    text, last = b"(declare-const x0 (_ BitVec 4))(assert ", 60
    for n in range(last):
        text += b"(let ((x%d (bvadd x%d x%d))) " % (n + 1, n, n)
    # 2^60 times anything is zero at four bits
    run(text + b"(= x%d #x0)" % last + b")" * last + b")(check-sat)", known=numbered(SAT))
    run(text + b"(= x%d #x1)" % last + b")" * last + b")(check-sat)", known=numbered(UNSAT))


def write_long_solved():
    note("\nSeven pigeons in six holes, three levels at 16 bits, and a bench of 200.")
    run(pigeons(7, 6), known=numbered(UNSAT))
    run(three_levels(16), known=numbered(SAT))
    words(b"bench", b"200")
    note("\nTwo scripts over sources of pieces of one, seven and 4,096 bytes.")
    for text in (SIBLINGS, PUSH_AND_POP):
        for give in (1, 7, 4096):
            run(text, give=give)
    note("\nEach call of each object that a run uses fails in turn: the source, the sink, the certificate's sink.")
    calls, writes, certs = run(PUSH_AND_POP, give=1, take=3)
    for k in range(1, calls + 1):
        run(PUSH_AND_POP, give=1, take=3, give_fails=[k])
    for k in range(1, writes + 1):
        run(PUSH_AND_POP, give=1, take=3, take_fails=[k])
    for k in range(1, certs + 1):
        run(PUSH_AND_POP, give=1, take=3, cert_fails=[k])



def main():
    note("Written by bench/cases/run_cases.py. A case is a command, settings, and texts between quotes, in which\n"
         "\\n, \\\" and \\x0f stand for one byte and \\{9:ab} for ab nine times. Settings: how many bytes a source\n"
         "gives (give) and a sink takes (take) in a call, 4096 where nothing is said; the numbers of calls that\n"
         "fail (give-fails, take-fails); how many bytes the sink holds (room); the same of the certificate's sink\n"
         "(cert-take, cert-fails, cert-room), which has ample room where nothing is said; budgets (conflicts, instances,\n"
         "variables); and what calls ask for (sizes). In a text \\[9:a@ ] stands for a0 to a8, each with a space.\n"
         "run: the status, what is written, the source's calls, the bytes that it has left, the sink's calls, the sections\n"
         "of the certificate, and, where the script came to its end, the status and the text of its check.\n")
    note("Written by bench/cases/run_cases.py. A case is written as in qv_shell_cases.", OBJECTS)
    write_runs()
    write_commands()
    write_labels()
    write_faults()
    write_cuts()
    write_failing()
    write_long()
    write_random()
    write_words()
    write_objects()
    write_worked()
    write_budgets()
    write_certificates()
    write_models()
    write_wide()
    write_growing()
    write_quantified()
    write_chance()
    write_following()
    write_overflow()
    write_deep()
    write_long_solved()
    write_written()
    write_clients()
    write_cores()
    write_assumed()
    RUNS.extend(SERIES)
    for driver, part, rows, word in PARTS:
        write_part(driver, part, rows, word)


if __name__ == "__main__":
    sys.setrecursionlimit(10**7)
    threading.stack_size(2**29)
    thread = threading.Thread(target=main)
    thread.start()
    thread.join()
