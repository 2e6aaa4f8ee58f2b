#!/usr/bin/env python3
"""Writes the cases of crates/qv_shell_cases (stdin) and what must come (stdout): certificates beside their scripts.

The answers are computed here from the rules and not by the program: scripts are read by bench/cases/run_cases.py and followed by
bench/cases/scripts.py, sections are judged by bench/cases/check_cases.py, and what is said of both together stands below. Certificates
that are accepted are made by brute force over the values of small problems; others are these with something changed.

`check GIVE A B C SCRIPT|CERT` runs `check` on two sources that give at most GIVE bytes a call and a sink that takes at most
so many, of which the script's call A fails, the certificate's call B and the sink's call C, and none with 0. The answer is
the status, what is written, and how often each was called.
"""
import sys
import threading

import check_cases
import run_cases
import scripts
from cert_cases import outer
from check_cases import RANDOM, Section, is_true, sat_cert, spoiled, unsat_cert, values_of
from chance_scripts import random_script
from prenex_cases import CONSTANTS, LIMIT, problem
from rows import shown, write_part

ROOM = 65536


# ---- the verdict, by the rules


class Refused(Exception):
    """A line of the certificate, by a kind."""


class Lines:
    """The lines of a certificate, each read when it is wanted."""

    def __init__(self, source):
        self.source, self.held, self.number = source, b"", 0

    def next(self):
        """The next line, or None where the bytes end behind the last."""
        self.number += 1
        while b"\n" not in self.held:
            try:
                piece = self.source.read(4096)
            except run_cases.Failed:
                raise run_cases.SourceFailed
            if not piece:
                if self.held:
                    raise Refused(self.number, "truncated")
                return None
            self.held += piece
        line, self.held = self.held.split(b"\n", 1)
        return line

    def wanted(self):
        line = self.next()
        if line is None:
            raise Refused(self.number, "truncated")
        return line


def kind_word(kind):
    """`Hint { hint: 3 }` is `hint 3`."""
    return kind.replace("{ hint: ", "").replace(" }", "").lower()


class Beside(scripts.Script):
    """A script whose checks are answered by sections: `section` is called with the formulas and the check's number."""

    def __init__(self, section):
        self.section, self.checks, self.said = section, 0, None
        super().__init__()

    def check(self, trees, place):
        self.sat = False
        CONSTANTS[:] = [sort for _, sort in self.constants()]
        formulas = [scripts.tree_of(self.store, t) for t in trees]
        self.need(len(problem(formulas)[0]) <= LIMIT, "prefix limit", place)
        self.checks += 1
        self.last = self.section(formulas, self.checks)
        self.said = self.last.encode() + b"\n"

    def model_value(self, t):
        """Values aren't said, so any will do."""
        return self.store.sorts[t], 0


def follow(command, section, put):
    """Follows a script beside sections to its end, which is True, or to its fault, whose line is put."""
    script = Beside(section)
    while True:
        try:
            e = command()
            if e is None:
                return True
            script.step(scripts.expression(e))
        except scripts.Left:
            return True
        except (run_cases.Fault, scripts.Refused) as fault:
            put(scripts.refusal(fault.kind, fault.place))
            return False
        if script.said:
            put(script.said)
            script.said = None


def judged(lines, version):
    """What judges the next section of a certificate."""
    def section(formulas, number):
        places, _, matrix = problem(formulas)
        judge = Section(places, matrix, number, version)
        while True:
            kind = judge.line(lines.wanted())
            if kind == "accepted":
                return judge.answer
            if kind:
                raise Refused(lines.number, kind_word(kind))
    return section


def go_through(command, lines, put):
    """The verdict, and its status."""
    header = outer(lines.wanted())
    if isinstance(header, str) or not header[0].startswith("Header"):
        raise Refused(1, "header")
    if not follow(command, judged(lines, int(header[1].split()[1])), put):
        return 1
    line = lines.next()
    if line is None:
        put(b"accepted\n")
        return 0
    found = outer(line)
    raise Refused(lines.number, "form" if isinstance(found, str) or not found[0].startswith("Check") else "section")


def check(script, cert, out):
    """What `check` writes, and its status."""
    try:
        try:
            return go_through(run_cases.Reader(script).command, Lines(cert), out.put)
        except Refused as refused:
            out.put(b"refused %d %s\n" % (refused.args[0], refused.args[1].encode()))
            return 6
    except run_cases.SourceFailed:
        return 3
    except run_cases.Failed:
        return 4


# ---- certificates that are accepted


def commands_of(script):
    return run_cases.Reader(run_cases.Source(script)).command


def is_small(formulas):
    size = 1
    places = problem(formulas)[0]
    for _, sort in places:
        size *= len(values_of(sort))
    return len(places) <= 6 and size <= 512


def certificate(script, version=1, unknown=0.0, rules=()):
    """A certificate of a script, with a section for each check."""
    made = [b"qbv-cert %d\n" % version]

    def section(formulas, number):
        if RANDOM.random() < unknown or not is_small(formulas):
            made.append(b"check %d unknown\nend\n" % number)
            return "unknown"
        found = is_true(formulas)
        whole = sat_cert(formulas, number, version, rules) if found else unsat_cert(formulas, number, version, rules, RANDOM.choice([0.0, 0.5]))
        made.append(whole.split(b"\n", 1)[1])
        return "sat" if found else "unsat"

    follow(commands_of(script), section, lambda text: None)
    return b"".join(made)


# ---- rows

ROWS, COUNTS = [], {}


def note(text):
    ROWS.extend([("", None)] if ROWS else [])
    ROWS.append((f"# {text}", None))


def told(data):
    return "".join("\\n" if b == 10 else chr(b) if 32 <= b < 127 and b != 92 else f"\\x{b:02x}" for b in data)


def row(script, cert, give=4096, fails=(0, 0, 0)):
    """A row, and how often each object is called."""
    script, cert = (text.encode() if isinstance(text, str) else text for text in (script, cert))
    first, second, out = run_cases.Source(script, give, [fails[0]]), run_cases.Source(cert, give, [fails[1]]), run_cases.Sink(give, ROOM, [fails[2]])
    status = check(first, second, out)
    COUNTS[status] = COUNTS.get(status, 0) + 1
    asked = f"check {give} {' '.join(map(str, fails))} {shown(script).replace('|', chr(92) + 'x7c')}|{shown(cert)}"
    ROWS.append((asked, f"{status} {told(out.held)}| reads {first.calls} {second.calls} writes {out.calls}"))
    return first.calls, second.calls, out.calls


def failures(script, cert, give):
    """Each call of each object fails, and the one behind the last, which isn't made."""
    for which, calls in enumerate(row(script, cert, give)):
        for call in range(1, calls + 2):
            row(script, cert, give, [call if at == which else 0 for at in range(3)])


# ---- the cases

SAT = "check {} sat\nlrat\n3 0 1 2 0\nend\n"
UNSAT = SAT.replace("sat", "unsat")
UNKNOWN = "check {} unknown\nend\n"
HEAD = "qbv-cert 1\n"


def sections(*forms):
    return HEAD + "".join(form.format(number) for number, form in enumerate(forms, 1))


GREATEST = "(assert (exists ((x (_ BitVec 8))) (forall ((y (_ BitVec 8))) (bvuge x y))))(check-sat)"
SIBLINGS = "(assert (forall ((x (_ BitVec 2))) (exists ((y (_ BitVec 2))) (and (= ((_ extract 0 0) x) #b1) (= ((_ extract 0 0) y) #b0)))))(check-sat)"


def by_hand():
    note("check GIVE A B C SCRIPT|CERT: the status, what is written, and how often the script, the certificate and the sink are called.")
    note("Scripts without a check.")
    for script in ["", "(echo \"a\")", "(exit)(foo)", "(pop 1)", ")", "(", "\"", "; (pop 1)", "(set-option :print-success true)(exit)", "(get-value (true))",
                   "(get-info :name)(get-model)", "(get-info :reason-unknown)"]:
        for cert in [HEAD, "qbv-cert 2\n"]:
            row(script, cert)
        for cert in ["", "qbv-cert 3\n", "qbv-cert 1", "\n", HEAD + "end\n", HEAD + "check 1 sat\n", HEAD + "check 1 sat", HEAD + "x", HEAD + "\n",
                     HEAD + "check 0 sat\n", HEAD + "n 1 o bvfoo : 1\n"]:
            row(script, cert, give=RANDOM.choice([1, 7, 4096]))
    note("One check, by each kind of section.")
    for script in ["(check-sat)", "(check-sat)(check-sat-assuming ())", "(assert false)(check-sat)", "(assert true)(push)(assert false)(check-sat)(pop)(check-sat)",
                   "(check-sat)(exit)(check-sat)", "(check-sat)(pop 1)", "(check-sat-assuming (false true))", "(check-sat)(reset)(check-sat)"]:
        for forms in [(SAT,), (UNSAT,), (UNKNOWN,), (SAT, SAT), (UNSAT, SAT), (UNKNOWN, UNKNOWN), (SAT, UNKNOWN), (SAT, SAT, SAT)]:
            row(script, sections(*forms), give=RANDOM.choice([1, 7, 4096]))
    note("What a check says is the last answer.")
    for form in [SAT, UNKNOWN, UNSAT]:
        for script in ["(check-sat)(get-value (true))", "(check-sat)(get-model)", "(check-sat)(get-info :reason-unknown)", "(check-sat)(push)(get-model)",
                       "(check-sat)(get-value ((forall ((x Bool)) x)))", "(check-sat)(assert true)(get-info :reason-unknown)",
                       "(set-option :print-success true)(check-sat)(echo \"a\")(get-value (true #b01))(exit)"]:
            row(script if form != UNSAT else "(assert false)" + script, sections(form))
    note("Numbers of sections.")
    for number in [0, 1, 2, 3, 2**62 - 1, 2**62, 2**64]:
        row("(check-sat)(check-sat)", HEAD + SAT.format(1) + SAT.format(number))
        row("(check-sat)", HEAD + SAT.format(number))
        row("(check-sat)", HEAD + SAT.format(1) + f"check {number} sat\n")
    note("Two siblings' leaves, with a term over the other's eigenvariable; and what isn't theirs.")
    for give in [1, 7, 4096]:
        row(SIBLINGS, check_cases.SIBLINGS_CERT, give=give)
    row("(check-sat)" + SIBLINGS, check_cases.SIBLINGS_CERT)
    row(SIBLINGS + "(check-sat)", check_cases.SIBLINGS_CERT)
    row(SIBLINGS, check_cases.exchanged())
    row(SIBLINGS.replace("#b1", "#b0"), check_cases.SIBLINGS_CERT)
    row(SIBLINGS.replace("forall", "exists"), check_cases.SIBLINGS_CERT)
    satisfied = check_cases.SIBLINGS_CERT.replace("26 0 1 13 11", "26 0 1 13 13 11")
    row(SIBLINGS, satisfied)
    row(SIBLINGS, check_cases.SIBLINGS_CERT[:check_cases.SIBLINGS_CERT.index("26 0 1 13 11") + len("26 0 1 13 11")])
    note("A term that looks at a place behind its own; the smallest refutation, and none.")
    row(GREATEST, HEAD + "check 1 sat\nn 1 v 1\ns 0 1\nlrat\nend\n")
    row("(check-sat)", HEAD + "check 1 sat\nlrat\n3 0 1 2 0\nend\n")
    row("(check-sat)", HEAD + "check 1 unsat\nlrat\nend\n")
    for line in "-5 -6 0 -3 0", "-5 -6 0 0", "-5 -6 0 -1 0", "-5 -6 0 -3 -3 7 0", "-5 -6 0 -3 -4 0", "-5 6 0 -3 0", "-6 -5 0 -3 0":
        row("(check-sat)", HEAD + "check 1 sat\nlrat\n3 5 6 0 0\n4 " + line + "\n5 0 1 2 0\nend\n")
    note("What the pass of sums makes false, and the pass by a rule doesn't.")
    odd = "(declare-fun x () (_ BitVec 2))(assert (= (bvadd (bvmul x #b10) #b01) #b00))(check-sat)"
    for lines in ["w sum\n", "", "w fold\n"]:
        row(odd, f"qbv-cert 2\ncheck 1 unsat\ne 1 0\n{lines}lrat\n3 0 1 2 0\nend\n")
    note("What the passes of exclusive or and of small rules make false, and others don't.")
    apart = "(declare-fun p () Bool)(declare-fun q () Bool)(assert (distinct (xor p q) (xor q p)))(check-sat)"
    for lines in ["w xor\n", "", "w sum\n", "w simp\n"]:
        row(apart, f"qbv-cert 2\ncheck 1 unsat\ne 1 0\ne 2 1\n{lines}lrat\n3 0 1 2 0\nend\n")
    below = "(declare-fun x () (_ BitVec 2))(assert (bvult x #b00))(check-sat)"
    for lines in ["w simp\n", "", "w xor\n"]:
        row(below, f"qbv-cert 2\ncheck 1 unsat\ne 1 0\n{lines}lrat\n3 0 1 2 0\nend\n")
    note("A prefix that is too long is a fault of the script, and its section isn't read.")
    many = "".join(f"(declare-const a{n} Bool)" for n in range(4))
    doubled = "(forall ((x Bool)) x)"
    for _ in range(6):
        doubled = f"(xor {doubled} {doubled})"
    row(f"(assert {doubled})(check-sat)", HEAD + UNKNOWN.format(1))
    row(f"(check-sat)(assert (xor {doubled} {doubled}))(check-sat)", HEAD + SAT.format(1) + UNKNOWN.format(2))
    row(f"(check-sat)(assert (xor {doubled} {doubled}))(check-sat)", HEAD + SAT.format(1))
    row(f"{many}(assert (and a0 (xor a1 a3)))(check-sat)(get-model)", certificate(f"{many}(assert (and a0 (xor a1 a3)))(check-sat)".encode()))
    note("Names, and bytes that aren't printed.")
    row("(declare-const |a b| Bool)(assert |a b|)(check-sat)(get-value (|a b|))", certificate(b"(declare-const |a b| Bool)(assert |a b|)(check-sat)"))
    row(b"(echo \"\xff\x00\")(check-sat)\x01", sections(SAT))
    row(b"(check-sat)", b"\tqbv-cert  1\r\n check \t1 sat\r\nlrat \n3 0 1 2 0\n\rend\n")
    row(b"(check-sat)", b"qbv-cert 1\ncheck 1 sat\nlrat\n3 0 1 2 \xff0\nend\n")
    note("Each call fails.")
    for give in [1, 7, 4096]:
        failures("(check-sat)(pop 1)", sections(SAT), give)
    for give in [7, 4096]:
        failures("(check-sat)", sections(SAT), give)
        failures("(check-sat)(check-sat)", sections(SAT, UNSAT), give)
        failures("(check-sat)", sections(UNKNOWN) + "end\n", give)
        failures("(check-sat)", "qbv-cert", give)
    note("Each call fails beside two siblings' leaves, by pieces of one byte.")
    failures(SIBLINGS, check_cases.SIBLINGS_CERT, 1)


def by_chance(count, changes):
    note("Scripts by chance: a certificate, and then some with something changed.")
    made = []
    while len(made) < count:
        script = random_script(RANDOM)
        cert = certificate(script, RANDOM.choice([1, 2]), RANDOM.choice([0.0, 0.0, 0.2]), check_cases.random_rules())
        if len(cert) > 2500 or b"check" not in cert and RANDOM.random() < 0.8:
            continue
        made.append((script, cert))
        row(script, cert, give=RANDOM.choice([1, 7, 4096]))
        assert not ROWS[-1][1].startswith("6"), ROWS[-1]
        for _ in range(changes):
            row(script, spoiled(cert), give=RANDOM.choice([1, 7, 4096]))
        row(script, cert[:RANDOM.randrange(len(cert))], give=RANDOM.choice([1, 7, 4096]))
    note("Certificates of other scripts.")
    for _ in range(count // 3):
        row(RANDOM.choice(made)[0], RANDOM.choice(made)[1])
    note("Where a call of one of them fails.")
    for _ in range(count // 3):
        script, cert = RANDOM.choice(made)
        row(script, cert, RANDOM.choice([7, 64]), [RANDOM.choice([0, 0, RANDOM.randrange(1, 9)]) for _ in range(3)])


def bad():
    note("no cases")
    for text in ["check", "check 1", "check 1 0 0 0", "check 0 0 0 0 a|b", "check 1 0 0 0 a", "check 1 0 0 x a|b", "check x 0 0 0 a|b", "check 1 -1 0 0 a|b",
                 "solve 1 0 0 0 a|b", "check 1 0 0 0 \\y|b", "check 1 0 0 0 a|\\x4"]:
        ROWS.append((text, "bad case"))


def main():
    RANDOM.seed(20261129)
    by_hand()
    by_chance(110, 5)
    bad()
    write_part("qv_shell_cases", "certificates beside their scripts", ROWS)
    print(f"{len(ROWS)} rows, statuses {dict(sorted(COUNTS.items()))}")


if __name__ == "__main__":
    sys.setrecursionlimit(10**6)
    threading.stack_size(2**29)
    thread = threading.Thread(target=main)
    thread.start()
    thread.join()
