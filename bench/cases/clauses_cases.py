#!/usr/bin/env python3
"""Writes the cases of crates/qv_check_trim_cases (stdin) and what must come (stdout): those of trim_cases.py, and certificates beside
their scripts, with the clause lists of their sections.

The answers are computed here from the rules and not by the program: scripts and sections are followed by bench/cases/verdict_cases.py,
and a section's clause list is that of bench/cases/blast_cases.py for the formulas that it comes to.

`clauses ROOM SCRIPT|CERT` writes to a sink with so much room. The answer is how the run ends, and what is written.
"""
import sys
import threading

import check_cases
import run_cases
import trim_cases
import verdict_cases
from chance_scripts import random_script
from check_cases import RANDOM, Section
from prenex_cases import problem
from rows import quoted, write_part, written
from verdict_cases import HEAD, SAT, SIBLINGS, UNKNOWN, UNSAT, Lines, Refused, certificate, kind_word, sections

ROWS = []
ENDINGS = {0: "Accepted", 1: "Faulty", 6: "Refused"}


def clause_list(formulas):
    """The clauses as a text in the DIMACS format."""
    clauses = check_cases.clauses_of(formulas)
    greatest = max((abs(lit) for lits in clauses for lit in lits), default=0)
    return f"p cnf {greatest} {len(clauses)}\n" + "".join(" ".join(map(str, [*lits, 0])) + "\n" for lits in clauses)


def clauses(script, cert):
    """How a check ends, and the whole text."""
    text = []

    def section(formulas, number):
        places, _, matrix = problem(formulas)
        judge = Section(places, matrix, number, version)
        while True:
            kind = judge.line(lines.wanted())
            if kind == "accepted":
                text.append(f"c check {number} {judge.answer}\n" + (clause_list(judge.formulas) if judge.formulas is not None else ""))
                return judge.answer
            if kind:
                raise Refused(lines.number, kind_word(kind))

    said = []
    lines = Lines(run_cases.Source(cert))
    try:
        header = verdict_cases.outer(lines.wanted())
        if isinstance(header, str) or not header[0].startswith("Header"):
            raise Refused(1, "header")
        version = int(header[1].split()[1])
        if not verdict_cases.follow(run_cases.Reader(run_cases.Source(script)).command, section, said.append):
            return 1, "".join(text) + "c " + said[-1].decode()
        line = lines.next()
        if line is None:
            return 0, "".join(text) + "c accepted\n"
        found = verdict_cases.outer(line)
        raise Refused(lines.number, "form" if isinstance(found, str) or not found[0].startswith("Check") else "section")
    except Refused as refused:
        return 6, "".join(text) + f"c refused {refused.args[0]} {refused.args[1]}\n"


def note(text):
    ROWS.extend([("", None)] if ROWS else [])
    ROWS.append((f"# {text}", None))


def row(script, cert, room=100000):
    script, cert = (text.encode() if isinstance(text, str) else text for text in (script, cert))
    status, text = clauses(script, cert)
    ending = ENDINGS[status] if len(text) <= room else "Write"
    asked = f"clauses {room} {written(script).replace('|', chr(92) + 'x7c')}|{written(cert)}"
    ROWS.append((asked, f"{ending} {quoted(text[:room].encode())}".replace("\\x22", '\\"')))


def by_hand():
    note("clauses ROOM SCRIPT|CERT: how the run ends, and what is written to a sink with so much room.")
    note("Without a check.")
    for script, cert in [("", HEAD), ("", ""), ("", "qbv-cert 3\n"), ("", HEAD + "end\n"), ("(pop 1)", HEAD), (")", HEAD), ("(exit)(pop 1)", HEAD), ("\"", "qbv-cert 2\n")]:
        row(script, cert)
    note("One check, or several, by each kind of section.")
    for script in ["(check-sat)", "(check-sat)(check-sat-assuming ())", "(assert false)(check-sat)", "(assert true)(push)(assert false)(check-sat)(pop)(check-sat)",
                   "(check-sat)(exit)(check-sat)", "(check-sat)(pop 1)", "(check-sat-assuming (false true))", "(check-sat)(reset)(check-sat)"]:
        for forms in [(SAT,), (UNSAT,), (UNKNOWN,), (SAT, SAT), (UNSAT, SAT), (UNKNOWN, UNKNOWN), (SAT, UNKNOWN)]:
            row(script, sections(*forms))
    note("What stands between checks.")
    row("(set-option :produce-models true)(check-sat)(get-model)(get-info :name)(check-sat)(get-value (true))", sections(SAT, SAT))
    row("(check-sat)(get-info :reason-unknown)(check-sat)", sections(UNKNOWN, SAT))
    note("Terms, instances and rewriting.")
    row(SIBLINGS, check_cases.SIBLINGS_CERT)
    row("(check-sat)" + SIBLINGS, check_cases.SIBLINGS_CERT)
    row(SIBLINGS, check_cases.exchanged())
    row("(check-sat)", "qbv-cert 2\ncheck 1 sat\nw not-not\nlrat\n3 0 1 2 0\nend\n")
    row("(check-sat)", "qbv-cert 1\ncheck 1 sat\nw not-not\nlrat\n3 0 1 2 0\nend\n")
    note("Lines with blanks, and clauses that are added or deleted in the refutation.")
    row("(check-sat)", b"\tqbv-cert  1\r\n check \t1 sat\r\nlrat \n3 0 1 2 0\n\rend\n")
    row("(check-sat)", HEAD + "check 1 sat\nlrat\n3 5 6 0 1 2 0\n3 d 3 0\n4 0 1 2 0\nend\n")
    note("Sinks that fill up.")
    for room in (0, 1, 2, 13, 14, 15, 26, 27, 36, 42, 43, 52, 53):
        row("(check-sat)(check-sat)", sections(SAT, UNKNOWN), room)


def by_chance(count, changes):
    note("Scripts by chance: a certificate, and then some with something changed.")
    made = 0
    while made < count:
        script = random_script(RANDOM)
        cert = certificate(script, RANDOM.choice([1, 2]), RANDOM.choice([0.0, 0.0, 0.2]), check_cases.random_rules())
        if len(cert) > 1500 or b"check" not in cert or len(clauses(script, cert)[1]) > 4000:
            continue
        made += 1
        row(script, cert)
        for _ in range(changes):
            row(script, check_cases.spoiled(cert))


def bad():
    note("no cases")
    for text in ["clauses", "clauses x a|b", "clauses -1 a|b", "trim 1 a|b", "clauses 1 \\y|b", "clauses 1 a|\\x4"]:
        ROWS.append((text, "bad case"))


def main():
    by_hand()
    by_chance(60, 2)
    bad()
    write_part("qv_check_trim_cases", "sections trimmed, and certificates beside their scripts", [*trim_cases.rows(), ("", None), *ROWS])


if __name__ == "__main__":
    sys.setrecursionlimit(100000)
    threading.stack_size(512 * 1024 * 1024)
    thread = threading.Thread(target=main)
    thread.start()
    thread.join()
