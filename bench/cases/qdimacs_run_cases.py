#!/usr/bin/env python3
"""Writes the cases of crates/qv_shell_cases (stdin) and what must come (stdout).

    bench/cases/qdimacs_run_cases.py PROGRAM

Whether a file is true is found by trying all values of its variables, and what its text says by the rules of texts. Which values
come after `sat` is the solver's choice. So the built PROGRAM is asked for each line, and what it says stands as an answer only
where the file holds under the values that it prints, one for each outer variable in their order. Within small limits `unknown`
may come in place of an answer. The certificate that a run wrote is checked beside the same text, which must end as the run did.
"""
import random
import subprocess
import sys

from qdimacs_cases import chance_file, chance_text, holds, outer_of, said
from rows import quoted, write_part

AMPLE = (1000000, 10000, 4000000)


def text_of(prefix, clauses):
    lines = ["p cnf %d %d" % (max([v for _, v in prefix] + [abs(l) for c in clauses for l in c] + [1]), len(clauses))]
    lines += [f"{q} {v} 0" for q, v in prefix] + [" ".join(map(str, clause + [0])) for clause in clauses]
    return "".join(line + "\n" for line in lines).encode()


def read(text):
    """The file of a text, or the line of its fault."""
    words = said(text)
    if "/" not in words:
        kind, place = words.rsplit(" ", 1)
        return None, f'(error "at {place}: {kind}")\n'
    prefix, clauses = words.split("/")
    lists, clause = [], []
    for word in clauses.split():
        if word == "0":
            lists.append(clause)
            clause = []
        else:
            clause.append(int(word))
    return ([(word[0], int(word[1:])) for word in prefix.split()], lists), None


def truth(prefix, clauses):
    outer, rest = outer_of(prefix, clauses)
    return holds([("e", v) for v in outer] + rest, clauses, {})


def shows(line, prefix, clauses):
    """Whether a line of values is one of the outer variables, under which the file holds."""
    outer, rest = outer_of(prefix, clauses)
    words = line.split(" ")
    values = list(map(int, words[1:]))
    assert words[0] == "v" and values[-1] == 0 and [abs(v) for v in values[:-1]] == outer, line
    return holds(rest, clauses, {abs(v): v > 0 for v in values[:-1]})


def status(code, text):
    return f"{code} " + quoted(text.encode()).replace("\\x22", '\\"')


def judged(text, limits, answer):
    """What must come of a line, where the program's answer is this."""
    file, fault = read(text)
    if fault:
        return status(1, fault) + " " + status(1, fault)
    word = "sat" if truth(*file) else "unsat"
    if limits != AMPLE and answer.startswith('0 "unknown'):
        word = "unknown"
    if word != "sat":
        return status(0, word + "\n") + " " + status(0, word + "\naccepted\n")
    lines = answer.split('"')[1].split("\\n")
    assert len(lines) > 1 and shows(lines[1], *file), (text, answer)
    return status(0, f"sat\n{lines[1]}\n") + " " + status(0, "sat\naccepted\n")


def by_hand():
    files = ("p cnf 2 2\na 1 0\ne 2 0\n1 2 0\n-1 -2 0\n", "p cnf 2 2\ne 2 0\na 1 0\n1 2 0\n-1 -2 0\n", "p cnf 2 1\ne 2 0\n-1 0\n",
             "p cnf 1 1\ne 1 0\na 1 0\n1 0\n", "p cnf 0 0\n", "p cnf 1 0\ne 1 0\n", "p cnf 1 0\na 1 0\n", "p cnf 0 1\n0\n", "p cnf 1 1\na 1 0\n0\n",
             "p cnf 1 1\n1 0\n", "p cnf 1 1\n-1 0\n", "p cnf 1 1\na 1 0\n1 0\n", "p cnf 1 1\na 1 0\n1 -1 0\n", "p cnf 9 9\ne 9 0 e 2 0\n-9 0\n",
             "c x\np cnf 3 1\r\ne 2 0 e 1\r\n0 a 0 3 0\r\n1 3 0\r\n", "p cnf 1073741824 1\n-1073741824 0\n", "p cnf 1 1\n1", "p cnf", "", "1 0\n",
             "p cnf 2 2\n1 0\na 2 0\n", "p cnf 1 1\n1073741825 0\n", "p cnf 3 2\n3 -1 0\n-3 0\n")
    return [text.encode() for text in files]


def checks():
    """Certificates that are written by hand, and what must come of them."""
    file, other = b"p cnf 1 1\n1 0\n", b"p cnf 1 1\n1\n"
    unknown = b"qbv-cert 2\ncheck 1 unknown\nend\n"
    fault = status(1, '(error "at 10: unfinished")\n')
    return [(file, unknown, status(0, "unknown\naccepted\n")), (file, b"qbv-cert 1\ncheck 1 unknown\nend\n", status(0, "unknown\naccepted\n")),
            (file, b"", status(6, "refused 1 truncated\n")), (file, b"qbv-cert 2", status(6, "refused 1 truncated\n")),
            (file, b"qbv-cert 3\n", status(6, "refused 1 header\n")), (file, b"qbv-cert 2\n", status(6, "refused 2 truncated\n")),
            (file, b"qbv-cert 2\ncheck 2 unknown\nend\n", status(6, "refused 2 section\n")),
            (file, b"qbv-cert 2\ncheck 1 sat\nend\n", status(6, "refused 3 form\n")),
            (file, b"qbv-cert 2\ncheck 1 sat\nlrat\n", status(6, "refused 3 missing\n")),
            (file, b"qbv-cert 2\ncheck 1 unknown\n", status(6, "refused 3 truncated\n")),
            (file, unknown + b"x\n", status(6, "unknown\nrefused 4 form\n")), (file, unknown + b"check 2 unknown\nend\n", status(6, "unknown\nrefused 4 section\n")),
            (file, unknown + b"x", status(6, "unknown\nrefused 4 truncated\n")), (other, unknown, fault), (other, b"qbv-cert 2\n", fault),
            (other, b"qbv-cert 3\n", status(6, "refused 1 header\n")), (b"", b"x", status(6, "refused 1 truncated\n"))]


def main():
    chance = random.Random(41)
    runs = [("# The outer variables' values are printed, and a fault with its place.", None, None)]
    runs += [("", text, AMPLE) for text in by_hand()]
    runs.append(("# Files by chance.", None, None))
    runs += [("", text_of(*chance_file(chance)), AMPLE) for _ in range(500)]
    runs.append(("# Texts by chance, of which every other one has a word changed.", None, None))
    runs += [("", chance_text(chance), AMPLE) for _ in range(100)]
    runs.append(("# Within small limits.", None, None))
    runs += [("", text_of(*chance_file(chance)), limits) for limits in ((1, 1, 1), (1, 1, 100), (2, 3, 1000)) for _ in range(20)]
    lines = [note or f"solve {limits[0]} {limits[1]} {limits[2]} {quoted(text)}" for note, text, limits in runs]
    asked = "".join(f"{line}\n" if line.startswith("#") else f"qdimacs {line}\n" for line in lines)
    told = subprocess.run([sys.argv[1]], input=asked, capture_output=True, text=True, check=True).stdout.splitlines()
    rows = [("# Written by bench/cases/qdimacs_run_cases.py.", None)]
    for (note, text, limits), line, answer in zip(runs, lines, told):
        rows.append((line, None if note else judged(text, limits, answer)))
        if rows[-1][1] not in (None, answer):
            print("differs:", line, answer, rows[-1][1])
    rows.append(("# Certificates by hand.", None))
    rows += [(f"check {quoted(text)} {quoted(cert)}", answer) for text, cert, answer in checks()]
    rows.append(("# Lines that are no cases.", None))
    rows += [("solve 1 1 1 x", "bad case"), ('solve 0 1 1 "x"', "bad case"), ("check", "bad case"), ("run", "bad case")]
    write_part("qv_shell_cases", "files in the QDIMACS format", rows, "qdimacs")


if __name__ == "__main__":
    main()
