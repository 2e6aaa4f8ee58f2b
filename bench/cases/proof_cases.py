#!/usr/bin/env python3
"""Writes the cases of qv_check_trim_cases, and what must come of each: `proof_cases.py` writes crates/qv_check_trim_cases/stdin and stdout. A
case is a CNF text and an LRAT proof; the answers come from the reference below, which is written from the rules and not from the
program, as are bench/rat.py, bench/lrat_lines.py and bench/cnf_cases.py.
"""
import itertools
import random

from cnf_cases import said
from lrat_lines import step
from rat import judge, propagated, rat_hints
from rows import write_part, written

CHANCE = random.Random(20261129)
ROWS = []


# ---- the reference

FAULTS = {"ProblemLine": "problem line", "Number": "number", "Unfinished": "unfinished"}


def outcome(cnf, proof):
    """The status and the line that is printed."""
    clauses, fault, _ = said(cnf)
    if fault:
        return f'1: (error "at {fault[1]}: {FAULTS[fault[0]]}")'
    live, next_id, refuted = dict(enumerate(clauses, 1)), len(clauses) + 1, False
    lines = proof.split(b"\n")
    if not lines[-1]:
        lines.pop()
    for n, text in enumerate(lines, 1):
        line = step(text)
        if line is None:
            return f"6: refused {n} form"
        if refuted:
            continue
        if line[0] == "delete":
            for id in line[2]:
                live.pop(id, None)
            continue
        id, lits, hints = line[1:]
        kind = "id" if id < next_id else judge(live, lits, hints)
        if kind != "ok":
            return f"6: refused {n} {kind}"
        live[id], next_id, refuted = lits, id + 1, not lits
    return "0: accepted" if refuted else f"6: refused {len(lines) + 1} refutation"


# ---- rows

def note(text):
    ROWS.extend([("", None), ("# " + text, None)])


def row(cnf, proof, give=4096):
    line = f"proof {give} {written(cnf).replace('|', chr(92) + 'x7c')}|{written(proof).replace('|', chr(92) + 'x7c')}"
    ROWS.append((line, outcome(cnf, proof)))


def dimacs(clauses):
    variables = max([1] + [abs(lit) for clause in clauses for lit in clause])
    return (f"p cnf {variables} {len(clauses)}\n" + "".join(" ".join(map(str, [*clause, 0])) + "\n" for clause in clauses)).encode()


def added(id, lits, hints):
    return " ".join(map(str, [id, *lits, 0, *hints, 0]))


def lrat(lines):
    return "".join(line + "\n" for line in lines).encode()


# ---- proofs

def refutation(clauses, rounds, live=None, lines=None):
    """A proof by splitting on variables, where no model is left: each line follows by its hints. Lines may have come before."""
    live, lines = live or dict(enumerate(clauses, 1)), lines or []
    variables = sorted({abs(lit) for clause in clauses for lit in clause})

    def close(cube):
        lits = [-lit for lit in cube]
        hints, true, done = propagated(live, set(cube), rounds)
        if not done:
            free = [v for v in variables if v not in true and -v not in true]
            v = rounds.choice(free)
            for lit in (v, -v):
                close(cube + [lit])
            hints, true, done = propagated(live, set(cube), rounds)
        id = len(clauses) + len(lines) + 1
        lines.append(added(id, lits, hints))
        live[id] = lits

    close([])
    return lines


def pigeons(n):
    """n + 1 pigeons in n holes, and their proof by extended resolution: for each n variables of a smaller problem are new."""
    var, clauses, lines = {}, [], []
    count = itertools.count(1)
    for i in range(n + 1):
        for j in range(n):
            var[n, i, j] = next(count)
    for i in range(n + 1):
        clauses.append([var[n, i, j] for j in range(n)])
    for j in range(n):
        for i, k in itertools.combinations(range(n + 1), 2):
            clauses.append([-var[n, i, j], -var[n, k, j]])
    live = dict(enumerate(clauses, 1))
    rounds = random.Random(1)

    def add(lits):
        id = max(live) + 1
        hints = judged_hints(live, lits, rounds)
        lines.append(added(id, lits, hints))
        live[id] = lits

    for m in range(n - 1, 0, -1):
        for i in range(m + 1):
            for j in range(m):
                new, old = next(count), m + 1
                var[m, i, j] = new
                # new is: i was in j, or i was in the last hole and the last pigeon in j
                a, b, c = var[old, i, j], var[old, i, m], var[old, m + 1, j]
                add([new, -a])
                add([new, -b, -c])
                add([-new, a, b])
                add([-new, a, c])
        for i in range(m + 1):
            add([var[m, i, j] for j in range(m)])
        for j in range(m):
            for i, k in itertools.combinations(range(m + 1), 2):
                add([-var[m, i, j], -var[m, k, j], var[m + 1, i, j]])
                add([-var[m, i, j], -var[m, k, j]])
    add([])
    return clauses, lines


def judged_hints(live, lits, rounds):
    """Hints that show the clause."""
    for _ in range(9):
        hints = rat_hints(live, lits, rounds)
        if judge(live, lits, hints) == "ok":
            return hints
    raise AssertionError((lits, live))


def symmetric(rounds):
    """Two of three variables are true, and two aren't; by symmetry the first is, which is shown where clauses don't hold its negation."""
    clauses = [[1, 2], [1, 3], [2, 3], [-1, -2], [-1, -3], [-2, -3]]
    return clauses, refutation(clauses, rounds)


def by_chance(rounds):
    """Clauses by chance and lines with groups, of which some don't hold; at the end the empty clause."""
    variables = rounds.randrange(2, 6)
    clauses = [random_clause(rounds, variables) for _ in range(rounds.randrange(2, 5 * variables))]
    live, lines, id = dict(enumerate(clauses, 1)), [], len(clauses)
    for _ in range(rounds.randrange(1, 12)):
        id += rounds.choice((1, 1, 1, 2))
        kind = rounds.randrange(8)
        if kind == 0:
            gone = [rounds.randrange(1, id + 1) for _ in range(rounds.randrange(3))]
            lines.append(" ".join(map(str, [id, "d", *gone, 0])))
            for one in gone:
                live.pop(one, None)
            continue
        lits = [] if kind == 1 else random_clause(rounds, variables + 2)
        if kind == 2:
            lits = [variables + rounds.randrange(3, 9)] + lits
        hints = rat_hints(live, lits, rounds)
        lines.append(added(id, lits, hints))
        if judge(live, lits, hints) == "ok":
            live[id] = lits
    if rounds.randrange(2):
        lines.append(added(id + 1, [], propagated(live, set(), rounds)[0]))
    return clauses, lines


def with_gates(rounds):
    """Clauses by chance without a model; new variables for gates, and blocked clauses, each of which has groups; and a proof."""
    variables, clauses = rounds.randrange(2, 5), []
    while has_model(clauses):
        # None has one literal alone, so that at first nothing follows from nothing.
        chosen = rounds.sample(range(1, variables + 1), rounds.randrange(2, min(variables, 3) + 1))
        clauses.append([rounds.choice((1, -1)) * variable for variable in chosen])
    live, lines = dict(enumerate(clauses, 1)), []
    for new in range(variables + 1, variables + 1 + rounds.randrange(1, 4)):
        a, b = (rounds.choice((1, -1)) * rounds.randrange(1, new) for _ in range(2))
        gate = [[new, -a, -b], [-new, a], [-new, b]]
        rounds.shuffle(gate)
        for lits in gate + ([[-new, a, b]] if rounds.randrange(2) else []):
            id, hints = len(clauses) + len(lines) + 1, rat_hints(live, lits, rounds)
            if judge(live, lits, hints) == "ok":
                lines.append(added(id, lits, hints))
                live[id] = lits
    return clauses, refutation(clauses, rounds, live, lines)


def random_clause(rounds, variables):
    return [rounds.choice((1, -1)) * rounds.randrange(1, variables + 1) for _ in range(rounds.randrange(1, 4))]


def spoil(rounds, lines):
    """A change that may or may not matter: of a number, of an order of lines, of a line."""
    lines = list(lines)
    if not lines:
        return lines
    at = rounds.randrange(len(lines))
    kind = rounds.randrange(6)
    if kind == 0:
        words = lines[at].split()
        place = rounds.randrange(len(words))
        if words[place] != "d":
            words[place] = str(int(words[place]) + rounds.choice((1, -1)))
        lines[at] = " ".join(words)
    elif kind == 1:
        lines.pop(at)
    elif kind == 2:
        lines.insert(at, lines[rounds.randrange(len(lines))])
    elif kind == 3:
        words = lines[at].split()
        words.pop(rounds.randrange(len(words)))
        lines[at] = " ".join(words)
    elif kind == 4:
        words = lines[at].split()
        if words[1:2] != ["d"]:
            zero = words.index("0", 1) if "0" in words[1:] else len(words)
            rest = words[1:zero]
            rounds.shuffle(rest)
            words[1:zero] = rest
        lines[at] = " ".join(words)
    else:
        words = lines[at].split()
        place = rounds.randrange(len(words))
        if words[place] not in ("d", "0"):
            words[place] = str(-int(words[place]))
        lines[at] = " ".join(words)
    return lines


def by_hand():
    note("one variable and its negation")
    opposite = dimacs([[1], [-1]])
    for proof in (b"3 0 1 2 0\n", b"3 0 1 2 0", b"", b"\n", b"3 0 1 2 0\n\n", b"2 0 1 2 0\n", b"3 0 2 0\n", b"3 0 1 2 0\n1 0 -9 0\n",
                  b"3 0 1 2 0\n1 0\n", b"3 0 1 2 0\r\n", b"\t3 0  1 2 0 \n", b"3 0 0\n", b"3 0 -1 0\n", b"3 0 9 0\n", b"3 d 1 0\n4 0 1 2 0\n",
                  b"3 5 6 0 0\n4 -5 -6 0 -3 0\n5 0 1 2 0\n", b"3 5 6 0 0\n4 -5 -6 0 0\n", b"3 5 6 0 0\n4 -5 -6 0 -1 0\n", b"\xff\n", b"3 0 1 2 0\n\xff"):
        row(opposite, proof)
    note("numbers at the ends of their ranges")
    for number in (2**30 - 1, 2**30, 2**30 + 1, 2**31 - 1, 2**31, 2**62 - 1, 2**62, 2**63 - 1, 2**63, 2**64, 10**30):
        for form in ("{} 0 1 2 0", "3 {} 0 0", "3 -{} 0 0", "3 0 {} 0", "3 0 -{} 0", "3 5 0 -{} 0", "3 d {} 0"):
            row(opposite, (form.format(number) + "\n4 0 1 2 0\n").encode())
        row(f"p cnf {number} 2\n1 0 -1 0\n".encode(), b"3 0 1 2 0\n")
        row(f"p cnf 1 2\n{number} 0 -{number} 0\n".encode(), b"3 0 1 2 0\n")
    note("all signs of two variables")
    four = dimacs([[1, 2], [-1, 2], [1, -2], [-1, -2]])
    row(four, b"5 2 0 1 2 0\n6 0 5 3 4 0\n")
    for give in (1, 2, 3, 7):
        row(four, b"5 2 0 1 2 0\n6 0 5 3 4 0\n", give)
    note("CNF texts with faults, empty clauses and ends of all kinds")
    for cnf in (b"", b"c\n", b"p cnf 1\n", b"p cnf 1 1\n1 x\n", b"p cnf 1 1\n1\n", b"p cnf 1 1\n1 0 %\nx", b"p  cnf 1  1\r\n1 0\r\n-1 0",
                b"p cnf 0 0\n", b"p cnf 0 1\n0\n", b"c a\np cnf 1 2\nc 1\n1\n0 -1\n0\n", b"p cnf 1 2\n1 0 -1 0 0\n", b"1 0\n", b"q cnf 1 1\n"):
        row(cnf, b"3 0 1 2 0\n")
        row(cnf, b"4 0 3 0\n")


def systematic():
    rounds = random.Random(5)
    proofs = [(dimacs(clauses), lrat(lines)) for clauses, lines in (pigeons(2), symmetric(rounds), ([[1], [-1]], ["3 5 6 0 0", "4 -5 -6 0 -3 0", "5 0 1 2 0"]))]
    note("pigeons by extended resolution")
    for n in (1, 2, 3, 4):
        clauses, lines = pigeons(n)
        row(dimacs(clauses), lrat(lines))
    for cnf, proof in proofs:
        note("each front of a proof")
        for end in range(len(proof) + 1):
            row(cnf, proof[:end])
        note("each number of it changed by one")
        lines = proof.decode().splitlines()
        for at, line in enumerate(lines):
            words = line.split()
            for place, word in enumerate(words):
                for change in (1, -1):
                    if word != "d":
                        other = " ".join(words[:place] + [str(int(word) + change)] + words[place + 1:])
                        row(cnf, lrat(lines[:at] + [other] + lines[at + 1:]))


def has_model(clauses):
    variables = max([0] + [abs(lit) for clause in clauses for lit in clause])
    return any(all(any(values[abs(lit) - 1] == (lit > 0) for lit in clause) for clause in clauses) for values in itertools.product((False, True), repeat=variables))


def all_by_chance():
    note("proofs by chance")
    for turn in range(1000):
        clauses, lines = by_chance(CHANCE) if turn % 2 else with_gates(CHANCE)
        for proof in (lrat(lines), lrat(spoil(CHANCE, lines))):
            row(dimacs(clauses), proof)
            assert ROWS[-1][1] != "0: accepted" or not has_model(clauses)


if __name__ == "__main__":
    ROWS.append(("# proof GIVE CNF|PROOF: sources of these texts that give at most GIVE bytes a call: the status, and what is printed.", None))
    by_hand()
    systematic()
    all_by_chance()
    write_part("qv_check_trim_cases", "proofs beside CNF texts", ROWS)
