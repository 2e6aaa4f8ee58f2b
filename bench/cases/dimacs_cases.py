#!/usr/bin/env python3
"""Writes the cases of qv_sat_dimacs_cases. Answers come from minisat and cadical, which have to agree, and what is said of restarts
and deletions from a plain solver with the same policy (core_policy.cpp), which needs a C++ compiler.
usage: dimacs_cases.py"""

import itertools
import os
import random
import re
import subprocess
import tempfile

from core_problems import Gates, adders, factors, multipliers, parities, pigeons, three_sat

HOME = os.path.join(os.path.dirname(os.path.abspath(__file__)), "../../crates/qv_sat_dimacs_cases")
LINES, ANSWERS = [], []


def note(*texts):
    for text in texts:
        LINES.append("# " + text)
        ANSWERS.append("# " + text)


def gap():
    LINES.append("")
    ANSWERS.append("")


def ask(line, *answers):
    LINES.append(line)
    ANSWERS.extend(answers)


def dimacs(clauses):
    variables = max([1] + [abs(lit) for clause in clauses for lit in clause])
    return [f"p cnf {variables} {len(clauses)}"] + [" ".join(map(str, clause)) + " 0" for clause in clauses]


def run(command, clauses):
    with tempfile.TemporaryDirectory() as room:
        name = os.path.join(room, "x.cnf")
        with open(name, "w") as it:
            it.write("\n".join(dimacs(clauses)) + "\n")
        return subprocess.run(command + [name], capture_output=True, text=True)


def has_model(clauses):
    answers = {run(command, clauses).returncode for command in (["minisat", "-verb=0"], ["cadical", "-q"])}
    assert answers in ({10}, {20}), answers
    return answers == {10}


def problem(text, clauses, limit=1000000, policy=None):
    note(text)
    LINES.extend(dimacs(clauses))
    ask(f"solve {limit}", "satisfiable" if has_model(clauses) else "unsatisfiable")
    ask("judge", "right")
    if policy:
        ask("policy", policy)
    gap()


class Equations:
    """Equations of a few variables each over the bits, such that no two variables are bound."""

    def __init__(self, variables, count, seed, width=5):
        rounds = random.Random(seed)
        self.variables = variables
        self.rows = []
        while len(self.rows) < count:
            self.rows.append((rounds.sample(range(variables), width), rounds.randrange(2)))
            if not self.is_loose():
                self.rows.pop()

    def is_loose(self):
        """Whether each two variables have all four pairs of values in solutions: then no clause of one or two literals follows."""
        rows = [sum(1 << v for v in row) for row, _ in self.rows]
        pivots = {}
        for row in rows:
            while row and row.bit_length() - 1 in pivots:
                row ^= pivots[row.bit_length() - 1]
            if not row:
                return False
            pivots[row.bit_length() - 1] = row
        free = [v for v in range(self.variables) if v not in pivots]
        values = {v: 1 << place for place, v in enumerate(free)}
        for v in sorted(pivots):
            values[v] = 0
            for w in range(v):
                if pivots[v] >> w & 1:
                    values[v] ^= values[w]
        return 0 not in values.values() and len(set(values.values())) == self.variables

    def clauses(self):
        out = []
        for row, parity in self.rows:
            for signs in range(2 ** len(row)):
                if bin(signs).count("1") % 2 != parity:
                    out.append([-(v + 1) if signs >> place & 1 else v + 1 for place, v in enumerate(row)])
        return out


def plain(clauses, limit):
    """What a plain solver with the core's policy does of a problem within a limit of conflicts: its lines by their first word."""
    with tempfile.TemporaryDirectory() as room:
        program = os.path.join(room, "policy")
        subprocess.run(["c++", "-O2", "-o", program, os.path.join(os.path.dirname(os.path.abspath(__file__)), "../measure/core_policy.cpp")], check=True)
        out = run([program, str(limit)], clauses).stdout
    return {word: int(number) for word, number in re.findall(r"(\w+) : (\d+)", out)}


def deletions(limit):
    """After how many hundreds of conflicts clauses go: the first time each was used of late, so none goes."""
    after, interval, out = 500, 500, []
    while True:
        interval += 100
        after += interval
        if after > limit:
            return out
        out.append(f"after {after}")


def heading():
    note("Problems in the DIMACS format, and lines that ask about the one before. bench/cases/dimacs_cases.py writes this file and stdout.",
         "",
         "solve LIMIT    asks a new core, with at most LIMIT conflicts",
         "judge          whether the answer is right: a model makes each clause true, and a checker takes each step and refutes the clauses",
         "conflicts      how many conflicts there were",
         "steps          the LRAT lines of what was learnt and deleted",
         "learnt         the clauses that were learnt, each with its literals in the order of their variables",
         "deletions      for each step that deletes: after how many hundreds of additions",
         "work           how many conflicts and reductions of the learnt clauses there were",
         "policy         whether there were restarts, and reductions while literals were assumed",
         "chain N        a trail with N clauses, each of which says that an odd variable implies the next one: how many literals are",
         "               true when the odd ones were assumed one after another, with a quiet propagation before each")
    gap()


def forms():
    note("No problem is an empty one.")
    ask("solve 0", "satisfiable")
    ask("judge", "right")
    ask("conflicts", "0")
    for word in ("steps", "learnt", "deletions"):
        ask(word)
    gap()
    note("Clauses may go over several lines, and several may stand on one.")
    for line in ("c a comment", "p cnf 3 4", "1 2", "0 -1 0 -2", "3 0", "-3 0"):
        LINES.append(line)
    ask("solve 0", "spent")
    ask("judge", "right")
    ask("conflicts", "0")
    ask("solve 1", "unsatisfiable")
    ask("judge", "right")
    ask("conflicts", "1")
    gap()
    note("What is no problem.")
    for lines in (["p cnf 1"], ["p sat 1 1"], ["p cnf x 1"], ["p cnf 1 -1"], ["p cnf 1 1 1"]):
        for line in lines:
            ask(line, "bad case")
    ask("p cnf 1 1")
    ask("solve 1", "bad case")
    ask("1")
    ask("solve 1", "bad case")
    ask("0 -1 0")
    ask("solve 1", "bad case")
    ask("p cnf 1 1")
    ask("0")
    ask("solve 1", "bad case")
    ask("judge", "bad case")
    ask("p cnf 1 1")
    for line in ("x 0", "1073741825 0", "1 solve", "solve", "solve -1", "solve 1 2", "judge", "conflicts", "steps", "learnt", "deletions"):
        ask(line, "bad case")
    gap()


def small():
    problem("Three pigeons in two holes.", pigeons(3, 2))
    for birds in (4, 5, 6):
        problem(f"{birds} pigeons in {birds - 1} holes.", pigeons(birds, birds - 1))
    problem("5 pigeons in 5 holes.", pigeons(5, 5))
    problem("Seven pigeons in six holes.", pigeons(7, 6))
    for inputs in (6, 10, 14):
        problem(f"The parity of {inputs} bits in two orders.", parities(inputs, 2))
    for width in (2, 3, 4):
        problem(f"Two multipliers of {width} bits.", multipliers(width))
    for width, block in ((8, 3), (16, 4), (32, 8)):
        problem(f"Two adders of {width} bits.", adders(width, block))
    for number in (143, 127, 221, 211):
        problem(f"Factors of {number}.", factors(8, number))
    for variables in (30, 50, 70, 90):
        for seed in range(4):
            problem(f"Random clauses over {variables} variables, from seed {seed}.", three_sat(variables, seed))


def learning():
    """The first conflict, whatever order clauses propagate in: variables are decided from the greatest number on, as true. Where 2 is
    false there is a conflict too, so none of the descents that learn nothing finds a model: each but the first has outputs false."""
    for text, clauses, learnt in (
        ("Where 6 and 4 are true the last two clauses are at odds. -5 came of 6 alone: 5 is left out.",
         [[-6, -5], [-6, -4, -3], [5, -4, 3]], [-4, -6]),
        ("7 and 5 are true. -6 came of 7 and of -3, which is true at the start: 6 is left out.",
         [[-3], [-7, -6, 3], [-7, -5, -4], [6, -5, 4]], [-5, -7]),
        ("Where 7, 6 and 4 are true the last two are at odds. -5 came of 7 and of 6, which isn't in the clause: 5 stays.",
         [[-7, -6, -5], [-7, -4, -3], [5, -4, 3]], [-4, 5, -7]),
        ("-5 came of -6, which came of 7: both are in the last two, and both are left out.",
         [[-7, -6], [6, -5], [-7, -4, 6, -3], [-4, 5, 3]], [-4, -7]),
        ("-5 came of -6 and -6 of 7, but 6 isn't in the last two: 5 stays.",
         [[-7, -6], [6, -5], [-7, -4, -3], [-4, 5, 3]], [-4, 5, -7]),
    ):
        clauses = [[2, 1], [2, -1]] + clauses
        note(text)
        LINES.extend(dimacs(clauses))
        ask("solve 10", "satisfiable" if has_model(clauses) else "unsatisfiable")
        ask("judge", "right")
        ask("conflicts", "1")
        ask("learnt", " ".join(map(str, learnt)) + " 0")
        gap()


def most(gates, *lits):
    """Whether most of three literals are true, or one of two."""
    out = gates.new()
    for sign in (1, -1):
        for some in itertools.combinations(lits, 2) if len(lits) == 3 or sign == 1 else [[lit] for lit in lits]:
            gates.add(-sign * out, *(sign * lit for lit in some))
    return out


def neighbours():
    """Words each below the next: there is no carry out of the difference, which begins with a carry."""
    note("Words each below the next, numbered ahead of all gates or each where it is met. Whether they rise or fall as they are numbered,",
         "no conflict is needed.")
    for falling, ahead in itertools.product((False, True), repeat=2):
        gates = Gates()
        words = {place: gates.word(6) for place in range(20)} if ahead else {}
        for place in range(19):
            for each in (place, place + 1):
                if each not in words:
                    words[each] = gates.word(6)
            low, high = (place + 1, place) if falling else (place, place + 1)
            carry = []
            for a, b in zip(words[low], words[high]):
                carry = [most(gates, a, -b, *carry)]
            gates.add(-carry[0])
        LINES.extend(dimacs(gates.clauses))
        ask("solve 0", "satisfiable")
        ask("judge", "right")
        gap()


def policies():
    note("Equations over bits, of which no clause of one or two literals follows, so that no literal is true at level 0. Clauses go",
         "after 1100 conflicts, or a few more, then after 1800, 2600, ..")
    for seed in (2, 3):
        clauses = Equations(160, 142, seed).clauses()
        assert run(["cadical", "-q", "-c", "5000"], clauses).returncode == 0, "too easy"
        LINES.extend(dimacs(clauses))
        for limit in (499, 1050, 1150, 1750, 1850):
            ask(f"solve {limit}", "spent")
            ask("judge", "right")
            ask("conflicts", str(limit))
            ask("deletions", *deletions(limit))
            ask("work", f"conflicts {limit} reductions {len(deletions(limit))}")
        gap()
    clauses = pigeons(8, 7)
    work = plain(clauses, 10000)
    assert work["restarts"] > 20 and work["above"] > 1, work
    problem("Eight pigeons in seven holes.", clauses, policy="restarts some, reductions above level 0 some")
    clauses = adders(64, 16)
    work = plain(clauses, 10000)
    assert work["conflicts"] < 7000, work
    note("With activities that don't fade and rare restarts this takes over 60,000 conflicts.")
    problem("Two adders of 64 bits.", clauses, 8000)


def chains():
    note("A walk along all clauses at each propagation would take days here.")
    for pairs in (0, 1, 2, 1000, 300000):
        ask(f"chain {pairs}", str(2 * pairs))
    for line in ("chain", "chain -1", "chain 4294967296", "chain 1 2"):
        ask(line, "bad case")


def main():
    for part in (heading, forms, small, learning, neighbours, policies, chains):
        part()
    for name, lines in (("stdin", LINES), ("stdout", ANSWERS)):
        with open(os.path.join(HOME, name), "w") as it:
            it.writelines((line + "\n").replace("# \n", "#\n") for line in lines)
    print(f"{len(LINES)} lines")


if __name__ == "__main__":
    main()
