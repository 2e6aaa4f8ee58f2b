#!/usr/bin/env python3
"""Writes the cases of qv_gates_cases: `gate_cases.py PROGRAM` writes crates/qv_gates_cases/stdin, runs the program on it, and
writes its answers to stdout where no fault is found in them. What may follow from a clause list is not determined by the
list, so the answers are read again from the rules:

- each clause behind the given ones follows by its hints, by unit propagation written here;
- a literal that stands for a variable has its value wherever the given clauses are true, which all values of the inputs show,
  and two of the clauses behind say so;
- "refuted" is said where a clause without literals came, and then no values make the given clauses true;
- the clauses that are to be searched have values, on the variables that they name and that the given ones name, just where the
  given clauses have;
- of the rows by rules, each variable that is equal to a constant or to an earlier variable has something that stands for it:
  what is equal wherever the clauses are true is found out by trying all values;
- of the rows of trees, those that are to be searched are the very clauses that were written as trees of disjunctions, and
  what says that 1 is true.

`close ROUNDS CLAUSES` closes these clauses, `same COUNT` and `apart COUNT` so many conjunctions of two variables, or of each
two neighbours: the answer is how many variables have another that stands for them, and how many of these there are.
"""
import random
import subprocess
import sys
from itertools import product
from os import path

from circuit_cases import Circuit

TOP = path.join(path.dirname(path.abspath(__file__)), "..", "..", "crates", "qv_gates_cases")


class Fault(Exception):
    pass


def wants(fact, said):
    if not fact:
        raise Fault(said)


# ---- clauses

def is_true(lit, values):
    return values[abs(lit)] == (lit > 0)


def models(clauses, variables):
    """The values of these variables that make all clauses true, each a dictionary."""
    def spread(values):
        while True:
            found = False
            for clause in clauses:
                if any(abs(l) in values and is_true(l, values) for l in clause):
                    continue
                open_lits = {l for l in clause if abs(l) not in values}
                if not open_lits:
                    return False
                if len(open_lits) == 1:
                    (lit,) = open_lits
                    values[abs(lit)] = lit > 0
                    found = True
            if not found:
                return True

    def go(values):
        if not spread(values):
            return
        free = [v for v in variables if v not in values]
        if not free:
            yield values
            return
        for value in (False, True):
            yield from go({**values, free[0]: value})

    yield from go({})


def follows(clauses, lits, hints):
    known = {-l for l in lits}
    for hint in hints:
        left = {l for l in clauses[hint] if -l not in known}
        if not left:
            return True
        if len(left) > 1 or left & known:
            return False
        known |= left
    return False


# ---- reading an answer again

def judge(clauses, answer, is_whole, whole=None):
    head, *steps, kept, of = answer.split("; ")
    wants(int(of.split()[1]) == len(clauses), "how many were given")
    word, *equal = head.split()
    variables = sorted({abs(l) for c in clauses for l in c})
    all_models = list(models(clauses, variables))
    named = {n + 1: c for n, c in enumerate(clauses)}
    for step in steps:
        lits, hints = ([int(w) for w in part.split()] for part in (f" {step} ").split(" 0 "))
        wants(follows(named, lits, hints), f"{lits} doesn't follow")
        named[len(named) + 1] = lits
    wants((word == "refuted") == ([] in named.values()), "refuted")
    wants(word != "refuted" or not all_models, "refuted, with a model")
    stands = {int(v): int(l) for v, l in (e.split("=") for e in equal)}
    for v, lit in stands.items():
        wants(all(m[v] == is_true(lit, m) for m in all_models), f"{v} isn't {lit}")
        wants([-v, lit] in named.values() and [v, -lit] in named.values(), f"{v}={lit} isn't said")
    searched = [named[int(i)] for i in kept.split()[1:]]
    if word != "refuted":
        here = sorted({abs(l) for c in searched for l in c} & set(variables))
        wants({tuple(m[v] for v in here) for m in all_models} == {tuple(m[v] for v in here) for m in models(searched, here)}, "what is searched")
    if whole and word != "refuted" and not stands_for_inputs(stands, whole):
        wants({frozenset(c) for c in searched} == whole, "the clauses that are trees")
    if is_whole and all_models:
        for v in variables:
            same = [w for w in variables if w < v and len({m[w] == m[v] for m in all_models}) == 1]
            wants(not same or v in stands, f"{v} is equal to {same}")
    return word, len(stands)


def stands_for_inputs(stands, whole):
    return any(v in stands for lits in whole for v in map(abs, lits))


# ---- rows

def row(rounds, clauses):
    return f"close {rounds} " + " ".join(" ".join(map(str, c)) + " 0" for c in clauses)


def circuit(inputs):
    made = Circuit(2 + inputs, 2**30)
    made.clauses.append([1])
    return made, list(range(2, 2 + inputs))


def by_rules():
    """A gate, or several, and what is equal by a rule."""
    def case(inputs, build):
        made, bits = circuit(inputs)
        build(made, *bits)
        return made.clauses

    yield "a constant input", case(2, lambda c, x, y: [c.AND(x, 1), c.AND(-1, y), c.XOR(x, 1), c.XOR(-1, y)])
    yield "inputs that are equal or opposite", case(2, lambda c, x, y: [c.AND(x, x), c.AND(x, -x), c.XOR(x, x), c.XOR(-y, y)])
    yield "a condition that is known", case(2, lambda c, x, y: [c.MUX(1, x, y), c.MUX(-1, x, y), c.MUX(x, y, y), c.MUX(x, x, -x)])
    yield "a branch that is known", case(2, lambda c, x, y: [c.MUX(x, 1, y), c.OR(x, y), c.MUX(x, y, -1), c.AND(y, x)])
    yield "opposite branches", case(2, lambda c, x, y: [c.MUX(x, y, -y), c.XOR(y, x)])
    yield "a majority with a known input", case(2, lambda c, x, y: [c.MAJ(1, x, y), c.OR(y, x), c.MAJ(x, -1, y), c.AND(x, y)])
    yield "a majority of equal or opposite inputs", case(2, lambda c, x, y: [c.MAJ(x, x, y), c.MAJ(x, y, -x), c.MAJ(-y, y, x)])
    yield "inputs in another order", case(3, lambda c, x, y, z: [c.AND(x, y), c.AND(y, x), c.MAJ(x, y, z), c.MAJ(z, x, y), c.XOR(z, y), c.XOR(y, z)])
    yield "other signs", case(3, lambda c, x, y, z: [c.XOR(x, y), c.XOR(-x, y), c.XOR(x, -y), c.MUX(x, y, z), c.MUX(-x, z, y), c.MUX(x, -y, -z)])
    yield "a majority of negations", case(3, lambda c, x, y, z: [c.MAJ(x, y, z), c.MAJ(-x, -y, -z), c.MAJ(-z, -x, -y)])
    yield "x and (x and y)", case(2, lambda c, x, y: (lambda t: [c.AND(x, t)])(c.AND(x, y)))
    yield "x and not (x and y)", case(2, lambda c, x, y: (lambda t: [c.AND(x, -t), c.AND(x, -y)])(c.AND(x, y)))
    yield "x and (x xor y)", case(2, lambda c, x, y: (lambda t: [c.AND(x, t), c.AND(x, -y)])(c.XOR(x, y)))
    yield "x and a choice by x", case(3, lambda c, x, y, z: (lambda t: [c.AND(x, t), c.AND(x, y)])(c.MUX(x, y, z)))
    yield "(x xor y) xor x", case(2, lambda c, x, y: (lambda t: [c.XOR(t, x)])(c.XOR(x, y)))
    yield "(x and y) xor x", case(2, lambda c, x, y: (lambda t: [c.XOR(t, x), c.AND(x, -y)])(c.AND(x, y)))
    yield "a choice under the same condition", case(4, lambda c, x, y, z, w: (lambda t: [c.MUX(x, t, w), c.MUX(x, y, w)])(c.MUX(x, y, z)))
    yield "conjunctions with an opposite input", case(3, lambda c, x, y, z: [c.AND(c.AND(x, y), c.AND(-x, z))])
    yield "or of parts", case(2, lambda c, x, y: [c.OR(c.AND(x, y), c.AND(x, -y))])
    yield "a sum turned", case(4, lambda c, x, y, z, w: [c.ADD([x, y], [z, w], -1), c.ADD([z, w], [x, y], -1)])
    yield "a double negation", case(3, lambda c, x, y, z: [c.NEG(c.NEG([x]))])
    yield "a conjunction that is true", case(3, lambda c, x, y, z: c.clauses.append([c.AND(c.AND(x, -y), z)]))
    yield "a difference that is known", case(3, lambda c, x, y, z: c.clauses.append([-c.XOR(x, y)]) or [c.AND(x, z), c.AND(y, z)])
    yield "a sum that is something else", case(2, lambda c, x, y: c.clauses.append([-c.EQ([c.XOR(x, y)], [c.OR(c.AND(x, -y), c.AND(-x, y))])]))
    yield "no gate", [[2, 3], [-2, 3], [3, -4]]
    yield "no clause", []
    yield "a clause without literals", [[2], []]
    yield "what is contradicted", [[2], [-2], [3, 4]]


def by_chance(chosen):
    made, bits = circuit(chosen.randint(2, 5))

    def lit():
        return chosen.choice([1, -1]) * (1 if chosen.random() < 0.1 else chosen.choice(bits))

    for _ in range(chosen.randint(3, 14)):
        kind = chosen.choice([made.AND, made.XOR, made.MUX, made.MAJ])
        count = 2 if kind in (made.AND, made.XOR) else 3
        bits.append(kind(*(lit() for _ in range(count))))
    for _ in range(chosen.randint(0, 3)):
        made.clauses.append([lit() for _ in range(chosen.choice([1, 1, 2, 3]))])
    return made.clauses


TREES = {}


def trees(chosen):
    """Clauses by chance of which none contains another, each written as a tree of disjunctions, and its root alone."""
    made, bits = circuit(chosen.randint(4, 7))

    def tree(lits):
        if len(lits) == 1:
            return lits[0]
        at = chosen.randint(1, len(lits) - 1)
        return made.OR(tree(lits[:at]), tree(lits[at:]))

    whole = []
    for _ in range(chosen.randint(2, 6)):
        lits = [chosen.choice([1, -1]) * b for b in chosen.sample(bits, chosen.randint(2, len(bits)))]
        if not any(set(lits) <= set(other) or set(other) <= set(lits) for other in whole):
            whole.append(lits)
    for lits in whole:
        made.clauses.append([tree(lits)])
    return made.clauses, {frozenset(lits) for lits in whole} | {frozenset([1])}


def cases():
    yield "# Each line but comments and empty lines is a case, answered by the same line of stdout. bench/cases/gate_cases.py writes both.", None, False
    yield "#", None, False
    for line in ["close ROUNDS CLAUSES   each with a 0 behind it: whether the clauses are refuted, what stands for the variables, the",
                 "                       clauses behind the given ones, each with a 0 and its hints, the ids of those that are to be",
                 "                       searched, and how many were given",
                 "same COUNT             so many conjunctions of two variables: how many have another that stands for them, and of these",
                 "                       how many that differ from the one before",
                 "apart COUNT            so many conjunctions, each of two neighbours"]:
        yield f"# {line}", None, False
    for name, clauses in by_rules():
        yield f"# {name}", None, False
        yield row(4, clauses), clauses, True
    yield "# no round", None, False
    yield row(0, next(by_rules())[1]), next(by_rules())[1], False
    yield "# by chance", None, False
    chosen = random.Random(20261129)
    for _ in range(120):
        clauses = by_chance(chosen)
        yield row(3, clauses), clauses, False
    yield "# clauses that are trees of gates", None, False
    while len(TREES) < 30:
        clauses, whole = trees(chosen)
        line = row(3, clauses)
        TREES[line] = whole
        yield line, clauses, False
    yield "# many", None, False
    yield "same 20000", "19999 1", False
    yield "apart 20000", "0 0", False
    yield "# what is no case", None, False
    for line in ["close", "close x", "close 1 1", "close 1 x 0", "same", "same x", "merge 1 1 0"]:
        yield line, "bad case", False


def main():
    rows = list(cases())
    given = "".join(line + "\n" for line, _, _ in rows)
    with open(path.join(TOP, "stdin"), "w") as it:
        it.write(given)
    got = subprocess.run([sys.argv[1]], input=given, capture_output=True, text=True, check=True).stdout.split("\n")
    refuted = stands = faults = 0
    for (line, clauses, is_whole), answer in zip(rows, got):
        if clauses is None or isinstance(clauses, str):
            said = line if clauses is None else clauses
            if answer != said:
                faults += 1
                print(f"{line}\n  {answer}\n  and not {said}")
            continue
        try:
            word, count = judge(clauses, answer, is_whole, TREES.get(line))
            refuted += word == "refuted"
            stands += count
        except (Fault, ValueError, KeyError, IndexError) as fault:
            faults += 1
            print(f"{line}\n  {answer}\n  {fault!r}")
    print(f"{len(rows)} lines, {refuted} refuted, {stands} variables that others stand for, {faults} faults")
    if faults:
        sys.exit(1)
    with open(path.join(TOP, "stdout"), "w") as it:
        it.write("\n".join(got))


if __name__ == "__main__":
    main()
