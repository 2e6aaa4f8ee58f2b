#!/usr/bin/env python3
"""Writes a refutation for the benchmark: CLAUSES original clauses, then STEPS additions with 2 to 20 hints.

usage: refutation.py CLAUSES STEPS ORIGINALS_FILE STEPS_FILE
       refutation.py section STEPS PRODUCTS FOLDER

The clauses come in groups of 20, each a chain of implications x(i) -> x(i+1) over 21 variables, and each
clause of a group also holds the group's own 0 to 28 further literals. A step adds x(i) -> x(i+h) with
those literals, by the h clauses between as hints. The numbers are drawn from a fixed seed.

A section is that of a script that asserts (and a (not a)) and an equation over so many products of 64 bits, of some 35,000
clauses each: FOLDER gets the `script`, its certificate `cert`, and the `clauses` of the formula and the `steps` of its
refutation as plain lines: a thousand units, further ones of three literals with six hints, and the clause without literals."""
import os
import random
import sys

sys.path.insert(1, os.path.join(os.path.dirname(os.path.abspath(__file__)), "../cases"))
from blast_cases import MOST, Blaster, Store


def formula(products):
    """(and (and a (not a)) (= x0 (bvmul x0 x1 .. ))), in words and as a script has it: so many products of 64 bits."""
    words = ["c0:bool c0:bool not and c1:64"] + [f"c{i}:64 bvmul" for i in range(2, products + 2)] + ["c1:64 = and"]
    product = " ".join(["(bvmul " * products + "x1"] + [f"x{i})" for i in range(2, products + 2)])
    return " ".join(words), f"(and (and a (not a)) (= {product} x1))"


def clauses_of(words):
    """The clauses of a formula, by the reference of bench/cases/blast_cases.py."""
    blaster = Blaster(Store(), MOST)
    blaster.formula(blaster.store.term(words))
    return blaster.circuit.clauses


def section_steps(clauses, count):
    """The formula, its first side, and that side's two sides contradict each other, so any clause follows; units are hints too."""
    rng = random.Random(2)
    (top,), last = clauses[-1], len(clauses)
    side = next(n for n in range(last, 0, -1) if sorted(clauses[n - 1]) == sorted([-top, 3]))
    false = f"{last} {side} 2 3 0"
    first, end = last + 1, last + count
    units = range(first, first + min(count - 1, 1000))
    # the formula's bit is its last variable, so those behind it stand in no clause of it
    for variable, id in enumerate(units, top + 1):
        yield f"{id} {variable} 0 {false}"
    for id in range(units.stop, end):
        lits = " ".join(str(rng.choice([-1, 1]) * v) for v in rng.sample(range(top + 2000, top + 9000), 3))
        yield f"{id} {lits} 0 {' '.join(map(str, rng.sample(units, 2)))} {false}"
    yield f"{end} 0 {false}"


def section(count, products, folder):
    words, text = formula(products)
    clauses = clauses_of(words)
    steps = "".join(line + "\n" for line in section_steps(clauses, count))
    places = range(products + 2)
    declared = "".join(f"(declare-const x{i} (_ BitVec 64))\n" for i in places[1:])
    files = {
        "clauses": "".join(f"{id} {' '.join(map(str, lits))} 0 0\n" for id, lits in enumerate(clauses, 1)),
        "steps": steps,
        "script": f"(set-logic QF_BV)\n(declare-const a Bool)\n{declared}(assert {text})\n(check-sat)\n",
        "cert": f"qbv-cert 2\ncheck 1 unsat\n{''.join(f'e {i + 1} {i}{chr(10)}' for i in places)}lrat\n{steps}end\n",
    }
    for name, text in files.items():
        with open(f"{folder}/{name}", "w") as out:
            out.write(text)


def main():
    clauses, steps = int(sys.argv[1]), int(sys.argv[2])
    rng = random.Random(1)
    variables = 1
    groups = []
    with open(sys.argv[3], "w") as out:
        for first in range(1, clauses + 1, 20):
            size = min(20, clauses + 1 - first)
            chain = variables
            variables += size + 1
            further = " ".join(str(rng.choice([-1, 1]) * v) for v in range(variables, variables + rng.randint(0, 28)))
            variables += len(further.split())
            groups.append((first, size, chain, further))
            for i in range(size):
                out.write(f"{first + i} -{chain + i} {chain + i + 1} {further} 0 0\n")
    with open(sys.argv[4], "w") as out:
        for n in range(steps):
            first, size, chain, further = groups[n % len(groups)]
            h = rng.randint(2, size)
            i = rng.randint(0, size - h)
            hints = " ".join(str(first + i + k) for k in range(h))
            out.write(f"{clauses + 1 + n} -{chain + i} {chain + i + h} {further} 0 {hints} 0\n")


if sys.argv[1] == "section":
    section(int(sys.argv[2]), int(sys.argv[3]), sys.argv[4])
else:
    main()
