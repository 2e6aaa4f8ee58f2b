#!/usr/bin/env python3
"""Writes a row for qv_check_cases with one long section, which bench/measure/sections.sh times.

    bench/measure/sections.py KIND COUNT

KIND is `steps` (COUNT lines of a refutation, most with three literals and six hints), `nodes` or `lines` (COUNT nodes or
lines of an expansion list, and then a line that is refused), or `variables` (an eigenvariable of 128 bits a line, and one bit of
each in the formulas: 8,400,000 of them ask for over 2^30 variables, which is refused at the line behind them). With a `-` before it the row has the same bytes behind a
header that is none, so that nothing of them is judged.
"""
import random
import sys

RANDOM = random.Random(20261128)


def steps(count):
    """The clauses 1 and 2 contradict each other, so that any clause follows; others are units and are hints too."""
    units = range(10, 10 + min(count // 2, 1000))
    yield "check 1 sat"
    yield "lrat"
    at = 2
    unit_ids = []
    for variable in units:
        at += 1
        unit_ids.append(at)
        yield f"{at} {variable} 0 1 2 0"
    for _ in range(count - len(units) - 1):
        at += 1
        literals = " ".join(str(RANDOM.choice([-1, 1]) * variable) for variable in RANDOM.sample(range(2000, 9000), 3))
        yield f"{at} {literals} 0 {' '.join(map(str, RANDOM.sample(unit_ids, 4)))} 1 2 0"
    yield f"{at + 1} 0 1 2 0"
    yield "end"


def nodes(count):
    yield "check 1 sat"
    yield "n 1 v 0"
    yield "n 2 c 8 17"
    for at in range(3, count + 1):
        yield f"n {at} o {RANDOM.choice(['bvadd', 'bvxor', 'bvor'])} : {RANDOM.randrange(max(1, at - 999), at)} {RANDOM.randrange(1, at)}"
    yield "refused"


def lines(count):
    yield "check 1 unsat"
    yield "n 1 c 8 17"
    for at in range(1, count + 1):
        yield f"i {at} 0 1"
    yield "refused"


def variables(count):
    yield "check 1 unsat"
    for at in range(1, count + 1):
        yield f"e {at} 0"
    yield "lrat"
    yield "end"


SECTIONS = {
    "steps": ("", steps),
    "nodes": ("v0:8 v1:8 = Ex:1:8 All:0:8", nodes),
    "lines": ("v0:8 v1:8 = All:1:8 All:0:8", lines),
    "variables": ("v0:128 extract:0:0 1:1 = Ex:0:128", variables),
}

kind, count = sys.argv[1], int(sys.argv[2])
formulas, made = SECTIONS[kind.lstrip("-")]
header = "qbv-cert 0" if kind.startswith("-") else "qbv-cert 1"
sys.stdout.write(f"check 1 4096 {formulas}|{header}\\n" + "".join(line + "\\n" for line in made(count)) + "\n")
