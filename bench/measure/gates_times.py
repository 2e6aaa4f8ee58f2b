#!/usr/bin/env python3
"""Compares clauses of files with the lists that stand for them in certificates (see bench/measure/gates.sh).

    bench/measure/gates_times.py PROGRAM FOLDER SECONDS
"""
import pathlib
import re
import shutil
import sys

from cores_times import timed
from tables import keep

NAMES = [
    "random-150-1", "random-150-2", "random-200-2", "pigeons-7", "parity-20",
    "adder-64", "sum-16", "division-3", "square-10", "multiplier-6",
]


def answer_of(said):
    found = re.search(r"^(sat|unsat|unknown)$", said or "", re.M)
    return found.group(1) if found else "-"


def solved(program, file, cert, variables, seconds):
    """What is answered within so many variables, and the seconds."""
    said, took = timed([program, "qsolve", file, cert, "--variables", str(variables)], seconds)
    return answer_of(said), took


def variables_of(program, file, cert, seconds):
    """The least limit of variables within which the problem is answered: so many its list has."""
    low, high = 1, 4_000_000
    while low < high:
        middle = (low + high) // 2
        # Where the list has more, that is said before any search.
        answer, _ = solved(program, file, cert, middle, seconds)
        low, high = (middle + 1, high) if answer == "unknown" else (low, middle)
    return low


def clauses_of(cert):
    """How many clauses the list of a certificate's section has: the first step's number, less one."""
    steps = re.search(r"^lrat\n(\d+) ", cert.read_text(), re.M)
    return int(steps.group(1)) - 1 if steps else None


def main():
    program, folder, seconds = sys.argv[1], pathlib.Path(sys.argv[2]), int(sys.argv[3])
    keep("problem", "answer", "variables", "clauses", "listed variables", "listed clauses", "qbv", "minisat")
    cert = folder / "cert"
    for name in NAMES:
        file = folder / f"{name}.cnf"
        head = re.search(r"^p cnf (\d+) (\d+)$", file.read_text(), re.M)
        answer, took = solved(program, file, cert, 4_000_000, seconds)
        clauses = clauses_of(cert)
        listed = variables_of(program, file, cert, seconds)
        other = None
        if shutil.which("minisat"):
            said, spent = timed(["minisat", "-verb=0", file], seconds)
            other = f"{spent:.2f}" if said is not None else None
        row = [name, answer, head.group(1), head.group(2), listed, clauses, f"{took:.2f}", other]
        keep(*row)
        print(f"{row[0]:14} {row[1]:6}", *(f"{str(cell or '-'):>9}" for cell in row[2:]), flush=True)


if __name__ == "__main__":
    main()
