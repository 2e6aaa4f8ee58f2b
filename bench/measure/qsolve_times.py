#!/usr/bin/env python3
"""Decides the quantified Boolean formulas of qsolve_problems.py (see bench/measure/qsolve.sh).

    bench/measure/qsolve_times.py PROGRAM SECONDS [PART-OF-A-NAME]
"""
import pathlib
import re
import shutil
import sys
import tempfile

from cores_times import timed
from qsolve_problems import problems, script_of
from tables import keep


def solvers(program, folder):
    """The commands that are there, by name."""
    file, script, cert = folder / "file.qdimacs", folder / "file.smt2", folder / "cert"
    commands = {
        "qbv": [program, "qsolve", file, cert],
        "depqbf": ["depqbf", file],
        "z3": ["z3", script],
        "cvc5": ["cvc5", script],
    }
    return {name: command for name, command in commands.items() if name == "qbv" or shutil.which(command[0])}


def answer_in(said):
    """What a solver says, in our words, or nothing."""
    found = re.search(r"^(sat|unsat)$", said or "", re.M | re.I)
    return found and found.group(1).lower()


def main():
    program, seconds, part = sys.argv[1], int(sys.argv[2]), (sys.argv[3:] or [""])[0]
    decided, wrong, refused = {}, 0, 0
    keep("family", "problem", "solver", "seconds", "answer", "certificate")
    with tempfile.TemporaryDirectory() as room:
        folder = pathlib.Path(room)
        known = solvers(program, folder)
        for family, name, text in problems():
            if part not in name:
                continue
            (folder / "file.qdimacs").write_text(text)
            (folder / "file.smt2").write_text(script_of(text))
            answers, shown = {}, []
            for solver, command in known.items():
                said, took = timed(command, seconds)
                answer = answer_in(said)
                size = None
                if solver == "qbv" and answer:
                    size = (folder / "cert").stat().st_size
                    checked, _ = timed([program, "qcheck", folder / "file.qdimacs", folder / "cert"], 60 * seconds)
                    refused += answer_in(checked) != answer
                if answer:
                    answers[solver] = answer
                    decided.setdefault(family, {}).setdefault(solver, []).append(took)
                shown.append(f"{took:8.2f}" if answer else "       -")
                keep(family, name, solver, f"{took:.2f}" if answer else None, answer, size)
            wrong += len(set(answers.values())) > 1
            word = "/".join(sorted(set(answers.values()))) or "-"
            print(f"{name:20} {word:6}", *shown, flush=True)
    print(f"{'decided':27}", *(f"{solver:>8}" for solver in known))
    for family, by in decided.items():
        print(f"{family:27}", *(f"{len(by.get(solver, [])):8}" for solver in known))
    print(f"{wrong} answers that differ, {refused} certificates that aren't accepted")


if __name__ == "__main__":
    main()
