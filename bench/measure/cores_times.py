#!/usr/bin/env python3
"""Asks `qbv`, z3 and cvc5 for the cores of the scripts of cores_problems.py (see bench/measure/cores.sh).

    bench/measure/cores_times.py PROGRAM SECONDS [PART-OF-A-NAME]

Each core is judged by z3: its assertions are asked again alone, and, where they are 60 or fewer, less each one.
"""
import pathlib
import re
import resource
import shutil
import subprocess
import sys
import tempfile

from cores_problems import problems
from tables import keep

MOST_JUDGED = 60


def used():
    """The processor seconds of the children that have ended."""
    spent = resource.getrusage(resource.RUSAGE_CHILDREN)
    return spent.ru_utime + spent.ru_stime


def timed(command, seconds):
    """What is printed, and the processor seconds that it takes; nothing where it takes too many."""
    def limit():
        resource.setrlimit(resource.RLIMIT_CPU, (seconds, seconds))

    before = used()
    done = subprocess.run(command, capture_output=True, text=True, preexec_fn=limit)
    return (done.stdout if done.returncode >= 0 else None), used() - before


def core_in(said):
    """The names behind `unsat`, if there are such."""
    found = re.match(r"\s*unsat\s*\(\s*((?:a\d+\s*)*)\)\s*\Z", said or "")
    return found.group(1).split() if found else None


def reduced(text, names):
    """The script with the assertions of these names alone, without the question for a core."""
    def stays(line):
        named = re.search(r":named (\w+)\)\)$", line)
        return line != "(get-unsat-core)" and (named is None or named.group(1) in names)

    return "\n".join(filter(stays, text.split("\n")))


def is_unsat(folder, text, seconds):
    path = folder / "part.smt2"
    path.write_text(text)
    said, _ = timed(["z3", path], seconds)
    return (said or "").strip() == "unsat"


def judged(folder, text, names, seconds):
    """What z3 says of a core, and whether it is one."""
    if not is_unsat(folder, reduced(text, set(names)), seconds):
        return "no core", False
    if len(names) > MOST_JUDGED:
        return "a core", True
    spare = [name for name in names if is_unsat(folder, reduced(text, set(names) - {name}), seconds)]
    return (f"{len(spare)} to spare" if spare else "minimal"), True


def solvers(program):
    """The commands that are there, by name."""
    commands = {
        "qbv": lambda path: [program, "solve", path, "-"],
        "z3": lambda path: ["z3", path],
        "z3, minimal": lambda path: ["z3", "sat.core.minimize=true", "smt.core.minimize=true", path],
        "cvc5": lambda path: ["cvc5", path],
        "cvc5, minimal": lambda path: ["cvc5", "--minimal-unsat-cores", path],
    }
    return {name: command for name, command in commands.items() if name == "qbv" or shutil.which(command("")[0])}


def main():
    program, seconds, part = sys.argv[1], int(sys.argv[2]), (sys.argv[3:] or [""])[0]
    known, wrong = solvers(program), 0
    keep("problem", "solver", "seconds", "names", "judgement")
    with tempfile.TemporaryDirectory() as room:
        folder = pathlib.Path(room)
        for name, text, only in problems():
            if part not in name:
                continue
            path = folder / "script.smt2"
            path.write_text(text)
            for solver, command in known.items():
                said, took = timed(command(path), seconds)
                names = core_in(said)
                if names is None:
                    print(f"{name:10} {solver:14}       -")
                    keep(name, solver, None, None, None)
                    continue
                word, right = judged(folder, text, names, seconds) if shutil.which("z3") else ("not judged", True)
                right = right and (only is None or only <= set(names))
                wrong += not right
                print(f"{name:10} {solver:14} {took:7.2f} {len(names):6} names  {word}", flush=True)
                keep(name, solver, f"{took:.2f}", len(names), word)
    print(f"{wrong} cores that are none")


if __name__ == "__main__":
    main()
