#!/usr/bin/env python3
"""Plays the problems of bench/measure/game_problems.py, beside z3 and cvc5 where these are there (see bench/measure/game.sh).

    bench/measure/game_times.py PROGRAM SECONDS [PART-OF-A-NAME]
"""
import os
import resource
import shutil
import subprocess
import sys
import tempfile

sys.path.insert(1, os.path.join(os.path.dirname(os.path.abspath(__file__)), "../cases"))
from game_formulas import line_of, script
from game_problems import generated, worked
from tables import keep

LIMITS = (1_000_000, 10_000, 4_000_000)
WINNERS = {"Exists": "sat", "Forall": "unsat"}


def used():
    """The processor seconds of the children that have ended."""
    spent = resource.getrusage(resource.RUSAGE_CHILDREN)
    return spent.ru_utime + spent.ru_stime


def timed(command, text, seconds):
    """What is printed, and the processor seconds that it takes; nothing where it takes too many."""
    def limit():
        resource.setrlimit(resource.RLIMIT_CPU, (seconds, seconds))

    before = used()
    done = subprocess.run(command, input=text, capture_output=True, text=True, preexec_fn=limit)
    return (done.stdout.strip() if done.returncode >= 0 else None), used() - before


def played(program, formulas, seconds):
    line = f"game count {' '.join(map(str, LIMITS))} {line_of(formulas)}\n"
    told, took = timed([program], line, seconds)
    if told is None:
        return "-", "", "", took
    answer, instances, conflicts = told.split(", ")
    return WINNERS.get(answer, answer), instances.split()[1], conflicts.split()[1], took


def solved(command, formulas, seconds):
    with tempfile.NamedTemporaryFile("w", suffix=".smt2") as file:
        file.write(script(formulas))
        file.flush()
        told, took = timed([*command, file.name], "", seconds)
    return (told if told in ["sat", "unsat"] else "-"), took


def shown(answer, took):
    return "      -" if answer == "-" else f"{took:7.2f}"


def main():
    program, seconds, part = sys.argv[1], int(sys.argv[2]), (sys.argv[3:] or [""])[0]
    others = [[name] for name in ["z3", "cvc5"] if shutil.which(name)]
    print(f"{'problem':28} blocks answer           instances conflicts   game" + "".join(f"{c[0]:>8}" for c in others))
    keep("problem", "blocks", "answer", "instances", "conflicts", "game", *(c[0] for c in others))
    counts = {"played": 0, **{c[0]: 0 for c in others}}
    for name, blocks, formulas in [*worked(), *generated()]:
        if part not in name:
            continue
        answer, instances, conflicts, took = played(program, formulas, seconds)
        found = [solved(command, formulas, seconds) for command in others]
        known = {a for a, _ in found if a != "-"} | ({answer} & {"sat", "unsat"})
        counts["played"] += answer in ["sat", "unsat"]
        for command, (other, _) in zip(others, found):
            counts[command[0]] += other != "-"
        times = " ".join(shown(*one) for one in found)
        kept = [shown(*one).strip(" -") for one in [(answer, took), *found]]
        keep(name, blocks, answer, instances, conflicts, *kept)
        wrong = "  ANSWERS DIFFER" if len(known) > 1 else ""
        print(f"{name:28} {blocks:6} {answer:16} {instances:>9} {conflicts:>9} {shown(answer, took)} {times}{wrong}", flush=True)
    print(", ".join(f"{name} {count}" for name, count in counts.items()))


if __name__ == "__main__":
    main()
