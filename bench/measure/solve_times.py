#!/usr/bin/env python3
"""Solves the scripts of bench/measure/solve_problems.py beside z3, cvc5 and boolector, where these are there (see bench/measure/solve.sh).

    bench/measure/solve_times.py PROGRAM SECONDS [PART-OF-A-NAME]
"""
import os
import resource
import shutil
import subprocess
import sys
import tempfile

from solve_problems import problems
from tables import keep

OTHERS = [["z3"], ["cvc5", "--incremental"], ["boolector"]]
ANSWERS = ["sat", "unsat", "unknown"]
DECIDED = ["sat", "unsat"]


def used():
    """The processor seconds of the children that have ended."""
    spent = resource.getrusage(resource.RUSAGE_CHILDREN)
    return spent.ru_utime + spent.ru_stime


def timed(command, seconds):
    """The status and what is printed, and the processor seconds that it takes; no status where it takes too many."""
    def limit():
        resource.setrlimit(resource.RLIMIT_CPU, (seconds, seconds))

    before = used()
    done = subprocess.run(command, capture_output=True, text=True, preexec_fn=limit)
    return (done.returncode if done.returncode >= 0 else None), done.stdout, used() - before


def answers(text):
    """The lines that are answers, or a dash where there are none."""
    return " ".join(line for line in text.split("\n") if line in ANSWERS) or "-"


def is_decided(answer):
    return all(word in DECIDED for word in answer.split())


def differ(first, second):
    """Whether one says sat of a check and the other unsat."""
    return any({a, b} == set(DECIDED) for a, b in zip(first.split(), second.split()))


def shown(answer, took):
    return f"{took:7.2f}" if is_decided(answer) else f"{'-':>7}"


def kept(answer, took):
    """The seconds for a table: none where nothing was decided."""
    return f"{took:.2f}" if is_decided(answer) else None


class Solved:
    """A script that qbv solved: its answer, the time, the certificate's size, and the time of its check."""

    def __init__(self, program, script, cert, seconds):
        status, out, self.took = timed([program, "solve", script, cert], seconds)
        self.answer = answers(out) if status is not None else "-"
        self.bytes = os.path.getsize(cert) if os.path.exists(cert) else 0
        self.checked, self.is_accepted = 0.0, None
        if status in [0, 1]:
            again, told, self.checked = timed([program, "check", script, cert], 100 * seconds)
            self.is_accepted = again == status and answers(told) == self.answer


def main():
    program, seconds, part = sys.argv[1], int(sys.argv[2]), (sys.argv[3:] or [""])[0]
    others = [command for command in OTHERS if shutil.which(command[0])]
    print(f"{'problem':36} answer    solve   check      bytes" + "".join(f"{command[0]:>10}" for command in others))
    keep("problem", "answer", "solve", "check", "bytes", *(command[0] for command in others))
    counts = {"qbv": 0, **{command[0]: 0 for command in others}}
    wrong = refused = 0
    with tempfile.TemporaryDirectory() as room:
        script, cert = f"{room}/script.smt2", f"{room}/cert"
        for name, text in problems():
            if part not in name:
                continue
            with open(script, "w") as file:
                file.write(text)
            if os.path.exists(cert):
                os.remove(cert)
            own = Solved(program, script, cert, seconds)
            found = []
            for command in others:
                _, out, took = timed([*command, script], seconds)
                found.append((answers(out), took))
                counts[command[0]] += is_decided(found[-1][0])
            counts["qbv"] += is_decided(own.answer)
            differs = any(differ(own.answer, answer) for answer, _ in found)
            wrong += differs
            refused += own.is_accepted is False
            keep(name, own.answer, kept(own.answer, own.took), f"{own.checked:.2f}", own.bytes, *(kept(*one) for one in found))
            note = "  ANSWERS DIFFER" * differs + "  NOT ACCEPTED" * (own.is_accepted is False)
            times = "".join(f"   {shown(*one)}" for one in found)
            print(f"{name:36} {own.answer[:6]:6} {shown(own.answer, own.took)} {own.checked:7.2f} {own.bytes:10}{times}{note}", flush=True)
    print(", ".join(f"{name} {count}" for name, count in counts.items()) + f"; {wrong} answers differ, {refused} certificates not accepted")


if __name__ == "__main__":
    main()
