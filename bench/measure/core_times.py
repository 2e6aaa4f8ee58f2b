#!/usr/bin/env python3
"""Runs the core, a plain solver with its policy (bench/measure/core_policy.cpp), minisat and cadical on each DIMACS file of a folder, and
`qbv solve` on the script beside it, where there is one. Prints a table: processor seconds, conflicts, and the peak of memory. The core's
answers are checked in a further run, by its program and against the others; those of `qbv solve` by `qbv check`.
usage: core_times.py PROGRAM POLICY FOLDER [SECONDS [QBV]]"""

import os
import re
import subprocess
import sys
import tempfile

from tables import keep


def run(command, given, limit):
    """What a command writes, its processor seconds, and its peak of memory in kilobytes."""
    with tempfile.NamedTemporaryFile("r") as times:
        measured = ["/usr/bin/env", "time", "-q", "-f", "%U %S %M", "-o", times.name, "timeout", str(limit)] + command
        done = subprocess.run(measured, input=given, stdout=subprocess.PIPE, stderr=subprocess.DEVNULL)
        user, system, peak = times.read().split()
        return done.returncode, done.stdout.decode(), float(user) + float(system), int(peak)


def number(pattern, text):
    found = re.search(pattern, text)
    return int(found[1]) if found else 0


def core(program, text, limit):
    status, out, seconds, peak = run([program], text + b"\nsolve 10000000\nconflicts\n", limit)
    if status:
        return "-", seconds, peak, 0
    lines = [line for line in out.splitlines() if line]
    answer, conflicts = lines[0], lines[-1] if lines[-1].isdigit() else 0
    return answer, seconds, peak, int(conflicts)


def minisat(name, limit):
    status, out, seconds, peak = run(["minisat", name], b"", limit)
    return {10: "satisfiable", 20: "unsatisfiable"}.get(status, "-"), seconds, peak, number(r"conflicts *: (\d+)", out)


def policy(program, name, limit):
    status, out, seconds, peak = run([program, name], b"", limit)
    return {10: "satisfiable", 20: "unsatisfiable"}.get(status, "-"), seconds, peak, number(r"conflicts *: (\d+)", out)


def cadical(name, limit):
    status, out, seconds, peak = run(["cadical", name], b"", limit)
    return {10: "satisfiable", 20: "unsatisfiable"}.get(status, "-"), seconds, peak, number(r"conflicts: *(\d+)", out)


def solve(qbv, name, limit):
    """What `qbv solve` answers to a script, whose certificate it writes and `qbv check` has to accept."""
    script, cert = f"{name[:-4]}.smt2", f"{name[:-4]}.cert"
    if not os.path.exists(script):
        return "-", 0.0, 0, 0
    words = ["--conflicts", "100000000", "--variables", "10000000"]
    status, out, seconds, peak = run([qbv, "solve", script, cert, *words], b"", limit)
    answer = {"sat\n": "satisfiable", "unsat\n": "unsatisfiable"}.get(out, "-") if status == 0 else "-"
    if answer != "-" and "accepted" not in run([qbv, "check", script, cert], b"", 10 * limit)[1]:
        answer = "refused"
    return answer, seconds, peak, 0


def main():
    program, plain, folder = sys.argv[1:4]
    limit = int(sys.argv[4]) if len(sys.argv) > 4 else 100
    qbv = sys.argv[5] if len(sys.argv) > 5 else os.path.join(os.path.dirname(os.path.abspath(__file__)), "../../dist/qbv")
    names = sorted(name for name in os.listdir(folder) if name.endswith(".cnf"))
    floor = run([program], b"# nothing\n", limit)[3]
    sums, common, wrong = [0.0] * 5, [0.0] * 5, 0
    solvers = ["policy", "minisat", "cadical", "solve"]
    heads = f"{'core s':>8} " + " ".join(f"{one:>8}" for one in solvers) + f" {'conflicts':>10} " + " ".join(f"{one:>9}" for one in solvers)
    print(f"{'problem':20} {'answer':14} {heads} {'KB a conflict':>13}")
    keep("problem", "answer", "core", *solvers, "conflicts", *(f"conflicts of {one}" for one in solvers), "KB a conflict")
    for name in names:
        with open(os.path.join(folder, name), "rb") as it:
            text = it.read()
        path = os.path.join(folder, name)
        runs = [core(program, text, limit), policy(plain, path, limit), minisat(path, limit), cadical(path, limit), solve(qbv, path, limit)]
        answers = {run[0] for run in runs} - {"-"}
        note = ""
        if runs[0][0] != "-":
            verdict = run([program], text + b"\nsolve 10000000\njudge\n", 10 * limit)[1].split()[1:]
            if verdict != ["right"] or len(answers) > 1:
                note, wrong = f"  WRONG: {verdict} {answers}", wrong + 1
        for place, one in enumerate(runs):
            sums[place] += one[1]
            if all(each[0] != "-" for each in (runs[0], runs[2], runs[4])):
                common[place] += one[1]
        each = (runs[0][2] - floor) / runs[0][3] if runs[0][3] else 0
        kept = ["" if one[0] == "-" else f"{one[1]:.2f}" for one in runs]
        keep(name[:-4], runs[0][0], *kept, *(one[3] for one in runs), f"{each:.2f}")
        print(f"{name[:-4]:20} {runs[0][0]:14} " + " ".join(f"{one[1]:8.2f}" for one in runs) + f" {runs[0][3]:10} " + " ".join(f"{one[3]:9}" for one in runs[1:]) + f" {each:13.2f}{note}", flush=True)
    print(f"{'sum':35} " + " ".join(f"{one:8.2f}" for one in sums) + f"   core by minisat: {sums[0] / max(sums[2], 0.01):.2f}, policy by minisat: {sums[1] / max(sums[2], 0.01):.2f}; wrong: {wrong}")
    print(f"{'of those that core, minisat and solve decide':35} " + " ".join(f"{one:8.2f}" for one in common) +
          f"   solve by minisat: {common[4] / max(common[2], 0.01):.2f}")


if __name__ == "__main__":
    main()
