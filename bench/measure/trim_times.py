#!/usr/bin/env python3
"""Trims the certificates of unsat scripts, and has the trimmed ones checked (see bench/measure/trim.sh).

    bench/measure/trim_times.py PROGRAM SECONDS [PART-OF-A-NAME]
"""
import pathlib
import subprocess
import sys
import tempfile

from solve_problems import problems
from solve_times import answers, timed
from tables import keep


def peak(command):
    """The greatest memory of a command, in KiB."""
    measured = ["/usr/bin/env", "time", "-f", "%M", *command]
    return int(subprocess.run(measured, capture_output=True, text=True).stderr.split()[-1])


def main():
    program, seconds, part = sys.argv[1], int(sys.argv[2]), (sys.argv[3:] or [""])[0]
    wrong, before, after, largest = 0, 0, 0, (0, None)
    keep("script", "bytes", "trimmed", "check", "trim", "check of the trimmed")
    with tempfile.TemporaryDirectory() as room:
        folder = pathlib.Path(room)
        script, cert, new, again = (folder / name for name in ("script.smt2", "cert", "new", "again"))
        for name, text in problems():
            if part not in name:
                continue
            script.write_text(text)
            status, said, _ = timed([program, "solve", script, cert], seconds)
            if status != 0 or "unsat" not in said.split():
                continue
            _, checked, check = timed([program, "check", script, cert], 10 * seconds)
            status, printed, trim = timed([program, "trim", script, cert, new], 30 * seconds)
            right = status == 0 and printed == checked
            _, trimmed, second = timed([program, "check", script, new], 10 * seconds)
            timed([program, "trim", script, new, again], 30 * seconds)
            right = right and trimmed == checked and again.read_bytes() == new.read_bytes()
            wrong += not right
            sizes = cert.stat().st_size, new.stat().st_size
            before, after = before + sizes[0], after + sizes[1]
            if sizes[0] > largest[0]:
                memory = peak([program, "check", script, cert]), peak([program, "trim", script, cert, new])
                largest = (sizes[0], (name, sizes, check, trim, memory))
            print(f"{name:30} {sizes[0]:10} {sizes[1]:10} {check:7.2f} {trim:7.2f} {second:7.2f} {answers(checked)}"
                  + ("" if right else "  WRONG"), flush=True)
            keep(name, *sizes, f"{check:.2f}", f"{trim:.2f}", f"{second:.2f}")
    print(f"{before} bytes, {after} trimmed; {wrong} wrong")
    if largest[1]:
        name, sizes, check, trim, memory = largest[1]
        print(f"the largest is {name}: {sizes[0]} bytes, {sizes[1]} trimmed; check {check:.2f} s and {memory[0]} KiB, "
              f"trim {trim:.2f} s and {memory[1]} KiB")


if __name__ == "__main__":
    main()
