#!/usr/bin/env python3
"""Gives a clone the libraries that `rt ci` kept of the same text, so that `rt check` and `rt must-fail` begin at once.

    bench/measure/kept.py TOP CRATE..

TOP is the clone. The crates below the named ones get them, each with its stamp; what isn't kept yet is named.
"""
import os
import shutil
import sys

RT = os.path.realpath(shutil.which("rt"))


def load():
    """The names of the command itself: what is kept is found by its own sums."""
    names = {"__name__": "rt", "__file__": RT}
    sys.path.insert(0, os.path.dirname(RT))
    with open(RT) as text:
        exec(compile(text.read(), RT, "exec"), names)
    return names


def main():
    top, wanted = os.path.abspath(sys.argv[1]), sys.argv[2:]
    rt = load()
    rt["Crate"].allowed = rt["handles_of"](top)
    os.chdir(top)
    every = rt["crates_of"](top)
    below = {under for crate in every if crate.name in wanted for under in crate.below()}
    # each behind those that it stands on
    order = sorted(below, key=lambda crate: len(crate.below()))
    kept, lacking = rt["Kept"](order), []
    for crate in order:
        stamp = f"{crate.folder}/out/rlib/stamp"
        # a file that is there already would make what was kept look damaged
        shutil.rmtree(os.path.dirname(stamp), ignore_errors=True)
        os.makedirs(f"{crate.folder}/out", exist_ok=True)
        if any(under.name in lacking for under in crate.below()) or not kept.give(crate, False, kept.key(crate)):
            lacking.append(crate.name)
            continue
        kept.is_built(crate)
        with open(stamp, "w") as file:
            file.write(crate.stamp())
    print("lacking:", " ".join(lacking) or "none")


main()
