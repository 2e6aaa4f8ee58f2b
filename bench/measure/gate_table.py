#!/usr/bin/env python3
"""Makes the table of docs/WORKING.md from a profile of the gate, and keeps it for bench/measure/plot.py.

    bench/measure/gate_table.py PROFILE [LEAST]

PROFILE has a line for each crate: its name, and its seconds of proof, of tests and of edits. Other lines, the sum too, are passed
over. Prints the crates that take LEAST seconds (60 where nothing is said) for their proof or their edits, two side by side, and
writes all to bench/results/gate.tsv, with the commit, the machine and the date.
"""
import pathlib
import re
import sys

sys.dont_write_bytecode = True
from results import ROOM, head

CRATES = pathlib.Path(__file__).resolve().parents[2] / "crates"


def rows_of(text):
    """The crates with their seconds of proof and of edits."""
    found = re.findall(r"^(q\w+)\s+(\d+)\s+(\d+)\s+(\d+)", text, re.M)
    return [(name, int(proof), int(edits)) for name, proof, _, edits in found if (CRATES / name).is_dir()]


def cell(row):
    return "|  |  |  |" if row is None else f"| `{row[0]}` | {row[1]} | {row[2] or ''} |"


def main():
    least = int(sys.argv[2]) if len(sys.argv) > 2 else 60
    rows = sorted(rows_of(pathlib.Path(sys.argv[1]).read_text()), key=lambda row: -row[1])
    ROOM.mkdir(exist_ok=True)
    lines = ["crate\tproof\tedits", *("\t".join(map(str, row)) for row in rows)]
    (ROOM / "gate.tsv").write_text(head("bench/measure/gate_table.py", sys.argv[1:]) + "\n".join(lines) + "\n")
    shown = [row for row in rows if max(row[1:]) >= least]
    half = (len(shown) + 1) // 2
    print("| crate | proof | edits | | crate | proof | edits |\n|---|---|---|---|---|---|---|")
    for i in range(half):
        second = shown[half + i] if half + i < len(shown) else None
        print(f"{cell(shown[i])} {cell(second)}")


main()
