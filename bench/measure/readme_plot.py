#!/usr/bin/env python3
"""Draws the table of README's section on performance as docs/decided.svg: for each row the part of its scripts that each solver
decides. A solver that doesn't take a row's scripts has no bar there.

usage: bench/measure/readme_plot.py
"""
import html
import pathlib
import re

TOP = pathlib.Path(__file__).resolve().parents[2]
COLORS = ["#1f5fa8", "#c2571a", "#2f8f4e", "#8a3fa0"]
WIDE, NAMES, BAR, GAP, HEAD = 640, 230, 9, 12, 34


def table():
    """The solvers, and each row's name with the parts that they decide."""
    section = (TOP / "README.md").read_text().split("## Performance")[1].split("\n## ")[0]
    rows = [[cell.strip() for cell in line.strip("|").split("|")] for line in section.split("\n") if line.startswith("| ")]
    solvers = rows[0][2:]
    return solvers, [(row[0], [int(found[0]) / int(row[1]) if (found := re.match(r"\d+", cell)) else None for cell in row[2:]])
                     for row in rows[1:] if row[1].isdigit()]


def text(x, y, words, anchor="start", color="#333"):
    return f'<text x="{x:.0f}" y="{y:.0f}" text-anchor="{anchor}" fill="{color}">{html.escape(words)}</text>'


def main():
    solvers, rows = table()
    step = BAR * len(solvers) + GAP
    high = HEAD + step * len(rows) + 24
    at = lambda part: NAMES + part * (WIDE - NAMES - 20)
    svg = [f'<svg xmlns="http://www.w3.org/2000/svg" viewBox="0 0 {WIDE} {high}" font-family="sans-serif" font-size="12">',
           f'<rect width="{WIDE}" height="{high}" fill="white"/>']
    for part in (0, 0.25, 0.5, 0.75, 1):
        svg += [f'<path d="M{at(part):.0f} {HEAD} V{high - 24}" stroke="#ddd"/>', text(at(part), high - 8, f"{100 * part:g} %", "middle")]
    svg += [text(NAMES + 110 * i, 20, name, "start", COLORS[i % 4]) for i, name in enumerate(solvers)]
    for n, (name, parts) in enumerate(rows):
        y = HEAD + step * n + GAP / 2
        svg.append(text(NAMES - 8, y + step / 2, name.split(",")[0] if name.startswith("all,") else name, "end"))
        svg += [f'<rect x="{NAMES}" y="{y + BAR * i:.0f}" width="{at(part) - NAMES:.1f}" height="{BAR - 1}" fill="{COLORS[i % 4]}"/>'
                for i, part in enumerate(parts) if part is not None]
    (TOP / "docs/decided.svg").write_text("\n".join(svg + ["</svg>", ""]))


main()
