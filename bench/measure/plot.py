#!/usr/bin/env python3
"""Draws the tables that bench/run keeps, as SVG.

    bench/measure/plot.py [TABLES [FOLDER]]

TABLES is the folder of the tables, bench/results where nothing is said, and FOLDER, docs/plots, gets the pictures. Of solve.tsv:
`decided.svg`, how many scripts are decided over time, a line a solver; `check.svg`, seconds of `check` over those of `solve`, a
point a script; and `families.svg`, how many of the rules of peephole optimisers are decided at each width, a line a solver. Of
core.tsv: `core.svg`, the seconds of minisat and cadical over those of the core, a point a problem. Of gate.tsv
(bench/measure/gate_table.py): `gate.svg`, the seconds of the crates that take most, of proof and of edits. A table that isn't there is
passed over. Below each picture stands what its table says of the commit, the machine and the date.
"""
import html
import math
import pathlib
import re
import sys

TOP = pathlib.Path(__file__).resolve().parents[2]
WIDE, HIGH, EDGE = 560, 360, 60
COLORS = ["#1f5fa8", "#c2571a", "#2f8f4e", "#8a3fa0"]
LEAST = 0.01


class Table:
    """The rows of a table, by the names of its columns, and what its head says."""

    def __init__(self, path):
        lines = path.read_text().splitlines()
        self.said = [line[2:] for line in lines if line.startswith("# ")]
        rows = [line.split("\t") for line in lines if not line.startswith("# ")]
        self.names = rows[0] if rows else []
        self.rows = [dict(zip(self.names, row)) for row in rows[1:]]

    def seconds(self, name):
        """The seconds of a column, none where nothing was decided."""
        return [float(row[name]) if row.get(name) else None for row in self.rows]


class Axis:
    """Where a value stands between two ends: as it is, from 0 on, or by its logarithm, from the least value on."""

    def __init__(self, values, start, end, least=None, marks=None):
        self.start, self.end, self.least, self.marks = start, end, least, marks
        self.most = max([*values, 10 * least if least else 1])

    def at(self, value):
        if self.least:
            part = math.log(max(value, self.least) / self.least, self.most / self.least)
        else:
            part = value / self.most
        return self.start + part * (self.end - self.start)

    def ticks(self):
        if self.marks:
            return self.marks
        if self.least:
            powers = range(round(math.log10(self.least)), math.floor(math.log10(self.most)) + 1)
            return [10.0**power for power in powers]
        size = 10 ** math.floor(math.log10(self.most / 2))
        step = next(step * size for step in (1, 2, 5) if self.most / (step * size) <= 8)
        return [step * i for i in range(int(self.most / step) + 1)]


def text(x, y, words, anchor="middle", color="#333"):
    return f'<text x="{x:.0f}" y="{y:.0f}" text-anchor="{anchor}" fill="{color}">{html.escape(str(words))}</text>'


def picture(x_axis, y_axis, names, drawn, table):
    """A picture with two axes, of which the names and the marks are given, and a key of lines or points."""
    (x, x_name), (y, y_name) = x_axis, y_axis
    svg = [f'<svg xmlns="http://www.w3.org/2000/svg" viewBox="0 0 {WIDE + 2 * EDGE} {HIGH + 4 * EDGE}" font-family="sans-serif" '
           'font-size="12">', f'<rect width="{WIDE + 2 * EDGE}" height="{HIGH + 4 * EDGE}" fill="white"/>']
    for value in x.ticks():
        svg.append(f'<path d="M{x.at(value):.0f} {EDGE} V{EDGE + HIGH}" stroke="#ddd"/>')
        svg.append(text(x.at(value), EDGE + HIGH + 18, f"{value:g}"))
    for value in y.ticks():
        svg.append(f'<path d="M{EDGE} {y.at(value):.0f} H{EDGE + WIDE}" stroke="#ddd"/>')
        svg.append(text(EDGE - 8, y.at(value) + 4, f"{value:g}", "end"))
    svg += [text(EDGE + WIDE / 2, EDGE + HIGH + 40, x_name), text(EDGE - 8, EDGE - 16, y_name, "start")]
    svg += [text(EDGE + WIDE - 80 * i, EDGE - 16, name, "end", COLORS[i % 4]) for i, name in enumerate(names)]
    svg += drawn + [text(EDGE, EDGE + HIGH + 66 + 16 * i, line, "start", "#777") for i, line in enumerate(table.said)]
    return "\n".join(svg + ["</svg>", ""])


def line(points, color):
    return f'<polyline points="{" ".join(f"{x:.1f},{y:.1f}" for x, y in points)}" fill="none" stroke="{color}" stroke-width="1.5"/>'


def dots(points, color):
    return [f'<circle cx="{x:.1f}" cy="{y:.1f}" r="3" fill="{color}" fill-opacity="0.6"/>' for x, y in points]


def across(values, least=None, marks=None):
    return Axis(values, EDGE, EDGE + WIDE, least, marks)


def up(values, least=None):
    return Axis(values, EDGE + HIGH, EDGE, least)


def solvers_of(table):
    """Each solver with its seconds: the program's own are those of `solve`."""
    return {"qbv" if name == "solve" else name: table.seconds(name)
            for name in table.names if name in ("solve", "z3", "cvc5", "boolector")}


def decided(table):
    """How many scripts each solver decides within a time."""
    solvers = {name: sorted(one for one in times if one is not None) for name, times in solvers_of(table).items()}
    x, y = across([one for times in solvers.values() for one in times], LEAST), up(map(len, solvers.values()))
    drawn = [line([(x.at(one), y.at(i + 1)) for i, one in enumerate(times)], COLORS[i % 4]) for i, times in enumerate(solvers.values())]
    return picture((x, "seconds a script"), (y, "scripts decided"), solvers, drawn, table)


def over(table, base, others, names):
    """Seconds of some columns over those of one, a point a row where both are known, and the line where they are equal."""
    pairs = [[(a, b) for a, b in zip(table.seconds(base), table.seconds(name)) if None not in (a, b)] for name in others]
    most = [value for group in pairs for pair in group for value in pair]
    x, y = across(most, LEAST), up(most, LEAST)
    end = max([*most, 10 * LEAST])
    drawn = [line([(x.at(LEAST), y.at(LEAST)), (x.at(end), y.at(end))], "#bbb")]
    for i, group in enumerate(pairs):
        drawn += dots([(x.at(a), y.at(b)) for a, b in group], COLORS[i % 4])
    return picture((x, f"seconds of {names[0]}"), (y, "seconds"), others, drawn, table)


def families(table):
    """How many of the rules each solver decides at each width, as a part of them."""
    widths = [re.search(r"^rule .* (\d+)$", row["problem"]) for row in table.rows]
    values = sorted({int(found[1]) for found in widths if found})
    if not values:
        return None
    x, y = across(values, values[0] / 2, values), up([100])
    solvers, drawn = solvers_of(table), []
    for i, times in enumerate(solvers.values()):
        points = []
        for width in values:
            mine = [one is not None for one, found in zip(times, widths) if found and int(found[1]) == width]
            points.append((x.at(width), y.at(100 * sum(mine) / len(mine))))
        drawn += [line(points, COLORS[i % 4]), *dots(points, COLORS[i % 4])]
    return picture((x, "width"), (y, "percent decided"), solvers, drawn, table)


def gate(table):
    """A bar a crate: its seconds of proof, and of edits behind them."""
    rows = sorted(((int(row["proof"]), int(row["edits"]), row["crate"]) for row in table.rows), key=lambda row: -row[0] - row[1])[:24]
    x, y = across([1.4 * (proof + edits) for proof, edits, _ in rows]), up([len(rows)])
    y.marks, drawn, high = [0], [], HIGH / max(1, len(rows))
    for i, (proof, edits, name) in enumerate(rows):
        at = EDGE + high * i
        for start, end, color in (0, proof, COLORS[0]), (proof, proof + edits, COLORS[1]):
            drawn.append(f'<rect x="{x.at(start):.1f}" y="{at + 1:.1f}" width="{x.at(end) - x.at(start):.1f}" '
                         f'height="{high - 2:.1f}" fill="{color}"/>')
        drawn.append(text(x.at(proof + edits) + 6, at + high - 3, name, "start"))
    return picture((x, "seconds"), (y, "crates"), ["proof", "edits"], drawn, table)


PICTURES = {
    "solve": {"decided": decided, "families": families, "check": lambda table: over(table, "solve", ["check"], ["solve"])},
    "core": {"core": lambda table: over(table, "core", ["minisat", "cadical"], ["the core"])},
    "gate": {"gate": gate},
}


def main():
    tables = pathlib.Path(sys.argv[1] if len(sys.argv) > 1 else TOP / "bench/results")
    folder = pathlib.Path(sys.argv[2] if len(sys.argv) > 2 else TOP / "docs/plots")
    folder.mkdir(parents=True, exist_ok=True)
    for name, pictures in PICTURES.items():
        path = tables / f"{name}.tsv"
        if path.exists():
            table = Table(path)
            for picture_name, draw in pictures.items():
                drawn = draw(table)
                if drawn:
                    (folder / f"{picture_name}.svg").write_text(drawn)


main()
