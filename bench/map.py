#!/usr/bin/env python3
"""Draws docs/map.svg: the groups of crates.txt with their crates, and which group stands on which.

    bench/map.py [TREE]

A line goes from a group down to each group that its code calls, a dashed one to each that only its definitions, contracts
or proofs name. Lines that follow from others are left out, and so is the group of the cases, which stands on all others. A
group stands above those that come before it in crates.txt and that it calls; a call of a later group is a line up.
"""
import html
import pathlib
import re
import sys

TREE = pathlib.Path(sys.argv[1] if len(sys.argv) > 1 else __file__).resolve()
TREE = TREE if TREE.is_dir() else TREE.parent.parent
BOX, GAP, LAYER, LINE, TOP, ROUND = 196, 64, 76, 15, 44, 8


def groups_of(text):
    """Each group's crates, and for each crate what it stands on."""
    groups, below, group = {}, {}, None
    for line in text.splitlines():
        if line.startswith("# ") and ":" not in line:
            group = groups.setdefault(line[2:], [])
        elif line and not line.startswith("#"):
            name, rest = line.split(":", 1)
            group.append(name.split()[0])
            below[name.split()[0]] = rest.split()
    return groups, below


def called_by(crate):
    """The crates that the code of a crate names: not what stands in ghost imports or in comments."""
    names = set()
    for file in (TREE / "crates" / crate / "src").rglob("*.rt"):
        for line in file.read_text().splitlines():
            if not line.strip().startswith(("//", "ghost use")):
                names |= set(re.findall(r"\b(q\w+)::", line))
    return names


def reduced(edges, solid):
    """The edges without those that follow from a way along `solid` ones."""
    def reach(start, seen):
        for above, under in solid:
            if above == start and under not in seen:
                seen.add(under)
                reach(under, seen)
        return seen
    kept = set()
    for above, under in edges:
        ways = {middle for upper, middle in solid if upper == above and middle != under}
        if not any(under in reach(middle, set()) for middle in ways):
            kept.add((above, under))
    return kept


def heights(names, edges):
    """How many groups stand below each, along the longest way."""
    def height(name):
        return max((1 + height(under) for above, under in edges if above == name), default=0)
    return {name: height(name) for name in names}


def placed(names, edges, tall):
    """Each group's column, and the top of its box: by layers on one grid, each in the order of what stands above."""
    height = heights(names, edges)
    layers = [[n for n in names if height[n] == level] for level in range(max(height.values()), -1, -1)]
    columns = max(map(len, layers))
    column, top, y = {}, {}, GAP
    for layer in layers:
        def middle(name):
            above = [column[upper] for upper, under in edges if under == name and upper in column]
            return sum(above) / len(above) if above else columns / 2
        layer.sort(key=middle)
        for i, name in enumerate(layer):
            column[name], top[name] = (columns - len(layer)) // 2 + i, y
        y += max(tall[name] for name in layer) + LAYER
    return column, top, columns * (BOX + GAP) + GAP, y - LAYER + GAP


def ports(edges, column, top):
    """Where each line begins and ends, as a part of the box's width: on each side in the order of the boxes at the other end."""
    sides, out, into = {}, {}, {}
    for edge in edges:
        above, under = edge
        down = top[above] < top[under]
        sides.setdefault((above, down), []).append((column[under], under, edge, out))
        sides.setdefault((under, not down), []).append((column[above], above, edge, into))
    for ends in sides.values():
        for i, (_, _, edge, at) in enumerate(sorted(ends, key=lambda end: end[:2])):
            at[edge] = (i + 1) / (len(ends) + 1)
    return out, into


def is_long(edge, top, tall):
    """Whether a line passes a layer on its way."""
    above, under = edge
    return max(top[under] - top[above] - tall[above], top[above] - top[under] - tall[under]) > 2.5 * LAYER


def lanes(edges, column):
    """For each line that passes a layer: the middle of the gap that it goes through, its lane there, and its own number."""
    at, gaps = {}, {}
    for edge in sorted(edges, key=lambda e: (column[e[0]], e)):
        above, under = edge
        gaps.setdefault(column[above] + (column[under] >= column[above]), []).append(edge)
    count = 0
    for gap, mine in gaps.items():
        for i, edge in enumerate(mine):
            count += 1
            at[edge] = (GAP / 2 + gap * (BOX + GAP) + (i + 1 - (len(mine) + 1) / 2) * (GAP - 8) / len(mine), count)
    return at


def round_way(points):
    """A line along points, with round corners."""
    said = f"M{points[0][0]:.0f} {points[0][1]:.0f}"
    for (a, b), (x, y), (u, v) in zip(points, points[1:], points[2:]):
        into, out = max(abs(x - a), abs(y - b)), max(abs(u - x), abs(v - y))
        r = min(ROUND, into / 2, out / 2)
        said += (f" L{x + (a - x) * r / (into or 1):.0f} {y + (b - y) * r / (into or 1):.0f}"
                 f" Q{x:.0f} {y:.0f} {x + (u - x) * r / (out or 1):.0f} {y + (v - y) * r / (out or 1):.0f}")
    return said + f" L{points[-1][0]:.0f} {points[-1][1]:.0f}"


def way(edge, column, top, tall, out, into, lane):
    """A curve from a box to another in the next layer; past a layer a line through the gap beside the column."""
    above, under = edge
    left = {name: GAP + column[name] * (BOX + GAP) for name in edge}
    down = top[above] < top[under]
    x, y = left[above] + BOX * out[edge], top[above] + (tall[above] if down else 0)
    u, v = left[under] + BOX * into[edge], top[under] + (0 if down else tall[under])
    if edge not in lane:
        return f"M{x:.0f} {y:.0f} C{x:.0f} {(y + v) / 2:.0f} {u:.0f} {(y + v) / 2:.0f} {u:.0f} {v:.0f}"
    middle, number = lane[edge]
    step = (12 + (LAYER - 30) * number / len(lane)) * (1 if down else -1)
    return round_way([(x, y), (x, y + step), (middle, y + step), (middle, v - step), (u, v - step), (u, v)])


def key(x, y):
    """What the two kinds of lines mean."""
    said = []
    for dash, words in ("", "its code calls"), (' stroke-dasharray="5 4"', "only definitions or proofs name it"):
        said.append(f'<path d="M{x} {y} h40" stroke="#555"{dash} marker-end="url(#tip)"/>'
                    f'<text x="{x + 50}" y="{y + 4}" fill="#333">{words}</text>')
        y += 22
    return said


def drawn(groups, solid, dashed, down):
    tall = {name: TOP + LINE * len(crates) for name, crates in groups.items()}
    column, top, width, depth = placed(list(groups), down, tall)
    svg = [f'<svg xmlns="http://www.w3.org/2000/svg" viewBox="0 0 {width} {depth}" width="{width}" height="{depth}" '
           'font-family="sans-serif" font-size="12">',
           '<defs><marker id="tip" viewBox="0 0 10 10" refX="9" refY="5" markerWidth="8" markerHeight="8" orient="auto">'
           '<path d="M0 0 L10 5 L0 10 z" fill="#555"/></marker></defs>',
           f'<rect width="{width}" height="{depth}" fill="white"/>']
    svg += key(width - BOX - 2 * GAP, GAP)
    out, into = ports(sorted(solid | dashed), column, top)
    lane = lanes([edge for edge in solid | dashed if is_long(edge, top, tall)], column)
    for edge in sorted(solid | dashed):
        dash = ' stroke-dasharray="5 4"' if edge in dashed else ""
        svg.append(f'<path d="{way(edge, column, top, tall, out, into, lane)}" fill="none" stroke="#555"{dash} '
                   'marker-end="url(#tip)"/>')
    for name, crates in groups.items():
        x, y = GAP + column[name] * (BOX + GAP), top[name]
        svg.append(f'<rect x="{x}" y="{y}" width="{BOX}" height="{tall[name]}" rx="6" fill="#eef3fa" stroke="#456"/>')
        svg.append(f'<text x="{x + 10}" y="{y + 22}" font-weight="bold" font-size="14">{html.escape(name)}</text>')
        svg += [f'<text x="{x + 10}" y="{y + TOP + LINE * i}" font-family="monospace" fill="#333">{crate}</text>'
                for i, crate in enumerate(crates)]
    return "\n".join(svg + ["</svg>", ""])


def main():
    groups, below = groups_of((TREE / "crates.txt").read_text())
    groups.pop("Cases")
    home = {crate: name for name, crates in groups.items() for crate in crates}
    calls, names = set(), set()
    for crate, name in home.items():
        called = called_by(crate)
        for under in below[crate]:
            if home.get(under, name) != name:
                (calls if under in called else names).add((name, home[under]))
    order = {name: i for i, name in enumerate(groups)}
    down = {(above, under) for above, under in calls if order[above] > order[under]}
    solid = reduced(calls, down)
    dashed = reduced(names - calls, down | names)
    (TREE / "docs" / "map.svg").write_text(drawn(groups, solid, dashed, solid & down))


main()
