#!/usr/bin/env python3
"""Reads each entry of games again, as the program of qv_solve_cases prints them, and tries its conditions at all points.

    bench/cases/game_entries.py PROGRAM [COUNT]

The games are COUNT by chance; those of the rows of qv_solve_cases are read again where bench/cases/game_cases.py writes them. Of each
entry: its level and links, that its point is one of its region and of no earlier one of its level and winner, that nothing
comes behind an entry of level 1, and behind one whose winner doesn't own its block only one that is linked to it alone. Where
the winner owns the block: that the terms are over the places before it, and the region has the value of the later one with the
terms put in and no more distinct terms. Where the other player does: that the region fixes bits of the point, each bit once
and of places that occur in a linked region, or is what lies outside some of the owner's regions of the level, and that from each of its points all values of the block lead to a linked region.
Of a game: that it has as many entries as its record counts instances, and that no clause list of it has more variables than
its limit. Prefixes, matrices and values are those of bench/cases/prenex_cases.py, clause lists those of bench/cases/blast_cases.py, and
who wins is tried by all values. Which candidates a choice takes is shown by qv_choose_cases.
"""
import random
import subprocess
import sys
from itertools import groupby, product

from blast_cases import Blaster, Store
from game_formulas import SORTS, joined_leaves, line_of, random_formula
from prenex_cases import holds, problem, value, values
from tree_cases import bind, is_named, named, show, sort_of

LIMITS = (1_000_000, 10_000, 4_000_000)
ONE = ["not", "bvnot", "bvneg", "bvnego", "extract", "repeat", "zero_extend", "sign_extend", "rotate_left", "rotate_right"]
MOST_POINTS = 4096


# --- what is printed -------------------------------------------------------------------------------


def is_leaf(word):
    return ":" in word and (word[0].isdigit() or word.startswith("bool:") or word[0] in "cv" and word[1].isdigit())


def term(text):
    stack = []
    for word in text.split():
        op = word.split(":")[0]
        count = 0 if is_leaf(word) else 1 if op in ONE or op in ["All", "Ex"] else 3 if op == "ite" else 2
        args = tuple(stack[len(stack) - count:])
        stack = [*stack[:len(stack) - count], (word, args)]
    (whole,) = stack
    return whole


def terms(text):
    return [] if text.strip() in ["", "no terms"] else [term(part) for part in text.split(";")]


class Entry:
    def __init__(self, text):
        head, region, point, chosen, links = text.split("/")
        level, self.winner = head.split()
        self.level = int(level)
        self.region = term(region)
        self.point = tuple(int(word.split(":")[1], 16) for word in point.split())
        self.terms = terms(chosen)
        self.links = [int(word) for word in links.split()]


# --- what an entry has to be -----------------------------------------------------------------------


def is_true(region, point):
    return value(region, {}, dict(enumerate(point))) == 1


def variables(t):
    return {named(t[0])[1:]} if is_named(t) else set().union(set(), *map(variables, t[1]))


def distinct(t):
    return {t}.union(*map(distinct, t[1]))


def put_in(t, first, chosen):
    if is_named(t):
        at = named(t[0])[1] - first
        return chosen[at] if 0 <= at < len(chosen) else t
    return t[0], tuple(put_in(a, first, chosen) for a in t[1])


class Game:
    def __init__(self, formulas):
        self.places, _, self.matrix = problem(formulas)
        blocks = [(player, [sort for _, sort in group]) for player, group in groupby(self.places, lambda place: place[0])]
        self.blocks = blocks
        self.firsts = [sum(len(sorts) for _, sorts in blocks[:k]) for k in range(len(blocks) + 1)]

    def points(self, start, end):
        return product(*(values(sort) for _, sort in self.places[start:end]))

    def is_over(self, t, end):
        return all(level < end and self.places[level][1] == sort for level, sort in variables(t))

    def variables(self, entries):
        """How many variables the greatest clause list of the game has: one is kept for each block, of what holds outside all
        regions of the player who doesn't own the block, and of the owner's last region."""
        return max(map(variables_of, self.lists(entries)))

    def lists(self, entries):
        for level, (owner, _) in enumerate(self.blocks, 1):
            if level == len(self.blocks):
                yield [self.matrix if owner == "Exists" else ("not", (self.matrix,))]
            else:
                yield [("not", (e.region,)) for e in entries if e.level == level + 1 and e.winner != owner]

    def fault(self, earlier, e):
        """What is wrong with an entry behind earlier ones, if anything is."""
        if not 1 <= e.level <= len(self.blocks):
            return "level"
        first, last = self.firsts[e.level - 1], e.level == len(self.blocks)
        linked = [earlier[n] if n < len(earlier) else None for n in e.links]
        if any(f is None or f.winner != e.winner or f.level != e.level + 1 for f in linked) or last and linked:
            return "links"
        if len(e.point) != first or any(n not in values(sort) for n, (_, sort) in zip(e.point, self.places)):
            return "point"
        if sort_of(e.region) != "bool" or not self.is_over(e.region, first) or not is_true(e.region, e.point):
            return "region"
        if any(f.level == 1 or f.level == e.level and f.winner == e.winner and is_true(f.region, e.point) for f in earlier):
            return "not fresh"
        if earlier and earlier[-1].winner != self.blocks[earlier[-1].level - 1][0] and list(e.links) != [len(earlier) - 1]:
            return "not what follows a forced entry"
        ends = [self.matrix if e.winner == "Exists" else ("not", (self.matrix,))] if last else [f.region for f in linked]
        owner, sorts = self.blocks[e.level - 1]
        if owner == e.winner:
            return self.fault_of_owned(e, first, sorts, ends)
        return self.fault_of_forced(earlier, e, first, sorts, ends)

    def fault_of_owned(self, e, first, sorts, ends):
        if len(ends) != 1:
            return "not one later region"
        if [sort_of(t) for t in e.terms] != sorts or not all(self.is_over(t, first) for t in e.terms):
            return "terms"
        led = put_in(ends[0], first, e.terms)
        if any(is_true(e.region, point) != is_true(led, point) for point in self.points(0, first)):
            return "region of another value"
        return "region too large" if len(distinct(e.region)) > len(distinct(led)) else None

    def fault_of_forced(self, earlier, e, first, sorts, ends):
        if e.terms:
            return "terms"
        if not is_outside(earlier, e):
            bits = [bit for part in conjuncts(e.region) for bit in fixed_bits(part, e.point)]
            if len(set(bits)) < len(bits) or any(bit is None for bit in bits):
                return "neither of bits of the point nor the outside of regions"
            if not {place for place, _ in bits} <= {level for t in ends for level, _ in variables(t)}:
                return "a place that doesn't occur"
        for point in self.points(0, first):
            if is_true(e.region, point):
                for more in self.points(first, first + len(sorts)):
                    if not any(is_true(t, point + more) for t in ends):
                        return f"leads out at {point + more}"
        return None


def conjuncts(region):
    """The parts of a conjunction that leans to the left; none of `true`."""
    if region[0] == "and":
        return [*conjuncts(region[1][0]), region[1][1]]
    return [] if region[0] == "bool:1" else [region]


def is_outside(earlier, e):
    """Whether the region is what lies outside some regions of the other player at the level."""
    rivals = [f.region for f in earlier if f.level == e.level and f.winner != e.winner]
    return all(part[0] == "not" and part[1][0] in rivals for part in conjuncts(e.region)) and e.region[0] != "bool:1"


def fixed_bits(part, point):
    """The bits that an equation fixes to those of the point, or a None."""
    if part[0] != "=" or part[1][1][1]:
        return [None]
    term, (literal, _) = part[1]
    number = int(literal.split(":")[1], 16)
    if is_named(term) and named(term[0])[2] == "bool":
        place, high, low = named(term[0])[1], 0, 0
    elif term[0].startswith("extract:") and is_named(term[1][0]):
        place = named(term[1][0][0])[1]
        high, low = map(int, term[0].split(":")[1:])
    else:
        return [None]
    if place >= len(point) or point[place] >> low & (1 << high - low + 1) - 1 != number:
        return [None]
    return [(place, bit) for bit in range(low, high + 1)]


def variables_of(formulas):
    """How many variables the clause list of some formulas has."""
    store = Store()
    roots = [store.term(show(t)) for t in formulas]
    blaster = Blaster(store, 2**30)
    for root in roots:
        blaster.formula(root)
    return blaster.circuit.next - 1


# --- games -----------------------------------------------------------------------------------------


def row(command, limits, formulas):
    return f"{command} {' '.join(map(str, limits))} {line_of(formulas)}"


def answers(program, lines):
    """What the program answers to rows."""
    asked = "".join(f"game {line}\n" for line in lines)
    told = subprocess.run([program], input=asked, capture_output=True, text=True, check=True).stdout.splitlines()
    return dict(zip(lines, told, strict=True))


def few_points(game, most=MOST_POINTS):
    count = 1
    for _, sort in game.places:
        count *= len(values(sort))
    return count <= most


def counts(told):
    """Who wins or what is spent, the instances, the conflicts, the entries, and what is said of level 1."""
    head, *parts = told.split(" | ")
    answer, instances, conflicts = head.split(", ")
    cover = parts.pop() if parts else ""
    return answer, int(instances.split()[1]), int(conflicts.split()[1]), [Entry(part) for part in parts], cover


def cover_of(winner, entries):
    """What has to be said of level 1: the winner's regions there, and the number of the first, which is true."""
    own = [number for number, e in enumerate(entries) if e.level == 1 and e.winner == winner]
    regions = "; ".join(show(entries[number].region) for number in own) or "no terms"
    first = next((number for number in own if is_true(entries[number].region, ())), "none")
    return f"cover {regions} by {first}"


def faults(formulas, told, limits=LIMITS):
    """What is wrong with what was said of a game that was won."""
    game = Game(formulas)
    answer, instances, conflicts, entries, cover = counts(told)
    if cover != cover_of(answer, entries):
        yield "cover"
    if answer != ("Exists" if holds(game.places, game.matrix) else "Forall"):
        yield "winner"
    if instances != len(entries) or instances > limits[1]:
        yield "instances"
    if conflicts > limits[0]:
        yield "conflicts"
    if game.places and game.variables(entries) > limits[2]:
        yield "variables"
    if game.places and not any(e.level == 1 and e.winner == answer for e in entries):
        yield "no entry at level 1"
    for number, e in enumerate(entries):
        fault = game.fault(entries[:number], e)
        if fault:
            yield f"entry {number}: {fault}"


def by_chance(count):
    chosen = random.Random(47)
    while count > 0:
        prefix = [(chosen.choice(["All", "Ex"]), level, chosen.choice(SORTS)) for level in range(chosen.randrange(2, 6))]
        formula = random_formula(chosen, prefix, chosen.randrange(2, 5))
        if any(f"v{level}:{sort}" in joined_leaves(formula) for _, level, sort in prefix):
            for quantifier, level, sort in reversed(prefix):
                formula = bind(quantifier, level, sort, formula)
            count -= 1
            yield [formula]


def main():
    program, count = sys.argv[1], int((sys.argv[2:] or ["200"])[0])
    games = [formulas for formulas in by_chance(count) if few_points(Game(formulas))]
    lines = [row("entries", LIMITS, formulas) for formulas in games]
    told = answers(program, lines)
    wrong, seen = 0, 0
    for formulas, line in zip(games, lines):
        seen += len(counts(told[line])[3])
        for fault in faults(formulas, told[line]):
            wrong += 1
            print(f"{fault}: {line}\n  {told[line]}")
    print(f"{len(games)} games with {seen} entries, {wrong} faults")
    sys.exit(wrong > 0)


if __name__ == "__main__":
    main()
