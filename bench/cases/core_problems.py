#!/usr/bin/env python3
"""Writes the problems of bench/measure/core.sh into a folder, from fixed seeds: DIMACS files, and beside each a script
that has the same gates as terms.
usage: core_problems.py FOLDER"""

import itertools
import os
import random
import sys


class Clauses(list):
    """Clauses; the operator and the inputs of each variable that is a gate, and the places of the gates' clauses."""

    def __init__(self):
        super().__init__()
        self.gates, self.places = {}, set()

    def gate(self, out, operator, a, b, clauses):
        self.gates[out] = operator, a, b
        self.places.update(range(len(self), len(self) + len(clauses)))
        self.extend(map(list, clauses))


class Gates:
    """Clauses of circuits: literals are numbers, and 0 is none."""

    def __init__(self):
        self.clauses, self.variables = Clauses(), 0

    def new(self):
        self.variables += 1
        return self.variables

    def word(self, width):
        return [self.new() for _ in range(width)]

    def add(self, *lits):
        self.clauses.append(list(lits))

    def both(self, a, b):
        out = self.new()
        self.clauses.gate(out, "and", a, b, [(-out, a), (-out, b), (out, -a, -b)])
        return out

    def either(self, a, b):
        return -self.both(-a, -b)

    def apart(self, a, b):
        out = self.new()
        self.clauses.gate(out, "xor", a, b, [(-out, a, b), (-out, -a, -b), (out, -a, b), (out, a, -b)])
        return out

    def choose(self, test, yes, no):
        return self.either(self.both(test, yes), self.both(-test, no))

    def half(self, a, b):
        return self.apart(a, b), self.both(a, b)

    def full(self, a, b, c):
        one, first = self.half(a, b)
        out, second = self.half(one, c)
        return out, self.either(first, second)

    def ripple(self, one, two):
        """A sum, carried from bit to bit."""
        out, carry = [], None
        for a, b in zip(one, two):
            bit, carry = self.half(a, b) if carry is None else self.full(a, b, carry)
            out.append(bit)
        return out + [carry]

    def selected(self, one, two, block):
        """A sum by blocks, each computed for both carries."""
        out, carry = [], None
        for at in range(0, len(one), block):
            a, b = one[at:at + block], two[at:at + block]
            low = self.ripple(a, b)
            if carry is None:
                out, carry = low[:-1], low[-1]
                continue
            high, up = [], None
            for x, y in zip(a, b):
                bit, more = (-self.apart(x, y), self.either(x, y)) if up is None else self.full(x, y, up)
                high, up = high + [bit], more
            out += [self.choose(carry, yes, no) for yes, no in zip(high, low)]
            carry = self.choose(carry, up, low[-1])
        return out + [carry]

    def product(self, one, two, sum):
        """Row by row, each added by this sum."""
        sums, out = [self.both(two[0], a) for a in one] + [None], []
        for b in two[1:]:
            out.append(sums[0])
            row = [self.both(b, a) for a in one]
            if sums[-1] is None:
                low = sum(row[:-1], sums[1:-1])
                bit, carry = self.half(row[-1], low[-1])
                sums = low[:-1] + [bit, carry]
            else:
                sums = sum(row, sums[1:])
        return out + sums

    def differ(self, one, two):
        self.clauses.append([self.apart(a, b) for a, b in zip(one, two)])


def adders(width, block):
    gates = Gates()
    one, two = gates.word(width), gates.word(width)
    gates.differ(gates.ripple(one, two), gates.selected(one, two, block))
    return gates.clauses


def multipliers(width):
    gates = Gates()
    one, two = gates.word(width), gates.word(width)
    by_blocks = lambda a, b: gates.selected(a, b, 3)
    gates.differ(gates.product(one, two, gates.ripple), gates.product(one, two, by_blocks))
    return gates.clauses


def squares(width):
    """A square, summed up in two ways."""
    gates = Gates()
    one = gates.word(width)
    by_blocks = lambda a, b: gates.selected(a, b, 3)
    gates.differ(gates.product(one, one, gates.ripple), gates.product(one, one, by_blocks))
    return gates.clauses


def sums(width):
    """Three terms, added in two orders; carries out are left out."""
    gates = Gates()
    one, two, three = (gates.word(width) for _ in range(3))
    add = lambda a, b: gates.ripple(a, b)[:width]
    gates.differ(add(add(one, two), three), add(one, add(two, three)))
    return gates.clauses


def divisions(width, by):
    """Two quotients by a constant, each with a remainder below it, of one number that fits the width."""
    gates = Gates()
    pairs, bits = [], by.bit_length()
    for _ in range(2):
        quotient, rest = gates.word(width - bits), gates.word(bits)
        false = gates.new()
        gates.add(-false)
        total = rest + [false] * (width - bits)
        for place in range(bits):
            if by >> place & 1:
                total = gates.ripple(total, ([false] * place + quotient + [false] * width)[:width])[:width]
        for number in range(by, 1 << bits):
            gates.add(*[-bit if number >> place & 1 else bit for place, bit in enumerate(rest)])
        pairs.append((quotient + rest, total))
    for a, b in zip(pairs[0][1], pairs[1][1]):
        gates.add(-a, b)
        gates.add(a, -b)
    gates.differ(pairs[0][0], pairs[1][0])
    return gates.clauses


def factors(width, number):
    """A product that is the number, of factors that aren't 1."""
    gates = Gates()
    one, two = gates.word(width), gates.word(width)
    for place, bit in enumerate(gates.product(one, two, gates.ripple)):
        gates.add(bit if number >> place & 1 else -bit)
    for factor in (one, two):
        gates.add(*factor[1:])
    return gates.clauses


def pigeons(birds, holes):
    at = lambda bird, hole: bird * holes + hole + 1
    clauses = [[at(b, h) for h in range(holes)] for b in range(birds)]
    for h in range(holes):
        clauses += [[-at(b, h), -at(c, h)] for b, c in itertools.combinations(range(birds), 2)]
    return clauses


def parities(inputs, seed):
    """The parity of the inputs, computed in two orders, is odd and even."""
    gates = Gates()
    bits = gates.word(inputs)
    turned = bits[:]
    random.Random(seed).shuffle(turned)
    ends = []
    for order in (bits, turned):
        last = order[0]
        for bit in order[1:]:
            last = gates.apart(last, bit)
        ends.append(last)
    gates.add(ends[0])
    gates.add(-ends[1])
    return gates.clauses


def three_sat(variables, seed):
    rounds = random.Random(seed)
    return [[rounds.choice((1, -1)) * v for v in rounds.sample(range(1, variables + 1), 3)] for _ in range(round(4.26 * variables))]


def problems():
    for variables in (150, 200, 250):
        for seed in (1, 2, 3):
            yield f"random-{variables}-{seed}", three_sat(variables, seed)
    for birds in (7, 8, 9):
        yield f"pigeons-{birds}", pigeons(birds, birds - 1)
    for inputs in (20, 24, 28):
        yield f"parity-{inputs}", parities(inputs, 1)
    for width in (6, 7, 8, 9, 10):
        yield f"multiplier-{width}", multipliers(width)
    for width in (64, 128):
        yield f"adder-{width}", adders(width, 8)
    for width in (16, 32):
        yield f"sum-{width}", sums(width)
    for width in (10, 12, 14):
        yield f"square-{width}", squares(width)
    for by in (3, 7, 11):
        yield f"division-{by}", divisions(16, by)
    yield "factors-65537", factors(17, 65537)


def literal(lit):
    return f"v{lit}" if lit > 0 else f"(not v{-lit})"


def script(clauses, variables):
    """The gates as terms, and the other clauses as assertions."""
    gates, places = (clauses.gates, clauses.places) if isinstance(clauses, Clauses) else ({}, set())
    lines = ["(set-logic QF_BV)"]
    for name in range(1, variables + 1):
        if name in gates:
            operator, a, b = gates[name]
            lines.append(f"(define-fun v{name} () Bool ({operator} {literal(a)} {literal(b)}))")
        else:
            lines.append(f"(declare-const v{name} Bool)")
    for place, clause in enumerate(clauses):
        if place not in places:
            words = " ".join(map(literal, clause))
            lines.append(f"(assert (or {words}))" if len(clause) > 1 else f"(assert {words})")
    return "\n".join([*lines, "(check-sat)", ""])


def main():
    for name, clauses in problems():
        variables = max(abs(lit) for clause in clauses for lit in clause)
        with open(os.path.join(sys.argv[1], name + ".smt2"), "w") as it:
            it.write(script(clauses, variables))
        with open(os.path.join(sys.argv[1], name + ".cnf"), "w") as it:
            it.write(f"p cnf {variables} {len(clauses)}\n")
            it.writelines(" ".join(map(str, clause)) + " 0\n" for clause in clauses)


if __name__ == "__main__":
    main()
