#!/usr/bin/env python3
"""Solves scripts by chance beside z3, and has each certificate checked.

    bench/measure/chance.py PROGRAM [SEED [COUNT]]

Small widths, literals at the ends of a range and powers of two among them, some constants bound by quantifiers. Names each script
whose answers differ, whose certificate isn't accepted, or that isn't decided, and keeps it in a folder of its own.
"""
import collections
import os
import random
import subprocess
import sys
import tempfile

WIDTHS = [1, 2, 3, 5, 8]
OPERATORS = "bvadd bvsub bvmul bvudiv bvurem bvsdiv bvsrem bvsmod bvand bvor bvxor bvshl bvlshr bvashr".split()
RELATIONS = "bvult bvule bvugt bvuge bvslt bvsle bvsgt bvsge = distinct".split()
CONNECTIVES = ["and", "or", "xor", "=>"]


class Terms:
    """Terms and formulas of one width over some names."""

    def __init__(self, rng, width, names):
        self.rng, self.width, self.names = rng, width, names

    def literal(self):
        top = 2 ** (self.width - 1)
        ends = [0, 1, 2 * top - 1, top, top - 1, 2 ** self.rng.randrange(self.width), self.width % (2 * top)]
        return f"(_ bv{self.rng.choice([*ends, self.rng.randrange(2 * top)])} {self.width})"

    def two(self, depth):
        """Two terms, one of them a literal here and there."""
        pair = [self.term(depth), self.literal() if self.rng.random() < 0.5 else self.term(depth)]
        if self.rng.random() < 0.3:
            pair.reverse()
        return " ".join(pair)

    def term(self, depth):
        if depth == 0 or self.rng.random() < 0.15:
            return self.rng.choice(self.names) if self.rng.random() < 0.6 else self.literal()
        chance = self.rng.random()
        if chance < 0.16:
            return f"({'bvnot' if chance < 0.08 else 'bvneg'} {self.term(depth - 1)})"
        if chance < 0.24:
            return f"(ite {self.formula(depth - 1)} {self.term(depth - 1)} {self.term(depth - 1)})"
        return f"({self.rng.choice(OPERATORS)} {self.two(depth - 1)})"

    def formula(self, depth):
        if depth > 0 and self.rng.random() < 0.3:
            return f"({self.rng.choice(CONNECTIVES)} {self.formula(depth - 1)} {self.formula(depth - 1)})"
        return f"({self.rng.choice(RELATIONS)} {self.two(max(depth - 1, 0))})"


def script(rng):
    width = rng.choice(WIDTHS)
    names = [f"x{place}" for place in range(rng.randrange(1, 4))]
    body, free = Terms(rng, width, names).formula(rng.randrange(2, 5)), []
    for name in names:
        kind = rng.choice(["", "forall", "exists"]) if rng.random() < 0.4 else ""
        if kind:
            body = f"({kind} (({name} (_ BitVec {width}))) {body})"
        else:
            free.append(f"(declare-const {name} (_ BitVec {width}))")
    return "\n".join(["(set-logic BV)", *free, f"(assert {body})", "(check-sat)", ""])


def said(*command):
    return subprocess.run(command, capture_output=True, text=True).stdout.strip()


def main():
    program = sys.argv[1]
    seed = int(sys.argv[2]) if len(sys.argv) > 2 else 1
    count = int(sys.argv[3]) if len(sys.argv) > 3 else 400
    answers, wrong, room = collections.Counter(), 0, tempfile.mkdtemp(prefix="chance-")
    for number in range(count):
        path, cert = f"{room}/{seed}-{number}.smt2", f"{room}/cert"
        with open(path, "w") as file:
            file.write(script(random.Random(f"{seed} {number}")))
        answer, other = said(program, "solve", path, cert), said("z3", "-T:20", path)
        answers[answer] += 1
        is_accepted = "accepted" in said(program, "check", path, cert)
        if is_accepted and answer in ("sat", "unsat") and (other == answer or other not in ("sat", "unsat")):
            os.remove(path)
        else:
            wrong += 1
            print(f"{path}: {answer or '-'}, z3 {other or '-'}, {'accepted' if is_accepted else 'not accepted'}")
    print(f"{dict(answers)}; {wrong} to look at")


main()
