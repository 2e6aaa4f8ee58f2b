#!/usr/bin/env python3
"""Writes two scripts for the benchmark of the reader.

usage: reader.py MEGABYTES_OF_ASSERTIONS MEGABYTES_OF_ATOMS SHORT_FILE NESTED_FILE

The first file has short assertions, with a comment here and there. The second is one command with 3,999 nested
parentheses, whose atoms are spread over all levels. The names are drawn from a fixed seed."""
import random
import sys

LEVELS = 3999
OPERATORS = ["bvadd", "bvmul", "bvand", "bvor", "bvudiv", "bvsub"]


def assertion(rng):
    names = [f"x{rng.randrange(100000)}" for _ in range(2)]
    return f"(assert (= ({rng.choice(OPERATORS)} {names[0]} #x{rng.randrange(2**32):08x}) {names[1]}))\n"


def write_short(path, size):
    rng = random.Random(1)
    written = 0
    with open(path, "w") as out:
        while written < size:
            text = assertion(rng)
            if rng.randrange(50) == 0:
                text = "; a comment\n" + text
            out.write(text)
            written += len(text)


def write_nested(path, size):
    rng = random.Random(2)
    each = size // LEVELS
    with open(path, "w") as out:
        for _ in range(LEVELS):
            out.write("(")
            written = 0
            while written < each:
                atom = rng.choice(OPERATORS) if rng.randrange(4) == 0 else f"x{rng.randrange(100000)}"
                out.write(atom + " ")
                written += len(atom)
            out.write("\n")
        out.write(")" * LEVELS + "\n")


def main():
    million = 1000 * 1000
    write_short(sys.argv[3], int(sys.argv[1]) * million)
    write_nested(sys.argv[4], int(sys.argv[2]) * million)


main()
