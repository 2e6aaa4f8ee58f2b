#!/usr/bin/env python3
"""Writes a script for bench/measure/following.sh: following.py KIND SIZE FILE, from fixed seeds.

steps SIZE: so many definitions without parameters, each of two of those before it, as SBV writes them.
short SIZE: so many megabytes of short commands, behind which as much is in force as before.
calls SIZE: so many definitions with two parameters, each with a `let`, and an assertion that uses each once.
deep SIZE: an assertion below so many nested `let`s, each of which doubles the one around it.
levels SIZE: so many checks, each of an assertion of its own at a level of its own, above one constant.
growing SIZE: so many checks, each behind a constant more, which it asks for.
neighbours SIZE: one check of so many constants of 32 bits, each below the next.
shared SIZE: a hundred checks at levels of their own behind so many shared comparisons of neighbours.
twenty SIZE: the same with twenty checks.
path SIZE: so many checks of a path's condition on twenty words of 32 bits, which grows and shrinks by one.
depths SIZE: a counter with two inputs, unrolled so many times on one script, with a check at each depth.
counter SIZE: one check of a counter of so many steps with an enable and an addend, three constants a step.
bound SIZE: the same counter on one script, with a check at each step that it is over its bound: none is.
false SIZE: twenty checks behind so many shared comparisons of neighbours, each of one that can't be.
"""
import random
import sys


def steps(size, rng):
    yield "(set-logic BV)\n(define-fun s0 () (_ BitVec 32) #x00000001)\n(define-fun s1 () (_ BitVec 32) #x0000000f)\n"
    names = ["bvadd", "bvmul", "bvxor", "bvand", "bvor", "bvsub"]
    for i in range(2, size):
        yield f"(define-fun s{i} () (_ BitVec 32) ({rng.choice(names)} s{rng.randrange(i)} s{rng.randrange(i)}))\n"
    yield f"(assert (= s{size - 1} s{size - 1}))\n(check-sat)\n"


def short(size, rng):
    written = 0
    while written < size * 1_000_000:
        a, b = rng.randrange(10), rng.randrange(10)
        text = rng.choice([
            f"(push 1)\n(assert (= (bvadd #x{a:02x} #x{b:02x}) #x{a + b:02x}))\n(pop 1)\n",
            f"(push 1)\n(declare-const x{a} (_ BitVec 8))\n(define-fun y{b} () Bool (= x{a} #x{b:02x}))\n(pop 1)\n",
            "(set-info :status sat)\n",
            "(set-option :produce-models true)\n",
        ])
        written += len(text)
        yield text
    yield "(check-sat)\n"


def calls(size, rng):
    for i in range(size):
        a, b = rng.choice(["bvadd", "bvor"]), rng.choice(["bvand", "bvmul"])
        yield f"(define-fun f{i} ((x (_ BitVec 16)) (y (_ BitVec 16))) (_ BitVec 16) (let ((z ({a} x y))) ({b} z (bvxor z x))))\n"
        yield f"(assert (bvule (f{i} #x{rng.randrange(65536):04x} #x{rng.randrange(65536):04x}) #xffff))\n"
    yield "(check-sat)\n"


def deep(size, rng):
    yield "(assert "
    before = "#x01"
    for i in range(size):
        yield f"(let ((v{i} (bvadd {before} {before}))) "
        before = f"v{i}"
    yield f"(bvule {before} #xff)" + ")" * size + ")\n(check-sat)\n"


def levels(size, rng):
    yield "(declare-const x (_ BitVec 16))\n"
    for _ in range(size):
        yield f"(push 1)\n(assert (= (bvxor x #x{rng.randrange(65536):04x}) #x{rng.randrange(65536):04x}))\n(check-sat)\n(pop 1)\n"


def growing(size, rng):
    for i in range(size):
        yield f"(declare-const x{i} (_ BitVec 8))\n(check-sat-assuming ((= x{i} #x{rng.randrange(256):02x})))\n"


def below_next(size):
    for i in range(size):
        yield f"(declare-const x{i} (_ BitVec 32))\n"
    for i in range(size - 1):
        yield f"(assert (bvult x{i} x{i + 1}))\n"


def neighbours(size, rng):
    yield from below_next(size)
    yield "(check-sat)\n"


def shared(size, rng, checks=100):
    yield from below_next(size)
    for _ in range(checks):
        yield f"(push 1)\n(assert (bvult x{rng.randrange(size)} #x{rng.randrange(2**31, 2**32):08x}))\n(check-sat)\n(pop 1)\n"


def twenty(size, rng):
    yield from shared(size, rng, 20)


def condition(rng):
    x, y = rng.sample(range(20), 2)
    value = rng.randrange(2**32)
    return rng.choice([
        f"(bvult (bvadd x{x} #x{value:08x}) x{y})",
        f"(bvule x{x} (bvor x{y} #x{value:08x}))",
        f"(not (= (bvand x{x} #x000000ff) #x{value % 256:08x}))",
        f"(bvslt (bvsub x{x} x{y}) #x{value >> 1:08x})",
        f"(= (bvand (bvlshr x{x} #x{rng.randrange(24):08x}) #x00000003) #x{value % 4:08x})",
    ])


def path(size, rng):
    for i in range(20):
        yield f"(declare-const x{i} (_ BitVec 32))\n"
    depth = 0
    for _ in range(size):
        if depth < 5 or (depth < 60 and rng.random() < 0.55):
            yield f"(push 1)\n(assert {condition(rng)})\n"
            depth += 1
        else:
            yield "(pop 1)\n"
            depth -= 1
        yield "(check-sat)\n"


def depths(size, rng):
    yield "(declare-const s0 (_ BitVec 16))\n(assert (= s0 #x0000))\n"
    for i in range(size):
        yield f"(declare-const a{i} Bool)\n(declare-const b{i} (_ BitVec 16))\n(declare-const s{i + 1} (_ BitVec 16))\n"
        yield f"(assert (bvult b{i} #x0010))\n(assert (= s{i + 1} (ite a{i} (bvadd s{i} b{i}) (bvxor s{i} (bvshl b{i} #x0001)))))\n"
        yield f"(push 1)\n(assert (= s{i + 1} #x{rng.randrange(200, 400):04x}))\n(check-sat)\n(pop 1)\n"


def counted(i):
    """A step of a counter with an enable and an addend."""
    yield f"(declare-const a{i} Bool)\n(declare-const b{i} (_ BitVec 16))\n(declare-const s{i + 1} (_ BitVec 16))\n"
    yield f"(assert (bvult b{i} #x0010))\n(assert (= s{i + 1} (ite a{i} (bvadd s{i} b{i}) s{i})))\n"


def counter(size, rng):
    yield "(declare-const s0 (_ BitVec 16))\n(assert (= s0 #x0000))\n"
    for i in range(size):
        yield from counted(i)
    yield f"(assert (bvuge s{size} #x00c8))\n(check-sat)\n"


def bound(size, rng):
    yield "(declare-const s0 (_ BitVec 16))\n(assert (= s0 #x0000))\n"
    for i in range(size):
        yield from counted(i)
        yield f"(push 1)\n(assert (bvugt s{i + 1} #x{15 * (i + 1):04x}))\n(check-sat)\n(pop 1)\n"


def false(size, rng):
    yield from below_next(size)
    for _ in range(20):
        low = rng.randrange(size - 20)
        yield f"(push 1)\n(assert (bvult x{low + rng.randrange(2, 12)} x{low}))\n(check-sat)\n(pop 1)\n"


KINDS = {
    "steps": steps, "short": short, "calls": calls, "deep": deep, "levels": levels, "growing": growing, "neighbours": neighbours,
    "shared": shared, "twenty": twenty, "path": path, "depths": depths,
    "counter": counter, "bound": bound, "false": false,
}


def main():
    kind, size, name = sys.argv[1:]
    with open(name, "w") as file:
        file.writelines(KINDS[kind](int(size), random.Random(7)))


if __name__ == "__main__":
    main()
