"""Scripts whose named assertions have no model, over words of 32 bits, with one minimal core or many.

`problems()` gives name, text and, where it is known by how the script is made, the set of names of the only
minimal core.
"""
import random

WIDTH = 32


def word(value):
    return f"#x{value % 2**WIDTH:08x}"


def script(constants, assertions):
    lines = ["(set-option :produce-unsat-cores true)", "(set-logic QF_BV)"]
    lines += [f"(declare-const {name} (_ BitVec {WIDTH}))" for name in constants]
    lines += [f"(assert (! {text} :named {name}))" for name, text in assertions]
    return "\n".join([*lines, "(check-sat)", "(get-unsat-core)"]) + "\n"


def one_core(count, seed):
    """Five strict bounds that close a chain, among bounds that any values meet: these five are the only minimal core."""
    rng = random.Random(f"one {count} {seed}")
    chain = [f"c{i}" for i in range(5)]
    rest = [f"x{i}" for i in range(count - 5)]
    asserted = [(f"(bvult {chain[i]} {chain[(i + 1) % 5]})", True) for i in range(5)]
    for name in rest:
        low = rng.randrange(2**31)
        high = low + rng.randrange(2, 2**30)
        asserted.append((f"(and (bvule {word(low)} {name}) (bvult (bvadd {name} {word(1)}) {word(high)}))", False))
    rng.shuffle(asserted)
    named = [(f"a{i}", text) for i, (text, _) in enumerate(asserted)]
    only = {f"a{i}" for i, (_, needed) in enumerate(asserted) if needed}
    return script([*chain, *rest], named), only


def many_cores(count, seed):
    """Pairs that contradict each other: each pair is a minimal core."""
    rng = random.Random(f"many {count} {seed}")
    asserted, constants = [], []
    for i in range(count // 2):
        constants.append(f"x{i}")
        moved, value = f"(bvadd x{i} {word(rng.randrange(2**31))})", word(rng.randrange(2**31))
        asserted += [f"(= {moved} {value})", f"(bvult {moved} {value})"]
    rng.shuffle(asserted)
    return script(constants, [(f"a{i}", text) for i, text in enumerate(asserted)]), None


def pigeons(holes, seed):
    """One more number than there are values below `holes`, all different: every assertion is needed."""
    names = [f"p{i}" for i in range(holes + 1)]
    asserted = [f"(bvult {name} {word(holes)})" for name in names]
    asserted += [f"(distinct {a} {b})" for i, a in enumerate(names) for b in names[:i]]
    random.Random(f"pigeons {holes} {seed}").shuffle(asserted)
    named = [(f"a{i}", text) for i, text in enumerate(asserted)]
    return script(names, named), {name for name, _ in named}


def problems():
    for count in (20, 200, 2000):
        yield f"one-{count}", *one_core(count, 0)
        yield f"many-{count}", *many_cores(count, 0)
    yield "all-15", *pigeons(4, 0)
