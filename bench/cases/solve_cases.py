#!/usr/bin/env python3
"""Writes the cases of crates/qv_solve_cases (stdin) and what must come (stdout).

    bench/cases/solve_cases.py

A case is the number of a check, the limits of conflicts, instances and variables, the sorts of the constants, by index, and
asserted formulas, with a semicolon between them. Terms are written as in bench/cases/tree_cases.py. What is answered is found by
trying all values of the constants. Which section comes, and which values, depends on the program, so a row says that the
checker accepts the section, and that the formulas hold under the values, which the driver asserts besides.

An answer is that a limit is spent only where it can't be met. An entry of a level but the last needs one of the next level,
so each block needs an entry; where the universal player wins, each line of the tree is an instance too, and without
quantifiers there is a line for each constant. The final list needs a conflict, since the empty clause is derived from it, and
so does a list of the game where the player of the first block loses. Without quantifiers both have the same clauses where no
pass changes them, and one derivation serves for both. Clauses that unit propagation doesn't refute need more than one conflict. A
formula with a variable needs more than the variable that stands for `true`.
"""
import random

from game_cases import CONFLICTS, INSTANCES, VARIABLES, block_count, winner
from game_formulas import (A, B, C, CONSTANTS, E, FALSE, SORTS, TRUE, below_zero, constants_of, every, factors, greatest, joined,
                           joined_leaves, lit, negation_of, no, pigeons, random_formula, same, some, three_levels, var)
from prenex_cases import problem
from prenex_cases import random_formula as any_formula
from rows import write_part
from tree_cases import app, bind, leaf, show

AMPLE = (CONFLICTS, INSTANCES, VARIABLES)
D, F = leaf("c3:8"), leaf("c5:bool")

SUM = (leaf("c1:32"), leaf("c2:32"))

# A pass takes the conjunction away, before the game as behind it.
LONGER = app("and", no(A), TRUE)

# Four clauses, no two of which refute the others.
TWICE = [app("or", a, c) for a in (A, no(A)) for c in (C, no(C))]

ROWS = []


def note(text):
    ROWS.extend([("", None)] if ROWS else [])
    ROWS.append((f"# {text}", None))


def text_of(formulas, sorts=CONSTANTS):
    return f"{' '.join(map(str, sorts))}/{';'.join(map(show, formulas))}"


def case(formulas, said, limits=AMPLE, sorts=CONSTANTS, command="solve", number=1):
    ROWS.append((f"{command} {number} {' '.join(map(str, limits))} {text_of(formulas, sorts)}", said))


def indices_of(formulas):
    return sorted({index for t in formulas for index in constants_of(t)})


def sat(formulas):
    indices = indices_of(formulas)
    return "sat, accepted" + (f", values of {' '.join(map(str, indices))} hold" if indices else "")


UNSAT = "unsat, accepted"


def unknown(kind):
    return f"unknown {kind}, accepted"


def answer(formulas):
    return sat(formulas) if winner(formulas) == "Exists" else UNSAT


def solved(*formulas):
    case(formulas, answer(formulas))


def spent_instances(*formulas):
    """With an instance less than there are blocks, of which there are two or more."""
    case(formulas, unknown("instances"), (CONFLICTS, block_count(formulas) - 1, VARIABLES))


def each(kind, most, formulas, *said, sorts=CONSTANTS):
    ROWS.append((f"each {kind} {most} {text_of(formulas, sorts)}", "; ".join(said)))


def checks(*parts):
    """Parts are pairs of limits and formulas, or of limits, formulas and what is spent."""
    asked = "|".join(f"{' '.join(map(str, limits))} {';'.join(map(show, formulas))}" for limits, formulas, *_ in parts)
    said = "; ".join(unknown(*spent) if spent else answer(formulas) for _, formulas, *spent in parts)
    ROWS.append((f"checks {' '.join(map(str, CONSTANTS))}/{asked}", said))


# --- the cases -------------------------------------------------------------------------------------


def plain_cases():
    note("solve NUMBER CONFLICTS INSTANCES VARIABLES SORTS/TERMS: nothing asserted, and formulas without quantifiers")
    solved()
    solved(TRUE)
    solved(FALSE)
    solved(TRUE, FALSE)
    solved(same(lit(3, 5), app("bvadd", lit(3, 2), lit(3, 3))))
    solved(same(app("bvudiv", lit(8, 5), lit(8, 0)), lit(8, 255)))
    solved(A)
    solved(A, no(A))
    solved(A, C, F)
    solved(A, C, no(F), no(app("and", A, C)))
    solved(same(B, lit(3, 5)), no(A))
    solved(same(B, app("bvadd", B, lit(3, 1))))
    solved(app("bvult", B, lit(3, 1)), no(same(B, lit(3, 0))))
    solved(same(B, B))
    solved(app("or", A, no(A)), same(E, E))
    solved(same(app("bvmul", D, D), lit(8, 0x31)), app("bvult", lit(8, 0x10), D))
    solved(same(app("bvmul", D, D), lit(8, 3)))
    solved(same(app("bvurem", D, lit(8, 7)), lit(8, 3)), same(app("bvudiv", D, lit(8, 7)), lit(8, 9)))
    solved(app("bvult", D, app("bvlshr", D, lit(8, 1))))
    note("formulas that the passes change")
    for t in [app("or", A, FALSE), app("and", A, no(no(C))), same(app("bvadd", B, lit(3, 0)), B), same(app("bvmul", B, lit(3, 1)), lit(3, 7)),
              same(app("bvmul", B, lit(3, 0)), lit(3, 1)), same(app("ite", TRUE, B, lit(3, 1)), lit(3, 2)), same(app("ite", A, B, B), lit(3, 2)),
              app("and", A, app("or", A, C)), app("xor", app("and", A, TRUE), A)]:
        solved(t)
        solved(no(t))
        solved(every(0, 3, app("or", t, same(var(0, 3), B))))
        solved(some(0, 3, app("and", t, same(var(0, 3), B))))
    note("values, where the formulas leave one for each constant")
    case([same(B, lit(3, 5)), no(A)], sat([B, A]) + " 0=bool:0 1=3:5", command="values")
    case([every(0, 3, app("bvuge", B, var(0, 3)))], sat([B]) + " 1=3:7", command="values")
    case([same(app("bvmul", D, lit(8, 3)), lit(8, 1)), same(F, every(0, "bool", var(0, "bool")))], sat([D, F]) + " 3=8:ab 5=bool:0",
         command="values")
    note("the greatest number")
    case([], sat([]), number=2**62 - 1)
    case([FALSE], UNSAT, number=2**62 - 1)
    case([A], unknown("variables"), (CONFLICTS, INSTANCES, 1), number=2**62 - 1)


def quantified_cases():
    note("one quantifier")
    for t in [var(0, "bool"), no(var(0, "bool")), TRUE, FALSE]:
        solved(every(0, "bool", t))
        solved(some(0, "bool", t))
    for t in [same(var(0, 3), lit(3, 6)), app("bvult", var(0, 3), lit(3, 0)), app("bvule", lit(3, 0), var(0, 3)), same(var(0, 3), B)]:
        solved(every(0, 3, t))
        solved(some(0, 3, t))
    note("matrices that don't speak of the places")
    for t in [TRUE, FALSE, A]:
        solved(every(0, 2, some(1, 3, t)))
        solved(some(0, 2, every(1, 3, t)))
        solved(every(0, 2, some(1, 3, every(2, 1, t))))
    note("the greatest value, nothing below zero, a negation, three levels; for wide sorts the answers are known")
    for shape in [greatest, below_zero, negation_of, three_levels]:
        for w in [1, 2, 3]:
            solved(shape(w))
        spent_instances(shape(3))
    case([greatest(8)], "sat, accepted")
    case([below_zero(8)], UNSAT)
    case([three_levels(4)], "sat, accepted")
    case([three_levels(16)], "sat, accepted")
    case([negation_of(128)], "sat, accepted", (CONFLICTS, 10, VARIABLES))
    note("factors of 1: the even numbers have none")
    for w in [1, 2, 3]:
        solved(factors(w))
        solved(no(factors(w)))
    note("siblings")
    low = lambda t, bit: same(app("extract:0:0", t), lit(1, bit))
    solved(every(0, 2, some(1, 2, app("and", low(var(0, 2), 1), low(var(1, 2), 0)))))
    note("four blocks and five")
    w = 2
    a, b, c, d, e = (var(level, w) for level in range(5))
    solved(every(0, w, some(1, w, every(2, w, some(3, w, same(app("bvadd", b, d), app("bvxor", a, c)))))))
    solved(some(0, w, every(1, w, some(2, w, every(3, w, app("bvule", app("bvand", c, d), app("bvor", a, b)))))))
    body = same(e, app("bvadd", app("bvxor", a, b), app("bvxor", c, d)))
    solved(some(0, w, every(1, w, some(2, w, every(3, w, some(4, w, body))))))
    body = no(same(app("bvadd", app("bvadd", b, d), e), a))
    solved(every(0, w, some(1, w, every(2, w, some(3, w, every(4, w, body))))))
    body = app("bvule", app("bvand", app("bvand", a, c), e), app("bvor", b, d))
    solved(every(0, w, some(1, w, every(2, w, some(3, w, every(4, w, body))))))
    note("quantifiers on either side of an equation, and constants beside quantifiers")
    p, q = var(0, "bool"), var(1, "bool")
    solved(same(every(0, "bool", p), some(1, "bool", no(q))))
    solved(same(every(0, "bool", p), no(some(1, "bool", q))))
    solved(app("xor", every(0, "bool", p), some(1, "bool", q)))
    solved(same(A, every(0, "bool", app("or", p, C))), A)
    solved(same(A, every(0, "bool", app("or", p, C))), A, no(C))
    solved(same(every(0, 2, same(var(0, 2), E)), some(1, 2, no(same(var(1, 2), E)))))
    solved(every(0, 3, some(1, 3, same(app("bvadd", var(0, 3), var(1, 3)), B))), same(B, lit(3, 7)))
    solved(every(0, 3, some(1, 3, same(app("bvadd", var(0, 3), var(1, 3)), B))), no(same(B, B)))
    solved(every(0, 3, app("bvuge", var(0, 3), B)))
    solved(every(0, 3, app("bvugt", var(0, 3), B)))
    solved(every(0, 3, app("or", same(app("bvand", var(0, 3), B), lit(3, 0)), app("bvuge", var(0, 3), B))), no(same(B, lit(3, 0))))
    solved(every(0, 3, some(1, 3, app("and", app("bvult", var(0, 3), var(1, 3)), app("bvult", var(1, 3), B)))))
    solved(every(0, 3, app("=>", app("bvult", var(0, 3), B), some(1, 3, same(app("bvmul", var(1, 3), B), var(0, 3))))), app("bvult", lit(3, 1), B))
    note("a prefix that is too long")
    many = every(2, "bool", var(2, "bool"))
    for _ in range(7):
        many = app("xor", many, many)
    case([many], "prefix limit")


def limited_cases():
    note("text: the section of an unknown answer")
    case([A], unknown("variables") + ", qbv-cert 2; check 7 unknown; end; ", (CONFLICTS, INSTANCES, 1), command="text", number=7)
    note("count: where there is no place there is no entry, and a conflict is charged for the final list alone")
    case([TRUE], "sat, accepted, instances 0, conflicts 1, settled", command="count")
    case([FALSE], "unsat, accepted, instances 0, conflicts 1, settled", command="count")
    case([A], sat([A]) + ", instances 1, conflicts 1, settled", command="count")
    case([A, no(A)], UNSAT + ", instances 2, conflicts 1, settled", command="count")
    case([A, LONGER], UNSAT + ", instances 2, conflicts 1, settled", command="count")
    case([A], unknown("variables") + ", instances 0, conflicts 0, kept", (CONFLICTS, INSTANCES, 1), command="count")
    case([A, no(A)], UNSAT + ", instances 2, conflicts 1, settled", (1, INSTANCES, VARIABLES), command="count")
    case([A, LONGER], UNSAT + ", instances 2, conflicts 1, settled", (1, INSTANCES, VARIABLES), command="count")
    case(TWICE, unknown("conflicts") + ", instances 0, conflicts 1, kept", (1, INSTANCES, VARIABLES), command="count")
    note("instances: an entry for one block, and where it is unsat a line for each constant")
    for formulas in [[A], [same(B, lit(3, 5)), no(A)], [A, C, F]]:
        case(formulas, sat(formulas), (CONFLICTS, 1, VARIABLES))
    for formulas in [[A, no(A)], [same(B, app("bvadd", B, lit(3, 1)))], [A, C, no(F), no(app("and", A, C))], [same(app("bvmul", D, D), lit(8, 3))]]:
        needed = 1 + len(indices_of(formulas))
        for limit in range(1, needed):
            case(formulas, unknown("instances"), (CONFLICTS, limit, VARIABLES))
        case(formulas, UNSAT, (CONFLICTS, needed, VARIABLES))
    case([FALSE], UNSAT, (CONFLICTS, 1, VARIABLES))
    case([below_zero(8)], unknown("instances"), (CONFLICTS, 1, VARIABLES))
    case([greatest(8)], unknown("instances"), (CONFLICTS, 1, VARIABLES))
    note("conflicts: what a pass changes is changed before the game, so its steps refute the final list too; four clauses need two, pigeons more")
    case([A], sat([A]), (1, INSTANCES, VARIABLES))
    case([A, no(A)], UNSAT, (1, INSTANCES, VARIABLES))
    case([A, LONGER], UNSAT, (1, INSTANCES, VARIABLES))
    case(TWICE, unknown("conflicts"), (1, INSTANCES, VARIABLES))
    case(TWICE, UNSAT, (2, INSTANCES, VARIABLES))
    sorts = ["bool"] * 20
    case(pigeons(5, 4), unknown("conflicts"), (1, INSTANCES, VARIABLES), sorts)
    case(pigeons(5, 4), UNSAT, sorts=sorts)
    case(pigeons(4, 4), sat(pigeons(4, 4)), sorts=sorts)
    note("closure: sums in two orders have the same gates, so no conflict is needed to see that they are equal")
    case([no(same(*(app("ite", leaf("c0:bool"), app("bvadd", *order), leaf("c1:32")) for order in (SUM, SUM[::-1]))))], UNSAT,
         (1, INSTANCES, VARIABLES), ["bool", 32, 32])
    note("variables: the first stands for `true`, and each bit is one more")
    case([A], unknown("variables"), (CONFLICTS, INSTANCES, 1))
    case([A], sat([A]), (CONFLICTS, INSTANCES, 2))
    case([same(B, lit(3, 5))], unknown("variables"), (CONFLICTS, INSTANCES, 3))
    case([below_zero(8)], unknown("variables"), (CONFLICTS, INSTANCES, 1))
    case([TRUE], sat([]), (CONFLICTS, INSTANCES, 1))
    note("the least and the greatest limits")
    case([TRUE], sat([]), (1, 1, 1))
    case([FALSE], UNSAT, (1, 1, 1))
    case([A, no(C)], sat([A, C]), (2**60 - 1, 2**60 - 1, 2**30))
    note("each KIND MOST SORTS/TERMS: the answers with limits from 1 on, where they differ from the one before")
    each("conflicts", 3, [A], sat([A]))
    each("conflicts", 4, [A, no(A)], UNSAT)
    each("conflicts", 4, [A, LONGER], UNSAT)
    each("conflicts", 4, TWICE, unknown("conflicts"), UNSAT)
    each("conflicts", 60, pigeons(4, 3), unknown("conflicts"), UNSAT, sorts=["bool"] * 12)
    each("instances", 4, [A, no(A)], unknown("instances"), UNSAT)
    each("variables", 12, [same(B, lit(3, 5))], unknown("variables"), sat([B]))
    for formulas in [[greatest(3)], [below_zero(3)], [three_levels(2)], [no(factors(2))]]:
        each("instances", 16, formulas, unknown("instances"), answer(formulas))
        each("variables", 64, formulas, unknown("variables"), answer(formulas))
    each("conflicts", 8, [three_levels(2)], unknown("conflicts"), answer([three_levels(2)]))


def several_checks():
    note("checks SORTS/LIMITS TERMS|LIMITS TERMS|..: one check after another over one store and one meter")
    checks((AMPLE, [A]), (AMPLE, [A, no(A)]), (AMPLE, []), (AMPLE, [A]))
    checks((AMPLE, [A]), ((CONFLICTS, INSTANCES, 1), [A], "variables"), (AMPLE, [A]))
    checks((AMPLE, [same(B, lit(3, 5))]), (AMPLE, [same(B, lit(3, 5)), A]), (AMPLE, [same(B, lit(3, 5)), A, no(same(B, lit(3, 5)))]),
           (AMPLE, [same(B, lit(3, 5))]))
    checks((AMPLE, [greatest(2)]), ((CONFLICTS, 1, VARIABLES), [greatest(2)], "instances"), (AMPLE, [no(greatest(2))]), (AMPLE, [greatest(2), A]))
    checks(((CONFLICTS, 1, VARIABLES), [A, no(A)], "instances"), ((1, INSTANCES, VARIABLES), TWICE, "conflicts"),
           ((CONFLICTS, INSTANCES, 1), TWICE, "variables"), (AMPLE, [A, no(A)]))


def random_cases(chosen, count):
    note("formulas by chance, and some of them with an instance less than there are blocks")
    done = 0
    while done < count:
        prefix = [(chosen.choice(["All", "Ex"]), level, chosen.choice(SORTS)) for level in range(chosen.randrange(1, 6))]
        bits = sum(1 if sort == "bool" else sort for _, _, sort in prefix)
        formula = random_formula(chosen, prefix, chosen.randrange(2, 5))
        used = joined_leaves(formula)
        if bits > 9 or not any(f"v{level}:{sort}" in used for _, level, sort in prefix):
            continue
        for quantifier, level, sort in reversed(prefix):
            formula = bind(quantifier, level, sort, formula)
        solved(formula)
        if done % 4 == 0 and block_count([formula]) > 1:
            spent_instances(formula)
        done += 1


def mixed_cases(chosen, count):
    note("formulas by chance with constants, and quantifiers anywhere")
    for _ in range(count):
        solved(*mixed(chosen))


def mixed(chosen, most=2048):
    """Formulas with constants and quantifiers whose problem has few values."""
    while True:
        formulas = [any_formula(chosen, frozenset(), chosen.randrange(1, 5)) for _ in range(chosen.choice([1, 1, 1, 2, 3]))]
        size, places = 1, problem(formulas)[0]
        for _, sort in places:
            size *= 2 if sort == "bool" else 2**sort
        if len(places) > 1 and size <= most:
            return formulas


def mixed_checks(chosen, count):
    note("several checks by chance, each with at most eight places")
    done = 0
    while done < count:
        parts = [(AMPLE, mixed(chosen, 64)) for _ in range(chosen.randrange(2, 5))]
        checks(*parts)
        done += 1


def bad_cases():
    note("these aren't cases: limits of 0 and above the greatest, a number that is too great, a free variable, no formula")
    for line in ["solve 1 0 1 1 /bool:1", "solve 1 1 0 1 /bool:1", "solve 1 1 1 0 /bool:1", f"solve 1 {2**60} 1 1 /bool:1",
                 f"solve 1 1 {2**60} 1 /bool:1", f"solve 1 1 1 {2**30 + 1} /bool:1", "solve 1 1 1 /bool:1", "solve 1 9 9 9 /v0:bool",
                 f"solve {2**62} 9 9 9 /bool:1", "solve 1 9 9 9 /3:1", "solve 1 9 9 9 bool:1", "answer 1 9 9 9 /bool:1", "solve",
                 "each conflicts /bool:1", "checks /bool:1", "checks bool"]:
        ROWS.append((line, "bad case"))


def main():
    plain_cases()
    quantified_cases()
    limited_cases()
    several_checks()
    random_cases(random.Random(32), 60)
    mixed_cases(random.Random(33), 40)
    mixed_checks(random.Random(34), 8)
    bad_cases()
    write_part("qv_solve_cases", "answers", ROWS)
    print(f"{sum(answer is not None for _, answer in ROWS)} cases")


if __name__ == "__main__":
    main()
