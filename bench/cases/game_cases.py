#!/usr/bin/env python3
"""Writes the cases of crates/qv_solve_cases (stdin) and what must come (stdout).

    bench/cases/game_cases.py PROGRAM

A case is the limits of conflicts, instances and variables, and a script. Who wins is found by trying all values of the formulas
that the script checks: the existential player does where some values of the constants make all formulas true. A limit is spent
only where it can't be met: an entry of a level but the last needs one of the next level, so each block needs an entry; clauses
that unit propagation doesn't refute need more than one conflict; and a formula with a variable needs more than the variable that
stands for `true`. Where a quantity is spent the record counts just its limit.

Which entries come, and so how many and after how many conflicts, depends on the core's values. So the built PROGRAM is asked for
these, and what it says stands as an answer only where bench/cases/game_entries.py finds no fault in it: it reads each entry again, at
all points. The same is asked of all other games of these rows whose places have few values. What such a game needs, by its
counts and by the variables of its clause lists, is then given as limits, and one less of each.
"""
import random
import sys
from itertools import product

from game_entries import LIMITS, Game, answers, counts, faults, few_points, row
from game_formulas import (A, B, C, E, FALSE, SORTS, TRUE, below_zero, constants_of, every, factors, greatest, joined_leaves, lit,
                           negation_of, no, pigeons, random_formula, same, some, three_levels, var)
from prenex_cases import problem, value, values
from rows import write_part
from tree_cases import app, bind

CONFLICTS, INSTANCES, VARIABLES = LIMITS
ANY_POINTS = 2**17

ROWS = []
SMALL = []
PROGRAM = sys.argv[1] if len(sys.argv) > 1 else ""


# --- rows ------------------------------------------------------------------------------------------


def note(text):
    ROWS.extend([("", None)] if ROWS else [])
    ROWS.append((f"# {text}", None))


def case(formulas, answer, limits=LIMITS, command="play"):
    ROWS.append((row(command, limits, formulas), answer))


def ask(line):
    return answers(PROGRAM, [line])[line]


def winner(formulas):
    """The player that wins, by all values."""
    sorts = {}
    for t in formulas:
        sorts |= constants_of(t)
    for chosen in product(*(values(sort) for sort in sorts.values())):
        under = dict(zip(sorts, chosen))
        if all(value(t, under, {}) == 1 for t in formulas):
            return "Exists"
    return "Forall"


def block_count(formulas):
    players = [player for player, _ in problem(list(formulas))[0]]
    return sum(a != b for a, b in zip([None] + players, players))


def won(*formulas):
    case(formulas, winner(formulas))
    SMALL.append(list(formulas))


def spent_instances(*formulas):
    """With an instance less than there are blocks, of which there are two or more."""
    case(formulas, "spent instances", (CONFLICTS, block_count(formulas) - 1, VARIABLES))


def must(is_so, what):
    if not is_so:
        sys.exit(f"bench/cases/game_cases.py: {what}")


def entered(formulas, line=None):
    """Each entry, where all are as they have to be."""
    line = line or row("entries", LIMITS, formulas)
    told = ask(line)
    must(few_points(Game(formulas), ANY_POINTS), f"too many points: {line}")
    for fault in faults(formulas, told):
        must(False, f"{fault}: {line}\n  {told}")
    ROWS.append((line, told))
    return counts(told)


def counted(formulas, blocks, answer, limits=LIMITS):
    """The counts of a game of so many blocks whose winner is known."""
    line = row("count", limits, formulas)
    told, instances, conflicts, *_ = counts(ask(line))
    must(told == answer, f"who wins: {line}")
    must(blocks <= instances <= limits[1] and conflicts <= limits[0], f"counts: {line}")
    ROWS.append((line, ask(line)))
    return instances, conflicts


def spent(quantity, formulas, limits):
    """The record counts just the limit of what is spent, and no more than the others."""
    line = row("count", limits, formulas)
    told, instances, conflicts, *_ = counts(ask(line))
    must(told == f"spent {quantity}", f"not spent: {line}")
    must((conflicts == limits[0]) if quantity == "conflicts" else conflicts <= limits[0], f"conflicts: {line}")
    must((instances == limits[1]) if quantity == "instances" else instances <= limits[1], f"instances: {line}")
    ROWS.append((line, ask(line)))


def needed(formulas, instances, conflicts, variables):
    """With what a game needs its answer is the same; with one less of a quantity that is spent."""
    needs = (max(conflicts, 1), instances, variables)
    whole = ask(row("count", LIMITS, formulas))
    case(formulas, whole, needs, "count")
    if conflicts > 1:
        spent("conflicts", formulas, (conflicts - 1, INSTANCES, VARIABLES))
    if instances > 1:
        spent("instances", formulas, (CONFLICTS, instances - 1, VARIABLES))
    spent("variables", formulas, (CONFLICTS, INSTANCES, variables - 1))


# --- the cases -------------------------------------------------------------------------------------


def plain_cases():
    note("without places the matrix decides; with constants alone there is one block")
    won()
    won(TRUE)
    won(FALSE)
    won(same(lit(3, 5), app("bvadd", lit(3, 2), lit(3, 3))))
    won(A)
    won(A, no(A))
    won(same(B, lit(3, 5)), no(A))
    won(same(B, app("bvadd", B, lit(3, 1))))
    won(app("bvult", B, lit(3, 1)), no(same(B, lit(3, 0))))
    note("what is charged where there is no place, and so no entry")
    for command in ["count", "entries"]:
        for t, answer in [(TRUE, "Exists"), (FALSE, "Forall")]:
            case([t], f"{answer}, instances 0, conflicts 0" + (" | cover no terms by none" if command == "entries" else ""), command=command)
    note("one quantifier")
    for t in [var(0, "bool"), no(var(0, "bool")), TRUE, FALSE]:
        won(every(0, "bool", t))
        won(some(0, "bool", t))
    for t in [same(var(0, 3), lit(3, 6)), app("bvult", var(0, 3), lit(3, 0)), app("bvule", lit(3, 0), var(0, 3))]:
        won(every(0, 3, t))
        won(some(0, 3, t))
    note("matrices that don't speak of the places")
    for t in [TRUE, FALSE]:
        won(every(0, 2, some(1, 3, t)))
        won(some(0, 2, every(1, 3, t)))
        won(every(0, 2, some(1, 3, every(2, 1, t))))


def known_cases():
    note("the greatest value, nothing below zero, a negation, three levels; for wide sorts the answers are known")
    for shape in [greatest, below_zero, negation_of, three_levels]:
        won(shape(1))
        won(shape(2))
        won(shape(3))
        spent_instances(shape(3))
    case([greatest(8)], "Exists")
    case([below_zero(8)], "Forall")
    case([three_levels(4)], "Exists")
    case([three_levels(16)], "Exists")
    case([negation_of(128)], "Exists", (CONFLICTS, 10, VARIABLES))
    note("factors of 1: the even numbers have none")
    for w in [1, 2, 3]:
        won(factors(w))
        won(no(factors(w)))
    note("quantifiers on either side of an equation")
    p, q = var(0, "bool"), var(1, "bool")
    won(same(every(0, "bool", p), some(1, "bool", no(q))))
    won(same(every(0, "bool", p), no(some(1, "bool", q))))
    won(app("xor", every(0, "bool", p), some(1, "bool", q)))
    won(same(every(0, 2, same(var(0, 2), E)), some(1, 2, no(same(var(1, 2), E)))))
    won(every(0, 3, some(1, 3, same(app("bvadd", var(0, 3), var(1, 3)), B))), same(B, lit(3, 7)))
    won(every(0, 3, some(1, 3, same(app("bvadd", var(0, 3), var(1, 3)), B))), no(same(B, B)))


def spent_cases():
    note("pigeons: unit propagation alone doesn't refute them; the first conflict is charged, the second isn't")
    spent("conflicts", pigeons(5, 4), (1, INSTANCES, VARIABLES))
    case(pigeons(5, 4), "Forall")
    case(pigeons(4, 4), "Exists")
    note("an entry is an instance, so a block can do with one")
    case([A], "Exists", (CONFLICTS, 1, VARIABLES))
    case([FALSE], "Forall", (CONFLICTS, 1, VARIABLES))
    case([A, no(A)], "Forall", (CONFLICTS, 1, VARIABLES))
    case([below_zero(8)], "spent instances", (CONFLICTS, 1, VARIABLES))
    case([greatest(8)], "spent instances", (CONFLICTS, 1, VARIABLES))
    note("the first variable stands for `true`, and each bit is one more")
    case([A], "spent variables", (CONFLICTS, INSTANCES, 1))
    case([A], "Exists", (CONFLICTS, INSTANCES, 2))
    case([same(B, lit(3, 5))], "spent variables", (CONFLICTS, INSTANCES, 3))
    case([below_zero(8)], "spent variables", (CONFLICTS, INSTANCES, 1))
    case([TRUE], "Exists", (CONFLICTS, INSTANCES, 1))
    note("the least and the greatest limits")
    case([TRUE], "Exists", (1, 1, 1))
    case([A, no(C)], "Exists", (2**60 - 1, 2**60 - 1, 2**30))
    note("each limit at 1, spent at exactly that, with the counts of the record")
    spent("instances", [greatest(8)], (CONFLICTS, 1, VARIABLES))
    spent("instances", [greatest(2)], (CONFLICTS, 1, VARIABLES))
    case([A], "spent variables, instances 0, conflicts 0", (CONFLICTS, INSTANCES, 1), "count")
    case([below_zero(8)], "spent variables, instances 0, conflicts 0", (CONFLICTS, INSTANCES, 1), "count")
    case([TRUE], "Exists, instances 0, conflicts 0", (1, 1, 1), "count")
    case([FALSE], "Forall, instances 0, conflicts 0", (1, 1, 1), "count")


def two_of_three():
    """The universal player wins from 00, then from both points that begin with 0, and then from those that begin with 1."""
    a, b, c, d = (var(level, "bool") for level in range(4))
    parts = [app("or", app("or", a, b), c), app("or", a, no(c)), app("or", no(a), c), app("or", d, app("or", b, c))]
    body = app("and", app("and", parts[0], parts[1]), app("and", parts[2], parts[3]))
    return some(0, "bool", some(1, "bool", every(2, "bool", some(3, "bool", body))))


def whole_cases():
    note("all entries of the worked games, read again at all points; then what the game needs, and one less of each quantity")
    for t in [below_zero(8), greatest(8), three_levels(4), negation_of(3), below_zero(3), greatest(2), three_levels(2), factors(3)]:
        answer, instances, conflicts, entries, _ = entered([t])
        needed([t], instances, conflicts, Game([t]).variables(entries))
    note("those whose points are too many to try: how much is charged")
    counted([negation_of(128)], 2, "Exists", (CONFLICTS, 10, VARIABLES))
    counted([three_levels(16)], 3, "Exists")
    counted(pigeons(5, 4), 1, "Forall")
    note("of three links of a forced entry two are enough")
    entered([two_of_three()])
    note("all entries of games by chance")
    chosen = random.Random(53)
    for _ in range(40):
        entered([random_game(chosen)])


def script_cases():
    note("scripts with definitions, levels, names and assumptions, up to their first check")
    four = 4
    there = some(1, four, same(var(1, four), lit(four, 3)))
    macros = [every(0, four, some(1, four, no(same(var(1, four), var(0, four))))),
              same(app("bvadd", app("bvadd", lit(four, 1), lit(four, 1)), lit(four, 1)), lit(four, 3)),
              app("and", there, every(0, four, app("=>", there, app("bvule", var(0, four), lit(four, 15)))))]
    text = ("(define-fun h ((p (_ BitVec 4))) Bool (exists ((y (_ BitVec 4))) (distinct y p)))"
            "(define-fun g ((a (_ BitVec 4))) (_ BitVec 4) (bvadd a #x1))"
            "(assert (forall ((x (_ BitVec 4))) (h x)))(assert (= (g (g #x1)) #x3))"
            "(assert (let ((f (exists ((y (_ BitVec 4))) (= y #x3)))) (and f (forall ((x (_ BitVec 4))) (=> f (bvule x #xf))))))")
    asked(f"{text}(check-sat)", macros)
    b = "(declare-const a Bool)(declare-const b (_ BitVec 3))"
    five = same(B, lit(3, 5))
    asked("(set-logic BV)(set-option :print-success false)(check-sat)", [])
    asked("(push 1)(assert false)(pop 1)(check-sat)", [])
    asked("(push 1)(assert false)(check-sat)(pop 1)(check-sat)", [FALSE])
    asked(f"{b}(assert (! (= b #b101) :named n))(check-sat)", [five])
    asked(f"{b}(assert (= b #b101))(push 2)(assert (not a))(check-sat)", [five, no(A)])
    asked(f"{b}(assert (= b #b101))(push 2)(assert (not a))(pop 2)(assert a)(check-sat)", [five, A])
    asked(f"{b}(assert (or a (= b #b101)))(check-sat-assuming ((not a)))", [app("or", A, five), no(A)])
    asked(f"{b}(assert (or a (= b #b101)))(assert (bvult b #b101))(check-sat-assuming ((not a)))",
          [app("or", A, five), app("bvult", B, lit(3, 5)), no(A)])
    asked(f"{b}(assert (forall ((x (_ BitVec 3)) (y (_ BitVec 3))) (exists ((z (_ BitVec 3))) (= (bvadd x z) (bvand y b)))))(check-sat)",
          [every(0, 3, every(1, 3, some(2, 3, same(app("bvadd", var(0, 3), var(2, 3)), app("bvand", var(1, 3), B)))))])
    asked("(assert (= (forall ((p Bool)) p) (exists ((q Bool)) (not q))))(check-sat)",
          [same(every(0, "bool", var(0, "bool")), some(0, "bool", no(var(0, "bool"))))])
    asked("(assert true)(check-sat)(this is not read", [TRUE])


def asked(text, formulas):
    """A script as it is written, whose first check is of these formulas."""
    limits = " ".join(map(str, LIMITS))
    ROWS.append((f"play {limits} {text}", winner(formulas)))
    if few_points(Game(formulas), ANY_POINTS):
        entered(formulas, f"entries {limits} {text}")


def random_game(chosen):
    while True:
        prefix = [(chosen.choice(["All", "Ex"]), level, chosen.choice(SORTS)) for level in range(chosen.randrange(1, 6))]
        bits = sum(1 if sort == "bool" else sort for _, _, sort in prefix)
        formula = random_formula(chosen, prefix, chosen.randrange(2, 5))
        used = joined_leaves(formula)
        if bits <= 9 and any(f"v{level}:{sort}" in used for _, level, sort in prefix):
            for quantifier, level, sort in reversed(prefix):
                formula = bind(quantifier, level, sort, formula)
            return formula


def random_cases(chosen, count):
    note("games by chance, and some of them with an instance less than there are blocks")
    for number in range(count):
        formula = random_game(chosen)
        won(formula)
        if number % 4 == 0 and block_count([formula]) > 1:
            spent_instances(formula)


def bad_cases():
    note("these aren't cases: limits of 0 and above the greatest, scripts that are refused, that end, and that have no check")
    check = "(check-sat)"
    for line in [f"play 0 1 1 {check}", f"play 1 0 1 {check}", f"play 1 1 0 {check}", f"play {2**60} 1 1 {check}",
                 f"play 1 {2**60} 1 {check}", f"play 1 1 {2**30 + 1} {check}", f"play 1 1 {check}", f"game 9 9 9 {check}", "play",
                 "play 9 9 9", "play 9 9 9 ", f"play 9 9 9 (assert c0){check}", f"play 9 9 9 (assert #b1){check}",
                 f"play 9 9 9 (pop 1){check}", f"play 9 9 9 (exit){check}", "play 9 9 9 (assert true)", "play 9 9 9 (check-sat",
                 f"play 9 9 9 ){check}", f"play 9 9 9 (get-model){check}"]:
        ROWS.append((line, "bad case"))


def read_again():
    """The entries of the other games."""
    games = [formulas for formulas in SMALL if few_points(Game(formulas))]
    lines = [row("entries", LIMITS, formulas) for formulas in games]
    told = answers(PROGRAM, lines)
    for formulas, line in zip(games, lines):
        for fault in faults(formulas, told[line]):
            must(False, f"{fault}: {line}\n  {told[line]}")
    return len(games)


def main():
    plain_cases()
    known_cases()
    spent_cases()
    whole_cases()
    script_cases()
    random_cases(random.Random(31), 240)
    bad_cases()
    games = read_again()
    write_part("qv_solve_cases", "games", ROWS, "game")
    print(f"{sum(answer is not None for _, answer in ROWS)} cases; the entries of {games} games beside were read again")


if __name__ == "__main__":
    main()
