#!/usr/bin/env python3
"""Writes stdin and stdout of two drivers: qv_watch_cases (literals, clause lists, refutations; trails) and qv_sat_cases.

    clause_cases.py

Each line of stdin has one line of stdout. Answers come from worked examples, from the reference below, which follows the
definitions and not the code, and for cores from minisat and cadical, which have to agree.
"""
import itertools
import os
import random
import subprocess
import tempfile

from rat import judge, judge_rup, rat_hints
from rows import write_part

GREATEST = 2**30
ROUNDS = random.Random(20261127)
RAT_ROUNDS = random.Random(20261129)
LINES, ANSWERS = [], []


def case(line, answer):
    LINES.append(line.rstrip())
    ANSWERS.append(answer)


def note(*texts):
    """A blank line and comments."""
    for text in ("",) + tuple("# " + text for text in texts):
        case(text, text)


def words(numbers):
    return " ".join(map(str, numbers))


def listed(numbers):
    return words(numbers) if numbers else "none"


def by_variable(lits):
    return sorted(lits, key=lambda lit: (abs(lit), lit < 0))


def flat(clauses):
    return [number for clause in clauses for number in list(clause) + [0]]


# Literals, clauses, a counter.


def literal(number):
    if abs(number) >= 2**31 and number != -(2**31):
        return "bad case"
    if number == 0 or abs(number) > GREATEST:
        return "none"
    sign = "positive" if number > 0 else "negative"
    index = 2 * abs(number) + (number < 0)
    return f"{number}, variable {abs(number)}, {sign}, negated {-number}, index {index}"


def heading(*texts):
    """What the lines say."""
    for text in (
        "Each line but comments and empty lines is a case, answered by the same line of stdout. bench/cases/clause_cases.py writes both.",
        "",
    ) + texts:
        line = f"# {text}".rstrip()
        case(line, line)


def clause_heading():
    heading(
        "literal N      the literal that a number names",
        "default        the literal that fills free places",
        "clause LITS    a clause of these literals, and whether they stand inline",
        "charge LIMIT   one charge to a new counter",
        "list ..        a clause list: new, may ID, add ID LITS, get ID, remove ID, cut ID",
        "check ..       a checker: new, original ID LITS, step LINE (as in LRAT, without the 0 at its end), rup LINE (the same by unit propagation alone), refuted",
    )


def trail_heading():
    heading(
        "trail ..       a trail, with a checker of the same clauses: new, room N, attach ID LITS, clauses (each with a 0 at its end),",
        "               detach ID, assume LIT, back LEVEL, propagate; level, order, trues (the order sorted), reasons (whether each was",
        "               unit), clause ID, value LIT, level-of LIT, position LIT, reason LIT; analyse, and then learnt (the first literal",
        "               first), learnt-level, hints (sorted)",
        "",
        "A conflict names a false clause; a learnt clause stands as it should, and a checker takes it.",
    )


def core_heading():
    heading(
        "core ..        a core under a new budget for each question: new, next ID, add (clauses), aside (clauses, each left aside under",
        "               the variable of its last literal), ask LIMIT ASSUMPTIONS, and then count,",
        "               model, failed (the failed assumptions); patient (limits of 1, 2, .. until one isn't spent), tight (whether the",
        "               conflicts of a refutation are enough for it, and one fewer isn't), models (how many)",
        "counted ..     a core under one counter: new LIMIT (clauses), ask ASSUMPTIONS, and then count, model, failed",
        "",
        "Values and cores are judged before they are answered: a model makes clauses and assumptions true, a core is among the",
        "assumptions and fails again by itself, a checker takes each step, and what is charged is what was added.",
    )


def literals():
    note("The literal that a number names.")
    edges = [1, -1, 3, -3, 7, GREATEST, -GREATEST, 0, GREATEST + 1, -GREATEST - 1, 2**31 - 1, -(2**31), 2**31, -(2**31) - 1]
    for number in edges + [2, -2, GREATEST - 1, 1 - GREATEST]:
        case(f"literal {number}", literal(number))
    for _ in range(20):
        number = ROUNDS.choice((1, -1)) * ROUNDS.randrange(1, 2 ** ROUNDS.randrange(1, 31))
        case(f"literal {number}", literal(number))
    case("literal x", "bad case")
    note("What fills the places that no literal has taken: the first variable.")
    case("default", literal(1))
    note("Clauses of up to four literals stand inline.")
    for count in range(8):
        lits = [(-1) ** k * (5 + k) for k in range(count)]
        case(f"clause {words(lits)}", f"{listed(lits)}, {'spilled' if count > 4 else 'inline'}")
    case("clause 1 0", "bad case")
    note("A counter with a limit is asked to charge once.")
    for limit in (0, 1, 2, 2**60 - 1):
        case(f"charge {limit}", "charged, count 1" if limit else "spent, count 0")
    case(f"charge {2**60}", "bad case")


# Clause lists.


class Listing:
    """Clauses under rising ids."""

    def __init__(self):
        self.live, self.given = {}, []

    def may_add(self, id):
        return all(other < id for other in self.given)

    def add(self, id, lits):
        if not self.may_add(id):
            return "not above"
        self.given.append(id)
        self.live[id] = lits
        return "ok"

    def cut(self, id):
        self.given = [other for other in self.given if other < id]
        self.live = {other: lits for other, lits in self.live.items() if other < id}


class ListRows:
    def __init__(self, *texts):
        note(*texts)
        self.list = Listing()
        case("list new", "ok")

    def add(self, id, *lits):
        case(f"list add {id} {words(lits)}", self.list.add(id, lits))

    def may(self, id):
        case(f"list may {id}", "yes" if self.list.may_add(id) else "no")

    def get(self, id):
        case(f"list get {id}", listed(self.list.live[id]) if id in self.list.live else "not live")

    def remove(self, id):
        self.list.live.pop(id, None)
        case(f"list remove {id}", "ok")

    def cut(self, id):
        self.list.cut(id)
        case(f"list cut {id}", "ok")


def lists():
    rows = ListRows("A list gives its live clauses; ids may be left out.")
    rows.may(0)
    for id in (2, 3, 7, 8, 20):
        rows.may(id)
        rows.add(id, id, -1)
    rows.add(20, 5)
    rows.add(19, 5)
    rows.may(20)
    rows.may(21)
    rows.remove(3)
    rows.remove(4)
    rows.remove(3)
    for id in (0, 1, 2, 3, 4, 7, 8, 20, 21):
        rows.get(id)
    rows.cut(8)
    for id in (20, 8, 7, 3, 2):
        rows.get(id)
    for id in (7, 8):
        rows.may(id)
    rows.add(8)
    for id in (8, 7, 20):
        rows.get(id)
    rows.cut(0)
    rows.get(2)
    rows.may(0)
    rows.add(0, 1)
    rows.get(0)
    rows.may(0)
    rows.may(1)
    rows = ListRows("A removed clause stays so behind a cut; its id was given.")
    rows.add(5, 1, 2)
    rows.add(6, 3)
    rows.remove(5)
    rows.cut(6)
    rows.get(5)
    rows.may(5)
    rows.may(6)
    rows.add(6, -3, -3)
    rows.get(6)
    rows = ListRows("The greatest numbers.")
    rows.add(2**64 - 2, GREATEST, -GREATEST)
    rows.may(2**64 - 1)
    rows.add(2**64 - 1)
    rows.may(2**64 - 1)
    rows.get(2**64 - 1)
    rows.get(2**64 - 2)
    case(f"list may {2**64}", "bad case")
    case("list add 1 0", "bad case")
    case("list add", "bad case")
    for turn in range(24):
        rows = ListRows(f"Random calls, {turn + 1}.")
        step = ROUNDS.choice((1, 1, 3))
        id = ROUNDS.randrange(4)
        for _ in range(28):
            near = max(0, id + ROUNDS.randrange(-12, 3))
            call = ROUNDS.choice(["add"] * 5 + ["get"] * 4 + ["remove"] * 2 + ["cut", "may"])
            if call == "add":
                id += ROUNDS.randrange(step)
                rows.add(id, *(ROUNDS.choice((1, -1)) * ROUNDS.randrange(1, 30) for _ in range(ROUNDS.randrange(5))))
                id += 1
            elif call == "get":
                rows.get(near)
            elif call == "remove":
                rows.remove(near)
            elif call == "may":
                rows.may(near)
            else:
                rows.cut(max(id - ROUNDS.randrange(4), 0) if ROUNDS.randrange(3) else near)
                id = max([0] + [given + 1 for given in rows.list.given])
        for id in range(0, id + 2, 1 + id // 12):
            rows.get(id)


# The checker.


class Checker:
    """By the definition: sets of literals, and hints in order."""

    def __init__(self):
        self.live, self.next, self.refuted = {}, 0, False

    def original(self, id, lits):
        if id < self.next:
            return "order"
        self.live[id], self.next = list(lits), id + 1
        return "ok"

    def add(self, id, lits, hints, by=judge):
        answer = "order" if id < self.next else by(self.live, lits, hints)
        if answer == "ok":
            self.live[id], self.next = list(lits), id + 1
            self.refuted = self.refuted or not lits
        return answer

    def delete(self, ids):
        for id in ids:
            self.live.pop(id, None)
        return "ok"


class CheckRows:
    def __init__(self, *texts):
        note(*texts)
        self.checker = Checker()
        case("check new", "ok")

    def original(self, id, *lits):
        case(f"check original {id} {words(lits)}", self.checker.original(id, lits))

    def originals(self, clauses):
        for id, lits in enumerate(clauses, 1):
            self.original(id, *lits)

    def add(self, id, lits, hints):
        line = words([id] + list(lits) + [0] + list(hints))
        case(f"check step {line}", self.checker.add(id, lits, hints))

    def rup(self, id, lits, hints):
        line = words([id] + list(lits) + [0] + list(hints))
        case(f"check rup {line}", self.checker.add(id, lits, hints, judge_rup))

    def delete(self, id, ids):
        case(f"check step {id} d {words(ids)}", self.checker.delete(ids))

    def refuted(self):
        case("check refuted", "yes" if self.checker.refuted else "no")


# The gates of two formulas that have no model together.
SIBLINGS = [
    [1], [-2, 1, 1], [-2, -1, -1], [2, -1, 1], [2, 1, -1], [-5, 3, -1], [-5, -3, 1], [5, -3, -1], [5, 3, 1], [-6, -2],
    [-6, -5], [6, 2, 5], [6], [-7, 3, 1], [-7, -3, -1], [7, -3, 1], [7, 3, -1], [-10, 8, -1], [-10, -8, 1], [10, -8, -1],
    [10, 8, 1], [-11, -7], [-11, -10], [11, 7, 10], [11],
]
FOUR = [[1, 2], [1, -2], [-1, 2], [-1, -2]]


def hints_for(live, lits, rounds):
    """Hints by unit propagation over the live clauses in some order, or None where the clause doesn't follow so."""
    true, hints = {-lit for lit in lits}, []
    order = list(live)
    rounds.shuffle(order)
    more = True
    while more:
        more = False
        for id in order:
            left = {lit for lit in live[id] if -lit not in true}
            if not left:
                return hints + [id]
            if len(left) == 1 and not left & true:
                true |= left
                hints.append(id)
                more = True
    return None


def random_clause(rounds, variables, most=3):
    return [rounds.choice((1, -1)) * rounds.randrange(1, variables + 1) for _ in range(rounds.randrange(1, most + 1))]


def spoiled(rounds, hints, last):
    """Hints with a change that may or may not matter."""
    hints = list(hints)
    place = rounds.randrange(len(hints) + 1)
    kind = rounds.randrange(7)
    if kind == 0 and hints:
        hints.pop(min(place, len(hints) - 1))
    elif kind == 1:
        hints.insert(place, rounds.randrange(last + 3))
    elif kind == 2:
        hints.insert(place, -rounds.randrange(1, last + 2))
    elif kind == 3 and hints:
        hints.insert(place, rounds.choice(hints))
    elif kind == 4:
        rounds.shuffle(hints)
    elif kind == 5 and hints:
        hints.pop()
    else:
        hints.append(rounds.randrange(last + 9))
    return hints


def rat_checks():
    rows = CheckRows("Lines with groups.")
    rows.originals([[1, 2], [-1, 3], [-1, -3, 4], [-2, -4], [1, -1, 5], [-5, 6], [1, -3, 4], [8, -8]])
    for lits, hints in (
        ([1, -3], []), ([1, -3], [-2]), ([1, -3], [-2, -3]), ([1, -3], [-2, -3, 7]), ([1, -3], [-3, 7, -2]), ([1, -3], [-3, -2]),
        ([1, -3], [-2, 99, -3, 7, 98]), ([1, -3], [-2, -2, -3, 7]), ([1, -3], [-2, -3, 7, -5]), ([1, -3], [-9]), ([1, -3], [-1]),
        ([1, -3], [-3, 99]), ([1, -3], [-3, 1, 4]), ([1, 3], [1, 4]), ([5], []), ([-6], [-6]), ([-3, 1], [-2]), ([-3, 1], [-3]),
        ([8], []), ([8], [-8]), ([7, 1], []), ([1, 2], [1, -9]), ([], [-1]), ([], [1]), ([-1, 4], [3, -1]), ([-2, 6], [-1, 2, 3]),
        ([-2, 6], [-1, 2, 2]), ([-1, -3], [-1, 1]), ([-1], [-1, -5, 4]),
    ):
        id = rows.checker.next
        rows.add(id, lits, hints)
        rows.delete(id, [id])
    for turn in range(60):
        rows = CheckRows(f"Random lines with groups, {turn + 1}.")
        variables = RAT_ROUNDS.randrange(2, 6)
        rows.originals([random_clause(RAT_ROUNDS, variables) for _ in range(RAT_ROUNDS.randrange(2, 4 * variables))])
        for _ in range(14):
            live, id = rows.checker.live, rows.checker.next
            lits = random_clause(RAT_ROUNDS, variables + 2)
            hints = rat_hints(live, lits, RAT_ROUNDS)
            rows.add(id, lits, spoiled(RAT_ROUNDS, hints, id - 1) if RAT_ROUNDS.randrange(3) == 0 else hints)
            if RAT_ROUNDS.randrange(4) == 0:
                rows.delete(id, [RAT_ROUNDS.randrange(1, id + 1)])
        rows.refuted()
    rows = CheckRows("A new variable for a gate, and what follows from it.")
    rows.originals(FOUR)
    rows.add(5, [3, 1, 2], [])
    rows.add(6, [-3, -1], [-5])
    rows.add(7, [-3, -2], [-5])
    rows.add(8, [-3], [-5, 1])
    rows.add(8, [3, -4], [-6, -7])
    rows.delete(8, [6])
    rows.add(8, [3, -4], [-7])
    rows.add(9, [2], [1, 3])
    rows.add(10, [], [9, 2, 4])
    rows.refuted()


def rup_checks():
    rows = CheckRows("Lines that have to follow by unit propagation alone.")
    rows.originals(FOUR)
    rows.rup(4, [2], [1, 3])
    rows.rup(5, [3], [])
    rows.rup(5, [2], [])
    rows.rup(5, [2], [-2, 3])
    rows.rup(5, [2], [1, -2, 3])
    rows.rup(5, [2], [2, 3])
    rows.rup(5, [2], [1, 3, -4])
    rows.rup(6, [], [-5])
    rows.rup(6, [], [2, 5])
    rows.rup(6, [], [5, 2, 4])
    rows.refuted()
    for turn in range(20):
        rows = CheckRows(f"The same of random lines, {turn + 1}.")
        variables = RAT_ROUNDS.randrange(2, 6)
        rows.originals([random_clause(RAT_ROUNDS, variables) for _ in range(RAT_ROUNDS.randrange(2, 4 * variables))])
        for _ in range(10):
            live, id = rows.checker.live, rows.checker.next
            lits = random_clause(RAT_ROUNDS, variables + 1)
            hints = hints_for(live, lits, RAT_ROUNDS) or rat_hints(live, lits, RAT_ROUNDS)
            rows.rup(id, lits, spoiled(RAT_ROUNDS, hints, id - 1) if RAT_ROUNDS.randrange(3) == 0 else hints)
        rows.refuted()


def checks():
    rows = CheckRows("Two formulas are refuted; clause 13 is satisfied where it comes again.")
    rows.originals(SIBLINGS)
    rows.add(26, [], [1, 13, 13, 11, 25, 22, 17, 8])
    rows.refuted()
    rows.add(26, [], [1, 13, 11, 25, 22, 17, 8])
    rows.refuted()
    rows = CheckRows("A refusal names its hint.")
    rows.originals(FOUR + [[3, 3, 4]])
    for id, lits, hints in (
        (6, [4], [5, 1]), (6, [4, 3], [5]), (7, [1], [1, 1]), (7, [1], [1, 9]), (7, [1], [-1]), (7, [1], [1]), (7, [1], []),
        (6, [1], [1, 2]), (9, [1, 1], [1, 2, -5, 77]), (8, [1], [1, 2]), (10, [2, -2], [1, 3]), (11, [GREATEST, 1], [9]),
        (12, [1], [0]), (12, [1], [2**63 - 1]), (12, [1], [-(2**63)]), (12, [-1], [3, -4]), (12, [-1], [3, 4]),
    ):
        rows.add(id, lits, hints)
    rows.refuted()
    rows.add(13, [], [9, 12])
    rows.refuted()
    rows = CheckRows("Deleted clauses are gone, and it goes on behind the clause without literals.")
    rows.originals(FOUR)
    rows.add(5, [1], [1, 2])
    rows.delete(1, [1, 2, 1, 99])
    rows.delete(1, [2])
    rows.add(6, [1], [1, 2])
    rows.add(6, [], [5, 3, 4])
    rows.refuted()
    rows.add(7, [-1], [6])
    rows.add(7, [2], [6])
    rows.add(8, [2], [6])
    rows.delete(8, [6, 7, 8])
    rows.refuted()
    rows.add(9, [2], [6])
    rows = CheckRows("Original clauses have rising ids; one without literals refutes by a step alone.")
    for id in (4, 4, 3, 9):
        rows.original(id)
    rows.refuted()
    rows.add(9, [], [4])
    rows.add(10, [5], [9])
    rows.refuted()
    rows.original(10, 1)
    rows.original(11, 1)
    rows.add(12, [], [4])
    rows.refuted()
    rows.original(12, 1)
    rows.original(13, 1)
    rows = CheckRows("The empty clause needs a false clause; the smallest refutation.")
    rows.add(1, [], [])
    rows.original(1, 1)
    rows.add(2, [], [1])
    rows.refuted()
    rows.original(2, -1)
    rows.add(3, [], [2])
    rows.add(3, [], [1, 2])
    rows.refuted()
    rows = CheckRows("A clause that is satisfied, one with two open literals, one with the same literal twice, opposite literals.")
    rows.originals([[1, 2, 3], [-1, 1], [2, 2], [-2, 3, 3], [-3, 4], [-4]])
    for lits, hints in (
        ([1], [1]), ([1, 3], [1, 3]), ([3], [3, 4]), ([4], [5, 4, 3]), ([], [6, 5, 4, 3]), ([-1], [2, 1]), ([1], [2, 1]),
        ([1, -1], [6, 5]), ([2], [3]), ([7], [6, 6]), ([-7, 7], [3, 4]),
    ):
        rows.add(7, lits, hints)
    rows.refuted()
    rows = CheckRows("Ids and variables far apart.")
    rows.original(10**6, GREATEST)
    rows.original(2**62, -GREATEST, GREATEST - 1)
    rows.original(2**62, 1)
    rows.add(2**62 + 5, [GREATEST - 1], [10**6, 2**62])
    rows.add(2**62 + 5, [5], [10**6])
    rows.original(2**63, 1 - GREATEST)
    rows.add(2**63 + 1, [], [10**6, 2**62, 2**63 - 1])
    rows.add(2**63 + 1, [], [2**62 + 5, 10**6])
    rows.refuted()
    case("check step 1 2 3", "bad case")
    case("check step", "bad case")
    case("check step x 0", "bad case")
    rat_checks()
    rup_checks()
    for turn in range(60):
        rows = CheckRows(f"Random steps by unit propagation alone, {turn + 1}.")
        variables, id = ROUNDS.randrange(2, 7), 0
        for _ in range(ROUNDS.randrange(3, 5 * variables)):
            id += ROUNDS.choice((1, 1, 1, 2))
            rows.original(id, *random_clause(ROUNDS, variables))
        for _ in range(14):
            live = rows.checker.live
            lits = [] if ROUNDS.randrange(5) == 0 else random_clause(ROUNDS, variables + 1, 3)
            hints = hints_for(live, lits, ROUNDS) or ROUNDS.sample(list(live), min(3, len(live)))
            next_id = id + 1
            chance = ROUNDS.randrange(12)
            if chance < 5:
                rows.rup(next_id, lits, hints)
            elif chance < 10:
                rows.rup(next_id, lits, spoiled(ROUNDS, hints, id))
            elif chance == 10:
                rows.rup(ROUNDS.randrange(id + 1), lits, hints)
            else:
                rows.delete(id, [ROUNDS.randrange(id + 2) for _ in range(ROUNDS.randrange(3))])
            id = max(id, rows.checker.next - 1)
        rows.refuted()


# Trails.


class Trail:
    """Unit propagation by its fixpoint; at a conflict the literals of the present level are left open."""

    def __init__(self):
        self.clauses, self.levels, self.quiet = {}, [[]], False

    def true(self):
        return {lit for level in self.levels for lit in level}

    def propagate(self):
        self.quiet = False
        while True:
            true, units = self.true(), set()
            for lits in self.clauses.values():
                left = {lit for lit in lits if -lit not in true}
                if not left:
                    return "conflict"
                if len(left) == 1 and not left & true:
                    units |= left
            if not units:
                self.quiet = True
                return "quiet"
            self.levels[-1].append(units.pop())


class TrailRows:
    def __init__(self, room, *texts):
        note(*texts)
        self.trail = Trail()
        case("trail new", "ok")
        case(f"trail room {room}", "ok")

    def clauses(self, clauses):
        for lits in clauses:
            self.trail.clauses[len(self.trail.clauses) + 1] = lits
        case(f"trail clauses {words(flat(clauses))}", "ok")

    def propagate(self, want=None):
        answer = self.trail.propagate()
        assert want in (None, answer)
        case("trail propagate", answer)
        return answer

    def assume(self, *lits):
        """Each behind a propagation without a conflict."""
        for lit in lits:
            self.propagate("quiet")
            self.trail.levels.append([lit])
            case(f"trail assume {lit}", "ok")

    def back(self, level):
        del self.trail.levels[level + 1:]
        case(f"trail back {level}", "ok")

    def look(self, **answers):
        for word, answer in answers.items():
            word, *lit = word.replace("minus_", "-").split("__")
            case(f"trail {word.replace('_', '-')} {words(lit)}", str(answer))

    def state(self):
        """What is so of each variable where propagation was quiet."""
        true = self.trail.true()
        case("trail trues", listed(by_variable(true)))
        case("trail level", str(len(self.trail.levels) - 1))
        case("trail reasons", "ok")

    def at(self, word, lit, answer):
        case(f"trail {word} {lit}", str(answer))

    def values(self, lits):
        true = self.trail.true()
        for lit in lits:
            self.at("value", lit, "Some(true)" if lit in true else "Some(false)" if -lit in true else "None")

    def analyse(self, learnt=None, level=None, hints=None):
        case("trail analyse", "ok")
        if learnt is not None:
            case("trail learnt", listed(learnt))
        if level is not None:
            case("trail learnt-level", str(level))
        if hints is not None:
            case("trail hints", str(hints))


def learns(text, clauses, assumed, learnt, level, hints, room=9):
    rows = TrailRows(room, text)
    rows.clauses(clauses)
    rows.assume(*assumed)
    rows.propagate("conflict")
    rows.analyse(learnt[:1] + by_variable(learnt[1:]), level, hints)


def trails():
    rows = TrailRows(4, "A chain is followed.")
    rows.clauses([[-1, 2], [-2, 3]])
    rows.assume(1)
    rows.propagate("quiet")
    rows.values([1, 2, -3, 3, 4, -4])
    case("trail order", "1 2 3")
    rows.state()
    for lit, reason in ((1, "none"), (2, 1), (3, 2), (-3, "none"), (4, "none")):
        rows.at("reason", lit, reason)
    for lit, position in ((1, 0), (-1, 0), (2, 1), (-2, 1), (3, 2), (4, "bad case")):
        rows.at("position", lit, position)
    for lit, level in ((1, 1), (-3, 1), (4, "bad case")):
        rows.at("level-of", lit, level)
    rows.at("clause", 2, "-2 3")
    rows.at("clause", 3, "not attached")
    rows = TrailRows(4, "A conflict names a false clause.")
    rows.clauses([[-1, 2], [-3, -2, 4], [-3, -2, -4]])
    rows.assume(1, 3)
    rows.propagate("conflict")
    case("trail level", "2")
    rows.at("clause", 3, "-3 -2 -4")
    rows.at("clause", 4, "not attached")
    rows.analyse([-3, -2], 1, [2, 3])
    rows.back(1)
    rows.propagate("quiet")
    case("trail order", "1 2")
    rows.state()
    rows.back(0)
    case("trail order", "none")
    rows = TrailRows(4, "Without the other clause a literal follows.")
    rows.clauses([[1, 2, 3], [-1, 2, 3]])
    rows.assume(-2, -3)
    rows.propagate("conflict")
    case("trail detach 2", "bad case")
    rows.back(0)
    case("trail order", "none")
    rows.at("clause", 2, "-1 2 3")
    case("trail detach 2", "ok")
    del rows.trail.clauses[2]
    rows.at("clause", 2, "not attached")
    case("trail detach 2", "bad case")
    rows.assume(-2, -3)
    rows.propagate("quiet")
    rows.values([1])
    rows.at("level-of", 1, 2)
    case("trail order", "-2 -3 1")
    rows.state()
    for lit, position in ((-1, 2), (2, 0), (3, 1)):
        rows.at("position", lit, position)
    rows.back(1)
    rows.state()
    rows = TrailRows(3, "What a condition shuts out.")
    case("trail assume 1", "bad case")
    case("trail analyse", "bad case")
    case("trail learnt", "bad case")
    rows.propagate("quiet")
    case("trail assume 4", "bad case")
    rows.assume(2)
    case("trail assume 1", "bad case")
    case("trail attach 7 1 2", "bad case")
    rows.propagate("quiet")
    case("trail assume -2", "bad case")
    case("trail back 2", "bad case")
    rows.back(0)
    case("trail attach 7 1 4", "bad case")
    case("trail attach 7 1 3", "ok")
    rows.trail.clauses[7] = [1, 3]
    case("trail attach 7 1 2", "bad case")
    case("trail room 2", "ok")
    case("trail attach 9 3 -3", "ok")
    case("trail room 5", "ok")
    case("trail attach 12 5", "ok")
    rows.trail.clauses.update({9: [3, -3], 12: [5]})
    rows.propagate("quiet")
    rows.state()
    rows.at("reason", 5, 12)
    rows.at("level-of", 5, 0)
    rows.assume(-1)
    rows.propagate("quiet")
    case("trail order", "5 -1 3")
    rows.at("reason", 3, 7)
    rows = TrailRows(3, "The empty clause is false from the start; a literal that stands twice is forced.")
    rows.clauses([[1, 1]])
    rows.propagate("quiet")
    case("trail order", "1")
    rows.at("reason", 1, 1)
    case("trail back 0", "ok")
    case("trail attach 2", "ok")
    rows.trail.clauses[2] = []
    rows.propagate("conflict")
    rows.analyse([], 0, [2])
    learns("An assumption is refuted.", [[-1, 2], [-1, -2]], [1], [-1], 0, [1, 2])
    learns("A literal of a lower level stands beside.", [[-1, 2], [-3, -2, 4], [-3, -2, -4]], [1, 3], [-3, -2], 1, [2, 3])
    learns("At level 0 no literal is left.", [[1], [-1, 2], [-2, 3], [-1, -3]], [], [], 0, [1, 2, 3, 4])
    learns("At level 0 each reason of a chain is a hint.",
           [[1], [-1, 2], [-2, 3], [-3, 4], [-4, 5], [-5, -2]], [], [], 0, [1, 2, 3, 4, 5, 6])
    learns("Without assumptions a conflict refutes.", [[1], [-1, 2], [-2, -1]], [], [], 0, [1, 2, 3])
    learns("Without assumptions a conflict refutes.", [[1, 2, 3], [-3], [-4, -1], [4], [-2, 3]], [], [], 0, [1, 2, 3, 4, 5])
    learns("Literals of level 0 go by their reasons.",
           [[1], [-1, 2], [-3, 4], [-2, -4, 5], [-2, -4, -5]], [3], [-4], 0, [1, 2, 4, 5])
    learns("Literals that are false at level 0 are left out.", [[-4], [-1, 2, 4], [-3, -2, 4], [4, 3, -2]], [1], [-2], 0, [1, 3, 4])
    learns("The last literal that all go through is found.", [[-1, 2], [-2, 3], [-3, 4], [-3, 5], [-4, -5]], [1], [-3], 0, [3, 4, 5])
    learns("From 1 come 2 and then 3 and 4, which contradict.", [[-1, 2], [-2, 3], [-2, 4], [-3, -4]], [1], [-2], 0, [2, 3, 4])
    learns("The point is found through older and older literals.",
           [[-1, 2], [-2, 3], [4, -3, -2], [5, -4, -3], [6, -5, -4], [-6, -5]], [1], [-2], 0, [2, 3, 4, 5, 6])
    learns("A literal that is met twice is resolved once.", [[-1, 2], [-1, -2, 3], [-1, -2, 4], [-3, -4]], [1], [-1], 0, [1, 2, 3, 4])
    learns("A literal that is met twice is kept once.", [[-1, -3, 4], [-1, -3, 5], [-4, -5]], [1, 3], [-3, -1], 1, [1, 2, 3])
    learns("The assumption itself is the point.", [[-1, -9, 2], [-1, -2]], [9, 1], [-1, -9], 1, [1, 2])
    learns("The level is the greatest of the others.", [[-3, 4], [-4, -1, 5], [-4, -5, -2]], [1, 2, 3], [-4, -1, -2], 2, [2, 3])
    for turn in range(70):
        variables = ROUNDS.randrange(3, 13)
        rows = TrailRows(variables, f"Random clauses, {turn + 1}.")
        rows.clauses([random_clause(ROUNDS, variables, 4) if ROUNDS.randrange(8) == 0 else
                      [ROUNDS.choice((1, -1)) * v for v in ROUNDS.sample(range(1, variables + 1), 3)]
                      for _ in range(round(ROUNDS.choice((2, 3, 4)) * variables))])
        for _ in range(14):
            if rows.propagate() == "conflict":
                rows.analyse()
                if len(rows.trail.levels) == 1:
                    break
                rows.back(ROUNDS.randrange(len(rows.trail.levels) - 1))
                continue
            rows.state()
            true = rows.trail.true()
            free = [v for v in range(1, variables + 1) if v not in true and -v not in true]
            if not free:
                break
            rows.values(ROUNDS.sample(range(1, variables + 1), 2))
            lit = ROUNDS.choice((1, -1)) * ROUNDS.choice(free)
            rows.trail.levels.append([lit])
            case(f"trail assume {lit}", "ok")


# Cores.


def pigeons(birds, holes):
    """Each bird has a hole, and no hole has two."""
    at = lambda bird, hole: bird * holes + hole + 1
    clauses = [[at(b, h) for h in range(holes)] for b in range(birds)]
    for h in range(holes):
        for b, c in itertools.combinations(range(birds), 2):
            clauses.append([-at(b, h), -at(c, h)])
    return clauses


def ring(length):
    """Neighbours in a ring differ: it has a model where the length is even."""
    clauses = []
    for i in range(length):
        a, b = i + 1, (i + 1) % length + 1
        clauses += [[a, b], [-a, -b]]
    return clauses


def parity(first, order):
    """The variables from the first on are the parities of ever more inputs. Also gives the last of them and the next free one."""
    clauses, last, free = [], order[0], first
    for i in order[1:]:
        clauses += [[-free, last, i], [-free, -last, -i], [free, -last, i], [free, last, -i]]
        last, free = free, free + 1
    return clauses, last, free


def two_parities(inputs, alike, turn=3):
    """The parity of the inputs, computed in two orders, is odd, and then odd or even."""
    turned = [i * turn % inputs + 1 for i in range(inputs)]
    one, a, free = parity(inputs + 1, list(range(1, inputs + 1)))
    two, b, _ = parity(free, turned)
    return one + two + [[a], [b if alike else -b]]


def random_numbers(seed):
    """The upper halves of a linear congruential generator of 64 bits."""
    state = seed
    while True:
        state = (state * 6364136223846793005 + 1442695040888963407) % 2**64
        yield state >> 32


def three_sat(variables, seed):
    """Clauses of three variables each, about 4.26 for each variable, where half of the instances have a model."""
    numbers = random_numbers(seed)
    clauses = []
    for _ in range(round(4.26 * variables)):
        clause = []
        while len(clause) < 3:
            number = next(numbers)
            variable = number // 2 % variables + 1
            if variable not in map(abs, clause):
                clause.append(variable if number % 2 else -variable)
        clauses.append(clause)
    return clauses


def has_model(clauses, assumptions=()):
    """By minisat and by cadical."""
    clauses = clauses + [[lit] for lit in assumptions]
    variables = max([1] + [abs(lit) for clause in clauses for lit in clause])
    with tempfile.TemporaryDirectory() as room:
        name = os.path.join(room, "x.cnf")
        with open(name, "w") as it:
            it.write(f"p cnf {variables} {len(clauses)}\n")
            it.writelines(words(clause) + " 0\n" for clause in clauses)
        answers = {subprocess.run(command + [name], stdout=subprocess.DEVNULL, stderr=subprocess.DEVNULL).returncode
                   for command in (["minisat", "-verb=0"], ["cadical", "-q"])}
    assert answers in ({10}, {20}), (answers, clauses)
    return answers == {10}


def models(clauses, assumptions=()):
    """All models, as lists of literals, the least first: false is less than true, the first variable counts most."""
    variables = max([0] + [abs(lit) for clause in clauses for lit in clause])
    for values in itertools.product((False, True), repeat=variables):
        lits = [v if value else -v for v, value in enumerate(values, 1)]
        have = set(lits)
        if have.issuperset(assumptions) and all(have.intersection(clause) for clause in clauses):
            yield lits


class Deciding:
    """A search by the rules of decisions: assumptions first, then the most active variable, among equals that of the greatest number,
    with its last value, true at first. Before the first conflict it descends three times and learns nothing: as it stands, then
    with all outputs false (the greatest variables of clauses of at least two literals) and inputs true, then with all false; and
    then all are true. Each conflict makes the variables more active that its clause and the resolved clauses
    have, but for those of level 0, by a number that grows by a nineteenth. Clauses propagate in any order. No search goes on
    to the tenth conflict, behind which there may be a restart."""

    def __init__(self, clauses, assumptions, rounds, raises=True, keeps=True, minimises=True):
        self.clauses, self.assumptions, self.rounds = [list(dict.fromkeys(c)) for c in clauses], assumptions, rounds
        self.raises, self.keeps, self.minimises = raises, keeps, minimises
        self.variables = max([0] + [abs(lit) for clause in list(clauses) + [list(assumptions)] for lit in clause])
        self.activity, self.last, self.increment = [0] * (self.variables + 1), [True] * (self.variables + 1), 2 ** 20
        self.trail, self.level, self.reason, self.present = [], {}, {}, 0
        self.outputs = {max(map(abs, clause)) for clause in clauses if len(clause) > 1}

    def push(self, lit, reason):
        self.trail.append(lit)
        self.level[abs(lit)], self.reason[abs(lit)] = self.present, reason

    def propagate(self):
        """A false clause, or none."""
        while True:
            true = set(self.trail)
            self.rounds.shuffle(self.clauses)
            for clause in self.clauses:
                open_lits = [lit for lit in clause if -lit not in true]
                if not open_lits:
                    return clause
                if len(open_lits) == 1 and open_lits[0] not in true:
                    self.push(open_lits[0], clause)
                    break
            else:
                return None

    def learn(self, conflict):
        place = {abs(lit): i for i, lit in enumerate(self.trail)}
        learnt, met = set(conflict), {abs(lit) for lit in conflict}
        while True:
            here = [lit for lit in learnt if self.level[abs(lit)] == self.present]
            if len(here) == 1:
                break
            pivot = max(here, key=lambda lit: place[abs(lit)])
            met |= {abs(lit) for lit in self.reason[abs(pivot)]}
            learnt = (learnt | set(self.reason[abs(pivot)])) - {pivot, -pivot}
        learnt = {lit for lit in learnt if self.level[abs(lit)] > 0}
        if self.minimises:
            between = {lit for lit in learnt if lit != here[0]}
            learnt = {lit for lit in learnt if lit == here[0] or self.reason[abs(lit)] is None or any(
                other != -lit and other not in between and self.level[abs(other)] > 0 for other in self.reason[abs(lit)])}
        if self.raises:
            for variable in met:
                self.activity[variable] += self.increment * (self.level[variable] > 0)
        self.increment += self.increment // 19
        self.back_to(max([0] + [self.level[abs(lit)] for lit in learnt if lit != here[0]]))
        self.clauses.append(list(learnt))

    def back_to(self, level):
        while self.trail and self.level[abs(self.trail[-1])] > level:
            lit = self.trail.pop()
            self.last[abs(lit)] = lit > 0 or not self.keeps
            del self.level[abs(lit)], self.reason[abs(lit)]
        self.present = level

    def descend(self):
        """A false clause, or none and the model; neither where an assumption is false."""
        while True:
            conflict = self.propagate()
            if conflict is not None:
                return conflict, None
            lit = next((lit for lit in self.assumptions if lit not in self.trail), None)
            free = [v for v in range(1, self.variables + 1) if v not in self.level]
            if lit is None and not free:
                return None, sorted(self.trail, key=abs)
            if lit is None:
                variable = min(free, key=lambda v: (-self.activity[v], -v))
                lit = variable if self.last[variable] else -variable
            elif -lit in self.trail:
                return None, None
            self.present += 1
            self.push(lit, None)

    def aim(self, inputs, outputs):
        self.last = [outputs if v in self.outputs else inputs for v in range(self.variables + 1)]

    def model(self):
        for values in (None, (True, False), (False, False)):
            if values:
                self.aim(*values)
            conflict, model = self.descend()
            if conflict is None:
                return model
            self.back_to(0)
        self.aim(True, True)
        for _ in range(10):
            conflict, model = self.descend()
            if conflict is None:
                return model
            if not self.present:
                return None
            self.learn(conflict)
        return None


def decided(clauses, assumptions=(), **rules):
    """The model that the rules come to in whatever order clauses propagate, or none where that matters."""
    found = set()
    for seed in range(8):
        for minimises in (True, False):
            found.add(words(Deciding(clauses, assumptions, random.Random(seed), minimises=minimises, **rules).model() or ["none"]))
            if len(found) > 1:
                return None
    return found.pop()


class CoreRows:
    LIMIT = 1000

    def __init__(self, clauses, *texts):
        note(*texts)
        self.clauses, self.given = [], 0
        case("core new", "ok")
        self.add(clauses)

    def add(self, clauses, word="add"):
        """As many on a line as stand in 100 columns."""
        line = []
        for clause in clauses + [None]:
            if line and (clause is None or len(words(flat(line + [clause]))) > 91):
                self.given += len(line)
                case(f"core {word} {words(flat(line))}", f"{self.given} clauses")
                line = []
            line.append(clause)
        self.clauses += clauses

    def ask(self, *assumptions, limit=None, want=None):
        answer = want or ("found" if has_model(self.clauses, assumptions) else "unsat")
        case(f"core ask {self.LIMIT if limit is None else limit} {words(assumptions)}", answer)
        return answer

    def say(self, word, answer):
        case(f"core {word}", str(answer))


def counted(limit, clauses, *asked):
    """A session under a counter: assumptions, the answer, and what more is known."""
    case(f"counted new {limit} {words(flat(clauses))}", "ok")
    for assumptions, answer, more in asked:
        case(f"counted ask {words(assumptions)}", answer)
        for word, value in more.items():
            case(f"counted {word}", str(value))


TWENTY = [[i, 21] for i in range(1, 21)] + [[-i for i in range(1, 21)]] + [[-21, a, b] for a in (22, -22) for b in (23, -23)]


def counters():
    note("A limit of one is spent: deciding -1 gives a conflict, and 1 is learnt.")
    counted(1, FOUR, ([], "spent", {"count": 1}), ([], "spent", {"count": 1}))
    note("The conflict at level 0 is charged too.")
    counted(2, FOUR, ([], "unsat", {"count": 2, "failed": "none"}))
    counted(10, FOUR, ([], "unsat", {"count": 2, "failed": "none"}), ([1], "unsat", {"count": 2, "failed": "none"}))
    note("No clause, no assumption: no values are found.")
    counted(10, [], ([], "found", {"count": 0, "model": "none"}))
    counted(0, [], ([], "found", {"count": 0, "model": "none"}))
    note("An assumption against a clause is the core.")
    counted(10, [[1]], ([-1, 2], "unsat", {"failed": -1, "count": 0}), ([1], "found", {}))
    note("Three conflicts refute these; a clause that is learnt from decisions alone spends the limit.")
    counted(10, TWENTY, ([], "unsat", {"failed": "none"}))
    note("A model is found, or the assumption fails.")
    counted(10, [[1, 2], [-1, 2]], ([], "found", {}), ([-2], "unsat", {"failed": -2}), ([-1], "found", {"model": "-1 2"}))
    note("A conflict at level 0 under an assumption is charged.")
    counted(0, [[1], [-1]], ([2], "spent", {"count": 0}), ([], "spent", {"count": 0}))
    counted(1, [[1], [-1]], ([2], "unsat", {"failed": "none", "count": 1}), ([2], "unsat", {"count": 1}))
    note("What a core and a counter shut out.")
    case("counted new 10 0", "bad case")
    case("counted new 10 1", "bad case")
    case(f"counted new {2**60} 1 0", "bad case")
    case("core add 0", "bad case")
    case("core add 1 2", "bad case")


def core_tables():
    rows = CoreRows([[1], [-1]], "A conflict at level 0 under an assumption is charged.")
    rows.ask(2, limit=0, want="spent")
    rows.say("count", 0)
    rows.ask(2, limit=1)
    rows.say("failed", "none")
    rows.say("count", 1)
    rows.ask(2, limit=0)
    rows.say("count", 0)
    rows = CoreRows([], "Without clauses values are found, under assumptions too.")
    rows.ask(want="found")
    rows.say("model", "none")
    rows.say("count", 0)
    rows.ask(3, -5, limit=0)
    rows.ask(3, -3)
    rows.say("failed", "3 -3")
    rows = CoreRows(FOUR, "A spent core goes on.")
    rows.ask(limit=0, want="spent")
    rows.say("count", 0)
    rows.ask(limit=1, want="spent")
    rows.say("count", 1)
    rows.ask(limit=1)
    rows.say("count", 1)
    rows.say("failed", "none")
    rows.ask(5, limit=0)
    rows = CoreRows([[1], [2, 3]], "Assumptions that no failure needs are left out.")
    rows.ask(4, -1, -2)
    rows.say("failed", -1)
    rows = CoreRows([[1, 2], [-1, 2]], "Ids may be left out.")
    case("core next 50", "ok")
    rows.add([[-2, 3]])
    case("core next 50", "bad case")
    rows.ask(-3)
    case("core next 1000000", "ok")
    rows.add([[-3, 4], [-3, -4]])
    rows.ask()
    rows.say("failed", "none")
    decisions = [
        ([[1, 2]], ()), ([[1, 2, 3], [-1, -2]], ()), ([[3, 1], [-3, 2, 1]], ()), ([[1, 2], [-2, 3], [-3, -1, 4]], ()),
        ([[4, 3, 2, 1]], ()), ([[1, 2, 3], [-3, 4], [-3, -4, 2]], ()), ([[1, 2]], (1,)), ([[1, 2, 3]], (2,)), ([[1, 2, 3]], (3, -1)),
        ([[-1, 2], [-2, 3]], (1,)), ([[5]], ()), (pigeons(3, 3), ()), (ring(6), ()), (ring(6), (1,)),
    ]
    note("The most active variable without a value is decided, among equals that of the greatest number, with its last value, true at",
         "first, and assumptions are the first decisions. Before the first conflict there are three descents that learn nothing: as it",
         "stands, with outputs false and inputs true, and with all false. Outputs are the greatest variables of clauses of two or more.")
    while len(decisions) < 40:
        variables = ROUNDS.randrange(3, 9)
        clauses = [random_clause(ROUNDS, variables, 3) for _ in range(ROUNDS.randrange(3, 3 * variables))]
        assumptions = [ROUNDS.choice((1, -1)) * v for v in ROUNDS.sample(sorted({abs(lit) for c in clauses for lit in c}), ROUNDS.randrange(2))]
        if next(models(clauses, assumptions), None):
            decisions.append((clauses, assumptions))
    for clauses, assumptions in decisions:
        model = decided(clauses, assumptions)
        if model not in (None, "none"):
            rows = CoreRows(clauses)
            rows.ask(*assumptions)
            rows.say("model", model)
    policies()
    asides()


def asides():
    """Answers don't depend on what is left aside."""
    rounds = random.Random(20261201)
    rows = CoreRows([[1, 2]], "Clauses that are left aside hold in each answer.")
    rows.add([[-1, 3], [-2, 3]], "aside")
    rows.ask(-3)
    rows.ask()
    rows = CoreRows([], "All of them may be.")
    rows.add(FOUR, "aside")
    rows.ask()
    rows.say("failed", "none")
    case("core new", "ok")
    case("core aside 0", "bad case")
    for _ in range(40):
        variables = rounds.randrange(3, 16)
        clauses = [random_clause(rounds, variables, 3) for _ in range(rounds.randrange(variables, 5 * variables))]
        rows = CoreRows([])
        while clauses:
            count = rounds.randrange(1, len(clauses) + 1)
            rows.add(clauses[:count], rounds.choice(("add", "aside")))
            clauses = clauses[count:]
            if not clauses or rounds.random() < 0.3:
                rows.ask(*(rounds.choice((1, -1)) * v for v in rounds.sample(range(1, variables + 1), rounds.randrange(3))))


def policies():
    """Cases whose models show that activity rises, and that values are kept."""
    rounds = random.Random(20261128)
    for text, rules in (("Without activity another model would be found.", {"raises": False}),
                        ("Were true always first, another model would be found.", {"keeps": False})):
        note(text)
        shown = 0
        while shown < 3:
            variables = rounds.randrange(5, 9)
            clauses = three_sat(variables, rounds.randrange(10**9))[:rounds.randrange(2 * variables, 4 * variables)]
            model = decided(clauses)
            if model in (None, "none"):
                continue
            other = decided(clauses, **rules)
            if other not in (None, "none", model):
                rows = CoreRows(clauses)
                rows.ask()
                rows.say("model", model)
                shown += 1


def sessions():
    chain = [[-1, 2], [-2, 3], [-3, 4], [-4, 5]]
    rows = CoreRows(chain, "Each variable is true where the one before it is. Assumptions fail one by one.")
    for assumptions, failed in (
        ((1, -5), "1 -5"), ((-4, 7, 1), "1 -4"), ((1, 8, -3), "1 -3"), ((-2, 1), "1 -2"), ((2, -5), "2 -5"), ((-3, 9, 6, 2), "2 -3"),
        ((3, 3, -4), None), ((6, -6), "6 -6"), ((-1, 5, 1), None), ((5, -4), None), ((-1, -2, 3), None), ((), None),
    ):
        rows.ask(*assumptions)
        if failed:
            rows.say("failed", failed)
    clauses = [[-1, 2, 3, 4], [-2, 5], [-2, -5], [-3, 5], [-3, -5], [-4, 5, 6], [-4, -5, 6]]
    rows = CoreRows(clauses, "Where 1 is true, one of 2, 3 and 4 is, and so are 5 and -5.")
    for assumptions in ((7, 1, -6), (-6, 1), (4, -6), (2,), (1, 3), (1,), (-6,)):
        rows.ask(*assumptions)
    rows = CoreRows(pigeons(3, 3), "Pigeon 1 in hole 1, and so on; two pigeons in one hole don't go.")
    for assumptions in ((1, 4), (1, 5), (-1, -2, -3), (-1, -4, -7), (3, 5), (1, 6, -8), ()):
        rows.ask(*assumptions)
    rows = CoreRows(pigeons(4, 3), "A refuted core charges no more.")
    rows.ask()
    for assumptions in ((1,), (-1, 2), (50,), ()):
        rows.ask(*assumptions, limit=0)
        rows.say("failed", "none")
        rows.say("count", 0)
    for limit in (0, 1):
        rows = CoreRows(pigeons(4, 3), f"A limit of {limit} is kept.")
        rows.ask(limit=limit, want="spent")
        rows.say("count", limit)
    for name, clauses in (
        ("Four pigeons in three holes", pigeons(4, 3)), ("A ring of nine", ring(9)), ("Two parities apart", two_parities(5, False)),
        ("Random clauses over 30 variables, from seed 3", three_sat(30, 3)), ("Random clauses over 20, from seed 4", three_sat(20, 4)),
        ("A ring of three", ring(3)), ("Five pigeons in four holes", pigeons(5, 4)),
    ):
        assert not has_model(clauses)
        rows = CoreRows(clauses, f"{name}: as many conflicts as it took are enough, and one fewer isn't.")
        rows.say("tight", "tight")
        rows = CoreRows(clauses, f"{name}: under ever greater limits.")
        rows.say("patient", "unsat")
    few = [("Three pigeons in three holes", pigeons(3, 3)), ("A ring of eight", ring(8)), ("Two parities alike", two_parities(5, True)),
           ("One clause", [[1, 2, 3]]), ("Units", [[1], [-2]])]
    for turn in range(20):
        variables = ROUNDS.randrange(3, 9)
        few.append((f"Random clauses, {turn + 1}", three_sat(variables, ROUNDS.randrange(2**32))))
    for name, clauses in few:
        used = max(abs(lit) for clause in clauses for lit in clause)
        assert used == len({abs(lit) for clause in clauses for lit in clause})
        rows = CoreRows(clauses, f"{name}: how many models, each shut out by a further clause.")
        rows.say("models", sum(1 for _ in models(clauses)))
    for turn in range(110):
        variables = ROUNDS.randrange(3, 12)
        make = lambda count: [random_clause(ROUNDS, variables, 3) if ROUNDS.randrange(5) == 0 else
                              [ROUNDS.choice((1, -1)) * v for v in ROUNDS.sample(range(1, variables + 1), 3)] for _ in range(count)]
        rows = CoreRows(make(2 * variables), f"Random clauses, assumptions, and more clauses, {turn + 1}.")
        for _ in range(4):
            for _ in range(2):
                chosen = ROUNDS.sample(range(1, variables + 3), ROUNDS.randrange(4))
                rows.ask(*(ROUNDS.choice((1, -1)) * v for v in chosen))
            rows.add(make(variables // 2))


def instances():
    known = [
        ("Three pigeons in two holes", pigeons(3, 2)), ("Four pigeons in three holes", pigeons(4, 3)),
        ("Five pigeons in four holes", pigeons(5, 4)), ("Three pigeons in three holes", pigeons(3, 3)),
        ("Five pigeons in five holes", pigeons(5, 5)),
    ]
    known += [(f"Neighbours in a ring of {length} differ", ring(length)) for length in (3, 4, 8, 9, 20, 21)]
    for inputs, turn in ((4, 3), (5, 3), (7, 3), (7, 4)):
        for alike in (True, False):
            text = f"The parity of {inputs} bits in two orders, odd, and then {'odd' if alike else 'even'}"
            known.append((text, two_parities(inputs, alike, turn)))
    for name, clauses in known:
        CoreRows(clauses, name + ".").ask()
    sizes = [(20, 3), (20, 4), (30, 5), (30, 3), (40, 3), (40, 1)]
    sizes += [(variables, seed) for variables in range(5, 26) for seed in range(1, 8)]
    for variables, seed in sizes:
        CoreRows(three_sat(variables, seed), f"Random clauses over {variables} variables, from seed {seed}.").ask()
    CoreRows(pigeons(6, 5), "Six pigeons in five holes: clauses are deleted on the way.").ask(limit=100000)
    for seed in (1, 2):
        CoreRows(three_sat(70, seed), f"Random clauses over 70 variables, from seed {seed}: clauses are deleted on the way.").ask(limit=100000)


# Each driver, and what writes the rows of its parts, one behind the other, since they share the random numbers.
DRIVERS = {
    "qv_watch_cases": {"literals, clause lists and refutations": (clause_heading, literals, lists, checks), "trails": (trail_heading, trails)},
    "qv_sat_cases": {"cores": (core_heading, counters, core_tables, sessions, instances)},
}


def write(driver, part, writers):
    LINES.clear()
    ANSWERS.clear()
    for writer in writers:
        writer()
    write_part(driver, part, zip(LINES, ANSWERS))
    cases = sum(1 for line in LINES if line and not line.startswith("#"))
    print(f"{driver}, {part}: {cases} cases on {len(LINES)} lines")


def main():
    for driver, parts in DRIVERS.items():
        ROUNDS.seed(20261127)
        for part, writers in parts.items():
            write(driver, part, writers)


if __name__ == "__main__":
    main()
