#!/usr/bin/env python3
"""The cases of sections and certificates that are trimmed, which bench/cases/clauses_cases.py writes with its own. A case is the text of a
section, and how many bytes may be written; or a script and a certificate, and how many bytes may be printed and written. The answers come
from the reference below, which is written from the rules and not from the program: needed lines are found by following hints from the
first line without literals until there are no more. What is printed of a certificate follows from how it was made.
"""
import random

from rows import written, quoted

CHANCE = random.Random(20261130)
ROWS = []


# ---- the reference

def numbers(words):
    """The numbers up to the word 0, and the words behind it."""
    at = words.index("0")
    return [int(word) for word in words[:at]], words[at + 1:]


def step(line):
    """A line of a refutation: whether it adds, its id, its literals, and its hints or the ids that it deletes."""
    words = line.split()
    if words[1] == "d":
        return False, int(words[0]), None, numbers(words[2:])[0]
    lits, rest = numbers(words[1:])
    return True, int(words[0]), lits, numbers(rest)[0]


def printed(adds, id, lits, others):
    middle = [*lits, 0, *others] if adds else ["d", *others]
    return " ".join(str(word) for word in [id, *middle, 0])


def trimmed(lines):
    """The kept lines of a refutation."""
    steps = []
    for line in lines:
        steps.append(step(line))
        if steps[-1][0] and not steps[-1][2]:
            break
    named = {id: {abs(hint) for hint in others} for adds, id, _, others in steps if adds}
    needed, waiting = {steps[-1][1]}, [steps[-1][1]]
    while waiting:
        for id in sorted(named[waiting.pop()]):
            if id in named and id not in needed:
                needed.add(id)
                waiting.append(id)
    return [printed(*one) for one in steps if not one[0] or one[1] in needed]


def plain(line):
    """A line outside of refutations, as it is printed."""
    return " ".join(str(int(word)) if word.isdigit() else word for word in line.split())


def kept_of(text):
    """The section with which a text begins, trimmed, and its bytes."""
    lines = text.split("\n")
    own = lines[:next(n for n, line in enumerate(lines) if line.split() == ["end"]) + 1]
    at = next((n for n, line in enumerate(own) if line.split() == ["lrat"]), None)
    if at is None:
        new = [plain(line) for line in own]
    else:
        new = [plain(line) for line in own[:at + 1]] + trimmed(own[at + 1:-1]) + ["end"]
    return "".join(line + "\n" for line in new), sum(len(line) + 1 for line in own)


def outcome(text, room):
    """The section's bytes, or that writing fails, and what is written."""
    whole, size = kept_of(text)
    # What one call takes is at most 16 bytes, or as many as there is room for.
    if len(whole) <= room:
        return f"{size} {quoted(whole.encode())}"
    return f"Write {quoted(whole[:room].encode())}"


def add(text, room=10000):
    ROWS.append((f"section {room} {written(text.encode())}", outcome(text, room)))


def note(text):
    ROWS.append((f"# {text}" if text else "", None))


# ---- the cases

def section(steps, answer="sat", behind=""):
    return f"check 1 {answer}\nlrat\n" + "".join(one + "\n" for one in steps) + "end\n" + behind


SMALLEST = ["3 -1 0 2 0", "4 0 1 2 0", "5 0 1 2 0"]
EARLY = ["3 1 2 0 1 2 0", "4 -1 0 3 0", "5 1 0 4 2 0", "6 0 5 1 0"]


def chance_steps():
    """Lines with rising ids, of which the hints name any, and one without literals."""
    base = CHANCE.randint(0, 6)
    ids, id = list(range(1, base + 1)), base
    steps = []
    count = CHANCE.randint(0, 12)
    for n in range(count + 1):
        id += CHANCE.choice((1, 1, 1, 2, 9))
        lits = [CHANCE.choice((1, -1)) * CHANCE.randint(1, 9) for _ in range(CHANCE.randint(1, 3))] if n < count else []
        hints = [CHANCE.choice((1, 1, 1, -1)) * CHANCE.choice(ids + [id + CHANCE.randint(1, 4)]) for _ in range(CHANCE.randint(0, 4))]
        steps.append(printed(True, id, lits, hints))
        if n < count and CHANCE.random() < 0.3 and ids:
            steps.append(printed(False, id, None, CHANCE.sample(ids, CHANCE.randint(0, min(3, len(ids))))))
        ids.append(id)
    for _ in range(CHANCE.choice((0, 0, 1, 3))):
        id += 1
        steps.append(printed(True, id, [CHANCE.randint(1, 9)] if CHANCE.random() < 0.5 else [], [CHANCE.choice(ids)]))
    return steps


# ---- certificates beside scripts

ENDINGS = {"accepted": "Accepted", "(error": "Faulty", "refused": "Refused"}


def run(script, header, sections, behind, last, prints=10000, writes=10000):
    """A certificate of accepted sections, each with its answer, and what stands behind them; `last` is printed last."""
    version = header.split()
    head = f"qbv-cert {version[1]}\n" if version and not last.startswith("refused 1 ") else ""
    new = head + "".join(kept_of(text)[0] for _, text in sections)
    printed = "".join(answer + "\n" for answer, _ in sections) + last + "\n"
    ending = ENDINGS[last.split()[0]]
    if len(new) > writes:
        ending, printed, new = "Write", "", new[:writes]
    elif len(printed) > prints:
        ending, printed = "Write", printed[:prints]
    text = header + "".join(text for _, text in sections) + behind
    # The driver writes a quote behind a backslash.
    answer = f"{ending} {quoted(printed.encode())} {quoted(new.encode())}".replace("\\x22", '\\"')
    ROWS.append((f"trim {prints} {writes} {script}|{written(text.encode())}", answer))


def checked(number, steps):
    return "sat", f"check {number} sat\nlrat\n" + "".join(one + "\n" for one in steps) + "end\n"


def unknown(number):
    return "unknown", f"check {number} unknown\nend\n"


def accepted_steps():
    """Lines that refute the clauses 1 and -1, with ids 1 and 2: hints behind `1 2` aren't looked at, and name any lines."""
    ids, id, steps = [1, 2], 2, []
    count = CHANCE.randint(0, 8)
    for n in range(count + 1):
        id += CHANCE.choice((1, 1, 2, 9))
        lits = [CHANCE.choice((1, -1)) * CHANCE.randint(2, 9) for _ in range(CHANCE.randint(1, 3))] if n < count else []
        others = [CHANCE.choice(ids + [id + CHANCE.randint(1, 4)]) for _ in range(CHANCE.randint(0, 3))]
        steps.append(printed(True, id, lits, [1, 2, *others]))
        if n < count and CHANCE.random() < 0.3:
            steps.append(printed(False, id, None, CHANCE.sample(ids[2:], CHANCE.randint(0, min(3, len(ids) - 2)))))
        ids.append(id)
    if CHANCE.random() < 0.3:
        steps.append(printed(True, id, [1], [9]))
    return steps


def certificates():
    note("trim PRINTS WRITES SCRIPT|CERT: how the check of the certificate beside the script ends, what is printed to a sink with so much room,")
    note("and what is written to another. By bench/cases/trim_cases.py.")
    one, head = "(check-sat)", "qbv-cert 1\n"
    note("")
    note("accepted")
    run(one, head, [checked(1, SMALLEST)], "", "accepted")
    run(one, "qbv-cert 2\n", [checked(1, SMALLEST)], "", "accepted")
    run(one, " qbv-cert\t1 \r\n", [checked(1, SMALLEST)], "", "accepted")
    run(one, head, [unknown(1)], "", "accepted")
    run("", head, [], "", "accepted")
    run(one * 3, head, [checked(1, SMALLEST), unknown(2), checked(3, SMALLEST[1:])], "", "accepted")
    run(one + "(exit)" + one, head, [checked(1, SMALLEST)], "", "accepted")
    note("")
    note("a fault of the script, behind which the certificate isn't looked at")
    run(")", head, [], "", '(error "at 0: close")')
    run(one + ")", head, [checked(1, SMALLEST)], "", '(error "at 11: close")')
    run(one + ")", head, [checked(1, SMALLEST)], "x", '(error "at 11: close")')
    run(one * 2 + ")", head, [checked(1, SMALLEST), unknown(2)], checked(3, SMALLEST)[1], '(error "at 22: close")')
    note("")
    note("a refusal: what was accepted before it is trimmed")
    run(one, "", [], "", "refused 1 truncated")
    run(one, "qbv-cert 1", [], "", "refused 1 truncated")
    run(one, "qbv-cert 3\n", [], "", "refused 1 header")
    run(one, "check 1 unknown\n", [], "end\n", "refused 1 header")
    run(one, head, [], "", "refused 2 truncated")
    run(one, head, [], "check 2 unknown\nend\n", "refused 2 section")
    run(one, head, [unknown(1)], "x", "refused 4 truncated")
    run(one, head, [unknown(1)], "x\n", "refused 4 form")
    run(one * 3, head, [checked(1, SMALLEST), checked(2, SMALLEST)], "check 3 sat\nlrat\nend\n", "refused 16 refutation")
    run(one * 3, head, [checked(1, SMALLEST), unknown(2)], "check 3 sat\nlrat\n3 0 1 0\nend\n", "refused 12 open")
    run(one * 3, head, [checked(1, SMALLEST), unknown(2)], "check 3 sat\nlrat\n3 0 1 2 0\n", "refused 13 truncated")
    note("")
    note("sinks that fill up: nothing is printed where not all is written")
    for room in (0, 10, 11, 12, 41, 42, 43, 61, 62):
        run(one * 2, head, [checked(1, SMALLEST), unknown(2)], "", "accepted", writes=room)
    for room in (0, 3, 4, 5, 11, 12, 20, 21):
        run(one * 2, head, [checked(1, SMALLEST), unknown(2)], "", "accepted", prints=room)
    note("")
    note("refutations by chance")
    for _ in range(60):
        count = CHANCE.randint(1, 4)
        sections = [unknown(n + 1) if CHANCE.random() < 0.2 else checked(n + 1, accepted_steps()) for n in range(count)]
        run(one * count, head, sections, "", "accepted")


def rows():
    """All rows: of sections, then of certificates."""
    note("section ROOM TEXT: the section that the text begins with is written trimmed to a sink with so much room: how many bytes it has, or that")
    note("writing fails, and what was written. By bench/cases/trim_cases.py.")
    note("")
    note("what isn't needed is left out, and what stands behind the first line without literals")
    add(section(SMALLEST))
    add(section(SMALLEST, "unsat"))
    add(section(SMALLEST[1:]))
    add(section(SMALLEST, "sat", "check 2 unknown\nend\n"))
    add(section(EARLY))
    add(section(EARLY[:3] + ["7 5 0 5 0", "8 0 5 1 0"]))
    note("")
    note("a hint of either sign, and one of a line that comes behind")
    add(section(["3 -1 0 2 0", "4 7 0 -3 0", "5 6 0 1 0", "6 0 -4 1 0"]))
    add(section(["3 -1 0 2 5 0", "4 d 1 0", "5 -1 0 2 0", "6 0 3 0"]))
    add(section(["3 1 0 4 0", "4 1 0 5 0", "5 1 0 6 0", "6 1 0 7 0", "7 0 3 0"]))
    note("")
    note("deletions before that line stay, and those behind go")
    add(section(["3 d 1 0", "3 d 0", "3 5 0 0", "3 d 3 0", "4 0 1 2 0", "4 d 4 0"]))
    note("")
    note("lines are written with one space between words")
    add("check  01\tsat\r\nn 1 v 0\n n 2 c 008 255 \ns 0 1\nlrat\r\n 03  -1 0\t2 0\n4 0 1 3 0\n end\n")
    add("check 2 unsat\nn 3 o bvadd : 1 2\ni 1 0 3\ne 2 1\nw not-not\nlrat\n1 0 0\nend\n")
    note("")
    note("an unknown section stays")
    add("check 1 unknown\nend\n")
    add(" check 01 unknown\n\tend \ncheck 2 sat\n")
    note("")
    note("a sink that fills up")
    for room in (0, 1, 11, 12, 16, 17, 26, 27, 28, 30, 31, 32):
        add(section(SMALLEST), room)
    add("check 1 unknown\nend\n", 19)
    add("check 1 unknown\nend\n", 20)
    note("")
    note("lines by chance")
    for _ in range(300):
        add(section(chance_steps(), CHANCE.choice(("sat", "unsat")), CHANCE.choice(("", "check 2 sat\n", "x"))))
    note("")
    certificates()
    return ROWS
