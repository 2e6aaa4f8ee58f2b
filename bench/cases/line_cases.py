#!/usr/bin/env python3
"""Writes the cases of qv_qdimacs_cases, and what must come of each: `line_cases.py` writes crates/qv_qdimacs_cases/stdin and
stdout. The answers are computed here from the grammar of LRAT lines, and not by the program.

A line is `ID LITERALS 0 HINTS 0` or `ID d IDS 0`, with or without an LF at its end. Words have spaces, tabs or CR
between them, and at both ends where one likes. An id is from 1 to 2^62 - 1, a literal's magnitude from 1 to 2^30, a hint's
magnitude from 1 to 2^62 - 1. Numbers are decimal digits, with a minus before them for literals and hints alone; they may
begin with zeros. The 0 that ends a list is the word `0`.
"""
import itertools
import random
import re

from lrat_lines import GREATEST_ID, GREATEST_VARIABLE, number, step
from rows import blanks, quoted, write_part, written


def spelling(found):
    """The one line that is printed for a step."""
    if found[0] == "add":
        words = [found[1], *found[2], 0, *found[3], 0]
    else:
        words = [found[1], "d", *found[2], 0]
    return (" ".join(map(str, words)) + "\n").encode()


def step_text(found):
    """The step as a case writes it."""
    words = ["add", found[1], *found[2], ";", *found[3]] if found[0] == "add" else ["delete", found[1], *found[2]]
    return " ".join(map(str, words))


# ---- cases, each with its answer

cases = []


def note(text=""):
    cases.append((f"# {text}" if text else "", f"# {text}" if text else ""))


def case(text, answer):
    cases.append((text.rstrip(" "), answer))


def line(data):
    found = step(data)
    case("line " + written(data), "form" if found is None else f"{step_text(found)} -> {quoted(spelling(found))}")


def changes(data):
    """Each byte in turn at each place: what is printed where the line is read."""
    for place in range(len(data)):
        changed = [data[:place] + bytes([byte]) + data[place + 1:] for byte in range(256)]
        read = [spelling(step(text)) for text in changed if step(text) is not None]
        case(f"changes {place} {written(data)}", quoted(b"".join(read)))


def printed(found):
    """A step of the case's own: its line, and behind it the line of the step that is read from that."""
    if found[0] == "add":
        front, back = " ".join(map(str, found[1:2] + tuple(found[2]))), " ".join(map(str, found[3]))
        lawful = all(1 <= abs(n) <= GREATEST_VARIABLE for n in found[2]) and all(1 <= abs(n) <= GREATEST_ID for n in found[3])
        text = f"add {front} ; {back}".rstrip()
    else:
        lawful = all(1 <= n <= GREATEST_ID for n in found[2])
        text = "delete " + " ".join(map(str, found[1:2] + tuple(found[2])))
    lawful = lawful and 1 <= found[1] <= GREATEST_ID
    case(text, quoted(spelling(found) * 2) if lawful else "bad case")


def unsigned(least, most, word):
    value = number(word, least, most, False)
    case(f"unsigned {least} {most} {written(word)}", "none" if value is None else str(value))


def signed(most, word):
    value = number(word, 1, most, True)
    case(f"signed {most} {written(word)}", "bad case" if most >= 2**63 else "none" if value is None else str(value))


def words(data):
    case("words " + written(data), "".join(quoted(word) for word in re.split(rb"[ \t\r]", data) if word))


def byte(wanted, word):
    case(f"byte {written(bytes([wanted]))} {written(word)}", "yes" if word == bytes([wanted]) else "no")


def push(word, value):
    case(f"push {written(word)} {value}", quoted(word + b" " + str(value).encode() + b" "))


# ---- lines by hand

note("Lines of proofs, written by bench/cases/line_cases.py. Bytes that are no printable ASCII are \\t, \\n, \\r or \\x")
note("with two hexadecimal digits.")
note()
note("line LINE: the step that is read, and the line that is printed for it; or form.")
for text in [b"26 0 1 13 0", b"26 0 1", b"9 -5 3 -1 0 4 -7 2 0", b"9 -5 3 -1 0 4 -7 2 0\n", b"9 -5 3 -1 0 4 -7 2 0\r\n",
             b" \t\r9\t-5  3\r-1 \t0 4 -7 2 0 \r\t ", b"009 -0005 03 -01 0 00004 -07 0002 0", b"9 1 1 0 0", b"1 0 0",
             b"9 d 4 7 0", b"9 d 0", b"\t09\td 004\r7  7 0\r\n", b"\t9  -05\r3 0 4 -7 0 ", b"009 d 04 7 0\r\n", b"1 d 0",
             b"3 1 0 2 0"]:
    line(text)

note("the greatest numbers")
line(b"4611686018427387903 1073741824 -1073741824 0 4611686018427387903 -4611686018427387903 0")
line(b"4611686018427387903 d 4611686018427387903 0")

note("long numbers, and a long line")
line(b"7 -" + b"0" * 500 + b"12 0 3 0")
line(b"7 1" + b"0" * 500 + b" 0 3 0")
line(b"7 " + b" ".join(b"%d" % (n if n % 3 else -n) for n in range(1, 200)) + b" 0 " + b"5 " * 200 + b"0")
line(b"7 d " + b" ".join(b"%d" % n for n in range(1, 200)) + b" 0")

note("words out of form: ids, literals, hints, deleted ids")
for text in [b"0 1 0 2 0", b"00 1 0 2 0", b"-9 1 0 2 0", b"+9 1 0 2 0", b"9a 1 0 2 0", b"d 1 0",
             b"4611686018427387904 1 0 2 0", b"18446744073709551617 1 0 2 0",
             b"9 00 0 2 0", b"9 -0 0 2 0", b"9 +1 0 2 0", b"9 - 0 2 0", b"9 --1 0 2 0", b"9 1- 0 2 0", b"9 1.5 0 2 0",
             b"9 1 d 0 2 0", b"9 1073741825 0 2 0", b"9 -1073741825 0 2 0", b"9 4294967297 0 2 0",
             b"9 1 0 00 0", b"9 1 0 -0 0", b"9 1 0 +2 0", b"9 1 0 x 0", b"9 1 0 4611686018427387904 0",
             b"9 1 0 -4611686018427387904 0",
             b"9 d 00 0", b"9 d -1 0", b"9 d +1 0", b"9 d 1d 0", b"9 d 4611686018427387904 0", b"9 D 1 0", b"9 dd 1 0"]:
    line(text)

note("lines out of form")
for text in [b"", b" \t\r", b"\n", b"9", b"9 1 2", b"9 1 0", b"9 1 0 2", b"9 0", b"9 d", b"9 d 1", b"9d 1 0", b"9 1 0 2 0 3",
             b"9 1 0 2 0 0", b"9 d 1 0 0", b"9 d 1 0 2 0", b"9 1 0\n2 0", b"9 1 0 2 0\n\n", b"\n9 1 0 2 0", b"9 1 0 2 0\n ",
             b"9\x0b1 0 2 0", b"9\x0c1 0 2 0", b"9 1 0 2 0\0", b"9 1 0 2 0\xa0", b"c 9 1 0 2 0", b"9 d d 0", b"9 d 1 0 d",
             b"9 1 d 0", b"9 -d 1 0", b"d d 1 0", b"9 d\n", b"9 d 0\r", b"\r\r9 d 0\r\n"]:
    line(text)

# ---- numbers at their bounds, in each part

note("numbers at their bounds, as id, literal, hint and deleted id")
BOUNDS = [0, 1, 9, 10, 2**30 - 1, 2**30, 2**30 + 1, 2**31, 2**32, 2**32 + 1, 2**61, 2**62 - 1, 2**62, 2**62 + 1, 2**63 - 1,
          2**63, 2**63 + 1, 2**64 - 1, 2**64, 2**64 + 1, 10**19, 10**20, 2**127, 2**128 - 1, 2**128, 2**128 + 1, 10**40]
for front in [b"", b"-", b"0", b"-00"]:
    for bound in BOUNDS:
        for place in [b"%s 5 0 6 0", b"8 %s 0 6 0", b"8 5 0 %s 0", b"8 d %s 0"]:
            line(place % (front + b"%d" % bound))

# ---- short lines, all of them

note("all lines of up to four of these words: 1 0 d -2 00")
for count in range(5):
    for chosen in itertools.product([b"1", b"0", b"d", b"-2", b"00"], repeat=count):
        line(b" ".join(chosen))

# ---- prefixes and single bytes

BASES = [b"26 0 1 13 0\n", b"9 -5 3 0 4 -7 0\r\n", b"12 d 4 70 0\n", b" 1\t0\r0 "]

note("all prefixes of a few lines")
for base in BASES:
    for end in range(len(base)):
        line(base[:end])

note("a few lines, each byte taken away, and each doubled")
for base in BASES:
    for place in range(len(base)):
        line(base[:place] + base[place + 1:])
        line(base[:place + 1] + base[place:])

note("changes PLACE LINE: the line with each of the 256 bytes in turn at the place; what is printed where it is read")
for base in BASES:
    changes(base)
case("changes 5 1 0 0", "bad case")

# ---- lines by chance

note("lines by chance, with blanks of every kind")
chance = random.Random(2026)


def digits(most, sign):
    value = chance.randint(1, chance.choice([9, 1000, most]))
    return (b"-" if sign and chance.random() < 0.4 else b"") + b"0" * chance.choice([0, 0, 0, 2]) + b"%d" % value


def by_chance():
    found = [digits(GREATEST_ID, False)]
    if chance.random() < 0.3:
        found += [b"d"] + [digits(GREATEST_ID, False) for _ in range(chance.randint(0, 4))] + [b"0"]
    else:
        found += [digits(GREATEST_VARIABLE, True) for _ in range(chance.randint(0, 4))] + [b"0"]
        found += [digits(GREATEST_ID, True) for _ in range(chance.randint(0, 4))] + [b"0"]
    if chance.random() < 0.2:
        found[chance.randrange(len(found))] = chance.choice([b"", b"0", b"-", b"d", b"+1", b"1x", b"-0", b"00", b"\n"])
    return blanks(chance, 0) + b"".join(word + blanks(chance, 1) for word in found) + chance.choice([b"", b"\n", b"\r\n"])


for _ in range(150):
    line(by_chance())

# ---- steps of the case's own

note("add ID LITERALS ; HINTS and delete ID IDS: the line of this step, and behind it that of the step read from it")
for found in [("add", 26, [], [1, 13]), ("add", 9, [-5, 3, -1], [4, -7, 2]), ("add", 1, [], []), ("add", 9, [1, 1], []),
              ("add", GREATEST_ID, [2**30, -(2**30)], [GREATEST_ID, -GREATEST_ID]), ("add", 0, [1], [1]),
              ("add", GREATEST_ID + 1, [1], [1]), ("add", 5, [0], [1]), ("add", 5, [2**30 + 1], [1]),
              ("add", 5, [-(2**30) - 1], [1]), ("add", 5, [1], [0]), ("add", 5, [1], [GREATEST_ID + 1]),
              ("add", 5, [1], [-GREATEST_ID - 1]), ("add", 5, [1], [-(2**63)]), ("add", 5, list(range(1, 60)), [-2] * 60),
              ("delete", 9, [4, 7]), ("delete", 9, []), ("delete", 9, [7, 7, 9]), ("delete", GREATEST_ID, [1, GREATEST_ID]),
              ("delete", 0, [1]), ("delete", 9, [0]), ("delete", 9, [GREATEST_ID + 1]), ("delete", GREATEST_ID + 1, []),
              ("delete", 9, [2**64 - 1])]:
    printed(found)
for _ in range(60):
    if chance.random() < 0.3:
        printed(("delete", chance.randint(1, GREATEST_ID), [chance.randint(1, GREATEST_ID) for _ in range(chance.randint(0, 5))]))
    else:
        lits = [chance.choice([1, -1]) * chance.randint(1, chance.choice([9, GREATEST_VARIABLE])) for _ in range(chance.randint(0, 5))]
        hints = [chance.choice([1, -1]) * chance.randint(1, chance.choice([9, GREATEST_ID])) for _ in range(chance.randint(0, 5))]
        printed(("add", chance.randint(1, chance.choice([99, GREATEST_ID])), lits, hints))

# ---- words and numbers, which serve other lines

note("words TEXT: its words")
for text in [b" check\t1 ", b"", b" \t\r", b"a", b" a", b"a ", b"a\nb c", b"a\x0bb", b"\0 \xff\xfe", b'"a" \\b', b"  a\r\r\tbb   ccc"]:
    words(text)
note("blanks TEXT: _ for each blank, x for each other byte")
case("blanks " + written(bytes(range(256))), "".join("_" if b in b" \t\r" else "x" for b in range(256)))
note("byte BYTE WORD: whether the word is that byte")
for wanted, word in [(49, b"1"), (49, b"2"), (49, b"11"), (49, b"1 "), (48, b"0"), (48, b"00"), (48, b"-0"), (100, b"d"),
                     (100, b"D"), (100, b"dd"), (0, b"\0"), (255, b"\xff"), (255, b"\xfe")]:
    byte(wanted, word)
case("byte 1 ", "no")
note("unsigned LEAST MOST WORD: the number, or none")
for least, most, word in [(0, 7, b"007"), (0, 7, b"8"), (0, 7, b"7"), (0, 0, b"0"), (0, 0, b"1"), (1, 9, b"0"), (1, 9, b"1"),
                          (5, 9, b"4"), (5, 9, b"5"), (5, 9, b"10"), (9, 5, b"7"), (0, 9, b"-0"), (0, 9, b"+1"), (0, 9, b"1 "),
                          (0, 9, b"a"), (0, 9, b"/"), (0, 9, b":"), (0, 9, b"1\xb2"), (0, 255, b"255"), (0, 255, b"256"),
                          (0, 2**64 - 1, b"18446744073709551615"), (0, 2**64 - 1, b"18446744073709551616"),
                          (0, 2**128 - 1, b"340282366920938463463374607431768211455"),
                          (0, 2**128 - 1, b"340282366920938463463374607431768211456"),
                          (0, 2**128 - 1, b"340282366920938463463374607431768211460"),
                          (0, 2**128 - 1, b"3402823669209384634633746074317682114550"),
                          (0, 2**128 - 1, b"0000340282366920938463463374607431768211455"),
                          (0, 2**62 - 1, b"4611686018427387903"), (0, 2**62 - 1, b"4611686018427387904")]:
    unsigned(least, most, word)
case("unsigned 0 7 ", "none")
note("signed MOST WORD: the number, or none")
for most, word in [(7, b"-7"), (7, b"-8"), (7, b"7"), (7, b"8"), (7, b"0"), (7, b"-0"), (7, b"-"), (7, b"--1"), (7, b"1-"),
                   (7, b"-007"), (7, b"+7"), (0, b"0"), (0, b"1"), (2**62 - 1, b"-4611686018427387903"),
                   (2**62 - 1, b"-4611686018427387904"), (2**63 - 1, b"9223372036854775807"),
                   (2**63 - 1, b"-9223372036854775807"), (2**63 - 1, b"9223372036854775808"),
                   (2**63 - 1, b"-9223372036854775808"), (2**63, b"1")]:
    signed(most, word)
note("push WORD NUMBER: what is printed for the word and the number")
for word, value in [(b"check", -12), (b"check", 0), (b"", 5), (b"\t", 2**127 - 1), (b"x\xff", -(2**127)), (b"d", 2**62 - 1)]:
    push(word, value)

note("what is no case")
for text in ["none", "line \\", "line \\q", "line \\x4", "line \\xzz", "add 5 1", "add x ; 1", "delete", "delete 5 -1", "push check",
             "changes", "changes x 1 0 0"]:
    case(text, "bad case")

write_part("qv_qdimacs_cases", "lines of proofs", cases, "lrat")
