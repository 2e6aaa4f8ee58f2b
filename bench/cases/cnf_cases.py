#!/usr/bin/env python3
"""Writes the cases of qv_qdimacs_cases, and what must come of each: `cnf_cases.py` writes crates/qv_qdimacs_cases/stdin and
stdout. The answers are computed here from the rules of the text, and not by the program.

A line that is empty or has white space alone, and one whose first byte other than white space is `c`, is a comment. The
first other line is `p cnf V C` with two numerals below 2^62. Behind it come clauses over any lines, each a list of literals
and `0`. The word `%` where a clause may begin ends the text. White space is a tab, a CR, a space or an LF.

A text's answer is `N: CLAUSES`, or `N: M` for the M literals of the N clauses of a large one, or its fault; then `@` and how
many calls of the source were made, each of which asks for 4,096 bytes. The reader stops at the first byte that shows a fault
or the word `%`, so no call is made behind the piece with that byte.
"""
import random
import re

from rows import write_part, written

WHITE = b"\t\r \n"
PIECE = 4096


def words_at(text, begin):
    """The words of a text, each with the place where it begins, the text's own place being `begin`."""
    return [(begin + m.start(), m.group()) for m in re.finditer(rb"[^\t\r \n]+", text)]


def is_numeral(word):
    return bool(re.fullmatch(rb"0|[1-9][0-9]*", word)) and (len(word) < 30 and int(word) < 2**62)


def literal(word):
    """The literal that a word writes, or None."""
    if not re.fullmatch(rb"-?[0-9]+", word):
        return None
    digits = word.lstrip(b"-").lstrip(b"0")
    if not digits or len(digits) > 10 or int(digits) > 2**30:
        return None
    return int(digits) * (-1 if word.startswith(b"-") else 1)


def said(text):
    """What a text says: its clauses and None, or None and its fault with its place; and the place of the byte that shows it,
    or the text's length where its end does."""
    lines, begin = [], 0
    for line in text.split(b"\n"):
        lines.append((begin, line))
        begin += len(line) + 1
    lines = [(words_at(line, begin), begin + len(line)) for begin, line in lines]
    lines = [(words, end) for words, end in lines if words and not words[0][1].startswith(b"c")]
    if not lines:
        return None, ("Unfinished", len(text)), len(text)
    head, end = lines[0]
    tests = [lambda w: w == b"p", lambda w: w == b"cnf", is_numeral, is_numeral]
    for at, (place, word) in enumerate(head):
        if at == 4 or not tests[at](word):
            return None, ("ProblemLine", head[0][0]), place + len(word)
    if len(head) < 4:
        return None, ("ProblemLine", head[0][0]), end
    clauses, clause, start = [], [], None
    for words, _ in lines[1:]:
        for place, word in words:
            if word == b"0":
                clauses.append(clause)
                clause, start = [], None
            elif word == b"%" and start is None:
                return clauses, None, place + 1
            elif literal(word) is None:
                return None, ("Number", place), place + len(word)
            else:
                start = place if start is None else start
                clause.append(literal(word))
    if start is not None:
        return None, ("Unfinished", start), len(text)
    return clauses, None, len(text)


def answer(text, give, fails, is_large):
    clauses, fault, shown = said(text)
    calls, taken, step = 0, 0, min(give, PIECE)
    while True:
        calls += 1
        if calls in fails:
            return f"ReadFault @{calls}"
        if taken >= len(text):
            break
        taken = min(taken + step, len(text))
        if shown < taken:
            break
    if fault:
        return f"At {{ place: {fault[1]}, kind: {fault[0]} }} @{calls}"
    if is_large:
        return f"{len(clauses)}: {sum(map(len, clauses))} @{calls}"
    return f"{len(clauses)}:" + "".join("".join(f" {lit}" for lit in clause) + " 0" for clause in clauses) + f" @{calls}"


def row(text, give=PIECE, fails=()):
    asked = ",".join(map(str, fails)) or "-"
    return f"text {give} {asked} {written(text)}", answer(text, give, fails, False)


def large(parts, give=PIECE, fails=()):
    asked = ",".join(map(str, fails)) or "-"
    text = b"".join(part * times for times, part in parts)
    return f"large {give} {asked} " + "|".join(f"{times}*{written(part)}" for times, part in parts), answer(text, give, fails, True)


def chance_text(chance):
    """A text that is mostly right."""
    white = lambda least: bytes(chance.choice(WHITE[:3]) for _ in range(chance.randint(least, 2)))
    space = lambda: chance.choice([b" ", b"\n", b"\t", b"\r\n", b" \n", b"\nc no 1 0\n", b"\n\n  c\n", b"\n \t\n"])
    text = b"".join(chance.choice([b"c a comment\n", b"\n", b"  \n", b" c\n", b"cnf p\n"]) for _ in range(chance.randint(0, 2)))
    text += white(0) + b"p" + white(1) + b"cnf" + white(1) + str(chance.choice([0, 3, 10, 2**62 - 1])).encode() + white(1)
    text += str(chance.choice([0, 3, 10])).encode() + white(0) + b"\n"
    for _ in range(chance.randint(0, 4)):
        for _ in range(chance.randint(0, 3)):
            number = chance.choice([1, 2, 3, 17, 2**30, 2**30 - 1])
            text += chance.choice([b"", b"-"]) + chance.choice([b"", b"", b"0", b"00"]) + str(number).encode() + space()
        text += b"0" + space()
    if chance.randint(0, 4) == 0:
        text += b"%" + space() + b"0 x"
    return text


def turned(chance, text):
    """The same with a byte or two changed, taken away or put in."""
    text = bytearray(text)
    for _ in range(chance.randint(1, 2)):
        at = chance.randrange(len(text) + 1)
        byte = chance.choice(b"pcnf%-+0123456789x\t\r \n\x00\xff")
        kind = chance.randint(0, 2)
        if kind == 0:
            text.insert(at, byte)
        elif kind == 1 and at < len(text):
            text[at] = byte
        elif at < len(text):
            del text[at]
    return bytes(text)


def main():
    rows = [("# text GIVE FAILS TEXT: a source of this text gives at most GIVE bytes a call and fails at the calls FAILS; large: the", None),
            ("# same of a text in pieces N*TEXT, of which the number of clauses and literals is told.", None), ("", None)]
    plain = b"c two\np cnf 2 3\n1 -2 0\n-1 0\nc behind\n2 0\n"
    rows.append(("# in pieces of every size, and each front", None))
    rows += [row(plain, give) for give in (1, 2, 3, 5, 7, 11, 4096)]
    rows += [row(plain[:n]) for n in range(len(plain))]
    rows += [row(plain[:n], 1) for n in range(0, len(plain), 3)]
    rows += [row(plain, 4, (n,)) for n in range(1, 14)]
    rows += [row(b"p cnf 2 1\n1 x 0\n", 4, (n,)) for n in range(1, 6)]
    rows.append(("# each byte another", None))
    for n in range(len(plain)):
        rows += [row(plain[:n] + bytes([other]) + plain[n + 1:]) for other in b"pc%-0 1\n\r"]
    rows.append(("# comments and white space", None))
    for text in (b"", b"\n", b" \t\r\n", b"c", b"  c x\n", b"c\rp cnf 1 1\n1 0\n", b"cnf\np cnf 0 0\n", b"p cnf 0 0", b"p cnf 0 0\n",
                 b"\tp \r cnf\t1   1 \r\n1\r0\r\n", b"p cnf 1 1\n 1\n c 2 x\n\n0 c\n", b"p cnf 1 1\n1 c 0\n", b"p cnf 1 1\n1 0c\n",
                 b"p cnf 1 1\n1 0\nc", b"p cnf 1 1\n1\nc 0\n", b"p cnf 1 1\n1 \nc 0\n 0", b"c 1\nc 2\n\n\np cnf 1 1\nc 3\n0"):
        rows.append(row(text))
    rows.append(("# the problem line", None))
    for line in (b"p", b"p cnf", b"p cnf 1", b"p cnf 1 1 1", b"p cnf 1 1 c", b"q cnf 1 1", b"pp cnf 1 1", b"p cn 1 1", b"p cnff 1 1",
                 b"p dnf 1 1", b"p cnf 01 2", b"p cnf 1 02", b"p cnf -1 2", b"p cnf 1 +2", b"p cnf 1 2x", b"p cnf 00 0", b"p cnf 0 0",
                 b"p cnf 4611686018427387903 4611686018427387903", b"p cnf 4611686018427387904 1", b"p cnf 1 4611686018427387904",
                 b"p cnf 9223372036854775807 1", b"p cnf 9223372036854775808 1", b"p cnf 18446744073709551615 1",
                 b"p cnf 18446744073709551616 1", b"p cnf 99999999999999999999999999 1", b"1 0", b"0", b"%", b"% p cnf 1 1", b"pcnf 1 1",
                 b"p cnf 1073741825 1", b"p CNF 1 1", b"P cnf 1 1", b"p cnf 1 1\x00", b"\xff", b"p\x0bcnf 1 1", b"p cnf 1\n1"):
        rows += [row(line), row(b"\n  " + line + b"\n1 0\n")]
    rows.append(("# words of clauses", None))
    for word in (b"1", b"-1", b"01", b"-01", b"007", b"-007", b"0", b"00", b"-0", b"-00", b"+1", b"+0", b"-", b"--1", b"1-", b"1.", b"1x", b"x",
                 b"%", b"%%", b"%1", b"-%", b"p", b"cnf", b"c1", b"1073741823", b"1073741824", b"1073741825", b"-1073741824", b"-1073741825",
                 b"2147483647", b"2147483648", b"-2147483648", b"4294967295", b"4294967296", b"4294967297", b"18446744073709551615",
                 b"18446744073709551616", b"18446744073709551617", b"-18446744073709551617", b"9" * 40, b"-" + b"9" * 40,
                 b"0" * 40 + b"5", b"-" + b"0" * 40 + b"5", b"0" * 40, b"0" * 40 + b"1073741825", b"\x00", b"\xff", b"1\xa0", b"\xc3\xa9"):
        rows += [row(b"p cnf 9 9\n" + word), row(b"p cnf 9 9\n" + word + b" 0\n"), row(b"p cnf 9 9\n2 " + word + b" 0 3 0")]
        rows.append(row(b"p cnf 9 9\n2 0\n" + word + b"\n0\n", 1))
    rows.append(("# where they end", None))
    for text in (b"", b"0", b"0 0 0", b"1", b"1 0 2", b"1 0\n\n2 3\n", b"1 0 % 2 x", b"1 % 0", b"1 0 %", b"1 0 %2 0", b"% %", b"0%", b"1 0\n%\n0\n", b"c %\n1 0"):
        rows += [row(b"p cnf 3 3\n" + text), row(b"p cnf 3 3\r\n" + text.replace(b"\n", b"\r\n") + b"\r\n", 3)]
    rows.append(("# by chance", None))
    chance = random.Random(1962)
    for _ in range(300):
        text = chance_text(chance)
        rows += [row(text, chance.choice([1, 2, 3, 8, PIECE])), row(turned(chance, text), chance.choice([1, 5, PIECE]))]
    rows.append(("# long ones, at the edges of pieces", None))
    head = b"p cnf 9 9\n"
    for n in (4076, 4080, 4082, 4083, 4084, 4085, 4086, 4087, 4088, 8170):
        rows += [large([(1, head), (n, b" "), (1, b"-12 34 0 "), (1, b"% x")]), large([(1, head), (n, b" "), (1, b"12"), (1, b"x 0")]),
                 large([(1, b"c"), (n, b"x"), (1, b"\n"), (1, head), (1, b"1 0\n")])]
    rows += [large([(1, head), (20000, b"1 -2 3 0\n")]), large([(1, head), (20000, b"1 -2 3 0\n")], 1000, (50,)), large([(1, head), (20000, b"1 -2 3 0\n")], 1),
             large([(1, head), (100000, b"0")]), large([(1, head), (100000, b"0"), (1, b"7 0")]), large([(1, head), (100000, b"9"), (1, b" 0")]),
             large([(1, head), (100000, b"1 "), (1, b"0")]), large([(1, head), (100000, b"1 ")]), large([(100000, b"c\n")]), large([(100000, b"\n"), (1, head)]),
             large([(1, b"p"), (100000, b" "), (1, b"cnf"), (100000, b" "), (1, b"1 1\n0")]), large([(100000, b"p")]), large([(1, b"c"), (100000, b"p cnf ")]),
             large([(1, head), (3000, b"1 0\r\n"), (1, b"%"), (5000, b"1 0 ")])]
    write_part("qv_qdimacs_cases", "texts in the DIMACS format", rows, "dimacs")


if __name__ == "__main__":
    main()
