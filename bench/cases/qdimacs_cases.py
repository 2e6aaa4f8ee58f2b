#!/usr/bin/env python3
"""Writes the cases of qv_qdimacs_cases, and what must come of each: `qdimacs_cases.py` writes
crates/qv_qdimacs_cases/stdin and stdout. The answers are computed here from the rules, and not by the program.

The outer variables are those of the clauses that the prefix doesn't quantify, in rising order, and then those before the
first universal quantifier. They are constants by their places. Each other quantifier is one over Bool, whose level is its
place in the rest of the prefix. The body is the conjunction of the clauses, each of which is the disjunction of its literals,
and both are joined by halves, the first of which is rounded down.

Of each small file it is asked here whether the term means the same as the file, for all values of the outer variables: the
file by the meaning of quantified Boolean formulas, the term by that of its operators.

Lines, words, comments and the problem line of a text are as in `cnf_cases.py`. Behind it come parts: `a` or `e`, variables up
to 2^30, and `0`. The first other word begins the clauses. A variable that is quantified a second time is `repeated`; `a` or
`e` where a clause may begin behind another one is `quantifier`. All of the text is read before a fault of it is answered.
"""
import itertools
import random
import sys

from cnf_cases import is_numeral, literal, words_at
from rows import write_part, written


def outer_of(prefix, clauses):
    bound = {v for _, v in prefix}
    free = sorted({abs(l) for clause in clauses for l in clause} - bound)
    lead = list(itertools.takewhile(lambda q: q[0] == "e", prefix))
    return free + [v for _, v in lead], prefix[len(lead):]


def joined(operator, unit, terms):
    if not terms:
        return ("lit", unit)
    if len(terms) == 1:
        return terms[0]
    half = len(terms) // 2
    return (operator, joined(operator, unit, terms[:half]), joined(operator, unit, terms[half:]))


def formula_of(prefix, clauses):
    outer, rest = outer_of(prefix, clauses)
    leaf = {v: ("c", place) for place, v in enumerate(outer)}
    leaf.update({v: ("v", level) for level, (_, v) in enumerate(rest)})
    literal = lambda l: leaf[l] if l > 0 else ("not", leaf[-l])
    term = joined("and", 1, [joined("or", 0, [literal(l) for l in clause]) for clause in clauses])
    for level in range(len(rest) - 1, -1, -1):
        term = ("All" if rest[level][0] == "a" else "Ex", level, term)
    return term, outer


def text_of(term):
    kind = term[0]
    if kind in "cv":
        return f"{kind}{term[1]}:bool"
    if kind == "lit":
        return f"bool:{term[1]}"
    if kind in ("All", "Ex"):
        return f"{text_of(term[2])} {kind}:{term[1]}:bool"
    return " ".join(map(text_of, term[1:])) + f" {kind}"


def means(term, consts, levels):
    kind = term[0]
    if kind == "c":
        return consts[term[1]]
    if kind == "v":
        return levels[term[1]]
    if kind == "lit":
        return bool(term[1])
    if kind == "not":
        return not means(term[1], consts, levels)
    if kind in ("All", "Ex"):
        each = [means(term[2], consts, {**levels, term[1]: value}) for value in (False, True)]
        return all(each) if kind == "All" else any(each)
    each = [means(part, consts, levels) for part in term[1:]]
    return all(each) if kind == "and" else any(each)


def holds(prefix, clauses, values):
    """The meaning of a quantified formula under values of the other variables."""
    if not prefix:
        return all(any(values.get(abs(l)) == (l > 0) for l in clause) for clause in clauses)
    quant, v = prefix[0]
    each = [holds(prefix[1:], clauses, {**values, v: value}) for value in (False, True)]
    return all(each) if quant == "a" else any(each)


def compare(prefix, clauses):
    term, outer = formula_of(prefix, clauses)
    _, rest = outer_of(prefix, clauses)
    for values in itertools.product((False, True), repeat=len(outer)):
        assert means(term, values, {}) == holds(rest, clauses, dict(zip(outer, values))), (prefix, clauses, values)


def nodes_of(term, seen):
    if term not in seen:
        for part in term[1:]:
            if isinstance(part, tuple):
                nodes_of(part, seen)
        seen.add(term)
    return seen


def depth_of(term):
    return 1 + max((depth_of(part) for part in term[1:] if isinstance(part, tuple)), default=0)


def case_of(prefix, clauses):
    return " ".join(q + str(v) for q, v in prefix) + "/" + " ".join("".join(f"{l} " for l in clause) + "0" for clause in clauses)


def row(prefix, clauses):
    compare(prefix, clauses)
    term, outer = formula_of(prefix, clauses)
    return f"formula {case_of(prefix, clauses)}", text_of(term) + " :" + "".join(f" {v}" for v in outer)


def size(prefix, clauses):
    term, _ = formula_of(prefix, clauses)
    return f"size {case_of(prefix, clauses)}", f"{len(nodes_of(term, set()))} {depth_of(term)}"


def chance_file(chance):
    variables = chance.sample([1, 2, 3, 4, 5, 7, 12, 2**30], chance.randint(1, 6))
    prefix = [(chance.choice("ae"), v) for v in variables[: chance.randint(0, len(variables))]]
    literal = lambda: chance.choice(variables) * chance.choice((1, -1))
    return prefix, [[literal() for _ in range(chance.choice((0, 1, 2, 2, 3, 3, 3, 4, 5)))] for _ in range(chance.randint(0, 6))]


def said(text):
    """What a text says: a prefix and clauses, or a fault and its place."""
    lines, begin = [], 0
    for line in text.split(b"\n"):
        lines.append(words_at(line, begin))
        begin += len(line) + 1
    lines = [words for words in lines if words and not words[0][1].startswith(b"c")]
    if not lines:
        return f"unfinished {len(text)}"
    head = [word for _, word in lines[0]]
    if len(head) != 4 or head[:2] != [b"p", b"cnf"] or not all(map(is_numeral, head[2:])):
        return f"problem line {lines[0][0][0]}"
    prefix, clauses, part, clause, start, among_clauses = [], [], None, [], None, False
    for place, word in itertools.chain(*lines[1:]):
        if part:
            if word == b"0":
                part = None
            elif not word.isdigit() or literal(word) is None:
                return f"number {place}"
            elif literal(word) in (v for _, v in prefix):
                return f"repeated {place}"
            else:
                prefix.append((part, literal(word)))
            continue
        if not among_clauses and word in (b"a", b"e"):
            part, start = word.decode(), place
            continue
        start = start if among_clauses else None
        among_clauses = True
        if word == b"0":
            clauses.append(clause)
            clause, start = [], None
        elif word == b"%" and start is None:
            break
        elif literal(word) is None:
            return f"quantifier {place}" if word in (b"a", b"e") and start is None and clauses else f"number {place}"
        else:
            start = place if start is None else start
            clause.append(literal(word))
    if part or clause:
        return f"unfinished {start}"
    return "".join(f"{q}{v} " for q, v in prefix) + "/" + "".join("".join(f" {l}" for l in clause) + " 0" for clause in clauses)


def told(text, give=4096, fails=()):
    asked = ",".join(map(str, fails)) or "-"
    calls = (len(text) + give - 1) // give + 1
    return f"text {give} {asked} {written(text)}", "read fault" if any(n <= calls for n in fails) else said(text)


def chance_text(chance):
    """A text that is mostly right, with a word or a byte changed in every other one."""
    space = lambda: chance.choice(["\n", " ", "\t", "\r\n", "\nc a 1\n", " \n\n"])
    words = ["p cnf 3 3\n"]
    variables = list(range(1, 9))
    chance.shuffle(variables)
    for _ in range(chance.randint(0, 3)):
        words += [chance.choice("ae")] + [str(variables.pop()) for _ in range(chance.randint(0, 2))] + ["0"]
    for _ in range(chance.randint(0, 3)):
        words += [str(chance.randint(1, 9) * chance.choice((1, -1))) for _ in range(chance.randint(0, 3))] + ["0"]
    if chance.randint(0, 1) and len(words) > 1:
        words[chance.randrange(1, len(words))] = chance.choice(["a", "e", "0", "00", "-1", "1", "%", "x", "c", "1073741824", "1073741825", "+1", "aa"])
    return (words[0] + "".join(word + space() for word in words[1:])).encode()


def text_rows(chance):
    files = (b"p cnf 2 2\na 1 0\ne 2 0\n1 2 0\n-1 -2 0\n", b"c x\np cnf 2 1\r\ne 2 0 e 1\r\n0 a 0 3 0\n% x", b"p cnf 9 9\na 4 5 0\n")
    rows = [told(text[:n], give) for text in files for n in range(len(text) + 1) for give in ((1, 4096) if n % 5 == 0 else (4096,))]
    rows += [told(files[0], 7, (n,)) for n in range(1, 9)]
    for text in files:
        places = [(place, word) for line in [words_at(text, 0)] for place, word in line]
        for place, word in places:
            for other in (b"a", b"e", b"0", b"00", b"-1", b"1", b"2", b"1073741824", b"1073741825", b"%", b"c", b"x", b""):
                rows.append(told(text[:place] + other + text[place + len(word):]))
    heads = (b"", b"\n", b"p cnf 1 1", b"p cnf 1 1\n", b"p cnf 1 1\n0", b"p cnf 7 0\n1 0 2 0\n", b"p cnf 01 1\n1 0", b"p cnf 1\n1\n1 0",
             b"p cnf 1 1 a 1 0\n", b"p dnf 1 1\n", b"pcnf 1 1\n", b"a 1 0\np cnf 1 1\n1 0\n")
    rows += [told(text) for text in heads]
    rows += [told(b"p cnf 1 1\n" + text) for text in (
        b"e 1 0 a 1 0 1 0", b"a 1 1 0", b"a 1", b"a", b"a 0 a 0 0", b"e 7 0 0", b"0 a 1 0", b"1 0 e 2 0", b"1 a 0", b"1 0 2 e 0", b"% a",
        b"a 1 0 % e", b"a % 0", b"aa 1 0", b"a1 0", b"A 1 0", b"a 1 0\nc e 2 0\n1 0\n", b"a 1 c 2 0\n1 0", b"e 07 0 007 0", b"a -0 0")]
    return rows + [told(chance_text(chance), chance.choice((1, 3, 4096))) for _ in range(300)]


def main():
    sys.setrecursionlimit(10000)
    chance = random.Random(41)
    rows = [("# Written by bench/cases/qdimacs_cases.py.", None)]
    rows.append(("# No clauses, an empty clause, one literal, and a variable in no clause.", None))
    rows += [row(*file) for file in (
        ([], []), ([("a", 1)], []), ([("e", 1)], []), ([], [[]]), ([("a", 2), ("e", 1)], [[]]), ([], [[5]]), ([], [[-5]]),
        ([("e", 2)], [[-1]]), ([("a", 2)], [[-1]]), ([("a", 1), ("e", 2)], [[1, 2], [-1, -2]]),
        ([("e", 2), ("a", 1)], [[1, 2], [-1, -2]]), ([("a", 1), ("a", 2), ("e", 3), ("e", 4)], [[1, -3], [2, 4, -1], [-4, 3]]),
        ([("e", 3), ("e", 1), ("a", 2), ("e", 4)], [[9, 1, 2], [-7, 4], [9, -9]]), ([], [[1, 1, 1]]), ([], [[1], [1], [1]]),
        ([], [[3, 2, 1], [2**30, -1]]))]
    rows.append(("# Halves of lists up to 9 clauses, and up to 9 literals.", None))
    for n in range(2, 10):
        rows.append(row([("a", 1)], [[v % 3 + 1, -1] for v in range(n)]))
        rows.append(row([("e", 4), ("a", 2)], [[(v % 5 + 1) * (-1) ** v for v in range(n)]]))
    rows.append(("# By chance.", None))
    rows += [row(*chance_file(chance)) for _ in range(400)]
    rows.append(("# Depth grows with the number of halvings.", None))
    for n in (1, 2, 3, 100, 1000):
        rows.append(size([("a", 1), ("e", 2)], [[v, -v - 1, 2] for v in range(3, n + 3)]))
        rows.append(size([("a", 1)], [list(range(1, n + 1))]))
    rows.append(size([("ae"[v % 2], v) for v in range(1, 800)], [[1, -799]]))
    rows.append(("# Lines that are no cases.", None))
    rows += [("formula", "bad case"), ("formula 1/1 0", "bad case"), ("formula a1/0x 0", "bad case"), ("size x", "bad case"),
             ("formula a1/1073741825 0", "bad case"), ("form a1/1 0", "bad case"), ("text 0 - x", "bad case"), ("text x", "bad case")]
    rows.append(("# Texts: text GIVE FAILS TEXT, of a source that gives at most GIVE bytes a call and fails at the calls FAILS.", None))
    rows += text_rows(chance)
    write_part("qv_qdimacs_cases", "quantified formulas", rows)


if __name__ == "__main__":
    main()
