#!/usr/bin/env python3
"""Writes the cases of qv_shell_cases and what must come of them, from the rules of the command line:
the first word names a command, and the rest is read as clap reads it; or it asks for help or the
version, whatever stands behind it; or, where it doesn't begin with `-`, it is a script that is solved
without a certificate: the words are those of `solve` with it and `-` in front. A word that begins with `--`
and goes on is an option, with its value behind `=` or in the next word; `-` and more is an unknown
flag; `--` ends the options; other words go to the places in order. A place that is left empty, a
word too many, an unknown option, an option twice and an option without a value are refused; flags take none.
Numbers are decimal digits with a value in their range. `qsolve` has the options of `solve` without `--check`
and `--verbose`, commands that check have `--places`, and the third file of `trim` isn't `-`."""
import random
from rows import write_part

BUDGETS = {"conflicts": (1000000, 2**60 - 1), "instances": (10000, 2**60 - 1), "variables": (4000000, 2**30)}
LIMITS = {**BUDGETS, "places": (4096, 1000000)}
FLAGS = {"solve": ["check", "verbose", "stats"], "qsolve": ["stats"]}
PLACES = {"solve": 2, "check": 2, "lrat": 2, "trim": 3, "clauses": 2, "qsolve": 2, "qcheck": 2, "gen": 1, "bench": 1}
OPTIONS = {"solve": list(LIMITS), "qsolve": list(LIMITS), "check": ["places"], "trim": ["places"], "clauses": ["places"], "qcheck": ["places"]}
GREATEST = {"gen": 100000, "bench": 1000}


class Refused(Exception):
    pass


def read(words, places, names, flags):
    """The words of the places, and the values of the options; a flag's is empty."""
    found, values, waiting, ended = [], {}, None, False
    for word in words:
        is_long = not ended and word.startswith("--")
        if is_long and word != "--":
            name, is_given, value = word[2:].partition("=")
            if waiting or name not in names + flags or name in values or is_given and name in flags:
                raise Refused
            if is_given or name in flags:
                values[name] = value
            else:
                waiting = name
        elif is_long:
            ended = True
        elif not ended and word.startswith("-") and word != "-":
            raise Refused
        elif waiting and not ended:
            values[waiting], waiting = word, None
        elif len(found) == places:
            raise Refused
        else:
            found.append(word)
    if waiting or len(found) < places:
        raise Refused
    return found, values


def number(word, least, most):
    if not word or any(letter not in "0123456789" for letter in word) or not least <= int(word) <= most:
        raise Refused
    return str(int(word))


def called(words):
    if not words:
        raise Refused
    name = words[0]
    if name in ("-h", "--help", "help"):
        return ["help"]
    if name == "--version":
        return ["version"]
    if name not in PLACES and not name.startswith("-"):
        return called(["solve", name, "-", *words[1:]])
    if name not in PLACES:
        raise Refused
    found, values = read(list(words[1:]), PLACES[name], OPTIONS.get(name, []), FLAGS.get(name, []))
    if name in GREATEST:
        return [name, number(found[0], 0, GREATEST[name])]
    if name == "trim" and found[2] == "-":
        raise Refused
    limits = [number(values.get(option, str(LIMITS[option][0])), 1, LIMITS[option][1]) for option in OPTIONS.get(name, [])]
    return [name] + found + limits + [flag for flag in FLAGS.get(name, []) if flag in values]


def answer(words):
    try:
        return "|".join(called(words))
    except Refused:
        return "refused"


def row(*words):
    return "words " + "|".join(words), answer(words)


def random_words(chance):
    """Words by chance, most of them near a call."""
    words = [chance.choice(["solve", "solve", "solve", "check", "gen", "bench"])]
    for _ in range(chance.randint(1, 6)):
        option = "--" + chance.choice(list(BUDGETS))
        value = chance.choice(["1", "7", "0", "1000", "1001", "007"])
        words += chance.choice([[option, value], [option + "=" + value], [option], ["a"], ["b"], ["-"], ["--"], [value], ["-x"], [""]])
    return words


def rows():
    yield "# the commands", None
    yield "none", "refused"
    for command in "solve", "check", "lrat", "trim", "qsolve", "qcheck", "gen", "bench", "", "Solve", "Trim", "trims", "QSolve", "qsolv", "Qcheck", "q", "Lrat", "lrats", "clauses", "Clauses", "clause", "SOLVE", "solv", "solved", "help", "--help", "-h", "--version", "--", "-", "run":
        yield row(command)
        yield row(command, "a", "b")
        yield row(command, "5")
        yield row(command, "a", "b", "c")
    yield "", None
    yield "# a script alone, help and the version", None
    for words in ("a.smt2",), ("a.smt2", "-"), ("a.smt2", "b"), ("a.smt2", "--"), ("a.smt2", "--", "b"), ("a.smt2", "--variables", "3"), ("a.smt2", "--variables=3", "--conflicts", "1"), ("a.smt2", "--variables"), ("a.smt2", "--variables", "0"), ("a.smt2", "--help"), ("a.smt2", "-h"), ("a.smt2", "help"), ("a.smt2", "--version"), ("a.smt2", "solve"), ("./solve",), ("./-",), (" solve",), ("solve ",), ("prove", "a", "b"), ("caf\u00e9",), (" ",), ("--conflicts", "5", "a"), ("--conflicts=5", "a"), ("-V",), ("--Help",), ("--help=1",), ("-help",), ("--helpa",), ("HELP",), ("Help", "a"), ("--h",), ("-v",), ("--version=1",), ("version",), ("-version",), ("help", "solve"), ("--help", "--nothing"), ("-h", "-h"), ("--help", "--version"), ("--version", "--help"), ("--version", "-x", "a", "b"), ("-h", ""), ("--", "a"), ("--", "--help"):
        yield row(*words)
    yield "", None
    yield "# words that stand at their places", None
    for command in "solve", "check", "lrat", "clauses", "qsolve", "qcheck":
        for words in ("-", "-"), ("a", "-"), ("", ""), ("", "b"), ("a b", " "), ("a=b", "="), ("help", "help"), ("a", "b", "c"), ("a",), ("caf\u00e9", "\u00df"), ("5", "solve"):
            yield row(command, *words)
    for words in ("-", "a", "b"), ("a", "-", "b"), ("-", "-", "b"), ("a", "b", "-"), ("-", "b", "-"), ("a", "b", "./-"), ("", "", ""), ("a", "a", "a"), ("a", "b", " -"), ("a", "b", "--"), ("--", "a", "b", "-"), ("a", "b", "--", "-"), ("--", "-a", "--", "-b"), ("a", "b"), ("a",), ("a", "b", "c", "d"), ("caf\u00e9", "\u00df", "trim"):
        yield row("trim", *words)
    yield "", None
    yield "# flags that are not there", None
    for flag in "-h", "--help", "-V", "--version", "-x", "-5", "-1.5", "-a=b", "--x", "--x=1", "--=", "--=1", "---", "---conflicts", "-conflicts", "-c", "--conflict", "--conflictss", "--Conflicts", "--SCRIPT", "--SCRIPT=a":
        yield row("solve", "a", "b", flag)
        yield row("solve", flag, "a", "b")
        yield row("check", flag, "b")
        yield row("lrat", flag, "b")
        yield row("trim", "a", "b", flag)
        yield row("trim", "a", flag, "b", "c")
        yield row("clauses", "a", "b", flag)
        yield row("qsolve", "a", "b", flag)
        yield row("qcheck", "a", "b", flag)
        yield row("gen", flag)
    yield "", None
    yield "# options have their values behind `=` or in the next word, and stand anywhere", None
    for name, (default, most) in BUDGETS.items():
        for value in "1", "0", "2", "01", "0" * 50 + "9", "0" * 50, str(default), str(most), str(most + 1), str(2**64 - 1), str(2**64), str(2**64 + 1), "9" * 60, "", "+1", "-1", "-", "--", "1 ", " 1", "1.0", "1e3", "1_000", "0x10", "a", "\u0663", "=1":
            yield row("solve", "a", "b", "--" + name + "=" + value)
            yield row("solve", "a", "b", "--" + name, value)
            yield row("qsolve", "a", "b", "--" + name, value)
        yield row("solve", "--" + name, "5", "a", "b")
        yield row("solve", "a", "--" + name, "5", "b")
        yield row("solve", "a", "--" + name + "=5", "b")
        yield row("solve", "a", "b", "--" + name)
        yield row("solve", "a", "--" + name, "b")
        yield row("check", "a", "b", "--" + name, "5")
        yield row("lrat", "a", "b", "--" + name, "5")
        yield row("check", "a", "b", "--" + name + "=5")
        yield row("qcheck", "a", "b", "--" + name, "5")
        yield row("trim", "a", "b", "c", "--" + name, "5")
        yield row("clauses", "a", "b", "--" + name, "5")
        yield row("qsolve", "--" + name + "=5", "a", "b")
        yield row("qsolve", "a", "b", "--" + name, "5", "--" + name, "5")
        yield row("gen", "5", "--" + name, "5")
    for value in "1", "0", "2", "01", "0" * 50 + "9", "4095", "4096", "4097", "999999", "1000000", "1000001", str(2**64 - 1), str(2**64), str(2**64 + 1), "", "+1", "-1", "-", "--", "1 ", "1e3", "1_000", "a", "=1":
        yield row("solve", "a", "b", "--places", value)
        yield row("check", "a", "b", "--places", value)
        yield row("check", "a", "b", "--places=" + value)
        yield row("trim", "a", "b", "c", "--places", value)
        yield row("clauses", "a", "b", "--places", value)
        yield row("qsolve", "a", "b", "--places", value)
        yield row("qcheck", "a", "b", "--places=" + value)
    for words in ("--places", "7", "a", "b"), ("a", "--places", "7", "b"), ("a", "b", "--places"), ("a", "--places", "b"), ("a", "b", "--places", "7", "--places", "7"), ("a", "--places=7", "b", "--places=8"), ("a", "b", "--place", "7"), ("a", "b", "--Places", "7"), ("a", "b", "-places", "7"), ("--", "a", "--places"), ("a", "b", "--", "--places", "7"), ("--places=7", "--", "a", "b"), ("a", "b", "--places", "7", "--instances", "3"):
        for command in "solve", "check", "clauses", "qsolve", "qcheck":
            yield row(command, *words)
    yield row("trim", "a", "--places", "7", "b", "c")
    yield row("trim", "a", "b", "-", "--places", "7")
    yield row("trim", "a", "b", "c", "--places", "0", "d")
    yield row("lrat", "a", "b", "--places", "7")
    yield row("lrat", "a", "--places=7", "b")
    yield row("gen", "5", "--places", "7")
    yield row("bench", "--places=7", "5")
    yield row("a", "--places", "7")
    yield row("a", "--places", "7", "--stats", "--variables=9")
    yield row("--places", "7", "a")
    yield row("solve", "a", "b", "--conflicts", "1", "--instances", "2", "--variables", "3", "--places", "4")
    yield row("solve", "a", "b", "--conflicts", "1", "--instances", "2", "--variables", "3")
    yield row("solve", "--variables=3", "a", "--conflicts", "1", "b", "--instances=2")
    yield row("solve", "--instances", "2", "--variables", "3", "--conflicts", "1", "a", "b")
    yield row("qsolve", "a", "b", "--variables", "3", "--conflicts", "1", "--instances", "2")
    yield row("solve", "a", "b", "--conflicts", "--instances", "2")
    yield row("solve", "a", "b", "--conflicts", "1", "2")
    yield row("solve", "a", "--conflicts", "1", "2")
    yield "", None
    yield "# an option stands once", None
    yield row("solve", "a", "b", "--conflicts", "1", "--conflicts", "1")
    yield row("solve", "a", "b", "--conflicts=1", "--conflicts=2")
    yield row("solve", "--instances=1", "a", "b", "--instances", "1")
    yield row("solve", "a", "b", "--variables=1", "--conflicts=1", "--variables=1")
    yield "", None
    yield "# flags have no value, and stand anywhere, once", None
    for words in ("a", "b", "--stats"), ("--stats", "a", "b"), ("a", "--stats", "b"), ("a", "b", "--stats", "--conflicts", "5"), ("a", "b", "--conflicts=5", "--stats"), ("a", "b", "--conflicts", "--stats"), ("a", "b", "--conflicts", "--stats", "5"), ("a", "b", "--stats=true"), ("a", "b", "--stats=false"), ("a", "b", "--stats="), ("a", "b", "--stats", "true"), ("a", "--stats"), ("a", "b", "--stats", "--stats"), ("--stats", "a", "b", "--stats"), ("a", "b", "--stat"), ("a", "b", "--Stats"), ("a", "b", "--statss"), ("a", "b", "-stats"), ("a", "--", "b", "--stats"), ("a", "b", "--stats", "--"), ("--", "a", "--stats"), ("--stats", "--", "a", "b"):
        yield row("solve", *words)
        yield row("qsolve", *words)
    for words in ("--stats",), ("-", "--stats"), ("--stats", "--variables", "3"), ("--stats", "b"), ("--stats", "--stats"), ("--stats=1",), ("--", "--stats"):
        yield row("a.smt2", *words)
    for flag in "--check", "--verbose":
        for words in ("a", "b", flag), (flag, "a", "b", "--stats"), ("a", "--stats", "b", flag), ("a", "b", flag + "=true"), ("a", "b", flag, flag), ("check", "b", flag), ("a", flag, "check"), ("a", "b", flag + "s"), ("a", flag), ("a", "--", "b", flag), ("--", "a", flag), ("a", "b", "--places", "3", flag):
            yield row("solve", *words)
            yield row("qsolve", *words)
        yield row("a.smt2", flag)
        yield row(flag, "a.smt2")
        yield row("check", "a", "b", flag)
        yield row("qcheck", "a", "b", flag)
        yield row("trim", "a", "b", "c", flag)
        yield row("clauses", "a", "b", flag)
        yield row("gen", "5", flag)
        yield row("bench", flag, "5")
    yield row("solve", "a", "b", "--check", "--verbose", "--stats")
    yield row("solve", "--stats", "--verbose", "a", "--check", "b")
    yield row("a", "--verbose", "--check")
    yield row("--stats", "a.smt2")
    yield row("check", "a", "b", "--stats")
    yield row("qcheck", "a", "b", "--stats")
    yield row("trim", "a", "b", "c", "--stats")
    yield row("clauses", "a", "b", "--stats")
    yield row("gen", "5", "--stats")
    yield row("bench", "--stats", "5")
    yield "", None
    yield "# behind `--` each word is one for a place", None
    for words in ("--", "a", "b"), ("a", "--", "b"), ("a", "b", "--"), ("--", "-x", "--y"), ("--", "--", "--"), ("a", "--", "--"), ("a", "b", "--", "c"), ("a", "b", "--", "--"), ("--", "a"), ("--",):
        yield row("solve", *words)
        yield row("check", *words)
        yield row("lrat", *words)
        yield row("clauses", *words)
        yield row("qsolve", *words)
        yield row("qcheck", *words)
    yield row("solve", "--", "--conflicts", "5")
    yield row("solve", "a", "b", "--", "--conflicts", "5")
    yield row("solve", "--conflicts", "5", "--", "a", "b")
    yield row("solve", "a", "b", "--conflicts", "--", "5")
    yield row("solve", "a", "--conflicts", "--", "b")
    yield row("gen", "--", "5")
    yield row("gen", "--", "-5")
    yield row("bench", "5", "--")
    yield "", None
    yield "# numbers of gen and bench", None
    for command, most in GREATEST.items():
        for value in "0", "00", "1", "010", "0" * 40 + "7", str(most - 1), str(most), str(most + 1), str(10 * most), str(2**64), str(2**64 + 5), "", "+5", "-5", "-", "5 ", " 5", "5a", "a5", "1e2", "1.0", "0x5", "5,0", "\u0665", "=5":
            yield row(command, value)
        yield row(command, "5", "6")
    yield "", None
    yield "# by chance", None
    chance = random.Random(41)
    for _ in range(150):
        yield row(*random_words(chance))
    for _ in range(50):
        yield row(*["a"] + random_words(chance)[1:])
    for _ in range(60):
        yield row(*[chance.choice(["trim", "qsolve", "qsolve", "qcheck"])] + random_words(chance)[1:])


if __name__ == "__main__":
    write_part("qv_shell_cases", "command lines", rows(), "call")
