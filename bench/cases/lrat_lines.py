"""The grammar of LRAT lines: `ID LITERALS 0 HINTS 0` and `ID d IDS 0`, as bench/line_cases.py says it."""
import re

from rows import words_of

GREATEST_ID = 2**62 - 1
GREATEST_VARIABLE = 2**30


# ---- the grammar

def number(word, least, most, sign):
    """The number that a word writes, or None."""
    if not re.fullmatch(rb"-?[0-9]+" if sign else rb"[0-9]+", word):
        return None
    value = int(word)
    return value if least <= abs(value) <= most else None


def identifier(word):
    return number(word, 1, GREATEST_ID, False)


def literal(word):
    return number(word, 1, GREATEST_VARIABLE, True)


def hint(word):
    return number(word, 1, GREATEST_ID, True)


def to_zero(words, read):
    """The numbers up to the word 0 and the words behind it, or None."""
    if b"0" not in words:
        return None
    end = words.index(b"0")
    numbers = [read(word) for word in words[:end]]
    return None if None in numbers else (numbers, words[end + 1:])


def step(text):
    """The step of a line, or None."""
    words = words_of(text)
    if len(words) < 2 or identifier(words[0]) is None:
        return None
    if words[1] == b"d":
        ids = to_zero(words[2:], identifier)
        return None if ids is None or ids[1] else ("delete", identifier(words[0]), ids[0])
    lits = to_zero(words[1:], literal)
    hints = None if lits is None else to_zero(lits[1], hint)
    return None if hints is None or hints[1] else ("add", identifier(words[0]), lits[0], hints[0])
