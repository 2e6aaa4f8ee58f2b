#!/usr/bin/env python3
"""Writes the cases of qv_sexpr_cases and what must come of them, from the rules of the language:
a value of width w has the digits of `#x` where 4 divides w, and otherwise of `#b`; a symbol stands
between bars where it is no simple symbol or is reserved."""
import random
import re
from rows import write_part

SIMPLE = re.compile(r"[A-Za-z~!@$%^&*_\-+=<>.?/][A-Za-z0-9~!@$%^&*_\-+=<>.?/]*", re.A)
RESERVED = "! _ as exists forall lambda let match par".split()


def value_text(width, value):
    if width == 0:
        return "true" if value == 1 else "false"
    if width % 4 == 0:
        return "#x" + format(value % 2**width, f"0{width // 4}x")
    return "#b" + format(value % 2**width, f"0{width}b")


def sort_text(width):
    return "Bool" if width == 0 else f"(_ BitVec {width})"


def symbol_text(name):
    return name if SIMPLE.fullmatch(name) and name not in RESERVED else f"|{name}|"


def escaped(text):
    return "".join(chr(b) if 32 <= b < 127 and b != 92 else f"\\x{b:02x}" for b in text.encode())


def rows():
    chance = random.Random(12)
    yield "# values of Bool and of each width", None
    for value in 0, 1, 2, 2**128 - 1:
        yield f"value 0 {value}", value_text(0, value)
    for width in range(1, 129):
        for value in {0, 1, 2**width - 1, 2 ** (width - 1), chance.randrange(2**width)}:
            yield f"value {width} {value}", value_text(width, value)
    yield "", None
    yield "# numbers that a width is too narrow for: the last digits", None
    for width, value in (1, 2), (3, 8), (4, 16), (8, 511), (9, 2**100 + 5), (127, 2**128 - 1):
        yield f"value {width} {value}", value_text(width, value)
    yield "", None
    yield "# sorts", None
    for width in 0, 1, 2, 9, 10, 64, 99, 100, 127, 128:
        yield f"sort {width}", sort_text(width)
    for width in 129, 256, 2**64:
        yield f"sort {width}", "bad case"
    yield "", None
    yield "# symbols, and where they stand between bars", None
    names = ["x", "x.1", "?v_0", "a-b", "+", "<=", "~!@$%^&*_-+=<>.?/", "Z9", "_", "!", "letx", "let_", "Let", "as", "1a", "9", "a b", "a:", ":a"]
    names += RESERVED + [word + "!" for word in RESERVED] + ["a(b", "a;b", '"', "#b1", "a'b", "{", "caf\u00e9", "\u00e9", "a\tb"]
    for name in names:
        yield f"symbol {name}", escaped(symbol_text(name))
    yield "symbol", "||"
    for code in range(33, 127):
        if code not in (92, 124):
            yield f"symbol {chr(code)}", escaped(symbol_text(chr(code)))
            yield f"symbol a{chr(code)}", escaped(symbol_text("a" + chr(code)))
    yield "", None
    yield "# lines of models", None
    for width, value, name in (8, 42, "a"), (0, 0, "p"), (0, 1, "let"), (1, 1, "a b"), (128, 2**127, "x!0"), (6, 33, ""):
        line = f"(define-fun {symbol_text(name)} () {sort_text(width)} {value_text(width, value)})\n"
        yield f"definition {width} {value} {name}", escaped(line)
    yield "", None
    yield "# no cases", None
    for line in "value", "value 8", "value 8 x", "value 129 0", "sort", "sort x", "values 8 1":
        yield line, "bad case"


if __name__ == "__main__":
    write_part("qv_sexpr_cases", "values, sorts and symbols as text", rows(), "print")
