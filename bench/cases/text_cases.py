#!/usr/bin/env python3
"""Writes the cases of qv_sexpr_cases and what must come of them.

A lexer and a reader of its own, by regular expressions, written from the language's description:
white space is tab, LF, CR and space; a comment goes from `;` to LF or CR; tokens are the longest.
"""
import random
import re

from rows import write_part

SYMBOL = rb"[A-Za-z~!@$%^&*_\-+=<>.?/][A-Za-z0-9~!@$%^&*_\-+=<>.?/]*"
RULES = [
    ("(", rb"\("),
    (")", rb"\)"),
    ("symbol", SYMBOL),
    ("symbol", rb"\|[^|\\]*\|"),
    ("keyword", rb":" + SYMBOL),
    ("numeral", rb"0|[1-9][0-9]*"),
    ("decimal", rb"(?:0|[1-9][0-9]*)\.[0-9]+"),
    ("hex", rb"#x[0-9A-Fa-f]+"),
    ("binary", rb"#b[01]+"),
    ("string", rb'"(?:[^"]|"")*"(?!")'),
]
RULES = [(kind, re.compile(rule, re.S)) for kind, rule in RULES]
BLANK = re.compile(rb"(?:[\t\n\r ]|;[^\n\r]*(?:[\n\r]|\Z))*")
RESERVED = b"! _ as exists forall lambda let match par".split()
FAULTS = [
    ("string", re.compile(rb'"')),
    ("quoted symbol", re.compile(rb"\|")),
    ("literal", re.compile(rb"#[bx]")),
    ("character", re.compile(rb".", re.S)),
]


LEADING_ZERO = re.compile(rb"0[0-9]")


def first(text, at=0):
    """What comes first from a place on: (kind, start, end), (fault, start) or ("end",)."""
    at = BLANK.match(text, at).end()
    if at == len(text):
        return ("end",)
    if text[at] in b"()":
        return (chr(text[at]), at, at + 1)
    if LEADING_ZERO.match(text, at):
        return ("numeral", at)
    found = [(rule.match(text, at), kind) for kind, rule in RULES]
    found = [(match.end(), kind) for match, kind in found if match]
    if found:
        end, kind = max(found)
        if text[at:end] in RESERVED:
            kind = "reserved"
        return (kind, at, end)
    for kind, rule in FAULTS:
        if rule.match(text, at):
            return (kind, at)


def tokens(text):
    """The tokens, and what ends them."""
    found, at = [], 0
    while True:
        token = first(text, at)
        if len(token) < 3:
            return found, token
        found.append(token)
        at = token[2]


PROBES = [b" ", b"\n", b"(", b"a", b"0", b"1", b".", b'"', b"|", b"\\", b"b", b"x", b":", b"#", b";", b"\0"]
PROBES = [a + b for a in PROBES for b in [b""] + PROBES]


def decided(seen, at):
    """Whether what comes first is the same whatever bytes follow."""
    rest = seen[at:]
    answer = first(rest)
    if len(answer) == 3 and answer[2] + 100 < len(rest):
        return True  # no token looks so far ahead
    return all(first(rest + probe) == answer for probe in PROBES)


class Lexer:
    """A lexer that is fed in pieces."""

    def __init__(self):
        self.seen, self.at, self.finished, self.last = b"", 0, False, None

    def feed(self, text):
        self.seen += text
        self.last = None

    def next(self):
        if not self.finished and not decided(self.seen, self.at):
            return ("more",)
        answer = first(self.seen, self.at)
        if len(answer) == 3:
            self.at = answer[2]
            self.last = answer
        return answer


def shown(text):
    return '"' + "".join(chr(b) if 32 <= b <= 126 and b != 92 else f"\\x{b:02x}" for b in text) + '"'


def show(answer):
    if len(answer) == 3:
        return f"{answer[0]} {answer[1]}-{answer[2]}"
    if len(answer) == 2:
        return f"{answer[0]} at {answer[1]}"
    return answer[0]


def write(text):
    """A text as cases write it."""
    names = {9: "\\t", 10: "\\n", 13: "\\r", 34: '\\"', 92: "\\\\"}
    parts, at = [], 0
    while at < len(text):
        run = 1
        while at + run < len(text) and text[at + run] == text[at] and run < 60000:
            run += 1
        if run > 20 and 32 < text[at] < 127 and text[at] not in (34, 92):
            parts.append(f"\\*{run}*{chr(text[at])}")
            at += run
            continue
        b = text[at]
        parts.append(names.get(b) or (chr(b) if 32 <= b < 127 else f"\\x{b:02x}"))
        at += 1
    return '"' + "".join(parts) + '"'


LINES, ANSWERS = [], []


def case(line, answer):
    LINES.append(line)
    ANSWERS.append(answer)


def note(text):
    case("", "")
    case("# " + text, "# " + text)


def tokens_case(piece, text):
    found, end = tokens(text)
    case(f"tokens {piece} {write(text)}", ", ".join(show(t) for t in found + [end]))


def texts_case(piece, text):
    lexer, out = Lexer(), []
    pieces = [text[i : i + piece] for i in range(0, len(text), piece)]

    def take():
        while True:
            answer = lexer.next()
            if len(answer) < 3:
                return answer
            out.append(f"{show(answer)} by {len(lexer.seen)} {shown(lexer.seen[answer[1]:answer[2]])}")

    for part in pieces:
        lexer.feed(part)
        take()
    lexer.finished = True
    out.append(show(take()))
    case(f"texts {piece} {write(text)}", ", ".join(out))


LIMIT = 1_000_000


class Reader:
    """Reads commands from a source that gives at most so many bytes a call and fails at some calls."""

    def __init__(self, text, piece, failing):
        self.left, self.piece, self.failing = text, min(piece, 4096), failing
        self.calls = self.faults = 0
        self.lexer, self.stopped = Lexer(), None

    def token(self):
        while True:
            answer = self.lexer.next()
            if answer != ("more",):
                return answer
            self.calls += 1
            if self.calls in self.failing:
                self.faults += 1
                return ("read fault",)
            part, self.left = self.left[: self.piece], self.left[self.piece :]
            if part:
                self.lexer.feed(part)
            else:
                self.lexer.finished = True

    def next(self):
        if self.stopped is None:
            answer = self.command()
            if isinstance(answer, list):
                return answer
            self.stopped = answer
        return self.stopped

    def command(self):
        """A list of [kind, place, text, close], or why there is none."""
        items, unclosed = [], []
        while True:
            token = self.token()
            if token == ("end",) and items:
                return ("unfinished", items[0][1])
            if len(token) < 3:
                return token
            kind, start, end = token
            text = self.lexer.seen[start:end]
            if kind == "(":
                if len(unclosed) == LIMIT:
                    return ("nesting limit", start)
                unclosed.append(len(items))
                items.append(["(", start, b"", None])
            elif not unclosed:
                return ("close" if kind == ")" else "atom", start)
            elif kind == ")":
                items[unclosed.pop()][3] = len(items)
                items.append([")", start, b"", None])
                if not unclosed:
                    return items
            else:
                items.append([kind, start, text, None])


def show_items(items, first=0):
    out, at = [], 0
    for kind, place, text, close in items:
        end = at + len(text)
        if kind == "(":
            name = f"(@{place} to {close - first}"
        elif kind == ")":
            name = f")@{place}"
        else:
            name = f"{kind}@{place} {shown(text)}"
        out.append(f"{name} {at}-{end}, ")
        at = end
    return "".join(out) + shown(b"".join(item[2] for item in items))


def commands_case(piece, failing, text, word="commands"):
    reader, out, stops = Reader(text, piece, failing), [], 0
    while stops < 2:
        answer = reader.next()
        if isinstance(answer, list):
            name = f"{len(answer)} items" if word == "counts" else f"[{show_items(answer)}]"
        else:
            name = show(answer)
            stops += 1
        out.append(f"{name} by call {reader.calls}")
    out.append(f"{len(reader.left)} left, {reader.faults} faults")
    numbers = ",".join(str(n) for n in failing) or "-"
    case(f"{word} {piece} {numbers} {write(text)}", "; ".join(out))


def copy_case(at, text):
    items = Reader(text, 4096, []).next()
    if not isinstance(items, list) or at >= len(items) or items[at][0] == ")":
        case(f"copy {at} {write(text)}", "bad case")
        return
    behind = items[at][3] + 1 if items[at][0] == "(" else at + 1
    case(f"copy {at} {write(text)}", show_items(items[at:behind], at))


def session(*steps):
    """Steps are bytes to be fed, or the words next, text, finish."""
    lexer = Lexer()
    case("new", "new")
    for step in steps:
        if isinstance(step, bytes):
            if lexer.finished:
                case(f"feed {write(step)}", "bad case")
            else:
                lexer.feed(step)
                case(f"feed {write(step)}", f"fed {len(lexer.seen)}")
        elif step == "finish":
            lexer.finished = True
            case("finish", "finished")
        elif step == "text":
            last = lexer.last
            case("text", shown(lexer.seen[last[1] : last[2]]) if last else "no token")
        else:
            case("next", show(lexer.next()))


EVERY = b'(ab |c d| let :kw 0 12 3.40 #xaF #b01 "e""f"); z\n'
SCRIPT = b"(assert (= (bvudiv #x05 #x00) #xff))(check-sat)"
PIECES = [1, 2, 3, 7, 4096]


def lexer_cases():
    note("every kind of token, in pieces of each size")
    for piece in PIECES:
        tokens_case(piece, EVERY)
        texts_case(piece, EVERY)

    note("each front of that text")
    for n in range(len(EVERY) + 1):
        tokens_case(1 if n % 2 else 4096, EVERY[:n])
    note("the same token by token, in pieces of three bytes")
    for n in range(len(EVERY) + 1):
        texts_case(3, EVERY[:n])

    note("each front of a script")
    for n in range(len(SCRIPT) + 1):
        tokens_case(7, SCRIPT[:n])

    note("tokens are the longest, and faults the first")
    rows = [
        b" \t\r\n", b"; (\ra;b\n c;", b"007", b"0 00.5", b"0.", b"1.a 2.", b"12abc", b"0.070", b"#b012",
        b"#xAfg", b"a #b2", b"#o7", b":a:", b":1", b'"a""', b'"\\\xff;\0"""(', b"|a\\|",
        b"|let|||let lets", b"; \xff\n|\xff\0|", b"a\xff", b"\0", b"~!@$%^&*_-+=<>.?/9Az", b"a'",
        b"0x1", b"00", b"0 0", b"1.5.5", b"1..5", b"0.0.", b"-1", b"+", b".", b".5", b"1e5", b"#", b"#b", b"#x",
        b"#b2", b"#xg", b"#X1", b"#B1", b"#b1#b0", b"#xff#x0", b":", b"::a", b": a", b":let", b":_", b":9", b":a9",
        b'""', b'""""', b'"""', b'"', b'"a"b', b'"a" "b"', b'"a""b""c"', b'"\n"', b'"|"', b'"(', b"||", b"|", b"|\\",
        b"|a|b", b"|a||b|", b"|\n|", b'|"|', b"|(|", b"|;|", b";", b";\n", b";;", b";\r(", b";a;b\rc", b"; \\ \" |",
        b"let", b"lets", b"LET", b"_", b"__", b"!", b"!!", b"as", b"ass", b"par", b"pa", b"match", b"forall", b"exists",
        b"lambda", b"let-", b"|as|", b"|_|", b"()", b")(", b"(((", b"))", b"(a)b(c)", b"a(b", b"a|b|c", b'a"b"c',
        b"a:b", b"a;b", b"a#b1", b"1(2", b"1|a|", b'1"a"', b"1:a", b"1;a", b"1#b1", b"1.5a", b"1.5(", b"1.5.",
        b"a\\b", b"a,b", b"a[b", b"a{b}", b"a`b", b"a'b", b"\x7f", b"\x80", b"a\x80", b"1\x80", b'"\x80"', b"|\x80|",
        b";\x80\na", b"\x0b", b"\x0c", b"a\x0bb", b"123456789012345678901234567890.098765432109876543210",
    ]
    for text in rows:
        for piece in (1, 2, 4096):
            tokens_case(piece, text)

    note("reserved words, and words beside them")
    for word in RESERVED:
        texts_case(1, word)
        texts_case(2, word + b" " + word + b"x" + b" |" + word + b"| :" + word)

    note("each byte as the first of a text, alone and before others")
    for b in range(256):
        tokens_case(1, bytes([b]))
        tokens_case(4096, bytes([b]) + b"1a ")

    note("each byte behind the front of a token, with an end behind it")
    for front in (b"a", b"0", b"1", b"1.", b"1.5", b"#b", b"#b1", b"#x", b"#xa", b":", b":a", b'"', b'"a"', b"|", b"#", b";"):
        for b in range(256):
            if b in b' \t\n\r09afgAFGxb._"|\\;:#()~!' or b % 17 == 0:
                texts_case(1, front + bytes([b]) + b" ")

    note("long tokens over the edges of pieces")
    for piece in (1, 7, 4095, 4096, 4097, 9000):
        for text in (b"a" * 4096, b"a" * 4095 + b" b", b"1" * 4097 + b".5 ", b'"' + b"x" * 8190 + b'" y',
                     b"|" + b"y" * 4094 + b"|z", b";" + b"c" * 5000 + b"\nd", b"#b" + b"1" * 4094 + b" #xf"):
            tokens_case(piece, text)

    note("random texts of bytes that matter, one piece size each")
    rng = random.Random(20)
    alphabet = b'()|"#:;bx019.a_f \n\\!let'
    for _ in range(400):
        text = bytes(rng.choice(alphabet) for _ in range(rng.randrange(1, 24)))
        texts_case(rng.choice(PIECES), text)


def session_cases():
    note("a token is given once nothing can lengthen it")
    session(b"(ab", "next", "next", "next", b" ", "next", "text", "next", "text", "finish", "next", "next", "text")
    note("a fault stays")
    session(b"; x\n 01", "next", "next", b" (", "next", "finish", "next", b"a")
    note("nothing fed, and nothing fed in a piece")
    session("next", "text", b"", "next", "finish", "next", "next")
    note("what is open at the end of a piece, for each kind of token")
    for parts in (
        [b"a", b"b", b"("], [b"0", b".", b"5", b" "], [b"0", b".", b"a"], [b"0", b"0"], [b"12", b"3", b".", b".", b" "],
        [b"#", b"b", b"1", b"0", b"2"], [b"#", b"x", b"F", b"g"], [b"#", b"c"], [b"#", b"b", b"2"], [b"#x", b" "],
        [b":", b"a", b"1", b" "], [b":", b"1"], [b'"', b"a", b'"', b'"', b'"', b" "], [b'"', b'"', b"a"],
        [b"|", b"a", b"|", b"|"], [b"|", b"a", b"\\"], [b"le", b"t", b" "], [b"let", b"s", b" "], [b";", b"a", b"\n", b"("],
        [b" ", b"\t", b";", b";\r", b")"], [b"{"], [b"(", b")", b"x", b"y|z|"],
    ):
        steps = []
        for part in parts:
            steps += [part, "next", "text", "next"]
        session(*steps, "finish", "next", "text", "next", "next")
    note("a session asks for no more once it is finished")
    session(b"a", "finish", "next", "text", "next", b"b", "next")
    note("random sessions")
    rng = random.Random(21)
    for _ in range(60):
        steps = []
        for _ in range(rng.randrange(2, 8)):
            steps.append(bytes(rng.choice(b'()|"#:;bx019.a \n') for _ in range(rng.randrange(0, 5))))
            steps += rng.choice([["next"], ["next", "text"], ["next", "next", "text"], []])
        session(*steps, "finish", "next", "text", "next")


def reader_cases():
    note("a command, and then a fault that stays")
    commands_case(4096, [], b"(check-sat) x")
    note("each fault and its place")
    for text in (b" ; nothing\n", b" )", b"|a b|", b" (a (b)", b"(a {)", b'(a "b)', b"(|a)", b"(007)", b"(#b)", b"", b"(",
                 b"(a", b"((", b"(a))", b"(a) (b", b"(a) b", b"(a) )", b"(a)(b)(c)", b"() ()", b"(())", b"a", b":k", b"5", b"let",
                 b'"s"', b"1.5", b"#b1", b"#xf", b"(let (! _) :k 5 1.5 #b1 #xf \"s\" |q|)", b"(a ;)\n b)", b"(a ;)", b";(a)\r(b)",
                 b"(|(| \")\" ;)\n)", b"(a)\xff", b"(\xff", b"(a (b (c (d) e) f) g)", b"(#)", b"(:)", b"(a :1)"):
        for piece in (1, 4096):
            commands_case(piece, [], text)
    note("byte by byte up to a close parenthesis, and no further")
    commands_case(1, [], b"(f |x y| ()) (g)")
    commands_case(1, [], b"(a)\n(bc)\n")
    note("two commands of one piece")
    commands_case(6, [], b"(a)(b) (c")
    commands_case(4096, [], b"(a)")
    note("calls that fail")
    commands_case(4, [2], b"(a)(b)(c)")
    for call in range(1, 12):
        commands_case(1, [call], b"(a)(bc) ")
        commands_case(3, [call, 12], b"(a 1.5) (|b| \"c\")")
    note("each piece size over every kind of token, and each of its fronts")
    for piece in PIECES:
        commands_case(piece, [], EVERY)
    for n in range(len(EVERY) + 1):
        commands_case(PIECES[n % 5], [], EVERY[:n])
    note("each front of a script, alone and with a call that fails")
    for n in range(len(SCRIPT) + 1):
        commands_case(PIECES[n % 5], [], SCRIPT[:n])
        commands_case(5, [n // 5 + 1], SCRIPT[:n])
    note("nesting up to the limit, and one more")
    for text in (b"(" * LIMIT + b")" * LIMIT, b"(" * (LIMIT + 1), b"(" * LIMIT + b"a" + b")" * (LIMIT - 1),
                 b"(" * LIMIT + b")(((" + b")" * 3, b"(a) (b " + b"(" * (LIMIT - 1) + b"c (", b"(" * LIMIT + b" {", b"(" * LIMIT):
        commands_case(9000, [], text, "counts")
    commands_case(4096, [3], b"(" * LIMIT + b")" * LIMIT, "counts")
    note("deep nesting, of which each level is closed before the next command")
    for depth in (3999, 4000, 4001):
        commands_case(4096, [], b"(" * depth + b")" * depth + b"(a)", "counts")
    note("long pieces: a call gives 4,096 bytes at most")
    for size in (4093, 4094, 4095, 8190, 8191):
        commands_case(9000, [], b"(" + b"a" * size + b")(b)", "counts")
    note("random texts")
    rng = random.Random(22)
    for _ in range(250):
        words = [b"(", b"(", b")", b")", b" ", b"a", b"let", b"0", b"1.5", b"#b1", b'"s"', b"|q|", b":k", b";\n", b"(a)", b"{", b"00"]
        weights = [6, 6, 6, 6, 5, 4, 2, 2, 2, 2, 2, 2, 2, 2, 4, 1, 1]
        text = b"(" + b"".join(rng.choices(words, weights, k=rng.randrange(1, 14)))
        failing = [rng.randrange(1, 9)] if rng.random() < 0.3 else []
        commands_case(rng.choice(PIECES), failing, text)
    note("an expression of a command, as one of its own")
    for text in (b"(f (g x) y)", b"(f)", b"()", b'(a (b |c| (d "e" ()) 1.5) (let #b1) z)'):
        for at in range(20):
            copy_case(at, text)
    copy_case(3, b"a")
    copy_case(2, b"((((a) bb) ccc) (dddd))")


def main():
    case("# Tokens and commands of texts. bench/cases/text_cases.py writes this file and what must come.",
         "# Tokens and commands of texts. bench/cases/text_cases.py writes this file and what must come.")
    lexer_cases()
    session_cases()
    reader_cases()
    note("lines that are no cases")
    for line in ('tokens 0 "a"', "tokens a", 'tokens 1 "a', 'tokens 1 "\\q"', "nothing", 'commands 1 x "a"', 'commands 1 "a"', 'copy "(a)"'):
        case(line, "bad case")
    write_part("qv_sexpr_cases", "tokens and commands", zip(LINES, ANSWERS))
    print(sum(1 for line in LINES if line and not line.startswith("#")), "cases")


main()
