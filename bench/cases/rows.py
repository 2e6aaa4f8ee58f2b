"""Rows of a driver: a line of its stdin, and the line of its stdout that must come of it; and bytes as rows write them."""
import os
import re

CRATES = os.path.join(os.path.dirname(os.path.abspath(__file__)), "..", "..", "crates")
NAMED = {9: "\\t", 10: "\\n", 13: "\\r"}


def write_rows(driver, rows):
    """Writes the driver's stdin and stdout. A comment or a blank line, whose answer is None, comes as it is."""
    with open(os.path.join(CRATES, driver, "stdin"), "w") as asked, open(os.path.join(CRATES, driver, "stdout"), "w") as told:
        for line, answer in rows:
            asked.write(line + "\n")
            told.write((line if answer is None else str(answer)) + "\n")


def write_part(driver, part, rows, word=""):
    """Writes one part of the driver's stdin and stdout, which begins with the line `# -- PART` and ends where another does. The word, if
    there is one, stands in front of each case."""
    head = f"# -- {part}\n"
    cases = [(f"{word} {line}" if word and line and line[0] != "#" else line, line if answer is None else str(answer)) for line, answer in rows]
    for name, lines in zip(("stdin", "stdout"), zip(*cases)):
        path = os.path.join(CRATES, driver, name)
        with open(path) as file:
            parts = re.split(r"^(?=# -- )", file.read(), flags=re.M)
        own = head + "".join(line + "\n" for line in lines)
        if not any(other.startswith(head) for other in parts):
            parts.append(head)
        with open(path, "w") as file:
            file.write("".join(own if other.startswith(head) else other for other in parts))


def words_of(line):
    """The words between spaces, tabs and CR of a line, which may end with an LF."""
    return [word for word in re.split(rb"[ \t\r]", line[:-1] if line.endswith(b"\n") else line) if word]


def shown(data):
    """Bytes, of which those that are no printable ASCII, quotes and backslashes are escaped."""
    return "".join(NAMED.get(b, chr(b) if 32 <= b < 127 and b not in b'"\\' else f"\\x{b:02x}") for b in data)


def written(data):
    """The same, with a space at an end where an editor can't lose it."""
    text = shown(data)
    if text.startswith(" "):
        text = "\\x20" + text[1:]
    return text[:-1] + "\\x20" if text.endswith(" ") else text


def quoted(data):
    return '"' + shown(data) + '"'


def blanks(chance, least):
    """Up to three blanks by chance."""
    return bytes(chance.choice(b" \t\r") for _ in range(chance.randint(least, 3)))
