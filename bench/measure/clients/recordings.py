#!/usr/bin/env python3
"""Makes cases of what clients sent: copies of sessions, with what is known of their answers.

usage: bench/measure/clients/recordings.py FOLDER    FOLDER as bench/measure/clients.sh z3 FOLDER leaves it; writes bench/measure/clients/sent

A session becomes NAME.smt2 and NAME.said: for each check a line with its answer as z3 gave it, and the values that were asked
for behind it. Where another model has other values there (z3 is asked for one), the question is left out of the copy.
"""
import os
import re
import subprocess
import sys

HERE = os.path.dirname(os.path.abspath(__file__))
VALUE = re.compile(r" (#x[0-9a-f]+|#b[01]+|true|false)\)")
# these sessions, by their folders; of those that another holds as well, one
WANTED = [("sbv-z3", ""), ("sbv-cvc4", "levels|three-checks|assumed|greatest"), ("simple-smt", ""), ("what4", ""), ("yosys", "counter-run|lights-induction-[us]|sums-cover-[us]"), ("python", "")]


def parts_of(text):
    """The commands and what stands between them, by their parentheses."""
    found, depth, start, at = [], 0, 0, 0
    while at < len(text):
        c = text[at]
        if c == ";":
            at = text.find("\n", at) % (len(text) + 1)
        elif c in '"|':
            at = text.index(c, at + 1)
        elif c == "(":
            if depth == 0:
                found.append(text[start:at])
                start = at
            depth += 1
        elif c == ")":
            depth -= 1
            if depth == 0:
                found.append(text[start:at + 1])
                start = at + 1
        at += 1
    return found + [text[start:]]


def ask(text):
    return subprocess.run(["z3", "-in", "-smt2", "-T:10"], input=text, capture_output=True, text=True).stdout.split()


def values_of(command, answer):
    """The terms that are asked for, with what was said of each."""
    terms = [p for p in parts_of(command[command.index("(", 1) + 1:command.rindex(")", 0, -1)]) if p.strip()]
    terms = [t for p in terms for t in ([p] if p.startswith("(") else re.findall(r"\|[^|]*\||[^\s]+", p))]
    values = VALUE.findall(answer)
    return list(zip(terms, values)) if len(terms) == len(values) else None


def kept(sent, said):
    """The session's copy, and what is known of it."""
    answers = [p for p in parts_of(said)]
    answers = [w for p in answers for w in ([p] if p.startswith("(") else p.split())]
    answers = [w for w in answers if w not in ("success", "unsupported")]
    known, copy, asked = [], [], []
    for part in parts_of(sent):
        name = re.match(r"\(\s*([^\s()]*)", part)
        name = name[1] if name else ""
        if name in ("check-sat", "check-sat-assuming"):
            known.append([answers.pop(0)])
            assumed = part[part.index("(", 1) + 1:part.rindex(")", 0, -1)] if name != "check-sat" else ""
        elif name in ("get-value", "get-info", "echo", "get-unsat-core"):
            answer = answers.pop(0) if answers else ""
            if name == "get-value":
                pairs = values_of(part, answer)
                other = "(assert (not (and true " + " ".join(f"(= {t} {v})" for t, v in pairs or []) + ")))"
                extra = f"(assert (and true {assumed}))" if assumed.strip() else ""
                if not pairs or ask("".join(asked) + extra + other + "(check-sat)") != ["unsat"]:
                    continue
                known[-1] += [v for _, v in pairs]
        elif name != "set-option":
            asked.append(part)
        copy.append(part)
    return "".join(copy), known


def main():
    to = os.path.join(HERE, "sent")
    os.makedirs(to, exist_ok=True)
    for client, names in WANTED:
        folder = os.path.join(sys.argv[1], client)
        for session in sorted(os.listdir(folder)):
            if not re.search(names, session):
                continue
            sent, said = (open(os.path.join(folder, session, name), encoding="utf-8").read() for name in ("sent", "said"))
            copy, known = kept(re.sub(r"/work/[^ ;]*/bench/measure/clients/", "", sent), said)
            name = f"{client}-{session.removesuffix('-1')}"
            with open(os.path.join(to, name + ".smt2"), "w", encoding="utf-8") as file:
                file.write(copy)
            with open(os.path.join(to, name + ".said"), "w", encoding="utf-8") as file:
                file.write("".join(" ".join(line) + "\n" for line in known))
            print(name, len(copy), len(known), sum(len(line) - 1 for line in known))


main()
