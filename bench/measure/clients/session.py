#!/usr/bin/env python3
"""Sessions by Python alone: a line for each says what came.

usage: bench/measure/clients/session.py PROGRAM WORD..    the solver and its words, which reads commands and answers each
"""
import os
import re
import subprocess
import sys


class Solver:
    def __init__(self, goal):
        os.environ["QV_GOAL"] = goal
        self.process = subprocess.Popen(sys.argv[1:], stdin=subprocess.PIPE, stdout=subprocess.PIPE, text=True, bufsize=1)
        self.say("(set-option :print-success true)")

    def say(self, command):
        """Sends a command and reads its answer, to the last parenthesis of it."""
        print(command, file=self.process.stdin, flush=True)
        answer = ""
        while not answer or answer.count("(") > answer.count(")"):
            line = self.process.stdout.readline()
            if not line:
                raise EOFError(command)
            answer += line
        return " ".join(answer.split())

    def all_of(self, *commands):
        for command in commands:
            assert self.say(command) == "success", command

    def value(self, name):
        return int(re.search(r"#x([0-9a-f]+)", self.say(f"(get-value ({name}))"))[1], 16)

    def end(self):
        self.process.stdin.close()
        return self.process.wait()


def puzzle():
    """Two digits whose sum is eight, and the product of which is twelve."""
    s = Solver("puzzle")
    s.all_of("(set-logic QF_BV)", "(declare-const a (_ BitVec 8))", "(declare-const b (_ BitVec 8))", "(assert (= (bvadd a b) #x08))",
             "(assert (= (bvmul a b) #x0c))", "(assert (bvult a b))", "(assert (bvult b #x09))")
    return f"{s.say('(check-sat)')} {s.value('a')} {s.value('b')}, status {s.end()}"


def all_values():
    """Each value once."""
    s, found = Solver("all-values"), []
    s.all_of("(declare-const x (_ BitVec 8))", "(assert (= (bvand x #x33) #x11))", "(assert (bvult (bvand x #x88) #x01))")
    while s.say("(check-sat)") == "sat":
        found.append(s.value("x"))
        s.all_of(f"(assert (distinct x #x{found[-1]:02x}))")
    return f"{sorted(found)}, status {s.end()}"


def two_words():
    """For each word there is another with a sum, which no word has with all; the first under a level."""
    s = Solver("two-words")
    s.all_of("(set-logic BV)", "(push 1)", "(assert (forall ((x (_ BitVec 8))) (exists ((y (_ BitVec 8))) (= (bvadd x y) #x5a))))")
    first = s.say("(check-sat)")
    s.all_of("(pop 1)", "(assert (exists ((y (_ BitVec 8))) (forall ((x (_ BitVec 8))) (= (bvadd x y) #x5a))))")
    return f"{first} {s.say('(check-sat)')}, status {s.end()}"


def goal(run):
    name = run.__name__.replace("_", "-")
    try:
        print(f"{name}: {run()}", flush=True)
    except (EOFError, BrokenPipeError, AssertionError) as fault:
        print(f"{name}: failed: {type(fault).__name__} {fault}", flush=True)


for each in (puzzle, all_values, two_words):
    goal(each)
