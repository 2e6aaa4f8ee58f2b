#!/usr/bin/env python3
"""Times two readings of one refutation, in turn: as plain lines, clause by clause, and as a section's certificate.

    bench/measure/reading_times.py RUNS PLAIN PROGRAM FOLDER

FOLDER has what `bench/measure/refutation.py section` wrote; PLAIN is called with its clauses and steps, PROGRAM with `check`, its
script and its certificate, RUNS times each, now one first and now the other. Prints the processor seconds of the fastest
and the middle run of each, and in how many pairs PROGRAM took less.
"""
import resource, subprocess, sys


def seconds(words):
    before = resource.getrusage(resource.RUSAGE_CHILDREN)
    subprocess.run(words, stdout=subprocess.DEVNULL, check=True)
    after = resource.getrusage(resource.RUSAGE_CHILDREN)
    return after.ru_utime + after.ru_stime - before.ru_utime - before.ru_stime


def main():
    runs, plain, program, folder = int(sys.argv[1]), *sys.argv[2:]
    words = {
        "plain reading": [plain, f"{folder}/clauses", f"{folder}/steps"],
        "qbv check": [program, "check", f"{folder}/script", f"{folder}/cert"],
    }
    times = {name: [] for name in words}
    for run in range(runs):
        for name in sorted(words, reverse=run % 2 == 0):
            times[name].append(seconds(words[name]))
    for name, all_of in times.items():
        ranked = sorted(all_of)
        print(f"{name}: fastest {ranked[0]:.3f}, middle {ranked[runs // 2]:.3f} seconds of the processor")
    less = sum(own < other for own, other in zip(times["qbv check"], times["plain reading"]))
    print(f"qbv check takes less in {less} of {runs} pairs")


main()
