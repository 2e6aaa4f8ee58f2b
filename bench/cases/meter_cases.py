#!/usr/bin/env python3
"""Writes stdin and stdout of qv_solve_cases. Answers come from the reference below, which follows the definitions of records.

    meter_cases.py
"""
from rows import write_part

ROWS = []
GREATEST = (2**60 - 1, 2**60 - 1, 2**30)


def note(*texts):
    for text in ("",) * bool(ROWS) + tuple("# " + text for text in texts):
        ROWS.append((text, text))


class Record:
    """What was charged for a problem with one block, whose lanes are the final list and two queries behind the block."""

    def __init__(self, limits):
        self.limits, self.conflicts, self.instances, self.over, self.tallies = limits, 0, 0, False, [0, 0, 0]

    def conflict(self, lane):
        if self.conflicts == self.limits[0]:
            return "spent, "
        self.conflicts += 1
        self.tallies[lane] += 1
        return "charged, "

    def instance(self):
        if self.instances == self.limits[1]:
            return "spent, "
        self.instances += 1
        return "charged, "

    def __str__(self):
        word = "over" if self.over else "to"
        tallies = "given up" if self.tallies is None else "tallies " + " ".join(map(str, self.tallies))
        return (f"conflicts {self.conflicts} of {self.limits[0]}, instances {self.instances} of {self.limits[1]}, "
                f"variables {word} {self.limits[2]}, {tallies}")


def answered(call, limits):
    record = Record(limits)
    if call == "start":
        return f"started, {record}"
    if call == "variables":
        # a list of two variables
        record.over = limits[2] < 2
        return ("spent, " if record.over else "") + str(record)
    if call == "instances":
        charges = [record.instance() for _ in range(2)]
        return "".join(charges) + str(record)
    # the universal player's query behind the block comes last of the lanes
    charges = [record.conflict(2) for _ in range(2)]
    if call == "conflicts":
        return "".join(charges) + str(record)
    record.tallies = None
    return "".join(charges) + f"started, {record} | {Record(limits)}"


def case(call, limits):
    good = all(1 <= limit <= most for limit, most in zip(limits, GREATEST))
    ROWS.append((" ".join(map(str, (call,) + tuple(limits))), answered(call, limits) if good else "bad case"))


def main():
    note("Each line but comments and empty lines is a case, answered by the same line of stdout. bench/cases/meter_cases.py writes both.",
         "start          a record",
         "conflicts      two conflicts of the universal player's last query",
         "instances      an entry, and the line of its tree",
         "variables      a list that takes two variables",
         "settle         two conflicts; then the problem is given up, and another record begins",
         "each with the limits of conflicts, instances and variables; what the records count follows, the oldest first")
    note("Limits of 1, 2 and 3: each is spent by what it counts, and by nothing else.")
    for call in ("start", "conflicts", "instances", "variables", "settle"):
        for conflicts in (1, 2, 3):
            for instances in (1, 2, 3):
                for variables in (1, 2, 3):
                    case(call, (conflicts, instances, variables))
    note("The greatest limits, and more.")
    for call in ("start", "conflicts", "instances", "variables", "settle"):
        case(call, GREATEST)
        for place in range(3):
            for limit in (0, GREATEST[place] + 1):
                case(call, GREATEST[:place] + (limit,) + GREATEST[place + 1:])
    note("No calls.")
    for line in ("", "lane 1 1 1", "start", "start 1 1", "start 1 1 1 1", "start x 1 1", "start 1 1 4294967296"):
        if line:
            ROWS.append((line, "bad case"))
    write_part("qv_solve_cases", "calls of a meter", ROWS, "meter")


if __name__ == "__main__":
    main()
