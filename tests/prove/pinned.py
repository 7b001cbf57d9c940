#!/usr/bin/env python3
"""pinned.py PROGRAM: prints the two tables below anew, as PROGRAM answers. They hold what no clause says of `best` and
`prove`: how far a search gets within a limit. A change of the search changes LEAST. Print it again, and read why."""
import os
import re
import sys

HERE = os.path.dirname(os.path.abspath(__file__))
TESTS = os.path.dirname(HERE)
ROOT = os.path.dirname(TESTS)
sys.path[:0] = [TESTS]

import shims
import trials

# a command, the least limit of positions (with --moves, of states) that decides it, how its report begins there, and
# what the report says one below, beside the limit
LEAST = [
    ("best bench/dense.xsb 60", 501, "optimal 27 pushes,", "at least 25 pushes"),
    ("best bench/dense.xsb 17", 538, "optimal 29 pushes,", "at least 29 pushes"),
    ("best bench/dense.xsb 25", 36_362, "optimal 48 pushes,", "at least 48 pushes"),
    ("best tests/prove/alcove.xsb 1", 4_900, "optimal 49 pushes,", "at least 49 pushes"),
    ("best bench/dense.xsb 44 --max-pushes 28", 6_346, "none within 28 pushes", "at least 28 pushes"),
    ("best bench/dense.xsb 41 --max-pushes 31", 11_687, "none within 31 pushes", "at least 31 pushes"),
    ("best bench/harder.xsb 5 --moves", 6_936, "optimal 30 pushes, optimal 95 moves", "optimal 30 pushes"),
    ("best bench/doors.xsb 24 --moves", 210_240, "optimal 56 pushes, optimal 124 moves", "optimal 56 pushes"),
]

# for each set of bench/ and each limit, of the rooms with even numbers: how many `best` decides, the sum of its pushes
# and bounds, and how many of those that four divides it decides with --moves. A search may do worse by PERCENT
FLOORS = {
    ("harder", 5_000): (30, 551, 8),
    ("harder", 20_000): (30, 551, 10),
    ("doors", 5_000): (26, 823, 1),
    ("doors", 20_000): (28, 825, 3),
    ("dense", 5_000): (24, 996, 0),
    ("dense", 20_000): (30, 1004, 0),
}
PERCENT = 10
# rooms and limits at which `best` finds a solution beside its bound
FOUND = [("best bench/dense.xsb 2", 10_000), ("best bench/dense.xsb 26", 10_000), ("best bench/dense.xsb 49", 400)]
SETS = ("harder", "doors", "dense")
LIMITS = (5_000, 20_000)


def first_line(program, command, limit):
    """The first line of the report of a command on files of the repository."""
    status, out, err = shims.ran([program, *command.split(), "--limit", str(limit)], cwd=ROOT)
    return out.decode().partition("\n")[0] if status in (0, 1, 4) and not err else f"status {status}, {err}"


def least(program, command, limit, report, below):
    """The results of a command at the least limit that decides it, and at one less."""
    at, before = first_line(program, command, limit), first_line(program, command, limit - 1)
    yield f"{command}, limit {limit}", None if at.startswith(report) and "limit" not in at else at
    is_open = f"limit {limit - 1} reached" in before and below in before
    yield f"{command}, limit {limit - 1}", None if is_open else before


def rooms_of(name):
    """The even numbers of the rooms of a set."""
    with open(os.path.join(ROOT, "bench", f"{name}.lurd"), encoding="ascii") as file:
        return range(2, 1 + len(file.read().split()), 2)


def counted(program, name, limit):
    """What FLOORS has of a set within a limit."""
    decided = total = fewest = 0
    for number in rooms_of(name):
        moves = "" if number % 4 else " --moves"
        line = first_line(program, f"best bench/{name}.xsb {number}{moves}", limit)
        decided += line.startswith("optimal ")
        total += int((re.search(r"at least (\d+)", line) or re.search(r"(\d+) pushes", line))[1])
        fewest += ", optimal " in line
    return decided, total, fewest


def floors(program, name, limit):
    """Whether the search of a set gets as far as before, or nearly."""
    wanted = FLOORS[name, limit]
    kinds = ("decided", "pushes and bounds", "decided with --moves")
    for kind, got, before in zip(kinds, counted(program, name, limit), wanted):
        is_far = 100 * got >= (100 - PERCENT) * before
        yield f"bench/{name}.xsb, limit {limit}: {kind}", None if is_far else f"{got}, and {before} before"


def found(program, command, limit):
    """Whether a command finds a solution at a limit."""
    line = first_line(program, command, limit)
    yield f"{command}, limit {limit}", None if line.startswith("found ") else line


def parts(program):
    """The tests of this page."""
    rows = [(least, LEAST), (floors, FLOORS), (found, FOUND)]
    return [(part, (program, *row)) for part, table in rows for row in table]


def found_least(program, command, first):
    """The least limit that decides a command. The search for it begins at `first`."""
    low, high = 0, first
    while "limit" in first_line(program, command, high):
        low, high = high, 2 * high
    while high - low > 1:
        middle = (low + high) // 2
        low, high = (middle, high) if "limit" in first_line(program, command, middle) else (low, middle)
    return high


def main():
    program = os.path.abspath(sys.argv[1])
    print("LEAST = [")
    for command, before, *_ in LEAST:
        limit = found_least(program, command, before)
        at, below = first_line(program, command, limit), first_line(program, command, limit - 1)
        report = at if at.endswith("pushes") or ", optimal " in at else at.partition(",")[0] + ","
        bound = re.search(r"at least \d+ pushes|^optimal \d+ pushes", below)[0]
        print(f'    ("{command}", {limit:_}, "{report}", "{bound}"),')
    print("]\nFLOORS = {")
    for name in SETS:
        for limit in LIMITS:
            print(f'    ("{name}", {limit:_}): {counted(program, name, limit)},')
    print("}")


if __name__ == "__main__":
    main()
