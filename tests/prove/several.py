"""What `--progress` and `--seconds` do, and the limit and the solution that each of several levels gets."""
import os
import re
import subprocess
import time

import shims
import trials

HERE = os.path.dirname(os.path.abspath(__file__))
BENCH = os.path.join(os.path.dirname(os.path.dirname(HERE)), "bench")
PROGRESS = re.compile(rb"level (\d+)( of \d+)?: at least (\d+) pushes(, given \d+)?, "
                      rb"(\d+) of (\d+) positions, (\d+) s\n")
NEAR = re.compile(rb"near the solution: \d+ pushes, \d+ moves\n")
BOUND = re.compile(rb"limit (\d+) reached, at least (\d+) pushes")

# the levels of bench/dense.xsb whose progress is compared, and the limit: some of them are open there
FIRST, LAST, LIMIT = 5, 7, 3_000
# a level that no search decides in this many seconds, its limit of positions, and the pushes of its solution
SECONDS, GREAT_LIMIT, PUSHES = 3, 1_000_000_000, 83
# how many levels a long folder has, and the one of each seven that has no solution
LEVELS, MISSING = 105, 3
# a level of bench/dense.xsb, the least limit that decides it for each command, where `prove` gets a solution with two
# more pushes than the fewest, and how many copies of it are searched
COPIED, COPIES = 60, 12
LEAST = {"best": 501, "prove": 501}


class Room:
    """A folder with a collection and solutions of its levels."""

    def __init__(self, program, folder, collection, solutions):
        self.program, self.folder = program, folder
        os.mkdir(os.path.join(folder, "solutions"))
        for name, data in [("levels.xsb", collection), *((f"solutions/{n}.lurd", it) for n, it in solutions.items())]:
            with open(os.path.join(folder, name), "wb") as file:
                file.write(data)

    def run(self, command, *options, level=None):
        """The result of `best` or `prove` on the collection, or on a level."""
        words = [self.program, command, "levels.xsb", *([] if level is None else [str(level)])]
        if command == "prove":
            words += ["--solutions", "solutions"] if level is None else [f"solutions/{level}.lurd"]
        return shims.ran([*words, *map(str, options)], cwd=self.folder)


def bound_of(report, limit):
    """The bound that a report proves of the pushes of all solutions, and whether the search ended at its limit."""
    stopped, decided = BOUND.search(report), re.search(rb"(?:^|, )optimal (\d+) pushes", report)
    if stopped and int(stopped[1]) == limit:
        return int(stopped[2]), True
    return (int(decided[1]), False) if decided else (None, False)


def line_fault(room, command, number, bound, found):
    """What is wrong with a line of progress: it lies between the reports at this number of positions and at one less.
    With one less the search has ended, or this line was its last."""
    before, is_open = bound_of(room.run(command, "--limit", found - 1, level=number)[1], found - 1)
    after, _ = bound_of(room.run(command, "--limit", found, level=number)[1], found)
    is_right = before is not None and after is not None and bound <= after
    is_right = is_right and (before <= bound if is_open else before == bound)
    return None if is_right else f"at least {before} with {found - 1} positions, {after} with {found}"


def told_fault(err, seconds, heads):
    """What is wrong with lines of progress, printed within some seconds: at most one a second, each of a level with the
    right last level, given pushes and limit, and for each level bounds and times that rise."""
    lines, count = PROGRESS.findall(err), len(PROGRESS.findall(err)) + len(NEAR.findall(err))
    is_right = NEAR.sub(b"", PROGRESS.sub(b"", err)) == b"" and count <= seconds + 1
    is_right &= all((last, given, int(most)) == heads.get(int(number)) for number, last, _, given, _, most, _ in lines)
    told = [tuple(map(int, (number, bound, found, time))) for number, _, bound, _, found, _, time in lines]
    is_right &= all(a <= b for one, two in zip(told, told[1:]) if one[0] == two[0] for a, b in zip(one, two))
    return None if is_right and [it[0] for it in told] == sorted(it[0] for it in told) else f"{err!r}"


def progress(program, folder, collection, solutions):
    """Levels in a range, and those of a folder, with `--progress`: the report does not depend on it, also if no line
    can be written, nor on so many seconds that no search needs them."""
    room = Room(program, folder, collection, solutions)
    for command in ("best", "prove"):
        options = ["--from", FIRST, "--to", LAST, "--limit", LIMIT]
        begun, silent = time.monotonic(), room.run(command, *options)
        status, out, err = room.run(command, *options, "--progress")
        seconds = time.monotonic() - begun
        yield f"{command}, report", trials.differs((status, out), silent[:2])
        given = {n: b", given %d" % sum(map(str.isupper, it.decode())) for n, it in solutions.items()}
        numbers = range(FIRST, LAST + 1)
        heads = {n: (b" of %d" % LAST, given[n] if command == "prove" else b"", LIMIT) for n in numbers}
        yield f"{command}, lines", told_fault(err, seconds, heads)
        with open("/dev/full", "wb") as full:
            words = [program, command, "levels.xsb", *(["--solutions", "solutions"] if command == "prove" else [])]
            done = subprocess.run([*words, *map(str, options), "--progress"], cwd=folder, stdout=subprocess.PIPE,
                                  stderr=full)
        yield f"{command}, no line", trials.differs((done.returncode, done.stdout), silent[:2])
        yield f"{command}, ample time", trials.differs(room.run(command, *options, "--seconds", 1_000_000), silent)


def timed(program, folder, level, solution):
    """A level that takes far longer, with `--seconds` and `--progress`: the search ends at the limit of seconds with a
    right bound. The lines on standard error begin, and the first agrees with the reports at lesser limits."""
    room = Room(program, folder, level, {1: solution})
    for command in ("best", "prove"):
        begun = time.monotonic()
        status, out, err = room.run(command, "--seconds", SECONDS, "--limit", GREAT_LIMIT, "--progress", level=1)
        told = re.search(rb"limit %d seconds reached, at least (\d+) pushes" % SECONDS, out)
        is_right = told is not None and 0 < int(told[1]) < PUSHES and status == (1 if out.startswith(b"not") else 4)
        yield f"{command}, report", None if is_right else f"{status}, {out!r}"
        given = b", given %d" % PUSHES if command == "prove" else b""
        yield f"{command}, lines", told_fault(err, time.monotonic() - begun, {1: (b"", given, GREAT_LIMIT)})
        lines = PROGRESS.findall(err)
        first = lines and line_fault(room, command, 1, int(lines[0][2]), int(lines[0][4]))
        yield f"{command}, first line", first if lines else "none"
    table = room.run("best", "--seconds", SECONDS, "--limit", GREAT_LIMIT, "--table")
    cells = table[1].split(b"\n")[1].split(b"\t")
    yield "table", None if table[0] == 4 and cells[10] == b"%d s" % SECONDS else f"{table}"


def long_folder(program, folder):
    """A folder of over 100 levels: each gets its own solution, and those without one have no line. The solutions of
    neighbours do not fit."""
    levels, solutions, lines = [], {}, []
    for number in range(1, LEVELS + 1):
        steps = number % 10
        wall = b"#" * (steps + 5)
        levels.append(wall + b"\n#@" + b" " * steps + b"$.#\n" + wall + b"\n")
        if number % 7 != MISSING:
            solutions[number] = b"r" * steps + b"R"
            lines.append(b"%d optimal 1 pushes, %d moves\n" % (number, steps + 1))
    room = Room(program, folder, b"\n".join(levels), solutions)
    totals = b"%d levels, %d optimal, 0 beaten, 0 open, 0 not judged, %d without a solution\n"
    whole = b"".join(lines) + totals % (LEVELS, len(lines), LEVELS - len(lines))
    yield "all levels", trials.differs(room.run("prove"), (0, whole, b""))
    part = [it for it in lines if 98 <= int(it.split()[0]) <= 104]
    yield "some levels", trials.differs(room.run("prove", "--from", 98, "--to", 104),
                                        (0, b"".join(part) + totals % (7, len(part), 7 - len(part)), b""))


def same_limit(program, folder, level, solution):
    """Copies of a level at the least limit that decides it, and at one less: each is decided, or each is open."""
    room = Room(program, folder, b"\n".join([level] * COPIES), {n: solution for n in range(1, COPIES + 1)})
    for command, limit in LEAST.items():
        for most in (limit - 1, limit):
            alone = room.run(command, "--limit", most, level=1)
            line = b"  ".join(alone[1].splitlines())
            wanted = b"".join(b"%d %s\n" % (number, line) for number in range(1, COPIES + 1))
            got = room.run(command, "--limit", most)[1]
            yield f"{command}, limit {most}", trials.differs(got[:len(wanted)], wanted)
            yield f"{command}, limit {most}, alone", trials.differs(b"limit" in line, most < limit)
