"""Little memory: requests that fail, the most memory of commands and searches, and small address spaces and stacks."""
import itertools
import os
import re

import formats
import greatest
import shims
import worst
from commands import COMMANDS, MOVES, ONE, PLENTY, ROOT, well
from shims import OUT_OF_MEMORY
from trials import differs

# a level, a limit, and what `solve` writes of it
SOLVED = [
    (b"#####\n#.  #\n# $ #\n#  @#\n#####\n", PLENTY, 0, b"solved 2 pushes, 5 moves, 4 positions\nuLdlU\n"),
    (b"#######\n#.$@$.#\n#######\n", 4, 0, b"solved 2 pushes, 3 moves, 4 positions\nLrR\n"),
]

# searches of `best` by several workers: how many, the number of a room of tests/prove/tables.xsb, the fewest pushes by
# `solve`, a limit, and whether it is passed; the last search makes tables of regions and ends
SEARCHED = [(2, 7, 16, 200, True), (4, 7, 16, 200, True), (4, 5, 13, 700, False)]
# a room of bench/dense.xsb that makes tables of regions, and KB of address space: the first, the last and the steps in
# which one worker searches, and how often it reports before the end; numbers of workers, and what each has more
SPACES = ("bench/dense.xsb", 30), 2 << 10, 64 << 10, 1 << 10, 3
SEVERAL, MORE_SPACE = (2, 4), 8 << 10
# a level with a solution, whose moves are the fewest, and one that has as many pushes and more moves
RECORD = (b"########\n#. $@$.#\n#      #\n########\n", b"RlLL", b"duRlLL")

# a command on a room that takes some 10^5 positions, or as many as the limit allows, and the status of its report
SHORT = [
    (["solve", "bench/harder.xsb", "5"], 0),
    (["solve", "bench/levels.xsb", "5"], 1),
    (["solve", "bench/levels.xsb", "8"], 4),
    (["best", "bench/harder.xsb", "5"], 0),
    (["prove", "bench/harder.xsb", "5", "bench/harder.lurd"], 0),
]
SHORT_LIMIT = 300_000
# KB of address space, workers, and runs of each
SHORT_SPACE = (8_000, 10_000, 12_000, 15_000, 20_000, 25_000, 30_000, 40_000, 50_000)
SHORT_WORKERS = (1, 2, 4, 8, 16)
SHORT_RUNS = 3
# the status with which the loader of shared libraries ends where it lacks address space
LOADER = 127
# KB of stack, and the least of them with which the program answers
STACKS = (64, 96, 128, 192, 256, 320, 384, 447, 448, 512, 576, 1_024)
ENOUGH_STACK = 448
# bytes of an environment, which the system puts on the stack, and the least KB with which it starts the program so
ENVIRONMENT, STACK_FOR_IT = 120_000, 192
# a room of large layers, with what another solver says of it (tests/workers)
WIDE_LAYERS = (["solve", os.path.join(ROOT, "bench", "levels.xsb"), "5"], (1, b"unsolvable, 195896 positions\n", b""))


def memory(bench, worked, workers, locks):
    """`solve`; each request for memory fails in turn, alone or with all later ones."""
    level, limit, status, text = worked
    words = [bench.program, "solve", bench.file(level), "1", "--limit", str(limit), "--workers", str(workers)]
    words += [] if locks == 1 else ["--locks", str(locks)]
    for name, fault in shims.refused(lambda env: bench.run(words, env=env), bench.refuse,
                                     lambda got, _: differs(got, (status, text, b""))):
        yield f"{words[1:]}, {name}", fault


def searching(bench, workers, number, pushes, limit, is_passed):
    """`best` by several workers, up to its end or its limit; each request for memory fails in turn, alone or with all
    later ones: the report of one worker, or out of memory, or past the limit the report without a solution."""
    with open(os.path.join(ROOT, "tests", "prove", "tables.xsb"), "rb") as file:
        level = b"\n".join(formats.boards_of(file.read())[number - 1].rows) + b"\n"
    words = [bench.program, "best", bench.file(level), "1", "--limit", str(limit)]
    status, out, err = report = bench.run(words)
    found = re.fullmatch(rb"optimal %d pushes, \d+ moves\n[LRUDlrud]+\n" % pushes, out)
    yield f"{words[1:]}, one worker", None if (status, err) == (0, b"") and found else f"gives {report}"
    # what stands in the report if memory fails while beams look for the solution after the search
    without = (4, b"limit %d reached, at least %d pushes\n" % (limit, pushes), b"") if is_passed else report
    words += ["--workers", str(workers)]
    for name, fault in shims.refused(lambda env: bench.run(words, env=env), bench.refuse,
                                     lambda got, _: None if got == without else unlike(got, report, level)):
        yield f"{words[1:]}, {name}", fault


def unlike(got, report, level, number=1):
    """What is wrong with a report where `report` comes with ample memory; None where nothing is. A solution with as many
    pushes may have more moves: if memory fails while a search looks for fewer, it reports what it has."""
    found, wanted = (re.fullmatch(rb"optimal (\d+) pushes, (\d+) moves\n([LRUDlrud]+)\n", it[1]) for it in (got, report))
    if not found or not wanted:
        return differs(got, report)
    solved = formats.replay(level, number, found[3])
    right = (0, b"solved %s pushes, %s moves\n" % (wanted[1], found[2]))
    return differs((got[0], got[2], solved), (report[0], report[2], right))


def moves(bench):
    """`best --moves`, and `prove --moves` on the best solution and on another one; each request for memory fails in
    turn."""
    level, solution, other = RECORD
    fewest = b"optimal 3 pushes, optimal 4 moves\n"
    beaten = b"not optimal 3 pushes, 6 moves, " + fewest + solution + b"\n"
    reports = [(None, (0, fewest + solution + b"\n", b"")), (solution, (0, fewest, b"")), (other, (1, beaten, b""))]
    for text, report in reports:
        files = [bench.file(it) for it in (level, text) if it is not None]
        words = [bench.program, "best" if text is None else "prove", files[0], "1", *files[1:], "--moves"]
        for name, fault in shims.refused(lambda env: bench.run(words, env=env), bench.refuse,
                                         lambda got, _: differs(got, report)):
            yield f"{words[1:]}, {name}", fault


def bounds(bench):
    """Runs the commands over the worst files within the stated memory: each prints its report."""
    for name, words, file, moves in worst.cases():
        most = worst.FIXED + worst.A_BYTE * (len(file) + len(moves))
        paths = {"FILE": bench.file(file), "MOVES": bench.file(moves)}
        status, out, err = within(bench, [paths.get(it, it) for it in words], most >> 10)
        fault = None if status in (0, 1) and out and not err else f"status {status}, {err!r}"
        yield f"{words[0]} of {name}, {len(file) + len(moves)} bytes, within {most} bytes", fault


def telling(bench):
    """`explain` within the stated memory, which depends on the length of its report, and this within its bound."""
    for name, file in (*worst.collections(), *((name, worst.filled(part)) for name, part in worst.TOLD.items())):
        words = ["explain", bench.file(file)]
        report = bench.run([bench.program, *words])
        most = worst.FIXED + worst.A_BYTE * len(file) + int(worst.A_BYTE_TOLD * len(report[1]))
        fault = None if within(bench, words, most >> 10) == report else f"another report within {most} bytes"
        yield f"explain of {name}, {len(file)} bytes, within {most} bytes", fault
        is_long = len(report[1]) > worst.TOLD_MORE + worst.TOLD_A_BYTE * len(file)
        yield f"explain of {name}, {len(file)} bytes", f"{len(report[1])} bytes of report" if is_long else None
    board = worst.TOLD["players and boxes in counts"].strip()
    report = bench.run([bench.program, "explain", bench.file(board), "1"])
    is_long = len(report[1]) > worst.TOLD_MORE + worst.TOLD_A_BYTE * len(board)
    yield "explain of one board", f"{len(report[1])} bytes of report" if is_long else None


def memory_stated(pattern):
    """The bytes that README states, in MB."""
    with open(os.path.join(ROOT, "README.md"), encoding="utf-8") as it:
        return int(re.search(pattern, it.read(), re.MULTILINE)[1]) * 10**6


def memory_at_limit():
    """The bytes that README states for searches at the default limit."""
    return memory_stated(r"^\| 1000000 \| (\d+) MB")


def limits(bench, workers, locks):
    """`solve` that ends at the default limit holds at most the memory that README states, with any workers and
    locks."""
    words = ["solve", bench.file(worst.WIDE_ROOM), "1", "--workers", str(workers), "--locks", str(locks)]
    most, (asked, got) = memory_at_limit(), asked_by(bench, words)
    fault = differs(got, (4, b"limit 1000000 reached\n", b"")) or (f"{asked} bytes" if most < asked else None)
    yield f"{workers} workers over {locks} locks, within {most} bytes", fault


def limits_of_best(bench, limit):
    """The same of `best`, which ends at the limit with a right bound."""
    level, pushes = greatest.crossing(6, 3, 10, 11)
    tables = memory_stated(r"Their tables take up to (\d+) MB")
    most = memory_at_limit() * limit // PLENTY + tables
    asked, got = asked_by(bench, ["best", bench.file(level), "1", "--limit", str(limit)])
    report = rb"(found \d+ pushes, \d+ moves, )?limit %d reached, at least (%d|%d) pushes" % (limit, pushes, pushes + 2)
    is_right = (got[0], got[2]) == (4, b"") and re.fullmatch(report, got[1].split(b"\n")[0])
    fault = f"{got}, not {report}" if not is_right else f"{asked} bytes" if most < asked else None
    yield f"limit {limit}, within {most} bytes", fault


def asked_by(bench, words):
    """The most bytes that a run holds at one time, and its result."""
    count = os.path.join(bench.folder, f"count{next(bench.numbers)}")
    got = bench.run([bench.program, *words], env={"LD_PRELOAD": bench.asked, "ASKED_MOST": count})
    return shims.counts(count, 1)[0], got


def within(bench, words, space, kind="-v", **more):
    """A run with `space` KB of address space, or of stack (-s)."""
    return bench.run(["/bin/sh", "-c", f'ulimit {kind} {space}; exec "$0" "$@"', bench.program, *words], **more)


def short(bench, command, workers):
    """A search within little address space, where threads and stacks take some of it: its report, the same each
    time, or out of memory."""
    (name, collection, number, *solution), status = command
    words = [name, os.path.join(ROOT, collection), number, *(bench.file(line_of(it, int(number))) for it in solution)]
    words += [
        "--limit",
        str(SHORT_LIMIT), *(["--workers", str(workers), "--locks", str(workers)] if name == "solve" else [])
    ]
    report = bench.run([bench.program, *words])
    yield f"{words} with all address space", differs((report[0], report[2]), (status, b""))
    for space, run in itertools.product(SHORT_SPACE, range(SHORT_RUNS)):
        got = within(bench, words, space)
        fault = None if got == OUT_OF_MEMORY else unlike(got, report, read(collection), int(number))
        yield f"{words} within {space} KB, run {run + 1}", fault


def spaces(bench, command):
    """`best` and `prove` within ever more address space: one worker is out of memory or reports, and wherever it
    reports, several workers with more space do the same."""
    (collection, number), first, last, step, times = SPACES
    words = [command, os.path.join(ROOT, collection), str(number)]
    words += [bench.file(line_of("bench/dense.lurd", number))] if command == "prove" else []
    report, answers, level = bench.run([bench.program, *words]), 0, read(collection)
    for space in range(first, last, step):
        got = within(bench, words, space)
        answers += got == report
        if got[0] != LOADER:
            yield f"{words} within {space} KB", None if got == OUT_OF_MEMORY else unlike(got, report, level, number)
        for workers in SEVERAL if got == report else ():
            several, enough = [*words, "--workers", str(workers)], space + workers * MORE_SPACE
            yield f"{several} within {enough} KB", differs(within(bench, several, enough), report)
        if answers == times:
            break
    yield f"{words} answers", differs((answers, report[0], report[2]), (times, 0, b""))


def short_cases():
    """The commands of SHORT with workers; only `solve` has several."""
    return [it for it in itertools.product(SHORT, SHORT_WORKERS) if it[0][0][0] == "solve" or it[1] == 1]


def read(path):
    """The bytes of a file of the repository."""
    with open(os.path.join(ROOT, path), "rb") as it:
        return it.read()


def line_of(path, number):
    """A line of a file of the repository, counted from 1."""
    return read(path).splitlines()[number - 1]


def shortest(bench):
    """`--version` within ever less address space: status 0, or out of memory, down to where the loader finds no
    room for the libraries."""
    for space in range(min(SHORT_SPACE), 0, -50):
        got = within(bench, ["--version"], space)
        if got[0] == LOADER:
            return
        yield f"--version within {space} KB", None if got == OUT_OF_MEMORY else differs((got[0], got[2]), (0, b""))


def stacks(bench):
    """Each command with little stack: its report, or out of memory below ENOUGH_STACK."""
    commands = [(bench.words(it, ONE, MOVES)[1:], well(COMMANDS[it][1](ONE, MOVES))) for it in COMMANDS]
    words, report = WIDE_LAYERS
    commands += [(words, report), ([*words, "--workers", "64", "--locks", "16"], report)]
    cases = [(space, 0) for space in STACKS]
    cases += [(space, ENVIRONMENT) for space in STACKS if STACK_FOR_IT <= space]
    for (words, report), (space, many) in itertools.product(commands, cases):
        got = within(bench, words, space, "-s", env={"MANY": "x" * many})
        is_well = got == report or got == OUT_OF_MEMORY and space < ENOUGH_STACK
        yield f"{words} with {space} KB, {many} bytes of environment", None if is_well else str(got)
