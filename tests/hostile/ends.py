"""Reads and writes that fail, move one byte or none, or are interrupted; files that are cut while they are read; pipes
that lose an end; closed streams; each beginning of a file, and files of the greatest length."""
import itertools
import os
import select
import subprocess
import threading

import formats
import shims
from commands import COMMANDS, MOVES, ONE, ROOM, SECOND, TWO, well
from shims import CANNOT_READ
from trials import differs

MOST = 16_777_216
TOO_LONG = (3, b"", b"file too long\n")
CANNOT_WRITE = b"cannot write\n"

# the first and the last length of a beginning of TWO, and what `check` writes of it
OPEN_TWO = "1 line 2 ok 3x5 1 boxes one|2 line 6 fault 7 Open{}|2 levels, 1 good|"
BEGINNINGS = [
    (0, 6, "0 levels, 0 good|"),
    (7, 13, "1 line 2 fault 3 NoPlayer one|1 levels, 0 good|"),
    (14, 14, "1 line 2 fault 5 NoBox one|1 levels, 0 good|"),
    (15, 15, "1 line 2 fault 6 Counts 1 0 one|1 levels, 0 good|"),
    (16, 21, "1 line 2 fault 7 Open one|1 levels, 0 good|"),
    (22, 25, "1 line 2 ok 3x5 1 boxes one|1 levels, 1 good|"),
    (26, 31, "1 line 2 ok 3x5 1 boxes one|2 line 6 fault 3 NoPlayer|2 levels, 1 good|"),
    (32, 32, "1 line 2 ok 3x5 1 boxes one|2 line 6 fault 5 NoBox|2 levels, 1 good|"),
    (33, 33, "1 line 2 ok 3x5 1 boxes one|2 line 6 fault 6 Counts 1 0|2 levels, 1 good|"),
    (34, 47, OPEN_TWO.format("")),
    (48, 48, OPEN_TWO.format(" t")),
    (49, 49, OPEN_TWO.format(" tw")),
    (50, 50, OPEN_TWO.format(" two")),
]


def reading(bench):
    """Each read fails in turn; files come a byte at a time."""
    for command, file in itertools.product(COMMANDS, (ONE, TWO[:24], TWO[25:])):
        words, report = bench.words(command, file, MOVES), well(COMMANDS[command][1](file, MOVES))
        got, (reads, _, taken) = bench.strange(words, READ_MOST=1)
        asked = len(file) + 1 + (len(SECOND[command]) + 1 if command in SECOND and formats.lawful(file, 1)[0] else 0)
        yield f"{command} of {file!r}, a byte a read", differs((got, reads), (report, asked))
        for at in range(1, asked + 1):
            got, (reads, writes, _) = bench.strange(words, READ_MOST=1, READ_FAILS=at)
            yield f"{command} of {file!r}, read {at} fails", differs((got, reads, writes), (CANNOT_READ, at, 0))


def writing(bench):
    """Each write fails in turn; reports go a byte at a time, or not at all."""
    for command in COMMANDS:
        file = ROOM if command in ("dead", "explain") else ONE
        words, (status, text) = bench.words(command, file, MOVES), COMMANDS[command][1](file, MOVES)
        got, (_, writes, _) = bench.strange(words, WRITE_MOST=1)
        yield f"{command}, a byte a write", differs((got, writes), ((status, text, b""), len(text)))
        got, (_, writes, _) = bench.strange(words, WRITE_MOST=0)
        yield f"{command}, a write that takes nothing", differs((got, writes), ((3, b"", CANNOT_WRITE), 1))
        for at in range(1, len(text) + 1):
            got, (_, writes, _) = bench.strange(words, WRITE_MOST=1, WRITE_FAILS=at)
            yield f"{command}, write {at} fails", differs((got, writes), ((3, text[: at - 1], CANNOT_WRITE), at))


def interrupted(bench):
    """Each read and each write is interrupted by a signal first, once or several times in a row: the run is as if
    none had come."""
    for command, file, times in itertools.product(COMMANDS, (ONE, TWO), (1, 2, 1000)):
        words, report = bench.words(command, file, MOVES), well(COMMANDS[command][1](file, MOVES))
        for most in ({}, {"READ_MOST": 1, "WRITE_MOST": 1}):
            got, _ = bench.strange(words, INTERRUPTED=times, **most)
            yield f"{command} of {file!r}, interrupted {times} times, {most}", differs(got, report)
    for words, told in ((["--version"], (0, b"sokopar 0.1.0\n", b"")), (["check",
                                                                         "none"], (3, b"", b"cannot open none\n"))):
        got, _ = bench.strange([bench.program, *words], cwd=bench.folder, INTERRUPTED=3)
        yield f"{words} interrupted", differs(got, told)
    got, _ = bench.strange([bench.program], INTERRUPTED=3)
    yield "no words, interrupted", differs((got[0], got[1], bool(got[2])), (2, b"", True))


def cutting(bench):
    """A file that is cut while the program reads it: the report is that of the bytes read before."""
    for command, to in itertools.product(COMMANDS, range(0, len(ONE), 4)):
        for at in range(1, len(ONE) + 1, 5):
            words = bench.words(command, ONE, MOVES)
            left = ONE[: max(to, at - 1)]
            got, _ = bench.strange(words, READ_MOST=1, CUT_AT=at, CUT_TO=to, CUT_FILE=words[2])
            yield f"{command}, cut to {to} at read {at}", differs(got, well(COMMANDS[command][1](left, MOVES)))


def fed(bench, words, path, data):
    """A run that reads a pipe at a path, whose writer goes away after these bytes."""
    os.mkfifo(path)

    def feed():
        with open(path, "wb", buffering=0) as pipe:
            pipe.write(data)

    writer = threading.Thread(target=feed, daemon=True)
    writer.start()
    got = bench.run(words)
    writer.join(shims.SECONDS)
    os.remove(path)
    return got


def pipes(bench):
    """Pipes whose writer goes away, as a file and as standard input."""
    for length in range(len(TWO) + 1):
        for command in ("check", "explain", "show", "dead", "best"):
            path, report = os.path.join(bench.folder, f"pipe{next(bench.numbers)}"), COMMANDS[command][1](
                TWO[:length], b"")
            yield f"{command} of a pipe of {length} bytes", differs(
                fed(bench, bench.words(command, path), path, TWO[:length]), well(report))
            got = bench.run(bench.words(command, "/dev/stdin"), fed=TWO[:length])
            yield f"{command} of {length} bytes of standard input", differs(got, well(report))
    for length in range(len(MOVES) + 1):
        path, report = os.path.join(bench.folder, f"pipe{next(bench.numbers)}"), formats.replay(ONE, 1, MOVES[:length])
        yield f"replay of a pipe of {length} bytes", differs(
            fed(bench, bench.words("replay", ONE, path), path, MOVES[:length]), well(report))


def unread():
    """The end to write of a pipe that nobody reads: a process that another thread starts has the other end too,
    until it runs its program."""
    from_end, to_end = os.pipe()
    os.close(from_end)
    waiting = select.poll()
    waiting.register(to_end, 0)
    waiting.poll()
    return to_end


def closed(bench):
    """Output to a pipe that nobody reads, to a full device; ends that are closed; files that are folders; paths
    that are none."""
    for command in COMMANDS:
        words = bench.words(command, ONE, MOVES)
        for name, output in (("a pipe that nobody reads", unread()), ("a full device",
                                                                      os.open("/dev/full", os.O_WRONLY))):
            done = subprocess.run(words,
                                  env={},
                                  stdin=subprocess.DEVNULL,
                                  stdout=output,
                                  stderr=subprocess.PIPE,
                                  timeout=shims.SECONDS)
            yield f"{command} to {name}", differs((done.returncode, done.stderr), (3, CANNOT_WRITE))
            os.close(output)
        said = well(COMMANDS[command][1](ONE, MOVES))
        yield f"{command} without input", differs(shell(bench, words, "<&-"), said)
        yield f"{command} without output", differs(shell(bench, words, ">&-"), (3, b"", CANNOT_WRITE))
        yield f"{command} without error", differs(shell(bench, words, "2>&-"), said)
        yield f"{command} without ends", differs(shell(bench, words, "<&- >&- 2>&-"), (3, b"", b""))
        yield f"{command} of a folder", differs(bench.run(bench.words(command, bench.folder, MOVES)), CANNOT_READ)
        for path in ("none", "a" * 5000, os.path.join(words[2], "none"), "none\nnone"):
            told = (3, b"", b"cannot open " + path.encode() + b"\n")
            yield f"{command} of {path[:30]!r}", differs(
                bench.run(bench.words(command, path, MOVES), cwd=bench.folder), told)
    for words, ends in itertools.product(([], ["check"], ["show", "one.xsb", "0"], ["check", "\udcff"]),
                                         ("2>&-", "2>/dev/full", "<&- >&- 2>&-")):
        yield f"a fault of the command line {words!r}, {ends}", differs(shell(bench, [bench.program, *words], ends),
                                                                        (2, b"", b""))
    for file, moves, told in ((ONE, bench.folder, CANNOT_READ), (TWO[25:], bench.folder, None), (b"", bench.folder,
                                                                                                 None)):
        told = told or well(formats.replay(file, 1, b""))
        yield f"replay of {file!r} and a folder", differs(bench.run(bench.words("replay", file, moves)), told)


def shell(bench, words, ends):
    """A run by a shell that closes some ends first."""
    return bench.run(["/bin/sh", "-c", f'exec "$0" "$@" {ends}', *words])


def beginnings(bench):
    """Each beginning of a file of two levels."""
    for first, last, text in BEGINNINGS:
        status = 0 if "fault" not in text else 1
        for length in range(first, last + 1):
            got = bench.run(bench.words("check", TWO[:length]))
            yield f"check of {length} bytes", differs(got, (status, text.replace("|", "\n").encode(), b""))


def longest(bench):
    """Files of the greatest length, and of one byte more; a name of 64 KB."""
    tall = b"9999#|" * 2_796_202
    fault = (1, b"fault 1 TooTall\n", b"")
    told = (1, b"1 line 1 fault 1 TooTall\n  row 256 is at line 1\n", b"")
    checked = (1, b"1 line 1 fault 1 TooTall\n1 levels, 0 good\n", b"")
    none = (1, b"no level 1\n", b"")
    tried = (1, b"1 fault 1 TooTall\n1 levels, 0 optimal, 0 unsolvable, 0 open, 1 not judged\n", b"")
    shown = (1, b"; 1 line 1 fault 1 TooTall\n", b"")
    cases = ((tall, fault, {"check": checked, "explain": told, "range": shown, "each": tried}),
             (tall + b"9999", none, {"check": (0, b"0 levels, 0 good\n", b"")}),
             (tall + b"9999#", TOO_LONG, {}))
    for data, said, others in cases:
        path = bench.file(data)
        for command in COMMANDS:
            got = bench.run(bench.words(command, path))
            yield f"{command} of {len(data)} bytes", differs(got, others.get(command, said))
        os.remove(path)
    loose = b"line 1 has a wall and is no row: column 16777213 begins a count that no cell follows\n0 levels, 0 good\n"
    got = bench.run([bench.program, "explain", bench.file(tall + b"9999")])
    yield "explain of a row of the greatest length that breaks at its end", differs(got, (1, loose, b""))
    named = b"; " + b"x" * 65_536 + TWO[25:]
    for command in ("check", "explain"):
        yield f"{command} of a name of 64 KB", differs(bench.run(bench.words(command, named)),
                                                       well(COMMANDS[command][1](named, b"")))
    for more, told in ((0, (1, b"unsolved 0 pushes, 0 moves\n", b"")), (1, TOO_LONG)):
        yield f"replay of {MOST + more} blanks", differs(bench.run(bench.words("replay", ONE, b" " * (MOST + more))),
                                                         told)
    for command in COMMANDS:
        got, (_, writes, taken) = bench.strange(bench.words(command, "/dev/zero"))
        yield f"{command} of a file with no end", differs((got, writes, taken), (TOO_LONG, 0, MOST + 1))
    got, (_, writes, taken) = bench.strange(bench.words("replay", ONE, "/dev/zero"))
    yield "replay of a text with no end", differs((got, writes, taken), (TOO_LONG, 0, MOST + 1 + len(ONE)))
