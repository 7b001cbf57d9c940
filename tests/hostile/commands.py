"""The commands that tests/hostile runs, the reports that they may write, and how it runs them."""
import itertools
import os

import formats
import search
import shims

ROOT = os.path.dirname(shims.TESTS)
PLENTY = 1_000_000

ONE = b"#####\n#@$.#\n#####\n"
TWO = b"; one\n#####\n#@$.#\n#####\n\n####\n#@$.\n####\nTitle: two"
ROOM = b"######\n#    #\n# @$.#\n######\n"
MOVES = b"RlR"
# the only solution of ONE with one push
SOLUTION = b"R"

# a command over files, by their names: its words, and the reports that it may write for their bytes
COMMANDS = {
    "check": (["check", "FILE"], lambda file, _: formats.check(file)),
    "explain": (["explain", "FILE", "1"], lambda file, _: explained(file)),
    "show": (["show", "FILE", "1"], lambda file, _: formats.show(file, 1)),
    "range": (["show", "FILE"], lambda file, _: formats.shown_range(file, 1, PLENTY)),
    "dead": (["dead", "FILE", "1"], lambda file, _: formats.dead(file, 1)),
    "replay": (["replay", "FILE", "1", "MOVES"], lambda file, moves: formats.replay(file, 1, moves)),
    "solve": (["solve", "FILE", "1", "--workers", "2"], lambda file, _: solved(file)),
    "best": (["best", "FILE", "1"], lambda file, _: best(file)),
    "each": (["best", "FILE"], lambda file, _: each(file)),
    "prove": (["prove", "FILE", "1", "SOLUTION"], lambda file, _: proved(file)),
    "fewest": (["best", "FILE", "1", "--moves"], lambda file, _: with_moves(best(file))),
    "record": (["prove", "FILE", "1", "SOLUTION", "--moves"], lambda file, _: with_moves(proved(file))),
}
# what is read after the collection, where the level is lawful
SECOND = {"replay": MOVES, "prove": SOLUTION, "record": SOLUTION}


def explained(file):
    """The status and the report of `explain` of level 1. In these files one square alone is nearest to the player of
    those where the player gets out."""
    report, = formats.explain(file, 1)
    return report


def solved(file):
    """The status and the report of `solve` of level 1, by the independent search."""
    board, refused = formats.lawful(file, 1)
    return refused or search.solve(board, PLENTY, PLENTY)


def proved(file):
    """The status and the report of `prove` of level 1 and SOLUTION, which is known to be the best one where it is
    one at all."""
    status, text = formats.replay(file, 1, SOLUTION)
    return (0, b"optimal 1 pushes, 1 moves\n") if text.startswith(b"solved ") else (status, text)


def best(file):
    """The same of `best` of level 1, of which SOLUTION is the only best solution where it is one at all."""
    status, text = proved(file)
    return status, text if status else text + SOLUTION + b"\n"


def with_moves(report):
    """The same with --moves: no solution has fewer moves than SOLUTION."""
    status, text = report
    return status, text.replace(b"pushes, 1 moves", b"pushes, optimal 1 moves") if status == 0 else text


def each(file):
    """The same of `best` of all levels. SOLUTION is the only best solution of those that are lawful."""
    faults = [board.fault for board in formats.boards_of(file)]
    if not faults:
        return 1, b"no level 1\n"
    lines = [f"{n} " + (f"fault {it}" if it else "optimal 1 pushes, 1 moves  R") for n, it in enumerate(faults, 1)]
    bad = sum(it is not None for it in faults)
    lines.append(f"{len(faults)} levels, {len(faults) - bad} optimal, 0 unsolvable, 0 open, {bad} not judged")
    return int(bad > 0), "".join(line + "\n" for line in lines).encode()


class Bench:
    """The program, a folder for its files and what the runs said."""

    def __init__(self, program, folder):
        self.program, self.folder = program, folder
        self.refuse, self.ends, self.asked = (shims.build(it, folder)
                                              for it in ("refuse.c", "hostile/ends.c", "hostile/asked.c"))
        self.numbers = itertools.count()

    def file(self, data):
        """The path of a new file with these bytes."""
        path = os.path.join(self.folder, f"file{next(self.numbers)}")
        with open(path, "wb") as it:
            it.write(data)
        return path

    def words(self, command, file, moves=b""):
        """The command line of a command over files with these bytes, or over paths."""
        paths = {"FILE": file, "MOVES": moves, "SOLUTION": SOLUTION}
        paths = {name: self.file(it) if isinstance(it, bytes) else it for name, it in paths.items()}
        return [self.program] + [paths.get(word, word) for word in COMMANDS[command][0]]

    def run(self, words, **more):
        return shims.ran(words, **more)

    def strange(self, words, cwd=None, **how):
        """A run whose ends are strange: what it gives, and how many reads, writes and bytes read there were."""
        count = os.path.join(self.folder, f"count{next(self.numbers)}")
        env = {"LD_PRELOAD": self.ends, "ENDS_COUNT": count, **{name: str(value) for name, value in how.items()}}
        got = self.run(words, env=env, cwd=cwd)
        return got, shims.counts(count, 3)


def well(report):
    """What a run gives that writes a report."""
    status, text = report
    return status, text, b""
