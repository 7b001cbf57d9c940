"""The recipes that keep something: each is interrupted at three moments, killed, and run on a full device, and then
runs once more. Then it has each row once, as a run that nothing disturbs."""
import contextlib
import glob
import os
import shutil
import signal
import subprocess
import sys
import tempfile
import time

HERE = os.path.dirname(os.path.abspath(__file__))
TOP = os.path.dirname(os.path.dirname(HERE))
sys.path[:0] = [os.path.join(TOP, "tests", "fuzz")]

import formats
import plays
import trials

# rooms of bench/dense.xsb, each of which takes a part of a second
ROOMS = (3, 6, 13, 21, 9, 12)
SECONDS = 600
# runs a command whose files get no more bytes than the first argument says; a write beyond them fails
LIMITED = """import os, resource, signal, sys
resource.setrlimit(resource.RLIMIT_FSIZE, (int(sys.argv[1]), int(sys.argv[1])))
signal.signal(signal.SIGXFSZ, signal.SIG_IGN)
os.execvp(sys.argv[2], sys.argv[2:])
"""
# the sections whose recipes keep something: the files that they keep, how many rows there are when a signal comes, and
# how many bytes fit on the full device: a log of one row and a part of the next; otherwise nothing after `try`
SECTIONS = {
    "A whole collection": (["first-steps.tsv"], (0, 2, 5), 300),
    "All processors": (["best/*"], (0, 2, 5), None),
    "A folder of solutions": (["proved/*", "better/*.lurd"], (0, 3, 8), None),
}
CASES = [(title, None, None) for title in SECTIONS]
CASES += [(title, signal.SIGINT, at) for title, (_, rows, _) in SECTIONS.items() for at in rows]
CASES += [(title, signal.SIGKILL, rows[1]) for title, (_, rows, _) in SECTIONS.items()]


def rows_of(data):
    """The rows of a table, among which may be lines of names and of a level that is not there; the end of a line that
    is not whole is a row of its own."""
    return [line for line in data.split(b"\n") if line and not line.startswith((b"level\t", b"no level "))]


class Kept:
    """A folder in which recipes run, and what they keep there."""

    def __init__(self, program, top, patterns):
        self.work, path, self.patterns = os.path.join(top, "work"), os.path.join(top, "path"), patterns
        shutil.copytree(os.path.join(TOP, "levels"), os.path.join(self.work, "levels"))
        os.mkdir(path)
        os.symlink(program, os.path.join(path, "sokopar"))
        self.env = dict(os.environ, PATH=path + os.pathsep + os.environ["PATH"], TMPDIR=top)
        self.fill()

    def fill(self):
        """Puts the rooms in the place of the collections of the recipes, and a solution of each with two pushes more
        than the fewest where the recipes look for them."""
        with open(os.path.join(TOP, "bench", "dense.xsb"), "rb") as file:
            boards = formats.boards_of(file.read())
        with open(os.path.join(TOP, "bench", "dense.lurd"), encoding="ascii") as file:
            texts = file.read().split()
        rooms = [b"\n".join(boards[n - 1].rows) + b"\n" for n in ROOMS]
        for name in ("first-steps", "store-rooms"):
            self.write(f"levels/{name}.xsb", b"\n".join(rooms))
        os.mkdir(os.path.join(self.work, "solutions"))
        for place, number in enumerate(ROOMS, 1):
            text = plays.with_detours(boards[number - 1], texts[number - 1], 1).encode()
            self.write(f"levels/store-rooms.{place}.lurd" if place < 3 else f"solutions/{place}.lurd", text)

    def write(self, name, data):
        with open(os.path.join(self.work, name), "wb") as file:
            file.write(data)

    def start(self, script, most=None):
        """Starts a script, in a group of processes of its own. No file gets more than `most` bytes."""
        limited = [sys.executable, "-c", LIMITED, str(most)] if most else []
        ends = {"stdin": subprocess.DEVNULL, "stdout": subprocess.DEVNULL, "stderr": subprocess.DEVNULL}
        return subprocess.Popen([*limited, "bash", "-c", script], cwd=self.work, env=self.env, start_new_session=True,
                                **ends)

    def files(self):
        """What is kept: the content of each file."""
        files = {}
        for path in sorted(path for it in self.patterns for path in glob.glob(os.path.join(self.work, it))):
            # a recipe may rename a file meanwhile
            with contextlib.suppress(FileNotFoundError), open(path, "rb") as file:
                files[os.path.relpath(path, self.work)] = file.read()
        return files

    def many(self):
        """How many whole rows there are."""
        return sum(len(rows_of(it)) for it in self.files().values() if it.endswith(b"\n"))

    def stop(self, process, number, at):
        """Sends a signal to all processes of a script once it has kept a number of rows."""
        while self.many() < at and process.poll() is None:
            time.sleep(0.005)
        if process.poll() is None:
            os.killpg(process.pid, number)
        process.wait(SECONDS)


def script_of(blocks, title, is_full=False):
    """The commands of a section; a folder needs the script `try` of the section before. If the device is full, nothing
    can be written after `try`."""
    needed = [block for it, block in blocks if it == title]
    if title == "A folder of solutions":
        needed.insert(0, next(block[:1] for it, block in blocks if it == "All processors"))
    commands = [example.command for block in needed for example in block]
    full = "trap '' XFSZ; ulimit -f 0\n"
    return "".join(it + full if is_full and "cat > try" in it else it for it in commands)


def recipe(program, blocks, title, number, at):
    """The results of the recipes of a section that are disturbed and then run once more."""
    script, (patterns, _, most) = script_of(blocks, title), SECTIONS[title]
    with tempfile.TemporaryDirectory() as top, tempfile.TemporaryDirectory() as other:
        kept, wanted = Kept(program, top, patterns), Kept(program, other, patterns)
        wanted.start(script).wait(SECONDS)
        name = f"{title}, {f'signal {int(number)} after {at} rows' if number else 'a full device'}"
        process = kept.start(script) if number else kept.start(script_of(blocks, title, True), most)
        if number:
            kept.stop(process, number, at)
        else:
            process.wait(SECONDS)
            yield f"{name}: not all rows fit", "they do" if kept.many() == wanted.many() else None
        kept.start(script).wait(SECONDS)
        got, whole = ({path: rows_of(data) for path, data in it.files().items()} for it in (kept, wanted))
        yield f"{name}: {sum(map(len, whole.values()))} rows", trials.differs(got, whole)
    count, least = sum(map(len, whole.values())), len(ROOMS)
    yield f"{name}: rows", None if count >= least else f"only {count}"
