"""Builds the libraries that tests load before the C library to take memory, threads or bytes away from a program,
and runs programs with them."""
import os
import shutil
import subprocess
import sys
import tempfile

TESTS = os.path.dirname(os.path.abspath(__file__))
# seconds after which a run counts as hanging
SECONDS = 1_200
# what the program gives if it is out of memory, or cannot read
OUT_OF_MEMORY = (5, b"", b"out of memory\n")
CANNOT_READ = (3, b"", b"cannot read\n")


def compiler():
    """A C compiler; without one the tests fail."""
    return shutil.which("cc") or shutil.which("gcc") or shutil.which("clang") or sys.exit(
        "no C compiler: no command cc, gcc or clang on PATH")


def build(source, folder):
    """The library built in the folder from a C file below tests/."""
    shim = os.path.join(folder, os.path.basename(source)[:-2] + ".so")
    subprocess.run(
        [compiler(), "-O1", "-shared", "-fPIC", "-fno-builtin", "-o", shim,
         os.path.join(TESTS, source), "-ldl"],
        check=True)
    return shim


def counts(path, many):
    """The first `many` numbers of a file that a library wrote, of 8 bytes each."""
    with open(path, "rb") as file:
        return [int.from_bytes(file.read(8), sys.byteorder) for _ in range(many)]


def ran(words, env=None, fed=None, **more):
    """The status of a run, its standard output and its standard error. The bytes `fed` are its standard input, by a
    pipe."""
    source = {"stdin": subprocess.DEVNULL} if fed is None else {"input": fed}
    done = subprocess.run(words, env=env or {}, capture_output=True, timeout=SECONDS, **source, **more)
    return done.returncode, done.stdout, done.stderr


def refused(start, shim, fault):
    """Starts runs in which each request for memory fails in turn, first alone and then with all later ones: `start`
    runs the program in an environment with the library `shim` of refuse.c. Yields a result for each run in which a
    request failed: it is right if the program is out of memory, or if `fault` finds nothing wrong with what it gives,
    which also gets whether later requests fail. With threads the number of requests differs from run to run, so the
    third run in a row without a failure is the last."""
    for rest in (False, True):
        missed, at = 0, 0
        with tempfile.NamedTemporaryFile() as count:
            while missed < 3:
                at, missed = at + 1, missed + 1
                env = {"LD_PRELOAD": shim, "REFUSE_AT": str(at), "REFUSE_COUNT": count.name}
                got = start({**env, "REFUSE_REST": "1"} if rest else env)
                if at <= counts(count.name, 1)[0]:
                    missed = 0
                    name = f"request {at}{' and all later ones' if rest else ''} fails"
                    yield name, None if got == OUT_OF_MEMORY else fault(got, rest)
