"""What the test scripts share: they try many cases at once, print what is wrong, and end with one line.

A result is a pair: a name, and what is wrong, or None."""
import concurrent.futures
import os
import sys

TOP = os.path.dirname(os.path.dirname(os.path.abspath(__file__)))

# the number of parts that are tried at once
JOBS = 4
# the number of faults that a script prints
SHOWN = 40


def differs(got, wanted):
    """What is wrong with an answer if another one is wanted."""
    return None if got == wanted else f"{got}, not {wanted}"


def results(parts):
    """The results of all parts in their order. A part is a function that yields results, and its arguments."""
    with concurrent.futures.ThreadPoolExecutor(JOBS) as pool:
        return [it for some in pool.map(lambda part: [*part[0](*part[1])], parts) for it in some]


def close(script, said):
    """Prints what is wrong and the line 'N passed, M failed'. Returns the exit status of the script: 0 if there are
    results and nothing is wrong."""
    faults = [(name, fault) for name, fault in said if fault]
    for name, fault in faults[:SHOWN]:
        print(f"{script}: {name}: {fault}")
    print(f"{len(said) - len(faults)} passed, {len(faults)} failed")
    return 1 if faults or not said else 0


def crates():
    """The crates of the repository, lowest first, each with the libraries that it uses."""
    with open(f"{TOP}/crates.txt", encoding="utf-8") as file:
        lines = [line.partition("#")[0].partition(":") for line in file]
    return {name.split()[0]: uses.split() for name, is_crate, uses in lines if is_crate}


def written(path, script, rows):
    """What is wrong with the part of a document that a script writes, between two marker lines, if it shall have these
    rows; empty lines do not count. If the script runs with --write, it writes them, and nothing is wrong."""
    with open(f"{TOP}/{path}", encoding="utf-8") as file:
        before, start, rest = file.read().partition(f"<!-- written by tests/{script} --write -->\n")
    old, end, after = rest.partition("<!-- end -->")
    if not end:
        return [f"{path} has no part that tests/{script} writes"]
    if sys.argv[1:] == ["--write"]:
        with open(f"{TOP}/{path}", "w", encoding="utf-8") as file:
            file.write(f"{before}{start}\n" + "\n".join(rows) + f"\n\n{end}{after}")
        return []
    there, wanted = [line for line in old.splitlines() if line], [line for line in rows if line]
    faults = [f"missing in {path}: {line}" for line in wanted if line not in there]
    faults += [f"not so in {path}: {line}" for line in there if line not in wanted]
    return faults or ([] if there == wanted else [f"{path} has the rows in another order"])
