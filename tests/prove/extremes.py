"""Solutions of extreme sizes that `prove` judges at a limit: without a push, with many moves, pushes or boxes, and on
the largest grid."""
import os
import re

import formats
import shims

# the processor time that each run may take, in seconds: far more than it takes
SECONDS = 20
SIDE = 255
# steps beside a box on the right that push it to the right and back, and lead to where they began
TO_AND_FRO = "RurrdLulld"


def solved(idle):
    """A level that is solved at the start, and steps to and fro."""
    return ["######", "#@ * #", "######"], "rl" * idle


def crowd(side, across, down, turns):
    """Rows of boxes in a square room, each box beside its goal, and a solution that pushes the last one to and fro at
    the end."""
    rows = ["#" + " " * (side - 2) + "#" for _ in range(side - 2)]
    row, column, text = 0, 0, ""
    for index in range(down):
        rows[3 * index + 2] = "#  " + "$.  " * across + " " * (side - 4 * across - 4) + "#"
        for place in range(across):
            above, behind = 3 * index + 1, 4 * place + 1
            text += "u" if row > above else "d" * (above - row)
            text += "r" * (behind - column) + "l" * (column - behind) + "dR"
            row, column = above + 1, behind + 1
    rows[0] = "#@" + rows[0][2:]
    return ["#" * side, *rows, "#" * side], text + TO_AND_FRO * turns


def walked(steps):
    """A crowd of a few boxes, and steps to and fro before the first push."""
    rows, text = crowd(20, 3, 3, 1)
    return rows, "rl" * steps + text


OPEN = r"limit {} reached, at least {} pushes, given {} pushes, \d+ moves"
BEATEN = r"not optimal {} pushes, \d+ moves, optimal {} pushes, \d+ moves"
# each case: a level with a solution, a limit, and the first line of the report
CASES = [
    ("no push", solved(200_000), 1, r"optimal 0 pushes, 400000 moves"),
    ("64 boxes", crowd(36, 8, 8, 1), 50, BEATEN.format(66, 64)),
    ("64 boxes on the largest grid", crowd(SIDE, 8, 8, 1), 50, BEATEN.format(66, 64)),
    ("the largest grid", crowd(SIDE, 3, 3, 1), 5, BEATEN.format(11, 9)),
    ("pushes to and fro", crowd(20, 3, 3, 20_000), 5, OPEN.format(5, 9, 40_009)),
    ("fewer pushes to and fro", crowd(20, 3, 3, 500), 5, BEATEN.format(1_009, 9)),
    ("steps to and fro", walked(400_000), 5, BEATEN.format(11, 9)),
]


def fault(program, folder, rows, text, limit, line):
    """What is wrong with the report on a solution; None where nothing is."""
    level = "\n".join([*rows, ""]).encode()
    for name, content in (("level.xsb", level), ("solution", text.encode())):
        with open(os.path.join(folder, name), "wb") as file:
            file.write(content)
    run = [program, "prove", "level.xsb", "1", "solution", "--limit", str(limit)]
    status, out, err = shims.ran(["bash", "-c", f'ulimit -t {SECONDS}; exec "$@"', "", *run], cwd=folder)
    first, *others = out.decode().split("\n")
    told = f"{status}, {out[:200]}, {err}"
    if err or not re.fullmatch(line, first) or len(others) != (2 if first.startswith("not") else 1):
        return told
    if not first.startswith("not"):
        return None
    better = re.search(r"(?:optimal|found) (\d+ pushes, \d+ moves)(?:, limit .*)?$", first)[1]
    replayed = formats.replay(level, 1, others[0].encode())
    return None if replayed == (0, f"solved {better}\n".encode()) else f"{told}: {replayed}"
