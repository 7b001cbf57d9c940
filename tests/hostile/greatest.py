"""Levels of great size that a search decides in seconds, with answers by a formula. `formulas` compares each
formula with the slow search of tests/fuzz/search.py, on small levels of the same shape."""
import formats
import search
from commands import PLENTY, well
from trials import differs

SIDE = 255
MOST_BOXES = 64
# the limit of `solve` for these levels
LIMIT = 5_000_000
# the processor time that `best` and `prove` may take where walks are long, in seconds: far more than they take
SECONDS = 20


def solved(text, positions):
    """The status and the report of `solve` with a solution."""
    pushes = sum(map(str.isupper, text))
    return 0, f"solved {pushes} pushes, {len(text)} moves, {positions} positions\n{text}\n".encode()


def halls(count, pushes):
    """Halls in a column of the room, each with a box that needs this many pushes to the right: the level, and the
    report of `solve`. Each box is at each place of its hall in some position."""
    hall, wall = "$" + " " * (pushes - 1) + ".#", "#" * (pushes + 2)
    rows = [wall + "##", "#@" + hall, *["# " + wall, "# " + hall] * (count - 1), wall + "##"]
    text = ("l" * pushes + "dd").join(["R" * pushes] * count)
    return level_of(rows), solved(text, (pushes + 1)**count)


def stairs(count):
    """A box on each step of a stair: each push opens the way to the next box, and no other push is possible."""
    rows = [list("#" * (count + 2)) for _ in range(count + 4)]
    for step in range(count):
        for row, cell in enumerate(" $."):
            rows[step + row + 1][step + 1] = cell
    rows[1][1] = "@"
    return level_of(map("".join, rows)), solved("D" + "rD" * (count - 1), count + 1)


def hall_of(side):
    """An empty room with a box near one corner and its goal near the opposite one. The box may be on each square that
    is not beside a wall, and nothing keeps the player from its other side."""
    rows = [list("#" + " " * (side - 2) + "#") for _ in range(side - 2)]
    rows[0][1], rows[1][2], rows[side - 4][side - 3] = "@$."
    text = "r" + "D" * (side - 5) + "ld" + "R" * (side - 5)
    return level_of(["#" * side, *map("".join, rows), "#" * side]), solved(text, (side - 4)**2)


def maze(side, pushes):
    """Corridors to and fro, of which the last has a box that needs this many pushes along it, as far as there is room,
    and the player at the beginning of the first: the level, and its only solution."""
    rows = [list("#" * side) for _ in range(side)]
    ways, text = (side - 1) // 2, ""
    for way in range(ways):
        rows[2 * way + 1][1:-1] = " " * (side - 2)
        if way:
            rows[2 * way][-2 if way % 2 else 1] = " "
            text += ("r" if way % 2 else "l") * (side - 3) + "dd"
    pushes = min(pushes, side - 4)
    last = rows[-2][1:-1] if ways % 2 else rows[-2][-2:0:-1]
    last[1], last[pushes + 1] = "$."
    rows[-2][1:-1] = last if ways % 2 else last[::-1]
    rows[1][1] = "@"
    return level_of(map("".join, rows)), text + ("R" if ways % 2 else "L") * pushes


def crowd(across, down):
    """Rows of boxes in the largest room, each box beside its goal."""
    rows = ["#" + " " * (SIDE - 2) + "#" for _ in range(SIDE - 2)]
    for row in range(down):
        rows[3 * row + 2] = "#  " + "$.  " * across + " " * (SIDE - 4 * across - 4) + "#"
    rows[0] = "#@" + rows[0][2:]
    return level_of(["#" * SIDE, *rows, "#" * SIDE])


def crossing(doors, boxes, rows, columns):
    """A room in which boxes go right and down, and a room on its right whose doors other boxes block: the level, and
    the pushes that the boxes need one by one. The boxes at the doors are pushed from the right room, so one of them is
    first pushed aside and back: a solution has two pushes more. A search by the lesser number finds a position for each
    combination of the places of the first boxes, (rows * columns) ** boxes of them."""
    wide = columns + 5
    inside = [[" "] * wide + ["#"] + [" "] * 3 for _ in range(boxes * (rows + 1) + 1)]
    for top in range(1, len(inside), rows + 1):
        inside[top][1], inside[top + rows - 1][columns] = "$."
    for door in range(doors):
        row = inside[len(inside) // doors * door + 1]
        row[wide - 3], row[wide - 1], row[wide] = ".$ "
    inside[0][0] = "@"
    wall = "#" * (len(inside[0]) + 2)
    pushes = boxes * (rows + columns - 2) + 2 * doors
    return level_of([wall, *(f"#{''.join(row)}#" for row in inside), wall]), pushes


def level_of(rows):
    return "\n".join([*rows, ""]).encode()


def formulas(_):
    """The formulas hold on small levels."""
    small = [("halls", halls, [(1, 1), (1, 5), (2, 3), (3, 2)]), ("stairs", stairs, [(1, ), (2, ), (3, ), (7, )]),
             ("hall", hall_of, [(6, ), (7, ), (9, )])]
    for name, make, sizes in small:
        for size in sizes:
            level, report = make(*size)
            found = search.solve(formats.boards_of(level)[0], PLENTY, PLENTY)
            yield f"{name} {size}", differs(report, found)


def walks(bench):
    """`best` and `prove` where walks are long: they report in time. In the empty room --moves takes longer."""
    moves = ["best", "FILE", "1", "--moves"]
    commands = [["best", "FILE", "1"], ["prove", "FILE", "1", "MOVES"]]
    levels = [(f"a maze of side {side}, {pushes} pushes", *maze(side, pushes), [*commands, moves])
              for side in (63, 127, SIDE) for pushes in (10, 100)]
    level, report = hall_of(SIDE)
    levels.append(("an empty room", level, report[1].split(b"\n")[1].decode(), commands))
    for name, level, text, words in levels:
        paths = {"FILE": bench.file(level), "MOVES": bench.file(text.encode())}
        for command in words:
            run = [bench.program, *(paths.get(word, word) for word in command)]
            status, out, _ = bench.run(["bash", "-c", f'ulimit -t {SECONDS}; exec "$@"', "", *run])
            is_right = status == 0 and out.startswith(b"optimal %d pushes, " % sum(map(str.isupper, text)))
            yield f"{' '.join(command)} of {name}", None if is_right else f"{status}, {out[:80]}"


def cases():
    """The name of a level, its bytes, and the report of `solve`."""
    yield "502 pushes", *halls(2, 251)
    yield "4,100,625 positions", *halls(4, 44)
    yield "64 boxes", *stairs(MOST_BOXES)
    yield "255 rows and columns", *hall_of(SIDE)


def largest(bench, name, level, report):
    """`solve`, `best` and `prove` of a level with a known answer."""
    path, text = bench.file(level), report[1].split(b"\n")[1]
    pushes = sum(it.isupper() for it in text.decode())
    got = bench.run([bench.program, "solve", path, "1", "--limit", str(LIMIT)])
    yield f"solve of {name}", differs(got, well(report))
    got = bench.run([bench.program, "prove", path, "1", bench.file(text)])
    yield f"prove of {name}", differs(got, (0, b"optimal %d pushes, %d moves\n" % (pushes, len(text)), b""))
    yield f"best of {name}", best_fault(bench, level, pushes)


def crowded(bench):
    """`best` and `solve` of 64 boxes in the largest room: `solve` ends within the pushes of two boxes."""
    level = crowd(8, 8)
    yield "best", best_fault(bench, level, 64)
    got = bench.run([bench.program, "solve", bench.file(level), "1", "--limit", "257"])
    yield "solve", differs(got, (4, b"limit 257 reached\n", b""))


def best_fault(bench, level, pushes):
    """What is wrong with the report of `best`; None if it has this number of pushes, and a solution of as many."""
    status, out, err = bench.run([bench.program, "best", bench.file(level), "1"])
    first, _, text = out.partition(b"\n")
    counts = b"%d pushes, %d moves" % (pushes, len(text.rstrip()))
    replayed = formats.replay(level, 1, text)[1]
    is_right = (status, first, replayed, err) == (0, b"optimal " + counts, b"solved " + counts + b"\n", b"")
    return None if is_right else f"{(status, out, err)}, which replays as {replayed}"
