"""Small levels that workers are tried on: those of rooms.xsb, made by hand, and others by chance, the same in each
run."""
import os
import random

import formats
import plays
import search

HERE = os.path.dirname(os.path.abspath(__file__))
ROUNDS = 8
PLENTY = 1_000_000
# a level without a solution is tried under this many caps of pushes, from 0 on
CAPS = 7

# the width and the height of a room, the number of its boxes, and that of its inner walls
SHAPES = [(3, 3, 1, 0), (4, 3, 1, 2), (5, 4, 1, 4), (4, 4, 2, 1), (5, 3, 2, 1), (5, 4, 2, 3), (6, 4, 2, 5),
          (5, 3, 3, 0), (4, 4, 3, 1)]


def by_hand():
    """The levels of rooms.xsb, each as a file of its own."""
    with open(os.path.join(HERE, "rooms.xsb"), "rb") as file:
        return [b"\n".join(board.rows) + b"\n" for board in formats.boards_of(file.read())]


def room(rng, shape):
    """A level of a shape by chance: inner walls anywhere, boxes away from the outer walls, goals under anything."""
    width, height, boxes, walls = shape
    inside = [(row, column) for row in range(1, height + 1) for column in range(1, width + 1)]
    cells = {square: b" "[0] for square in inside}
    for square in rng.sample(inside, walls):
        cells[square] = b"#"[0]
    middle = [(row, column) for row, column in inside if 1 < row < height and 1 < column < width]
    for square in rng.sample(middle, min(boxes, len(middle))):
        cells[square] = b"$"[0]
    cells[rng.choice([square for square in inside if cells[square] == b" "[0]])] = b"@"[0]
    under = {b" "[0]: b"."[0], b"$"[0]: b"*"[0], b"@"[0]: b"+"[0]}
    for square in rng.sample([square for square in inside if cells[square] in under],
                             sum(cell == b"$"[0] for cell in cells.values())):
        cells[square] = under[cells[square]]
    rows = [bytes(cells.get((row, column), b"#"[0]) for column in range(width + 2)) for row in range(height + 2)]
    return b"\n".join(rows) + b"\n"


def by_chance():
    """So many levels of each shape."""
    rng = random.Random("rooms")
    return [room(rng, shape) for shape in SHAPES for _ in range(ROUNDS)]


def answer(board, cap):
    """The status, the report and the number of positions of `solve` of a level, under a cap of pushes if one is
    given: the least solution or none is found by the rules of the game alone, and the report by the definitions
    has to agree with it."""
    least, (status, text) = plays.least(board, PLENTY, cap), search.solve(board, PLENTY, PLENTY, cap)
    if least is None:
        front = b"unsolvable, " if cap is None else b"none within %d pushes, " % cap
        assert status == 1 and text.startswith(
            front), f"{text} by the definitions, no solution under the cap {cap} by the rules"
        return status, text, int(text.removeprefix(front).removesuffix(b" positions\n"))
    pushes, moves = least
    front, _, last = text.partition(b" positions\n")
    count = int(front.removeprefix(f"solved {pushes} pushes, {len(moves)} moves, ".encode()))
    assert status == 0 and last == moves.encode() + b"\n", f"{last} by the definitions, {moves} by the rules"
    return status, text, count


def answers(data):
    """The answers to a level: first without a cap of pushes, and then under each one from 0 to two more than the
    fewest pushes; where it is unsolvable, under some small ones and the greatest."""
    board = formats.boards_of(data)[0]
    least = plays.least(board, PLENTY)
    caps = [*range(CAPS), formats.MOST_NUMBER] if least is None else range(least[0] + 3)
    return [(cap, *answer(board, cap)) for cap in [None, *caps]]
