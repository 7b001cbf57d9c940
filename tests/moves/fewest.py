"""A slow search for the fewest pushes of a level's solutions and, among the solutions with as few, for the fewest
moves. It knows the rules of the game alone: no deadlocks, walks behind boxes or areas. A state is the set of boxes and
the player's square.

It shares no code with the program."""
import typing

import plays
from formats import DIRS, moved
from search import pushes_alone

# what the search answers if it finds more states than its bound
TOO_MANY = "too many states"


class Fewest(typing.NamedTuple):
    """What the search finds: the fewest pushes, with these the fewest moves, and a solution; None if there is no
    solution. `states` counts the states that the search finds within these pushes."""
    pushes: int | None
    moves: int | None
    text: str | None
    states: int


def steps_from(square, bit):
    """The steps from a square that no wall stops: the letter, the square ahead, its bit, and the bit of the square
    beyond, which is 0 if that is a wall."""
    for letter, step in DIRS.items():
        ahead = moved(square, step)
        if ahead in bit:
            yield letter, ahead, bit[ahead], bit.get(moved(ahead, step), 0)


def needs(board, bit, cap):
    """For each bit the fewest pushes from its square to a goal, of a box alone; with no cap 0. A box outside the room
    of the player needs none, since it is never pushed."""
    far = {square: pushes_alone(board, square) for square in board.room} if cap is not None else {}
    return {bit[square]: cap + 1 if far.get(square, 0) is None else far.get(square, 0) for square in bit}


def search(board, most, cap=None):
    """The fewest pushes and moves of a level, or TOO_MANY if it finds more than `most` states. With a cap on the pushes
    it leaves out states from which the boxes need more than are left, each as if it were alone."""
    bit = {square: 1 << place for place, square in enumerate(sorted(board.open))}
    steps = {square: list(steps_from(square, bit)) for square in bit}
    goals, need = sum(bit[square] for square in board.goals), needs(board, bit, cap)
    start = sum(bit[box] for box in board.boxes), board.player
    # for each state that was found the state before it and the letter; those that wait have as many pushes, by moves
    before, pushes, waiting = {}, 0, {0: [(start, None, "", sum(need[bit[box]] for box in board.boxes))]}
    while waiting:
        moves, solved, after = min(waiting), None, {}
        while waiting:
            for state, origin, letter, rest in waiting.pop(moves, ()):
                if state in before:
                    continue
                before[state], (boxes, player) = (origin, letter), state
                solved = (state, moves) if solved is None and not boxes & ~goals else solved
                for letter, ahead, box, beyond in steps[player]:
                    if not boxes & box:
                        waiting.setdefault(moves + 1, []).append(((boxes, ahead), state, letter, rest))
                    elif beyond and not boxes & beyond:
                        new, needed = (boxes ^ box | beyond, ahead), rest - need[box] + need[beyond]
                        if cap is None or pushes + 1 + needed <= cap:
                            after.setdefault(moves + 1, []).append((new, state, letter.upper(), needed))
            if len(before) > most:
                return TOO_MANY
            moves += 1
        if solved:
            return Fewest(pushes, solved[1], text_to(before, solved[0]), len(before))
        waiting, pushes = after, pushes + 1
    return Fewest(None, None, None, len(before))


def text_to(before, state):
    """The letters that lead to a state."""
    letters = []
    while state:
        state, letter = before[state]
        letters.append(letter)
    return "".join(reversed(letters))


def states_along(board, text):
    """The states that a text passes, with the first and the last one; None if its letters do not fit."""
    states = [(frozenset(board.boxes), board.player)]
    for letter in text:
        for step, after, ahead, pushed in plays.steps(board, *states[-1]):
            if step == letter.lower() and (pushed is not None) == letter.isupper():
                states.append((after, ahead))
                break
        else:
            return None
    return states


def counts(board, text):
    """The pushes and the moves of a text that solves the level; None if it does not."""
    states = states_along(board, text)
    return (sum(map(str.isupper, text)), len(text)) if states and states[-1][0] <= board.goals else None


def loop(board, start, pushes):
    """A play with so many pushes from a state back to it; None if there is none."""
    paths, queue = {(start, 0): ""}, [(start, 0)]
    for state, made in queue:
        for letter, after, ahead, pushed in plays.steps(board, *state):
            reached = (after, ahead), made + (pushed is not None)
            text = paths[state, made] + (letter if pushed is None else letter.upper())
            if reached == (start, pushes):
                return text
            if reached not in paths and reached[1] <= pushes:
                paths[reached] = text
                queue.append(reached)
    return None


def longer(board, text, pushes, first=0):
    """A solution with so many pushes more, and with more moves: the text with a loop in its first state that has
    one, from the state at the place `first` on. None if there is no such state."""
    for place, state in enumerate(states_along(board, text)):
        way = loop(board, state, pushes) if first <= place else None
        if way:
            return text[:place] + way + text[place:]
    return None
