"""A slow search for the least solution by the rules of the game alone. It looks at plays in the order of solutions,
and knows nothing of deadlocks, areas, layers or normal positions.

It shares no code with the program, and only the reading of boards with search.py."""
import heapq

from formats import DIRS, moved

ORDER = "dlru"


def steps(board, boxes, player):
    """The steps that the rules allow: each letter with the boxes and the player after it, and the square of the
    box that it pushes, if any."""
    for letter in ORDER:
        ahead = moved(player, DIRS[letter])
        if board.is_wall(ahead):
            continue
        if ahead not in boxes:
            yield letter, boxes, ahead, None
            continue
        beyond = moved(ahead, DIRS[letter])
        if not board.is_wall(beyond) and beyond not in boxes:
            yield letter, boxes - {ahead} | {beyond}, ahead, ahead


# what the search answers if it finds more states than its limit
TOO_MANY = "too many states"


def least(board, most, cap=None):
    """The pushes and the text of the least solution, of those that a cap of pushes allows, if one is given; None
    where no play solves the level so, or TOO_MANY. A play is compared as solutions are: by its number of pushes,
    then its push list, then its number of moves, then its letters in lower case. Each state is left by the least
    play that leads there, for a lesser beginning makes a lesser play."""
    waiting, left, number = [((0, (), 0, ""), 0, frozenset(board.boxes), board.player, "")], set(), 0
    while waiting:
        (pushes, push_list, moves, letters), _, boxes, player, text = heapq.heappop(waiting)
        if boxes <= board.goals:
            return pushes, text
        if (boxes, player) in left:
            continue
        left.add((boxes, player))
        if len(left) > most:
            return TOO_MANY
        for letter, after, ahead, pushed in steps(board, boxes, player):
            if (after, ahead) not in left and (pushed is None or pushes != cap):
                number += 1
                more = (pushes, push_list) if pushed is None else (pushes + 1, push_list + ((pushed, letter),))
                play = (*more, moves + 1, letters + letter)
                heapq.heappush(waiting,
                               (play, number, after, ahead, text + (letter if pushed is None else letter.upper())))
    return None


def with_detours(board, text, times):
    """A solution with two more pushes, this many times: somewhere a box is pushed to and fro. None if no box can be."""
    boxes, player, states = frozenset(board.boxes), board.player, []
    for letter in text:
        states.append((boxes, player))
        _, boxes, player, _ = next(it for it in steps(board, boxes, player) if it[0] == letter.lower())
    for at, start in enumerate(states):
        paths, queue = {(*start, 0): ""}, [(*start, 0)]
        for boxes, player, pushes in queue:
            for letter, after, ahead, pushed in steps(board, boxes, player):
                state = (after, ahead, pushes + (pushed is not None))
                if state not in paths and state[2] <= 2:
                    paths[state] = paths[boxes, player, pushes] + (letter if pushed is None else letter.upper())
                    queue.append(state)
        if (*start, 2) in paths:
            return text[:at] + paths[(*start, 2)] * times + text[at:]
    return None
