"""An independent search for the least solution, by the definitions of docs/FORMATS.md and docs/GAME.md. Positions
are sets of boxes with the least square that the player reaches. Layers hold the undoomed positions by their fewest
pushes, in the order of their least push lists. Under a cap of pushes, the search first finds the same layers and
then removes the positions that the cap does not admit.

It shares no code with the program. It is slow and plain, and made for small levels."""
import functools
import itertools

from formats import DIRS, line, moved

ORDER = "dlru"


def reached(board, boxes, player):
    """The squares that the player walks to without a push."""
    seen, waiting = {player}, [player]
    while waiting:
        square = waiting.pop()
        for step in DIRS.values():
            beside = moved(square, step)
            if beside not in seen and beside not in boxes and not board.is_wall(beside):
                seen.add(beside)
                waiting.append(beside)
    return seen


def is_doomed(board, live, boxes):
    """Whether a box stands on a dead square, or some boxes, one of them off goal, are frozen together."""
    if not boxes <= live:
        return True
    frozen = set(boxes)

    def is_blocked(square, step):
        sides = moved(square, step), moved(square, (-step[0], -step[1]))
        return any(board.is_wall(side) or side in frozen for side in sides) or all(side not in live for side in sides)

    while True:
        free = {square for square in frozen if not (is_blocked(square, DIRS["d"]) and is_blocked(square, DIRS["r"]))}
        if not free:
            return not frozen <= board.goals
        frozen -= free


def successors(board, live, position):
    """The pushes from a position in their order, each with the undoomed position that it leads to."""
    boxes, player = position
    area = reached(board, boxes, player)
    for square in sorted(boxes):
        for letter in ORDER:
            step = DIRS[letter]
            ahead, behind = moved(square, step), moved(square, (-step[0], -step[1]))
            if behind in area and ahead not in boxes and not board.is_wall(ahead):
                after = boxes - {square} | {ahead}
                if not is_doomed(board, live, after):
                    yield (square, letter), (after, min(reached(board, after, square)))


def walk(board, boxes, start, end):
    """The shortest walk, of those the least text."""
    far, waiting = {end: 0}, [end]
    for square in waiting:
        for step in DIRS.values():
            beside = moved(square, step)
            if beside not in far and beside not in boxes and not board.is_wall(beside):
                far[beside] = far[square] + 1
                waiting.append(beside)
    text = ""
    while start != end:
        letter = next(it for it in ORDER if far.get(moved(start, DIRS[it]), -1) == far[start] - 1)
        text, start = text + letter, moved(start, DIRS[letter])
    return text


def text_of(board, pushes):
    """The play of these pushes with the fewest moves, of those the least text."""
    boxes, player, text = frozenset(board.boxes), board.player, ""
    for square, letter in pushes:
        step = DIRS[letter]
        text += walk(board, boxes, player, moved(square, (-step[0], -step[1]))) + letter.upper()
        boxes, player = boxes - {square} | {moved(square, step)}, square
    return text


def layers(board, most):
    """The layers, each a list of positions with the push list that leads there; None instead of one that would
    bring the positions above `most`."""
    boxes, live = frozenset(board.boxes), board.live()
    start = boxes, min(reached(board, boxes, board.player))
    layer = [] if is_doomed(board, live, boxes) else [(start, ())]
    seen = {position for position, _ in layer}
    while layer:
        yield layer
        after = []
        for position, pushes in layer:
            for push, found in successors(board, live, position):
                if found not in seen:
                    seen.add(found)
                    after.append((found, pushes + (push,)))
            if len(seen) > most:
                yield None
                return
        layer = after


def pushes_alone(board, square):
    """The fewest pushes by which a lone box comes from a square to some goal, the player being set down anew
    before each; None where none do."""
    far, waiting = {square: 0}, [square]
    for place in waiting:
        if place in board.goals:
            return far[place]
        for step in DIRS.values():
            ahead, behind = moved(place, step), moved(place, (-step[0], -step[1]))
            if ahead not in far and not board.is_wall(ahead) and not board.is_wall(behind):
                far[ahead] = far[place] + 1
                waiting.append(ahead)
    return None


def admitted(board, cap, whole):
    """Of whole layers those that the cap reaches, each with the positions alone whose boxes, each as if it were
    alone, need no more pushes than the cap leaves. No box of a layer stands where it has none."""
    need = functools.cache(functools.partial(pushes_alone, board))
    for pushes, layer in enumerate(itertools.islice(whole, cap + 1)):
        yield layer and [entry for entry in layer if pushes + sum(map(need, entry[0][0])) <= cap]


def solve(board, limit, most, cap=None):
    """The status and the report of `solve`, under a cap of pushes if one is given; None where whole layers of more
    than `most` positions are needed."""
    count = 0
    for layer in layers(board, min(limit, most)) if cap is None else admitted(board, cap, layers(board, most)):
        if layer is None:
            return (4, line(f"limit {limit} reached")) if cap is None and limit <= most else None
        count += len(layer)
        if count > limit:
            return 4, line(f"limit {limit} reached")
        for (boxes, _), pushes in layer:
            if boxes <= board.goals:
                text = text_of(board, pushes)
                return 0, line(f"solved {len(pushes)} pushes, {len(text)} moves, {count} positions") + line(text)
    return 1, line(f"{'unsolvable' if cap is None else f'none within {cap} pushes'}, {count} positions")
