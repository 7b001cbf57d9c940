"""An independent lower bound on the pushes of a level's solutions: each box is pushed to a goal of its own as if it
were alone, and the player is set down anew before each push."""
from formats import DIRS, moved

NEVER = 10**9


def pushes_to(board, goal):
    """The fewest pushes from each square to a goal, for squares that a box can be pushed from."""
    far, waiting = {goal: 0}, [goal]
    for square in waiting:
        for step in DIRS.values():
            before = moved(square, (-step[0], -step[1]))
            behind = moved(before, (-step[0], -step[1]))
            if before not in far and not board.is_wall(before) and not board.is_wall(behind):
                far[before] = far[square] + 1
                waiting.append(before)
    return far


def bound(board):
    """The least sum of pushes over all ways to give each box a goal of its own, and NEVER or more if there is no
    way. Boxes get goals one by one, each time by a cheapest chain of exchanges (Bellman and Ford)."""
    far = [pushes_to(board, goal) for goal in sorted(board.goals)]
    boxes = sorted(board.boxes)
    need = [[it.get(box, NEVER) for it in far] for box in boxes]
    holder = {}
    for box in range(len(boxes)):
        cost, last = list(need[box]), {}
        for _ in far:
            for goal, other in holder.items():
                for to in range(len(far)):
                    more = cost[goal] - need[other][goal] + need[other][to]
                    if more < cost[to]:
                        cost[to], last[to] = more, goal
        goal = min((it for it in range(len(far)) if it not in holder), key=cost.__getitem__)
        while goal in last:
            holder[goal] = holder[last[goal]]
            goal = last[goal]
        holder[goal] = box
    return sum(need[box][goal] for goal, box in holder.items())
