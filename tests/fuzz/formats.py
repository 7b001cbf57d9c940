"""An independent reading of the formats of docs/FORMATS.md: what each command except `solve`, `best` and `prove`
writes, and its status.

It shares nothing with the program. It is slow and plain, and made for small inputs."""
import contextlib
import functools
import itertools
import re

MOST_ROWS = MOST_COLUMNS = 255
MOST_BOXES = 64
MOST_PLACES = 20
MOST_MATCHED = 65_536
MOST_MOVES = 1_000_000
MOST_BYTES = 16_777_216
MOST_NUMBER = 4_294_967_295

ITEM = re.compile(rb"(\d*)([#@+$*. \-_])")
FLOORS = bytes.maketrans(b"-_", b"  ")
COUNT = re.compile(rb"[0-9]*")
DIRS = {"d": (1, 0), "l": (0, -1), "r": (0, 1), "u": (-1, 0)}


def lines_of(data):
    """The lines of a collection, without their ends."""
    if data.startswith(b"\xef\xbb\xbf"):
        data = data[3:]
    if not data:
        return []
    parts = data.split(b"\n")
    if not parts[-1]:
        parts.pop()
    return [part[:-1] if part.endswith(b"\r") else part for part in parts]


def row_of(piece):
    """The cells of one piece of a row line; None where it is no list of items."""
    cells, at = bytearray(), 0
    while at < len(piece):
        item = ITEM.match(piece, at)
        if not item:
            return None
        count = item[1]
        if len(count) > 4 or (count and int(count) == 0):
            return None
        cells += item[2] * (int(count) if count else 1)
        at = item.end()
    return bytes(cells.translate(FLOORS))


def rows_of(line):
    """The rows of a row line; None for a text line."""
    rows = [row_of(piece) for piece in line.split(b"|") if piece]
    if None in rows or not any(b"#" in row for row in rows):
        return None
    return rows


def name_in(before, after):
    """The name of a board between two gaps."""
    comments = [line[1:] for line in before if line.startswith(b";")]
    titles = [line[6:] for line in after if line.startswith(b"Title:")]
    name = comments[-1] if comments else titles[0] if titles else b""
    return name.strip(b" \t")


class Board:
    """A board of a collection, judged."""

    def __init__(self, first, rows, name):
        rows = [row.rstrip(b" ") for row in rows]
        self.first, self.name = first, name
        self.height, self.width = len(rows), max(map(len, rows))
        self.rows = [row.ljust(self.width) for row in rows]
        self.faults = self.judged()
        self.fault = self.faults[0] if self.faults else None

    @functools.cached_property
    def places(self):
        """The squares of each kind of cell."""
        found = {cell: set() for cell in b"#@+$*. "}
        for r, row in enumerate(self.rows):
            for c, cell in enumerate(row):
                found[cell].add((r, c))
        return found

    def squares(self, cells):
        return set().union(*(self.places[cell] for cell in cells))

    def judged(self):
        """The numbers and the words of all faults; of a board that is too large the first one."""
        if self.height > MOST_ROWS:
            return ["1 TooTall"]
        if self.width > MOST_COLUMNS:
            return ["2 TooWide"]
        self.walls, self.goals = self.squares(b"#"), self.squares(b".*+")
        self.boxes, players = self.squares(b"$*"), self.squares(b"@+")
        self.open = self.squares(b"@+$*. ")
        faults = [] if len(players) == 1 else ["4 TwoPlayers" if players else "3 NoPlayer"]
        if not self.boxes:
            faults.append("5 NoBox")
        elif len(self.boxes) != len(self.goals):
            faults.append(f"6 Counts {len(self.boxes)} {len(self.goals)}")
        return faults + (["7 Open"] if players and self.gets_out(min(players)) else [])

    def gets_out(self, player):
        """Whether the player gets out; else `room` is where it gets."""
        self.player, self.room, waiting = player, {player}, [player]
        while waiting:
            square = waiting.pop()
            for step in DIRS.values():
                beside = moved(square, step)
                if not self.has(beside):
                    return True
                if beside not in self.walls and beside not in self.room:
                    self.room.add(beside)
                    waiting.append(beside)
        return False

    def has(self, square):
        return 0 <= square[0] < self.height and 0 <= square[1] < self.width

    def is_wall(self, square):
        return square not in self.open

    def live(self):
        """The squares from which a lone box can be pushed to a goal, by pulls from the goals."""
        found, waiting = set(self.goals), list(self.goals)
        while waiting:
            square = waiting.pop()
            for row, column in DIRS.values():
                before, behind = moved(square, (-row, -column)), moved(square, (-2 * row, -2 * column))
                if before not in found and not self.is_wall(before) and not self.is_wall(behind):
                    found.add(before)
                    waiting.append(before)
        return found


def moved(square, step):
    return square[0] + step[0], square[1] + step[1]


def parts_of(data):
    """What each board of a collection is made of, in their order: its first line, its rows, its name, and for each row
    its line and whether that is plain."""
    boards, gaps, at_board = [], [[]], False
    for number, line in enumerate(lines_of(data), 1):
        rows = rows_of(line)
        if rows is None:
            gaps[-1].append(line)
        else:
            if not at_board:
                boards.append((number, [], []))
                gaps.append([])
            boards[-1][1].extend(rows)
            boards[-1][2].extend([(number, not re.search(rb"[0-9|]", line))] * len(rows))
        at_board = rows is not None
    return [(first, rows, name_in(gaps[place], gaps[place + 1]), places)
            for place, (first, rows, places) in enumerate(boards)]


def boards_of(data):
    """The boards of a collection in their order."""
    return [Board(*parts[:3]) for parts in parts_of(data)]


def letters_of(text):
    """The letters of a LURD text, or its first fault in words."""
    letters, at = [], 0
    while at < len(text):
        if text[at] in b" \t\r\n":
            at += 1
            continue
        count = COUNT.match(text, at)[0]
        end = at + len(count)
        letter = text[end : end + 1].decode("latin-1")
        known = letter != "" and letter in "lurdLURD"
        if count and (len(count) > 4 or int(count) == 0 or not known):
            return None, f"bad count at {at + 1}"
        if not known:
            return None, f"bad byte at {at + 1}"
        many = int(count) if count else 1
        if len(letters) + many > MOST_MOVES:
            return None, "too many moves"
        letters += letter * many
        at = end + 1
    return letters, None


def verdict(board, letters):
    """The status and the words of a replay."""
    boxes, player, pushes = set(board.boxes), board.player, 0
    for place, letter in enumerate(letters, 1):
        step = DIRS[letter.lower()]
        ahead = moved(player, step)
        beyond = moved(ahead, step)
        is_push = ahead in boxes
        if board.is_wall(ahead) or is_push and (board.is_wall(beyond) or beyond in boxes):
            return 1, f"blocked at {place}"
        if letter.isupper() != is_push:
            return 1, f"wrong case at {place}"
        if is_push:
            boxes.remove(ahead)
            boxes.add(beyond)
            pushes += 1
        player = ahead
    solved = boxes <= board.goals
    return (0 if solved else 1), f"{'' if solved else 'un'}solved {pushes} pushes, {len(letters)} moves"


def line(text, name=b""):
    return text.encode() + (b" " + name if name else b"") + b"\n"


def check(data):
    """The status and the report of `check`."""
    boards, text = boards_of(data), b""
    for number, board in enumerate(boards, 1):
        said = f"fault {board.fault}" if board.fault else f"ok {board.height}x{board.width} {len(board.boxes)} boxes"
        text += line(f"{number} line {board.first} {said}", board.name)
    good = sum(board.fault is None for board in boards)
    return (0 if good == len(boards) else 1), text + line(f"{len(boards)} levels, {good} good")


def lawful(data, number):
    """The board of a level; or else the report that there is none, or of its fault."""
    boards = parts_of(data)
    if number > len(boards):
        return None, (1, line(f"no level {number}"))
    board = Board(*boards[number - 1][:3])
    if board.fault:
        return None, (1, line(f"fault {board.fault}"))
    return board, None


def byte_words(text):
    """The character that begins some bytes of a line, in words; or the byte."""
    for length in (2, 3, 4):
        with contextlib.suppress(UnicodeDecodeError):
            letter = text[:length].decode()
            if len(letter) == 1 and ord(letter) >= 0xA0:
                return "a no-break space" if letter == "\xa0" else f"'{letter}' (U+{ord(letter):04X})"
    byte = text[0]
    return "a tab" if byte == 9 else f"'{chr(byte)}'" if 32 < byte < 127 else f"value {byte}"


def break_of(line):
    """The first byte of a line, from 1, at which neither an item nor a bar begins, and why."""
    at = 0
    while at < len(line):
        item = ITEM.match(line, at)
        count = COUNT.match(line, at)[0]
        if line[at : at + 1] == b"|":
            at += 1
        elif item and len(count) <= 4 and (not count or int(count)):
            at = item.end()
        elif not count:
            return f"column {at + 1}, {byte_words(line[at:])}, is no cell"
        elif len(count) > 4:
            return f"column {at + 1} begins a count of too many digits"
        else:
            return f"column {at + 1} begins a count {'that no cell follows' if int(count) else 'of 0'}"
    return None


def broken_rows(data):
    """The lines that are no rows and no words, and have a wall, or cells alone between two rows: the number of each, and
    what is written of it."""
    lines, found = lines_of(data), []
    for number, text in enumerate(lines, 1):
        if rows_of(text) is not None or re.match(rb"[;A-Za-z]", text):
            continue
        parts = 1 < number < len(lines) and rows_of(lines[number - 2]) and rows_of(lines[number])
        reason = break_of(text)
        if b"#" in text:
            said = f"has a wall and is no row: {reason}"
        elif parts and reason is None and re.search(rb"[@+$*.]", text) and len(set(text)) > 1:
            said = "has cells and no wall"
        else:
            continue
        advice = "; it cuts a level in two: remove it, or put an empty line before the next level" if parts else ""
        found.append((number, line(f"line {number} {said}{advice}")))
    return found


def foreign_row(data):
    """What is written of the first line that looks like a board of other characters."""
    for number, text in enumerate(lines_of(data), 1):
        foreign = sum(byte == 0 or byte > 127 or chr(byte) in "XxHhWw%=" for byte in text)
        if foreign >= 3 and 2 * foreign > len(text) - text.count(b" "):
            return line(f"line {number} looks like a board of other characters")
    return b""


def frozen(board, boxes):
    """Whether some of the boxes are frozen, not all of them on goals."""
    held, live = set(boxes), board.live()

    def is_held(square, step):
        before, behind = moved(square, (-step[0], -step[1])), moved(square, step)
        blocked = any(board.is_wall(beside) or beside in held for beside in (before, behind))
        return blocked or before not in live and behind not in live

    while loose := {square for square in held if not all(is_held(square, step) for step in ((0, 1), (1, 0)))}:
        held -= loose
    return not held <= board.goals


def frozen_part(board, boxes):
    """Some frozen boxes, without each that the others are frozen without; of many boxes, all."""
    few = list(boxes)
    for square in boxes if len(boxes) <= MOST_BOXES else []:
        others = [other for other in few if other != square]
        if frozen(board, others):
            few = others
    return few


def is_stuck(board):
    """Whether the player has no step at the start."""
    for step in DIRS.values():
        ahead = moved(board.player, step)
        beyond = moved(ahead, step)
        if not board.is_wall(ahead) and (ahead not in board.boxes or
                                         not board.is_wall(beyond) and beyond not in board.boxes):
            return False
    return True


class Alone:
    """Where lone boxes of a board can be pushed, the player walking round them."""

    def __init__(self, board):
        self.board, self.pushes = board, {}

    def area(self, box, player):
        """The squares that the player walks to round a box."""
        seen, waiting = {player}, [player]
        while waiting:
            square = waiting.pop()
            for step in DIRS.values():
                beside = moved(square, step)
                if beside not in seen and beside != box and not self.board.is_wall(beside):
                    seen.add(beside)
                    waiting.append(beside)
        return frozenset(seen)

    def after(self, state):
        """The states after one push."""
        if state not in self.pushes:
            box, area = state
            self.pushes[state] = [(moved(box, step), self.area(moved(box, step), box)) for step in DIRS.values()
                                  if moved(box, (-step[0], -step[1])) in area and not self.board.is_wall(moved(box, step))]
        return self.pushes[state]

    def goals(self, box):
        """The goals that a box gets to from the start."""
        first = box, self.area(box, self.board.player)
        seen, waiting = {first}, [first]
        while waiting:
            for state in self.after(waiting.pop()):
                if state not in seen:
                    seen.add(state)
                    waiting.append(state)
        return {square for square, _ in seen} & self.board.goals


def is_unmatched(board):
    """Whether no goals of their own can be given to all boxes such that each gets to its goal; of many boxes
    and in large levels, no."""
    if len(board.boxes) > MOST_BOXES or board.height * board.width * len(board.boxes) > MOST_MATCHED:
        return False
    alone, owner = Alone(board), {}
    near = {box: alone.goals(box) for box in board.boxes}

    def is_given(box, tried):
        for goal in near[box] - tried:
            tried.add(goal)
            if goal not in owner or is_given(owner[goal], tried):
                owner[goal] = box
                return True
        return False

    return not all(is_given(box, set()) for box in board.boxes)


def remark(board):
    """What is found at the start of a lawful level: words, and the squares to which they apply; None if nothing is."""
    boxes, live = sorted(board.boxes), board.live()
    plights = {
        "unsolvable: the player never gets to the box": board.boxes - board.room - board.goals,
        "unsolvable: no box gets to the goal": board.goals - board.room - board.boxes,
        "unsolvable: a box is on a dead square": board.boxes - live,
    }
    if board.boxes <= board.goals:
        return "solved already", None
    for words, squares in plights.items():
        if squares:
            return words, squares
    if frozen(board, boxes):
        return "frozen", frozen_part(board, boxes)
    if is_stuck(board):
        return "unsolvable: the player cannot move", None
    if is_unmatched(board):
        return "unsolvable: some boxes together get to fewer goals than they are", None
    return None


def nearest_exit(board):
    """How many steps lead to the nearest squares at the edge of the grid, and these squares."""
    seen, layer, count = {board.player}, [board.player], 0
    while layer:
        edge = [square for square in layer if not all(board.has(moved(square, step)) for step in DIRS.values())]
        if edge:
            return edge
        layer = sorted({moved(square, step) for square in layer for step in DIRS.values()} - seen - board.walls)
        seen |= set(layer)
    return []


def picture(board):
    """The rows of a board as they were read, with the dead squares of a lawful level."""
    rows = [bytearray(row) for row in board.rows]
    for r, c in set() if board.fault else board.open - board.live():
        if rows[r][c] == ord("$"):
            rows[r][c] = ord("!")
        elif rows[r][c] == ord(" ") and (r, c) in board.room:
            rows[r][c] = ord("x")
    return b"".join(row.rstrip(b" ") + b"\n" for row in rows)


def excess(board, places):
    """Where a board has too many rows, or else a row that is too long."""
    if board.height > MOST_ROWS:
        return f"row {MOST_ROWS + 1} is at line {places[MOST_ROWS][0]}"
    first = next(place for place, row in zip(places, board.rows) if len(row.rstrip(b" ")) > MOST_COLUMNS)
    return f"line {first[0]} has a row with more than {MOST_COLUMNS} columns"


def explained(board, places, is_wanted):
    """What may be written below the line of a level: lists of sentences, of which the program chooses one."""

    def at(square):
        line, is_plain = places[square[0]]
        return f"line {line}, column {square[1] + 1}" + ("" if is_plain else f" of row {square[0] + 1}")

    def sentences(words, squares):
        squares = sorted(squares)
        more = [f"  and {len(squares) - MOST_PLACES} more"] if len(squares) > MOST_PLACES else []
        return [f"  {words} at {at(square)}" for square in squares[:MOST_PLACES]] + more

    def told(fault):
        if fault[0] in "12":
            return [[f"  {excess(board, places)}"]]
        if fault[0] in "56":
            return [sentences("a box is", board.boxes) + sentences("a goal is", board.goals)]
        if fault[0] == "7":
            return [sentences("the player gets out", [square]) for square in nearest_exit(board)]
        players = board.squares(b"@+")
        parted = ["  if these are two levels, put an empty line between them"] if len(players) > 1 else []
        return [sentences("a player is", players) + parted]

    if board.fault:
        also = [[[f"also fault {fault}", *way] for way in told(fault)] for fault in board.faults[1:]]
        return [sum(parts, []) for parts in itertools.product(told(board.fault), *also)]
    words, squares = remark(board) or ("", None)
    if not words:
        return [["  nothing found; sokopar best FILE N decides whether it can be solved"] if is_wanted else []]
    if words == "frozen":
        words = "  unsolvable: some of these boxes are frozen, not all of them on goals"
        return [[words, *sentences("a box is", squares)]]
    return [sentences(words, squares) if squares else [f"  {words}"]]


def is_shown(board, wanted):
    """Whether a board is shown: the player gets out, or it is wanted by its number, unless it is too large."""
    return "7 Open" in board.faults or wanted is not None and (board.fault or "7")[0] not in "12"


def explain(data, wanted):
    """The statuses and reports of `explain` that are right, for all levels or the wanted one."""
    parts, sound = parts_of(data), True
    boards = [Board(*part[:3]) for part in parts]
    firsts = [0] + [board.first for board in boards] + [len(data) + 2]
    if wanted is not None and wanted > len(boards):
        return [(1, line(f"no level {wanted}"))]
    broken = broken_rows(data)
    texts, lost = [b""], 0
    for number, before, after in zip(range(1, len(boards) + 2), firsts, firsts[1:]):
        if wanted in (None, number, number - 1):
            for row, text in broken:
                if before < row < after:
                    texts, sound = [old + text for old in texts], False
        if number > len(boards) or wanted not in (None, number):
            continue
        board = boards[number - 1]
        ways = explained(board, parts[number - 1][3], wanted is not None)
        if board.fault is None and ways == [[]]:
            continue
        rows = picture(board) if is_shown(board, wanted) else b""
        judged = f"fault {board.fault}" if board.fault else f"ok {board.height}x{board.width} {len(board.boxes)} boxes"
        head = line(f"{number} line {board.first} {judged}", board.name)
        is_sound = board.fault is None and ways[0][0].startswith("  nothing")
        sound, lost = sound and is_sound, lost + (board.fault is None and ways[0][0].startswith("  unsolvable"))
        texts = [old + head + b"".join(map(line, way)) + rows for old in texts for way in ways]
    if not boards and foreign_row(data):
        texts, sound = [old + foreign_row(data) for old in texts], False
    good = sum(board.fault is None for board in boards)
    more = f", {lost} of them unsolvable" if lost else ""
    totals = line(f"{len(boards)} levels, {good} good{more}") if wanted is None else b""
    return [(0 if sound else 1, text + totals) for text in texts]


def show(data, number):
    board, refused = lawful(data, number)
    return refused or (0, b"".join(row.rstrip(b" ") + b"\n" for row in board.rows))


def shown_range(data, first, last):
    """The status and the report of `show` of the levels from the first to the last number."""
    boards, text, status = boards_of(data), b"", 0
    if len(boards) < first:
        return 1, line(f"no level {first}")
    for number, board in enumerate(boards, 1):
        if not first <= number <= last:
            continue
        if board.fault:
            text, status = text + line(f"; {number} line {board.first} fault {board.fault}", board.name), 1
            continue
        rows = [row.rstrip(b" ") for row in board.rows]
        is_plain = all(b"#" in row for row in rows)
        rows = b"".join(row + b"\n" for row in rows) if is_plain else b"".join(row + b" |" for row in rows) + b"\n"
        text += line(";", board.name + (b" " if b"\r" in board.name else b"")) + rows + b"\n"
    return status, text


def read_again(data, first, last, text):
    """Whether a report of `shown_range` is a collection of the lawful levels of the range, with their names."""
    kept = [board for number, board in enumerate(boards_of(data), 1)
            if first <= number <= last and not board.fault]
    again = boards_of(text)
    return [(board.name, board.rows) for board in again] == [(board.name, board.rows) for board in kept]


def dead(data, number):
    board, refused = lawful(data, number)
    if refused:
        return refused
    live, text = board.live(), b""
    for r in range(board.height):
        cells = ""
        for c in range(board.width):
            square = (r, c)
            lost = square in board.room and square not in live
            cells += "#" if square in board.walls else "." if square in board.goals else "x" if lost else " "
        text += line(cells.rstrip(" "))
    return 0, text


def replay(data, number, solution):
    board, refused = lawful(data, number)
    if refused:
        return refused
    letters, fault = letters_of(solution)
    status, words = (1, fault) if fault else verdict(board, letters)
    return status, line(words)
