"""Files that make the program take much memory for each byte, and how much it may take (docs/FORMATS.md has the
table)."""

# the bytes that a run of any command except `solve`, `best` and `prove` takes at most: FIXED, and A_BYTE for each byte
# of its files; and `explain` A_BYTE_TOLD more for each byte of its report, which has at most TOLD_MORE bytes and
# TOLD_A_BYTE for each byte of the file
FIXED = 8 << 20
A_BYTE = 20
A_BYTE_TOLD = 2.25
TOLD_MORE, TOLD_A_BYTE = 2048, 400

SIZE = 1 << 20
MOST = 1 << 24
ONE = b"#####\n#@$.#\n#####\n"

# an open room of 22 rows and columns with 11 boxes, which has far more positions than the default limit
WIDE_ROWS = [" " * 20] * 7 + ["    $$$$$$$$$$$     "] + [" " * 20] * 5 + ["    ...........     "
                                                                         ] + [" " * 20] * 5 + [" " * 19 + "@"]
WIDE_ROOM = "\n".join(["#" * 22, *(f"#{row}#" for row in WIDE_ROWS), "#" * 22, ""]).encode()

# a level of 255 rows and 255 columns in as few bytes as there are: most rows have one wall, and floor is filled in
MOST_CELLS = b"255#|#@*#|4#|" + b"#|" * 251 + b"#\n\n"
PARTS = {
    "empty lines": b"\n",
    "walls": b"#",
    "rows of many cells": b"9999#|",
    "lines of one wall": b"#\n",
    "boards of one wall": b"#\n\n",
    "boards with names": b";x\n#\n",
    "boards with titles": b"#\nTitle:x\n",
    "small levels": b"4#|#@*#|4#\n\n",
    "levels of many cells": MOST_CELLS,
}


# those of which `explain` says most
TOLD = {
    "players and boxes in counts": b"#99+99*\n\n",
    "open boards of many cells": b"#@$.|" + b"255#|" * 250 + b"\n\n",
    "broken rows between boards": b"#\n#\t\n",
}


def filled(part, size=SIZE):
    """A part as often as fits."""
    return part * (size // len(part))


def collections():
    """The worst files, by their names. The one with the longest report for each of its bytes is also tried at the
    greatest length."""
    yield from ((name, filled(part)) for name, part in PARTS.items())
    yield "as many boards of one wall as a file has room for", filled(PARTS["boards of one wall"], MOST)


def solutions():
    """The worst solutions, by their names."""
    yield "as many moves as a text may have", b"9999l" * 100 + b"100l"
    yield "blanks", b" " * SIZE


def cases():
    """The name of what is read, the words behind the program's name, where FILE and MOVES are files, and their
    bytes."""
    for name, file in collections():
        yield name, ["check", "FILE"], file, b""
        for command in ("show", "dead"):
            yield name, [command, "FILE", "1"], file, b""
    for name, moves in solutions():
        yield name, ["replay", "FILE", "1", "MOVES"], ONE, moves
