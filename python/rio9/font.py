"""The font that is drawn in a text, which `rio9d font` writes as what `rio9 text` reads before its own text.

Such a text's first lines, up to an empty one, are not looked at. Then come blocks with an empty line between them: a
line of names, and the rows of sixteen characters side by side, in the last block of fifteen, with a blank between each
two. `#` is a point with ink, `.` one without. All characters are of one size, 1 to 8 points wide and 1 to 16 high, and
they are those from 0x20 to 0x7E in order; a name stands over its character, so that whoever reads the text finds it.

It is outside the proof. Needs: Python 3.9 or later, its standard library alone.
"""

import os
from typing import List, Sequence, Tuple

from rio9 import formats

DRAWN = os.path.join(os.path.dirname(os.path.abspath(__file__)), "font.txt")
FIRST, LAST, IN_A_BLOCK = 0x20, 0x7E, 16
CELLS = LAST - FIRST + 1
MOST_WIDE, MOST_HIGH = 8, 16
INK = {"#": 255, ".": 0}


def image_file(channels: str, width: int, height: int, rows: bytes) -> bytes:
    """The image file of a rectangle whose min is the origin."""
    return b"".join(b"%11b " % str(field).encode() for field in (channels, 0, 0, width, height)) + rows


def blocks_of(text: str) -> List[Tuple[int, List[str]]]:
    """The blocks behind the first empty line: the number of each one's first line, and its lines."""
    found: List[Tuple[int, List[str]]] = []
    lines = text.split("\n")
    for number, line in enumerate(lines, 1):
        if line and lines[number - 2] == "" and number > 1:
            found.append((number, []))
        if line and found:
            found[-1][1].append(line)
    return found


def check_names(number: int, line: str, names: Sequence[str], width: int) -> None:
    """Raises BadText where a line has not each name over the middle of its character."""
    wanted = "".join(name.rjust((width - 1) // 2 + 1).ljust(width + 1) for name in names).rstrip()
    if line.rstrip() != wanted:
        told = f"these are the characters from {names[0]!r} to {names[-1]!r}, and each name stands over its own"
        raise formats.BadText(number, told)


def rows_of(number: int, line: str, count: int) -> List[bytes]:
    """The points of a row of some characters, each with its own, as bytes."""
    cells = line.split(" ")
    if len(cells) != count or len({len(cell) for cell in cells}) != 1 or set("".join(cells)) - INK.keys():
        raise formats.BadText(number, f"a row of {count} characters of one width is wanted, of # and . alone")
    return [bytes(INK[point] for point in cell) for cell in cells]


def read_block(number: int, lines: Sequence[str], names: Sequence[str]) -> List[List[bytes]]:
    """The characters of a block, each as the list of its rows."""
    rows = [rows_of(number + at, line, len(names)) for at, line in enumerate(lines[1:], 1)]
    if not rows:
        raise formats.BadText(number, "the rows are missing")
    check_names(number, lines[0], names, len(rows[0][0]))
    return [list(cell) for cell in zip(*rows)]


def read_font(text: str) -> List[List[bytes]]:
    """The characters of a font that is drawn in a text, each as the list of its rows."""
    cells: List[List[bytes]] = []
    for number, lines in blocks_of(text):
        names = [chr(code) for code in range(FIRST + len(cells), min(FIRST + len(cells) + IN_A_BLOCK, LAST + 1))]
        if not names:
            raise formats.BadText(number, "the font goes on behind its last character")
        cells += read_block(number, lines, names)
    sizes = {(len(row), len(cell)) for cell in cells for row in cell}
    if len(cells) != CELLS or len(sizes) != 1:
        told = f"{len(cells)} characters in {len(sizes)} sizes, and {CELLS} of one size are wanted"
        raise formats.BadText(text.count("\n") + 1, told)
    ((width, height),) = sizes
    if width > MOST_WIDE or height > MOST_HIGH:
        told = f"characters of {width} by {height} points, which have at most {MOST_WIDE} by {MOST_HIGH}"
        raise formats.BadText(1, told)
    return cells


def font_file(cells: Sequence[Sequence[bytes]]) -> bytes:
    """The image file of characters side by side."""
    rows = b"".join(b"".join(rows) for rows in zip(*cells))
    return image_file("k8", len(cells) * len(cells[0][0]), len(cells[0]), rows)
