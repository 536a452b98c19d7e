"""The pixels of a display as they were read last, and frames of the cells that changed, as docs/FORMATS.md has them."""

import re
from dataclasses import dataclass
from typing import Iterable, List, NamedTuple, Optional, Set, Tuple

from rio9 import formats

CELL = 32
HEADER_BYTES = 60
MOST_SIDE = 2048
CURSOR = 16
HEADER = re.compile(r" *([rgbkax1-8]{2,8}) +0 +0 +([0-9]{1,11}) +([0-9]{1,11}) ")


class BadScreen(ValueError):
    """What a server gave as its screen is none. It tells why."""


@dataclass(frozen=True)
class Point:
    """A place on the display."""

    x: int
    y: int


@dataclass(frozen=True)
class Form:
    """What a display is besides its pixels: its channels and its sides."""

    channels: str
    width: int
    height: int

    @property
    def depth(self) -> int:
        """The bits of a pixel."""
        return sum(int(bits) for bits in self.channels[1::2])

    @property
    def row_bytes(self) -> int:
        """The bytes of a row."""
        return -(-self.width * self.depth // 8)

    @property
    def columns(self) -> int:
        """The cells beside each other."""
        return -(-self.width // CELL)

    @property
    def cells(self) -> int:
        """The cells of the display."""
        return self.columns * -(-self.height // CELL)


def form_of(header: bytes) -> Form:
    """The form that the header of an image file tells (image(6))."""
    try:
        found = HEADER.fullmatch(header.decode("ascii"))
        formats.channels_word(found[1] if found else "")
    except ValueError:
        found = None
    if found is None or len(header) != HEADER_BYTES:
        raise BadScreen("the file screen has no header of an image")
    form = Form(found[1], int(found[2]), int(found[3]))
    if not (1 <= form.width <= MOST_SIDE and 1 <= form.height <= MOST_SIDE):
        raise BadScreen(
            f"the screen has {form.width} by {form.height} points, and a display has sides from 1 to {MOST_SIDE}"
        )
    if form.depth not in (1, 2, 4, 8, 16, 24, 32):
        raise BadScreen(f"the screen has pixels of {form.depth} bits")
    return form


class Cell(NamedTuple):
    """A cell: its left and upper edge, and its sides."""

    x: int
    y: int
    width: int
    height: int


class Screen:
    """A display's pixels, as rows of its channels. Cells are numbered row by row."""

    def __init__(self, form: Form) -> None:
        self.form = form
        self.is_read = False
        self.rows = bytearray(form.row_bytes * form.height)

    def cell(self, number: int) -> Cell:
        """The cell of a number."""
        row, column = divmod(number, self.form.columns)
        x, y = column * CELL, row * CELL
        return Cell(x, y, min(CELL, self.form.width - x), min(CELL, self.form.height - y))

    def take(self, upper: int, data: bytes) -> Set[int]:
        """Takes whole rows from a row on, and gives the cells in which a pixel is another now."""
        across = self.form.row_bytes
        at = upper * across
        if len(data) % across or at + len(data) > len(self.rows):
            raise BadScreen(f"{len(data)} bytes came for rows of {across} bytes")
        old = bytes(self.rows[at : at + len(data)])
        if old == data:
            return set()
        self.rows[at : at + len(data)] = data
        changed: Set[int] = set()
        row = upper
        while row < upper + len(data) // across:
            below = min((row // CELL + 1) * CELL, upper + len(data) // across)
            span = slice((row - upper) * across, (below - upper) * across)
            first = row // CELL * self.form.columns
            changed.update(first + column for column in self.other_columns(old[span], data[span]))
            row = below
        return changed

    def other_columns(self, old: bytes, new: bytes) -> Iterable[int]:
        """The columns of cells in which rows of one row of cells differ."""
        across, step = self.form.row_bytes, CELL * self.form.depth // 8
        left = list(range(self.form.columns))
        for at in range(0, len(new), across):
            if not left:
                break
            if old[at : at + across] == new[at : at + across]:
                continue
            ends = [(column, at + column * step, min(at + (column + 1) * step, at + across)) for column in left]
            found = {column for column, begin, end in ends if old[begin:end] != new[begin:end]}
            left = [column for column in left if column not in found]
            yield from found

    def frame(self, number: int, cells: Iterable[int], is_sized: bool, cursor: Optional[Point] = None) -> bytes:
        """The frame of some cells, with the cursor over them where it is somewhere."""
        order = sorted(cells)
        parts = [b"F %d %d\n" % (number, len(order))]
        if is_sized:
            parts.append(b"Z %d %d\n" % (self.form.width, self.form.height))
        met = set() if cursor is None else self.met_by(cursor)
        across, step, band, band_row = self.form.row_bytes, CELL * self.form.depth // 8, b"", -1
        for place in order:
            row, column = divmod(place, self.form.columns)
            if row != band_row:
                band, band_row = bytes(self.rows[row * CELL * across : (row + 1) * CELL * across]), row
            begin, size = column * step, min(step, across - column * step)
            rows = b"".join([band[at : at + size] for at in range(begin, len(band), across)])
            cell = self.cell(place)
            parts.append(b"C %d %d %d %d\n" % (cell.x, cell.y, cell.width, cell.height))
            parts.append(rows if cursor is None or place not in met else self.with_cursor(cell, rows, cursor))
        return b"".join(parts)

    def met_by(self, cursor: Point) -> Set[int]:
        """The cells that the cursor's square meets."""
        right, lower = min(cursor.x + CURSOR, self.form.width), min(cursor.y + CURSOR, self.form.height)
        if cursor.x >= right or cursor.y >= lower:
            return set()
        columns = range(max(cursor.x, 0) // CELL, -(-right // CELL))
        rows = range(max(cursor.y, 0) // CELL, -(-lower // CELL))
        return {row * self.form.columns + column for row in rows for column in columns}

    def with_cursor(self, cell: Cell, rows: bytes, cursor: Point) -> bytes:
        """The rows of a cell with the cursor over them."""
        depth = self.form.depth
        size = -(-cell.width * depth // 8)
        black, white = raw_grey(self.form.channels, False), raw_grey(self.form.channels, True)
        made = bytearray(rows)
        for x, y, is_black in cursor_points():
            column, row = cursor.x + x - cell.x, cursor.y + y - cell.y
            if 0 <= column < cell.width and 0 <= row < cell.height:
                put_pixel(made, row * size, column, depth, black if is_black else white)
        return bytes(made)


def cursor_points() -> Iterable[Tuple[int, int, bool]]:
    """The points of the cursor from its tip on, and whether each is black."""
    for y in range(CURSOR):
        for x in range(y + 1):
            yield x, y, x in (0, y) or y == CURSOR - 1


def raw_grey(channels: str, is_white: bool) -> int:
    """The pixel of opaque white or black."""
    raw = 0
    for letter, bits in zip(channels[::2], map(int, channels[1::2])):
        is_full = letter == "a" or is_white and letter in "rgbk"
        raw = raw << bits | ((1 << bits) - 1 if is_full else 0)
    return raw


def put_pixel(rows: bytearray, at: int, column: int, depth: int, raw: int) -> None:
    """Puts a pixel into the row that begins at a byte."""
    if depth >= 8:
        size = depth // 8
        begin = at + column * size
        rows[begin : begin + size] = raw.to_bytes(size, "little")
        return
    place, shift = at + column * depth // 8, 8 - depth - column * depth % 8
    mask = (1 << depth) - 1 << shift
    rows[place] = rows[place] & ~mask & 255 | raw << shift


def pieces_of(form: Form, most: int) -> List[Tuple[int, int]]:
    """The rows that reads of so many bytes give at most: the first row of each piece, and the one below its last."""
    rows = max(most // form.row_bytes, 1)
    return [(upper, min(upper + rows, form.height)) for upper in range(0, form.height, rows)]
