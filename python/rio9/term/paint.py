"""Draw messages (draw(3)) that make a window show cells: only what has changed, by strings of a font that is made as it
is needed, and rows that moved by one drawing of the window onto itself.
"""

import re
import struct
from collections import OrderedDict
from dataclasses import dataclass
from typing import Any, Dict, Iterator, List, NamedTuple, Optional, Sequence, Tuple

from rio9.term.cells import Cells, Move
from rio9.term.glyphs import LEFT_HALF, RIGHT_HALF, Glyphs, Shape

WINDOW, FONT, SCRATCH, WHITE, FIRST_COLOUR = 1, 2, 3, 4, 16
SLOTS, MOST_COLOURS, MOST_LOOKS = 1024, 256, 4096
FAR = (-(1 << 28), -(1 << 28), 1 << 28, 1 << 28)
K1 = 0x31
WHITE_COLOUR = 0xFFFFFF
BLANKS = 4  # so many blanks at the end of a string are filled instead

Box = Tuple[int, int, int, int]

# The colours by pyte's names, plain and bright.
COLOURS: Dict[str, Tuple[int, int]] = {
    "black": (0x2B2F36, 0x6B7480),
    "red": (0xD54E53, 0xFF6C6B),
    "green": (0x7FB347, 0xA5D86E),
    "brown": (0xD7A13B, 0xF5CF6B),
    "blue": (0x5A93DB, 0x82B4FF),
    "magenta": (0xB57EDC, 0xD6A4FF),
    "cyan": (0x4DB5BD, 0x7FE0E6),
    "white": (0xC8CDD3, 0xFFFFFF),
}
INK, PAPER = 0xD8DCE2, 0x14181D
HEX = re.compile(r"[0-9a-f]{6}")


class Look(NamedTuple):
    """How a cell is painted."""

    shape: Shape
    ink: int
    paper: int
    lines: int  # of UNDER and THROUGH

    @property
    def style(self) -> Tuple[int, int, int]:
        """What cells of one string have in common."""
        return self.ink, self.paper, self.lines


UNDER, THROUGH = 1, 2
BLANK_SHAPE: Shape = (" ", False)
BLANK = Look(BLANK_SHAPE, INK, PAPER, 0)


def colour_of(name: str, usual: int, is_bright: bool) -> int:
    """The colour of a name of pyte's."""
    if name in COLOURS:
        return COLOURS[name][is_bright]
    return int(name, 16) if HEX.fullmatch(name) else usual


def look_of(cell: Any, shape_text: str) -> Look:
    """How a cell of pyte's is painted."""
    ink, paper = colour_of(cell.fg, INK, cell.bold), colour_of(cell.bg, PAPER, False)
    if cell.reverse:
        ink, paper = paper, ink
    lines = UNDER * cell.underscore | THROUGH * cell.strikethrough
    is_blank = shape_text in ("", " ", "\u00a0")
    return Look(BLANK_SHAPE if is_blank else (shape_text, cell.bold), ink, paper, lines)


class Looks(Dict[Any, Look]):
    """How cells are painted, by the cells of pyte's."""

    def __missing__(self, cell: Any) -> Look:
        self[cell] = look = look_of(cell, cell.data)
        return look


def inverse(look: Look) -> Look:
    """A look with ink and paper the other way, as beneath the cursor and in what is selected."""
    return look._replace(ink=look.paper, paper=look.ink)


# Messages.


def allocate(number: int, chan: int, is_repeated: bool, size: Tuple[int, int], colour: int) -> bytes:
    """`b`: an image."""
    box = (0, 0, *size)
    return struct.pack(
        "<cIIBIB4i4iI", b"b", number, 0, 0, chan, is_repeated, *box, *(FAR if is_repeated else box), colour << 8 | 0xFF
    )


def free(number: int) -> bytes:
    """`f`: an image goes."""
    return struct.pack("<cI", b"f", number)


def fill(image: int, box: Box) -> bytes:
    """`d`: the window from an image that repeats."""
    return struct.pack("<cIII4i2i2i", b"d", WINDOW, image, WHITE, *box, 0, 0, 0, 0)


def shift(box: Box, begin: Tuple[int, int]) -> bytes:
    """`d`: a part of the window from another part of it."""
    return struct.pack("<cIII4i2i2i", b"d", WINDOW, WINDOW, WHITE, *box, *begin, 0, 0)


def string(ink: int, paper: int, pen: Tuple[int, int], clip: Box, indices: Sequence[int]) -> bytes:
    """`x`: characters on a background."""
    head = struct.pack("<cIII2i4i2iHI2i", b"x", WINDOW, ink, FONT, *pen, *clip, 0, 0, len(indices), paper, 0, 0)
    return head + struct.pack(f"<{len(indices)}H", *indices)


def by_name(number: int, name: bytes) -> bytes:
    """`n`: an id for the image of a name."""
    return struct.pack("<cIB", b"n", number, len(name)) + name


FLUSH = b"v"


@dataclass(frozen=True)
class Place:
    """Where cells stand in a window's image: its channels, its inside, and the cells' upper left corner and their
    count."""

    chan: int
    inside: Box
    x: int
    y: int
    columns: int
    lines: int


class Painter:
    """What a window shows of cells, and the messages that make it show them as they are now."""

    def __init__(self, glyphs: Glyphs):
        self.glyphs = glyphs
        self.place: Optional[Place] = None
        self.shown: List[List[Look]] = []
        self.looks = Looks()
        self.slots: "OrderedDict[Shape, int]" = OrderedDict()
        self.colours: "OrderedDict[int, int]" = OrderedDict()
        self.out: List[bytes] = []

    # A window.

    def begin(self) -> List[bytes]:
        """The messages that make what is drawn with, once."""
        wide, high = self.glyphs.width, self.glyphs.height
        return [
            allocate(WHITE, K1, True, (1, 1), WHITE_COLOUR),
            allocate(SCRATCH, K1, False, (wide, high), 0),
            allocate(FONT, K1, False, (wide * SLOTS, high), 0),
            struct.pack("<cIIB", b"i", FONT, SLOTS, self.glyphs.ascent),
        ]

    def settle(self, place: Place) -> List[bytes]:
        """The messages that make a window's image empty, in which cells are painted from now on."""
        self.place = place
        self.out.append(fill(self.colour(PAPER), place.inside))
        self.shown = [[BLANK] * place.columns for _ in range(place.lines)]
        return self.taken()

    def taken(self) -> List[bytes]:
        """The messages that were made since they were last taken."""
        out, self.out = self.out, []
        return out

    # A frame.

    def frame(
        self,
        cells: Cells,
        cursor: Optional[Tuple[int, int]],
        selected: Optional[Tuple[Tuple[int, int], Tuple[int, int]]],
    ) -> List[bytes]:
        """The messages that paint what has changed, with a cursor at a row and a column and what is selected between
        two."""
        for move in cells.moves:
            self.move(move)
        cells.moves.clear()
        for y in range(len(self.shown)):
            row = self.row(cells, y)
            if selected and selected[0][0] <= y <= selected[1][0]:
                left = selected[0][1] if y == selected[0][0] else 0
                right = selected[1][1] + 1 if y == selected[1][0] else len(row)
                row[left:right] = map(inverse, row[left:right])
            if cursor and cursor[0] == y:
                row[cursor[1]] = inverse(row[cursor[1]])
            if row != self.shown[y]:
                for begin, end in runs(row, self.shown[y]):
                    self.paint(y, begin, row[begin:end])
                self.shown[y] = row
        cells.dirty.clear()
        return [*self.taken(), FLUSH] if self.out else []

    def row(self, cells: Cells, y: int) -> List[Look]:
        """How the cells of a row are painted. A cell without a character is the second half of a wide one."""
        line = cells.row(y)
        if len(self.looks) > MOST_LOOKS:
            self.looks.clear()
        found = [self.looks[cell] for cell in line]
        for x, cell in enumerate(line):
            if cell.data == "" and x and line[x - 1].data != "":
                found[x - 1] = look_of(line[x - 1], LEFT_HALF)
                found[x] = look_of(cell, RIGHT_HALF)
        return found

    def move(self, move: Move) -> None:
        """Moves rows of what is shown."""
        place = self.place
        high = move.bottom + 1 - move.top
        if place is None or not move.count or abs(move.count) >= high or move.bottom >= len(self.shown):
            return
        rows = self.shown[move.top : move.bottom + 1]
        up = move.count > 0
        count = abs(move.count)
        wide, tall = place.columns * self.glyphs.width, self.glyphs.height
        top = place.y + move.top * tall
        target, source = (top, top + count * tall) if up else (top + count * tall, top)
        box = (place.x, target, place.x + wide, target + (high - count) * tall)
        self.out.append(shift(box, (place.x, source)))
        moved = rows[count:] + rows[high - count :] if up else rows[:count] + rows[: high - count]
        self.shown[move.top : move.bottom + 1] = [list(row) for row in moved]

    def paint(self, y: int, x: int, looks: List[Look]) -> None:
        """Paints cells of one style, from a row and a column on."""
        blanks = 0
        while blanks < len(looks) and looks[-1 - blanks].shape == BLANK_SHAPE:
            blanks += 1
        if blanks < min(BLANKS, len(looks)):
            blanks = 0
        ink, paper, lines = looks[0].style
        self.write(y, x, looks[: len(looks) - blanks], ink, paper)
        if blanks:
            self.out.append(fill(self.colour(paper), self.box(y, x + len(looks) - blanks, blanks)))
        left, top, right, bottom = self.box(y, x, len(looks))
        for line, at in ((UNDER, top + self.glyphs.ascent + 1), (THROUGH, top + self.glyphs.ascent * 2 // 3)):
            if lines & line and at < bottom:
                self.out.append(fill(self.colour(ink), (left, at, right, at + 1)))

    def write(self, y: int, x: int, looks: List[Look], ink: int, paper: int) -> None:
        """Writes characters, whose glyphs are loaded before if they are not there."""
        if not looks:
            return
        indices = [self.slot(look.shape) for look in looks]
        box = self.box(y, x, len(looks))
        pen = (box[0], box[1] + self.glyphs.ascent)
        self.out.append(string(self.colour(ink), self.colour(paper), pen, box, indices))

    def box(self, y: int, x: int, count: int) -> Box:
        """The rectangle of cells that stand side by side."""
        assert self.place is not None
        left, top = self.place.x + x * self.glyphs.width, self.place.y + y * self.glyphs.height
        return left, top, left + count * self.glyphs.width, top + self.glyphs.height

    # What is drawn with.

    def slot(self, shape: Shape) -> int:
        """The index of a shape in the font. One that was not used for long makes room for it."""
        index = self.slots.get(shape)
        if index is not None:
            self.slots.move_to_end(shape)
            return index
        index = len(self.slots) if len(self.slots) < SLOTS else self.slots.popitem(last=False)[1]
        self.slots[shape] = index
        wide, high = self.glyphs.width, self.glyphs.height
        left = index * wide
        self.out.append(struct.pack("<cI4i", b"y", SCRATCH, 0, 0, wide, high) + self.glyphs.bitmap(shape))
        self.out.append(
            struct.pack("<cIIH4i2ibB", b"l", FONT, SCRATCH, index, left, 0, left + wide, high, 0, 0, 0, wide)
        )
        return index

    def colour(self, rgb: int) -> int:
        """The id of an image of a colour. One that was not used for long makes room for it."""
        number = self.colours.get(rgb)
        if number is not None:
            self.colours.move_to_end(rgb)
            return number
        number = FIRST_COLOUR + len(self.colours)
        if len(self.colours) >= MOST_COLOURS:
            number = self.colours.popitem(last=False)[1]
            self.out.append(free(number))
        self.colours[rgb] = number
        assert self.place is not None
        self.out.append(allocate(number, self.place.chan, True, (1, 1), rgb))
        return number


def runs(row: Sequence[Look], shown: Sequence[Look]) -> Iterator[Tuple[int, int]]:
    """Where cells of one style stand side by side that are not shown so: the first, and the one behind the last."""
    begin = None
    for x, (look, old) in enumerate(zip(row, shown)):
        if look == old:
            if begin is not None:
                yield begin, x
                begin = None
        elif begin is None:
            begin = x
        elif look[1:] != row[begin][1:]:
            yield begin, x
            begin = x
    if begin is not None:
        yield begin, len(row)
