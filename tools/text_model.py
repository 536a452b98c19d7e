"""What `rio9 text` has to do, from the definitions alone: which inputs it takes, what its window shows, and what its record says.

It is outside the proof: it shares nothing with the proved program, and the proved program nothing with it.
"""

import re
from dataclasses import dataclass

from rio9 import font, record
from cases import BORDER, EDGE, GREY, LIMIT, NotSo, read_session

CHANNELS, FIELD_BYTES, ROWS_AT = b"         k8 ", 12, 60
FIELD = re.compile(rb" *-?[0-9]+ ")
# What the left, upper, right and lower edge can be.
FITTING = ([0], [0], [font.CELLS * width for width in range(1, font.MOST_WIDE + 1)], range(1, font.MOST_HIGH + 1))
MOST_OF_A_PIECE = 100
# The bytes of a draw message `d`, and those of an `s` before its indices.
DRAWING, HEAD_OF_STRING = 45, 47


@dataclass(frozen=True)
class Given:
    """An input that fits: the width and height of a character, the font's rows, and the text."""

    width: int
    height: int
    rows: bytes
    text: bytes


def read_field(field):
    """The number in a field (image(6)), or None."""
    return int(field) if len(field) == FIELD_BYTES and FIELD.fullmatch(field) else None


def read_input(data):
    """The input where it fits, else the place that is told."""
    if len(data) >= LIMIT:
        return LIMIT
    if data[:FIELD_BYTES] != CHANNELS:
        return 0
    fields = [read_field(data[at : at + FIELD_BYTES]) for at in range(FIELD_BYTES, ROWS_AT, FIELD_BYTES)]
    for number, fitting in enumerate(FITTING):
        if fields[number] not in fitting:
            return FIELD_BYTES * (number + 1)
    right, lower = fields[2:]
    end = ROWS_AT + right * lower
    if len(data) < end:
        return ROWS_AT
    return Given(right // font.CELLS, lower, data[ROWS_AT:end], data[end:])


# The character of each byte, counted from 0x20.
CODES = bytes((byte if font.FIRST <= byte <= font.LAST else ord("?")) - font.FIRST for byte in range(256))


def characters(text):
    """The characters of a text, each counted from 0x20."""
    return text.replace(b"\n", b"").translate(CODES)


def wrap(text, columns):
    """The rows of a text."""
    found = []
    for line in text.split(b"\n"):
        codes = characters(line)
        found += [codes[at : at + columns] for at in range(0, len(codes), columns)] or [b""]
    return found


def pieces(text):
    """A text, cut after each newline and after so many bytes without one."""
    found = []
    for line in text.split(b"\n"):
        line += b"\n"
        found += [line[at : at + MOST_OF_A_PIECE] for at in range(0, len(line), MOST_OF_A_PIECE)]
    # the last newline is none of the text's
    return [*found[:-1], *filter(None, [found[-1][:-1]])]


def pixels(values):
    """Pixels of x8r8g8b8 whose blue, green and red are each these values."""
    made = bytearray(4 * len(values))
    for at in range(3):
        made[at::4] = values
    return bytes(made)


INK_TO_GREY = bytes(255 - value for value in range(256))


def inside(given, text, columns, rows):
    """The rows of points inside the border of the window that shows a text."""
    shown = wrap(text, columns)[-rows:]
    across = font.CELLS * given.width
    for row in shown + [b""] * (rows - len(shown)):
        for line in range(given.height):
            at = [line * across + code * given.width for code in row]
            ink = b"".join(given.rows[start : start + given.width] for start in at)
            yield pixels(ink.ljust(columns * given.width, b"\0").translate(INK_TO_GREY))


def page(given, text, columns, rows):
    """The rows of points of the window that shows a text."""
    width = columns * given.width + 2 * BORDER
    edge = [EDGE * width] * BORDER
    return edge + [EDGE * BORDER + row + EDGE * BORDER for row in inside(given, text, columns, rows)] + edge


def screen(points, width, height):
    """The rows of a display in whose corner a window stands."""
    cut = [row[: 4 * width].ljust(4 * width, b"\0") for row in points[:height]]
    beside = max(0, width - len(points[0]) // 4)
    cut = [row[: 4 * (width - beside)] + GREY * beside for row in cut]
    return b"".join(cut + [GREY * width] * (height - len(cut)))


def strings(data):
    """The indices of the strings that draw messages draw; NotSo where there is another message than `d` and `s`."""
    at, found = 0, b""
    while at < len(data):
        letter = data[at : at + 1]
        count = int.from_bytes(data[at + HEAD_OF_STRING - 2 : at + HEAD_OF_STRING], "little") if letter == b"s" else 0
        size = {b"d": DRAWING, b"s": HEAD_OF_STRING + 2 * count}.get(letter)
        if size is None or at + size > len(data):
            raise NotSo(f"a piece has a message of the letter {letter} that is none")
        indices, at = data[at + size - 2 * count : at + size], at + size
        if any(indices[1::2]):
            raise NotSo("a string has a character that the font has not")
        found += indices[::2]
    return found


def writes(events, count):
    """The data of the last writes of a record, which are all for one file."""
    messages = [record.read_message(event.message) for event in events[len(events) - count :]]
    if len(messages) < count or any(found is None or found[0].name != "Twrite" for found in messages):
        raise NotSo(f"the record does not end with {count} writes")
    if len({found[1]["fid"] for found in messages}) > 1:
        raise NotSo("the writes of the pieces are for several files")
    return [data for _, _, data in messages]


def check_record(given, made):
    """The events of a record that shows a text; NotSo where it says something else than it should."""
    events = read_session(made)
    drawn = [strings(data) for data in writes(events, len(pieces(given.text)))]
    if b"".join(drawn) != characters(given.text):
        raise NotSo("the strings are not the characters of the text")
    return events
