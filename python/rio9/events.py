"""Writes events of the mouse as `rio9 desk` reads them, from lines that a person writes.

    rio9d events < examples/desk.txt > events

A line has the column and the row of a point of the display and the buttons that are down there, as their sum: 1 the
left one, 2 the middle one, 4 the right one, 0 none. What stands behind `#` and empty lines are not looked at. Events
are spelled as mouse(3) tells, 49 bytes each; the times are 20 milliseconds apart.

Status 1 where a line is no event, 2 where a word is wrong; one line tells why.
It is outside the proof. Needs: Python 3.9 or later, its standard library alone.
"""

import re
import sys
from dataclasses import dataclass
from typing import List, Optional, Tuple

from rio9 import formats

MSEC = 20
EVENT_BYTES, FIELD_BYTES = 49, 12
FIELD = re.compile(rb" *-?[0-9]+ ")
MOST_BUTTONS, MOST_MSEC = 31, 2**32 - 1


@dataclass(frozen=True)
class Mouse:
    """An event of the mouse (mouse(3))."""

    x: int
    y: int
    buttons: int
    msec: int

    def text(self) -> bytes:
        """The event as `mousein` takes it."""
        return b"m%11d %11d %11d %11d " % (self.x, self.y, self.buttons, self.msec)

    def point(self) -> Tuple[int, int]:
        """Where the mouse is."""
        return self.x, self.y


def read_event(text: bytes) -> Optional[Mouse]:
    """The event that a text tells, of a point of the usual display, or None."""
    fields = [text[at : at + FIELD_BYTES] for at in range(1, EVENT_BYTES, FIELD_BYTES)]
    if len(text) != EVENT_BYTES or text[:1] != b"m" or not all(map(FIELD.fullmatch, fields)):
        return None
    numbers = list(map(int, fields))
    most = (formats.USUAL_SIZE[0] - 1, formats.USUAL_SIZE[1] - 1, MOST_BUTTONS, MOST_MSEC)
    return Mouse(*numbers) if all(0 <= number <= high for number, high in zip(numbers, most)) else None


def event_of(number: int, words: List[str], msec: int) -> bytes:
    """The event of a line's words."""
    if len(words) != 3 or not all(formats.NUMBER.fullmatch(word.encode()) for word in words):
        raise formats.BadText(number, "a column, a row and buttons are wanted")
    column, row, buttons = map(int, words)
    text = Mouse(column, row, buttons, msec).text()
    if read_event(text) is None:
        raise formats.BadText(number, "columns are at most 639, rows 479, and buttons 31")
    return text


def events_of(text: str) -> bytes:
    """The events of a text, as bytes."""
    found: List[bytes] = []
    for number, line in enumerate(text.split("\n"), 1):
        words = line.split("#")[0].split()
        if words:
            found.append(event_of(number, words, MSEC * len(found)))
    return b"".join(found)


def main(words: List[str]) -> int:
    """The command `rio9d events`."""
    formats.Words(prog="rio9d events", description=__doc__.split("\n")[0]).parse_args(words)
    try:
        sys.stdout.buffer.write(events_of(sys.stdin.buffer.read().decode("utf-8", "backslashreplace")))
    except formats.BadText as error:
        sys.stderr.write(f"rio9d events: {error}\n")
        return 1
    return 0
