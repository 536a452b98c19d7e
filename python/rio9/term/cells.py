"""The cells of a terminal: what a program writes, by pyte, and by how much rows have moved since they were last
painted.

pyte takes the parameters of a control sequence as they come, and knows those of a console. What stands here keeps it
from sequences that it would take for others, and adds the second screen, rows that move by a command, and lines as fast
as `cat` writes them.
"""

import codecs
import copy
import inspect
import re
import unicodedata
from collections import defaultdict, deque
from dataclasses import dataclass
from functools import lru_cache
from typing import Any, Callable, Deque, Dict, List, Optional, Set, Tuple

import pyte
from pyte import charsets, modes
from wcwidth import wcwidth

PRIVATE = 5  # by how many bits pyte moves the numbers of private modes
CURSOR_KEYS, BRACKETED_PASTE = 1 << PRIVATE, 2004 << PRIVATE
MOUSE_PRESSES, MOUSE_DRAGS, MOUSE_MOVES, MOUSE_SGR = (number << PRIVATE for number in (1000, 1002, 1003, 1006))
SECOND_SCREEN = {47, 1047, 1049}
COLUMNS_132 = 3
ALL_AND_PAST = 3
MOST_MOVES, MOST_PENS, MOST_SAVED, MOST_HELD, MOST_PAST = 8, 256, 16, 4096, 2000
NOTHING = "\0"  # what does nothing, and keeps what stands before and behind it apart
PLAIN = re.compile("[ -~]+")

# Control sequences that pyte would take for others, or print: commands of the operating system (all but titles), those
# that carry a string, and those with a private mark other than `?`, with bytes between, with colons, or cut by a
# character that is not of ASCII.
OTHERS = re.compile(
    r"\x1b(?:\]R|\]P[0-9a-fA-F]{7}|\](?P<kind>[0-9]*);?(?P<text>[^\x07\x1b]{0,4096})(?:\x07|\x1b\\)"
    r"|[PX^_k][^\x1b]{0,4096}\x1b\\|[\]PX^_k]"
    r"|\[[\x07-\x0d -?]*(?=[^\x00-\x7f])"
    r"|\[[<=>][0-9;:]*[ -/]*[@-~]|\[[?0-9;:]*[ -/]+[@-~]|\[[?0-9;:]*:[0-9;:]*[@-~]|[ #%*+./-][ -~])|[\x80-\x9f]"
)
UNFINISHED = re.compile(
    r"\x1b(?:\[[\x07-\x0d -?]*|\](?!R|P[0-9a-fA-F]{7})[^\x07\x1b]{0,4096}\x1b?"
    r"|[PX^_k][^\x1b]{0,4096}\x1b?|[ #%*+./()-])?\Z"
)


class Pen(Dict[str, Any]):
    """The cells of one look, by their characters."""

    def __init__(self, attributes: Any):
        super().__init__()
        self.attributes = attributes

    def __missing__(self, data: str) -> Any:
        self[data] = cell = self.attributes._replace(data=data)
        return cell


@dataclass
class Move:
    """Rows from `top` to `bottom` have moved up by `count`, or down if it is below 0."""

    top: int
    bottom: int
    count: int


class Cells(pyte.Screen):  # type: ignore[misc]
    """The cells of a terminal, and what it answers."""

    buffer: Any
    cursor: Any
    columns: int
    lines: int
    dirty: Set[int]

    def __init__(self, columns: int, lines: int):
        self.moves: List[Move] = []
        self.answers: List[str] = []
        self.pens: Dict[Any, Pen] = {}
        # The rows and the cursor of the first screen while the second one shows.
        self.first: Optional[Tuple[Any, Any]] = None
        # The rows that have scrolled out of the first screen, and how many of them are looked back at.
        self.past: Deque[Any] = deque(maxlen=MOST_PAST)
        self.back = 0
        super().__init__(columns, lines)

    # Writing.

    def draw(self, data: str) -> None:
        """Puts characters at the cursor."""
        charset = self.g1_charset if self.charset else self.g0_charset
        if charset is not charsets.LAT1_MAP:
            data = data.translate(charset)
        at = 0
        while at < len(data):
            plain = PLAIN.match(data, at) if modes.IRM not in self.mode else None
            if plain:
                self.put(plain[0], 1)
                at = plain.end()
            else:
                self.put_one(data[at])
                at += 1

    def put_one(self, char: str) -> None:
        """Puts one character of any width."""
        width = wcwidth(char)
        if width == 0 and unicodedata.combining(char):
            self.combine(char)
        elif width == 1 or width == 2 and self.columns > 1:
            if self.cursor.x + width > self.columns:
                self.wrap(width)
            if modes.IRM in self.mode:
                self.insert_characters(width)
            self.put(char, width)

    def put(self, text: str, width: int) -> None:
        """Puts characters of one width, the second cell of a wide one being empty."""
        pen = self.pen()
        while text:
            if self.cursor.x + width > self.columns:
                self.wrap(width)
            line, x = self.buffer[self.cursor.y], self.cursor.x
            count = 1 if width == 2 else min(len(text), self.columns - x)
            line.update(zip(range(x, x + count), map(pen.__getitem__, text)))
            if width == 2:
                line[x + 1] = pen[""]
            self.dirty.add(self.cursor.y)
            self.cursor.x = x + count * width
            text = text[count:]

    def pen(self) -> Pen:
        """The cells of the look that is written in."""
        found = self.pens.get(self.cursor.attrs)
        if found is None:
            if len(self.pens) >= MOST_PENS:
                self.pens.clear()
            found = self.pens[self.cursor.attrs] = Pen(self.cursor.attrs)
        return found

    def wrap(self, width: int) -> None:
        """Goes on in the next row, or stays in the last column if the terminal does not wrap."""
        if modes.DECAWM in self.mode:
            self.carriage_return()
            self.linefeed()
        else:
            self.cursor.x = self.columns - width

    def combine(self, char: str) -> None:
        """Puts a mark over the character before the cursor."""
        x = self.cursor.x - 1
        if x > 0 and self.buffer[self.cursor.y][x].data == "":
            x -= 1
        if x >= 0:
            cell = self.buffer[self.cursor.y][x]
            data = unicodedata.normalize("NFC", cell.data + char)[:MOST_SAVED]
            self.buffer[self.cursor.y][x] = cell._replace(data=data)
            self.dirty.add(self.cursor.y)

    # Rows that move.

    def roll(self, top: int, bottom: int, count: int) -> None:
        """Moves the rows from `top` to `bottom` up by `count`, or down if it is below 0."""
        high = bottom + 1 - top
        count = max(-high, min(count, high))
        rows = [self.buffer.pop(y, None) for y in range(top, bottom + 1)]
        if top == 0 and self.first is None:
            self.keep(rows[: max(count, 0)])
        for at, row in enumerate(rows):
            if row is not None and 0 <= at - count < high:
                self.buffer[top + at - count] = row
        self.dirty.update(range(top, bottom + 1))
        if self.back:
            return
        last = self.moves[-1] if self.moves else None
        if last and (last.top, last.bottom) == (top, bottom):
            last.count += count
        elif len(self.moves) < MOST_MOVES:
            self.moves.append(Move(top, bottom, count))

    def keep(self, rows: List[Any]) -> None:
        """Keeps rows that go at the upper edge. What is looked back at stays in its place."""
        self.past.extend(self.buffer.default_factory() if row is None else row for row in rows)
        if self.back:
            self.back = min(self.back + len(rows), len(self.past))

    def look_back(self, count: int) -> None:
        """Looks back by so many rows more, or fewer if it is below 0."""
        self.back = max(0, min(self.back + count, len(self.past) if self.first is None else 0))

    def edges(self) -> Tuple[int, int]:
        """The first and the last row of those that scroll."""
        return (self.margins.top, self.margins.bottom) if self.margins else (0, self.lines - 1)

    def index(self) -> None:
        """Moves the cursor down, or what scrolls up."""
        top, bottom = self.edges()
        if self.cursor.y == bottom:
            self.roll(top, bottom, 1)
        else:
            self.cursor_down()

    def reverse_index(self) -> None:
        """Moves the cursor up, or what scrolls down."""
        top, bottom = self.edges()
        if self.cursor.y == top:
            self.roll(top, bottom, -1)
        else:
            self.cursor_up()

    def insert_lines(self, count: int = 1) -> None:
        """Moves the rows from the cursor on down."""
        self.roll_from_cursor(-(count or 1))

    def delete_lines(self, count: int = 1) -> None:
        """Moves the rows below the cursor up, over the cursor's."""
        self.roll_from_cursor(count or 1)

    def roll_from_cursor(self, count: int) -> None:
        """Moves the rows from the cursor on, within those that scroll."""
        top, bottom = self.edges()
        if top <= self.cursor.y <= bottom:
            self.roll(self.cursor.y, bottom, count)
            self.carriage_return()

    def scroll_up(self, count: int = 1) -> None:
        """Moves what scrolls up."""
        self.roll(*self.edges(), count or 1)

    def scroll_down(self, count: int = 1) -> None:
        """Moves what scrolls down."""
        self.roll(*self.edges(), -(count or 1))

    # What pyte does otherwise, or not at all.

    def back_tab(self, count: int = 1) -> None:
        """Moves the cursor back to a tab stop."""
        for _ in range(min(count or 1, self.columns)):
            self.cursor.x = max((stop for stop in self.tabstops if stop < self.cursor.x), default=0)

    def erase_in_line(self, how: int = 0, private: bool = False) -> None:
        """Erases from the cursor on (0), up to it (1), or the row (2)."""
        if how in (0, 1, 2):
            super().erase_in_line(how)

    def erase_in_display(self, how: int = 0, private: bool = False) -> None:
        """Erases from the cursor on (0), up to it (1), or all (2), also of the past (3)."""
        if how in (0, 1, 2, 3):
            super().erase_in_display(how)
        if how == ALL_AND_PAST:
            self.past.clear()
            self.back = 0

    def cursor_to_line(self, line: int = 1) -> None:
        """Moves the cursor to a row."""
        origin = self.edges()[0] if modes.DECOM in self.mode else 0
        self.cursor.y = origin + (line or 1) - 1
        self.ensure_vbounds()

    def report_device_status(self, mode: int = 0) -> None:
        """Answers that all is well (5), or where the cursor is (6)."""
        if mode == 5:
            self.write_process_input("\x1b[0n")
        elif mode == 6:
            origin = self.edges()[0] if modes.DECOM in self.mode else 0
            self.write_process_input(f"\x1b[{self.cursor.y - origin + 1};{self.cursor.x + 1}R")

    def write_process_input(self, data: str) -> None:
        """Keeps an answer for the program, which takes none back."""
        self.answers.append(data)

    def save_cursor(self) -> None:
        """Keeps where the cursor is, for so many times as any program needs."""
        super().save_cursor()
        del self.savepoints[:-MOST_SAVED]

    def set_mode(self, *numbers: int, private: bool = False) -> None:
        """Sets modes; a screen of 132 columns is not there."""
        if private and SECOND_SCREEN & set(numbers):
            self.show_second()
        self.change_modes(super().set_mode, numbers, private)

    def reset_mode(self, *numbers: int, private: bool = False) -> None:
        """Ends modes."""
        if private and SECOND_SCREEN & set(numbers):
            self.show_first()
        self.change_modes(super().reset_mode, numbers, private)

    def change_modes(self, change: Callable[..., None], numbers: Tuple[int, ...], private: bool) -> None:
        """Has pyte change modes, but that of 132 columns."""
        change(*(number for number in numbers if not (private and number == COLUMNS_132)), private=private)

    def show_second(self) -> None:
        """Shows an empty second screen, and keeps the first one."""
        if self.first is None:
            self.first, self.back = (self.buffer, copy.copy(self.cursor)), 0
            self.buffer = defaultdict(self.buffer.default_factory)
            self.dirty.update(range(self.lines))

    def show_first(self) -> None:
        """Shows the first screen again, as it was."""
        if self.first is not None:
            self.buffer, self.cursor = self.first
            self.first = None
            self.ensure_hbounds()
            self.ensure_vbounds()
            self.dirty.update(range(self.lines))

    def reset(self) -> None:
        """Begins anew."""
        self.show_first()
        super().reset()

    def resize(self, lines: Optional[int] = None, columns: Optional[int] = None) -> None:
        """Gives the terminal another size. Rows go at its upper edge only if the cursor would else be below its
        lower one."""
        lines, columns = lines or self.lines, columns or self.columns
        self.set_margins()
        extra = self.cursor.y - lines + 1
        if extra > 0:
            self.roll(0, self.lines - 1, extra)
            self.cursor.y -= extra
        for rows in [self.buffer, *([self.first[0]] if self.first else [])]:
            for y in [y for y in rows if y >= lines]:
                del rows[y]
            for row in rows.values():
                for x in [x for x in row if x >= columns]:
                    del row[x]
        self.tabstops |= set(range(8, columns, 8))
        self.lines, self.columns = lines, columns
        self.ensure_hbounds()
        self.moves.clear()
        self.dirty = set(range(lines))

    # Reading.

    def row(self, y: int) -> List[Any]:
        """The cells of a row that is looked at."""
        line = self.past[len(self.past) - self.back + y] if y < self.back else self.buffer[y - self.back]
        return [line[x] for x in range(self.columns)]

    def text(self, begin: Tuple[int, int], end: Tuple[int, int]) -> str:
        """The text between two cells, each as its row and its column, without blanks at the ends of rows."""
        rows = []
        for y in range(begin[0], end[0] + 1):
            left, right = begin[1] if y == begin[0] else 0, end[1] + 1 if y == end[0] else self.columns
            found = "".join(cell.data for cell in self.row(y)[left:right])
            rows.append(found if y == end[0] and right < self.columns else found.rstrip())
        return "\n".join(rows)

    def is_on(self, mode: int) -> bool:
        """Whether a mode is set."""
        return mode in self.mode


@lru_cache(maxsize=None)
def taken(function: Callable[..., Any]) -> Tuple[int, bool]:
    """How many parameters of a sequence a method of cells takes, and whether it takes the private mark."""
    parameters = list(inspect.signature(function).parameters.values())[1:]
    if any(one.kind is one.VAR_POSITIONAL for one in parameters):
        most = MOST_HELD
    else:
        most = sum(one.kind is one.POSITIONAL_OR_KEYWORD and one.name != "private" for one in parameters)
    return most, any(one.name == "private" or one.kind is one.VAR_KEYWORD for one in parameters)


def guarded(cells: Cells, event: str) -> Callable[..., None]:
    """What does an event by a method of cells: with no more parameters than it takes, and not with a mark that it
    does not know."""
    most, takes_mark = taken(getattr(type(cells), event))
    method = getattr(cells, event)

    def call(*values: Any, **marks: Any) -> None:
        if takes_mark or "private" not in marks:
            method(*values[:most], **marks)

    return call


class Stream(pyte.Stream):  # type: ignore[misc]
    """A reader of what a program writes, for cells."""

    csi = {
        **pyte.Stream.csi,
        "S": "scroll_up",
        "T": "scroll_down",
        "Z": "back_tab",
        "s": "save_cursor",
        "u": "restore_cursor",
    }
    events = pyte.Stream.events | {"scroll_up", "scroll_down", "back_tab"}

    def __init__(self, cells: Cells):
        self.cells, self.held = cells, ""
        self.decoder = codecs.getincrementaldecoder("utf-8")("replace")
        super().__init__(self.listener_of(cells))
        self.use_utf8 = False  # so that pyte takes the sets of characters that draw lines

    def listener_of(self, cells: Cells) -> Any:
        """What pyte gives events to."""
        events: Set[str] = set(self.events)
        return type("Events", (), {event: staticmethod(guarded(cells, event)) for event in events})()

    def feed_bytes(self, data: bytes) -> None:
        """Takes what a program has written."""
        text = self.held + self.decoder.decode(data)
        self.held = ""
        if "\x1b" in text:
            unfinished = UNFINISHED.search(text)
            if unfinished and len(unfinished[0]) <= MOST_HELD:
                self.held, text = unfinished[0], text[: unfinished.start()]
        self.feed(OTHERS.sub(self.other, text))

    def other(self, found: "re.Match[str]") -> str:
        """What stands for a sequence that pyte does not take. A title is kept."""
        if found["kind"] in ("0", "2"):
            self.cells.set_title(found["text"])
        return NOTHING
