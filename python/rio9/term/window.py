"""A window of a served desktop, as a session that waits for several files at once and draws without waiting for each
answer."""

import time
from collections import deque
from dataclasses import dataclass
from typing import Deque, List, Sequence

from rio9 import client, formats
from rio9.term import paint

FIELD, CTL_FIELDS = 12, 12
CTL_BYTES = FIELD * CTL_FIELDS
CTL_CHANNELS, CTL_RECTANGLE = 2, 4  # which fields of `ctl` these are
MOUSE_BYTES = 49
KEY_READS, KEY_BYTES = 8, 64  # so many reads of `cons` wait at once: each gives one key
BORDER, MARGIN = 4, 2  # the window manager's border, and the points between it and the cells
LEAST_COLUMNS, LEAST_LINES = 2, 1
MOST_SIDE, MOST_LABEL = 2048, 256
GONE = "window deleted"
STALE = ("named image no longer valid", "unknown id for draw image", "no image with that name")  # of an image that went


class Closed(Exception):
    """The window has gone."""


def lasting(error: client.Refused) -> Exception:
    """What is raised if the server refuses: that the window has gone has a kind of its own."""
    return Closed() if str(error) == GONE else error


@dataclass(frozen=True)
class Mouse:
    """An event of the mouse; `is_new_image` tells that the window has got another image."""

    x: int
    y: int
    buttons: int
    is_new_image: bool


def numbers(data: bytes, first: int, count: int) -> List[int]:
    """Some numbers of fields of twelve bytes."""
    try:
        return [int(data[at : at + FIELD]) for at in range(first * FIELD, (first + count) * FIELD, FIELD)]
    except ValueError:
        raise client.Broken("what came is no list of numbers: name the address of a rio9 server") from None


def mouse_of(data: bytes) -> Mouse:
    """The event that a read of `mouse` gave."""
    if len(data) != MOUSE_BYTES or data[:1] not in (b"m", b"r"):
        raise client.Broken("what came is no event of the mouse: name the address of a rio9 server")
    x, y, buttons = numbers(data[1:], 0, 3)
    return Mouse(x, y, buttons, data[:1] == b"r")


def place_of(ctl: bytes, wide: int, high: int) -> paint.Place:
    """Where cells of a size stand in the image that a read of `ctl` describes."""
    left, top, right, bottom = numbers(ctl, CTL_RECTANGLE, 4)
    channels = ctl[CTL_CHANNELS * FIELD : (CTL_CHANNELS + 1) * FIELD].decode("ascii", "replace").strip()
    inside = (left + BORDER, top + BORDER, right - BORDER, bottom - BORDER)
    columns = max((inside[2] - inside[0] - 2 * MARGIN) // wide, LEAST_COLUMNS)
    lines = max((inside[3] - inside[1] - 2 * MARGIN) // high, LEAST_LINES)
    try:
        word = formats.channels_word(channels)
    except ValueError as error:
        raise client.Broken(f"what came of the window is wrong: {error}") from None
    if not (0 < right - left <= MOST_SIDE and 0 < bottom - top <= MOST_SIDE):
        raise client.Broken(f"what came of the window is wrong: it has {right - left} by {bottom - top} points")
    return paint.Place(word, inside, inside[0] + MARGIN, inside[1] + MARGIN, columns, lines)


class Window:
    """The window, what it tells, and what has to be asked of it."""

    def __init__(self, session: client.Client, options: str):
        self.session = session
        self.root = session.attach(f"new {options}")
        try:
            self.open_files()
        except client.Refused as error:
            raise lasting(error) from None

    def open_drawing(self) -> None:
        """Begins a draw connection, on which there is no image yet."""
        self.ctl = self.session.file(self.root, "draw/new", client.READWRITE)
        number = numbers(self.ctl.read(CTL_BYTES), 0, 1)[0]
        self.data = self.session.file(self.root, f"draw/{number}/data", client.READWRITE)
        self.writes: Deque[int] = deque()
        self.has_image, self.is_stale, self.has_lost = False, False, False

    def open_files(self) -> None:
        """Opens the files that are read and written all the time, and asks for keys and the mouse."""
        session = self.session
        self.open_drawing()
        self.raw = session.file(self.root, "consctl", client.WRITE)
        self.raw.write(b"rawon")
        self.cons, self.mouse = session.file(self.root, "cons"), session.file(self.root, "mouse")
        self.key_reads: Deque[int] = deque(self.ask_key() for _ in range(KEY_READS))
        self.mouse_read = self.ask_mouse()

    def ask_key(self) -> int:
        """Asks for a key."""
        return int(self.session.ask_read(self.cons.fid, count=KEY_BYTES))

    def ask_mouse(self) -> int:
        """Asks for an event of the mouse."""
        return int(self.session.ask_read(self.mouse.fid, count=MOUSE_BYTES))

    # What comes.

    def take(self) -> None:
        """Takes the replies that are there, of which the first is coming."""
        seconds = self.session.seconds or client.SECONDS
        self.session.take_reply(time.monotonic() + seconds, seconds)
        while len(self.session.held) >= max(int.from_bytes(self.session.held[:4], "little"), client.SIZE_BYTES):
            self.session.take_reply(time.monotonic() + seconds, seconds)

    def answer(self, tag: int) -> bytes:
        """What a read gave whose answer is there."""
        try:
            return bytes(self.session.answer(tag)[1])
        except client.Refused as error:
            raise lasting(error) from None

    def keys(self) -> List[str]:
        """The keys that were typed since the last call."""
        found = []
        while self.key_reads[0] in self.session.answers:
            found.append(self.answer(self.key_reads.popleft()).decode("utf-8", "replace"))
            self.key_reads.append(self.ask_key())
        return found

    def mice(self) -> List[Mouse]:
        """The events of the mouse since the last call: one, or none."""
        if self.mouse_read not in self.session.answers:
            return []
        event = mouse_of(self.answer(self.mouse_read))
        self.mouse_read = self.ask_mouse()
        self.is_stale = self.is_stale or event.is_new_image
        return [event]

    # Drawing.

    def is_drawing(self) -> bool:
        """Whether what was drawn last is not answered yet."""
        while self.writes and self.writes[0] in self.session.answers:
            self.check(self.writes.popleft())
        return bool(self.writes)

    def check(self, tag: int) -> None:
        """Takes the answer to a write of draw messages. That an image has gone is told by `is_stale`, and by `has_lost`
        that messages behind those that drew on it were not done."""
        try:
            self.session.answer(tag)
        except client.Refused as error:
            if str(error) not in STALE:
                raise lasting(error) from None
            self.is_stale = self.has_lost = True

    def draw(self, messages: Sequence[bytes]) -> None:
        """Sends draw messages; `is_drawing` tells when they are done."""
        for piece in client.writes_of(messages, self.session.msize - client.WRITE_HEAD):
            self.writes.append(self.session.ask("Twrite", piece, fid=self.data.fid, offset=0))

    def finish(self) -> bool:
        """Waits until all that was drawn is answered. If some of it was not done it begins another draw connection, and
        tells so."""
        while self.is_drawing():
            self.check(self.writes.popleft())
        has_lost = self.has_lost
        if has_lost:
            self.session.clunk(self.data.fid)
            self.session.clunk(self.ctl.fid)
            self.open_drawing()
        return has_lost

    def settle(self, wide: int, high: int) -> paint.Place:
        """Takes the window's present image, and gives where cells of a size stand in it."""
        end = time.monotonic() + (self.session.seconds or client.SECONDS)
        while True:
            name = self.read("winname")
            try:
                return place_of(self.take_image(name), wide, high)
            except client.Refused as error:
                if str(error) not in STALE or time.monotonic() > end:
                    raise lasting(error) from None

    def take_image(self, name: bytes) -> bytes:
        """Makes an id for the image of a name, and gives what `ctl` says of it."""
        if self.has_image:
            self.session.write(self.data.fid, paint.free(paint.WINDOW))
            self.has_image = False
        self.session.write(self.data.fid, paint.by_name(paint.WINDOW, name))
        self.has_image, self.is_stale = True, False
        return self.session.read(self.ctl.fid, 0, CTL_BYTES)

    # Files that answer at once.

    def read(self, path: str) -> bytes:
        """What a file has."""
        try:
            with self.session.file(self.root, path) as file:
                return bytes(file.read_all())
        except client.Refused as error:
            raise lasting(error) from None

    def write(self, path: str, data: bytes) -> None:
        """Writes a file anew."""
        try:
            with self.session.file(self.root, path, client.WRITE) as file:
                file.write(data)
        except client.Refused as error:
            raise lasting(error) from None

    def label(self, text: str) -> None:
        """Gives the window a label."""
        self.write("label", text.encode("utf-8", "replace")[:MOST_LABEL])
