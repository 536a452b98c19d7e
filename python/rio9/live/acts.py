"""A session with a server that counts what it costs the server's record, and what is written in it for viewers."""

import select
import time
from dataclasses import dataclass
from typing import Any, Callable, List, Optional, Protocol, Tuple

from rio9 import client, record
from rio9.client_commands import draw_groups
from rio9.live.screen import HEADER_BYTES, Form, Point, form_of
from rio9.live.traffic import READ_BYTES

MOST_SNARF = 1 << 20
LINE_BYTES = 7  # of a record's line `M c ..` beside the message's digits, with a share of the lines `T c`
GREY = 0x777777FF


@dataclass
class Cost:
    """What a session costs the server's record: how many messages it sent, and about how many bytes stand for them."""

    messages: int = 0
    reads: int = 0
    bytes: int = 0

    def add(self, name: str, size: int) -> None:
        """Counts a message."""
        self.messages += 1
        self.reads += name == "Tread"
        self.bytes += 2 * size + LINE_BYTES


class Session(client.Client):
    """A client that counts what it costs, with the files that a desktop is driven by."""

    def __init__(self, address: client.Address, cost: Cost, seconds: float) -> None:
        self.cost = cost
        super().__init__(address, seconds)
        try:
            self.version()
            self.attach()
            self.screen = self.opened("screen", client.READ)
            self.mousein, self.kbdin = self.opened("mousein", client.WRITE), self.opened("kbdin", client.WRITE)
        except BaseException:
            self.close()
            raise
        self.most = self.msize - client.READ_HEAD

    def opened(self, path: str, mode: int) -> int:
        """The fid of an open file of the device tree."""
        return self.file(self.root, path, mode).fid

    def ask(self, name: str, payload: bytes = b"", **fields: Any) -> int:
        """Sends a message, and gives its tag."""
        size = (
            READ_BYTES
            if name == "Tread"
            else len(record.write_message(record.BY_NAME[name], {"tag": 1, **fields}, payload))
        )
        self.cost.add(name, size)
        return super().ask(name, payload, **fields)

    def check(self) -> None:
        """Raises if the server has ended the session: while nothing is asked, nothing comes."""
        if self.held or select.select([self.socket], [], [], 0)[0]:
            raise client.Broken("the server ended the session")

    def form(self) -> Form:
        """The display's channels and size."""
        return form_of(self.read(self.screen, 0, HEADER_BYTES))

    def pieces(self, form: Form, pieces: List[Tuple[int, int]]) -> Optional[List[bytes]]:
        """The rows of pieces of the screen; None if the display is another one by now."""
        across = form.row_bytes
        tags = [
            self.ask_read(self.screen, HEADER_BYTES + upper * across, (lower - upper) * across)
            for upper, lower in pieces
        ]
        tags.append(self.ask_read(self.screen, 0, HEADER_BYTES))
        found = [self.answer(tag)[1] for tag in tags]
        return found[:-1] if form_of(found[-1]) == form else None

    def write_whole(self, path: str, data: bytes) -> None:
        """Writes a file of the device tree."""
        with self.file(self.root, path, client.WRITE) as file:
            file.write(data)


class Act(Protocol):
    """What is written for a viewer. `is_seen` tells whether the picture may be another by it alone."""

    is_seen: bool

    def do(self, session: Session) -> None:
        """Does it, or raises the server's refusal."""


@dataclass
class Mouse:
    """An event of the mouse."""

    point: Point
    buttons: int
    is_seen: bool = True  # whether the buttons are others than before

    def do(self, session: Session) -> None:
        """Writes it."""
        event = {
            "point": (self.point.x, self.point.y),
            "buttons": self.buttons,
            "msec": time.monotonic_ns() // 10**6 % 2**32,
        }
        session.write(session.mousein, record.mouse_text(event))


@dataclass
class Keys:
    """Characters that are typed."""

    text: str
    is_seen: bool = False

    def do(self, session: Session) -> None:
        """Writes them, in as many writes as it takes."""
        for begin in range(0, len(self.text), client.KEYS_OF_A_WRITE):
            session.write(session.kbdin, self.text[begin : begin + client.KEYS_OF_A_WRITE].encode())


@dataclass
class PutSnarf:
    """A text that goes to the snarf buffer."""

    text: str
    is_seen: bool = False

    def do(self, session: Session) -> None:
        """Writes it."""
        session.write_whole("snarf", self.text.encode())


@dataclass
class GetSnarf:
    """The snarf buffer is asked for, and given to whoever asked."""

    give: Callable[[str], None]
    is_seen: bool = False

    def do(self, session: Session) -> None:
        """Reads it."""
        with session.file(session.root, "snarf") as file:
            self.give(file.read_all().decode(errors="replace"))


@dataclass
class Resize:
    """The display gets another size."""

    width: int
    height: int
    is_seen: bool = True

    def do(self, session: Session) -> None:
        """Writes it."""
        session.write_whole("hwsize", b"%dx%d" % (self.width, self.height))


@dataclass
class Repaint:
    """The desk is painted again: the points of the display that no window covers get a colour."""

    colour: int = GREY
    is_seen: bool = True

    def do(self, session: Session) -> None:
        """Draws on the display's image, which draws beneath all windows."""
        form = session.form()
        whole = f"0,0,{form.width},{form.height}"
        point = f"screenid=0 refresh=0 repl=1 r=0,0,1,1 clipr={whole}"
        lines = [
            f"b id=1 chan={form.channels} color=0x{self.colour:08x} {point}",
            f"b id=2 chan=k1 color=0xffffffff {point}",
            f"d dstid=0 srcid=1 maskid=2 dstr={whole} srcp=0,0 maskp=0,0",
        ]
        groups, _ = draw_groups(lines)
        with session.file(session.root, "draw/new", client.READWRITE) as ctl:
            number = ctl.read(client.CTL_BYTES)[:11].decode().strip()
            with session.file(session.root, f"draw/{number}/data", client.READWRITE) as data:
                data.write(b"".join(groups))
