"""Frames of what was watched, kept compressed, and the page that plays them by itself with their times."""

import base64
import json
import threading
import zlib
from pathlib import Path
from typing import Dict, List, Set, Tuple

from rio9.live.screen import Point, Screen

PLAYER = Path(__file__).resolve().parent.parent / "player.html"
MOST_BYTES, MOST_FRAMES = 64 << 20, 1 << 30  # of a recording as it is kept, and as a browser has it
LEVEL = 6


class Full(Exception):
    """A recording has as many bytes as it may have. It tells what to do."""


class Recording:
    """Frames as `mirror` writes them, with the cursor, numbered from 0, and when each came, in milliseconds."""

    def __init__(self, channels: str, most: int = MOST_BYTES) -> None:
        self.channels, self.most = channels, most
        self.packer = zlib.compressobj(LEVEL)
        self.packed = bytearray()
        self.unpacked = 0
        self.times: List[Tuple[int, int]] = []
        self.lock = threading.Lock()

    @property
    def size(self) -> int:
        """The bytes that are kept, nearly."""
        return len(self.packed)

    @property
    def length(self) -> int:
        """How long it is, in milliseconds."""
        return self.times[-1][1] if self.times else 0

    @property
    def is_full(self) -> bool:
        """Whether nothing more is kept."""
        return self.size >= self.most or self.unpacked >= MOST_FRAMES

    def state(self) -> Dict[str, object]:
        """What pages are told of it."""
        return {"bytes": self.size, "length": self.length, "isFull": self.is_full}

    def add(self, frame: bytes, time: int) -> None:
        """Keeps a frame, whose number is `next_number`."""
        if self.is_full:
            raise Full("the recording is full: save it, or record anew")
        with self.lock:
            self.times.append((len(self.times), time))
            self.unpacked += len(frame)
            self.packed += self.packer.compress(frame)

    def next_number(self) -> int:
        """The number of the next frame."""
        return len(self.times)

    def page(self, title: str) -> str:
        """The page that plays what was kept so far; more may be kept afterwards."""
        with self.lock:
            times, packed = list(self.times), bytes(self.packed) + self.packer.copy().flush()
        return saved_page(title, self.channels, times, packed)


class Taker:
    """What a recording has not taken yet of a display: the cells that changed, and those of the cursor."""

    def __init__(self) -> None:
        self.cells: Set[int] = set()
        self.is_sized = True
        self.cursor: List[Point] = []
        self.drawn: List[Point] = []

    def move(self, point: Point) -> None:
        """Takes where the mouse is."""
        self.cursor = [point]

    def frame(self, screen: Screen, number: int) -> bytes:
        """The frame of what has not been taken; nothing if there is none."""
        cells = set(range(screen.form.cells)) if self.is_sized else self.cells
        if self.cursor != self.drawn:
            cells = cells.union(*(screen.met_by(point) for point in self.cursor + self.drawn))
        if not cells:
            return b""
        made = screen.frame(number, cells, self.is_sized, self.cursor[0] if self.cursor else None)
        self.cells, self.is_sized, self.drawn = set(), False, list(self.cursor)
        return made


def saved_page(title: str, channels: str, times: List[Tuple[int, int]], packed: bytes) -> str:
    """The player as a page that has frames in it, compressed (RFC 1950), and plays them by itself."""
    found: Dict[str, object] = {
        "title": title,
        "channels": channels,
        "times": times,
        "frames": base64.b64encode(packed).decode(),
    }
    text = json.dumps(found, separators=(",", ":")).replace("<", "\\u003c")
    held = f'<script id="saved" type="application/json">{text}</script>\n<script>\n"use strict";'
    page = PLAYER.read_text(encoding="utf-8")
    head, mark, rest = page.rpartition('<script>\n"use strict";')
    if not mark:
        raise ValueError(f"{PLAYER} has no script that plays")
    return head + held + rest
