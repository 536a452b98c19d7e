"""What is between the watcher of a desktop and the pages that show it: which cells each page lacks, and the recording.

Everything here runs in the loop of asyncio, but for `Ear`, by which the watcher's thread tells of changes.
"""

import asyncio
import json
import time
from typing import Any, Dict, List, Optional, Set

from rio9.client import Address
from rio9.live.recording import Full, Recording, Taker
from rio9.live.screen import Point, Screen
from rio9.live.watcher import Watcher
from rio9.server import address_text

IN_FLIGHT = 2  # frames that a page has got and not shown
BETWEEN_RECORDED, REST = (
    0.04,
    3,
)  # seconds between two frames of the recording, and how much longer than the work for one
BETWEEN_STATES = 1.0

Message = Dict[str, Any]


class Viewer:
    """A page that watches: what it has not got yet."""

    def __init__(self, may_drive: bool) -> None:
        self.may_drive = may_drive
        self.is_seen = True
        self.cells: Set[int] = set()
        self.is_sized = True
        self.sent = self.shown = 0
        self.messages: Dict[str, Message] = {}
        self.wake = asyncio.Event()

    @property
    def is_ready(self) -> bool:
        """Whether it would take a frame."""
        return self.is_seen and self.sent - self.shown < IN_FLIGHT

    def tell(self, message: Message) -> None:
        """Sends a message soon. One that waits gives way to a newer one of its kind."""
        self.messages.pop(message["kind"], None)
        self.messages[message["kind"]] = message
        self.wake.set()

    def take_messages(self) -> List[str]:
        """The messages that wait."""
        found, self.messages = self.messages, {}
        return [json.dumps(message) for message in found.values()]

    def frame(self, screen: Screen) -> bytes:
        """The frame of what it lacks, if it would take one; else nothing."""
        cells = range(screen.form.cells) if self.is_sized else self.cells
        if not cells or not self.is_ready:
            return b""
        self.sent += 1
        made = screen.frame(self.sent, cells, self.is_sized)
        self.cells, self.is_sized = set(), False
        return made


class Ear:
    """Passes on what the watcher tells to the hub's loop."""

    def __init__(self, hub: "Hub") -> None:
        self.hub, self.loop = hub, asyncio.get_running_loop()

    def changed(self, screen: Screen, cells: Set[int]) -> None:
        """Cells have changed."""
        self.pass_on(self.hub.changed, screen, cells)

    def begun(self, screen: Screen) -> None:
        """There is another display."""
        self.pass_on(self.hub.begun, screen)

    def told(self, why: str) -> None:
        """The server has gone, or is there again."""
        self.pass_on(self.hub.told, why)

    def pass_on(self, take: Any, *what: Any) -> None:
        """Lets the loop do something, unless it has ended."""
        if not self.loop.is_closed():
            self.loop.call_soon_threadsafe(take, *what)


class Hub:
    """The pages that watch a desktop, and its recording."""

    def __init__(self, address: Address, seconds: float, most: int) -> None:
        self.watcher = Watcher(address, Ear(self), seconds)
        self.most = most
        self.viewers: Set[Viewer] = set()
        self.screen: Optional[Screen] = None
        self.why = ""
        self.recording: Optional[Recording] = None
        self.taker = Taker()
        self.begun_at = 0.0
        self.record_soon = asyncio.Event()
        self.last_state: Message = {}

    # What the watcher tells.

    def begun(self, screen: Screen) -> None:
        """Another display is shown, of which nothing was read yet."""
        self.screen = screen
        if self.recording is None or self.recording.channels != screen.form.channels:
            self.record_anew()
        self.taker.is_sized = True
        for viewer in self.viewers:
            viewer.is_sized = True
            viewer.tell({"kind": "channels", "channels": screen.form.channels})

    def changed(self, screen: Screen, cells: Set[int]) -> None:
        """Cells have changed."""
        if screen is not self.screen:
            return
        self.taker.cells |= cells
        self.record_soon.set()
        for viewer in self.viewers:
            viewer.cells |= cells
            viewer.wake.set()

    def told(self, why: str) -> None:
        """The server has gone, and why; or it is there again."""
        if why == self.why:
            return
        self.why = why
        for viewer in self.viewers:
            viewer.tell({"kind": "server", "why": why})

    # What the pages tell.

    def enter(self, viewer: Viewer) -> None:
        """A page watches."""
        self.viewers.add(viewer)
        viewer.tell({"kind": "welcome", "mayDrive": viewer.may_drive, "address": address_text(self.watcher.address)})
        if self.screen is not None:
            viewer.tell({"kind": "channels", "channels": self.screen.form.channels})
        viewer.tell({"kind": "server", "why": self.why})
        viewer.tell(self.state())
        self.want()

    def leave(self, viewer: Viewer) -> None:
        """A page watches no more."""
        self.viewers.discard(viewer)
        self.want()

    def want(self) -> None:
        """Tells the watcher whether anybody would take a frame."""
        self.watcher.queue.want(any(viewer.is_ready for viewer in self.viewers))

    def point(self, by: Viewer, point: Point) -> None:
        """The mouse is somewhere, by a page."""
        self.taker.move(point)
        self.record_soon.set()
        for viewer in self.viewers - {by}:
            viewer.tell({"kind": "pointer", "x": point.x, "y": point.y})

    def frame(self, viewer: Viewer) -> bytes:
        """The next frame for a page, if there is one."""
        if self.screen is None or not self.screen.is_read:
            return b""
        with self.watcher.lock:
            made = viewer.frame(self.screen)
        self.want()
        return made

    # The recording.

    def record_anew(self) -> None:
        """Begins another recording."""
        if self.screen is not None:
            self.recording, cursor = Recording(self.screen.form.channels, self.most), self.taker.cursor
            self.taker = Taker()
            self.taker.cursor = cursor
            self.record_soon.set()

    async def record(self) -> None:
        """Keeps frames for ever, as they come."""
        loop = asyncio.get_running_loop()
        while True:
            await self.record_soon.wait()
            self.record_soon.clear()
            recording = self.recording
            if self.screen is None or not self.screen.is_read or recording is None or recording.is_full:
                continue
            now = time.monotonic()
            self.begun_at = self.begun_at if recording.times else now
            with self.watcher.lock:
                made = self.taker.frame(self.screen, recording.next_number())
            if made:
                try:
                    await loop.run_in_executor(None, recording.add, made, int(1000 * (now - self.begun_at)))
                except Full:
                    continue
            await asyncio.sleep(max(BETWEEN_RECORDED, REST * (time.monotonic() - now)))

    # What all pages are told now and then.

    def state(self) -> Message:
        """How many watch, what it costs the server's record, and what is recorded."""
        cost, recording = self.watcher.cost, self.recording
        return {
            "kind": "state", "viewers": len(self.viewers), "recorded": recording.state() if recording else None,
            "reads": cost.reads, "messages": cost.messages, "bytes": cost.bytes,
            "knows": self.watcher.traffic is not None,
        }  # fmt: skip

    async def tell_states(self) -> None:
        """Tells each second what has changed of it."""
        while True:
            await asyncio.sleep(BETWEEN_STATES)
            state = self.state()
            if state != self.last_state:
                self.last_state = state
                for viewer in self.viewers:
                    viewer.tell(state)
