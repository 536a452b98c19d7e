"""Holds a session with a server in a thread of its own: reads what changed of the display, writes what viewers do."""

import threading
import time
from collections import deque
from dataclasses import dataclass, field
from typing import Callable, Deque, List, Optional, Protocol, Set, Tuple

from rio9 import client
from rio9.live.acts import Act, Cost, Mouse, Session
from rio9.live.rhythm import Came, Look, Rhythm
from rio9.live.screen import BadScreen, Form, Screen, pieces_of
from rio9.live.traffic import Traffic, Unknown
from rio9.server import address_text

AGAIN = 1.0  # seconds between two tries to reach a server that has gone
BETWEEN, BETWEEN_IDLE, IDLE_AFTER = 0.025, 0.05, 2.0  # seconds between two looks; if nothing came for a while
MOST_WAITING = 1000


class Busy(Exception):
    """Too much waits to be written already. It tells so."""


class Listener(Protocol):
    """Who is told, in the session's thread."""

    def changed(self, screen: Screen, cells: Set[int]) -> None:
        """Cells have changed."""

    def begun(self, screen: Screen) -> None:
        """There is another display, of which nothing was read yet."""

    def told(self, why: str) -> None:
        """The server has gone, and why; nothing when it is there."""


Asked = Tuple[Act, Callable[[str], None]]


@dataclass
class Queue:
    """What is to be written, each with what takes the server's refusal, and whether anybody wants frames."""

    acts: Deque[Asked] = field(default_factory=deque)
    buttons: int = 0
    is_wanted: bool = False
    is_over: bool = False
    changed: threading.Condition = field(default_factory=threading.Condition)

    def put(self, act: Act, refused: Callable[[str], None]) -> None:
        """Takes an act. A move of the mouse stands for the one before it that has not been written."""
        with self.changed:
            if len(self.acts) >= MOST_WAITING:
                raise Busy(f"{MOST_WAITING} inputs wait for the server already: wait until it has taken them")
            if isinstance(act, Mouse):
                act.is_seen, self.buttons = act.buttons != self.buttons, act.buttons
                last = self.acts[-1][0] if self.acts else None
                if isinstance(last, Mouse) and not act.is_seen and not last.is_seen:
                    self.acts.pop()
            self.acts.append((act, refused))
            self.changed.notify()

    def want(self, is_wanted: bool) -> None:
        """Takes whether somebody is ready for a frame."""
        with self.changed:
            self.is_wanted = is_wanted
            self.changed.notify()

    def end(self) -> None:
        """Takes that all is over."""
        with self.changed:
            self.is_over = True
            self.changed.notify()

    def wait(self, until: float, is_fixed: bool = False) -> List[Asked]:
        """The acts that wait, as soon as there are any, or a frame is wanted and the time has come, or all is over.
        If the time is fixed nothing but the end comes before it."""
        with self.changed:
            while not self.is_over and (is_fixed or not self.acts):
                left = until - time.monotonic()
                if left <= 0 and (is_fixed or self.is_wanted):
                    break
                self.changed.wait(max(left, 0) if is_fixed or self.is_wanted else None)
            found, self.acts = list(self.acts), deque()
            return found


class Watcher(threading.Thread):
    """Holds a session with a server, and begins another one when it has ended."""

    def __init__(self, address: client.Address, listener: Listener, seconds: float = client.SECONDS) -> None:
        super().__init__(name="watcher", daemon=True)
        self.address, self.listener, self.seconds = address, listener, seconds
        self.queue, self.cost, self.lock = Queue(), Cost(), threading.Lock()
        self.session: Optional[Session] = None
        self.screen: Optional[Screen] = None
        self.traffic: Optional[Traffic] = None
        self.rhythm = Rhythm(knows=False)
        self.looked = 0.0

    def connect(self) -> None:
        """Begins a session, or raises why there is none."""
        session = Session(self.address, self.cost, self.seconds)
        try:
            form = session.form()
        except BaseException:
            session.close()
            raise
        self.session, self.traffic = session, traffic_of(session)
        self.rhythm = Rhythm(knows=self.traffic is not None)
        self.show(form)

    def show(self, form: Form) -> None:
        """Begins with a display of this form."""
        self.screen = Screen(form)
        self.rhythm.restart()
        self.listener.begun(self.screen)

    def run(self) -> None:
        """Attends to sessions until all is over."""
        while not self.queue.is_over:
            try:
                if self.session is None:
                    self.connect()
                self.listener.told("")
                self.attend()
            except (client.Failure, BadScreen, OSError) as error:
                self.listener.told(advice(self.address, error))
                self.drop()
                for _, refused in self.queue.wait(time.monotonic() + AGAIN, is_fixed=True):
                    refused("there is no server: nothing was written")
        self.drop()

    def drop(self) -> None:
        """Ends the session."""
        if self.session is not None:
            self.session.close()
        if self.traffic is not None:
            self.traffic.close()
        self.session = self.traffic = None

    def stop(self) -> None:
        """Ends the session and the thread."""
        self.queue.end()
        if self.is_alive():
            self.join()
        self.drop()

    def attend(self) -> None:
        """Writes what is asked, and looks when it is time, until the session fails or all is over."""
        while not self.queue.is_over:
            is_idle = time.monotonic() - self.rhythm.came > IDLE_AFTER
            for act, refused in self.queue.wait(self.looked + (BETWEEN_IDLE if is_idle else BETWEEN)):
                if not self.queue.is_over:
                    self.do(act, refused)
            if self.queue.is_wanted and time.monotonic() - self.looked >= BETWEEN:
                self.look()

    def do(self, act: Act, refused: Callable[[str], None]) -> None:
        """Does an act, and tells whoever asked for it if it is refused."""
        assert self.session is not None
        try:
            act.do(self.session)
        except client.Refused as error:
            refused(str(error))
        self.rhythm.act(time.monotonic(), act.is_seen)

    def look(self) -> None:
        """Reads what may have changed, and tells of it."""
        assert self.session is not None and self.screen is not None
        self.looked = now = time.monotonic()
        look = self.rhythm.look(now, self.came())
        if look is Look.NOTHING:
            self.session.check()
            return
        form = self.screen.form
        pieces = pieces_of(form, self.session.most)
        chosen = range(len(pieces)) if look is Look.ALL else self.rhythm.hot_pieces(now)
        found = self.session.pieces(form, [pieces[number] for number in chosen])
        if found is None:
            self.show(self.session.form())
            return
        cells: Set[int] = set()
        changed = []
        with self.lock:
            for number, rows in zip(chosen, found):
                others = self.screen.take(pieces[number][0], rows)
                cells |= others
                changed += [number] if others else []
        self.rhythm.found(now, look, changed)
        if cells or look is Look.ALL and not self.screen.is_read:
            self.screen.is_read = True
            self.listener.changed(self.screen, cells)

    def came(self) -> Came:
        """What came to the server by others since the last look."""
        if self.traffic is None:
            return Came.NOTHING
        try:
            return self.traffic.came()
        except Unknown:
            self.traffic.close()
            self.traffic, self.rhythm = None, Rhythm(knows=False)
            return Came.NOTHING


def traffic_of(session: Session) -> Optional[Traffic]:
    """What tells of others that send to the server of a session, or None."""
    try:
        return Traffic(session.socket.getpeername()[:2], session.socket.getsockname()[:2])
    except (Unknown, OSError):
        return None


def advice(address: client.Address, error: Exception) -> str:
    """Why there is no session, and what to do."""
    place, why = address_text(address), str(error)
    if isinstance(error, (BadScreen, client.Refused)):
        return f"{place} gives no display: {why}; is it the address of a rio9 server?"
    if isinstance(error, client.Late) or "rio9d serve" in why:
        return why
    return (
        f"{place}: {why}; start a server there, as by rio9d serve --listen {place} --workers 4, or give another address"
    )
