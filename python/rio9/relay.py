"""Passes the connections of clients on to a server, so that each can be told of, timed, and ended in order.

The server has no word that ends it and tells nobody of its clients. The relay owns the socket at which clients
connect. It passes what comes on to the server's own port on the loopback, and back, and holds nothing back: where one
side does not read, nothing more is read from the other. As many clients as the server has workers are passed on at a
time; further ones wait here.
"""

import contextlib
import errno
import os
import select
import socket
import time
import zlib
from collections import deque
from dataclasses import dataclass, field
from typing import Callable, Deque, Dict, List, Optional, Tuple

PIECE = 1 << 17  # bytes that are passed on at a time
HEAD = 7  # the bytes of a message that tell its size, its kind and its tag
SIZE = 4
GRACE = 3.0  # seconds in which clients may read their last answers when the relay ends
PAUSE = 0.05
IN, OUT = select.EPOLLIN, select.EPOLLOUT


@dataclass
class Count:
    """Counts the messages of a stream: how many are whole, and a check sum of their heads, by which a session is
    known again."""

    whole: int = 0
    check: int = 0
    left: int = 0  # bytes of the message under way that are still to come
    head: bytes = b""  # the bytes of a head that has come in part
    of_next: int = 0  # the check sum once the message under way is whole

    def take(self, data: bytes) -> None:
        """Counts what comes next."""
        at = 0
        while at < len(data):
            if self.left == 0:
                piece = data[at : at + HEAD - len(self.head)]
                self.head += piece
                at += len(piece)
                if len(self.head) < HEAD:
                    return
                self.left = max(int.from_bytes(self.head[:SIZE], "little") - HEAD, 0)
                self.of_next, self.head = zlib.crc32(self.head, self.check), b""
            step = min(self.left, len(data) - at)
            self.left, at = self.left - step, at + step
            if self.left == 0:
                self.whole, self.check = self.whole + 1, self.of_next


@dataclass
class Way:
    """One direction of a link: where its bytes come from and go to, those that wait, and whether its source has
    ended."""

    source: socket.socket
    target: socket.socket
    passed: int = 0
    waiting: bytes = b""
    has_ended: bool = False
    is_closed: bool = False


@dataclass(eq=False)
class Link:
    """A client that is passed on, by its number, which counts from 1."""

    number: int
    peer: str
    began: float
    to_server: Way
    to_client: Way
    count: Count = field(default_factory=Count)

    def ways(self) -> Tuple[Way, Way]:
        """Both directions."""
        return self.to_server, self.to_client


@dataclass(frozen=True)
class Mark:
    """The first bytes that came in a second: how many milliseconds after the start, on which link, behind how many
    bytes of it."""

    milliseconds: int
    link: int
    offset: int


@dataclass(frozen=True)
class Signature:
    """By what the session of a link is known again in a record."""

    messages: int
    check: int


Teller = Callable[[str, Dict[str, object]], None]


def peer_of(address: object) -> str:
    """A client's address in words."""
    if isinstance(address, tuple) and len(address) >= 2:
        host, port = address[0], address[1]
        return f"[{host}]:{port}" if ":" in str(host) else f"{host}:{port}"
    return str(address) or "a local client"


class Relay:
    """Passes clients on. `run` does so in the thread that calls it, until `stop` is called, or the server's process
    ends."""

    def __init__(self, listener: socket.socket, server: Tuple[str, int], workers: int, tell: Teller) -> None:
        self.listener, self.server, self.workers, self.tell = listener, server, workers, tell
        self.start = time.monotonic()
        self.links: Dict[int, Tuple[Link, Way]] = {}  # by the number of the file that can be read or written
        self.live: List[Link] = []
        self.queue: Deque[Tuple[socket.socket, str]] = deque()
        self.marks: List[Mark] = []
        self.signatures: List[Signature] = []
        self.begun, self.last_second = 0, -1
        self.is_ending = False
        self.epoll = select.epoll()
        self.woken, self.waker = os.pipe()
        os.set_blocking(self.waker, False)
        listener.setblocking(False)
        self.epoll.register(listener.fileno(), IN)
        self.epoll.register(self.woken, IN)

    def stop(self) -> None:
        """Lets `run` end in order. It may be called by a signal's handler or by another thread."""
        with contextlib.suppress(OSError):
            os.write(self.waker, b".")

    def run(self, process: int) -> None:
        """Passes clients on; `process` is a file that can be read when the server's process has ended."""
        self.epoll.register(process, IN)
        end: Optional[float] = None
        while end is None or self.live and time.monotonic() < end:
            for number, _events in self.epoll.poll(-1 if end is None else 0.05):
                if number in self.links:
                    self.move(*self.links[number])
                elif number == self.listener.fileno():
                    self.accept()
                elif end is None and number in (process, self.woken):
                    end = time.monotonic() + (0 if number == process else GRACE)
                    self.end_clients(number)
        self.close()

    def end_clients(self, number: int) -> None:
        """Takes no further clients, and ends the side of each that is there: the server answers what came before, and
        ends too."""
        self.is_ending = True
        self.epoll.unregister(number)
        self.epoll.unregister(self.listener.fileno())
        self.listener.close()
        while self.queue:
            self.queue.popleft()[0].close()
        for link in list(self.live):
            self.end_way(link, link.to_server)

    def close(self) -> None:
        """Closes what is left."""
        for link in list(self.live):
            self.drop(link)
        for number in (self.woken, self.waker):
            os.close(number)
        self.epoll.close()

    def accept(self) -> None:
        """Takes a client, and passes it on if a worker is free."""
        try:
            client, address = self.listener.accept()
        except OSError as error:
            if error.errno in (errno.EMFILE, errno.ENFILE):
                time.sleep(PAUSE)  # until another client ends: the one that wants to come can still be seen
            return
        self.queue.append((client, peer_of(address)))
        if len(self.live) >= self.workers:
            self.tell("waits", {"peer": self.queue[-1][1], "workers": self.workers})
        self.begin_next()

    def begin_next(self) -> None:
        """Passes clients that wait on, as long as workers are free."""
        while self.queue and len(self.live) < self.workers and not self.is_ending:
            client, peer = self.queue.popleft()
            try:
                server = socket.create_connection(self.server, GRACE)
            except OSError:
                self.tell("refused", {"peer": peer})
                client.close()
                continue
            self.begin(client, server, peer)

    def begin(self, client: socket.socket, server: socket.socket, peer: str) -> None:
        """Begins to pass a client on."""
        self.begun += 1
        link = Link(self.begun, peer, time.monotonic(), Way(client, server), Way(server, client))
        self.live.append(link)
        self.signatures.append(Signature(0, 0))
        for way in link.ways():
            way.source.setblocking(False)
            with contextlib.suppress(OSError):
                way.source.setsockopt(socket.IPPROTO_TCP, socket.TCP_NODELAY, 1)
            self.links[way.source.fileno()] = link, way
            self.epoll.register(way.source.fileno(), IN)
        self.tell("begins", {"connection": link.number, "peer": peer})

    def move(self, link: Link, way: Way) -> None:
        """Passes on what can be read at a way's source, or what waits to be written there."""
        other = link.to_client if way is link.to_server else link.to_server
        try:
            if other.waiting:
                self.send(link, other, b"")
            if not way.waiting and not way.has_ended:
                data = way.source.recv(PIECE)
                if way is link.to_server and data:
                    self.note(link, data)
                self.send(link, way, data) if data else self.end_way(link, way)
        except BlockingIOError:
            pass
        except OSError:
            self.drop(link)

    def note(self, link: Link, data: bytes) -> None:
        """Counts what a client sent, and when."""
        milliseconds = int((time.monotonic() - self.start) * 1000)
        if milliseconds // 1000 != self.last_second:
            self.last_second = milliseconds // 1000
            self.marks.append(Mark(milliseconds, link.number, link.to_server.passed))
        link.count.take(data)

    def send(self, link: Link, way: Way, data: bytes) -> None:
        """Writes what waits and what is new, as much as its target takes; the source is read again when all is
        written."""
        whole = way.waiting + data if way.waiting else data
        way.passed += len(data)
        try:
            done = way.target.send(whole)
        except BlockingIOError:
            done = 0
        had_to_wait, way.waiting = bool(way.waiting), whole[done:]
        if bool(way.waiting) != had_to_wait:
            self.watch(link)
        if not way.waiting and way.has_ended:
            self.shut(link, way)

    def watch(self, link: Link) -> None:
        """Lets each socket of a link be told of for what is to be done with it now."""
        for way, other in (link.ways(), link.ways()[::-1]):
            reads = 0 if way.waiting or way.has_ended else IN
            self.epoll.modify(way.source.fileno(), reads | (OUT if other.waiting else 0))

    def end_way(self, link: Link, way: Way) -> None:
        """Does what is to be done when a source gives nothing more."""
        if way.has_ended:
            return
        way.has_ended = True
        self.watch(link)
        if not way.waiting:
            self.shut(link, way)

    def shut(self, link: Link, way: Way) -> None:
        """Ends the side of a target; when both have ended the link is over."""
        way.is_closed = True
        with contextlib.suppress(OSError):
            way.target.shutdown(socket.SHUT_WR)
        if way is link.to_client or all(each.is_closed for each in link.ways()):
            self.drop(link)

    def drop(self, link: Link) -> None:
        """Ends a link, and passes the next client on."""
        if link not in self.live:
            return
        self.live.remove(link)
        for way in link.ways():
            self.links.pop(way.source.fileno(), None)
            way.source.close()
        self.signatures[link.number - 1] = Signature(link.count.whole, link.count.check)
        took = time.monotonic() - link.began
        sums = {"messages": link.count.whole, "sent": link.to_server.passed, "got": link.to_client.passed}
        self.tell("ends", {"connection": link.number, "seconds": round(took, 3), **sums})
        self.begin_next()
