"""A client of rio9: 9P2000 (intro(5)) over TCP, or with a display in this process (rio9.display).

    with connect(("127.0.0.1", 5640)) as session:
        with session.file(session.root, "wctl", WRITE) as file:
            file.write(b"new -r 16 16 176 128")

`rio9d client` has its commands (rio9.client_commands). It is outside the proof: it shares nothing with the proved
program.
"""

import argparse
import re
import socket
import time
from types import TracebackType
from typing import Any, Callable, Dict, Iterable, Iterator, List, Optional, Protocol, Set, Tuple, Type, Union

from rio9 import formats, record
from rio9.record import NOFID, NOTAG

MSIZE = formats.MOST_OF_A_MESSAGE
READ_HEAD, WRITE_HEAD = 11, 23  # the bytes of an Rread and of a Twrite before their data
READ, WRITE, READWRITE = 0, 1, 2
DIRECTORY = 0x80000000
KEYS_OF_A_WRITE = 64
CTL_BYTES = 144
SECONDS = 10.0
WAITING = ("cons", "mouse", "wctl", "refresh")
REPLY_KINDS = {message.kind for message in record.R_MESSAGES}
SIZE_BYTES = 4
PIECE = 1 << 16
USUAL = object()
ERROR_KIND = 107

Address = Tuple[str, int]
Socket = socket.socket
Values = Dict[str, Any]
Stat = Dict[str, Any]


class Failure(Exception):
    """Something that a command cannot go on from. It tells why."""


class Refused(Failure):
    """The server's refusal of a message: the text of its Rerror."""


class Broken(Failure):
    """There is no connection, or it has ended, or what came over it is no reply to what was asked."""


class Late(Failure):
    """No answer came in time."""


def address_of(text: str) -> Address:
    """The host and the port of HOST:PORT; a host of IPv6 stands in brackets."""
    try:
        host, port = address_or_free(text)
    except ValueError as error:
        raise argparse.ArgumentTypeError(str(error)) from None
    if port == 0:
        raise argparse.ArgumentTypeError(f"a port from 1 to 65535 is wanted: {text}")
    return host, port


def address_or_free(text: str) -> Address:
    """The host and the port of HOST:PORT, of which the port may be 0; ValueError where a text is none."""
    found = re.fullmatch(r"(?:\[([^\[\]]+)\]|([^:\[\]]+)):([0-9]{1,5})", text)
    if not found or int(found[3]) > 65535:
        raise ValueError(f"an address as 127.0.0.1:5640 is wanted, and not {text!r}")
    return found[1] or found[2], int(found[3])


class Transport(Protocol):
    """What carries the messages of a session to a display, and the replies back. Each call raises Broken if the
    session cannot go on."""

    def send(self, message: bytes, seconds: Optional[float]) -> None:
        """Sends a whole message, which may take so many seconds, or as long as it likes if they are None."""

    def receive(self, seconds: Optional[float]) -> Optional[bytes]:
        """The next bytes of replies: none if the session has been ended, None if nothing came in so many
        seconds."""

    def close(self, seconds: Optional[float]) -> None:
        """Ends the session, and waits for so many seconds at most until the other side has ended it too."""


class Tcp:
    """A connection to a server."""

    def __init__(self, address: Address, seconds: Optional[float] = None) -> None:
        """Connects to a host and a port, which may take so many seconds."""
        try:
            self.socket = socket.create_connection(address, seconds)
            self.socket.setsockopt(socket.IPPROTO_TCP, socket.TCP_NODELAY, 1)
        except OSError as error:
            raise Broken(
                f"no connection to {address[0]}:{address[1]}: {why(error)}; is a server there? rio9d serve starts one"
            ) from None

    def send(self, message: bytes, seconds: Optional[float]) -> None:
        """Sends a whole message."""
        try:
            self.socket.settimeout(seconds)
            self.socket.sendall(message)
        except OSError as error:
            raise Broken(f"the connection ended: {why(error)}") from None

    def receive(self, seconds: Optional[float]) -> Optional[bytes]:
        """The next bytes that came, none if the server has ended the session, None if nothing came in time."""
        if seconds is not None and seconds <= 0:
            return None
        try:
            self.socket.settimeout(seconds)
            return self.socket.recv(PIECE)
        except socket.timeout:
            return None
        except OSError as error:
            raise Broken(f"the connection ended: {why(error)}") from None

    def close(self, seconds: Optional[float]) -> None:
        """Ends the session, and waits until the server has ended it too."""
        try:
            self.socket.shutdown(socket.SHUT_WR)
            self.socket.settimeout(seconds)
            while self.socket.recv(PIECE):
                pass
        except OSError:
            pass
        self.socket.close()


class Client:
    """A session. Messages may be asked without waiting for their answers, which are then taken by their tags."""

    def __init__(self, to: Union[Address, Transport], seconds: Optional[float] = None) -> None:
        """Begins a session with the server at a host and a port, or over what carries its messages. An answer may take
        so many seconds, or as long as it likes if it is None."""
        self.seconds, self.patience, self.msize = seconds, seconds, MSIZE
        self.held = bytearray()
        self.asked: Dict[int, int] = {}
        self.answers: Dict[int, Tuple[record.Message, Values, bytes]] = {}
        self.fids: Set[int] = set()
        self.roots: List[int] = []
        self.transport: Transport = Tcp(to, seconds) if isinstance(to, tuple) else to

    def __enter__(self) -> "Client":
        return self

    def __exit__(
        self, kind: Optional[Type[BaseException]], error: Optional[BaseException], trace: Optional[TracebackType]
    ) -> None:
        self.close()

    @property
    def socket(self) -> Socket:
        """The socket of a session over TCP."""
        if not isinstance(self.transport, Tcp):
            raise Failure("the session has no socket: its display is in this process")
        return self.transport.socket

    @property
    def root(self) -> int:
        """The root of the tree that was attached to first."""
        if not self.roots:
            raise Failure("nothing is attached yet: call version and attach, or begin the session by connect")
        return self.roots[0]

    # Messages.

    def ask(self, name: str, payload: bytes = b"", **fields: Any) -> int:
        """Sends a message, and gives its tag."""
        message = record.BY_NAME[name]
        tag = NOTAG if name == "Tversion" else next(tag for tag in range(1, NOTAG) if tag not in self.asked)
        self.asked[tag] = message.kind
        self.transport.send(record.write_message(message, {"tag": tag, **fields}, payload), self.seconds)
        return tag

    def answer(self, tag: int, seconds: Any = USUAL) -> Tuple[Values, bytes]:
        """The values of the reply to a tag, and its data. It may take so many seconds, or as long as it likes where
        they are None; what the session allows where nothing is said."""
        seconds = self.seconds if seconds is USUAL else seconds
        end = None if seconds is None else time.monotonic() + seconds
        while tag not in self.answers:
            self.take_reply(end, seconds)
        del self.asked[tag]
        message, values, payload = self.answers.pop(tag)
        if message.name == "Rerror":
            raise Refused(values["ename"])
        return values, payload

    def call(self, name: str, payload: bytes = b"", **fields: Any) -> Tuple[Values, bytes]:
        """Sends a message and waits for its reply: its values and its data."""
        return self.answer(self.ask(name, payload, **fields))

    def take_reply(self, end: Optional[float], seconds: Optional[float]) -> None:
        """Takes the next reply, whatever it is to."""
        size = max(int.from_bytes(self.front(SIZE_BYTES, end, seconds), "little"), SIZE_BYTES)
        if size > self.msize:
            raise Broken(f"a reply of {size} bytes came, where {self.msize} are the most: {NO_SERVER}")
        found = record.read_message(bytes(self.front(size, end, seconds)))
        del self.held[:size]
        if found is None:
            raise Broken(f"what came is no reply to what was asked: {NO_SERVER}")
        message, values, _ = found
        tag = values["tag"]
        if tag not in self.asked or tag in self.answers or message.kind not in (self.asked[tag] + 1, ERROR_KIND):
            raise Broken(f"what came is no reply to what was asked: {NO_SERVER}")
        self.answers[tag] = found

    def front(self, count: int, end: Optional[float], seconds: Optional[float]) -> bytearray:
        """The first bytes of what comes, which stay."""
        while len(self.held) < count:
            piece = self.transport.receive(None if end is None else end - time.monotonic())
            if piece is None:
                raise Late(f"no answer within {seconds or 0:g} seconds{self.why_late()}")
            if not piece:
                raise Broken("the server ended the session")
            self.held += piece
        return self.held[:count]

    def why_late(self) -> str:
        """Why a first answer may be late."""
        if self.fids or NOTAG not in self.asked:
            return ""
        return ": all workers of the server may be busy; end another client, or start the server with more --workers"

    def close(self) -> None:
        """Ends the session, and waits until the server has ended it too, for as long as an answer may take."""
        self.transport.close(self.seconds)

    # What is asked, by its name.

    def version(self, msize: int = MSIZE, version: str = "9P2000") -> int:
        """Agrees on the most bytes of a message, which it gives."""
        values, _ = self.call("Tversion", msize=msize, version=version)
        if values["version"] != version or not 0 < values["msize"] <= msize:
            raise Broken(f"the server speaks {values['version']!r} in messages of up to {values['msize']} bytes")
        self.msize = values["msize"]
        return self.msize

    def attach(self, name: str = "", user: str = "", fid: Optional[int] = None) -> int:
        """The fid of the root of the tree of this name (attach(5)): the device tree's where it is empty."""
        root = self.bind(fid, "Tattach", lambda new: {"fid": new, "afid": NOFID, "uname": user, "aname": name})
        self.roots.append(root)
        return root

    def walk(self, fid: int, names: Iterable[str], newfid: Optional[int] = None) -> int:
        """The fid of what is found from a fid by names."""
        names = list(names)
        return self.bind(newfid, "Twalk", lambda new: {"fid": fid, "newfid": new, "names": names}, len(names))

    def bind(self, fid: Optional[int], name: str, fields: Callable[[int], Values], steps: Optional[int] = None) -> int:
        """Sends a message that binds a fid, the lowest that is free where none is given; a walk has to come all its
        steps."""
        new = next(fid for fid in range(NOFID) if fid not in self.fids) if fid is None else fid
        values, _ = self.call(name, **fields(new))
        if steps is not None and values["n"] < steps:
            raise Refused("file does not exist")
        self.fids.add(new)
        return new

    def open(self, fid: int, mode: int = READ) -> Tuple[int, int]:
        """Opens a fid, and gives the kind and the path of its qid."""
        qid: Tuple[int, int] = self.call("Topen", fid=fid, mode=mode)[0]["qid"]
        return qid

    def read(self, fid: int, offset: int = 0, count: Optional[int] = None) -> bytes:
        """What one read gives: at most so many bytes, as many as a message holds where none is said."""
        return self.answer(self.ask_read(fid, offset, count))[1]

    def ask_read(self, fid: int, offset: int = 0, count: Optional[int] = None) -> int:
        """Sends a read, which may wait, and gives its tag for `answer` and `flush`."""
        return self.ask("Tread", fid=fid, offset=offset, count=self.msize - READ_HEAD if count is None else count)

    def flush(self, tag: int) -> bool:
        """Takes a message back. False where its answer came before that, which `answer` gives then."""
        self.call("Tflush", oldtag=tag)
        if tag in self.answers:
            return False
        self.asked.pop(tag, None)
        return True

    def write(self, fid: int, data: bytes, offset: int = 0) -> int:
        """How many bytes of the data one write took."""
        count: int = self.call("Twrite", bytes(data), fid=fid, offset=offset)[0]["count"]
        return count

    def clunk(self, fid: int) -> None:
        """Gives a fid up."""
        self.call("Tclunk", fid=fid)
        self.fids.discard(fid)

    def stat(self, fid: int) -> Stat:
        """The stat of a fid, its fields by name."""
        found = stats_of(self.call("Tstat", fid=fid)[1])
        if len(found) != 1:
            raise Broken(f"{len(found)} stats came, where one was asked for: {NO_SERVER}")
        return found[0]

    # Files by path.

    def file(self, root: int, path: str, mode: int = READ) -> "File":
        """The open file of a path from the root of a tree."""
        fid = self.walk(root, names_of(path))
        try:
            self.open(fid, mode)
        except Refused:
            self.clunk(fid)
            raise
        return File(self, fid)

    def list(self, root: int, path: str) -> List[Stat]:
        """The stats of what a directory has."""
        with self.file(root, path) as directory:
            return stats_of(directory.read_all())


class File:
    """An open file. Reads and writes go on where the last one ended."""

    def __init__(self, client: Client, fid: int) -> None:
        self.client, self.fid, self.at = client, fid, 0

    def __enter__(self) -> "File":
        return self

    def __exit__(
        self, kind: Optional[Type[BaseException]], error: Optional[BaseException], trace: Optional[TracebackType]
    ) -> None:
        if kind is None or issubclass(kind, Refused):
            self.client.clunk(self.fid)

    def read(self, count: Optional[int] = None) -> bytes:
        """What one read gives."""
        data = self.client.read(self.fid, self.at, count)
        self.at += len(data)
        return data

    def read_all(self) -> bytes:
        """What reads give until one gives nothing."""
        return b"".join(iter(self.read, b""))

    def write(self, data: bytes) -> None:
        """Writes all of the data, in as many writes as it takes; at least one."""
        most = self.client.msize - WRITE_HEAD
        for begin in range(0, len(data) or 1, most):
            piece = data[begin : begin + most]
            if self.client.write(self.fid, piece, self.at) != len(piece):
                raise Broken("a write took a part of what was written")
            self.at += len(piece)


NO_SERVER = "is it a server of 9P2000 that listens there?"


def connect(to: Union[Address, Transport], name: str = "", seconds: Optional[float] = SECONDS) -> Client:
    """A session that has attached to the tree of this name: the device tree's where it is empty, a new window's by
    `new`."""
    session = Client(to, seconds)
    try:
        session.version()
        session.attach(name)
    except BaseException:
        session.close()
        raise
    return session


def why(error: OSError) -> str:
    """What an OSError tells, in one line."""
    return error.strerror or str(error) or type(error).__name__


def names_of(path: str) -> List[str]:
    """The names of a path: `/` stands between them, and may stand at its ends."""
    return [name for name in path.split("/") if name]


def stats_of(data: bytes) -> List[Stat]:
    """The stats that bytes are."""
    found: List[Stat] = []
    cursor = record.Cursor(data)
    try:
        while cursor.left():
            stat = record.Cursor(cursor.take(cursor.number(2)))
            found.append(record.take_fields(record.STAT, stat))
    except record.NotWhole:
        raise Broken("what came is no stat") from None
    return found


def stat_line(stat: Stat) -> str:
    """A stat in words."""
    return " ".join(record.say_fields(record.STAT, stat))


def seconds_of(text: str) -> float:
    """A time, as an option."""
    if not re.fullmatch(r"[0-9]{1,6}(\.[0-9]{1,3})?", text) or float(text) <= 0:
        raise argparse.ArgumentTypeError(f"no time in seconds: {text}")
    return float(text)


def writes_of(groups: Iterable[bytes], most: int) -> Iterator[bytes]:
    """The writes of draw messages: as many in each as it holds."""
    held = b""
    for group in groups:
        if len(group) > most:
            raise Failure(f"a draw message has {len(group)} bytes, and a write holds at most {most}")
        if len(held) + len(group) > most:
            yield held
            held = b""
        held += group
    if held:
        yield held
