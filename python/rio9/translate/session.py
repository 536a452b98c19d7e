"""A client's session, passed on message by message. The translator asks the server in between, by tags and fids of its
own, so that the client gets one answer to each message, in the order in which the server gives them.
"""

import asyncio
import struct
from dataclasses import dataclass, field
from typing import Any, Awaitable, Callable, Dict, List, Optional, Set, Tuple

from rio9 import formats, record
from rio9.translate import cursors
from rio9.translate.drawing import Connection, Image, Refused, Unreachable, Work

SIZE, HEAD = 4, 7
WHOLE_MSIZE, LEAST_MSIZE, WRITE_HEAD, READ_HEAD = 65560, 256, 23, 11
OWN_TAG, OWN_FID = 0xFFFE, 0xFFFFFFFE  # both go down from there
DATA, CTL, CTL_BYTES, FIELD = 6, 5, 144, 12
HAVE_A_CURSOR = frozenset((1, 14, 24))  # the roots of the device tree and of a window, and `wsys/N`
READ, WRITE, READWRITE, TRUNCATE = 0, 1, 2, 16
CONNECTION_BITS = 26
BY_NAME = {message.name: message for message in record.T_MESSAGES + record.R_MESSAGES}
Values = Dict[str, Any]


@dataclass
class Node:
    """What a fid stands for, and how it is open: the kind, the connection and the serial in its qid's path
    (docs/FORMATS.md)."""

    kind: int
    connection: int
    serial: int
    mode: Optional[int] = None

    @staticmethod
    def of(qid: Tuple[int, int]) -> "Node":
        """The node of a qid."""
        path = qid[1]
        return Node(path & 63, path >> 6 & (1 << CONNECTION_BITS) - 1, path >> 32)

    def copy(self) -> "Node":
        """The same, not open."""
        return Node(self.kind, self.connection, self.serial)

    def is_for(self, way: int) -> bool:
        """Whether it is open for reading, or for writing."""
        return self.mode in (way, READWRITE)


@dataclass
class Question:
    """A message whose answer is waited for: whether the answer is the translator's own, and else goes to the client as
    it is."""

    is_own: bool
    answer: "asyncio.Future[bytes]"


class Gone(Exception):
    """The server ended the session."""


USUAL_ENDS = (Gone, ConnectionError, asyncio.CancelledError)


@dataclass
class Session:
    """A session between a client and the server."""

    client_reader: asyncio.StreamReader
    client: asyncio.StreamWriter
    server_reader: asyncio.StreamReader
    server: asyncio.StreamWriter
    cursors: cursors.Cursors
    fids: Dict[int, Node] = field(default_factory=dict)
    connections: Dict[int, Connection] = field(default_factory=dict)
    questions: Dict[int, Question] = field(default_factory=dict)
    waiting: Set[int] = field(default_factory=set)  # tags of reads that have no answer yet
    flushes: Dict[int, int] = field(default_factory=dict)  # by the tag of a flush the tag that it takes back
    is_over: bool = False

    async def run(self) -> Optional[BaseException]:
        """Passes messages on until one side ends. It gives what went wrong here, if something did."""
        answers = asyncio.ensure_future(self.from_server())
        asked = asyncio.ensure_future(self.from_client())
        try:
            await asyncio.wait((answers, asked), return_when=asyncio.FIRST_COMPLETED)
            if asked.done() and not answers.done() and asked.exception() is None and self.server.can_write_eof():
                self.server.write_eof()
                await asyncio.wait((answers,))
        finally:
            for task in (answers, asked):
                task.cancel()
            ends = await asyncio.gather(answers, asked, return_exceptions=True)
            self.client.close()
            self.server.close()
        return next((end for end in ends if end is not None and not isinstance(end, USUAL_ENDS)), None)

    # The streams.

    async def from_client(self) -> None:
        """Does each message of the client, one after the other."""
        while True:
            message = await next_message(self.client_reader)
            if message is None:
                return
            try:
                await self.do(message)
            except Gone:
                return
            if not is_whole(message):
                return

    async def from_server(self) -> None:
        """Gives each answer to whom it is for."""
        try:
            while True:
                answer = await next_message(self.server_reader)
                if answer is None:
                    return
                await self.give(answer)
        finally:
            self.is_over = True
            for question in self.questions.values():
                if not question.answer.done():
                    question.answer.set_exception(Gone())
            self.questions.clear()

    async def give(self, answer: bytes) -> None:
        """Gives an answer to the client, and to who waits for it here."""
        tag = int.from_bytes(answer[5:7], "little")
        question = self.questions.pop(tag, None)
        self.waiting.discard(tag)
        if tag in self.flushes:
            self.waiting.discard(self.flushes.pop(tag))
        if question is None or not question.is_own:
            self.client.write(answer)
            await self.client.drain()
        if question is not None and not question.answer.done():
            question.answer.set_result(answer)

    async def send(self, message: bytes) -> None:
        """Sends a message on."""
        self.server.write(message)
        await self.server.drain()

    async def ask(self, message: bytes, is_own: bool = False) -> Tuple[str, Values, bytes]:
        """The answer to a message, by name, its fields and its data."""
        if self.is_over:
            raise Gone
        tag = int.from_bytes(message[5:7], "little")
        question = Question(is_own, asyncio.get_running_loop().create_future())
        self.questions[tag] = question
        await self.send(message)
        found = record.read_message(await question.answer)
        if found is None:
            raise Gone
        return found[0].name, found[1], found[2]

    async def ask_own(self, name: str, values: Values, data: bytes = b"") -> Tuple[str, Values, bytes]:
        """The answer to a message of the translator's own. Raises Refused."""
        tag = next(tag for tag in range(OWN_TAG, 0, -1) if tag not in self.waiting)
        answer = await self.ask(record.write_message(BY_NAME[name], {"tag": tag, **values}, data), True)
        if answer[0] == "Rerror":
            raise Refused(answer[1]["ename"])
        return answer

    async def tell(self, name: str, tag: int, values: Values, data: bytes = b"") -> None:
        """Answers the client."""
        self.client.write(record.write_message(BY_NAME[name], {"tag": tag, **values}, data))
        await self.client.drain()

    # Messages.

    async def do(self, message: bytes) -> None:
        """Does a message of the client."""
        found = record.read_message(message) if is_whole(message) else None
        if found is None or found[1]["tag"] in self.waiting:
            await self.send(message)  # which the server refuses, or which ends the session
            return
        act = ACTS.get(found[0].name)
        if act is None:
            await self.ask(message)
        else:
            await act(self, message, found[1], found[2])

    async def version(self, message: bytes, values: Values, _: bytes) -> None:
        """Tversion. The server is asked for the largest messages, since one of the client's may become longer."""
        if values["msize"] < LEAST_MSIZE or values["version"].split(".")[0] != "9P2000":
            await self.ask(message)
            return
        name, answer, _ = await self.ask(message[:HEAD] + struct.pack("<I", WHOLE_MSIZE) + message[HEAD + SIZE :], True)
        if name != "Rversion":
            await self.tell(name, values["tag"], answer)
            return
        self.fids.clear()
        self.connections.clear()
        self.waiting.clear()
        await self.tell(name, values["tag"], {**answer, "msize": min(values["msize"], answer["msize"])})

    async def attach(self, message: bytes, values: Values, _: bytes) -> None:
        """Tattach."""
        name, answer, _ = await self.ask(message)
        if name == "Rattach":
            self.fids[values["fid"]] = Node.of(answer["qid"])

    async def walk(self, message: bytes, values: Values, _: bytes) -> None:
        """Twalk."""
        node, names = self.fids.get(values["fid"]), values["names"]
        if node is not None and node.kind == cursors.CURSOR and (node.mode is not None or names):
            refusal = "fid is open" if node.mode is not None else "not a directory"
            await self.tell("Rerror", values["tag"], {"ename": refusal})
            return
        if node is not None and names and names[-1] == cursors.NAME and await self.walk_to_cursor(node, values):
            return
        name, answer, _ = await self.ask(message)
        if name == "Rwalk" and node is not None and len(answer["qids"]) == len(names):
            self.fids[values["newfid"]] = Node.of(answer["qids"][-1]) if names else node.copy()

    async def walk_to_cursor(self, node: Node, values: Values) -> bool:
        """Walks to a file `cursor`, whose fid stands for the folder before it on the server; False if there is none."""
        folder, before = node, values["names"][:-1]
        if before:
            try:
                folder = await self.look(values["fid"], before)
            except Refused:
                return False
        if folder.kind not in HAVE_A_CURSOR:
            return False
        shorter = record.write_message(BY_NAME["Twalk"], {**values, "n": len(before), "names": before}, b"")
        name, answer, _ = await self.ask(shorter, True)
        if name != "Rwalk":
            await self.tell(name, values["tag"], answer)
            return True
        self.fids[values["newfid"]] = Node(cursors.CURSOR, 0, folder.serial)
        qids = b"".join(bytes((kind,)) + bytes(4) + path.to_bytes(8, "little") for kind, path in answer["qids"])
        body = struct.pack("<H", len(before) + 1) + qids + cursors.qid_of(folder.serial)
        await self.raw(BY_NAME["Rwalk"].kind, values["tag"], body)
        return True

    async def look(self, fid: int, names: List[str]) -> Node:
        """What a walk from a fid would lead to, or Refused."""
        own = next(number for number in range(OWN_FID, 0, -1) if number not in self.fids)
        _, answer, _ = await self.ask_own("Twalk", {"fid": fid, "newfid": own, "n": len(names), "names": names})
        if len(answer["qids"]) < len(names):
            raise Refused("file does not exist")
        await self.ask_own("Tclunk", {"fid": own})
        return Node.of(answer["qids"][-1])

    async def raw(self, kind: int, tag: int, body: bytes) -> None:
        """Answers the client by the bytes of a message's body."""
        self.client.write(struct.pack("<IBH", HEAD + len(body), kind, tag) + body)
        await self.client.drain()

    async def open(self, message: bytes, values: Values, _: bytes) -> None:
        """Topen."""
        node = self.fids.get(values["fid"])
        if node is not None and node.kind == cursors.CURSOR:
            try:
                await self.open_cursor(node, values)
            except Refused as error:
                await self.tell("Rerror", values["tag"], {"ename": str(error)})
            return
        name, answer, _ = await self.ask(message)
        if name != "Ropen" or node is None:
            return
        self.fids[values["fid"]] = node = Node.of(answer["qid"])
        node.mode = values["mode"] & ~TRUNCATE
        if node.kind == CTL:
            self.connections.setdefault(node.connection, Connection(node.connection))

    async def open_cursor(self, node: Node, values: Values) -> None:
        """Opens a cursor, or raises Refused. A file beside it tells whether its window is there."""
        mode = values["mode"] & ~TRUNCATE
        if node.mode is not None:
            raise Refused("fid is open")
        if node.serial:
            await self.look(values["fid"], ["winid"])
        if mode not in (READ, WRITE, READWRITE):
            raise Refused("permission denied")
        node.mode = mode
        await self.raw(BY_NAME["Ropen"].kind, values["tag"], cursors.qid_of(node.serial) + bytes(4))

    async def clunk(self, message: bytes, values: Values, _: bytes) -> None:
        """Tclunk and Tremove, by both of which a fid goes."""
        self.fids.pop(values["fid"], None)
        await self.ask(message)

    async def stat(self, message: bytes, values: Values, _: bytes) -> None:
        """Tstat."""
        node = self.fids.get(values["fid"])
        if node is not None and node.kind == cursors.CURSOR:
            await self.tell("Rstat", values["tag"], {}, cursors.stat_of(node.serial))
        else:
            await self.ask(message)

    async def read(self, message: bytes, values: Values, _: bytes) -> None:
        """Tread, which may wait for its answer. Pixels that are held here are given as the server gives its own."""
        node = self.fids.get(values["fid"])
        if node is not None and node.kind == cursors.CURSOR:
            if not node.is_for(READ):
                await self.refuse_closed(node, values["tag"])
                return
            found = self.cursors.read(node.serial, values["offset"], values["count"])
            await self.tell("Rread", values["tag"], {}, found)
            return
        connection = self.connections.get(node.connection) if node is not None and node.kind == DATA else None
        if connection is None or connection.held is None or node is None or not node.is_for(READ):
            self.waiting.add(values["tag"])
            await self.send(message)
        elif values["count"] < len(connection.held):
            await self.tell("Rerror", values["tag"], {"ename": "draw read too short"})
        else:
            await self.tell("Rread", values["tag"], {}, connection.held)
            connection.held = None

    async def refuse_closed(self, node: Node, tag: int) -> None:
        """Refuses a read or a write of a file that is not open for it."""
        await self.tell("Rerror", tag, {"ename": "fid not open" if node.mode is None else "permission denied"})

    async def flush(self, message: bytes, values: Values, _: bytes) -> None:
        """Tflush."""
        self.flushes[values["tag"]] = values["oldtag"]
        await self.ask(message)

    async def write(self, message: bytes, values: Values, data: bytes) -> None:
        """Twrite. One of `data` is translated."""
        node = self.fids.get(values["fid"])
        if node is not None and node.kind == cursors.CURSOR:
            if not node.is_for(WRITE):
                await self.refuse_closed(node, values["tag"])
                return
            self.cursors.write(node.serial, data)
            await self.tell("Rwrite", values["tag"], {"count": len(data)})
            return
        connection = self.connections.get(node.connection) if node is not None else None
        if connection is not None and node is not None and node.kind == DATA and data and node.is_for(WRITE):
            await self.draw(connection, values, data)
            return
        name, _, _ = await self.ask(message)
        if name == "Rwrite" and connection is not None and node is not None and node.kind == CTL and len(data) == SIZE:
            connection.described = int.from_bytes(data, "little")

    async def draw(self, connection: Connection, values: Values, data: bytes) -> None:
        """Translates a write of draw messages."""
        work = Work(connection, Draw(self, values["fid"]), data, WHOLE_MSIZE - WRITE_HEAD)
        try:
            await work.run()
        except Refused as error:
            await self.tell("Rerror", values["tag"], {"ename": str(error)})
        else:
            await self.tell("Rwrite", values["tag"], {"count": len(data)})


@dataclass(frozen=True)
class Draw:
    """The draw device of the server, by the client's own fids."""

    session: Session
    data: int  # the fid of `data`

    async def write(self, data: bytes) -> None:
        """Writes messages, or raises Refused."""
        await self.session.ask_own("Twrite", {"fid": self.data, "offset": 0}, data)

    async def read(self, count: int) -> bytes:
        """The pixels that the last `r` read."""
        most = max(count, 0)
        return (await self.session.ask_own("Tread", {"fid": self.data, "offset": 0, "count": most}))[2]

    async def describe(self, connection: Connection, image: int) -> Image:
        """What `ctl` tells of an image; afterwards it describes again what it did."""
        ctl = self.ctl(connection)
        await self.session.ask_own("Twrite", {"fid": ctl, "offset": 0}, struct.pack("<I", image))
        try:
            _, _, told = await self.session.ask_own("Tread", {"fid": ctl, "offset": 0, "count": CTL_BYTES})
        finally:
            await self.describe_again(connection, ctl)
        return image_of(told)

    async def describe_again(self, connection: Connection, ctl: int) -> None:
        """Makes `ctl` describe what the client had it describe; if that is gone, a read of it is refused in any
        case."""
        try:
            await self.session.ask_own("Twrite", {"fid": ctl, "offset": 0}, struct.pack("<I", connection.described))
        except Refused:
            pass

    def ctl(self, connection: Connection) -> int:
        """The fid by which the client has `ctl` open."""
        for fid, node in self.session.fids.items():
            if node.kind == CTL and node.connection == connection.number and node.mode == READWRITE:
                return fid
        raise Unreachable


def image_of(told: bytes) -> Image:
    """The image that the twelve fields of `ctl` tell of."""
    fields: List[str] = [told[at : at + FIELD].decode().strip() for at in range(0, CTL_BYTES, FIELD)]
    edges = [int(text) for text in fields[4:]]
    r, clip = (edges[0], edges[1], edges[2], edges[3]), (edges[4], edges[5], edges[6], edges[7])
    return Image(formats.channels_word(fields[2]), fields[3] == "1", r, clip)


def is_whole(message: bytes) -> bool:
    """Whether bytes are as long as they say."""
    return len(message) >= HEAD and int.from_bytes(message[:SIZE], "little") == len(message)


async def next_message(reader: asyncio.StreamReader) -> Optional[bytes]:
    """The next message of a stream; None at its end. What has a size that no message has is given as all that comes."""
    try:
        head = await reader.readexactly(SIZE)
        size = int.from_bytes(head, "little")
        if not HEAD <= size <= WHOLE_MSIZE:
            return head
        return head + await reader.readexactly(size - SIZE)
    except (asyncio.IncompleteReadError, ConnectionError):
        return None


Act = Callable[[Session, bytes, Values, bytes], Awaitable[None]]
ACTS: Dict[str, Act] = {
    "Tversion": Session.version,
    "Tattach": Session.attach,
    "Twalk": Session.walk,
    "Topen": Session.open,
    "Tclunk": Session.clunk,
    "Tremove": Session.clunk,
    "Tstat": Session.stat,
    "Tread": Session.read,
    "Twrite": Session.write,
    "Tflush": Session.flush,
}
