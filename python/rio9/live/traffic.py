"""Tells whether other clients sent anything to a server on this machine, without asking the server.

Linux tells for each TCP connection how many bytes came (sock_diag(7)). A display changes by what clients send alone, so
if no byte came to the server's port but by our own connection, no frame can have changed. If the server stands
elsewhere, or the system does not tell, nothing is known.
"""

import socket
import struct
import time
from typing import Dict, Iterator, Tuple

from rio9.live.rhythm import Came

SOCK_DIAG, SOCK_DIAG_BY_FAMILY, INFO = 4, 20, 2
REQUEST, DUMP = 0x1, 0x300
ERROR, DONE = 2, 3
TCP, TIME_WAIT, LISTEN = 6, 6, 10
STATES = 0xFFF & ~(1 << TIME_WAIT | 1 << LISTEN)
HEAD, FIXED, IDENTITY = (
    16,
    72,
    48,
)  # bytes: of a message's head, of an answer before its attributes, and of what names a connection
IDENTITY_AT, RECEIVED_AT = HEAD + 4, 128  # where an answer names its connection, and where tcp_info counts what came
BETWEEN_LISTS = 0.5  # seconds: a new connection is found this late, at the latest
SECONDS = 1.0
READ_BYTES = 23  # of a Tread
MOST_BYTES = 1 << 16

Address = Tuple[str, int]
Counts = Dict[bytes, int]


class Unknown(Exception):
    """The system does not tell. It says why."""


class Traffic:
    """What came to a server by the connections of others. `peer` is the server's address, and `own` is ours."""

    def __init__(self, peer: Address, own: Address) -> None:
        self.port, self.own = peer[1], own[1]
        self.counts: Counts = {}
        self.listed = 0.0
        try:
            self.socket = socket.socket(socket.AF_NETLINK, socket.SOCK_DGRAM, SOCK_DIAG)
            self.socket.settimeout(SECONDS)
        except (AttributeError, OSError) as error:
            raise Unknown(f"the system does not tell of connections: {error}") from None
        for self.family in (socket.AF_INET6, socket.AF_INET) if ":" in peer[0] else (socket.AF_INET, socket.AF_INET6):
            if self.others(has_own=True):
                return
        self.close()
        raise Unknown("the server is on another machine, or behind something that passes connections on")

    def close(self) -> None:
        """Gives the socket up."""
        self.socket.close()

    def came(self) -> Came:
        """What came since the last call. A connection that is not known yet is found half a second late at most."""
        now, before = time.monotonic(), self.counts
        if now - self.listed < BETWEEN_LISTS:
            self.counts = dict(found for identity in before for found in self.answers(identity, 0))
        else:
            self.listed, self.counts = now, self.others()
        if before == self.counts:
            return Came.NOTHING
        if before.keys() != self.counts.keys():
            return Came.MORE
        grown = [self.counts[identity] - count for identity, count in before.items()]
        return Came.MORE if any(count % READ_BYTES for count in grown) else Came.READS

    def others(self, has_own: bool = False) -> Counts:
        """What came by each connection of others; with `has_own` by our own alone."""
        everyone = struct.pack("!HH", self.port, 0) + bytes(36) + b"\xff" * 8
        found = self.answers(everyone, DUMP)
        return {identity: count for identity, count in found if (client_of(identity) == self.own) == has_own}

    def answers(self, identity: bytes, flags: int) -> Iterator[Tuple[bytes, int]]:
        """The connections that the system tells of when it is asked for one, or for all of a port."""
        body = struct.pack("=BBBBI", self.family, TCP, 1 << INFO - 1, 0, STATES) + identity
        try:
            self.socket.send(struct.pack("=IHHII", HEAD + len(body), SOCK_DIAG_BY_FAMILY, REQUEST | flags, 0, 0) + body)
            is_over = False
            while not is_over:
                data = self.socket.recv(MOST_BYTES)
                is_over = not flags
                for kind, message in messages_of(data):
                    is_over = is_over or kind in (DONE, ERROR)
                    if kind == SOCK_DIAG_BY_FAMILY:
                        yield message[IDENTITY_AT : IDENTITY_AT + IDENTITY], received_of(message)
        except OSError as error:
            raise Unknown(f"the system does not tell of connections: {error}") from None


def client_of(identity: bytes) -> int:
    """The port of the client's side."""
    return int.from_bytes(identity[2:4], "big")


def messages_of(data: bytes) -> Iterator[Tuple[int, bytes]]:
    """The messages of netlink(7) that bytes are, each with its kind."""
    at = 0
    while at + HEAD <= len(data):
        size, kind = struct.unpack_from("=IH", data, at)
        if size < HEAD:
            return
        yield kind, data[at : at + size]
        at += size + 3 & ~3


def received_of(message: bytes) -> int:
    """How many bytes came, by an answer; 0 if it does not tell."""
    at = HEAD + FIXED
    while at + 4 <= len(message):
        size, kind = struct.unpack_from("=HH", message, at)
        if kind == INFO and size >= 4 + RECEIVED_AT + 8:
            return int(struct.unpack_from("=Q", message, at + 4 + RECEIVED_AT)[0])
        at += max(size + 3 & ~3, 4)
    return 0
