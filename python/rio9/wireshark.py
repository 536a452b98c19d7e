"""Writes a session record and its reply lines as a capture that Wireshark's 9P dissector reads.

    rio9d wireshark RECORD REPLIES OUT.pcap
    tshark -r OUT.pcap -Y 9p
    tshark -r OUT.pcap -Y _ws.malformed

Each session of the record becomes one TCP connection to port 564, with its handshake, the messages of
the record in one direction, the replies in the other, and its end. The messages are counted on standard
error. What the dissector thinks of them is a check from outside: it shares nothing with this program.

Needs: Python 3.9 or later, its standard library alone. To read the capture: tshark (Wireshark 3.6 or
later). The dissector learns from a version message that a connection speaks 9P2000, so a record whose
session begins without one is shown poorly.

Lines other than `M` and `E` of the record, and all that follows a line `S n` of the replies (an image
file), are left out. A reply stands behind the message that it answers, or, where it waited, behind the
message that let it be answered.
"""

import argparse
import struct
import sys
from typing import Dict, Iterable, List, Set, Tuple

from rio9 import formats

SERVER = bytes([10, 9, 0, 1])
CLIENT = bytes([10, 9, 0, 2])
PORT_9P = 564
FIRST_CLIENT_PORT = 40000
MOST_OF_A_SEGMENT = 32000

FIN, SYN, PUSH, ACK = 1, 2, 8, 16

PCAP_HEADER = struct.pack("<IHHiIII", 0xA1B2C3D4, 2, 4, 0, 0, 262144, 101)


def checksum(data: bytes) -> int:
    """The internet checksum of some bytes."""
    if len(data) % 2:
        data += b"\0"
    total: int = sum(struct.unpack(f">{len(data) // 2}H", data))
    while total > 0xFFFF:
        total = (total & 0xFFFF) + (total >> 16)
    return 0xFFFF - total


class Capture:
    """Packets in the order of their time, a millisecond apart."""

    def __init__(self) -> None:
        self.packets = [PCAP_HEADER]
        self.time = 0

    def add(self, packet: bytes) -> None:
        """Adds an IP packet."""
        seconds, thousandths = divmod(self.time, 1000)
        self.packets.append(struct.pack("<IIII", seconds, thousandths * 1000, len(packet), len(packet)) + packet)
        self.time += 1

    def whole(self) -> bytes:
        """The file of the capture."""
        return b"".join(self.packets)


class Connection:
    """One session's TCP connection. A client and a server each count the bytes that they have sent."""

    def __init__(self, capture: Capture, session: int) -> None:
        self.capture = capture
        self.port = FIRST_CLIENT_PORT + session % 20000
        self.sent = {True: 1000, False: 5000}
        self.segment(True, SYN, b"", 1)
        self.segment(False, SYN | ACK, b"", 1)
        self.segment(True, ACK)

    def segment(self, from_client: bool, flags: int, data: bytes = b"", counts: int = 0) -> None:
        """Sends one segment; `counts` is what it adds to the sender's sequence beside its data."""
        source, target = (CLIENT, SERVER) if from_client else (SERVER, CLIENT)
        ports = (self.port, PORT_9P) if from_client else (PORT_9P, self.port)
        acknowledged = self.sent[not from_client] if flags & ACK else 0

        def header(check: int) -> bytes:
            return struct.pack(">HHIIBBHHH", *ports, self.sent[from_client], acknowledged, 0x50, flags, 65535, check, 0)

        pseudo = source + target + struct.pack(">BBH", 0, 6, 20 + len(data))
        tcp = header(checksum(pseudo + header(0) + data)) + data

        def address(check: int) -> bytes:
            return struct.pack(">BBHHHBBH", 0x45, 0, 20 + len(tcp), 0, 0x4000, 64, 6, check) + source + target

        self.capture.add(address(checksum(address(0))) + tcp)
        self.sent[from_client] += len(data) + counts

    def message(self, from_client: bool, data: bytes) -> None:
        """Sends a message, in as many segments as it takes."""
        for at in range(0, len(data), MOST_OF_A_SEGMENT):
            self.segment(from_client, PUSH | ACK, data[at : at + MOST_OF_A_SEGMENT])

    def end(self) -> None:
        """Ends the connection."""
        self.segment(True, FIN | ACK, b"", 1)
        self.segment(False, FIN | ACK, b"", 1)
        self.segment(True, ACK)


def tag_of(message: bytes) -> int:
    """The tag of a message."""
    return int.from_bytes(message[5:7], "little")


def write_capture(record: Iterable[formats.Event], replies: formats.Replies) -> Tuple[bytes, List[int]]:
    """The capture of a record and its replies, and how many messages of each direction it has."""
    capture = Capture()
    connections: Dict[int, Connection] = {}
    asked: Set[Tuple[int, int]] = set()
    left, counts = list(reversed(replies.messages)), [0, 0]

    def connection(session: int) -> Connection:
        if session not in connections:
            connections[session] = Connection(capture, session)
        return connections[session]

    def answer(all_of_them: bool) -> None:
        while left and (all_of_them or (left[-1][0], tag_of(left[-1][1])) in asked):
            session, reply = left.pop()
            asked.discard((session, tag_of(reply)))
            connection(session).message(False, reply)
            counts[1] += 1

    for event in record:
        if event.kind == formats.MESSAGE:
            connection(event.session).message(True, event.message)
            asked.add((event.session, tag_of(event.message)))
            counts[0] += 1
            answer(False)
        elif event.kind == formats.END and event.session in connections:
            answer(False)
            connections.pop(event.session).end()
    answer(True)
    for session in list(connections):
        connections.pop(session).end()
    return capture.whole(), counts


def main(words: List[str]) -> int:
    """The command `rio9d wireshark`."""
    parser = formats.Words(
        prog="rio9d wireshark", description=__doc__, formatter_class=argparse.RawDescriptionHelpFormatter
    )
    parser.add_argument("record", metavar="RECORD", help="the record")
    parser.add_argument("replies", metavar="REPLIES", help="what `rio9d replay` of it printed")
    parser.add_argument("out", metavar="OUT.pcap", help="the capture that is written")
    options = parser.parse_args(words)
    if formats.is_one_of(options.out, (options.record, options.replies)):
        parser.error(f"{options.out} is read, and would be lost: name another file for the capture")
    try:
        with open(options.record, "rb") as file:
            record = file.read()
        with open(options.replies, "rb") as file:
            replies = file.read()
        capture, counts = write_capture(formats.read_record(record), formats.read_replies(replies))
        with open(options.out, "wb") as file:
            file.write(capture)
    except formats.BadText as error:
        sys.stderr.write(f"rio9d wireshark: {error}\n")
        return 1
    except OSError as error:
        formats.stop("rio9d wireshark", formats.why_not(error))
    sys.stderr.write(f"{counts[0]} messages, {counts[1]} replies\n")
    return 0
