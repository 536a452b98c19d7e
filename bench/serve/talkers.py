"""Read by the scripts beside it: clients that ask for the screen, and keep what they sent and got."""

import itertools
import os
import socket
import struct
import sys

from loads import ROOT, formats, served

sys.path.insert(0, os.path.join(ROOT, "bench"))
from rio9.record import NOFID, NOTAG
from sessions import TOP, opened, said

SCREEN = TOP + 1  # the fid of the screen
MOST = formats.MOST_OF_A_MESSAGE
READ_HEAD = 11  # the bytes of an Rread before its data
SIZE_BYTES = 4
PIECE = 1 << 16
NUMBERS = itertools.count()


def hello():
    """Agrees on a size that no other client asks for, by which its session is found, attaches, and opens the screen."""
    first = said("Tversion", tag=NOTAG, msize=MOST - next(NUMBERS), version="9P2000")
    attach = said("Tattach", fid=TOP, afid=NOFID, uname="u", aname="")
    return b"".join([first, attach, *opened(SCREEN, 0, "screen")])


def reads(number, count=MOST - READ_HEAD):
    """So many reads of the screen, each of at most so many bytes."""
    return said("Tread", fid=SCREEN, offset=0, count=count) * number


def messages(data):
    """How many whole messages bytes begin with."""
    at = found = 0
    while at + SIZE_BYTES <= len(data):
        at += int.from_bytes(data[at : at + SIZE_BYTES], "little")
        found += at <= len(data)
    return found


class Talker:
    """A client."""

    def __init__(self, port):
        self.socket = socket.create_connection(("127.0.0.1", port), 10)
        self.sent, self.got = bytearray(), bytearray()

    def say(self, data):
        """Sends some bytes, all of them."""
        self.socket.settimeout(60)
        self.sent += data
        self.socket.sendall(data)

    def push(self, data):
        """Sends as many of some bytes as the connection takes now, and tells how many."""
        self.socket.settimeout(0)
        try:
            count = self.socket.send(data)
        except BlockingIOError:
            return 0
        self.sent += data[:count]
        return count

    def read_on(self):
        """Ends its side, and reads up to the end."""
        self.socket.settimeout(60)
        self.socket.shutdown(socket.SHUT_WR)
        while piece := self.socket.recv(PIECE):
            self.got += piece
        self.socket.close()

    def reset(self):
        """Ends the connection as the kernel does of a client that was killed while answers were under way."""
        self.socket.setsockopt(socket.SOL_SOCKET, socket.SO_LINGER, struct.pack("ii", 1, 0))
        self.socket.close()

    def is_answered(self):
        """Whether it got an answer to each message that it sent."""
        return messages(self.got) == messages(self.sent)

    def stream(self, is_plain):
        return served.Stream(bytes(self.sent), bytes(self.got), is_plain)
