"""Read by the scripts beside it: clients that keep what they send and get, and servers of which a script says what they start with."""

import os
import resource
import socket
import struct
import subprocess
import tempfile
import time

from loads import PROGRAM, formats, need, served

NO_FID = 0xFFFFFFFF
MSIZE = 65_560


def message(kind, tag, body):
    return struct.pack("<IBH", 7 + len(body), kind, tag) + body


def text(words):
    return struct.pack("<H", len(words)) + words.encode()


VERSION = message(100, 0xFFFF, struct.pack("<I", MSIZE) + text("9P2000"))
ATTACH = message(104, 1, struct.pack("<II", 0, NO_FID) + text("u") + text(""))
STAT = message(124, 1, struct.pack("<I", 0))
WALK_SCREEN = message(110, 1, struct.pack("<IIH", 0, 1, 1) + text("screen"))
OPEN_SCREEN = message(112, 1, struct.pack("<IB", 1, 0))
READ_SCREEN = message(116, 1, struct.pack("<IQI", 1, 0, 65_536))


class Client:
    """A connection, and what was sent and got on it."""

    def __init__(self, server, seconds=30):
        self.socket = socket.create_connection(("127.0.0.1", server.port), seconds)
        self.stream = served.Stream(bytearray(), bytearray())

    def send(self, *messages):
        self.stream.sent += b"".join(messages)
        self.socket.sendall(b"".join(messages))

    def reply(self):
        """The next reply; an empty one at the end."""
        got = self.read(4)
        return got and got + self.read(int.from_bytes(got, "little") - 4)

    def read(self, count):
        piece = b""
        while len(piece) < count:
            more = self.socket.recv(count - len(piece))
            self.stream.got += more
            if not more:
                return b""
            piece += more
        return piece

    def ask(self, *messages):
        """The replies to some messages, each of which has one."""
        self.send(*messages)
        return [self.reply() for _ in messages]

    def end(self):
        """Ends its side, and reads on to the end."""
        self.socket.shutdown(socket.SHUT_WR)
        while self.reply():
            pass
        self.socket.close()


def honest(server, questions=3):
    """A client that begins, asks some times, and ends."""
    client = Client(server)
    client.ask(VERSION)
    client.ask(ATTACH, *[STAT] * questions)
    client.end()
    return client


def check_streams(server, clients):
    """Compares the server's record with what all clients that sent a message sent and got."""
    by_session = served.pair_by_all(server.record, [client.stream for client in clients])
    wrong = served.compare(server.record, served.replay(server.program, server.record), by_session)
    if wrong:
        raise served.Wrong("; ".join(wrong[:4]))


def within(seconds, what, holds):
    """Waits until something holds, and tells how long that took."""
    begun = time.monotonic()
    while not holds():
        if time.monotonic() - begun > seconds:
            raise served.Wrong(f"after {seconds} seconds {what}")
        time.sleep(0.01)
    return time.monotonic() - begun


def is_closed(client):
    """Whether the server has closed a connection; what comes before is taken."""
    client.socket.settimeout(0.01)
    try:
        return client.socket.recv(65_536) == b""
    except TimeoutError:
        return False
    except ConnectionError:
        return True


def main(name, text_of, checks, words):
    """Runs checks, each over a folder of its own, and tells how each went."""
    parser = formats.Words(prog=name, description=text_of.split("\n")[0])
    parser.add_argument("--program", default=PROGRAM, help="another program than the built one")
    parser.add_argument("--only", choices=[check.__name__ for check in checks], help="one check alone")
    options = parser.parse_args(words)
    need(name, options.program)
    failed = 0
    for check in checks:
        if options.only not in (None, check.__name__):
            continue
        with tempfile.TemporaryDirectory() as room:
            try:
                print(f"{check.__name__}: {check(options.program, room)}", flush=True)
            except (served.Wrong, OSError) as error:
                print(f"{check.__name__}: WRONG: {error}", flush=True)
                failed += 1
    return 1 if failed else 0


def descriptors(process):
    """How many descriptors a process has."""
    return len(os.listdir(f"/proc/{process.pid}/fd"))


def limit_descriptors(process, count):
    """How many descriptors a process may have from now on."""
    resource.prlimit(process.pid, resource.RLIMIT_NOFILE, (count, resource.getrlimit(resource.RLIMIT_NOFILE)[1]))


def started(program, words=("--conns", "1"), **streams):
    """A `serve` with standard streams of its own, which nobody waits for."""
    return subprocess.Popen([program, "serve", "--listen", "127.0.0.1:0", *words], **streams)
