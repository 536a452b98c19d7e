"""Runs `serve` of a program, and compares what its clients sent and got with the record that it wrote. Scripts under bench/,
examples/ and tools/ read it; it is outside the proof. Needs: Linux, Python 3.9 or later, its standard library alone.
"""

import os
import re
import socket
import subprocess
import time
from dataclasses import dataclass

from rio9 import formats

LISTENS = 10  # seconds until a server that was started listens
HEADER = b"rio9 2 1\n"


class Wrong(Exception):
    """A server does not do what it is to do. It tells what."""


class Silent(Wrong):
    """A server does not listen. It tells what, and the status with which the server ended, None where it had not."""

    def __init__(self, why, status):
        super().__init__(why)
        self.status = status


@dataclass
class Stream:
    """What one client sent and got, as bytes or as a mapped file. `is_plain` tells that it sent whole messages, ended its
    side, and read to the end."""

    sent: object
    got: object
    is_plain: bool = True


def is_listening(port):
    """Whether something listens on a port of the loopback."""
    with open("/proc/net/tcp") as table:
        return any(f":{port:04X} 00000000:0000 0A" in line for line in table)


class Server:
    """A running `serve`, which writes its record and its lines on err to files of a folder."""

    def __init__(self, program, room, workers, conns, words=(), **more):
        """Starts it, as a process with what else subprocess.Popen may be told."""
        with socket.create_server(("127.0.0.1", 0)) as taken:
            self.port = taken.getsockname()[1]
        self.program, self.room, self.record = program, room, os.path.join(room, "record")
        command = [program, "serve", *words, "--listen", f"127.0.0.1:{self.port}", "--workers", str(workers), "--conns", str(conns)]
        with open(self.record, "wb") as out, open(os.path.join(room, "err"), "wb") as err:
            self.process = subprocess.Popen(command, stdin=subprocess.DEVNULL, **{"stdout": out, "stderr": err, **more})
        end = time.monotonic() + LISTENS
        while not is_listening(self.port):
            if self.process.poll() is not None or time.monotonic() > end:
                status = self.process.poll()
                self.kill()
                raise Silent(f"{program} does not listen: status {status}, {self.lines()[:1]}", status)
            time.sleep(0.005)

    def __enter__(self):
        return self

    def __exit__(self, *_):
        self.kill()

    def kill(self):
        if self.process.poll() is None:
            self.process.kill()
        self.process.wait()

    def lines(self):
        """The lines on err."""
        with open(os.path.join(self.room, "err"), "rb") as err:
            return err.read().decode(errors="replace").splitlines()

    def connect(self):
        return socket.create_connection(("127.0.0.1", self.port), 60)

    def use_up(self):
        """Makes connections and closes them at once, until the server has had as many as it is to have."""
        while self.process.poll() is None and is_listening(self.port):
            try:
                self.connect().close()
            except OSError:
                pass
            time.sleep(0.01)

    def ended(self, seconds=60):
        """The status of the server, which is to end by itself."""
        try:
            return self.process.wait(seconds)
        except subprocess.TimeoutExpired:
            raise Wrong(f"the server has not ended within {seconds} seconds") from None

    def memory(self):
        """Its resident bytes; 0 once it has ended."""
        with open(f"/proc/{self.process.pid}/status") as status:
            return next((int(line.split()[1]) * 1024 for line in status if line.startswith("VmRSS:")), 0)


def lines_of(path, kind):
    """The session and the bytes of each line of a file that begins with a letter."""
    with open(path, "rb") as file:
        for line in file:
            if line.startswith(kind + b" "):
                session, _, digits = line[2:-1].partition(b" ")
                yield int(session), bytes.fromhex(digits.decode())


def replay(program, record, words=()):
    """The path of what `replay` of a record printed."""
    path = record + ".replies"
    with open(record, "rb") as given, open(path, "wb") as out:
        run = subprocess.run([program, "replay", *words], stdin=given, stdout=out, stderr=subprocess.PIPE)
    if run.returncode != 0:
        raise Wrong(f"replay of the written record ends with status {run.returncode}: {run.stderr[:200].decode(errors='replace')}")
    return path


def begun_and_ended(record):
    """How many sessions a record begins, each of which it ends."""
    begun = ended = 0
    with open(record, "rb") as file:
        if file.readline() != HEADER:
            raise Wrong("the written record does not begin with `rio9 2 1`")
        for line in file:
            begun += line.startswith(b"B ")
            ended += line.startswith(b"E ")
    if begun != ended:
        raise Wrong(f"{begun} sessions begin in the written record, and {ended} end")
    return begun


def first_messages(record):
    """The first message of each session of a record that has one."""
    found = {}
    for session, message in lines_of(record, b"M"):
        found.setdefault(session, message)
    return found


def pair_by_first(record, streams):
    """The stream of each session of a record that has a message, by that message, which no other stream begins with."""
    found = {}
    for session, message in first_messages(record).items():
        those = [stream for stream in streams if stream.sent[: len(message)] == message]
        if len(those) != 1:
            raise Wrong(f"session {session}: {len(those)} clients began with its first message")
        found[session] = those[0]
    return found


def pair_by_all(record, streams):
    """The stream of each session of a record that has a message, by all of its messages; of streams that sent the same, the first
    belongs to the lowest session."""
    messages, left, found = {}, {}, {}
    for session, message in lines_of(record, b"M"):
        messages.setdefault(session, bytearray()).extend(message)
    for stream in streams:
        left.setdefault(bytes(stream.sent), []).append(stream)
    for session, sent in sorted(messages.items()):
        if not left.get(bytes(sent)):
            raise Wrong(f"session {session}: no client sent just its messages")
        found[session] = left[bytes(sent)].pop(0)
    if any(those for sent, those in left.items() if sent):
        raise Wrong("what a client sent is no session's messages")
    return found


def compare(record, replies, by_session):
    """What is wrong, line by line: the messages of each session have to be what its stream sent, and the replies of the replayed
    record what it got; a front of it where the stream is not plain."""
    wrong = []
    for told, path, kind, part in (("sent", record, b"M", "sent"), ("got", replies, b"R", "got")):
        places = dict.fromkeys(by_session, 0)
        for session, message in lines_of(path, kind):
            stream = by_session.get(session)
            if stream is None or places[session] is None:
                continue
            whole, at = getattr(stream, part), places[session]
            places[session] = at + len(message)
            piece = whole[at : at + len(message)]
            is_front = part == "got" and not stream.is_plain and piece == message[: len(piece)]
            if piece != message and not is_front:
                wrong.append(f"session {session}: byte {at + common(piece, message)} of what its client {told} is another")
                places[session] = None
        for session, at in places.items():
            stream = by_session[session]
            length = len(getattr(stream, part))
            if at is not None and length > at and (part == "got" or stream.is_plain):
                wrong.append(f"session {session}: its client {told} {length} bytes, and the record has {at}")
    return wrong


def common(one, other):
    """How many bytes two pieces begin with in common."""
    return next((at for at, pair in enumerate(zip(one, other)) if pair[0] != pair[1]), min(len(one), len(other)))


def session_lines(lines):
    """What lines on err tell of sessions, in ascending number: a list of numbers and texts."""
    found = [re.fullmatch(r"session ([1-9][0-9]*): (.*)", line) for line in lines]
    if not all(found):
        raise Wrong(f"a line on err is about no session: {next(line for line, match in zip(lines, found) if not match)}")
    numbers = [int(match[1]) for match in found]
    if numbers != sorted(numbers):
        raise Wrong("the lines on err are not in ascending number of their sessions")
    return [(number, match[2]) for number, match in zip(numbers, found)]
