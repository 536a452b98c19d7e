#!/usr/bin/env python3
"""Times input and reads that wait by `rio9 replay`, beside a peer.

    bench/waiting/times.py PEER [--program PATH] [--events N]

The peer is a plain program with the same words, which is given by its path. Wants Python 3 and the built program (`cd
crates/rio9 && rt run -- replay < stdin` builds it; --program names another one). N is how many events of the mouse, and how
many keys, one reader gets: 1,000,000 where it is left out. What both print has to be equal. It prints user seconds, the least
of three runs, of both programs, and their ratio; and what an event costs that answers nothing, in microseconds, where nothing
waits and where 64 reads wait in each of 100 sessions.
"""
import os
import sys

HERE = os.path.dirname(os.path.abspath(__file__))
sys.path[:0] = [os.path.join(os.path.dirname(HERE), folder) for folder in ("drawing", "replay")]
from run import PROGRAM, attach, compare, message, need_peer, number, seconds, version
from times import walk

READERS, READS, IDLE = 100, 64, 20_000
READ, WRITE, READWRITE = 0, 1, 2


def topen(fid, mode):
    return message(112, 1, number(fid, 4) + bytes([mode]))


def tread(tag, fid, count):
    return message(116, tag, number(fid, 4) + number(0, 8) + number(count, 4))


def twrite(fid, data):
    return message(118, 1, number(fid, 4) + number(0, 8) + number(len(data), 4) + data)


def mouse(x, y, buttons, msec):
    return b"m" + b"".join(b"%11d " % n for n in (x, y, buttons, msec))


class Record:
    """The lines of a record."""

    def __init__(self):
        self.lines, self.sessions = [b"rio9 1"], 0

    def begin(self, *messages):
        """A session that begins with these messages; gives its number."""
        self.sessions += 1
        self.lines.append(b"B %d" % self.sessions)
        self.send(self.sessions, version(), *messages)
        return self.sessions

    def send(self, session, *messages):
        head = b"M %d " % session
        self.lines += [head + data.hex().encode() for data in messages]

    def text(self):
        return b"\n".join(self.lines) + b"\n"


def hardware(record):
    """The session that writes the mouse's events to fid 1, and keys to fid 2."""
    opened = [walk(1, b"mousein"), topen(1, WRITE), walk(2, b"kbdin"), topen(2, WRITE)]
    return record.begin(attach(b""), *opened)


def window(record, name, *files):
    """A session with a window, or with another's, whose files are open as fids from 1 on."""
    opened = [m for k, (file, mode) in enumerate(files) for m in (walk(k + 1, file), topen(k + 1, mode))]
    return record.begin(attach(name), *opened)


def moved(events):
    """A reader of `mouse` that waits for each event."""
    record = Record()
    hand, reader = hardware(record), window(record, b"new -r 10 10 400 300", (b"mouse", READ))
    for n in range(events):
        record.send(reader, tread(2, 1, 49))
        record.send(hand, twrite(1, mouse(20 + n % 300, 20 + n % 200, n // 8 % 2, n)))
    return record.text()


def typed(keys):
    """A reader of `cons` that waits for each line of 64 keys."""
    record = Record()
    hand, reader = hardware(record), window(record, b"new -r 10 10 400 300", (b"cons", READ))
    for n in range(keys // 64):
        record.send(reader, tread(2, 1, 80))
        record.send(hand, twrite(2, bytes(97 + (n + k) % 26 for k in range(63)) + b"\n"))
    return record.text()


def idle(reads, events):
    """So many reads wait in each of many sessions, half of them with a window of their own; and events that answer none."""
    record = Record()
    hand = hardware(record)
    for k in range(READERS):
        own = k < READERS // 2
        name = b"new -r %d 10 %d 60" % (5 * k, 5 * k + 50) if own else b"%d" % (k - READERS // 2 + 1)
        reader = window(record, name, (b"cons", READ))
        record.send(reader, *(tread(2 + n, 1, 80) for n in range(reads)))
    for n in range(events):
        record.send(hand, twrite(2, b"a" if n % 2 == 0 else b"\x08"))
    return record.text()


def main(words):
    options = {"--program": PROGRAM, "--events": "1000000"}
    while len(words) > 1 and words[-2] in options:
        options[words[-2]], words = words[-1], words[:-2]
    program, events = options["--program"], int(options["--events"])
    peer = need_peer(program, words)
    for name, text in (("mouse events", moved(events)), ("keys", typed(events)), ("idle events", idle(READS, IDLE))):
        compare(name, text, program, peer)
    for name, path in (("rio9", program), ("peer", peer)):
        costs = [(seconds(path, idle(reads, IDLE))[0] - seconds(path, idle(reads, 0))[0]) / IDLE * 1e6 for reads in (0, READS)]
        print(f"{name}: an event that answers nothing costs {costs[0]:6.1f} microseconds, {costs[1]:6.1f} where {READERS * READS} reads wait")


if __name__ == "__main__":
    main(sys.argv[1:])
