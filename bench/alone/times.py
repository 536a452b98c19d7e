#!/usr/bin/env python3
"""Times `rio9 alone` beside `rio9 replay` on the same records, and beside the `alone` of a peer.

    bench/alone/times.py PEER [--program PATH] [--rounds N]

The peer is a plain program with the same words. It and PATH are given by their paths or, in one word, by the path and words that come
before the command. Wants Python 3 and the built program (`cd crates/rio9 && rt run -- replay < stdin` builds it; --program names
another one). In each record four guests have windows, and a host has the desktop; `alone` is asked for the first guest. In each of N
rounds, 4,000 where nothing is said, each guest draws on its window (drawing); sends ten small messages (messages); or reads its mouse
twice, while the host moves its window and clicks on it (notes).

What `alone` prints has to be the lines that `replay` has for the session, and what the peer prints. Printed are processor seconds, of the
user and the system, the least of nine runs each, and two ratios: `alone` to `replay`, of which at most 1.5 is wanted, and to the peer.
"""
import os
import shlex
import sys
import tempfile

HERE = os.path.dirname(os.path.abspath(__file__))
ROOT = os.path.dirname(os.path.dirname(HERE))
sys.path[:0] = [os.path.join(ROOT, folder) for folder in ("bench", "bench/replay", "tools")]
from rio9 import formats, record
from beside import best
from chance import EVERYWHERE, READ, READWRITE, WRITE, drawing
from rio9.formats import BEGIN, MESSAGE, Event
from run import PROGRAM
from sessions import TOP, arrived, opened, said, written

HOST, GUESTS, ASKED = 1, range(2, 6), 2
WCTL, MOUSEIN, CTL, DATA, MOUSE = range(1, 6)  # fids
MASK, COLOUR, GLASS, WINDOW = range(1, 5)  # images
WIDTH, HEIGHT, RIGHT, DOWN = 200, 160, 60, 40  # of a window, and from one to the next, which covers a part of it
SMALL_MESSAGES = 10


def corner(guest):
    """The left upper corner of a guest's window at first. Its left lower corner is covered by no other guest's window."""
    return RIGHT * (guest - ASKED), DOWN * (guest - ASKED)


class Writer:
    """Writes the events of a record of a host and guests."""

    def __init__(self):
        self.events = []
        self.begin(HOST, "")
        self.send(HOST, *opened(WCTL, WRITE, "wctl"))
        self.send(HOST, *opened(MOUSEIN, WRITE, "mousein"))
        for guest in GUESTS:
            x, y = corner(guest)
            self.begin(guest, f"new -r {x} {y} {x + WIDTH} {y + HEIGHT}")
            self.send(guest, *opened(MOUSE, READ, "mouse"))
            self.send(guest, *opened(CTL, READWRITE, "draw", "new"))
            self.send(guest, *opened(DATA, READWRITE, "draw", "1", "data"))
            self.send(guest, written(DATA, palette(guest)))

    def send(self, session, *messages):
        self.events += [Event(MESSAGE, session, message) for message in messages]

    def begin(self, session, name):
        self.events.append(Event(BEGIN, session))
        self.send(session, *arrived(name))

    def rounds(self, count, act):
        """The text of the record, in which each guest acts so many times."""
        for number in range(count):
            for guest in GUESTS:
                act(self, guest, number)
        return formats.write_record(self.events)


def palette(guest):
    """Draw messages that make a full mask, two colours, and an id of a guest's window."""
    colours = ((MASK, "k1", 0xFFFFFFFF), (COLOUR, "x8r8g8b8", 0x3377BBFF), (GLASS, "a8r8g8b8", 0x80000080))
    fields = {"screenid": 0, "refresh": 0, "repl": 1, "r": (0, 0, 1, 1), "clipr": EVERYWHERE}
    made = [drawing("b", id=image, chan=formats.channels_word(name), color=colour, **fields) for image, name, colour in colours]
    return b"".join(made) + drawing("n", id=WINDOW, name=f"window.{guest - 1}.1")


def draw(writer, guest, number):
    """A guest draws on its window, in places that change."""
    (x, y), step = corner(guest), number % 50
    opaque = {"srcid": COLOUR, "dstr": (x + step, y + step, x + step + 100, y + step + 60)}
    glass = {"srcid": GLASS, "dstr": (x + step, y, x + step + 60, y + 40)}
    messages = [drawing("d", dstid=WINDOW, maskid=MASK, srcp=(0, 0), maskp=(0, 0), **fields) for fields in (opaque, glass, opaque)]
    writer.send(guest, written(DATA, b"".join(messages) + drawing("v")))


def ask(writer, guest, _number):
    """A guest sends small messages."""
    for _ in range(SMALL_MESSAGES):
        writer.send(guest, said("Tstat", fid=TOP))


def note(writer, guest, number):
    """A guest reads its mouse, and its window is moved; it reads it again, and a button is pressed over the window, which raises it."""
    x, y = corner(guest)
    writer.send(guest, said("Tread", tag=2, fid=MOUSE, offset=0, count=49))
    writer.send(HOST, written(WCTL, f"move -minx {x + number % 2} -id {guest - 1}".encode()))
    writer.send(guest, said("Tread", tag=3, fid=MOUSE, offset=0, count=49))
    for buttons in (1, 0):
        event = {"point": (x + 5 + number % 7, y + HEIGHT - 5), "buttons": buttons, "msec": number}
        writer.send(HOST, written(MOUSEIN, record.mouse_text(event)))


def measured(command, words, given, path):
    """The least processor seconds of some runs, and what is printed."""
    seconds, _ = best(command[0], [*command[1:], *words], given, path)
    with open(path, "rb") as out:
        return seconds, out.read()


def row(program, peer, given, path):
    """What `replay`, `alone` and the peer's `alone` use for a record, in a line; ends where they print something else."""
    alone = ["alone", "--conn", str(ASKED)]
    whole, replies = measured(program, ["replay"], given, path)
    ours, lines = measured(program, alone, given, path)
    theirs, others = measured(peer, alone, given, path)
    wanted = b"".join(line for line in replies.splitlines(keepends=True) if line.startswith(b"R %d " % ASKED))
    if not lines == others == wanted:
        sys.exit("times.py: other lines than those of the session in what replay prints")
    ratios = ours / max(whole, 0.001), ours / max(theirs, 0.001)
    return f"replay {whole:7.3f} s, alone {ours:7.3f} s, ratio {ratios[0]:5.2f}; peer {theirs:7.3f} s, ratio {ratios[1]:5.2f}"


def main(words):
    options = {"--program": PROGRAM, "--rounds": "4000"}
    while len(words) > 1 and words[-2] in options:
        options[words[-2]], words = words[-1], words[:-2]
    program, rounds = shlex.split(options["--program"]), int(options["--rounds"])
    peer = shlex.split(words[0]) if len(words) == 1 else []
    if not peer or not all(os.access(command[0], os.X_OK) for command in (program, peer)):
        sys.exit("times.py: a peer and the built program are wanted, programs that can be run")
    with tempfile.TemporaryDirectory() as room:
        path = os.path.join(room, "out")
        for name, act in (("drawing", draw), ("messages", ask), ("notes", note)):
            given = Writer().rounds(rounds, act)
            print(f"{name:<8} {row(program, peer, given, path)}; a record of {len(given) / 1e6:.1f} MB", flush=True)


if __name__ == "__main__":
    main(sys.argv[1:])
