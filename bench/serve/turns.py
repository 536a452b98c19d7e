#!/usr/bin/env python3
"""Tells how long a turn can be: what the dearest message that is known takes, by the letters of draw(3), the commands of wctl(4) and others.

    bench/serve/turns.py [--program PATH] [--only WORD] [--runs N]

Wants Linux, Python 3 and the built program (--program names another one). While a message is done nobody else is served, and what `serve`
does in a turn is what `replay` does in an event. So each row is the processor time of a record that has the message some times more than
another one, by how many more; the least of N runs each, one if nothing is said. The display has 2048x2048 points. --only does the rows
alone that have a word in their names. All messages have to be answered without an error.

A row has the bytes of the message, its seconds, and how many full compositions they are (a draw of 2048x2048 by SoverD through a full
mask). Of what can be said many times in one write of draw messages it has the seconds of a message of less than 1,000 bytes and those of the
longest one, too, which are computed and not measured. A row ends with `above` if a message of less than 1,000 bytes takes longer than a
second, or any longer than 60 compositions; then the status is 1.
"""

import argparse
import os
import sys
import tempfile
from dataclasses import dataclass
from typing import Callable, Iterable

from loads import PROGRAM, ROOT, count_of, formats, need

sys.path[:0] = [os.path.join(ROOT, "bench"), os.path.join(ROOT, "bench", "replay")]
import run
import work
from chance import READ, WRITE, drawing
from sessions import TOP, arrived, opened, said, written
from work import COLOUR, DATA, DISPLAY, FONT, FROM, FULL, MASK, ONTO, WCTL, WINDOW, command, image, in_writes

SIDE = 2048
ALL = (0, 0, SIDE, SIDE)
LONGEST = formats.MOST_OF_A_MESSAGE
SHORT, SECONDS, COMPOSITIONS = 999, 1.0, 60  # the bars
INDICES = 20  # of a string that is measured
INNER = 62  # windows in a host, and over one another
OWN = 7  # windows of 1024x1024 of a connection, which may have 32 MiB of images
FILE, INPUT = 8, 9  # fids
RERROR = "6b"


@dataclass(frozen=True)
class Row:
    """A name, what a session says before, the message of each number, how many of them are measured, and by how many bytes of a message
    which part of it can be said once more, where it can."""

    name: str
    begun: Callable[[], Iterable[bytes]]
    message: Callable[[int], bytes]
    count: int = 4
    bytes_of_part: int = 0
    part: float = 1.0

    def most(self, size):
        """The most messages that fit in one of that size, in parts of one."""
        left = size - len(self.message(0))
        return 1 + left // self.bytes_of_part * self.part if self.bytes_of_part and left > 0 else 1


def draws(name, begun, message, count=4, indices=0):
    """A row about draw messages: such a one, or one of its indices, can be said once more."""
    part = (2, 1 / indices) if indices else (len(message(0)), 1.0)
    return Row(name, begun, lambda at: written(DATA, message(at)), count, *part)


# What is there before.


def sketching():
    """A connection with a full mask, a colour, and a picture of the display's size that is half transparent."""
    yield from work.sketching()
    yield written(DATA, image(FROM, "a8r8g8b8", ALL, 0x40200880))


def masked():
    yield from sketching()
    yield written(DATA, image(MASK, "k8", ALL, 0x808080FF))


def windowed():
    """As many windows as the bytes of a connection allow, one over the other."""
    yield from work.sketching()
    yield from work.windows_at([(0, 0, 1024, 1024)] * OWN)


def beneath():
    """An id of the lowest of 62 windows of the window manager's, each as large as the display."""
    yield from sketching()
    yield from opened(WCTL, WRITE, "wctl")
    yield from [command("new -r 0 0 2048 2048")] * INNER
    yield written(DATA, drawing("n", id=ONTO, name="window.1.1"))


def stairs():
    """The same, of which each hides all but a few points of the one beneath it."""
    yield from sketching()
    yield from opened(WCTL, WRITE, "wctl")
    yield from (command(f"new -r {2 * at} {2 * at} {SIDE} {SIDE}") for at in range(INNER))
    yield written(DATA, drawing("n", id=ONTO, name="window.1.1"))


def lettered():
    """A font of one character of 2048x2048 points."""
    yield from sketching()
    load = drawing("l", cacheid=FONT, srcid=COLOUR, index=0, r=ALL, sp=(0, 0), left=0, width=0)
    yield written(DATA, image(FONT, "k8", ALL) + drawing("i", id=FONT, n=1, ascent=0) + load)


def commanding():
    yield from work.commanding(0)


def beside(windows=64):
    """As many windows of the whole display as there may be, or fewer."""
    yield from commanding()
    yield from [command("new -r 0 0 2048 2048")] * windows


def hosting():
    """A host of 62 windows of its own size, beside another window."""
    yield from commanding()
    yield from [command("new -r 0 0 2048 2048")] * 2
    yield command("host -id 1")
    yield from [command("new -r 0 0 2048 2048 -id 1")] * INNER


def reading(name):
    def begun():
        yield from hosting()
        yield from opened(FILE, READ, *name)

    return begun


def giving(name, begun=hosting):
    def all_of_it():
        yield from begun()
        yield from opened(INPUT, WRITE, name)

    return all_of_it


# Draw messages.


def drawn(target=DISPLAY, source=FROM, mask=FULL, r=ALL, srcp=(0, 0), op=None):
    return (b"" if op is None else drawing("O", op=op)) + work.draw(target, source, mask, r, srcp)


def strung(letter, **more):
    fields = {"dstid": DISPLAY, "srcid": FROM, "fontid": FONT, "p": (0, 0), "clipr": ALL, "sp": (0, 0), "indices": [0] * INDICES}
    return drawing(letter, **fields, **more)


def put(kind):
    """A picture of other channels onto which is drawn."""

    def begun():
        yield from sketching()
        yield written(DATA, image(ONTO, kind, ALL))

    return begun


COMPOSITION = draws("d", sketching, lambda at: drawn())


def letters():
    yield COMPOSITION
    yield draws("d, a fill", sketching, lambda at: drawn(source=COLOUR))
    yield draws("d, onto itself", sketching, lambda at: drawn(source=DISPLAY, srcp=(1, 1)))
    yield draws("d, through a mask", masked, lambda at: drawn(mask=MASK))
    yield draws("d, by another operator", masked, lambda at: drawn(mask=MASK, op=3))
    for kind in ("r5g6b5", "k8", "k1"):
        yield draws(f"d, onto {kind}", put(kind), lambda at: drawn(target=ONTO))
    yield draws("d, a window beneath 61", beneath, lambda at: drawn(target=ONTO))
    yield draws("d, a window of a staircase", stairs, lambda at: drawn(target=ONTO))
    yield draws("b, f", sketching, lambda at: image(ONTO, "k8", ALL) + drawing("f", id=ONTO))
    last, side = WINDOW + OWN, (0, 0, 1000, 1000)
    yield draws(f"b, f: a window over {OWN}", windowed, lambda at: image(last, "x8r8g8b8", side, screenid=1) + drawing("f", id=last))
    yield draws("A, F", sketching, lambda at: drawing("A", id=9, imageid=DISPLAY, fillid=FULL, public=0) + drawing("F", id=9))
    yield draws("c", sketching, lambda at: drawing("c", dstid=FROM, repl=0, clipr=ALL), 1000)
    yield draws("i", sketching, lambda at: drawing("i", id=FROM, n=4096, ascent=0), 100)
    yield draws("l", lettered, lambda at: drawing("l", cacheid=FONT, srcid=FROM, index=0, r=ALL, sp=(0, 0), left=0, width=0))
    yield draws("n, f", tied, lambda at: drawing("n", id=ONTO, name="x") + drawing("f", id=ONTO), 1000)
    yield draws("N", sketching, lambda at: drawing("N", id=FROM, **{"in": 1 - at % 2}, name="x"), 1000)
    for name, number in (("over", OWN - 1), ("under", 0)):
        yield draws(f"o, a window {name} others", windowed, lambda at, number=number: moved(WINDOW + number, at % 2))
    yield draws("r", beneath, lambda at: drawing("r", id=ONTO, r=(0, 0, SIDE, 8)), 100)
    yield draws(f"s, {INDICES} of 2048x2048", lettered, lambda at: strung("s"), 1, INDICES)
    yield draws(f"x, {INDICES} of 2048x2048", lettered, lambda at: strung("x", bgid=FROM, bgp=(0, 0)), 1, INDICES)
    yield draws("t", windowed, lambda at: drawing("t", top=1, ids=[WINDOW + at % OWN]))
    every = [WINDOW + at for at in range(OWN)]
    yield draws("t, of each other window", windowed, lambda at: drawing("t", top=1, ids=every[at % 2 :: 2]))
    yield Row("y", sketching, lambda at: written(DATA, drawing("y", id=DISPLAY, r=(0, 0, SIDE, 7)) + bytes(SIDE * 7 * 4)), 20)


def moved(window, by):
    return drawing("o", id=window, rmin=(by, 0), scr=(by, 0))


def tied():
    yield from sketching()
    yield written(DATA, drawing("N", id=FROM, **{"in": 1}, name="x"))


# Commands of windows, and other messages.


def asked(words):
    return lambda at: command(words(at))


def commands():
    swap = lambda one, other: lambda at: (one, other)[at % 2]
    yield Row("new, delete", lambda: beside(63), asked(lambda at: f"delete -id {64 + at // 2}" if at % 2 else "new -r 0 0 2048 2048"))
    yield Row("top, bottom", beside, asked(swap("top -id 1", "bottom -id 1")))
    yield Row("hide, unhide", beside, asked(swap("hide -id 64", "unhide -id 64")))
    yield Row("current", beside, asked(swap("current -id 1", "current -id 64")), 20)
    yield Row("move", beside, asked(swap("move -minx 1 -id 1", "move -minx 0 -id 1")))
    yield Row("resize", beside, asked(swap("resize -dx 2047 -id 1", "resize -dx 2048 -id 1")))
    yield Row("host", beside, asked(lambda at: f"host -id {1 + at}"))
    yield Row(f"top, bottom: a host of {INNER}", hosting, asked(swap("top -id 1", "bottom -id 1")))
    yield Row(f"hide, unhide: a host of {INNER}", hosting, asked(swap("hide -id 1", "unhide -id 1")))
    yield Row(f"move: a host of {INNER}", hosting, asked(swap("move -minx 1 -id 1", "move -minx 0 -id 1")), 2)
    yield Row(f"resize: a host of {INNER}", hosting, asked(swap("resize -dx 2047 -id 1", "resize -dx 2048 -id 1")), 2)
    yield Row(f"delete: a host of {INNER}", hosting, asked(lambda at: "delete -id 1"), 1)


def others():
    yield Row("hwsize", giving("hwsize"), lambda at: written(INPUT, (b"2047x2047", b"2048x2048")[at % 2]), 2)
    yield Row("mousein, a press", giving("mousein"), pressed, 4)
    yield Row("kbdin, 64 keys", giving("kbdin"), lambda at: written(INPUT, b"a" * 64), 100)
    for name in (("screen",), ("wsys", "1", "window"), ("wsys",)):
        count = 65_000 if name != ("wsys",) else 8_192
        yield Row(f"a read of {'/'.join(name)}", reading(name), lambda at, count=count: said("Tread", fid=FILE, offset=0, count=count), 1)
    yield Row(f"the end of a session with a host of {INNER}", hosting, lambda at: said("Tversion", tag=0xFFFF, msize=65560, version="9P2000"), 1)


def pressed(at):
    text = b"m" + b"".join(b"%11d " % number for number in (100, 100, 1 - at % 2, at))
    return written(INPUT, text)


ROWS = (letters, commands, others)


# What is measured.


def record(row, count):
    return work.text([*row.begun(), *map(row.message, range(count))])


def refusal(lines):
    """The text of the first reply that is an error."""
    for line in lines:
        if line[:2] == b"R ":
            reply = line.split()[2].decode()
            if reply[8:10] == RERROR:
                return bytes.fromhex(reply)[9:].decode()
    return None


def seconds(program, text, room):
    path = os.path.join(room, "out")
    with open(path, "wb") as out:
        used = run.use([program, "replay", "--size", f"{SIDE}x{SIDE}"], text, out)
    with open(path, "rb") as out:
        wrong = refusal(out)
    if used.status != 0 or wrong is not None:
        raise SystemExit(f"turns.py: status {used.status}: {wrong}")
    return used.user + used.system


def each(program, row, runs, room):
    """Seconds of one message."""
    least, most = ([seconds(program, record(row, count), room) for _ in range(runs)] for count in (0, row.count))
    return max(0.0, (min(most) - min(least)) / row.count)


def show(row, spent, whole):
    """Prints a row; tells whether it is above the bars."""
    size = len(row.message(0))
    short, longest = spent * row.most(SHORT), spent * row.most(LONGEST)
    above = (size <= SHORT and short > SECONDS) or longest > COMPOSITIONS * whole
    line = f"{row.name:<46} {size:>6} bytes {spent:>9.4f} s {spent / whole:>7.2f} compositions"
    if row.bytes_of_part:
        line += f"; below 1 kB {short:>7.2f} s; longest {longest:>8.1f} s"
    print(line + ("  above" if above else ""), flush=True)
    return above


def main():
    words = formats.Words(prog="turns.py", description=__doc__, formatter_class=argparse.RawDescriptionHelpFormatter)
    words.add_argument("--program", default=PROGRAM)
    words.add_argument("--only", default="")
    words.add_argument("--runs", type=count_of, default=1)
    options = words.parse_args()
    need("turns.py", options.program)
    above = False
    with tempfile.TemporaryDirectory() as room:
        whole = max(each(options.program, COMPOSITION, options.runs, room), 0.001)
        for row in (row for rows in ROWS for row in rows()):
            if options.only in row.name:
                above |= show(row, each(options.program, row, options.runs, room), whole)
    return 1 if above else 0


if __name__ == "__main__":
    sys.exit(main())
