#!/usr/bin/env python3
"""Times what `rio9 replay` takes for pixels beside pixman, memset, memmove and memcpy, in one table.

    bench/primitives/times.py [--program PATH] [--rounds N] [--runs N]

Wants Linux, Python 3, the built program (bench/peer.py tells how), a C compiler, pixman's headers and library, and pkg-config (Debian:
libpixman-1-dev, pkg-config). What one message takes is the difference of the user and system seconds of two records, of which one has
more such messages, or others that do less, the least of N runs each by turns, by how many more it has. The C program runs before and
after all of them: the least of both counts. Loads (`y`) are not measured: reading their lines takes many times as long as putting rows.
"""
import argparse
import os
import shlex
import subprocess
import sys
import tempfile
from dataclasses import dataclass

HERE = os.path.dirname(os.path.abspath(__file__))
sys.path[:0] = [os.path.join(HERE, ".."), os.path.join(HERE, "..", "replay")]
import run
import work
from chance import drawing

W, H, STRIP, WINDOW, SCROLLED = 640, 480, 25, (200, 150), 13
SCREEN = (0, 0, W, H)


@dataclass(frozen=True)
class Row:
    """What is measured, by which primitive, how often that time it is to take at most, two records, and how many more messages that are
    measured the second one has."""

    name: str
    primitive: str
    most: float
    few: bytes
    many: bytes
    more: int


def repeated(begun, message, size):
    """Records of a session with so many messages of a kind, in writes of that size."""

    def record(count):
        def messages():
            yield from begun()
            yield from work.in_writes(size, [message] * count)

        return work.text(messages())

    return record


def row(name, primitive, most, record, count):
    """A row whose records have so many messages, and four times as many."""
    return Row(name, primitive, most, record(count), record(4 * count), 3 * count)


def alpha():
    yield from work.sketching()
    yield work.written(work.DATA, work.picture(work.FROM, "a8r8g8b8"))


def beneath(windows):
    def begun():
        yield from work.sketching()
        yield from work.windows_at([(100, 100, 100 + WINDOW[0], 100 + WINDOW[1])] * windows)

    return begun


def raised(count):
    """The lowest of eight windows at one place comes to the top, again and again."""

    def messages():
        yield from beneath(8)()
        yield from work.in_writes(100, (drawing("t", top=1, ids=[work.WINDOW + at % 8]) for at in range(count)))

    return work.text(messages())


def rows():
    fill, scroll = work.fill(work.DISPLAY, SCREEN), work.scroll(work.DISPLAY, (0, 0, W, H - SCROLLED))
    read = drawing("r", id=work.DISPLAY, r=(0, 0, W, STRIP))
    yield row("draw of 640x480, SoverD, a full mask", "over", 1.2, repeated(alpha, work.draw(work.DISPLAY, work.FROM), 10), 100)
    yield row("fill of 640x480", "fill", 1.3, repeated(work.sketching, fill, 10), 500)
    yield row("scroll of 640x467 onto itself", "scroll", 1.5, repeated(work.sketching, scroll, 10), 200)
    nothing, reads = (repeated(work.sketching, message, 1)(8000) for message in (drawing("v"), read))
    yield Row("read of 640x25 (r), without a message's own", "strip", 1.3, nothing, reads, 8000)
    yield row("raise of 200x150 over seven", "window", 8, raised, 5000)


def seconds(program, record, room):
    with open(os.path.join(room, "out"), "wb") as out:
        use = run.use([*program, "replay"], record, out)
    if use.status != 0:
        raise SystemExit(f"status {use.status}")
    return use.user + use.system


def each(program, row, runs, room):
    """Nanoseconds of one message."""
    few, many = zip(*((seconds(program, row.few, room), seconds(program, row.many, room)) for _ in range(runs)))
    return (min(many) - min(few)) / row.more * 1e9


def primitives(built, rounds):
    told = subprocess.run([built, str(rounds)], check=True, capture_output=True, text=True).stdout
    return {name: float(value) for name, value in map(str.split, told.splitlines())}


def build(room):
    flags = subprocess.run(["pkg-config", "--cflags", "--libs", "pixman-1"], check=True, capture_output=True, text=True).stdout.split()
    built = os.path.join(room, "times")
    subprocess.run(["cc", "-O2", os.path.join(HERE, "times.c"), *flags, "-o", built], check=True)
    return built


def main(words):
    parser = argparse.ArgumentParser(description=__doc__.split("\n")[0])
    parser.add_argument("--program", type=shlex.split, default=[run.PROGRAM], help="another program than the built one")
    parser.add_argument("--rounds", type=int, default=201, help="rounds of the C program")
    parser.add_argument("--runs", type=int, default=7, help="runs of each record")
    options = parser.parse_args(words)
    with tempfile.TemporaryDirectory() as room:
        built = build(room)
        before = primitives(built, options.rounds)
        found = [(row, each(options.program, row, options.runs, room)) for row in rows()]
        after = primitives(built, options.rounds)
    base = {name: min(before[name], after[name]) for name in before}
    print(f"{'':<42} {'us':>9} {'primitive':>9} {'us':>9} {'ratio':>6} {'wanted':>6}")
    for row, took in found:
        other = base[row.primitive]
        print(f"{row.name:<42} {took / 1e3:9.1f} {row.primitive:>9} {other / 1e3:9.1f} {took / other:6.2f} {row.most:6.1f}")
    print(f"memcpy of 9 MB: {base['large'] / 1e6:.2f} ms")


if __name__ == "__main__":
    main(sys.argv[1:])
