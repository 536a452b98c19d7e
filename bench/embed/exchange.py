#!/usr/bin/env python3
"""Measures what a display in the process costs a program in Python (python/rio9/display.py).

    bench/embed/exchange.py [--runs N]

The library is found as `rio9.Display` finds it; RIO9_LIBRARY names another one. Printed are the least microseconds of a processor in N
runs, 5 if nothing is said: of an exchange of a small message, of the same by `rio9.Client`, of the rows of 640x480 into bytes that
are there and beside a copy of them, and of a test with exact replies and a picture on a display of 320x240 and of 640x480, as the
fixture for pytest runs it (needs pytest and Pillow).
At most 10 microseconds are wanted for an exchange, and 2 milliseconds for the test. Status 1 tells that one takes longer.
"""
import os
import sys
import time
from pathlib import Path

ROOT = os.path.dirname(os.path.dirname(os.path.dirname(os.path.abspath(__file__))))
sys.path[:0] = [os.path.join(ROOT, "python"), os.path.join(ROOT, "bench")]

from rio9 import formats, library
from rio9.display import Display
from rio9.formats import at_least
import sessions

HERE = Path(__file__).parent
WIDTH, HEIGHT, CHANNELS = 640, 480, "x8r8g8b8"
TEST_SIZE = 320, 240
MOST_EXCHANGE, MOST_TEST = 10, 2000
REPLIES = [bytes.fromhex("1300000065ffff180001000600395032303030"), bytes.fromhex("1400000069010080000000000100000000000000")]


def least(runs, count, act):
    """The least microseconds of a processor that an act takes."""
    found = []
    for _ in range(runs):
        begin = time.process_time()
        for _ in range(count):
            act()
        found.append((time.process_time() - begin) / count * 1e6)
    return min(found)


def a_test(size=TEST_SIZE):
    """What a test does: a display of its own, exact replies, a window, a picture."""
    from rio9.pytest_plugin import PROCESS, RunningDesktop
    from rio9.server import ServerWords

    desktop = RunningDesktop(ServerWords(size=size), PROCESS, HERE, HERE, False)
    session = desktop.display.begin()
    assert [session.exchange(message) for message in sessions.arrived()] == REPLIES
    with desktop.client("new -r 16 16 176 128") as window:
        with window.file(window.root, "label", 1) as label:
            label.write(b"notes")
        assert desktop.screen().getpixel((100, 100)) == (255, 255, 255)
    desktop.finish(None)


def rows(runs):
    """What is measured: its name, and microseconds."""
    with Display(WIDTH, HEIGHT, CHANNELS) as display:
        session = display.begin()
        for message in sessions.arrived():
            session.exchange(message)
        stat = sessions.said("Tstat", fid=sessions.TOP)
        yield "exchange of a stat", least(runs, 10000, lambda: session.exchange(stat))
        with display.client() as client:
            yield "stat by rio9.Client", least(runs, 2000, lambda: client.stat(client.root))
        buffer = bytearray(WIDTH * HEIGHT * formats.depth(formats.channels_word(CHANNELS)) // 8)
        other = bytearray(len(buffer))
        yield "rows of 640x480 into bytes", least(runs, 50, lambda: display.rows_into(buffer))
        yield "a copy of them", least(runs, 50, lambda: other.__setitem__(slice(None), buffer))
    a_test()
    yield "a test with replies and a picture", least(runs, 50, a_test)
    yield "the same on a display of 640x480", least(runs, 50, lambda: a_test((WIDTH, HEIGHT)))


def main():
    words = formats.Words(prog="exchange.py", description=__doc__.split("\n")[0])
    words.add_argument("--runs", type=at_least(1), default=5, metavar="N")
    options = words.parse_args()
    try:
        library.load()
    except library.NoLibrary as error:
        formats.stop("exchange.py", error)
    found = {}
    for name, microseconds in rows(options.runs):
        found[name] = microseconds
        print(f"{name:<36} {microseconds:10.1f} microseconds", flush=True)
    return found["exchange of a stat"] > MOST_EXCHANGE or found["a test with replies and a picture"] > MOST_TEST


if __name__ == "__main__":
    sys.exit(main())
