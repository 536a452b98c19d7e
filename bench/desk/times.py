#!/usr/bin/env python3
"""Times `rio9 desk`, which writes the record of a session that does what a mouse says, beside a peer.

    bench/desk/times.py PEER [--program PATH] [--events N]

The peer is a plain program with the same words, which is given by its path. Wants Python 3 and the built program (`cd
crates/rio9 && rt run -- replay < stdin` builds it; --program names another one). There are N events, 20,000 where nothing is said, of
three kinds: gestures with menus as tools/desk_soak.py makes them, of a seed; clicks over 32 windows; and menus alone, which come and
go.

It prints processor seconds, of the user and the system, the least of nine runs of each program, their ratio, the most memory of each,
the length of the record, and what the peer, asked by `--check RECORD`, says of the program's record: `ok`, or what is otherwise.
"""
import os
import random
import sys
import tempfile

HERE = os.path.dirname(os.path.abspath(__file__))
ROOT = os.path.dirname(os.path.dirname(HERE))
sys.path[:0] = [os.path.join(ROOT, "bench", "replay"), os.path.join(ROOT, "tools")]
from beside import row, verdict
from rio9.events import Mouse
from desk_soak import Hand, events_of, spelled
from run import PROGRAM, need_peer

WORDS, SEED, WINDOWS = ["desk"], 7, 32


def clicks(count):
    """Windows, and clicks over them."""
    hand = Hand(random.Random(SEED))
    for _ in range(WINDOWS):
        hand.new_window()
    while len(hand.events) < count:
        hand.click(hand.on_window(), 1)
    return hand.events


def menus(count):
    """Menus, and nothing is chosen."""
    return [Mouse(100 + at % 7, 100, 4 * (at % 2 == 0), at) for at in range(count)]


def kinds(count):
    """The inputs, by the kinds of their events."""
    found = {"gestures": events_of(random.Random(SEED), count), "clicks": clicks(count), "menus": menus(count)}
    return {name: spelled(events[:count]) for name, events in found.items()}


def main(words):
    options = {"--program": PROGRAM, "--events": "20000"}
    while len(words) > 1 and words[-2] in options:
        options[words[-2]], words = words[-1], words[:-2]
    program, count = options["--program"], int(options["--events"])
    peer = need_peer(program, words)
    with tempfile.TemporaryDirectory() as room:
        path = os.path.join(room, "record")
        for name, given in kinds(count).items():
            used = row(program, peer, WORDS, given, path)
            size = os.path.getsize(path)
            print(f"{name:<9} {used}; a record of {size / 1e6:.1f} MB; checked: {verdict(peer, WORDS, given, path)}", flush=True)


if __name__ == "__main__":
    main(sys.argv[1:])
