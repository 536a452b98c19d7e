#!/usr/bin/env python3
"""Times drawing by `rio9 replay` against plain Rust without proofs, drawing/plain.rs, on the same records.

Wants Python 3, rustc, and the built program (`cd crates/rio9 && rt run -- replay < stdin` builds it). A record has N draw
messages of 200 by 150 points on the 640 by 480 display, SoverD. It prints the seconds of both, less those of a record
without draws, their ratio, and the most memory of the program beside the length of the record.
"""
import os
import subprocess
import sys
import tempfile

HERE = os.path.dirname(os.path.abspath(__file__))
sys.path.insert(0, os.path.join(os.path.dirname(HERE), "replay"))
from run import PROGRAM, measure, message, need_program, number, string

CORNERS = [(40 * i % 440, 30 * i % 330) for i in range(132)]


def signed(value):
    return value.to_bytes(4, "little", signed=True)


def rect(x0, y0, x1, y1):
    return b"".join(map(signed, (x0, y0, x1, y1)))


def allocate(image, chan, repl, r, clipr, color):
    return b"b" + number(image, 4) + number(0, 5) + number(chan, 4) + bytes([repl]) + r + clipr + number(color, 4)


def draw(dst, src, mask, r, sp=(0, 0)):
    return b"d" + number(dst, 4) + number(src, 4) + number(mask, 4) + r + b"".join(map(signed, sp)) + rect(0, 0, 0, 0)[:8]


def twrite(payload):
    return message(118, 1, number(2, 4) + number(0, 8) + number(len(payload), 4) + payload)


def walk(newfid, *names):
    return message(110, 1, number(0, 4) + number(newfid, 4) + number(len(names), 2) + b"".join(map(string, names)))


def topen(fid):
    return message(112, 1, number(fid, 4) + bytes([2]))


X8R8G8B8, A8R8G8B8, K1 = 0x68081828, 0x48081828, 0x31
WIDE, POINT = rect(-0x3FFFFFFF, -0x3FFFFFFF, 0x3FFFFFFF, 0x3FFFFFFF), rect(0, 0, 1, 1)
SPRITE = rect(0, 0, 200, 150)

OPENING = [
    message(100, 0xFFFF, number(65560, 4) + string(b"9P2000")),
    message(104, 1, number(0, 4) + number(0xFFFFFFFF, 4) + string(b"") + string(b"")),
    walk(1, b"draw", b"new"),
    topen(1),
    walk(2, b"draw", b"1", b"data"),
    topen(2),
    twrite(
        allocate(1, K1, 1, POINT, WIDE, 0xFFFFFFFF)
        + allocate(2, A8R8G8B8, 1, POINT, WIDE, 0x80000080)
        + allocate(3, A8R8G8B8, 0, SPRITE, SPRITE, 0x00400080)
        + allocate(4, X8R8G8B8, 1, POINT, WIDE, 0xFFFFFFFF)
        + draw(3, 2, 1, rect(20, 20, 180, 130))
    ),
]


def places(count):
    for i in range(count):
        x, y = CORNERS[i % len(CORNERS)]
        yield rect(x, y, x + 200, y + 150), (x, y)


# What each message draws, through a full mask of one bit: one translucent colour, a translucent picture, and a piece of the
# display moved over another; and the first through a mask of colours, which no lane composes.
KINDS = {
    "a colour": lambda count: [draw(0, 2, 1, r) for r, _ in places(count)],
    "a picture": lambda count: [draw(0, 3, 1, r) for r, _ in places(count)],
    "the display itself": lambda count: [draw(0, 0, 1, r, (x + 7, y + 5)) for r, (x, y) in places(count)],
    "a mask of colours": lambda count: [draw(0, 2, 4, r) for r, _ in places(count)],
}


def record(draws):
    messages = OPENING + [twrite(payload) for payload in draws]
    return b"".join(line + b"\n" for line in [b"rio9 1", b"B 1"] + [b"M 1 " + m.hex().encode() for m in messages] + [b"E 1"])


def best(text, program):
    runs = [measure(text, 0, program) for _ in range(2)]
    return min(run[0] for run in runs), max(run[1] for run in runs)


def main():
    need_program()
    with tempfile.TemporaryDirectory() as folder:
        plain = os.path.join(folder, "plain")
        subprocess.run(["rustc", "--edition", "2021", "-O", "-C", "target-cpu=x86-64-v2", "-o", plain, os.path.join(HERE, "plain.rs")], check=True)
        for count in (2000, 4000):
            for name, draws in KINDS.items():
                full, empty = record(draws(count)), record([])
                ours, memory = best(full, [PROGRAM, "replay"])
                theirs, _ = best(full, [plain])
                ours, theirs = ours - best(empty, [PROGRAM, "replay"])[0], theirs - best(empty, [plain])[0]
                row = f"{count:>6} draws of {name:<20} {ours:8.4f} s, plain {theirs:8.4f} s, ratio {ours / theirs:5.2f},"
                print(row + f" {memory / 1e6:6.1f} MB for a record of {len(full) / 1e6:5.2f} MB")


if __name__ == "__main__":
    main()
