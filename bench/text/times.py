#!/usr/bin/env python3
"""Times `rio9 text`, which writes the record that shows a text in a window, beside a peer.

    bench/text/times.py PEER [--program PATH] [--bytes N]

The peer is a plain program with the same words, which is given by its path. Wants Python 3 and the built program (`cd
crates/rio9 && rt run -- replay < stdin` builds it; --program names another one). Each text has N bytes, 1,000,000 where nothing is
said: lines of words of 0 to 120 characters, newlines alone, and one long line; the window has 64 by 20 characters of `rio9d font`.

It prints processor seconds, of the user and the system, the least of nine runs of each program, their ratio, the most
memory of each, and the length of the record. The records need not be equal. So the peer is asked whether the program's
record shows the text as it has to: where it knows the words `--check RECORD` it prints `ok`, or what is otherwise. It
looks at the page after each piece, and so it is asked about a front of the text of at most 500 lines.
"""
import os
import random
import subprocess
import sys
import tempfile

HERE = os.path.dirname(os.path.abspath(__file__))
ROOT = os.path.dirname(os.path.dirname(HERE))
sys.path.insert(0, os.path.join(os.path.dirname(HERE), "replay"))
from beside import row, run, verdict
from run import PROGRAM, need_peer

WORDS = ["text", "--cols", "64", "--rows", "20"]
SEED, LONGEST, LINES_CHECKED = 7, 120, 500
LETTERS = "abcdefghijklmnopqrstuvwxyz"


def lines(size):
    """A text of lines of words, each line cut at a length from 0 to the longest."""
    chance, found, length = random.Random(SEED), [], 0
    words = ["".join(chance.choices(LETTERS, k=chance.randint(1, 12))) for _ in range(1000)]
    while length < size:
        found.append(" ".join(chance.choices(words, k=40))[: chance.randint(0, LONGEST)] + "\n")
        length += len(found[-1])
    return "".join(found)[:size].encode()


def texts(size):
    return {
        "lines of words": lines(size),
        "newlines alone": b"\n" * size,
        "one long line": lines(size).replace(b"\n", b" "),
    }


def front(text):
    """So many lines of a text, or all; and no more bytes than so many of the longest lines have."""
    return b"".join(text[: LONGEST * LINES_CHECKED].splitlines(keepends=True)[:LINES_CHECKED])


def main(words):
    options = {"--program": PROGRAM, "--bytes": "1000000"}
    while len(words) > 1 and words[-2] in options:
        options[words[-2]], words = words[-1], words[:-2]
    program = options["--program"]
    peer = need_peer(program, words)
    font = subprocess.run([sys.executable, os.path.join(ROOT, "python", "rio9d"), "font"], capture_output=True, check=True).stdout
    with tempfile.TemporaryDirectory() as room:
        path = os.path.join(room, "record")
        for name, text in texts(int(options["--bytes"])).items():
            used = row(program, peer, WORDS, font + text, path)
            size = os.path.getsize(path)
            run(program, WORDS, font + front(text), path)
            said = verdict(peer, WORDS, font + front(text), path)
            print(f"{name:<15} {used}; a record of {size / 1e6:.1f} MB; checked: {said}", flush=True)


if __name__ == "__main__":
    main(sys.argv[1:])
