#!/usr/bin/env python3
"""Refuses the built program each of its requests for memory in turn, one in each run, and looks at what it then answers.

    tools/refused_memory.py [--program PATH] [--every K] [--jobs N]

The runs are `replay` of a case of crates/tests_rows in which a session has a window, draws and waits, `alone` of a session of
examples/guest.record, `gen 3`, `text` with the font of python/rio9/font.txt, and `desk` with the first events of examples/desk.txt. What refuses is refused_memory.c, which cc builds and the
program is started with. Each run has to end with status 5, its line on standard error and a front of what is printed where no request is
refused, or with status 0 and all of that. With --every only each K-th request is refused. It prints how many requests a run makes, how
many were refused, and how the runs ended. Status 1 tells that one ended otherwise, 2 that a word or a file is wrong.

It is outside the proof. Needs: Linux with glibc, Python 3.9 or later, its standard library alone, and cc.
"""

import collections
import multiprocessing.pool
import os
import subprocess
import sys
import tempfile
from dataclasses import dataclass

from rio9 import events, font, formats
from rio9.events import EVENT_BYTES

HERE = os.path.dirname(os.path.abspath(__file__))
ROOT = os.path.dirname(HERE)
PROGRAM = os.path.join(ROOT, "crates", "rio9", "out", "rio9")
CASES = os.path.join(ROOT, "crates", "tests_rows", "stdin")
CASE = "A window is resized: its waiting read of mouse tells so, and its old image is no longer valid"
TEXT = b"a text that scrolls\nin its window\n"
MOUSE = os.path.join(ROOT, "examples", "desk.txt")
EVENTS = 12
GUESTS = os.path.join(ROOT, "examples", "guest.record")
LINE = b"rio9: out of memory\n"
SECONDS = 60  # that a run may take


@dataclass(frozen=True)
class Ending:
    status: int
    out: bytes
    err: bytes


@dataclass(frozen=True)
class Run:
    """A program, its words and its input."""

    program: str
    words: tuple
    given: bytes

    def ending(self, library, number, **more):
        """How it ends where the request of a number is refused, none where that is 0."""
        given = {"LD_PRELOAD": library, "REFUSE": str(number), **more}
        ended = subprocess.run([self.program, *self.words], input=self.given, env=given, capture_output=True, timeout=SECONDS)
        return Ending(ended.returncode, ended.stdout, ended.stderr)


def case_of(title):
    """The words and the input of a case."""
    with open(CASES, encoding="utf-8") as file:
        for case in file.read().split("== "):
            if case.startswith(title + "\n"):
                _, words, given = case.split("\n", 2)
                return tuple(words.split(" ")), given.encode()
    formats.stop("refused_memory.py", f"no case in {CASES}: {title}")


def guest():
    """The words and the input that answer a guest among others."""
    with open(GUESTS, "rb") as file:
        return ("alone", "--size", "160x120", "--conn", "2"), file.read()


def typed(text):
    """The words and the input that show a text in a small window."""
    with open(font.DRAWN, encoding="ascii") as file:
        return ("text", "--cols", "4", "--rows", "4"), font.font_file(font.read_font(file.read())) + text


def pointed(count):
    """The words and the input that make windows by a mouse."""
    with open(MOUSE, encoding="ascii") as file:
        return ("desk",), events.events_of(file.read())[: EVENT_BYTES * count]


def kind_of(ending, whole):
    """What kind of ending one is, where `whole` is the one with memory; None where it is to be none."""
    if ending == whole:
        return "the whole answer"
    if ending.status == 5 and ending.err == LINE and whole.out.startswith(ending.out):
        return "status 5"
    return None


def built(room):
    """The library that refuses."""
    path = os.path.join(room, "refused_memory.so")
    command = ["cc", "-O1", "-fno-builtin", "-shared", "-fPIC", "-o", path, os.path.join(HERE, "refused_memory.c")]
    if subprocess.run(command, check=False).returncode != 0:
        formats.stop("refused_memory.py", "refused_memory.c is not built")
    return path


def check(run, library, room, options):
    """Refuses the requests of a run in turn, and tells how it ended. Gives whether it did as it is to."""
    told = os.path.join(room, "asked")
    whole = run.ending(library, 0, ASKED=told)
    with open(told, encoding="ascii") as file:
        asked = int(file.read())
    if whole.status != 0 or whole.err:
        formats.stop("refused_memory.py", f"with memory the program ends with status {whole.status}: {whole.err[:80]!r}")
    numbers, kinds = range(1, asked + 1, options.every), collections.Counter()
    with multiprocessing.pool.ThreadPool(options.jobs) as pool:
        for number, ending in zip(numbers, pool.imap(lambda number: run.ending(library, number), numbers, 16)):
            kind = kind_of(ending, whole)
            kinds[kind] += 1
            if kind is None:
                print(f"request {number}: status {ending.status}, {ending.err[:80]!r}, {len(ending.out)} bytes printed")
    counts = ", ".join(f"{kind or 'otherwise'} {count}" for kind, count in sorted(kinds.items(), key=str))
    print(f"{' '.join(run.words)}: {asked} requests, {len(numbers)} refused in turn: {counts}", flush=True)
    return kinds[None] == 0


def main(words):
    parser = formats.Words(prog="refused_memory.py", description=__doc__.split("\n")[0])
    parser.add_argument("--program", default=PROGRAM, help="another program than the built one")
    parser.add_argument("--every", type=formats.at_least(1), default=1, metavar="K")
    parser.add_argument("--jobs", type=formats.at_least(1), default=2, metavar="N")
    options = parser.parse_args(words)
    if not (os.path.isfile(options.program) and os.access(options.program, os.X_OK)):
        formats.stop("refused_memory.py", f"no program: {options.program}")
    runs = [Run(options.program, *case) for case in (case_of(CASE), guest(), (("gen", "3"), b""), typed(TEXT), pointed(EVENTS))]
    with tempfile.TemporaryDirectory() as room:
        library = built(room)
        good = [check(run, library, room, options) for run in runs]
    return 0 if all(good) else 1


if __name__ == "__main__":
    sys.exit(main(sys.argv[1:]))
