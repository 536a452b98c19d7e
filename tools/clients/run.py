#!/usr/bin/env python3
"""Runs client code of Plan 9, and other clients of 9P, before a server, and compares what they see with expected.txt.

    tools/clients/run.py [--program PATH] [--run NAME].. [--shapes N] [--translated] [--cache FOLDER] [--out FOLDER] [--list]

It starts `serve` of the program at the loopback, once for each run. Each run makes the same calls of libdraw on a
window of the server and on one of Plan 9's own draw device, in one process, and compares all pixels; README.md beside
this file says of what it is made. With --translated each client reaches the server through `rio9d translate`. N shapes
are made by chance where a run has some, 500 where nothing is said. CACHE takes what apt fetches, OUT the pictures and
lines of each run.

Each row is printed; UNEXPECTED stands behind one that is otherwise, and status 1 tells that there was one, 2 that a
word is wrong. It is outside the proof. Needs: Debian 12 or what is near it with apt's archives, gcc, x86-64 or arm64;
Python 3.9 or later.
"""

import argparse
import os
import re
import subprocess
import sys
import tempfile
from dataclasses import dataclass, field
from typing import Dict, Iterator, List, Optional, Tuple

HERE = os.path.dirname(os.path.abspath(__file__))
TOP = os.path.dirname(os.path.dirname(HERE))
sys.path.insert(0, os.path.join(TOP, "tools"))
from rio9 import formats  # noqa: E402
from served import Server, Wrong  # noqa: E402

PROGRAM = os.path.join(TOP, "crates", "rio9", "out", "rio9")
RIO9D = os.path.join(TOP, "python", "rio9d")
SECONDS = 3600  # that a run may take
WORKERS, CONNS = 16, 400
WINDOW = "10,10,210,160"
PLAN9, FRONT = "drawterm", "drawterm-9front"
ROW = re.compile(r"(.*?) +\| (.*)")

# The displays that are tried beside 640x480 in x8r8g8b8: sizes, with a window in their lower right corner, and channels.
SIZES = ((216, 166), (1024, 768), (2048, 2048))
CHANNELS = ("k1", "k2", "k4", "k8", "x1r5g5b5", "r5g6b5", "r8g8b8", "b8g8r8", "x8b8g8r8", "a8r8g8b8", "r8g8b8a8", "a8b8g8r8")


@dataclass(frozen=True)
class Run:
    """A run: which sources, the words of the server and of the client, how many such clients at once, and rows of which
    another thing is expected."""

    name: str
    flavor: str = PLAN9
    serve: Tuple[str, ...] = ()
    words: Tuple[str, ...] = ("parts=pictures",)
    windows: Tuple[str, ...] = (WINDOW,)
    other: Dict[str, str] = field(default_factory=dict)


def display_runs() -> Iterator[Run]:
    """Runs on displays of other sizes and channels."""
    for width, height in SIZES:
        corner = f"{width - 206},{height - 156},{width - 6},{height - 6}"
        words = ("parts=pictures", f"size={width},{height}")
        yield Run(f"{width}x{height}", serve=("--size", f"{width}x{height}"), words=words, windows=(corner,))
    for channels in CHANNELS:
        yield Run(channels, serve=("--chan", channels), words=("parts=pictures", f"chan={channels}"), other=CHANNEL_ROWS.get(channels, {}))


def shape_runs(shapes: int, windows: Tuple[str, ...]) -> Iterator[Run]:
    """Runs with shapes by chance on displays of other channels, of sources of one colour without alpha."""
    for seed, channels in enumerate(("k1", "k8", "r5g6b5", "a8r8g8b8"), 3):
        words = ("parts=shapes,constant", f"count={shapes}", f"seed={seed}", f"chan={channels}")
        yield Run(f"shapes-{channels}", serve=("--chan", channels), words=words, windows=windows)


def runs(shapes: int) -> List[Run]:
    """All runs."""
    every = ("parts=pictures,input,bare,deleted",)
    apart = ("10,10,210,160", "220,40,420,190")
    small = ("10,10,130,110",)
    over = ("10,10,210,160", "60,50,260,200", "110,90,310,240")
    return [
        Run("drawterm", words=every),
        Run("9front", FRONT, words=every),
        Run("deep", words=("parts=pictures", "deep=3")),
        Run("deep-9front", FRONT, words=("parts=pictures", "deep=3")),
        Run("two", windows=apart),
        Run("covered", windows=over),
        *display_runs(),
        Run("shapes", words=("parts=shapes", f"count={shapes}"), windows=small),
        Run("shapes-9front", FRONT, words=("parts=shapes,constant", f"count={shapes}", "seed=2"), windows=small),
        *shape_runs(shapes, small),
        Run("times", words=("parts=times",)),
        Run("times-9front", FRONT, words=("parts=times",)),
        Run("others"),
    ]


# Rows of a grey display of which another thing is expected: a pixel through a grey mask is rounded otherwise, by one step, and on a
# few greys a colour looks like the white that it is not drawn on.
FEW_GREYS = {"draw: mask k8": "same within 1", "allocimage CMAP8": "same picture"}
CHANNEL_ROWS: Dict[str, Dict[str, str]] = {
    "k1": FEW_GREYS,
    "k2": FEW_GREYS,
    "k4": {"draw: mask k8": "DIFFERS by up to 16"},
    "k8": {"draw: mask k8": "same within 1"},
}


@dataclass
class Table:
    """What is expected of each row, by itself and through a translator; and how many rows were otherwise."""

    direct: Dict[str, str]
    translated: Dict[str, str]
    is_translated: bool
    unexpected: int = 0

    def wanted(self, name: str, run: Run) -> Optional[str]:
        """What is expected of a row in a run."""
        if name in run.other:
            return run.other[name]
        by_name = self.translated if self.is_translated else self.direct
        return by_name.get(name)

    def judge(self, name: str, seen: str, run: Run) -> str:
        """The row as it is printed."""
        wanted = self.wanted(name, run)
        if wanted is not None and all(piece.strip() in seen for piece in wanted.split("&")):
            return f"{name:44} | {seen}"
        self.unexpected += 1
        return f"{name:44} | {seen}   UNEXPECTED, wanted: {wanted or 'no such row'}"


def table(is_translated: bool) -> Table:
    """What expected.txt says."""
    direct, translated = {}, {}
    with open(os.path.join(HERE, "expected.txt"), encoding="utf-8") as lines:
        for line in lines:
            cells = [cell.strip() for cell in line.split(" | ")]
            if len(cells) > 1:
                direct[cells[0]], translated[cells[0]] = cells[1], cells[-1]
    return Table(direct, translated, is_translated)


class Translator:
    """A running `rio9d translate` before a server, or, where none is wanted, what has the server's own port."""

    def __init__(self, port: int, is_wanted: bool) -> None:
        self.port, self.process = port, None
        if not is_wanted:
            return
        command = [sys.executable, RIO9D, "translate", "127.0.0.1:0", f"127.0.0.1:{port}"]
        self.process = subprocess.Popen(command, stdout=subprocess.PIPE, text=True)
        line = self.process.stdout.readline()
        found = re.search(r":([0-9]+)\b", line)
        if not found:
            self.end()
            raise Wrong(f"rio9d translate does not listen: {line!r}")
        self.port = int(found[1])

    def end(self) -> None:
        """Ends it."""
        if self.process is not None:
            self.process.kill()
            self.process.wait()


def built(flavor: str, cache: str) -> str:
    """The path of the client of a flavor, which is built where it is not there or older than its sources."""
    run = subprocess.run([os.path.join(HERE, "build.sh"), cache, flavor], capture_output=True, text=True)
    if run.returncode != 0:
        raise Wrong(f"the client of {flavor} was not built: {run.stderr.strip()[-300:]}")
    return os.path.join(cache, f"program-{flavor}")


def commands(run: Run, port: int, cache: str, out: str) -> Iterator[List[str]]:
    """The commands of a run's clients, which go on at once."""
    if run.name == "others":
        yield [os.path.join(HERE, "others.sh"), "127.0.0.1", str(port), cache]
        return
    program = built(run.flavor, cache)
    for number, window in enumerate(run.windows):
        folder = os.path.join(out, f"{run.name}-{number}")
        os.makedirs(folder, exist_ok=True)
        yield [program, f"127.0.0.1!{port}", folder, f"window={window}", *run.words]


def lines_of(run: Run, port: int, cache: str, out: str) -> List[Tuple[int, str]]:
    """What the clients of a run printed, each line with its client's number, and a line for each that failed."""
    started = [
        subprocess.Popen(command, stdout=subprocess.PIPE, stderr=subprocess.STDOUT, text=True, errors="replace")
        for command in commands(run, port, cache, out)
    ]
    found = []
    for number, process in enumerate(started):
        try:
            printed, _ = process.communicate(timeout=SECONDS)
        except subprocess.TimeoutExpired:
            process.kill()
            printed, _ = process.communicate()
        found += [(number, line) for line in printed.split("\n") if line.strip()]
        if process.returncode != 0:
            found.append((number, f"the client's end | status {process.returncode}"))
    return found


def do(run: Run, options: argparse.Namespace, judge: Table) -> None:
    """Does a run, and prints its rows."""
    print(f"== {run.name}" + (", translated" if judge.is_translated else ""), flush=True)
    with tempfile.TemporaryDirectory() as room, Server(options.program, room, WORKERS, CONNS, run.serve) as server:
        translator = Translator(server.port, judge.is_translated)
        try:
            found = lines_of(run, translator.port, options.cache, options.out)
        finally:
            translator.end()
    for number, line in found:
        row = ROW.fullmatch(line)
        which = f"{number + 1}: " if len(run.windows) > 1 else ""
        print(which + (judge.judge(row[1], row[2], run) if row else judge.judge(line, "", run)), flush=True)
    if not found:
        judge.unexpected += 1
        print("UNEXPECTED: no rows")


def main(words: List[str]) -> int:
    """Does what the words say, and gives the status."""
    room = os.path.join(tempfile.gettempdir(), "rio9-clients")
    form = argparse.RawDescriptionHelpFormatter
    parser = formats.Words(prog="clients/run.py", description=__doc__, formatter_class=form)
    parser.add_argument("--program", default=PROGRAM, metavar="PATH")
    parser.add_argument("--run", action="append", default=[], metavar="NAME")
    parser.add_argument("--shapes", type=formats.at_least(1), default=500, metavar="N")
    parser.add_argument("--translated", action="store_true")
    parser.add_argument("--cache", default=os.path.join(room, "cache"), metavar="FOLDER")
    parser.add_argument("--out", default=os.path.join(room, "out"), metavar="FOLDER")
    parser.add_argument("--list", action="store_true")
    options = parser.parse_args(words)
    known = {run.name: run for run in runs(options.shapes)}
    if options.list:
        print("\n".join(known))
        return 0
    for name in options.run:
        if name not in known:
            parser.error(f"no run: {name}; --list tells them")
    if not os.access(options.program, os.X_OK):
        parser.error(f"no program: {options.program}; (cd crates/rio9 && rt run -- replay) builds it")
    judge = table(options.translated)
    chosen = options.run or [name for name in known if judge.is_translated or not name.startswith("shapes")]
    for name in chosen:
        try:
            do(known[name], options, judge)
        except (Wrong, OSError) as error:
            judge.unexpected += 1
            print(f"UNEXPECTED: {error}")
    print("all as expected" if judge.unexpected == 0 else f"{judge.unexpected} unexpected")
    return 1 if judge.unexpected else 0


if __name__ == "__main__":
    sys.exit(main(sys.argv[1:]))
