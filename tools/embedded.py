#!/usr/bin/env python3
"""Makes records step by step in a display in the process, and compares with what a peer's `replay` prints.

    tools/embedded.py PEER [RECORD..] [--made N] [--seed S] [--steps PROGRAM] [--jobs N]

PEER is a plain program with the words of rio9: its path, or in one word its path and words that come before `replay`. A RECORD is a file,
or a folder of files `*.record`. The words of `replay` stand one a line in RECORD.args, if that is there: `--size` and `--chan`. N records
are made by chance, as soak.py makes them from a seed; none if nothing is said.

`rio9.Display` (python/rio9/display.py; RIO9_LIBRARY names the library) makes the events one by one. Compared are the lines of the replies, the
display at the end, and the record that the display has. After each event each cell with a pixel that changed has to be marked. Another
display loads the record whole. A third begins and ends sessions, sends and takes by calls, if no event tells that memory ran out. PROGRAM
is an example of the crate `rio9` that does the same (rust/rio9/examples/steps.rs), and its output is compared too. A record that PEER
refuses has to be refused at the same place.

Each record that differs is told. Status 1 tells that one does, 2 that a word or a file is wrong. It is outside the proof. Needs:
Linux, Python 3.9 or later, its standard library alone.
"""

import collections
import multiprocessing
import os
import re
import shlex
import subprocess
import sys
from dataclasses import dataclass
from pathlib import Path
from typing import Dict, Iterator, List, Optional, Tuple

TOP = Path(__file__).resolve().parent.parent
sys.path.insert(0, str(TOP / "python"))

from rio9 import formats, library, program
import made_records
from rio9.display import CELL, BadEvent, BadRecord, Display, LateRecord, NoMemory

USUAL = (640, 480), "x8r8g8b8"
REFUSALS = ((BadRecord, rb"bad record at byte ([0-9]+)"), (LateRecord, rb"late record: first entry ([0-9]+)"))
STOPPED = 5  # the status of a run that memory ran out for


class Differs(Exception):
    """Something is not as the peer has it."""


@dataclass(frozen=True)
class Source:
    """Where a record comes from: a file, or a seed."""

    name: str
    path: Optional[Path] = None

    def case(self) -> "Case":
        """The record, and its display."""
        if self.path is None:
            made = made_records.sessions(self.name)
            return case_of(made.text, made.words)
        words_file = self.path.with_name(self.path.name + ".args")
        return case_of(self.path.read_bytes(), words_file.read_text().split() if words_file.is_file() else [])


@dataclass(frozen=True)
class Case:
    """A record, and the display on which it is made."""

    text: bytes
    size: Tuple[int, int]
    channels: str

    @property
    def words(self) -> List[str]:
        """The words of `replay`."""
        return ["replay", *program.display_words(self.size, self.channels), "--screen"]

    def open(self) -> Display:
        """A display for it."""
        return Display(*self.size, self.channels)


@dataclass(frozen=True)
class Programs:
    """What is run beside: words of commands."""

    peer: List[str]
    steps: Optional[List[str]]


def case_of(text: bytes, words: List[str]) -> Case:
    """The case of a record, and of the words of `replay` for it."""
    size, channels = USUAL
    for option, word in zip(words, words[1:]):
        if option == "--size":
            size = program.size(word)
        elif option == "--chan":
            channels = program.channels(word)
    return Case(text, size, channels)


def run(command: List[str], text: bytes) -> "subprocess.CompletedProcess[bytes]":
    return subprocess.run(command, input=text, capture_output=True)


# What is compared.


def same(what: str, found: bytes, wanted: bytes) -> None:
    if found != wanted:
        raise Differs(f"{what}: {len(found)} bytes, and {len(wanted)} are right")


def cells_of(rows: bytes, size: Tuple[int, int], bits: int) -> Dict[Tuple[int, int], List[bytes]]:
    """The bytes of each cell of a display. A cell's edge is a whole byte in all channels."""
    across = formats.row_bytes(bits, 0, size[0])
    width = CELL * bits // 8
    cells: Dict[Tuple[int, int], List[bytes]] = collections.defaultdict(list)
    for y in range(size[1]):
        row = rows[y * across : (y + 1) * across]
        for column, at in enumerate(range(0, across, width)):
            cells[column, y // CELL].append(row[at : at + width])
    return cells


class Watcher:
    """Looks whether each cell that changed is marked."""

    def __init__(self, display: Display) -> None:
        self.display = display
        display.clear_marks()
        self.size, self.rows = display.size(), bytes(display.rows())

    def look(self, number: int) -> None:
        """Looks at what an event has changed."""
        size, rows, marks = self.display.size(), bytes(self.display.rows()), set(self.display.marks())
        if rows != self.rows or size != self.size:
            self.check(number, size, rows, marks)
        self.size, self.rows = size, rows
        self.display.clear_marks()

    def check(self, number: int, size: Tuple[int, int], rows: bytes, marks: set) -> None:
        new = cells_of(rows, size, self.display.bits)
        old = cells_of(self.rows, self.size, self.display.bits) if size == self.size else {}
        missed = [cell for cell, bytes_of in new.items() if bytes_of != old.get(cell) and cell not in marks]
        if missed:
            raise Differs(f"event {number} changed cells that are not marked: {missed[:4]}")


def replies_of(lines: bytes) -> Dict[int, bytes]:
    """The bytes of the replies of each session, by lines of replies."""
    found: Dict[int, bytes] = collections.defaultdict(bytes)
    for line in lines.splitlines():
        _, session, digits = line.split(b" ")
        found[int(session)] += bytes.fromhex(digits.decode())
    return found


def by_events(case: Case, text: bytes) -> Tuple[bytes, bytes]:
    """The lines of replies and the display that events one by one lead to."""
    found = []
    with case.open() as display:
        watcher = Watcher(display)
        for number, line in enumerate(text.split(b"\n")[1:-1], 1):
            found.append(display.event(line))
            watcher.look(number)
        same("the record", display.record(), text)
        return b"".join(found), bytes(display.screen())


def by_load(case: Case, text: bytes) -> bytes:
    """The display to which the whole record leads."""
    with case.open() as display:
        if display.load(text) != text.count(b"\n") - 1:
            raise Differs("load made other events")
        same("the record of load", display.record(), text)
        return bytes(display.screen())


def by_calls(case: Case, text: bytes) -> Tuple[Dict[int, bytes], bytes]:
    """The replies that each session takes, and the display, by calls."""
    taken: Dict[int, bytes] = collections.defaultdict(bytes)
    sessions = {}
    with case.open() as display:
        for kind, *words in map(bytes.split, text.split(b"\n")[1:-1]):
            number = int(words[0])
            if kind == b"B":
                sessions[number] = display.begin()
                if sessions[number].number != number:
                    raise Differs(f"session {sessions[number].number} began, and {number} is right")
            elif kind == b"M":
                take_message(sessions[number], bytes.fromhex(words[1].decode()))
            elif kind == b"T":
                taken[number] += sessions[number].take()
            else:
                sessions[number].end()
        screen = bytes(display.screen())
        for number, session in sessions.items():
            taken[number] += session.take()
        return taken, screen


def take_message(session, message: bytes) -> None:
    """Sends a message, whose tag may be one that closes the session."""
    from rio9.display import TagInUse

    try:
        session.message(message)
    except TagInUse:
        pass


def compare(case: Case, programs: Programs) -> str:
    """How a record came out: in a word, or Differs."""
    text = case.text
    peer = run([*programs.peer, *case.words], text)
    for kind, pattern in REFUSALS:
        told = re.search(pattern, peer.stderr)
        if told:
            return refused(case, text, kind, int(told[1]), programs)
    if peer.returncode:
        raise Differs(f"the peer ended with status {peer.returncode}: {peer.stderr[:80]!r}")
    lines, screen = by_events(case, text)
    same("replies and display", lines + b"S %d\n" % len(screen) + screen, peer.stdout)
    same("the display of load", by_load(case, text), screen)
    if programs.steps:
        steps = run([*programs.steps, *case.words], text)
        if steps.returncode:
            raise Differs(f"{programs.steps[0]}: {steps.stderr.decode(errors='replace').strip()}")
        same("replies and display of the crate", steps.stdout, peer.stdout)
    if re.search(rb"^X$| ![0-9]+$", text, re.MULTILINE):
        return "same by events"
    taken, shown = by_calls(case, text)
    same("the display by calls", shown, screen)
    wanted = replies_of(lines)
    for session in {*taken, *wanted}:
        same(f"what session {session} takes", taken[session], wanted[session])
    return "same by events and calls"


def refused(case: Case, text: bytes, kind: type, number: int, programs: Programs) -> str:
    """A record that is to be refused at a place."""
    with case.open() as display:
        try:
            display.load(text)
        except (BadRecord, LateRecord, BadEvent, NoMemory) as error:
            if type(error) is not kind or error.number != number:
                raise Differs(f"{error}; the peer tells {kind.__name__} and {number}") from None
        else:
            raise Differs("it is no record, and is loaded")
    if programs.steps and run([*programs.steps, *case.words], text).returncode == 0:
        raise Differs("it is no record, and the crate takes it")
    return "refused"


def outcome(given: Tuple[Source, Programs]) -> Tuple[str, str]:
    """How a record came out, and what is told of it."""
    source, programs = given
    try:
        return compare(source.case(), programs), ""
    except Differs as error:
        return "differs", f"{source.name}: {error}"
    except Exception as error:
        return "differs", f"{source.name}: {type(error).__name__}: {error}"


def files_of(words: List[str]) -> Iterator[Source]:
    """The files that words name."""
    for word in words:
        path = Path(word)
        if path.is_dir():
            yield from (Source(str(file), file) for file in sorted(path.rglob("*.record")))
        elif path.is_file():
            yield Source(word, path)
        else:
            formats.stop("embedded.py", f"there is no record {word}")


def command_of(word: str) -> List[str]:
    """The words of a command that one word has."""
    words = shlex.split(word)
    if not words or not os.access(words[0], os.X_OK):
        formats.stop("embedded.py", f"{word} is no program that can be run")
    return words


def main() -> int:
    words = formats.Words(prog="embedded.py", description=__doc__.split("\n")[0])
    words.add_argument("peer", metavar="PEER")
    words.add_argument("records", metavar="RECORD", nargs="*")
    words.add_argument("--made", type=formats.at_least(0), default=0, metavar="N")
    words.add_argument("--seed", type=formats.at_least(0), default=1, metavar="S")
    words.add_argument("--steps", metavar="PROGRAM")
    words.add_argument("--jobs", type=formats.at_least(1), default=2, metavar="N")
    options = words.parse_args()
    programs = Programs(command_of(options.peer), command_of(options.steps) if options.steps else None)
    sources = [*files_of(options.records), *(Source(f"{options.seed} sessions {n}") for n in range(options.made))]
    try:
        library.load()
    except library.NoLibrary as error:
        formats.stop("embedded.py", error)
    told = collections.Counter()
    with multiprocessing.Pool(options.jobs) as pool:
        for kind, line in pool.imap_unordered(outcome, [(source, programs) for source in sources], chunksize=4):
            told[kind] += 1
            if line:
                print(line, flush=True)
    print(", ".join(f"{count} {kind}" for kind, count in sorted(told.items())) or "no records")
    return 1 if told["differs"] else 0


if __name__ == "__main__":
    sys.exit(main())
