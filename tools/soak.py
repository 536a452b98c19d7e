#!/usr/bin/env python3
"""Runs records made by chance, and junk, through `replay` of the built program and of a peer, which have to print the same.

    tools/soak.py PEER [--program PATH] [--records N] [--junk BYTES] [--seed S] [--jobs N] [--keep FOLDER]

PEER is a plain program with the same words: its path, or in one word its path and words that come before `replay`. Of each record
the replies, the screen, the exit status and the line on standard error are compared. N records of sessions come first, 1,000 where
nothing is said, then records of junk until they have BYTES of it, 10,000,000 where nothing is said. A record is decided by the
seed, its kind and its number. Each job, of which there are 2 where nothing is said, runs both programs on a record beside each other.

Where they differ the record is kept in FOLDER, the present one where nothing is said, without the lines that can go, and the
command that shows it again is printed. The program's memory is looked at on inputs of 4,000,000 bytes or more: beside what it has
on a record of no events, and what it prints, of which nothing may go out before the end, it is to be at most twice the input. A
message of some bytes can ask for an image of megabytes: where there is more, it is to be at most 1.1 times what the peer has, and
the record counts as one of large images.
Status 1 tells that something is otherwise, 2 that a word or a file is wrong.

It is outside the proof. Needs: Linux, Python 3.9 or later, its standard library alone.
"""

import collections
import multiprocessing
import os
import random
import re
import shlex
import subprocess
import sys
import tempfile
import time
from dataclasses import dataclass, field
from typing import Optional

from rio9 import formats
import made_records

ROOT = os.path.dirname(os.path.dirname(os.path.abspath(__file__)))
sys.path.insert(0, os.path.join(ROOT, "bench", "replay"))
from run import PROGRAM, most_memory

SECONDS = 600  # that a run may take, on a machine that does much else
SHRINKS = 60  # seconds to make a record smaller
LEAST_WATCHED, MOST_PART, MOST_BESIDE = 4 * 10**6, 2.0, 1.1
SIZES = (13, 24)  # of junk, as powers of two
REFUSAL = re.compile(rb"^R [0-9]+ [0-9a-f]{8}6b", re.MULTILINE)
KINDS = {"sessions": made_records.sessions, "junk": made_records.junk}


@dataclass(frozen=True)
class Ending:
    """How a run ended: its status, None where it was stopped because it took too long, and what it printed."""

    status: Optional[int]
    err: bytes
    out: bytes


@dataclass
class Pair:
    """The program and the peer, as words to be run, and a folder for their files."""

    programs: list
    room: str

    def endings(self, text, words):
        """How both end on a record, and the most memory of the program where the record is long."""
        given = os.path.join(self.room, "given")
        with open(given, "wb") as file:
            file.write(text)
        processes = [self.start(number, words, given) for number in range(2)]
        memory = watch(processes[0]) if len(text) >= LEAST_WATCHED else 0
        return [self.ending(number, process) for number, process in enumerate(processes)], memory

    def memory_of_peer(self, text, words):
        """The most memory of the peer on a record."""
        given = os.path.join(self.room, "given")
        with open(given, "wb") as file:
            file.write(text)
        return watch(self.start(1, words, given))

    def start(self, number, words, given):
        paths = [os.path.join(self.room, f"{number}.{name}") for name in ("out", "err")]
        with open(given, "rb") as source, open(paths[0], "wb") as out, open(paths[1], "wb") as err:
            return subprocess.Popen([*self.programs[number], "replay", *words], stdin=source, stdout=out, stderr=err)

    def ending(self, number, process):
        try:
            status = process.wait(SECONDS)
        except subprocess.TimeoutExpired:
            process.kill()
            process.wait()
            status = None
        texts = []
        for name in ("err", "out"):
            with open(os.path.join(self.room, f"{number}.{name}"), "rb") as file:
                texts.append(file.read())
        return Ending(status, *texts)


def watch(process):
    """The most memory of a run, which is looked at until it ends or has taken too long."""
    memory, end = 0, time.monotonic() + SECONDS
    while process.poll() is None and time.monotonic() < end:
        memory = max(memory, most_memory(process))
        time.sleep(0.0005)
    return memory


def difference(ours, theirs):
    """What differs between two endings, in words; None where nothing does."""
    if ours.status != theirs.status:
        return f"status {ours.status}, and the peer's {theirs.status}"
    if ours.err != theirs.err:
        return f"{ours.err[:80]!r} on standard error, and the peer's {theirs.err[:80]!r}"
    if ours.out == theirs.out:
        return None
    pairs = zip(ours.out.split(b"\n"), theirs.out.split(b"\n"))
    at = next((at for at, (one, other) in enumerate(pairs, 1) if one != other), None)
    return "one goes on where the other ends" if at is None else f"line {at} of standard output is another"


def smaller(text, is_wrong, seconds=SHRINKS):
    """Some of a text's lines, of which the same is wrong."""
    lines, end = text.splitlines(keepends=True), time.monotonic() + seconds
    size = len(lines) // 2
    while size > 0 and time.monotonic() < end:
        at = 0
        while at < len(lines) and time.monotonic() < end:
            less = lines[:at] + lines[at + size :]
            if is_wrong(b"".join(less)):
                lines = less
            else:
                at += size
        size //= 2
    return b"".join(lines)


@dataclass
class Tally:
    """What was run, and what was found."""

    records: int = 0
    size: int = 0
    junk: int = 0
    replies: int = 0
    refusals: int = 0
    statuses: collections.Counter = field(default_factory=collections.Counter)
    part: float = 0.0
    images: int = 0
    wrong: list = field(default_factory=list)

    def add(self, other):
        self.records, self.size, self.junk = self.records + other.records, self.size + other.size, self.junk + other.junk
        self.replies, self.refusals = self.replies + other.replies, self.refusals + other.refusals
        self.statuses.update(other.statuses)
        self.part, self.images, self.wrong = max(self.part, other.part), self.images + other.images, self.wrong + other.wrong

    def line(self):
        statuses = ", ".join(f"{status}: {count}" for status, count in sorted(self.statuses.items(), key=str))
        return (
            f"{self.records} records of {self.size / 1e6:.1f} MB, {self.junk / 1e6:.1f} MB of it junk; {self.replies} replies, "
            f"{self.refusals} of them refusals; statuses {statuses}; memory {self.part:.2f} of the input at most, and {self.images} of large images; "
            f"{len(self.wrong)} wrong"
        )


class Soak:
    """What each job has: the words of the call, two programs, and the memory of the one on a record of no events."""

    def __init__(self, options):
        self.options, self.folder = options, tempfile.TemporaryDirectory()
        self.pair = Pair([[options.program], shlex.split(options.peer)], self.folder.name)
        self.base = self.memory_of_nothing()

    def memory_of_nothing(self):
        process = subprocess.Popen([self.options.program, "replay", "--size", "64x48"], stdin=subprocess.PIPE, stdout=subprocess.DEVNULL)
        time.sleep(0.05)
        memory = most_memory(process)
        process.communicate(formats.HEADER + b"\n")
        return memory

    def check(self, kind, number, *size):
        """Makes a record, runs it, and tells what was found."""
        made = KINDS[kind](f"{self.options.seed} {kind} {number}", *size)
        (ours, theirs), memory = self.pair.endings(made.text, made.words)
        part = max(0, memory - self.base - len(ours.out)) / max(1, len(made.text))
        found = difference(ours, theirs)
        has_images = part > MOST_PART and memory <= MOST_BESIDE * self.pair.memory_of_peer(made.text, made.words)
        if has_images:
            part = 0.0
        if found is None and part > MOST_PART:
            found = f"{memory / 1e6:.1f} MB of memory on an input of {len(made.text) / 1e6:.1f} MB"
            text = made.text
        elif found is not None:
            text = smaller(made.text, lambda less: difference(*self.pair.endings(less, made.words)[0]) is not None)
        wrong = [] if found is None else [f"{kind} {number}: {found}; {self.keep(kind, number, text, made.words)}"]
        replies, refusals = ours.out.count(b"\nR ") + ours.out.startswith(b"R "), len(REFUSAL.findall(ours.out))
        return Tally(1, len(made.text), made.junk, replies, refusals, collections.Counter([ours.status]), part, int(has_images), wrong)

    def keep(self, kind, number, text, words):
        """Keeps a record, and tells where, and what shows it again."""
        path = os.path.join(self.options.keep, f"soak-{self.options.seed}-{kind}-{number}.record")
        with open(path, "wb") as file:
            file.write(text)
        runs = [shlex.join([*program, "replay", *words]) + f" < {shlex.quote(path)} 2>&1; echo $?" for program in self.pair.programs]
        return f"{len(text)} bytes are kept, see\n    diff -a <({runs[0]}) <({runs[1]})"


def tasks_of(options):
    """The records, by their kinds and numbers."""
    for number in range(1, options.records + 1):
        yield "sessions", number
    source, made, number = random.Random(f"{options.seed} sizes"), 0, 0
    while made < options.junk:
        size, number = min(options.junk - made, int(2 ** source.uniform(*SIZES))), number + 1
        made += size
        yield "junk", number, size


def begin_job(options):
    global SOAK
    SOAK = Soak(options)


def do_task(task):
    return SOAK.check(*task)


def soak(options):
    """Runs all records, and tells what was found as it goes."""
    total, told = Tally(), time.monotonic()
    with multiprocessing.Pool(options.jobs, begin_job, (options,)) as pool:
        for tally in pool.imap_unordered(do_task, tasks_of(options), 4):
            total.add(tally)
            for wrong in tally.wrong:
                print(wrong, flush=True)
            if time.monotonic() > told + 30:
                told = time.monotonic()
                print(total.line(), flush=True)
    print(total.line())
    return total


def main(words):
    parser = formats.Words(prog="soak.py", description=__doc__.split("\n")[0])
    parser.add_argument("peer", metavar="PEER", help="a program with the same words, which may have words of its own before them")
    parser.add_argument("--program", default=PROGRAM, help="another program than the built one")
    parser.add_argument("--records", type=formats.at_least(0), default=1000, metavar="N", help="records of sessions")
    parser.add_argument("--junk", type=formats.at_least(0), default=10**7, metavar="BYTES", help="bytes of junk")
    parser.add_argument("--seed", type=formats.at_least(0), default=1, metavar="S")
    parser.add_argument("--jobs", type=formats.at_least(1), default=2, metavar="N")
    parser.add_argument("--keep", default=".", metavar="FOLDER", help="where records that differ are kept")
    options = parser.parse_args(words)
    for program in (options.program, *shlex.split(options.peer)[:1]):
        if not (os.path.isfile(program) and os.access(program, os.X_OK)):
            formats.stop("soak.py", f"no program: {program}")
    return 1 if soak(options).wrong else 0


if __name__ == "__main__":
    sys.exit(main(sys.argv[1:]))
