#!/usr/bin/env python3
"""Runs records made by chance, and records of folders, through `alone` of the built program, and looks at what comes for each session.

    tools/alone_soak.py [PEER] [--program PATH] [--folder FOLDER].. [--records N] [--seed S] [--jobs N] [--keep FOLDER]

For each session of a record, and for one that never begins, `alone` has to end in one of two ways: with the lines that `replay` has for
the session; or as for a session that is not alone, with a line that names an entry by which that can be and one of the reasons 1 to 12,
and then the entries before that one have to end in the first way. Where PEER is given, `alone` has to end as the peer's does, byte for
byte. PEER and PATH are programs or, in one word, the path and words that come before the command.

The records of a folder, of which any number may be given, are its files `*.record`, each with the words of `replay` as lines of a file
`*.record.args`. N records of guests (tools/guests.py) follow, 500 where nothing is said; a record is decided by the seed and its number,
and with 500 each reason is given. The jobs run beside each other, 2 where nothing is said.

Where something is otherwise the record is kept in the folder of --keep, the present one where nothing is said, without the lines that
can go, and the command is printed. Status 1 tells that something is otherwise, 2 that a word or a file is wrong.

It is outside the proof. Needs: Python 3.9 or later, its standard library alone.
"""

import collections
import glob
import multiprocessing
import os
import re
import shlex
import subprocess
import sys
import time
from dataclasses import dataclass, field

from rio9 import formats
from cases import DONE, PROGRAM, run
from rio9.formats import BEGIN, MESSAGE
from guests import guests
from made_records import Made
from soak import Ending, difference, smaller

NOT_ALONE, REASONS = 7, range(1, 13)
LINE = re.compile(rb"rio9: not alone: entry ([1-9][0-9]*): reason ([1-9][0-9]*)\n")
# The reasons that only the session's own messages give, and those that only the messages of others give.
OWN_REASONS, OTHERS_REASONS = {1, 2, 6, 7, 8, 9, 11, 12}, {3, 4, 5}


def ending(program, words, text):
    """How a program ends on a record."""
    try:
        ended = run(program, words, text)
    except subprocess.TimeoutExpired:
        return Ending(None, b"", b"")
    return Ending(ended.returncode, ended.stderr, ended.stdout)


def lines_of(session, out):
    """The reply lines of a session in what `replay` printed."""
    return b"".join(line for line in out.splitlines(keepends=True) if line.startswith(b"R %d " % session))


def reason_of(ended):
    """The entry and the reason that the line of an ending tells, None where it has another form."""
    found = LINE.fullmatch(ended.err)
    return (int(found[1]), int(found[2])) if found and not ended.out else None


def can_end(text, session, entry, reason):
    """Whether a message stands at an entry of a record that can give a session this reason."""
    try:
        events = formats.read_record(text)
    except formats.BadText:
        return False
    if entry > len(events) or reason not in REASONS or events[entry - 1].kind != MESSAGE:
        return False
    return reason not in (OTHERS_REASONS if events[entry - 1].session == session else OWN_REASONS)


def front(text, entries):
    """So many entries of a record."""
    return b"".join(text.splitlines(keepends=True)[: 1 + entries])


@dataclass
class Tally:
    """What was run, and what was found."""

    records: int = 0
    size: int = 0
    sessions: int = 0
    alone: int = 0
    replies: int = 0
    reasons: collections.Counter = field(default_factory=collections.Counter)
    others: collections.Counter = field(default_factory=collections.Counter)
    wrong: list = field(default_factory=list)

    def add(self, other):
        self.records, self.size, self.sessions = self.records + other.records, self.size + other.size, self.sessions + other.sessions
        self.alone, self.replies = self.alone + other.alone, self.replies + other.replies
        self.reasons.update(other.reasons)
        self.others.update(other.others)
        self.wrong += other.wrong

    def count(self, ended):
        """Counts how `alone` ended for a session."""
        self.sessions += 1
        if ended.status == DONE:
            self.alone, self.replies = self.alone + 1, self.replies + ended.out.count(b"\n")
        elif ended.status == NOT_ALONE and reason_of(ended):
            self.reasons[reason_of(ended)[1]] += 1
        else:
            self.others[ended.status] += 1

    def line(self):
        reasons = ", ".join(f"{reason}: {self.reasons[reason]}" for reason in REASONS)
        others = "".join(f"; status {status}: {count}" for status, count in sorted(self.others.items(), key=str))
        return (
            f"{self.records} records of {self.size / 1e6:.1f} MB, {self.sessions} sessions; {self.alone} alone to the end, "
            f"with {self.replies} replies; reasons {reasons}{others}; {len(self.wrong)} wrong"
        )


@dataclass
class Check:
    """What each job has: the words of the call. It runs `alone` on records, and tells what is otherwise."""

    options: object

    def alone(self, program, session, made):
        return ending(program, ["alone", *made.words, "--conn", str(session)], made.text)

    def replay(self, made):
        return ending(self.options.program, ["replay", *made.words], made.text)

    def wrong_with(self, session, made, replayed, ended):
        """What is otherwise with how `alone` ended for a session of a record, None where nothing is."""
        if replayed.status != DONE:
            return None if ended == Ending(replayed.status, replayed.err, b"") else "it does not end as `replay` does"
        if ended.status == DONE:
            is_right = ended == Ending(DONE, b"", lines_of(session, replayed.out))
            return None if is_right else "not the lines of `replay` alone"
        if ended.status != NOT_ALONE or not reason_of(ended):
            return f"status {ended.status}, {ended.err[:80]!r} on standard error and {len(ended.out)} bytes"
        return self.wrong_with_reason(session, made, *reason_of(ended))

    def wrong_with_reason(self, session, made, entry, reason):
        """What is otherwise with an entry and a reason: no such entry gives it, or the entries before it end otherwise."""
        if not can_end(made.text, session, entry, reason):
            return f"entry {entry} cannot give reason {reason}"
        before = Made(front(made.text, entry - 1), made.words, 0)
        ended, replayed = self.alone(self.options.program, session, before), self.replay(before)
        if ended == Ending(DONE, b"", lines_of(session, replayed.out)):
            return None
        return f"entry {entry} is told, and the entries before it do not give the lines of `replay`"

    def wrong_for(self, session, made, replayed):
        """What is otherwise for a session of a record, and how `alone` ended."""
        ended = self.alone(self.options.program, session, made)
        found = self.wrong_with(session, made, replayed, ended)
        if found is None and self.options.peer:
            found = difference(ended, self.alone(self.options.peer, session, made))
        return found, ended

    def is_wrong(self, session, made, status):
        """Whether something is otherwise for a session of a record which `replay` ends with a status."""
        replayed = self.replay(made)
        return replayed.status == status and self.wrong_for(session, made, replayed)[0] is not None

    def check(self, name, made):
        """Runs `alone` for each session of a record and for one more."""
        tally, replayed = Tally(1, len(made.text)), self.replay(made)
        begun = sum(line.startswith(BEGIN.encode()) for line in made.text.splitlines())
        for session in range(1, begun + 2):
            found, ended = self.wrong_for(session, made, replayed)
            tally.count(ended)
            if found:
                tally.wrong.append(f"{name}, session {session}: {found}; {self.keep(name, session, made, replayed.status)}")
        return tally

    def keep(self, name, session, made, status):
        """Keeps a record without the lines that can go, and tells where, and what shows it again."""
        text = smaller(made.text, lambda less: self.is_wrong(session, Made(less, made.words, 0), status))
        path = os.path.join(self.options.keep, f"alone-{name}-{session}.record")
        with open(path, "wb") as file:
            file.write(text)
        words = [*shlex.split(self.options.program), "alone", *made.words, "--conn", str(session)]
        return f"{len(text)} bytes are kept, see\n    {shlex.join(words)} < {shlex.quote(path)}"


def stored(path):
    """The record of a file, and the words of its display; None where the words are not those of `replay`."""
    with open(path, "rb") as record, open(path + ".args") as args:
        text, words = record.read(), args.read().split()
    return Made(text, tuple(word for word in words[1:] if word != "--screen"), 0) if words[:1] == ["replay"] else None


def tasks_of(options):
    """The records, by their paths or their numbers."""
    for folder in options.folder:
        yield from sorted(glob.glob(os.path.join(folder, "*.record")))
    yield from range(1, options.records + 1)


def begin_job(options):
    global CHECK
    CHECK = Check(options)


def do_task(task):
    if isinstance(task, int):
        return CHECK.check(f"{CHECK.options.seed}-{task}", guests(f"{CHECK.options.seed} guests {task}"))
    made = stored(task)
    return CHECK.check(os.path.basename(task)[: -len(".record")], made) if made else Tally()


def soak(options):
    """Runs all records, and tells what was found as it goes."""
    total, told = Tally(), time.monotonic()
    with multiprocessing.Pool(options.jobs, begin_job, (options,)) as pool:
        for tally in pool.imap_unordered(do_task, tasks_of(options), 4):
            total.add(tally)
            for wrong in tally.wrong:
                print(wrong, flush=True)
            if time.monotonic() > told + 30:
                told = time.monotonic()
                print(total.line(), flush=True)
    print(total.line())
    return total


def main(words):
    parser = formats.Words(prog="alone_soak.py", description=__doc__.split("\n")[0])
    parser.add_argument("peer", metavar="PEER", nargs="?", help="a program with the same words, which may have words of its own before them")
    parser.add_argument("--program", default=PROGRAM, help="another program than the built one")
    parser.add_argument("--folder", action="append", default=[], help="a folder of records")
    parser.add_argument("--records", type=formats.at_least(0), default=500, metavar="N", help="records of guests")
    parser.add_argument("--seed", type=formats.at_least(0), default=1, metavar="S")
    parser.add_argument("--jobs", type=formats.at_least(1), default=2, metavar="N")
    parser.add_argument("--keep", default=".", metavar="FOLDER", help="where records that are otherwise are kept")
    options = parser.parse_args(words)
    for program in filter(None, (options.program, options.peer)):
        path = shlex.split(program)[0]
        if not (os.path.isfile(path) and os.access(path, os.X_OK)):
            formats.stop("alone_soak.py", f"no program: {path}")
    try:
        return 1 if soak(options).wrong else 0
    except OSError as error:
        formats.stop("alone_soak.py", formats.why_not(error))


if __name__ == "__main__":
    sys.exit(main(sys.argv[1:]))
