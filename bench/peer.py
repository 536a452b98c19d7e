#!/usr/bin/env python3
"""Measures all kinds of work by `rio9` beside a peer, in one table.

    bench/peer.py PEER [--program PATH] [--runs N] [--list] [ROW..]

The peer is a plain program with the same words. It and PATH are given by their paths or, in one word, by the path and words that come
before the command. Wants Linux, Python 3 and the built program (`cd crates/rio9 && rt run -- replay < stdin` builds it; --program names
another one). The rows are those whose names have one of the words ROW in them, or all; --list prints the names. bench/work.py makes what
both read: for `replay` where nothing else is said.

The programs take turns, N times each, 5 where nothing is said. Printed are the least user and system seconds of each, the ratio of the
user seconds, the peak memory of each in MB with its ratio, and whether both print the same, the screen at the end too: where `differ`
stands they do not. The records of `text` and `desk`, and the frames of `mirror`, may be others; there the peer is asked by `--check FILE`
whether the program's are right. Of `gen` the numbers of events and replies are compared. `refused` tells how many of the replies are errors. The kernel tells
user and system apart by its ticks, and the memory is looked at each millisecond: of less than 0.02 s neither tells much. Last stands
what a small message costs, by how many there are, without what a record costs that has none: it is to be the same.

Not measured are `serve`, which needs clients beside it (bench/serve/times.py), and what one message costs where much is alive
(bench/growth/beside.py). Status 1 tells that some row differs or that a program ended otherwise than well, 2 that a word is wrong.
"""
import os
import re
import shlex
import subprocess
import sys
import tempfile

import work
from work import formats, run

REFUSAL = re.compile(rb"^R [0-9]+ [0-9a-f]{8}6b", re.MULTILINE)
COLUMNS = f"{'':<52} {'user':>7} {'system':>7} {'peer':>7} {'system':>7} {'ratio':>6} {'MB':>7} {'peer':>7} {'ratio':>6}"
MICROSECONDS = f"{'microseconds a message':<52} {'rio9':>7} {'':7} {'peer':>7}"


class Wrong(Exception):
    """A program that ended otherwise than well."""


class Side:
    """The runs of a program on a work, and its last output, which stands in a file."""

    def __init__(self, command, work, path):
        self.command, self.work, self.path, self.uses = [*command, *work.words], work, path, []

    def run(self):
        with open(self.path, "wb") as out:
            use = run.use(self.command, self.work.given, out)
        if use.status != 0:
            raise Wrong(f"status {use.status} of {' '.join(self.command)}")
        self.uses.append(use)

    def output(self):
        """What is compared of what the program prints."""
        with open(self.path, "rb") as out:
            return b"".join(out.readline() for _ in range(self.work.lines)) if self.work.lines else out.read()

    user = property(lambda self: min(use.user for use in self.uses))
    system = property(lambda self: min(use.system for use in self.uses))
    both = property(lambda self: min(use.user + use.system for use in self.uses))
    memory = property(lambda self: max(use.memory for use in self.uses) / 1e6)


def sides(programs, work, runs, room):
    """Both programs, which ran in turn."""
    found = [Side(command, work, os.path.join(room, name)) for name, command in programs.items()]
    for _ in range(runs):
        for side in found:
            side.run()
    return found


def verdict(ours, theirs):
    """What a comparison of what both print tells: whether something is wrong, and words."""
    mine, others = ours.output(), theirs.output()
    if mine != others and ours.work.checked:
        said = checked(ours, theirs)
        return said != "ok", f"others, checked: {said}"
    refused = len(REFUSAL.findall(mine))
    return mine != others, ("equal" if mine == others else "differ") + (f", {refused:,} refused" if refused else "")


def checked(ours, theirs):
    """What the peer says of the program's output for the input that it is asked about."""
    given = ours.work.checked
    with open(ours.path, "wb") as out:
        run.use(ours.command, given, out)
    told = subprocess.run([*theirs.command, "--check", ours.path], input=given, capture_output=True)
    return (told.stdout or told.stderr).decode(errors="replace").strip()


def line(name, ours, theirs, told):
    seconds = [f"{value:7.3f}" for side in (ours, theirs) for value in (side.user, side.system)]
    memory = f"{ours.memory:7.1f} {theirs.memory:7.1f} {ours.memory / theirs.memory if theirs.memory else 0:6.2f}"
    return f"{name:<52} {' '.join(seconds)} {ours.user / max(theirs.user, 0.001):6.2f} {memory}  {told}"


def table(programs, names, runs):
    """Prints the rows; whether each is as it is to be."""
    print(COLUMNS)
    grown, is_right = [], True
    with tempfile.TemporaryDirectory() as room:
        for name in names:
            try:
                ours, theirs = sides(programs, work.ROWS[name](), runs, room)
            except Wrong as error:
                print(f"{name:<52} {error}", flush=True)
                is_right = False
                continue
            differs, told = verdict(ours, theirs)
            is_right = is_right and not differs
            print(line(name, ours, theirs, told), flush=True)
            if name in work.GROWTH:
                grown.append((name, work.GROWTH[name], [ours.both, theirs.both]))
    print_growth(grown)
    return is_right


def print_growth(grown):
    """Prints what a message costs, without what the record that has none costs."""
    nothing = next((seconds for _, count, seconds in grown if count == 0), None)
    if nothing is None:
        return
    print(MICROSECONDS)
    for name, count, seconds in grown:
        if count:
            ours, theirs = ((of - without) / count * 1e6 for of, without in zip(seconds, nothing))
            print(f"{name:<52} {ours:7.3f} {'':7} {theirs:7.3f}")


def main(words):
    parser = formats.Words(prog="peer.py", description=__doc__.split("\n")[0])
    parser.add_argument("peer", type=shlex.split, help="the peer")
    parser.add_argument("--program", type=shlex.split, default=[run.PROGRAM], help="another program than the built one")
    parser.add_argument("--runs", type=formats.at_least(1), default=5, metavar="N", help="how many runs of each program")
    parser.add_argument("--list", action="store_true", help="only the names of the rows")
    parser.add_argument("rows", nargs="*", metavar="ROW", help="only the rows that have one of these words in their names")
    options = parser.parse_intermixed_args(words)
    names = [name for name in work.ROWS if not options.rows or any(word in name for word in options.rows)]
    if options.list:
        print("\n".join(names))
        return 0
    programs = {"rio9": options.program, "peer": options.peer}
    for command in programs.values():
        if not (command and os.access(command[0], os.X_OK)):
            formats.stop("peer.py", f"no program: {' '.join(command)}")
    if not names:
        formats.stop("peer.py", "no row has such a name (--list tells the names)")
    return 0 if table(programs, names, options.runs) else 1


if __name__ == "__main__":
    sys.exit(main(sys.argv[1:]))
