"""Runs the cases of a command, made by chance, several beside each other, and tells which end otherwise than they should.

It is outside the proof: it shares nothing with the proved program, and the proved program nothing with it.
"""

import collections
import multiprocessing
import os
import shlex
import subprocess
from dataclasses import dataclass
from typing import Callable

from rio9 import font, formats

PROGRAM = os.path.join(os.path.dirname(os.path.dirname(os.path.abspath(__file__))), "crates", "rio9", "out", "rio9")
SECONDS = 600  # that a run may take, on a machine that does much else
DISPLAY = formats.USUAL_SIZE
DONE, USAGE, BAD_INPUT = 0, 1, 11
LIMIT = 1 << 20  # bytes of an input that are too many
REFUSED = 107
# Blue, green, red and an ignored byte: of the display, and of a window's border, and how wide that is.
GREY, EDGE, BORDER = bytes.fromhex("77777700"), bytes.fromhex("aaaa5500"), 4


class NotSo(Exception):
    """Something is not as it should be. It tells why."""


@dataclass(frozen=True)
class Command:
    """A command whose cases are run: `made_case` gives the case of a seed and a number, and the chance for what is left to decide;
    `words_of` the words of a case, whose bytes are `data`; `check` how it ends, and how many screens were compared, or NotSo."""

    name: str
    made_case: Callable
    words_of: Callable
    check: Callable


# What a program gives.


def run(program, words, data):
    return subprocess.run([*shlex.split(program), *words], input=data, capture_output=True, timeout=SECONDS)


def output_of(program, words, data, status, line):
    """What a program writes for an input that has to end with a status and a line on standard error."""
    ended = run(program, words, data)
    if (ended.returncode, ended.stderr) != (status, line):
        raise NotSo(f"status {ended.returncode} and {ended.stderr[:80]!r}, where {status} and {line!r} are right")
    if status != DONE and ended.stdout:
        raise NotSo("something was written")
    return ended.stdout


def replayed(options, size, events):
    """What replay gives for events, and the screen behind it."""
    words = ["replay", "--size", "%dx%d" % size, "--screen"]
    ended = run(options.replay or options.program, words, formats.write_record(events))
    if ended.returncode != DONE:
        raise NotSo(f"replay ends with status {ended.returncode}")
    return ended.stdout


def read_session(made):
    """The events of a record of one session, which sends messages and does not end; NotSo where it is none."""
    try:
        events = formats.read_record(made)
    except formats.BadText as error:
        raise NotSo(error) from None
    if not made.startswith(formats.HEADER + b"\n"):
        raise NotSo("the record has another header")
    if [event.kind for event in events] != ["B"] + ["M"] * (len(events) - 1) or any(event.mark is not None for event in events):
        raise NotSo("not one session that sends messages")
    return events


def without_ignored(rows):
    """Rows of x8r8g8b8 with zero in what is ignored."""
    kept = bytearray(rows)
    kept[3::4] = bytes(len(rows) // 4)
    return bytes(kept)


def check_replies(output, size, rows):
    """NotSo where a run's output has a refusal, or another screen of this size than these rows."""
    replies = formats.read_replies(output)
    if any(message[4] == REFUSED for _, message in replies.messages):
        raise NotSo("a message is refused")
    head = font.image_file("x8r8g8b8", *size, b"")
    if replies.screen[: len(head)] != head:
        raise NotSo("the screen has another header")
    if without_ignored(replies.screen[len(head) :]) != rows:
        raise NotSo("the screen is another one")


# The runs.


def keep(command, options, number, case):
    """Keeps the input of a case, and gives the command that shows it again."""
    path = os.path.join(options.keep, f"{command.name}-{options.seed}-{number}")
    with open(path, "wb") as file:
        file.write(case.data)
    return shlex.join([*shlex.split(options.program), *command.words_of(case)]) + f" < {shlex.quote(path)}"


def begin_job(command, options):
    global COMMAND, OPTIONS
    COMMAND, OPTIONS = command, options


def do_case(number):
    """How a case ends, how many screens were compared, and what is wrong, if anything is."""
    case, chance = COMMAND.made_case(OPTIONS.seed, number)
    try:
        return *COMMAND.check(OPTIONS, case, chance), None
    except (NotSo, formats.BadText, subprocess.TimeoutExpired) as error:
        return "wrong", 0, f"case {number}: {error}; see\n    {keep(COMMAND, OPTIONS, number, case)}"


def soak(command, options):
    """Runs all cases, and tells what was found; gives how many are wrong."""
    ends, screens = collections.Counter(), 0
    with multiprocessing.Pool(options.jobs, begin_job, (command, options)) as pool:
        for end, count, wrong in pool.imap_unordered(do_case, range(1, options.cases + 1), 4):
            ends[end] += 1
            screens += count
            if wrong:
                print(wrong, flush=True)
    print(f"{options.cases} cases, {screens} screens; {', '.join(f'{count} {end}' for end, count in sorted(ends.items()))}; {ends['wrong']} wrong")
    return ends["wrong"]


def soak_of(command, name, description, words):
    """Does what a tool's words ask for, and gives its status."""
    parser = formats.Words(prog=name, description=description)
    parser.add_argument("--program", default=PROGRAM, help="another program than the built one")
    parser.add_argument("--replay", metavar="PATH", help="the program that replays the record, where it is another one")
    parser.add_argument("--cases", type=formats.at_least(1), default=500, metavar="N")
    parser.add_argument("--seed", type=formats.at_least(0), default=1, metavar="S")
    parser.add_argument("--jobs", type=formats.at_least(1), default=2, metavar="N")
    parser.add_argument("--keep", default=".", metavar="FOLDER", help="where inputs are kept")
    options = parser.parse_args(words)
    for program in filter(None, (options.program, options.replay)):
        path = shlex.split(program)[0]
        if not (os.path.isfile(path) and os.access(path, os.X_OK)):
            formats.stop(name, f"no program: {path}")
    return 1 if soak(command, options) else 0
