"""Runs records: `rio9d replay`, `mirror`, `alone` and `explain`, with the display that the file beside the record
tells.

    rio9d replay session.record --screen | rio9d picture screen.png
    rio9d mirror session.record > session.frames
    rio9d alone session.record --conn 2
    rio9d explain session.record

Size and channels are those of RECORD.json, which `rio9d serve` writes. A record without it is refused unless --size
or --chan is said; the other one is then rio9's usual one, 640x480 and x8r8g8b8. What comes on standard output, and
the statuses, are those of rio9; for a text that is no record, the line and the word at fault are told.
"""

import argparse
import os
import re
import subprocess
import sys
from typing import List, Optional, Tuple

from rio9 import formats, program, record, side
from rio9.serve import read_by

# Why a session of a record is not alone with its window, by the number that the program tells (docs/ISOLATION.md).
REASONS = {
    1: "it attaches a second time, or by a name that asks for no new window",
    2: "its first attach is refused",
    3: "another session attaches its window",
    4: "another session looks up a name of its window's image",
    5: "another session walks into its window through wsys",
    6: "it opens screen or snarf, or walks to or opens wsys",
    7: "it draws with the display, image 0, or chooses it by ctl",
    8: "it shares or asks for what all connections share: a public screen, or a name",
    9: "it makes a further window, or a rio in its window, by wctl",
    10: "its window becomes the host of a rio",
    11: "its window is none of the root rio",
    12: "it reads ctl while that describes the display, whose size has changed",
}


def display_of(path: str, size: Optional[Tuple[int, int]], channels: Optional[str]) -> Tuple[Tuple[int, int], str]:
    """The size and the channels of the display of a record: those that are said, or those that stand beside it."""
    if size is None or channels is None:
        beside = side.load(path)
        if beside is not None:
            return size or beside.size, channels or beside.channels
    if size is None and channels is None:
        os.stat(path)  # that there is no record is told first
        raise program.Failure(
            f"no file {side.side_path(path)} tells the display: say its --size, which is 640x480 if serve was told "
            "none, and its --chan if it was not x8r8g8b8",
            program.USAGE,
        )
    return size or formats.USUAL_SIZE, channels or formats.USUAL_CHANNELS


def parser_of(command: str) -> program.Words:
    """A reader of a command's words."""
    found = program.Words(
        prog=f"rio9d {command}",
        description=__doc__,
        formatter_class=argparse.RawDescriptionHelpFormatter,
        allow_abbrev=False,
    )
    found.add_argument("record", metavar="FILE", help="the record")
    found.add_argument("--size", type=read_by(program.size), metavar="WxH", help="the display's size")
    found.add_argument("--chan", type=read_by(program.channels), metavar="C", help="its channels")
    found.add_argument(
        "--program", metavar="FILE", help=f"the program rio9; else ${program.TOLD_BY}, or beside rio9d, or on PATH"
    )
    return found


def why_no_record(path: str) -> str:
    """What of a record's text is at fault."""
    try:
        with open(path, "rb") as file:
            formats.read_record(file.read())
    except (formats.BadText, OSError) as error:
        return f"{path}: {error}"
    return f"{path} is no record"


def run(command: str, options: argparse.Namespace, further: List[str]) -> int:
    """Runs the program on a record, and gives its status."""
    try:
        words = program.display_words(*display_of(options.record, options.size, options.chan))
        path = program.find(options.program)
        with open(options.record, "rb") as given:
            ended = subprocess.run([path, command, *words, *further], stdin=given, stderr=subprocess.PIPE)
    except (program.Failure, side.BadSide) as failure:
        sys.stderr.write(f"rio9d {command}: {failure}\n")
        return getattr(failure, "status", program.USAGE)
    except OSError as error:
        sys.stderr.write(f"rio9d {command}: {formats.why_not(error)}\n")
        return program.READ_FAULT
    told = ended.stderr.decode(errors="replace")
    sys.stderr.write(told + further_words(command, options.record, ended.returncode, told))
    return program.status_of(ended.returncode)


def further_words(command: str, path: str, code: int, told: str) -> str:
    """What stands behind the program's own line about a record, in words, and nothing if it needs none."""
    if code == program.BAD_RECORD:
        return f"rio9d {command}: {why_no_record(path)}\n"
    found = re.search(r"reason ([0-9]+)", told)
    if code == program.NOT_ALONE and found and int(found[1]) in REASONS:
        return f"rio9d {command}: the session is not alone with its window: {REASONS[int(found[1])]}\n"
    return ""


def replay_main(words: List[str]) -> int:
    """The command `rio9d replay`."""
    parser = parser_of("replay")
    parser.add_argument("--screen", action="store_true", help="the display at the end stands behind the replies")
    options = parser.parse_args(words)
    return run("replay", options, ["--screen"] if options.screen else [])


def mirror_main(words: List[str]) -> int:
    """The command `rio9d mirror`."""
    return run("mirror", parser_of("mirror").parse_args(words), [])


def alone_main(words: List[str]) -> int:
    """The command `rio9d alone`."""
    parser = parser_of("alone")
    conn = read_by(lambda text: program.number(text, program.LAST_SESSION))
    parser.add_argument("--conn", type=conn, required=True, metavar="C", help="the session")
    options = parser.parse_args(words)
    return run("alone", options, ["--conn", str(options.conn)])


def explain_main(words: List[str]) -> int:
    """The command `rio9d explain`."""
    parser = formats.Words(
        prog="rio9d explain", description=record.__doc__, formatter_class=argparse.RawDescriptionHelpFormatter
    )
    parser.add_argument("file", nargs="?", metavar="FILE", help="a record or a run's output; else standard input")
    parser.add_argument("--chan", type=formats.channels_option, metavar="C", help="the display's channels")
    options = parser.parse_args(words)
    try:
        channels = options.chan or channels_beside(options.file)
    except (program.Failure, side.BadSide, OSError) as error:
        formats.stop("rio9d explain", formats.why_not(error) if isinstance(error, OSError) else error)
    return record.turn("rio9d explain", lambda data: record.explain(data, channels).encode(), options.file)


def channels_beside(path: Optional[str]) -> int:
    """The channels of the display of a record; the usual ones for standard input, and for replies, which need none."""
    if path is not None:
        with open(path, "rb") as file:
            is_record = formats.is_record(file.read(len(formats.HEADER)))
        if is_record:
            beside = side.load(path)
            if beside is None:
                raise program.Failure(
                    f"no file {side.side_path(path)} tells the display: say its --chan, which is x8r8g8b8 if serve was "
                    "told none",
                    program.USAGE,
                )
            return formats.channels_word(beside.channels)
    return formats.channels_word(formats.USUAL_CHANNELS)
