"""Runs a program in a window of a served desktop.

    rio9d term
    rio9d term 127.0.0.1:5640 --columns 100 --rows 30 -- vim notes.txt

The words are [HOST:PORT] [OPTION..] [-- COMMAND [WORD..]]. HOST:PORT is 127.0.0.1:5640 if nothing is said, and COMMAND
the shell that SHELL names. The window is as large as the display has room for, at most 80 columns and 24 rows if
nothing is said. The program gets another size when the window does.

Keys go to the program as typed, and the mouse too if it asks for it. Else the first button selects a text, which goes
to the snarf buffer, the second one types what is there, and the wheel looks back at rows that have scrolled out. The
terminal's kind is tmux-256color.

The font is Debian's misc-fixed 7x13 (xfonts-base), or the one of rio9/font.txt if that is not there. --font takes a
file in BDF, PCF or PSF whose characters have one width, or the name of one of xfonts-base, as 9x15. A character of two
cells shows as a box, and so does one that the font does not have.

The status is that of COMMAND, and 0 if its window goes before. It is 1 if the server refuses or does not answer, and 2
if a word or a file is wrong; one line tells why. It is outside the proof. Needs: Python 3.9 or later, pyte and wcwidth
(apt: python3-pyte).
"""

import argparse
import os
import re
from typing import Callable, List, Tuple

from rio9 import client, formats
from rio9.term.child import TERMINAL

ADDRESS = ("127.0.0.1", 5640)
MOST_COLUMNS, MOST_LINES = 500, 200
PLACE = (16, 16)


def count_of(least: int, most: int) -> Callable[[str], int]:
    """What reads an option's number between two."""

    def count(text: str) -> int:
        if not re.fullmatch(r"[0-9]{1,4}", text) or not least <= int(text) <= most:
            raise argparse.ArgumentTypeError(f"no number from {least} to {most}: {text}")
        return int(text)

    return count


def place_of(text: str) -> Tuple[int, int]:
    """The point that X,Y names."""
    found = re.fullmatch(r"(-?[0-9]{1,5}),(-?[0-9]{1,5})", text)
    if not found:
        raise argparse.ArgumentTypeError(f"no point, as 16,16: {text}")
    return int(found[1]), int(found[2])


def parser_of() -> argparse.ArgumentParser:
    """The reader of the words before `--`."""
    parser = formats.Words(prog="rio9d term", description=__doc__, formatter_class=argparse.RawDescriptionHelpFormatter)
    parser.add_argument(
        "address",
        nargs="?",
        type=client.address_of,
        default=ADDRESS,
        metavar="HOST:PORT",
        help="where the server listens",
    )
    parser.add_argument(
        "--columns", type=count_of(2, MOST_COLUMNS), metavar="N", help="how many characters stand in a row"
    )
    parser.add_argument("--rows", type=count_of(1, MOST_LINES), metavar="N", help="how many rows there are")
    parser.add_argument(
        "--at", type=place_of, default=PLACE, metavar="X,Y", help="where the window's upper left corner is"
    )
    parser.add_argument("--font", metavar="FILE", help="the font")
    parser.add_argument(
        "--hold", action="store_true", help="the window stays when the program has ended, until it is deleted"
    )
    parser.add_argument(
        "--seconds", type=client.seconds_of, default=client.SECONDS, metavar="S", help="how long an answer may take"
    )
    parser.add_argument("--term", default=TERMINAL, metavar="NAME", help="the terminal's kind that the program is told")
    return parser


def split(words: List[str]) -> Tuple[List[str], List[str]]:
    """The words before `--`, and the command behind it."""
    if "--" not in words:
        return words, [os.environ.get("SHELL") or "/bin/sh"]
    at = words.index("--")
    return words[:at], words[at + 1 :]


def main(words: List[str]) -> int:
    """Runs `rio9d term`."""
    before, command = split(words)
    options = parser_of().parse_args(before)
    if not command:
        formats.stop("rio9d term", "a command is wanted behind --, as -- vim notes.txt")
    from rio9.term.run import run  # here, since this needs pyte and the words do not

    return run(options, command)
