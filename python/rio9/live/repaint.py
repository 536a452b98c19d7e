"""The command `rio9d repaint`, which paints the desk again, and the words that it has in common with `rio9d live`."""

import argparse
import re
import sys
from typing import List

from rio9 import client, formats
from rio9.live.acts import GREY, Cost, Repaint, Session
from rio9.live.screen import BadScreen
from rio9.live.watcher import advice

USUAL = "127.0.0.1:5640"


def colour_of(text: str) -> int:
    """A colour RRGGBB as draw(3) has it, opaque."""
    if not re.fullmatch(r"[0-9A-Fa-f]{6}", text):
        raise argparse.ArgumentTypeError(f"no colour RRGGBB in hex, as 777777: {text}")
    return int(text, 16) << 8 | 0xFF


def parser_of(name: str, what: str) -> argparse.ArgumentParser:
    """A reader of a command's words, with those that both have."""
    parser = formats.Words(prog=f"rio9d {name}", description=what)
    parser.add_argument(
        "address",
        nargs="?",
        type=client.address_of,
        default=client.address_of(USUAL),
        metavar="HOST:PORT",
        help=f"where the server listens; else {USUAL}",
    )
    parser.add_argument(
        "--seconds",
        type=client.seconds_of,
        default=client.SECONDS,
        metavar="S",
        help="how long an answer of the server may take; else 10",
    )
    return parser


def tell(name: str, why: str) -> int:
    """Tells in a line why a command has failed, and gives its status."""
    sys.stderr.write(f"rio9d {name}: {why}\n")
    return 1


def repaint_main(words: List[str]) -> int:
    """Paints the points of the display that no window covers."""
    parser = parser_of(
        "repaint",
        "Paints the desk again: the points of the display that no window covers, where programs left something behind.",
    )
    parser.add_argument(
        "--colour",
        type=colour_of,
        default=GREY,
        metavar="RRGGBB",
        help="the colour; else 777777, which a new display has",
    )
    options = parser.parse_args(words)
    try:
        session = Session(options.address, Cost(), options.seconds)
        with session:
            Repaint(options.colour).do(session)
    except (client.Failure, BadScreen) as error:
        return tell("repaint", advice(options.address, error))
    return 0
