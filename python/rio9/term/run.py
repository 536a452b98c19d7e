"""Runs a command in a window: what `rio9d term` does once its words are read."""

import argparse
import sys
from typing import List, Tuple

from rio9 import client, fonts, formats
from rio9.desktop import Desktop
from rio9.term import glyphs, window
from rio9.term.cells import Cells
from rio9.term.child import Child, NoCommand
from rio9.term.terminal import Terminal

COLUMNS, LINES = 80, 24


def size_of(options: argparse.Namespace, shape: glyphs.Glyphs, display: Tuple[int, int]) -> Tuple[int, int]:
    """How many columns and rows the window has: what the words say, or what the display has room for."""
    edge = 2 * (window.BORDER + window.MARGIN)
    room = [
        (side - max(at, 0) - edge) // cell for side, at, cell in zip(display, options.at, (shape.width, shape.height))
    ]
    columns = options.columns or max(min(COLUMNS, room[0]), window.LEAST_COLUMNS)
    return columns, options.rows or max(min(LINES, room[1]), window.LEAST_LINES)


def rectangle(options: argparse.Namespace, shape: glyphs.Glyphs, columns: int, lines: int) -> str:
    """The words of a window's rectangle that has room for so many cells."""
    edge = 2 * (window.BORDER + window.MARGIN)
    wide, high = columns * shape.width + edge, lines * shape.height + edge
    if max(wide, high) > window.MOST_SIDE:
        raise client.Failure(
            f"{columns} by {lines} cells take {wide} by {high} points: "
            f"name fewer, so that a window of at most {window.MOST_SIDE} has room for them"
        )
    x, y = options.at
    return f"-r {x} {y} {x + wide} {y + high}"


def attend(options: argparse.Namespace, command: List[str]) -> int:
    """Runs the command in a window until it ends, and gives its status."""
    shape = glyphs.load(options.font)
    with client.Client(options.address, options.seconds) as session:
        session.version()
        columns, lines = size_of(options, shape, Desktop.of(session, session.attach()).size())
        pane = window.Window(session, rectangle(options, shape, columns, lines))
        pane.label(command[0])
        child = Child(command, columns, lines, options.term)
        try:
            Terminal(pane, shape, child, Cells(columns, lines)).run(options.hold)
        finally:
            status = child.end()
        return status


def run(options: argparse.Namespace, command: List[str]) -> int:
    """Runs the command in a window, and gives the status of `rio9d term`."""
    try:
        return attend(options, command)
    except window.Closed:
        return 0
    except client.Failure as error:
        sys.stderr.write(f"rio9d term: {error}\n")
        return 1
    except (fonts.BadFont, formats.BadText, UnicodeDecodeError) as error:
        formats.stop("rio9d term", f"{options.font}: {error}")
    except NoCommand as error:
        formats.stop("rio9d term", str(error))
    except FileNotFoundError as error:
        formats.stop("rio9d term", f"{formats.why_not(error)}: name a font's file, or a font of xfonts-base, as 9x15")
    except OSError as error:
        formats.stop("rio9d term", formats.why_not(error))
    return 2
