"""The commands of `rio9d`, each of which stands in a module of its own that is loaded when the command is called."""

import importlib
import sys
from dataclasses import dataclass
from typing import Callable, Dict, List, Optional, Sequence, Tuple

from rio9 import __version__

WRONG_WORDS = 2
INTERRUPTED = 130


@dataclass(frozen=True)
class Command:
    """A command: a module's function, which takes the words behind the command and gives the status; what it does, in
    one line; and the extra of the package that has the libraries it needs."""

    module: str
    summary: str
    function: str = "main"
    extra: str = ""

    def load(self) -> Callable[[List[str]], int]:
        """The function that does it."""
        found: Callable[[List[str]], int] = getattr(importlib.import_module(self.module), self.function)
        return found


COMMANDS: Dict[str, Command] = {
    "serve": Command("rio9.serve", "starts a server, logs its clients, and ends it in order with a whole record"),
    "replay": Command("rio9.replays", "answers a record, on the display that stands beside it", "replay_main"),
    "mirror": Command("rio9.replays", "makes frames of a record, for the player", "mirror_main"),
    "alone": Command("rio9.replays", "answers one session of a record in a world of its own", "alone_main"),
    "client": Command("rio9.client_commands", "asks a server: ls, cat, write, screen, new, wctl, type, click, draw"),
    "write": Command("rio9.record", "writes a record of readable lines", "write_main"),
    "explain": Command("rio9.replays", "tells a record or reply lines in words", "explain_main"),
    "picture": Command("rio9.picture", "makes a PNG file of what a run printed"),
    "font": Command(
        "rio9.fonts", "makes fonts of Plan 9 of BDF, PCF and PSF fonts, and the font that `rio9 text` reads"
    ),
    "events": Command("rio9.events", "makes the events that `rio9 desk` reads"),
    "term": Command("rio9.term.command", "runs a program in a window", extra="term"),
    "live": Command("rio9.live.command", "serves a page that shows a desktop and drives it", "live_main", "live"),
    "save": Command("rio9.live.save", "makes a page of a record that plays by itself"),
    "repaint": Command("rio9.live.repaint", "paints the desk again, beneath the windows", "repaint_main"),
    "translate": Command(
        "rio9.translate.command", "stands between a client and a server, and translates what the profile leaves out"
    ),
    "unpack": Command("rio9.translate.unpack", "writes compressed images and subfonts of Plan 9 as plain ones"),
    "wireshark": Command("rio9.wireshark", "makes a capture of a record and its replies"),
}

# What is not of the standard library: the module that is imported, and the package of Debian that has it.
LIBRARIES: Dict[str, str] = {
    "aiohttp": "python3-aiohttp",
    "PIL": "python3-pil",
    "pyte": "python3-pyte",
    "pytest": "python3-pytest",
    "wcwidth": "python3-wcwidth",
}


def usage() -> str:
    """What `rio9d --help` prints."""
    width = max(map(len, COMMANDS))
    lines = [f"  {name:{width}}  {command.summary}" for name, command in COMMANDS.items()]
    head = ["usage: rio9d COMMAND WORD..", "", "Each command tells its words by --help. The commands:", ""]
    return "\n".join([*head, *lines, ""])


def missing(name: str, command: Command, library: str) -> str:
    """What is told where a library is not there."""
    extra = f", or pip install 'rio9[{command.extra}]'" if command.extra else ""
    return f"rio9d {name}: the library {library} is missing: apt install {LIBRARIES[library]}{extra}"


def complaint(words: Sequence[str]) -> Optional[Tuple[str, int]]:
    """What is printed, and the status, where the first word is no command."""
    if words and words[0] in ("-h", "--help"):
        return usage(), 0
    if words and words[0] == "--version":
        return f"rio9d {__version__}\n", 0
    if not words or words[0] not in COMMANDS:
        what = f"no command: {words[0]}" if words else "a command is wanted"
        return f"rio9d: {what} (--help tells the commands)\n", WRONG_WORDS
    return None


def main(words: Optional[Sequence[str]] = None) -> int:
    """Runs the command that the words name, and gives its status."""
    words = sys.argv[1:] if words is None else words
    told = complaint(words)
    if told is not None:
        (sys.stderr if told[1] else sys.stdout).write(told[0])
        return told[1]
    name, command = words[0], COMMANDS[words[0]]
    try:
        return command.load()(list(words[1:]))
    except ModuleNotFoundError as error:
        library = (error.name or "").split(".")[0]
        if library not in LIBRARIES:
            raise
        sys.stderr.write(missing(name, command, library) + "\n")
        return WRONG_WORDS
    except KeyboardInterrupt:
        return INTERRUPTED
    except BrokenPipeError:
        sys.stderr.close()
        return 1
