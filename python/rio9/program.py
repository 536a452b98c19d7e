"""Finds the program rio9, and checks the words that it takes: where the program only says `usage`, the word at fault
is named."""

import os
import re
import shutil
import sys
from pathlib import Path
from typing import Dict, Iterator, List, NoReturn, Optional, Tuple

from rio9 import formats

NAME, TOLD_BY = "rio9", "RIO9_PROGRAM"
MOST_SIDE, MOST_WORKERS, MOST_CONNECTIONS, LAST_SESSION = 2048, 16, 100_000, 2**32 - 1

# The statuses of the program, and that of a shell for a program that is not there.
DONE, USAGE, BAD_RECORD, READ_FAULT, WRITE_FAULT, DOOR_FAULT, NOT_ALONE, NO_PROGRAM = 0, 1, 2, 3, 4, 6, 7, 127


class Failure(Exception):
    """Something that a command cannot go on from: why, what to do next, and the status."""

    def __init__(self, why: str, status: int) -> None:
        super().__init__(why)
        self.status = status


class Words(formats.Words):
    """A reader of a command's words, which ends with the program's own status for wrong ones."""

    def error(self, message: str) -> NoReturn:
        """Ends the command, with one line."""
        sys.stderr.write(f"{self.prog}: {message} (--help tells the words)\n")
        sys.exit(USAGE)


def is_program(path: Path) -> bool:
    """Whether a file can be run."""
    return path.is_file() and os.access(path, os.X_OK)


def places() -> Iterator[Path]:
    """Where the program may stand beside the launcher, the first place first."""
    yield Path(sys.argv[0]).resolve().parent / NAME
    yield Path(sys.executable).parent / NAME
    yield Path(__file__).resolve().parents[2] / "crates" / NAME / "out" / NAME


def find(told: Optional[str] = None) -> str:
    """The program: the one that is told, by a word or by RIO9_PROGRAM, or else the first beside the launcher or on
    PATH."""
    told = told or os.environ.get(TOLD_BY)
    if told:
        if not is_program(Path(told)):
            raise Failure(f"{told} is no program that can be run: name rio9 by --program or by {TOLD_BY}", NO_PROGRAM)
        return str(Path(told).resolve())
    found = next((str(place) for place in places() if is_program(place)), None) or shutil.which(NAME)
    if found is None:
        raise Failure(
            f"the program rio9 is neither beside rio9d nor on PATH: build it, or name it by --program or by {TOLD_BY}",
            NO_PROGRAM,
        )
    return found


def number(text: str, most: int) -> int:
    """A number from 1 on, as the program reads it; ValueError tells why a text is none."""
    if not re.fullmatch(r"[1-9][0-9]{0,9}", text) or int(text) > most:
        raise ValueError(f"a number from 1 to {most} is wanted, and not {text!r}")
    return int(text)


def size(text: str) -> Tuple[int, int]:
    """The size of a display; ValueError tells why a text is none."""
    found = re.fullmatch(r"([1-9][0-9]{0,3})x([1-9][0-9]{0,3})", text)
    if not found or max(int(found[1]), int(found[2])) > MOST_SIDE:
        raise ValueError(f"a size as 640x480, of sides from 1 to {MOST_SIDE}, is wanted, and not {text!r}")
    return int(found[1]), int(found[2])


def channels(text: str) -> str:
    """The channels of a display; ValueError tells why a text is none."""
    word = formats.channels_word(text)
    bits = formats.depth(word)
    letters = text[::2]
    if len(set(letters)) != len(letters):
        raise ValueError(f"channels of which each stands once are wanted, and not {text!r}")
    if bits not in (1, 2, 4, 8, 16, 24, 32):
        raise ValueError(f"channels of 1, 2, 4, 8, 16, 24 or 32 bits in all are wanted, and {text!r} has {bits}")
    return text


def size_text(sides: Tuple[int, int]) -> str:
    """A size as a word."""
    return f"{sides[0]}x{sides[1]}"


def display_words(sides: Tuple[int, int], chan: str) -> List[str]:
    """The words that tell a program its display."""
    return ["--size", size_text(sides), "--chan", chan]


def status_of(code: int) -> int:
    """A process's status, as a shell gives it: 128 and the signal's number where a signal ended it."""
    return 128 - code if code < 0 else code


def why_status(code: int) -> str:
    """What a status of the program tells, in words."""
    known: Dict[int, str] = {5: "memory ran out", 9: "its turns are spent"}
    return known.get(code, f"signal {-code}" if code < 0 else f"status {code}")
