"""The library of rio9, as ctypes calls it: its three functions, with the names and numbers of include/rio9.h.

rio9.display is what a program uses. The library is librio9.so, found as `find` tells.
"""

import ctypes
import enum
import os
import shutil
import sys
from pathlib import Path
from typing import Iterator, Optional, Tuple

from rio9 import program

NAME, TOLD_BY = "librio9.so", "RIO9_LIBRARY"
USUAL_PREFIX = Path("/usr/local")


class NoLibrary(program.Failure):
    """The library is not there, or is another one. It tells what to do."""

    def __init__(self, why: str) -> None:
        super().__init__(f"{why}: tools/install.sh installs it, or name it by {TOLD_BY}", program.NO_PROGRAM)


class Status(enum.IntEnum):
    """How a call came out."""

    DONE = 0
    MEMORY = 1
    CROWDED = 2
    CLOSED = 3
    DUPLICATE = 4
    NOTHING = 5
    OVER = 6
    BAD_RECTANGLE = 7
    BAD_RECORD = 8
    LATE_RECORD = 9
    BAD_EVENT = 10
    FULL = 11
    BAD_OPERATION = 12
    BAD_SIZE = 13
    BAD_CHANNELS = 14
    NULL = 15
    SHORT = 16


class Operation(enum.IntEnum):
    """What is asked."""

    AGAIN = 0
    BEGIN = 1
    MESSAGE = 2
    TAKE = 3
    END = 4
    EXCHANGE = 5
    WAITING = 6
    SCREEN = 7
    ROWS = 8
    MARKS = 9
    CLEAR_MARKS = 10
    POINTER = 11
    SIZE = 12
    RECORD = 13
    FORGET = 14
    LOAD = 15
    ENTRIES = 16
    EVENT = 17


class Request(ctypes.Structure):
    """An operation and its numbers (rio9_request)."""

    _fields_ = [(name, ctypes.c_uint32) for name in ("operation", "a", "b", "c", "d")]


class Result(ctypes.Structure):
    """What a call gave (rio9_result). `rings` has a bit, the session's number modulo 64, for each other session that got
    replies; `pixels` tells how many pixels a message wrote, and `length` how many bytes the answer has."""

    _fields_ = [
        ("status", ctypes.c_uint32),
        ("number", ctypes.c_uint64),
        ("other", ctypes.c_uint64),
        ("rings", ctypes.c_uint64),
        ("pixels", ctypes.c_uint64),
        ("length", ctypes.c_uint64),
    ]


class Library:
    """A library that is loaded."""

    def __init__(self, path: str) -> None:
        """Loads a file; NoLibrary tells why it is none."""
        self.path = path
        try:
            loaded = ctypes.CDLL(path)
            self.open_display, self.call, self.close = loaded.rio9_open, loaded.rio9_call, loaded.rio9_close
        except (OSError, AttributeError) as error:
            raise NoLibrary(f"{path} is no library of rio9 ({error})") from None
        size, pointer = ctypes.c_size_t, ctypes.c_void_p
        self.open_display.restype, self.call.restype, self.close.restype = ctypes.c_uint32, Result, None
        self.open_display.argtypes = [
            ctypes.c_uint32,
            ctypes.c_uint32,
            ctypes.c_char_p,
            size,
            ctypes.POINTER(ctypes.c_void_p),
        ]
        self.call.argtypes = [pointer, ctypes.POINTER(Request), ctypes.c_char_p, size, pointer, size]
        self.close.argtypes = [pointer]

    def open(self, width: int, height: int, channels: str) -> Tuple[Status, Optional[int]]:
        """A status, and the display's address if that is DONE."""
        display, name = ctypes.c_void_p(), channels.encode()
        status = Status(self.open_display(width, height, name, len(name), ctypes.byref(display)))
        return status, display.value if status is Status.DONE else None


def places() -> Iterator[Path]:
    """Where the library may stand, the first place first: beside the package, and in the `lib` of the prefix of the
    program, of this Python, and of the system."""
    here = Path(__file__).resolve().parent
    yield here / NAME
    program_path = shutil.which(program.NAME)
    if program_path is not None:
        for path in (Path(program_path).absolute(), Path(program_path).resolve()):
            yield path.parents[1] / "lib" / NAME
    for prefix in (Path(sys.prefix), USUAL_PREFIX):
        yield prefix / "lib" / NAME


def find(told: Optional[str] = None) -> str:
    """The library's path: the one that is told, by a word or by RIO9_LIBRARY, or else the first of the places where it may
    stand, or the system's; NoLibrary if it is nowhere."""
    told = told or os.environ.get(TOLD_BY)
    if told:
        if not Path(told).is_file():
            raise NoLibrary(f"{told} is no library of rio9")
        return str(Path(told).resolve())
    found = next((str(place) for place in places() if place.is_file()), None)
    if found is not None:
        return found
    try:
        ctypes.CDLL(NAME)  # by the system's own search: LD_LIBRARY_PATH and ldconfig
    except OSError:
        raise NoLibrary(f"the library {NAME} is neither beside the package nor installed") from None
    return NAME


_loaded: Optional[Library] = None


def load(told: Optional[str] = None) -> Library:
    """The library; it is loaded once."""
    global _loaded
    path = find(told) if told or _loaded is None or TOLD_BY in os.environ else _loaded.path
    if _loaded is None or _loaded.path != path:
        _loaded = Library(path)
    return _loaded
