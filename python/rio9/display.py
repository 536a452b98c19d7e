"""A display in this process: Plan 9's draw device and rio as an object, with no server and no socket.

    with Display(320, 240) as display:
        with display.client("new -r 16 16 176 128") as window:
            ...                                  # rio9.client.Client, as over TCP
        picture = display.screen()               # an image(6) file

It is over the C library (rio9.library tells where that is looked for), which is not made from this repository yet. Neither
the library nor this module is proved; docs/EMBED.md tells what is, and what a caller has to keep. A `Display` keeps that by
itself: calls take turns, so it may be used by several threads.
"""

import contextlib
import ctypes
import threading
import time
from types import TracebackType
from typing import Any, Dict, List, Optional, Tuple, Type, Union

from rio9 import formats, library
from rio9.client import SECONDS, Broken, Client, Failure, Late, connect
from rio9.library import Library, Operation, Request, Result, Status

ROOM = formats.MOST_OF_A_MESSAGE  # bytes of an answer that one call has room for
PAUSE = 0.001
CELL = 32  # the side of a cell, in pixels
SIGN, WHOLE = 1 << 63, 1 << 64
HEAD_BYTES = 5 * 12  # of an image file, before its rows
# The statuses of a call that was done.
GIVEN = (Status.DONE, Status.NOTHING, Status.OVER, Status.SHORT)

Rectangle = Tuple[int, int, int, int]
Buffer = Union[bytes, bytearray, memoryview]


class DisplayError(Failure):
    """A call that was not done: the library's status, and the number that came with it."""

    told = "the call was not done"

    def __init__(self, status: Status, number: int = 0) -> None:
        super().__init__(self.told.format(number=number))
        self.status, self.number = status, number


class NoMemory(DisplayError):
    """There was no memory. If a message met it, the display may take nothing more."""

    told = "there was no memory, or the display has stopped for want of it"


class TooManySessions(DisplayError):
    """No session can begin."""

    told = "the display has too many sessions: end one"


class SessionClosed(DisplayError, Broken):
    """The session does not live, or the bytes that it was to send are no whole 9P message. Nothing was done."""

    told = "the session has ended, or the bytes are no whole 9P message"


class TagInUse(DisplayError, Broken):
    """A message had a tag that another one has, which closed the session. `number` is the tag."""

    told = "the tag {number} is in use, which has ended the session"


class BadRectangle(DisplayError):
    """A rectangle has no point, or one that is not the display's."""

    told = "the rectangle is empty or not within the display"


class BadRecord(DisplayError):
    """Bytes are no record. `number` is the place at which they go wrong."""

    told = "the bytes are no record: they go wrong at byte {number}"


class LateRecord(DisplayError):
    """Bytes are a later part of a record. `number` is the entry with which they begin."""

    told = "the bytes are a later part of a record: they begin with entry {number}"


class BadEvent(DisplayError):
    """An event may not come next. `number` is how many events of the record were made before it."""

    told = "an event of the record may not come next: {number} were made before it"


class HistoryFull(DisplayError):
    """The history has 2^61 entries, and takes no more."""

    told = "the history has 2^61 entries, and takes no more"


class BadOperation(DisplayError):
    """The library has no such operation."""

    told = "the library has no such operation"


class BadSize(DisplayError):
    """A side is none from 1 to 2048."""

    told = "a display has sides from 1 to 2048 pixels"


class BadChannels(DisplayError):
    """These are no channels of a display."""

    told = "channels as x8r8g8b8 are wanted (image(6)), of 1, 2, 4, 8, 16, 24 or 32 bits in all"


class DisplayClosed(DisplayError, Broken):
    """The display has been closed."""

    told = "the display has been closed"


ERRORS: Dict[Status, Type[DisplayError]] = {
    Status.MEMORY: NoMemory,
    Status.CROWDED: TooManySessions,
    Status.CLOSED: SessionClosed,
    Status.DUPLICATE: TagInUse,
    Status.BAD_RECTANGLE: BadRectangle,
    Status.BAD_RECORD: BadRecord,
    Status.LATE_RECORD: LateRecord,
    Status.BAD_EVENT: BadEvent,
    Status.FULL: HistoryFull,
    Status.BAD_OPERATION: BadOperation,
    Status.BAD_SIZE: BadSize,
    Status.BAD_CHANNELS: BadChannels,
    Status.NULL: DisplayClosed,
}


def error_of(status: Status, number: int = 0) -> DisplayError:
    """The error of a status."""
    return ERRORS.get(status, DisplayError)(status, number)


class Display:
    """A display, and all that its sessions made of it. It is freed by `close`, at the end of a `with`, or when nothing
    refers to it."""

    def __init__(
        self, width: int = 640, height: int = 480, channels: str = "x8r8g8b8", loaded: Optional[Library] = None
    ) -> None:
        """Opens a display of these sides, 1 to 2048 pixels, and channels (image(6)); BadSize, BadChannels and NoMemory
        tell why there is none. The library is the one that is given, or the one that is found."""
        self.address: Optional[int] = None
        if not (0 < width < 1 << 32 and 0 < height < 1 << 32):
            raise error_of(Status.BAD_SIZE)
        self.library = library.load() if loaded is None else loaded
        self.turn = threading.Lock()
        self.output = ctypes.create_string_buffer(ROOM)
        self.output_view = memoryview(self.output).cast("B")
        status, self.address = self.library.open(width, height, channels)
        if status is not Status.DONE:
            raise error_of(status)
        self.bits = formats.depth(formats.channels_word(channels))

    def close(self) -> None:
        """Frees the display and all that it holds."""
        if self.address is not None:
            with self.turn:
                address, self.address = self.address, None
                if address is not None:
                    self.library.close(address)

    __del__ = close

    def __enter__(self) -> "Display":
        return self

    def __exit__(
        self, kind: Optional[Type[BaseException]], error: Optional[BaseException], trace: Optional[TracebackType]
    ) -> None:
        self.close()

    # Calls.

    def call(self, operation: int, *numbers: int, data: Buffer = b"") -> Tuple[Result, bytes]:
        """What the library gave for an operation on up to four numbers, and its answer. Raises the error of a status that
        has no answer."""
        given = data if type(data) is bytes else bytes(data)
        with self.turn:
            result = self.call_into(Request(operation, *numbers), given, self.output, ROOM)
            length: int = result.length
            if length <= ROOM:
                return result, self.output_view[:length].tobytes()
            answer = bytearray(length)
            self.fill(answer, 0)
            return result, bytes(answer)

    def call_into(self, request: Request, data: bytes, output: Any, room: int) -> Result:
        """Does what is asked, in this thread's turn. The front of the answer is put into the output."""
        if self.address is None:
            raise error_of(Status.NULL)
        result: Result = self.library.call(self.address, request, data, len(data), output, room)
        if result.status and result.status not in GIVEN:
            raise error_of(Status(result.status), result.number)
        return result

    def fill(self, answer: Union[bytearray, memoryview], place: int) -> None:
        """Fills bytes with those of the last answer from a place on, in this thread's turn."""
        output = (ctypes.c_char * len(answer)).from_buffer(answer)
        self.call_into(Request(Operation.AGAIN, place, 0), b"", output, len(answer))

    def large(self, request: Request, length: int) -> memoryview:
        """An answer that has this length, as it was put by the library."""
        answer = bytearray(length)
        with self.turn:
            output = (ctypes.c_char * length).from_buffer(answer)
            found: int = self.call_into(request, b"", output, length).length
            if found > length:
                del output
                answer = bytearray(found)
                self.fill(answer, 0)
        return memoryview(answer)[:found].toreadonly()

    # Sessions.

    def begin(self) -> "Session":
        """A session begins."""
        return Session(self, self.call(Operation.BEGIN)[0].number)

    def client(self, name: str = "", seconds: Optional[float] = SECONDS) -> Client:
        """A client over a new session, which has attached to the tree of this name: the device tree's if it is empty, a
        new window's by `new`. An answer that waits for what another thread does may take so many seconds."""
        return connect(self.begin(), name, seconds)

    # What is shown.

    def size(self) -> Tuple[int, int]:
        """The width and the height, in pixels."""
        result, _ = self.call(Operation.SIZE)
        return result.number, result.other

    def screen(self) -> memoryview:
        """The display as an image(6) file."""
        width, height = self.size()
        return self.large(Request(Operation.SCREEN), HEAD_BYTES + height * formats.row_bytes(self.bits, 0, width))

    def rows(self, rectangle: Optional[Rectangle] = None) -> memoryview:
        """The rows of a rectangle of the display, of all of it if none is said, in the layout of image(6): for
        x8r8g8b8 four bytes a pixel, blue, green, red and 0. The library writes them where they are then read."""
        inside = self.inside(rectangle)
        return self.large(Request(Operation.ROWS, *inside), self.bytes_of(inside))

    def rows_into(self, buffer: Union[bytearray, memoryview], rectangle: Optional[Rectangle] = None) -> int:
        """Puts the rows of a rectangle into the front of bytes that can be written, as those of a bytearray, an mmap or
        an array, and gives how many that were. ValueError if they have no room."""
        inside = self.inside(rectangle)
        with memoryview(buffer).cast("B") as view:
            if view.nbytes < self.bytes_of(inside):
                raise ValueError(f"the rows have {self.bytes_of(inside)} bytes, and there is room for {view.nbytes}")
            output = (ctypes.c_char * view.nbytes).from_buffer(view)
            with self.turn:
                length: int = self.call_into(Request(Operation.ROWS, *inside), b"", output, view.nbytes).length
            del output
            return length

    def inside(self, rectangle: Optional[Rectangle]) -> Rectangle:
        """A rectangle whose sides are numbers of the library; all of the display if none is said."""
        if rectangle is None:
            return (0, 0, *self.size())
        if not all(0 <= side < 1 << 32 for side in rectangle):
            raise error_of(Status.BAD_RECTANGLE)
        return rectangle

    def bytes_of(self, rectangle: Rectangle) -> int:
        """How many bytes the rows of a rectangle within the display have."""
        left, upper, right, lower = rectangle
        width, height = self.size()
        if not (0 <= left < right <= width and 0 <= upper < lower <= height):
            raise error_of(Status.BAD_RECTANGLE)
        return (lower - upper) * formats.row_bytes(self.bits, left, right)

    def marks(self) -> List[Tuple[int, int]]:
        """The cells of 32 by 32 pixels, each as its column and row, of which a pixel was written since the marks were
        cleared."""
        result, cells = self.call(Operation.MARKS)
        across = result.number
        return [(at % across, at // across) for at, is_marked in enumerate(cells) if is_marked]

    def clear_marks(self) -> None:
        """Clears the marks."""
        self.call(Operation.CLEAR_MARKS)

    def pointer(self) -> Optional[Tuple[int, int]]:
        """Where the mouse was last; None before its first event."""
        result, _ = self.call(Operation.POINTER)
        if result.status == Status.NOTHING:
            return None
        return signed(result.number), signed(result.other)

    # The history.

    def entries(self) -> Tuple[int, int]:
        """How many entries the history has, and how many of them are stored."""
        result, _ = self.call(Operation.ENTRIES)
        return result.number, result.other

    def record(self) -> bytes:
        """The record of the entries that are stored, which `rio9 replay` reads."""
        return self.call(Operation.RECORD)[1]

    def forget(self) -> None:
        """Forgets the entries that are stored, which grow otherwise with each message."""
        self.call(Operation.FORGET)

    def load(self, record: Buffer) -> int:
        """Makes the events of a record, behind those that were made, and gives how many; BadRecord, LateRecord and
        BadEvent tell why not all were."""
        number: int = self.call(Operation.LOAD, data=record)[0].number
        return number

    def event(self, line: Buffer) -> bytes:
        """Makes the event of a line of a record, without the end of the line. Gives the lines of its replies, as `rio9
        replay` writes them."""
        return self.call(Operation.EVENT, data=line)[1]


class Session:
    """A session of a display, which ends with a `with`. It is what carries a client's messages (rio9.client.Transport)."""

    def __init__(self, display: Display, number: int) -> None:
        self.display, self.number = display, number
        self.came = b""

    def __enter__(self) -> "Session":
        return self

    def __exit__(
        self, kind: Optional[Type[BaseException]], error: Optional[BaseException], trace: Optional[TracebackType]
    ) -> None:
        self.close()

    def exchange(self, message: Buffer) -> bytes:
        """Sends one whole 9P message, and takes what waits for the session then: nothing if the message waits. The
        replies of one call come in the order in which they were given."""
        return self.display.call(Operation.EXCHANGE, self.number, data=message)[1]

    def message(self, data: Buffer) -> int:
        """Sends one whole 9P message, whose reply waits for `take`. Gives the session's msize."""
        msize: int = self.display.call(Operation.MESSAGE, self.number, data=data)[0].number
        return msize

    def take(self) -> bytes:
        """Takes the replies that wait, one behind the other: none if nothing waits."""
        return self.display.call(Operation.TAKE, self.number)[1]

    def waiting(self) -> int:
        """How many bytes of replies wait."""
        count: int = self.display.call(Operation.WAITING, self.number)[0].number
        return count

    def end(self) -> None:
        """Ends the session: its fids, connections and windows go."""
        self.display.call(Operation.END, self.number)

    # What carries a client's messages.

    def send(self, message: bytes, _seconds: Optional[float]) -> None:
        """Sends a whole message, and keeps what it brings for `receive`."""
        self.came += self.exchange(message)

    def receive(self, seconds: Optional[float]) -> Optional[bytes]:
        """The next bytes of replies: none if no more will come, None if nothing came in so many seconds. Late if
        no other thread could bring something."""
        end = None if seconds is None else time.monotonic() + seconds
        while True:
            came, self.came = self.came, b""
            if came:
                return came
            result, came = self.display.call(Operation.TAKE, self.number)
            if came or result.status == Status.OVER:
                return came
            if end is not None and time.monotonic() >= end:
                return None
            if threading.active_count() == 1:
                raise Late("no answer comes: the message waits for what another session does")
            time.sleep(PAUSE)

    def close(self, _seconds: Optional[float] = None) -> None:
        """Ends the session, if it and the display live."""
        with contextlib.suppress(DisplayError):
            self.end()


def signed(number: int) -> int:
    """The number that the bits of an unsigned one are."""
    return number - WHOLE if number & SIGN else number
