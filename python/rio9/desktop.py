"""Uses a desktop as a person does: types, clicks and drags, and waits for what is to be seen.

    desktop = Desktop(lambda: client.connect(("127.0.0.1", 5640)))
    desktop.type("hello\\n")
    desktop.wait_for(text="hello")
    desktop.screen().save("screen.png")

It has one session of its own at the device tree, begun with the first thing that is done. Each look at the display or
at a window is asked of the server and stands in its record; `wait_for` looks again after 10 milliseconds, then less
often, up to ten times a second. A picture needs Pillow; nothing else does.
"""

import re
import time
from dataclasses import dataclass
from typing import TYPE_CHECKING, Callable, Dict, Iterator, List, Optional, Sequence, Tuple, Union

from rio9 import formats, picture, record
from rio9.client import CTL_BYTES, KEYS_OF_A_WRITE, READ, READWRITE, WRITE, Client, Failure, File, Refused, stats_of
from rio9.pictures import Rectangle, image_of

if TYPE_CHECKING:
    from PIL import Image

SECONDS = 5.0
FIRST_PAUSE, MOST_PAUSE, SLOWER = 0.01, 0.1, 1.5
DISPLAY = 0  # the id of the display's image on each connection
FIELD = 12

Point = Tuple[int, int]
Colour = Tuple[int, int, int]


class NotSeen(AssertionError):
    """What was waited for did not come. It tells what was there instead."""


@dataclass(frozen=True)
class Pixel:
    """A point of the display, and the red, green and blue that it is to have."""

    point: Point
    colour: Colour


class Desktop:
    """A desktop that is used through a session of its own. `connect` begins a session that has attached."""

    def __init__(self, connect: Callable[[], Client]) -> None:
        self.connect = connect
        self.begun: Optional[Client] = None
        self.drawing: Optional[File] = None
        self.channels = self.root = 0

    @classmethod
    def of(cls, session: Client, root: int) -> "Desktop":
        """A desktop that is used through a session that is there, by the root of a tree."""
        found = cls(lambda: session)
        found.begun, found.root = session, root
        return found

    @property
    def session(self) -> Client:
        """The session, which begins here if it has not yet."""
        if self.begun is None:
            self.begun = self.connect()
            self.root = self.begun.root
        return self.begun

    def file(self, path: str, mode: int = READ) -> File:
        """An open file of the tree."""
        session = self.session
        return session.file(self.root, path, mode)

    def close(self) -> None:
        """Ends the session."""
        if self.begun is not None:
            self.begun.close()
        self.begun = self.drawing = None

    # Files of the device tree.

    def read(self, path: str) -> bytes:
        """All that a file has."""
        with self.file(path) as file:
            return file.read_all()

    def write(self, path: str, data: bytes) -> None:
        """Writes to a file."""
        with self.file(path, WRITE) as file:
            file.write(data)

    def size(self) -> Tuple[int, int]:
        """The width and the height of the display."""
        text = self.read("hwsize").decode(errors="replace")
        found = re.fullmatch(r" *([0-9]{1,5}) +([0-9]{1,5}) ", text)
        if not found:
            raise Failure(f"hwsize has no size: {text[:40]!r}")
        return int(found[1]), int(found[2])

    # The mouse and the keys.

    def type(self, text: str) -> None:
        """Types a text: it goes to the window that has the keys."""
        with self.file("kbdin", WRITE) as file:
            for begin in range(0, len(text), KEYS_OF_A_WRITE):
                file.write(text[begin : begin + KEYS_OF_A_WRITE].encode())

    def mouse(self, events: Sequence[Tuple[Point, int]]) -> None:
        """Gives the mouse some places, each with the sum of its buttons there: 1, 2, 4, and 8 and 16 for the wheel."""
        width, height = self.size()
        for x, y in {point for point, _ in events}:
            if not (0 <= x < width and 0 <= y < height):
                raise Failure(f"({x},{y}) is outside of the display, which has {width}x{height} points")
        with self.file("mousein", WRITE) as file:
            for point, buttons in events:
                msec = time.monotonic_ns() // 10**6 % 2**32
                file.write(record.mouse_text({"point": point, "buttons": buttons, "msec": msec}))

    def move(self, x: int, y: int) -> None:
        """Moves the mouse, with no button down."""
        self.mouse([((x, y), 0)])

    def click(self, x: int, y: int, button: int = 1) -> None:
        """Presses a button at a point, and lets it go: 1 is the left one, 2 the middle one, 3 the right one, 4 and 5
        the wheel."""
        self.drag((x, y), (x, y), button)

    def drag(self, begin: Point, end: Point, button: int = 1) -> None:
        """Presses a button at a point, and lets it go at another one."""
        if not 1 <= button <= 5:
            raise Failure(f"a button from 1 to 5 is wanted, and not {button}")
        down = 1 << button - 1
        self.mouse([(begin, down), *([(end, down)] if end != begin else []), (end, 0)])

    # Windows.

    def windows(self) -> Dict[int, str]:
        """The labels of windows, by their numbers."""
        found: Dict[int, str] = {}
        for number in self.numbers():
            label = self.of_window(number, "label")
            if label is not None:
                found[number] = label
        return found

    def numbers(self) -> List[int]:
        """The numbers of the windows."""
        return [int(stat["name"]) for stat in stats_of(self.read("wsys"))]

    def of_window(self, number: int, name: str) -> Optional[str]:
        """What a file of a window has; None where the window has gone."""
        try:
            return self.read(f"wsys/{number}/{name}").decode(errors="replace")
        except Refused:
            return None

    def text(self, window: int) -> str:
        """The text of a window (rio(4)); empty where the window has gone."""
        return self.of_window(window, "text") or ""

    def new_window(self, rectangle: Optional[Rectangle] = None, label: Optional[str] = None) -> int:
        """Makes a window, which stays until it is deleted, and gives its number."""
        number = self.command_new("" if rectangle is None else "-r {} {} {} {}".format(*rectangle))
        if label is not None:
            self.write(f"wsys/{number}/label", label.encode())
        return number

    def command_new(self, options: str) -> int:
        """Makes a window with options of rio(4), as `-r 16 16 176 128 -hide`, and gives its number."""
        before = set(self.numbers())
        self.write("wctl", f"new {options}".strip().encode(errors="surrogateescape"))
        made = [number for number in self.numbers() if number not in before]
        if not made:
            raise Failure("the window that was made has gone again")
        return made[0]

    # What is to be seen.

    def pixels(self, rectangle: Rectangle) -> List[List[Colour]]:
        """The red, green and blue of the points of a rectangle of the display, row by row."""
        if self.drawing is None:
            self.open_drawing()
        assert self.drawing is not None
        fields = b"".join(side.to_bytes(4, "little", signed=True) for side in rectangle)
        self.session.write(self.drawing.fid, b"r" + DISPLAY.to_bytes(4, "little") + fields)
        rows = self.session.read(self.drawing.fid)
        left, upper, right, lower = rectangle
        return [
            [pixel[:3] for pixel in row] for row in picture.colours(self.channels, left, right, lower - upper, rows)
        ]

    def open_drawing(self) -> None:
        """Opens a draw connection, by which pixels are read."""
        control = self.file("draw/new", READWRITE)
        fields = control.read(CTL_BYTES).decode()
        number, channels = fields[:FIELD].strip(), fields[2 * FIELD : 3 * FIELD].strip()
        self.drawing, self.channels = self.file(f"draw/{number}/data", READWRITE), formats.channels_word(channels)

    def pixel(self, x: int, y: int) -> Colour:
        """The red, green and blue of a point of the display."""
        return self.pixels((x, y, x + 1, y + 1))[0][0]

    def screen(self) -> "Image.Image":
        """The display as a picture."""
        return image_of(self.read("screen"))

    def wait_for(
        self,
        window: Union[str, int, None] = None,
        text: Optional[str] = None,
        pixel: Optional[Tuple[int, int, Colour]] = None,
        seconds: float = SECONDS,
    ) -> Optional[int]:
        """Waits until all of this is there: a window of a label or number; a text, in that window or in any; a pixel,
        as its place and its red, green and blue. Gives the window's number where one or a text is asked for."""
        end, pause = time.monotonic() + seconds, FIRST_PAUSE
        wanted = None if pixel is None else Pixel(pixel[:2], pixel[2])
        while True:
            found = self.found(window, text)
            if found is not False and (wanted is None or self.pixel(*wanted.point) == wanted.colour):
                return found
            if time.monotonic() > end:
                raise NotSeen(f"within {seconds:g} seconds " + "; ".join(self.told(window, text, wanted)))
            time.sleep(pause)
            pause = min(pause * SLOWER, MOST_PAUSE)

    def found(self, window: Union[str, int, None], text: Optional[str]) -> Union[int, None, bool]:
        """The number of the window that is asked for, None where none is, False where it is not there."""
        if window is None and text is None:
            return None
        for number in self.numbers():
            is_it = window is None or number == window or self.of_window(number, "label") == window
            if is_it and (text is None or text in self.text(number)):
                return number
        return False

    def told(self, window: Union[str, int, None], text: Optional[str], pixel: Optional[Pixel]) -> Iterator[str]:
        """What is there in place of what was waited for."""
        windows = self.windows()
        if window is not None:
            is_there = self.found(window, None) is not False
            yield f"window {window!r} was there" if is_there else f"no window {window!r} was there, of {windows}"
        if text is not None:
            yield f"no text {text!r} was there, of { {number: self.text(number)[-200:] for number in windows} }"
        if pixel is not None:
            yield f"the pixel {pixel.point} was {self.pixel(*pixel.point)}, and not {pixel.colour}"
