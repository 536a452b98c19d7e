"""A terminal: a program, its cells, and the window that shows them, each of which is attended to when it has
something."""

import selectors
import time
from typing import Optional, Tuple

from rio9.term import keys
from rio9.term.cells import BRACKETED_PASTE, CURSOR_KEYS, Cells, Stream
from rio9.term.child import Child
from rio9.term.glyphs import Glyphs
from rio9.term.paint import Painter
from rio9.term.window import Closed, Mouse, Window

QUIET, LONGEST = 0.004, 0.03  # seconds without output until a frame is drawn, and until one is drawn whatever comes
READ_AT_ONCE = 1 << 18
SELECT, PASTE = 1, 2  # buttons
ROWS_OF_A_WHEEL = 3
UP, DOWN = "\uf00e", "\uf800"  # the keys that the wheel stands for on a second screen

Point = Tuple[int, int]  # a row and a column


class Terminal:
    """A program in a window, until one of them goes."""

    def __init__(self, window: Window, glyphs: Glyphs, child: Child, cells: Cells):
        self.window, self.child, self.cells = window, child, cells
        self.glyphs, self.stream = glyphs, Stream(cells)
        self.selector = selectors.DefaultSelector()
        self.selector.register(window.session.socket, selectors.EVENT_READ)
        self.selector.register(child.master, selectors.EVENT_READ)
        self.is_over = False  # whether the program has gone
        self.waits_since: Optional[float] = time.monotonic()  # when what is not painted yet came
        self.buttons = 0
        self.anchor: Optional[Point] = None
        self.selection: Optional[Tuple[Point, Point]] = None
        self.title = ""
        self.begin()
        self.settle()

    def run(self, holds: bool) -> None:
        """Attends to all of it until the program has gone, or, if the window is held, until that has."""
        try:
            while not self.is_over or holds or self.waits_since is not None:
                self.attend()
        except Closed:
            if not self.is_over:
                raise
        finally:
            self.selector.close()

    def attend(self) -> None:
        """Waits for something, and does what it asks for."""
        for key, events in self.selector.select(self.patience()):
            if key.fileobj is self.window.session.socket:
                self.window.take()
            elif events & selectors.EVENT_WRITE:
                self.child.flush()
            if key.fileobj == self.child.master and events & selectors.EVENT_READ:
                self.read()
        for text in self.window.keys():
            self.type(text)
        for event in self.window.mice():
            self.point(event)
        self.watch_child()
        if not self.window.is_drawing():
            self.show()

    def patience(self) -> Optional[float]:
        """How long nothing has to be done unless something comes."""
        if self.window.is_drawing() or self.waits_since is None:
            return None
        return 0 if self.is_over else min(QUIET, max(self.waits_since + LONGEST - time.monotonic(), 0))

    # The program.

    def read(self) -> None:
        """Takes what the program has written, as much as is there."""
        count = 0
        while count < READ_AT_ONCE:
            data = self.child.read()
            if data is None:
                break
            if not data:
                self.is_over = True
                self.selector.unregister(self.child.master)
                break
            self.stream.feed_bytes(data)
            count += len(data)
        if self.cells.answers:
            self.child.send("".join(self.cells.answers))
            self.cells.answers.clear()
        if self.anchor is None:
            self.selection = None
        self.changed()

    def changed(self) -> None:
        """Tells that there is something to paint."""
        if self.waits_since is None:
            self.waits_since = time.monotonic()

    def watch_child(self) -> None:
        """Waits until the program takes what was typed, if that had to wait."""
        if not self.is_over:
            events = selectors.EVENT_READ | (selectors.EVENT_WRITE if self.child.unsent else 0)
            if self.selector.get_key(self.child.master).events != events:
                self.selector.modify(self.child.master, events)

    # The window.

    def begin(self) -> None:
        """Makes what is drawn with."""
        self.painter = Painter(self.glyphs)
        self.window.draw(self.painter.begin())

    def settle(self) -> None:
        """Takes the window's image, and gives the program the size that it has room for."""
        has_lost = self.window.finish()
        if has_lost:
            self.begin()
        place = self.window.settle(self.glyphs.width, self.glyphs.height)
        self.window.draw(self.painter.settle(place))
        if (place.columns, place.lines) != (self.cells.columns, self.cells.lines):
            self.cells.resize(place.lines, place.columns)
            if not self.is_over:
                self.child.resize(place.columns, place.lines)
        self.selection = self.anchor = None
        self.changed()

    def show(self) -> None:
        """Paints what has changed, unless more is about to come."""
        if self.window.is_stale:
            self.settle()
        if self.waits_since is None or not self.is_due():
            return
        self.waits_since = None
        if self.cells.title != self.title:
            self.title = self.cells.title
            self.window.label(self.title)
        messages = self.painter.frame(self.cells, self.cursor(), self.selection)
        if messages:
            self.window.draw(messages)

    def cursor(self) -> Optional[Point]:
        """Where the cursor is seen."""
        cursor = self.cells.cursor
        y = cursor.y + self.cells.back
        is_seen = not cursor.hidden and not self.is_over and y < self.cells.lines
        return (y, min(cursor.x, self.cells.columns - 1)) if is_seen else None

    def is_due(self) -> bool:
        """Whether a frame is to be drawn now."""
        assert self.waits_since is not None
        if self.is_over or time.monotonic() - self.waits_since >= LONGEST:
            return True
        return not self.selector.select(QUIET)

    # Keys and the mouse.

    def type(self, text: str) -> None:
        """Gives keys to the program, and looks at its last rows again."""
        if self.is_over:
            return
        if self.cells.back:
            self.cells.back = 0
            self.changed()
        self.child.send("".join(keys.of_key(key, self.cells.is_on(CURSOR_KEYS)) for key in text))

    def point(self, event: Mouse) -> None:
        """Does what an event of the mouse asks for."""
        place, before, self.buttons = self.painter.place, self.buttons, event.buttons
        assert place is not None
        x = min(max((event.x - place.x) // self.glyphs.width, 0), self.cells.columns - 1)
        y = min(max((event.y - place.y) // self.glyphs.height, 0), self.cells.lines - 1)
        if keys.wants_mouse(self.cells) and not self.is_over:
            self.child.send(keys.of_mouse(self.cells, x, y, event.buttons, before))
        else:
            self.select(event.buttons, before, (y, x))

    def select(self, buttons: int, before: int, point: Point) -> None:
        """Selects by the first button, puts in by the second one, and looks back by the wheel."""
        pressed = buttons & ~before
        if pressed & SELECT:
            self.anchor, self.selection = point, None
            self.changed()
        elif self.anchor is not None and point != self.anchor or self.selection:
            self.drag(point, bool(buttons & SELECT))
        elif not buttons & SELECT:
            self.anchor = None
        if pressed & PASTE:
            text = self.window.read("snarf").decode("utf-8", "replace")
            self.child.send(keys.of_paste(text, self.cells.is_on(BRACKETED_PASTE)))
        for button, key, count in ((keys.WHEEL_UP, UP, ROWS_OF_A_WHEEL), (keys.WHEEL_DOWN, DOWN, -ROWS_OF_A_WHEEL)):
            if pressed & button:
                self.turn(key, count)

    def turn(self, key: str, count: int) -> None:
        """Looks back by the wheel. A second screen has no rows that went, so its program gets keys instead."""
        if self.cells.first is not None:
            self.type(key * ROWS_OF_A_WHEEL)
        else:
            self.cells.look_back(count)
            self.selection = None
            self.changed()

    def drag(self, point: Point, is_down: bool) -> None:
        """Selects up to a point, and snarfs what is selected when the button goes up."""
        if self.anchor is None:
            return
        self.selection = min(self.anchor, point), max(self.anchor, point)
        self.changed()
        if not is_down:
            self.anchor = None
            self.window.write("snarf", self.cells.text(*self.selection).encode())
