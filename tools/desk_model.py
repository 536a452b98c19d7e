"""What `rio9 desk` has to do, from the definitions alone: which inputs it takes, what it writes, and what its display shows.

It is outside the proof: it shares nothing with the proved program, and the proved program nothing with it.
"""

from dataclasses import dataclass, field
from typing import Tuple

from rio9 import record
from rio9.events import EVENT_BYTES, Mouse, read_event
from cases import BORDER, DISPLAY, EDGE, GREY, LIMIT, NotSo, read_session

MOST_WINDOWS, LEAST_SIDE = 64, 12
RIGHT_BUTTON = 4

# A menu: its sides, its items from the top, and the colours of their bands, each blue, green, red and an ignored byte.
MENU = (48, 88)
ITEM = (40, 16)
ITEMS = ("new", "resize", "move", "delete", "hide")
BANDS = [bytes.fromhex(colour) for colour in ("0000ff00", "00ff0000", "ff000000", "00ffff00", "80808000")]
WHITE = bytes.fromhex("ffffff00")


# The input.


def read_events(data):
    """The events of an input where it fits, else the place that is told."""
    if len(data) >= LIMIT:
        return LIMIT
    events = []
    for at in range(0, len(data), EVENT_BYTES):
        event = read_event(data[at : at + EVENT_BYTES])
        if event is None:
            return at
        events.append(event)
    return events


# What is written.


def holds(rectangle, point):
    left, upper, right, lower = rectangle
    return left <= point[0] < right and upper <= point[1] < lower


@dataclass
class Desk:
    """The windows that are seen, topmost first, each with its number and rectangle; how many are hidden; the number of the next
    window; the buttons of the last event; and what the next event means: a mode's name and what it is about."""

    seen: list = field(default_factory=list)
    hidden: int = 0
    next: int = 1
    last: int = 0
    mode: Tuple = ("idle",)

    def window_at(self, point):
        """The number of the topmost window at a point, or None."""
        return next((number for number, rectangle in self.seen if holds(rectangle, point)), None)

    def remove(self, number):
        """Takes a window from those that are seen."""
        self.seen = [window for window in self.seen if window[0] != number]

    def place(self, number, rectangle):
        """Gives a window another rectangle."""
        self.seen = [(other, rectangle if other == number else old) for other, old in self.seen]

    def make(self, rectangle):
        """Makes a window, and gives the command."""
        self.seen.insert(0, (self.next, rectangle))
        self.next += 1
        return "wctl", "new -r %d %d %d %d" % rectangle

    def feed(self, event):
        """What an event writes: the file and the text, or None."""
        name, *about = self.mode
        written = getattr(self, name)(event, *about)
        self.last = event.buttons
        return written

    def idle(self, event):
        pressed = event.buttons != 0 and self.last == 0
        if pressed and event.buttons == RIGHT_BUTTON:
            if len(self.seen) + self.hidden == MOST_WINDOWS:
                self.mode = "drain", None
                return None
            self.mode = "menu", event.point(), self.next
            return self.make((event.x, event.y, event.x + MENU[0], event.y + MENU[1]))
        number = self.window_at(event.point()) if pressed else None
        # what is pressed comes to the top
        self.seen.sort(key=lambda window: window[0] != number)
        return "mousein", event.text().decode()

    def menu(self, event, corner, number):
        if event.buttons != 0:
            return None
        self.remove(number)
        across, down = event.x - corner[0] - BORDER, event.y - corner[1] - BORDER
        inside = 0 <= across < ITEM[0] and 0 <= down < ITEM[1] * len(ITEMS)
        item = ITEMS[down // ITEM[1]] if inside else None
        self.mode = {None: ("idle",), "new": ("sweep", None)}.get(item, ("pick", item))
        return "wctl", f"delete -id {number}"

    def pick(self, event, item):
        if event.buttons == 0:
            return None
        number = self.window_at(event.point())
        self.mode = "drain", number if item == "resize" else None
        if number is None or item == "resize":
            return None
        if item == "move":
            self.mode = "drag", number, event.point()
            return None
        self.remove(number)
        self.hidden += item == "hide"
        return "wctl", f"{item} -id {number}"

    def drain(self, event, resized):
        if event.buttons == 0:
            self.mode = ("idle",) if resized is None else ("sweep", resized)

    def sweep(self, event, resized):
        if event.buttons != 0:
            self.mode = "sweeping", resized, event.point()

    def sweeping(self, event, resized, start):
        if event.buttons != 0:
            return None
        self.mode = ("idle",)
        columns, rows = sorted((start[0], event.x)), sorted((start[1], event.y))
        rectangle = columns[0], rows[0], columns[1], rows[1]
        if min(columns[1] - columns[0], rows[1] - rows[0]) < LEAST_SIDE:
            return None
        if resized is None:
            return self.make(rectangle)
        self.place(resized, rectangle)
        return "wctl", "resize -r %d %d %d %d -id %d" % (*rectangle, resized)

    def drag(self, event, number, start):
        if event.buttons != 0:
            return None
        self.mode = ("idle",)
        across, down = event.x - start[0], event.y - start[1]
        left, upper, right, lower = dict(self.seen)[number]
        self.place(number, (left + across, upper + down, right + across, lower + down))
        return "wctl", f"move -minx {across:+d} -miny {down:+d} -id {number}"


def pilot(events):
    """What each of some events writes, or None."""
    desk = Desk()
    return [desk.feed(event) for event in events]


def desk_after(events):
    """The desk after some events."""
    desk = Desk()
    for event in events:
        desk.feed(event)
    return desk


# What is shown.


def fill(rows, rectangle, colour):
    """Fills what of a rectangle lies on the display."""
    left, upper, right, lower = rectangle
    left, right = max(left, 0), min(right, DISPLAY[0])
    for y in range(max(upper, 0), min(lower, DISPLAY[1]) if left < right else 0):
        rows[y][4 * left : 4 * right] = colour * (right - left)


def screen(desk):
    """The rows of the display: its windows from back to front, and the bands of a menu in its window."""
    rows = [bytearray(GREY * DISPLAY[0]) for _ in range(DISPLAY[1])]
    for number, (left, upper, right, lower) in reversed(desk.seen):
        inside = left + BORDER, upper + BORDER, right - BORDER, lower - BORDER
        fill(rows, (left, upper, right, lower), EDGE)
        fill(rows, inside, WHITE)
        if desk.mode[0] == "menu" and desk.mode[2] == number:
            for item, colour in enumerate(BANDS):
                top = inside[1] + item * ITEM[1]
                fill(rows, (inside[0], top, inside[0] + ITEM[0], top + ITEM[1]), colour)
    return b"".join(rows)


# The record.


def texts_in(events):
    """Where each text stands among the events of a record, with the file that it is written to; NotSo where a message is none."""
    files, found = {}, []
    for at, event in enumerate(events[1:], 1):
        read = record.read_message(event.message)
        if read is None:
            raise NotSo(f"event {at} is no message")
        message, values, data = read
        if message.name == "Twalk":
            files[values["newfid"]] = "/".join(values["names"])
        if message.name == "Twrite" and files.get(values["fid"]) in ("wctl", "mousein"):
            found.append((at, (files[values["fid"]], data.decode("latin-1"))))
    return found


def check_record(events, made):
    """The events of a record that does what some events of the mouse say, and how many of them stand before the texts of each and
    behind the last; NotSo where it says something else than it should."""
    done, wanted = read_session(made), pilot(events)
    texts = texts_in(done)
    if [text for _, text in texts] != [text for text in wanted if text is not None]:
        raise NotSo("the texts are not the pilot's")
    places = [at for at, _ in texts] + [len(done)]
    ends, count = [places[0]], 0
    for text in wanted:
        count += text is not None
        ends.append(places[count])
    return done, ends
