#!/usr/bin/env python3
"""Runs events of the mouse made by chance, and inputs that do not fit, through `desk` of the built program, and looks at what comes.

    tools/desk_soak.py [--program PATH] [--replay PATH] [--cases N] [--seed S] [--jobs N] [--keep FOLDER]

Of each case the exit status, the line on standard error, the record and the screens of the record's replay are compared with what
tools/desk_model.py works out from the definitions: of inputs that fit the screen at the end, before the first event, and after some
of the events; else that the input is refused, and at which place. Most events are gestures that a person makes with menus, some are
made without any sense. A case is decided by the seed and its number; there are N, 500 where nothing is said. PATH is a program or, in
one word, its path and words that come before the command; the record is replayed by the one of --replay where there is one. The jobs
run beside each other, 2 where nothing is said.

The input of a case that is otherwise is kept in FOLDER, the present one where nothing is said, and the command is printed.
Status 1 tells that something is otherwise, 2 that a word or a file is wrong.

It is outside the proof. Needs: Python 3.9 or later, its standard library alone.
"""

import random
import sys
from dataclasses import dataclass

import desk_model
from cases import BAD_INPUT, BORDER, DISPLAY, DONE, LIMIT, Command, NotSo, check_replies, output_of, replayed, soak_of
from desk_model import ITEM, ITEMS
from rio9.events import EVENT_BYTES, FIELD_BYTES, Mouse

RIGHT_BUTTON, LEFT_BUTTON = 4, 1


@dataclass(frozen=True)
class Case:
    """An input."""

    data: bytes


# Events.


class Hand:
    """A hand at a mouse: the events that it makes, and the desk that they lead to, so that it knows where the windows are."""

    def __init__(self, chance):
        self.chance, self.events, self.desk = chance, [], desk_model.Desk()

    def point(self):
        """A point, more often one about a corner of a window or of the display."""
        corners = [corner for _, (left, upper, right, lower) in self.desk.seen[:6] for corner in ((left, upper), (right, lower))]
        x, y = self.chance.randrange(DISPLAY[0]), self.chance.randrange(DISPLAY[1])
        if self.chance.random() < 0.5:
            near = self.chance.choice([*corners, (0, 0), DISPLAY])
            x, y = (at + self.chance.randint(-14, 14) for at in near)
        return tuple(max(0, min(at, side - 1)) for at, side in zip((x, y), DISPLAY))

    def on_window(self):
        """A point on some window, or any."""
        if not self.desk.seen or self.chance.random() < 0.15:
            return self.point()
        left, upper, right, lower = self.chance.choice(self.desk.seen)[1]
        at = self.chance.randint(left, right - 1), self.chance.randint(upper, lower - 1)
        return tuple(max(0, min(at, side - 1)) for at, side in zip(at, DISPLAY))

    def do(self, at, buttons):
        event = Mouse(*at, buttons, self.chance.choice((len(self.events), self.chance.randrange(2**32))))
        self.desk.feed(event)
        self.events.append(event)

    def click(self, at, buttons):
        self.do(at, buttons)
        self.do(at, 0)

    def drag(self, start, end):
        buttons = self.chance.choice((RIGHT_BUTTON, RIGHT_BUTTON, LEFT_BUTTON, 31))
        self.do(start, buttons)
        if self.chance.random() < 0.3:
            self.do(self.point(), buttons)
        self.do(end, 0)

    def choose(self, item):
        """Asks for a menu and lets go over an item, or about where one is."""
        at = self.point()
        self.do(at, RIGHT_BUTTON)
        across = BORDER + self.chance.choice((0, ITEM[0] - 1, self.chance.randrange(ITEM[0])))
        down = BORDER + ITEM[1] * ITEMS.index(item) + self.chance.choice((0, ITEM[1] - 1, self.chance.randrange(ITEM[1])))
        if self.chance.random() < 0.1:
            across, down = self.chance.choice(((BORDER - 1, down), (BORDER + ITEM[0], down), (across, BORDER - 1), (across, BORDER + 80)))
        self.do((min(at[0] + across, DISPLAY[0] - 1), min(at[1] + down, DISPLAY[1] - 1)), 0)

    def gesture(self):
        """A whole gesture, or an event without any sense."""
        item = self.chance.choice((*ITEMS, "new", "new", "click", "click", "any"))
        if item == "any":
            self.do(self.point(), self.chance.choice((0, 0, 1, 2, 4, 5, 31)))
        elif item == "click":
            self.click(self.on_window(), self.chance.choice((LEFT_BUTTON, 2, 3)))
        else:
            self.choose(item)
            self.after(item)

    def after(self, item):
        """What is done after an item is chosen."""
        if item == "new":
            self.drag(self.point(), self.point())
        elif item == "resize":
            self.click(self.on_window(), RIGHT_BUTTON)
            self.drag(self.point(), self.point())
        elif item == "move":
            self.drag(self.on_window(), self.point())
        else:
            self.click(self.on_window(), RIGHT_BUTTON)

    def new_window(self):
        """Makes a window for certain, where there is room for one."""
        left, upper = self.chance.randrange(DISPLAY[0] - 60), self.chance.randrange(DISPLAY[1] - 60)
        self.do((0, 0), RIGHT_BUTTON)
        self.do((BORDER, BORDER), 0)
        self.do((left, upper), RIGHT_BUTTON)
        self.do((left + self.chance.randint(12, 50), upper + self.chance.randint(12, 50)), 0)


def events_of(chance, count):
    """So many events, or a few more."""
    hand = Hand(chance)
    while len(hand.events) < count:
        hand.gesture()
    return hand.events


def crowded(chance):
    """Events that make as many windows as there can be, and go on."""
    hand = Hand(chance)
    for _ in range(chance.choice((62, 63, 64, 66))):
        hand.new_window()
    for _ in range(10):
        hand.gesture()
    return hand.events


def spelled(events):
    return b"".join(event.text() for event in events)


# Cases.


def fitting(chance):
    """A case whose input fits."""
    return Case(spelled(crowded(chance) if chance.random() < 0.03 else events_of(chance, chance.choice((0, 1, 4, 20, 60, 150)))))


def broken(chance):
    """A case whose input does not fit in one place or two, or is cut."""
    events = events_of(chance, chance.choice((1, 5, 30)))
    data = bytearray(spelled(events))
    for _ in range(chance.choice((0, 1, 1, 2))):
        at = EVENT_BYTES * chance.randrange(len(events))
        start = at + 1 + FIELD_BYTES * chance.randrange(4)
        number = chance.choice((-1, 640, 480, 639, 479, 32, 31, 2**20, 2**20 + 1, 2**32, 2**32 - 1, 0, 10**10))
        data[start : start + FIELD_BYTES] = chance.choice(
            (b"%11d " % number, b"%-11d " % number, b"%011d " % number, b"%11d\t" % number, b"          - ", bytes(12), b" " * 12, b"        +1  ")
        )[:FIELD_BYTES]
        if chance.random() < 0.3:
            data[at : at + 1] = chance.choice((b"r", b"M", b" ", b"\0"))
    if chance.random() < 0.4:
        data = data[: chance.choice((0, 1, 48, 49, len(data) - 1, len(data) - 48, chance.randrange(len(data) + 1)))]
    return Case(bytes(data))


def too_long(chance):
    """A case whose input is too long, or almost, of which one in two has a fault before."""
    data = spelled(events_of(chance, 100))
    data += b"m          5           5           0           0 " * ((LIMIT - len(data)) // EVENT_BYTES)
    data = (data + b"m          5 " * 10)[: LIMIT + chance.choice((-60, 0, 0, 1))]
    return Case(data if chance.random() < 0.5 else b"n" + data[1:])


def made_case(seed, number):
    """The case of a seed and a number."""
    chance = random.Random(f"{seed} {number}")
    if number % 100 == 0:
        return too_long(chance), chance
    return chance.choices((fitting, broken), weights=(75, 25))[0](chance), chance


# What has to come, and what does.


def words_of(case):
    return ["desk"]


def expected(case):
    """The status, the line on standard error, and the events where they fit."""
    found = desk_model.read_events(case.data)
    if isinstance(found, int):
        return BAD_INPUT, b"rio9: bad input at byte %d\n" % found, None
    return DONE, b"", found


def check_screens(options, mouse, events, ends, chance):
    """Replays a record, whole and cut behind what some of its events write, and compares the screens; gives how many."""
    chosen = {0, len(mouse), *(chance.randint(0, len(mouse)) for _ in range(4))}
    menus = [count for count in range(len(mouse)) if mouse[count].buttons == RIGHT_BUTTON]
    chosen |= {1 + count for count in chance.sample(menus, min(2, len(menus)))}
    for count in sorted(chosen):
        rows = desk_model.screen(desk_model.desk_after(mouse[:count]))
        try:
            check_replies(replayed(options, DISPLAY, events[: ends[count]]), DISPLAY, rows)
        except NotSo as error:
            raise NotSo(f"after {count} of {len(mouse)} events {error}") from None
    return len(chosen)


def check(options, case, chance):
    """How a case ends, and how many screens were compared; NotSo where anything is otherwise."""
    status, line, mouse = expected(case)
    made = output_of(options.program, words_of(case), case.data, status, line)
    if mouse is None:
        return "bad input", 0
    return "done", check_screens(options, mouse, *desk_model.check_record(mouse, made), chance)


COMMAND = Command("desk", made_case, words_of, check)

if __name__ == "__main__":
    sys.exit(soak_of(COMMAND, "desk_soak.py", __doc__.split("\n")[0], sys.argv[1:]))
