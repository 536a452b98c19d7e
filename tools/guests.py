"""Records made by chance, which a text decides, of guests: sessions that attach once, for a new window, and keep to it, among hosts,
which draw, make windows over the guests' and beneath them, move, resize and hide theirs, click and type. alone_soak.py runs them
through programs. It is outside the proof.

In most records some guest or host does, at some place, what ends a guest's being alone with its window: BREACHES has ways to do so for
each reason of docs/ISOLATION.md.
"""

from collections import Counter

from rio9 import formats, record
from chance import CHANNELS, DRAWINGS, READ, READWRITE, SCREENS, WINDOW_FILES, WRITE, Chance, Maker, Session, drawing
from rio9.formats import BEGIN, TAKE, Event
from made_records import USUAL_DISPLAY, Made, words_of
from rio9.record import NOFID, NOTAG

DISPLAYS = [(33, 17), (64, 48), (64, 48), (96, 70), (130, 65)]
LEAST_SIDE, MOST_GUESTS, MOST_HOSTS, MOST_WINDOWS = 12, 3, 3, 12
SHARED_LETTERS = ("N", "n", "S")
OWN_IDS = (40, 41)  # a guest's ids of its window's image
KEPT_BACK = ("screen", "snarf", "wsys")  # what a guest does not open


class Meeting(Maker):
    """Makes the events of a record of guests and hosts."""

    def __init__(self, chance, size, display):
        super().__init__(chance, size, display)
        self.letters = chance.sample([letter for letter in sorted(DRAWINGS) if letter != "n"], chance.between(6, len(DRAWINGS) - 1))
        own = [letter for letter in sorted(DRAWINGS) if letter not in SHARED_LETTERS]
        self.own_letters = chance.sample(own, chance.between(5, len(own))) + 2 * ["own name"]
        self.host_acts, self.guest_acts = ([act for act in acts for _ in range(chance.between(1, 4))] for acts in (HOST_ACTS, GUEST_ACTS))
        self.guests, self.replaced = {}, Counter()

    # Sessions.

    def arrive(self, name):
        """A session that begins, agrees on the version, and attaches by a name where one is given."""
        session = Session(len(self.sessions) + 1)
        self.sessions.append(session)
        self.events.append(Event(BEGIN, session.number))
        self.send(session, "Tversion", tag=NOTAG, msize=formats.MOST_OF_A_MESSAGE, version="9P2000")
        if name is not None:
            self.is_careful = True
            self.attach(session, name)
            self.is_careful = False
        return session

    def arrive_as_guest(self, name=None):
        """A guest, which attaches for a new window, by a name of some other kind where one is given."""
        session = self.arrive(name or self.pick_blank("new", f"-r {self.corners(self.rectangle_of_window())}", *self.flags()))
        fid, file = next(iter(session.files.items()))
        self.guests[session.number] = fid, file.tree
        return session

    def present(self):
        """The guests that live."""
        return [session for session in self.live() if session.number in self.guests]

    def hosts_present(self):
        return [session for session in self.live() if session.number not in self.guests]

    def path_of(self, guest):
        return self.guests[guest.number][1]

    def name_of(self, path):
        """The name of a window's image, as it is believed to be."""
        return f"window.{path}.{1 + self.replaced[path]}"

    # What is a guest's own, in place of what a session of any kind uses.

    def is_odd(self, part):
        return super().is_odd(part / 8)

    def root(self, session, is_window):
        found = self.guests.get(session.number)
        return found[0] if found else super().root(session, False)

    def drawing(self, connection, letter=None):
        if not connection.tree:
            return super().drawing(connection, letter)
        letter = letter or self.chance.pick(self.own_letters)
        return self.own_name(connection) if letter == "own name" else super().drawing(connection, letter)

    def some_image(self, connection):
        if not connection.tree:
            return super().some_image(connection)
        return 77 if self.chance.often(0.01) else self.chance.pick(list(connection.images) or [1])

    def ground(self, connection):
        if not connection.tree:
            return super().ground(connection)
        own = [image for image in OWN_IDS if image in connection.images]
        return self.chance.pick(own) if own and self.chance.often(0.6) else self.some_image(connection)

    def is_public(self, connection):
        return not connection.tree and super().is_public(connection)

    def own_name(self, connection):
        """Another id of the image that a guest's window has, or the same one anew."""
        image = self.chance.pick(OWN_IDS)
        freed = drawing("f", id=image) if image in connection.images else b""
        connection.images[image] = self.windows.get(connection.tree, (0, 0, *self.size))
        connection.channels[image] = self.display
        return freed + drawing("n", id=image, name=self.name_of(connection.tree))

    # Windows.

    def rectangle_of_window(self):
        """A rectangle that a window can have."""
        x, y = (self.chance.between(-4, side - LEAST_SIDE) for side in self.size)
        return x, y, x + LEAST_SIDE + self.chance.long(50), y + LEAST_SIDE + self.chance.long(40)

    def corners(self, rectangle):
        return " ".join(map(str, rectangle))

    def flags(self):
        return [flag for flag in ("-hide", "-scroll", "-noscroll", "-pid 7") if self.chance.often(0.08)]

    def placed(self, path):
        """A command that gives a window another place, or another size too, and keeps what comes of it."""
        left, upper, right, lower = old = self.windows[path]
        new, is_resized = self.rectangle_of_window(), self.chance.often(0.4)
        if not is_resized:
            new = *new[:2], new[0] + right - left, new[1] + lower - upper
        self.windows[path] = new
        self.replaced[path] += new != old
        return f"resize -r {self.corners(new)}" if is_resized else f"move -minx {new[0]} -miny {new[1]}"

    def show_within(self, width, height):
        """Windows that have no point of a display of this size stand in its corner."""
        for path, (left, upper, right, lower) in list(self.windows.items()):
            if "/" not in path and (left >= width or upper >= height or right <= 0 or lower <= 0):
                self.windows[path] = 0, 0, right - left, lower - upper
                self.replaced[path] += 1

    def managed(self, path):
        """A command about a window that is there."""
        if self.chance.often(0.5):
            return self.placed(path)
        return self.chance.pick("top bottom hide unhide unhide current current scroll noscroll".split() + ["set -pid 5", "top\n", "q"])

    # Acts of guests.

    def listen_well(self, session):
        """A read that may wait, and has room for what comes."""
        name = self.chance.pick(["mouse", "mouse", "cons", "wctl"])
        self.wait(session, self.use(session, name, is_window=True), 2 if name == "cons" and self.chance.often(0.3) else 8192)

    def look_at_own(self, session):
        """Reads or writes a file of the window that answers at once."""
        name = self.chance.pick(["label", "winid", "winname", "winname", "window", "text"])
        fid = self.use(session, name, is_window=True)
        if name == "label" and self.chance.often(0.5):
            return self.write(session, fid, self.chance.randbytes(self.chance.long(300)))
        self.read(session, fid, self.chance.pick([12, 100, 600, 65535]), self.chance.pick([0, 0, 0, 5, 60]))

    def browse_own(self, session):
        """Walks in the window's tree, tells what is there, opens and reads it where that is the guest's own."""
        names = [self.chance.pick([name for name in WINDOW_FILES if name != "wsys"])]
        if names[0] == "draw":
            number = str(self.chance.between(1, len(session.connections) or 1))
            names += self.chance.pick([[], [".."], [number], [number, "ctl"], [number, "refresh"], [number, "..", ".."]])
        if self.chance.often(0.1):
            names = [self.chance.pick(["..", "nope", "", "draw", "label"]) for _ in range(self.chance.between(0, 17))]
        fid = self.walk(session, self.root(session, True), names)
        self.send(session, "Tstat", fid=fid)
        if not set(names) & set(KEPT_BACK):
            self.open(session, fid, self.chance.pick([READ, READ, WRITE, READWRITE]))
            self.read(session, fid)

    def rare(self, session):
        """A message that is rare, mostly refused."""
        fid = self.chance.pick([*list(session.files)[1:], 4000])
        name = self.chance.pick("Tclunk Tremove Tstat Tcreate Twstat Tauth Twalk junk".split())
        if name == "junk":
            return self.junk_message(session, self.chance.long(60))
        fields = {
            "Tauth": {"afid": fid, "uname": "u", "aname": ""},
            "Tcreate": {"fid": fid, "name": "q", "perm": 0, "mode": 0},
            "Twalk": {"fid": fid, "newfid": self.chance.pick([fid, 0, NOFID, 7]), "names": []},
        }.get(name, {"fid": fid})
        self.send(session, name, b"abc" if name == "Twstat" else b"", **fields)
        if name in ("Tclunk", "Tremove"):
            session.files.pop(fid, None)

    def take_back(self, session):
        """Flushes a read that may wait, or none."""
        self.send(session, "Tflush", oldtag=self.chance.pick([session.tag, *session.waiting[-6:]]))

    def manage_own(self, session):
        """A command for the guest's own window."""
        path = self.path_of(session)
        fid = self.use(session, "wctl", is_window=True)
        if path in self.windows:
            self.write(session, fid, self.managed(path).encode())
        self.wait(session, fid)

    def run_out(self, session):
        """Draw messages among which memory runs out, or behind them."""
        connection, count = self.connection(session), self.chance.between(1, 4)
        data = b"".join(self.drawing(connection) for _ in range(count))
        self.write(session, connection.data, data, mark=self.chance.between(0, count))

    def go(self, session):
        """Gives up the window, or all that the session has; some sessions go on with what is left."""
        if self.chance.often(0.97):
            return
        self.windows.pop(self.path_of(session), None)
        if self.chance.often(0.5):
            self.send(session, "Tclunk", fid=self.guests[session.number][0])
        else:
            self.send(session, "Tversion", tag=NOTAG, msize=self.chance.pick([65560, 8192, 256]), version="9P2000")
            session.forget()
        if self.chance.often(0.7):
            self.end(session)

    # Acts of hosts.

    def manage(self, session):
        """A command for some window of the root rio, a guest's mostly, or for one more."""
        fid, rooted = self.use(session, "wctl"), [path for path in self.windows if "/" not in path]
        if len(rooted) < MOST_WINDOWS and self.chance.often(0.15):
            text = self.pick_blank("new", f"-r {self.corners(self.rectangle_of_window())}", *self.flags())
            self.add_window("", text)
            return self.write(session, fid, text.encode())
        if not rooted:
            return
        path = self.chance.pick(rooted)
        is_guests = path in [own for _, own in self.guests.values()]
        if self.chance.often(0.01 if is_guests else 0.15):
            self.windows.pop(path)
            return self.write(session, fid, f"delete -id {path}".encode())
        self.write(session, fid, f"{self.managed(path)} -id {path}".encode())

    def point_at_guest(self, session):
        """Brings a guest's window to the top, presses, drags and lets go in it, and types."""
        paths = [path for _, path in self.guests.values() if path in self.windows]
        if not paths:
            return
        path = self.chance.pick(paths)
        self.write(session, self.use(session, "wctl"), f"{self.chance.pick(['top', 'current', 'unhide'])} -id {path}".encode())
        left, upper, right, lower = self.windows[path]
        mouse = self.use(session, "mousein")
        for buttons in self.chance.pick([(1, 0), (1, 1, 0), (2, 3, 0), (0, 0), (4, 4, 4, 0)]):
            x, y = self.chance.between(max(0, left), right - 1), self.chance.between(max(0, upper), lower - 1)
            event = {"point": (x, y), "buttons": buttons, "msec": self.chance.between(0, 2**32 - 1)}
            self.write(session, mouse, record.mouse_text(event))
        if self.chance.often(0.5):
            self.type(session)

    def keep_snarf(self, session):
        """Reads and writes what all windows share."""
        fid = self.use(session, "snarf")
        if self.chance.often(0.5):
            return self.write(session, fid, self.chance.randbytes(self.chance.long(300)))
        self.read(session, fid)

    # The record.

    def meet(self, length):
        """Adds guests, hosts and what they do, until there are so many events."""
        chance = self.chance
        while len(self.events) < length:
            hosts, guests = self.hosts_present(), self.present()
            if not hosts or len(hosts) < MOST_HOSTS and chance.often(0.02):
                self.arrive("")
            elif not guests or len(guests) < MOST_GUESTS and chance.often(0.04):
                self.arrive_as_guest()
            elif chance.often(0.6):
                chance.pick(self.guest_acts)(self, chance.pick(guests))
            else:
                chance.pick(self.host_acts)(self, chance.pick(hosts))
            if chance.often(0.02):
                self.events.append(Event(TAKE, chance.pick(self.sessions).number))
            if chance.often(0.003):
                self.end(chance.pick(self.live()))


HOST_ACTS = [Maker.draw, Meeting.manage, Meeting.point_at_guest, Maker.click, Maker.type, Maker.control, Maker.list, Meeting.keep_snarf]
GUEST_ACTS = [Maker.draw, Maker.draw, Maker.control, Meeting.listen_well, Maker.console, Maker.list, Meeting.look_at_own, Meeting.browse_own]
GUEST_ACTS += [Maker.listen, Meeting.run_out, Meeting.rare, Meeting.take_back, Meeting.manage_own, Meeting.go]

# What ends that a guest is alone with its window: each takes the maker, a host and a guest.


def attach_again(maker, _host, guest):
    maker.send(guest, "Tattach", fid=5000, afid=NOFID, uname="u", aname=maker.chance.pick(["new", "", maker.path_of(guest), "x"]))


def attach_for_no_window(maker, _host, _guest):
    maker.arrive(maker.chance.pick(["", "", "x", "77", "N1"]))


def attach_in_vain(maker, _host, _guest):
    session = maker.arrive(None)
    name = maker.chance.pick(["new -r 0 0 5 5", "new -q", "77/new", "new -id 1"])
    maker.send(session, "Tattach", fid=1, afid=NOFID, uname="u", aname=name)


def attach_to_guest(maker, host, guest):
    maker.attach(host, maker.path_of(guest))


def name_guest(maker, host, guest):
    data = maker.connection(host).data
    maker.write(host, data, drawing("n", id=maker.chance.between(50, 60), name=maker.name_of(maker.path_of(guest))))


def walk_to_guest(maker, host, guest):
    names = ["wsys", maker.path_of(guest), *maker.chance.pick([[], ["label"], ["nope"]])]
    maker.walk(host, maker.root(host, False), names)


def open_shared(maker, _host, guest):
    fid = maker.walk(guest, maker.root(guest, True), [maker.chance.pick(KEPT_BACK)])
    maker.open(guest, fid, READ)


def name_display(maker, _host, guest):
    connection = maker.connection(guest)
    if maker.chance.often(0.3):
        return maker.write(guest, connection.ctl, bytes(4))
    messages = [drawing("r", id=0, r=(0, 0, 1, 1)), drawing("f", id=0), drawing("c", dstid=0, repl=0, clipr=(0, 0, 9, 9))]
    maker.write(guest, connection.data, maker.chance.pick(messages))


def share_drawing(maker, _host, guest):
    connection, chance = maker.connection(guest), maker.chance
    names = [maker.name_of(path) for path in maker.windows if path != connection.tree] + ["pic", "window.99.1"]
    messages = [
        drawing("n", id=61, name=chance.pick(names)),
        drawing("N", id=2, **{"in": 1}, name="pic"),
        drawing("S", id=chance.pick(SCREENS), chan=chance.pick(CHANNELS)),
        drawing("A", id=9, imageid=2, fillid=2, public=1),
    ]
    maker.write(guest, connection.data, chance.pick(messages))


def ask_for_windows(maker, _host, guest):
    text = maker.chance.pick([b"new", b"new -r 0 0 40 40", b"host", b"host -id 1", b"new -q"])
    maker.write(guest, maker.use(guest, "wctl", is_window=True), text)


def host_in_guest(maker, host, guest):
    maker.write(host, maker.use(host, "wctl"), f"host -id {maker.path_of(guest)}".encode())


def attach_within(maker, host, _guest):
    """A guest in a rio that a window of the hosts has."""
    text = f"new -r {maker.corners(maker.rectangle_of_window())}"
    fid, path = maker.use(host, "wctl"), maker.add_window("", text)
    maker.write(host, fid, text.encode())
    maker.write(host, fid, f"host -id {path}".encode())
    maker.arrive_as_guest(f"{path}/new -r {maker.corners(maker.rectangle_of_window())}")


def tell_size(maker, host, guest):
    """A guest reads the `ctl` of a new connection after a host gave the display another size, or the one that it had."""
    width, height = maker.chance.pick([maker.size, (maker.size[0] + 1, maker.size[1]), (maker.size[0] // 2, maker.size[1] // 2)])
    maker.write(host, maker.use(host, "hwsize"), f"{width}x{height}".encode())
    maker.show_within(width, height)
    fid = maker.walk(guest, maker.root(guest, True), ["draw", "new"])
    maker.open(guest, fid, READWRITE)
    maker.read(guest, fid, maker.chance.pick([8192, 8192, 144, 143]))


BREACHES = {
    1: [attach_again, attach_for_no_window],
    2: [attach_in_vain],
    3: [attach_to_guest],
    4: [name_guest],
    5: [walk_to_guest],
    6: [open_shared],
    7: [name_display],
    8: [share_drawing],
    9: [ask_for_windows],
    10: [host_in_guest],
    11: [attach_within],
    12: [tell_size],
}


def breach(maker, reason):
    """Does what ends that a guest is alone for a reason, unless nobody is there."""
    hosts, guests = maker.hosts_present(), maker.present()
    if hosts and guests:
        maker.chance.pick(BREACHES[reason])(maker, maker.chance.pick(hosts), maker.chance.pick(guests))


def guests(seed):
    """A record of guests and hosts, and the words of its display."""
    chance = Chance(seed)
    length = chance.pick([150, 400, 400, 1500])
    size, display = chance.pick(DISPLAYS), chance.pick(CHANNELS) if chance.often(0.2) else USUAL_DISPLAY[1]
    maker = Meeting(chance, size, display)
    for _ in range(chance.pick([0, 0, 1, 1, 2])):
        maker.meet(chance.between(10, length // 2) + len(maker.events))
        breach(maker, chance.pick(list(BREACHES)))
    maker.meet(chance.between(10, length) + len(maker.events))
    return Made(formats.write_record(maker.finish()), words_of(size, display)[:-1], maker.junk)
