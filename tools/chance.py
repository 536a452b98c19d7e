"""What sessions send, made by chance: mostly sensible, and some of it wrong. made_records.py and guests.py make records of it. It is outside
the proof.

Sessions walk, open, read and write what is there, have windows and rios, type and click, draw and read pixels. Some of what they
send is wrong: values out of bounds, files of others, messages and draw messages of any bytes. What is sent is made as if every
message before it had been answered well, so no program is asked.
"""

import random
from collections import Counter
from dataclasses import dataclass, field

from rio9 import formats, record
from rio9.formats import BEGIN, END, MESSAGE, STOP, TAKE, Event
from rio9.record import NOFID, NOTAG

READ, WRITE, READWRITE = 0, 1, 2
DEVICE_FILES = ("draw", "hwsize", "kbdin", "mousein", "screen", "snarf", "wctl", "wsys")
WINDOW_FILES = tuple("cons consctl draw label mouse screen snarf text wctl winid winname window wsys".split())
CONNECTION_FILES = ("ctl", "data", "refresh")
TO_BE_WRITTEN = ("consctl", "kbdin", "mousein")
TO_BE_READ = ("refresh", "screen", "text", "winid", "winname", "window", "wsys")
STAT_BYTES = 61  # of a stat beside its name

DEPTHS = "k1 k2 k4 k8 a1 a8 a4k4 k8a8 r3g3b2 r5g6b5 x1r5g5b5 r8g8b8 x8r8g8b8 a8r8g8b8 r8g8b8a8 b8g8r8x8 x6r6g6b6".split()
CHANNELS = [formats.channels_word(name) for name in DEPTHS]
NO_CHANNELS = [0, 0x18, 0x011223, 0x39, 0x3100, 0x3838, 0x0808, 0x68081800, 0x7808, 0x030303, 0xFFFFFFFF]
COLOURS = [0xFFFFFFFF, 0x000000FF, 0xFF0000FF, 0x00FF00FF, 0x112233FF, 0x80000080, 0x00408080, 0x00000000, 0xFFFFFF00]
EXTREMES = [0, 1, -1, 2**29, 2**29 + 1, -(2**29), -(2**29) - 1, 2**31 - 1, -(2**31)]
EVERYWHERE = (-0x3FFFFFFF, -0x3FFFFFFF, 0x3FFFFFFF, 0x3FFFFFFF)
MOUSE_TEXTS = [b"", b"m", b"x" * 49, b"r" + b"1 ".rjust(12) * 4]
MOUSE_TEXTS += [b"m" + number.rjust(12) * 4 for number in (b"1048577 ", b"32 ", b"x ")]
NO_KEYS = [b"", b"\0", b"\xff", b"a\0", b"\xed\xa0\x80"]
NO_SIZES = "", "0x24", "032x24", "2049x1", "32x24x1", "32 24"
KEYS = "abcdefg   \n\n\b\b\x15\x04é世\U0001f600\r\x7f"
IMAGES, WINDOWS, SCREENS = range(1, 16), range(20, 36), range(1, 5)
MOST_CONNECTIONS = 4


class Chance(random.Random):
    """A source of chance."""

    def often(self, part):
        return self.random() < part

    def pick(self, values):
        return values[int(self.random() * len(values))]

    def between(self, low, high):
        return low + int(self.random() * (high - low + 1))

    def long(self, most):
        """A length up to a most one, of which the short ones are as frequent as the long ones."""
        return min(most, int(2 ** (self.random() * most.bit_length())))


@dataclass
class File:
    """What a fid is believed to be: the tree of its attach, "" or the path of a window, and the names from there on."""

    tree: str
    names: tuple = ()
    is_open: bool = False


@dataclass
class Connection:
    """A connection of the draw device, as it is believed to be: rectangles of images, characters of fonts."""

    number: int
    tree: str
    ctl: int
    data: int
    images: dict = field(default_factory=dict)
    channels: dict = field(default_factory=dict)
    screens: list = field(default_factory=list)
    fonts: dict = field(default_factory=dict)


@dataclass
class Session:
    """A session, as it is believed to be."""

    number: int
    tag: int = 0
    last_fid: int = 0
    is_live: bool = True
    files: dict = field(default_factory=dict)
    connections: list = field(default_factory=list)
    waiting: list = field(default_factory=list)

    def forget(self):
        """A version begins a session anew, but for the numbers of connections."""
        self.files, self.waiting = {}, []
        self.connections = [None] * len(self.connections)


class Maker:
    """Makes the events of a record. `junk` counts the bytes in them that are junk."""

    def __init__(self, chance, size, display):
        self.chance, self.size, self.display, self.most_sessions = chance, size, display, chance.between(1, 5)
        self.events, self.sessions, self.junk, self.is_careful = [], [], 0, False
        self.windows, self.hosts, self.numbers, self.names = {}, [], Counter(), []
        self.letters = chance.sample(sorted(DRAWINGS), chance.between(6, len(DRAWINGS)))
        self.acts = [act for act in ACTS if chance.often(0.8) for _ in range(chance.between(1, 6))] or [Maker.draw]

    # Events.

    def make(self, length):
        """Adds events until there are so many."""
        while len(self.events) < length:
            live = self.live()
            if not live or len(live) < self.most_sessions and self.chance.often(0.04):
                self.begin()
                continue
            session = self.chance.pick(live)
            self.chance.pick(self.acts)(self, session)
            if self.chance.often(0.02):
                self.events.append(Event(TAKE, self.chance.pick(self.sessions).number))
            if self.chance.often(0.01):
                self.end(session)
        return self.events

    def live(self):
        return [session for session in self.sessions if session.is_live]

    def finish(self):
        """Ends the record, as records end."""
        for session in self.live():
            if self.chance.often(0.6):
                self.end(session)
        if self.chance.often(0.05):
            self.events.append(Event(STOP))
        return self.events

    def begin(self):
        session = Session(len(self.sessions) + 1)
        self.sessions.append(session)
        self.events.append(Event(BEGIN, session.number))
        if self.chance.often(0.97):
            self.send(session, "Tversion", tag=NOTAG, msize=formats.MOST_OF_A_MESSAGE, version="9P2000")
        if self.chance.often(0.95):
            self.attach(session, "" if self.chance.often(0.6) else self.tree_name())
        return session

    def end(self, session):
        session.is_live = False
        self.events.append(Event(END, session.number))
        for file in session.files.values():
            self.windows.pop(file.tree, None)

    def send(self, session, name, payload=b"", mark=None, /, **fields):
        """Sends a message, and gives its tag."""
        fields.setdefault("tag", self.tag(session))
        message = record.write_message(record.BY_NAME[name], fields, payload)
        self.send_bytes(session, message, mark)
        return fields["tag"]

    def send_bytes(self, session, message, mark=None):
        if len(message) <= formats.MOST_OF_A_MESSAGE:
            self.events.append(Event(MESSAGE, session.number, message, mark))

    def is_odd(self, part):
        """Whether something odd is to be done, as it is in a part of all cases."""
        return not self.is_careful and self.chance.often(part)

    def tag(self, session):
        if self.is_odd(0.003):
            return self.chance.pick([NOTAG, 0, *session.waiting])
        session.tag = session.tag % 60000 + 1
        return session.tag

    def new_fid(self, session):
        if self.is_odd(0.02):
            return self.chance.pick([NOFID, *session.files])
        session.last_fid += 1
        return session.last_fid

    def some_fid(self, session):
        return self.chance.pick([*session.files, 4000])

    # Files.

    def attach(self, session, tree):
        """Attaches, and gives the fid."""
        fid = self.new_fid(session)
        afid = 1 if self.is_odd(0.02) else NOFID
        self.send(session, "Tattach", fid=fid, afid=afid, uname="u", aname=tree)
        if afid == NOFID and fid != NOFID and fid not in session.files:
            head = tree.split(" ")[0]
            session.files[fid] = File(self.add_window(head[:-3].rstrip("/"), tree) if head.split("/")[-1] == "new" else tree)
        return fid

    def tree_name(self):
        """The name of a window's tree, of a new one mostly."""
        if self.is_odd(0.06):
            return self.chance.pick(["x", "1x", "new/", "/1", "1/", "0", "01", "9999999999", "newx", "new\t", "new -q", "-r", "N1"])
        if self.windows and self.chance.often(0.3):
            return self.path()
        host = self.chance.pick(self.hosts) + "/" if self.hosts and self.chance.often(0.4) else ""
        return host + self.pick_blank("new", self.options(True))

    def pick_blank(self, *words):
        """Words with blanks between."""
        return self.chance.pick([" ", " ", " ", "  ", " \t"]).join(word for word in words if word)

    def path(self):
        """The path of a window that may be there."""
        if self.windows and self.chance.often(0.9):
            return self.chance.pick(list(self.windows))
        return "/".join(str(self.chance.between(1, 5)) for _ in range(self.chance.between(1, 3)))

    def add_window(self, host, text):
        """Keeps a window that a text makes, and gives its path."""
        self.numbers[host] += 1
        path = f"{host}/{self.numbers[host]}".lstrip("/")
        words = text.split(" ")
        self.windows[path] = (0, 0, *self.size)
        if "-r" in words:
            numbers = words[words.index("-r") + 1 :][:4]
            if len(numbers) == 4 and all(number.lstrip("-").isdigit() for number in numbers):
                self.windows[path] = tuple(map(int, numbers))
        return path

    def walk(self, session, fid, names):
        new = self.new_fid(session)
        self.send(session, "Twalk", fid=fid, newfid=new, names=list(names))
        known = session.files.get(fid)
        if known and not known.is_open and new != NOFID and new not in session.files and len(names) <= 16:
            session.files[new] = File(known.tree, known.names + tuple(names))
        return new

    def open(self, session, fid, mode):
        if self.is_odd(0.05):
            return self.send(session, "Topen", fid=fid, mode=self.chance.pick([0, 1, 2, 3, 16, 18, 32, 255]))
        self.send(session, "Topen", fid=fid, mode=mode)
        if fid in session.files:
            session.files[fid].is_open = True
            if session.files[fid].names[-2:] == ("draw", "new") and mode == READWRITE:
                session.connections.append(None)

    def number(self):
        """The number of a window of the display, which was made."""
        return str(self.chance.between(1, max(1, self.numbers[""])))

    def fids(self, session, names, is_window, is_open):
        """The fids of a file by its names, in the trees of windows that are there, or in the device tree."""
        trees = self.windows if is_window else ("",)
        files = session.files.items()
        return [fid for fid, file in files if file.names == names and file.is_open == is_open and file.tree in trees]

    def root(self, session, is_window):
        """A fid of the root of a tree."""
        found = self.fids(session, (), is_window, False)
        if found and self.chance.often(0.97):
            return self.chance.pick(found)
        return self.attach(session, self.tree_name() if is_window else "")

    def use(self, session, *names, is_window=False):
        """An open fid of a file."""
        found = self.fids(session, names, is_window, True)
        if found and self.chance.often(0.9):
            return self.chance.pick(found)
        self.is_careful = self.chance.often(0.9)
        fid = self.walk(session, self.root(session, is_window), names)
        is_to_be_written = names[-1] in TO_BE_WRITTEN or names == ("wctl",) and not is_window
        self.open(session, fid, WRITE if is_to_be_written else READ if names[-1] in TO_BE_READ else READWRITE)
        self.is_careful = False
        return fid

    def read(self, session, fid, count=None, offset=0):
        counts = [0, 1, 3, 12, 48, 49, 71, 72, 143, 144, 300, 8192, 65535]
        return self.send(session, "Tread", fid=fid, offset=offset, count=self.chance.pick(counts) if count is None else count)

    def write(self, session, fid, data, offset=0, mark=None):
        self.send(session, "Twrite", data[: formats.MOST_OF_A_MESSAGE - 23], mark, fid=fid, offset=offset)

    def wait(self, session, fid, count=None):
        """A read that may wait."""
        session.waiting = session.waiting[-70:] + [self.read(session, fid, count)]

    # Acts on the tree.

    def browse(self, session):
        """Walks somewhere, opens and reads what is there."""
        if not session.files:
            return self.attach(session, "")
        start = self.some_fid(session) if self.chance.often(0.2) else self.root(session, self.chance.often(0.5))
        fid = self.walk(session, start, self.steps(session, start))
        if self.chance.often(0.6):
            self.open(session, fid, READ)
            if self.chance.often(0.8):
                self.read(session, fid, offset=self.chance.pick([0, 0, 0, 1, 65, 12, 2**63]))
        if self.chance.often(0.4):
            self.send(session, "Tstat", fid=fid)

    def steps(self, session, fid):
        """Names to walk."""
        pick, file = self.chance.pick, session.files.get(fid, File(""))
        if self.chance.often(0.1):
            return [pick(["..", "nope", "", "draw", "1", "01", "wsys"]) for _ in range(self.chance.between(0, 18))]
        names = [pick(WINDOW_FILES if file.tree else DEVICE_FILES)] if not file.names else [".."]
        if names[-1] == "draw":
            names += [pick(["new", "1", "2", "3"])] if self.chance.often(0.7) else []
            names += [pick(CONNECTION_FILES)] if len(names) > 1 and self.chance.often(0.6) else []
        elif names[-1] == "wsys":
            names += [self.number()] if self.chance.often(0.7) else []
            names += [pick(WINDOW_FILES)] if len(names) > 1 and self.chance.often(0.7) else []
        return names + [".."] * self.chance.pick([0, 0, 0, 0, 1, 2])

    def list(self, session):
        """Reads a directory in pieces."""
        is_window = self.chance.often(0.4)
        fid = self.walk(session, self.root(session, is_window), [])
        self.open(session, fid, READ)
        sizes = [STAT_BYTES + len(name) for name in (WINDOW_FILES if is_window else DEVICE_FILES)]
        at = 0
        for _ in range(self.chance.between(1, 4)):
            some = self.chance.between(0, len(sizes))
            self.read(session, fid, sum(sizes[:some]) + self.chance.between(0, 40), at)
            at, sizes = at + sum(sizes[:some]) + (self.chance.often(0.05)), sizes[some:]

    def oddity(self, session):
        """A message that is rare, mostly refused."""
        fid, name = self.some_fid(session), self.chance.pick(ODDITIES)
        if name == "Tversion":
            return self.version(session)
        if name == "Tflush":
            return self.send(session, name, oldtag=self.chance.pick([session.tag, 3, *session.waiting]))
        if name == "junk":
            return self.junk_message(session, self.chance.long(200))
        fields = {
            "Tauth": {"afid": fid, "uname": "u", "aname": ""},
            "Tattach": {"fid": fid, "afid": self.chance.pick([NOFID, 0]), "uname": "é", "aname": ""},
            "Tcreate": {"fid": fid, "name": "q", "perm": 0, "mode": 0},
            "Twalk": {"fid": fid, "newfid": self.chance.pick([fid, 0, NOFID, 7]), "names": []},
        }.get(name, {"fid": fid})
        self.send(session, name, b"abc" if name == "Twstat" else b"", **fields)
        if name in ("Tclunk", "Tremove"):
            session.files.pop(fid, None)

    def version(self, session):
        if self.chance.often(0.8):
            return
        msize = self.chance.pick([65560, 65560, 8192, 1000, 256, 255, 0, 2**32 - 1])
        text = self.chance.pick(["9P2000"] * 6 + ["9P2000.u", "9P2000.", "9P1", "", "9P2000x", ".9P2000"])
        self.send(session, "Tversion", tag=self.chance.pick([NOTAG, NOTAG, 5, *session.waiting[:1]]), msize=msize, version=text)
        session.forget()
        if self.chance.often(0.9):
            self.send(session, "Tversion", tag=NOTAG, msize=formats.MOST_OF_A_MESSAGE, version="9P2000")
        self.attach(session, "")

    # Acts on windows.

    def options(self, is_new):
        """Options of a window command."""
        chance, words = self.chance, []
        if chance.often(0.7) or min(self.size) < 24:
            x, y = chance.between(-12, self.size[0]), chance.between(-12, self.size[1])
            width, height = chance.between(11, 60), chance.between(11, 50)
            words.append(f"-r {x} {y} {x + width} {y + height}")
        for _ in range(chance.pick([0, 0, 0, 1, 3])):
            words.append(chance.pick(["-minx", "-miny", "-maxx", "-maxy"]) + f" {chance.pick('+-')}{chance.between(0, 9)}")
        if chance.often(0.2):
            words.append(f"-d{chance.pick('xy')} {chance.between(12, 60)}")
        if self.is_odd(0.05):
            words.append(chance.pick(["-minx 0", "-maxy 012", "-dx 7", "-minx 9999999", "-maxx 12345678", "-miny -30", "-dy +1"]))
        if is_new:
            words += [word for word in ("-hide", "-scroll", "-noscroll", "-pid 7", "-cd /x") if chance.often(0.1)]
        chance.shuffle(words)
        return self.pick_blank(*words)

    def command(self, is_device):
        """The text of a window command."""
        chance = self.chance
        name = chance.pick(COMMANDS)
        words = [name]
        if name in ("new", "resize"):
            words.append(self.options(name == "new"))
        elif name == "move":
            for _ in range(chance.between(0, 2)):
                words.append(f"-min{chance.pick('xy')} {chance.pick(['', '+', '-'])}{chance.between(0, 50)}")
        if is_device and (name != "new" and chance.often(0.96) or chance.often(0.2)):
            words.insert(chance.between(1, len(words)), f"-id {self.path()}")
        if chance.often(0.04):
            words.append(chance.pick(["-id 1", "x", "-r 1 2 3", "\n", "-minx", "a" * 1020, "\0", "é"]))
        text = self.pick_blank(*words) + ("\n" if chance.often(0.3) else "")
        self.keep_order(name, words, text)
        return text.encode()

    def keep_order(self, name, words, text):
        """Keeps which windows there are after a command, and which have a rio."""
        path = next((word[4:] for word in words if word.startswith("-id ")), "")
        if name == "new":
            self.add_window(path, text)
        elif name == "delete":
            self.windows.pop(path, None)
        elif name == "host" and path in self.windows:
            self.hosts.append(path)

    def order(self, session):
        """A window command."""
        is_window = self.chance.often(0.25)
        fid = self.use(session, "wctl", is_window=is_window)
        self.write(session, fid, self.command(not is_window))

    def look(self, session):
        """Reads or writes a file of a window that answers at once."""
        name = self.chance.pick(["label", "snarf", "winid", "winname", "window", "screen", "text"])
        is_window = name not in ("snarf", "screen") or self.chance.often(0.6)
        fid = self.use(session, name, is_window=is_window)
        if name in ("label", "snarf") and self.chance.often(0.5):
            data = self.chance.randbytes(self.chance.long(600))
            self.junk += len(data)
            return self.write(session, fid, data, self.chance.pick([0, 0, 0, len(data), 5]))
        counts = [0, 12, 100, 600, 65535] if name in ("label", "snarf", "text") or self.chance.often(0.1) else [0, 12, 100, 600]
        self.read(session, fid, self.chance.pick(counts), self.chance.pick([0, 0, 5, 60, 61, 2**40]))

    def share(self, session):
        """Looks at the windows of others."""
        names = ["wsys", self.number()]
        if self.chance.often(0.7):
            names.append(self.chance.pick(WINDOW_FILES))
        fid = self.walk(session, self.root(session, self.chance.often(0.3)), names)
        self.open(session, fid, self.chance.pick([READ, READ, READWRITE, WRITE]))
        self.wait(session, fid)

    def leave(self, session):
        """Gives up the root of a tree, and its window with it."""
        found = [fid for fid, file in session.files.items() if not file.names]
        if found and self.chance.often(0.5):
            fid = self.chance.pick(found)
            self.send(session, "Tclunk", fid=fid)
            self.windows.pop(session.files.pop(fid).tree, None)

    # Input.

    def click(self, session):
        """Presses a button, drags and lets go, mostly in a window."""
        fid, chance = self.use(session, "mousein"), self.chance
        x, y = self.place()
        buttons = chance.pick([1, 1, 1, 2, 4, 31, 0])
        for _ in range(chance.between(1, 4)):
            self.write(session, fid, record.mouse_text({"point": (x, y), "buttons": buttons, "msec": chance.between(0, 2**32 - 1)}))
            x, y = x + chance.between(-9, 9), y + chance.between(-9, 9)
        if chance.often(0.85):
            self.write(session, fid, record.mouse_text({"point": (x, y), "buttons": 0, "msec": chance.between(0, 999)}))
        if chance.often(0.06):
            self.write(session, fid, chance.pick(MOUSE_TEXTS))

    def place(self):
        """A point, mostly in a window."""
        left, upper, right, lower = (0, 0, *self.size)
        if self.windows and self.chance.often(0.8):
            left, upper, right, lower = self.chance.pick(list(self.windows.values()))
        return self.chance.between(left, right), self.chance.between(upper, lower)

    def type(self, session):
        fid, chance = self.use(session, "kbdin"), self.chance
        keys = "".join(chance.pick(KEYS) for _ in range(chance.long(66)))
        self.write(session, fid, chance.pick(NO_KEYS) if chance.often(0.03) else keys.encode())

    def resize(self, session):
        """Asks for another size of the display, mostly one near the first."""
        fid, chance = self.use(session, "hwsize"), self.chance
        if chance.often(0.3):
            self.read(session, fid)
        width, height = (chance.between(1, 2 * side) for side in self.size)
        texts = ["%dx%d" % (width, height)] * 8 + ["%dx%d\n" % self.size] * 3 + list(NO_SIZES)
        self.write(session, fid, chance.pick(texts).encode())

    def listen(self, session):
        """A read that may wait, of the mouse, of keys, of a place, or one that always waits."""
        name = self.chance.pick(["mouse", "mouse", "cons", "cons", "wctl"])
        self.wait(session, self.use(session, name, is_window=True))

    def console(self, session):
        """Writes of the files of a console."""
        if self.chance.often(0.5):
            return self.write(session, self.use(session, "cons", is_window=True), self.chance.randbytes(self.chance.long(300)))
        text = self.chance.pick([b"rawon", b"rawoff", b"rawon\n", b"holdon", b"holdoff\n", b"raw", b"", b"rawon\n\n"])
        self.write(session, self.use(session, "consctl", is_window=True), text)

    # Drawing.

    def connection(self, session):
        """A connection, a new one where there is none."""
        found = [connection for connection in session.connections if connection and connection.data in session.files]
        if len(found) == MOST_CONNECTIONS or found and self.chance.often(0.97):
            return self.chance.pick(found)
        is_window = self.chance.often(0.3)
        self.is_careful = self.chance.often(0.97)
        root, number = self.root(session, is_window), len(session.connections) + 1
        fids = []
        for names in (("draw", "new"), ("draw", str(number), "data")):
            fids.append(self.walk(session, root, names))
            self.open(session, fids[-1], READWRITE)
        made = Connection(number, session.files.get(root, File("")).tree, *fids)
        session.connections[number - 1 :] = [made]
        self.write(session, made.data, b"".join(self.palette(made)))
        self.is_careful = False
        return made

    def palette(self, connection):
        """Images to draw with: a full mask, colours, and characters."""
        for image, channels, colour in ((1, "k1", 0xFFFFFFFF), (2, "x8r8g8b8", 0x3377BBFF), (3, "a8r8g8b8", 0x80000080)):
            fields = {"chan": formats.channels_word(channels), "repl": 1, "r": (0, 0, 1, 1), "clipr": EVERYWHERE, "color": colour}
            yield self.image(connection, image, **fields)

    def image(self, connection, image, **fields):
        connection.images.setdefault(image, fields["r"])
        connection.channels.setdefault(image, fields["chan"])
        return drawing("b", id=image, **{"screenid": 0, "refresh": 0, **fields})

    def draw(self, session):
        """Some draw messages in a write, of which the last may ask for pixels."""
        connection, chance = self.connection(session), self.chance
        data = b"".join(self.drawing(connection) for _ in range(chance.pick([1, 1, 2, 4, 9])))
        if chance.often(0.03):
            data = data[: chance.between(0, len(data))]
        mark = chance.pick([0, 1, 2, 3, 65535]) if chance.often(0.03) else None
        self.write(session, connection.data, data, mark=mark)
        if chance.often(0.2):
            self.write(session, connection.data, self.drawing(connection, "r"))
            self.read(session, connection.data, chance.pick([65535, 65535, 65535, 100, 0]))

    def control(self, session):
        """Reads and writes `ctl`, reads what `data` has, waits for `refresh`."""
        connection, chance = self.connection(session), self.chance
        if chance.often(0.3):
            data = chance.pick(list(connection.images)).to_bytes(4, "little") if chance.often(0.9) else b"abc"
            return self.write(session, connection.ctl, data)
        if chance.often(0.6):
            return self.read(session, connection.ctl, chance.pick([144, 144, 143, 65535]), chance.pick([0, 0, 0, 1]))
        if chance.often(0.5):
            return self.read(session, connection.data)
        self.wait(session, self.use(session, "draw", str(connection.number), "refresh", is_window=bool(connection.tree)))

    def drawing(self, connection, letter=None):
        """A draw message."""
        if self.chance.often(0.015):
            data = self.chance.pick(b"YLeEpPZbdynslx").to_bytes(1, "little") + self.chance.randbytes(self.chance.long(60))
            self.junk += len(data)
            return data
        return DRAWINGS[letter or self.chance.pick(self.letters)](self, connection)

    def rectangle(self, near=None):
        """A rectangle, in or about another one where one is given."""
        chance = self.chance
        if chance.often(0.02):
            return tuple(chance.pick(EXTREMES) for _ in range(4))
        left, upper, right, lower = near or (0, 0, *self.size)
        if near and chance.often(0.3):
            return near
        x, y = chance.between(left - 3, max(left, right)), chance.between(upper - 3, max(upper, lower))
        return bounded(x, y, x + chance.long(max(1, right - left)), y + chance.long(max(1, lower - upper)))

    def point(self):
        if self.chance.often(0.01):
            return self.chance.pick(EXTREMES), self.chance.pick(EXTREMES)
        return self.chance.between(-9, self.size[0]), self.chance.between(-9, self.size[1])

    def some_image(self, connection):
        if self.chance.often(0.02):
            return self.chance.pick([77, 2**32 - 1])
        return self.chance.pick([0, *connection.images])

    def some_window(self, connection):
        found = [image for image in connection.images if image in WINDOWS]
        return self.chance.pick(found) if found and self.chance.often(0.95) else self.some_image(connection)

    def ground(self, connection):
        """An image to make a screen on."""
        return 0 if self.chance.often(0.6) else self.some_window(connection)

    def is_public(self, _connection):
        """Whether a screen is made for all connections."""
        return self.chance.often(0.3)

    def some_font(self, connection):
        is_known = connection.fonts and self.chance.often(0.95)
        return self.chance.pick(list(connection.fonts)) if is_known else self.some_image(connection)

    def some_index(self, connection, font):
        count = min(connection.fonts.get(font, 0), 8)
        return self.chance.between(0, count - 1) if count and self.chance.often(0.95) else self.chance.pick([count, 0xFFFF])

    def rectangle_of(self, connection, image):
        """A rectangle in or about that of an image."""
        return self.rectangle(connection.images.get(image))

    # Junk.

    def junk_message(self, session, length):
        """A message of any bytes, of any kind."""
        kind = self.chance.pick(list(record.BY_KIND)) if self.chance.often(0.9) else self.chance.between(0, 255)
        body = self.chance.randbytes(length)
        self.junk += length
        tag = self.tag(session).to_bytes(2, "little")
        self.send_bytes(session, (7 + length).to_bytes(4, "little") + bytes([kind]) + tag + body)


def bounded(*numbers):
    """Coordinates that fit in four bytes."""
    return tuple(max(-(2**31), min(2**31 - 1, number)) for number in numbers)


def drawing(letter, /, **fields):
    """The bytes of a draw message."""
    return letter.encode() + record.put_fields(record.LETTERS[letter], fields)


# Draw messages, by their letters.


def draw_image(maker, connection):
    chance = maker.chance
    image = chance.pick(IMAGES) if chance.often(0.9) else maker.some_image(connection)
    repl = chance.often(0.3)
    r = maker.rectangle()
    clipr = EVERYWHERE if repl and chance.often(0.7) else r if chance.often(0.8) else maker.rectangle()
    channels = chance.pick(CHANNELS) if chance.often(0.96) else chance.pick(NO_CHANNELS)
    screen = 0 if chance.often(0.96) else chance.pick([*connection.screens, 9])
    refresh = chance.pick([0, 0, 0, 1, 2]) if chance.often(0.98) else 3
    fields = {"screenid": screen, "refresh": refresh, "chan": channels, "repl": repl, "r": r, "clipr": clipr}
    return maker.image(connection, image, **fields, color=chance.pick(COLOURS))


def draw_window(maker, connection):
    chance = maker.chance
    if not connection.screens:
        return draw_screen(maker, connection)
    r = maker.rectangle(connection.images.get(chance.pick(WINDOWS)))
    clipr = r if chance.often(0.9) else maker.rectangle()
    channels = maker.display if chance.often(0.95) else chance.pick(CHANNELS)
    screen, image = chance.pick(connection.screens), chance.pick(WINDOWS)
    return maker.image(connection, image, screenid=screen, chan=channels, repl=0, r=r, clipr=clipr, color=chance.pick(COLOURS))


def draw_screen(maker, connection):
    chance = maker.chance
    screen = chance.pick(SCREENS) if chance.often(0.97) else 0
    connection.screens.append(screen)
    on = maker.ground(connection)
    fill = chance.pick([2, 2, 3]) if chance.often(0.8) else maker.some_image(connection)
    return drawing("A", id=screen, imageid=on, fillid=fill, public=maker.is_public(connection))


def draw_clip(maker, connection):
    image = maker.some_image(connection)
    return drawing("c", dstid=image, repl=maker.chance.often(0.4), clipr=maker.rectangle_of(connection, image))


def draw_draw(maker, connection):
    target, mask = maker.some_image(connection), 1 if maker.chance.often(0.6) else maker.some_image(connection)
    return drawing(
        "d",
        dstid=target,
        srcid=maker.some_image(connection),
        maskid=mask,
        dstr=maker.rectangle_of(connection, target),
        srcp=maker.point(),
        maskp=maker.point(),
    )


def draw_free(maker, connection):
    image = maker.some_image(connection)
    if image not in (1, 2, 3):
        connection.images.pop(image, None)
    return drawing("f", id=image)


def draw_free_screen(maker, connection):
    return drawing("F", id=maker.chance.pick([*connection.screens, 5]))


def draw_font(maker, connection):
    image, count = maker.some_image(connection), maker.chance.pick([1, 3, 95, 4096, 0, 4097])
    connection.fonts[image] = count
    return drawing("i", id=image, n=count, ascent=maker.chance.between(0, 20))


def draw_character(maker, connection):
    if not connection.fonts:
        return draw_font(maker, connection)
    chance, font = maker.chance, maker.some_font(connection)
    return drawing(
        "l",
        cacheid=font,
        srcid=maker.some_image(connection),
        index=maker.some_index(connection, font),
        r=maker.rectangle_of(connection, font),
        sp=maker.point(),
        left=chance.between(-128, 127) if chance.often(0.1) else chance.between(-2, 3),
        width=chance.between(0, 255) if chance.often(0.1) else chance.between(0, 9),
    )


def draw_string(maker, connection):
    if not connection.fonts:
        return draw_font(maker, connection)
    chance, font, target = maker.chance, maker.some_font(connection), maker.some_image(connection)
    fields = {
        "dstid": target,
        "srcid": maker.some_image(connection),
        "fontid": font,
        "p": maker.point(),
        "clipr": maker.rectangle_of(connection, target),
        "sp": maker.point(),
        "indices": [maker.some_index(connection, font) for _ in range(chance.between(0, 6))],
    }
    if chance.often(0.5):
        return drawing("s", **fields)
    return drawing("x", **fields, bgid=maker.some_image(connection), bgp=maker.point())


def draw_name(maker, connection):
    chance = maker.chance
    if maker.names and chance.often(0.3):
        return drawing("N", id=maker.some_image(connection), **{"in": 0}, name=chance.pick(maker.names))
    name = chance.pick(["pic", "q", "é", "", "window.1.1", "window.x", "n" * 255, "\udcff"])
    maker.names.append(name)
    return drawing("N", id=maker.some_image(connection), **{"in": 1}, name=name)


def draw_named(maker, connection):
    chance, image = maker.chance, maker.chance.pick(IMAGES)
    if maker.windows and chance.often(0.7):
        path = chance.pick(list(maker.windows))
        connection.images.setdefault(image, maker.windows[path])
        return drawing("n", id=image, name=f"window.{path}.{chance.pick([1, 1, 1, 2, 3])}")
    connection.images.setdefault(image, (0, 0, *maker.size))
    return drawing("n", id=image, name=chance.pick([*maker.names, "pic", "no"]))


def is_any(connection, images):
    """Whether a connection has one of some images."""
    return any(image in images for image in connection.images)


def draw_origin(maker, connection):
    if not is_any(connection, WINDOWS):
        return draw_window(maker, connection)
    window = maker.some_window(connection)
    at = maker.point() if maker.chance.often(0.6) else connection.images.get(window, (0, 0))[:2]
    return drawing("o", id=window, rmin=at, scr=maker.point())


def draw_operator(maker, _connection):
    if maker.chance.often(0.1):
        return maker.chance.pick([drawing("v"), drawing("D", debug=1)])
    return drawing("O", op=maker.chance.between(0, 11) if maker.chance.often(0.97) else 12)


def draw_read(maker, connection):
    image = maker.some_image(connection)
    r = connection.images.get(image, (0, 0, *maker.size))
    if maker.chance.often(0.5):
        left, upper, right, lower = r
        x, y = maker.chance.between(left, max(left, right)), maker.chance.between(upper, max(upper, lower))
        r = bounded(x, y, min(right, x + maker.chance.long(40)), min(lower, y + maker.chance.long(20)))
    return drawing("r", id=image, r=r)


def draw_public(maker, _connection):
    return drawing("S", id=maker.chance.pick(SCREENS), chan=maker.display if maker.chance.often(0.9) else CHANNELS[0])


def draw_stack(maker, connection):
    if not is_any(connection, WINDOWS):
        return draw_window(maker, connection)
    ids = [maker.some_window(connection) for _ in range(maker.chance.pick([0, 1, 1, 1, 2, 3, 5]))]
    return drawing("t", top=maker.chance.often(0.6), ids=ids)


def draw_load(maker, connection):
    """Rows of any bytes, mostly as many as the rectangle has."""
    image = maker.some_image(connection)
    left, upper, right, lower = maker.rectangle_of(connection, image)
    right, lower = min(right, left + 40), min(lower, upper + 20)
    channels = connection.channels.get(image, maker.display)
    bits = formats.depth(channels if formats.channels(channels) else maker.display)
    count = max(0, formats.row_bytes(bits, left, right)) * max(0, lower - upper)
    if maker.chance.often(0.05):
        count = maker.chance.long(99)
    maker.junk += count
    return drawing("y", id=image, r=(left, upper, right, lower)) + maker.chance.randbytes(count)


DRAWINGS = {
    "b": draw_image,
    "b of a window": draw_window,
    "A": draw_screen,
    "c": draw_clip,
    "d": draw_draw,
    "f": draw_free,
    "F": draw_free_screen,
    "i": draw_font,
    "l": draw_character,
    "s": draw_string,
    "N": draw_name,
    "n": draw_named,
    "o": draw_origin,
    "O": draw_operator,
    "r": draw_read,
    "S": draw_public,
    "t": draw_stack,
    "y": draw_load,
}
ODDITIES = "Tclunk Tclunk Tremove Tstat Tcreate Twstat Tauth Tflush Tflush Tattach Twalk Tversion junk".split()
COMMANDS = "new resize resize move move top bottom hide unhide current delete scroll noscroll set host host hop".split()
ACTS = (
    [Maker.browse, Maker.list, Maker.oddity, Maker.order, Maker.look, Maker.share, Maker.leave]
    + [Maker.click, Maker.type, Maker.resize, Maker.listen, Maker.console]
    + [Maker.draw] * 4
    + [Maker.control]
)
