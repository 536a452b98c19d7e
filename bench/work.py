"""The kinds of work that peer.py measures. Each is a function that yields what a session sends, or gives the text of a record that
another bench makes, and is so long that a plain program takes 0.05 to 0.5 s for it.
"""
import functools
import importlib.util
import itertools
import os
import random
import subprocess
import sys
from dataclasses import dataclass

HERE = os.path.dirname(os.path.abspath(__file__))
ROOT = os.path.dirname(HERE)
sys.path[:0] = [os.path.join(HERE, "drawing"), os.path.join(HERE, "replay"), os.path.join(ROOT, "tools")]
from rio9 import formats
import run
from chance import EVERYWHERE, READ, READWRITE, WRITE, drawing
from rio9.record import OPERATORS
from sessions import TOP, arrived, opened, said, written

REPLAY, SEED = ("replay",), 7
CTL, DATA, WCTL, DIRECTORY = range(1, 5)  # fids
FULL, COLOUR, GLASS, TILE, FROM, ONTO, MASK, FONT, WINDOW = (*range(1, 9), 20)  # images, the last one the first of some
DISPLAY, POINT, SCREEN = 0, (0, 0, 1, 1), (0, 0, 640, 480)
GROWTH = {f"{count:,} small messages": count for count in (0, 1_000, 10_000, 100_000, 1_000_000)}


@dataclass(frozen=True)
class Work:
    """Words of a program, what it reads, how many lines of what it prints are compared, where not all, and where it may print something
    else than a peer, the input of which the peer is asked whether what it prints is right."""

    given: bytes = b""
    words: tuple = REPLAY
    lines: int = 0
    checked: bytes = b""


ROWS = {}  # functions that give works, by the names of their rows


def rows(named):
    """Rows of a function that yields what one session sends, by their names, from the values that each gives it. The screen is compared
    too."""

    def add(function):
        for name, values in named.items():
            ROWS[name] = lambda values=values: Work(text(function(*values)), (*REPLAY, "--screen"))
        return function

    return add


def text(messages):
    """The record of one session."""
    lines = itertools.chain([b"rio9 1", b"B 1"], (b"M 1 " + message.hex().encode() for message in messages))
    return b"\n".join(lines) + b"\n"


@functools.lru_cache(maxsize=None)
def bench(folder):
    """The script of another bench, as a module."""
    spec = importlib.util.spec_from_file_location(f"{folder}_times", os.path.join(HERE, folder, "times.py"))
    module = importlib.util.module_from_spec(spec)
    spec.loader.exec_module(module)
    return module


# Files.


@rows({"stats": (60_000,)})
def stats(count):
    yield from arrived()
    yield from [said("Tstat", fid=TOP)] * count


@rows({"walks and clunks": (60_000,)})
def walks(count):
    yield from arrived()
    yield from [said("Twalk", fid=TOP, newfid=9, names=["draw"]), said("Tclunk", fid=9)] * count


@rows({"reads of the root's directory": (25_000,)})
def listings(count):
    yield from arrived()
    yield from opened(DIRECTORY, READ)
    yield from [said("Tread", fid=DIRECTORY, offset=0, count=8192)] * count


@rows({"reads of wsys, 32 windows": (3_000,)})
def listings_of_windows(count):
    yield from commanding(32)
    yield from opened(DIRECTORY, READ, "wsys")
    yield from [said("Tread", fid=DIRECTORY, offset=0, count=8192)] * count


# Drawing.


def image(number, channels, r=POINT, color=0xFFFFFFFF, **others):
    """Makes an image, which repeats where it is one point."""
    repl, clipr = (1, EVERYWHERE) if r == POINT else (0, r)
    fields = {"screenid": 0, "refresh": 0, "repl": repl, "r": r, "clipr": clipr, **others}
    return drawing("b", id=number, chan=formats.channels_word(channels), color=color, **fields)


def draw(dst, src, mask=FULL, r=SCREEN, srcp=(0, 0)):
    return drawing("d", dstid=dst, srcid=src, maskid=mask, dstr=r, srcp=srcp, maskp=(0, 0))


def connected():
    """A session with a connection."""
    yield from arrived()
    yield from opened(CTL, READWRITE, "draw", "new")
    yield from opened(DATA, READWRITE, "draw", "1", "data")


def sketching():
    """A connection with a full mask, a colour, a glass, and a tile of points of any colour and alpha."""
    yield from connected()
    r, everywhere = (0, 0, 64, 48), {"repl": 1, "clipr": EVERYWHERE}
    colours = image(FULL, "k1") + image(COLOUR, "x8r8g8b8", color=0x3377BBFF) + image(GLASS, "a8r8g8b8", color=0x80000080)
    tile = drawing("y", id=TILE, r=r) + random.Random(SEED).randbytes(64 * 48 * 4)
    yield written(DATA, colours + image(TILE, "a8r8g8b8", r, **everywhere) + tile)


def picture(number, channels):
    """An image as large as the display, full of tiles."""
    return image(number, channels, SCREEN) + drawing("O", op=OPERATORS.index("S")) + draw(number, TILE)


def windows_at(rectangles):
    """Windows over one another, of which the first is the lowest."""
    yield written(DATA, drawing("A", id=1, imageid=DISPLAY, fillid=FULL, public=0))
    for number, r in enumerate(rectangles, WINDOW):
        yield written(DATA, image(number, "x8r8g8b8", r, screenid=1))


def step(at):
    """The rectangle of a window of a staircase."""
    return 20 * at, 15 * at, 20 * at + 400, 15 * at + 300


def staircase(count):
    return windows_at(map(step, range(count)))


def in_writes(size, messages):
    """Draw messages, so many in each write."""
    messages = iter(messages)
    while held := list(itertools.islice(messages, size)):
        yield written(DATA, b"".join(held))


def places(count, width, height, r=SCREEN):
    """Rectangles of a size in a rectangle, at places that change."""
    for at in range(count):
        x, y = r[0] + 7 * at % (r[2] - r[0] - width), r[1] + 5 * at % (r[3] - r[1] - height)
        yield x, y, x + width, y + height


@rows({"draws of 10x14, one to a write": (40_000, 1), "draws of 10x14, 1,000 to a write": (50_000, 1000)})
def small_draws(count, size):
    yield from sketching()
    yield written(DATA, picture(FROM, "x8r8g8b8"))
    yield from in_writes(size, (draw(DISPLAY, FROM, FULL, r) for r in places(count, 10, 14)))


# What is drawn onto what, and how often.
ONE = "x8r8g8b8"
COUNTS = {"r8g8b8": 60, "r5g6b5": 40, "a8r8g8b8": 60, "k8": 80}
PAIRS = [(ONE, ONE, 500), *((*pair, count) for other, count in COUNTS.items() for pair in ((other, ONE), (ONE, other)))]


@rows({f"draws of 640x480, {source} onto {target}": (source, target, count) for source, target, count in PAIRS})
def large_draws(source, target, count):
    yield from sketching()
    yield written(DATA, picture(FROM, source) + picture(ONTO, target))
    yield from in_writes(10, [draw(ONTO, FROM)] * count)
    yield written(DATA, draw(DISPLAY, ONTO))


MASKS = {"a mask of colours": ("x8r8g8b8", 30), "a mask of colours and alpha": ("a8r8g8b8", 40), "a grey mask": ("k8", 40)}


@rows({f"draws of 640x480 through {name}": values for name, values in MASKS.items()})
def masked_draws(channels, count):
    yield from sketching()
    yield written(DATA, picture(FROM, "x8r8g8b8") + picture(MASK, channels))
    yield from in_writes(10, [draw(DISPLAY, FROM, MASK)] * count)


def fill(surface, r):
    return draw(surface, COLOUR, FULL, r)


def glass(surface, r):
    return draw(surface, GLASS, FULL, r)


def scroll(surface, r):
    return draw(surface, surface, FULL, r, (r[0], r[1] + 13))


# The windows that there are, and the number of one of them, or the display.
SURFACES = {"the display": (0, None), "a window": (1, 0), "a window over 7": (8, 7), "a window beneath 7": (8, 0)}
STROKES = {"fills of": (fill, 8000), "glass over": (glass, 300), "scrolls of": (scroll, 2000)}


@rows({f"300x200, {stroke} {name}": (*on, *of) for stroke, of in STROKES.items() for name, on in SURFACES.items()})
def strokes(windows, number, stroke, count):
    """Draw messages about rectangles of a surface."""
    yield from sketching()
    yield from staircase(windows)
    surface, inside = (DISPLAY, SCREEN) if number is None else (WINDOW + number, step(number))
    yield from in_writes(10, (stroke(surface, r) for r in places(count, 300, 200, inside)))


CELL, HIGH, LETTERS = 8, 14, 96


def fonted():
    """A font of 96 characters of 8 by 14 points."""
    r = (0, 0, CELL * LETTERS, HIGH)
    yield written(DATA, image(FONT, "k8", r) + draw(FONT, TILE, FULL, r) + drawing("i", id=FONT, n=LETTERS, ascent=11))
    for index in range(LETTERS):
        at = {"r": (CELL * index, 0, CELL * index + CELL, HIGH), "sp": (CELL * index, 0)}
        yield written(DATA, drawing("l", cacheid=FONT, srcid=FONT, index=index, left=0, width=CELL, **at))


STRINGS = {"strings of 60 characters": ("s", {}, 500), "strings on a background": ("x", {"bgid": GLASS, "bgp": (0, 0)}, 500)}


@rows(STRINGS)
def strings(letter, background, count):
    yield from sketching()
    yield from fonted()
    fields = {"dstid": DISPLAY, "srcid": COLOUR, "fontid": FONT, "clipr": SCREEN, "sp": (0, 0), **background}
    indices = [7 * at % LETTERS for at in range(60)]
    yield from in_writes(10, (drawing(letter, p=(20, 20 + 14 * at % 440), indices=indices, **fields) for at in range(count)))


STRIP = (0, 0, 640, 25)  # as many rows of the display as a write holds


@rows({"loads of 640x25 (y), the display": (0, DISPLAY, 60), "loads of 400x40 (y), a window": (1, WINDOW, 60)})
def loads(windows, surface, count):
    yield from sketching()
    yield from staircase(windows)
    r = (0, 0, 400, 40) if windows else STRIP
    rows = random.Random(SEED).randbytes(r[2] * r[3] * 4)
    yield from [written(DATA, drawing("y", id=surface, r=r) + rows)] * count


@rows({"reads of 640x25 (r), the display": (0, DISPLAY, 600), "reads of 400x40 (r), a window beneath 7": (8, WINDOW, 400)})
def unloads(windows, surface, count):
    yield from sketching()
    yield written(DATA, draw(DISPLAY, TILE))
    yield from staircase(windows)
    r = (0, 0, 400, 40) if windows else STRIP
    yield from [written(DATA, drawing("r", id=surface, r=r)), said("Tread", fid=DATA, offset=0, count=r[2] * r[3] * 4)] * count


@rows({f"raises, 8 windows of {side}x{side} one over the other": (side, 100_000) for side in (20, 100, 400)})
def raises(side, count):
    yield from sketching()
    yield from windows_at([(0, 0, side, side)] * 8)
    yield from in_writes(100, (drawing("t", top=1, ids=[WINDOW + at % 8]) for at in range(count)))


# The record of the generator (docs/FORMATS.md).


def numbers(state):
    """The numbers that a number gives."""
    while True:
        state = (state * 6364136223846793005 + 1442695040888963407) % 2**64
        yield state >> 33


def acts(count, corners):
    """What the messages do to windows whose left upper corners are known."""
    drawn = numbers(count)
    for u, v, w in itertools.islice(zip(drawn, drawn, drawn), count):
        at = u // 3 % len(corners)
        if u % 3 == 0:
            yield drawing("t", top=v % 2, ids=[10 + at])
        elif u % 3 == 1:
            corners[at] = v % 640 - 100, w % 480 - 75
            yield drawing("o", id=10 + at, rmin=corners[at], scr=corners[at])
        else:
            x, y = corners[at]
            yield draw(10 + at, 20 + v % 4, FULL, (x, y, x + 200, y + 150))


@rows({"the generator's record, 10,000": (10_000,)})
def generated(count):
    yield from connected()
    colours = {COLOUR: 0x336699FF, 20: 0xFF0000FF, 21: 0x00FF00FF, 22: 0x0000FFFF, 23: 0x808080FF}
    made = [image(FULL, "k1"), *(image(number, "x8r8g8b8", color=color) for number, color in colours.items())]
    made.append(drawing("A", id=1, imageid=DISPLAY, fillid=COLOUR, public=0))
    corners = [(40 * at, 30 * at) for at in range(8)]
    for at, (x, y) in enumerate(corners):
        r, color = (x, y, x + 200, y + 150), 32 * at << 24 | 255 - 32 * at << 8 | 255
        made.append(image(10 + at, "x8r8g8b8", r, color, screenid=1))
    yield written(DATA, b"".join(made))
    yield from in_writes(1, acts(count, corners))


for count in (1_000, 10_000, 100_000):
    ROWS[f"gen {count:,}"] = functools.partial(Work, words=("gen", str(count)), lines=2)


# Windows of rio.


def command(words):
    return written(WCTL, words.encode())


def commanding(windows):
    """A session that writes commands, and has made so many windows, which stand apart from the left upper quarter."""
    yield from arrived()
    yield from opened(WCTL, WRITE, "wctl")
    yield from [command("new -r 400 300 440 330")] * windows


# What is done to a window of a number, at each of so many steps.
ACTS = {
    "made and deleted": (8_000, lambda at, number: ["new -r 10 10 110 90", f"delete -id {number + at}"]),
    "moved": (8_000, lambda at, number: [f"move -minx {at % 50} -miny {at % 40} -id {number}"]),
    "resized": (12_000, lambda at, number: [f"resize -dx {80 + at % 40} -dy {60 + at % 30} -id {number}"]),
    "raised and lowered": (40_000, lambda at, number: [f"{('top', 'bottom')[at % 2]} -id {number}"]),
    "hidden and shown": (40_000, lambda at, number: [f"{('hide', 'unhide')[at % 2]} -id {number}"]),
}
OTHERS = {"alone": 0, "beside 63 others": 63}


@rows({f"a window {name}, {where}": (others, name, *what) for name, what in ACTS.items() for where, others in OTHERS.items()})
def commands(others, name, count, act):
    yield from commanding(others)
    if name != "made and deleted":
        yield command("new -r 10 10 110 90")
    for at in range(count):
        yield from map(command, act(at, others + 1))


def in_rio(rio, words):
    """Words of a command about a rio, the root's where its path is empty."""
    return f"{words} -id {rio}" if rio else words


def made(levels):
    """The commands that make 64 windows, and their paths: hosts in one another, and the others in the innermost rio."""
    words, paths, rio = [], [], ""
    for _ in range(levels - 1):
        words.append(in_rio(rio, "new -r 0 0 200 150"))
        rio = f"{rio}/1".lstrip("/")
        words.append(f"host -id {rio}")
        paths.append(rio)
    for at in range(64 - len(paths)):
        words.append(in_rio(rio, f"new -r {3 * at} {2 * at} {3 * at + 40} {2 * at + 30}"))
        paths.append(f"{rio}/{at + 1}".lstrip("/"))
    return words, paths


@rows({f"64 windows moved and resized, {levels} deep": (levels, 100) for levels in (1, 2, 8)})
def handled(levels, repeats):
    words, paths = made(levels)
    yield from commanding(0)
    yield from map(command, words)
    for at in range(repeats):
        by = "+1" if at % 2 == 0 else "-1"
        for path in paths:
            yield command(f"move -minx {by} -miny {by} -id {path}")
            yield command(f"resize -dx {60 + at % 2} -id {path}")


# Mirrors.


def dragged(count):
    """A window of 200 by 150 pixels that is moved a little, so many times."""
    yield from commanding(0)
    yield command("new -r 20 20 220 170")
    yield from (command(f"move -minx {20 + 3 * at % 400} -miny {20 + 2 * at % 300} -id 1") for at in range(count))


def mirrored(messages):
    """The mirror of a session. A right one may send other cells than another."""
    record = text(messages)
    return Work(record, ("mirror",), checked=record)


ROWS["the generator's record, 2,000: mirror"] = lambda: mirrored(generated(2_000))
ROWS["a window of 200x150 dragged, 2,000: mirror"] = lambda: mirrored(dragged(2_000))

# What other benches make.


def given(name, folder, make, words=REPLAY):
    """A row of what the module of another bench gives."""
    ROWS[name] = lambda: Work(make(bench(folder)), words)


given("mouse events, each read", "waiting", lambda waiting: waiting.moved(40_000))
given("keys, each line read", "waiting", lambda waiting: waiting.typed(4_000_000))
given("keys while 6,400 reads wait", "waiting", lambda waiting: waiting.idle(waiting.READS, 1500))
for name, rounds in (("draw", 1_000), ("ask", 10_000), ("note", 1_000)):
    make = lambda alone, name=name, rounds=rounds: alone.Writer().rounds(rounds, getattr(alone, name))
    given(f"a guest among others, {name}: replay", "alone", make)
    given(f"a guest among others, {name}: alone", "alone", make, ("alone", "--conn", "2"))


def text_of(kind):
    """A text behind its font; a front of it is checked."""
    texts, program = bench("text"), os.path.join(ROOT, "python", "rio9d")
    font = subprocess.run([sys.executable, program, "font"], capture_output=True, check=True).stdout
    whole = texts.texts(1_000_000)[kind]
    return Work(font + whole, tuple(texts.WORDS), checked=font + texts.front(whole))


def desk_of(kind):
    events = bench("desk").kinds(20_000)[kind]
    return Work(events, ("desk",), checked=events)


for kind in ("lines of words", "newlines alone", "one long line"):
    ROWS[f"text, {kind}"] = functools.partial(text_of, kind)
for kind in ("gestures", "clicks", "menus"):
    ROWS[f"desk, {kind}"] = functools.partial(desk_of, kind)

# Growth.

for name, count in GROWTH.items():
    ROWS[name] = lambda count=count: Work(run.record(count))
