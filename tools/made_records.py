"""Records made by chance, which a text decides: of sessions that do mostly what is sensible, some of which meet limits, and of
junk. soak.py runs them through programs. It is outside the proof.
"""

from dataclasses import dataclass

from rio9 import formats, record
from chance import CHANNELS, COLOURS, Chance, Maker, draw_operator, drawing
from rio9.formats import MESSAGE, Event

DISPLAYS = [(1, 1), (7, 5), (33, 17), (64, 48), (64, 48), (96, 70), (130, 65)]
USUAL_DISPLAY = (64, 48), formats.channels_word("x8r8g8b8")
MOST_FIDS, MOST_WAITING, MOST_WINDOWS, MOST_NESTED = 1024, 64, 64, 8

# What meets limits.


def many_fids(maker, session):
    root = maker.root(session, False)
    for _ in range(MOST_FIDS + 60):
        maker.walk(session, root, [])


def many_reads(maker, session):
    """Reads that wait, and some that are taken back."""
    fid = maker.use(session, "cons", is_window=True)
    for _ in range(MOST_WAITING + 4):
        maker.wait(session, fid, 10)
    for tag in maker.chance.sample(session.waiting[-MOST_WAITING:], 9):
        maker.send(session, "Tflush", oldtag=tag)
    maker.type(session)


def many_windows(maker, session):
    fid = maker.use(session, "wctl")
    for _ in range(MOST_WINDOWS + 12):
        maker.write(session, fid, b"new " + maker.options(True).encode())


def nested_windows(maker, session):
    """Rios in windows, deeper than they may be, of which an outer one is moved, hidden or deleted."""
    fid, path = maker.use(session, "wctl"), ""
    for depth in range(MOST_NESTED + 2):
        text = f"new -r {4 * depth} {4 * depth} {90 - 2 * depth} {90 - 2 * depth}"
        maker.write(session, fid, f"{text} -id {path}".encode() if path else text.encode())
        path = maker.add_window(path, text)
        maker.write(session, fid, f"host -id {path}".encode())
    outer = "/".join(path.split("/")[: maker.chance.between(1, 3)])
    for text in maker.chance.sample(["move -minx +7", "resize -dx +5", "hide", "unhide", "top", "delete"], 3):
        maker.write(session, fid, f"{text} -id {outer}".encode())


def much_snarf(maker, session):
    """More than `snarf` holds, a piece behind the other."""
    fid, at = maker.use(session, "snarf"), 0
    for _ in range(18):
        data = maker.chance.randbytes(maker.chance.pick([65536, 60000]))
        maker.junk += len(data)
        maker.write(session, fid, data, at)
        at += len(data)
    maker.read(session, fid, 65535, at - 100_000)


def much_text(maker, session):
    """More than `text` keeps, and more keys than a line holds."""
    console, keys = maker.use(session, "cons", is_window=True), maker.use(session, "kbdin")
    for _ in range(maker.chance.between(1, 3)):
        maker.write(session, console, maker.chance.randbytes(maker.chance.between(30_000, 65_536)))
    letter = maker.chance.pick(["a", "é", "\b"])
    for _ in range(maker.chance.between(60, 140)):
        maker.write(session, keys, (64 * letter).encode())
    maker.write(session, keys, b"\n\x04")
    maker.read(session, maker.use(session, "text", is_window=True), 65535, maker.chance.pick([0, 60_000]))
    for count in (8000, 300, 5):
        maker.wait(session, console, count)


def many_clicks(maker, session):
    mouse, events = maker.use(session, "mouse", is_window=True), maker.use(session, "mousein")
    x, y = maker.place()
    for number in range(20):
        maker.write(session, events, record.mouse_text({"point": (x, y), "buttons": 1 - number % 2, "msec": number}))
    for _ in range(18):
        maker.wait(session, mouse, 49)


def large_images(maker, session):
    """Images as large as may be, and larger ones."""
    connection = maker.connection(session)
    for image, side, lower in ((12, 2048, 2048), (13, 2048, 2049), (14, 2048, 2048), (12, 1024, 2048)):
        channels = formats.channels_word(maker.chance.pick(["x8r8g8b8", "k8", "k1"]))
        fields = {"repl": 0, "r": (0, 0, side, lower), "clipr": (0, 0, side, lower), "color": 0xFFFFFF00, "chan": channels}
        maker.write(session, connection.data, maker.image(connection, image, **fields))
    maker.write(session, connection.data, drawing("f", id=12))


def deep_screens(maker, session):
    """Screens on windows, deeper than they may be."""
    connection = maker.connection(session)
    for depth in range(17):
        r = (depth, depth, 60, 50)
        fields = {"screenid": 100 + depth, "chan": maker.display, "repl": 0, "r": r, "clipr": r, "color": maker.chance.pick(COLOURS)}
        on = 100 + depth if depth else 0
        data = drawing("A", id=100 + depth, imageid=on, fillid=2, public=0) + maker.image(connection, 101 + depth, **fields)
        maker.write(session, connection.data, data)
    for image in maker.chance.sample(range(101, 118), 5):
        maker.write(session, connection.data, maker.chance.pick([drawing("f", id=image), drawing("t", top=0, ids=[image])]))


FLOODS = [many_fids, many_reads, many_windows, nested_windows, much_snarf, much_text, many_clicks, large_images, deep_screens]


# Records.


@dataclass
class Made:
    """A record with the words that it is replayed with, and how many bytes of it are junk."""

    text: bytes
    words: tuple
    junk: int


def words_of(size, display):
    """The words of a display, whose screen is looked at."""
    return "--size", f"{size[0]}x{size[1]}", "--chan", formats.channels_text(display), "--screen"


def sessions(seed, length=300):
    """A record of sessions, of about so many events at most."""
    chance = Chance(seed)
    size, display = chance.pick(DISPLAYS), chance.pick(CHANNELS) if chance.often(0.3) else USUAL_DISPLAY[1]
    maker = Maker(chance, size, display)
    for _ in range(2):
        maker.make(chance.between(5, length // 2) + len(maker.events))
        if chance.often(0.04):
            chance.pick(FLOODS)(maker, chance.pick(maker.live()) if maker.live() else maker.begin())
    text = formats.write_record(maker.finish())
    if chance.often(0.04):
        text = spoilt_text(chance, text)
    return Made(text, words_of(size, display), maker.junk)


def spoilt_text(chance, text):
    """A record with a line that goes, comes twice, is another or is changed, or one that is cut."""
    lines = text.splitlines(keepends=True)
    at = chance.between(0, len(lines) - 1)
    kind = chance.between(0, 5)
    if kind == 0:
        del lines[at]
    elif kind == 1:
        lines.insert(at, lines[at])
    elif kind == 2:
        lines.insert(at, chance.pick(LINES) + b"\n")
    elif kind == 3:
        lines[at] = spoilt(chance, lines[at], 1)
    elif kind == 4:
        return text[: chance.between(0, len(text))]
    else:
        lines[0] = chance.pick(NO_HEADERS) + b"\n"
    return b"".join(lines)


NO_HEADERS = [b"rio9 2 0", b"rio9 2", b"rio9 3 1", b"rio9 1 ", b"rio9 01", b"rio9 2 4611686018427387904"]
LINES = [b"", b"X", b"B", b"B 0", b"B 01", b"T 1", b"E 9", b"M 1 0700000064fff", b"M 1 0800000064ffff", b"M 1 0700000064ffff !65536"]
LINES += [b"M 1 0700000064ffff !1", b"M 1 0700000064FFFF", b"m 1 0700000064ffff", b"M  1 0700000064ffff", b"M 1 0600000064ff", b"R 1 07", b"\xff"]


def spoilt(chance, data, most):
    """Bytes of which up to so many are others."""
    data = bytearray(data)
    for _ in range(chance.between(1, most) if data else 0):
        data[chance.between(0, len(data) - 1)] = chance.between(0, 255)
    return bytes(data)


def junk(seed, length):
    """A record of about so many bytes of junk."""
    chance = Chance(seed)
    kind = chance.pick([any_bytes, any_lines, any_messages, any_messages, any_drawings, any_drawings, any_rows, spoilt_messages])
    maker = Maker(chance, *USUAL_DISPLAY)
    text = kind(maker, length)
    if chance.often(0.1):
        text = text[: chance.between(0, len(text))]
    return Made(text, words_of(*USUAL_DISPLAY), maker.junk)


def any_bytes(maker, length):
    """Any bytes, behind a header or none."""
    maker.junk += length
    return maker.chance.pick([b"", b"rio9 1\n", b"rio9 2 0\n"]) + maker.chance.randbytes(length)


def any_lines(maker, length):
    """Lines of the letters that records have, behind some events."""
    maker.junk += length
    letters = b"0123456789abcdef    BMTEX!\n"
    piece = bytes(letters[byte % len(letters)] for byte in maker.chance.randbytes(min(length, 10_000)))
    return formats.write_record(maker.make(20)) + (piece * (length // max(1, len(piece)) + 1))[:length]


def any_messages(maker, length):
    """Messages of any bytes."""
    session, most = maker.begin(), maker.chance.pick([30, 400, 65_000])
    while maker.junk < length:
        maker.junk_message(session, maker.chance.long(most))
    return formats.write_record(maker.events)


def any_drawings(maker, length):
    """Writes of draw messages that turn into any bytes."""
    session, most = maker.begin(), maker.chance.pick([100, 65_000])
    connection = maker.connection(session)
    while maker.junk < length:
        data = maker.chance.randbytes(maker.chance.long(most))
        maker.junk += len(data)
        maker.write(session, connection.data, maker.drawing(connection) + data)
    return formats.write_record(maker.events)


def any_rows(maker, length):
    """Pixels of any bytes, in images of many channels, which are drawn on the display."""
    session = maker.begin()
    connection = maker.connection(session)
    while maker.junk < length:
        channels = maker.chance.pick(CHANNELS)
        r = (0, 0, maker.chance.between(1, 200), maker.chance.between(1, 70))
        data = maker.image(connection, 9, chan=channels, repl=0, r=r, clipr=r, color=0)
        connection.channels[9] = channels
        rows = maker.chance.randbytes(formats.row_bytes(formats.depth(channels), 0, r[2]) * r[3])
        maker.junk += len(rows)
        data += drawing("y", id=9, r=r) + rows + draw_operator(maker, connection)
        fields = {"dstid": 0, "srcid": 9, "maskid": maker.chance.pick([1, 9]), "dstr": maker.rectangle()}
        data += drawing("d", **fields, srcp=(0, 0), maskp=maker.point())
        maker.write(session, connection.data, data + drawing("f", id=9))
    return formats.write_record(maker.events)


def spoilt_messages(maker, length):
    """Sessions of which each message has some other bytes, but for its size."""
    while maker.junk < length:
        begun = len(maker.events)
        maker.make(begun + 50)
        for at in range(begun, len(maker.events)):
            event = maker.events[at]
            if event.kind == MESSAGE and maker.chance.often(0.7):
                message = event.message[:4] + spoilt(maker.chance, event.message[4:], 3)
                maker.events[at] = Event(MESSAGE, event.session, message, event.mark)
                maker.junk += len(message)
    return formats.write_record(maker.events)
