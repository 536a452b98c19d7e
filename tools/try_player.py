#!/usr/bin/env python3
"""Tries player.html in a browser: what its canvas has is compared, pixel by pixel, with the display that `replay` gives.

    tools/try_player.py [PROGRAM] [--words WORDS] [--browser PATH] [--seed S] [--cases N] [--picture FILE]

PROGRAM, the built one where none is named, makes frames by `mirror`, and of the record cut behind an entry the screen by `replay`; the
cursor is put over it here. WORDS stand before the command, for a program that wants some. A page that has player.html and the files goes
to a browser without a window, Chromium by default, in which each case is opened by the page's own input of files or dropped on it, and
its slider is moved to entries, forth and back; the words for an entry are looked at too. The cases are frames made here, a window that
is dragged, displays that change their size, cursors at and beyond the edges, the examples on displays in which each channel has each
number of bits, and N records made by chance, 8 where nothing is said. Then the page plays one and goes by steps, and files that are no
frames have to be refused with a line that tells why. Where there is no browser nothing is tried, and a line tells it.
With --picture nothing is compared: a PNG file of the page is made, which shows a desktop.

Status 1 tells that something is otherwise, 2 that a word or a file is wrong.
It is outside the proof. Needs: Linux, Chromium (Debian: `chromium`), Python 3.9 or later, its standard library alone.
"""

import base64
import json
import os
import pathlib
import random
import re
import shlex
import shutil
import subprocess
import sys
import tempfile
import zlib
from dataclasses import dataclass

from rio9 import formats, picture, record
import made_records

TOOLS = pathlib.Path(__file__).resolve().parent
ROOT = TOOLS.parent
PROGRAM = str(ROOT / "crates" / "rio9" / "out" / "rio9")
BROWSER = "chromium"
SECONDS = 100
EVENT_BYTES, FARTHEST, MOST_BUTTONS = 49, 2**20, 31
CURSOR, CELL = 16, 32
BLACK, WHITE = bytes(3), bytes([255] * 3)
USUAL, SMALL = ((640, 480), "x8r8g8b8"), (320, 240)
EXAMPLES = ["text", "rio", "input", "windows10", "desktop", "size"]
NAMED_CHANNELS = "x8r8g8b8 r8g8b8 b8g8r8 r5g6b5 x1r5g5b5 a8r8g8b8 r8g8b8a8 b8g8r8x8 k4 k2 k1 a4 a2 a1 k1a1 k3x1 r1g1b1x1 r1g2b1 a8k8x8 x4k4".split(" ")


@dataclass
class Case:
    """Frames and the record beside them, the channels, and the pixels that entries have to have: red, green and blue."""

    name: str
    frames: bytes
    record: bytes
    channels: str
    pixels: dict


@dataclass
class Tried:
    """A program whose frames are shown, with the words that it takes before each command."""

    program: str
    words: list

    def output(self, command, size, channels, *options, given):
        words = [self.program, *self.words, command, "--size", "%dx%d" % size, "--chan", channels, *options]
        try:
            ended = subprocess.run(words, input=given, capture_output=True, timeout=SECONDS)
        except subprocess.TimeoutExpired:
            formats.stop("try_player.py", f"{shlex.join(words)}: {SECONDS} seconds are over")
        if ended.returncode:
            formats.stop("try_player.py", f"{shlex.join(words)}: status {ended.returncode}: {ended.stderr.decode(errors='replace').strip()}")
        return ended.stdout


# What the canvas has to have.


def pointer(text):
    """The point of the last event of the mouse in a record that is not refused, if all go to `mousein`."""
    found = None
    for event in formats.read_record(text):
        message = record.read_message(event.message) if event.kind == formats.MESSAGE else None
        if message and message[0].name == "Twrite" and re.fullmatch(rb"m( *-?[0-9]+ ){4}", message[2]) and len(message[2]) == EVENT_BYTES:
            x, y, buttons, _ = map(int, message[2][1:].split())
            found = (x, y) if max(abs(x), abs(y)) <= FARTHEST and buttons <= MOST_BUTTONS else found
    return found


def with_cursor(rows, size, at, white):
    """Rows of pixels with the cursor over them."""
    width, height = size
    for y in range(CURSOR):
        for x in range(y + 1):
            if 0 <= at[0] + x < width and 0 <= at[1] + y < height:
                place = 3 * ((at[1] + y) * width + at[0] + x)
                rows[place : place + 3] = BLACK if x in (0, y) or y == CURSOR - 1 else white
    return rows


def colours(word, width, height, rows):
    """The red, green and blue of rows of pixels."""
    bits, channels = formats.depth(word), formats.channels(word)
    across, seen, made = formats.row_bytes(bits, 0, width), {}, []
    for at in range(0, height * across, across):
        pixels = picture.raw_pixels(rows[at : at + across], bits, 0, width)
        for pixel in set(pixels) - seen.keys():
            seen[pixel] = bytes(picture.colour(pixel, channels)[:3])
        made.append(b"".join(seen[pixel] for pixel in pixels))
    return bytearray(b"".join(made))


def shown(tried, text, size, channels):
    """The pixels of the display after a record, with the cursor."""
    output = tried.output("replay", size, channels, "--screen", given=text)
    word, left, right, height, rows = picture.read_image_file(formats.read_replies(output).screen)
    at, has_colours = pointer(text), set(channels) & set("rgbk")
    made = colours(word, right - left, height, rows)
    return bytes(made if at is None else with_cursor(made, (right - left, height), at, WHITE if has_colours else BLACK))


def cut(text, entry):
    """A record up to an entry."""
    return b"".join(line + b"\n" for line in text.split(b"\n")[: entry + 1])


def last_entry(text):
    return text.count(b"\n") - 1


def case_of(tried, name, text, size, channels, entries):
    """The case of a record on a display, looked at after some of its entries."""
    pixels = {entry: shown(tried, cut(text, entry), size, channels) for entry in sorted(entries)}
    frames = tried.output("mirror", size, channels, given=text)
    return Case(f"{name} {size[0]}x{size[1]} {channels}", frames, text, channels, pixels)


def some_entries(chance, text):
    """The first entry of a record and the last, and two more."""
    last = last_entry(text)
    return {0, last, *(chance.randint(0, last) for _ in range(2))}


def all_entries(text):
    return range(last_entry(text) + 1)


# The cases.


def cells_of(size):
    """The cells of a display, in their order: left and upper edge, width and height."""
    return [(x, y, min(CELL, size[0] - x), min(CELL, size[1] - y)) for y in range(0, size[1], CELL) for x in range(0, size[0], CELL)]


def frame(entry, size, cells, value, is_sized):
    """A frame of cells in k8 that have one value."""
    lines = [b"F %d %d\n" % (entry, len(cells))] + ([b"Z %d %d\n" % size] if is_sized else [])
    return b"".join(lines + [b"C %d %d %d %d\n" % cell + bytes([value]) * (cell[2] * cell[3]) for cell in cells])


def of_sizes():
    """Frames of a display that changes its size, the one time with one cell alone."""
    first, second = (40, 33), (20, 70)
    frames = frame(0, first, cells_of(first), 10, True) + frame(2, second, cells_of(second), 200, True) + frame(5, first, cells_of(first)[3:], 90, True)
    last = bytearray(3 * 40 * 33)
    last[-3 * 8 :] = bytes([90]) * 24
    pixels = {0: bytes([10]) * (3 * 40 * 33), 1: bytes([10]) * (3 * 40 * 33), 2: bytes([200]) * (3 * 20 * 70), 4: bytes([200]) * (3 * 20 * 70), 5: bytes(last)}
    return Case("sizes", frames, b"rio9 1\n" + b"B 1\nE 1\n" + b"B 2\nB 3\nE 2\n", "k8", pixels)


def edge_points(size):
    """Points at and beyond the edges of a display and of its cells, and two that are refused."""
    width, height = size
    corners = [(0, 0), (width - 1, height - 1), (0, height - 1), (width - 1, 0), (width, 5), (5, height), (-1, 20), (20, -1)]
    cut_off = [(1 - CURSOR, 1 - CURSOR), (-CURSOR, -CURSOR), (-8, -3), (width - CURSOR, height - CURSOR), (width - 15, height - 15)]
    cells = [(CELL - 1, CELL - 1), (CELL, CELL), (CELL - CURSOR, CELL - CURSOR), (17, 17), (17, 17), (CELL + 31, CELL)]
    return [*corners, *cut_off, (FARTHEST + 1, 3), *cells, (-FARTHEST, -FARTHEST), (FARTHEST, FARTHEST), (3, -FARTHEST - 1), (10, 10)]


MOUSE_OPENED = """
1 Twalk fid=0 newfid=90 mousein
1 Topen fid=90 mode=write
"""


def mouse_written(point):
    return f"1 Twrite fid=90 offset=0\n    text {json.dumps('m' + ''.join(f'{n:11} ' for n in (*point, 0, 100)))}\n"


def edges(size):
    """A record in which the mouse goes to these points."""
    begun = 'session 1\n1 Tversion msize=65560 version=9P2000\n1 Tattach fid=0 aname=""\n' + MOUSE_OPENED
    return record.write(begun + "".join(map(mouse_written, edge_points(size))))


def all_channels():
    """Channels in which each letter stands with each number of bits."""
    made = list(NAMED_CHANNELS)
    for n in range(1, 8):
        made += [f"k{n}x{8 - n}", f"a{n}k{8 - n}"]
        parts = [n, n % 8 + 1, (n + 1) % 8 + 1]
        rest = -sum(parts) % 8
        made.append("r%dg%db%d" % tuple(parts) + (f"{'xa'[n % 2]}{rest}" if rest else ""))
    return [*made, "k8", "a8", "r8g1b2x5"]


def example(name):
    return (ROOT / "examples" / f"{name}.record").read_bytes()


def size_by_chance(chance):
    return chance.randint(1, 130), chance.randint(1, 90)


def by_chance(seed):
    """A record made by chance, where it is one and has no event of the mouse, of which some are refused; else None."""
    text = made_records.sessions(seed).text
    try:
        formats.read_record(text)
    except formats.BadText:
        return None
    return text if len(text) < 60_000 and text.startswith(formats.HEADER + b"\n") and pointer(text) is None else None


def cases_of(tried, seed, count):
    """All cases."""
    chance = random.Random(f"{seed} player")
    yield of_sizes()
    for name in ("input", "size"):
        yield case_of(tried, name, example(name), SMALL, USUAL[1], all_entries(example(name)))
    for size, channels in (((70, 50), "x8r8g8b8"), ((64, 48), "k1"), ((65, 33), "k8"), ((10, 7), "r5g6b5")):
        yield case_of(tried, "edges", edges(size), size, channels, all_entries(edges(size)))
    yield case_of(tried, "desktop", example("desktop"), *USUAL, {0, last_entry(example("desktop"))})
    for number, channels in enumerate(all_channels()):
        name = EXAMPLES[number % len(EXAMPLES)]
        yield case_of(tried, name, example(name), size_by_chance(chance), channels, some_entries(chance, example(name)))
    texts = filter(None, (by_chance(f"{seed} player {number}") for number in range(100 * count)))
    for number, text in zip(range(count), texts):
        yield case_of(tried, f"chance {number}", text, size_by_chance(chance), chance.choice(all_channels()), some_entries(chance, text))


# Files that are no frames or no records, and what the page has to tell of them.


def broken_frames():
    """Streams that do not fit, and the place of the line."""
    size = (40, 33)
    whole = frame(0, size, cells_of(size), 10, True) + frame(3, size, cells_of(size)[1:2], 20, False)
    last = whole.index(b"F 3")
    return [
        (b"", 0), (b"F 0 0\n", 6), (b"F 1 1\nC 0 0 32 32\n" + bytes(1024), 6), (whole[:-1], last + 6), (whole + b"F", len(whole)), (whole + b"F 3 0\n", len(whole)),
        (whole.replace(b"F 3 1", b"F 3 2"), len(whole)), (whole.replace(b"F 3 1", b"F 3 0"), last + 6), (whole.replace(b"F 3 1", b"F 03 1"), last),
        (whole.replace(b"Z 40 33", b"Z 40 0"), 6), (whole.replace(b"Z 40 33", b"Z 2049 33"), 6), (whole.replace(b"C 32 0 8 32", b"C 32 0 9 32"), whole.index(b"C 32 0")),
        (whole.replace(b"C 32 0 8 32", b"C 32 32 8 1"), whole.index(b"C 32 0") + len(b"C 32 32 8 1\n") + 8), (whole[:last] + b"F 4 2\n" + 2 * whole[last + 6 :], len(whole)),
        (b"F 0 999999999999999999\nZ 9 9\n", 29), ((ROOT / "docs" / "rio.png").read_bytes(), 0), (bytes(20_000_000), 0), (b"F 0 0\n" * 200_000, 6),
    ]


def broken():
    """Files that the page refuses, and the line that it tells."""
    yield from (({"frames": stream}, f"no frames in k8: the line at byte {place} does not fit") for stream, place in broken_frames())
    yield {"record": b"rio9 3\n"}, "no record: its header is missing"
    yield {"record": b"rio9 1\nB 1"}, "no record: its last newline is missing"
    yield {"record": b"rio9 1\nB 1\n"}, "a record alone: its frames are missing"
    whole = frame(0, (8, 8), cells_of((8, 8)), 10, True)
    yield from (({"frames": whole, "channels": word}, f"no display has the channels {word}") for word in ("k3", "r8g8", "k8k8", "r8g8b8k8", "k8x7"))
    yield {"frames": whole, "channels": "8k"}, "8k is no channels, as x8r8g8b8 is"
    later = whole + frame(2, (8, 8), cells_of((8, 8)), 11, False)
    other = "the frames are those of another record: they change the display at entry 2, and in this one:"
    yield {"frames": later, "record": b"rio9 1\nB 1\nT 1\n"}, f"{other} what waits for session 1 is taken"
    yield {"frames": later, "record": b"rio9 1\nB 1\n"}, f"{other} no such entry"


# The page.

TRY = """
<script>
async function until(done) {
	for (let n = 0; n < 10000 && !done(); n++) await new Promise(next => setTimeout(next, 5));
}
async function inflated(text, form) {
	const bytes = Uint8Array.from(atob(text), letter => letter.charCodeAt(0));
	return new Uint8Array(await new Response(new Blob([bytes]).stream().pipeThrough(new form("deflate"))).arrayBuffer());
}
async function deflated(bytes) {
	const found = new Uint8Array(await new Response(new Blob([bytes]).stream().pipeThrough(new CompressionStream("deflate"))).arrayBuffer());
	let made = "";
	for (let at = 0; at < found.length; at += 8192) made += String.fromCharCode(...found.subarray(at, at + 8192));
	return btoa(made);
}
async function open(found, isDropped) {
	player.viewer = player.frames = player.record = null;
	part.told.textContent = part.told.className = "";
	part.number.textContent = "waits";
	part.channels.value = found.channels;
	const files = new DataTransfer();
	for (const name of ["frames", "record"]) if (name in found) files.items.add(new File([await inflated(found[name], DecompressionStream)], name));
	if (isDropped) {
		document.body.dispatchEvent(new DragEvent("drop", { dataTransfer: files, bubbles: true, cancelable: true }));
	} else {
		part.files.files = files.files;
		part.files.dispatchEvent(new Event("change"));
	}
	await until(() => part.number.textContent !== "waits" || part.told.className);
}
async function shownAt(entry) {
	part.entry.value = entry;
	part.entry.dispatchEvent(new Event("input"));
	const { width, height } = part.picture;
	return { width, height, number: part.number.textContent, message: part.message.textContent,
		pixels: await deflated(part.picture.getContext("2d").getImageData(0, 0, width, height).data) };
}
function press(key) {
	document.body.dispatchEvent(new KeyboardEvent("keydown", { key, bubbles: true, cancelable: true }));
}
async function played(found) {
	await open(found, false);
	part.speed.value = "1000";
	part.play.click();
	await until(() => player.timer === null);
	const steps = [part.number.textContent];
	for (const step of ["back", "first", "change", "forward"]) {
		part[step].click();
		steps.push(part.number.textContent);
	}
	for (const key of ["Home", "ArrowRight", "ArrowRight", "n", "ArrowLeft"]) press(key);
	return [...steps, part.number.textContent];
}
async function tryAll(found) {
	const results = { cases: [], broken: [] };
	for (const [number, one] of found.cases.entries()) {
		await open(one, number % 2 === 1);
		const shown = [];
		for (const entry of one.entries) shown.push(await shownAt(entry));
		results.cases.push({ told: part.told.textContent, shown });
	}
	for (const one of found.broken) {
		await open(one, false);
		results.broken.push(part.told.textContent);
	}
	results.played = await played(found.cases[0]);
	const told = document.createElement("pre");
	told.id = "results";
	told.textContent = JSON.stringify(results);
	document.body.replaceChildren(told);
}
async function showLast(found) {
	await open(found.cases[0], false);
	player.go(player.last());
}
FIRST(JSON.parse(document.getElementById("found").textContent));
</script>
"""


def encoded(data):
    return base64.b64encode(zlib.compress(data, 1)).decode()


def decoded(text):
    return zlib.decompress(base64.b64decode(text))


def given_files(files):
    """Files as the page gets them, and the channels."""
    return {"channels": "k8", **{name: value if name == "channels" else encoded(value) for name, value in files.items()}}


def page_of(first, cases, order, refused):
    """The page, with what it is tried on, and what it does first."""
    found = [{**given_files({"channels": case.channels, "frames": case.frames, "record": case.record}), "entries": order[case.name]} for case in cases]
    text = json.dumps({"cases": found, "broken": [given_files(files) for files, _ in refused]})
    page = (TOOLS.parent / "python" / "rio9" / "player.html").read_text(encoding="utf-8")
    return page.replace("</body>", f'<script id="found" type="application/json">{text}</script>{TRY.replace("FIRST", first)}</body>')


class NoAnswer(Exception):
    """The browser told nothing. It tells what it wrote."""


def browse(browser, page, *words):
    """What the browser prints of a page."""
    with tempfile.TemporaryDirectory() as room:
        path = pathlib.Path(room) / "player.html"
        path.write_text(page, encoding="utf-8")
        usual = ["--headless", "--no-sandbox", "--disable-gpu", "--disable-dev-shm-usage", f"--user-data-dir={room}/profile", "--virtual-time-budget=3000000"]
        try:
            ended = subprocess.run([browser, *usual, *words, path.as_uri()], capture_output=True, timeout=SECONDS)
        except subprocess.TimeoutExpired:
            raise NoAnswer(f"{SECONDS} seconds are over") from None
    if ended.returncode:
        raise NoAnswer(f"status {ended.returncode}: {ended.stderr[-300:]!r}")
    return ended.stdout


def results_of(browser, page):
    """What the page found of itself."""
    found = re.search(rb'<pre id="results">(.*?)</pre>', browse(browser, page, "--dump-dom"), re.DOTALL)
    if not found:
        raise NoAnswer("the page has not ended")
    return json.loads(found.group(1).replace(b"&lt;", b"<").replace(b"&gt;", b">").replace(b"&amp;", b"&"))


def wrong_pixel(case, entry, one):
    """What is wrong in a picture, or None."""
    got, wanted = decoded(one["pixels"]), case.pixels[entry]
    mine = bytearray(len(got) // 4 * 3)
    for part in range(3):
        mine[part::3] = got[part::4]
    if not one["number"].startswith(f"entry {entry} of "):
        return f"the page tells {one['number']!r}"
    if mine == wanted and set(got[3::4]) == {255}:
        return None
    at = next((at for at, pair in enumerate(zip(mine, wanted)) if pair[0] != pair[1]), min(len(mine), len(wanted)))
    return f"{one['width']}x{one['height']}, pixel {at // 3} is {mine[at // 3 * 3 :][:3].hex()} and not {wanted[at // 3 * 3 :][:3].hex()}"


def words_of(text, entry):
    """How the words for an entry of a record begin."""
    if entry == 0:
        return "before the first entry"
    event = formats.read_record(text)[entry - 1]
    if event.kind != formats.MESSAGE:
        return {formats.BEGIN: f"session {event.session} begins", formats.END: f"session {event.session} ends"}.get(event.kind, "")
    found = record.read_message(event.message)
    return f"session {event.session} sends {found[0].name} tag={found[1]['tag']} " if found else f"session {event.session} sends {len(event.message)} bytes"


PLAYED = [
    "entry 5 of 5, frame of 1 cells", "entry 4 of 5, the picture is that of entry 2", "entry 0 of 5, frame of 4 cells", "entry 2 of 5, frame of 3 cells",
    "entry 3 of 5, the picture is that of entry 2", "entry 4 of 5, the picture is that of entry 2",
]


def compare(cases, order, refused, results):
    """The lines of what is otherwise."""
    for case, result in zip(cases, results["cases"]):
        if result["told"]:
            yield f"{case.name}: {result['told']}"
        for entry, one in zip(order[case.name], result["shown"]):
            wrong = wrong_pixel(case, entry, one)
            if wrong:
                yield f"{case.name}: entry {entry}: {wrong}"
            if not one["message"].startswith(words_of(case.record, entry)):
                yield f"{case.name}: entry {entry}: in words {one['message'][:60]!r}"
    for (files, wanted), told in zip(refused, results["broken"]):
        if told != wanted:
            yield f"{ {name: value[:30] for name, value in files.items()} }: {told!r}, and not {wanted!r}"
    if results["played"] != PLAYED:
        yield f"played: {results['played']}, and not {PLAYED}"


def try_page(browser, cases, seed):
    """What is otherwise in a browser, and how many pictures were looked at."""
    chance, refused = random.Random(seed), list(broken())
    order = {case.name: chance.sample(sorted(case.pixels), len(case.pixels)) for case in cases}
    results = results_of(browser, page_of("tryAll", cases, order, refused))
    return list(compare(cases, order, refused, results)), sum(map(len, order.values()))


# A picture of the page.

DESKTOP_POINT, WINDOW, MOST_BYTES = (420, 250), "672,700", 100_000


def photograph(tried, browser, path):
    """Writes a picture of the page, which shows a desktop and the cursor over it."""
    readable = (ROOT / "examples" / "desktop.txt").read_text() + MOUSE_OPENED + mouse_written(DESKTOP_POINT)
    text = record.write(readable)
    case = Case("desktop", tried.output("mirror", *USUAL, given=text), text, USUAL[1], {})
    browse(browser, page_of("showLast", [case], {"desktop": []}, []), "--hide-scrollbars", f"--window-size={WINDOW}", f"--screenshot={path}")
    size = path.stat().st_size
    if size >= MOST_BYTES:
        formats.stop("try_player.py", f"{path} has {size} bytes")


def main(words):
    parser = formats.Words(prog="try_player.py", description=__doc__.split("\n")[0])
    parser.add_argument("program", nargs="?", default=PROGRAM, metavar="PROGRAM", help="another program than the built one")
    parser.add_argument("--words", type=shlex.split, default=[], metavar="WORDS", help="words that it takes before each command")
    parser.add_argument("--browser", default=BROWSER, metavar="PATH")
    parser.add_argument("--seed", type=formats.at_least(0), default=1, metavar="S")
    parser.add_argument("--cases", type=formats.at_least(0), default=8, metavar="N", help="records made by chance")
    parser.add_argument("--picture", type=pathlib.Path, metavar="FILE", help="make a picture of the page, and compare nothing")
    options = parser.parse_args(words)
    if not (os.path.isfile(options.program) and os.access(options.program, os.X_OK)):
        formats.stop("try_player.py", f"no program: {options.program}")
    browser = shutil.which(options.browser)
    if browser is None:
        print(f"try_player.py: nothing was tried: there is no {options.browser}")
        return 0
    tried = Tried(options.program, options.words)
    try:
        if options.picture:
            photograph(tried, browser, options.picture.resolve())
            return 0
        cases = list(cases_of(tried, options.seed, options.cases))
        wrong, count = try_page(browser, cases, options.seed)
    except NoAnswer as error:
        formats.stop("try_player.py", f"{browser}: {error}")
    print("\n".join([*wrong, f"{len(cases)} streams, {count} pictures, {len(list(broken()))} files that do not fit; {len(wrong)} wrong"]))
    return 1 if wrong else 0


if __name__ == "__main__":
    sys.exit(main(sys.argv[1:]))
