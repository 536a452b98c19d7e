"""Tests of the parts of the live page that need no browser, no library and no server."""

import base64
import json
import random
import re
import socket
import sys
import time
import unittest
import zlib

from rio9.live import pages, recording, requests
from rio9.live.acts import Keys, Mouse, PutSnarf, Repaint, Resize
from rio9.live.rhythm import Came, Look, Rhythm
from rio9.live.screen import BadScreen, Form, Point, Screen, cursor_points, form_of, pieces_of
from rio9.live.traffic import Traffic, Unknown, messages_of, received_of
from rio9.live.watcher import Busy, Queue
from live_support import Canvas

ALL_CHANNELS = ["x8r8g8b8", "r8g8b8", "r5g6b5", "k8", "k4", "k2", "k1", "a8", "r8g8b8a8", "k1a1", "r1g1b1x1", "k4a4"]


def header(channels, *edges):
    return "".join(f"{field:>11} " for field in (channels, *edges)).encode()


class Forms(unittest.TestCase):
    def test_header(self):
        form = form_of(header("x8r8g8b8", 0, 0, 640, 480))
        self.assertEqual(
            (form, form.depth, form.row_bytes, form.columns, form.cells),
            (Form("x8r8g8b8", 640, 480), 32, 2560, 20, 300),
        )
        small = form_of(header("k1", 0, 0, 33, 1))
        self.assertEqual((small.depth, small.row_bytes, small.columns, small.cells), (1, 5, 2, 2))

    def test_no_header(self):
        wrong = [
            b"",
            b"x" * 60,
            header("x8r8g8b8", 0, 0, 640),
            header("q8", 0, 0, 1, 1),
            header("k8", 1, 0, 2, 2),
            header("k8", 0, 0, 0, 9),
        ]
        wrong += [
            header("k8", 0, 0, 2049, 9),
            header("k3", 0, 0, 9, 9),
            header("k8", 0, 0, "1_0", 9),
            bytes([255]) * 60,
            header("k8", 0, 0, 1, 1) + b" ",
        ]
        for data in wrong:
            with self.subTest(data), self.assertRaises(BadScreen):
                form_of(data)

    def test_pieces(self):
        self.assertEqual(pieces_of(Form("x8r8g8b8", 1024, 768), 65549)[:2], [(0, 16), (16, 32)])
        self.assertEqual(pieces_of(Form("k1", 10, 9), 65549), [(0, 9)])
        self.assertEqual(pieces_of(Form("x8r8g8b8", 2048, 3), 100), [(0, 1), (1, 2), (2, 3)])


class Pixels(unittest.TestCase):
    """What is taken and told as frames, beside a plain comparison of each pixel."""

    def try_form(self, chance, form):
        screen, canvas = Screen(form), Canvas(form.channels)
        old = bytes(screen.rows)
        canvas.take(screen.frame(0, range(form.cells), True))
        for number in range(1, 6):
            new = bytearray(old)
            for _ in range(chance.randint(0, 4)):
                new[chance.randrange(len(new))] ^= 1 << chance.randrange(8)
            cells, at, across = set(), 0, form.row_bytes
            while at < form.height:
                below = min(at + chance.randint(1, 40), form.height)
                cells |= screen.take(at, bytes(new[at * across : below * across]))
                at = below
            self.assertEqual(cells, self.other_cells(form, old, new))
            self.assertEqual(bytes(canvas.take(screen.frame(number, cells, False)).rows), bytes(new))
            old = bytes(new)

    def other_cells(self, form, old, new):
        found, across = set(), form.row_bytes
        for at in range(len(old)):
            if old[at] != new[at]:
                y, first = at // across, at % across * 8 // form.depth
                found.add(y // 32 * form.columns + min(first, form.width - 1) // 32)
        return found

    def test_by_chance(self):
        chance = random.Random(1)
        for channels in ALL_CHANNELS:
            for _ in range(2):
                self.try_form(chance, Form(channels, chance.randint(1, 70), chance.randint(1, 50)))

    def test_no_rows(self):
        screen = Screen(Form("k8", 10, 10))
        for upper, data in ((0, b"123"), (5, bytes(60)), (10, bytes(10))):
            with self.assertRaises(BadScreen):
                screen.take(upper, data)

    def test_cursor(self):
        for channels in ALL_CHANNELS:
            form = Form(channels, 40, 36)
            for cursor in (Point(3, 4), Point(28, 29), Point(-8, -3), Point(40, 0), Point(1 << 20, -(1 << 20))):
                screen = Screen(form)
                screen.take(0, bytes([0b01010101]) * len(screen.rows))
                plain, shown = (
                    Canvas(channels).take(screen.frame(0, range(form.cells), True, at)) for at in (None, cursor)
                )
                wanted = {(cursor.x + x, cursor.y + y): is_black for x, y, is_black in cursor_points()}
                self.compare(form, plain.rows, shown.rows, wanted)

    def compare(self, form, plain, shown, wanted):
        white = {"k": 255, "a": 255}
        full = sum(
            ((1 << int(bits)) - 1) << shift
            for letter, bits, shift in shifts(form.channels)
            if letter in "rgb" or letter in white
        )
        black = sum(((1 << int(bits)) - 1) << shift for letter, bits, shift in shifts(form.channels) if letter == "a")
        for y in range(form.height):
            for x in range(form.width):
                got, under = (pixel(rows, form, x, y) for rows in (shown, plain))
                expected = under if (x, y) not in wanted else black if wanted[x, y] else full
                self.assertEqual(got, expected, (form, x, y))

    def test_cells_of_cursor(self):
        screen = Screen(Form("k8", 70, 50))
        for point, cells in (
            ((0, 0), {0}),
            ((20, 20), {0, 1, 3, 4}),
            ((69, 49), {5}),
            ((70, 50), {5} - {5}),
            ((-16, 3), set()),
            ((-15, 3), {0}),
            ((64, 17), {2, 5}),
        ):
            self.assertEqual(screen.met_by(Point(*point)), cells, point)


def shifts(channels):
    found, shift = [], 0
    for letter, bits in reversed(list(zip(channels[::2], channels[1::2]))):
        found.append((letter, bits, shift))
        shift += int(bits)
    return found


def pixel(rows, form, x, y):
    at, depth = y * form.row_bytes, form.depth
    if depth >= 8:
        return int.from_bytes(rows[at + x * depth // 8 :][: depth // 8], "little")
    return rows[at + x * depth // 8] >> 8 - depth - x * depth % 8 & (1 << depth) - 1


class Rhythms(unittest.TestCase):
    """When is read how much."""

    def looks(self, made, times, came=Came.NOTHING, changed=()):
        """The looks at some times, each of which finds these changes."""
        found = []
        for now in times:
            found.append(made.look(now, came))
            if found[-1] is not Look.NOTHING:
                made.found(now, found[-1], changed)
        return found

    def test_quiet(self):
        made = Rhythm(knows=True)
        self.assertEqual(
            self.looks(made, [0, 1, 5, 9, 11, 12, 20, 21.5]),
            [Look.ALL, *3 * [Look.NOTHING], Look.ALL, *2 * [Look.NOTHING], Look.ALL],
        )

    def test_one_change(self):
        made = Rhythm(knows=True)
        self.looks(made, [0, 1])
        self.assertEqual(self.looks(made, [2], Came.MORE, [3]), [Look.ALL])
        self.assertEqual(
            self.looks(made, [2.03, 2.07, 2.2, 2.6, 2.7, 4, 9]),
            [Look.NOTHING, Look.HOT, Look.NOTHING, Look.ALL, *3 * [Look.NOTHING]],
        )

    def test_many_changes(self):
        made = Rhythm(knows=True)
        found = self.looks(made, [n / 40 for n in range(400)], Came.MORE, [3])
        self.assertLess(found.count(Look.ALL), 20)
        self.assertEqual(found.count(Look.NOTHING), 0)
        self.assertEqual(made.hot_pieces(9.99), [3])
        self.assertEqual(made.hot_pieces(11), [])

    def test_reads_of_others(self):
        made = Rhythm(knows=True)
        found = self.looks(made, [n / 40 for n in range(400)], Came.READS)
        self.assertLess(found.count(Look.ALL), 12)
        self.assertEqual(found.count(Look.HOT), 0)

    def test_what_looked_like_reads(self):
        made = Rhythm(knows=True)
        self.looks(made, [0])
        self.assertEqual(self.looks(made, [5], Came.READS), [Look.ALL])
        self.assertEqual(made.look(5.5, Came.READS), Look.NOTHING)
        self.assertEqual(made.look(6.1, Came.NOTHING), Look.ALL)
        made.found(6.1, Look.ALL, [1])
        self.assertEqual(made.look(6.3, Came.READS), Look.ALL)

    def test_acts(self):
        made = Rhythm(knows=True)
        self.looks(made, [0])
        made.act(3, is_seen=False)
        self.assertEqual(made.look(3, Came.NOTHING), Look.NOTHING)
        made.act(3.1, is_seen=True)
        self.assertEqual(made.look(3.1, Came.NOTHING), Look.ALL)

    def test_blind(self):
        made = Rhythm(knows=False)
        self.assertEqual(
            self.looks(made, [0, 0.5, 1.1, 1.6, 2.2]), [Look.ALL, Look.NOTHING, Look.ALL, Look.NOTHING, Look.ALL]
        )
        made.act(3, is_seen=False)
        self.assertEqual(self.looks(made, [3], changed=[2]), [Look.ALL])
        self.assertEqual(self.looks(made, [3.05, 3.1], changed=[2]), [Look.HOT, Look.HOT])

    def test_restart(self):
        made = Rhythm(knows=True)
        self.looks(made, [0], changed=[1])
        made.restart()
        self.assertEqual((made.look(0.01, Came.NOTHING), made.hot_pieces(0.01)), (Look.ALL, []))


class Connections(unittest.TestCase):
    """What the system tells of connections to a server."""

    def setUp(self):
        if not sys.platform.startswith("linux"):
            self.skipTest("the system does not tell of connections")

    def try_host(self, host, family):
        with socket.create_server((host, 0), family=family) as server:
            ours = socket.create_connection(server.getsockname()[:2])
            at_server, _ = server.accept()
            try:
                made = Traffic(ours.getpeername()[:2], ours.getsockname()[:2])
            except Unknown as error:
                self.skipTest(error)
            made.came()
            self.assertIs(made.came(), Came.NOTHING)
            ours.sendall(bytes(100))
            self.assertIs(self.soon(made, 0.1), Came.NOTHING)
            with socket.create_connection(server.getsockname()[:2]) as other:
                self.assertIs(self.soon(made, 5), Came.MORE)
                for count, wanted in ((23, Came.READS), (46, Came.READS), (24, Came.MORE)):
                    other.sendall(bytes(count))
                    self.assertIs(self.soon(made, 5), wanted)
            self.assertIs(self.soon(made, 5), Came.MORE)
            for one in (ours, at_server):
                one.close()
            made.close()
            with self.assertRaises(Unknown):
                made.came(), made.others()

    def soon(self, made, seconds):
        end = time.monotonic() + seconds
        found = made.came()
        while found is Came.NOTHING and time.monotonic() < end:
            time.sleep(0.01)
            found = made.came()
        return found

    def test_loopback(self):
        self.try_host("127.0.0.1", socket.AF_INET)

    def test_loopback_of_ipv6(self):
        self.try_host("::1", socket.AF_INET6)

    def test_elsewhere(self):
        with self.assertRaises(Unknown):
            Traffic(("127.0.0.1", 9), ("127.0.0.1", 9))

    def test_odd_bytes(self):
        self.assertEqual(list(messages_of(bytes(16))), [])
        self.assertEqual(list(messages_of(b"\x10\0\0\0\x03\0" + bytes(10))), [(3, b"\x10\0\0\0\x03\0" + bytes(10))])
        self.assertEqual(received_of(bytes(96)), 0)


class Asked(unittest.TestCase):
    """What a page may ask."""

    def test_requests(self):
        cases = [
            ({"kind": "keys", "text": "é\n"}, Keys("é\n")),
            ({"kind": "put", "text": ""}, PutSnarf("")),
            ({"kind": "size", "width": 1, "height": 2048}, Resize(1, 2048)),
            ({"kind": "repaint"}, Repaint()),
            ({"kind": "shown", "frame": 7}, requests.Shown(7)),
            ({"kind": "visible", "is": False}, requests.Visible(False)),
            ({"kind": "get"}, requests.WantSnarf()),
            ({"kind": "anew"}, requests.Anew()),
            ({"kind": "mouse", "x": -1, "y": 5, "buttons": 31}, Mouse(Point(-1, 5), 31)),
        ]
        for message, wanted in cases:
            self.assertEqual(requests.read_request(json.dumps(message)), wanted)

    def test_what_is_none(self):
        wrong = [
            "",
            "[",
            "[]",
            "7",
            "null",
            '{"kind":7}',
            '{"kind":"no"}',
            '{"kind":["keys"]}',
            '{"kind":"keys"}',
            '{"kind":"keys","text":7}',
            '{"kind":"keys","text":""}',
        ]
        wrong += [
            '{"kind":"keys","text":"\\u0000"}',
            '{"kind":"keys","text":"\\ud800"}',
            json.dumps({"kind": "keys", "text": 5000 * "a"}),
        ]
        wrong += [
            '{"kind":"mouse","x":1.5,"y":0,"buttons":0}',
            '{"kind":"mouse","x":true,"y":0,"buttons":0}',
            '{"kind":"mouse","x":1048577,"y":0,"buttons":0}',
        ]
        wrong += [
            '{"kind":"mouse","x":0,"y":0,"buttons":32}',
            '{"kind":"mouse","x":0,"y":0}',
            '{"kind":"size","width":0,"height":1}',
            '{"kind":"size","width":1,"height":2049}',
        ]
        wrong += [
            '{"kind":"visible","is":1}',
            '{"kind":"shown","frame":-1}',
            json.dumps({"kind": "put", "text": "é" * (1 << 19) + "a"}),
            "[" * 100000,
        ]
        for data in wrong:
            with self.subTest(data[:60]), self.assertRaises(requests.BadRequest):
                requests.read_request(data)

    def test_by_chance(self):
        chance = random.Random(3)
        values = [None, True, -1, 0, 1, 7, 2**70, 0.5, "", "a", "\0", "\ud800", [], {}, "x" * 5000]
        for _ in range(3000):
            names = chance.sample(["x", "y", "buttons", "text", "width", "height", "frame", "is"], chance.randrange(9))
            message = {
                "kind": chance.choice([*requests.KINDS, "no", 3]),
                **{name: chance.choice(values) for name in names},
            }
            try:
                self.assertIsNotNone(requests.read_request(json.dumps(message)))
            except requests.BadRequest as error:
                self.assertTrue(str(error))


class Queues(unittest.TestCase):
    def test_moves(self):
        queue = Queue()
        for x, buttons in ((1, 0), (2, 0), (3, 1), (4, 1), (5, 1), (6, 0), (7, 0)):
            queue.put(Mouse(Point(x, 0), buttons), print)
        acts = [act for act, _ in queue.wait(0)]
        self.assertEqual(
            [(act.point.x, act.is_seen) for act in acts], [(2, False), (3, True), (5, False), (6, True), (7, False)]
        )

    def test_too_much(self):
        queue = Queue()
        for _ in range(1000):
            queue.put(Keys("a"), print)
        with self.assertRaises(Busy):
            queue.put(Keys("a"), print)

    def test_time(self):
        queue = Queue()
        queue.want(True)
        self.assertEqual(queue.wait(time.monotonic() + 0.01), [])
        queue.put(Keys("a"), print)
        begun = time.monotonic()
        self.assertEqual(len(queue.wait(begun + 0.05, is_fixed=True)), 1)
        self.assertGreaterEqual(time.monotonic() - begun, 0.05)
        queue.end()
        self.assertEqual(queue.wait(time.monotonic() + 100), [])


def saved_in(page):
    """What a saved page has in it."""
    text = re.search(r'<script id="saved" type="application/json">(.*?)</script>', page, re.DOTALL)[1]
    found = json.loads(text)
    return found, zlib.decompress(base64.b64decode(found["frames"]))


class Recordings(unittest.TestCase):
    def setUp(self):
        self.screen = Screen(Form("k8", 70, 50))
        self.screen.take(0, bytes(range(70)) * 50)

    def test_frames(self):
        kept, taker = recording.Recording("k8"), recording.Taker()
        kept.add(taker.frame(self.screen, kept.next_number()), 0)
        self.assertEqual(taker.frame(self.screen, kept.next_number()), b"")
        taker.move(Point(20, 20))
        kept.add(taker.frame(self.screen, kept.next_number()), 40)
        taker.cells |= self.screen.take(49, bytes([9]) * 70)
        taker.move(Point(66, 0))
        kept.add(taker.frame(self.screen, kept.next_number()), 1040)
        found, frames = saved_in(kept.page("a </script> b"))
        self.assertEqual(
            (found["title"], found["channels"], found["times"]), ("a </script> b", "k8", [[0, 0], [1, 40], [2, 1040]])
        )
        whole = Canvas("k8").take(self.screen.frame(0, range(6), True, Point(66, 0)))
        canvas = Canvas("k8").take(frames)
        self.assertEqual((canvas.entry, canvas.cells, bytes(canvas.rows)), (2, 6, bytes(whole.rows)))
        self.assertEqual((kept.length, kept.is_full), (1040, False))

    def test_full(self):
        kept = recording.Recording("k8", 100)
        chance = random.Random(1)
        with self.assertRaisesRegex(recording.Full, "save it, or record anew"):
            for time_of in range(10_000):
                kept.add(bytes(chance.randrange(256) for _ in range(999)), time_of)
        self.assertTrue(kept.is_full)

    def test_pages(self):
        page = pages.live_page("abc")
        self.assertEqual(page.count('nonce="abc"'), 3)
        for left in ("NONCE", "PICTURES", "undefined"):
            self.assertNotIn(left, page.replace("PICTURES = ", ""))
        self.assertIn("class FrameReader", page)
        self.assertIn("&lt;b&gt;", pages.refusal_page("<b>", "then"))


if __name__ == "__main__":
    unittest.main()
