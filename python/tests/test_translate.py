"""Tests of rio9.translate. The pictures that shapes are compared with are those that Plan 9's own draw device drew
(tools/clients)."""

import pathlib
import re
import signal
import socket
import subprocess
import sys
import tempfile
import unittest
import zlib

from needs import PROGRAM, needs_program
from rio9 import client, record, server
from rio9.translate import colours, masks, packed, shapes, unpack
from rio9.translate.ellipses import Ellipse

RIO9D = str(pathlib.Path(__file__).resolve().parent.parent / "rio9d")
SECONDS = 30
WIDTH, HEIGHT = 192, 142
WHOLE = (0, 0, WIDTH, HEIGHT)
PLAIN = shapes.Source((-999, -999, 999, 999), (0, 0, 1, 1), True)
ANGLES = shapes.Angles(30, 100)
CORNERS = [(5, 5), (90, 20), (50, 80), (10, 60)]

# How many points Plan 9's device sets of each, and the check sum of the picture: `#` where a point is set, else `.`.
DRAWN = {
    "line": (shapes.line(((5, 5), (100, 60)), shapes.Stroke(0, 0, 2), (0, 0), PLAIN, WHOLE), 551, 0xF2A58A58),
    "ellipse": (shapes.ellipse((60, 50), Ellipse(40, 25, 1), (0, 0), WHOLE), 552, 0xD1BF9AF2),
    "filled ellipse": (shapes.ellipse((60, 50), Ellipse(40, 25, -1), (0, 0), WHOLE), 3251, 0x68190009),
    "filled arc": (shapes.arc((60, 50), Ellipse(40, 25, -1), (0, 0), ANGLES, WHOLE, 11), 663, 0x9EB6528F),
    "filled polygon": (shapes.polygon(CORNERS, ~0, (0, 0), WHOLE), 3940, 0x9B9BE4A6),
}
LINES = shapes.lines(CORNERS, shapes.Stroke(0, 0, 1), (0, 0), PLAIN, WHOLE), 617, 0xAE45F202


def picture_of(drawn):
    """The picture of shapes, as rows of signs, made of the parts by which they are drawn."""
    rows = [["."] * WIDTH for _ in range(HEIGHT)]
    for shape in drawn:
        for part in masks.parts_of(shape, True, True):
            found = part.rectangles if isinstance(part, masks.Rectangles) else part.rectangles()
            for left, upper, right, lower in found:
                for y in range(upper, lower):
                    rows[y][left:right] = "#" * (right - left)
    return "\n".join("".join(row) for row in rows)


class Shapes(unittest.TestCase):
    def test_pictures(self):
        for name, (shape, count, check) in DRAWN.items():
            with self.subTest(name):
                told = picture_of([shape])
                self.assertEqual((told.count("#"), zlib.crc32(told.encode())), (count, check))

    def test_lines(self):
        told = picture_of(LINES[0])
        self.assertEqual((told.count("#"), zlib.crc32(told.encode())), LINES[1:])

    def test_points_drawn_twice_are_in_two_layers(self):
        layers = masks.layers_of([(0, 0, 3, 1), (2, 0, 4, 2), (2, 0, 3, 1)])
        self.assertEqual(layers, [[0b1111, 0b0011], [0b0010, 0], [0b0010, 0]])

    def test_the_cheaper_way(self):
        flat = masks.Mask((0, 0, 640, 2), [2**640 - 1] * 2, (0, 0))
        slanted = masks.Mask((0, 0, 64, 64), [1 << y for y in range(64)], (0, 0))
        self.assertEqual(masks.cheaper(flat), masks.Rectangles([(0, 0, 640, 2)], (0, 0)))
        self.assertIs(masks.cheaper(slanted), slanted)


class Packed(unittest.TestCase):
    def test_runs_and_copies(self):
        # abc; five bytes from three back; x; the last byte three times
        data = bytes.fromhex("82616263" "0802" "80780000")
        self.assertEqual(packed.unpack(data, 0, 12, 1), (b"abcabcabxxxx", len(data)))

    def test_no_run_goes_over_the_end_of_a_row(self):
        self.assertEqual(packed.unpack(bytes.fromhex("816162" "8063" "0002"), 0, 3, 2), (b"abcabc", 7))
        for data in ("836162636465", "81616200", "8161", ""):
            with self.subTest(data), self.assertRaises(packed.BadPacking):
                packed.unpack(bytes.fromhex(data), 0, 3, 1)

    def test_files(self):
        head = b"".join(f"{field:>11} ".encode() for field in ("k8", 0, 0, 3, 2))
        file = b"compressed\n" + head + b"          2           7 " + bytes.fromhex("8261626382646566"[:14]) + b"behind"
        self.assertRaises(packed.BadPacking, unpack.unpacked, file)
        file = b"compressed\n" + head + b"          2           6 " + bytes.fromhex("826162630002") + b"behind"
        self.assertEqual(unpack.unpacked(file), head + b"abcabcbehind")
        self.assertEqual(unpack.unpacked(b"other"), b"other")

    def test_bad_files(self):
        for data in (b"compressed\n", b"compressed\n" + b"x" * 60):
            with self.subTest(data), tempfile.TemporaryDirectory() as room:
                pathlib.Path(room, "a").write_bytes(data)
                command = [sys.executable, RIO9D, "unpack", f"{room}/a", "--out", f"{room}/out"]
                run = subprocess.run(command, capture_output=True, text=True)
                self.assertEqual((run.returncode, run.stdout, run.stderr.count("\n")), (1, "", 1), run.stderr)

    def test_no_file_is_lost(self):
        with tempfile.TemporaryDirectory() as room:
            for name in ("a", "b"):
                pathlib.Path(room, name).mkdir()
                pathlib.Path(room, name, "x").write_bytes(name.encode())
            cases = (
                (["a/x", "b/x", "--out", "c"], "two files have the name x"),
                (["a/x", "--out", "a"], "a/x is read, and would be lost: name another folder"),
            )
            for words, told in cases:
                with self.subTest(words):
                    command = [sys.executable, RIO9D, "unpack", *words]
                    run = subprocess.run(command, cwd=room, capture_output=True, text=True)
                    self.assertEqual((run.returncode, run.stderr.count("\n")), (2, 1), run.stderr)
                    self.assertIn(told, run.stderr)
            self.assertEqual(pathlib.Path(room, "a", "x").read_bytes(), b"a")


class Colours(unittest.TestCase):
    def test_the_map(self):
        self.assertEqual([colours.MAP[index] for index in (0, 1, 3, 255, 0x11, 0x33)], MAPPED)

    def test_there_and_back(self):
        every = bytes(range(256))
        self.assertEqual(colours.narrowed(colours.widened(every)), every)
        self.assertEqual(colours.mapped(0xFEFEFEFF), 0xFFFFFFFF)


# Of libmemdraw's table of color(6).
MAPPED = [(0, 0, 0), (0, 0, 0x44), (0, 0, 0xCC), (255, 255, 255), (0x11, 0x11, 0x11), (0x33, 0x33, 0x33)]


class Translated:
    """A server, and a translator before it, which end with the block."""

    def __init__(self, room):
        words = server.ServerWords(binary=PROGRAM, record=f"{room}/record", workers=4, connections=40)
        self.server = server.Server(words)
        self.process = None

    def __enter__(self):
        self.server.__enter__()
        host, port = self.server.address
        command = [sys.executable, RIO9D, "translate", "127.0.0.1:0", f"{host}:{port}"]
        self.process = subprocess.Popen(command, stdout=subprocess.PIPE, text=True)
        told = re.fullmatch(r"listening 127\.0\.0\.1:([0-9]+)\n", self.process.stdout.readline())
        self.address = "127.0.0.1", int(told[1])
        return self

    def __exit__(self, kind, *words):
        self.process.terminate()
        try:
            ended = self.process.wait(SECONDS)
        finally:
            self.process.kill()
            self.process.stdout.close()
            self.server.__exit__(kind, *words)
        if kind is None and ended != 0:
            raise AssertionError(f"rio9d translate ended with {ended}")


def draw_bytes(*lines):
    """The bytes of draw messages in readable lines."""
    return b"".join(record.payload_of(record.words_of(line)) for line in lines)


IMAGE = "b id={} screenid=0 refresh=0 chan={} repl=0 r=0,0,8,4 clipr=0,0,8,4 color={}"
RED = "b id=2 screenid=0 refresh=0 chan=x8r8g8b8 repl=1 r=0,0,1,1 clipr=0,0,99,99 color=0xff0000ff"
LINE = b"L" + b"".join(number.to_bytes(4, "little") for number in (1, 0, 1, 5, 1, 0, 0, 0, 2, 0, 0))


@needs_program
class Sessions(unittest.TestCase):
    @classmethod
    def setUpClass(cls):
        room = tempfile.TemporaryDirectory()
        cls.addClassCleanup(room.cleanup)
        cls.translated = Translated(room.name)
        cls.translated.__enter__()
        cls.addClassCleanup(cls.translated.__exit__, None, None, None)

    def setUp(self):
        self.session = client.Client(self.translated.address, seconds=SECONDS)
        self.addCleanup(self.session.close)
        self.session.version()
        self.root = self.session.attach("new -r 10 10 200 150")
        self.ctl = self.session.file(self.root, "draw/new", client.READWRITE)
        self.number = self.ctl.read(144)[:11].decode().strip()
        self.data = self.session.file(self.root, f"draw/{self.number}/data", client.READWRITE)

    def write(self, data):
        """Writes draw messages."""
        self.assertEqual(self.session.write(self.data.fid, data), len(data))

    def pixels(self, r, image=1):
        """Pixels of an image."""
        self.write(draw_bytes(f"r id={image} r={r}"))
        return self.session.read(self.data.fid)

    def test_a_line_and_what_stands_behind_it(self):
        drawing = draw_bytes("d dstid=1 srcid=2 maskid=2 dstr=0,3,1,4 srcp=0,0 maskp=0,0")
        self.write(draw_bytes(IMAGE.format(1, "k8", "0xffffffff"), RED) + LINE + drawing)
        self.assertEqual(self.pixels("0,1,8,2"), bytes([0x4C] * 5 + [0xFF] * 3))
        self.assertNotEqual(self.pixels("0,3,1,4"), b"\xff")

    def test_packed_rows(self):
        packed_rows = b"Y" + draw_bytes("y id=1 r=0,0,8,2")[1:] + bytes.fromhex("87" "0102030405060708" "1407")
        self.write(draw_bytes(IMAGE.format(1, "k8", "0xffffffff")) + packed_rows + draw_bytes(RED))
        self.assertEqual(self.pixels("0,0,8,2"), bytes(range(1, 9)) * 2)
        with self.assertRaisesRegex(client.Refused, "bad writeimage call"):
            self.write(packed_rows[:-2])
        with self.assertRaisesRegex(client.Refused, "writeimage outside image"):
            self.write(b"Y" + draw_bytes("y id=1 r=0,0,9,2")[1:] + packed_rows[21:])

    def test_refusals_keep_their_place(self):
        """What stands before a refused message is done, and nothing behind it."""
        first = draw_bytes(IMAGE.format(1, "k8", "0xffffffff"))
        with self.assertRaisesRegex(client.Refused, "unknown id for draw image"):
            self.write(first + LINE + draw_bytes(RED))
        self.assertEqual(self.pixels("0,0,1,1"), b"\xff")
        with self.assertRaisesRegex(client.Refused, "image id in use"):
            self.write(first + LINE)
        negative = LINE[:29] + b"\xff\xff\xff\xff" + LINE[33:]
        for bad, why in ((LINE[:-1], "short draw message"), (negative, "negative line width")):
            with self.subTest(why), self.assertRaisesRegex(client.Refused, why):
                self.write(draw_bytes(RED, "f id=2") + bad)
        with self.assertRaisesRegex(client.Refused, "unknown draw message"):
            self.write(b"!")

    def test_a_map_of_colours(self):
        self.write(draw_bytes(IMAGE.format(3, "0x58", "0xfefefeff"), "y id=3 r=0,0,8,2") + bytes(range(0, 256, 16)))
        self.assertEqual(self.pixels("0,0,8,3", image=3), bytes(range(0, 256, 16)) + b"\xff" * 8)
        self.write(draw_bytes("r id=3 r=0,0,8,1"))
        with self.assertRaisesRegex(client.Refused, "draw read too short"):
            self.session.read(self.data.fid, count=7)
        self.assertEqual(len(self.session.read(self.data.fid)), 8)

    def test_versions_and_walks_that_are_refused(self):
        with client.Client(self.translated.address, seconds=SECONDS) as session:
            self.assertEqual(session.call("Tversion", msize=8192, version="8P")[0]["version"], "unknown")
        for path in ("nothing/cursor", "wsys/999/cursor"):
            with self.subTest(path), self.assertRaisesRegex(client.Refused, "file does not exist"):
                self.session.file(self.root, path)
        with self.assertRaisesRegex(client.Refused, "unknown fid"):
            self.session.walk(999, ["cursor"])

    def test_ids_move_when_a_client_takes_them(self):
        self.write(draw_bytes(IMAGE.format(1, "k8", "0xffffffff"), RED) + LINE)
        for own in range(0xF0F00000, 0xF0F00008):
            self.write(draw_bytes(IMAGE.format(own, "k8", "0x000000ff")))
        self.write(LINE[:9] + b"\3" + LINE[10:])
        self.assertEqual(self.pixels("0,3,1,4"), b"\x4c")
        self.assertEqual(self.pixels("0,0,8,4", image=0xF0F00001), bytes(32))

    def test_ctl_describes_what_it_did(self):
        self.write(draw_bytes(IMAGE.format(1, "k8", "0xffffffff"), RED))
        self.session.write(self.ctl.fid, (2).to_bytes(4, "little"))
        self.write(LINE)
        self.assertIn(b" x8r8g8b8 ", self.session.read(self.ctl.fid, count=144))

    def test_a_cursor(self):
        with self.session.file(self.root, "winid") as file:
            number = file.read().decode().strip()
        for path in ("cursor", f"wsys/{number}/cursor"):
            with self.subTest(path), self.session.file(self.root, path, client.READWRITE) as file:
                file.write(bytes(range(72)))
                self.assertEqual(self.session.read(file.fid), bytes(range(72)))
                self.assertEqual(self.session.stat(file.fid)["name"], "cursor")
                self.session.write(file.fid, b"")
                self.assertEqual(self.session.read(file.fid), b"")
        with self.assertRaisesRegex(client.Refused, "file does not exist"):
            self.session.file(self.root, "draw/cursor")

    def test_the_largest_writes_and_reads(self):
        rows = bytes(range(250)) * 256
        self.write(draw_bytes("b id=1 screenid=0 refresh=0 chan=x8r8g8b8 repl=0 r=0,0,250,64 clipr=0,0,250,64 color=0"))
        self.write(draw_bytes("y id=1 r=0,0,250,64") + rows)
        self.assertEqual(self.pixels("0,0,250,64"), rows)

    def test_a_read_that_waits_goes_on_beside_drawing(self):
        with self.session.file(self.root, "mouse") as mouse:
            tag = self.session.ask_read(mouse.fid, count=49)
            self.write(draw_bytes(IMAGE.format(1, "k8", "0xffffffff"), RED) + LINE)
            self.assertTrue(self.session.flush(tag))

    def test_the_end_of_a_window_is_told(self):
        with self.assertRaisesRegex(client.Refused, "window deleted"):
            with self.session.file(self.root, "wctl", client.WRITE) as file:
                file.write(b"delete")
            self.session.file(self.root, "cursor")


class Words(unittest.TestCase):
    def run_words(self, *words):
        """The status and the line on standard error of a run that does not go on."""
        run = subprocess.run([sys.executable, RIO9D, "translate", *words], capture_output=True, text=True, timeout=SECONDS)
        self.assertEqual((run.stdout, run.stderr.count("\n")), ("", 1), run.stderr)
        return run.returncode, run.stderr

    def test_bad_words(self):
        self.assertEqual(self.run_words("127.0.0.1:0")[0], 2)
        self.assertEqual(self.run_words("127.0.0.1:0", "127.0.0.1:65536")[0], 2)

    def test_an_address_that_is_taken(self):
        with socket.create_server(("127.0.0.1", 0)) as taken:
            status, line = self.run_words(f"127.0.0.1:{taken.getsockname()[1]}", "127.0.0.1:1")
        self.assertEqual(status, 1)
        self.assertIn("Address already in use; 127.0.0.1:0 takes a free port", line)

    def test_a_server_that_is_not_there(self):
        with socket.create_server(("127.0.0.1", 0)) as taken:
            port = taken.getsockname()[1]
        words = [sys.executable, RIO9D, "translate", "127.0.0.1:0", f"127.0.0.1:{port}"]
        with subprocess.Popen(words, stdout=subprocess.PIPE, stderr=subprocess.PIPE, text=True) as process:
            listens = int(process.stdout.readline().rsplit(":", 1)[1])
            with socket.create_connection(("127.0.0.1", listens), SECONDS) as held:
                self.assertEqual(held.recv(1), b"")
            process.send_signal(signal.SIGTERM)
            line = process.stderr.read()
            self.assertEqual(process.wait(SECONDS), 0)
        self.assertRegex(line, rf"the server at 127.0.0.1:{port} cannot be reached: .*; is a server there\?")

    def test_a_signal_ends_it_without_a_complaint(self):
        with socket.create_server(("127.0.0.1", 0)) as server_socket:
            words = [sys.executable, RIO9D, "translate", "127.0.0.1:0", f"127.0.0.1:{server_socket.getsockname()[1]}"]
            with subprocess.Popen(words, stdout=subprocess.PIPE, stderr=subprocess.PIPE, text=True) as process:
                port = int(process.stdout.readline().rsplit(":", 1)[1])
                with socket.create_connection(("127.0.0.1", port)) as held:
                    held.sendall(b"\x13")
                    server_socket.accept()[0].close()
                    process.send_signal(signal.SIGINT)
                    self.assertEqual((process.wait(SECONDS), process.stderr.read()), (0, ""))


if __name__ == "__main__":
    unittest.main()
