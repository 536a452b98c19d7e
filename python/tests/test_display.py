"""Tests of a display in this process: exact replies, clients, what is shown, the history, and what is refused. What is
right stands in examples/, in docs/FORMATS.md and in the header."""

import ctypes.util
import os
import pathlib
import random
import re
import tempfile
import threading
import unittest
from unittest import mock

import rio9
from needs import LIBRARY, needs_library
from rio9 import client, display, library, record
from rio9.desktop import Desktop
from rio9.display import Display
from rio9.library import Operation, Status

TOP = pathlib.Path(__file__).resolve().parents[2]
EXAMPLES, HEADER = TOP / "examples", TOP / "include" / "rio9.h"
# The record, and the display on which its replies were given.
RECORDS = {"first": (640, 480), "walk": (640, 480), "listing": (640, 480), "shapes": (640, 480), "rio": (320, 240)}
VERSION = bytes.fromhex("1300000064ffff180001000600395032303030")
RVERSION = bytes.fromhex("1300000065ffff180001000600395032303030")
ATTACH = bytes.fromhex("1400000068010000000000ffffffff0100750000")
RATTACH = bytes.fromhex("1400000069010080000000000100000000000000")
UNKNOWN_FID = bytes.fromhex("140000006b01000b00") + b"unknown fid"
GREY, WHITE, BLUE = (0x77, 0x77, 0x77), (255, 255, 255), bytes.fromhex("aaaa5500")


def lines_of(name):
    """The lines of a record of examples/, behind its header."""
    return (EXAMPLES / f"{name}.record").read_bytes().split(b"\n")[1:-1]


@needs_library
class Replies(unittest.TestCase):
    def test_first_session(self):
        with Display() as shown:
            session = shown.begin()
            self.assertEqual((session.number, session.exchange(VERSION)), (1, RVERSION))
            self.assertEqual(session.message(bytearray(ATTACH)), 65560)
            self.assertEqual((session.waiting(), session.take(), session.waiting()), (20, RATTACH, 0))
            self.assertEqual(session.take(), b"")
            session.end()
            kept = b"rio9 1\nB 1\nM 1 %s\nT 1\nM 1 %s\nT 1\nE 1\n"
            self.assertEqual(shown.record(), kept % (VERSION.hex().encode(), ATTACH.hex().encode()))

    def test_events_of_the_examples(self):
        for name, size in RECORDS.items():
            with self.subTest(name), Display(*size) as shown:
                replies = b"".join(map(shown.event, lines_of(name)))
                self.assertEqual(replies, (EXAMPLES / f"{name}.replies").read_bytes())
                self.assertEqual(shown.record(), (EXAMPLES / f"{name}.record").read_bytes())

    def test_a_refusal_is_a_reply(self):
        with Display(64, 48) as shown:
            with shown.begin() as session:
                session.exchange(VERSION)
                self.assertEqual(session.exchange(bytes.fromhex("0b0000007c010007000000")), UNKNOWN_FID)
            self.assertEqual(shown.record().split(b"\n")[-2], b"E 1")


@needs_library
class Clients(unittest.TestCase):
    def setUp(self):
        self.shown = Display(160, 120)
        self.addCleanup(self.shown.close)

    def test_one_class(self):
        with self.shown.client() as session:
            self.assertIs(type(session), rio9.Client)
            self.assertIs(rio9.Display, Display)
            self.assertEqual(session.stat(session.root)["name"], "/")
            self.assertEqual(len(session.list(session.root, "/")), 8)
            with self.assertRaisesRegex(client.Failure, "in this process"):
                session.socket.fileno()
            with self.assertRaisesRegex(client.Refused, "permission denied"):
                session.file(session.root, "screen", client.WRITE)
        self.assertEqual(self.shown.record().split(b"\n")[-2], b"E 1")
        with self.assertRaises(AttributeError):
            rio9.Nothing

    def test_desktop(self):
        desktop = Desktop(self.shown.client)
        window = desktop.new_window((8, 8, 120, 100), label="notes")
        desktop.type("hello\n")
        self.assertEqual(desktop.wait_for(window="notes", text="hello"), window)
        self.assertEqual([desktop.pixel(1, 1), desktop.pixel(60, 60)], [GREY, WHITE])
        desktop.move(3, 4)
        self.assertEqual(self.shown.pointer(), (3, 4))
        desktop.close()

    def cons(self):
        """A read of a window's text that waits: the session, and the tag."""
        session = self.shown.client("new -r 8 8 120 100")
        return session, session.ask_read(session.file(session.root, "cons").fid)

    def test_a_read_that_waits(self):
        waiting, tag = self.cons()
        self.assertEqual(waiting.transport.waiting(), 0)
        with self.assertRaisesRegex(client.Late, "what another session does"):
            waiting.answer(tag, None)
        with self.assertRaisesRegex(client.Late, "within 0 seconds"):
            waiting.answer(tag, 0)
        Desktop(self.shown.client).type("a\n")
        self.assertEqual(waiting.answer(tag)[1], b"a\n")
        tag = waiting.ask_read(max(waiting.fids))
        self.assertTrue(waiting.flush(tag))

    def test_an_answer_by_another_thread(self):
        waiting, tag = self.cons()
        typed = threading.Timer(0.05, lambda: Desktop(self.shown.client).type("b\n"))
        typed.start()
        self.assertEqual(waiting.answer(tag, 10)[1], b"b\n")
        typed.join()

    def test_sessions_that_end(self):
        one, other = self.shown.client(), self.shown.client()
        with self.assertRaisesRegex(client.Broken, "no whole 9P message"):
            one.transport.exchange(b"no message")
        self.assertEqual(one.stat(one.root)["name"], "/")
        one.close()
        one.close()
        with self.assertRaises(display.SessionClosed):
            one.stat(one.root)
        self.shown.close()
        other.close()
        with self.assertRaises(display.DisplayClosed):
            other.stat(0)

    def test_a_tag_that_is_in_use(self):
        waiting, tag = self.cons()
        read = record.write_message(record.BY_NAME["Tread"], {"tag": tag, "fid": 0, "offset": 0, "count": 1}, b"")
        with self.assertRaisesRegex(display.TagInUse, f"tag {tag} is in use") as raised:
            waiting.transport.exchange(read)
        self.assertEqual((raised.exception.status, raised.exception.number), (Status.DUPLICATE, tag))
        self.assertEqual(waiting.transport.receive(0), b"")
        with self.assertRaisesRegex(client.Broken, "ended the session"):
            waiting.answer(tag)

    def test_a_display_for_each_thread(self):
        shown = [Display(320, 240) for _ in range(2)]
        threads = [threading.Thread(target=each.load, args=[(EXAMPLES / "rio.record").read_bytes()]) for each in shown]
        for thread in threads:
            thread.start()
        for thread in threads:
            thread.join()
        with Display(320, 240) as alone:
            alone.load((EXAMPLES / "rio.record").read_bytes())
            self.assertEqual([each.screen() for each in shown], [alone.screen()] * 2)
        for each in shown:
            each.close()

    def test_threads_take_turns(self):
        def work():
            with self.shown.client() as session:
                for _ in range(50):
                    self.assertEqual(session.stat(session.root)["name"], "/")

        threads = [threading.Thread(target=work) for _ in range(4)]
        for thread in threads:
            thread.start()
        for thread in threads:
            thread.join()
        made = self.shown.record().count(b"\nM ")
        self.assertEqual(made, 4 * 52)


@needs_library
class Shown(unittest.TestCase):
    def setUp(self):
        self.shown = Display(160, 120)
        self.addCleanup(self.shown.close)

    def new_window(self, words):
        Desktop(self.shown.client).command_new(words)

    def test_rows_are_those_of_the_screen(self):
        self.new_window("-r 40 40 60 60")
        image, rows = self.shown.screen(), self.shown.rows()
        self.assertEqual(bytes(image[:60]), b"   x8r8g8b8           0           0         160         120 ")
        self.assertEqual((image[60:], len(rows), rows.readonly), (rows, 160 * 120 * 4, True))
        part = self.shown.rows((39, 40, 42, 42))
        self.assertEqual(bytes(part[:12]), bytes(rows[(40 * 160 + 39) * 4 : (40 * 160 + 42) * 4]))
        self.assertEqual(bytes(part[:12]), bytes.fromhex("77777700") + 2 * BLUE)
        buffer = bytearray(b"\xff" * 100)
        self.assertEqual(self.shown.rows_into(buffer, (39, 40, 42, 42)), 24)
        self.assertEqual(buffer, bytes(part) + b"\xff" * 76)
        self.assertEqual(self.shown.rows_into(memoryview(bytearray(160 * 120 * 4))), 160 * 120 * 4)
        with self.assertRaisesRegex(ValueError, "24 bytes, and there is room for 23"):
            self.shown.rows_into(bytearray(23), (39, 40, 42, 42))
        with self.assertRaises(TypeError):
            self.shown.rows_into(bytes(24), (39, 40, 42, 42))

    def test_bad_rectangles(self):
        for r in ((0, 0, 161, 1), (0, 0, 1, 121), (5, 5, 5, 6), (5, 5, 6, 4), (-1, 0, 5, 5), (0, 0, 1 << 32, 5)):
            for call in (self.shown.rows, lambda r: self.shown.rows_into(bytearray(8), r)):
                with self.subTest(r), self.assertRaises(display.BadRectangle) as raised:
                    call(r)
                self.assertEqual(raised.exception.status, Status.BAD_RECTANGLE)
        with self.assertRaises(display.BadRectangle):
            self.shown.call(Operation.ROWS, 0, 0, 161, 1)

    def test_marks(self):
        self.shown.clear_marks()
        self.assertEqual(self.shown.marks(), [])
        self.new_window("-r 40 40 60 60")
        self.assertEqual(self.shown.marks(), [(1, 1)])
        self.new_window("-r 100 70 140 90")
        self.assertEqual(self.shown.marks(), [(1, 1), (3, 2), (4, 2)])
        self.shown.clear_marks()
        self.assertEqual(self.shown.marks(), [])

    def test_another_size(self):
        with Display(7, 3, "k1") as shown:
            self.assertEqual((shown.size(), len(shown.rows()), len(shown.screen())), ((7, 3), 3, 63))
        Desktop(self.shown.client).write("hwsize", b"200x90")
        self.assertEqual((self.shown.size(), len(self.shown.rows())), ((200, 90), 200 * 90 * 4))
        self.assertIsNone(self.shown.pointer())

    def test_long_answers(self):
        """A record that has more bytes than one call has room for."""
        with Display(64, 48) as shown:
            session = shown.begin()
            session.exchange(VERSION)
            one = b"M 1 0b0000007c010007000000\nT 1\n"
            count = display.ROOM // len(one) + 1
            for _ in range(count):
                session.exchange(bytes.fromhex("0b0000007c010007000000"))
            self.assertEqual(shown.record(), b"rio9 1\nB 1\nM 1 %s\nT 1\n" % VERSION.hex().encode() + one * count)
        with mock.patch.object(display.formats, "row_bytes", lambda *_: 4):
            image = self.shown.screen()
        self.assertEqual(image, self.shown.screen())


@needs_library
class History(unittest.TestCase):
    def test_a_record_leads_to_the_same_display(self):
        text = (EXAMPLES / "rio.record").read_bytes()
        with Display(320, 240) as one, Display(320, 240) as other:
            self.assertEqual(one.load(memoryview(text)), text.count(b"\n") - 1)
            for line in lines_of("rio"):
                other.event(line)
            self.assertEqual((one.record(), one.screen()), (text, other.screen()))
            self.assertEqual(one.entries(), (text.count(b"\n") - 1,) * 2)

    def test_forgetting(self):
        with Display(64, 48) as one, Display(64, 48) as other:
            one.begin().exchange(VERSION)
            self.assertEqual((one.entries(), other.entries()), ((3, 3), (0, 0)))
            one.forget()
            self.assertEqual((one.entries(), one.record()), ((3, 0), b"rio9 2 4\n"))

    def test_what_is_no_record(self):
        cases = [
            (display.BadRecord, b"rio9 1\nB 2\n", 7),
            (display.LateRecord, b"rio9 2 9\nB 1\n", 9),
            (display.BadEvent, b"rio9 1\nB 1\n", 0),
        ]
        for kind, text, number in cases:
            with self.subTest(text), Display(64, 48) as shown:
                shown.begin()
                with self.assertRaises(kind) as raised:
                    shown.load(text)
                self.assertEqual(raised.exception.number, number)
                with self.assertRaises(display.DisplayError):
                    shown.event(b"no line")

    def test_memory_that_ran_out(self):
        with Display(64, 48) as shown:
            with shown.client():
                shown.event(b"X")
                with self.assertRaises(display.NoMemory):
                    shown.begin()


@needs_library
class Junk(unittest.TestCase):
    """Calls made by chance, most of them wrong: each is done, or raises an error with a name."""

    def setUp(self):
        self.chance = random.Random(58)

    def message(self):
        """Bytes, of which half begin with their number, as a message does."""
        data = self.chance.randbytes(self.chance.randint(3, 60))
        return self.chance.choice([data, (len(data) + 4).to_bytes(4, "little") + data])

    def call(self, shown, sessions):
        """Makes a call."""
        chance = self.chance
        chance.choice(
            [
                lambda: chance.choice(sessions).exchange(self.message()),
                lambda: shown.event(chance.choice([b"B 1", b"M 1 07", b"T 1", b"E 9", b"X1", b"", b"\xff" * 9])),
                lambda: shown.load(chance.choice([b"", b"rio9 1\n", b"rio9 1\nB 1\n", chance.randbytes(30)])),
                lambda: shown.rows(tuple(chance.randint(-3, 100) for _ in range(4))),
                lambda: shown.rows_into(bytearray(chance.randint(0, 40000))),
                lambda: shown.call(chance.randint(0, 40), *(chance.getrandbits(32) for _ in range(4)), data=b"junk"),
                lambda: (shown.marks(), shown.screen(), shown.pointer(), shown.record()),
            ]
        )()

    def test_by_chance(self):
        for _ in range(20):
            channels = self.chance.choice(["x8r8g8b8", "k1", "r5g6b5", "k8", "r8g8b8"])
            with Display(self.chance.randint(1, 90), self.chance.randint(1, 70), channels) as shown:
                sessions = [shown.begin() for _ in range(3)]
                for _ in range(200):
                    try:
                        self.call(shown, sessions)
                    except (display.DisplayError, ValueError) as error:
                        self.assertIsNot(type(error), display.DisplayError)


class Opening(unittest.TestCase):
    @needs_library
    def test_what_is_no_display(self):
        for words, kind in (
            ((0, 5), display.BadSize),
            ((5, 2049), display.BadSize),
            ((-1, 5), display.BadSize),
            ((5, 5, "q8"), display.BadChannels),
            ((5, 5, "r3"), display.BadChannels),
        ):
            with self.subTest(words), self.assertRaises(kind):
                Display(*words)
        closed = Display(5, 5)
        closed.close()
        with self.assertRaisesRegex(display.DisplayClosed, "has been closed"):
            closed.size()

    @needs_library
    def test_too_many_sessions(self):
        with Display(5, 5) as shown:
            for _ in range(1024):
                shown.begin()
            with self.assertRaisesRegex(display.TooManySessions, "end one"):
                shown.begin()

    @needs_library
    def test_no_such_operation(self):
        with Display(5, 5) as shown, self.assertRaisesRegex(display.BadOperation, "no such operation") as raised:
            shown.call(99)
        self.assertEqual(raised.exception.status, Status.BAD_OPERATION)

    def test_the_header(self):
        """The numbers and the structures are those of the header."""
        text = HEADER.read_text(encoding="utf-8")
        for name, numbers in (("status", Status), ("operation", Operation)):
            body = re.search(rf"enum rio9_{name} \{{(.*?)\}};", text, re.DOTALL)[1]
            found = {word: int(number) for word, number in re.findall(r"RIO9_(\w+) = ([0-9]+)", body)}
            self.assertEqual(found, {each.name: each.value for each in numbers})
        fields = re.findall(r"^\s+uint(?:32|64)_t ([a-z, ]+);", text, re.MULTILINE)
        names = [name for line in fields for name in line.split(", ")]
        both = [*library.Request._fields_, *library.Result._fields_]
        self.assertEqual(names, [name for name, _ in both])


class Finding(unittest.TestCase):
    def found(self, told=None, **environment):
        """What is found with some words in the environment."""
        kept = {name: value for name, value in os.environ.items() if name != library.TOLD_BY}
        with mock.patch.dict(os.environ, {**kept, **environment}, clear=True):
            return library.find(told)

    def test_places(self):
        with tempfile.TemporaryDirectory() as folder:
            room = pathlib.Path(folder)
            file = room / "lib" / library.NAME
            file.parent.mkdir()
            file.touch()
            (room / "bin").mkdir()
            (room / "bin" / "rio9").touch(mode=0o755)
            self.assertEqual(self.found(RIO9_LIBRARY=str(file)), str(file.resolve()))
            self.assertEqual(self.found(str(file)), str(file.resolve()))
            with mock.patch.object(library, "places", lambda: iter([room / "none", file])):
                self.assertEqual(self.found(), str(file))
            with mock.patch.dict(os.environ, {"PATH": str(room / "bin")}):
                self.assertIn(room.resolve() / "lib" / library.NAME, list(library.places()))

    def test_none(self):
        with self.assertRaisesRegex(library.NoLibrary, "/not/there is no library of rio9: tools/install.sh"):
            self.found(RIO9_LIBRARY="/not/there")
        with mock.patch.object(library, "places", lambda: iter(())), mock.patch.object(library, "NAME", "none.so"):
            with self.assertRaisesRegex(library.NoLibrary, "neither beside the package nor installed"):
                self.found()

    def test_another_library(self):
        name = ctypes.util.find_library("c")
        self.assertIsNotNone(name)
        with self.assertRaisesRegex(library.NoLibrary, "is no library of rio9"):
            library.Library(name)

    @needs_library
    def test_loaded_once(self):
        self.assertIs(library.load(LIBRARY), library.load(LIBRARY))


if __name__ == "__main__":
    unittest.main()
