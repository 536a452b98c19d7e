"""Tests of rio9.desktop and rio9.pictures on a server that runs."""

import pathlib
import tempfile
import unittest

from needs import needs_program
from rio9 import client, pictures
from rio9.desktop import Desktop, NotSeen
from rio9.server import Server, ServerWords

try:
    from PIL import Image
except ModuleNotFoundError:
    Image = None

GREY = (119, 119, 119)


@needs_program
class Desktops(unittest.TestCase):
    def setUp(self):
        self.begin()

    def begin(self, **words):
        self.server = Server(ServerWords(**words))
        self.server.begin()
        self.addCleanup(self.server.close)
        self.desktop = Desktop(lambda: client.connect(self.server.address))
        self.addCleanup(self.desktop.close)

    def test_hands_and_eyes(self):
        desktop = self.desktop
        window = desktop.new_window((16, 16, 176, 128), label="notes")
        self.assertEqual((desktop.windows(), desktop.numbers(), desktop.size()), ({1: "notes"}, [1], (640, 480)))
        desktop.click(40, 40)
        desktop.type("word " * 20 + "\n")
        self.assertEqual(desktop.wait_for(window=window, text="word word"), window)
        self.assertEqual(desktop.text(window), "word " * 20 + "\n")
        self.assertEqual((desktop.text(9), desktop.of_window(9, "label")), ("", None))
        self.assertEqual(desktop.pixels((0, 0, 2, 2)), [[GREY, GREY], [GREY, GREY]])
        self.assertEqual(desktop.wait_for(pixel=(0, 0, GREY)), None)
        desktop.move(100, 100)
        desktop.drag((100, 100), (110, 120), 2)

    def test_what_the_mouse_does(self):
        """Events come to the window as they were given; a move that it has not read gives way to what follows."""
        window = self.desktop.new_window((16, 16, 176, 128))
        self.desktop.click(40, 40)
        with client.connect(self.server.address, str(window)) as session, session.file(session.root, "mouse") as file:
            tag = session.ask_read(file.fid, count=49)
            self.desktop.drag((50, 60), (70, 80), 3)
            found = [session.answer(tag)[1]]
            found += [session.read(file.fid, count=49) for _ in range(3)]
        events = [list(map(int, event[1:37].split())) for event in found]
        self.assertEqual(events, [[40, 40, 1], [40, 40, 0], [50, 60, 4], [70, 80, 0]])

    def test_what_is_refused(self):
        for work, told in (
            (lambda: self.desktop.click(-1, 3), "outside of the display, which has 640x480"),
            (lambda: self.desktop.click(3, 3, 6), "button from 1 to 5"),
            (lambda: self.desktop.command_new("-r 1"), "bad wctl command"),
        ):
            with self.assertRaisesRegex(client.Failure, told):
                work()

    def test_what_does_not_come(self):
        self.desktop.new_window(label="there")
        with self.assertRaises(NotSeen) as raised:
            self.desktop.wait_for(window="there", text="none", pixel=(0, 0, (1, 2, 3)), seconds=0.03)
        told = str(raised.exception)
        for part in ("window 'there' was there", "no text 'none' was there", "the pixel (0, 0) was (119, 119, 119)"):
            self.assertIn(part, told)

    @unittest.skipIf(Image is None, "Pillow is not there: tools/setup_tests.sh installs it")
    def test_screens(self):
        for channels in ("x8r8g8b8", "r8g8b8", "r5g6b5", "k8", "k1"):
            with self.subTest(channels):
                self.begin(channels=channels, size=(70, 50))
                self.desktop.new_window((8, 8, 60, 40))
                screen = self.desktop.screen()
                pixels = [pixel for row in self.desktop.pixels((0, 0, 70, 50)) for pixel in row]
                self.assertEqual((screen.size, list(screen.getdata())), ((70, 50), pixels))


class Sessions(unittest.TestCase):
    def test_no_server(self):
        with self.assertRaisesRegex(client.Broken, "is a server there"):
            client.connect(("127.0.0.1", 1))

    def test_files_that_are_no_pictures(self):
        with self.assertRaises(client.Failure):
            pictures.image_of(b"junk")


@unittest.skipIf(Image is None, "Pillow is not there: tools/setup_tests.sh installs it")
class Differences(unittest.TestCase):
    def difference(self, changed, mask=(), size=(8, 6)):
        with tempfile.TemporaryDirectory() as room:
            golden = pathlib.Path(room, "golden.png")
            Image.new("RGB", (8, 6), (10, 20, 30)).save(golden)
            actual = Image.new("RGB", size, (10, 20, 30))
            for point in changed:
                actual.putpixel(point, (10, 20, 31))
            return pictures.difference_of(golden, actual, mask)

    def test_differences(self):
        self.assertIsNone(self.difference([]))
        found = self.difference([(1, 2), (5, 3)])
        self.assertEqual(found.told, "2 pixels differ, within (1,2)-(6,4)")
        self.assertEqual((found.shown.getpixel((1, 2)), found.shown.getpixel((0, 0))), ((255, 0, 0), (193, 196, 198)))

    def test_masks(self):
        self.assertIsNone(self.difference([(1, 2), (5, 3)], [(1, 2, 2, 3), (5, 3, 8, 6), (4, 4, 4, 9)]))
        self.assertEqual(self.difference([(1, 2), (5, 3)], [(1, 2, 2, 3)]).told, "1 pixels differ, within (5,3)-(6,4)")

    def test_sizes(self):
        self.assertEqual(
            self.difference([], size=(8, 7)).told, "the golden picture has 8x6 points, and the display 8x7"
        )


if __name__ == "__main__":
    unittest.main()
