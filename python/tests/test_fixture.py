"""Tests of the fixture rio9_server: tests that use it are run by pytest, with a server and in the process, and what they
leave is looked at."""

import os
import pathlib
import re
import subprocess
import sys
import tempfile
import time
import unittest

from needs import LIBRARY, PROGRAM, needs_libraries, needs_library, needs_program, python_with
from test_picture import pixels_of

PYTHON = pathlib.Path(__file__).resolve().parent.parent

USES = """
import pytest


def test_desktop(rio9_server):
    window = rio9_server.new_window((16, 16, 176, 128), label="notes")
    rio9_server.type("hello")
    rio9_server.type("\\n")
    assert rio9_server.wait_for(window="notes", text="hello") == window
    assert rio9_server.wait_for(pixel=(1, 1, (119, 119, 119))) is None
    assert rio9_server.pixels((15, 60, 17, 61)) == [[(119, 119, 119), rio9_server.pixel(16, 60)]]
    rio9_server.click(100, 100)
    rio9_server.drag((100, 100), (120, 120), 3)
    rio9_server.move(0, 0)
    with rio9_server.client("new") as session:
        assert session.stat(session.root)["name"] == "/"
    rio9_server.expect_screen("pictures/desktop.png", mask=[(300, 0, 640, 480)])


@pytest.mark.rio9(size=(320, 240), channels="r5g6b5", workers=2)
def test_other_display(rio9_server):
    assert rio9_server.size() == rio9_server.screen().size == (320, 240)
    assert rio9_server.screen().getpixel((5, 5)) == rio9_server.pixel(5, 5)
"""

FAILS = """
import pytest
from rio9 import client, desktop


def test_waits(rio9_server):
    rio9_server.new_window(label="there")
    rio9_server.wait_for(window="not there", text="a text", pixel=(0, 0, (1, 2, 3)), seconds=0.02)


def test_wrong_words(rio9_server):
    with pytest.raises(client.Failure, match="outside of the display"):
        rio9_server.click(640, 0)
    with pytest.raises(client.Failure, match="button"):
        rio9_server.click(0, 0, 6)
    with pytest.raises(client.Refused):
        rio9_server.client("7")


@pytest.mark.rio9(colour="red")
def test_wrong_mark(rio9_server):
    pass
"""

MANY = """
import pytest


@pytest.mark.parametrize("number", range(20))
def test_one(rio9_server, number):
    rio9_server.new_window((16, 16, 176, 128))
    rio9_server.wait_for(window=1)
"""

WHERE = """
import pytest
from rio9 import client


def test_served(rio9_server):
    host, port = rio9_server.address
    with client.connect((host, port)) as session:
        assert session.socket.getpeername()[1] == rio9_server.server.address[1] == port
    rio9_server.move(1, 1)
    with pytest.raises(client.Failure, match="--rio9-transport process"):
        rio9_server.display


def test_held(rio9_server):
    rio9_server.move(1, 1)
    assert rio9_server.display.pointer() == (1, 1)
    with pytest.raises(client.Failure, match="ask for the address before all else"):
        rio9_server.address


@pytest.mark.rio9(transport="tcp")
def test_marked(rio9_server):
    rio9_server.move(1, 1)
    assert rio9_server.address[1] > 0


@pytest.mark.rio9(transport="pigeon")
def test_wrong_transport(rio9_server):
    pass
"""

EXACT = """
import pytest

VERSION = bytes.fromhex("1300000064ffff180001000600395032303030")
ATTACH = bytes.fromhex("1400000068010000000000ffffffff0100750000")


@pytest.mark.rio9(size=(320, 240))
@pytest.mark.parametrize("number", range(200))
def test_one(rio9_server, number):
    session = rio9_server.display.begin()
    assert session.exchange(VERSION) == bytes.fromhex("1300000065ffff180001000600395032303030")
    assert session.exchange(ATTACH) == bytes.fromhex("1400000069010080000000000100000000000000")
    rio9_server.new_window((16, 16, 176, 128))
    assert rio9_server.screen().getpixel((100, 100)) == (255, 255, 255)
"""


@needs_libraries("pytest", "PIL")
class Runs(unittest.TestCase):
    """Tests of the fixture by pytest."""

    transport = "auto"

    def setUp(self):
        folder = tempfile.TemporaryDirectory()
        self.addCleanup(folder.cleanup)
        self.room = pathlib.Path(folder.name)

    def run_tests(self, text, *words, program=PROGRAM or "", library=LIBRARY or ""):
        """Status and output of pytest for some tests."""
        (self.room / "test_it.py").write_text(text)
        command = [
            python_with("pytest", "PIL"),
            "-m",
            "pytest",
            "-p",
            "rio9.pytest_plugin",
            "-p",
            "no:cacheprovider",
            "-rs",
            "--rio9-transport",
            self.transport,
        ]
        path = os.pathsep.join([str(PYTHON), os.environ.get("PYTHONPATH", "")])
        told = {"PYTHONPATH": path, "RIO9_PROGRAM": program, "RIO9_LIBRARY": library, "PYTHONDONTWRITEBYTECODE": "1"}
        environment = {**os.environ, **told}
        run = subprocess.run([*command, *words], cwd=self.room, env=environment, capture_output=True)
        return run.returncode, run.stdout.decode()

    def kept(self):
        """What is kept of tests that failed."""
        return sorted(str(path.relative_to(self.room)) for path in self.room.glob("rio9-failed/*/*"))


@needs_program
class Served(Runs):
    """With a server for each test."""

    transport = "tcp"

    def test_golden_pictures(self):
        status, told = self.run_tests(USES)
        self.assertIn("there is no golden picture", told)
        kept = "rio9-failed/test_it.py-test_desktop"
        record = [f"{kept}/session.record", f"{kept}/session.record.json"]
        self.assertEqual((status, self.kept()), (1, [f"{kept}/desktop-actual.png", *record]))
        self.assertEqual(self.run_tests(USES, "--rio9-update")[0], 0)
        status, told = self.run_tests(USES)
        self.assertEqual((status, self.kept(), list(self.room.glob("rio9-failed"))), (0, [], []), told)
        status, told = self.run_tests(USES.replace("new_window((16,", "new_window((20,"))
        self.assertRegex(told, r"[0-9]+ pixels differ, within \(16,16\)-\([0-9]+,128\)")
        pictures = [f"{kept}/desktop-{kind}.png" for kind in ("actual", "difference", "golden")]
        self.assertEqual((status, self.kept()), (1, [*pictures, *record]))
        self.replays_to_the_picture(self.room / record[0], self.room / pictures[0])

    def replays_to_the_picture(self, record, actual):
        """The kept record gives the picture that the test saw, and each reply."""
        command = [sys.executable, str(PYTHON / "rio9d")]
        output = subprocess.run([*command, "replay", str(record), "--screen"], capture_output=True, check=True).stdout
        subprocess.run([*command, "picture", str(self.room / "last.png")], input=output, check=True)
        compare = (
            "import sys; from PIL import Image; one, other = (Image.open(name).convert('RGB') for name in sys.argv[1:]); "
            "sys.exit(one.tobytes() != other.tobytes())"
        )
        words = [python_with("PIL"), "-c", compare, str(self.room / "last.png"), str(actual)]
        self.assertEqual(subprocess.run(words).returncode, 0)
        self.assertEqual(pixels_of((self.room / "last.png").read_bytes())[:2], (640, 480))

    def test_what_is_told(self):
        status, told = self.run_tests(FAILS)
        self.assertEqual(status, 1)
        self.assertIn("within 0.02 seconds no window 'not there' was there, of {1: 'there'}; no text 'a text'", told)
        self.assertIn("the pixel (0, 0) was (119, 119, 119), and not (1, 2, 3)", told)
        self.assertIn("The record is kept: rio9d replay", told)
        self.assertIn("the mark rio9 takes words as these", told)
        self.assertIn("1 failed, 1 passed, 1 error", told)

    def test_without_a_program(self):
        status, told = self.run_tests(USES, program=str(self.room / "none"))
        self.assertEqual(status, 0)
        self.assertIn("is no program that can be run", told)

    def test_many(self):
        """Each test has its server at a port of its own, also beside others; the time is told, and bounded loosely
        here."""
        begin = time.monotonic()
        status, told = self.run_tests(MANY)
        self.assertEqual(status, 0, told)
        seconds = float(re.search(r"20 passed in ([0-9.]+)s", told)[1])
        self.assertLess(seconds, 20, time.monotonic() - begin)
        if python_with("pytest", "PIL", "xdist") == python_with("pytest", "PIL"):
            self.assertEqual(self.run_tests(MANY, "-n", "3")[0], 0)


@needs_program
@needs_library
class Held(Served):
    """In the process of the tests. The program replays what is kept."""

    transport = "process"

    def test_without_a_program(self):
        status, told = self.run_tests(USES, library=str(self.room / "none"))
        self.assertEqual(status, 0)
        self.assertIn("is no library of rio9", told)

    def test_exact_replies(self):
        """The time of a test with replies and a picture is told, and bounded loosely here."""
        status, told = self.run_tests(EXACT, program=str(self.room / "none"))
        self.assertEqual(status, 0, told)
        self.assertLess(float(re.search(r"200 passed in ([0-9.]+)s", told)[1]), 100)


@needs_program
@needs_library
class Either(Runs):
    """Where each test has what it asks for first."""

    def test_where(self):
        status, told = self.run_tests(WHERE)
        self.assertEqual(status, 1)
        self.assertIn("3 passed, 1 error", told)
        self.assertIn("a transport as process, tcp or auto, and not 'pigeon'", told)


if __name__ == "__main__":
    unittest.main()
