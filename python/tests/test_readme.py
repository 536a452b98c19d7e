"""Runs the blocks of python/README.md: the launcher, the client, the records and the fixture, one after the other on
one server."""

import os
import pathlib
import re
import signal
import subprocess
import sys
import tempfile
import unittest

from needs import PROGRAM, needs_libraries, needs_library, needs_program, python_with
from rio9 import side
from test_picture import pixels_of

PYTHON = pathlib.Path(__file__).resolve().parent.parent
README = (PYTHON / "README.md").read_text(encoding="utf-8")
SECONDS = 60
ADDRESS, IN_PYTHON = "127.0.0.1:5640", '"127.0.0.1", 5640'


def block(heading, kind, number=0):
    """A block below a heading."""
    part = README.split(f"\n## {heading}\n", 1)[1].split("\n## ", 1)[0]
    return re.findall(rf"^```{kind}\n(.*?)^```$", part, re.DOTALL | re.MULTILINE)[number]


class Blocks(unittest.TestCase):
    def setUp(self):
        folder = tempfile.TemporaryDirectory()
        self.addCleanup(folder.cleanup)
        self.room = pathlib.Path(folder.name)
        (self.room / "python").symlink_to(PYTHON)
        path = os.pathsep.join([str(PYTHON), os.environ.get("PYTHONPATH", "")])
        told = {"PYTHONPATH": path, "RIO9_PROGRAM": PROGRAM or "", "PYTHONDONTWRITEBYTECODE": "1"}
        self.environment = {**os.environ, **told}

    def run_block(self, *command, text):
        """What a block prints."""
        words = [*command, text]
        run = subprocess.run(words, cwd=self.room, env=self.environment, capture_output=True, timeout=SECONDS)
        self.assertEqual((run.returncode, run.stderr), (0, b""), run.stderr)
        return run.stdout

    @needs_program
    def test_server_client_and_records(self):
        words = block("A server", "sh").replace(ADDRESS, "127.0.0.1:0").split()
        launcher = subprocess.Popen(
            words, cwd=self.room, env=self.environment, stdout=subprocess.PIPE, stderr=subprocess.DEVNULL
        )
        try:
            address = launcher.stdout.readline().split()[1].decode()
            out = self.run_block("sh", "-ec", text=block("A client", "sh").replace(ADDRESS, address))
            self.assertEqual(out, b"1\nhello\nwindow.2.1")
            port = address.rpartition(":")[2]
            script = block("A client", "python").replace(IN_PYTHON, f'"127.0.0.1", {port}')
            self.assertNotIn("5640", script)
            self.run_block(sys.executable, "-c", text=script)
            launcher.send_signal(signal.SIGTERM)
            self.assertEqual(launcher.wait(SECONDS), 0)
        finally:
            launcher.kill()
            launcher.wait()
            launcher.stdout.close()
        self.assertEqual(pixels_of((self.room / "screen.png").read_bytes())[:2], (640, 480))
        self.check_records()

    def check_records(self):
        out = self.run_block("sh", "-ec", text=block("Records", "sh"))
        self.assertIn(b"session 1\n1 Tversion msize=65560 version=9P2000\n", out)
        self.assertEqual(pixels_of((self.room / "replayed.png").read_bytes())[:2], (640, 480))
        self.assertTrue((self.room / "session.frames").read_bytes().startswith(b"F 0 300\nZ 640 480\n"))
        record = str(self.room / "session.record")
        self.assertEqual(side.load(record).entries, pathlib.Path(record).read_bytes().count(b"\n") - 1)
        names = re.findall(
            r"^\| `(\w+)`(?:, `(\w+)`)? \|", README.split("\n## A server\n")[1].split("\n## ")[0], re.MULTILINE
        )
        self.assertEqual(
            {name for pair in names for name in pair if name}, set(side.json.loads(side.load(record).text()))
        )

    @needs_program
    @needs_libraries("pytest", "PIL")
    def test_fixture(self):
        (self.room / "test_greeting.py").write_text(block("Tests of graphics clients", "python"))
        command = [
            python_with("pytest", "PIL"),
            "-m",
            "pytest",
            "-q",
            "-p",
            "rio9.pytest_plugin",
            "-p",
            "no:cacheprovider",
            "test_greeting.py",
        ]
        for words in (["--rio9-update"], []):
            run = subprocess.run(
                [*command, *words], cwd=self.room, env=self.environment, capture_output=True, timeout=SECONDS
            )
            self.assertEqual(run.returncode, 0, run.stdout.decode())

    @needs_library
    def test_display_in_the_process(self):
        self.run_block(sys.executable, "-c", text=block("A display in the process", "python"))
        record = (self.room / "session.record").read_bytes()
        self.assertEqual((record[:11], record[-4:]), (b"rio9 1\nB 1\n", b"E 1\n"))

    @needs_libraries("setuptools", "wheel", "pip")
    def test_installation(self):
        """What pip installs has the modules, their files and the command; a copy is installed, since a build leaves
        files."""
        self.assertIn("pip install ./python", block("A server", "sh", 0) + README)
        copy = 'cp -r python/ copy && cd copy && exec "$0" -m pip install --quiet --no-index --no-deps --no-build-isolation --target ../there .'
        run = subprocess.run(
            ["sh", "-ec", copy, python_with("setuptools", "wheel", "pip")],
            cwd=self.room,
            capture_output=True,
            timeout=SECONDS,
        )
        self.assertEqual(run.returncode, 0, run.stderr)
        there = self.room / "there"
        for name in (
            "rio9/player.html",
            "rio9/font.txt",
            "rio9/py.typed",
            "rio9/live/live.html",
            "rio9/term/window.py",
            "bin/rio9d",
        ):
            self.assertTrue((there / name).exists(), name)


if __name__ == "__main__":
    unittest.main()
