"""Tests that each command tells in one line what is wrong with its words, its files or its input, and ends with a
status."""

import contextlib
import io
import pathlib
import subprocess
import sys
import tempfile
import unittest
from unittest import mock

import rio9
from rio9 import commands

PYTHON = pathlib.Path(__file__).resolve().parent.parent
EXAMPLES = PYTHON.parent / "examples"
FIRST = (EXAMPLES / "first.record").read_bytes()
NOT_THERE = str(EXAMPLES / "not-there" / "file")
KEEPS_NOTHING = b"         k8           0           0           1           1 \0"

# A command and its words, its input, its status, and what the line names.
CASES = [
    ("explain --chan q8", FIRST, 2, "q8"),
    ("explain", FIRST[:-1], 1, "line 5: "),
    ("write", b"session 2\n", 1, "line 1, word 2 `2`: "),
    ("write", b"\n# \xff\n", 1, "line 2: "),
    ("picture", b"", 2, "out"),
    ("picture OUT --size 0x3 --chan k8", b"", 2, "0x3"),
    ("picture OUT --size 3x3", b"", 2, "--chan"),
    ("picture OUT --scale 17", b"", 2, "17"),
    ("picture OUT", b"", 1, "run replay with --screen"),
    ("picture OUT", b"rio9 1\n", 1, "line 1, word 1 `rio9`: "),
    ("picture OUT --size 1x1 --chan k8", b"", 1, "0 Rreads"),
    (f"picture {NOT_THERE}", KEEPS_NOTHING, 2, NOT_THERE),
    ("wireshark", b"", 2, "RECORD"),
    (f"wireshark {NOT_THERE} {EXAMPLES}/first.replies OUT", b"", 2, NOT_THERE),
    (f"wireshark {EXAMPLES}/first.record {EXAMPLES}/first.record OUT", b"", 1, "line 1, word 1 `rio9`: "),
    (f"font {NOT_THERE}", b"", 2, f"{NOT_THERE}; apt install xfonts-base"),
    (f"font {EXAMPLES}/first.record", b"", 1, "it is no font"),
    ("events file", b"", 2, "file"),
    ("events", b"# none\n1 2\n", 1, "line 2: "),
    ("events", b"640 0 0\n", 1, "line 1: columns"),
]


def run(words, given=b""):
    """How `rio9d` ends with some words."""
    return subprocess.run([sys.executable, str(PYTHON / "rio9d"), *words], input=given, capture_output=True)


class Lines(unittest.TestCase):
    def test_one_line_tells_what_is_wrong(self):
        with tempfile.TemporaryDirectory() as room:
            for words, given, status, told in CASES:
                command, *rest = words.replace("OUT", f"{room}/out").split()
                with self.subTest(words):
                    ended = run([command, *rest], given)
                    line = ended.stderr.decode()
                    self.assertEqual((ended.returncode, ended.stdout, line.count("\n")), (status, b"", 1), line)
                    self.assertTrue(line.startswith(f"rio9d {command}: ") and told in line, line)


class Commands(unittest.TestCase):
    """The commands in this process, with one that ends in other ways than by itself."""

    def ended(self, words, error=None):
        """Status, output and lines on err."""
        command = mock.Mock(side_effect=error, return_value=0)
        out, err = io.StringIO(), io.StringIO()
        with mock.patch.object(commands.Command, "load", lambda _: command):
            with contextlib.redirect_stdout(out), contextlib.redirect_stderr(err):
                status = commands.main(words)
        return status, out.getvalue(), err.getvalue() if not err.closed else ""

    def test_ends(self):
        self.assertEqual(self.ended(["font", "a"]), (0, "", ""))
        self.assertEqual(self.ended(["font"], KeyboardInterrupt()), (130, "", ""))
        self.assertEqual(self.ended(["font"], BrokenPipeError()), (1, "", ""))
        self.assertEqual(self.ended(["--version"])[:2], (0, f"rio9d {rio9.__version__}\n"))
        self.assertIn("  font ", self.ended(["-h"])[1])

    def test_missing_libraries(self):
        lacks = ModuleNotFoundError("no aiohttp", name="aiohttp.web")
        told = "rio9d live: the library aiohttp is missing: apt install python3-aiohttp, or pip install 'rio9[live]'\n"
        self.assertEqual(self.ended(["live"], lacks), (2, "", told))
        with self.assertRaises(ModuleNotFoundError):
            self.ended(["live"], ModuleNotFoundError("no such module", name="nothing"))

    def test_each_is_there(self):
        for name, command in commands.COMMANDS.items():
            with self.subTest(name):
                try:
                    self.assertTrue(callable(command.load()))
                except ModuleNotFoundError as error:
                    self.assertIn(error.name.split(".")[0], commands.LIBRARIES)


class Words(unittest.TestCase):
    def test_by_the_name_of_the_package(self):
        words = [sys.executable, "-m", "rio9", "--version"]
        ended = subprocess.run(words, cwd=PYTHON, capture_output=True, text=True)
        self.assertEqual((ended.returncode, ended.stdout), (0, f"rio9d {rio9.__version__}\n"))

    def test_help_needs_no_library(self):
        blocked = f"import sys; sys.modules.update(dict.fromkeys({list(commands.LIBRARIES)}))"
        script = f"{blocked}; from rio9.commands import main; sys.exit(main(sys.argv[1:]))"
        for name in commands.COMMANDS:
            with self.subTest(name):
                words = [sys.executable, "-c", script, name, "--help"]
                ended = subprocess.run(words, cwd=PYTHON, capture_output=True, text=True)
                self.assertEqual((ended.returncode, ended.stderr), (0, ""))
                self.assertTrue(ended.stdout.startswith(f"usage: rio9d {name} "), ended.stdout)

    def test_no_command(self):
        for words, told in (([], b"a command is wanted"), (["dance"], b"no command: dance")):
            ended = run(words)
            self.assertEqual((ended.returncode, ended.stdout, ended.stderr.count(b"\n")), (2, b"", 1))
            self.assertIn(told, ended.stderr)

    def test_help(self):
        ended = run(["--help"])
        self.assertEqual((ended.returncode, ended.stderr), (0, b""))
        self.assertIn(b"  picture ", ended.stdout)


if __name__ == "__main__":
    unittest.main()
