#!/usr/bin/env python3
"""Tests that the examples of docs/EMBED.md, in C, Python and Rust, print examples/first.replies, and runs the tests of the Rust crates.
What is not there is skipped, and said: the library of rio9 (RIO9_LIBRARY names it), cc, cargo."""

import os
import re
import shutil
import subprocess
import sys
import tempfile
import unittest
from pathlib import Path

from rio9 import library

TOP = Path(__file__).resolve().parent.parent
PAGE = (TOP / "docs" / "EMBED.md").read_text(encoding="utf-8")
REPLIES = (TOP / "examples" / "first.replies").read_bytes()
EXAMPLE = TOP / "rust" / "rio9" / "examples" / "first.rs"
MOST_LINES = 24


def found_library():
    """The path of the library, or None."""
    try:
        return Path(library.find())
    except library.NoLibrary:
        return None


LIBRARY = found_library()


def block(heading, kind):
    """A block of the page below a heading."""
    part = PAGE.split(f"\n## {heading}\n", 1)[1].split("\n## ", 1)[0]
    return re.search(rf"^```{kind}\n(.*?)^```$", part, re.DOTALL | re.MULTILINE)[1]


@unittest.skipIf(LIBRARY is None, f"there is no {library.NAME}: tools/install.sh installs it, or name it by {library.TOLD_BY}")
class Examples(unittest.TestCase):
    def setUp(self):
        folder = tempfile.TemporaryDirectory()
        self.addCleanup(folder.cleanup)
        self.room = Path(folder.name)
        self.environment = {
            **os.environ,
            "RIO9_LIBRARY": str(LIBRARY),
            "RIO9_LIB_DIR": str(LIBRARY.parent),
            "PYTHONPATH": str(TOP / "python"),
            "PYTHONDONTWRITEBYTECODE": "1",
            "CARGO_TARGET_DIR": os.environ.get("CARGO_TARGET_DIR", str(self.room / "target")),
        }

    def run_words(self, *words, folder=None):
        """What words print."""
        ended = subprocess.run(words, cwd=folder or self.room, env=self.environment, capture_output=True)
        self.assertEqual(ended.returncode, 0, (ended.stdout[-2000:] + ended.stderr[-2000:]).decode(errors="replace"))
        return ended.stdout

    @unittest.skipIf(shutil.which("cc") is None, "there is no cc")
    def test_c(self):
        (self.room / "first.c").write_text(block("From C", "c"))
        folder = str(LIBRARY.parent)
        words = ["-std=c99", "-Wall", "-Wextra", "-Werror", "-I", str(TOP / "include"), "first.c", "-o", "first"]
        self.run_words("cc", *words, f"-L{folder}", f"-Wl,-rpath,{folder}", "-lrio9")
        self.assertEqual(self.run_words(str(self.room / "first")), REPLIES)

    def test_python(self):
        self.assertEqual(self.run_words(sys.executable, "-c", block("From Python", "python")), REPLIES)

    @unittest.skipIf(shutil.which("cargo") is None, "there is no cargo")
    def test_rust(self):
        folder = TOP / "rust"
        self.run_words("cargo", "test", "--offline", "--quiet", folder=folder)
        self.assertEqual(
            self.run_words("cargo", "run", "--offline", "--quiet", "--example", "first", folder=folder), REPLIES
        )


class Page(unittest.TestCase):
    def test_the_example_of_the_crate(self):
        """The page's program is the crate's example."""
        text = EXAMPLE.read_text(encoding="utf-8")
        self.assertEqual(block("From Rust", "rust"), text.split("\n\n", 1)[1])

    def test_short(self):
        for heading, kind in (("From C", "c"), ("From Python", "python"), ("From Rust", "rust")):
            self.assertLessEqual(block(heading, kind).count("\n"), MOST_LINES, heading)


if __name__ == "__main__":
    unittest.main()
