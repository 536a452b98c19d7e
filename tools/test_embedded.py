#!/usr/bin/env python3
"""Tests that embedded.py compares: with the program itself as the peer records are the same, and with one that is wrong they differ. Skipped
without the library of rio9 or the program."""

import os
import subprocess
import sys
import tempfile
import unittest
from pathlib import Path

from rio9 import library, program

TOOLS = Path(__file__).resolve().parent
EXAMPLES = TOOLS.parent / "examples"


def found(find, failure):
    """What is found, or None."""
    try:
        return find()
    except failure:
        return None


LIBRARY, PROGRAM = found(library.find, library.NoLibrary), found(program.find, program.Failure)


@unittest.skipIf(LIBRARY is None or PROGRAM is None, "there is no library of rio9, or no program")
class Compared(unittest.TestCase):
    def setUp(self):
        folder = tempfile.TemporaryDirectory()
        self.addCleanup(folder.cleanup)
        self.room = Path(folder.name)

    def run_tool(self, *words):
        """Status and output of the tool."""
        environment = {**os.environ, "RIO9_LIBRARY": LIBRARY}
        ended = subprocess.run(
            [sys.executable, str(TOOLS / "embedded.py"), *map(str, words)], env=environment, capture_output=True, text=True
        )
        return ended.returncode, ended.stdout

    def wrong_peer(self, end):
        """A peer that prints what the program prints, with other bytes at the end."""
        path = self.room / "peer"
        path.write_text(f"#!/bin/sh\n'{PROGRAM}' \"$@\"\nprintf '{end}'\n")
        path.chmod(0o755)
        return path

    def test_same(self):
        for name, text in {
            "late": b"rio9 2 9\nB 1\n",
            "bad": b"rio9 1\nB 2\n",
            "stops": b"rio9 1\nB 1\nM 1 1300000064ffff180001000600395032303030\nX\n",
        }.items():
            (self.room / f"{name}.record").write_bytes(text)
        for record in ("first", "rio", "input"):
            (self.room / f"{record}.record").write_bytes((EXAMPLES / f"{record}.record").read_bytes())
            (self.room / f"{record}.record.args").write_text("replay\n--size\n320x240\n--chan\nr5g6b5\n")
        told = "2 refused, 1 same by events, 3 same by events and calls\n"
        self.assertEqual(self.run_tool(PROGRAM, self.room), (0, told))

    def test_other_bytes(self):
        status, told = self.run_tool(self.wrong_peer("junk"), EXAMPLES / "first.record")
        self.assertEqual((status, told.count("\n")), (1, 2), told)
        self.assertIn("first.record: replies and display:", told)
        self.assertTrue(told.endswith("1 differs\n"), told)

    def test_an_example_that_is_wrong(self):
        status, told = self.run_tool(PROGRAM, EXAMPLES / "first.record", "--steps", self.wrong_peer("x"))
        self.assertEqual((status, "of the crate" in told), (1, True), told)


if __name__ == "__main__":
    unittest.main()
