#!/usr/bin/env python3
"""Compares the screens of two records of windows with those of Plan 9's own draw device.

The records are those that `rio9 gen` makes of 1 and of 10, examples/windows1.record and windows10.record.

The sums are the SHA-1 of the display's rows, without the head of the image file, that drawterm's devdraw with libmemdraw and
libmemlayer gives for the same draw messages, before the session ends and after, where the order of the windows is put back after
each `o`: that device raises the window that it moves, and rio9 leaves it where it stands. Without the built program (`cd
crates/rio9 && rt run -- replay < stdin` builds it) the screens are not compared, which it tells. Needs: Python 3.9 or later,
its standard library.
"""

import hashlib
import os
import subprocess
import sys
import unittest

ROOT = os.path.dirname(os.path.dirname(os.path.abspath(__file__)))
PROGRAM = os.path.join(ROOT, "crates", "rio9", "out", "rio9")
HEADER_BYTES = 60

SUMS = {
    1: ("874f3a32ef44af85163749ee67273e72e7c51071", "44dfad36984c628da9313bde9dd4fb346ff37642"),
    10: ("27082ae826929bd8a739bae5b7782ebfd231b2a4", "2051911ce945e44564cc263c151ba6592d4f336b"),
}


def run(command, given=b""):
    return subprocess.run(command, input=given, capture_output=True, check=True).stdout


def record(number):
    with open(os.path.join(ROOT, "examples", f"windows{number}.record"), "rb") as file:
        return file.read()


def screen_sum(text):
    """The SHA-1 of the rows of the display after a record."""
    out = run([PROGRAM, "replay", "--screen"], text)
    begin = out.index(b"\nS ") + 1
    line, _, file = out[begin:].partition(b"\n")
    assert len(file) == int(line.split()[1])
    return hashlib.sha1(file[HEADER_BYTES:]).hexdigest()


class Screens(unittest.TestCase):
    @unittest.skipUnless(os.access(PROGRAM, os.X_OK), "crates/rio9/out/rio9 is not built")
    def test_screens_are_those_of_plan_9(self):
        for number, (before, after) in SUMS.items():
            text = record(number)
            self.assertEqual(screen_sum(text), after, f"{number}, after the end")
            self.assertEqual(screen_sum(text.removesuffix(b"E 1\n")), before, f"{number}, before the end")


if __name__ == "__main__":
    unittest.main(verbosity=2)
