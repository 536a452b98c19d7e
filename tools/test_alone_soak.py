#!/usr/bin/env python3
"""Tests of guests.py and alone_soak.py: that what is made reaches each reason, and that a program which does otherwise is found."""

import contextlib
import io
import pathlib
import tempfile
import unittest

import alone_soak
from rio9 import formats
import guests
from chance import Chance
from rio9.formats import MESSAGE
from guests import BREACHES, Meeting
from made_records import USUAL_DISPLAY, Made
from soak import Ending

RECORD = b"rio9 1\nB 1\nB 2\nM 1 1300000064ffff180001000600395032303030\nM 2 1300000064ffff180001000600395032303030\n"
REPLY = b"1300000065ffff180001000600395032303030\n"
REPLIES = b"R 1 " + REPLY + b"R 2 " + REPLY

# A program whose `replay` has replies to sessions 1 and 2 of any record; of `alone` it knows what a test says, of session $s and on
# standard input.
PROGRAM = """#!/bin/sh
replies() { grep '^M' | sed 's/^M \\([0-9]*\\) .*/R \\1 %s/'; }
[ $1 = replay ] && { replies; exit; }
for s; do :; done
%s
"""
GOOD = 'replies | grep "^R $s "; exit 0'
NO_LINE = "cat >/dev/null; exit 7"
WITH_OUTPUT = "echo rio9: not alone: entry 3: reason 1 >&2; replies; exit 7"


def not_alone(entry, reason):
    """How a program ends that says so of session 1, and is right of others."""
    return f'[ $s = 1 ] && {{ echo "rio9: not alone: entry {entry}: reason {reason}" >&2; exit 7; }}; {GOOD}'


# A program that is wrong, and what is found.
WRONG = [
    ("replies; exit 0", "not the lines of `replay`"),
    ("exit 0", "not the lines of `replay`"),
    (NO_LINE, "status 7, b'' on standard error"),
    (WITH_OUTPUT, "status 7"),
    ("exit 2", "status 2"),
    (not_alone(1, 1), "entry 1 cannot give reason 1"),
    (not_alone(9, 1), "entry 9 cannot give reason 1"),
    (not_alone(4, 1), "entry 4 cannot give reason 1"),
    (not_alone(3, 4), "entry 3 cannot give reason 4"),
    (not_alone(3, 13), "entry 3 cannot give reason 13"),
    (not_alone(3, 1), "the entries before it"),
]


class Records(unittest.TestCase):
    def test_a_seed_decides(self):
        made = [guests.guests(f"1 guests {number}") for number in (1, 1, 2)]
        self.assertEqual(made[0], made[1])
        self.assertNotEqual(made[0], made[2])

    def test_guests_are_among_others(self):
        for number in range(8):
            events = formats.read_record(guests.guests(f"1 guests {number}").text)
            self.assertGreater(len({event.session for event in events if event.kind == MESSAGE}), 1)

    def test_each_way_not_to_be_alone_makes_a_message(self):
        self.assertEqual(list(BREACHES), list(alone_soak.REASONS))
        for reason, ways in BREACHES.items():
            for way in ways:
                maker = Meeting(Chance("1"), *USUAL_DISPLAY)
                host, guest = maker.arrive(""), maker.arrive_as_guest()
                before = len(maker.events)
                way(maker, host, guest)
                with self.subTest(way.__name__):
                    self.assertGreater(len(maker.events), before)
                    last = maker.events[-1]
                    self.assertEqual(last.kind, MESSAGE)
                    self.assertNotIn(reason, alone_soak.OTHERS_REASONS if last.session == guest.number else ())

    def test_a_name_follows_moves(self):
        maker = Meeting(Chance("1"), *USUAL_DISPLAY)
        path = maker.path_of(maker.arrive_as_guest())
        self.assertEqual(maker.name_of(path), "window.1.1")
        for count in range(2, 6):
            maker.placed(path)
            self.assertEqual(maker.name_of(path), f"window.1.{count}")


class Checks(unittest.TestCase):
    def setUp(self):
        room = tempfile.TemporaryDirectory()
        self.addCleanup(room.cleanup)
        self.room, self.folder = pathlib.Path(room.name), pathlib.Path(room.name) / "folder"
        self.folder.mkdir()
        (self.folder / "two.record").write_bytes(RECORD)
        (self.folder / "two.record.args").write_text("replay\n--size\n64x48\n--screen\n")

    def program(self, name, alone):
        path = self.room / name
        path.write_text(PROGRAM % (REPLY.decode().strip(), alone))
        path.chmod(0o755)
        return str(path)

    def soak(self, *words):
        words = [*words, "--jobs", "1", "--keep", str(self.room), "--folder", str(self.folder), "--records", "0"]
        with contextlib.redirect_stdout(io.StringIO()) as out:
            status = alone_soak.main(words)
        return status, out.getvalue()

    def test_a_right_program(self):
        good = self.program("good", GOOD)
        status, told = self.soak(good, "--program", good)
        self.assertEqual(status, 0, told)
        self.assertRegex(told, "^1 records of 0.0 MB, 3 sessions; 3 alone to the end, with 2 replies; .*; 0 wrong\n$")

    def test_what_is_otherwise_is_kept(self):
        for alone, found in WRONG:
            with self.subTest(alone):
                status, told = self.soak("--program", self.program("wrong", alone))
                self.assertEqual(status, 1)
                self.assertIn(found, told)
                self.assertIn(f"< {self.room / 'alone-two-1.record'}", told)
                (self.room / "alone-two-1.record").unlink()

    def test_a_peer_that_ends_otherwise_is_found(self):
        good, other = self.program("good", GOOD), self.program("other", not_alone(3, 6))
        status, told = self.soak(f"{other} alone", "--program", good)
        self.assertEqual(status, 1)
        self.assertIn("status 0, and the peer's 7", told)

    def test_a_record_that_replay_refuses(self):
        made = Made(b"rio9 3\n", (), 0)
        check = alone_soak.Check(None)
        refused = Ending(2, b"rio9: bad record at byte 0\n", b"")
        self.assertIsNone(check.wrong_with(1, made, refused, refused))
        self.assertIn("as `replay` does", check.wrong_with(1, made, refused, Ending(0, b"", b"")))

    def test_lines(self):
        self.assertEqual(alone_soak.lines_of(2, REPLIES), b"R 2 " + REPLY)
        self.assertEqual(alone_soak.front(RECORD, 2), b"rio9 1\nB 1\nB 2\n")
        told = Ending(7, b"rio9: not alone: entry 35: reason 11\n", b"")
        self.assertEqual(alone_soak.reason_of(told), (35, 11))
        self.assertIsNone(alone_soak.reason_of(Ending(7, told.err + b"\n", b"")))


if __name__ == "__main__":
    unittest.main()
