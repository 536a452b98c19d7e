#!/usr/bin/env python3
"""Tests of chance.py, made_records.py and soak.py: what is made, and that what differs is found, made smaller and kept."""

import collections
import contextlib
import io
import pathlib
import tempfile
import unittest

import chance
from rio9 import formats, record
import made_records
import soak

ECHO = "#!/bin/sh\ncat\n"
WITHOUT_ENDS = "#!/bin/sh\nsed '/^E/d'\n"
OTHER_STATUS = "#!/bin/sh\ncat\nexit 3\n"
SLEEPS = "#!/bin/sh\nexec sleep 0.5\n"


class Records(unittest.TestCase):
    def test_a_seed_decides(self):
        for kind, *size in (("sessions",), ("junk", 5000)):
            made = [soak.KINDS[kind](f"1 {kind} {number}", *size) for number in (1, 1, 2)]
            self.assertEqual(made[0], made[1])
            self.assertNotEqual(made[0], made[2])

    def test_most_records_are_records_of_messages(self):
        kinds, odd, records = collections.Counter(), 0, 0
        for number in range(60):
            made = made_records.sessions(f"1 sessions {number}")
            try:
                events = formats.read_record(made.text)
            except formats.BadText:
                odd += 1
                continue
            records += 1
            for event in events:
                found = record.read_message(event.message) if event.kind == formats.MESSAGE else None
                kinds[found[0].name if found else event.kind] += 1
        self.assertLess(odd, 10)
        names = {message.name for message in record.T_MESSAGES}
        self.assertEqual({name for name in names if not kinds[name]}, set())
        self.assertLess(kinds[formats.MESSAGE] * 20, kinds["Twrite"])
        self.assertGreater(kinds[formats.BEGIN], records)

    def test_limits_are_met(self):
        for flood in made_records.FLOODS:
            with self.subTest(flood.__name__):
                maker = chance.Maker(chance.Chance("1"), *made_records.USUAL_DISPLAY)
                flood(maker, maker.begin())
                formats.read_record(formats.write_record(maker.finish()))

    def test_junk_has_its_length(self):
        for number in range(24):
            made = made_records.junk(f"1 junk {number}", 20_000)
            self.assertGreaterEqual(made.junk, 20_000)
            self.assertLess(made.junk, 100_000)


class Comparison(unittest.TestCase):
    def setUp(self):
        room = tempfile.TemporaryDirectory()
        self.addCleanup(room.cleanup)
        self.room = pathlib.Path(room.name)

    def program(self, name, text):
        path = self.room / name
        path.write_text(text)
        path.chmod(0o755)
        return str(path)

    def soak(self, ours, theirs, *words):
        words = [theirs, "--program", ours, "--jobs", "1", "--keep", str(self.room), *words]
        with contextlib.redirect_stdout(io.StringIO()) as out:
            status = soak.main(words)
        return status, out.getvalue()

    def test_equal_programs(self):
        echo = self.program("echo", ECHO)
        status, told = self.soak(echo, f"{echo} --stage 8", "--records", "3", "--junk", "20000")
        self.assertEqual(status, 0, told)
        self.assertRegex(told, r"(?m)^[0-9]+ records of .* 0 wrong\n\Z")
        self.assertEqual(list(self.room.glob("*.record")), [])

    def test_a_difference_is_kept_small(self):
        status, told = self.soak(self.program("echo", ECHO), self.program("other", WITHOUT_ENDS), "--records", "4", "--junk", "0")
        kept = sorted(self.room.glob("soak-1-sessions-*.record"))
        self.assertEqual(status, 1)
        self.assertTrue(kept)
        for path in kept:
            self.assertRegex(path.read_bytes(), rb"^E [0-9]+\n$")
            self.assertIn(f"< {path} 2>&1", told)

    def test_statuses_and_ends_are_compared(self):
        pair = soak.Pair([[self.program("echo", ECHO)], [self.program("other", OTHER_STATUS)]], str(self.room))
        endings, _ = pair.endings(b"rio9 1\n", ())
        self.assertEqual(soak.difference(*endings), "status 0, and the peer's 3")
        one, other = soak.Ending(2, b"rio9: bad record at byte 7\n", b""), soak.Ending(2, b"rio9: bad record at byte 0\n", b"")
        self.assertIn("standard error", soak.difference(one, other))
        self.assertIsNone(soak.difference(one, one))
        one, other = soak.Ending(0, b"", b"R 1 07\nR 1 08\n"), soak.Ending(0, b"", b"R 1 07\nR 1 09\n")
        self.assertEqual(soak.difference(one, other), "line 2 of standard output is another")

    def test_memory_is_looked_at(self):
        text = b"rio9 1\n" + bytes(soak.LEAST_WATCHED)
        sleeps = self.program("sleeps", SLEEPS)
        _, memory = soak.Pair([[sleeps], ["/bin/true"]], str(self.room)).endings(text, ())
        self.assertGreater(memory, 0)
        self.assertGreater(soak.Pair([["/bin/true"], [sleeps]], str(self.room)).memory_of_peer(text, ()), 0)


if __name__ == "__main__":
    unittest.main()
