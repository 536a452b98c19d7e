"""Tests of rio9.side and rio9.recorded: the file beside a record, and what is done to the record that a server
wrote."""

import pathlib
import tempfile
import unittest
import zlib
from datetime import datetime, timezone

from rio9 import recorded, side
from rio9.relay import Count, Mark, Signature

START = datetime(2026, 1, 2, 3, 4, 5, 678000, timezone.utc)
TOLD = (
    '{"format": "rio9d 1", "size": "320x240", "channels": "r5g6b5", "start": "2026-01-02T03:04:05.678+00:00", '
    '"entries": 9, "seconds": [[1, 20], [4, 1003]]}\n'
)
SHORT, LONGER = "070000007c0100", "090000006c0200ffff"


def record_of(*lines):
    return "".join(line + "\n" for line in ("rio9 2 1", *lines)).encode()


class Beside(unittest.TestCase):
    def test_text(self):
        told = side.Side((320, 240), "r5g6b5", START, 9, [(1, 20), (4, 1003)])
        self.assertEqual(told.text(), TOLD)
        self.assertEqual(side.read_side(TOLD), told)

    def test_times(self):
        told = side.read_side(TOLD)
        self.assertEqual([told.milliseconds_of(entry) for entry in (0, 1, 3, 4, 99)], [0, 20, 20, 1003, 1003])
        self.assertEqual(told.time_of(5).isoformat(), "2026-01-02T03:04:06.681000+00:00")

    def test_files(self):
        with tempfile.TemporaryDirectory() as room:
            record = f"{room}/a.record"
            self.assertIsNone(side.load(record))
            side.read_side(TOLD).save(record)
            self.assertEqual(pathlib.Path(f"{room}/a.record.json").read_text(), TOLD)
            self.assertEqual(side.load(record), side.read_side(TOLD))

    def test_what_is_none(self):
        cases = [
            ("", "Expecting value"),
            ("[]", "format"),
            ("[" * 100_000, "recursion"),
            (TOLD.replace("rio9d 1", "rio9d 2"), "format"),
            (TOLD.replace('"320x240"', "320"), "size is no text"),
            (TOLD.replace("320x240", "320x0"), "size as 640x480"),
            (TOLD.replace("320x240", "320x2049"), "2048"),
            (TOLD.replace("r5g6b5", "r5g6b6"), "17"),
            (TOLD.replace("r5g6b5", "r5g6r5"), "once"),
            (TOLD.replace("r5g6b5", "q5"), "no channels"),
            (TOLD.replace("+00:00", ""), "zone"),
            (TOLD.replace("2026-", "20260-"), "2026"),
            (TOLD.replace("9,", "-9,"), "entries"),
            (TOLD.replace("[1, 20]", "[1]"), "pairs"),
            (TOLD.replace("[1, 20]", "[1, true]"), "pairs"),
            (TOLD.replace("[1, 20]", "[5, 20]"), "ascend"),
        ]
        with tempfile.TemporaryDirectory() as room:
            for text, told in cases:
                pathlib.Path(f"{room}/a.json").write_text(text)
                with self.subTest(text[:60]), self.assertRaises(side.BadSide) as raised:
                    side.load(f"{room}/a")
                self.assertIn(told, str(raised.exception))
                self.assertIn("--size and --chan", str(raised.exception))


class Recorded(unittest.TestCase):
    def test_counts(self):
        message = bytes.fromhex(SHORT + LONGER)
        check = zlib.crc32(bytes.fromhex(LONGER)[:7], zlib.crc32(bytes.fromhex(SHORT)))
        for step in (1, 2, 5, 6, 7, 8, 15, 16, 40):
            with self.subTest(step):
                count = Count()
                for at in range(0, len(message), step):
                    count.take(message[at : at + step])
                self.assertEqual((count.whole, count.check), (2, check))
                count.take(message[:6])
                self.assertEqual((count.whole, count.check), (2, check))

    def test_what_the_end_added(self):
        cases = [
            (record_of("B 1", "E 1", "B 2", "E 2"), 1, record_of("B 1", "E 1")),
            (record_of("B 1", "B 2", "E 1", "E 2", "B 3", "E 3"), 1, record_of("B 1", "E 1")),
            (record_of("B 1", f"M 1 {SHORT}", "T 1", "E 1"), 1, record_of("B 1", f"M 1 {SHORT}", "T 1", "E 1")),
            (record_of("B 1", "E 1"), 0, record_of()),
            (record_of(), 0, record_of()),
            (record_of("B 1", *[f"M 1 {SHORT}"] * 9000, "E 1", "B 2", *["T 1"] * 20000, "E 2"), 1, None),
        ]
        with tempfile.TemporaryDirectory() as room:
            path = pathlib.Path(room, "record")
            for before, last, after in cases:
                with self.subTest(before[:60]):
                    path.write_bytes(before)
                    recorded.take_off(str(path), last)
                    wanted = before.replace(b"B 2\n", b"").replace(b"E 2\n", b"") if after is None else after
                    self.assertEqual(path.read_bytes(), wanted)

    def test_sessions_and_links(self):
        one, two, other = Signature(1, 5), Signature(2, 6), Signature(3, 7)
        cases = [
            ({1: one, 2: two}, [one, two], {1: 1, 2: 2}),
            ({1: two, 2: one}, [one, two], {1: 2, 2: 1}),
            ({1: one, 2: one}, [one, one], {1: 1, 2: 2}),
            ({1: two, 2: one, 3: one}, [one, two, one], {1: 2, 2: 1, 3: 3}),
            ({1: other, 2: two}, [one, two], {2: 2}),
        ]
        for sessions, links, wanted in cases:
            with self.subTest(links=links):
                self.assertEqual(recorded.links_of(sessions, links), wanted)

    def test_seconds(self):
        head = [bytes.fromhex(text)[:7] for text in (SHORT, LONGER)]
        links = [Signature(2, zlib.crc32(head[1], zlib.crc32(head[0]))), Signature(1, zlib.crc32(head[1]))]
        record = record_of(
            "B 1", f"M 1 {SHORT}", "T 1", "B 2", f"M 2 {LONGER}", f"M 1 {LONGER} !3", "T 1", "E 1", "E 2"
        )
        marks = [Mark(50, 1, 0), Mark(1500, 2, 0), Mark(2100, 1, 7), Mark(3000, 3, 0)]
        with tempfile.TemporaryDirectory() as room:
            path = pathlib.Path(room, "record")
            path.write_bytes(record)
            found = recorded.seconds_of(str(path), marks, links)
            self.assertEqual(found, (9, [(2, 50), (5, 1500), (6, 2100)]))
            path.write_bytes(record_of())
            self.assertEqual(recorded.seconds_of(str(path), [], []), (0, []))

    def test_seconds_that_stand_in_another_order(self):
        self.assertEqual(recorded.ascending([(9, 1000), (7, 2000), (7, 2500), (12, 3000)]), [(7, 2000), (12, 3000)])


if __name__ == "__main__":
    unittest.main()
