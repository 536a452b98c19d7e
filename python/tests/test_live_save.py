"""Tests of rio9d save: the page of a record, with the frames of `mirror` and the times that stand beside the record."""

import contextlib
import io
import json
import pathlib
import subprocess
import tempfile
import unittest
from datetime import datetime, timezone

from needs import found_program, needs_program
from rio9 import side
from rio9.live import save
from test_live_parts import saved_in

EXAMPLES = pathlib.Path(__file__).resolve().parent.parent.parent / "examples"
START = datetime(2026, 1, 2, 3, 4, 5, tzinfo=timezone.utc)


class Times(unittest.TestCase):
    def times(self, entries, *seconds):
        return save.times_of(side.Side((640, 480), "x8r8g8b8", START, entries, list(seconds)), entries)

    def test_seconds(self):
        self.assertEqual(self.times(9, (2, 500), (5, 1500)), [(0, 0), (2, 0), (4, 999), (5, 1000), (9, 1999)])
        self.assertEqual(self.times(9, (2, 500), (5, 60500)), [(0, 0), (2, 0), (4, 999), (5, 60000), (9, 60999)])
        self.assertEqual(self.times(3, (1, 0), (2, 1200), (3, 2500)), [(0, 0), (1, 0), (2, 1200), (3, 2500)])
        self.assertEqual(self.times(2, (1, 7), (9, 1200)), [(0, 0), (1, 0), (2, 999)])

    def test_no_seconds(self):
        self.assertEqual(save.times_of(None, 50), [(0, 0), (50, 5000)])
        self.assertEqual(save.times_of(None, 0), [(0, 0), (1, 100)])
        self.assertEqual(self.times(50), [(0, 0), (50, 5000)])

    def test_too_long(self):
        before, save.MOST_FRAMES = save.MOST_FRAMES, 10
        try:
            with self.assertRaisesRegex(save.TooLong, "save a shorter record"):
                save.packed(io.BytesIO(bytes(11)))
        finally:
            save.MOST_FRAMES = before


@needs_program
class Command(unittest.TestCase):
    def run_words(self, *words):
        """The status, and what is told."""
        err = io.StringIO()
        with contextlib.redirect_stderr(err):
            try:
                status = save.main(list(map(str, words)))
            except SystemExit as ended:
                status = ended.code
        return status, err.getvalue()

    def setUp(self):
        room = tempfile.TemporaryDirectory()
        self.addCleanup(room.cleanup)
        self.page = pathlib.Path(room.name) / "page.html"
        self.record = pathlib.Path(room.name) / "input.record"
        self.record.write_bytes((EXAMPLES / "input.record").read_bytes())

    def frames(self, *words):
        with open(self.record, "rb") as given:
            return subprocess.run([found_program(), "mirror", *words], stdin=given, capture_output=True).stdout

    def test_page(self):
        entries = self.record.read_bytes().count(b"\n") - 1
        side.Side((320, 240), "r5g6b5", START, entries, [(1, 0), (9, 2000)]).save(str(self.record))
        self.assertEqual(self.run_words(self.record, self.page), (0, ""))
        found, frames = saved_in(self.page.read_text(encoding="utf-8"))
        self.assertEqual(frames, self.frames("--size", "320x240", "--chan", "r5g6b5"))
        self.assertEqual(
            (found["channels"], found["times"][0], found["times"][-1]), ("r5g6b5", [0, 0], [entries, 2999])
        )
        self.assertIn("2026-01-0", found["title"])

    def test_told_display(self):
        self.assertEqual(self.run_words(self.record, self.page, "--size", "320x240"), (0, ""))
        self.assertEqual(saved_in(self.page.read_text(encoding="utf-8"))[1], self.frames("--size", "320x240"))

    def test_what_is_wrong(self):
        status, told = self.run_words(self.record, self.page)
        self.assertIn("say its --size", told)
        self.assertEqual((status, told.count("\n")), (1, 1))
        self.assertIn("No such file", self.run_words(self.page, self.page, "--size", "9x9")[1])
        self.assertIn("No such file", self.run_words(self.record, self.page / "x", "--size", "9x9")[1])
        self.assertIn("no program", self.run_words(self.record, self.page, "--size", "9x9", "--program", "/none")[1])
        side.side_path(str(self.record)).write_text(json.dumps({"format": "rio9d 1"}))
        self.assertIn("is no file of a record", self.run_words(self.record, self.page)[1])
        side.side_path(str(self.record)).unlink()
        self.assertEqual(self.run_words(self.record, self.page, "--size", "9x")[0], 1)
        self.assertFalse(self.page.exists())
        self.record.write_bytes(b"rio9 1\nB 2\n")
        status, told = self.run_words(self.record, self.page, "--size", "9x9")
        self.assertEqual(status, 2)
        self.assertIn("line 2, word 2 `2`", told)
        self.record.write_bytes(b"rio9 2 7\n")
        status, told = self.run_words(self.record, self.page, "--size", "9x9")
        self.assertEqual((status, told), (10, "rio9d save: rio9: late record: first entry 7\n"))

    def test_what_is_read_is_not_lost(self):
        side.Side((320, 240), "r5g6b5", START, 1, [(1, 0)]).save(str(self.record))
        for path in (self.record, side.side_path(str(self.record))):
            with self.subTest(path):
                before = path.read_bytes()
                status, told = self.run_words(self.record, path)
                self.assertEqual((status, told.count("\n"), path.read_bytes()), (1, 1, before))
                self.assertIn("would be lost: name another file", told)


if __name__ == "__main__":
    unittest.main()
