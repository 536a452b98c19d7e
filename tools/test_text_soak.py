#!/usr/bin/env python3
"""Tests of text_model.py and text_soak.py: small texts worked out by hand, and that a program which does otherwise is found."""

import contextlib
import io
import pathlib
import tempfile
import unittest

import cases
from rio9 import font, formats
import text_model
import text_soak

# A font of one point a character, of which all have ink but the blank.
DOTS = font.image_file("k8", 95, 1, bytes([0] + [255] * 94))

# A text, and the points inside a window of 4 by 4 such characters.
PAGES = [
    (b"", ".... .... .... ...."),
    (b"abcde", "#### #... .... ...."),
    (b"abcd\ne", "#### #... .... ...."),
    (b"a b\x07\n\nc", "#.## .... #... ...."),
    (b"a\n\n\n\n", ".... .... .... ...."),
    (b"aa\na\nabcdefgh", "##.. #... #### ####"),
    (b"aa\na\nabcdefghi", "#... #### #### #..."),
]

# An input, and the place that is told.
PLACES = [
    (b"", 0),
    (DOTS.replace(b" k8", b"k8 "), 0),
    (DOTS[:12], 12),
    (DOTS[:12] + b"          -0 " + DOTS[24:], 12),
    (DOTS[:24] + b"          1 " + DOTS[36:], 24),
    (DOTS[:36] + b"         94 " + DOTS[48:], 36),
    (DOTS[:36] + b"        855 " + DOTS[48:], 36),
    (DOTS[:36] + b"\t        95 " + DOTS[48:], 36),
    (DOTS[:48] + b"         17 " + DOTS[60:], 48),
    (DOTS[:59], 48),
    (DOTS[:60], 60),
    (DOTS[:154], 60),
    (DOTS + bytes(cases.LIMIT - 155), cases.LIMIT),
    (bytes(cases.LIMIT), cases.LIMIT),
]

FITTING = [DOTS, DOTS + bytes(cases.LIMIT - 156), DOTS.replace(b"  0 ", b" -0 "), DOTS.replace(b"         95", b"00000000095")]

PIECES = [
    (b"", []),
    (b"\n", [1]),
    (b"a\nb", [2, 1]),
    (99 * b"a" + b"\nb", [100, 1]),
    (100 * b"a" + b"\nb", [100, 1, 1]),
    (101 * b"a", [100, 1]),
    (200 * b"a", [100, 100]),
]


class Model(unittest.TestCase):
    def test_pages(self):
        given = text_model.read_input(DOTS)
        for text, shown in PAGES:
            with self.subTest(text):
                points = text_model.page(given, text, 4, 4)
                self.assertEqual((len(points), {len(row) for row in points}), (12, {48}))
                rows = ["".join("#" if row[at : at + 4] == bytes(4) else "." for at in range(16, 32, 4)) for row in points[4:8]]
                self.assertEqual(" ".join(rows), shown)
                self.assertEqual({row[at : at + 4].hex() for row in points[:4] + points[8:] for at in range(0, 48, 4)}, {"aaaa5500"})

    def test_grey_is_ink_turned_round(self):
        given = text_model.read_input(font.image_file("k8", 190, 1, bytes(66) + b"\x01\x80" + bytes(122)))
        row = text_model.page(given, b"A", 4, 4)[4]
        self.assertEqual(row[16:28].hex(), "fefefe00" "7f7f7f00" "ffffff00")

    def test_screens(self):
        points = text_model.page(text_model.read_input(DOTS), b"a", 4, 4)
        self.assertEqual(text_model.screen(points, 12, 12), b"".join(points))
        self.assertEqual(text_model.screen(points, 3, 2), 6 * cases.EDGE)
        self.assertEqual(text_model.screen(points, 14, 13)[-4 * 16 :], 2 * cases.GREY + 14 * cases.GREY)

    def test_inputs(self):
        for data, place in PLACES:
            with self.subTest(data[:60]):
                self.assertEqual(text_model.read_input(data), place)
        for data in FITTING:
            with self.subTest(data[:60]):
                self.assertIsInstance(text_model.read_input(data), text_model.Given)

    def test_pieces(self):
        for text, lengths in PIECES:
            with self.subTest(text[:3]):
                cut = text_model.pieces(text)
                self.assertEqual((b"".join(cut), [len(piece) for piece in cut]), (text, lengths))


class Cases(unittest.TestCase):
    def test_a_seed_decides(self):
        made = [text_soak.made_case(seed, 3)[0] for seed in (1, 1, 2)]
        self.assertEqual(made[0], made[1])
        self.assertNotEqual(made[0], made[2])

    def test_each_end_is_met(self):
        lines = {text_soak.expected(text_soak.made_case(1, number)[0])[1] for number in range(1, 500)}
        places = [0, 12, 24, 36, 48, 60, cases.LIMIT]
        self.assertLessEqual({b"", b"rio9: usage\n", *(b"rio9: bad input at byte %d\n" % place for place in places)}, lines)

    def soak(self, room, script):
        program = pathlib.Path(room) / "program"
        program.write_text(script)
        program.chmod(0o755)
        with contextlib.redirect_stdout(io.StringIO()) as out:
            status = cases.soak_of(text_soak.COMMAND, "text_soak.py", "", ["--program", str(program), "--cases", "12", "--jobs", "1", "--keep", room])
        return status, out.getvalue(), len(list(pathlib.Path(room).glob("text-1-*")))

    def test_what_is_otherwise_is_kept(self):
        for script in ("#!/bin/sh\ncat\n", "#!/bin/sh\necho rio9 1\n", "#!/bin/sh\nexit 11\n"):
            with self.subTest(script), tempfile.TemporaryDirectory() as room:
                status, told, kept = self.soak(room, script)
                self.assertEqual((status, kept), (1, told.count("\ncase ") + told.startswith("case ")))
                self.assertGreater(kept, 0)

    def test_records_that_say_something_else(self):
        given = text_model.read_input(DOTS + b"ab")
        write = formats.Event("M", 1, bytes.fromhex("17000000" "76" "0100" "02000000" "0000000000000000" "00000000"))
        for events in ([], [formats.Event("B", 1)], [formats.Event("B", 1), write], [formats.Event("B", 1), write, formats.Event("E", 1)]):
            with self.subTest(events), self.assertRaises(cases.NotSo):
                text_model.check_record(given, formats.write_record(events))


if __name__ == "__main__":
    unittest.main()
