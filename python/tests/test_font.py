"""Tests of rio9.font: the font that is drawn in font.txt, and texts that draw none."""

import pathlib
import subprocess
import sys
import unittest

from rio9 import font, formats

PYTHON = pathlib.Path(__file__).resolve().parent.parent
DRAWN = (PYTHON / "rio9" / "font.txt").read_text()
WIDTH, HEIGHT = 6, 10
HEADER_BYTES = 60

# What is no font: a text that is changed in one place, and the line that is told.
BROKEN = [
    (DRAWN.replace("##..#.", "##..#", 1), 6),
    (DRAWN.replace("##..#.", "##..o.", 1), 6),
    (DRAWN.replace("  @ ", "  A ", 1), 28),
    (DRAWN.replace("  @ ", " @  ", 1), 28),
    (DRAWN[: DRAWN.rindex("\n\n")], 62),
    (DRAWN + "\n  A\n......\n", 76),
    (DRAWN[: DRAWN[:-1].rindex("\n") + 1], 74),
    ("\n\n  A\n", 3),
    ("", 1),
]


def cell(file, code):
    """The rows of a character of a font's file."""
    row = font.CELLS * WIDTH
    starts = range(HEADER_BYTES + code * WIDTH, len(file), row)
    return [file[at : at + WIDTH] for at in starts]


class Fonts(unittest.TestCase):
    def test_the_drawn_font(self):
        file = subprocess.run([sys.executable, str(PYTHON / "rio9d"), "font"], capture_output=True, check=True).stdout
        self.assertEqual(file[:HEADER_BYTES], b"         k8           0           0         570          10 ")
        self.assertEqual(len(file), HEADER_BYTES + font.CELLS * WIDTH * HEIGHT)
        self.assertEqual(set(file[HEADER_BYTES:]), {0, 255})

    def test_each_character_is_another_one(self):
        file = font.font_file(font.read_font(DRAWN))
        cells = [b"".join(cell(file, code)) for code in range(font.CELLS)]
        self.assertEqual(len(set(cells)), font.CELLS)
        self.assertEqual([code for code, points in enumerate(cells) if not any(points)], [0])

    def test_characters_do_not_touch(self):
        file = font.font_file(font.read_font(DRAWN))
        for code in range(font.CELLS):
            self.assertFalse(any(row[-1] for row in cell(file, code)), chr(font.FIRST + code))
            self.assertFalse(any(cell(file, code)[0]), chr(font.FIRST + code))

    def test_a_character_by_its_points(self):
        file = font.font_file(font.read_font(DRAWN))
        drawn = ["".join(".#"[point == 255] for point in row) for row in cell(file, ord("p") - font.FIRST)]
        self.assertEqual(drawn, "...... ...... ...... ####.. #...#. #...#. #...#. ####.. #..... #.....".split())

    def test_what_is_no_font(self):
        for text, line in BROKEN:
            with self.subTest(line), self.assertRaises(formats.BadText) as told:
                font.read_font(text)
            self.assertTrue(str(told.exception).startswith(f"line {line}: "), told.exception)


if __name__ == "__main__":
    unittest.main()
