#!/usr/bin/env python3
"""Tests of player.html and try_player.py: small frames and points worked out by hand. The page itself is tried where there is a browser."""

import shutil
import unittest
from dataclasses import replace

from rio9 import formats, record
import try_player

MOUSE = 'session 1\n1 Tversion msize=65560 version=9P2000\n1 Tattach fid=0 aname=""\n' + try_player.MOUSE_OPENED


def with_mouse(*points):
    return record.write(MOUSE + "".join(map(try_player.mouse_written, points)))


class Wanted(unittest.TestCase):
    """What the canvas has to have."""

    def test_cursor(self):
        rows = try_player.with_cursor(bytearray([9]) * (3 * 64 * 48), (64, 48), (5, 5), try_player.WHITE)
        at = lambda x, y: rows[3 * (64 * y + x) :][:3].hex()
        self.assertEqual([at(5, 5), at(6, 7), at(5, 20), at(20, 20), at(6, 6)], ["000000", "ffffff", "000000", "000000", "000000"])
        self.assertEqual([at(6, 5), at(4, 5), at(5, 21), at(21, 20)], ["090909"] * 4)
        self.assertEqual(len(rows) - rows.count(9), 3 * 136)

    def test_cursor_at_edges(self):
        for at, left in (((-16, 0), 0), ((0, -15), 3 * 16), ((63, 47), 3), ((64, 0), 0), ((-15, -15), 3), ((63, 0), 3 * 16)):
            rows = try_player.with_cursor(bytearray([9]) * (3 * 64 * 48), (64, 48), at, try_player.WHITE)
            self.assertEqual(len(rows) - rows.count(9), left, at)

    def test_pointer(self):
        self.assertIsNone(try_player.pointer(with_mouse()))
        self.assertEqual(try_player.pointer(with_mouse((3, 4), (-5, 2**20))), (-5, 2**20))
        self.assertEqual(try_player.pointer(with_mouse((3, 4), (2**20 + 1, 0))), (3, 4))

    def test_cells(self):
        self.assertEqual(try_player.cells_of((64, 48)), [(0, 0, 32, 32), (32, 0, 32, 32), (0, 32, 32, 16), (32, 32, 32, 16)])

    def test_channels(self):
        found = [formats.channels(formats.channels_word(text)) for text in try_player.all_channels()]
        self.assertEqual({pair for pairs in found for pair in pairs}, {(letter, bits) for letter in "rgbkax" for bits in range(1, 9)})
        self.assertEqual({sum(bits for _, bits in pairs) for pairs in found}, {1, 2, 4, 8, 16, 24, 32})


class Page(unittest.TestCase):
    """The page in a browser."""

    def test_page(self):
        browser = shutil.which(try_player.BROWSER)
        if browser is None:
            self.skipTest("there is no browser")
        case = try_player.of_sizes()
        other = replace(case, name="other", pixels={**case.pixels, 2: bytes(3 * 20 * 70)})
        try:
            wrong, count = try_player.try_page(browser, [case, other], 1)
        except try_player.NoAnswer as error:
            self.skipTest(error)
        self.assertEqual(wrong, ["other: entry 2: 20x70, pixel 0 is c8c8c8 and not 000000"])
        self.assertEqual(count, 10)


if __name__ == "__main__":
    unittest.main()
