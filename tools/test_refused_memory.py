#!/usr/bin/env python3
"""Tests of refused_memory.py: which endings are as they are to be, and that its case is there. What refuses is not built here."""

import unittest

from refused_memory import CASE, LINE, Ending, case_of, kind_of

WHOLE = Ending(0, b"R 1 07\nR 1 08\n", b"")


class Endings(unittest.TestCase):
    def test_kinds(self):
        for ending, wanted in [
            (Ending(0, WHOLE.out, b""), "the whole answer"),
            (Ending(5, b"", LINE), "status 5"),
            (Ending(5, WHOLE.out[:9], LINE), "status 5"),
            (Ending(5, WHOLE.out, LINE), "status 5"),
            (Ending(5, b"", b""), None),
            (Ending(5, b"R 1 09\n", LINE), None),
            (Ending(0, WHOLE.out[:7], b""), None),
            (Ending(0, WHOLE.out, LINE), None),
            (Ending(-11, b"", b""), None),
            (Ending(2, b"", b"rio9: bad record at byte 0\n"), None),
        ]:
            self.assertEqual(kind_of(ending, WHOLE), wanted, ending)

    def test_the_case_is_there(self):
        words, given = case_of(CASE)
        self.assertEqual(words[0], "replay")
        self.assertTrue(given.startswith(b"rio9 1\nB 1\n") and given.endswith(b"\n"))


if __name__ == "__main__":
    unittest.main()
