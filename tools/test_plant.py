#!/usr/bin/env python3
"""Tests of tools/plant.py: what it reads of the kit's words."""

import unittest

import plant

SAID = """rt: checking the crate as it stands
proves      src/marks.rt:40 Marks::mark: { }
refused     src/marks.rt:52 Marks::clear: { }
plants crate=r9_marks planted-in=9 untested=1 no-ensures=0 proves=1 same=2 refused=17 elsewhere=1 not-judged=3 not-source=0 not-run=2
"""


class Plant(unittest.TestCase):
    def test_counts(self):
        score = plant.score_of("r9_marks", SAID, 0)
        self.assertEqual(
            (score.functions, score.refused, score.same, score.survived, score.other, score.judged), (9, 17, 2, 1, 6, 20)
        )
        self.assertEqual(score.lines, ["proves      src/marks.rt:40 Marks::mark: { }"])
        self.assertEqual(plant.row(score), "| r9_marks | 9 | 20 | 17 | 2 | 1 | 6 | 95.0 |")

    def test_sum(self):
        score = plant.score_of("r9_marks", SAID, 0)
        self.assertEqual(plant.row(plant.total([score, score])), "| all | 18 | 40 | 34 | 4 | 2 | 12 | 95.0 |")

    def test_a_crate_that_is_not_proved_is_told(self):
        score = plant.score_of("r9_marks", "rt: the library r9_memory did not build\n", 1)
        self.assertEqual(score.fault, "rt: the library r9_memory did not build")


if __name__ == "__main__":
    unittest.main()
