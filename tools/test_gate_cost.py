#!/usr/bin/env python3
"""Tests how gate_cost.py reads processes. Run it with no words."""

import unittest

from gate_cost import PROOF, REST, TESTS, WRONG, classify, parse_stat

CHECK = ["/kit/bin/rattle", "check", "--crate-name", "r9_geom", "src/lib.rt"]


class Kinds(unittest.TestCase):
    def test_kinds(self):
        for words, folder, wanted in [
            (CHECK, "/repo/crates/r9_geom", ("r9_geom", PROOF)),
            ([*CHECK, "--test"], "/repo/crates/r9_geom", ("r9_geom", TESTS)),
            (CHECK, "/scratch/rt-edit-71-ab_c", ("r9_geom", WRONG)),
            (CHECK, "/scratch/rt-edit-q71mut9n", ("r9_geom", WRONG)),
            (["/kit/bin/rattle", "build", "--crate-name", "rio9"], "/repo/crates/rio9", ("rio9", PROOF)),
            (["clang", "/repo/crates/rio9/out/main.o"], "/repo", ("rio9", REST)),
            (["python3", "/kit/bin/rt", "ci"], "/repo", ("", REST)),
            (["/kit/bin/rattle", "check", "--crate-name"], "/repo", ("", PROOF)),
            ([], "", ("", REST)),
        ]:
            self.assertEqual(classify(words, folder), wanted, words)

    def test_a_name_with_blanks_and_brackets(self):
        line = "7 (a) (b) S 3 " + " ".join(str(n) for n in range(5, 23))
        started, seen = parse_stat(line)
        self.assertEqual((started, seen.parent, seen.ticks), (22, 3, 14 + 15))


if __name__ == "__main__":
    unittest.main()
