#!/usr/bin/env python3
"""Tests how rooms.py reads crates and makes their table. Run it with no words."""

import pathlib
import tempfile
import unittest

import rooms
from rooms import BEGIN, END, Fault, Group, Room

GRAPH = "# Kinds.\nbase:\nleft: base clap\nright may_wait=2: base\n\nrio9: left right base\n"


class Graphs(unittest.TestCase):
    def test_what_a_crate_lists(self) -> None:
        self.assertEqual(
            rooms.read_graph(GRAPH),
            {"base": [], "left": ["base"], "right": ["base"], "rio9": ["left", "right", "base"]},
        )

    def test_paths_and_levels(self) -> None:
        graph = rooms.read_graph(GRAPH)
        self.assertEqual(rooms.count_paths(graph), {"base": 1, "left": 2, "right": 2, "rio9": 6})
        self.assertEqual(rooms.count_levels(graph), 3)

    def test_refused(self) -> None:
        for text, wanted in [
            ("base\n", "line 1: no name with a colon behind it"),
            (": base\n", "line 1: no name with a colon behind it"),
            ("a: b\nb: a\n", "stands on itself"),
        ]:
            with self.assertRaisesRegex(Fault, wanted):
                rooms.count_paths(rooms.read_graph(text))

    def test_bars(self) -> None:
        self.assertEqual(rooms.above_bars(rooms.read_graph(GRAPH)), [])
        chain = {f"c{n}": [f"c{n - 1}"] if n else [] for n in range(20)}
        self.assertEqual(len(rooms.above_bars(chain)), 1)
        doubling = {f"c{n}": [f"c{m}" for m in range(n)] for n in range(17)}
        doubling["rio9"] = list(doubling)
        told = rooms.above_bars(doubling)
        self.assertTrue(any("131,072 paths from rio9" in line for line in told))


class Tables(unittest.TestCase):
    def setUp(self) -> None:
        folder = tempfile.TemporaryDirectory()
        self.addCleanup(folder.cleanup)
        self.crates = pathlib.Path(folder.name)
        (self.crates / "base" / "src").mkdir(parents=True)
        self.source = self.crates / "base" / "src" / "lib.rt"

    def test_a_sentence_of_the_source(self) -> None:
        head = "//! Points of draw(2), in\n//! pixels. More.\n//!\n//! Else.\n#![tactic(auto)]\n\n"
        self.source.write_text(f"{head}pub mod near;\nmod far;\n")
        table = rooms.make_table([Group("Base", [Room("base", None)])], self.crates)
        self.assertEqual(table.splitlines()[0], "**Base**")
        self.assertEqual(table.splitlines()[4], "| `base` | Points of draw(2), in pixels. | near, far |")

    def test_a_sentence_of_the_list(self) -> None:
        self.source.write_text("#![tactic(auto)]\n")
        self.assertEqual(rooms.row_of(Room("base", "All of it."), self.crates), "| `base` | All of it. |  |")
        with self.assertRaisesRegex(Fault, "base: no sentence at its head; write one in docs/rooms.txt"):
            rooms.row_of(Room("base", None), self.crates)
        with self.assertRaisesRegex(Fault, "none: no src/lib.rt and no src/main.rt"):
            rooms.row_of(Room("none", None), self.crates)

    def test_the_list(self) -> None:
        groups = rooms.read_rooms("# Base\nbase\tAll of it.\n\n# Program\nrio9\n")
        self.assertEqual(groups, [Group("Base", [Room("base", "All of it.")]), Group("Program", [Room("rio9", None)])])
        self.assertEqual(rooms.misplaced(groups, {"base": [], "rio9": []}), [])
        self.assertEqual(
            rooms.misplaced([*groups, groups[0]], {"base": [], "left": []}),
            [
                "docs/rooms.txt: rio9 is no crate of crates.txt",
                "docs/rooms.txt: left is missing",
                "docs/rooms.txt: base stands there twice",
            ],
        )
        with self.assertRaisesRegex(Fault, "line 1: a crate before the first heading"):
            rooms.read_rooms("base\n")

    def test_put_into_a_page(self) -> None:
        page = f"before\n{BEGIN}\nold\n{END}\nbehind\n"
        self.assertEqual(rooms.put_table(page, "new\n"), f"before\n{BEGIN}\n\nnew\n{END}\nbehind\n")
        self.assertEqual(rooms.put_table(rooms.put_table(page, "new\n"), "new\n"), rooms.put_table(page, "new\n"))
        with self.assertRaisesRegex(Fault, "the marks are missing"):
            rooms.put_table("no marks\n", "new\n")


if __name__ == "__main__":
    unittest.main()
