#!/usr/bin/env python3
"""Tests of desk_model.py and desk_soak.py: events worked out by hand, and that a program which does otherwise is found."""

import contextlib
import io
import pathlib
import tempfile
import unittest

import cases
import desk_model
import desk_soak
from rio9.events import Mouse

# Events, what they write, and the windows that are left.
DESKS = [
    (
        [(100, 100, 4), (110, 110, 0), (200, 200, 1), (300, 280, 0)],
        ["new -r 100 100 148 188", "delete -id 1", "new -r 200 200 300 280"],
        [(2, (200, 200, 300, 280))],
    ),
    ([(100, 100, 4), (110, 110, 0), (200, 200, 1), (211, 280, 0)], ["new -r 100 100 148 188", "delete -id 1"], []),
    (
        [(100, 100, 4), (150, 110, 0), (200, 200, 1), (300, 280, 0)],
        [
            "new -r 100 100 148 188",
            "delete -id 1",
            "m        200         200           1           2 ",
            "m        300         280           0           3 ",
        ],
        [],
    ),
    # a window is made, and moved by the third item: over its left upper corner, and back by nothing
    (
        [(9, 9, 4), (13, 13, 0), (40, 50, 4), (20, 30, 0), (9, 9, 4), (13, 45, 0), (20, 30, 4), (15, 30, 0)],
        ["new -r 9 9 57 97", "delete -id 1", "new -r 20 30 40 50", "new -r 9 9 57 97", "delete -id 3", "move -minx -5 -miny +0 -id 2"],
        [(2, (15, 30, 35, 50))],
    ),
    # it gets another rectangle by the second item
    (
        [(9, 9, 4), (13, 13, 0), (40, 50, 4), (20, 30, 0), (9, 9, 4), (13, 29, 0), (25, 35, 4), (25, 35, 0), (0, 0, 1), (12, 12, 0)],
        ["new -r 9 9 57 97", "delete -id 1", "new -r 20 30 40 50", "new -r 9 9 57 97", "delete -id 3", "resize -r 0 0 12 12 -id 2"],
        [(2, (0, 0, 12, 12))],
    ),
]

EVENT = b"m        639         479          31  4294967295 "

# An input, and the place that is told.
PLACES = [
    (EVENT[:48], 0),
    (EVENT + b"m", 49),
    (EVENT.replace(b"m", b"r"), 0),
    (EVENT.replace(b"639", b"640"), 0),
    (EVENT + EVENT.replace(b"479", b"480"), 49),
    (EVENT.replace(b" 639", b"  -1"), 0),
    (EVENT.replace(b"31", b"32"), 0),
    (EVENT.replace(b"4294967295", b"4294967296"), 0),
    (EVENT.replace(b"639 ", b"639\t"), 0),
    (bytes(cases.LIMIT), cases.LIMIT),
    (EVENT * 21400, cases.LIMIT),
]


def mouse(rows):
    return [Mouse(x, y, buttons, msec) for msec, (x, y, buttons) in enumerate(rows)]


class Model(unittest.TestCase):
    def test_desks(self):
        for rows, written, left in DESKS:
            with self.subTest(rows):
                texts = [text[1] for text in desk_model.pilot(mouse(rows)) if text is not None]
                self.assertEqual((texts, desk_model.desk_after(mouse(rows)).seen), (written, left))

    def test_inputs(self):
        self.assertEqual(len(EVENT), 49)
        self.assertEqual(desk_model.read_events(EVENT + EVENT), 2 * [Mouse(639, 479, 31, 2**32 - 1)])
        self.assertEqual(len(desk_model.read_events(EVENT * 21399)), 21399)
        for data, place in PLACES:
            with self.subTest(data[:60]):
                self.assertEqual(desk_model.read_events(data), place)

    def test_screens(self):
        menu = desk_model.screen(desk_model.desk_after(mouse([(630, 10, 4)])))
        row = menu[4 * 640 * 30 : 4 * 640 * 31]
        self.assertEqual(row[-44:].hex(), "77777700" + 4 * "aaaa5500" + 6 * "00ff0000")
        under = desk_model.desk_after(mouse([(9, 9, 4), (13, 13, 0), (40, 50, 4), (20, 30, 0)]))
        self.assertEqual(desk_model.screen(under)[4 * (640 * 34 + 22) :][:12].hex(), "aaaa5500" "aaaa5500" "ffffff00")


class Cases(unittest.TestCase):
    def test_a_seed_decides(self):
        made = [desk_soak.made_case(seed, 3)[0] for seed in (1, 1, 2)]
        self.assertEqual(made[0], made[1])
        self.assertNotEqual(made[0], made[2])

    def test_gestures_reach_each_command(self):
        texts = [text for number in range(1, 60) for text in self.texts_of(number)]
        wanted = {("wctl", word) for word in ("new", "resize", "move", "delete", "hide")} | {("mousein", "m")}
        self.assertEqual({(file, text.split()[0]) for file, text in texts}, wanted)

    def texts_of(self, number):
        events = desk_model.read_events(desk_soak.made_case(1, number)[0].data)
        return [] if isinstance(events, int) else [text for text in desk_model.pilot(events) if text is not None]

    def test_what_is_otherwise_is_kept(self):
        for script in ("#!/bin/sh\ncat\n", "#!/bin/sh\necho rio9 1\n", "#!/bin/sh\nexit 11\n"):
            with self.subTest(script), tempfile.TemporaryDirectory() as room:
                program = pathlib.Path(room) / "program"
                program.write_text(script)
                program.chmod(0o755)
                words = ["--program", str(program), "--cases", "8", "--jobs", "1", "--keep", room]
                with contextlib.redirect_stdout(io.StringIO()) as out:
                    status = cases.soak_of(desk_soak.COMMAND, "desk_soak.py", "", words)
                kept = len(list(pathlib.Path(room).glob("desk-1-*")))
                self.assertEqual((status, kept), (1, out.getvalue().count("case ")))
                self.assertGreater(kept, 0)


if __name__ == "__main__":
    unittest.main()
