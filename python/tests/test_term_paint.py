"""Tests of rio9.term.paint, glyphs and keys: draw messages by a small display that is drawn here, and what keys and
the mouse send."""

import pathlib
import random
import struct
import tempfile
import unittest

import elsewhere

LIBRARIES = ("pyte", "wcwidth")
LACKS = elsewhere.missing(*LIBRARIES)

if LACKS:

    class Elsewhere(elsewhere.Elsewhere):
        def test_by_another_interpreter(self):
            self.run_file(__file__, *LIBRARIES)

else:
    from rio9 import font, fonts
    from rio9.term import glyphs, keys, paint
    from rio9.term.cells import Cells, Stream

    DRAWN = font.read_font(pathlib.Path(font.DRAWN).read_text())
    # Characters of 3 by 4 points, each of which has other points with ink; the blank has none.
    POINTS = {
        code: (code & 7, code >> 3 & 7, code >> 6 & 7, code >> 9) if code != ord(" ") else (0, 0, 0, 0)
        for code in range(32, 2600)
    }
    SMALL = fonts.Face(3, 1, {code: fonts.Glyph(3, 0, 3, 3, rows) for code, rows in POINTS.items()})
    LEFT, TOP, EDGE = 7, 5, 3  # where the cells begin in the window's image, and how wide its margin is

    class Display:
        """A window's image and what is drawn on it: each message that a painter makes, as draw(3) says."""

        def __init__(self, wide, high):
            self.window = {(x, y): None for x in range(wide) for y in range(high)}
            self.images, self.places, self.ascent = {}, {}, 0

        def take(self, messages):
            for message in messages:
                getattr(self, chr(message[0]))(message[1:])

        def b(self, body):
            number, screen, refresh, chan, repeats = struct.unpack_from("<IIBIB", body)
            box = struct.unpack_from("<4i", body, 14)
            (colour,) = struct.unpack_from("<I", body, 46)
            assert len(body) == 50 and number not in self.images and number != 1 and (screen, refresh) == (0, 0)
            if repeats:
                self.images[number] = colour >> 8
            else:
                self.images[number] = {(x, y): 0 for x in range(box[2]) for y in range(box[3])}

        def f(self, body):
            del self.images[struct.unpack("<I", body)[0]]

        def i(self, body):
            number, self.count, self.ascent = struct.unpack("<IIB", body)
            self.font = number

        def y(self, body):
            number, left, top, right, bottom = struct.unpack_from("<I4i", body)
            rows, stride = body[20:], (right + 7) // 8 - left // 8
            assert len(rows) == stride * (bottom - top) and left == 0
            for y in range(top, bottom):
                for x in range(left, right):
                    self.images[number][x, y] = rows[(y - top) * stride + x // 8] >> 7 - x % 8 & 1

        def l(self, body):  # noqa: E743
            cache, source, index, left, top, right, bottom, x, y, shift, wide = struct.unpack("<IIH4i2ibB", body)
            assert cache == self.font and index < self.count and (x, y, shift) == (0, 0, 0)
            for at in range(right - left):
                for down in range(bottom - top):
                    self.images[cache][left + at, top + down] = self.images[source][at, down]
            self.places[index] = (left, top, right, bottom, wide)

        def d(self, body):
            target, source, mask = struct.unpack_from("<III", body)
            left, top, right, bottom, x, y = struct.unpack_from("<6i", body, 12)
            assert target == 1 and self.images[mask] == 0xFFFFFF and len(body) == 44
            points = [(at, down) for at in range(left, right) for down in range(top, bottom)]
            assert all(point in self.window for point in points)
            found = [
                self.window[x + at - left, y + down - top] if source == 1 else self.images[source]
                for at, down in points
            ]
            self.window.update(zip(points, found))

        def x(self, body):
            target, ink, number, x, y = struct.unpack_from("<III2i", body)
            left, top, right, bottom = struct.unpack_from("<4i", body, 20)
            count, paper = struct.unpack_from("<HI", body, 44)
            indices = struct.unpack_from(f"<{count}H", body, 58)
            assert target == 1 and number == self.font and len(body) == 58 + 2 * count
            for index in indices:
                begin, upper, end, lower, wide = self.places[index]
                for at in range(end - begin):
                    for down in range(lower - upper):
                        point = (x + at, y - self.ascent + down)
                        if left <= point[0] < right and top <= point[1] < bottom:
                            self.window[point] = self.images[
                                ink if self.images[number][begin + at, upper + down] else paper
                            ]
                x += wide

        def v(self, body):
            assert body == b""

    class Cases(unittest.TestCase):
        def begin(self, columns=12, lines=5, shape=None):
            self.shape = shape or glyphs.load(font.DRAWN)
            self.cells = Cells(columns, lines)
            self.stream = Stream(self.cells)
            self.painter = paint.Painter(self.shape)
            wide, high = LEFT + columns * self.shape.width + EDGE, TOP + lines * self.shape.height + EDGE
            self.display = Display(wide, high)
            self.display.take(self.painter.begin())
            self.place = paint.Place(0x68081828, (0, 0, wide, high), LEFT, TOP, columns, lines)
            self.display.take(self.painter.settle(self.place))

        def show(self, text="", cursor=None, selected=None):
            self.stream.feed_bytes(text.encode())
            messages = self.painter.frame(self.cells, cursor, selected)
            self.display.take(messages)
            return messages

        def cell(self, y, x):
            """The points of a cell, as rows of colours."""
            left, top = LEFT + x * self.shape.width, TOP + y * self.shape.height
            return [
                [self.display.window[left + at, top + down] for at in range(self.shape.width)]
                for down in range(self.shape.height)
            ]

        def wanted(self, text, ink=paint.INK, paper=paint.PAPER):
            """The points of a character of the drawn font, as its text has it."""
            return [[ink if point else paper for point in row] for row in DRAWN[ord(text) - font.FIRST]]

    class Painting(Cases):
        def test_a_character_is_as_it_is_drawn(self):
            self.begin()
            self.show("ab\x1b[31mc")
            for x, text in enumerate("ab"):
                self.assertEqual(self.cell(0, x), self.wanted(text))
            self.assertEqual(self.cell(0, 2), self.wanted("c", ink=paint.COLOURS["red"][0]))
            self.assertEqual(self.cell(1, 0), self.wanted(" "))
            self.assertNotIn(None, self.display.window.values())

        def test_colours(self):
            self.begin()
            self.show("\x1b[1;34ma\x1b[0;7mb\x1b[0;38;2;1;2;3mc\x1b[0;48;5;196md\x1b[0;38;2;1000;0;0me\x1b[0;96;42mf")
            ink = {color: pair[1] for color, pair in paint.COLOURS.items()}
            bold = [[point == ink["blue"] for point in row] for row in self.cell(0, 0)]
            plain = [[point == paint.INK for point in row] for row in self.wanted("a")]
            self.assertEqual(bold, [[point or at > 0 and row[at - 1] for at, point in enumerate(row)] for row in plain])
            self.assertEqual(self.cell(0, 1), self.wanted("b", paint.PAPER, paint.INK))
            self.assertEqual(self.cell(0, 2), self.wanted("c", 0x010203))
            self.assertEqual(self.cell(0, 3), self.wanted("d", paper=0xFF0000))
            self.assertEqual(self.cell(0, 4), self.wanted("e"))
            self.assertEqual(
                {point for row in self.cell(0, 5) for point in row}, {ink["cyan"], paint.COLOURS["green"][0]}
            )

        def test_lines_under_and_through(self):
            self.begin()
            self.show("\x1b[4ma  \x1b[0;9mb")
            under = TOP + self.shape.ascent + 1
            through = TOP + self.shape.ascent * 2 // 3
            for at in range(3 * self.shape.width):
                self.assertEqual(self.display.window[LEFT + at, under], paint.INK)
            self.assertEqual(self.display.window[LEFT + 3 * self.shape.width, through], paint.INK)
            self.assertEqual(self.display.window[LEFT + 3 * self.shape.width, under], paint.PAPER)

        def test_nothing_is_sent_for_what_shows_already(self):
            self.begin()
            self.assertTrue(self.show("hello"))
            self.assertEqual(self.show("\r"), [])
            self.assertEqual(self.show("hello"), [])
            self.assertEqual(len(self.show("\rhelps")), 6)  # two glyphs in two messages each, one string, and the end

        def test_rows_move_by_one_drawing(self):
            self.begin(columns=12, lines=5)
            self.show("one\r\ntwo\r\nthree\r\nfour\r\nfive")
            messages = self.show("\r\nsix")
            self.assertEqual([bytes(message[:1]) for message in messages].count(b"d"), 1)
            self.assertEqual(self.cell(0, 0), self.wanted("t"))
            self.assertEqual(self.cell(4, 0), self.wanted("s"))
            self.assertEqual(self.cell(4, 3), self.wanted(" "))

        def test_wide_and_unknown_characters_are_boxes(self):
            self.begin()
            self.show("\u4e2d\u0416\u4e2d")
            left, right = self.cell(0, 0), self.cell(0, 1)
            wide, high = self.shape.width, self.shape.height
            self.assertEqual([at for at in range(high) if left[at][1] == paint.INK], list(range(1, high - 1)))
            self.assertEqual([at for at in range(high) if right[at][wide - 2] == paint.INK], list(range(1, high - 1)))
            self.assertEqual(left[1][1:] + right[1][: wide - 1], [paint.INK] * (2 * wide - 2))
            box = self.cell(0, 2)
            self.assertEqual(
                (box[1][1], box[1][wide - 2], box[0][1], box[2][2]), (paint.INK, paint.INK, paint.PAPER, paint.PAPER)
            )
            self.show("\x1b[1;1Hab")
            self.assertEqual((self.cell(0, 0), self.cell(0, 1)), (self.wanted("a"), self.wanted("b")))

        def test_marks_are_drawn_over_their_character(self):
            face = fonts.Face(2, 0, {97: fonts.Glyph(3, 0, 1, 3, (0b010,)), 0x308: fonts.Glyph(3, 0, 2, 3, (0b101,))})
            self.assertEqual(glyphs.Glyphs(face).bitmap(("a\u0308", False)), bytes([0b10100000, 0b01000000]))

        def test_the_cursor_and_what_is_selected_are_inverse(self):
            self.begin()
            self.show("ab\r\ncd", cursor=(1, 1), selected=((0, 1), (1, 0)))
            other = (paint.PAPER, paint.INK)
            self.assertEqual(self.cell(0, 0), self.wanted("a"))
            self.assertEqual(self.cell(0, 1), self.wanted("b", *other))
            self.assertEqual(self.cell(0, 11), self.wanted(" ", *other))
            self.assertEqual(self.cell(1, 0), self.wanted("c", *other))
            self.assertEqual(self.cell(1, 1), self.wanted("d", *other))
            self.show()
            self.assertEqual(self.cell(0, 1), self.wanted("b"))

        def test_glyphs_and_colours_make_room_for_others(self):
            self.begin(columns=40, lines=1)
            for first in range(0x100, 0x100 + 1200, 40):
                self.show("\x1b[H" + "".join(map(chr, range(first, first + 40))))
            self.show("\x1b[0m\x1b[2J\x1b[Hhello")
            self.assertEqual(self.cell(0, 0), self.wanted("h"))
            self.assertLessEqual(max(self.display.places), paint.SLOTS - 1)
            for number in range(400):
                self.show(f"\x1b[H\x1b[38;2;0;{number // 256};{number % 256}mx")
            self.assertEqual(self.cell(0, 0), self.wanted("x", 0x00018F))
            self.assertLessEqual(len(self.display.images), paint.MOST_COLOURS + 3)

        def test_many_looks(self):
            self.begin(columns=2, lines=1)
            for number in range(paint.MOST_LOOKS + 10):
                self.painter.looks[self.cells.row(0)[0]._replace(data=chr(0x4E00 + number))]
            self.show("x")
            self.assertLess(len(self.painter.looks), 10)

        def test_random_frames_show_what_the_cells_are(self):
            for seed in range(30):
                chance = random.Random(seed)
                self.begin(chance.randrange(2, 14), chance.randrange(2, 6), glyphs.Glyphs(SMALL))
                for _ in range(12):
                    text = "".join(self.made(chance) for _ in range(chance.randrange(12)))
                    cursor = (
                        (chance.randrange(self.cells.lines), chance.randrange(self.cells.columns))
                        if chance.randrange(2)
                        else None
                    )
                    points = sorted(
                        (chance.randrange(self.cells.lines), chance.randrange(self.cells.columns)) for _ in range(2)
                    )
                    selected = tuple(points) if chance.randrange(3) == 0 else None
                    self.show(text, cursor, selected)
                    window = self.display.window
                    self.fresh(cursor, selected)
                    self.assertEqual(window, self.display.window, seed)

        def fresh(self, cursor, selected):
            """Paints all cells anew on another display."""
            cells, stream = self.cells, self.stream
            keep = self.painter, self.display
            self.begin(cells.columns, cells.lines, self.shape)
            self.cells, self.stream = cells, stream
            self.show("", cursor, selected)
            self.fresh_display, (self.painter, old) = self.display, keep
            self.display, old.window = old, old.window
            self.assertEqual(old.window, self.fresh_display.window)

        def made(self, chance):
            return chance.choice(
                [
                    "ab",
                    "X",
                    "  ",
                    "\u4e2d",
                    "\r\n",
                    "\n",
                    "\n\n",
                    "\x1bM",
                    "\x1b[H",
                    "\x1b[2;1H",
                    "\x1b[31m",
                    "\x1b[7m",
                    "\x1b[0m",
                    "\x1b[4m",
                    "\x1b[9m",
                ]
                + [
                    "\x1b[L",
                    "\x1b[2M",
                    "\x1b[K",
                    "\x1b[J",
                    "\x1b[1;2r",
                    "\x1b[r",
                    "\x1b[S",
                    "\x1b[T",
                    "\x1b[P",
                    "\x1b[@",
                    "\x1b[44m",
                    "\x1b[?1049h",
                    "\x1b[?1049l",
                ]
            )

    class Faces(unittest.TestCase):
        def test_fonts_by_name_and_their_bold_ones(self):
            self.assertEqual(glyphs.bold_of("/a/7x13.pcf.gz"), "/a/7x13B.pcf.gz")
            self.assertEqual(glyphs.found("./none"), "./none")
            self.assertEqual(glyphs.found("none"), "none")
            with tempfile.TemporaryDirectory() as room:
                path = pathlib.Path(room, "a.txt")
                text = pathlib.Path(font.DRAWN).read_text()
                path.write_text(text)
                pathlib.Path(room, "aB.txt").write_text(text.replace("..#...", "###...", 1))
                shape = glyphs.load(str(path))
                self.assertEqual((shape.width, shape.height, shape.ascent), (6, 10, 8))
                self.assertNotEqual(shape.bitmap(("!", True)), shape.bitmap(("!", False)))
                self.assertEqual(shape.bitmap(("!", True))[1], 0b11100000)
                self.assertEqual(shape.bitmap(("\u0416", True)), shape.bitmap(("\u0416", False)))

        def test_fonts_that_do_not_fit(self):
            face = fonts.read_file(font.DRAWN)
            other = fonts.Face(3, 1, face.glyphs)
            self.assertIsNone(glyphs.Glyphs(face, other).bold)
            with self.assertRaisesRegex(fonts.BadFont, "several widths"):
                glyphs.Glyphs(fonts.Face(3, 1, {65: fonts.Glyph(3, 0, 1, 1, (1,)), 66: fonts.Glyph(4, 0, 1, 1, (1,))}))

        def test_the_usual_font(self):
            self.assertIn(glyphs.load(None).width, (6, 7))

    class Keys(unittest.TestCase):
        def test_keys(self):
            told = {
                "a": "a",
                "\n": "\r",
                "\b": "\x7f",
                "\x7f": "\x1b[3~",
                "\uf00e": "\x1b[A",
                "\uf001": "\x1bOP",
                "\uf00c": "\x1b[24~",
                "\uf015": "",
            }
            told.update(
                {
                    "\x03": "\x03",
                    "é": "é",
                    "\uf00d": "\x1b[1~",
                    "\uf018": "\x1b[4~",
                    "\uf00f": "\x1b[5~",
                    "\uf013": "\x1b[6~",
                    "\uf014": "\x1b[2~",
                }
            )
            for key, text in told.items():
                self.assertEqual(keys.of_key(key, False), text, ascii(key))
            self.assertEqual(
                [keys.of_key(key, True) for key in "\uf00e\uf800\uf012\uf011"], ["\x1bOA", "\x1bOB", "\x1bOC", "\x1bOD"]
            )

        def test_what_is_put_in(self):
            self.assertEqual(keys.of_paste("a\nb\r\nc\x1b[201~", False), "a\rb\rc[201~")
            self.assertEqual(keys.of_paste("a", True), "\x1b[200~a\x1b[201~")

        def test_the_mouse(self):
            screen = Cells(300, 300)
            stream = Stream(screen)
            self.assertFalse(keys.wants_mouse(screen))
            stream.feed_bytes(b"\x1b[?1000h")
            self.assertTrue(keys.wants_mouse(screen))
            self.assertEqual(keys.of_mouse(screen, 2, 3, 1, 0), "\x1b[M #$")
            self.assertEqual(keys.of_mouse(screen, 2, 3, 0, 1), "\x1b[M##$")
            self.assertEqual(keys.of_mouse(screen, 3, 3, 1, 1), "")
            self.assertEqual(keys.of_mouse(screen, 250, 3, 1, 0), "")
            stream.feed_bytes(b"\x1b[?1006h\x1b[?1002h")
            self.assertEqual(keys.of_mouse(screen, 250, 3, 4, 0), "\x1b[<2;251;4M")
            self.assertEqual(keys.of_mouse(screen, 250, 3, 0, 4), "\x1b[<2;251;4m")
            self.assertEqual(keys.of_mouse(screen, 5, 3, 1, 1), "\x1b[<32;6;4M")
            self.assertEqual(keys.of_mouse(screen, 5, 3, 8, 0) + keys.of_mouse(screen, 5, 3, 0, 8), "\x1b[<64;6;4M")
            self.assertEqual(keys.of_mouse(screen, 5, 3, 0, 0), "")
            stream.feed_bytes(b"\x1b[?1003h")
            self.assertEqual(keys.of_mouse(screen, 5, 3, 0, 0), "\x1b[<35;6;4M")


if __name__ == "__main__":
    unittest.main()
