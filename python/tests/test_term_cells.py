"""Tests of rio9.term.cells: beside pyte's own screen, and by sequences that it does not take."""

import random
import unittest

import elsewhere

LIBRARIES = ("pyte", "wcwidth")
LACKS = elsewhere.missing(*LIBRARIES)

if LACKS:

    class Elsewhere(elsewhere.Elsewhere):
        def test_by_another_interpreter(self):
            self.run_file(__file__, *LIBRARIES)

else:
    import pyte

    from rio9.term.cells import BRACKETED_PASTE, CURSOR_KEYS, Cells, Stream

    class Cases(unittest.TestCase):
        def begin(self, columns=20, lines=6):
            self.cells = Cells(columns, lines)
            self.stream = Stream(self.cells)

        def feed(self, text):
            self.stream.feed_bytes(text.encode() if isinstance(text, str) else text)

        def rows(self):
            return ["".join(cell.data for cell in self.cells.row(y)).rstrip() for y in range(self.cells.lines)]

    class BesidePyte(Cases):
        """Sequences whose meaning pyte's own screen has as well: both have to keep the same cells."""

        SEQUENCES = ["\n", "\r", "\r\n", "\b", "\t", "\x1bM", "\x1bD", "\x1bE", "\x1b7", "\x1b8", "\x1b[H"]
        COMMANDS = "ABCDEGHJKLMPX@dr"

        def made(self, chance):
            kind = chance.randrange(6)
            if kind < 2:
                return "".join(chance.choice("abc XYZ09é─") for _ in range(chance.randrange(1, 30)))
            if kind == 2:
                return chance.choice(self.SEQUENCES)
            if kind == 3:
                return f"\x1b[{chance.choice(['', '1', '4', '7', '31', '42', '1;33', '0'])}m"
            if kind == 4:
                return chance.choice(["\x1b[4h", "\x1b[4l", "\x1b[?7l", "\x1b[?7h", "\x1b[?6l"])
            letter = chance.choice(self.COMMANDS)
            most = {"J": 3, "K": 2}.get(letter, 9)
            numbers = [str(chance.randrange(most + 1)) for _ in range(2 if letter in "Hr" else 1)]
            return f"\x1b[{';'.join(numbers)}{letter}"

        def test_random_streams(self):
            for seed in range(60):
                chance = random.Random(seed)
                self.begin(columns=chance.randrange(3, 20), lines=chance.randrange(2, 8))
                other = pyte.Screen(self.cells.columns, self.cells.lines)
                stream = pyte.Stream(other)
                for step in range(40):
                    text = self.made(chance)
                    self.feed(text)
                    stream.feed(text)
                    rows = [[other.buffer[y][x] for x in range(other.columns)] for y in range(other.lines)]
                    self.assertEqual([self.cells.row(y) for y in range(other.lines)], rows, (seed, step, text))
                    self.assertEqual(
                        (self.cells.cursor.x, self.cells.cursor.y), (other.cursor.x, other.cursor.y), (seed, step, text)
                    )

    class Sequences(Cases):
        def test_junk_is_taken(self):
            chance = random.Random(1)
            for _ in range(100):
                self.begin()
                pieces = [
                    b"\x1b",
                    b"\x1b[",
                    b"[",
                    b";",
                    b"?",
                    b"9999",
                    b"m",
                    b"\x1b]",
                    b"\x07",
                    b"\x1bP",
                    b"\xff",
                    b"\xc2\xb9",
                    b"\xe4\xb8\xad",
                    b"\xcc\x81",
                ]
                self.feed(
                    b"".join(chance.choice(pieces) if chance.randrange(2) else chance.randbytes(1) for _ in range(300))
                )
                self.assertTrue(0 <= self.cells.cursor.y < 6 and 0 <= self.cells.cursor.x <= 20)
                self.assertEqual({len(self.cells.row(y)) for y in range(6)}, {20})

        def test_each_command_takes_any_parameters(self):
            for letter in map(chr, range(0x40, 0x7F)):
                for head in ("", "?", ">", "1", "9999", "1;2;3;4;5", "?1;2", "5", "-1", "4:3", "1 ", "!"):
                    self.begin()
                    self.feed(f"\x1b[?6h\x1b[{head}{letter}")
                    self.assertEqual(len(self.cells.row(0)), 20)

        def test_sequences_that_are_left_out_print_nothing(self):
            for text in (
                *("\x1b]0;title\x07", "\x1b]2;title\x1b\\", "\x1b]10;?\x07", "\x1b]R", "\x1b]P1234567"),
                *("\x1bP+q544e\x1b\\", "\x1b_Gx\x1b\\", "\x1b[>4;2m", "\x1b[>c", "\x1b[?2026$p", "\x1b[!p", "\x1b[2 q"),
                *("\x1b[4:3m", "\x1b[=1c", "\x1bkname\x1b\\"),
                *("\x1b%G", "\x1b=", "\x1b>", "\x1b[?1049h", "\x1b[?3h", "\x1b[22;0;0t", "\x9b", "\x1b[58:2::1:2:3m"),
            ):
                self.begin()
                self.feed(text + "x")
                self.assertEqual(self.rows(), ["x", "", "", "", "", ""], repr(text))
                self.assertFalse(self.cells.row(0)[0].underscore, repr(text))
                self.assertEqual(self.cells.columns, 20)

        def test_sequences_in_pieces(self):
            text = "a\x1b[1;31mb\x1b]0;the title\x07c\x1bPq#0\x1b\\d\x1b[>1ue\u4e2df\x1b[?25l"
            for step in range(1, len(text)):
                self.begin()
                data = text.encode()
                for at in range(0, len(data), step):
                    self.feed(data[at : at + step])
                self.assertEqual(self.rows()[0], "abcde\u4e2df")
                self.assertEqual(
                    (self.cells.title, self.cells.cursor.hidden, self.cells.row(0)[1].fg), ("the title", True, "red")
                )

        def test_an_endless_string_does_not_hold_all_back(self):
            self.begin()
            self.feed("\x1b]0;" + "x" * 5000)
            self.assertEqual(self.cells.cursor.y, 5)
            self.feed("\r\nend")
            self.assertEqual(self.rows()[5], "end")

        def test_answers(self):
            self.begin()
            self.feed("ab\x1b[6n\x1b[5n\x1b[c\x1b[?6n\x1b[7n")
            self.assertEqual(self.cells.answers, ["\x1b[1;3R", "\x1b[0n", "\x1b[?6c"])
            self.feed("\x1b[2;4r\x1b[?6h\x1b[3;2H\x1b[6n\x1b[2d")
            self.assertEqual(self.cells.answers[-1], "\x1b[3;2R")
            self.assertEqual(self.cells.cursor.y, 2)

        def test_the_second_screen(self):
            self.begin()
            self.feed("first\x1b[?1049h\x1b[Hsecond")
            self.assertEqual(self.rows()[0], "second")
            self.feed("\x1b[?1049h\x1b[?1049l")
            self.assertEqual((self.rows()[0], self.cells.cursor.x), ("first", 5))
            self.feed("\x1b[?1049l\x1b[?47hmore\x1bc")
            self.assertEqual((self.rows()[0], self.cells.first), ("", None))

        def test_lines_by_another_set_of_characters(self):
            self.begin()
            self.feed("\x1b(0lqk\x1b(B\x1b)0\x0emx\x0fq")
            self.assertEqual(self.rows()[0], "┌─┐└│q")

        def test_rows_by_commands(self):
            self.begin(lines=4)
            self.feed("a\r\nb\r\nc\r\nd\x1b[S")
            self.assertEqual(self.rows(), ["b", "c", "d", ""])
            self.feed("\x1b[2T")
            self.assertEqual(self.rows(), ["", "", "b", "c"])
            self.feed("\x1b[3;10H\x1b[Z!\x1b[9Z?")
            self.assertEqual(self.rows()[2], "?       !")

        def test_the_cursor_is_saved_not_for_ever(self):
            self.begin()
            self.feed("\x1b7" * 1000)
            self.assertLess(len(self.cells.savepoints), 20)

        def test_modes(self):
            self.begin()
            self.feed("\x1b[?1h\x1b[?2004h")
            self.assertTrue(self.cells.is_on(CURSOR_KEYS) and self.cells.is_on(BRACKETED_PASTE))
            self.feed("\x1b[?1;2004l")
            self.assertFalse(self.cells.is_on(CURSOR_KEYS) or self.cells.is_on(BRACKETED_PASTE))

    class Past(Cases):
        def test_rows_that_scrolled_out_are_looked_back_at(self):
            self.begin(columns=8, lines=3)
            self.feed("\r\n".join(map(str, range(8))))
            self.assertEqual(self.rows(), ["5", "6", "7"])
            self.cells.look_back(2)
            self.assertEqual(self.rows(), ["3", "4", "5"])
            self.feed("\r\n8\r\n9")
            self.assertEqual(self.rows(), ["3", "4", "5"])
            self.cells.look_back(100)
            self.assertEqual(self.rows(), ["0", "1", "2"])
            self.cells.resize(5, 8)
            self.assertEqual(self.rows(), ["0", "1", "2", "3", "4"])
            self.cells.look_back(-100)
            self.assertEqual(self.rows(), ["7", "8", "9", "", ""])

        def test_the_second_screen_and_parts_of_the_first_have_no_past(self):
            self.begin(columns=8, lines=3)
            self.feed("one\x1b[?1049h" + "\n" * 9)
            self.cells.look_back(5)
            self.assertEqual((self.cells.back, len(self.cells.past)), (0, 0))
            self.feed("\x1b[?1049l\x1b[2;3r" + "\n" * 9 + "\x1b[r\x1b[T")
            self.assertEqual(len(self.cells.past), 0)
            self.feed("\n" * 9)
            self.cells.look_back(5)
            self.assertEqual(self.cells.back, 5)
            self.feed("\x1b[?1049h\x1b[?1049l")
            self.assertEqual(self.cells.back, 0)
            self.cells.look_back(5)
            self.feed("\x1b[3J")
            self.assertEqual((self.cells.back, len(self.cells.past)), (0, 0))

        def test_the_past_has_an_end(self):
            self.begin(columns=8, lines=3)
            self.feed("x\r\n\n\n\n")
            self.cells.look_back(1)
            self.feed("\n" * 5000)
            self.cells.look_back(5000)
            self.assertEqual((len(self.cells.past), self.cells.back, len(self.rows())), (2000, 2000, 3))

    class Characters(Cases):
        def test_wide_ones_have_an_empty_cell_behind_them(self):
            self.begin(columns=5)
            self.feed("ab\u4e2d\u6587x")
            self.assertEqual([cell.data for cell in self.cells.row(0)], ["a", "b", "\u4e2d", "", " "])
            self.assertEqual([cell.data for cell in self.cells.row(1)], ["\u6587", "", "x", " ", " "])
            self.begin(columns=5)
            self.feed("\x1b[?7labcd\u4e2d")
            self.assertEqual([cell.data for cell in self.cells.row(0)], ["a", "b", "c", "\u4e2d", ""])
            self.begin(columns=1)
            self.feed("\u4e2da")
            self.assertEqual([cell.data for cell in self.cells.row(0)], ["a"])

        def test_marks_go_over_the_character_before(self):
            self.begin()
            self.feed("e\u0301\u4e2d\u0308x\u0308\u0307\x1b[1;1H\u0301")
            self.assertEqual(
                [cell.data for cell in self.cells.row(0)[:4]],
                ["\u00e9", "\u4e2d\u0308", "", "x\u0308\u0307".replace("x\u0308", "\u1e8d")],
            )
            self.feed("\x1b[2;2Ha" + "\u0308" * 100)
            self.assertLessEqual(len(self.cells.row(1)[1].data), 16)

        def test_insertion(self):
            self.begin(columns=8)
            self.feed("abcdef\x1b[1;2H\x1b[4hX\u4e2d")
            self.assertEqual(self.rows()[0], "aX\u4e2dbcde")

        def test_many_looks(self):
            self.begin()
            for number in range(1000):
                self.feed(f"\x1b[38;2;{number % 256};{number // 256};0mx")
            self.assertLessEqual(len(self.cells.pens), 256)

    class Sizes(Cases):
        def test_rows_above_go_only_if_the_cursor_is_below(self):
            self.begin(columns=6, lines=5)
            self.feed("one\r\ntwo\r\nthree\r\nfour")
            self.cells.resize(3, 4)
            self.assertEqual((self.rows(), self.cells.cursor.y), (["two", "thre", "four"], 2))
            self.cells.resize(5, 6)
            self.assertEqual((self.rows(), self.cells.cursor.y), (["two", "thre", "four", "", ""], 2))
            self.feed("\x1b[H")
            self.cells.resize(2)
            self.assertEqual((self.rows(), self.cells.cursor.y), (["two", "thre"], 0))

        def test_the_screen_that_does_not_show(self):
            self.begin(columns=6, lines=5)
            self.feed("one\r\ntwo\r\nthree\r\nfour\x1b[?1049h")
            self.cells.resize(3, 4)
            self.feed("\x1b[?1049l")
            self.assertEqual(self.rows(), ["one", "two", "thre"])
            self.assertLess(self.cells.cursor.y, 3)

        def test_tabs_in_new_columns(self):
            self.begin(columns=10)
            self.cells.resize(6, 40)
            self.feed("\t\t\tx")
            self.assertEqual(self.rows()[0], " " * 24 + "x")

        def test_text(self):
            self.begin(columns=10, lines=3)
            self.feed("hello\u4e2d\r\n  wo rld \r\nend")
            self.assertEqual(self.cells.text((0, 2), (1, 3)), "llo\u4e2d\n  wo")
            self.assertEqual(self.cells.text((0, 0), (2, 9)), "hello\u4e2d\n  wo rld\nend")
            self.assertEqual(self.cells.text((1, 4), (1, 4)), " ")

        def test_moves_are_told(self):
            self.begin(columns=10, lines=3)
            self.feed("\n" * 12)
            self.assertEqual([(move.top, move.bottom, move.count) for move in self.cells.moves], [(0, 2, 10)])
            self.feed("\x1b[1;2r\x1bM\x1b[3;1H\n" * 20)
            self.assertLessEqual(len(self.cells.moves), 8)


if __name__ == "__main__":
    unittest.main()
