"""Tests of rio9d term before a server: what a window shows of programs, and what programs get of keys, the mouse and
sizes.

The golden picture golden/term_bash.png shows the window's inside after KEYS were typed into bash. It is right by three
looks: it was looked at by eye; it is what `golden_points` draws of ROWS, the cells that were to be there, by the text
in which the font is drawn, and by nothing of rio9.term; and it is what the server's `screen` has. RIO9_UPDATE=1 writes
it anew of what `golden_points` draws.
"""

import contextlib
import io
import os
import pathlib
import random
import re
import select
import signal
import socket
import subprocess
import sys
import tempfile
import threading
import time
import unittest

import elsewhere

LIBRARIES = ("pyte", "wcwidth")
LACKS = elsewhere.missing(*LIBRARIES)

if LACKS:

    class Elsewhere(elsewhere.Elsewhere):
        def test_by_another_interpreter(self):
            self.run_file(__file__, *LIBRARIES)

else:
    import test_picture
    from needs import needs_program

    from rio9 import client, font, formats, picture
    from rio9.desktop import Desktop
    from rio9.server import Server, ServerWords
    from rio9.term import command, glyphs, paint, window
    from rio9.term.child import Child, NoCommand, environment

    PYTHON = pathlib.Path(__file__).resolve().parent.parent
    GOLDEN = PYTHON / "tests" / "golden" / "term_bash.png"
    DRAWN = pathlib.Path(font.DRAWN)
    FONT = ("--font", str(DRAWN))
    WIDE, HIGH, ASCENT = 6, 10, 8
    SECONDS = 20
    COLUMNS, LINES = 48, 9
    BASH = ("env", "-u", "HISTFILE", "PS1=$ ", "bash", "--norc", "--noprofile")
    KEYS = [
        "echo hello, world\n",
        "printf '\\033[31mred \\033[1;34mblue\\033[m \\033[4mu\\033[7mr'\n",
        "printf '\\033[m'; seq 4\n",
        "cd nowhere",
    ]

    # The rows that are to be there behind KEYS, of which the first one has scrolled away, and the cells that have
    # another look: row, first column, text, colour, paper, and whether it is bold or has a line beneath.
    ROWS = [
        "hello, world",
        "$ printf '\\033[31mred \\033[1;34mblue\\033[m \\033[",
        "4mu\\033[7mr'",
        "red blue ur$ printf '\\033[m'; seq 4",
        "1",
        "2",
        "3",
        "4",
        "$ cd nowhere",
    ]
    RED, BLUE = 0xD54E53, 0x82B4FF
    INK, PAPER = 0xD8DCE2, 0x14181D
    LOOKS = [
        (3, 0, "red ", RED, PAPER, ""),
        (3, 4, "blue", BLUE, PAPER, "bold"),
        (3, 9, "u", INK, PAPER, "line"),
        (3, 10, "r$ printf '\\033[m'; seq 4", PAPER, INK, "line"),
        (8, 12, " ", PAPER, INK, ""),
    ]

    def golden_points(rows, looks, columns, lines):
        """The points of a window's inside, row by row, drawn of cells by the text in which the font is drawn."""
        drawn = font.read_font(DRAWN.read_text())
        cells = [[(text, INK, PAPER, "") for text in row.ljust(columns)] for row in rows]
        for row, begin, text, ink, paper, kind in looks:
            cells[row][begin : begin + len(text)] = [(one, ink, paper, kind) for one in text]
        edge = window.MARGIN
        points = [[PAPER] * (columns * WIDE + 2 * edge) for _ in range(lines * HIGH + 2 * edge)]
        for y, row in enumerate(cells):
            for x, (text, ink, paper, kind) in enumerate(row):
                for down, bits in enumerate(drawn[ord(text) - font.FIRST]):
                    for at, bit in enumerate(bits):
                        has_ink = bit or kind == "bold" and at and bits[at - 1] or kind == "line" and down == ASCENT + 1
                        points[edge + y * HIGH + down][edge + x * WIDE + at] = ink if has_ink else paper
        return points

    def read_png(path):
        """The points of a PNG file, row by row."""
        wide, high, data = test_picture.pixels_of(path.read_bytes())
        step = len(data) // (wide * high)
        numbers = [int.from_bytes(data[at : at + 3], "big") for at in range(0, len(data), step)]
        return [numbers[at : at + wide] for at in range(0, wide * high, wide)]

    def write_png(path, points):
        """Writes points as a PNG file."""
        rows = b"".join(point.to_bytes(4, "little") for row in points for point in row)
        path.parent.mkdir(exist_ok=True)
        path.write_bytes(picture.picture(formats.channels_word("x8r8g8b8"), 0, len(points[0]), len(points), rows))

    class Running:
        """A terminal that runs in a thread of this process."""

        def __init__(self, *words):
            self.words, self.status, self.err = list(words), None, io.StringIO()
            self.thread = threading.Thread(target=self.run, daemon=True)
            self.thread.start()

        def run(self):
            with contextlib.redirect_stderr(self.err):
                try:
                    self.status = command.main(self.words)
                except SystemExit as ended:
                    self.status = ended.code

        def ended(self):
            self.thread.join(SECONDS)
            return self.status

    class Spoiled(threading.Thread):
        """Passes one client on to a server, and makes one byte of what comes back another one."""

        MOST = 1500  # bytes that come back before that one, at most

        def __init__(self, server, chance):
            super().__init__(daemon=True)
            self.server, self.chance = server, chance
            self.listener = socket.create_server(("127.0.0.1", 0))
            self.address = self.listener.getsockname()

        def __enter__(self):
            self.start()
            return self

        def __exit__(self, *_):
            self.listener.shutdown(socket.SHUT_RDWR)
            self.listener.close()
            self.join(SECONDS)

        def run(self):
            left = self.chance.randrange(self.MOST)
            with contextlib.suppress(OSError):
                client_side, server_side = self.listener.accept()[0], socket.create_connection(self.server)
                with client_side, server_side:
                    while True:
                        for one in select.select([client_side, server_side], [], [])[0]:
                            data = bytearray(one.recv(1 << 16))
                            if not data:
                                return
                            if one is server_side:
                                if 0 <= left < len(data):
                                    data[left] ^= self.chance.randrange(1, 256)
                                left -= len(data)
                            (client_side if one is server_side else server_side).sendall(data)

    class Cases(unittest.TestCase):
        size = (320, 200)

        def setUp(self):
            self.server = Server(ServerWords(size=self.size, workers=8, connections=200))
            self.server.begin()
            self.addCleanup(self.server.close)
            self.address = "{}:{}".format(*self.server.address)
            self.desktop = Desktop(lambda: client.connect(self.server.address))
            self.addCleanup(self.desktop.close)

        def start(self, *words, columns=COLUMNS, lines=LINES):
            running = Running(
                self.address, *FONT, "--at", "4,4", "--columns", str(columns), "--rows", str(lines), *words
            )
            self.addCleanup(self.finish, running)
            end = time.monotonic() + SECONDS
            while running.thread.is_alive() and not self.desktop.numbers() and time.monotonic() < end:
                time.sleep(0.02)
            return running

        def finish(self, running):
            """Deletes the window of a terminal that still runs, and waits until it has ended."""
            with contextlib.suppress(client.Failure):
                self.finish_windows()
            running.ended()

        def finish_windows(self):
            """Deletes all windows."""
            for number in self.desktop.numbers():
                self.desktop.write("wctl", f"delete -id {number}".encode())

        def points(self, columns=COLUMNS, lines=LINES):
            """The points of the inside of the window of so many cells, as the screen has them."""
            data = self.desktop.read("screen")
            left, right, upper, lower = 8, 8 + 4 + columns * WIDE, 8, 8 + 4 + lines * HIGH
            wide = self.size[0]
            rows = [data[60 + 4 * wide * y :][: 4 * wide] for y in range(upper, lower)]
            return [[int.from_bytes(row[4 * x : 4 * x + 3], "little") for x in range(left, right)] for row in rows]

        def wait_until(self, wanted, read):
            """Waits until something is as it is wanted."""
            end = time.monotonic() + SECONDS
            while (found := read()) != wanted and time.monotonic() < end:
                time.sleep(0.05)
            return found

        def shows(self, rows, looks=(), columns=COLUMNS, lines=LINES):
            """Waits until the window shows rows, with looks as of LOOKS."""
            wanted = golden_points(rows, looks, columns, lines)
            found = self.wait_until(wanted, lambda: self.points(columns, lines))
            if found != wanted:
                actual = pathlib.Path(tempfile.gettempdir(), f"{self.id()}-actual.png")
                write_png(actual, found)
                self.fail(f"the window does not show {rows}: {actual} is what it shows")

    @needs_program
    class Shell(Cases):
        def test_what_is_typed_into_bash_shows_as_the_golden_picture(self):
            running = self.start("--", *BASH)
            self.shows(["$ "], [(0, 2, " ", PAPER, INK, "")])
            for number, text in enumerate(KEYS):
                self.desktop.type(text)
                if number < len(KEYS) - 1:
                    self.wait_for_prompt()
            points = golden_points(ROWS, LOOKS, COLUMNS, LINES)
            if os.environ.get("RIO9_UPDATE"):
                write_png(GOLDEN, points)
            self.assertEqual(read_png(GOLDEN), points)
            self.shows(ROWS, LOOKS)
            self.desktop.type("\x15exit 7\n")
            self.assertEqual((running.ended(), running.err.getvalue()), (7, ""))
            self.assertEqual(self.desktop.numbers(), [])

        def wait_for_prompt(self):
            """Waits until nothing changes for a while, so that keys are not typed ahead."""
            last, since = None, time.monotonic()
            while time.monotonic() - since < 0.7:
                now = self.points()
                if now != last:
                    last, since = now, time.monotonic()
                time.sleep(0.05)

        def test_the_size_of_the_window_is_the_programs(self):
            script = "trap 'stty size' WINCH; stty size; while :; do sleep 0.05; done"
            running = self.start("--", "sh", "-c", script)
            self.shows(self.rows("9 48"), self.cursor(1, 0))
            self.desktop.write("wctl", b"resize -r 4 4 200 100 -id 1")
            columns, lines = (200 - 4 - 12) // WIDE, (100 - 4 - 12) // HIGH
            self.assertEqual((columns, lines), (30, 8))
            self.shows(["9 48", "8 30", *[""] * 6], self.cursor(2, 0), columns, lines)
            self.desktop.write("wctl", b"move -minx 8 -miny 8 -id 1")
            self.desktop.write("wctl", b"move -minx 4 -miny 4 -id 1")
            self.shows(["9 48", "8 30", *[""] * 6], self.cursor(2, 0), columns, lines)
            self.desktop.write("wctl", b"delete -id 1")
            self.assertEqual((running.ended(), running.err.getvalue()), (0, ""))

        def test_a_window_that_is_moved_and_resized_while_much_is_drawn(self):
            more = 'printf "\\033[3$((i % 8))m%d \\033[48;5;%dm%c" $i $((i % 256)) $((i % 10)); i=$((i + 1))'
            last = "printf '\\033[m\\033[2J\\033[H'; echo abcdefghijkl; echo 0123456789"
            script = f"i=0; while [ ! -e $0 ]; do {more}; done; {last}"
            with tempfile.TemporaryDirectory() as room:
                stop = pathlib.Path(room, "stop")
                running = self.start("--hold", "--", "sh", "-c", script, str(stop))
                for number in range(40):
                    side = number % 5
                    self.desktop.write("wctl", f"resize -r {side} 4 {side + 200 + number} 90 -id 1".encode())
                    self.desktop.write("wctl", f"move -minx {9 - side} -miny 8 -id 1".encode())
                self.desktop.write("wctl", b"resize -r 4 4 304 106 -id 1")
                stop.touch()
                self.shows(["abcdefghijkl", "0123456789"])
            self.desktop.write("wctl", b"delete -id 1")
            self.assertEqual((running.ended(), running.err.getvalue()), (0, ""))

        def cursor(self, row, column, text=" "):
            return [(row, column, text, PAPER, INK, "")]

        def rows(self, *rows):
            return [*rows, *[""] * (LINES - len(rows))]

        def test_a_selection_goes_to_snarf_and_is_put_in(self):
            self.start("--hold", "--", "sh", "-c", 'echo one two; echo three; read line; echo "<$line>"')
            self.shows(self.rows("one two", "three"), self.cursor(2, 0))
            at = lambda row, column: (10 + column * WIDE + 2, 10 + row * HIGH + 4)  # noqa: E731
            self.desktop.drag(at(0, 4), at(1, 1))
            inverse = [(0, 4, "two".ljust(COLUMNS - 4), PAPER, INK, ""), (1, 0, "th", PAPER, INK, "")]
            self.shows(self.rows("one two", "three"), [*inverse, *self.cursor(2, 0)])
            self.assertEqual(self.wait_until(b"two\nth", lambda: self.desktop.read("snarf")), b"two\nth")
            self.desktop.click(*at(5, 5))
            self.shows(self.rows("one two", "three"), self.cursor(2, 0))
            self.desktop.drag(at(1, 4), at(1, 2))
            self.assertEqual(self.wait_until(b"ree", lambda: self.desktop.read("snarf")), b"ree")
            self.desktop.click(*at(5, 5), button=2)
            self.shows(self.rows("one two", "three", "ree"), self.cursor(2, 3))
            self.desktop.type("\n")
            self.shows(self.rows("one two", "three", "ree", "<ree>"))
            self.desktop.type("x")

        def test_a_program_gets_the_mouse_and_the_wheel(self):
            first = "stty raw -echo; printf '\\033[?1000h\\033[?1006h'; head -c 18 | cat -v"
            script = f"{first}; printf '\\033[?1000l\\033[?1049h\\033[H'; head -c 9 | cat -v"
            self.start("--hold", "--", "sh", "-c", script)
            time.sleep(1)
            self.desktop.click(10 + 3 * WIDE, 10 + 2 * HIGH)
            end = time.monotonic() + SECONDS
            blank = golden_points(self.rows(""), self.cursor(0, 0), COLUMNS, LINES)
            while self.points() != blank and time.monotonic() < end:
                time.sleep(0.05)
            self.desktop.click(12, 12, button=4)
            self.shows(self.rows("^[[A^[[A^[[A"))

        def test_the_wheel_looks_back(self):
            script = "seq 20; read line; echo $line"
            self.start("--hold", "--", "sh", "-c", script)
            last = self.rows(*map(str, range(13, 21)))
            self.shows(last, self.cursor(8, 0))
            self.desktop.click(12, 12, button=4)
            self.shows(self.rows(*map(str, range(10, 19))))
            self.desktop.click(12, 12, button=5)
            self.shows(last, self.cursor(8, 0))
            self.desktop.click(12, 12, button=4)
            self.desktop.click(12, 12, button=4)
            self.shows(self.rows(*map(str, range(7, 16))))
            self.desktop.type("x")
            self.shows([*last[:8], "x"], self.cursor(8, 1))

        def test_the_words_of_the_packages_page(self):
            text = (PYTHON / "README.md").read_text(encoding="utf-8").split("## A terminal")[1].split("\n## ")[0]
            lines = [line for block in re.findall(r"```sh\n(.*?)```", text, re.DOTALL) for line in block.splitlines()]
            self.assertEqual(len(lines), 2)
            for line in lines:
                words = line.replace("127.0.0.1:5640", self.address).replace("vim notes.txt", "cat").split()
                self.assertEqual(words.pop(0), "python/rio9d")
                if "9x15" in words and not os.path.exists(glyphs.found("9x15")):
                    continue
                running = subprocess.Popen([sys.executable, str(PYTHON / "rio9d"), *words], stderr=subprocess.PIPE)
                windows = self.wait_until(1, lambda: len(self.desktop.numbers()))
                self.finish_windows()
                self.assertEqual((windows, running.communicate(timeout=SECONDS)[1], running.returncode), (1, b"", 0))

        def test_a_title_is_the_windows_label(self):
            self.start("--hold", "--", "printf", "\\033]2;a title\\007done")
            self.shows(self.rows("done"))
            self.assertEqual(self.wait_until({1: "a title"}, self.desktop.windows), {1: "a title"})

        def test_questions_of_a_program_are_answered(self):
            self.start("--hold", "--", "sh", "-c", "stty raw -echo; printf 'ab\\033[6n'; head -c 6 | cat -v")
            self.shows(self.rows("ab^[[1;3R"))

        def test_much_output_is_taken_in_time(self):
            with tempfile.NamedTemporaryFile("w") as file:
                file.write(
                    "".join(
                        f"{number:5} the quick brown fox jumps over the lazy dog {number}\n" for number in range(10000)
                    )
                )
                file.flush()
                begin = time.monotonic()
                running = self.start("--hold", "--", "cat", file.name)
                rows = [
                    f"{number:5} the quick brown fox jumps over the lazy dog"[:COLUMNS] for number in range(9992, 10000)
                ]
                shown = golden_points(self.wrapped(9996), [], COLUMNS, LINES)
                found = self.wait_until(shown, self.points)
                taken = time.monotonic() - begin
            self.assertEqual(found, shown, rows)
            self.assertLess(taken, SECONDS)
            self.desktop.write("wctl", b"delete -id 1")
            self.assertEqual(running.ended(), 0)

        def wrapped(self, first):
            """The last rows of such output, whose lines take two rows each."""
            lines = [
                f"{number:5} the quick brown fox jumps over the lazy dog {number}" for number in range(first, 10000)
            ]
            return [part for line in lines for part in (line[:COLUMNS], line[COLUMNS:])] + [""]

    @needs_program
    class Faults(Cases):
        def test_statuses_of_programs(self):
            self.assertEqual(Running(self.address, "--", "false").ended(), 1)
            self.assertEqual(Running(self.address, "--", "sh", "-c", "kill -9 $$").ended(), 137)

        def test_a_program_that_stays_when_its_terminal_goes(self):
            running = self.start("--", "sh", "-c", "trap '' HUP; echo up; exec sleep 100")
            self.shows(["up", *[""] * 8], [(1, 0, " ", PAPER, INK, "")])
            self.desktop.write("wctl", b"delete -id 1")
            self.assertEqual(running.ended(), 0)

        def test_a_server_that_goes(self):
            running = self.start("--", "sleep", "100")
            self.shows([""] * 9, [(0, 0, " ", PAPER, INK, "")])
            self.server.process.kill()
            self.assertEqual(running.ended(), 1)
            self.assertRegex(
                running.err.getvalue(), "^rio9d term: the (server ended the session|connection ended.*)\n$"
            )

        def test_what_is_told_of_wrong_words(self):
            for words, status, told in (
                (("--", "no-such-command"), 2, "no command: no-such-command: name a program"),
                (("--",), 2, "a command is wanted behind --"),
                (("--font", "none.pcf", "--", "true"), 2, "No such file or directory: none.pcf: name a font's file"),
                (("--font", __file__, "--", "true"), 2, "no font in BDF, PCF or PSF"),
                (("--columns", "400", "--rows", "10", "--", "true"), 1, "400 by 10 cells take"),
                (("--columns", "1", "--", "true"), 2, "no number from 2 to 500: 1"),
                (("--at", "5", "--", "true"), 2, "no point, as 16,16: 5"),
                (
                    ("--at", "99999,0", "--columns", "9", "--rows", "9", "--", "/etc/passwd"),
                    2,
                    "no command: /etc/passwd",
                ),
            ):
                running = Running(self.address, *words)
                self.assertEqual(running.ended(), status, words)
                self.assertIn(told, running.err.getvalue())
                self.assertEqual(running.err.getvalue().count("\n"), 1)

        def test_a_server_that_answers_junk(self):
            for seed in range(10):
                with Spoiled(self.server.address, random.Random(seed)) as spoiled:
                    words = ("--seconds", "1", *FONT, "--", "sh", "-c", "seq 5")
                    running = Running("{}:{}".format(*spoiled.address), *words)
                    self.assertIn(running.ended(), (0, 1), seed)
                    self.assertLessEqual(running.err.getvalue().count("\n"), 1, running.err.getvalue())
                self.assertEqual(self.wait_until([], self.desktop.numbers), [])

        def test_no_server(self):
            running = Running("127.0.0.1:1", "--", "true")
            self.assertEqual(running.ended(), 1)
            self.assertIn("rio9d serve starts one", running.err.getvalue())

        def test_a_window_that_is_larger_than_the_display_is_not_made_of_itself(self):
            running = Running(self.address, "--font", str(DRAWN), "--", "sh", "-c", "stty size > /dev/null; sleep 100")
            end = time.monotonic() + SECONDS
            while not self.desktop.numbers() and time.monotonic() < end:
                time.sleep(0.02)
            with self.desktop.file("wsys/1/wctl") as file:
                edges = [int(word) for word in file.read().split()[:4]]
            self.assertLessEqual((edges[2], edges[3]), self.size)
            self.desktop.write("wctl", b"delete -id 1")
            self.assertEqual(running.ended(), 0)

        def test_it_is_a_command_that_a_signal_ends(self):
            words = [
                sys.executable,
                str(PYTHON / "rio9d"),
                "term",
                self.address,
                "--",
                "sh",
                "-c",
                "echo $$ > $0; sleep 100",
            ]
            with tempfile.TemporaryDirectory() as room:
                path = pathlib.Path(room, "pid")
                running = subprocess.Popen([*words, str(path)], stderr=subprocess.PIPE)
                end = time.monotonic() + SECONDS
                while not (path.exists() and path.read_text()) and time.monotonic() < end:
                    time.sleep(0.02)
                running.send_signal(signal.SIGINT)
                self.assertEqual((running.communicate()[1], running.returncode), (b"", 130))
                child = pathlib.Path("/proc", path.read_text().strip())
                end = time.monotonic() + SECONDS
                while child.exists() and time.monotonic() < end:
                    time.sleep(0.02)
                self.assertFalse(child.exists())

    class Parts(unittest.TestCase):
        def test_the_environment_of_a_program(self):
            self.assertEqual(environment({"LANG": "de_DE.UTF-8", "COLUMNS": "3"}, "linux")["TERM"], "linux")
            self.assertNotIn("COLUMNS", environment({"COLUMNS": "3"}, "linux"))
            self.assertNotIn("LC_CTYPE", environment({"LANG": "de_DE.utf8"}, "linux"))
            self.assertEqual(environment({"LC_ALL": "C", "LANG": "de_DE.UTF-8"}, "linux").get("LC_CTYPE"), "C.UTF-8")
            self.assertNotIn("LC_ALL", environment({"LC_ALL": "C"}, "linux"))

        def test_a_program_that_takes_nothing(self):
            child = Child(["sh", "-c", "stty raw -echo; echo raw; exec sleep 100"], 10, 5)
            while not (child.read() or b"").startswith(b"raw"):
                time.sleep(0.01)
            child.send("x" * 100_000)
            self.assertTrue(child.unsent)
            child.flush()
            child.process.kill()
            child.process.wait()
            deadline = time.monotonic() + SECONDS
            while child.read() != b"" and time.monotonic() < deadline:
                time.sleep(0.01)
            child.flush()
            self.assertEqual(child.end(), 137)
            with self.assertRaisesRegex(NoCommand, "does not start: Exec format error"):
                with tempfile.TemporaryDirectory() as room:
                    path = pathlib.Path(room, "junk")
                    path.write_bytes(b"\x7fELFjunk")
                    path.chmod(0o755)
                    Child([str(path)], 10, 5)

        def test_answers_that_are_none(self):
            for data in (b"m" + b"x" * 48, b"q" + b"          1 " * 4, b""):
                with self.assertRaises(client.Broken):
                    window.mouse_of(data)
            with self.assertRaises(client.Broken):
                window.place_of(b"          1 " * 12, 6, 10)
            ctl = b"".join(
                field.rjust(11) + b" " for field in (b"1", b"1", b"k8", b"0", b"0", b"0", b"9999", b"2", *[b"0"] * 4)
            )
            with self.assertRaisesRegex(client.Broken, "9999 by 2 points"):
                window.place_of(ctl, 6, 10)
            ctl = b"".join(
                field.rjust(11) + b" " for field in (b"1", b"1", b"k8", b"0", b"0", b"0", b"20", b"20", *[b"0"] * 4)
            )
            self.assertEqual(window.place_of(ctl, 6, 10), paint.Place(0x38, (4, 4, 16, 16), 6, 6, 2, 1))


if __name__ == "__main__":
    unittest.main()
