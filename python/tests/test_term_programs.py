"""Tests of rio9.term with programs that people use: the rows that it keeps are those that tmux keeps of the same
program with the same keys. tmux is a terminal of other people's making; the programs write the same to both."""

import os
import pathlib
import shutil
import subprocess
import tempfile
import time
import unittest

import elsewhere

LIBRARIES = ("pyte", "wcwidth")
LACKS = elsewhere.missing(*LIBRARIES)

if LACKS:

    class Elsewhere(elsewhere.Elsewhere):
        def test_by_another_interpreter(self):
            self.run_file(__file__, *LIBRARIES)

else:
    from rio9.term.cells import Cells, Stream
    from rio9.term.child import TERMINAL, Child

    COLUMNS, LINES = 80, 24
    SECONDS = 20
    PAUSE = 0.05
    SOURCE = pathlib.Path(__file__)
    BOXES = "┌────┐\n│ Äé │\n└────┘\n"

    class Ours:
        """A program on a pty, whose cells are kept by rio9.term."""

        def __init__(self, words):
            self.child, self.cells = Child(words, COLUMNS, LINES), Cells(COLUMNS, LINES)
            self.stream = Stream(self.cells)

        def send(self, keys):
            self.child.send(keys)

        def rows(self):
            while data := self.child.read():
                self.stream.feed_bytes(data)
            self.child.send("".join(self.cells.answers))
            self.cells.answers.clear()
            return ["".join(cell.data for cell in self.cells.row(y)).rstrip() for y in range(LINES)]

        def close(self):
            self.child.process.kill()
            self.child.end()

    class Tmux:
        """The same program in tmux."""

        def __init__(self, words, room):
            self.socket = os.path.join(room, "tmux")
            self.run("-f", "/dev/null", "new-session", "-d", "-x", str(COLUMNS), "-y", str(LINES), *words)
            self.run("set", "-g", "status", "off")

        def run(self, *words):
            environment = {**os.environ, "TERM": TERMINAL, "LC_CTYPE": "C.UTF-8"}
            return subprocess.run(
                ["tmux", "-S", self.socket, *words], env=environment, capture_output=True
            ).stdout.decode()

        def send(self, keys):
            self.run("send-keys", "-l", keys)

        def rows(self):
            rows = [row.rstrip() for row in self.run("capture-pane", "-p").split("\n")[:LINES]]
            return rows + [""] * (LINES - len(rows))

        def close(self):
            self.run("kill-server")

    def needs(program):
        """Skips a test if a program or tmux is not here."""
        lacks = [name for name in (program, "tmux") if shutil.which(name) is None]
        return unittest.skipIf(lacks, f"not here: apt install {' '.join(lacks)}")

    class Programs(unittest.TestCase):
        def compare(self, words, steps):
            """Sends the same keys to both, and waits after each until both have the same rows, as `text` is among
            them."""
            with tempfile.TemporaryDirectory() as room:
                ours, tmux = Ours(words), Tmux(words, room)
                try:
                    for keys, text in steps:
                        ours.send(keys)
                        tmux.send(keys)
                        end = time.monotonic() + SECONDS
                        while (rows := ours.rows()) != (others := tmux.rows()) or text not in "\n".join(rows):
                            self.assertLess(
                                time.monotonic(), end, f"{keys!r}: {rows} and {others}, and {text!r} is wanted"
                            )
                            time.sleep(PAUSE)
                finally:
                    ours.close()
                    tmux.close()

        @needs("less")
        def test_less(self):
            steps = [
                ("", "Tests of rio9.term"),
                (" ", ":"),
                ("jjj", ":"),
                ("kk", ":"),
                ("/class Tmux\r", "class Tmux"),
                ("n", "class"),
                ("g", "Tests"),
            ]
            self.compare(["less", str(SOURCE)], [*steps, ("G", "(END)"), ("b", ":")])

        @needs("vim")
        def test_vim(self):
            words = [
                "vim",
                "-n",
                "-u",
                "NONE",
                "-i",
                "NONE",
                "-c",
                "set nocompatible number ruler laststatus=2 ttimeoutlen=10",
            ]
            steps = [
                ("", "Tests of"),
                ("\x06", "Ours"),
                ("5jdd", "24"),
                ("/class Tmux\r", "class Tmux"),
                ("\x19\x19\x19", "class"),
                (":split\r", "class"),
            ]
            more = [
                ("\x17w\x05\x05", "class"),
                ("gg", "Tests"),
                ("Oone\ttwo\x1b", "one"),
                (">>3x", "two"),
                ("yyp", "two"),
                ("ggdG", "--No lines"),
            ]
            with tempfile.TemporaryDirectory() as room:
                source = pathlib.Path(shutil.copy(SOURCE, room))  # a longer path takes a second line below
                self.compare([*words, "-c", "syntax on", str(source)], [*steps, *more])

        @needs("vim")
        def test_characters_in_vim(self):
            with tempfile.NamedTemporaryFile("w", suffix=".txt") as file:
                file.write(BOXES)
                file.flush()
                words = [
                    "vim",
                    "-n",
                    "-u",
                    "NONE",
                    "-i",
                    "NONE",
                    "-c",
                    "set nocompatible ttimeoutlen=10 encoding=utf-8",
                    file.name,
                ]
                self.compare(
                    words,
                    [
                        ("", "│ Äé │"),
                        ("yyp", "┌────┐"),
                        ("Ax\x1b", "┐x"),
                        ("0iab \x1b", "ab ┌"),
                        (":set list\r", "ab ┌────┐x$"),
                    ],
                )


if __name__ == "__main__":
    unittest.main()
