"""A program on a pseudo terminal (pty(7))."""

import fcntl
import os
import shutil
import signal
import struct
import subprocess
import termios
import time
from typing import Dict, List, Mapping, Optional

TERMINAL = "tmux-256color"  # which Debian has on each machine, and whose sequences rio9.term.cells takes
MOST_AT_ONCE = 1 << 16
SECONDS = 2.0  # that a program has to end by itself when its terminal goes
LOCALES = ("LC_ALL", "LC_CTYPE", "LANG")


class NoCommand(Exception):
    """There is no such program. It tells what to do."""


def environment(given: Mapping[str, str], terminal: str) -> Dict[str, str]:
    """What a program finds in its environment: a terminal of this kind, and characters in UTF-8."""
    found = {name: value for name, value in given.items() if name not in ("COLUMNS", "LINES", "TERMCAP", "WINDOWID")}
    locale = next((given[name] for name in LOCALES if given.get(name)), "")
    if not locale.lower().replace("-", "").endswith("utf8"):
        found.pop("LC_ALL", None)
        found["LC_CTYPE"] = "C.UTF-8"
    return {**found, "TERM": terminal, "COLORTERM": "truecolor"}


def start_session() -> None:
    """Makes the standard input of this process, which begins a session, that session's terminal."""
    fcntl.ioctl(0, termios.TIOCSCTTY, 0)


class Child:
    """The program, and the terminal's end of its pty."""

    def __init__(self, words: List[str], columns: int, lines: int, terminal: str = TERMINAL):
        if not shutil.which(words[0]):
            raise NoCommand(f"no command: {words[0]}: name a program that is on PATH, or by its path")
        self.master, slave = os.openpty()
        self.unsent = b""
        try:
            self.resize(columns, lines)
            self.process = subprocess.Popen(
                words,
                stdin=slave,
                stdout=slave,
                stderr=slave,
                start_new_session=True,
                preexec_fn=start_session,
                env=environment(os.environ, terminal),
            )
        except OSError as error:
            os.close(self.master)
            raise NoCommand(f"{words[0]} does not start: {error.strerror}") from None
        finally:
            os.close(slave)
        os.set_blocking(self.master, False)

    def resize(self, columns: int, lines: int) -> None:
        """Tells the program how large its terminal is."""
        fcntl.ioctl(self.master, termios.TIOCSWINSZ, struct.pack("HHHH", lines, columns, 0, 0))

    def read(self) -> Optional[bytes]:
        """What the program has written since the last read: no bytes if it has gone, and None if it has written
        nothing."""
        try:
            return os.read(self.master, MOST_AT_ONCE)
        except BlockingIOError:
            return None
        except OSError:
            return b""

    def send(self, text: str) -> None:
        """Types a text, as far as the program takes it; the rest waits for `flush`."""
        self.unsent += text.encode("utf-8", "replace")
        self.flush()

    def flush(self) -> None:
        """Types what waits."""
        try:
            while self.unsent:
                self.unsent = self.unsent[os.write(self.master, self.unsent) :]
        except BlockingIOError:
            pass
        except OSError:
            self.unsent = b""

    def end(self) -> int:
        """Takes the terminal away, and gives the program's status, as a shell tells it."""
        os.close(self.master)
        end = time.monotonic() + SECONDS
        while self.process.poll() is None and time.monotonic() < end:
            time.sleep(0.01)
        if self.process.poll() is None:
            os.killpg(self.process.pid, signal.SIGKILL)
        status = self.process.wait()
        return status if status >= 0 else 128 - status
