"""The texts and pixels that several tools read (docs/FORMATS.md): record lines, reply lines, channels, rows.

It is outside the proof: it shares nothing with the proved program, and the proved program nothing with it.
"""

import argparse
import os
import re
import sys
from dataclasses import dataclass
from typing import Callable, Iterable, List, NoReturn, Optional, Set, Tuple

# The header that is written, and those that are read: the second kind tells the number of the first entry.
HEADER, HEADERS = b"rio9 1", re.compile(rb"rio9 1|rio9 2 ([1-9][0-9]{0,18})")
NUMBER_LIMIT = 2**62
LEAST_MESSAGE, MOST_OF_A_MESSAGE = 7, 65560
LAST_SESSION, LAST_MARK = 0xFFFFFFFF, 0xFFFF

LAST_LIVE, BYTES_OF_NO_RECORD = 1024, 2**30

# The display where nothing is said of it.
USUAL_SIZE, USUAL_CHANNELS = (640, 480), "x8r8g8b8"

NUMBER, MARK = re.compile(rb"0|[1-9][0-9]{0,9}"), re.compile(rb"!(?:0|[1-9][0-9]{0,9})")
HEX_DIGITS = re.compile(rb"(?:[0-9a-f]{2})+")

BEGIN, MESSAGE, TAKE, END, STOP = "B", "M", "T", "E", "X"


class BadText(Exception):
    """A text that is none of its kind. It tells the line, the word where one is at fault, and why."""

    def __init__(self, line: int, why: object, place: Optional[int] = None, word: Optional[str] = None) -> None:
        shown = "" if word is None else f" `{word if len(word) <= 40 else word[:37] + '...'}`"
        super().__init__(f"line {line}: {why}" if place is None else f"line {line}, word {place}{shown}: {why}")
        self.line = line


def stop(name: str, why: object) -> NoReturn:
    """Ends a tool that was given wrong words or files."""
    sys.stderr.write(f"{name}: {why}\n")
    sys.exit(2)


def why_not(error: OSError) -> str:
    """What an OSError tells, in one line."""
    return f"{error.strerror}: {error.filename}" if error.filename else str(error.strerror or error)


def is_one_of(path: str, others: Iterable[str]) -> bool:
    """Whether a path names one of some files that are there, so that writing it would destroy that."""
    return os.path.exists(path) and any(os.path.exists(other) and os.path.samefile(path, other) for other in others)


class Words(argparse.ArgumentParser):
    """A reader of a tool's words, whose complaints are one line."""

    def error(self, message: str) -> NoReturn:
        """Ends the tool, with one line."""
        stop(self.prog, f"{message} (--help tells the words)")


def at_least(least: int) -> Callable[[str], int]:
    """What reads an option's number, from this one on and of at most 12 digits."""

    def number_of(text: str) -> int:
        if not re.fullmatch(r"0|[1-9][0-9]{0,11}", text) or int(text) < least:
            raise argparse.ArgumentTypeError(f"no number from {least} on: {text}")
        return int(text)

    return number_of


@dataclass(frozen=True)
class Event:
    """A line of a record behind its header; `kind` is its letter. Session is 0 for a stop, which has none."""

    kind: str
    session: int = 0
    message: bytes = b""
    mark: Optional[int] = None


@dataclass(frozen=True)
class Replies:
    """The reply messages, each with its session, and the image file of the display where one was asked for."""

    messages: List[Tuple[int, bytes]]
    screen: Optional[bytes]


class BadEvent(ValueError):
    """An event that cannot come next. `part` is what of it is at fault: event, session, message or mark."""

    def __init__(self, part: str, why: str) -> None:
        super().__init__(why)
        self.part = part


class Roll:
    """Which sessions have begun and which live: with the event itself that decides whether it may come next."""

    def __init__(self) -> None:
        self.begun, self.stopped = 0, False
        self.live: Set[int] = set()

    def enter(self, event: Event) -> None:
        """Takes the next event of a record, or raises BadEvent."""
        if self.stopped:
            raise BadEvent("event", "nothing follows a stop")
        if event.kind == STOP:
            self.stopped = True
            return
        self.check_session(event.kind, event.session)
        if event.kind == MESSAGE:
            check_message(event)
        if event.kind == BEGIN:
            self.begun += 1
            self.live.add(event.session)
        elif event.kind == END:
            self.live.remove(event.session)

    def check_session(self, kind: str, session: int) -> None:
        """Raises BadEvent where a session cannot have an event of a kind now."""
        if not 1 <= session <= LAST_SESSION:
            raise BadEvent("session", f"a session is a number from 1 to {LAST_SESSION}")
        if kind == BEGIN and session != self.begun + 1:
            raise BadEvent("session", f"the next session to begin is {self.begun + 1}")
        if kind == BEGIN and len(self.live) == LAST_LIVE:
            raise BadEvent("session", f"{LAST_LIVE} sessions live, which is the most")
        if kind != BEGIN and session > self.begun:
            raise BadEvent("session", f"session {session} has not begun")
        if kind in (MESSAGE, END) and session not in self.live:
            raise BadEvent("session", f"session {session} has ended")


def check_message(event: Event) -> None:
    """Raises BadEvent where no record can have a message or its mark."""
    size, told = len(event.message), int.from_bytes(event.message[:4], "little")
    if not LEAST_MESSAGE <= size <= MOST_OF_A_MESSAGE:
        raise BadEvent("message", f"a message has {LEAST_MESSAGE} to {MOST_OF_A_MESSAGE} bytes, and this one {size}")
    if told != size:
        raise BadEvent("message", f"the size field is {told}, and the message has {size} bytes")
    if event.mark is not None and not 0 <= event.mark <= LAST_MARK:
        raise BadEvent("mark", f"a mark is at most {LAST_MARK}")


def is_record(text: bytes) -> bool:
    """Whether a text begins as a record does."""
    return text.startswith(b"rio9 ")


def first_number(header: bytes) -> Optional[int]:
    """The number of the first entry behind a header, or None where a line is no header."""
    found = HEADERS.fullmatch(header)
    if not found:
        return None
    number = int(found.group(1) or 1)
    return number if number < NUMBER_LIMIT else None


def read_record(text: bytes) -> List[Event]:
    """The events of a record."""
    if len(text) >= BYTES_OF_NO_RECORD:
        raise BadText(1, f"a record has fewer than {BYTES_OF_NO_RECORD} bytes, and this one {len(text)}")
    lines = text.split(b"\n")
    first = first_number(lines[0])
    if first is None:
        raise BadText(1, "the header is missing: rio9 1, or rio9 2 1")
    if len(lines) > 1 and first > 1:
        raise BadText(1, f"the first entry here is the one of number {first}: what came before it stands elsewhere")
    if lines.pop() != b"":
        raise BadText(len(lines) + 1, "the last newline is missing")
    roll = Roll()
    events: List[Event] = []
    for number, line in enumerate(lines[1:], 2):
        events.append(read_event(number, line))
        try:
            roll.enter(events[-1])
        except BadEvent as error:
            place = {"event": 1, "session": 2, "message": 3, "mark": 4}[error.part]
            raise BadText(number, error, place, line.decode().split(" ")[place - 1]) from None
    return events


class LineWords:
    """The words of a line, each with one blank before the next; each is taken as what it has to be."""

    def __init__(self, number: int, line: bytes) -> None:
        self.number, self.words, self.place = number, line.split(b" "), 0

    def take(self, form: "re.Pattern[bytes]", wanted: str) -> bytes:
        """The next word, which has this form."""
        word = self.words[self.place] if self.place < len(self.words) else b""
        self.place += 1
        if not form.fullmatch(word):
            raise BadText(self.number, f"{wanted} is wanted", self.place, word.decode(errors="backslashreplace"))
        return word

    def take_number(self, wanted: str = "a number without sign and leading zeros") -> int:
        """The number that the next word is."""
        return int(self.take(NUMBER, wanted))

    def take_bytes(self) -> bytes:
        """The bytes that the next word spells in hex."""
        return bytes.fromhex(self.take(HEX_DIGITS, "an even number of lower-case hex digits").decode())

    def is_over(self) -> bool:
        """Whether no word is left."""
        return self.place >= len(self.words)

    def end(self) -> None:
        """Raises BadText where a word is left."""
        if not self.is_over():
            extra = self.words[self.place].decode(errors="backslashreplace")
            raise BadText(self.number, "the line goes on", self.place + 1, extra)


def read_event(number: int, line: bytes) -> Event:
    """The event of a line, looked at alone."""
    words = LineWords(number, line)
    kind = words.take(re.compile(rb"[BMTEX]"), "B, M, T, E or X").decode()
    session, message, mark = 0, b"", None
    if kind != STOP:
        session = words.take_number()
    if kind == MESSAGE:
        message = words.take_bytes()
        if not words.is_over():
            mark = int(words.take(MARK, "a mark, as !1,")[1:])
    words.end()
    return Event(kind, session, message, mark)


def write_record(events: Iterable[Event]) -> bytes:
    """The record of some events."""
    return b"".join(line + b"\n" for line in [HEADER] + [event_line(event) for event in events])


def event_line(event: Event) -> bytes:
    """The line of an event, without its newline."""
    words = [event.kind]
    if event.kind != STOP:
        words.append(str(event.session))
    if event.kind == MESSAGE:
        words.append(event.message.hex())
    if event.mark is not None:
        words.append(f"!{event.mark}")
    return " ".join(words).encode()


def read_replies(text: bytes) -> Replies:
    """The replies of a run's output, and the image file behind the line `S n` where it has one."""
    messages: List[Tuple[int, bytes]] = []
    at, number = 0, 0
    while at < len(text):
        end = text.find(b"\n", at)
        line, number = text[at : end if end >= 0 else len(text)], number + 1
        if end < 0:
            raise BadText(number, "the newline is missing")
        words = LineWords(number, line)
        kind, count = words.take(re.compile(rb"[RS]"), "R or S"), words.take_number()
        message = words.take_bytes() if kind == b"R" else b""
        words.end()
        at = end + 1
        if kind == b"R":
            messages.append((count, message))
        elif len(text) - at != count:
            raise BadText(number, f"{len(text) - at} bytes stand behind the line", 2, str(count))
        else:
            return Replies(messages, text[at:])
    return Replies(messages, None)


CHANNEL_KINDS = {"r": 0, "g": 1, "b": 2, "k": 3, "a": 4, "x": 6}
CHANNEL_LETTERS = {kind: letter for letter, kind in CHANNEL_KINDS.items()}


def channels(word: int) -> Optional[List[Tuple[str, int]]]:
    """The channels of a descriptor, the highest first, each with its letter and bits; None where it has no text."""
    found = []
    for byte in word.to_bytes(4, "big").lstrip(b"\0"):
        if byte >> 4 not in CHANNEL_LETTERS or not 1 <= byte & 15 <= 8:
            return None
        found.append((CHANNEL_LETTERS[byte >> 4], byte & 15))
    return found or None


def channels_text(word: int) -> Optional[str]:
    """The text that names a descriptor, as x8r8g8b8; None where it has none."""
    found = channels(word)
    return None if found is None else "".join(f"{letter}{bits}" for letter, bits in found)


def channels_word(text: str) -> int:
    """The descriptor that a text names; ValueError where it names none."""
    if not re.fullmatch(r"([rgbkax][1-8]){1,4}", text):
        raise ValueError(f"no channels: {text}")
    word = 0
    for letter, bits in zip(text[::2], text[1::2]):
        word = word << 8 | CHANNEL_KINDS[letter] << 4 | int(bits)
    return word


def channels_option(text: str) -> int:
    """The descriptor that an option names."""
    try:
        return channels_word(text)
    except ValueError as error:
        raise argparse.ArgumentTypeError(str(error)) from None


def depth(word: int) -> int:
    """The bits of a pixel of a descriptor that has a text."""
    return sum(bits for _, bits in channels(word) or [])


def row_bytes(bits: int, left: int, right: int) -> int:
    """The bytes of a row from column left to column right, counted from the byte in which it begins."""
    return -(-right * bits // 8) - left * bits // 8
