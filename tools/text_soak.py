#!/usr/bin/env python3
"""Runs texts and fonts made by chance, and inputs that do not fit, through `text` of the built program, and looks at what comes.

    tools/text_soak.py [--program PATH] [--replay PATH] [--cases N] [--seed S] [--jobs N] [--keep FOLDER]

Of each case the exit status, the line on standard error, the record and the screens of the record's replay are compared with what
tools/text_model.py works out from the definitions: of three texts in four the page at the end, with no text yet, and after some of
the pieces; else that the input is refused, and at which place, or the words are. The screen is that of the usual display, or of
one that is just as large as the window. A case is decided by the seed and its number; there are N, 500 where nothing is said.
PATH is a program or, in one word, its path and words that come before the command; the record is replayed by the one of
--replay where there is one. The jobs run beside each other, 2 where nothing is said.

The input of a case that is otherwise is kept in FOLDER, the present one where nothing is said, and the command is printed.
Status 1 tells that something is otherwise, 2 that a word or a file is wrong.

It is outside the proof. Needs: Python 3.9 or later, its standard library alone.
"""

import random
import sys
from dataclasses import dataclass

from rio9 import font
import text_model
from cases import BAD_INPUT, BORDER, DISPLAY, DONE, LIMIT, USAGE, Command, NotSo, check_replies, output_of, replayed, soak_of

LEAST_COLUMNS, MOST_COLUMNS, LEAST_ROWS, MOST_ROWS = 4, 200, 4, 100
LETTERS = bytes(range(0x20, 0x7F))
WORDS = b"a I of the and rio9 draws each window text, which (is) [x] {y} ~ | `cons` \"it\" 0123456789 THE_END".split(b" ")


@dataclass(frozen=True)
class Case:
    """An input, the values of --cols and --rows, None where one is left out, and whether the display is as large as the window."""

    data: bytes
    columns: object
    rows: object
    fitting: bool


# Fonts.


def points(chance, count):
    """So many points of a font, in one of several ways."""
    way = chance.randrange(4)
    if way == 0:
        return bytes(chance.choices((0, 255), k=count))
    if way == 1:
        return bytes([255]) * count
    return chance.randbytes(count) if way == 2 else bytes(chance.choices((0, 0, 255, 1, 127, 128, 254), k=count))


def font_of(chance, width, height):
    """A font's rows; of one in two the blank has no ink."""
    across = font.CELLS * width
    rows = bytearray(points(chance, across * height))
    if chance.random() < 0.5:
        for at in range(0, len(rows), across):
            rows[at : at + width] = bytes(width)
    return bytes(rows)


# Texts.


def of_words(chance, columns):
    """Lines of words."""
    lines = [b" ".join(chance.choices(WORDS, k=chance.randrange(20))) for _ in range(chance.randrange(40))]
    return b"\n".join(lines) + b"\n" * chance.randrange(3)


def at_edges(chance, columns):
    """Lines that end about where a row or a piece does."""
    lengths = [0, columns, 2 * columns, 3 * columns, 100, 200]
    lines = [max(0, chance.choice(lengths) + chance.randint(-1, 1)) for _ in range(chance.randrange(1, 12))]
    return b"\n".join(bytes(chance.choices(LETTERS, k=length)) for length in lines) + b"\n" * chance.randrange(2)


def of_bytes(chance, columns):
    """Any bytes, and in one of two many newlines."""
    some = chance.randbytes(chance.randrange(2000))
    return some if chance.random() < 0.5 else some.translate(bytes(10 if byte % 7 == 0 else byte for byte in range(256)))


def of_newlines(chance, columns):
    """Newlines, with a character here and there."""
    return bytes(chance.choices(b"\n\n\n\n\na ", k=chance.randrange(300)))


def of_one_line(chance, columns):
    return bytes(chance.choices(LETTERS, k=chance.randrange(3000)))


def of_nothing(chance, columns):
    return b""


TEXTS = [of_words, at_edges, of_bytes, of_newlines, of_one_line, of_words, at_edges, of_nothing]


# Cases.


def some_size(chance, least, most):
    """A number, more often a small one, and now and then the least or the most."""
    if chance.random() < 0.1:
        return chance.choice((least, most))
    return min(most, least + int(chance.expovariate(8 / (most - least))))


def fitting(chance):
    """A case whose input fits."""
    width, height = chance.randint(1, font.MOST_WIDE), chance.randint(1, font.MOST_HIGH)
    columns, rows = some_size(chance, LEAST_COLUMNS, MOST_COLUMNS), some_size(chance, LEAST_ROWS, MOST_ROWS)
    file = font.image_file("k8", font.CELLS * width, height, font_of(chance, width, height))
    return Case(file + chance.choice(TEXTS)(chance, columns), columns, rows, chance.random() < 0.5)


def longest(chance, over):
    """An input of a length about the limit; its characters and its window are small."""
    file = font.image_file("k8", font.CELLS, 1, font_of(chance, 1, 1))
    text = (of_one_line(chance, 0) + b"\n" + of_bytes(chance, 0) + b"end") * 1000
    length = LIMIT + over - len(file)
    return Case(file + (text * (length // len(text) + 1))[:length], LEAST_COLUMNS + chance.randrange(60), LEAST_ROWS, True)


def other_number(chance, right):
    """A field's text in place of a number."""
    numbers = [right - 1, right + 1, -right - 1, 0, 1, 16, 17, 95, 760, 855, 2**32, 2**32 + right]
    signs = [f"-{right}", f"+{right}", f"- {right}", f"0{right}", f"{right:011}", f"1{right:010}"]
    none = ["", "-", f"{right}x", f"0x{right}", f"{right} ", f"{right}\t", f"\t{right}", f"{right}."]
    return str(chance.choice(numbers + signs + none))


def broken_field(chance, data, number):
    """An input with another field, which may fit all the same."""
    at = text_model.FIELD_BYTES * number
    field = data[at : at + text_model.FIELD_BYTES]
    way = chance.randrange(4)
    if way == 0:
        field = bytes(chance.choice((byte, byte, chance.randrange(256))) for byte in field)
    elif way == 1:
        field = chance.choice((field[:-1] + b"\t", field[1:] + b" ", field.strip().ljust(12), field[:-1] + b"0", bytes(12), b" " * 12))
    elif number == 0:
        field = b"%11b " % chance.choice((b"k8", b"k4", b"k1", b"K8", b"k08", b"a8", b"r8g8b8", b"x8r8g8b8", b"m8", b"compressed"))
    else:
        field = b"%11b " % other_number(chance, int(field)).encode()
    return data[:at] + field[: text_model.FIELD_BYTES] + data[at + text_model.FIELD_BYTES :]


def broken(chance):
    """A case whose input does not fit in one place or two, or is cut."""
    made = fitting(chance)
    data = made.data
    for number in chance.sample(range(5), chance.choice((0, 1, 1, 1, 2))):
        data = broken_field(chance, data, number)
    if data == made.data or chance.random() < 0.1:
        given = text_model.read_input(made.data)
        end = text_model.ROWS_AT + len(given.rows)
        data = data[: chance.choice((chance.randrange(61), chance.randrange(end), end - 1, end, 0))]
    return Case(data, made.columns, made.rows, made.fitting)


def too_long(chance):
    """A case whose input is too long, or almost, of which one in two has another fault before."""
    made = longest(chance, chance.choice((-2, -1, -1, 0, 0, 1, 100_000)))
    data = made.data if chance.random() < 0.5 else broken_field(chance, made.data, chance.randrange(5))
    return Case(data, made.columns, made.rows, made.fitting)


def wrong_words(chance):
    """A case whose words are no command, or just are one."""
    made = fitting(chance)
    values = [None, 0, LEAST_ROWS - 1, LEAST_ROWS, MOST_ROWS, MOST_ROWS + 1, MOST_COLUMNS, MOST_COLUMNS + 1, 2**32 + 10, "010", "x", ""]
    return Case(made.data, chance.choice([*values, made.columns]), chance.choice([*values, made.rows]), made.fitting)


def made_case(seed, number):
    """The case of a seed and a number."""
    chance = random.Random(f"{seed} {number}")
    if number % 100 == 0:
        return too_long(chance), chance
    return chance.choices((fitting, broken, wrong_words), weights=(75, 20, 5))[0](chance), chance


# What has to come, and what does.


def is_command(columns, rows):
    """Whether the values of --cols and --rows make a command."""
    return columns in range(LEAST_COLUMNS, MOST_COLUMNS + 1) and rows in range(LEAST_ROWS, MOST_ROWS + 1)


def words_of(case):
    values = (("--cols", case.columns), ("--rows", case.rows))
    return ["text", *(word for name, value in values if value is not None for word in (name, str(value)))]


def expected(case):
    """The status, the line on standard error, and the input where it fits."""
    if not is_command(case.columns, case.rows):
        return USAGE, b"rio9: usage\n", None
    given = text_model.read_input(case.data)
    if isinstance(given, int):
        return BAD_INPUT, b"rio9: bad input at byte %d\n" % given, None
    return DONE, b"", given


def size_of(case, given):
    """The size of the display that the record is replayed on."""
    edges = 2 * BORDER
    return (case.columns * given.width + edges, case.rows * given.height + edges) if case.fitting else DISPLAY


def check_pages(options, case, given, events, chance):
    """Replays a record, whole and cut behind some of its pieces, and compares the screens; gives how many."""
    cut, size = text_model.pieces(given.text), size_of(case, given)
    before = len(events) - len(cut)
    chosen = {0, len(cut), *(chance.randint(0, len(cut)) for _ in range(3 if len(cut) < 1000 else 1))}
    for count in sorted(chosen):
        output = replayed(options, size, events[: before + count])
        points = text_model.page(given, b"".join(cut[:count]), case.columns, case.rows)
        try:
            check_replies(output, size, text_model.screen(points, *size))
        except NotSo as error:
            raise NotSo(f"after {count} of {len(cut)} pieces {error}") from None
    return len(chosen)


def check(options, case, chance):
    """How a case ends, and how many screens were compared; NotSo where anything is otherwise."""
    status, line, given = expected(case)
    made = output_of(options.program, words_of(case), case.data, status, line)
    if given is None:
        return line.decode().strip(), 0
    return "done", check_pages(options, case, given, text_model.check_record(given, made), chance)


COMMAND = Command("text", made_case, words_of, check)

if __name__ == "__main__":
    sys.exit(soak_of(COMMAND, "text_soak.py", __doc__.split("\n")[0], sys.argv[1:]))
