#!/usr/bin/env python3
"""Times `rio9 replay` where much is alive, beside a peer: a plain program with the same words, which is given by its path.

    bench/growth/beside.py PEER [--program PATH] [--only WORD]... [--instructions]

Wants Python 3 and the built program (`cd crates/rio9 && rt run -- replay < stdin` builds it; --program names another one).
With --only, only the rows that have one of the words in their name. The replies of both programs have to be equal. It prints
one table: user seconds, the least of three runs, of both programs, their ratio, and the bar that the ratio is not to pass;
peak memory of both; and what one message costs with 100,000 images alive beside what it costs with 10, in microseconds of
user time, for each program. The kernel counts user time in ticks, so what takes less than 20 ms counts as 20 ms in a ratio.
A machine that has something else to do makes user seconds longer, by half or more, so the rows of single messages run until
the three least of their runs agree to 5 in 100, at most 15 times; one that never did so is told of as unsteady, and its ratio
tells little. With --instructions, which wants valgrind, only these rows, by the instructions that a message takes in place of
its microseconds: they are the same on a machine that is busy, but a miss of a cache or of a branch is not seen in them.
Status 1 tells that replies differ or that a ratio is above its bar, 2 that a word or a file is wrong.
"""
import os
import re
import subprocess
import sys
import tempfile

HERE = os.path.dirname(os.path.abspath(__file__))
ROOT = os.path.dirname(os.path.dirname(HERE))
sys.path[:0] = [os.path.join(ROOT, folder) for folder in ("bench/drawing", "bench/replay", "tools")]
from rio9 import formats
from run import PROGRAM, message, number, string, use
from times import K1, POINT, WIDE, X8R8G8B8, allocate, draw, rect, topen, walk

ROUNDS, MOST_ROUNDS = 3, 15
STEADY = 1.05  # how much the third least of some runs may be above the least
PEER_BAR, GROWTH_BAR, WINDOWS_BAR = 2.0, 1.5, 3.0
SMALL, LARGE, DESK = ["--size", "64x64"], ["--size", "2048x2048"], ["--size", "640x480"]
MOST_OF_A_WRITE = 65000
FULL, COLOUR, FIRST = 1, 2, 10  # image ids: the full mask, a colour, and the first of those that are made in numbers
SCREEN = 3  # the id of a screen of the display
FEW, MANY, REPEATS, COUNTED_REPEATS = 10, 100_000, 400_000, 20_000
LEAST_SECONDS = 0.02  # what the ticks can tell


# Records: lists of lines.


def line(session, data):
    return b"M %d %s" % (session, data.hex().encode())


def begin(session, connections=1):
    """A session with connections whose data files are open as fids 11, 12 and so on."""
    messages = [
        message(100, 0xFFFF, number(65560, 4) + string(b"9P2000")),
        message(104, 1, number(0, 4) + number(0xFFFFFFFF, 4) + string(b"") + string(b"")),
    ]
    for n in range(1, connections + 1):
        messages += [walk(n, b"draw", b"new"), topen(n), walk(10 + n, b"draw", b"%d" % n, b"data"), topen(10 + n)]
    return [b"B %d" % session] + [line(session, data) for data in messages]


def writes(session, draw_messages, connection=1):
    """Draw messages in data writes, as many in each as it holds."""
    lines, held, size = [], [], 0
    for draw_message in [*draw_messages, None]:
        if held and (draw_message is None or size + len(draw_message) > MOST_OF_A_WRITE):
            body = number(10 + connection, 4) + number(0, 8) + number(size, 4) + b"".join(held)
            lines.append(line(session, message(118, 1, body)))
            held, size = [], 0
        if draw_message is not None:
            held.append(draw_message)
            size += len(draw_message)
    return lines


def image(number_of_it):
    return allocate(number_of_it, X8R8G8B8, 0, POINT, POINT, 0xFF)


def images(count):
    return [image(FIRST + i) for i in range(count)]


def free(number_of_it):
    return b"f" + number(number_of_it, 4)


def tie(tied, name):
    return b"N" + number(COLOUR, 4) + bytes([tied, len(name)]) + name


def lookup(number_of_it, name):
    return b"n" + number(number_of_it, 4) + bytes([len(name)]) + name


def name_of(i):
    return b"name.%06d" % i


# Two images of one pixel that repeat: the full mask, and a colour that half covers.
PALETTE = [allocate(FULL, K1, 1, POINT, WIDE, 0xFFFFFFFF), allocate(COLOUR, X8R8G8B8, 1, POINT, WIDE, 0x336699FF)]


def small_draws(count):
    for i in range(count):
        x, y = 4 * i % 60, 4 * (i // 15) % 60
        yield draw(0, COLOUR, FULL, rect(x, y, x + 4, y + 4))


def made_and_freed():
    count = 32_000
    return begin(1) + writes(1, images(count) + [free(FIRST + i) for i in range(count)])


def on_four_connections():
    return begin(1, 4) + [text for n in range(1, 5) for text in writes(1, images(32_500), n)]


def names():
    count = 32_000
    messages = PALETTE + [tie(1, name_of(i)) for i in range(count)]
    for i in range(count):
        messages += [lookup(FIRST, name_of(i)), free(FIRST)]
    return begin(1) + writes(1, messages + [tie(0, name_of(i)) for i in range(count)])


def draws(count, held):
    """Small draws of session 1, while session 2 holds so many images."""
    other = begin(2) + writes(2, images(held)) if held else []
    return begin(1) + writes(1, PALETTE) + other + writes(1, small_draws(count))


def screen_reads():
    length, count = 60 + 2048 * 2048 * 4, 2000
    reads = [message(116, 1, number(3, 4) + number(i * 8_388_593 % length, 8) + number(1, 4)) for i in range(count)]
    opened = [walk(3, b"screen"), message(112, 1, number(3, 4) + b"\0")]
    return begin(1) + [line(1, data) for data in opened + reads]


def fonts():
    count = 1000
    return begin(1) + writes(1, images(count) + [b"i" + number(FIRST + i, 4) + number(4096, 4) + b"\0" for i in range(count)])


def window(i, r):
    return b"b" + number(FIRST + i, 4) + number(SCREEN, 4) + b"\0" + number(X8R8G8B8, 4) + b"\0" + r + r + number(0x336699FF, 4)


def windows(places, after=()):
    """Windows of the display, and what comes after them."""
    screen = b"A" + number(SCREEN, 4) + number(0, 4) + number(COLOUR, 4) + b"\0"
    return begin(1) + writes(1, [*PALETTE, screen] + [window(i, r) for i, r in enumerate(places)] + list(after))


def grid(count, size):
    """Places side by side, row by row on a display of 640 columns."""
    across = 640 // size
    corners = [(size * (i % across), size * (i // across)) for i in range(count)]
    return [rect(x, y, x + size, y + size) for x, y in corners]


def to_top(ids):
    return b"t\1" + number(len(ids), 2) + b"".join(number(FIRST + i, 4) for i in ids)


AT_ONE_PLACE = [rect(10, 10, 20, 20)]
WHOLE_DISPLAY = draw(0, COLOUR, FULL, rect(0, 0, 640, 480))

# What is done to many windows, beside the same windows without it.
TO_WINDOWS = [
    ("5 draws of the display over 2,000 windows", grid(2000, 10), [WHOLE_DISPLAY] * 5),
    ("a t with 15,000 ids, over 2,000 windows", grid(2000, 10), [to_top([i % 2000 for i in range(15_000)])]),
    ("4 t with 15,000 ids each, over 200 windows", grid(200, 10), [to_top([i % 200 for i in range(15_000)])] * 4),
]
# Windows that are made.
OF_WINDOWS = [
    ("2,000 windows at one place", AT_ONE_PLACE * 2000),
    ("8,000 windows at one place", AT_ONE_PLACE * 8000),
    ("8,000 windows side by side", grid(8000, 5)),
]

# What is done again and again where few and where many images are alive. Each leaves as much alive as it found.
AGAIN = {
    "a draw": lambda i: [draw(0, COLOUR, FULL, rect(i % 60, 0, i % 60 + 4, 4))],
    "a lookup (n, and f of its id)": lambda i: [lookup(3, b"tied"), free(3)],
    "a tie (N, and N with in=0)": lambda i: [tie(1, name_of(i)), tie(0, name_of(i))],
    "a free (f, and b before it)": lambda i: [image(3), free(3)],
}


def alive(count):
    return begin(1) + writes(1, PALETTE + [tie(1, b"tied")] + images(count))


def repeated(messages, times):
    return writes(1, (again for i in range(times) for again in messages(i)))


def record_of(lines):
    return b"\n".join([b"rio9 1", *lines, b""])


# Runs.


def run(program, words, text):
    """User seconds, peak bytes and output of a run."""
    with tempfile.TemporaryFile() as out:
        used = use([program, "replay", *words], text, out)
        if used.status != 0:
            raise Differ(f"{program} ended with status {used.status}")
        out.seek(0)
        return used.user, used.memory, out.read()


def instructions(program, text):
    """How many instructions a run takes, and its output."""
    words = ["valgrind", "--tool=cachegrind", "--cache-sim=no", "--cachegrind-out-file=/dev/null", program, "replay", *SMALL]
    ended = subprocess.run(words, input=text, capture_output=True, check=False)
    told = re.search(rb"I +refs: +([0-9,]+)", ended.stderr)
    if ended.returncode != 0 or not told:
        raise Differ(f"{program} ended with status {ended.returncode} under valgrind")
    return int(told[1].replace(b",", b"")), ended.stdout


class Differ(Exception):
    """The programs do not answer the same, or do not answer what is asked."""


class Best:
    """The least user seconds and the peak memory of both programs on a record; their replies are compared."""

    def __init__(self, programs, lines, words=SMALL):
        self.programs, self.words = programs, words
        self.text = record_of(lines)
        self.runs, self.memory = [[], []], [0, 0]

    def round(self):
        outputs = []
        for which, program in enumerate(self.programs):
            seconds, memory, out = run(program, self.words, self.text)
            self.runs[which].append(seconds)
            self.memory[which] = max(self.memory[which], memory)
            outputs.append(out)
        compare(*outputs)

    @property
    def seconds(self):
        return [min(runs) for runs in self.runs]

    def is_steady(self):
        """Whether the three least runs of each program agree, or differ by less than the ticks can tell."""
        leasts = [sorted(runs)[:3] for runs in self.runs]
        return all(third <= max(STEADY * least, least + LEAST_SECONDS) for least, _, third in leasts)

    def beyond(self, other):
        """How much longer both programs took than on another record."""
        return [max(0.0, mine - theirs) for mine, theirs in zip(self.seconds, other.seconds)]


def in_turn(*records, most=ROUNDS):
    """Runs records in turn, so that what else the machine does meets all of them: so often, or until all are steady."""
    for done in range(most):
        if done >= ROUNDS and all(record.is_steady() for record in records):
            break
        for record in records:
            record.round()
    return records


def compare(ours, theirs):
    """The same replies, and no Rerror (kind 107) among them, or what is timed would be refusals."""
    refused = re.search(rb"^R [0-9]+ [0-9a-f]{8}6b.*", ours, re.MULTILINE)
    if refused:
        raise Differ(f"a message is refused: {refused[0][:80].decode()}")
    if ours != theirs:
        pairs = enumerate(zip(ours.split(b"\n"), theirs.split(b"\n")), 1)
        at, (one, other) = next((pair for pair in pairs if pair[1][0] != pair[1][1]), (0, (b"the end", b"the end")))
        raise Differ(f"replies differ at line {at}: {one[:80].decode()}, and the peer's {other[:80].decode()}")


class Table:
    """The table, row by row, and whether each ratio was within its bar."""

    def __init__(self):
        self.is_within = True
        print(f"{'':<64} {'rio9':>10} {'peer':>10} {'ratio':>7} {'bar':>5}")

    def row(self, name, form, ours, theirs, bar, least=0.0, note=""):
        ratio = max(ours, least) / max(theirs, least)
        over = bar is not None and ratio > bar
        self.is_within = self.is_within and not over
        told = ("" if bar is None else f"{bar:5.1f}{'  above it' if over else ''}") + note
        print(f"{name:<64} {form(ours):>10} {form(theirs):>10} {ratio:7.2f} {told}".rstrip(), flush=True)

    def heading(self, measured, beside):
        print(f"{'':<64} {measured:>10} {beside:>10} {'ratio':>7} {'bar':>5}")


def seconds_of(value):
    return f"{value:.3f} s"


def megabytes_of(value):
    return f"{value / 1e6:.1f} MB"


def microseconds_of(value):
    return f"{value:.3f} us"


def instructions_of(value):
    return f"{value:,.0f}"


WHOLE_RUNS = [
    ("32,000 images of one point, made and freed", made_and_freed, SMALL),
    ("130,000 images on four connections", on_four_connections, SMALL),
    ("32,000 names, tied, looked up and untied", names, SMALL),
    ("2,000 reads of one byte of screen at 2048x2048", screen_reads, LARGE),
]


def compare_with_peer(table, programs, wanted):
    for name, lines, words in WHOLE_RUNS:
        if wanted(name):
            (best,) = in_turn(Best(programs, lines(), words))
            table.row(name, seconds_of, *best.seconds, PEER_BAR, LEAST_SECONDS)
    for name, held in (("20,000 small draws, alone", 0), ("20,000 small draws, another session holding 32,000 images", 32_000)):
        if wanted(name):
            full, empty = in_turn(Best(programs, draws(20_000, held)), Best(programs, draws(0, held)))
            table.row(name, seconds_of, *full.beyond(empty), PEER_BAR, LEAST_SECONDS)
    if wanted("peak memory of 1,000 fonts of 4,096 characters"):
        (best,) = in_turn(Best(programs, fonts()))
        table.row("peak memory of 1,000 fonts of 4,096 characters", megabytes_of, *best.memory, None)


def compare_windows(table, programs, wanted):
    for name, places, messages in TO_WINDOWS:
        if wanted(name):
            full, empty = in_turn(Best(programs, windows(places, messages), DESK), Best(programs, windows(places), DESK))
            table.row(name, seconds_of, *full.beyond(empty), WINDOWS_BAR, LEAST_SECONDS)
    for name, places in OF_WINDOWS:
        if wanted(name):
            (best,) = in_turn(Best(programs, windows(places), DESK))
            table.row(name, seconds_of, *best.seconds, WINDOWS_BAR, LEAST_SECONDS)


def rows_of_growth(table, name, form, costs, least=0.0, note=""):
    """What a message costs where many images are alive beside where few are, of both programs."""
    for who, bar, one, other in zip(("rio9", "the peer"), (GROWTH_BAR, None), *costs):
        table.row(f"{name}, by {who}, by the images alive", form, one, other, bar, least, note)


def compare_few_and_many(table, programs, chosen):
    before = [alive(count) for count in (MANY, FEW)]
    many_alone, few_alone = in_turn(*[Best(programs, lines) for lines in before], most=MOST_ROUNDS)
    for name, messages in chosen.items():
        again = repeated(messages, REPEATS)
        many, few = in_turn(*[Best(programs, lines + again) for lines in before], most=MOST_ROUNDS)
        costs = [[seconds / REPEATS * 1e6 for seconds in both] for both in (many.beyond(many_alone), few.beyond(few_alone))]
        steady = all(record.is_steady() for record in (many_alone, few_alone, many, few))
        note = "" if steady else "  unsteady"
        rows_of_growth(table, name, microseconds_of, costs, LEAST_SECONDS / REPEATS * 1e6, note)


def counted(programs, lines):
    """The instructions of both programs on a record; their replies are compared."""
    (ours, our_out), (theirs, their_out) = [instructions(program, record_of(lines)) for program in programs]
    compare(our_out, their_out)
    return ours, theirs


def count_few_and_many(table, programs, chosen):
    before = [alive(count) for count in (MANY, FEW)]
    alone = [counted(programs, lines) for lines in before]
    for name, messages in chosen.items():
        again = repeated(messages, COUNTED_REPEATS)
        whole = [counted(programs, lines + again) for lines in before]
        costs = [[(of - without) / COUNTED_REPEATS for of, without in zip(*both)] for both in zip(whole, alone)]
        rows_of_growth(table, name, instructions_of, costs)


def main(words):
    parser = formats.Words(prog="beside.py", description="Times rio9 where much is alive, beside a peer.")
    parser.add_argument("peer", help="the path of the peer")
    parser.add_argument("--program", default=PROGRAM, help="another program than the built one")
    parser.add_argument("--only", action="append", metavar="WORD", help="only the rows that have this in their name")
    parser.add_argument("--instructions", action="store_true", help="only the rows of single messages, by instructions")
    options = parser.parse_args(words)
    programs = [options.program, options.peer]
    for program in programs:
        if not (os.path.isfile(program) and os.access(program, os.X_OK)):
            formats.stop("beside.py", f"no program: {program}")
    table = Table()

    def wanted(name):
        return options.only is None or any(word in name for word in options.only)

    chosen = {name: messages for name, messages in AGAIN.items() if wanted(name)}
    try:
        if not options.instructions:
            compare_with_peer(table, programs, wanted)
            compare_windows(table, programs, wanted)
        if chosen:
            table.heading(f"{MANY:,}", f"{FEW:,}")
            (count_few_and_many if options.instructions else compare_few_and_many)(table, programs, chosen)
    except Differ as error:
        sys.stderr.write(f"beside.py: {error}\n")
        return 1
    return 0 if table.is_within else 1


if __name__ == "__main__":
    sys.exit(main(sys.argv[1:]))
