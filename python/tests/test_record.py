"""Tests of rio9.record.

    python3 -m tests.test_record [FOLDER ...]

It takes all records of the repository, and those of further folders, to readable lines and back. The other
expected values were written by hand, from the tables of docs/FORMATS.md.
"""

import pathlib
import random
import sys
import unittest
import unittest.mock

from rio9 import formats, record

TOP = pathlib.Path(__file__).resolve().parent.parent.parent
FURTHER_FOLDERS = []

# Readable lines, and the bytes of their message or of their event's line.
LINES = [
    ("session 1", "B 1"),
    ("1 take", "T 1"),
    ("1 end", "E 1"),
    ("stop", "X"),
    ("1 Tversion msize=65560 version=9P2000", "M 1 1300000064ffff180001000600395032303030"),
    ("1 Tversion tag=1 msize=256 version=9P1", "M 1 10000000640100000100000300395031"),
    ("1 Tauth afid=3 uname=u aname=a", "M 1 1100000066010003000000010075010061"),
    ('1 Tattach fid=0 uname=u aname=""', "M 1 1400000068010000000000ffffffff0100750000"),
    ('1 Tattach fid=0 afid=1 aname="new -hide"', "M 1 1c000000680100000000000100000000000900" + b"new -hide".hex()),
    ("1 Tflush oldtag=77", "M 1 090000006c01004d00"),
    ("1 Twalk fid=0 newfid=1", "M 1 110000006e010000000000010000000000"),
    ("1 Twalk fid=0 newfid=1 draw nope", "M 1 1d0000006e01000000000001000000020004006472617704006e6f7065"),
    ("1 Twalk fid=0 newfid=2 draw ..", "M 1 1b0000006e01000000000002000000020004006472617702002e2e"),
    ('1 Twalk tag=NOTAG fid=0 newfid=NOFID "a=b" ""', "M 1 180000006effff00000000ffffffff02000300613d620000"),
    ("1 Topen tag=2 fid=0 mode=read", "M 1 0c0000007002000000000000"),
    ("1 Topen fid=0 mode=18", "M 1 0c0000007001000000000012"),
    ('1 Tcreate fid=1 name="é" perm=0x000001b6 mode=readwrite', "M 1 14000000720100010000000200c3a9b601000002"),
    ("1 Tread tag=4 fid=0 offset=65 count=143", "M 1 170000007404000000000041000000000000008f000000"),
    ("1 Twrite fid=2 offset=0", "M 1 1700000076010002000000000000000000000000000000"),
    ("1 Twrite fid=2 offset=0 mark=65535", "M 1 1700000076010002000000000000000000000000000000 !65535"),
    ('1 Twrite fid=9 offset=1\n    text "a\\n\\"é"', "M 1 1c00000076010009000000010000000000000005000000610a22c3a9"),
    ("1 Twrite fid=9 offset=1\n    hex 00ff", "M 1 190000007601000900000001000000000000000200000000ff"),
    (
        "1 Twrite fid=1 offset=0\n    mouse point=-3,12 buttons=1 msec=100",
        "M 1 4800000076010001000000000000000000000031000000"
        + b"m         -3          12           1         100 ".hex(),
    ),
    ("1 Tclunk tag=8 fid=0", "M 1 0b00000078080000000000"),
    ("1 Tremove fid=1", "M 1 0b0000007a010001000000"),
    ("1 Tstat fid=1", "M 1 0b0000007c010001000000"),
    ("1 Twstat fid=1\n    hex 00ff", "M 1 0f0000007e010001000000020000ff"),
    ("1 hex 0700000064ffff", "M 1 0700000064ffff"),
    ("1 hex mark=0 070000007f0100", "M 1 070000007f0100 !0"),
]

# Draw messages, and their bytes.
DRAW = [
    (
        "b id=5 screenid=1 refresh=2 chan=x8r8g8b8 repl=0 r=0,0,64,48 clipr=-1,-2,3,4 color=0x11223344",
        "62 05000000 01000000 02 28180868 00 00000000000000004000000030000000 fffffffffeffffff0300000004000000 44332211",
    ),
    (
        "b id=5 screenid=0 refresh=0 chan=0x00000058 repl=1 r=0,0,1,1 clipr=0,0,1,1 color=0xffffff00",
        "62 05000000 00000000 00 58000000 01 00000000000000000100000001000000 00000000000000000100000001000000 00ffffff",
    ),
    ("A id=1 imageid=2 fillid=3 public=1", "41 01000000 02000000 03000000 01"),
    ("c dstid=2 repl=1 clipr=0,0,1,2", "63 02000000 01 00000000000000000100000002000000"),
    (
        "d dstid=0 srcid=5 maskid=1 dstr=0,0,10,11 srcp=-1,2 maskp=3,4",
        "64 00000000 05000000 01000000 00000000000000000a0000000b000000 ffffffff02000000 0300000004000000",
    ),
    ("D debug=1", "44 01"),
    ("f id=258", "66 02010000"),
    ("F id=4", "46 04000000"),
    ("i id=6 n=128 ascent=7", "69 06000000 80000000 07"),
    (
        "l cacheid=6 srcid=3 index=258 r=1,5,4,6 sp=38,10 left=-2 width=4",
        "6c 06000000 03000000 0201 01000000050000000400000006000000 260000000a000000 fe 04",
    ),
    ("N id=9 in=1 name=pic", "4e 09000000 01 03 706963"),
    ('N id=9 in=0 name="p\\udcff"', "4e 09000000 00 02 70ff"),
    ("n id=2 name=window.1.1", "6e 02000000 0a 77696e646f772e312e31"),
    ("o id=20 rmin=40,0 scr=20,-1", "6f 14000000 2800000000000000 14000000ffffffff"),
    ("O op=Clear", "4f 00"),
    ("O op=SoverD", "4f 0b"),
    ("O op=12", "4f 0c"),
    ("r id=0 r=9,9,10,10", "72 00000000 09000000090000000a0000000a000000"),
    (
        "s dstid=0 srcid=1 fontid=7 p=10,20 clipr=0,0,64,48 sp=1,2 0 258",
        "73 00000000 01000000 07000000 0a00000014000000 00000000000000004000000030000000 0100000002000000 0200 0000 0201",
    ),
    (
        "x dstid=0 srcid=1 fontid=7 p=10,20 clipr=0,0,64,48 sp=1,2 bgid=3 bgp=4,5 6",
        "78 00000000 01000000 07000000 0a00000014000000 00000000000000004000000030000000 0100000002000000 0100"
        "03000000 0400000005000000 0600",
    ),
    ("S id=2 chan=k8", "53 02000000 38000000"),
    ("t top=1 10 11", "74 01 0200 0a000000 0b000000"),
    ("t top=0", "74 00 0000"),
    ("v", "76"),
    (
        "y id=0 r=0,0,2,2\n    hex 0102030405060708\n    hex 1112131415161718",
        "79 00000000 00000000000000000200000002000000 0102030405060708 1112131415161718",
    ),
    ("y id=5 r=3,0,11,2\n    hex 1fe0\n    hex 0000", "79 05000000 03000000000000000b00000002000000 1fe0 0000"),
    ("y id=77 r=0,0,2,2\n    hex 0102", "79 4d000000 00000000000000000200000002000000 0102"),
    ("v\n    hex 4c00", "76 4c00"),
]

# A session that has fid 2 open on a data file, in which image 5 has single bits.
OPEN_DATA = """session 1
1 Tversion msize=65560 version=9P2000
1 Tattach fid=0 aname=""
1 Twalk fid=0 newfid=1 draw new
1 Topen fid=1 mode=readwrite
1 Twalk fid=0 newfid=2 draw 1
1 Twalk fid=2 newfid=2 ctl .. data
1 Topen fid=2 mode=readwrite
"""
MAKE_BITS = """1 Twrite fid=2 offset=0
    b id=5 screenid=0 refresh=0 chan=k1 repl=0 r=0,0,16,2 clipr=0,0,16,2 color=0xffffffff
"""

# What writing takes that explaining does not give, and what that gives.
LOOSE = [
    ("\n# a comment\n\n", ""),
    ('1 Tattach aname="" uname="" fid=0x0', '1 Tattach fid=0 aname=""\n'),
    ("1 Topen mode=2 fid=0   # another", "1 Topen fid=0 mode=readwrite\n"),
    (
        '1 Twrite fid=9 offset=0\n\thex f f0001\n\n  # between\n\ttext "a" b',
        "1 Twrite fid=9 offset=0\n    hex ff00016162\n",
    ),
    ("1 hex 07000000 7f 0100", "1 hex 070000007f0100\n"),
]

WRITE = "session 1\n1 Twrite fid=0 offset=0\n"

# Readable texts that cannot be written, and the line and the word at fault.
UNREADABLE = [
    ("hello", 1, 1),
    ("session", 1, 1),
    ("session 4294967296", 1, 2),
    ("session 1\n    v", 2, 1),
    ("    v", 1, 1),
    ("01 take", 1, 1),
    ("1 take 2", 1, 3),
    ("1 Thello fid=0", 1, 2),
    ("1 Tclunk", 1, 2),
    ("1 Tclunk fid=0 newfid=1", 1, 4),
    ("1 Tclunk fid=0 fid=0", 1, 4),
    ("1 Tclunk fid=0 extra", 1, 4),
    ("1 Tclunk fid=4294967296", 1, 3),
    ("1 Tclunk fid=-1", 1, 3),
    ("1 Tclunk fid=1_0", 1, 3),
    ("1 Tclunk tag=65536 fid=0", 1, 3),
    ("1 Tclunk fid=0 mark=65536", 1, 4),
    ("1 hex 0700000064ffff mark=65536", 1, 4),
    ("4294967296 end", 1, 1),
    ('1 Tclunk fid="0"x', 1, 3),
    ('1 Tattach fid=0 aname="\\q"', 1, 4),
    ('1 Tattach fid=0 aname="\\udcff"', 1, 4),
    ("session 1\n1 Tclunk fid=0\n    v", 3, 1),
    ("1 Twalk fid=0 newfid=1 " + "a " * 17, 1, 21),
    ("session 1\n1 hex 0800000064ffff", 2, 2),
    ("session 1\n1 hex 07000000", 2, 2),
    ("1 hex zz", 1, 3),
    ("1 hex 07 FF", 1, 4),
    (WRITE + "    hex 00 0", 3, 3),
    (WRITE + "    hex 00\n    q id=0", 4, 1),
    (WRITE + "    O op=Over", 3, 2),
    (WRITE + "    O op=Clear S", 3, 3),
    (WRITE + "    r id=0 r=0,0,1", 3, 3),
    (WRITE + "    S id=0 chan=m8", 3, 3),
    (WRITE + "    n id=0 name=" + "a" * 256, 3, 3),
    (WRITE + "    hex " + "00" * 65538, 2, 2),
    (WRITE + "    mouse point=1,2 buttons=1", 3, 1),
    (WRITE + "    mouse point=1,2 buttons=256 msec=0", 3, 3),
    (WRITE + "    hex 0\n2 end\n    hex q", 3, 2),
    ("2 end\n1 hex q", 1, 1),
    # Which event may come next.
    ("session 2", 1, 2),
    ("session 1\nsession 1", 2, 2),
    ("session 1\n2 take", 2, 1),
    ("session 1\n1 end\n1 take\n1 end", 4, 1),
    ("session 1\n1 end\n1 Tclunk fid=0", 3, 1),
    ("session 0", 1, 2),
    ("stop\nsession 1", 2, 1),
    ("\n".join(f"session {n}" for n in range(1, 1026)), 1025, 2),
]

# Texts that are no records, and the line that does not fit, and the word where one is at fault.
NO_RECORDS = [
    (b"rio9 1", 1, None),
    (b"rio9 1\nB 1", 2, None),
    (b"rio9 1 \nB 1\n", 1, None),
    (b"rio9 2 1", 1, None),
    (b"rio9 2 0\n", 1, None),
    (b"rio9 2 01\n", 1, None),
    (b"rio9 2 5\nB 1\n", 1, None),
    (b"rio9 2 4611686018427387904\n", 1, None),
    (b"rio9 2\n", 1, None),
    (b"rio9 3 1\n", 1, None),
    (b"rio9 1\nB 01\n", 2, 2),
    (b"rio9 1\nB  1\n", 2, 2),
    (b"rio9 1\nB 1 1\n", 2, 3),
    (b"rio9 1\nB 1\n\n", 3, 1),
    (b"rio9 1\nB 1\nM 1\n", 3, 3),
    (b"rio9 1\nB 1\nM 1 0700000064FFFF\n", 3, 3),
    (b"rio9 1\nB 1\nM 1 0800000064ffff\n", 3, 3),
    (b"rio9 1\nB 1\nM 1 0700000064ffff !01\n", 3, 4),
    (b"rio9 1\nB 1\nM 1 0700000064ffff !65536\n", 3, 4),
    (b"rio9 1\nX 1\n", 2, 2),
    (b"rio9 1\nB 0\n", 2, 2),
    (b"rio9 1\nB 2\n", 2, 2),
    (b"rio9 1\nB 1\nB 1\n", 3, 2),
    (b"rio9 1\nT 1\n", 2, 2),
    (b"rio9 1\nB 1\nE 1\nM 1 0700000064ffff\n", 4, 2),
    (b"rio9 1\nX\nX\n", 3, 1),
    (b"rio9 1\nB 99999999999\n", 2, 2),
]

# Texts that no run prints.
NO_OUTPUTS = [
    (b"R 1 070000006d0100", 1, None),
    (b"R 1 070000006d0100\nQ\n", 2, 1),
    (b"R 1 070000006D0100\n", 1, 3),
    (b"S 3\nabcd", 1, 2),
]

WALK_REPLIES = """1 Rversion msize=65560 version=9P2000
1 Rattach qid=directory:1
1 Rwalk directory:2
1 Rerror ename="unknown fid"
1 Rerror ename="file does not exist"
1 Rwalk directory:2 directory:1
1 Rwalk directory:2 directory:1
1 Rflush
1 Rerror ename="permission denied"
1 Rerror ename="unknown fid"
"""

FIRST_STAT = (
    "    stat type=0 dev=0 qid=directory:2 mode=0x8000016d atime=0 mtime=0 length=0 name=draw"
    " uid=rio9 gid=rio9 muid=rio9"
)


def record_of(*lines):
    return "".join(line + "\n" for line in ("rio9 1", *lines)).encode()


def write_of(draw):
    """The bytes of a Twrite, tag 1, of fid 2 at offset 0."""
    data = bytes.fromhex(draw)
    size, count = 23 + len(data), len(data)
    return size.to_bytes(4, "little") + bytes.fromhex("76010002000000" + 8 * "00") + count.to_bytes(4, "little") + data


def fault(line, word):
    """What a mistake there begins with."""
    return f"^line {line}: " if word is None else f"^line {line}, word {word}( `|:)"


class Tables(unittest.TestCase):
    def test_lines(self):
        for readable, line in LINES:
            begun = ("", ()) if readable in ("session 1", "stop") else ("session 1\n", ("B 1",))
            with self.subTest(readable):
                self.assertEqual(record.write(begun[0] + readable), record_of(*begun[1], line))
                self.assertEqual(record.explain(record_of(*begun[1], line)), begun[0] + readable + "\n")

    def test_draw_messages(self):
        before = record.write(OPEN_DATA + MAKE_BITS)
        for draw, digits in DRAW:
            with self.subTest(draw):
                readable = f"{OPEN_DATA}{MAKE_BITS}1 Twrite fid=2 offset=0\n    {draw}\n"
                expected = before + b"M 1 " + write_of(digits).hex().encode() + b"\n"
                self.assertEqual(record.write(readable), expected)
                self.assertEqual(record.explain(expected), readable)

    def test_every_letter_stands_in_the_table(self):
        self.assertEqual({draw[0] for draw, _ in DRAW}, set(record.LETTERS))

    def test_loose_lines(self):
        for loose, exact in LOOSE:
            with self.subTest(loose):
                self.assertEqual(record.explain(record.write("session 1\n" + loose)), "session 1\n" + exact)

    def test_unreadable_lines(self):
        for readable, line, word in UNREADABLE:
            with self.subTest(readable[:60]), self.assertRaisesRegex(formats.BadText, fault(line, word)):
                record.write(readable)

    def test_what_is_no_record_and_no_output(self):
        for text, line, word in NO_RECORDS + NO_OUTPUTS:
            with self.subTest(text), self.assertRaisesRegex(formats.BadText, fault(line, word)):
                record.explain(text)

    def test_a_record_of_too_many_bytes(self):
        text = b"rio9 1\nB 1\nB 2\n"
        with unittest.mock.patch.object(formats, "BYTES_OF_NO_RECORD", len(text) + 1):
            self.assertEqual(record.write(record.explain(text)), text)
        with unittest.mock.patch.object(formats, "BYTES_OF_NO_RECORD", len(text)):
            with self.assertRaisesRegex(formats.BadText, "^line 1: "):
                record.explain(text)
            with self.assertRaisesRegex(formats.BadText, "^line 2: "):
                record.write("session 1\nsession 2\n")

    def test_a_header_that_tells_the_number_1(self):
        self.assertEqual(record.explain(b"rio9 2 1\nB 1\n"), "session 1\n")

    def test_what_comes_before_the_first_entry_stands_elsewhere(self):
        with self.assertRaisesRegex(formats.BadText, "number 4611686018427387903: "):
            record.explain(b"rio9 2 4611686018427387903\nE 7\n")

    def test_a_take_after_the_end(self):
        text = b"rio9 1\nB 1\nE 1\nT 1\nB 2\nX\n"
        self.assertEqual(record.write(record.explain(text)), text)


class Files(unittest.TestCase):
    """Which writes are taken for draw messages."""

    def shows(self, lines, last):
        readable = OPEN_DATA + lines
        self.assertEqual(record.explain(record.write(readable)).split("\n")[-2], last)

    def test_only_what_is_walked_to_data_and_opened(self):
        self.shows("1 Twrite fid=2 offset=0\n    v", "    v")
        self.shows("1 Twrite fid=1 offset=0\n    v", '    text "v"')
        self.shows("1 Tclunk fid=2\n1 Twrite fid=2 offset=0\n    v", '    text "v"')
        self.shows('1 Tversion msize=256 version=""\n1 Twrite fid=2 offset=0\n    v', '    text "v"')
        self.shows("1 Twalk fid=0 newfid=3 draw 1 data\n1 Twrite fid=3 offset=0\n    v", '    text "v"')
        self.shows("1 Twalk fid=0 newfid=2 snarf\n1 Twrite fid=2 offset=0\n    v", "    v")

    def test_rows_are_cut_by_what_is_known_of_the_image(self):
        made = "    b id=6 screenid=0 refresh=0 chan=k8 repl=0 r=0,0,2,2 clipr=0,0,2,2 color=0x00000000\n"
        rows = "    y id=6 r=0,0,1,2\n    hex 0102\n    v"
        self.shows("1 Twrite fid=2 offset=0\n" + made + rows, "    v")
        self.shows("1 Twrite fid=2 offset=0\n" + rows, "    hex 010276")
        self.shows(
            f"1 Twrite fid=2 offset=0\n{made}    N id=6 in=1 name=a\n    n id=7 name=a\n"
            + rows.replace("id=6", "id=7"),
            "    v",
        )
        self.shows(f"1 Twrite fid=2 offset=0\n{made}    f id=6\n" + rows, "    hex 010276")

    def test_rows_of_the_display(self):
        text = record.write(OPEN_DATA + "1 Twrite fid=2 offset=0\n    y id=0 r=0,0,1,2\n    hex 0102\n    v")
        self.assertTrue(record.explain(text).endswith("    hex 010276\n"))
        self.assertTrue(record.explain(text, formats.channels_word("k8")).endswith("    hex 01\n    hex 02\n    v\n"))


class Replies(unittest.TestCase):
    def test_replies_of_the_walk(self):
        self.assertEqual(record.explain((TOP / "examples/walk.replies").read_bytes()), WALK_REPLIES)

    def test_stats_and_texts_and_bytes(self):
        lines = record.explain((TOP / "examples/listing.replies").read_bytes()).split("\n")
        self.assertEqual(lines[2:5], ["1 Ropen tag=2 qid=directory:1 iounit=0", "1 Rread tag=3", FIRST_STAT])
        self.assertEqual(record.explain(b"R 2 0d00000075010002000000610a\n"), '2 Rread\n    text "a\\n"\n')
        self.assertEqual(record.explain(b"R 2 0f000000750100040000007f7fff00\n"), "2 Rread\n    hex 7f7fff00\n")
        self.assertEqual(record.explain(b"R 2 0700000075ffff\n"), "2 hex 0700000075ffff\n")
        self.assertEqual(record.explain(b"R 2 07\n"), "2 hex 07\n")

    def test_screen(self):
        head = b"".join(field.rjust(11) + b" " for field in [b"k8", b"0", b"0", b"2", b"1"])
        output = b"R 1 070000006d0100\nS 62\n" + head + b"R\n"
        self.assertEqual(record.explain(output), "1 Rflush\nscreen of 62 bytes: k8 0 0 2 1\n")


class RoundTrip(unittest.TestCase):
    def returns(self, text, name):
        self.assertEqual(record.write(record.explain(text)), text, name)

    def test_records(self):
        found = [TOP / "crates/rio9/stdin"]
        for folder in [TOP / "examples", *map(pathlib.Path, FURTHER_FOLDERS)]:
            found += sorted(folder.glob("**/*.record"))
        for path in found:
            with self.subTest(str(path)):
                self.returns(path.read_bytes(), path)
        sys.stderr.write(f"{len(found)} records taken\n")

    def test_the_examples_are_what_their_lines_write(self):
        others = {TOP / "examples/page.txt", TOP / "examples/desk.txt"}  # a text to be shown, and events of the mouse
        for path in sorted(set(TOP.glob("examples/*.txt")) - others):
            with self.subTest(path.name):
                written = record.write(path.read_text(encoding="utf-8"))
                self.assertEqual(written, path.with_suffix(".record").read_bytes())

    def test_the_longest_write(self):
        for payload in (65537 * b"a", 65537 * b"\x01"):
            size = (23 + len(payload)).to_bytes(4, "little")
            head = size + bytes.fromhex("76010002000000" + 8 * "00") + len(payload).to_bytes(4, "little")
            self.returns(record_of("B 1", f"M 1 {(head + payload).hex()}"), "the longest write")

    def test_any_messages(self):
        """Messages of the tables with bytes changed, and any bytes as messages and as draw messages."""
        chance = random.Random(9)
        messages = [bytes.fromhex(line.split()[2]) for _, line in LINES if line.startswith("M")]
        draws = [bytes.fromhex(digits) for _, digits in DRAW]
        letters = b"bAcdDfFilNnoOrsStvxyLq"
        lines = []
        for _ in range(4000):
            kind = chance.randrange(3)
            if kind == 0:
                message = bytearray(chance.choice(messages))
                for _ in range(chance.randrange(3)):
                    message[chance.randrange(4, len(message))] = chance.randrange(256)
            elif kind == 1:
                message = bytearray(7) + chance.randbytes(chance.randrange(40))
                message[4] = chance.choice(list(record.BY_KIND))
            else:
                draw = b"".join(chance.choice(draws) for _ in range(chance.randrange(4)))
                draw += bytes([chance.choice(letters)]) + chance.randbytes(chance.randrange(60))
                message = bytearray(write_of(draw.hex()))
            message[:4] = len(message).to_bytes(4, "little")
            lines.append(f"M 1 {message.hex()}")
        self.returns(record.write(OPEN_DATA) + record_of(*lines).split(b"\n", 1)[1], "any messages")


if __name__ == "__main__":
    FURTHER_FOLDERS += [word for word in sys.argv[1:] if pathlib.Path(word).is_dir()]
    unittest.main(argv=sys.argv[:1] + [word for word in sys.argv[1:] if word not in FURTHER_FOLDERS])
