"""Tests of rio9.fonts: fonts in BDF, PCF and PSF, made here byte by byte and those of Debian, and what is made of
them."""

import contextlib
import gzip
import io
import itertools
import os
import pathlib
import shutil
import struct
import subprocess
import sys
import tempfile
import unittest
from dataclasses import dataclass

from needs import needs_program

from rio9 import client, font, fonts
from rio9.server import Server, ServerWords

PYTHON = pathlib.Path(__file__).resolve().parent.parent
DEBIAN = pathlib.Path("/usr/share/fonts/X11/misc")
CONSOLE = pathlib.Path("/usr/share/consolefonts")

BDF = b"""STARTFONT 2.1
FONT -Test-Small
SIZE 5 75 75
FONTBOUNDINGBOX 4 5 0 -1
STARTPROPERTIES 5
FONT_ASCENT 4
FONT_DESCENT 1
DEFAULT_CHAR 0
CHARSET_REGISTRY "ISO10646"
CHARSET_ENCODING "1"
ENDPROPERTIES
CHARS 4
STARTCHAR char0
ENCODING 0
DWIDTH 4 0
BBX 2 2 1 0
BITMAP
C0
C0
ENDCHAR
STARTCHAR A
ENCODING 65
DWIDTH 4 0
BBX 3 4 0 0
BITMAP
40
A0
E0
A0
ENDCHAR
STARTCHAR j
ENCODING 106
DWIDTH 3 0
BBX 2 4 -1 -1
BITMAP
40
40
40
80
ENDCHAR
STARTCHAR none
ENCODING -1
DWIDTH 3 0
BBX 0 0 0 0
BITMAP
ENDCHAR
ENDFONT
"""

GLYPHS = {
    0: fonts.Glyph(4, 1, 2, 2, (0b11, 0b11)),
    65: fonts.Glyph(4, 0, 4, 3, (0b010, 0b101, 0b111, 0b101)),
    106: fonts.Glyph(3, -1, 3, 2, (0b01, 0b01, 0b01, 0b10)),
}

# What makes a BDF text none: the text that is changed, what stands there then, and words of what is told.
BROKEN_BDF = [
    (b"ENDFONT", b"", "ENDFONT is missing"),
    (b"BBX 3 4 0 0", b"BBX 3 4", "line 24: BBX has 4 numbers"),
    (b"BBX 3 4 0 0", b"BBX 300 4 0 0", "line 24: a character of 300 by 4 points"),
    (b"\nA0\nE0", b"\nA0\nx", "line 28: a row of 3 points"),
    (b"ENCODING 65", b"ENCODING A", "line 22: ENCODING has 1 numbers"),
    (b"BITMAP\n40\nA0", b"ENDCHAR\n40\nA0", "line 21: the character has no BITMAP"),
    (b"FONT_ASCENT 4", b"FONT_ASCENT 400", "higher or wider than 255"),
    (b"ISO10646", b"Mine", "numbered by Mine-1"),
    (b"DWIDTH 3 0", b"DWIDTH -3 0", "higher or wider than 255"),
]


@dataclass
class Stored:
    """How a PCF file stores its numbers and its bits: which byte of a number and which bit of a byte comes first,
    the bytes that a row is filled up to and those that are swapped together, as powers of two, and whether metrics
    have a byte each."""

    is_high_byte: bool = True
    is_high_bit: bool = True
    pad: int = 2
    unit: int = 0
    is_compressed: bool = True

    @property
    def form(self):
        return 4 * self.is_high_byte | 8 * self.is_high_bit | self.pad | self.unit << 4

    def pack(self, form, *values):
        return struct.pack((">" if self.is_high_byte else "<") + form, *values)

    def row(self, byte):
        """A row of one byte, filled up, as the file stores it."""
        row, unit = bytes([byte]) + bytes((1 << self.pad) - 1), 1 << self.unit
        if not self.is_high_bit:
            row = bytes(int(f"{one:08b}"[::-1], 2) for one in row)
        if self.is_high_bit != self.is_high_byte:
            row = b"".join(row[at : at + unit][::-1] for at in range(0, len(row), unit))
        return row

    def metrics(self, glyph):
        """The metrics of a glyph."""
        numbers = (glyph.left, glyph.left + glyph.wide, glyph.advance, glyph.top, len(glyph.rows) - glyph.top)
        return bytes(number + 0x80 for number in numbers) if self.is_compressed else self.pack("5hH", *numbers, 0)


def pcf(stored=Stored(), registry=b"ISO10646", encoding=b"1"):
    """A PCF file of the glyphs above."""
    pack, count = stored.pack, len(GLYPHS)
    strings = b"CHARSET_REGISTRY\0" + registry + b"\0CHARSET_ENCODING\0" + encoding + b"\0"
    places = (0, strings.index(registry), strings.index(b"CHARSET_E"), len(strings) - len(encoding) - 1)
    words = pack("iiBiiBi", 2, places[0], 1, places[1], places[2], 1, places[3])
    rows, offsets = b"", []
    for glyph in GLYPHS.values():
        offsets.append(len(rows))
        rows += b"".join(stored.row(row << 8 - glyph.wide) for row in glyph.rows)
    sizes = [len(rows) * (at == stored.pad) for at in range(4)]
    indices = [list(GLYPHS).index(code) if code in GLYPHS else 0xFFFF for code in range(107)]
    metrics = pack("h" if stored.is_compressed else "i", count) + b"".join(map(stored.metrics, GLYPHS.values()))
    tables = [
        (1, stored.form, words + b"\0\0" + pack("i", len(strings)) + strings),
        (2, stored.form, pack("8Bii", *[0] * 8, 4, 1)),
        (4, stored.form | 0x100 * stored.is_compressed, metrics),
        (8, stored.form, pack("i3i4i", count, *offsets, *sizes) + rows),
        (32, stored.form, pack("5H", 0, 106, 0, 0, 0) + pack("107H", *indices)),
    ]
    return pcf_file(tables)


def pcf_file(tables):
    """The file of some tables, each with its kind and its format."""
    head, body = b"\x01fcp" + struct.pack("<I", len(tables)), b""
    begin = len(head) + 16 * len(tables)
    for kind, form, data in tables:
        data = struct.pack("<I", form) + data
        head += struct.pack("<IIII", kind, form, len(data), begin + len(body))
        body += data
    return head + body


def psf1(mode, table=b""):
    count = 512 if mode & 1 else 256
    cells = b"".join(bytes([code & 0xFF, 0x80]) for code in range(count))
    return b"\x36\x04" + bytes([mode, 2]) + cells + table


def psf2(flags, table=b"", high=2, wide=12, size=4, count=3):
    head = b"\x72\xb5\x4a\x86" + struct.pack("<7I", 0, 32, flags, count, size, high, wide)
    return head + b"\xff\xf0\x80\x10" + b"\x00\x00\x00\x00" + b"\x12\x30\x00\x10" + table


class Subfont:
    """A reader of subfonts after font(6), which shares nothing with their writer."""

    def __init__(self, data):
        fields = data[:60].decode().split()
        assert fields[0] == "k1" and fields[1:3] == ["0", "0"], fields
        self.wide, self.high = int(fields[3]), int(fields[4])
        stride = (self.wide + 7) // 8
        self.rows = [data[60 + at * stride : 60 + (at + 1) * stride] for at in range(self.high)]
        rest = data[60 + stride * self.high :]
        self.count, self.height, self.ascent = (int(rest[at : at + 12]) for at in (0, 12, 24))
        self.chars = [struct.unpack_from("<HBBbB", rest, 36 + 6 * at) for at in range(self.count + 1)]
        assert len(rest) == 36 + 6 * (self.count + 1)

    def point(self, x, y):
        return self.rows[y][x // 8] >> 7 - x % 8 & 1

    def ink(self, at):
        """The points with ink of a character, seen from the pen on the writing line."""
        x, top, bottom, left, _ = self.chars[at]
        columns = range(x, self.chars[at + 1][0])
        return {
            (left + column - x, row - self.ascent)
            for row in range(top, bottom)
            for column in columns
            if self.point(column, row)
        }


def ink_of(glyph):
    """The same of a glyph as it was read."""
    return {
        (glyph.left + column, row - glyph.top)
        for row, bits in enumerate(glyph.rows)
        for column in range(glyph.wide)
        if bits >> glyph.wide - 1 - column & 1
    }


class Reading(unittest.TestCase):
    def test_a_bdf_font(self):
        face = fonts.read_face(BDF)
        self.assertEqual((face.ascent, face.descent, face.glyphs), (4, 1, GLYPHS))
        self.assertEqual(fonts.read_face(gzip.compress(BDF)), face)

    def test_what_is_no_bdf_font(self):
        for old, new, told in BROKEN_BDF:
            with self.subTest(told), self.assertRaisesRegex(fonts.BadFont, told):
                fonts.read_face(BDF.replace(old, new, 1))

    def test_pcf_fonts_however_they_are_stored(self):
        units = [(pad, unit) for pad in range(4) for unit in range(min(pad, 2) + 1)]
        for is_high_byte, is_high_bit, is_compressed in itertools.product((True, False), repeat=3):
            for pad, unit in units:
                stored = Stored(is_high_byte, is_high_bit, pad, unit, is_compressed)
                with self.subTest(stored):
                    self.assertEqual(fonts.read_face(pcf(stored)), fonts.Face(4, 1, GLYPHS))

    def test_a_pcf_font_that_is_cut_or_changed_is_refused_or_read(self):
        whole = pcf()
        for end in range(len(whole)):
            with self.assertRaises(fonts.BadFont):
                fonts.read_face(whole[:end])
        for at in range(len(whole)):
            for byte in (0x00, 0x7F, 0xFF):
                with contextlib.suppress(fonts.BadFont):
                    fonts.read_face(whole[:at] + bytes([byte]) + whole[at + 1 :])

    def test_numbers_of_other_sets(self):
        self.assertEqual(fonts.code_of("ISO8859-5")(0xB0), 0x410)
        self.assertEqual(fonts.code_of("KOI8-R")(0xE1), 0x410)
        self.assertEqual(fonts.code_of("JISX0208.1983-0")(0x2422), 0x3042)
        self.assertEqual(fonts.code_of("ISO646.1991-IRV")(0x80), None)
        self.assertEqual(fonts.code_of("JISX0208.1983-0")(0x24), None)
        self.assertEqual(fonts.code_of("ISO8859-5")(0x100), None)
        self.assertEqual(fonts.read_face(pcf(registry=b"KOI8", encoding=b"R")).glyphs, GLYPHS)

    def test_a_psf_font_of_the_first_version(self):
        face = fonts.read_face(psf1(0))
        self.assertEqual((face.height, face.cell_width(), len(face.glyphs)), (2, 8, 256))
        self.assertEqual(face.glyphs[65].rows, (65, 0x80))
        lists = [[65, 0x410]] + [[]] * 510 + [[0xFFFD, 0xFFFE, 66, 67]]
        table = b"".join(struct.pack("<H", code) for codes in lists for code in [*codes, 0xFFFF])
        face = fonts.read_face(psf1(3, table))
        self.assertEqual(
            {code: glyph.rows for code, glyph in face.glyphs.items()},
            {65: (0, 128), 0x410: (0, 128), 0xFFFD: (255, 128), 0: (255, 128)},
        )

    def test_a_psf_font_of_the_second_version(self):
        face = fonts.read_face(psf2(0))
        self.assertEqual([face.glyphs[code].rows for code in range(3)], [(0xFFF, 0x801), (0, 0), (0x123, 0x001)])
        table = "A\u0410".encode() + b"\xfe" + b"BC" + b"\xff" + b"?\xff" + "\u2500".encode() + b"\xff"
        face = fonts.read_face(psf2(1, table))
        self.assertEqual(sorted(face.glyphs), [0, ord("?"), ord("A"), 0x410, 0x2500])
        self.assertEqual(face.glyphs[0x2500].rows, (0x123, 0x001))

    def test_what_is_no_font(self):
        with self.assertRaisesRegex(fonts.BadFont, "no font in BDF, PCF or PSF"):
            fonts.read_face(b"GIF89a")
        for data in (gzip.compress(BDF)[:-20], psf1(0)[:-1], psf2(0)[:30], psf2(0, count=9)):
            with self.assertRaisesRegex(fonts.BadFont, "end is missing"):
                fonts.read_face(data)
        with self.assertRaisesRegex(fonts.BadFont, "12 by 2 points in 3 bytes"):
            fonts.read_face(psf2(0, size=3))
        with self.assertRaisesRegex(fonts.BadFont, "gzip cannot unpack it"):
            fonts.read_face(b"\x1f\x8b\0\0\0")
        with self.assertRaisesRegex(fonts.BadFont, "unpacks to more than"):
            fonts.read_face(gzip.compress(bytes(fonts.MOST_BYTES + 1)))
        with self.assertRaisesRegex(fonts.BadFont, "no characters"):
            fonts.read_face(b"STARTFONT 2.1\nFONTBOUNDINGBOX 1 1 0 0\nENDFONT\n")


class Writing(unittest.TestCase):
    def test_a_subfont_byte_by_byte(self):
        face = fonts.Face(
            2, 1, {65: fonts.Glyph(4, 1, 2, 2, (0b10, 0b01)), 67: fonts.Glyph(5, -1, 1, 3, (0b111, 0b101))}
        )
        made = fonts.subfont(face, 65, 67)
        image = b"         k1           0           0           5           3 " + bytes(
            [0b10000000, 0b01111000, 0b00101000]
        )
        head = b"          3           3           2 "
        chars = (
            bytes([0, 0, 0, 2, 1, 4])
            + bytes([2, 0, 2, 2, 0, 0])
            + bytes([2, 0, 1, 3, 0xFF, 5])
            + bytes([5, 0, 0, 3, 0, 0])
        )
        self.assertEqual(made, image + head + chars)

    def test_the_files_of_a_font(self):
        face = fonts.read_face(BDF)
        files = fonts.font_files(fonts.Face(4, 1, {**face.glyphs, 0x2500: GLYPHS[65], 0x1F600: GLYPHS[65]}), "small")
        self.assertEqual(files["small.font"], b"5 4\n0x0000 0x006a small.0000\n0x2500 0x2500 small.2500\n")
        read = Subfont(files["small.0000"])
        self.assertEqual((read.count, read.height, read.ascent), (107, 5, 4))
        for code in range(107):
            glyph = face.glyphs.get(code, fonts.Glyph(0, 0, 0, 0, ()))
            self.assertEqual(read.ink(code), ink_of(glyph))
            self.assertEqual(read.chars[code][4], glyph.advance)

    def test_the_cell_of_a_character(self):
        face = fonts.read_face(BDF)
        self.assertEqual(face.cell(face.glyphs[65], 4), [0b0100, 0b1010, 0b1110, 0b1010, 0])
        self.assertEqual(face.cell(face.glyphs[106], 3), [0, 0b100, 0b100, 0b100, 0])
        self.assertEqual(face.cell(face.glyphs[65], 2), [0b01, 0b10, 0b11, 0b10, 0])

    def test_the_drawn_font_is_as_it_is_drawn(self):
        cells = font.read_font(pathlib.Path(font.DRAWN).read_text())
        self.assertEqual(fonts.strip(fonts.read_file(font.DRAWN)), font.font_file(cells))
        self.assertEqual(fonts.read_file(font.DRAWN).ascent, 8)

    def test_fonts_that_text_cannot_read(self):
        with self.assertRaisesRegex(fonts.BadFont, "' ' is missing"):
            fonts.strip(fonts.read_face(BDF))
        glyph = fonts.Glyph(9, 0, 1, 9, (1,))
        with self.assertRaisesRegex(fonts.BadFont, "9 by 1 points"):
            fonts.strip(fonts.Face(1, 0, {code: glyph for code in range(32, 127)}))
        wider = fonts.Glyph(8, 0, 1, 8, (1,))
        with self.assertRaisesRegex(fonts.BadFont, "several widths"):
            fonts.strip(fonts.Face(1, 0, {**{code: glyph for code in range(32, 127)}, 65: wider}))


class Command(unittest.TestCase):
    def run_font(self, *words):
        out, err = io.TextIOWrapper(io.BytesIO()), io.StringIO()
        with contextlib.redirect_stdout(out), contextlib.redirect_stderr(err):
            try:
                status = fonts.main(list(words))
            except SystemExit as ended:
                status = ended.code
            out.flush()
        return status, out.buffer.getvalue(), err.getvalue()

    def test_a_folder_of_files(self):
        with tempfile.TemporaryDirectory() as room:
            path = os.path.join(room, "small.bdf.gz")
            with open(path, "wb") as file:
                file.write(gzip.compress(BDF.replace(b"ENCODING -1", b"ENCODING 65536")))
            folder = os.path.join(room, "made", "here")
            status, out, err = self.run_font(path, "--out", folder)
            self.assertEqual((status, out.decode()), (0, os.path.join(folder, "small.font") + "\n"))
            self.assertIn("1 characters behind 0xffff", err)
            self.assertEqual(sorted(os.listdir(folder)), ["small.0000", "small.font"])

    def test_what_is_told_of_wrong_files(self):
        with tempfile.TemporaryDirectory() as room:
            path = os.path.join(room, "font")
            pathlib.Path(path).write_bytes(b"hello")
            text = os.path.join(room, "font.txt")
            pathlib.Path(text).write_bytes(b"\xff")
            self.assertEqual(self.run_font(path)[0], 1)
            self.assertIn("font: it is no font in BDF", self.run_font(path)[2])
            self.assertEqual(self.run_font(text)[0], 1)
            self.assertEqual(self.run_font(os.path.join(room, "none.bdf"))[0], 2)
            with open(path, "wb") as file:
                file.truncate(fonts.MOST_BYTES + 1)
            self.assertIn("more than 67108864 bytes", self.run_font(path)[2])

    def test_names(self):
        for path, name in (
            ("/a/6x13.pcf.gz", "6x13"),
            ("b.BDF", "b"),
            ("Lat15-Fixed16.psf.gz", "Lat15-Fixed16"),
            (".gz", "font"),
        ):
            self.assertEqual(fonts.name_of(path), name)


@needs_program
class BeforeAServer(unittest.TestCase):
    """A server draws strings in a subfont that is loaded as libdraw loads one (cachechars(2), subfont(2))."""

    INK, MASK, FONT = 2, 3, 4
    BOX = (0, 0, 40, 20)

    def test_a_string(self):
        data = fonts.font_files(fonts.read_face(BDF), "small")["small.0000"]
        read = Subfont(data)
        with Server(ServerWords(size=self.BOX[2:], workers=1)) as server, client.connect(server.address) as session:
            ctl = session.file(session.root, "draw/new", client.READWRITE)
            number = int(ctl.read(client.CTL_BYTES)[:11])
            self.connection = session.file(session.root, f"draw/{number}/data", client.READWRITE)
            self.load(read)
            indices = [ord(one) for one in "AjA"]
            head = struct.pack("<cIII2i4i2iH", b"s", 0, self.INK, self.FONT, 5, 10, *self.BOX, 0, 0, len(indices))
            self.draw(head + struct.pack("<3H", *indices))
            self.draw(struct.pack("<cI4i", b"r", 0, *self.BOX))
            rows = session.read(self.connection.fid)
        inked = {(at % 40, at // 40) for at in range(800) if rows[4 * at : 4 * at + 3] == b"\1\2\3"}
        wanted, x = set(), 5
        for code in indices:
            wanted |= {(x + at, 10 + down) for at, down in ink_of(GLYPHS[code])}
            x += GLYPHS[code].advance
        self.assertEqual(inked, wanted)

    def draw(self, message):
        self.connection.client.write(self.connection.fid, message)

    def load(self, read):
        """Loads the image of a subfont, makes it a font, and gives it each character."""
        for number, chan, box, colour in (
            (self.INK, 0x68081828, (0, 0, 1, 1), 0x030201FF),
            (self.MASK, 0x31, (0, 0, read.wide, read.high), 0),
            (self.FONT, 0x31, (0, 0, read.wide, read.high), 0),
        ):
            is_one = box[2:] == (1, 1)
            clip = (-(1 << 28), -(1 << 28), 1 << 28, 1 << 28) if is_one else box
            self.draw(struct.pack("<cIIBIB4i4iI", b"b", number, 0, 0, chan, is_one, *box, *clip, colour))
        self.draw(struct.pack("<cI4i", b"y", self.MASK, 0, 0, read.wide, read.high) + b"".join(read.rows))
        self.draw(struct.pack("<cIIB", b"i", self.FONT, read.count, read.ascent))
        for index, ((x, top, bottom, left, width), (end, *_)) in enumerate(zip(read.chars, read.chars[1:])):
            places = (x, top, end, bottom, x, top, left, width)
            self.draw(struct.pack("<cIIH4i2ibB", b"l", self.FONT, self.MASK, index, *places))


class OfDebian(unittest.TestCase):
    """The fonts of Debian's packages, compared with what other programs read of them."""

    def test_pcf_fonts_are_as_pcf2bdf_reads_them(self):
        if not shutil.which("pcf2bdf") or not DEBIAN.is_dir():
            self.skipTest("xfonts-base or pcf2bdf is not here: apt install xfonts-base pcf2bdf")
        for name in ("6x13", "7x13B", "9x15", "6x13-ISO8859-2", "jiskan16"):
            packed = (DEBIAN / f"{name}.pcf.gz").read_bytes()
            bdf = subprocess.run(["pcf2bdf"], input=gzip.decompress(packed), stdout=subprocess.PIPE, check=True).stdout
            self.assertEqual(fonts.read_face(packed), fonts.read_face(bdf), name)

    def test_subfonts_of_a_whole_font(self):
        if not DEBIAN.is_dir():
            self.skipTest("xfonts-base is not here: apt install xfonts-base")
        face = fonts.read_file(str(DEBIAN / "9x15.pcf.gz"))
        files = fonts.font_files(face, "9x15")
        codes = set()
        for line in files["9x15.font"].decode().splitlines()[1:]:
            first, last, name = line.split()
            read = Subfont(files[name])
            for at, code in enumerate(range(int(first, 16), int(last, 16) + 1)):
                if code in face.glyphs:
                    self.assertEqual(read.ink(at), ink_of(face.glyphs[code]))
                    codes.add(code)
        self.assertEqual(codes, set(face.glyphs))

    def test_fonts_of_the_console(self):
        if not CONSOLE.is_dir():
            self.skipTest("console-setup-linux is not here: apt install console-setup-linux")
        face = fonts.read_file(str(CONSOLE / "Lat15-Fixed16.psf.gz"))
        self.assertEqual((face.height, face.cell_width()), (16, 8))
        rows = face.cell(face.glyphs[ord("H")], 8)
        self.assertEqual([at for at, row in enumerate(rows, 1) if row][-1], face.ascent)

    def test_text_gets_a_font_of_debian(self):
        if not DEBIAN.is_dir():
            self.skipTest("xfonts-base is not here: apt install xfonts-base")
        words = [sys.executable, str(PYTHON / "rio9d"), "font", str(DEBIAN / "6x13.pcf.gz")]
        made = subprocess.run(words, stdout=subprocess.PIPE, check=True).stdout
        self.assertEqual(made[:60].split(), [b"k8", b"0", b"0", b"570", b"13"])


if __name__ == "__main__":
    unittest.main()
