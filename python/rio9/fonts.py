"""Makes fonts of Plan 9 (font(6)) of the bitmap fonts that a system has: BDF, PCF and PSF, also packed by gzip.

    rio9d font > font
    rio9d font /usr/share/fonts/X11/misc/6x13.pcf.gz > font
    rio9d font /usr/share/fonts/X11/misc/9x15.pcf.gz --out fonts

With --out FOLDER it writes a font file there, and beside it a subfont for each 256 characters that the font has: images
in k1 that are not packed, as rio9 takes them. It prints the name of the font file, which a client of Plan 9 takes as
its $font. A character that is missing shows as the font's own sign for that. Fonts of Debian stand in
/usr/share/fonts/X11/misc (xfonts-base) and in /usr/share/consolefonts (console-setup-linux).

Without --out it writes the characters from 0x20 to 0x7E to standard output, side by side, as an image file (image(6))
in k8: what `rio9 text` reads before its own text. They have to be of one width, and at most 8 points wide and 16 high.
FILE is rio9/font.txt if nothing is said: a font that is drawn in a text. rio9.font tells how such a text is read.

Status 1 if a file has no such font, 2 if a word or a file is wrong; one line tells why. It is outside the proof. Needs:
Python 3.9 or later, its standard library alone.
"""

import argparse
import os
import re
import struct
import sys
import zlib
from dataclasses import dataclass
from typing import Callable, Dict, Iterator, List, Optional, Sequence, Tuple

from rio9 import font, formats

MOST_BYTES = 1 << 26  # of a file, as it is when it is unpacked
MOST_POINTS = 255  # of a character's sides: font(6) has a byte for each
GZIP = b"\x1f\x8b"
NOTHING = 0x0000  # the character that stands for those that are missing
REPLACEMENTS = (0xFFFD, 0x25A1, ord("?"))
IN_A_SUBFONT = 256
LAST_CODE = 0xFFFF  # the last character that each libdraw takes in a font file


class BadFont(Exception):
    """A file that is no font of its kind. It tells why, and what to do."""


@dataclass(frozen=True)
class Glyph:
    """How a character is drawn: how far the pen moves; where its bitmap begins, right of the pen and above the
    writing line; and the bitmap, each row as a number whose highest bit is the leftmost point."""

    advance: int
    left: int
    top: int
    wide: int
    rows: Tuple[int, ...]


@dataclass(frozen=True)
class Face:
    """A font: how far it reaches above and below the writing line, and its characters by their codes in Unicode."""

    ascent: int
    descent: int
    glyphs: Dict[int, Glyph]

    @property
    def height(self) -> int:
        """The points from its highest row to its lowest."""
        return self.ascent + self.descent

    def cell_width(self) -> int:
        """How far the pen moves by a character, if it is as far for each of ASCII; else 0."""
        widths = {glyph.advance for code, glyph in self.glyphs.items() if font.FIRST <= code <= font.LAST}
        return widths.pop() if len(widths) == 1 else 0

    def cell(self, glyph: Glyph, width: int) -> List[int]:
        """The rows of a character in a cell of a width, cut at its edges, from the font's highest row to its lowest."""
        rows = [0] * self.height
        for at, bits in enumerate(glyph.rows, self.ascent - glyph.top):
            if 0 <= at < self.height:
                shift = width - glyph.left - glyph.wide
                rows[at] = (bits << shift if shift >= 0 else bits >> -shift) & (1 << width) - 1
        return rows


# Reading.


def unpacked(data: bytes) -> bytes:
    """The bytes of a file, which may be packed by gzip."""
    if not data.startswith(GZIP):
        return data
    packed = zlib.decompressobj(wbits=31)
    try:
        found = packed.decompress(data, MOST_BYTES)
    except zlib.error as error:
        raise BadFont(f"gzip cannot unpack it: {error}") from None
    if packed.unconsumed_tail:
        raise BadFont(f"it unpacks to more than {MOST_BYTES} bytes, and no font has so many")
    if not packed.eof:
        raise BadFont("its end is missing: copy the file anew")
    return found


def read_face(data: bytes) -> Face:
    """The font of a file's bytes, whatever its kind."""
    data = unpacked(data)
    for magic, read in READERS.items():
        if data.startswith(magic):
            try:
                face = read(data)
            except (struct.error, IndexError):
                raise BadFont("its end is missing: copy the file anew") from None
            break
    else:
        raise BadFont("it is no font in BDF, PCF or PSF: name a file as /usr/share/fonts/X11/misc/7x13.pcf.gz")
    if not face.glyphs:
        raise BadFont("it has no characters")
    return whole(face)


def read_file(path: str) -> Face:
    """The font of a file; of a name that ends in .txt the font that is drawn there."""
    if path.endswith(".txt"):
        with open(path, encoding="ascii") as text:
            return drawn(font.read_font(text.read()))
    with open(path, "rb") as file:
        data = file.read(MOST_BYTES + 1)
    if len(data) > MOST_BYTES:
        raise BadFont(f"it has more than {MOST_BYTES} bytes, and no font has so many")
    return read_face(data)


def whole(face: Face) -> Face:
    """The font with all the ink of its characters between its highest and its lowest row."""
    glyphs = face.glyphs.values()
    ascent = max(face.ascent, max(glyph.top for glyph in glyphs))
    descent = max(face.descent, max(len(glyph.rows) - glyph.top for glyph in glyphs))
    if not 1 <= ascent + descent <= MOST_POINTS or any(not fits(glyph) for glyph in glyphs):
        raise BadFont(f"it has a character that is higher or wider than {MOST_POINTS} points: name a smaller font")
    return Face(ascent, descent, face.glyphs)


def fits(glyph: Glyph) -> bool:
    """Whether a subfont can tell how a character is drawn."""
    return 0 <= glyph.advance <= MOST_POINTS and -128 <= glyph.left <= 127 and glyph.wide <= MOST_POINTS


def drawn(cells: Sequence[Sequence[bytes]]) -> Face:
    """The font of characters from 0x20 on, each as the rows of its points."""
    high, wide = len(cells[0]), len(cells[0][0])
    rows = [tuple(int("".join("1" if point else "0" for point in row), 2) for row in cell) for cell in cells]
    return of_cells(wide, high, dict(enumerate(rows, font.FIRST)))


def of_cells(wide: int, high: int, cells: Dict[int, Tuple[int, ...]]) -> Face:
    """The font of characters of one size, whose writing line is beneath the letter H."""
    ink = [at for at, row in enumerate(cells.get(ord("H"), ()), 1) if row]
    ascent = ink[-1] if ink else high * 3 // 4
    return Face(ascent, high - ascent, {code: Glyph(wide, 0, ascent, wide, rows) for code, rows in cells.items()})


# What code of Unicode a character has, by the name of its font's character set.


def code_of(registry: str) -> Callable[[int], Optional[int]]:
    """What gives the code in Unicode of a character of a set, and None if it has none."""
    name = registry.lower()
    if name.startswith("iso10646"):
        return lambda code: code
    codec = next((codec(match) for form, codec in CODECS if (match := re.fullmatch(form, name))), None)
    if codec is None:
        raise BadFont(f"its characters are numbered by {registry}, which is not known here: name a font of ISO10646-1")
    name, high = codec

    def code(number: int) -> Optional[int]:
        if high and number <= 0xFF:
            return None
        data = (number | high).to_bytes(2 if high else 1, "big") if number <= (0xFFFF if high else 0xFF) else b""
        try:
            found = data.decode(name)
        except UnicodeDecodeError:
            return None
        return ord(found) if len(found) == 1 else None

    return code


# A form of a set's name, and the codec of Python with the bits that it sets in a number of two bytes.
CODECS: List[Tuple[str, Callable[["re.Match[str]"], Tuple[str, int]]]] = [
    (r"iso646\.1991-irv", lambda match: ("ascii", 0)),
    (r"jisx0201\.1976-0", lambda match: ("shift_jis", 0)),
    (r"iso8859-([0-9]{1,2})", lambda match: (f"iso8859-{match[1]}", 0)),
    (r"koi8-r", lambda match: ("koi8-r", 0)),
    (r"jisx0208\.[0-9]+-0", lambda match: ("euc_jp", 0x8080)),
    (r"ksc5601\.[0-9]+-0", lambda match: ("euc_kr", 0x8080)),
    (r"gb2312\.[0-9]+-0", lambda match: ("gb2312", 0x8080)),
]


def in_unicode(registry: str, glyphs: Dict[int, Glyph], missing: int) -> Dict[int, Glyph]:
    """The characters of a font by their codes in Unicode. The one that the font shows for those that are missing has
    the code 0."""
    code = code_of(registry)
    found = {place: glyph for number, glyph in glyphs.items() if (place := code(number)) is not None}
    if missing in glyphs:
        found.setdefault(NOTHING, glyphs[missing])
    return found


# BDF.


def read_bdf(data: bytes) -> Face:
    """The font of a text in BDF, the Glyph Bitmap Distribution Format 2.1."""
    lines = enumerate(data.decode("latin-1").splitlines(), 1)
    head: Dict[str, str] = {}
    glyphs: Dict[int, Glyph] = {}
    for number, line in lines:
        word, _, rest = line.partition(" ")
        if word == "STARTCHAR":
            code, glyph = bdf_glyph(lines, number)
            if code >= 0:
                glyphs[code] = glyph
        elif word == "ENDFONT":
            break
        else:
            head[word] = rest.strip().strip('"')
    else:
        raise BadFont("the line ENDFONT is missing: copy the file anew")
    box = bdf_numbers(0, "FONTBOUNDINGBOX", head.get("FONTBOUNDINGBOX", ""), 4)
    ascent = bdf_numbers(0, "FONT_ASCENT", head.get("FONT_ASCENT", str(box[1] + box[3])), 1)[0]
    descent = bdf_numbers(0, "FONT_DESCENT", head.get("FONT_DESCENT", str(-box[3])), 1)[0]
    missing = bdf_numbers(0, "DEFAULT_CHAR", head.get("DEFAULT_CHAR", "-1"), 1)[0]
    registry = f"{head.get('CHARSET_REGISTRY', 'ISO10646')}-{head.get('CHARSET_ENCODING', '1')}"
    return Face(ascent, descent, in_unicode(registry, glyphs, missing))


def bdf_numbers(number: int, word: str, text: str, count: int) -> List[int]:
    """The numbers behind a word of a line."""
    try:
        found = [int(field) for field in text.split()[:count]]
    except ValueError:
        found = []
    if len(found) != count or any(abs(value) > 1 << 24 for value in found):
        place = f"line {number}: " if number else ""
        raise BadFont(f"{place}{word} has {count} numbers, and here {text[:20]!r}")
    return found


def bdf_glyph(lines: Iterator[Tuple[int, str]], begin: int) -> Tuple[int, Glyph]:
    """The code of the character whose lines come, and how it is drawn."""
    code, advance, box = -1, 0, [0, 0, 0, 0]
    for number, line in lines:
        word, _, rest = line.partition(" ")
        if word == "ENCODING":
            code = bdf_numbers(number, word, rest, 1)[0]
        elif word == "DWIDTH":
            advance = bdf_numbers(number, word, rest, 1)[0]
        elif word == "BBX":
            box = bdf_numbers(number, word, rest, 4)
            if not (0 <= box[0] <= MOST_POINTS and 0 <= box[1] <= MOST_POINTS):
                raise BadFont(f"line {number}: a character of {box[0]} by {box[1]} points: name a smaller font")
        elif word == "BITMAP":
            rows = tuple(bdf_row(lines, box[0]) for _ in range(box[1]))
            return code, Glyph(advance, box[2], box[1] + box[3], box[0], rows)
        elif word == "ENDCHAR":
            break
    raise BadFont(f"line {begin}: the character has no BITMAP: copy the file anew")


def bdf_row(lines: Iterator[Tuple[int, str]], wide: int) -> int:
    """A row of a bitmap: hex digits, the leftmost point in their highest bit."""
    number, line = next(lines, (0, ""))
    digits = line.strip()
    if not re.fullmatch(r"[0-9A-Fa-f]+", digits) or len(digits) * 4 < wide:
        raise BadFont(f"line {number}: a row of {wide} points in hex digits is wanted")
    return int(digits, 16) >> len(digits) * 4 - wide


# PCF. A table begins with its format, whose bits tell how its numbers and its rows are stored.

PCF_PROPERTIES, PCF_ACCELERATORS, PCF_METRICS, PCF_BITMAPS, PCF_ENCODINGS, PCF_BDF_ACCELERATORS = 1, 2, 4, 8, 32, 256
PCF_COMPRESSED, PCF_HIGH_BYTE_FIRST, PCF_HIGH_BIT_FIRST = 0x100, 4, 8
PCF_NO_GLYPH = 0xFFFF
REVERSED = bytes(int(f"{byte:08b}"[::-1], 2) for byte in range(256))


class Table:
    """A table of a PCF file, whose numbers are taken one after the other."""

    def __init__(self, data: bytes, offset: int):
        self.data, self.at = data, offset + 4
        (self.format,) = struct.unpack_from("<I", data, offset)
        self.order = ">" if self.format & PCF_HIGH_BYTE_FIRST else "<"

    def take(self, form: str) -> Tuple[int, ...]:
        """The next numbers, as struct spells them."""
        found = struct.unpack_from(self.order + form, self.data, self.at)
        self.at += struct.calcsize(self.order + form)
        return found

    def count(self, form: str) -> int:
        """A count of what comes, each of which has a byte at least."""
        (found,) = self.take(form)
        if not 0 <= found <= len(self.data):
            raise BadFont(f"a table tells {found} entries, and the file has {len(self.data)} bytes: copy it anew")
        return found


@dataclass(frozen=True)
class Metrics:
    """Where the ink of a character of a PCF font begins and ends, seen from the pen, and how far the pen moves."""

    left: int
    right: int
    advance: int
    ascent: int
    descent: int


def read_pcf(data: bytes) -> Face:
    """The font of a file in PCF, the Portable Compiled Format of X11."""
    (count,) = struct.unpack_from("<I", data, 4)
    kinds = [struct.unpack_from("<IIII", data, 8 + 16 * at) for at in range(min(count, 64))]
    tables = {kind: Table(data, offset) for kind, _, _, offset in kinds}
    for kind in (PCF_PROPERTIES, PCF_METRICS, PCF_BITMAPS, PCF_ENCODINGS):
        if kind not in tables:
            raise BadFont("one of its tables is missing: copy the file anew")
    accelerators = tables.get(PCF_BDF_ACCELERATORS) or tables.get(PCF_ACCELERATORS)
    if accelerators is None:
        raise BadFont("its table of heights is missing: copy the file anew")
    accelerators.take("8B")
    ascent, descent = accelerators.take("ii")
    words = pcf_words(tables[PCF_PROPERTIES])
    glyphs = pcf_glyphs(tables[PCF_BITMAPS], pcf_metrics(tables[PCF_METRICS]))
    codes, missing = pcf_codes(tables[PCF_ENCODINGS])
    numbered = {code: glyphs[index] for code, index in codes.items() if index < len(glyphs)}
    registry = f"{words.get('CHARSET_REGISTRY', 'ISO10646')}-{words.get('CHARSET_ENCODING', '1')}"
    return Face(ascent, descent, in_unicode(registry, numbered, missing))


def pcf_words(table: Table) -> Dict[str, str]:
    """The properties of a font that are words."""
    count = table.count("i")
    entries = [table.take("iBi") for _ in range(count)]
    table.at += -count % 4
    size = table.count("i")
    strings = table.data[table.at : table.at + size]

    def word(at: int) -> str:
        return strings[at : strings.find(b"\0", at)].decode("latin-1") if 0 <= at < size else ""

    return {word(name): word(value) for name, is_word, value in entries if is_word}


def pcf_metrics(table: Table) -> List[Metrics]:
    """The metrics of a font's characters."""
    if table.format & PCF_COMPRESSED:
        return [Metrics(*(byte - 0x80 for byte in table.take("5B"))) for _ in range(table.count("h"))]
    return [Metrics(*table.take("5hH")[:5]) for _ in range(table.count("i"))]


def pcf_codes(table: Table) -> Tuple[Dict[int, int], int]:
    """The index of each character by its number, and the number of the one that stands for those that are missing."""
    low, high, first, last, missing = table.take("5H")
    columns = high - low + 1
    if high < low or last < first or high > 0xFF or last > 0xFF:
        raise BadFont("its table of codes is none: copy the file anew")
    indices = table.take(f"{columns * (last - first + 1)}H")
    codes = {(first + at // columns) << 8 | low + at % columns: index for at, index in enumerate(indices)}
    return {code: index for code, index in codes.items() if index != PCF_NO_GLYPH}, missing


def pcf_glyphs(table: Table, metrics: List[Metrics]) -> List[Glyph]:
    """How a font's characters are drawn."""
    count = table.count("i")
    offsets = table.take(f"{count}i")
    sizes = table.take("4i")
    pad = table.format & 3
    rows = pcf_rows(table, sizes[pad])
    if count != len(metrics):
        raise BadFont("its tables have other numbers of characters: copy the file anew")
    return [pcf_glyph(rows, offset, 1 << pad, found) for offset, found in zip(offsets, metrics)]


def pcf_rows(table: Table, size: int) -> bytes:
    """The rows of all bitmaps, with the leftmost point in the highest bit of the first byte."""
    rows = table.data[table.at : table.at + size]
    if size < 0 or len(rows) != size:
        raise BadFont("rows of its bitmaps are missing: copy the file anew")
    is_high_bit_first = bool(table.format & PCF_HIGH_BIT_FIRST)
    unit = 1 << (table.format >> 4 & 3)
    if not is_high_bit_first:
        rows = rows.translate(REVERSED)
    if is_high_bit_first != bool(table.format & PCF_HIGH_BYTE_FIRST):
        rows = b"".join(rows[at : at + unit][::-1] for at in range(0, size, unit))
    return rows


def pcf_glyph(rows: bytes, offset: int, pad: int, found: Metrics) -> Glyph:
    """How a character is drawn whose rows begin at an offset, each with so many bytes that they are full units."""
    wide, high = found.right - found.left, found.ascent + found.descent
    if wide < 0 or high < 0 or offset < 0:
        raise BadFont("a character of it has no size: copy the file anew")
    stride = -(-wide // (8 * pad)) * pad
    if offset + stride * high > len(rows):
        raise BadFont("rows of its bitmaps are missing: copy the file anew")
    starts = range(offset, offset + stride * high, stride) if stride else ()
    bitmap = tuple(int.from_bytes(rows[at : at + stride], "big") >> 8 * stride - wide for at in starts)
    return Glyph(found.advance, found.left, found.ascent, wide, bitmap)


# PSF, the fonts of Linux' console.

PSF1_WIDE, PSF1_512, PSF1_TABLES = 8, 1, 6
PSF2_TABLE = 1


def read_psf1(data: bytes) -> Face:
    """The font of a file in PSF, version 1."""
    mode, high = struct.unpack_from("<2xBB", data)
    count = 512 if mode & PSF1_512 else 256
    cells = psf_cells(data[4:], count, (PSF1_WIDE, high), high)
    if not mode & PSF1_TABLES:
        return psf_face(PSF1_WIDE, high, cells, [[code] for code in range(count)])
    table, codes = data[4 + count * high :], [[]]  # type: Tuple[bytes, List[List[int]]]
    is_sequence = False
    for (code,) in struct.iter_unpack("<H", table[: len(table) & ~1]):
        if code == 0xFFFF:
            codes.append([])
            is_sequence = False
        elif code == 0xFFFE:
            is_sequence = True
        elif not is_sequence:
            codes[-1].append(code)
    return psf_face(PSF1_WIDE, high, cells, codes)


def read_psf2(data: bytes) -> Face:
    """The font of a file in PSF, version 2."""
    head, flags, count, size, high, wide = struct.unpack_from("<8xIIIIII", data)
    cells = psf_cells(data[head:], count, (wide, high), size)
    if not flags & PSF2_TABLE:
        return psf_face(wide, high, cells, [[code] for code in range(count)])
    entries = data[head + count * size :].split(b"\xff")
    codes = [[ord(one) for one in entry.split(b"\xfe")[0].decode(errors="ignore")] for entry in entries]
    return psf_face(wide, high, cells, codes)


def psf_cells(data: bytes, count: int, sides: Tuple[int, int], size: int) -> List[Tuple[int, ...]]:
    """The rows of so many characters, each of which takes so many bytes."""
    wide, high = sides
    stride = -(-wide // 8)
    if not (1 <= wide <= MOST_POINTS and 1 <= high <= MOST_POINTS and size >= stride * high):
        raise BadFont(f"its characters have {wide} by {high} points in {size} bytes: name another font")
    if count * size > len(data):
        raise BadFont("its end is missing: copy the file anew")
    places = [range(at, at + stride * high, stride) for at in range(0, count * size, size)]
    return [tuple(int.from_bytes(data[at : at + stride], "big") >> 8 * stride - wide for at in rows) for rows in places]


def psf_face(wide: int, high: int, cells: Sequence[Tuple[int, ...]], codes: Sequence[Sequence[int]]) -> Face:
    """The font of characters in order, of which each has some codes."""
    found = {code: cell for cell, those in zip(cells, codes) for code in those}
    for code in REPLACEMENTS:
        if code in found:
            found.setdefault(NOTHING, found[code])
    return of_cells(wide, high, found)


READERS: Dict[bytes, Callable[[bytes], Face]] = {
    b"STARTFONT": read_bdf,
    b"\x01fcp": read_pcf,
    b"\x36\x04": read_psf1,
    b"\x72\xb5\x4a\x86": read_psf2,
}


# Writing.


def rows_of_bits(rows: Sequence[int], wide: int) -> bytes:
    """Rows of points as the rows of an image in k1."""
    stride = -(-wide // 8)
    return b"".join((row << stride * 8 - wide).to_bytes(stride, "big") for row in rows)


def subfont(face: Face, first: int, last: int) -> bytes:
    """A subfont of the characters from one code to another. Those that the font does not have are as wide as
    nothing."""
    x, strip, places = 0, [0] * face.height, []
    for code in range(first, last + 1):
        glyph = face.glyphs.get(code, Glyph(0, 0, 0, 0, ()))
        top = max(face.ascent - glyph.top, 0)
        places.append(struct.pack("<HBBbB", x, top, top + len(glyph.rows), glyph.left, glyph.advance))
        for at in range(face.height):
            inside = 0 <= at - top < len(glyph.rows)
            strip[at] = strip[at] << glyph.wide | (glyph.rows[at - top] if inside else 0)
        x += glyph.wide
    wide = max(x, 1)
    places.append(struct.pack("<HBBbB", x, 0, face.height, 0, 0))
    head = b"".join(b"%11d " % number for number in (last - first + 1, face.height, face.ascent))
    return (
        font.image_file("k1", wide, face.height, rows_of_bits([row << wide - x for row in strip], wide))
        + head
        + b"".join(places)
    )


def parts_of(face: Face) -> List[Tuple[int, int]]:
    """The first and the last character of each subfont that a font needs."""
    codes = sorted(code for code in face.glyphs if code <= LAST_CODE)
    pages = sorted({code // IN_A_SUBFONT for code in codes})
    parts = [[code for code in codes if code // IN_A_SUBFONT == page] for page in pages]
    return [(part[0], part[-1]) for part in parts]


def font_files(face: Face, name: str) -> Dict[str, bytes]:
    """The font file of a name, and its subfonts, each by the name of its file."""
    lines, files = [f"{face.height} {face.ascent}"], {}
    for first, last in parts_of(face):
        part = f"{name}.{first:04x}"
        lines.append(f"0x{first:04x} 0x{last:04x} {part}")
        files[part] = subfont(face, first, last)
    return {f"{name}.font": "".join(line + "\n" for line in lines).encode(), **files}


def strip(face: Face) -> bytes:
    """The font that `rio9 text` reads."""
    wide, high = face.cell_width(), face.height
    missing = [code for code in range(font.FIRST, font.LAST + 1) if code not in face.glyphs]
    if missing:
        raise BadFont(f"the character {chr(missing[0])!r} is missing: name a font that has all of ASCII")
    if not 1 <= wide <= font.MOST_WIDE or high > font.MOST_HIGH:
        size = f"{wide} by {high} points" if wide else "several widths"
        raise BadFont(
            f"it has characters of {size}, and `rio9 text` takes one size of at most"
            f" {font.MOST_WIDE} by {font.MOST_HIGH}: name another font"
        )
    cells = [face.cell(face.glyphs[code], wide) for code in range(font.FIRST, font.LAST + 1)]
    points = [[bytes(255 * (row >> wide - 1 - at & 1) for at in range(wide)) for row in cell] for cell in cells]
    return font.font_file(points)


def name_of(path: str) -> str:
    """The name of a font by that of its file."""
    base = os.path.basename(path)
    return re.sub(r"(\.(bdf|pcf|psfu?|txt))?(\.gz)?$", "", base, flags=re.IGNORECASE) or "font"


def put_files(face: Face, name: str, folder: str) -> str:
    """Writes the files of a font to a folder, and gives the path of the font file."""
    os.makedirs(folder, exist_ok=True)
    files = font_files(face, name)
    for file, data in files.items():
        with open(os.path.join(folder, file), "wb") as out:
            out.write(data)
    return os.path.join(folder, next(iter(files)))


def put(options: argparse.Namespace) -> None:
    """Writes what the words ask for."""
    face = read_file(options.file)
    if options.out is None:
        sys.stdout.buffer.write(strip(face))
        sys.stdout.buffer.flush()
        return
    print(put_files(face, name_of(options.file), options.out))
    beyond = sum(code > LAST_CODE for code in face.glyphs)
    if beyond:
        sys.stderr.write(
            f"rio9d font: {beyond} characters behind 0x{LAST_CODE:x}, which a font file cannot tell, are left out\n"
        )


def main(words: List[str]) -> int:
    """Runs `rio9d font`."""
    parser = formats.Words(prog="rio9d font", description=__doc__, formatter_class=argparse.RawDescriptionHelpFormatter)
    parser.add_argument(
        "file", nargs="?", default=font.DRAWN, metavar="FILE", help="a font in BDF, PCF or PSF, or drawn in a text"
    )
    parser.add_argument("--out", metavar="FOLDER", help="where the font file and its subfonts go")
    options = parser.parse_args(words)
    try:
        put(options)
    except (formats.BadText, UnicodeDecodeError) as error:
        sys.stderr.write(f"rio9d font: {error}\n")
        return 1
    except BadFont as error:
        sys.stderr.write(f"rio9d font: {options.file}: {error}\n")
        return 1
    except FileNotFoundError as error:
        formats.stop("rio9d font", f"{formats.why_not(error)}; apt install xfonts-base or console-setup-linux has fonts")
    except OSError as error:
        formats.stop("rio9d font", formats.why_not(error))
    return 0
