"""Writes a picture of what `rio9 replay` gives, as a PNG file.

    rio9d picture screen.png < output
    rio9d picture screen.png --scale 4 < file
    rio9d picture middle.png --size 128x96 --chan x8r8g8b8 < replies
    rio9d picture middle.png --size 128x96 --chan x8r8g8b8 --read 1 < replies

The input is what a run printed: reply lines, and with --screen the line `S n` and an image file (image(6)) of n
bytes behind them. It may also be such a file alone. The picture is the image file's; with --size and --chan it is
the data of an Rread, the last one or the one that --read counts from 1: the rows of a rectangle that a draw
message `r` asked for (draw(3)), whose left edge stands at a whole byte. Colours are widened to 8 bits by
repeating their bits; where there is alpha, the PNG has it, and colours are divided by it. With --scale N each
pixel is N by N.

Status 1 where the input has no such picture, 2 where a word or a file is wrong; one line tells why.
It is outside the proof. Needs: Python 3.9 or later, its standard library alone.
"""

import argparse
import re
import struct
import sys
import zlib
from typing import Dict, List, Optional, Sequence, Tuple

from rio9 import formats, record

HEADER_BYTES = 60
HEADER = re.compile(rb" *([rgbkax][1-8]){1,4}( +-?[0-9]+){4} ")


# Red, green, blue and alpha.
Colour = Tuple[int, int, int, int]


class NoPicture(Exception):
    """The input has no such picture. It tells why."""


def chosen_read(replies: formats.Replies, number: Optional[int]) -> bytes:
    """The data of the Rread of this number, counted from 1, or of the last one where it is None."""
    found = [record.read_message(message) for _, message in replies.messages]
    reads = [data for message, _, data in filter(None, found) if message.name == "Rread"]
    at = len(reads) if number is None else number
    if not 1 <= at <= len(reads):
        raise NoPicture(f"there are {len(reads)} Rreads")
    return reads[at - 1]


def is_image_file(data: bytes) -> bool:
    """Whether bytes begin as an image file does: five fields of 11 characters, each with a blank behind it."""
    return HEADER.fullmatch(data[:HEADER_BYTES]) is not None and all(
        data[at] == 32 for at in range(11, HEADER_BYTES, 12)
    )


def read_image_file(data: bytes) -> Tuple[int, int, int, int, bytes]:
    """Channels, left and right edge, height and rows of an image file."""
    if len(data) < HEADER_BYTES or not is_image_file(data):
        raise NoPicture("no image file")
    fields = data[:HEADER_BYTES].decode().split()
    left, upper, right, lower = map(int, fields[1:])
    return formats.channels_word(fields[0]), left, right, lower - upper, data[HEADER_BYTES:]


def read_output(data: bytes) -> formats.Replies:
    """The replies and the image file of a run's output; an image file alone is the output of a run without replies."""
    return formats.Replies([], data) if is_image_file(data) else formats.read_replies(data)


def raw_pixels(row: bytes, bits: int, left: int, right: int) -> List[int]:
    """The pixels of a row of a rectangle, as numbers."""
    if bits >= 8:
        size = bits // 8
        return [int.from_bytes(row[at : at + size], "little") for at in range(0, size * (right - left), size)]
    whole, last = int.from_bytes(row, "big"), 8 * len(row) - bits
    begin = left * bits % 8
    return [whole >> last - begin - at & (1 << bits) - 1 for at in range(0, bits * (right - left), bits)]


def widened(value: int, bits: int) -> int:
    """A channel of some bits as one of 8, its bits repeated from the top."""
    return int((f"{value:0{bits}b}" * 8)[:8], 2)


def colour(pixel: int, channels: Sequence[Tuple[str, int]]) -> Colour:
    """Red, green, blue and alpha of a pixel."""
    found = {}
    for letter, bits in reversed(channels):
        found[letter] = widened(pixel & (1 << bits) - 1, bits)
        pixel >>= bits
    grey = found.get("k", 0)
    red, green, blue = (found.get(letter, grey) for letter in "rgb")
    return red, green, blue, found.get("a", 255)


def divided(colours: Colour) -> Colour:
    """Red, green and blue that are not multiplied by alpha, and alpha."""
    alpha = colours[3]
    red, green, blue = (min(255, (part * 255 + alpha // 2) // alpha) if alpha else 0 for part in colours[:3])
    return red, green, blue, alpha


def colours(word: int, left: int, right: int, height: int, rows: bytes) -> List[List[Colour]]:
    """The pixels of rows, row by row: the red, green, blue and alpha of each."""
    channels, bits = formats.channels(word) or [], formats.depth(word)
    row_bytes, width = formats.row_bytes(bits, left, right), right - left
    if bits > 8 and bits % 8 or bits < 8 and 8 % bits:
        raise NoPicture(f"pixels of {bits} bits")
    if width <= 0 or height <= 0 or len(rows) != row_bytes * height:
        raise NoPicture(f"{len(rows)} bytes for {width}x{height}, which takes {row_bytes * height}")
    seen: Dict[int, Colour] = {}
    found: List[List[Colour]] = []
    for at in range(0, len(rows), row_bytes):
        pixels = raw_pixels(rows[at : at + row_bytes], bits, left, right)
        for pixel in set(pixels) - seen.keys():
            seen[pixel] = divided(colour(pixel, channels))
        found.append([seen[pixel] for pixel in pixels])
    return found


def png_chunk(kind: bytes, data: bytes) -> bytes:
    """A part of a PNG file."""
    return struct.pack(">I", len(data)) + kind + data + struct.pack(">I", zlib.crc32(kind + data))


def picture(word: int, left: int, right: int, height: int, rows: bytes, scale: int = 1) -> bytes:
    """The PNG file of rows of pixels, each of them so many by so many."""
    has_alpha = any(letter == "a" for letter, _ in formats.channels(word) or [])
    parts = 4 if has_alpha else 3
    lines: List[bytes] = []
    for row in colours(word, left, right, height, rows):
        lines += scale * [b"\0" + b"".join(scale * bytes(pixel[:parts]) for pixel in row)]
    size = scale * (right - left), scale * height
    header = struct.pack(">IIBBBBB", *size, 8, 6 if has_alpha else 2, 0, 0, 0)
    chunks = [(b"IHDR", header), (b"IDAT", zlib.compress(b"".join(lines), 9)), (b"IEND", b"")]
    return b"\x89PNG\r\n\x1a\n" + b"".join(png_chunk(kind, data) for kind, data in chunks)


def size_of(text: str) -> Tuple[int, int]:
    """A size, as an option."""
    if not re.fullmatch(r"[1-9][0-9]{0,4}x[1-9][0-9]{0,4}", text):
        raise argparse.ArgumentTypeError(f"no size, as 128x96: {text}")
    width, height = text.split("x")
    return int(width), int(height)


def scale_of(text: str) -> int:
    """A scale, as an option."""
    if not re.fullmatch(r"[1-9]|1[0-6]", text):
        raise argparse.ArgumentTypeError(f"no scale from 1 to 16: {text}")
    return int(text)


def chosen_picture(replies: formats.Replies, options: argparse.Namespace) -> bytes:
    """The PNG file that the options choose."""
    if options.size is not None:
        width, height = options.size
        return picture(options.chan, 0, width, height, chosen_read(replies, options.read), options.scale)
    if replies.screen is None:
        raise NoPicture("the output has no display: run replay with --screen, or say --size and --chan of an Rread")
    return picture(*read_image_file(replies.screen), options.scale)


def main(words: List[str]) -> int:
    """The command `rio9d picture`."""
    parser = formats.Words(
        prog="rio9d picture", description=__doc__, formatter_class=argparse.RawDescriptionHelpFormatter
    )
    parser.add_argument("out", help="the PNG file")
    parser.add_argument("--size", type=size_of, metavar="WxH", help="width and height of what an Rread has")
    parser.add_argument("--chan", type=formats.channels_option, metavar="C", help="its channels")
    parser.add_argument("--read", type=int, metavar="N", help="the Nth Rread, not the last one")
    parser.add_argument("--scale", type=scale_of, default=1, metavar="N", help="each pixel N by N, up to 16")
    options = parser.parse_args(words)
    if (options.size is None) != (options.chan is None) or options.read is not None and options.size is None:
        parser.error("an Rread has no size and channels of its own: give --size and --chan")
    try:
        png = chosen_picture(read_output(sys.stdin.buffer.read()), options)
        with open(options.out, "wb") as file:
            file.write(png)
    except (NoPicture, formats.BadText, ValueError) as error:
        sys.stderr.write(f"rio9d picture: {error}\n")
        return 1
    except OSError as error:
        formats.stop("rio9d picture", formats.why_not(error))
    return 0
