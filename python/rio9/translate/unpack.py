"""Writes a compressed image or subfont of Plan 9 (image(6), font(6)) as one that is not.

    rio9d unpack FILE.. --out FOLDER

Each file is written into FOLDER by its own name. What stands behind the pixels, as the characters of a subfont, is kept
as it is; a file that is not compressed is copied. It is outside the proof.
"""

import argparse
import os
import sys
from typing import List, Optional

from rio9 import formats
from rio9.translate.packed import BadPacking, unpack

COMPRESSED, FIELD, FIELDS = b"compressed\n", 12, 5
BLOCK = 2 * FIELD  # the head of a block: the row behind its last, and its bytes
OLD_CHANNELS = ("k1", "k2", "k4", "m8")
MOST = 2**26  # bytes of pixels


class NoImage(ValueError):
    """A file is no image."""


def number_of(data: bytes, at: int) -> int:
    """The number of a field."""
    try:
        return int(data[at : at + FIELD])
    except ValueError:
        raise NoImage("a number is wanted in its head") from None


def depth_of(name: str) -> int:
    """The bits of a pixel, by the name of its channels or, in old files, by a number."""
    if name.isdigit():
        if int(name) >= len(OLD_CHANNELS):
            raise NoImage(f"channels are wanted, as k8: {name}")
        return 1 << int(name)
    if name == "m8":
        return 8
    try:
        return int(formats.depth(formats.channels_word(name)))
    except ValueError:
        raise NoImage(f"channels are wanted, as k8: {name}") from None


def unpacked(data: bytes) -> bytes:
    """The file without compression."""
    if not data.startswith(COMPRESSED):
        return data
    head = data[len(COMPRESSED) : len(COMPRESSED) + FIELDS * FIELD]
    left, upper, right, lower = (number_of(head, FIELD * index) for index in range(1, FIELDS))
    row = formats.row_bytes(depth_of(head[:FIELD].decode("ascii", "replace").strip()), left, right)
    if left >= right or upper >= lower or row * (lower - upper) > MOST:
        raise NoImage("its rectangle is empty, or too large")
    found, at, y = bytearray(head), len(COMPRESSED) + len(head), upper
    while y < lower:
        end, size = number_of(data, at), number_of(data, at + FIELD)
        if not y < end <= lower:
            raise NoImage("a block has no rows of the image")
        rows, _ = unpack(data[: at + BLOCK + size], at + BLOCK, row, end - y)
        found += rows
        at, y = at + BLOCK + size, end
    return bytes(found) + data[at:]


def why_no_room(files: List[str], folder: str) -> Optional[str]:
    """Why the files cannot be written into a folder by their own names without losing one of them."""
    names = [os.path.basename(path) for path in files]
    for path, name in zip(files, names):
        if names.count(name) > 1:
            return f"two files have the name {name}: unpack them into two folders"
        if formats.is_one_of(os.path.join(folder, name), files):
            return f"{path} is read, and would be lost: name another folder by --out"
    return None


def main(words: List[str]) -> int:
    """Does what the words say, and gives the status."""
    form = argparse.RawDescriptionHelpFormatter
    parser = formats.Words(prog="rio9d unpack", description=__doc__, formatter_class=form)
    parser.add_argument("files", nargs="+", metavar="FILE")
    parser.add_argument("--out", required=True, metavar="FOLDER")
    options = parser.parse_args(words)
    why = why_no_room(options.files, options.out)
    if why is not None:
        parser.error(why)
    try:
        os.makedirs(options.out, exist_ok=True)
        for path in options.files:
            with open(path, "rb") as file:
                data = file.read()
            try:
                plain = unpacked(data)
            except (NoImage, BadPacking) as error:
                sys.stderr.write(f"rio9d unpack: {path} is no image: {error}\n")
                return 1
            with open(os.path.join(options.out, os.path.basename(path)), "wb") as file:
                file.write(plain)
    except OSError as error:
        formats.stop("rio9d unpack", formats.why_not(error))
    return 0
