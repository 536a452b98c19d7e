"""The compression of image(6): rows of pixels as runs of bytes and of copies of earlier ones."""

from typing import Tuple

MEMORY = 1024  # bytes that a copy may reach back
LEAST_COPY = 3
PLAIN = 0x80


class BadPacking(ValueError):
    """Bytes are no packed rows."""


def unpack(data: bytes, at: int, row: int, count: int) -> Tuple[bytes, int]:
    """So many rows of so many bytes that stand packed from a place on, and the place behind them. No run goes over the
    end of a row."""
    rows = bytearray(row * count)
    memory, place, filled, total = bytearray(MEMORY), 0, 0, row * count
    while filled < total:
        room = row - filled % row
        if at + 1 >= len(data):
            raise BadPacking("the packed rows end too early")
        code, at = data[at], at + 1
        if code >= PLAIN:
            length = code - PLAIN + 1
            piece, at = data[at : at + length], at + length
            if len(piece) < length:
                raise BadPacking("the packed rows end too early")
        else:
            back, length = ((code & 3) << 8) + data[at] + 1, (code >> 2) + LEAST_COPY
            at += 1
            piece = copied(memory, place, back, length)
        if length > room:
            raise BadPacking("a run goes over the end of a row")
        rows[filled : filled + length] = piece
        for byte in piece:
            memory[place] = byte
            place = (place + 1) % MEMORY
        filled += length
    return bytes(rows), at


def copied(memory: bytearray, place: int, back: int, length: int) -> bytes:
    """So many bytes that stand so far back in the memory; a copy may reach into itself."""
    begin = place - back
    held = [memory[(begin + index) % MEMORY] for index in range(min(back, length))]
    return bytes(held[index % back] for index in range(length))
