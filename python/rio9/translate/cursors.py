"""The file `cursor` of mouse(3), which a rio9 server does not have: it is kept here, and answered."""

from dataclasses import dataclass
from typing import Dict

NAME, OWNER = "cursor", b"rio9"
CURSOR = 63  # the kind in its qid's path, which no file of the server has
WHOLE = 72  # the bytes of a cursor: an offset, and two pictures of 16 by 16 points
MODE = 0x180
SERIAL_SHIFT = 32


@dataclass
class Cursors:
    """What was written of each window's cursor, by the window's serial, 0 for the device tree. Nothing means the
    arrow."""

    kept: Dict[int, bytes]

    def write(self, serial: int, data: bytes) -> None:
        """Keeps a cursor; what is shorter than one brings the arrow back."""
        self.kept[serial] = data[:WHOLE] if len(data) >= WHOLE else b""

    def read(self, serial: int, offset: int, count: int) -> bytes:
        """What is kept."""
        return self.kept.get(serial, b"")[offset : offset + count]


def path_of(serial: int) -> int:
    """The path of a cursor's qid."""
    return CURSOR | serial << SERIAL_SHIFT


def qid_of(serial: int) -> bytes:
    """A cursor's qid."""
    return b"\0" + bytes(4) + path_of(serial).to_bytes(8, "little")


def stat_of(serial: int) -> bytes:
    """A cursor's stat."""
    names = b"".join(len(name).to_bytes(2, "little") + name for name in (NAME.encode(), OWNER, OWNER, OWNER))
    body = bytes(2 + 4) + qid_of(serial) + MODE.to_bytes(4, "little") + bytes(4 + 4 + 8) + names
    return len(body).to_bytes(2, "little") + body
