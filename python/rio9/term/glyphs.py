"""The bitmaps of a terminal's cells, of a font whose characters have one width."""

import os
from typing import List, Optional, Tuple

from rio9 import font, fonts

MISC = "/usr/share/fonts/X11/misc"  # where Debian's xfonts-base has the misc-fixed fonts
USUAL = "7x13"
LEFT_HALF, RIGHT_HALF = "left half", "right half"  # of the box that stands for a wide character

Shape = Tuple[str, bool]  # a cell's characters, or a half, and whether they are bold


class Glyphs:
    """What gives the bitmap of each shape: of a font, and of a bold one if it is there."""

    def __init__(self, face: fonts.Face, bold: Optional[fonts.Face] = None):
        self.face, self.bold = face, bold
        self.width, self.height, self.ascent = face.cell_width(), face.height, face.ascent
        if not self.width:
            raise fonts.BadFont("its characters have several widths: name a font of one width, as 7x13")
        if bold is not None and (bold.cell_width(), bold.height) != (self.width, self.height):
            self.bold = None

    def bitmap(self, shape: Shape) -> bytes:
        """The rows of a shape, as those of an image in k1."""
        text, is_bold = shape
        rows = [0] * self.height
        for part in [text] if text in (LEFT_HALF, RIGHT_HALF) else text:
            rows = [row | other for row, other in zip(rows, self.rows(part, is_bold))]
        return fonts.rows_of_bits(rows, self.width)

    def rows(self, text: str, is_bold: bool) -> List[int]:
        """The rows of a character: of the bold font, or of the other one, made bold by a second stroke beside the
        first."""
        code = ord(text) if len(text) == 1 else None
        if code is not None and is_bold and self.bold and code in self.bold.glyphs:
            return self.bold.cell(self.bold.glyphs[code], self.width)
        if code is None or code not in self.face.glyphs:
            return self.box(text)
        rows = self.face.cell(self.face.glyphs[code], self.width)
        return [row | row >> 1 for row in rows] if is_bold else rows

    def box(self, text: str) -> List[int]:
        """A box, for a character that the font does not have, or the half of a wide one."""
        left = 1 << self.width - 2 if text != RIGHT_HALF else 0
        right = 2 if text != LEFT_HALF else 0
        across = (1 << self.width) - 1
        if text != RIGHT_HALF:
            across &= (1 << self.width - 1) - 1
        if text != LEFT_HALF:
            across &= ~1
        return [0] + [across] + [left | right] * (self.height - 4) + [across] + [0]


def found(path: str) -> str:
    """The path of a font: as it stands, or of a name as 9x15 among the fonts of Debian."""
    named = os.path.join(MISC, f"{path}.pcf.gz")
    return named if "/" not in path and not os.path.exists(path) and os.path.exists(named) else path


def bold_of(path: str) -> str:
    """The path of the bold font that stands beside another, as 7x13B.pcf.gz beside 7x13.pcf.gz."""
    folder, base = os.path.split(path)
    name, dot, rest = base.partition(".")
    return os.path.join(folder, f"{name}B{dot}{rest}")


def load(path: Optional[str]) -> Glyphs:
    """The bitmaps of a font: of the one that is named, else Debian's misc-fixed one, else the one that is drawn in
    rio9/font.txt."""
    if path is None:
        path = found(USUAL) if os.path.exists(found(USUAL)) else font.DRAWN
    path = found(path)
    bold = bold_of(path)
    return Glyphs(fonts.read_file(path), fonts.read_file(bold) if os.path.exists(bold) else None)
