"""Pictures by Pillow: those of the display, and how two of them differ."""

from dataclasses import dataclass
from pathlib import Path
from typing import TYPE_CHECKING, Dict, Optional, Sequence, Tuple

from rio9 import formats, picture
from rio9.client import Failure

if TYPE_CHECKING:
    from PIL import Image

Rectangle = Tuple[int, int, int, int]

RED = (255, 0, 0)
PALE = 0.75  # how much of white the parts have that are as they should be
WHITE = (255, 255, 255)

# How Pillow calls rows of channels that it reads by itself, and the mode of the picture.
RAW_MODES: Dict[str, Tuple[str, str]] = {
    "x8r8g8b8": ("RGB", "BGRX"),
    "r8g8b8": ("RGB", "BGR"),
    "k8": ("L", "L"),
}


class NoPillow(Failure):
    """The library that pictures need is missing."""

    def __init__(self) -> None:
        super().__init__("pictures need Pillow: apt install python3-pil, or pip install 'rio9[test]'")


@dataclass(frozen=True)
class Difference:
    """Two pictures that differ, a third that shows where, and that in words."""

    golden: "Image.Image"
    actual: "Image.Image"
    shown: "Image.Image"
    told: str


def image_of(data: bytes) -> "Image.Image":
    """The picture of an image file (image(6)), in red, green and blue."""
    try:
        return image_of_rows(*picture.read_image_file(data))
    except picture.NoPicture as error:
        raise Failure(f"what came is no picture: {error}") from None


def image_of_rows(word: int, left: int, right: int, height: int, rows: bytes) -> "Image.Image":
    """The picture of rows (image(6)) of a rectangle in these channels, in red, green and blue."""
    try:
        from PIL import Image
    except ModuleNotFoundError:
        raise NoPillow from None
    try:
        size, known = (right - left, height), RAW_MODES.get(formats.channels_text(word) or "")
        if known is not None and len(rows) == height * formats.row_bytes(formats.depth(word), left, right):
            found = Image.frombytes(known[0], size, rows, "raw", known[1])
            return found if found.mode == "RGB" else found.convert("RGB")
        pixels = [bytes(pixel[:3]) for row in picture.colours(word, left, right, height, rows) for pixel in row]
        return Image.frombytes("RGB", size, b"".join(pixels))
    except (picture.NoPicture, ValueError) as error:
        raise Failure(f"what came is no picture: {error}") from None


def difference_of(golden: Path, actual: "Image.Image", mask: Sequence[Rectangle]) -> Optional[Difference]:
    """How a picture differs from the golden one in a file, outside of the rectangles of a mask; None where it does
    not."""
    from PIL import Image, ImageChops, ImageDraw

    with Image.open(golden) as opened:
        wanted = opened.convert("RGB")
    if wanted.size != actual.size:
        told = "the golden picture has {}x{} points, and the display {}x{}".format(*wanted.size, *actual.size)
        return Difference(wanted, actual, actual, told)
    changed = ImageChops.difference(wanted, actual)
    paint = ImageDraw.Draw(changed)
    for left, upper, right, lower in mask:
        if left < right and upper < lower:
            paint.rectangle((left, upper, right - 1, lower - 1), fill=(0, 0, 0))
    box = changed.getbbox()
    if box is None:
        return None
    red, green, blue = (channel.point(lambda value: 255 if value else 0) for channel in changed.split())
    where = ImageChops.lighter(ImageChops.lighter(red, green), blue)
    count = where.histogram()[255]
    pale = Image.blend(wanted, Image.new("RGB", wanted.size, WHITE), PALE)
    shown = Image.composite(Image.new("RGB", wanted.size, RED), pale, where)
    return Difference(wanted, actual, shown, "{} pixels differ, within ({},{})-({},{})".format(count, *box))
