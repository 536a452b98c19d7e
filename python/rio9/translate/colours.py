"""The standard map of 256 colours (color(6)), which images of `m8` have."""

from functools import lru_cache
from typing import List, Tuple

Colour = Tuple[int, int, int]


def colour_of(index: int) -> Colour:
    """The red, the green and the blue of an index."""
    red, value = index >> 6, index >> 4 & 3
    low = index - value + red & 15
    green, blue = low >> 2, low & 3
    most = max(red, green, blue)
    if most == 0:
        return value * 17, value * 17, value * 17
    full = 17 * (4 * most + value)
    return red * full // most, green * full // most, blue * full // most


MAP: List[Colour] = [colour_of(index) for index in range(256)]
PIXELS = [bytes((blue, green, red)) for red, green, blue in MAP]  # as an r8g8b8 pixel has them


@lru_cache(maxsize=4096)
def nearest(red: int, green: int, blue: int) -> int:
    """The index of the nearest colour, of the highest four bits of each; the lowest index where several are as near."""
    wanted = (red >> 4) * 17, (green >> 4) * 17, (blue >> 4) * 17

    def far(index: int) -> int:
        return sum((one - other) ** 2 for one, other in zip(MAP[index], wanted))

    return min(range(256), key=far)


def widened(indices: bytes) -> bytes:
    """The r8g8b8 pixels of indices."""
    return b"".join(PIXELS[index] for index in indices)


def narrowed(pixels: bytes) -> bytes:
    """The indices of r8g8b8 pixels: exact where each is a colour of the map."""
    exact = EXACT
    found = bytearray(len(pixels) // 3)
    for at in range(len(found)):
        pixel = pixels[3 * at : 3 * at + 3]
        index = exact.get(pixel)
        found[at] = nearest(pixel[2], pixel[1], pixel[0]) if index is None else index
    return bytes(found)


EXACT = {pixel: index for index, pixel in reversed(list(enumerate(PIXELS)))}


def mapped(word: int) -> int:
    """A colour word whose red, green and blue are the nearest of the map."""
    red, green, blue = MAP[nearest(word >> 24 & 255, word >> 16 & 255, word >> 8 & 255)]
    return red << 24 | green << 16 | blue << 8 | word & 255
