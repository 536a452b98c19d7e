"""Sines and cosines in parts of 1,024, as libdraw has them in tables: of whole degrees, and of slopes of hundredths
with what lies between."""

import math
from typing import List, Tuple

SCALE_BITS = 10
SCALE = 1 << SCALE_BITS


def rounded(number: float) -> int:
    """A part of 1, in parts of 1,024."""
    return int(number * SCALE + 0.5)


SINES = [rounded(math.sin(math.radians(degree))) for degree in range(91)]
SLOPES = range(102)  # in hundredths
SLOPE_SINES = [rounded(math.sin(math.atan(slope / 100))) for slope in SLOPES]
SLOPE_COSINES = [rounded(math.cos(math.atan(slope / 100))) for slope in SLOPES]


def of_angle(degrees: int) -> Tuple[int, int]:
    """The cosine and the sine of an angle."""
    degrees %= 360
    sign = -1 if degrees >= 180 else 1
    degrees %= 180
    if degrees < 90:
        return sign * SINES[90 - degrees], sign * SINES[degrees]
    return -sign * SINES[degrees - 90], sign * SINES[180 - degrees]


def between(table: List[int], thousandths: int) -> int:
    """What a table of hundredths has for thousandths; the part between is cut towards zero."""
    index, rest = divmod(thousandths, 10)
    more = (table[index + 1] - table[index]) * rest
    return table[index] + (more // 10 if more >= 0 else -(-more // 10))


def of_slope(x: int, y: int) -> Tuple[int, int]:
    """The cosine and the sine of the angle to a point."""
    if x == 0:
        return 0, SCALE if y >= 0 else -SCALE
    across, down = abs(x), abs(y)
    if down > across:
        slope = 1000 * across // down
        cosine, sine = between(SLOPE_SINES, slope), between(SLOPE_COSINES, slope)
    else:
        slope = 1000 * down // across
        cosine, sine = between(SLOPE_COSINES, slope), between(SLOPE_SINES, slope)
    return (-cosine if x < 0 else cosine), (-sine if y < 0 else sine)
