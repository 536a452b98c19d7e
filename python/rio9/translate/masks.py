"""Parts by which a shape is drawn: rectangles through a full mask, or masks of one bit, whichever takes fewer bytes."""

from dataclasses import dataclass
from itertools import groupby
from typing import Dict, Iterator, List, Tuple, Union

from rio9.translate.polygons import Point, Rectangle, Run
from rio9.translate.shapes import Box, Piece, Shape, common, is_empty, moved

BYTES_OF_A_DRAWING = 47  # of a rectangle: `d` and an operator
BYTES_OF_A_MASK = 51 + 21 + 47 + 5  # `b`, the head of `y`, `d` and an operator, `f`


@dataclass(frozen=True)
class Rectangles:
    """Rectangles, and what leads from a point to that of the source."""

    rectangles: List[Rectangle]
    shift: Point


@dataclass(frozen=True)
class Band:
    """Some rows of a mask, and where they are drawn."""

    rows: bytes
    width: int
    height: int
    left: int
    upper: int
    shift: Point

    def r(self) -> Rectangle:
        """The rectangle that it is drawn on."""
        return self.left, self.upper, self.left + self.width, self.upper + self.height


@dataclass(frozen=True)
class Mask:
    """A mask of one bit: its rectangle, its rows as numbers whose lowest bit is the last point, and what leads to the
    source."""

    area: Rectangle
    rows: List[int]
    shift: Point

    def row_bytes(self) -> int:
        """The bytes of a row."""
        return (self.area[2] - self.area[0] + 7) // 8

    def bands(self, most: int) -> Iterator[Band]:
        """Bands of at most so many bytes."""
        width, row = self.area[2] - self.area[0], self.row_bytes()
        at_once = max(most // row, 1)
        for y in range(0, len(self.rows), at_once):
            part = self.rows[y : y + at_once]
            data = b"".join((number << (8 * row - width)).to_bytes(row, "big") for number in part)
            yield Band(data, width, len(part), self.area[0], self.area[1] + y, self.shift)

    def rectangles(self) -> Iterator[Rectangle]:
        """Its points as rectangles: runs of a row, which go on where the next row has the same."""
        open_runs: Dict[Tuple[int, int], int] = {}
        before = 0
        for y, row in enumerate([*self.rows, 0], self.area[1]):
            if row == before:
                continue
            before = row
            found = set(self.runs_of(row))
            for run in [run for run in open_runs if run not in found]:
                yield run[0], open_runs.pop(run), run[1], y
            for run in found:
                open_runs.setdefault(run, y)

    def runs_of(self, row: int) -> Iterator[Tuple[int, int]]:
        """The runs of a row."""
        left, width = self.area[0], self.area[2] - self.area[0]
        digits, end = f"{row:0{width}b}", 0
        while True:
            begin = digits.find("1", end)
            if begin < 0:
                return
            end = digits.find("0", begin)
            end = width if end < 0 else end
            yield left + begin, left + end


Part = Union[Rectangles, Mask]


def parts_of(shape: Shape, keeps_around: bool, is_idempotent: bool) -> Iterator[Part]:
    """The parts of a shape in order. An operator that keeps what is around a mask draws all that has one source through
    one mask: a point that is drawn several times is in several, unless that changes nothing. By any other operator each
    piece is drawn by itself."""
    if not keeps_around:
        for piece in shape.pieces:
            yield from alone(piece, shape.clip)
        return
    for shift, pieces in groupby(shape.pieces, key=lambda piece: piece.shift):
        runs = [run for piece in pieces for run in runs_of(piece, shape.clip)]
        for layer in layers_of(runs)[: 1 if is_idempotent else None]:
            yield cheaper(Mask(box_of(runs), layer, shift))


def runs_of(piece: Piece, clip: Rectangle) -> Iterator[Run]:
    """The points of a piece, within a rectangle, as runs."""
    if isinstance(piece, Box):
        found = [piece.r]
    else:
        found = [moved(run, piece.place) for run in piece.mask.runs()]
    for run in found:
        cut = common(run, clip)
        if not is_empty(cut):
            yield cut


def alone(piece: Piece, clip: Rectangle) -> Iterator[Part]:
    """A piece by itself; of a mask also the points that are not set are drawn."""
    if isinstance(piece, Box):
        cut = common(piece.r, clip)
        if not is_empty(cut):
            yield Rectangles([cut], piece.shift)
        return
    r = piece.r()
    cut = common(r, clip)
    if is_empty(cut):
        return
    kept = (1 << (cut[2] - cut[0])) - 1
    rows = [row >> (r[2] - cut[2]) & kept for row in piece.mask.rows[cut[1] - r[1] : cut[3] - r[1]]]
    yield Mask(cut, rows, piece.shift)


def box_of(runs: List[Run]) -> Rectangle:
    """The least rectangle that has all points of runs."""
    left, upper, right, lower = zip(*runs)
    return min(left), min(upper), max(right), max(lower)


def layers_of(runs: List[Run]) -> List[List[int]]:
    """Rows of masks: the first has the points of all runs, the next those that are in two, and so on."""
    if not runs:
        return []
    left, upper, right, lower = box_of(runs)
    layers: List[List[int]] = [[0] * (lower - upper)]
    for run in runs:
        bits = ((1 << (run[2] - run[0])) - 1) << (right - run[2])
        for y in range(run[1] - upper, run[3] - upper):
            add(layers, y, bits)
    return layers


def add(layers: List[List[int]], y: int, bits: int) -> None:
    """Adds points to a row: those that it has already go to the next layer."""
    for layer in layers:
        bits, layer[y] = layer[y] & bits, layer[y] | bits
        if not bits:
            return
    layers.append([0] * len(layers[0]))
    layers[-1][y] = bits


def cheaper(mask: Mask) -> Part:
    """A mask, or rectangles where they take fewer bytes."""
    of_mask = BYTES_OF_A_MASK + mask.row_bytes() * len(mask.rows)
    found: List[Rectangle] = []
    for r in mask.rectangles():
        found.append(r)
        if BYTES_OF_A_DRAWING * len(found) > of_mask:
            return mask
    return Rectangles(found, mask.shift)

