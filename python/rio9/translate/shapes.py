"""Lines, ellipses, arcs and polygons of draw(3) as pieces: rectangles, and masks of one bit, each with where its source
lies. They are those that libmemdraw of Plan 9's fourth edition draws, one after the other.
"""

from dataclasses import dataclass
from typing import Iterable, List, Sequence, Tuple, Union

from rio9.translate.ellipses import Brush, Ellipse
from rio9.translate.polygons import Point, Rectangle, Run, filled
from rio9.translate.trigonometry import SCALE, SCALE_BITS, of_angle, of_slope

SQUARE, DISC, ARROW = 0, 1, 2  # how a line ends
END_KIND = 0x1F
ALL = ~0  # the winding numbers that are inside, where all but 0 are
CORNERS = ((1, 1), (-1, 1), (-1, -1), (1, -1))
SETS_WHITE = 8  # the bit of operators by which white drawn on black is white


class Bitmap:
    """A mask of one bit: its rectangle, and for each of its rows a number whose lowest bit is its last point."""

    def __init__(self, r: Rectangle) -> None:
        self.r, self.width = r, max(r[2] - r[0], 0)
        self.rows = [0] * max(r[3] - r[1], 0)

    def fill(self, run: Run) -> None:
        """Sets the points of a rectangle."""
        left, right = max(run[0], self.r[0]), min(run[2], self.r[2])
        if left >= right:
            return
        bits = ((1 << (right - left)) - 1) << (self.r[2] - right)
        for y in range(max(run[1], self.r[1]) - self.r[1], min(run[3], self.r[3]) - self.r[1]):
            self.rows[y] |= bits

    def runs(self) -> Iterable[Run]:
        """Its points, as runs of a row."""
        for y, row in enumerate(self.rows, self.r[1]):
            digits, end = f"{row:0{self.width}b}" if row else "", 0
            while True:
                begin = digits.find("1", end)
                if begin < 0:
                    break
                end = digits.find("0", begin)
                end = self.width if end < 0 else end
                yield self.r[0] + begin, y, self.r[0] + end, y + 1


@dataclass(frozen=True)
class Box:
    """A rectangle that is drawn whole. `shift` is what is added to a point for its place in the source."""

    r: Run
    shift: Point


@dataclass(frozen=True)
class Stamp:
    """A mask that is laid where its rectangle, moved by `place`, is."""

    mask: Bitmap
    place: Point
    shift: Point

    def r(self) -> Rectangle:
        """The rectangle that it covers."""
        return moved(self.mask.r, self.place)


Piece = Union[Box, Stamp]


@dataclass(frozen=True)
class Source:
    """What of a source bounds a line: its clip rectangle, and its rectangle where it does not repeat."""

    clip: Rectangle
    r: Rectangle
    repeats: bool


@dataclass(frozen=True)
class Shape:
    """Pieces in the order in which they are drawn, and the rectangle to which they are cut."""

    pieces: List[Piece]
    clip: Rectangle


def moved(r: Rectangle, by: Point) -> Rectangle:
    """A rectangle elsewhere."""
    return r[0] + by[0], r[1] + by[1], r[2] + by[0], r[3] + by[1]


def common(one: Rectangle, other: Rectangle) -> Rectangle:
    """What two rectangles have in common; one without points where that is nothing."""
    left, upper = max(one[0], other[0]), max(one[1], other[1])
    return left, upper, max(min(one[2], other[2]), left), max(min(one[3], other[3]), upper)


def is_empty(r: Rectangle) -> bool:
    """Whether a rectangle has no points."""
    return r[0] >= r[2] or r[1] >= r[3]


def difference(one: Point, other: Point) -> Point:
    """What leads from one point to another."""
    return one[0] - other[0], one[1] - other[1]


def disc(radius: int) -> Bitmap:
    """The mask of a disc, about (0, 0)."""
    mask = Bitmap((-radius, -radius, radius + 1, radius + 1))
    for run in Ellipse(radius, radius, -1).rows():
        mask.fill(run)
    return mask


def ellipse(center: Point, form: Ellipse, at: Point, clip: Rectangle, op: int = SETS_WHITE) -> Shape:
    """An ellipse. `at` is the source's point at the center; the brush is itself made with the operator."""
    shift, brush = difference(at, center), None
    pieces: List[Piece] = []
    for part in form.parts():
        if not isinstance(part, Brush):
            pieces.append(Box(moved(part, center), shift))
            continue
        if brush is None:
            brush = disc(form.thick)
            if not op & SETS_WHITE:
                brush.rows = [0] * len(brush.rows)
        pieces.append(Stamp(brush, (center[0] + part.x, center[1] + part.y), shift))
    return Shape(pieces, clip)


@dataclass(frozen=True)
class Angles:
    """The angles of an arc in degrees: where it begins, and how far it goes, against the clock."""

    begin: int
    turn: int


def wedge(form: Ellipse, angles: Angles) -> List[Point]:
    """The corners of what an arc is cut out with, beside the ellipse. The angles go with the clock here, and
    forwards."""
    reach, turn = max(form.a, form.b) + max(form.thick, 0) + 1, angles.turn
    far = (reach + SCALE - 1) >> SCALE_BITS
    reach = far << SCALE_BITS
    end = angles.begin + turn
    begin, end = angles.begin % 360, end if end >= 0 else end % 360
    corner, last = begin // 90 & 3, end // 90 & 3
    cosine, sine = of_angle(begin)
    points = [(0, 0), (cosine * far, sine * far)]
    while True:
        points.append((CORNERS[corner][0] * reach, CORNERS[corner][1] * reach))
        if corner == last and turn < 180:
            break
        corner = (corner + 1) & 3
        turn -= 90
    cosine, sine = of_angle(end)
    return points + [(cosine * far, sine * far)]


def arc(center: Point, form: Ellipse, at: Point, angles: Angles, clip: Rectangle, op: int) -> Shape:
    """An arc of an ellipse."""
    begin, turn = -angles.begin, -angles.turn
    if turn < 0:
        begin, turn = begin + turn, -turn
    if turn >= 360:
        return ellipse(center, form, at, clip, op)
    thick = max(form.thick, 0)
    r = (-form.a - thick, -form.b - thick, form.a + thick + 1, form.b + thick + 1)
    cut, figure = Bitmap(r), Bitmap(r)
    for run in filled(wedge(form, Angles(begin, turn)), ALL, r):
        cut.fill(run)
    draw_into(figure, ellipse((0, 0), form, (0, 0), r).pieces)
    figure.rows = [one & other for one, other in zip(figure.rows, cut.rows)]
    return Shape([Stamp(figure, center, difference(at, center))], clip)


def draw_into(mask: Bitmap, pieces: Sequence[Piece]) -> None:
    """Draws pieces into a mask by the operator S: a stamp also clears what it does not set."""
    for piece in pieces:
        if isinstance(piece, Box):
            mask.fill(piece.r)
            continue
        left, upper, right, lower = common(piece.r(), mask.r)
        if left >= right:
            continue
        hole = ~(((1 << (right - left)) - 1) << (mask.r[2] - right))
        for y in range(upper, lower):
            mask.rows[y - mask.r[1]] &= hole
        for run in piece.mask.runs():
            mask.fill(moved(run, piece.place))


def polygon(points: List[Point], wind: int, at: Point, clip: Rectangle) -> Shape:
    """A filled polygon. `at` is the source's point at the first corner."""
    shift = difference(at, points[0])
    return Shape([Box(run, shift) for run in filled(points, wind, clip)], clip)


@dataclass(frozen=True)
class Stroke:
    """How a line is drawn: its ends, and half its thickness."""

    begin: int
    end: int
    radius: int


def arrow(tip: Point, end: int, sine: int, cosine: int, radius: int) -> List[Point]:
    """The corners of an arrow's head, in parts of a point. Divisions cut towards zero."""
    along, barb, out = (8, 10, 3) if end == ARROW else ((end >> 5) & 0x1FF, (end >> 14) & 0x1FF, (end >> 23) & 0x1FF)
    shaft, wide = 2 * radius + 1, 2 * radius + 2 * out + 1
    x, y = tip
    return [
        (x + halved(shaft * sine) - along * cosine, y - (halved(shaft * cosine) + along * sine)),
        (x + halved(wide * sine) - barb * cosine, y - (halved(wide * cosine) + barb * sine)),
        (x, y),
        (x + halved(-wide * sine) - barb * cosine, y - (halved(-wide * cosine) + barb * sine)),
        (x + halved(-shaft * sine) - along * cosine, y + (halved(shaft * cosine) - along * sine)),
    ]


def halved(number: int) -> int:
    """Half a number, cut towards zero."""
    return number // 2 if number >= 0 else -(-number // 2)


def line(ends: Tuple[Point, Point], stroke: Stroke, at: Point, source: Source, clip: Rectangle) -> Shape:
    """A line. `at` is the source's point at its first end."""
    (p0, p1), (end0, end1), radius = ends, (stroke.begin, stroke.end), stroke.radius
    shift = difference(at, p0)
    back = (-shift[0], -shift[1])
    clip = common(clip, moved(source.clip, back))
    if not source.repeats:
        clip = common(clip, moved(source.r, back))
    if is_empty(clip):
        return Shape([], clip)
    is_flat = abs(p1[0] - p0[0]) > abs(p1[1] - p0[1])
    if (is_flat and p0[0] > p1[0]) or (not is_flat and p0[1] > p1[1]):
        p0, p1, end0, end1 = p1, p0, end1, end0
    if (p0[0] == p1[0] or p0[1] == p1[1]) and end0 & END_KIND == SQUARE and end1 & END_KIND == SQUARE:
        if p0[0] == p1[0]:
            r = (p0[0] - radius, p0[1], p1[0] + radius + 1, p1[1])
        else:
            r = (p0[0], p0[1] - radius, p1[0], p1[1] + radius + 1)
        return Shape([Box(r, difference(at, (r[0], r[1])))], clip)
    return Shape(slanted((p0, p1), Stroke(end0, end1, radius), shift, clip), clip)


def slanted(ends: Tuple[Point, Point], stroke: Stroke, shift: Point, clip: Rectangle) -> List[Piece]:
    """A line as a polygon, with discs and heads of arrows at its ends."""
    (p0, p1), radius = ends, stroke.radius
    cosine, sine = of_slope(p1[0] - p0[0], p1[1] - p0[1])
    x, y = halved(sine * (2 * radius + 1)), halved(cosine * (2 * radius + 1))
    half = SCALE // 2
    pieces: List[Piece] = []
    corners: List[Point] = []
    for point, end, way in ((p0, stroke.begin, -1), (p1, stroke.end, 1)):
        tip = (SCALE * point[0] + half + way * halved(cosine), SCALE * point[1] + half + way * halved(sine))
        if end & END_KIND == ARROW:
            head = arrow(tip, end, way * sine, way * cosine, radius)
            first = corners[0] if corners else head[0]
            beside = tuple(((first[axis] + shift[axis] * SCALE) - head[0][axis]) >> SCALE_BITS for axis in (0, 1))
            pieces += [Box(run, (beside[0], beside[1])) for run in filled(head, ALL, clip, SCALE_BITS, True)]
            corners += [head[0], head[4]]
            continue
        if end & END_KIND == DISC:
            pieces.append(Stamp(disc(radius), point, shift))
        corners += [(tip[0] + way * x, tip[1] - way * y), (tip[0] - way * x, tip[1] + way * y)]
    return pieces + [Box(run, shift) for run in filled(corners, ALL, clip, SCALE_BITS)]


def lines(points: List[Point], stroke: Stroke, at: Point, source: Source, clip: Rectangle) -> List[Shape]:
    """Lines from point to point, with discs where they meet."""
    shift, last = difference(at, points[0]), len(points) - 2
    found = []
    for index, (p0, p1) in enumerate(zip(points, points[1:])):
        part = Stroke(stroke.begin if index == 0 else DISC, stroke.end if index == last else DISC, stroke.radius)
        found.append(line((p0, p1), part, (p0[0] + shift[0], p0[1] + shift[1]), source, clip))
    return found
