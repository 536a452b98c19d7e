"""Which points an ellipse has, as libmemdraw works it out: filled, or brushed along its edge."""

from dataclasses import dataclass
from typing import Iterator, List, Union

from rio9.translate.polygons import Run


@dataclass(frozen=True)
class Brush:
    """The brush, laid with its middle at a point."""

    x: int
    y: int


class Edge:
    """Steps down the right edge of an ellipse of half axes a and b, row by row from its top. `error` is how far the
    point is from it."""

    def __init__(self, a: int, b: int) -> None:
        self.a, self.x = a, 0
        self.a2, self.b2 = a * a, b * b
        self.b2x, self.a2y = 0, self.a2 * b
        self.beside = -((self.a2 >> 2) + (a & 1) + self.b2)
        self.below = -((self.b2 >> 2) + (b & 1))
        self.error = -self.a2y
        self.right, self.down = 0, self.error << 1

    def go_right(self) -> None:
        """The next point of the row."""
        self.right += self.b2 << 1
        self.error += self.right
        self.b2x += self.b2
        self.x += 1

    def step(self) -> int:
        """The last point of the next row, counted from the middle."""
        while self.x < self.a:
            if self.error + self.b2x <= self.beside or self.error + self.a2y <= self.below:
                self.go_right()
                continue
            self.down += self.a2 << 1
            self.error += self.down
            self.a2y -= self.a2
            if self.error - self.a2y <= self.below:
                self.go_right()
                return self.x - 1
            break
        return self.x


@dataclass(frozen=True)
class Ellipse:
    """An ellipse about (0, 0): its half axes, and half its thickness, -1 where it is filled."""

    a: int
    b: int
    thick: int

    def is_brushed(self) -> bool:
        """Whether it is thick and flat, and so is brushed with a disc."""
        a, b, much = self.a, self.b, 2 * self.thick * (self.a - self.b)
        return (b < a and much > b * b) or (a < b and -much > a * a)

    def parts(self) -> Iterator[Union[Run, Brush]]:
        """Rectangles and middles of the brush, in the order in which they are drawn."""
        return self.brushed() if self.is_brushed() else self.rows()

    def rows(self) -> Iterator[Run]:
        """Its rows: those between an outer and an inner edge."""
        thick = max(self.thick, 0)
        inner_height = self.b - thick if self.thick >= 0 else -1
        outer = Edge(self.a + thick, self.b + thick)
        inner = Edge(self.a - thick, inner_height) if thick else None
        begin = 0
        for y in range(self.b + thick, -1, -1):
            end = outer.step()
            if y > inner_height:
                yield from both_halves(-end, end, y)
                continue
            if inner is not None:
                begin = inner.step()
                if y == inner_height:
                    begin = 0
            elif begin > end:
                begin = end
            yield from both_halves(begin, end, y)
            yield from both_halves(-end, -begin, y)
            begin = end + 1

    def brushed(self) -> Iterator[Union[Run, Brush]]:
        """The strokes of its edge, in four quarters."""
        edge = Edge(self.a, self.b)
        y = old_y = self.b
        old_x = 0
        following = x = edge.step()
        while True:
            while following == x:
                y -= 1
                if y < 0:
                    break
                following = edge.step()
            y += 1
            for upper, lower in ((-old_y, -y), (y, old_y)):
                yield from self.stroke(-x, upper, -old_x, lower)
                yield from self.stroke(old_x, upper, x, lower)
            old_x, x = x + 1, following
            y -= 1
            old_y = y
            if old_y <= 0:
                return

    def stroke(self, left: int, upper: int, right: int, lower: int) -> Iterator[Union[Run, Brush]]:
        """A stroke along a row or a column, with the brush at both ends."""
        thick = self.thick
        if right > left + 1:
            yield left + 1, upper - thick, right, lower + thick + 1
        elif lower > upper + 1:
            yield left - thick, upper + 1, right + thick + 1, lower
        yield Brush(left, upper)
        if (left, upper) != (right, lower):
            yield Brush(right, lower)


def both_halves(left: int, right: int, y: int) -> List[Run]:
    """A row of the lower half and its picture in the upper one, with both ends."""
    rows = [(left, y, right + 1, y + 1)]
    return rows if y == 0 else rows + [(left, -y, right + 1, 1 - y)]
