"""Which points a polygon has, line by line, as libmemdraw works it out: the same points, also where its arithmetic is
not the finest.

A polygon is scanned by rows and, where it is to have no gaps, by columns too. Coordinates are numbers with some bits
behind the point.
"""

from collections import deque
from dataclasses import dataclass
from typing import Iterator, List, Tuple

Point = Tuple[int, int]
Rectangle = Tuple[int, int, int, int]
Run = Tuple[int, int, int, int]  # the left, the upper, the right and the lower edge of points that are set


@dataclass
class Edge:
    """An edge of a polygon, from its end with the lower coordinate of the scan on. `at` is where the scan meets it,
    with a fraction of `error` / `length`; `turn` is the direction in which it was drawn."""

    start: Point
    end: Point
    turn: int = 1
    slope: int = 0
    length: int = 0
    step: int = 0
    step_error: int = 0
    at: int = 0
    error: int = 0

    def aim(self, axis: int, bits: int) -> bool:
        """Makes it ready for a scan along an axis, 1 for rows; False where it lies along them."""
        if self.start[axis] == self.end[axis]:
            return False
        if self.start[axis] > self.end[axis]:
            self.start, self.end, self.turn = self.end, self.start, -self.turn
        other = 1 - axis
        self.slope, self.length = self.end[other] - self.start[other], self.end[axis] - self.start[axis]
        whole, rest = divmod(self.slope, self.length)
        more, self.step_error = divmod(rest << bits, self.length)
        self.step = (whole << bits) + more
        return True

    def enter(self, axis: int, place: int) -> None:
        """Where the scan meets it first. The division cuts towards zero, as libmemdraw's does, and the fraction is
        never negative."""
        product = (place - self.start[axis]) * self.slope
        quotient = abs(product) // self.length
        self.at = self.start[1 - axis] + (quotient if product >= 0 else -quotient)
        self.error = product % self.length

    def go_on(self) -> None:
        """Where the next line of the scan meets it."""
        self.at += self.step
        self.error += self.step_error
        if self.error >= self.length:
            self.at += 1
            self.error -= self.length


@dataclass(frozen=True)
class Scan:
    """A scan of edges along an axis: the bits behind the point, the winding numbers that are inside, the clip
    rectangle, whether runs without a point get one, and whether only those do."""

    axis: int
    bits: int
    wind: int
    clip: Rectangle
    is_fine: bool
    is_mending: bool = False

    def runs(self, edges: List[Edge]) -> Iterator[Tuple[int, int, int]]:
        """The runs of points: the line, and the first and the last place behind it."""
        axis, half = self.axis, 1 << (self.bits - 1)
        aimed = [edge for edge in edges if edge.aim(axis, self.bits)]
        waiting = deque(sorted(aimed, key=lambda edge: edge.start[axis]))
        if not waiting:
            return
        line = (max(waiting[0].start[axis], self.clip[axis] << self.bits) + half) >> self.bits
        met: List[Edge] = []
        while line < self.clip[axis + 2]:
            place = (line << self.bits) + half
            met = [edge for edge in met if edge.end[axis] >= place]
            for edge in met:
                edge.go_on()
            while waiting and waiting[0].start[axis] < place:
                edge = waiting.popleft()
                if edge.end[axis] >= place:
                    edge.enter(axis, place)
                    met.append(edge)
            if not met:
                if not waiting:
                    return
                line = (waiting[0].start[axis] + half) >> self.bits
                continue
            met.sort(key=lambda edge: edge.at)
            runs, is_closed = self.of_line(line, met)
            yield from runs
            if not is_closed:
                return
            line += 1

    def of_line(self, line: int, met: List[Edge]) -> Tuple[List[Tuple[int, int, int]], bool]:
        """The runs of a line of the scan, and whether the edges close each of them; if not, the scan ends."""
        found: List[Tuple[int, int, int]] = []
        half, left, right = 1 << (self.bits - 1), self.clip[1 - self.axis], self.clip[3 - self.axis]
        index = 0
        while index < len(met):
            first = met[index]
            begin = (first.at + half) >> self.bits
            if begin >= right:
                break
            winding = first.turn
            while True:
                index += 1
                if index == len(met):
                    return found, False
                winding += met[index].turn
                if winding & self.wind == 0:
                    break
            last = met[index]
            end = min((last.at + half) >> self.bits, right)
            begin = max(begin, left)
            index += 1
            if end <= left:
                continue
            if begin == end and self.is_fine:
                begin = self.middle(first, last)
                found.append((line, begin, begin + 1))
            elif begin < end and not self.is_mending:
                found.append((line, begin, end))
        return found, True

    def middle(self, first: Edge, last: Edge) -> int:
        """The point between two edges that have none between them."""
        is_more = first.error * last.length + last.error * first.length > last.length * first.length
        return (first.at + is_more + last.at) >> (self.bits + 1)


def filled(points: List[Point], wind: int, clip: Rectangle, bits: int = 0, is_fine: bool = False) -> Iterator[Run]:
    """The points of a polygon, as runs that may lie over each other. Its coordinates have so many bits behind the
    point."""
    scale, used = (0, bits) if bits else (1, 1)
    corners = [(x << scale, y << scale) for x, y in points]
    edges = [Edge(corners[index - 1], corner) for index, corner in enumerate(corners)]
    for y, left, right in Scan(1, used, wind, clip, is_fine).runs(edges):
        yield left, y, right, y + 1
    if is_fine:
        for x, upper, lower in Scan(0, used, wind, clip, True, True).runs(edges):
            yield x, upper, x + 1, lower
