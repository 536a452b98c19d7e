"""Translates the draw messages of one write (docs/FORMATS.md) into those that a rio9 server has. Each write is cut into
messages by their lengths. What needs no translation stays as it is, and what cannot be translated is passed on, so that
the server refuses it.
"""

import struct
from dataclasses import dataclass, field, replace
from typing import Awaitable, Callable, Dict, List, Optional, Protocol, Set, Tuple

from rio9 import formats
from rio9.translate import colours, masks, packed, shapes
from rio9.translate.ellipses import Ellipse
from rio9.translate.polygons import Point, Rectangle

SOVERD = 11
KEEPS_AROUND = 1  # the bit of operators that leave what the mask does not have
IDEMPOTENT = frozenset((0, 5, 10, SOVERD))  # what done twice by a source without alpha is as done once
CMAP8, R8G8B8, K1 = 0x58, 0x081828, 0x31
ALPHA = 4  # the kind of a channel
WHITE = 0xFFFFFFFF
EVERYWHERE = (-(2**29), -(2**29), 2**29, 2**29)
FIRST_ID = 0xF0F00000  # of the images that the translator makes; it goes up from there
MOST_OF_AN_R = 65536
# What is larger is passed on: half axes, thickness, the sides of an image that is drawn on, and what a brush goes over.
MOST_REACH, MOST_SIDE, MOST_BRUSHED = 4096, 8192, 10**6
HEADS_OF_A_BAND = 51 + 21 + 47 + 5  # `b`, the head of `y`, an operator and `d`, `f`
IN_USE = "image id in use"

# The bytes of messages (docs/FORMATS.md).
FIXED = {"A": 14, "b": 51, "c": 22, "d": 45, "D": 2, "f": 5, "F": 5, "i": 10, "l": 37, "o": 21, "O": 2}
FIXED.update({"r": 21, "S": 9, "v": 1})
# The bytes before what is counted, the place and the bytes of the count, and the bytes of each.
COUNTED = {"N": (7, 6, 1, 1), "n": (6, 5, 1, 1), "s": (47, 45, 2, 2), "x": (59, 45, 2, 2), "t": (4, 2, 2, 4)}
PASS = frozenset("AdDFilOsStvx")
HEADS = {"y": 21, "Y": 21, "L": 45, "e": 45, "E": 45, "p": 31, "P": 31}


class Refused(Exception):
    """A refusal, which the client is to get. It tells the text."""


class Unreachable(Exception):
    """The server cannot be asked about an image, since the client has no `ctl` open."""


@dataclass(frozen=True)
class Image:
    """What `ctl` tells of an image."""

    channels: int
    repeats: bool
    r: Rectangle
    clip: Rectangle

    def row_bytes(self, r: Rectangle) -> int:
        """The bytes of a row of a rectangle."""
        return int(formats.row_bytes(formats.depth(self.channels), r[0], r[2]))

    def has_alpha(self) -> bool:
        """Whether one of its channels is alpha."""
        return any(channel >> 4 == ALPHA for channel in self.channels.to_bytes(4, "little"))


@dataclass
class Connection:
    """What is known of a connection of the draw device: the operator of the next drawing, None where only the server
    knows it; images; ids whose image others may change, and those of windows; ids of images that the client thinks have
    a map of colours; the id that `ctl` describes; pixels that were read for the client and that it has not taken; and
    the translator's own image of one white point."""

    number: int
    operator: Optional[int] = SOVERD
    images: Dict[int, Image] = field(default_factory=dict)
    shared: Set[int] = field(default_factory=lambda: {0})
    windows: Set[int] = field(default_factory=set)
    mapped: Set[int] = field(default_factory=set)
    described: int = 0
    held: Optional[bytes] = None
    white: Optional[int] = None
    next_id: int = FIRST_ID

    def new_id(self) -> int:
        """An id of the translator's own."""
        self.next_id = FIRST_ID + (self.next_id - FIRST_ID + 1) % 0x10000
        return self.next_id

    def forget(self) -> None:
        """Nothing is known for sure behind a refusal."""
        self.images.clear()
        self.operator = None


class Device(Protocol):
    """The server's draw device, as a session reaches it."""

    async def write(self, data: bytes) -> None:
        """Writes messages, or raises Refused."""

    async def read(self, count: int) -> bytes:
        """The pixels that the last `r` read."""

    async def describe(self, connection: Connection, image: int) -> Image:
        """What `ctl` tells of an image."""


@dataclass
class Work:
    """One write of a client on its way: the place up to which it is done, and what has not been sent yet."""

    connection: Connection
    device: Device
    data: bytes
    most: int  # bytes of a write
    at: int = 0
    pending: bytearray = field(default_factory=bytearray)

    async def run(self) -> None:
        """Does it, or raises Refused."""
        for image in self.connection.shared:
            self.connection.images.pop(image, None)
        try:
            while self.at < len(self.data):
                await self.pass_on()
                if self.at == len(self.data):
                    break
                step = await self.step(chr(self.data[self.at]))
                if step is None:
                    await self.add(self.data[self.at :])
                    break
                self.at += step
            await self.flush()
        except Refused:
            self.connection.forget()
            raise

    async def pass_on(self) -> None:
        """Takes messages that pass as they are, as many as come. Drawing brings the operator back to SoverD."""
        begin = self.at
        while self.at < len(self.data):
            letter = chr(self.data[self.at])
            length = self.length(letter) if letter in PASS else None
            if length is None or self.at + length > len(self.data):
                break
            if letter in "dsx":
                self.connection.operator = SOVERD
            elif letter == "O":
                self.connection.operator = self.data[self.at + 1]
            self.at += length
        if self.at > begin:
            await self.add(self.data[begin : self.at])

    async def step(self, letter: str) -> Optional[int]:
        """Does the next message, and gives its bytes; None where what is left passes as it is."""
        length = self.length(letter)
        if length is None or self.at + length > len(self.data):
            if letter in SHAPES and length is not None:
                await self.refuse("short draw message")
            return None
        message = self.data[self.at : self.at + length]
        if letter in SHAPES:
            return await SHAPES[letter](self, message)
        return await SPECIAL[letter](self, message)

    def length(self, letter: str) -> Optional[int]:
        """The bytes of the next message; of what has rows or points behind it, those before them."""
        if letter in COUNTED:
            before, place, size, each = COUNTED[letter]
            place += self.at
            return before + each * int.from_bytes(self.data[place : place + size], "little")
        return FIXED.get(letter, HEADS.get(letter))

    async def add(self, message: bytes) -> None:
        """Puts a message behind those that are to be sent."""
        if self.pending and len(self.pending) + len(message) > self.most:
            await self.flush()
        self.pending += message

    async def flush(self) -> None:
        """Sends what is to be sent."""
        if self.pending:
            data = bytes(self.pending)
            self.pending.clear()
            await self.device.write(data)

    async def alone(self, message: bytes) -> None:
        """Sends a message by itself, so that a refusal is known to be its own."""
        await self.flush()
        await self.device.write(message)

    async def refuse(self, text: str) -> None:
        """Refuses what comes next, after what stands before it."""
        await self.flush()
        raise Refused(text)

    async def image(self, number: int) -> Optional[Image]:
        """What is known of an image; None where the server cannot be asked. Raises Refused where it is not there."""
        if number not in self.connection.images:
            await self.flush()
            try:
                self.connection.images[number] = await self.device.describe(self.connection, number)
            except Unreachable:
                return None
        return self.connection.images[number]

    # What makes and changes images.

    async def made(self, message: bytes) -> int:
        """`b`: also makes an image with a map of colours one without."""
        number, screen, _, channels, repeats = struct.unpack_from("<IIBIB", message, 1)
        await self.give_way(number)
        self.connection.shared.discard(number)
        (self.connection.windows.add if screen else self.connection.windows.discard)(number)
        self.connection.images[number] = Image(channels, bool(repeats), rectangle(message, 15), rectangle(message, 31))
        if channels != CMAP8 or screen:
            await self.add(message)
            return len(message)
        colour = struct.unpack_from("<I", message, 47)[0]
        self.connection.images[number] = replace(self.connection.images[number], channels=R8G8B8)
        channels, colour = R8G8B8, colours.mapped(colour)
        await self.alone(message[:10] + struct.pack("<I", channels) + message[14:47] + struct.pack("<I", colour))
        self.connection.mapped.add(number)
        return len(message)

    async def named(self, message: bytes) -> int:
        """`n`: what others may change is not kept in mind."""
        number = word(message, 1)
        await self.give_way(number)
        await self.add(message)
        self.connection.shared.add(number)
        self.connection.images.pop(number, None)
        self.connection.described = number
        return len(message)

    async def tied(self, message: bytes) -> int:
        """`N`."""
        self.connection.shared.add(word(message, 1))
        await self.add(message)
        return len(message)

    async def freed(self, message: bytes) -> int:
        """`f`."""
        number = word(message, 1)
        self.connection.images.pop(number, None)
        if number in self.connection.mapped:
            await self.alone(message)
            self.connection.mapped.discard(number)
        else:
            await self.add(message)
        return len(message)

    async def clipped(self, message: bytes) -> int:
        """`c`."""
        known = self.connection.images.get(word(message, 1))
        if known is not None:
            changed = replace(known, repeats=bool(message[5]), clip=rectangle(message, 6))
            self.connection.images[word(message, 1)] = changed
        await self.add(message)
        return len(message)

    async def placed(self, message: bytes) -> int:
        """`o`."""
        self.connection.images.pop(word(message, 1), None)
        await self.add(message)
        return len(message)

    async def give_way(self, number: int) -> None:
        """Frees the translator's own image where a client takes its id; it gets another one when it is needed."""
        if number == self.connection.white:
            await self.alone(b"f" + struct.pack("<I", number))
            self.connection.white = None

    # Pixels.

    async def loaded(self, message: bytes) -> Optional[int]:
        """`y` and `Y`: writes rows, packed or not."""
        number, r = word(message, 1), rectangle(message, 5)
        image = await self.image(number)
        if image is None:
            return None
        if shapes.is_empty(r) or shapes.common(r, image.r) != r:
            await self.alone(b"y" + message[1:])  # which is refused
            return len(message)
        is_mapped = number in self.connection.mapped
        row, count = (r[2] - r[0] if is_mapped else image.row_bytes(r)), r[3] - r[1]
        begin = self.at + len(message)
        if message[:1] == b"Y":
            try:
                rows, end = packed.unpack(self.data, begin, row, count)
            except packed.BadPacking:
                await self.refuse("bad writeimage call")
        else:
            rows, end = self.data[begin : begin + row * count], begin + row * count
            if len(rows) < row * count:
                return None
        if is_mapped:
            rows, row = colours.widened(rows), 3 * row
        at_once = (self.most - len(message)) // row
        if at_once == 0:
            return None
        for y in range(0, count, at_once):
            part = (r[0], r[1] + y, r[2], min(r[1] + y + at_once, r[3]))
            await self.add(b"y" + struct.pack("<I4i", number, *part) + rows[row * y : row * (y + at_once)])
        return end - self.at

    async def fetched(self, message: bytes) -> int:
        """`r`: of an image with a map the pixels are read here, and kept for the client."""
        number, r = word(message, 1), rectangle(message, 5)
        self.connection.held = None
        row = 3 * (r[2] - r[0])
        if number not in self.connection.mapped or not 0 < row <= MOST_OF_AN_R:
            await self.add(message)
            return len(message)
        if row // 3 * (r[3] - r[1]) > MOST_OF_AN_R:
            await self.refuse("draw read too short")
        found, at_once = bytearray(), MOST_OF_AN_R // row
        for y in range(r[1], r[3], at_once):
            part = (r[0], y, r[2], min(y + at_once, r[3]))
            await self.alone(b"r" + struct.pack("<I4i", number, *part))
            found += colours.narrowed(await self.device.read(row * (part[3] - y)))
        if r[3] <= r[1]:
            await self.alone(message)  # which is refused
        self.connection.held = bytes(found)
        return len(message)

    # Lines, ellipses and polygons.

    async def both(self, dst: int, src: int) -> Optional[Tuple[Image, Image]]:
        """The image that is drawn on and the source."""
        target = await self.image(dst)
        source = await self.image(src)
        if target is None or source is None or max(target.r[2] - target.r[0], target.r[3] - target.r[1]) > MOST_SIDE:
            return None
        return target, source

    def scanned(self, number: int, image: Image) -> Rectangle:
        """To where lines are worked out: what Plan 9's device does at the clip rectangle of a window, it does also
        beside the window."""
        return near(image) if number in self.connection.windows else clip_of(image)

    async def line(self, message: bytes) -> Optional[int]:
        """`L`."""
        dst, *numbers, src, x, y = struct.unpack_from("<I7iI2i", message, 1)
        if numbers[6] < 0:
            await self.refuse("negative line width")
        images = await self.both(dst, src)
        if images is None or numbers[6] > MOST_REACH:
            return None
        stroke = shapes.Stroke(numbers[4], numbers[5], numbers[6])
        ends = (numbers[0], numbers[1]), (numbers[2], numbers[3])
        drawn = shapes.line(ends, stroke, (x, y), bounds(images[1]), self.scanned(dst, images[0]))
        await self.draw(target_of(dst, src, images), [drawn])
        return len(message)

    async def ellipse(self, message: bytes) -> Optional[int]:
        """`e` and `E`, also of arcs."""
        dst, src, *numbers = struct.unpack_from("<2I9i", message, 1)
        center, (a, b, thick), at = (numbers[0], numbers[1]), numbers[2:5], (numbers[5], numbers[6])
        if a < 0 or b < 0:
            await self.refuse("invalid ellipse semidiameter")
        if thick < 0:
            await self.refuse("negative ellipse thickness")
        images = await self.both(dst, src)
        if images is None or max(a, b, thick) > MOST_REACH:
            return None
        form = Ellipse(a, b, thick if message[:1] == b"e" else -1)
        if form.is_brushed() and (a + b) * thick > MOST_BRUSHED:
            return None
        clip, operator = clip_of(images[0]), self.operator()
        begin, turn = numbers[7:9]
        if begin < 0:  # the highest bit tells that there are angles
            begin = begin if begin & 1 << 30 else begin + 2**31
            drawn = shapes.arc(center, form, at, shapes.Angles(begin, turn), clip, operator)
        else:
            drawn = shapes.ellipse(center, form, at, clip, operator)
        await self.draw(target_of(dst, src, images), [drawn])
        return len(message)

    async def polygon(self, message: bytes) -> Optional[int]:
        """`p` and `P`."""
        dst, count, begin, end, radius, src, x, y = struct.unpack_from("<IH3iI2i", message, 1)
        if message[:1] == b"P":
            radius = 0
        if radius < 0:
            await self.refuse("negative polygon line width")
        images = await self.both(dst, src)
        if images is None or radius > MOST_REACH:
            return None
        points, stop = await self.points(self.at + len(message), count + 1)
        target = target_of(dst, src, images)
        if message[:1] == b"P":
            await self.draw(target, [shapes.polygon(points, begin, (x, y), near(images[0]))])
        else:
            stroke, clip = shapes.Stroke(begin, end, radius), self.scanned(dst, images[0])
            await self.draw(target, shapes.lines(points, stroke, (x, y), bounds(images[1]), clip))
        return stop - self.at

    async def points(self, at: int, count: int) -> Tuple[List[Point], int]:
        """So many points, each coordinate one byte, which is a difference, or three."""
        last, found = [0, 0], []
        for _ in range(count):
            for axis in (0, 1):
                piece = self.data[at : at + (3 if at < len(self.data) and self.data[at] & 0x80 else 1)]
                if not piece or len(piece) < (3 if piece[0] & 0x80 else 1):
                    await self.refuse("short draw message")
                at += len(piece)
                if len(piece) == 1:
                    last[axis] += piece[0] - (piece[0] << 1 & 0x80)
                else:
                    number = piece[0] & 0x7F | piece[1] << 7 | piece[2] << 15
                    last[axis] = number - (number << 1 & 1 << 23)
            found.append((last[0], last[1]))
        return found, at

    def operator(self) -> int:
        """The operator of the next drawing, as far as it is known."""
        return SOVERD if self.connection.operator is None else self.connection.operator

    async def draw(self, target: "Target", drawn: List[shapes.Shape]) -> None:
        """Draws shapes, and leaves the operator at SoverD."""
        operator = self.operator()
        again = b"" if operator == SOVERD else bytes((ord("O"), operator))
        is_begun, is_idempotent = False, operator in IDEMPOTENT and not target.has_alpha
        for shape in drawn:
            shape = shapes.Shape(shape.pieces, shapes.common(shape.clip, target.clip))
            for part in masks.parts_of(shape, bool(operator & KEEPS_AROUND), is_idempotent):
                await self.draw_part(target, part, again if is_begun else b"", again)
                is_begun = True
        if not is_begun and operator != SOVERD:
            await self.add(draw_message(target, target.src, (0, 0, 0, 0), (0, 0)))
        self.connection.operator = SOVERD

    async def draw_part(self, target: "Target", part: masks.Part, first: bytes, again: bytes) -> None:
        """Draws one part of a shape, by rectangles or by a mask. What the server has of the operator serves the first
        drawing, if `first` is empty; `again` sets it for the others."""
        if isinstance(part, masks.Rectangles):
            white = await self.white_image()
            for r in part.rectangles:
                await self.add(first + draw_message(target, white, r, part.shift))
                first = again
            return
        await self.flush()
        for band in part.bands(self.most - HEADS_OF_A_BAND):
            await self.draw_band(target, band, first)
            first = again

    async def draw_band(self, target: "Target", band: masks.Band, operator: bytes) -> None:
        """Makes a mask, draws through it, and frees it, in one write. An id that is taken is not taken again."""
        while True:
            number = self.connection.new_id()
            made = make_image(number, K1, False, (0, 0, band.width, band.height), 0)
            rows = b"y" + struct.pack("<I4i", number, 0, 0, band.width, band.height) + band.rows
            drawn = operator + draw_message(target, number, band.r(), band.shift)
            try:
                await self.device.write(made + rows + drawn + b"f" + struct.pack("<I", number))
                return
            except Refused as error:
                if str(error) != IN_USE:
                    raise

    async def white_image(self) -> int:
        """The id of an image of one white point that repeats, as a full mask."""
        while self.connection.white is None:
            number = self.connection.new_id()
            try:
                await self.alone(make_image(number, K1, True, (0, 0, 1, 1), WHITE))
                self.connection.white = number
            except Refused as error:
                if str(error) != IN_USE:
                    raise
        return self.connection.white


@dataclass(frozen=True)
class Target:
    """The ids of what is drawn on and of the source, whether that has alpha, and where can be drawn."""

    dst: int
    src: int
    has_alpha: bool
    clip: Rectangle


def target_of(dst: int, src: int, images: Tuple[Image, Image]) -> Target:
    """What is drawn on, and the source."""
    return Target(dst, src, images[1].has_alpha(), clip_of(images[0]))


def word(message: bytes, at: int) -> int:
    """A number of four bytes."""
    return int.from_bytes(message[at : at + 4], "little")


def rectangle(message: bytes, at: int) -> Rectangle:
    """A rectangle."""
    left, upper, right, lower = struct.unpack_from("<4i", message, at)
    return left, upper, right, lower


def clip_of(image: Image) -> Rectangle:
    """Where an image can be drawn on."""
    return shapes.common(image.r, image.clip)


def near(image: Image) -> Rectangle:
    """The clip rectangle of an image, as far as it is not far from it."""
    left, upper, right, lower = image.r
    return shapes.common(image.clip, (left - MOST_SIDE, upper - MOST_SIDE, right + MOST_SIDE, lower + MOST_SIDE))


def bounds(image: Image) -> shapes.Source:
    """What of a source bounds a line."""
    return shapes.Source(image.clip, image.r, image.repeats)


def make_image(number: int, channels: int, repeats: bool, r: Rectangle, colour: int) -> bytes:
    """The message `b` of a plain image."""
    clip = EVERYWHERE if repeats else r
    return b"b" + struct.pack("<IIBIB4i4iI", number, 0, 0, channels, repeats, *r, *clip, colour)


def draw_message(target: Target, mask: int, r: Rectangle, shift: Point) -> bytes:
    """The message `d`: `shift` leads from a point to that of the source; the mask's (0, 0) lies at the rectangle's
    corner."""
    at = (r[0] + shift[0]) % 2**32, (r[1] + shift[1]) % 2**32  # as numbers of four bytes go round
    return b"d" + struct.pack("<3I4i2I2i", target.dst, target.src, mask, *r, *at, 0, 0)


Step = Callable[[Work, bytes], Awaitable[Optional[int]]]
SPECIAL: Dict[str, Step] = {
    "b": Work.made,
    "n": Work.named,
    "N": Work.tied,
    "f": Work.freed,
    "c": Work.clipped,
    "o": Work.placed,
    "y": Work.loaded,
    "Y": Work.loaded,
    "r": Work.fetched,
}
SHAPES: Dict[str, Step] = {"L": Work.line, "e": Work.ellipse, "E": Work.ellipse, "p": Work.polygon, "P": Work.polygon}
