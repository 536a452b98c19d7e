"""What the tests of the live page have in common: a running server, drawing on it, and the picture that frames make."""

import asyncio
import contextlib
import os
import re
import socket
import subprocess
import time

from rio9 import client, formats, picture
from rio9.client_commands import draw_groups, write_file
from needs import found_program

SECONDS = 20
SIZE = (320, 200)
POINT = "screenid=0 refresh=0 repl=1 r=0,0,1,1 clipr=0,0,4096,4096"


class Served:
    """A running server on a free port of the loopback, which is killed behind it."""

    def __init__(self, size=SIZE, channels="x8r8g8b8", workers=6, conns=1000, room=None):
        self.record = open(os.path.join(room, "record"), "w+b") if room else None
        self.words = ["--size", "%dx%d" % size, "--chan", channels, "--workers", str(workers), "--conns", str(conns)]
        self.port = 0
        self.process = None

    def __enter__(self):
        with socket.create_server(("127.0.0.1", self.port)) as free:
            self.port = free.getsockname()[1]
        words = [found_program(), "serve", *self.words, "--listen", f"127.0.0.1:{self.port}"]
        self.process = subprocess.Popen(
            words, stdin=subprocess.DEVNULL, stdout=self.record or subprocess.DEVNULL, stderr=subprocess.DEVNULL
        )
        end = time.monotonic() + SECONDS
        while time.monotonic() < end:
            with contextlib.suppress(OSError), socket.create_connection(self.address, 1):
                return self
            time.sleep(0.01)
        raise AssertionError("the server does not listen")

    def __exit__(self, *_):
        self.process.kill()
        self.process.wait()
        if self.record:
            self.record.close()

    @property
    def address(self):
        return "127.0.0.1", self.port

    @contextlib.contextmanager
    def session(self, attach=""):
        """A client, and the root of its tree."""
        with client.Client(self.address, SECONDS) as session:
            session.version()
            yield session, session.attach(attach)

    def read(self, path):
        """What a file of the device tree gives."""
        with self.session() as (session, root), session.file(root, path) as file:
            return file.read_all()

    def write(self, path, data):
        """Writes a file of the device tree."""
        with self.session() as (session, root):
            write_file(session, root, path, data)

    def pixels(self):
        """The width, the height and the red, green and blue of the screen."""
        return pixels_of(*picture.read_image_file(self.read("screen")))


def pixels_of(word, left, right, height, rows):
    """The width, the height and the red, green and blue of rows of pixels."""
    channels, bits = formats.channels(word), formats.depth(word)
    across, made, seen = formats.row_bytes(bits, left, right), [], {}
    for at in range(0, height * across, across):
        for pixel in picture.raw_pixels(rows[at : at + across], bits, left, right):
            if pixel not in seen:
                seen[pixel] = bytes(picture.colour(pixel, channels)[:3])
            made.append(seen[pixel])
    return right - left, height, b"".join(made)


class Brush:
    """Draws on a window of its own, as a program does."""

    def __init__(self, session, root):
        self.session = session
        self.ctl = session.file(root, "draw/new", client.READWRITE)
        number = self.ctl.read(client.CTL_BYTES)[:11].decode().strip()
        self.data = session.file(root, f"draw/{number}/data", client.READWRITE)
        with session.file(root, "winname") as file:
            name = file.read().decode()
        self.made = 10
        self.draw(
            f"n id=1 name={name}",
            f"b id=2 chan=k1 color=0xffffffff {POINT}",
        )

    def draw(self, *lines):
        self.data.write(b"".join(draw_groups(lines)[0]))

    def fill(self, rectangle, colour):
        """Fills a rectangle of the window's image."""
        self.made += 1
        self.draw(
            f"b id={self.made} chan=x8r8g8b8 color=0x{colour:06x}ff {POINT}",
            f"d dstid=1 srcid={self.made} maskid=2 dstr={','.join(map(str, rectangle))} srcp=0,0 maskp=0,0",
            f"f id={self.made}",
        )


FRAME = re.compile(rb"F (\d+) (\d+)\n(?:Z (\d+) (\d+)\n)?")
CELL = re.compile(rb"C (\d+) (\d+) (\d+) (\d+)\n")


class Canvas:
    """The rows that frames make."""

    def __init__(self, channels):
        self.bits = sum(int(bits) for bits in channels[1::2])
        self.width = self.height = 0
        self.rows = bytearray()
        self.entry = -1
        self.cells = 0

    def take(self, data):
        """Takes frames, one behind the other, as docs/FORMATS.md has them."""
        at = 0
        while at < len(data):
            head = FRAME.match(data, at)
            assert head, data[at : at + 40]
            self.entry, self.cells = int(head[1]), int(head[2])
            at = head.end()
            if head[3]:
                self.width, self.height = int(head[3]), int(head[4])
                self.rows = bytearray(-(-self.width * self.bits // 8) * self.height)
            order = []
            for _ in range(self.cells):
                at = self.take_cell(data, at, order)
            assert order == sorted(set(order)), order
        return self

    def take_cell(self, data, at, order):
        cell = CELL.match(data, at)
        assert cell, data[at : at + 40]
        x, y, width, height = map(int, cell.groups())
        assert x % 32 == y % 32 == 0 and width == min(32, self.width - x) and height == min(32, self.height - y), cell
        order.append((y, x))
        size, across, at = -(-width * self.bits // 8), -(-self.width * self.bits // 8), cell.end()
        for row in range(height):
            to = (y + row) * across + x * self.bits // 8
            self.rows[to : to + size] = data[at : at + size]
            at += size
        return at


async def until(done, seconds=SECONDS):
    """Waits until something is so."""
    end = time.monotonic() + seconds
    while not done():
        if time.monotonic() > end:
            raise AssertionError(f"{seconds} seconds are over")
        await asyncio.sleep(0.01)
