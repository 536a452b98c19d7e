"""Tests of the live page's server, over its HTTP and its WebSocket, with a running rio9 behind it.

Needs aiohttp and the built program.
"""

import asyncio
import contextlib
import io
import json
import logging
import os
import pathlib
import random
import re
import signal
import socket
import subprocess
import sys
import tempfile
import threading
import time
import unittest
from datetime import datetime, timezone
from unittest import mock

from rio9 import client
from rio9.live.screen import BadScreen, Point, Screen, form_of
from rio9.live.traffic import Unknown
from rio9.side import Side
from live_support import SECONDS, Brush, Canvas, Served, until
from needs import found_program
from test_live_parts import saved_in

try:
    import aiohttp
except ModuleNotFoundError:
    raise unittest.SkipTest("aiohttp is not there: apt install python3-aiohttp") from None
if found_program() is None:
    raise unittest.SkipTest("there is no built rio9: name one by RIO9_PROGRAM")

from rio9.live import command, repaint  # noqa: E402
from rio9.live.hub import Hub  # noqa: E402
from rio9.live.server import OneLine, Server, is_ours, serve  # noqa: E402

PYTHON = pathlib.Path(__file__).resolve().parent.parent
LARGE = (1024, 768)
ENVIRONMENT = {**os.environ, "PYTHONPATH": str(PYTHON)}


class Page:
    """What a page does: it takes frames, tells that it has shown them, and keeps the messages."""

    def __init__(self, live, socket):
        self.live, self.socket, self.canvas, self.messages = live, socket, None, []
        self.frames, self.is_slow, self.is_counting = [], False, False
        self.task = asyncio.create_task(self.take())

    async def take(self):
        async for message in self.socket:
            if message.type is aiohttp.WSMsgType.TEXT:
                self.messages.append(json.loads(message.data))
                if self.messages[-1]["kind"] == "channels":
                    self.canvas = Canvas(self.messages[-1]["channels"])
            else:
                self.take_frame(message.data)
                if not self.is_slow:
                    await self.send(kind="shown", frame=self.canvas.entry)

    def take_frame(self, data):
        if self.is_counting:
            self.canvas.entry, self.canvas.cells = map(int, data[2 : data.index(b"\n")].split())
        else:
            self.canvas.take(data)
        self.frames.append((time.monotonic(), self.canvas.cells))

    async def send(self, **message):
        await self.socket.send_str(json.dumps(message))

    def last(self, kind):
        return next((message for message in reversed(self.messages) if message["kind"] == kind), None)

    async def until_same(self, served):
        """Waits until the canvas has what the server's screen has."""
        loop, end = asyncio.get_running_loop(), time.monotonic() + SECONDS
        while True:
            data = await loop.run_in_executor(None, served.read, "screen")
            if self.canvas is not None and data[60:] == self.canvas.rows:
                return
            if time.monotonic() > end:
                raise AssertionError("the canvas is not the screen")
            await asyncio.sleep(0.1)


class Live:
    """A running live page, in this process."""

    def __init__(self, server, place, http):
        self.server, self.hub, self.place, self.http = server, server.hub, place, http
        self.host = "127.0.0.1:%d" % place[1]
        self.pages = []

    async def get(self, path, token=None, **headers):
        words = {} if token is None else {"token": token}
        async with self.http.get(f"http://{self.host}{path}", params=words, headers=headers) as answer:
            return answer, await answer.text()

    async def page(self, token=None, origin=None):
        token, origin = token or self.server.drive, origin or f"http://{self.host}"
        socket = await self.http.ws_connect(
            f"http://{self.host}/socket?token={token}", headers={"Origin": origin}, max_msg_size=0
        )
        self.pages.append(Page(self, socket))
        return self.pages[-1]


@contextlib.asynccontextmanager
async def running(served, is_view_only=False, most=1 << 20, seconds=5):
    loop = asyncio.get_running_loop()
    hub = Hub(served.address, seconds, most)
    server, ended, place = Server(hub, is_view_only), asyncio.Event(), loop.create_future()
    await loop.run_in_executor(None, hub.watcher.connect)
    hub.watcher.start()
    task = asyncio.create_task(serve(server, ("127.0.0.1", 0), place.set_result, ended))
    try:
        async with aiohttp.ClientSession() as http:
            live = Live(server, await asyncio.wait_for(place, SECONDS), http)
            yield live
            for page in live.pages:
                page.task.cancel()
                await page.socket.close()
    finally:
        ended.set()
        await task
        await loop.run_in_executor(None, hub.watcher.stop)


class Doors(unittest.IsolatedAsyncioTestCase):
    """Who gets the page."""

    async def test_who_gets_in(self):
        with Served() as served:
            async with running(served) as live:
                for token, status in (
                    (live.server.drive, 200),
                    (live.server.watch, 200),
                    (None, 403),
                    ("", 403),
                    ("x", 403),
                    ("é\ud83d", 403),
                ):
                    if token is None or token.isprintable():
                        answer, text = await live.get("/", token)
                        self.assertEqual(answer.status, status)
                        self.assertEqual("The token is missing or wrong" in text, status == 403)
                self.assertIn(
                    "default-src 'none'", (await live.get("/", live.server.drive))[0].headers["Content-Security-Policy"]
                )
                for host in ("evil.example", "evil.example:80", "127.0.0.1.evil.example"):
                    answer, text = await live.get("/", live.server.drive, Host=host)
                    self.assertEqual((answer.status, "not one of this machine" in text), (403, True))
                self.assertEqual((await live.get("/", live.server.drive, Host="localhost:99"))[0].status, 200)
                self.assertEqual((await live.get("/nothing", live.server.drive))[0].status, 404)

    async def test_origin(self):
        with Served() as served:
            async with running(served) as live:
                for origin in ("http://evil.example", "null", "https://" + live.host, "http://127.0.0.1:1"):
                    with self.assertRaises(aiohttp.WSServerHandshakeError) as found:
                        await live.page(origin=origin)
                    self.assertEqual(found.exception.status, 403)
                with self.assertRaises(aiohttp.WSServerHandshakeError):
                    await live.page(token="wrong")

    async def test_end(self):
        with Served() as served:
            async with running(served) as live:
                page = await live.page()
                await until(lambda: page.frames)
                await live.server.close()
                await until(lambda: page.socket.closed and not live.hub.viewers)

    async def test_many_pages(self):
        with Served() as served:
            async with running(served) as live:
                pages = [await live.page() for _ in range(32)]
                with self.assertRaises(aiohttp.WSServerHandshakeError) as found:
                    await live.page()
                self.assertEqual(found.exception.status, 503)
                await until(lambda: all(page.frames for page in pages))
                await pages[0].socket.close()
                await until(lambda: len(live.hub.viewers) == 31)
                await live.page()

    async def test_what_is_no_request(self):
        with Served() as served:
            async with running(served) as live:
                for send in (
                    lambda page: page.socket.send_str("{"),
                    lambda page: page.socket.send_bytes(b"{}"),
                    lambda page: page.send(kind="mouse", x=0.5),
                ):
                    page = await live.page()
                    await send(page)
                    await until(lambda: page.socket.closed)
                    self.assertEqual(page.socket.close_code, 1008)
                page = await live.page()
                await until(lambda: page.frames)
                with contextlib.suppress(ConnectionError, aiohttp.ClientError):
                    await page.send(kind="put", text="a" * (7 << 20))
                await until(lambda: page.socket.closed)
                self.assertEqual((await live.get("/", live.server.drive))[0].status, 200)


class Frames(unittest.IsolatedAsyncioTestCase):
    """What a page gets."""

    async def try_display(self, size, channels):
        chance = random.Random(f"{size} {channels}")
        with Served(size, channels) as served, served.session("new -r 5 5 %d %d" % (size[0] - 3, size[1] - 3)) as (
            session,
            root,
        ):
            brush = Brush(session, root)
            async with running(served) as live:
                page = await live.page()
                await page.until_same(served)
                for _ in range(5):
                    left, upper = chance.randrange(size[0]), chance.randrange(size[1])
                    brush.fill(
                        (left, upper, left + chance.randint(1, 60), upper + chance.randint(1, 60)),
                        chance.randrange(1 << 24),
                    )
                    await page.until_same(served)

    async def test_same_as_screen(self):
        for size, channels in (
            ((320, 200), "x8r8g8b8"),
            ((100, 70), "k1"),
            ((33, 61), "r5g6b5"),
            ((257, 130), "k4"),
            ((640, 480), "a8r8g8b8"),
            ((200, 100), "r8g8b8"),
        ):
            with self.subTest(size=size, channels=channels):
                await self.try_display(size, channels)

    async def test_changed_cells_only(self):
        with Served() as served, served.session("new -r 0 0 320 200") as (session, root):
            brush = Brush(session, root)
            async with running(served) as live:
                page = await live.page()
                await until(lambda: page.frames)
                await page.until_same(served)
                await asyncio.sleep(0.7)
                before = len(page.frames)
                brush.fill((70, 40, 75, 45), 0x123456)
                await until(lambda: len(page.frames) > before)
                await page.until_same(served)
                self.assertEqual([cells for _, cells in page.frames[before:]], [1])

    async def test_black_display(self):
        with Served((40, 40), "k1") as served:
            self.assertEqual(repaint.repaint_main(["127.0.0.1:%d" % served.port, "--colour", "000000"]), 0)
            async with running(served) as live:
                page = await live.page()
                await until(lambda: page.frames)
                self.assertEqual(bytes(page.canvas.rows), bytes(5 * 40))

    async def test_size(self):
        with Served() as served:
            async with running(served) as live:
                page = await live.page()
                await page.until_same(served)
                for width, height in ((100, 50), (500, 300), (1, 1), (320, 200)):
                    await page.send(kind="size", width=width, height=height)
                    await until(lambda: (page.canvas.width, page.canvas.height) == (width, height))
                    await page.until_same(served)
                served.write("hwsize", b"64x64")
                await until(lambda: page.canvas.width == 64)
                await page.until_same(served)

    async def test_unknown_traffic(self):
        with Served() as served, served.session("new -r 0 0 320 200") as (session, root):
            brush = Brush(session, root)
            with mock.patch("rio9.live.watcher.Traffic", side_effect=Unknown("nothing is known")):
                async with running(served) as live:
                    page = await live.page()
                    for colour in range(3):
                        brush.fill((10, 10, 300, 190), colour)
                        await page.until_same(served)
                    self.assertIs(page.last("state")["knows"], False)
            async with running(served) as live:
                page = await live.page()
                await page.until_same(served)
                live.hub.watcher.traffic.close()
                await until(lambda: live.hub.watcher.traffic is None)
                brush.fill((10, 10, 300, 190), 5)
                await page.until_same(served)

    async def test_slow_page(self):
        with Served() as served, served.session("new -r 0 0 320 200") as (session, root):
            brush = Brush(session, root)
            async with running(served) as live:
                slow, page = await live.page(), await live.page()
                await slow.until_same(served)
                slow.is_slow, before = True, len(slow.frames)
                for colour in range(40):
                    brush.fill((10, 10, 300, 190), colour)
                    await asyncio.sleep(0.03)
                await page.until_same(served)
                self.assertEqual(len(slow.frames), before + 2)
                slow.is_slow = False
                await slow.send(kind="shown", frame=slow.canvas.entry)
                await slow.until_same(served)

    async def test_page_that_nobody_sees(self):
        with Served() as served, served.session("new -r 0 0 320 200") as (session, root):
            brush = Brush(session, root)
            async with running(served) as live:
                page = await live.page()
                await page.until_same(served)
                await page.send(kind="visible", **{"is": False})
                await until(lambda: not live.hub.watcher.queue.is_wanted)
                await asyncio.sleep(0.1)
                reads = live.hub.watcher.cost.reads
                brush.fill((10, 10, 300, 190), 1)
                await asyncio.sleep(0.5)
                self.assertEqual(live.hub.watcher.cost.reads, reads)
                await page.send(kind="visible", **{"is": True})
                await page.until_same(served)


class Driving(unittest.IsolatedAsyncioTestCase):
    """What is done on a page."""

    async def test_mouse_and_keys(self):
        with Served() as served, served.session("new -r 10 10 200 150") as (session, root):
            with session.file(root, "mouse") as mouse, session.file(root, "cons") as cons:
                async with running(served) as live:
                    page = await live.page()
                    await until(lambda: page.frames)
                    for x, y, buttons in ((20, 20, 1), (25, 26, 1), (25, 26, 3), (30, 30, 0), (30, 30, 8), (30, 30, 0)):
                        await page.send(kind="mouse", x=x, y=y, buttons=buttons)
                        found = await asyncio.get_running_loop().run_in_executor(None, mouse.read, 49)
                        self.assertEqual([int(field) for field in found[1:].split()[:3]], [x, y, buttons])
                    await page.send(kind="keys", text="grüße " + "x" * 100 + "\n")
                    found = b""
                    while not found.endswith(b"\n"):
                        found += await asyncio.get_running_loop().run_in_executor(None, cons.read, 1000)
                    self.assertEqual(found.decode(), "grüße " + "x" * 100 + "\n")

    async def test_snarf(self):
        with Served() as served:
            async with running(served) as live:
                page = await live.page()
                for text in ("schöne Grüße\n", "", "x" * (1 << 20)):
                    await page.send(kind="put", text=text)
                    await page.send(kind="get")
                    await until(lambda: (page.last("snarf") or {}).get("text") == text)
                self.assertEqual(served.read("snarf"), b"x" * (1 << 20))
                served.write("snarf", b"a\xffb")
                await page.send(kind="get")
                await until(lambda: page.last("snarf")["text"] == "a\ufffdb")

    async def test_repaint(self):
        with Served() as served, served.session("new -r 50 50 150 100") as (session, root):
            brush = Brush(session, root)
            before = served.pixels()
            brush.draw("d dstid=0 srcid=2 maskid=2 dstr=0,0,320,60 srcp=0,0 maskp=0,0")
            self.assertNotEqual(served.pixels(), before)
            async with running(served) as live:
                page = await live.page()
                await page.send(kind="repaint")
                loop = asyncio.get_running_loop()
                while await loop.run_in_executor(None, served.pixels) != before:
                    await asyncio.sleep(0.02)
                await page.until_same(served)

    async def test_refusal(self):
        with Served() as served:
            async with running(served) as live:
                page = await live.page()
                await until(lambda: page.frames)
                served.write("wctl", b"new -r 1000000 0 1000100 100")
                served.write("wctl", b"host -id 1")
                served.write("wctl", b"new -r 0 0 50 50")
                await page.send(kind="size", width=5, height=5)
                await asyncio.sleep(0.3)
                live.server.put(next(iter(live.hub.viewers)), Refused())
                await until(lambda: page.last("told"))
                self.assertIn("the server refuses: file does not exist", page.last("told")["why"])

    async def test_too_much(self):
        with Served() as served:
            async with running(served) as live:
                page = await live.page()
                await until(lambda: page.frames)
                live.hub.watcher.do = lambda act, refused: time.sleep(0.5)
                for _ in range(2500):
                    await page.send(kind="keys", text="a")
                await until(lambda: page.last("told"), 60)
                self.assertIn("inputs wait for the server already", page.last("told")["why"])

    async def test_watching_page(self):
        with Served() as served:
            async with running(served) as live:
                page, driver = await live.page(live.server.watch), await live.page()
                await until(lambda: page.frames and page.last("state"))
                self.assertIs(page.last("welcome")["mayDrive"], False)
                for message in (
                    {"kind": "keys", "text": "a"},
                    {"kind": "size", "width": 9, "height": 9},
                    {"kind": "get"},
                    {"kind": "anew"},
                ):
                    page.messages.clear()
                    await page.send(**message)
                    await until(lambda: page.last("told"))
                    self.assertIn("only watches", page.last("told")["why"])
                self.assertEqual((await live.get("/save", live.server.watch))[0].status, 403)
                await driver.send(kind="mouse", x=5, y=7, buttons=0)
                await until(lambda: page.last("pointer") == {"kind": "pointer", "x": 5, "y": 7})
                self.assertIsNone(driver.last("pointer"))
                await until(lambda: driver.last("state")["viewers"] == 2)

    async def test_view_only(self):
        with Served() as served:
            async with running(served, is_view_only=True) as live:
                page = await live.page()
                await page.send(kind="keys", text="a")
                await until(lambda: page.last("told"))
                await until(lambda: page.frames and live.hub.recording.times)
                self.assertEqual((await live.get("/save", live.server.watch))[0].status, 200)


class Refused:
    """An act that the server refuses."""

    is_seen = False

    def do(self, session):
        session.walk(session.root, ["nothing"])


class Saved(unittest.IsolatedAsyncioTestCase):
    """The page that Save gives."""

    async def test_frames(self):
        with Served() as served, served.session("new -r 10 10 200 150") as (session, root):
            brush = Brush(session, root)
            async with running(served) as live:
                self.assertEqual((await live.get("/save", live.server.drive))[0].status, 409)
                page = await live.page()
                await page.until_same(served)
                for number in range(5):
                    brush.fill((10 * number, 10, 100, 100), 0x4080C0 * number & 0xFFFFFF)
                    await page.send(kind="mouse", x=20 * number, y=30, buttons=0)
                    await page.until_same(served)
                await page.send(kind="size", width=100, height=90)
                await until(lambda: page.canvas.width == 100)
                await page.until_same(served)
                await asyncio.sleep(0.2)
                answer, text = await live.get("/save", live.server.drive)
                self.assertIn("attachment", answer.headers["Content-Disposition"])
                found, frames = saved_in(text)
                form = form_of(served.read("screen")[:60])
                screen = Screen(form)
                screen.take(0, served.read("screen")[60:])
                wanted = Canvas(form.channels).take(screen.frame(0, range(form.cells), True, Point(80, 30)))
                self.assertEqual(Canvas(found["channels"]).take(frames).rows, wanted.rows)
                times = [when for _, when in found["times"]]
                self.assertEqual((times[0], times), (0, sorted(times)))
                await page.send(kind="anew")
                await until(lambda: live.hub.recording.length == 0 and live.hub.recording.times)
                self.assertEqual(
                    Canvas(found["channels"]).take(saved_in((await live.get("/save", live.server.drive))[1])[1]).rows,
                    wanted.rows,
                )

    async def test_full(self):
        with Served() as served, served.session("new -r 0 0 320 200") as (session, root):
            brush, chance = Brush(session, root), random.Random(1)
            async with running(served, most=5000) as live:
                page = await live.page()
                while not live.hub.recording.is_full:
                    for _ in range(40):
                        left, upper = chance.randrange(300), chance.randrange(180)
                        brush.fill((left, upper, left + 9, upper + 9), chance.randrange(1 << 24))
                    await asyncio.sleep(0.05)
                await until(lambda: page.last("state")["recorded"]["isFull"])
                saved_in((await live.get("/save", live.server.drive))[1])


class Costs(unittest.IsolatedAsyncioTestCase):
    """What watching costs."""

    async def test_record(self):
        with tempfile.TemporaryDirectory() as room, Served(LARGE, conns=60, room=room) as served:
            with served.session("new -r 0 0 500 500") as (session, root):
                brush = Brush(session, root)
                async with running(served) as live:
                    page = await live.page()
                    for number in range(20):
                        brush.fill((10, 10, 400, 400), 1000 * number)
                        await page.send(kind="mouse", x=number, y=3, buttons=number % 2)
                        await asyncio.sleep(0.05)
                    await page.until_same(served)
                cost = live.hub.watcher.cost
            await until(lambda: self.has_ended(served))
            served.record.seek(0)
            record = served.record.read().split(b"\n")
            counts = {}
            for line in record:
                if line.startswith(b"M "):
                    counts[line.split()[1]] = counts.get(line.split()[1], 0) + 1
            number = next(session for session, count in counts.items() if count == cost.messages)
            lines = [line for line in record if re.match(rb"[MT] %s\b" % number, line)]
            size = sum(len(line) + 1 for line in lines)
            self.assertLess(abs(size - cost.bytes), 0.1 * cost.bytes)

    def has_ended(self, served):
        """Makes one connection more, until the server has had as many as it takes."""
        with contextlib.suppress(OSError), socket.create_connection(served.address, 1):
            pass
        return served.process.poll() is not None

    async def test_quiet_desktop(self):
        with Served(LARGE) as served:
            async with running(served) as live:
                if live.hub.watcher.traffic is None:
                    self.skipTest("the system does not tell of connections")
                page = await live.page()
                await until(lambda: page.frames)
                await asyncio.sleep(1)
                reads, spent, begun = live.hub.watcher.cost.reads, time.process_time(), time.monotonic()
                await asyncio.sleep(2.5)
                share = (time.process_time() - spent) / (time.monotonic() - begun)
                self.assertEqual(live.hub.watcher.cost.reads, reads)
                self.assertLess(share, 0.02)

    async def test_frames_a_second(self):
        rate = 0.0
        for _ in range(3):
            rate = max(rate, await self.rate())
            if rate >= 30:
                break
        print(f"{rate:.0f} frames a second at 1024x768", file=sys.stderr)
        if rate < 30 and os.getloadavg()[0] > os.cpu_count():
            self.skipTest(f"the machine is busy: {rate:.0f} frames a second")
        self.assertGreaterEqual(rate, 30)

    async def rate(self):
        """How many frames of all cells a page gets in a second, of a live page in a process of its own."""
        with Served(LARGE) as served, contextlib.ExitStack() as ends:
            words = [
                [str(PYTHON / "rio9d"), "live", "127.0.0.1:%d" % served.port],
                [__file__, "draw", str(served.port)],
            ]
            live, drawing = (
                subprocess.Popen([sys.executable, *those], stdout=subprocess.PIPE, text=True, env=ENVIRONMENT)
                for those in words
            )
            for process in (live, drawing):
                ends.callback(process.communicate)
                ends.callback(process.kill)
            address = live.stdout.readline().split()[-1]
            async with aiohttp.ClientSession() as http, http.ws_connect(
                address.replace("/?", "/socket?"), headers={"Origin": address[: address.index("/?")]}, max_msg_size=0
            ) as socket:
                page = Page(None, socket)
                page.is_counting = True
                await until(lambda: len(page.frames) > 10)
                begun = time.monotonic()
                await asyncio.sleep(2)
                return sum(when > begun and cells == 768 for when, cells in page.frames) / (time.monotonic() - begun)


def draw_for_ever(port):
    """Fills a display of 1024x768 with one colour after the other."""
    with client.Client(("127.0.0.1", port), SECONDS) as session:
        session.version()
        brush, colour = Brush(session, session.attach("new -r 0 0 1024 768")), 0
        while True:
            colour += 0x010203
            brush.fill((0, 0, *LARGE), colour & 0xFFFFFF)
            time.sleep(0.01)


class Junk(threading.Thread):
    """Listens, and answers each connection with the same bytes."""

    def __init__(self, answer):
        super().__init__(daemon=True)
        self.answer, self.listener = answer, socket.create_server(("127.0.0.1", 0))
        self.address = self.listener.getsockname()

    def run(self):
        with contextlib.suppress(OSError):
            while True:
                with self.listener.accept()[0] as connection:
                    connection.recv(100)
                    connection.sendall(self.answer)
                    time.sleep(0.2)


class Server_that_goes(unittest.IsolatedAsyncioTestCase):
    async def test_goes_and_comes(self):
        served = Served()
        with served:
            async with running(served) as live:
                page = await live.page()
                await page.until_same(served)
                await asyncio.sleep(1)
                served.process.kill()
                served.process.wait()
                await until(lambda: page.last("server")["why"], 3)
                self.assertIn("rio9d serve", page.last("server")["why"])
                await page.send(kind="keys", text="a")
                await until(lambda: page.last("told"))
                self.assertIn("nothing was written", page.last("told")["why"])
                served.words[3] = "k8"
                page.messages.clear()
                with served:
                    await until(lambda: page.last("server") and not page.last("server")["why"])
                    await page.until_same(served)

    async def test_gives_junk(self):
        with Served() as served:
            async with running(served) as live:
                page = await live.page()
                await page.until_same(served)
                with mock.patch.object(live.hub.watcher.session, "answer", return_value=({}, b"junk")):
                    served.write("wctl", b"new -r 5 5 50 50")
                    await until(lambda: page.last("server")["why"])
                self.assertIn("gives no display", page.last("server")["why"])
                await until(lambda: not page.last("server")["why"])
                await page.until_same(served)


class Words(unittest.TestCase):
    """The commands."""

    def told(self, main, *words):
        """The status of a command, and the line that it tells."""
        err = io.StringIO()
        with contextlib.redirect_stderr(err):
            try:
                status = main(list(words))
            except SystemExit as ended:
                status = ended.code
        self.assertEqual(err.getvalue().count("\n"), 1 if status else 0, err.getvalue())
        return status, err.getvalue()

    def test_no_server(self):
        with socket.create_server(("127.0.0.1", 0)) as taken:
            port = taken.getsockname()[1]
        for main in (command.live_main, repaint.repaint_main):
            status, line = self.told(main, f"127.0.0.1:{port}")
            self.assertEqual(status, 1)
            self.assertIn(f"no connection to 127.0.0.1:{port}", line)
            self.assertIn("rio9d serve starts one", line)

    def test_no_rio9(self):
        for answer in (
            b"HTTP/1.0 400 no\r\n\r\n",
            b"\x13\0\0\0\x65\xff\xff\x18\0\x01\0\x06\x009P2001",
            b"",
            b"\xff\xff\xff\xff",
        ):
            junk = Junk(answer)
            junk.start()
            for main in (command.live_main, repaint.repaint_main):
                self.assertEqual(self.told(main, "127.0.0.1:%d" % junk.address[1])[0], 1)
            junk.listener.close()

    def test_no_display(self):
        with Served() as served, mock.patch("rio9.live.acts.form_of", side_effect=BadScreen("it has no header")):
            for main in (command.live_main, repaint.repaint_main):
                status, line = self.told(main, "127.0.0.1:%d" % served.port)
                self.assertEqual(status, 1)
                self.assertIn("gives no display: it has no header", line)

    def test_busy(self):
        with Served(workers=1) as served, served.session():
            for main in (command.live_main, repaint.repaint_main):
                status, line = self.told(main, "127.0.0.1:%d" % served.port, "--seconds", "0.3")
                self.assertEqual(status, 1)
                self.assertIn("all workers of the server may be busy", line)

    def test_wrong_words(self):
        for words in (
            ["x"],
            ["--listen", "0.0.0.0:0"],
            ["--listen", "127.0.0.1:70000"],
            ["--keep", "0"],
            ["--keep", "2000"],
            ["--listen", "example.org:1"],
        ):
            self.assertEqual(self.told(command.live_main, *words)[0], 2)
        self.assertEqual(self.told(repaint.repaint_main, "--colour", "12345")[0], 2)

    def test_address_taken(self):
        with Served() as served, socket.create_server(("127.0.0.1", 0)) as taken:
            status, line = self.told(
                command.live_main, "127.0.0.1:%d" % served.port, "--listen", "127.0.0.1:%d" % taken.getsockname()[1]
            )
            self.assertEqual(status, 1)
            self.assertIn("give another port, or 0 for a free one", line)

    def test_repaint(self):
        with Served() as served:
            self.assertEqual(
                self.told(repaint.repaint_main, "127.0.0.1:%d" % served.port, "--colour", "336699"), (0, "")
            )
            self.assertEqual(served.pixels()[2], b"\x33\x66\x99" * (320 * 200))

    def test_page_of_the_package(self):
        """The words of README's section run as they stand there, but for the server's port."""
        text = (PYTHON / "README.md").read_text(encoding="utf-8").split("## The live page")[1].split("\n## ")[0]
        live, save = re.findall(r"```sh\npython/rio9d (.*?)\n```", text)
        with tempfile.TemporaryDirectory() as room, Served() as served:
            words = live.replace("5640", str(served.port)).split()
            process = subprocess.Popen(
                [sys.executable, str(PYTHON / "rio9d"), *words], stdout=subprocess.PIPE, text=True
            )
            self.assertIn("to drive it", process.stdout.readline())
            process.send_signal(signal.SIGINT)
            process.communicate(timeout=SECONDS)
            kept = pathlib.Path(room) / "session.record"
            kept.write_bytes((PYTHON.parent / "examples" / "input.record").read_bytes())
            Side((320, 240), "x8r8g8b8", datetime.now(timezone.utc), 9, [(1, 0)]).save(str(kept))
            ended = subprocess.run(
                [sys.executable, str(PYTHON / "rio9d"), *save.split()], cwd=room, capture_output=True
            )
            self.assertEqual((ended.returncode, ended.stderr), (0, b""))
            saved_in((pathlib.Path(room) / "session.html").read_text(encoding="utf-8"))

    def test_junk(self):
        """What is no HTTP is refused without a word; a fault within is told in a line."""
        pieces = [b"junk\r\n\r\n", b"GET / HTTP/1.1\r\nHost: x\0\r\n\r\n", os.urandom(3000), b"\x16\x03\x01\x02\0"]
        pieces += [
            b"GET /?" + b"a" * 20000 + b" HTTP/1.1\r\n\r\n",
            b"GET /?token=%ff HTTP/1.1\r\nHost: localhost\r\n\r\n",
        ]
        with Served() as served:
            words = [
                sys.executable,
                str(PYTHON / "rio9d"),
                "live",
                "127.0.0.1:%d" % served.port,
                "--listen",
                "localhost:0",
            ]
            process = subprocess.Popen(words, stdout=subprocess.PIPE, stderr=subprocess.PIPE, text=True)
            port = int(re.search(r":(\d+)/\?token", process.stdout.readline())[1])
            for piece in pieces:
                with contextlib.suppress(ConnectionError), socket.create_connection(
                    ("127.0.0.1", port), SECONDS
                ) as sent:
                    sent.sendall(piece)
                    self.assertRegex(sent.recv(100), rb"^HTTP/1.[01] 40[03] |^$")
            process.terminate()
            self.assertEqual((process.communicate(timeout=SECONDS)[1], process.returncode), ("", 0))

    def test_lines(self):
        try:
            raise ValueError("a\nb")
        except ValueError:
            made = logging.LogRecord("aiohttp", logging.ERROR, "", 0, "what %s", ("was",), sys.exc_info())
        self.assertEqual(OneLine().format(made), "rio9d live: what was: ValueError: a b")
        self.assertTrue(is_ours(made))
        made.exc_info = None
        self.assertEqual(OneLine().format(made), "rio9d live: what was")

    def test_signals(self):
        for number in (signal.SIGTERM, signal.SIGINT):
            with Served() as served:
                words = [sys.executable, str(PYTHON / "rio9d"), "live", "127.0.0.1:%d" % served.port]
                process = subprocess.Popen(words, stdout=subprocess.PIPE, stderr=subprocess.PIPE, text=True)
                lines = [process.stdout.readline() for _ in range(2)]
                process.send_signal(number)
                out, err = process.communicate(timeout=SECONDS)
                self.assertRegex(lines[0], r"to drive it: http://127\.0\.0\.1:\d+/\?token=\S{20,}\n")
                self.assertRegex(lines[1], r"to watch it: ")
                self.assertRegex(
                    out, r"the server's record has \d+ reads and \d+ other messages of this, about \d+ bytes\n"
                )
                self.assertEqual((process.returncode, err), (0, ""))


if __name__ == "__main__":
    if sys.argv[1:2] == ["draw"]:
        draw_for_ever(int(sys.argv[2]))
    unittest.main()
