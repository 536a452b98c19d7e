"""Tests of the live page, and of pages that it saves, in a browser: what is shown, and the mouse and keys of people.

Needs aiohttp, Chromium and the built program.
"""

import asyncio
import pathlib
import random
import tempfile
import time
import unittest
from datetime import datetime, timezone

from live_support import SECONDS, Brush, Canvas, Served, pixels_of, until
from needs import found_program

try:
    import live_browser
    from test_live_server import running
except ModuleNotFoundError:
    raise unittest.SkipTest("aiohttp is not there: apt install python3-aiohttp") from None
if live_browser.browser() is None:
    raise unittest.SkipTest("there is no browser: apt install chromium")
if found_program() is None:
    raise unittest.SkipTest("there is no built rio9: name one by RIO9_PROGRAM")

from rio9 import formats  # noqa: E402
from rio9.live import save  # noqa: E402
from rio9.side import Side  # noqa: E402

from test_live_parts import saved_in  # noqa: E402

EXAMPLES = pathlib.Path(__file__).resolve().parent.parent.parent / "examples"
START = datetime(2026, 1, 2, 3, 4, 5, tzinfo=timezone.utc)
ACTS = 200
BUTTONS = {"left": 1, "middle": 2, "right": 4}
NAMED = {
    "Enter": "\n",
    "Backspace": "\b",
    "Tab": "\t",
    "Escape": "\x1b",
    "ArrowUp": "\uf00e",
    "ArrowDown": "\uf800",
    "F3": "\uf003",
    "Home": "\uf00d",
}
ALT, CONTROL = 1, 2


class InBrowser(unittest.IsolatedAsyncioTestCase):
    """A page in a browser, and a server with a window whose mouse and keys are read."""

    size, zoom = (320, 200), 1

    async def asyncSetUp(self):
        self.served = self.entered(Served(self.size))
        self.live = await self.begun(running(self.served))
        self.browser = await self.begun(live_browser.running())

    def entered(self, context):
        found = context.__enter__()
        self.addCleanup(context.__exit__, None, None, None)
        return found

    async def begun(self, context):
        found = await context.__aenter__()
        self.addAsyncCleanup(context.__aexit__, None, None, None)
        return found

    async def open(self, token=None):
        page = await self.browser.page(f"http://{self.live.host}/?token={token or self.live.server.drive}")
        await page.call("Emulation.setFocusEmulationEnabled", enabled=True)
        await page.until("live.size !== null")
        return page

    async def in_thread(self, work, *words):
        return await asyncio.get_running_loop().run_in_executor(None, work, *words)

    async def same(self, page):
        """Waits until the canvas has the pixels of the screen."""
        end = time.monotonic() + SECONDS
        while True:
            wanted, got = await self.in_thread(self.served.pixels), await page.pixels()
            if wanted == got:
                return
            self.assertLess(time.monotonic(), end, "the canvas is not the screen")
            await asyncio.sleep(0.1)

    async def place(self, page, x, y):
        """The place on the page of a pixel of the display."""
        left, top, width, across = await page.value(
            "(({ left, top, width }) => [left, top, width, part.picture.width])(part.picture.getBoundingClientRect())"
        )
        return left + (x + 0.5) * width / across, top + (y + 0.5) * width / across


class Shown(InBrowser):
    async def test_pixels(self):
        page, chance = await self.open(), random.Random(1)
        with self.served.session("new -r 10 10 310 190") as (session, root):
            brush = Brush(session, root)
            for _ in range(10):
                left, upper = chance.randrange(300), chance.randrange(180)
                brush.fill(
                    (left, upper, left + chance.randint(1, 90), upper + chance.randint(1, 90)),
                    chance.randrange(1 << 24),
                )
                await self.same(page)
            await page.call(
                "Runtime.evaluate", expression="part.zoom.value = 3; part.zoom.dispatchEvent(new Event('change'))"
            )
            self.assertEqual(await page.value("part.picture.getBoundingClientRect().width"), 960)
            places = await page.value("[part.picture.getBoundingClientRect()].map(r => [r.left % 1, r.top % 1])[0]")
            self.assertEqual(places, [0, 0])
        self.assertEqual(page.wrong, [])

    async def test_sizes(self):
        page = await self.open()
        for width, height in ((500, 100), (33, 77), (1024, 768)):
            await page.value(f"part.width.value = {width}, part.height.value = {height}, part.resize.click()")
            await page.until(f"part.picture.width === {width} && part.picture.height === {height}")
            await self.same(page)
        await page.value("part.width.value = 3000, part.resize.click()")
        self.assertIn("from 1 to 2048", await page.value("part.told.textContent"))
        await page.value("part.fill.click()")
        await page.until("part.picture.width === room().width && part.picture.height === room().height")
        await self.same(page)

    async def test_several(self):
        driver, watcher = await self.open(), await self.open(self.live.server.watch)
        await driver.value("part.repaint.click()")
        await driver.mouse("mouseMoved", *await self.place(driver, 50, 60))
        await watcher.until("!part.pointer.hidden && part.viewers.textContent === '2 viewers'")
        self.assertEqual(
            await watcher.value("[...document.querySelectorAll('.driving')].every(one => one.hidden)"), True
        )
        self.assertEqual(await watcher.value("part.save.hidden"), True)
        await self.same(watcher)

    async def test_what_is_told(self):
        page = await self.open()
        self.served.process.kill()
        self.served.process.wait()
        await page.until("!part.gone.hidden")
        self.assertIn("rio9d serve", await page.value("part.gone.textContent"))
        with self.served:
            await page.until("part.gone.hidden")
            await self.same(page)
            await page.value("live.show(new Uint8Array([1, 2, 3]))")
            self.assertIn("What came is no frame", await page.value("part.told.textContent"))
            for socket in list(self.live.server.sockets):
                await socket.close(code=1001, message=b"rio9d live has ended")
            await page.until("!part.gone.hidden || live.socket.readyState === 1")
            await page.until("part.gone.hidden")
        wrong = await self.browser.page(f"http://{self.live.host}/?token=wrong")
        self.assertIn("The token is missing or wrong", await wrong.value("document.body.textContent"))


class Driven(InBrowser):
    """Clicks and keys of a person come to a window as they were made."""

    async def test_by_chance(self):
        page, chance = await self.open(), random.Random(7)
        with self.served.session("new -r 0 0 320 200") as (session, root):
            mouse, cons = session.file(root, "mouse"), session.file(root, "cons")
            with session.file(root, "consctl", 1) as control:
                control.write(b"rawon")
                await page.mouse("mousePressed", *await self.place(page, 9, 9), "left", ["left"])
                await page.mouse("mouseReleased", *await self.place(page, 9, 9), "left")
                for _ in range(2):
                    await self.in_thread(mouse.read, 49)
                for number in range(ACTS):
                    act = chance.choice([self.click, self.key, self.wheel])
                    await act(page, chance, mouse if act != self.key else cons)
        self.assertEqual(page.wrong, [])

    async def events(self, mouse, wanted):
        """Reads events until as many have come as are wanted, moves aside, whose places and buttons are these."""
        got = []
        while len(got) < len(wanted):
            found = [int(field) for field in (await self.in_thread(mouse.read, 49))[1:].split()[:3]]
            if not got or found[2] != got[-1][2]:
                got.append(found)
                if got[0][2] == 0 and wanted[0][2]:
                    got.pop(0)
        self.assertEqual(got, wanted)

    async def click(self, page, chance, mouse):
        x, y, button = chance.randrange(320), chance.randrange(200), chance.choice(list(BUTTONS))
        to_x, to_y = (x, y) if chance.random() < 0.5 else (chance.randrange(320), chance.randrange(200))
        await page.mouse("mousePressed", *await self.place(page, x, y), button, [button])
        await page.mouse("mouseMoved", *await self.place(page, to_x, to_y), button, [button])
        await page.mouse("mouseReleased", *await self.place(page, to_x, to_y), button)
        await self.events(mouse, [[x, y, BUTTONS[button]], [to_x, to_y, 0]])

    async def wheel(self, page, chance, mouse):
        x, y, up = chance.randrange(320), chance.randrange(200), chance.random() < 0.5
        await page.mouse("mouseWheel", *await self.place(page, x, y), delta=-40 if up else 40)
        await self.events(mouse, [[x, y, 8 if up else 16], [x, y, 0]])

    async def key(self, page, chance, cons):
        kind = chance.randrange(4)
        if kind == 0:
            key = chance.choice(list(NAMED))
            await page.key(key)
            wanted = NAMED[key]
        elif kind == 1:
            wanted = chance.choice("ß日é🙂ñ한")
            await page.call("Input.imeSetComposition", text="x", selectionStart=1, selectionEnd=1)
            await page.call("Input.insertText", text=wanted)
        elif kind == 2:
            letter = chance.choice("abcxyz")
            await page.key(letter, modifiers=CONTROL)
            wanted = chr(ord(letter) & 31)
        else:
            wanted = chance.choice("abcXYZ ~{\\é")
            await page.key(wanted, wanted)
        self.assertEqual((await self.in_thread(cons.read, 100)).decode(), wanted)

    async def test_other_buttons(self):
        page = await self.open()
        with self.served.session("new -r 0 0 320 200") as (session, root), session.file(root, "mouse") as mouse:
            for modifier, buttons in ((ALT, 2), (CONTROL, 4)):
                x, y = await self.place(page, 50, 60)
                for kind in ("mousePressed", "mouseReleased"):
                    await page.call(
                        "Input.dispatchMouseEvent",
                        type=kind,
                        x=x,
                        y=y,
                        button="left",
                        buttons=int(kind == "mousePressed"),
                        modifiers=modifier,
                        clickCount=1,
                    )
                await self.events(mouse, [[50, 60, buttons], [50, 60, 0]])

    async def test_snarf(self):
        page = await self.open()
        await page.call(
            "Browser.grantPermissions",
            origin=f"http://{self.live.host}",
            permissions=["clipboardReadWrite", "clipboardSanitizedWrite"],
        )
        self.served.write("snarf", "Grüße\n".encode())
        await page.value("part.get.click()")
        await page.until("part.told.textContent.includes('6 characters')")
        self.assertEqual(await page.value("navigator.clipboard.readText()"), "Grüße\n")
        await page.value("navigator.clipboard.writeText('à la page')")
        await page.value("part.put.click()")
        while await self.in_thread(self.served.read, "snarf") != "à la page".encode():
            await asyncio.sleep(0.02)
        await page.value("part.keys.focus()")
        await page.value(
            "(() => { const data = new DataTransfer(); data.setData('text/plain', 'by hand');"
            " const pasted = new ClipboardEvent('paste', { clipboardData: data, bubbles: true, cancelable: true });"
            " part.keys.dispatchEvent(pasted); })()"
        )
        while await self.in_thread(self.served.read, "snarf") != b"by hand":
            await asyncio.sleep(0.02)

    async def test_no_clipboard(self):
        page = await self.open()
        await page.value(
            "navigator.clipboard.readText = navigator.clipboard.writeText = () => Promise.reject(new Error('no'))"
        )
        self.served.write("snarf", b"text")
        await page.value("part.get.click()")
        await page.until("part.text.open && part.textArea.value === 'text'")
        await page.value("part.textClose.click(), part.put.click()")
        await page.until("part.text.open && part.textArea.value === ''")
        await page.value("part.textArea.value = 'typed', part.textDone.click()")
        while await self.in_thread(self.served.read, "snarf") != b"typed":
            await asyncio.sleep(0.02)

    async def test_view_only(self):
        page = await self.open()
        with self.served.session("new -r 0 0 320 200") as (session, root):
            await page.value("part.only.click()")
            sent = self.live.hub.watcher.cost.messages - self.live.hub.watcher.cost.reads
            await page.mouse("mousePressed", *await self.place(page, 9, 9), "left", ["left"])
            await page.mouse("mouseReleased", *await self.place(page, 9, 9), "left")
            await page.key("a", "a")
            await asyncio.sleep(0.3)
            self.assertEqual(self.live.hub.watcher.cost.messages - self.live.hub.watcher.cost.reads, sent)


class Saved(InBrowser):
    """A page that was saved plays by itself."""

    async def test_plays(self):
        page = await self.open()
        with self.served.session("new -r 10 10 310 190") as (session, root):
            brush = Brush(session, root)
            for number in range(6):
                brush.fill((10, 10 + 20 * number, 200, 30 + 20 * number), 0x10203 * 30 * number)
                await page.mouse("mouseMoved", *await self.place(page, 20 * number, 100))
                await self.same(page)
                await asyncio.sleep(0.15)
        await self.same(page)
        await asyncio.sleep(0.3)
        text = (await self.live.get("/save", self.live.server.drive))[1]
        found, frames = saved_in(text)
        canvas = Canvas(found["channels"]).take(frames)
        wanted = pixels_of(formats.channels_word(found["channels"]), 0, canvas.width, canvas.height, canvas.rows)
        with tempfile.TemporaryDirectory() as room:
            path = pathlib.Path(room) / "saved.html"
            path.write_text(text, encoding="utf-8")
            begun = time.monotonic()
            played = await self.browser.page(path.as_uri())
            await played.until("player.viewer && player.timer === null && player.entry === player.last()")
            took, length = time.monotonic() - begun, found["times"][-1][1] / 1000
            self.assertGreater(took, 0.8 * length)
            self.assertEqual(await played.pixels(), wanted)
            self.assertIn(f" of 0:0{int(10 * length) / 10:.1f}", await played.value("part.number.textContent"))
            await played.value("part.entry.value = 0, part.entry.dispatchEvent(new Event('input'))")
            self.assertIn("0:00.0", await played.value("part.number.textContent"))
            self.assertEqual(played.wrong, [])

    async def test_record(self):
        with tempfile.TemporaryDirectory() as room:
            kept, path = pathlib.Path(room) / "input.record", pathlib.Path(room) / "page.html"
            kept.write_bytes((EXAMPLES / "input.record").read_bytes())
            entries = kept.read_bytes().count(b"\n") - 1
            Side((320, 240), "x8r8g8b8", START, entries, [(1, 0), (entries // 2, 1000)]).save(str(kept))
            self.assertEqual(save.main([str(kept), str(path)]), 0)
            found, frames = saved_in(path.read_text(encoding="utf-8"))
            canvas = Canvas(found["channels"]).take(frames)
            begun = time.monotonic()
            played = await self.browser.page(path.as_uri())
            await played.until("player.viewer && player.timer === null && player.entry === player.last()")
            self.assertGreater(time.monotonic() - begun, 1.0)
            word = formats.channels_word(found["channels"])
            self.assertEqual(await played.pixels(), pixels_of(word, 0, canvas.width, canvas.height, canvas.rows))

    async def test_buttons(self):
        page = await self.open()
        await page.until("part.recorded.textContent.includes('recorded: ')")
        with tempfile.TemporaryDirectory() as room:
            await page.call("Browser.setDownloadBehavior", behavior="allow", downloadPath=room)
            await page.value("part.save.click()")
            await until(lambda: list(pathlib.Path(room).glob("rio9-*.html")))
            path = next(pathlib.Path(room).glob("rio9-*.html"))
            self.assertTrue(saved_in(path.read_text(encoding="utf-8"))[1].startswith(b"F 0 "))
        kept = self.live.hub.recording
        await page.value("part.anew.click()")
        await until(lambda: self.live.hub.recording is not kept and self.live.hub.recording.times)
        await page.value("part.help.click()")
        self.assertTrue(await page.value("part.words.open"))
        await page.value("part.wordsClose.click()")
        self.assertEqual(page.wrong, [])

    async def test_times_that_do_not_fit(self):
        page = await self.open()
        await until(lambda: self.live.hub.recording.times)
        text = (await self.live.get("/save", self.live.server.drive))[1]
        with tempfile.TemporaryDirectory() as room:
            path = pathlib.Path(room) / "saved.html"
            path.write_text(text.replace('"times":[[0,0]', '"times":[[1]'), encoding="utf-8")
            played = await self.browser.page(path.as_uri())
            await played.until("part.told.textContent")
            self.assertEqual(await played.value("part.told.textContent"), "the times of this page do not fit")
        self.assertEqual(page.wrong, [])


if __name__ == "__main__":
    unittest.main()
