"""Drives Chromium without a window by its protocol for tools, over aiohttp, for the tests of the live page."""

import asyncio
import base64
import contextlib
import json
import pathlib
import shutil
import tempfile
import zlib

import aiohttp

BROWSER = "chromium"
SECONDS = 60
WORDS = [
    "--headless", "--no-sandbox", "--disable-gpu", "--disable-dev-shm-usage", "--no-first-run", "--hide-scrollbars",
    "--mute-audio", "--disable-renderer-backgrounding", "--disable-backgrounding-occluded-windows",
    "--disable-background-timer-throttling", "--disable-background-networking", "--disable-component-update",
    "--remote-debugging-port=0",
]  # fmt: skip
BUTTONS = {"left": 1, "right": 2, "middle": 4}


class NoAnswer(Exception):
    """The browser does not do what it is asked."""


def browser():
    """The path of the browser, or None."""
    return shutil.which(BROWSER)


class Page:
    """A page of the browser, over a WebSocket."""

    def __init__(self, socket):
        self.socket, self.count, self.waiting, self.loaded = socket, 0, {}, asyncio.Event()
        self.wrong = []
        self.task = asyncio.create_task(self.take())

    async def take(self):
        async for message in self.socket:
            found = json.loads(message.data)
            if found.get("id") in self.waiting:
                self.waiting.pop(found["id"]).set_result(found)
            elif found.get("method") == "Page.loadEventFired":
                self.loaded.set()
            elif found.get("method") == "Runtime.exceptionThrown":
                self.wrong.append(found["params"]["exceptionDetails"])

    async def call(self, method, **params):
        """What a method gives."""
        self.count += 1
        self.waiting[self.count] = answer = asyncio.get_running_loop().create_future()
        await self.socket.send_str(json.dumps({"id": self.count, "method": method, "params": params}))
        found = await asyncio.wait_for(answer, SECONDS)
        if "error" in found:
            raise NoAnswer(f"{method}: {found['error']}")
        return found["result"]

    async def open(self, address):
        """Goes to an address, and waits until the page is there."""
        await self.call("Page.enable")
        await self.call("Runtime.enable")
        self.loaded.clear()
        await self.call("Page.navigate", url=address)
        await asyncio.wait_for(self.loaded.wait(), SECONDS)

    async def value(self, script):
        """The value of an expression, which may be promised."""
        found = await self.call("Runtime.evaluate", expression=script, awaitPromise=True, returnByValue=True)
        if "exceptionDetails" in found:
            raise NoAnswer(f"{script[:80]}: {found['exceptionDetails']}")
        return found["result"].get("value")

    async def until(self, script, seconds=SECONDS):
        """Waits until an expression is true."""
        end = asyncio.get_running_loop().time() + seconds
        while not await self.value(script):
            if asyncio.get_running_loop().time() > end:
                raise NoAnswer(f"{script}: {seconds} seconds are over")
            await asyncio.sleep(0.02)

    async def pixels(self, name="picture"):
        """The width, the height and the red, green and blue of a canvas."""
        width, height, text = await self.value(
            f"""(async () => {{
                const canvas = document.getElementById("{name}"), {{ width, height }} = canvas;
                const bytes = canvas.getContext("2d").getImageData(0, 0, width, height).data;
                const stream = new Blob([bytes]).stream().pipeThrough(new CompressionStream("deflate"));
                const packed = await new Response(stream).arrayBuffer();
                let text = "";
                for (const byte of new Uint8Array(packed)) text += String.fromCharCode(byte);
                return [width, height, btoa(text)];
            }})()"""
        )
        found = zlib.decompress(base64.b64decode(text))
        made = bytearray(3 * width * height)
        for part in range(3):
            made[part::3] = found[part::4]
        return width, height, bytes(made)

    async def mouse(self, kind, x, y, button="none", held=(), delta=0):
        """An event of the mouse at a place of the page; `held` are the buttons that are down then."""
        buttons = sum(BUTTONS[name] for name in held)
        words = {
            "type": kind,
            "x": x,
            "y": y,
            "button": button,
            "buttons": buttons,
            "clickCount": 1 if kind != "mouseMoved" else 0,
        }
        if kind == "mouseWheel":
            words.update(deltaX=0, deltaY=delta)
        await self.call("Input.dispatchMouseEvent", **words)

    async def key(self, key, text="", modifiers=0):
        """Presses a key and lets it go."""
        await self.call(
            "Input.dispatchKeyEvent", type="keyDown", key=key, modifiers=modifiers, **({"text": text} if text else {})
        )
        await self.call("Input.dispatchKeyEvent", type="keyUp", key=key, modifiers=modifiers)

    async def picture(self, path):
        """Writes a PNG file of the page."""
        found = await self.call("Page.captureScreenshot")
        pathlib.Path(path).write_bytes(base64.b64decode(found["data"]))


class Browser:
    """A running browser."""

    def __init__(self, process, http, port):
        self.process, self.http, self.port = process, http, port

    async def page(self, address, size=(1200, 900)):
        """A new page that shows an address."""
        async with self.http.put(f"http://127.0.0.1:{self.port}/json/new?about:blank") as answer:
            found = await answer.json()
        page = Page(await self.http.ws_connect(found["webSocketDebuggerUrl"], max_msg_size=0))
        await page.call(
            "Emulation.setDeviceMetricsOverride", width=size[0], height=size[1], deviceScaleFactor=1, mobile=False
        )
        await page.open(address)
        return page


@contextlib.asynccontextmanager
async def running():
    """A browser with a profile of its own, which is ended behind it."""
    with tempfile.TemporaryDirectory(ignore_cleanup_errors=True) as room:
        process = await asyncio.create_subprocess_exec(
            browser(),
            *WORDS,
            f"--user-data-dir={room}/profile",
            "about:blank",
            stdout=asyncio.subprocess.DEVNULL,
            stderr=asyncio.subprocess.DEVNULL,
        )
        try:
            told = pathlib.Path(room) / "profile" / "DevToolsActivePort"
            for _ in range(20 * SECONDS):
                if told.exists() and told.read_text().count("\n"):
                    break
                await asyncio.sleep(0.05)
            else:
                raise NoAnswer("the browser does not begin")
            async with aiohttp.ClientSession() as http:
                yield Browser(process, http, int(told.read_text().split("\n")[0]))
        finally:
            if process.returncode is None:
                process.kill()
            await process.wait()
