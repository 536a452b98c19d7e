"""Gives the live page to browsers on this machine, and passes on frames and what is done on the page (aiohttp)."""

import asyncio
import hmac
import logging
import secrets
import time
from typing import Awaitable, Callable, Optional, Set

from aiohttp import WSCloseCode, WSMsgType, web
from aiohttp.http_exceptions import HttpProcessingError

from rio9.live import pages, requests
from rio9.client import Address
from rio9.live.acts import Act, GetSnarf, Mouse
from rio9.live.hub import Hub, Viewer
from rio9.live.requests import Anew, BadRequest, Request, Shown, Visible, WantSnarf
from rio9.live.watcher import Busy
from rio9.server import address_text

TOKEN_BYTES = 18
MOST_VIEWERS, MOST_LINE = 32, 300
HEARTBEAT, FAREWELL = 30.0, 2.0  # seconds: between two signs of life, and for the last words of a page
POLICY = (
    "default-src 'none'; script-src 'nonce-NONCE'; style-src 'nonce-NONCE'; "
    "connect-src 'self'; img-src data:; frame-ancestors 'none'"
)
HEADERS = {
    "Cache-Control": "no-store",
    "Referrer-Policy": "no-referrer",
    "X-Content-Type-Options": "nosniff",
    "X-Frame-Options": "DENY",
    "Cross-Origin-Resource-Policy": "same-origin",
}

Handler = Callable[[web.Request], Awaitable[web.StreamResponse]]


class Server:
    """The pages and the WebSocket of a desktop. Whoever has `drive` may drive it, whoever has `watch` may only look."""

    def __init__(self, hub: Hub, is_view_only: bool) -> None:
        self.hub, self.is_view_only = hub, is_view_only
        self.drive, self.watch = secrets.token_urlsafe(TOKEN_BYTES), secrets.token_urlsafe(TOKEN_BYTES)
        self.sockets: Set[web.WebSocketResponse] = set()
        self.app = web.Application()
        for path, handler in (("/", self.page), ("/socket", self.socket), ("/save", self.save)):
            self.app.router.add_get(path, self.guarded(handler))

    def guarded(self, handler: Handler) -> Handler:
        """A handler of requests that name this machine and have a token."""

        async def handle(request: web.Request) -> web.StreamResponse:
            if not pages.HOSTS.fullmatch(request.host):
                return refusal(
                    403,
                    "This address is not one of this machine",
                    "Open the page by the address that rio9d live printed.",
                )
            if self.may_drive(request) is None:
                return refusal(
                    403,
                    "The token is missing or wrong",
                    "Open the whole address that rio9d live printed last, with ?token= and what follows it.",
                )
            return await handler(request)

        return handle

    def may_drive(self, request: web.Request) -> Optional[bool]:
        """Whether a request's token lets it drive, or only watch; None if it is no token."""
        token = request.query.get("token", "").encode(errors="replace")
        if hmac.compare_digest(token, self.drive.encode()):
            return not self.is_view_only
        return False if hmac.compare_digest(token, self.watch.encode()) else None

    async def page(self, request: web.Request) -> web.StreamResponse:
        """The live page."""
        nonce = secrets.token_urlsafe(TOKEN_BYTES)
        text = pages.live_page(nonce)
        policy = POLICY.replace("NONCE", nonce)
        return web.Response(
            text=text,
            content_type="text/html",
            headers={**HEADERS, "Content-Security-Policy": policy},
        )

    async def save(self, request: web.Request) -> web.StreamResponse:
        """The recording, as a page that plays by itself."""
        recording = self.hub.recording
        if not self.may_drive(request) and not self.is_view_only:
            return refusal(403, "This page only watches", "Ask whoever drives the desktop to save the recording.")
        if recording is None or not recording.times:
            return refusal(
                409, "Nothing was recorded yet", "Open the live page, wait until it shows the desktop, and save again."
            )
        title = f"{address_text(self.hub.watcher.address)}, {time.strftime('%Y-%m-%d %H:%M')}"
        text = await asyncio.get_running_loop().run_in_executor(None, recording.page, title)
        name = time.strftime("rio9-%Y%m%d-%H%M%S.html")
        return web.Response(
            text=text,
            content_type="text/html",
            headers={**HEADERS, "Content-Disposition": f'attachment; filename="{name}"'},
        )

    # The WebSocket.

    async def socket(self, request: web.Request) -> web.StreamResponse:
        """Frames to a page, and what is done on it."""
        if request.headers.get("Origin") != f"http://{request.host}":
            return refusal(403, "This page is not one of rio9d live", "Open the address that rio9d live printed.")
        if len(self.hub.viewers) >= MOST_VIEWERS:
            return refusal(503, f"{MOST_VIEWERS} pages watch already", "Close one of them.")
        socket = web.WebSocketResponse(
            timeout=FAREWELL, heartbeat=HEARTBEAT, max_msg_size=requests.MOST_BYTES, compress=False
        )
        await socket.prepare(request)
        viewer = Viewer(bool(self.may_drive(request)))
        self.sockets.add(socket)
        self.hub.enter(viewer)
        sender = asyncio.create_task(self.send(socket, viewer))
        try:
            await self.receive(socket, viewer)
        finally:
            sender.cancel()
            self.hub.leave(viewer)
            self.sockets.discard(socket)
        return socket

    async def send(self, socket: web.WebSocketResponse, viewer: Viewer) -> None:
        """Sends what a page lacks, for ever."""
        try:
            while True:
                await viewer.wake.wait()
                viewer.wake.clear()
                for message in viewer.take_messages():
                    await socket.send_str(message)
                frame = self.hub.frame(viewer)
                if frame:
                    await socket.send_bytes(frame)
        except ConnectionError:
            await socket.close()

    async def receive(self, socket: web.WebSocketResponse, viewer: Viewer) -> None:
        """Takes what a page sends, until it ends or sends what is no request."""
        async for message in socket:
            if message.type is WSMsgType.ERROR:
                return
            try:
                if message.type is not WSMsgType.TEXT:
                    raise BadRequest("a request is a text")
                self.take(viewer, requests.read_request(message.data))
            except BadRequest as error:
                await socket.close(code=WSCloseCode.POLICY_VIOLATION, message=f"no request: {error}".encode()[:120])
                return

    def take(self, viewer: Viewer, request: Request) -> None:
        """Takes a request of a page."""
        if not viewer.may_drive and not isinstance(request, requests.WATCHING):
            viewer.tell({"kind": "told", "why": "this page only watches: open the address for driving"})
        elif isinstance(request, Shown):
            viewer.shown = max(viewer.shown, min(request.frame, viewer.sent))
            self.wake(viewer)
        elif isinstance(request, Visible):
            viewer.is_seen = request.is_seen
            self.wake(viewer)
        elif isinstance(request, Anew):
            self.hub.record_anew()
        elif isinstance(request, WantSnarf):
            self.put(viewer, GetSnarf(in_loop(lambda text: viewer.tell({"kind": "snarf", "text": text}))))
        else:
            if isinstance(request, Mouse):
                self.hub.point(viewer, request.point)
            self.put(viewer, request)

    def wake(self, viewer: Viewer) -> None:
        """Looks whether a page would take a frame now."""
        viewer.wake.set()
        self.hub.want()

    def put(self, viewer: Viewer, act: Act) -> None:
        """Lets the watcher do something for a page, which is told if it is refused."""
        refused = in_loop(lambda why: viewer.tell({"kind": "told", "why": f"the server refuses: {why}"}))
        try:
            self.hub.watcher.queue.put(act, refused)
        except Busy as error:
            viewer.tell({"kind": "told", "why": str(error)})

    async def close(self) -> None:
        """Ends all WebSockets."""
        for socket in list(self.sockets):
            await socket.close()


def in_loop(take: Callable[[str], None]) -> Callable[[str], None]:
    """What lets the loop take a text that another thread gives."""
    loop = asyncio.get_running_loop()

    def give(text: str) -> None:
        if not loop.is_closed():
            loop.call_soon_threadsafe(take, text)

    return give


def refusal(status: int, what: str, then: str) -> web.Response:
    """A page that tells what is wrong and what to do."""
    return web.Response(text=pages.refusal_page(what, then), status=status, content_type="text/html", headers=HEADERS)


class OneLine(logging.Formatter):
    """Tells what went wrong within the server in a line."""

    def format(self, record: logging.LogRecord) -> str:
        """The line."""
        error = record.exc_info[1] if record.exc_info else None
        text = f"{record.getMessage()}: {type(error).__name__}: {error}" if error else record.getMessage()
        return f"rio9d live: {' '.join(text.split())[:MOST_LINE]}"


def is_ours(record: logging.LogRecord) -> bool:
    """Whether what is logged is a fault of ours: not that what came was no HTTP, which is refused."""
    return not (record.exc_info and isinstance(record.exc_info[1], HttpProcessingError))


def log_in_lines() -> None:
    """Lets the libraries log in lines on standard error."""
    handler = logging.StreamHandler()
    handler.setFormatter(OneLine())
    handler.addFilter(is_ours)
    for name in ("aiohttp", "asyncio"):
        logging.getLogger(name).handlers = [handler]
        logging.getLogger(name).propagate = False


class NoPlace(Exception):
    """The page cannot be served at an address. It tells why."""


async def serve(server: Server, place: Address, begun: Callable[[Address], None], ended: asyncio.Event) -> None:
    """Serves the page until the event comes."""
    runner = web.AppRunner(server.app, access_log=None, handle_signals=False)
    await runner.setup()
    tasks = [asyncio.create_task(server.hub.record()), asyncio.create_task(server.hub.tell_states())]
    try:
        site = web.TCPSite(runner, place[0], place[1])
        try:
            await site.start()
        except OSError as error:
            raise NoPlace(
                f"the page cannot be served at {address_text(place)}: {error.strerror or error}: "
                "give another port, or 0 for a free one"
            ) from None
        begun(runner.addresses[0][:2])
        await ended.wait()
    finally:
        for task in tasks:
            task.cancel()
        await server.close()
        await runner.cleanup()
