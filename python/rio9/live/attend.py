"""Serves the live page of a desktop until a signal comes: what `rio9d live` does once its words are read."""

import argparse
import asyncio
import signal

from rio9 import client
from rio9.live.acts import Cost
from rio9.live.hub import Hub
from rio9.live.screen import BadScreen
from rio9.live.repaint import tell
from rio9.live.server import NoPlace, Server, log_in_lines, serve
from rio9.live.watcher import advice
from rio9.server import address_text

MEGABYTE = 1 << 20


def run(options: argparse.Namespace) -> int:
    """Serves the page, and gives the command's status."""
    log_in_lines()
    try:
        return asyncio.run(attend(options))
    except (client.Failure, BadScreen) as error:
        return tell("live", advice(options.address, error))
    except NoPlace as error:
        return tell("live", str(error))


async def attend(options: argparse.Namespace) -> int:
    """Serves the page of a desktop until a signal comes."""
    loop, ended = asyncio.get_running_loop(), asyncio.Event()
    hub = Hub(options.address, options.seconds, options.keep * MEGABYTE)
    server = Server(hub, options.view_only)
    await loop.run_in_executor(None, hub.watcher.connect)
    for number in (signal.SIGINT, signal.SIGTERM):
        loop.add_signal_handler(number, ended.set)

    def begun(place: "tuple[str, int]") -> None:
        hub.watcher.start()
        base = f"http://{address_text(place)}/?token="
        lines = [] if options.view_only else [f"to drive it: {base}{server.drive}"]
        print("\n".join([*lines, f"to watch it: {base}{server.watch}"]), flush=True)

    try:
        await serve(server, options.listen, begun, ended)
    finally:
        await loop.run_in_executor(None, hub.watcher.stop)
    print(told_cost(hub.watcher.cost), flush=True)
    return 0


def told_cost(cost: Cost) -> str:
    """What watching has cost the server's record, in a line."""
    others = cost.messages - cost.reads
    return f"the server's record has {cost.reads} reads and {others} other messages of this, about {cost.bytes} bytes"
