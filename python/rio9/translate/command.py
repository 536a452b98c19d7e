"""Stands between clients and a server, and makes of what the server refuses what it has.

    rio9d translate LISTEN HOST:PORT

LISTEN is the address at which it listens, as 127.0.0.1:5641; the port 0 asks for a free one. It prints the address, and
goes on until it is interrupted. Programs of Plan 9 that reach the server through it have compressed images and fonts,
lines, ellipses, arcs and polygons, images of the channels m8, and a file `cursor`. What it does is beside the profile,
and not proved: the server stays as it is, and its record has the translated messages. Whoever can connect here has the
whole desktop, as at the server itself.
"""

import argparse
import asyncio
import os
import re
import signal
import sys
from typing import List, Set, Tuple

from rio9 import formats
from rio9.server import address_text
from rio9.translate.cursors import Cursors
from rio9.translate.session import Session

ADDRESS = re.compile(r"(?:\[([^\[\]]+)\]|([^:\[\]]+)):([0-9]{1,5})")
LAST_PORT = 65535
Address = Tuple[str, int]


def address_of(text: str) -> Address:
    """The host and the port of HOST:PORT; a host of IPv6 stands in brackets."""
    found = ADDRESS.fullmatch(text)
    if not found or int(found[3]) > LAST_PORT:
        raise argparse.ArgumentTypeError(f"no address, as 127.0.0.1:5640: {text}")
    return found[1] or found[2], int(found[3])


def complain(why: str) -> None:
    """Tells what is wrong, in one line."""
    sys.stderr.write(f"rio9d translate: {why}\n")


def why(error: OSError) -> str:
    """What an OSError tells, in few words."""
    return os.strerror(error.errno) if error.errno else str(error)


class Door:
    """Translates for each client that comes, until `end`."""

    def __init__(self, server: Address) -> None:
        self.server, self.cursors = server, Cursors({})
        self.live: "Set[asyncio.Future[None]]" = set()

    async def come(self, reader: asyncio.StreamReader, writer: asyncio.StreamWriter) -> None:
        """Translates for a client."""
        task = asyncio.ensure_future(self.translate(reader, writer))
        self.live.add(task)
        await asyncio.wait((task,))
        self.live.discard(task)

    async def translate(self, reader: asyncio.StreamReader, writer: asyncio.StreamWriter) -> None:
        """Connects to the server, and translates until one side ends."""
        try:
            server_reader, server_writer = await asyncio.open_connection(*self.server)
        except OSError as error:
            complain(
                f"the server at {address_text(self.server)} cannot be reached: {why(error)}; is a server there? rio9d "
                "serve starts one"
            )
            writer.close()
            return
        fault = await Session(reader, writer, server_reader, server_writer, self.cursors).run()
        if fault is not None:
            complain(f"a session ended by a fault of the translator: {type(fault).__name__}: {fault}")

    async def end(self) -> None:
        """Ends the sessions."""
        for task in self.live:
            task.cancel()
        await asyncio.gather(*self.live, return_exceptions=True)


async def serve(listen: Address, server: Address) -> None:
    """Listens, and translates, until a signal ends it."""
    loop, stop, door = asyncio.get_running_loop(), asyncio.Event(), Door(server)
    for number in (signal.SIGINT, signal.SIGTERM):
        loop.add_signal_handler(number, stop.set)
    listener = await asyncio.start_server(door.come, *listen)
    host, port = listener.sockets[0].getsockname()[:2]
    print(f"listening {address_text((host, port))}", flush=True)
    await stop.wait()
    listener.close()
    await door.end()


def main(words: List[str]) -> int:
    """Does what the words say, and gives the status."""
    form = argparse.RawDescriptionHelpFormatter
    parser = formats.Words(prog="rio9d translate", description=__doc__, formatter_class=form)
    parser.add_argument("listen", type=address_of, metavar="LISTEN")
    parser.add_argument("server", type=address_of, metavar="HOST:PORT")
    options = parser.parse_args(words)
    try:
        asyncio.run(serve(options.listen, options.server))
    except OSError as error:
        complain(f"cannot listen at {address_text(options.listen)}: {why(error)}; 127.0.0.1:0 takes a free port")
        return 1
    return 0
