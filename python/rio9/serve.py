"""Starts a server, tells where it listens, logs its clients, and ends it in order on SIGTERM and SIGINT.

    rio9d serve --listen 127.0.0.1:0 --record session.record

`listening HOST:PORT` on standard output tells that clients can connect. Each client is told of on standard error, as
a line or as JSON. The record is whole when the command has ended, by a signal or because as many clients as --conns
have come; beside it stands RECORD.json with the display's size and channels, the start, and the time of each second's
first entry. A socket that systemd passes is taken in place of --listen. The statuses are those of rio9 serve, and 127
where the program is not found.
"""

import argparse
import json
import os
import signal
import sys
from typing import Callable, Dict, List, Optional, TextIO

from rio9 import formats, program, side, systemd
from rio9.client import address_or_free
from rio9.server import Server, ServerWords, address_text

LISTEN = "127.0.0.1:5640"

LINES: Dict[str, str] = {
    "listening": "listening {address}, with {workers} workers; record: {record}",
    "begins": "connection {connection} from {peer}",
    "ends": "connection {connection} ended: {seconds} s, {messages} messages, {sent} bytes sent, {got} bytes got",
    "waits": "{peer} waits: all {workers} workers are busy; it is served when another client ends",
    "refused": "{peer} could not be passed on: the server takes no further clients",
    "told": "{line}",
    "forced": "the server did not end within {seconds} s and was killed: the record lacks its last entries",
}


class Log:
    """Tells what happens, on a stream, as lines or as JSON."""

    def __init__(self, stream: TextIO, is_json: bool) -> None:
        self.stream, self.is_json = stream, is_json

    def tell(self, event: str, told: Dict[str, object]) -> None:
        """Writes one line, with the time."""
        time = side.now().isoformat(timespec="milliseconds")
        if self.is_json:
            line = json.dumps({"time": time, "event": event, **told})
        else:
            line = f"{time} {LINES[event].format(**told)}"
        self.stream.write(line + "\n")
        self.stream.flush()


def read_by(reader: Callable[[str], object]) -> Callable[[str], object]:
    """What reads an option's value by a reader that raises ValueError."""

    def read(text: str) -> object:
        try:
            return reader(text)
        except ValueError as error:
            raise argparse.ArgumentTypeError(str(error)) from None

    return read


def parser() -> program.Words:
    """A reader of the command's words."""
    found = program.Words(
        prog="rio9d serve",
        description=__doc__,
        formatter_class=argparse.RawDescriptionHelpFormatter,
        allow_abbrev=False,
    )
    add = found.add_argument
    add(
        "--size",
        type=read_by(program.size),
        default=formats.USUAL_SIZE,
        metavar="WxH",
        help="the display's size; 640x480",
    )
    add(
        "--chan",
        type=read_by(program.channels),
        default=formats.USUAL_CHANNELS,
        metavar="C",
        help="its channels; x8r8g8b8",
    )
    most = program.MOST_WORKERS
    workers = read_by(lambda text: program.number(text, program.MOST_WORKERS))
    add("--workers", type=workers, default=most, metavar="K", help=f"how many clients at a time; {most}")
    connections = read_by(lambda text: program.number(text, program.MOST_CONNECTIONS))
    add(
        "--conns",
        type=connections,
        default=program.MOST_CONNECTIONS,
        metavar="N",
        help="how many clients in all; 100000",
    )
    listen = f"where; port 0 is one that is free; {LISTEN}"
    add("--listen", type=read_by(address_or_free), default=address_or_free(LISTEN), metavar="HOST:PORT", help=listen)
    add("--record", metavar="FILE", help="the file of the record, which must not be there; none is kept without it")
    add("--program", metavar="FILE", help=f"the program rio9; else ${program.TOLD_BY}, or beside rio9d, or on PATH")
    add("--log", choices=("lines", "json"), default="lines", help="how clients are told of on standard error")
    return found


def check_record(path: Optional[str]) -> None:
    """Refuses a record that is there: it would be lost."""
    if path is not None and os.path.exists(path) and os.path.getsize(path) > 0:
        raise program.Failure(
            f"{path} is there already: name another file by --record, or remove it", program.WRITE_FAULT
        )


class EndsByASignal:
    """Ends a server in order on SIGTERM and SIGINT, also if one came while the server was being started."""

    def __init__(self) -> None:
        self.server: Optional[Server] = None
        self.has_come = False
        for number in (signal.SIGTERM, signal.SIGINT):
            signal.signal(number, self.end)

    def end(self, _number: int, _frame: object) -> None:
        """Ends the server that is followed."""
        self.has_come = True
        if self.server is not None:
            self.server.stop()

    def follow(self, server: Server) -> None:
        """Ends this server from now on."""
        self.server = server
        if self.has_come:
            server.stop()


def serve(words: ServerWords, log: Log) -> int:
    """Runs a server until it has ended, and gives the status."""
    check_record(words.record)
    ends = EndsByASignal()
    server = Server(words, log.tell, systemd.given_listener())
    ends.follow(server)
    address = address_text(server.address)
    sys.stdout.write(f"listening {address}\n")
    sys.stdout.flush()
    log.tell("listening", {"address": address, "workers": words.workers, "record": words.record})
    systemd.notify("READY=1")
    status = server.run()
    systemd.notify("STOPPING=1")
    return status


def main(words: List[str]) -> int:
    """The command `rio9d serve`."""
    options = parser().parse_args(words)
    told = ServerWords(
        binary=options.program,
        size=options.size,
        channels=options.chan,
        workers=options.workers,
        connections=options.conns,
        listen=options.listen,
        record=options.record,
    )
    try:
        return serve(told, Log(sys.stderr, options.log == "json"))
    except program.Failure as failure:
        sys.stderr.write(f"rio9d serve: {failure}\n")
        return failure.status
