#!/usr/bin/env python3
"""Runs the session of examples/serve.sh with a program's `serve`, and compares.

    examples/try_serve.py crates/rio9/out/rio9

What the session prints has to be what stands here, its picture docs/serve.png; the server has to end with status 0 and without a
line on err. The record that it wrote has to give, by the program's `replay`, each session just the bytes that were seen on the
wire, and the same picture. One line tells what is otherwise: status 1; 2 where the program cannot be run. Half a minute on a busy
machine. It is outside the proof. Needs: Linux, sh, Python 3.9 or later, its standard library alone.
"""

import os
import pathlib
import socket
import subprocess
import sys
import tempfile
import threading

EXAMPLES = pathlib.Path(__file__).resolve().parent
ROOT = EXAMPLES.parent
sys.path[:0] = [str(ROOT / "tools"), str(ROOT / "python" / "tests")]
from rio9 import formats, picture
import served
from test_picture import pixels_of

SIZE = ["--size", "320x240"]
WORKERS, CONNS = 4, 64
PRINTED = """\
window 1 is window.1.1
windows: 1 2 
        112          88         296         224 current visible 
m         40          40           1 
set course
 255 227 191   0
"""


class Tap(threading.Thread):
    """Listens on the loopback, hands what comes to a server and back, and keeps the bytes of each connection, in the order in
    which they came."""

    def __init__(self, server):
        super().__init__(daemon=True)
        self.server, self.streams, self.threads = server, [], []
        self.listener = socket.create_server(("127.0.0.1", 0))
        self.address = f"127.0.0.1:{self.listener.getsockname()[1]}"

    def run(self):
        while True:
            try:
                client = self.listener.accept()[0]
            except OSError:
                return
            stream, server = served.Stream(bytearray(), bytearray()), self.server.connect()
            self.streams.append(stream)
            for source, target, kept in ((client, server, stream.sent), (server, client, stream.got)):
                self.threads.append(threading.Thread(target=self.hand, args=(source, target, kept), daemon=True))
                self.threads[-1].start()

    @staticmethod
    def hand(source, target, kept):
        source.settimeout(None)
        while piece := source.recv(1 << 16):
            kept += piece
            target.sendall(piece)
        target.shutdown(socket.SHUT_WR)

    def end(self):
        self.listener.shutdown(socket.SHUT_RDWR)
        self.join()
        for thread in self.threads:
            thread.join(10)


def run_session(address, png):
    """What the session prints."""
    run = subprocess.run(["sh", str(EXAMPLES / "serve.sh"), address, png], capture_output=True, timeout=300)
    if run.returncode != 0:
        raise served.Wrong(f"the session ends with status {run.returncode}: {run.stderr.decode(errors='replace').strip()[:200]}")
    return run.stdout.decode()


def check(is_good, told):
    if not is_good:
        raise served.Wrong(told)


def try_serve(program, room):
    wanted = pixels_of((ROOT / "docs" / "serve.png").read_bytes())
    with served.Server(program, room, WORKERS, CONNS, SIZE) as server:
        tap = Tap(server)
        tap.start()
        printed = run_session(tap.address, f"{room}/serve.png")
        tap.end()
        server.use_up()
        status, lines = server.ended(), server.lines()
    check(printed == PRINTED, f"the session prints {printed!r}")
    check(pixels_of(pathlib.Path(room, "serve.png").read_bytes()) == wanted, "the session's picture is not docs/serve.png")
    check(status == 0 and not lines, f"the server ends with status {status} and {lines[:1] or 'no line on err'}")
    check(served.begun_and_ended(server.record) == CONNS, f"the written record has other than {CONNS} sessions")
    replies = served.replay(program, server.record, [*SIZE, "--screen"])
    lines_alone, screen = pathlib.Path(replies).read_bytes().rsplit(b"\nS ", 1)
    image = screen.split(b"\n", 1)[1]
    png = picture.picture(*picture.read_image_file(image), 2)
    check(pixels_of(png) == wanted, "the replayed record's screen is not docs/serve.png")
    pathlib.Path(replies).write_bytes(lines_alone + b"\n")
    wrong = served.compare(server.record, replies, served.pair_by_all(server.record, tap.streams))
    check(not wrong, wrong[0] if wrong else "")
    return len(tap.streams), sum(len(stream.sent) + len(stream.got) for stream in tap.streams)


def main(words):
    parser = formats.Words(prog="try_serve.py", description=__doc__.split("\n")[0])
    parser.add_argument("program", help="the path of the program")
    program = parser.parse_args(words).program
    if not os.access(program, os.X_OK):
        formats.stop("try_serve.py", f"no program: {program}")
    with tempfile.TemporaryDirectory() as room:
        try:
            sessions, size = try_serve(os.path.abspath(program), room)
        except served.Wrong as error:
            sys.stderr.write(f"try_serve.py: {error}\n")
            return 1
    print(f"{sessions} sessions, {size} bytes on the wire: all as they are to be")
    return 0


if __name__ == "__main__":
    sys.exit(main(sys.argv[1:]))
