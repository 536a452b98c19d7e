#!/usr/bin/env python3
"""Draws with 8 clients on `rio9 serve` for some time, watches its memory, and compares the record that it wrote with what they got.

    bench/serve/soak.py [--program PATH] [--peer PATH] [--seconds S] [--seed N] [--megabytes M]

Wants Linux, Python 3, rustc and the built program (--program names another one). The clients draw, read pixels, move and resize
their windows, type, click, take reads back and read files, for S seconds: 600 where nothing is said. They are as fast as a record
of M million bytes allows, 900 where nothing is said, since one of 2^30 bytes cannot be replayed. The resident memory of the server
is looked at each second. At the end the server has to end with status 0 and no line on err; the messages of each session in the
record have to be those that its client sent, and the replies of the replayed record those that it got, byte for byte; with --peer
that program's replay has to print the same. The memory after the first minute, or in the later half of less than two, is not to be
above that before by more than the fiftieth part and 4 MB. The same seed asks the same where no answer differs. Status 1 tells that
something is otherwise, 2 that a word or a file is wrong.
"""

import filecmp
import os
import shutil
import sys
import tempfile
import threading
import time

from loads import PROGRAM, WORKERS, built, count_of, formats, need, outcome, served, streams_of

CLIENTS = 8
MINUTE = 60
SLACK_PART, SLACK_BYTES = 0.02, 4e6


class Watch(threading.Thread):
    """Looks at a server's memory each second, and tells it each minute."""

    def __init__(self, server):
        super().__init__(daemon=True)
        self.server, self.seen, self.is_over = server, [], threading.Event()

    def run(self):
        while not self.is_over.wait(1):
            self.seen.append(self.server.memory())
            if len(self.seen) % MINUTE == 0:
                part = self.seen[-MINUTE:]
                print(f"minute {len(self.seen) // MINUTE}: memory {min(part) / 1e6:.1f} to {max(part) / 1e6:.1f} MB", flush=True)

    def end(self):
        self.is_over.set()
        self.join()
        return [size for size in self.seen if size]


def check_memory(seen):
    """Prints the memory before and after the first minute, and tells whether it stayed."""
    begin = min(MINUTE, len(seen) // 2)
    before, after = max(seen[:begin]), max(seen[begin:])
    print(f"memory: {before / 1e6:.1f} MB at most in the first {begin} seconds, {after / 1e6:.1f} MB in the {len(seen) - begin} after")
    if after > before * (1 + SLACK_PART) + SLACK_BYTES:
        raise served.Wrong("memory has grown")


def check_record(options, server, room):
    """Compares the written record with what the clients sent and got."""
    begun = time.monotonic()
    if served.begun_and_ended(server.record) != CLIENTS:
        raise served.Wrong(f"the written record has other than {CLIENTS} sessions")
    replies = served.replay(options.program, server.record)
    spent = time.monotonic() - begun
    streams = [stream for _, _, stream in streams_of(room).values()]
    by_session = served.pair_by_first(server.record, streams)
    if len(by_session) != CLIENTS:
        raise served.Wrong(f"{len(by_session)} sessions have messages")
    wrong = served.compare(server.record, replies, by_session)
    if wrong:
        raise served.Wrong("; ".join(wrong[:4]))
    sent, got = (sum(len(getattr(stream, part)) for stream in streams) for part in ("sent", "got"))
    print(f"record: {os.path.getsize(server.record) / 1e6:.1f} MB, replayed in {spent:.1f} s; {sent} bytes sent and {got} got, as the record has them")
    if options.peer:
        kept = shutil.move(replies, os.path.join(room, "replies"))
        if not filecmp.cmp(kept, served.replay(options.peer, server.record), shallow=False):
            raise served.Wrong("the peer's replay prints something else")
        print("the peer's replay prints the same")


def soak(options, room):
    load = built(room)
    with served.Server(options.program, room, WORKERS, CLIENTS) as server:
        watch = Watch(server)
        watch.start()
        words = ("draw", f"127.0.0.1:{server.port}", CLIENTS, options.seconds, options.seed, room, options.megabytes * 10**6)
        outcome(load, *words)
        seen = watch.end()
        server.use_up()
        status, lines = server.ended(), server.lines()
    if status != 0 or lines:
        raise served.Wrong(f"the server ends with status {status} and {lines[:1]}")
    check_record(options, server, room)
    check_memory(seen)


def main(words):
    parser = formats.Words(prog="soak.py", description=__doc__.split("\n")[0])
    parser.add_argument("--program", default=PROGRAM, help="another program than the built one")
    parser.add_argument("--peer", help="a program whose replay is to print the same")
    parser.add_argument("--seconds", type=count_of, default=600, metavar="S")
    parser.add_argument("--seed", type=count_of, default=1, metavar="N")
    parser.add_argument("--megabytes", type=count_of, default=900, metavar="M", help="of the record, at most")
    options = parser.parse_args(words)
    need("soak.py", *filter(None, [options.program, options.peer]))
    with tempfile.TemporaryDirectory() as room:
        try:
            soak(options, room)
        except served.Wrong as error:
            sys.stderr.write(f"soak.py: {error}\n")
            return 1
    return 0


if __name__ == "__main__":
    sys.exit(main(sys.argv[1:]))
