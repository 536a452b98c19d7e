#!/usr/bin/env python3
"""Runs `rio9 serve` where threads or memory are short, and asks whether a client waits for what cannot come.

    bench/serve/threads.py [--program PATH] [--refused N]

Wants Linux with glibc, Python 3, cc and the built program (--program names another one). The server has 16 workers
and an address space of 100 to 1,000 MB, or its user may have 2 to 20 threads; the latter are left out unless the
superuser runs this, who can run the server as somebody else. Then it has two workers, and one of its requests for
memory is refused, in N runs, 40 where nothing is said, which are spread over all of its requests
(tools/refused_memory.c).

Each time 8 clients come one after the other, and then 4 at once, where there are 16 workers: a worker that lacks
memory for a connection stops, and so one of two may be left. Each has to be answered, or its connection to be closed,
within a second; it then reads on to the end. A server may also end before a client comes: by itself, and with status
5 or 6. In the end each one has to end by itself, with status 0, 5 or 6. Where the written record ends each session,
each client to which all was answered has to have got just the bytes that its `replay` gives it, and each other one a
front of them. Status 1 tells that something is otherwise, 2 that a word or a file is wrong.
"""

import os
import resource
import subprocess
import sys
import tempfile
import time

from loads import PROGRAM, ROOT, count_of, formats, need, served
from talkers import Talker, hello, reads

MANY, FEW = 16, 2  # workers
IN_TURN, AT_ONCE = 8, 4
SHARE = IN_TURN + AT_ONCE  # sessions of each worker
READS, COUNT = 20, 4096  # what each client asks for
SECOND = 1.0
PATIENCE = 10  # seconds in which a server has to end
MEGABYTES = (100, 150, 200, 250, 300, 350, 400, 450, 500, 600, 700, 800, 900, 1000)
THREADS = (2, 3, 4, 6, 8, 10, 12, 16, 17, 18, 20)
SOMEBODY = 54321  # a user who runs nothing else
GOOD, EARLY = (0, 5, 6), (5, 6)


class Client(Talker):
    """A client that looks how long it waits for its first answer."""

    def __init__(self, port):
        super().__init__(port)
        self.begun = time.monotonic()
        try:
            self.say(hello() + reads(READS, COUNT))
        except OSError:
            pass

    def has_waited(self):
        """Whether neither an answer nor an end came within a second."""
        self.socket.settimeout(max(self.begun + SECOND - time.monotonic(), 0.001))
        try:
            self.got += self.socket.recv(1)
        except TimeoutError:
            return True
        except OSError:
            pass
        return False

    def finish(self):
        """Reads on to the end, however it comes."""
        try:
            self.read_on()
        except OSError:
            self.socket.close()


def meet(server, workers):
    """Meets a server with clients. Gives them, and tells what is wrong."""
    clients = []
    for count in (1,) * IN_TURN + (AT_ONCE if workers == MANY else 1,):
        if server.process.poll() is not None:
            break
        try:
            group = [Client(server.port) for _ in range(count)]
        except ConnectionError:
            break
        late = sum(client.has_waited() for client in group)
        if late:
            return clients, [f"{late} of {count} clients wait for more than a second"]
        for client in group:
            client.finish()
        clients += group
    return clients, []


def is_whole(record):
    """Whether a record ends each session that it begins: a server that lacks memory may write a front alone."""
    try:
        return served.begun_and_ended(record) > 0
    except served.Wrong:
        return False


def check_record(options, server, clients):
    """What is wrong with what the clients got."""
    if not is_whole(server.record):
        return []
    streams = [client.stream(client.is_answered()) for client in clients]
    replies = served.replay(options.program, server.record)
    return served.compare(server.record, replies, served.pair_by_first(server.record, streams))


def run(options, room, workers, more):
    """Runs a server with some limits. Tells how it went, and what is wrong."""
    try:
        server = served.Server(options.program, room, workers, SHARE * workers, **more)
    except served.Silent as error:
        told = f"ends with status {error.status} before a client comes"
        return told, [] if error.status in EARLY else [told]
    with server:
        clients, wrong = meet(server, workers)
        if wrong:
            return wrong[0], wrong
        server.use_up()
        try:
            status = server.ended(PATIENCE)
        except served.Wrong as error:
            return str(error), [str(error)]
        wrong = check_record(options, server, clients)
    answered = sum(client.is_answered() for client in clients)
    told = f"{len(clients)} clients, {answered} answered to the end, status {status}"
    return told, wrong + ([] if status in GOOD else [told])


def limited(megabytes):
    size = megabytes * 10**6
    return {"preexec_fn": lambda: resource.setrlimit(resource.RLIMIT_AS, (size, size))}


def threads_of(count):
    return {"user": SOMEBODY, "preexec_fn": lambda: resource.setrlimit(resource.RLIMIT_NPROC, (count, count))}


def refusing(options, folder):
    """How to start a server of whose requests for memory some are refused, one in each start."""
    library, asked = os.path.join(folder, "refused.so"), os.path.join(folder, "asked")
    source = os.path.join(ROOT, "tools", "refused_memory.c")
    subprocess.run(["cc", "-O2", "-shared", "-fPIC", "-o", library, source], check=True)
    with tempfile.TemporaryDirectory() as room:
        told, wrong = run(options, room, FEW, {"env": {"LD_PRELOAD": library, "ASKED": asked}})
    if wrong:
        raise served.Wrong(f"no request refused: {told}")
    with open(asked) as file:
        total = int(file.read())
    numbers = sorted({1 + total * number // options.refused for number in range(options.refused)})
    starts = {number: {"env": {"LD_PRELOAD": library, "REFUSE": str(number)}} for number in numbers}
    return [(f"request {number} of {total}", FEW, more) for number, more in starts.items()]


def main(words):
    parser = formats.Words(prog="threads.py", description=__doc__.split("\n")[0])
    parser.add_argument("--program", default=PROGRAM, help="another program than the built one")
    parser.add_argument("--refused", type=count_of, default=40, metavar="N")
    options = parser.parse_args(words)
    need("threads.py", options.program)
    cases = [(f"{megabytes} MB", MANY, limited(megabytes)) for megabytes in MEGABYTES]
    if os.geteuid() == 0:
        cases += [(f"{count} threads", MANY, threads_of(count)) for count in THREADS]
    wrong = []
    with tempfile.TemporaryDirectory() as folder:
        try:
            cases += refusing(options, folder)
        except served.Wrong as error:
            wrong.append(str(error))
        for name, workers, more in cases:
            with tempfile.TemporaryDirectory() as room:
                told, found = run(options, room, workers, more)
            print(f"{name}: {told}", flush=True)
            wrong += [f"{name}: {text}" for text in found]
    if wrong:
        sys.stderr.write(f"threads.py: {'; '.join(wrong[:4])}\n")
    return 1 if wrong else 0


if __name__ == "__main__":
    sys.exit(main(sys.argv[1:]))
