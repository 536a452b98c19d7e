#!/usr/bin/env python3
"""Measures many servers beside each other: how long one takes to start, what it holds, and how many messages they answer.

    bench/scale/times.py crates/rio9/out/rio9 [--servers 1,10,100,1000] [--seconds 3]

Each server has one client, which asks for the stat of its root, a hundred times in one write, and asks again when all is answered.
One process has all clients. Memory is read while nothing is asked: what a server alone holds (private), and what it holds of what
all share (resident). Lines of numbers go to standard output. Status 1 if an answer is another one, 2 if a word is wrong.

It is outside the proof. Needs: Linux, Python 3.9 or later, its standard library alone.
"""

import argparse
import os
import resource
import select
import statistics
import subprocess
import sys
import time

ROOT = os.path.dirname(os.path.dirname(os.path.dirname(os.path.abspath(__file__))))
sys.path.insert(0, os.path.join(ROOT, "python"))
from rio9 import client, formats, record, server

STARTS = 20
ASKED_AT_ONCE = 100
ROUNDS = 30
FILES_OF_A_SERVER = 4
KIB, GIB = 1024, 1 << 30
DISPLAYS = ("640x480", "1024x768")


class Desktop:
    """A server, its client, and the bytes that it has still to answer."""

    def __init__(self, program, size="640x480", workers=1):
        words = ["--size", size, "--listen", "127.0.0.1:0", "--workers", str(workers), "--conns", "1000"]
        begin = time.monotonic()
        self.process = subprocess.Popen([program, "serve", *words], stdin=subprocess.DEVNULL, stdout=subprocess.DEVNULL)
        while (port := server.listening_port(self.process.pid)) is None:
            if self.process.poll() is not None:
                raise SystemExit(1)
            time.sleep(0.0005)
        self.took, self.address, self.session = time.monotonic() - begin, ("127.0.0.1", port), None
        self.left = 0

    def connect(self):
        self.session = client.connect(self.address)
        self.session.socket.setblocking(False)

    def memory(self, name):
        """Bytes of a line of what the process holds."""
        with open(f"/proc/{self.process.pid}/smaps_rollup") as lines:
            return sum(int(line.split()[1]) * KIB for line in lines if line.startswith(name))

    def end(self):
        if self.session is not None:
            self.session.socket.close()
        self.process.kill()
        self.process.wait()


def worked(process):
    """The seconds that a process has had of processors, which other work of the machine does not lengthen."""
    nanoseconds = 0
    for task in os.listdir(f"/proc/{process}/task"):
        with open(f"/proc/{process}/task/{task}/schedstat") as line:
            nanoseconds += int(line.read().split()[0])
    return nanoseconds / 1e9


def started(program, count, size="640x480", workers=1):
    """Some servers, started one after the other."""
    return [Desktop(program, size, workers) for _ in range(count)]


def tell_starts(program):
    """How long a server takes until it listens."""
    times, work = [], []
    for _ in range(STARTS):
        one = Desktop(program)
        times.append(1000 * one.took)
        work.append(1000 * worked(one.process.pid))
        one.end()
    told = f"{min(times):.1f} to {max(times):.1f} ms, of which a processor works {statistics.median(work):.1f} ms"
    print(f"start: {told}, of {STARTS}", flush=True)


def tell_memory(program, count=20):
    """What idle servers hold, by display and workers, without a client and with one that has looked at the screen."""
    for size in DISPLAYS:
        for workers in (1, 16):
            desktops = started(program, count, size, workers)
            idle = statistics.median(one.memory("Private_") for one in desktops)
            for one in desktops:
                with client.connect(one.address) as session, session.file(session.root, "screen") as file:
                    file.read_all()
            used = statistics.median(one.memory("Private_") for one in desktops)
            resident = statistics.median(one.memory("Rss:") for one in desktops)
            told = [
                f"private {idle / KIB:.0f} KiB",
                f"{used / KIB:.0f} KiB once its screen was read",
                f"resident {resident / KIB:.0f} KiB",
            ]
            print(f"memory: {size}, workers {workers}: {', '.join(told)}; {int(GIB // used)} in 1 GiB", flush=True)
            for one in desktops:
                one.end()


def question(tag, fid):
    """A message that asks for a stat."""
    return record.write_message(record.BY_NAME["Tstat"], {"tag": tag, "fid": fid}, b"")


def bytes_of_an_answer(desktop):
    """How many bytes an answer has."""
    connection = desktop.session.socket
    connection.setblocking(True)
    connection.sendall(question(1, desktop.session.root))
    length = len(connection.recv(1 << 16))
    connection.setblocking(False)
    return length


def tell_messages(program, count, seconds):
    """How many messages so many servers answer in a second."""
    desktops = started(program, count)
    for one in desktops:
        one.connect()
    poll = select.epoll()
    by_number = {one.session.socket.fileno(): one for one in desktops}
    asked = b"".join(question(tag, desktops[0].session.root) for tag in range(1, ASKED_AT_ONCE + 1))
    length = ASKED_AT_ONCE * bytes_of_an_answer(desktops[0])
    for number, one in by_number.items():
        poll.register(number, select.EPOLLIN)
        one.session.socket.send(asked)
        one.left = length
    begin, rounds = time.monotonic(), 0
    while time.monotonic() - begin < seconds:
        for number, _ in poll.poll(1):
            one = by_number[number]
            one.left -= len(one.session.socket.recv(1 << 17))
            if one.left == 0:
                one.left, rounds = length, rounds + 1
                one.session.socket.send(asked)
    took = time.monotonic() - begin
    for one in desktops:
        one.end()
    print(f"messages: {count} servers: {rounds * ASKED_AT_ONCE / took:,.0f} a second", flush=True)


def cost_of_questions(address, process):
    """The least seconds that a question and its answer take in a round, and those that a process works for each."""
    times, before = [], worked(process)
    with client.connect(address) as session:
        for _ in range(ROUNDS):
            begin = time.perf_counter()
            for _ in range(ASKED_AT_ONCE):
                session.stat(session.root)
            times.append((time.perf_counter() - begin) / ASKED_AT_ONCE)
    return 1e6 * min(times), 1e6 * (worked(process) - before) / (ROUNDS * ASKED_AT_ONCE)


def tell_launcher(program):
    """What the launcher's relay adds to a question that waits for its answer, and what the launcher holds."""
    alone = Desktop(program)
    command = [
        sys.executable,
        os.path.join(ROOT, "python", "rio9d"),
        "serve",
        "--program",
        program,
        "--listen",
        "127.0.0.1:0",
    ]
    launcher = subprocess.Popen(command, stdout=subprocess.PIPE, stderr=subprocess.DEVNULL)
    address = client.address_of(launcher.stdout.readline().split()[1].decode())
    starts = 1000 * worked(launcher.pid)
    direct, server_works = cost_of_questions(alone.address, alone.process.pid)
    relayed, relay_works = cost_of_questions(address, launcher.pid)
    with open(f"/proc/{launcher.pid}/smaps_rollup") as lines:
        held = sum(int(line.split()[1]) for line in lines if line.startswith("Private_"))
    launcher.terminate()
    launcher.wait()
    alone.end()
    print(f"launcher: a processor works {starts:.0f} ms until it listens; private {held} KiB")
    print(f"question: {direct:.0f} us at the server, which works {server_works:.0f} us for it; ", end="")
    print(f"{relayed:.0f} us by the launcher, which works {relay_works:.0f} us more", flush=True)


def counts_of(text):
    try:
        return [int(word) for word in text.split(",") if int(word) > 0]
    except ValueError:
        raise argparse.ArgumentTypeError(f"numbers with commas between are wanted: {text}") from None


def main(words):
    parser = formats.Words(prog="times.py", description=__doc__, formatter_class=argparse.RawDescriptionHelpFormatter)
    parser.add_argument("program", help="the program")
    parser.add_argument(
        "--servers", type=counts_of, default=counts_of("1,10,100,1000"), metavar="N,N", help="how many servers"
    )
    parser.add_argument(
        "--seconds", type=formats.at_least(1), default=3, metavar="S", help="how long messages are counted"
    )
    options = parser.parse_args(words)
    if not os.access(options.program, os.X_OK):
        formats.stop("times.py", f"{options.program} is no program")
    soft, hard = resource.getrlimit(resource.RLIMIT_NOFILE)
    resource.setrlimit(
        resource.RLIMIT_NOFILE, (min(hard, max(soft, FILES_OF_A_SERVER * max(options.servers) + 100)), hard)
    )
    tell_starts(options.program)
    tell_memory(options.program)
    tell_launcher(options.program)
    for count in options.servers:
        tell_messages(options.program, count, options.seconds)
    return 0


if __name__ == "__main__":
    sys.exit(main(sys.argv[1:]))
