#!/usr/bin/env python3
"""Tries `rio9 serve` with outputs that are closed, full, broken or slow.

    bench/serve/sinks.py [--program PATH] [--only CHECK]

Wants Linux, Python 3 and the built program (--program names another one). The checks:

- closed: a server whose standard output is closed ends with status 4 before it listens, and one whose input or error is closed does
  not listen either;
- full: so does one whose record goes to a full disk;
- fills: a record goes to a file that may have 256 KiB; once it has, sessions end, nobody is let in, memory stays, and the status is 4;
- broken: so does one whose record goes to a pipe that is closed at its other end;
- slow: a pipe is read slowly, and the record is whole and what honest clients got.

Status 1 tells that something is otherwise, 2 that a word or a file is wrong.
"""

import os
import resource
import signal
import subprocess
import sys
import threading
import time

import clients
from clients import ATTACH, STAT, VERSION, Client, honest, served, within

SOON = 3  # seconds until a server has ended that cannot write its record
SIZE = 256 << 10  # bytes that a file may have
SLACK = 8 << 20  # bytes of memory that a server may take more while it ends


def status_of(process, seconds=SOON):
    try:
        return process.wait(seconds)
    except subprocess.TimeoutExpired:
        process.kill()
        process.wait()
        raise served.Wrong(f"the server has not ended within {seconds} seconds") from None


def closed(program, room):
    for number, status in ((0, 6), (1, 4), (2, 6)):
        sink = open(os.path.join(room, "record"), "wb")
        process = clients.started(program, stdin=subprocess.DEVNULL, stdout=sink, stderr=subprocess.PIPE, preexec_fn=lambda: os.close(number))
        found = status_of(process)
        if found != status:
            raise served.Wrong(f"without descriptor {number} the status is {found}")
    return "servers without a standard stream did not listen"


def full(program, room):
    with open("/dev/full", "wb") as sink:
        process = clients.started(program, stdin=subprocess.DEVNULL, stdout=sink, stderr=subprocess.PIPE)
        found = status_of(process)
    if found != 4:
        raise served.Wrong(f"on a full disk the status is {found}")
    return "a server on a full disk did not listen"


def limit_files():
    signal.signal(signal.SIGXFSZ, signal.SIG_IGN)
    resource.setrlimit(resource.RLIMIT_FSIZE, (SIZE, SIZE))


def talk_on(client, server):
    """Asks again and again, until the server has closed the connection."""
    try:
        while client.ask(STAT)[0]:
            pass
    except ConnectionError:
        pass


def ends_by_itself(server, tell):
    """Lets clients talk until the server has ended, which it does soon once its sink has failed, with status 4."""
    talkers, quiet = [Client(server) for _ in range(3)], Client(server)
    for client in (*talkers, quiet):
        client.ask(VERSION)
        client.ask(ATTACH)
    threads = [threading.Thread(target=talk_on, args=(client, server), daemon=True) for client in talkers]
    for thread in threads:
        thread.start()
    tell()
    begun, memory, most = time.monotonic(), server.memory(), 0
    while server.process.poll() is None:
        most = max(most, server.memory())
        if time.monotonic() - begun > SOON:
            raise served.Wrong(f"the server goes on for {SOON} seconds without its record")
        time.sleep(0.02)
    for thread in threads:
        thread.join(SOON)
    if server.process.returncode != 4:
        raise served.Wrong(f"the server ends with status {server.process.returncode}")
    if most > memory + SLACK:
        raise served.Wrong(f"memory has grown from {memory} to {most} bytes")
    return time.monotonic() - begun


def fills(program, room):
    with served.Server(program, room, 8, 1000, preexec_fn=limit_files) as server:
        took = ends_by_itself(server, lambda: within(30, "the file is not full", lambda: os.path.getsize(server.record) >= SIZE))
        # What was written is a front of the record, which ends within a line.
        with open(server.record, "rb") as record:
            lines = record.read()
        with open(server.record, "wb") as record:
            record.write(lines[: lines.rindex(b"\n") + 1])
        served.replay(program, server.record)
    return f"a server whose file was full ended within {took:.1f} s"


def broken(program, room):
    reader, writer = os.pipe()
    with served.Server(program, room, 8, 1000, stdout=writer) as server:
        os.close(writer)
        drain = threading.Thread(target=lambda: os.read(reader, 1 << 16), daemon=True)
        drain.start()
        took = ends_by_itself(server, lambda: (drain.join(), os.close(reader)))
    return f"a server whose pipe broke ended within {took:.1f} s"


def slow(program, room):
    reader, writer = os.pipe()
    with served.Server(program, room, 4, 8, stdout=writer) as server:
        os.close(writer)

        def copy():
            with open(server.record, "wb") as record:
                while piece := os.read(reader, 4096):
                    record.write(piece)
                    time.sleep(0.005)

        copying = threading.Thread(target=copy)
        copying.start()
        found = [honest(server, 2000) for _ in range(8)]
        if server.ended() != 0:
            raise served.Wrong(f"the server ends with status {server.process.returncode}")
        copying.join()
        clients.check_streams(server, found)
    return f"a record of {os.path.getsize(server.record)} bytes went through a slow pipe whole"


if __name__ == "__main__":
    sys.exit(clients.main("sinks.py", __doc__, (closed, full, fills, broken, slow), sys.argv[1:]))
