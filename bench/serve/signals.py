#!/usr/bin/env python3
"""Tries what signals leave of the record of `rio9 serve`.

    bench/serve/signals.py [--program PATH] [--only CHECK]

Wants Linux, Python 3 and the built program (--program names another one). The checks:

- quiet: after 200 milliseconds of quiet the file has the whole record, which replays to what clients got; so a SIGTERM loses nothing;
- killed: clients talk on, and a SIGKILL comes; what a client was answered more than a second before is in the file;
- stopped: a server that is stopped and goes on, again and again, serves honest clients as ever.

Status 1 tells that something is otherwise, 2 that a word or a file is wrong.
"""

import signal
import sys
import threading
import time

import clients
from clients import ATTACH, STAT, VERSION, Client, honest, served

QUIET = 0.2  # seconds after which the record is whole
LOST = 1  # seconds of which a record may lack the messages


def quiet(program, room):
    with served.Server(program, room, 4, 100) as server:
        found = [honest(server, 50) for _ in range(4)]
        stays = Client(server)
        stays.ask(VERSION)
        stays.ask(ATTACH)
        stays.ask(STAT)
        time.sleep(QUIET)
        server.process.send_signal(signal.SIGTERM)
        server.process.wait()
        clients.check_streams(server, [*found, stays])
    return "the record was whole after 0.2 s of quiet"


def killed(program, room):
    with served.Server(program, room, 4, 100) as server:
        talkers, answered = [Client(server) for _ in range(4)], []

        def talk(client):
            client.ask(VERSION)
            client.ask(ATTACH)
            while True:
                client.ask(STAT)
                answered.append(time.monotonic())

        def talk_on(client):
            try:
                talk(client)
            except (ConnectionError, OSError):
                pass

        threads = [threading.Thread(target=talk_on, args=(client,), daemon=True) for client in talkers]
        for thread in threads:
            thread.start()
        time.sleep(3)
        server.process.kill()
        end = time.monotonic()
        server.process.wait()
        for thread in threads:
            thread.join(1)
        with open(server.record, "rb") as record:
            lines = record.read()
        have = lines.count(STAT.hex().encode() + b"\n")
        want = sum(when < end - LOST for when in answered)
        if have < want:
            raise served.Wrong(f"the record has {have} of {want} messages that were answered a second before")
        with open(server.record, "wb") as record:
            record.write(lines[: lines.rindex(b"\n") + 1])
        served.replay(program, server.record)
    return f"of {len(answered)} answered messages the record has {have}"


def stopped(program, room):
    with served.Server(program, room, 4, 8) as server:
        found, is_over = [], threading.Event()

        def stop_and_go():
            while not is_over.wait(0.03):
                server.process.send_signal(signal.SIGSTOP)
                time.sleep(0.01)
                server.process.send_signal(signal.SIGCONT)

        stopping = threading.Thread(target=stop_and_go)
        stopping.start()
        try:
            for _ in range(8):
                client = Client(server)
                client.ask(VERSION)
                client.ask(ATTACH)
                for _ in range(5):
                    time.sleep(0.05)
                    client.ask(STAT)
                client.end()
                found.append(client)
        finally:
            is_over.set()
            stopping.join()
        status, lines = server.ended(), server.lines()
        if status != 0 or lines:
            raise served.Wrong(f"the server ends with status {status}, and err has {lines[:2]}")
        clients.check_streams(server, found)
    return "8 clients were served by a server that was stopped at times"


if __name__ == "__main__":
    sys.exit(clients.main("signals.py", __doc__, (quiet, killed, stopped), sys.argv[1:]))
