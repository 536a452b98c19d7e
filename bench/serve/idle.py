#!/usr/bin/env python3
"""Tries `rio9 serve` with clients that say nothing, vanish, are let in late or do not read, beside honest ones.

    bench/serve/idle.py [--program PATH] [--only CHECK]

Wants Linux, Python 3 and the built program (--program names another one). It takes some 100 seconds, most of which it waits. The
checks:

- silent: as many clients as there are workers send nothing, or a byte at a time; each is closed within 12 seconds, `read fault`
  stands on err for it, and an honest client is served then;
- beside: one client of 16 workers stays and is silent after its first message; 90 others are served meanwhile, and it is too;
- refused: a server that has no descriptor left does not end, and serves once it has some;
- behind: a client that sends a size that no message has gets all replies to what came before, and its end;
- unread: a client that does not read is ended within 70 seconds, with `write fault`, and an honest one is served then.

In each, honest clients get what the replay of the record gives. Status 1 tells that something is otherwise, 2 that a word or a file
is wrong.
"""

import sys
import time

import clients
from clients import ATTACH, READ_SCREEN, STAT, VERSION, Client, honest, served, within

SOON = 2  # seconds in which an honest client is served
FIRST = 12  # seconds until a client is closed that has not sent its first message
STUCK = 70  # seconds until one is ended that does not read


def ends_well(server, lines):
    """Waits for the end of a server, which has status 0 and these lines on err."""
    status = server.ended()
    told = [line for _, line in served.session_lines(server.lines())]
    if status != 0 or sorted(told) != sorted(lines):
        raise served.Wrong(f"the server ends with status {status}, and err has {told}")


def serves_soon(server):
    begun = time.monotonic()
    client = honest(server)
    if time.monotonic() - begun > SOON:
        raise served.Wrong(f"an honest client was served after {time.monotonic() - begun:.1f} seconds")
    return client


def silent(program, room):
    workers = 4
    with served.Server(program, room, workers, workers + 2) as server:
        quiet = [Client(server) for _ in range(workers)]
        begun = time.monotonic()
        sent = 0

        def are_closed():
            nonlocal sent
            if sent < time.monotonic() - begun and sent < 18 and not clients.is_closed(quiet[0]):
                quiet[0].socket.send(VERSION[sent : sent + 1])
                sent += 1
            return all(clients.is_closed(client) for client in quiet)

        took = within(FIRST, "silent clients are still let be", are_closed)
        found = [serves_soon(server), serves_soon(server)]
        ends_well(server, ["read fault"] * workers)
        clients.check_streams(server, found)
    return f"{workers} silent clients were closed within {took:.1f} s"


def beside(program, room):
    workers, others = 16, 90
    with served.Server(program, room, workers, 96) as server:
        quiet = Client(server)
        quiet.ask(VERSION)
        found = [serves_soon(server) for _ in range(others)]
        quiet.ask(ATTACH)
        quiet.ask(STAT)
        quiet.end()
        found += [serves_soon(server) for _ in range(96 - others - 1)]
        ends_well(server, [])
        clients.check_streams(server, [quiet, *found])
    return f"{others} clients were served beside a silent one"


def refused(program, room):
    with served.Server(program, room, 2, 4) as server:
        time.sleep(0.2)  # it has all that it needs to wait
        clients.limit_descriptors(server.process, clients.descriptors(server.process))
        waiting = Client(server)
        waiting.send(VERSION)
        time.sleep(1)
        if server.process.poll() is not None:
            raise served.Wrong(f"without descriptors the server ends with status {server.process.returncode}")
        clients.limit_descriptors(server.process, 64)
        waiting.reply()
        waiting.end()
        found = [serves_soon(server) for _ in range(3)]
        ends_well(server, [])
        clients.check_streams(server, [waiting, *found])
    return "a server without descriptors went on once it had some"


def behind(program, room):
    rounds = 20
    with served.Server(program, room, 1, rounds) as server:
        for _ in range(rounds):
            client = Client(server)
            client.socket.sendall(VERSION + ATTACH + STAT * 50 + bytes([1, 0, 0, 0]) + bytes(100_000))
            replies = 0
            while client.reply():
                replies += 1
            if replies != 52:
                raise served.Wrong(f"{replies} of 52 replies came")
            client.socket.close()
        ends_well(server, ["bad size 1"] * rounds)
    return f"{rounds} clients got their replies before a bad size"


def unread(program, room):
    with served.Server(program, room, 1, 2) as server:
        greedy = Client(server)
        greedy.ask(VERSION)
        greedy.ask(ATTACH)
        greedy.ask(clients.WALK_SCREEN)
        greedy.ask(clients.OPEN_SCREEN)
        greedy.socket.sendall(READ_SCREEN * 400)
        waiting = Client(server, STUCK)
        begun = time.monotonic()
        waiting.ask(VERSION)
        took = time.monotonic() - begun
        waiting.end()
        ends_well(server, ["write fault"])
        greedy.socket.close()
    return f"a client that does not read was ended after {took:.0f} s"


if __name__ == "__main__":
    sys.exit(clients.main("idle.py", __doc__, (silent, beside, refused, behind, unread), sys.argv[1:]))
