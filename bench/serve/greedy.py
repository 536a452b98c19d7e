#!/usr/bin/env python3
"""Meets `rio9 serve` of 16 workers with clients that ask and do not read, and with ones that vanish, and watches its
memory.

    bench/serve/greedy.py [--program PATH] [--seconds S] [--viewers N]

Wants Linux, Python 3 and the built program (--program names another one). First 16 clients at once read the screen
100 times each; the server is idle when they have gone. Then 16 clients at once send reads of the screen, each as many
as its connection takes within S seconds, 4 where nothing is said, and read none of the answers. Half of them close
their connections then, and half reset them. A second time 8 such clients stand beside 8 that read all that they are
answered. Last N viewers, 2,000 where nothing is said, come to another server one after the other: each asks for the
screen 100 times, and its connection is reset before it has read more than a byte.

While the greedy clients stand, the server may have at most 1 MiB and one largest reply for each of them more than
when it was idle; a second after they went at most 4 MiB more in all; and while the viewers after the first quarter of
them come at most 4 MiB more than before: some of the record may wait to be written, and an allocator keeps something.
A server has to end with status 0. Each session that reads on has to get just the bytes that the program's `replay` of
the written record gives it, and no line tells of it; each greedy one a front of them. Status 1 tells that something is
otherwise, 2 that a word or a file is wrong.
"""

import sys
import tempfile
import time

from loads import PROGRAM, count_of, formats, need, served
from talkers import MOST, Talker, hello, reads

WORKERS = 16
SHARE = 4  # sessions of each worker
MIB = 1 << 20
FOR_EACH = MIB + MOST  # what one greedy client may take
LEFT = 4 * MIB  # what all of them may leave
RUNAWAY = 4  # a server with more than so many times what it may have is ended at once
BLOCK = 1000  # reads that are sent at once
VIEWS = 100
STEP = 0.02  # seconds between two looks at the memory


def asking(port):
    """A client that has opened the screen."""
    talker = Talker(port)
    talker.say(hello())
    return talker


def most_memory(server, seconds, limit, work=lambda: None):
    """The most memory of a server while some work is done again and again. Ends the server where it runs away."""
    end, most = time.monotonic() + seconds, 0
    while time.monotonic() < end:
        most = max(most, server.memory())
        if most > limit:
            server.kill()
            raise served.Wrong(f"the server has {most / 1e6:.1f} MB, and is ended")
        work()
        time.sleep(STEP)
    return most


def pushing(talkers):
    """Work in which each client sends what its connection takes."""
    block = reads(BLOCK)
    rest = {talker: b"" for talker in talkers}

    def push():
        for talker in talkers:
            piece = rest[talker] or block
            rest[talker] = piece[talker.push(piece) :]

    return push


def stand(server, options, greedy, idle):
    """Clients that do not read stand for some seconds, and then go. Gives them, and the server's memory with its bar."""
    talkers = [asking(server.port) for _ in range(greedy)]
    bar = idle + greedy * FOR_EACH
    most = most_memory(server, options.seconds, RUNAWAY * bar, pushing(talkers))
    for talker in talkers[::2]:
        talker.socket.close()
    for talker in talkers[1::2]:
        talker.reset()
    return talkers, most, bar


def settled(server, idle, what):
    """The memory a second after clients went, which is to be that of the idle server."""
    time.sleep(1)
    left = server.memory()
    print(f"{what}: a second later {left / 1e6:.1f} MB")
    return [f"{what}: {(left - idle) / 1e6:.1f} MB are left"] if left > idle + LEFT else []


def greedy_alone(server, options, idle):
    talkers, most, bar = stand(server, options, WORKERS, idle)
    what = f"{WORKERS} greedy clients"
    print(f"{what}: {most / 1e6:.1f} MB, of {bar / 1e6:.1f} MB at most")
    wrong = [f"{what}: {most / 1e6:.1f} MB"] if most > bar else []
    return wrong + settled(server, idle, what), [talker.stream(False) for talker in talkers]


def greedy_beside(server, options, idle):
    """Half of the clients read all that they are answered."""
    honest = [asking(server.port) for _ in range(WORKERS // 2)]
    for talker in honest:
        talker.say(reads(VIEWS))
    talkers, most, bar = stand(server, options, WORKERS // 2, idle + len(honest) * FOR_EACH)
    for talker in honest:
        talker.read_on()
    what = f"{WORKERS // 2} greedy clients beside {len(honest)} others"
    print(f"{what}: {most / 1e6:.1f} MB, of {bar / 1e6:.1f} MB at most")
    wrong = [f"{what}: {most / 1e6:.1f} MB"] if most > bar else []
    streams = [talker.stream(False) for talker in talkers] + [talker.stream(True) for talker in honest]
    return wrong + settled(server, idle, what), streams


def vanished(server, options, idle):
    """Viewers come one after the other, and are gone with their answers under way."""
    seen = []
    for _ in range(options.viewers):
        viewer = asking(server.port)
        viewer.say(reads(VIEWS))
        viewer.socket.recv(1)
        viewer.reset()
        seen.append(server.memory())
        if seen[-1] > RUNAWAY * (idle + WORKERS * FOR_EACH):
            server.kill()
            raise served.Wrong(f"after {len(seen)} viewers the server has {seen[-1] / 1e6:.1f} MB, and is ended")
    quarter = max(1, len(seen) // 4)
    first, rest = max(seen[:quarter]), max(seen[quarter:], default=0)
    print(f"{len(seen)} viewers: {first / 1e6:.1f} MB while the first quarter came, {rest / 1e6:.1f} MB then")
    if rest <= first + LEFT:
        return []
    return [f"while {len(seen)} viewers came memory grew from {first / 1e6:.1f} to {rest / 1e6:.1f} MB"]


def check_record(options, server, streams):
    """Compares the written record with what the clients sent and got."""
    replies = served.replay(options.program, server.record)
    by_session = served.pair_by_first(server.record, streams)
    plain = {session for session, stream in by_session.items() if stream.is_plain}
    told = plain & {session for session, _ in served.session_lines(server.lines())}
    wrong = served.compare(server.record, replies, by_session)
    if len(plain) != WORKERS + WORKERS // 2 or told:
        wrong.append(f"{len(plain)} sessions that read all are in the record, and lines tell of {sorted(told)}")
    return wrong


def check_end(server):
    server.use_up()
    status = server.ended()
    return [f"the server ends with status {status}"] if status != 0 else []


def warmed(server, count):
    """The streams of clients that ask and read, so that what the server takes once is taken."""
    talkers = [asking(server.port) for _ in range(count)]
    for talker in talkers:
        talker.say(reads(VIEWS))
    for talker in talkers:
        talker.read_on()
    time.sleep(1)
    return [talker.stream(True) for talker in talkers]


def meet_greedy(options, room):
    """Tells what is wrong where clients do not read."""
    with served.Server(options.program, room, WORKERS, SHARE * WORKERS) as server:
        fresh = server.memory()
        streams = warmed(server, WORKERS)
        idle = server.memory()
        print(f"idle: {idle / 1e6:.1f} MB, and {fresh / 1e6:.1f} MB before anybody came")
        wrong = []
        for part in (greedy_alone, greedy_beside):
            more_wrong, more = part(server, options, idle)
            wrong += more_wrong
            streams += more
        wrong += check_end(server)
        return wrong + check_record(options, server, streams)


def meet_vanished(options, room):
    """Tells what is wrong where clients vanish."""
    with served.Server(options.program, room, 1, options.viewers + 2) as server:
        warmed(server, 1)
        idle = server.memory()
        print(f"idle: {idle / 1e6:.1f} MB")
        wrong = vanished(server, options, idle)
        return wrong + check_end(server)


def main(words):
    parser = formats.Words(prog="greedy.py", description=__doc__.split("\n")[0])
    parser.add_argument("--program", default=PROGRAM, help="another program than the built one")
    parser.add_argument("--seconds", type=count_of, default=4, metavar="S")
    parser.add_argument("--viewers", type=count_of, default=2000, metavar="N")
    options = parser.parse_args(words)
    need("greedy.py", options.program)
    try:
        wrong = []
        for meet in (meet_greedy, meet_vanished):
            with tempfile.TemporaryDirectory() as room:
                wrong += meet(options, room)
        if wrong:
            raise served.Wrong("; ".join(wrong[:4]))
    except served.Wrong as error:
        sys.stderr.write(f"greedy.py: {error}\n")
        return 1
    return 0


if __name__ == "__main__":
    sys.exit(main(sys.argv[1:]))
