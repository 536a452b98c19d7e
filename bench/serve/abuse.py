#!/usr/bin/env python3
"""Has 1,000 clients on `rio9 serve` of 8 workers of which a third draw, a third cut their streams and a third send junk.

    bench/serve/abuse.py [--program PATH] [--clients N] [--at-once N] [--seed N]..

Wants Linux, Python 3, rustc and the built program (--program names another one). For each seed, 1 where nothing is said, a server
is started, and 24 clients at once, where nothing else is said, meet it until all have. A client that cuts its stream does so at a
random byte; one that sends junk sends random bytes, sizes that no message has, messages that are spoilt or that no session may
send, the tag of a waiting read again, or questions whose answers it never reads. Half of both end their side and read on to the
end; the others go at once.

Each session that draws has to get just the bytes that the program's `replay` of the written record gives it, and the record has
just what it sent; each other one a front of them, where the record has a front of what it sent. The server has to end with status
0; on err stands no line about a session that draws, and about one that was ended from its side just the line that its bytes call
for. Status 1 tells that something is otherwise, 2 that a word or a file is wrong.
"""

import collections
import os
import sys
import tempfile

from loads import PROGRAM, WORKERS, built, count_of, formats, need, outcome, served, streams_of

MOST_OF_A_MESSAGE = formats.MOST_OF_A_MESSAGE
FAULTS = ("read fault", "write fault")


def check_line(session, lines, rest, last_tag):
    """What is wrong with the lines about a session that its client ended and read to the end: `rest` is what it sent behind its
    messages in the record, of which the last has that tag."""
    size = int.from_bytes(rest[:4], "little") if len(rest) >= 4 else None
    is_lawful = size is None or formats.LEAST_MESSAGE <= size <= MOST_OF_A_MESSAGE
    told = lines[0] if lines else None
    if told is None:
        good = len(rest) == 0
    elif told == "cut":
        good = len(rest) > 0 and is_lawful and (size is None or len(rest) < size)
    elif told.startswith("bad size "):
        good = size is not None and told == f"bad size {size}"
    else:
        good = told == f"duplicate tag {last_tag}"
    if len(lines) > 1 or not good:
        return [f"session {session}: {lines} stands on err, and its client sent {len(rest)} bytes more, {bytes(rest[:8]).hex()}.."]
    return []


def recorded_of(record):
    """How many bytes of messages each session of a record has, and the tag of its last one."""
    sizes, tags = collections.Counter(), {}
    for session, message in served.lines_of(record, b"M"):
        sizes[session] += len(message)
        tags[session] = int.from_bytes(message[5:7], "little")
    return sizes, tags


def check_lines(server, kinds, by_session):
    """What is wrong with the lines on err, and how many there are of each sort."""
    told, wrong, sorts = collections.defaultdict(list), [], collections.Counter()
    for session, line in served.session_lines(server.lines()):
        told[session].append(line)
        sorts[line if line == "cut" or line in FAULTS else " ".join(line.split(" ")[:2])] += 1
    sizes, tags = recorded_of(server.record)
    for session, stream in by_session.items():
        kind, end = kinds[id(stream)]
        if kind == "plain" and told[session]:
            wrong.append(f"session {session}: it only draws, and {told[session]} stands on err")
        if end == "gently":
            wrong += check_line(session, told[session], stream.sent[sizes[session] :], tags[session])
    return wrong, sorts


def abuse(options, load, seed, room):
    with served.Server(options.program, room, WORKERS, options.clients) as server:
        outcome(load, "abuse", f"127.0.0.1:{server.port}", options.clients, options.at_once, seed, room)
        status = server.ended()
    if status != 0:
        raise served.Wrong(f"the server ends with status {status}")
    if served.begun_and_ended(server.record) != options.clients:
        raise served.Wrong(f"the written record has other than {options.clients} sessions")
    clients = streams_of(room)
    by_session = served.pair_by_first(server.record, [stream for _, _, stream in clients.values()])
    plain = sum(stream.is_plain for stream in by_session.values())
    wrong = [f"{plain} sessions that draw are in the record"] if plain != -(-options.clients // 3) else []
    wrong += served.compare(server.record, served.replay(options.program, server.record), by_session)
    wrong_lines, sorts = check_lines(server, {id(stream): (kind, end) for kind, end, stream in clients.values()}, by_session)
    if wrong + wrong_lines:
        raise served.Wrong(f"seed {seed}: " + "; ".join((wrong + wrong_lines)[:4]))
    counts = ", ".join(f"{sort} {count}" for sort, count in sorted(sorts.items()))
    size = os.path.getsize(server.record) / 1e6
    print(f"seed {seed}: {options.clients} clients, a record of {size:.1f} MB, {plain} that draw got what it gives; on err: {counts}")


def main(words):
    parser = formats.Words(prog="abuse.py", description=__doc__.split("\n")[0])
    parser.add_argument("--program", default=PROGRAM, help="another program than the built one")
    parser.add_argument("--clients", type=count_of, default=1000, metavar="N")
    parser.add_argument("--at-once", type=count_of, default=24, metavar="N")
    parser.add_argument("--seed", type=count_of, nargs="+", default=[1], metavar="N")
    options = parser.parse_args(words)
    need("abuse.py", options.program)
    with tempfile.TemporaryDirectory() as folder:
        try:
            load = built(folder)
            for seed in options.seed:
                with tempfile.TemporaryDirectory() as room:
                    abuse(options, load, seed, room)
        except served.Wrong as error:
            sys.stderr.write(f"abuse.py: {error}\n")
            return 1
    return 0


if __name__ == "__main__":
    sys.exit(main(sys.argv[1:]))
