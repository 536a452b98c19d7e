#!/usr/bin/env python3
"""Times `rio9 serve` beside a peer, with 1, 2, 4 and 8 clients and 8 workers.

    bench/serve/times.py PEER [--program PATH] [--seconds S] [--rounds N]

The peer is a plain program with the same words, which is given by its path. Wants Linux, Python 3, rustc and the built program
(`cd crates/rio9 && rt run -- replay < stdin` builds it; --program names another one). Each client asks for stats for S seconds (3
where nothing is said): with 64 outstanding, which tells messages a second, and with one, which tells the round trip. The programs
take turns, N times (3 where nothing is said); the best of each is printed, the ratio to the peer's, and the bar that it is to
meet: at least 1.0 of the messages, at most 1.3 of the median and of the 99th percentile. Beside that stands what a message cost the
server in processor time, which has no bar, and which other work on the machine changes least: where the load that is told first is
not well below the number of processors, the other rows tell little. Last stand the seconds of processor time that the servers and
the generator took in all runs; where the generator took more than a server, it may be what was measured. Status 1 tells that a bar is
missed or that a run went wrong, 2 that a word or a file is wrong.
"""

import os
import resource
import sys
import tempfile

from loads import PROGRAM, WORKERS, built, count_of, formats, need, outcome, served

CLIENTS = (1, 2, 4, 8)
MESSAGES_BAR, TRIP_BAR = 1.0, 1.3


def processor_seconds():
    usage = resource.getrusage(resource.RUSAGE_CHILDREN)
    return usage.ru_utime + usage.ru_stime


class Taken:
    """The processor time that servers and generators took."""

    def __init__(self):
        self.seconds = {"rio9": 0.0, "peer": 0.0, "generator": 0.0}

    def add(self, name, since):
        spent = processor_seconds() - since
        self.seconds[name] += spent
        return spent


def measure(taken, name, program, load, clients, outstanding, seconds):
    """Messages a second, the median and the 99th percentile of the round trip, and what a message cost the server in processor
    time, in microseconds."""
    with tempfile.TemporaryDirectory() as room, served.Server(program, room, WORKERS, clients) as server:
        since = processor_seconds()
        words = outcome(load, "stat", f"127.0.0.1:{server.port}", clients, outstanding, seconds).split()
        taken.add("generator", since)
        since = processor_seconds()
        server.use_up()
        status, lines = server.ended(), server.lines()
        spent = taken.add(name, since)
    if status != 0 or lines:
        raise served.Wrong(f"{program} ends with status {status} and {lines[:1]}")
    told = dict(zip(words[::2], map(float, words[1::2])))
    return told["messages"] / told["seconds"], told["median"], told["p99"], spent / told["messages"] * 1e6


def best_of(taken, programs, load, clients, outstanding, options):
    """The most messages a second, and the least of the others, of each program; they take turns."""
    runs = {name: [] for name in programs}
    for _ in range(options.rounds):
        for name, program in programs.items():
            runs[name].append(measure(taken, name, program, load, clients, outstanding, options.seconds))
    return {name: (max(run[0] for run in those), *(min(run[at] for run in those) for at in (1, 2, 3))) for name, those in runs.items()}


class Table:
    """The rows, and whether each ratio met its bar."""

    def __init__(self):
        self.is_met = True
        print(f"load {os.getloadavg()[0]:.1f} on {os.cpu_count()} processors")
        print(f"{'':<56} {'rio9':>12} {'peer':>12} {'ratio':>7}  bar")

    def row(self, told, best, at, least=None, most=None):
        """A row of what stands at a place of the best runs; the ratio is to be so much at least, or at most."""
        ours, theirs = best["rio9"][at], best["peer"][at]
        ratio = ours / max(theirs, 1e-9)
        is_met = (least is None or ratio >= least) and (most is None or ratio <= most)
        self.is_met = self.is_met and is_met
        bar = f"at least {least}" if least is not None else f"at most {most}" if most is not None else ""
        print(f"{told:<56} {ours:>12,.2f} {theirs:>12,.2f} {ratio:7.2f}  {bar}{'' if is_met else ': MISSED'}".rstrip(), flush=True)


def times(options, load):
    programs, table, taken = {"rio9": options.program, "peer": options.peer}, Table(), Taken()
    for clients in CLIENTS:
        best = best_of(taken, programs, load, clients, 64, options)
        table.row(f"{clients} clients, 64 outstanding: messages a second", best, 0, least=MESSAGES_BAR)
        table.row(f"{clients} clients, 64 outstanding: processor time, us a message", best, 3)
    for clients in CLIENTS:
        best = best_of(taken, programs, load, clients, 1, options)
        table.row(f"{clients} clients, one outstanding: median, us", best, 1, most=TRIP_BAR)
        table.row(f"{clients} clients, one outstanding: 99th percentile, us", best, 2, most=TRIP_BAR)
        table.row(f"{clients} clients, one outstanding: processor time, us a message", best, 3)
    print("processor seconds: " + ", ".join(f"{name} {seconds:.1f}" for name, seconds in taken.seconds.items()))
    return table.is_met


def main(words):
    parser = formats.Words(prog="times.py", description=__doc__.split("\n")[0])
    parser.add_argument("peer", help="the path of the peer")
    parser.add_argument("--program", default=PROGRAM, help="another program than the built one")
    parser.add_argument("--seconds", type=count_of, default=3, metavar="S", help="how long each run asks")
    parser.add_argument("--rounds", type=count_of, default=3, metavar="N", help="how many runs, of which the best counts")
    options = parser.parse_args(words)
    need("times.py", options.peer, options.program)
    with tempfile.TemporaryDirectory() as room:
        try:
            return 0 if times(options, built(room)) else 1
        except served.Wrong as error:
            sys.stderr.write(f"times.py: {error}\n")
            return 1


if __name__ == "__main__":
    sys.exit(main(sys.argv[1:]))
