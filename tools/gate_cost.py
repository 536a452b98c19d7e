#!/usr/bin/env python3
"""Tells where the processor time of the merge gate goes: minutes by crate and kind, the dearest first.

    tools/gate_cost.py run              runs `rt ci` in this repository
    tools/gate_cost.py anew             runs `rt ci --anew`: all is proved from nothing
    tools/gate_cost.py attach [PID]     watches an `rt ci` that runs already, until it ends

The kinds: `proof` of a crate, of its `tests`, of its `wrong` bodies, and the `rest`: building, linking and running.
Each second it reads from /proc what each process of the gate has used so far, so the last part of a second of each
is lost; where it ran the gate itself it also tells what the system counted for all of them. It needs Linux. This tool is
outside the gate, and changes nothing. It ends with the gate's own status, and with 0 where it was attached.
"""

import argparse
import os
import re
import resource
import signal
import subprocess
import sys
import time
from collections import defaultdict
from dataclasses import dataclass

PROOF, TESTS, WRONG, REST = "proof", "tests", "wrong", "rest"
KINDS = [PROOF, TESTS, WRONG, REST]

TICKS = os.sysconf("SC_CLK_TCK")
PAUSE = 1.0


@dataclass(frozen=True)
class Process:
    """A process, told by its number and the time of its start, since numbers come back."""

    number: int
    started: int


@dataclass
class Seen:
    """What /proc says of a process: its parent, and the ticks of a processor that it has used."""

    parent: int
    ticks: int


def classify(words, folder):
    """The crate and the kind of a process, by its command line and the folder that it runs in."""
    if not words:
        return "", REST
    if os.path.basename(words[0]) == "rattle" and words[1:2] in (["check"], ["build"]):
        crate = words[words.index("--crate-name") + 1] if "--crate-name" in words[:-1] else ""
        if re.search(r"/rt-edits?-[^/]*$", folder):
            return crate, WRONG
        return crate, TESTS if "--test" in words else PROOF
    within = re.search(r"/crates/([a-z0-9_]+)(?:/|$)", " ".join([folder, *words]))
    return within[1] if within else "", REST


def parse_stat(text):
    """The start, the parent and the used ticks in a line of /proc/PID/stat. The name in it may hold blanks and brackets."""
    fields = text[text.rindex(")") + 2 :].split()
    return int(fields[19]), Seen(int(fields[1]), int(fields[11]) + int(fields[12]))


def look():
    """All processes that there are."""
    found = {}
    for name in os.listdir("/proc"):
        if name.isdigit():
            try:
                with open(f"/proc/{name}/stat", encoding="utf-8", errors="replace") as file:
                    started, seen = parse_stat(file.read())
            except (OSError, ValueError, IndexError):
                continue
            found[Process(int(name), started)] = seen
    return found


def look_closer(number):
    """The command line of a process, and the folder that it runs in; empty where it has ended."""
    try:
        with open(f"/proc/{number}/cmdline", "rb") as file:
            words = file.read().decode(errors="replace").split("\0")[:-1]
        return words, os.readlink(f"/proc/{number}/cwd")
    except OSError:
        return [], ""


class Costs:
    """What the processes below one have used, by crate and kind."""

    def __init__(self, root):
        self.root = root
        self.used = {}
        self.ticks = defaultdict(int)

    def sample(self):
        """Adds what was used since the last sample. Says whether the root still runs."""
        now = look()
        parents = {process.number: seen.parent for process, seen in now.items()}
        for process, seen in now.items():
            if process in self.used or self.is_below(process.number, parents):
                kind = classify(*look_closer(process.number))
                self.ticks[kind] += seen.ticks - self.used.get(process, 0)
                self.used[process] = seen.ticks
        return self.root in parents

    def is_below(self, number, parents):
        """Whether the root is a process or one of those above it."""
        while number in parents and number != self.root:
            number = parents[number]
        return number == self.root

    def lines(self):
        """A line for each crate, the dearest first, and one for all."""
        crates = sorted({crate for crate, _ in self.ticks}, key=lambda crate: -self.minutes([crate], KINDS))
        rows = [(crate or "(no crate)", [crate]) for crate in crates] + [("in all", crates)]
        yield "  ".join([f"{'processor minutes':24}", f"{'all':>8}", *(f"{kind:>8}" for kind in KINDS)])
        for name, of in rows:
            numbers = [self.minutes(of, KINDS), *(self.minutes(of, [kind]) for kind in KINDS)]
            yield "  ".join([f"{name:24}", *(f"{number:8.1f}" for number in numbers)])

    def minutes(self, crates, kinds):
        return sum(self.ticks.get((crate, kind), 0) for crate in crates for kind in kinds) / TICKS / 60


def running_gates():
    """The numbers of the processes that are `rt ci`."""
    gates = []
    for process in look():
        words, _ = look_closer(process.number)
        names = [os.path.basename(word) for word in words[:3]]
        if names[:2] == ["rt", "ci"] or (names[1:] == ["rt", "ci"] and names[0].startswith("python")):
            gates.append(process.number)
    return sorted(gates)


def attach(number):
    """Watches a gate that runs until it ends."""
    gates = running_gates()
    if number is None and len(gates) != 1:
        sys.exit(f"gate_cost.py: give the number of one process: `rt ci` runs as {gates or 'none'}")
    if number is not None and number not in gates:
        sys.exit(f"gate_cost.py: process {number} is no `rt ci`: those are {gates or 'none'}")
    costs = Costs(gates[0] if number is None else number)
    try:
        while costs.sample():
            time.sleep(PAUSE)
    except KeyboardInterrupt:
        print("gate_cost.py: stopped, and the gate goes on", file=sys.stderr)
    report(costs)
    return 0


def start(anew):
    """Runs the gate in this repository, whose output goes on as ever."""
    top = os.path.dirname(os.path.dirname(os.path.abspath(__file__)))
    before = used_by_children()
    # An interrupt reaches the gate too, which then ends.
    signal.signal(signal.SIGINT, lambda *_: None)
    try:
        gate = subprocess.Popen(["rt", "ci", *["--anew"] * anew], cwd=top)
    except OSError as error:
        sys.exit(f"gate_cost.py: rt cannot be run: {error.strerror}")
    costs = Costs(gate.pid)
    while gate.poll() is None:
        costs.sample()
        time.sleep(PAUSE)
    report(costs)
    print(f"{'counted by the system':24}  {(used_by_children() - before) / 60:8.1f}")
    return gate.returncode if gate.returncode >= 0 else 128 - gate.returncode


def used_by_children():
    """The seconds that the children that have ended used, with all below them."""
    usage = resource.getrusage(resource.RUSAGE_CHILDREN)
    return usage.ru_utime + usage.ru_stime


def report(costs):
    print("\n".join(costs.lines()), flush=True)


def main(words):
    parser = argparse.ArgumentParser(prog="gate_cost.py", description=__doc__.split("\n")[0])
    parser.add_argument("job", choices=["run", "anew", "attach"])
    parser.add_argument("pid", nargs="?", type=int, help="the process of the gate, for attach")
    options = parser.parse_args(words)
    if options.pid is not None and options.job != "attach":
        parser.error("only attach takes the number of a process")
    return attach(options.pid) if options.job == "attach" else start(options.job == "anew")


if __name__ == "__main__":
    sys.exit(main(sys.argv[1:]))
