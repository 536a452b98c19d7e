#!/usr/bin/env python3
"""Times `rio9 replay`: texts that are no record, by their length, and records of many messages.

Wants Python 3 and the built program (`cd crates/rio9 && rt run -- replay < stdin` builds it). It prints, for each input,
its length, the seconds that it took and the most memory that the program had, beside the length of the input.
"""
import os
import subprocess
import sys
import tempfile
import time
from dataclasses import dataclass

ROOT = os.path.dirname(os.path.dirname(os.path.dirname(os.path.abspath(__file__))))
PROGRAM = os.path.join(ROOT, "crates", "rio9", "out", "rio9")


def need_program():
    """Ends with one line where the program is not built."""
    if not os.access(PROGRAM, os.X_OK):
        sys.stderr.write(f"{PROGRAM} is not built: cd crates/rio9 && rt run -- replay < stdin\n")
        sys.exit(2)


def need_peer(program, words):
    """The path of a peer, where that is all that the words are; ends with one line where it or the program cannot be run."""
    if len(words) != 1 or not all(os.access(path, os.X_OK) for path in (program, *words)):
        sys.exit("times.py: the paths of a peer and of the built program are wanted, programs that can be run")
    return words[0]


def number(value, size):
    return value.to_bytes(size, "little")


def message(kind, tag, body):
    return number(7 + len(body), 4) + bytes([kind]) + number(tag, 2) + body


def string(text):
    return number(len(text), 2) + text


def version():
    return message(100, 0xFFFF, number(65560, 4) + string(b"9P2000"))


def attach(name):
    return message(104, 1, number(0, 4) + number(0xFFFFFFFF, 4) + string(b"") + string(name))


OPENING = [
    version(),
    message(104, 1, number(0, 4) + number(0xFFFFFFFF, 4) + string(b"u") + string(b"")),
]

ROUND = [
    message(110, 1, number(0, 4) + number(1, 4) + number(1, 2) + string(b"draw")),
    message(120, 1, number(1, 4)),
    message(124, 1, number(0, 4)),
]


def record(count):
    lines = [b"rio9 1", b"B 1"]
    lines += [b"M 1 " + m.hex().encode() for m in OPENING]
    around = [b"M 1 " + m.hex().encode() for m in ROUND]
    lines += [around[k % 3] for k in range(count)]
    return b"\n".join(lines) + b"\nE 1\n"


def most_memory(process):
    """The most resident bytes that a program had so far; 0 once it has ended."""
    with open(f"/proc/{process.pid}/status") as status:
        for line in status:
            if line.startswith("VmHWM:"):
                return int(line.split()[1]) * 1024
    return 0


@dataclass(frozen=True)
class Use:
    """What a run used: seconds of the user and of the system, and the most resident bytes; and the status that it ended with."""

    user: float
    system: float
    memory: int
    status: int


def use(command, text, out):
    """What a run of a command on a text uses, which prints to a file; the memory is looked at while it runs."""
    with tempfile.TemporaryFile() as given:
        given.write(text)
        given.seek(0)
        process = subprocess.Popen(command, stdin=given, stdout=out, stderr=subprocess.DEVNULL)
        memory, ended = 0, 0
        while not ended:
            memory = max(memory, most_memory(process))
            time.sleep(0.001)
            ended, status, usage = os.wait4(process.pid, os.WNOHANG)
    process.returncode = os.waitstatus_to_exitcode(status)
    return Use(usage.ru_utime, usage.ru_stime, memory, process.returncode)


def measure(text, status, command=(PROGRAM, "replay")):
    """Seconds of one run of a command on a text, and the most memory, looked at while it runs."""
    with tempfile.TemporaryFile() as given, tempfile.TemporaryFile() as out:
        given.write(text)
        given.seek(0)
        begun = time.perf_counter()
        process = subprocess.Popen(list(command), stdin=given, stdout=out, stderr=subprocess.DEVNULL)
        memory = 0
        while process.poll() is None:
            memory = max(memory, most_memory(process))
            time.sleep(0.0002)
        seconds = time.perf_counter() - begun
    if process.returncode != status:
        sys.exit(f"status {process.returncode} in place of {status}")
    return seconds, memory


def seconds(program, text, rounds=3):
    """The least user seconds of some runs of `replay`, and what the program prints."""
    least, out = None, None
    for _ in range(rounds):
        before = os.times().children_user
        out = subprocess.run([program, "replay"], input=text, capture_output=True, check=True).stdout
        spent = os.times().children_user - before
        least = spent if least is None else min(least, spent)
    return least, out


def compare(name, text, program, peer):
    """Prints the user seconds of both on a record, and their ratio; ends where they answer differently."""
    (ours, mine), (theirs, others) = seconds(program, text), seconds(peer, text)
    if mine != others:
        sys.exit(f"times.py: the programs answer differently: {name}")
    print(f"{name}: {ours:7.2f} s, peer {theirs:7.2f} s, ratio {ours / max(theirs, 0.02):5.2f}")


def show(name, text, status, messages=0, rounds=5):
    runs = [measure(text, status) for _ in range(rounds)]
    seconds, memory = min(run[0] for run in runs), max(run[1] for run in runs)
    row = f"{name:>24} {len(text):>11} bytes {seconds:8.4f} s {seconds / len(text) * 1e9:8.2f} ns/byte"
    row += f" {memory / 1e6:8.1f} MB, {memory / len(text):6.2f} of the input"
    print(row + (f", {messages / seconds:,.0f} messages/s" if messages else ""))


def main():
    need_program()
    for size in (10**4, 10**5, 10**6, 10**7, 10**8):
        show("junk behind a record", record(3) + b"junk\n" * (size // 5), 2)
    for count in (10**4, 10**5, 4 * 10**5):
        show(f"{count} messages", record(count), 0, count)


if __name__ == "__main__":
    main()
