"""Read by the scripts beside it: builds the load generator, runs it, and reads what it leaves."""

import mmap
import os
import subprocess
import sys

HERE = os.path.dirname(os.path.abspath(__file__))
ROOT = os.path.dirname(os.path.dirname(HERE))
PROGRAM = os.path.join(ROOT, "crates", "rio9", "out", "rio9")
sys.path.insert(0, os.path.join(ROOT, "tools"))
from rio9 import formats
import served

WORKERS = 8

# What reads an option that counts something.
count_of = formats.at_least(1)


def need(name, *programs):
    """Ends with one line where a program cannot be run."""
    for program in programs:
        if not (os.path.isfile(program) and os.access(program, os.X_OK)):
            formats.stop(name, f"no program: {program}")


def built(room):
    """The load generator, built into a folder."""
    path = os.path.join(room, "load")
    source = os.path.join(HERE, "load.rs")
    run = subprocess.run(["rustc", "--edition", "2021", "-O", "-o", path, source], stderr=subprocess.PIPE, text=True)
    if run.returncode != 0:
        raise served.Wrong(f"load.rs is not built: {run.stderr.strip()[:500]}")
    return path


def outcome(load, *words):
    """What the generator prints; it has to end well."""
    run = subprocess.run([load, *map(str, words)], capture_output=True, text=True)
    if run.returncode != 0:
        raise served.Wrong(run.stderr.strip())
    return run.stdout


def mapped(path):
    """The bytes of a file, which are not taken into memory."""
    with open(path, "rb") as file:
        return mmap.mmap(file.fileno(), 0, access=mmap.ACCESS_READ) if os.path.getsize(path) else b""


def streams_of(folder):
    """Kind, end and stream of each client that the generator tells of, by its number."""
    found = {}
    with open(os.path.join(folder, "kinds")) as kinds:
        for line in kinds:
            number, kind, end = line.split()
            sent, got = (mapped(os.path.join(folder, f"{number}.{part}")) for part in ("sent", "got"))
            found[int(number)] = (kind, end, served.Stream(sent, got, kind == "plain"))
    return dict(sorted(found.items()))
