"""What a program uses to write its record for an input, beside a peer with the same words."""
import subprocess

from run import use

ROUNDS = 9


def run(program, words, given, path):
    """The processor seconds and the most memory of a run that writes its record to a file."""
    with open(path, "wb") as out:
        used = use([program, *words], given, out)
    if used.status != 0:
        raise SystemExit(f"status {used.status} of {program}")
    return used.user + used.system, used.memory


def best(program, words, given, path):
    """The least seconds, and the most memory, of some runs."""
    runs = [run(program, words, given, path) for _ in range(ROUNDS)]
    return min(seconds for seconds, _ in runs), max(memory for _, memory in runs)


def row(program, peer, words, given, path):
    """What both use, in a line; the program's record is in the file then."""
    theirs, other = best(peer, words, given, path)
    ours, memory = best(program, words, given, path)
    times = f"{ours:7.3f} s, peer {theirs:7.3f} s, ratio {ours / max(theirs, 0.001):6.2f}"
    return f"{times}; memory {memory / 1e6:6.1f} MB, peer {other / 1e6:6.1f} MB"


def verdict(peer, words, given, path):
    """What the peer says of the program's record in a file."""
    said = subprocess.run([peer, *words, "--check", path], input=given, capture_output=True)
    return (said.stdout or said.stderr).decode(errors="replace").strip()
