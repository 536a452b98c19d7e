"""What is done to the record that a server wrote: what its end added is taken off, and its entries are told the times
of."""

import os
import zlib
from collections import defaultdict
from dataclasses import dataclass
from typing import BinaryIO, DefaultDict, Dict, Iterable, Iterator, List, Optional, Sequence, Tuple

from rio9.relay import HEAD, Mark, Signature

BLOCK = 1 << 16
HEADER_LINES = 1


@dataclass(frozen=True)
class Entry:
    """An entry of a record, by its number: its letter, its session, and the size and the head of its message."""

    number: int
    kind: bytes
    session: int
    size: int
    head: bytes


def entries_of(file: Iterable[bytes]) -> Iterator[Entry]:
    """The entries of a record that a server wrote."""
    for number, line in enumerate(file):
        words = line.split(b" ", 3)
        if number >= HEADER_LINES and len(words) > 1:
            message = words[2].strip() if words[0] == b"M" else b""
            head = bytes.fromhex(message[: 2 * HEAD].decode())
            yield Entry(number, words[0], int(words[1]), len(message) // 2, head)


def is_settled(record: str, sessions: int) -> bool:
    """Whether so many sessions have begun in a record, and each has ended there."""
    begun = ended = 0
    line = b""
    with open(record, "rb") as file:
        for line in file:
            begun += line.startswith(b"B ")
            ended += line.startswith(b"E ")
    return line.endswith(b"\n") and begun == ended and begun >= sessions


def take_off(record: str, last: int) -> None:
    """Takes off the lines of sessions behind the last one that was a client's: they came and went at the end."""
    with open(record, "r+b") as file:
        begin = begin_of(file, b"\nB %d\n" % (last + 1))
        if begin is None:
            return
        file.seek(begin)
        tail = file.readlines()
        kept = [line for line in tail if int(line.split()[1]) <= last]
        file.seek(begin)
        file.truncate()
        file.writelines(kept)


def begin_of(file: BinaryIO, line: bytes) -> Optional[int]:
    """Where the last line of a file that reads so begins; it is given with the newlines around it."""
    end = file.seek(0, os.SEEK_END)
    held = b""
    while end > 0:
        begin = max(end - BLOCK, 0)
        file.seek(begin)
        held = file.read(end - begin) + held[: len(line)]
        found = held.rfind(line)
        if found >= 0:
            return begin + found + 1
        end = begin
    return None


def signatures_of(file: Iterable[bytes]) -> Dict[int, Signature]:
    """The signature of each session of a record."""
    found: Dict[int, Signature] = {}
    for entry in entries_of(file):
        before = found.setdefault(entry.session, Signature(0, 0))
        if entry.kind == b"M":
            found[entry.session] = Signature(before.messages + 1, zlib.crc32(entry.head, before.check))
    return found


def links_of(sessions: Dict[int, Signature], links: Sequence[Signature]) -> Dict[int, int]:
    """The link of each session: the one of its number, or where workers took clients in another order the first that
    is left of those with its signature."""
    found: Dict[int, int] = {}
    same: DefaultDict[Signature, List[int]] = defaultdict(list)
    for number, signature in enumerate(links, 1):
        if sessions.get(number) == signature:
            found[number] = number
        else:
            same[signature].append(number)
    for session, signature in sessions.items():
        if session not in found and same[signature]:
            found[session] = same[signature].pop(0)
    return found


def seconds_of(record: str, marks: Sequence[Mark], links: Sequence[Signature]) -> Tuple[int, List[Tuple[int, int]]]:
    """How many entries a record has, and those that came first in a second, each with its milliseconds after the
    start."""
    with open(record, "rb") as file:
        by_session = links_of(signatures_of(file), links)
    left: DefaultDict[int, List[Mark]] = defaultdict(list)
    for mark in reversed(marks):
        left[mark.link].append(mark)
    found: List[Tuple[int, int]] = []
    passed: DefaultDict[int, int] = defaultdict(int)
    count = 0
    with open(record, "rb") as file:
        for entry in entries_of(file):
            count = entry.number
            if entry.kind != b"M" or entry.session not in by_session:
                continue
            those = left[by_session[entry.session]]
            passed[entry.session] += entry.size
            while those and those[-1].offset < passed[entry.session]:
                found.append((entry.number, those.pop().milliseconds))
    return count, ascending(found)


def ascending(pairs: List[Tuple[int, int]]) -> List[Tuple[int, int]]:
    """The pairs, without those that would not ascend: what came at one moment may stand in another order."""
    kept: List[Tuple[int, int]] = []
    for entry, milliseconds in sorted(pairs):
        if not kept or entry > kept[-1][0] and milliseconds > kept[-1][1]:
            kept.append((entry, milliseconds))
    return kept
