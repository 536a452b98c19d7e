#!/usr/bin/env python3
"""Makes the table of crates in docs/ARCHITECTURE.md, and holds the graph of crates below its bars.

    tools/rooms.py            prints the table
    tools/rooms.py --update   writes it into docs/ARCHITECTURE.md
    tools/rooms.py --check    tells what is out of date or above a bar, and then ends with status 1

docs/rooms.txt has the crates in the order of the table: a heading behind a `#`, or a crate's name and, behind a tab,
one sentence that says what is in the crate. A crate without a sentence there is told by the first one at the head of
its source.

The toolchain walks each path through crates.txt and keeps nothing of it, so the paths below a crate are what it costs
to begin. A crate has one path of its own, and those of each crate that it lists.
"""

import argparse
import re
import sys
from dataclasses import dataclass
from pathlib import Path
from typing import Dict, List, Optional, Sequence

TOP = Path(__file__).resolve().parent.parent
BEGIN = "<!-- The table of crates: written by tools/rooms.py --update -->"
END = "<!-- The end of the table of crates -->"

MOST_CRATES = 95
MOST_LEVELS = 19
MOST_PATHS = 400_000
MOST_PATHS_OF_PROGRAM = 60_000
PROGRAM = "rio9"


class Fault(Exception):
    """What is wrong with a file, in words that say where."""


@dataclass(frozen=True)
class Room:
    """A line of docs/rooms.txt: a crate, and the sentence that stands there for it, if one does."""

    name: str
    sentence: Optional[str]


@dataclass(frozen=True)
class Group:
    """The crates behind one heading."""

    heading: str
    rooms: List[Room]


def read_graph(text: str) -> Dict[str, List[str]]:
    """The crates of crates.txt, each with those of the repository that it lists."""
    listed: Dict[str, List[str]] = {}
    for number, line in enumerate(text.splitlines(), 1):
        words = line.split("#")[0].strip()
        if not words:
            continue
        head, colon, rest = words.partition(":")
        if not colon or not head.split():
            raise Fault(f"crates.txt, line {number}: no name with a colon behind it")
        listed[head.split()[0]] = rest.split()
    return {name: [other for other in others if other in listed] for name, others in listed.items()}


def in_order(graph: Dict[str, List[str]]) -> List[str]:
    """The crates, each behind all that it lists."""
    order: List[str] = []
    state: Dict[str, bool] = {}

    def visit(name: str) -> None:
        if name in state:
            if not state[name]:
                raise Fault(f"crates.txt: {name} stands on itself")
            return
        state[name] = False
        for other in graph[name]:
            visit(other)
        state[name] = True
        order.append(name)

    for name in graph:
        visit(name)
    return order


def count_paths(graph: Dict[str, List[str]]) -> Dict[str, int]:
    """How many paths begin at each crate."""
    paths: Dict[str, int] = {}
    for name in in_order(graph):
        paths[name] = 1 + sum(paths[other] for other in graph[name])
    return paths


def count_levels(graph: Dict[str, List[str]]) -> int:
    """How many crates the longest path has."""
    levels: Dict[str, int] = {}
    for name in in_order(graph):
        levels[name] = 1 + max((levels[other] for other in graph[name]), default=0)
    return max(levels.values(), default=0)


def above_bars(graph: Dict[str, List[str]]) -> List[str]:
    """What the graph has too many of."""
    paths = count_paths(graph)
    counts = [
        ("crates", len(graph), MOST_CRATES),
        ("levels", count_levels(graph), MOST_LEVELS),
        ("paths", sum(paths.values()), MOST_PATHS),
        (f"paths from {PROGRAM}", paths.get(PROGRAM, 0), MOST_PATHS_OF_PROGRAM),
    ]
    return [
        f"crates.txt: {count:,} {what}, and at most {most:,} are wanted: let a crate list fewer others"
        for what, count, most in counts
        if count > most
    ]


def read_rooms(text: str) -> List[Group]:
    """The groups of docs/rooms.txt."""
    groups: List[Group] = []
    for number, line in enumerate(text.splitlines(), 1):
        if not line.strip():
            continue
        if line.startswith("#"):
            groups.append(Group(line[1:].strip(), []))
            continue
        if not groups:
            raise Fault(f"docs/rooms.txt, line {number}: a crate before the first heading")
        name, _, sentence = line.partition("\t")
        groups[-1].rooms.append(Room(name.strip(), sentence.strip() or None))
    return groups


def misplaced(groups: Sequence[Group], graph: Dict[str, List[str]]) -> List[str]:
    """Where docs/rooms.txt does not have each crate once."""
    names = [room.name for group in groups for room in group.rooms]
    told = [f"docs/rooms.txt: {name} is no crate of crates.txt" for name in names if name not in graph]
    told += [f"docs/rooms.txt: {name} is missing" for name in graph if name not in names]
    return told + [f"docs/rooms.txt: {name} stands there twice" for name in sorted(set(names)) if names.count(name) > 1]


def source_of(crate: Path) -> str:
    """The text of a crate's first source file."""
    for name in ("lib.rt", "main.rt"):
        path = crate / "src" / name
        if path.is_file():
            return path.read_text(encoding="utf-8")
    raise Fault(f"{crate.name}: no src/lib.rt and no src/main.rt")


def first_sentence(source: str) -> str:
    """The first sentence of the comment at the head of a source file."""
    lines: List[str] = []
    for line in source.splitlines():
        if not line.startswith("//!") or not line[3:].strip():
            break
        lines.append(line[3:].strip())
    found = re.match(r".*?[.](?=\s|$)", " ".join(lines))
    if not found:
        raise Fault("no sentence at its head")
    return found.group()


def row_of(room: Room, crates: Path) -> str:
    """The table's row of a crate."""
    source = source_of(crates / room.name)
    try:
        sentence = room.sentence or first_sentence(source)
    except Fault as fault:
        raise Fault(f"{room.name}: {fault}; write one in docs/rooms.txt") from None
    parts = re.findall(r"^(?:pub )?mod (\w+);", source, re.MULTILINE)
    return f"| `{room.name}` | {sentence} | {', '.join(parts)} |"


def make_table(groups: Sequence[Group], crates: Path) -> str:
    """The table of crates, by groups."""
    lines: List[str] = []
    for group in groups:
        lines += [f"**{group.heading}**", "", "| Crate | What is in it | Parts |", "|---|---|---|"]
        lines += [row_of(room, crates) for room in group.rooms]
        lines.append("")
    return "\n".join(lines)


def put_table(page: str, table: str) -> str:
    """The page with that table between its marks."""
    before, begin, rest = page.partition(BEGIN)
    _, end, behind = rest.partition(END)
    if not begin or not end:
        raise Fault("docs/ARCHITECTURE.md: the marks are missing between which the table of crates stands")
    return f"{before}{BEGIN}\n\n{table}{END}{behind}"


def run(words: Optional[Sequence[str]] = None) -> int:
    """Does what the words ask for, and gives the status."""
    parser = argparse.ArgumentParser(description="The table of crates, and the bars of their graph.")
    what = parser.add_mutually_exclusive_group()
    what.add_argument("--update", action="store_true", help="write the table into docs/ARCHITECTURE.md")
    what.add_argument("--check", action="store_true", help="tell what is out of date or above a bar")
    asked = parser.parse_args(words)
    graph = read_graph((TOP / "crates.txt").read_text(encoding="utf-8"))
    groups = read_rooms((TOP / "docs" / "rooms.txt").read_text(encoding="utf-8"))
    told = misplaced(groups, graph)
    if told:
        raise Fault("\n".join(told))
    table = make_table(groups, TOP / "crates")
    page = TOP / "docs" / "ARCHITECTURE.md"
    if not (asked.update or asked.check):
        print(table, end="")
        return 0
    old = page.read_text(encoding="utf-8")
    new = put_table(old, table)
    if asked.update:
        page.write_text(new, encoding="utf-8")
        return 0
    told = above_bars(graph)
    if new != old:
        told.append("docs/ARCHITECTURE.md: the table of crates is out of date: run tools/rooms.py --update")
    for line in told:
        print(f"rooms: {line}", file=sys.stderr)
    return 1 if told else 0


def main() -> int:
    """Runs it, and tells a fault as one line."""
    try:
        return run()
    except (Fault, OSError) as fault:
        print(f"rooms: {fault}", file=sys.stderr)
        return 1


if __name__ == "__main__":
    sys.exit(main())
