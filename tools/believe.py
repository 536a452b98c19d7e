#!/usr/bin/env python3
"""Writes docs/BELIEVE.md: the definitions on which the contract of `run` stands. They have to be believed, since no
proof can tell whether they say what was meant.

    tools/believe.py            writes docs/BELIEVE.md
    tools/believe.py --check    ends with 0 if docs/BELIEVE.md is up to date, and with 1 and a line that says why if not
    tools/believe.py --why NAME tells through which definitions `run` comes to each definition of that name

Names are looked up as the prover does: through imports, also those under another name, through modules that a crate
passes on, and within a file. The sentence about a file is the first of the comment at its head. For a file without
such a comment it stands in tools/believe.txt, a line for each file: its path, a tab, and the sentence. How many lines
all else has, and each layer of docs/rooms.txt, is told in thousands, and may be off by two of them before `--check`
minds.
"""

from __future__ import annotations

import argparse
import os
import re
import sys
from collections import defaultdict, deque
from collections.abc import Iterable, Iterator
from dataclasses import dataclass

import rooms
from names import Lost, Node, Tree, Uses, contract_texts
from sources import Item, files_of, line_count, read_antt, read_rt

TOP = os.path.dirname(os.path.dirname(os.path.abspath(__file__)))
CALL_FILE, CALL = "crates/r9_serve/src/serve/call.rt", "run"
PAGE = "docs/BELIEVE.md"
ROOMS = "docs/rooms.txt"
SENTENCES = "tools/believe.txt"
SLACK = 2_000
REST = re.compile(r"about ([\d,]+),000 lines")


class Fault(Exception):
    """What keeps the page from being written."""


@dataclass
class Belief:
    """The definitions on which a contract stands: each with those that it names, and with one that names it."""

    tree: Tree
    names: dict[Node, set[Node]]
    parents: dict[Node, Node | None]
    library: set[str]


def contract_of(root: str) -> list[str]:
    """The head and the clauses of the call."""
    for item in read_rt(f"{root}/{CALL_FILE}").items:
        if item.word == "fn" and item.name == CALL:
            return contract_texts(item)
    raise Fault(f"{CALL_FILE} has no function {CALL}")


def gather(root: str) -> Belief:
    """Follows names from the contract of the call until nothing new comes."""
    tree = Tree(root)
    uses = Uses(tree)
    names: dict[Node, set[Node]] = {}
    first: set[Node] = set()
    for text in contract_of(root):
        first |= uses.of_text(CALL_FILE, text, set())
    parents: dict[Node, Node | None] = {node: None for node in sorted(first)}
    waiting = deque(parents)
    while waiting:
        node = waiting.popleft()
        names[node] = uses.of(node)
        for other in sorted(names[node]):
            if other not in parents:
                parents[other] = node
                waiting.append(other)
    return Belief(tree, names, parents, uses.library)


def in_turn(uses: dict[str, set[str]], rank: dict[str, int]) -> list[str]:
    """Names so that each stands after those that it uses and, if it can, beside those of its folder; else by rank."""
    done: list[str] = []
    waiting = dict(uses)
    while waiting:
        ready = [name for name, used in waiting.items() if not used & waiting.keys()] or list(waiting)
        folder = os.path.dirname(done[-1]) if done else ""
        done.append(min(ready, key=lambda name: (os.path.dirname(name) != folder, rank.get(name, 0), name)))
        del waiting[done[-1]]
    return done


def ranks(root: str) -> dict[str, int]:
    """The places of the crates in crates.txt."""
    with open(f"{root}/crates.txt", encoding="utf-8") as file:
        names = re.findall(r"(?m)^(\w+)[^#\n:]*:", file.read())
    return {name: number for number, name in enumerate(names)}


def crate_of(file: str) -> str:
    return file.split("/")[1]


def files_in_turn(belief: Belief) -> list[str]:
    """The files that have to be read, in reading order: crate by crate, and each after those that it uses."""
    by_file: dict[str, set[str]] = {node.file: set() for node in belief.names}
    by_crate: dict[str, set[str]] = {crate_of(file): set() for file in (CALL_FILE, *by_file)}
    for node, others in belief.names.items():
        by_file[node.file] |= {other.file for other in others} - {node.file}
        by_crate[crate_of(node.file)] |= {crate_of(other.file) for other in others}
    by_crate[crate_of(CALL_FILE)] |= {crate_of(node.file) for node, parent in belief.parents.items() if parent is None}
    for crate, used in by_crate.items():
        used.discard(crate)
    place = {crate: number for number, crate in enumerate(in_turn(by_crate, ranks(belief.tree.root)))}
    files: list[str] = []
    for crate in sorted(place, key=lambda crate: place[crate]):
        own = {file: used for file, used in by_file.items() if crate_of(file) == crate}
        files += in_turn(own, {})
    return files


def first_sentence(text: str) -> str:
    """The first sentence of a comment, and the second if the first has only a word or three."""
    text = re.sub(r"^Definitions: ", "", text.strip())
    text = re.sub(r"(: the|\. The) definitions that contracts of other crates cite.*", "", text)
    parts = re.split(r"(?<=[a-z0-9)`]\.)\s+(?=[A-Z0-9`/])", text)
    parts = parts[: 2 if len(parts[0].split()) < 4 else 1]
    return " ".join(part[:1].upper() + part[1:] for part in parts).rstrip(".")


def sentences(root: str) -> dict[str, str]:
    """The sentences about files without a comment at their head."""
    try:
        with open(f"{root}/{SENTENCES}", encoding="utf-8") as file:
            rows = [line.rstrip("\n").split("\t") for line in file if line.strip()]
    except OSError as error:
        raise Fault(f"{SENTENCES} cannot be read: {error.strerror}") from error
    for row in rows:
        if len(row) != 2:
            raise Fault(f"{SENTENCES} has a line that is no path, tab and sentence: {row[0]}")
    return dict(row[:2] for row in rows)


def head_of(root: str, file: str) -> str:
    """The comment at the head of a file."""
    if file.endswith(".antt"):
        return read_antt(f"{root}/{file}").head
    with open(f"{root}/{file}", encoding="utf-8") as text:
        lines = re.match(r"(?://![^\n]*\n)*", text.read())
    return " ".join(line[3:].strip() for line in lines[0].splitlines()) if lines else ""


def order_in(root: str, file: str) -> dict[str, int]:
    """The lines of each thing that a file declares, without comments, in their order."""
    if file.endswith(".antt"):
        return {declared.name: declared.lines for declared in read_antt(f"{root}/{file}").declared}
    found: dict[str, int] = {}
    items: list[Item] = read_rt(f"{root}/{file}").items
    for item in items:
        model = re.match(r"impl(?:<.*>)? Model for (\w+)", item.head)
        if model and model[1] in found:
            found[model[1]] += item.lines
        elif item.word in ("struct", "enum", "trait", "const", "type"):
            found[item.name] = item.lines
    return found


def lines_of(paths: Iterable[tuple[str, str]]) -> int:
    """How many lines files have that are not blank."""
    count = 0
    for _, path in paths:
        with open(path, encoding="utf-8") as file:
            count += line_count(file.read())
    return count


def all_else(root: str, believed: int) -> Iterator[str]:
    """Rows of how many lines everything else has, in thousands."""
    sources = files_of(root, "src", ".rt")
    definitions = lines_of(files_of(root, "specs", ".antt"))
    code = [it for it in sources if not it[0].startswith("tests_")]
    tests = [it for it in sources if it[0].startswith("tests_")]
    for what, count in [
        ("code of the program, with its contracts", lines_of(code)),
        ("tests", lines_of(tests)),
        ("other definitions, of lemmas and of contracts below `run`", definitions - believed),
        ("lemmas and proofs", lines_of(files_of(root, "proofs", ".antt"))),
    ]:
        yield f"| {what} | {in_thousands(count)} |"


def in_thousands(count: int) -> str:
    if not count:
        return "none"
    return f"about {round(count / 1000):,},000 lines" if count >= 1000 else "under 1,000 lines"


def layers(root: str) -> Iterator[str]:
    """A table of how many lines each heading of docs/rooms.txt has."""
    with open(f"{root}/{ROOMS}", encoding="utf-8") as file:
        groups = rooms.read_rooms(file.read())
    parts = [files_of(root, part, ending) for part, ending in [("src", ".rt"), ("specs", ".antt"), ("proofs", ".antt")]]
    yield "The same by the layers of [ARCHITECTURE.md](ARCHITECTURE.md#the-crates):\n"
    yield "| Layer | Code, with its contracts | Definitions | Lemmas and proofs |\n|---|---|---|---|"
    for group in groups:
        crates = {room.name for room in group.rooms}
        counts = [lines_of(it for it in part if it[0] in crates) for part in parts]
        yield f"| {group.heading} | {' | '.join(in_thousands(count) for count in counts)} |"


def counted(count: int, what: str) -> str:
    return f"{count:,} {what}{'' if count == 1 else 's'}"


def section(belief: Belief, file: str, names: set[str], table: dict[str, str]) -> tuple[int, str]:
    """How many lines the believed definitions of a file have, and the file's entry."""
    order = order_in(belief.tree.root, file)
    sentence = first_sentence(head_of(belief.tree.root, file)) or table.get(file, "")
    if not sentence:
        raise Fault(f"{file} has no comment at its head: give it a sentence in {SENTENCES}")
    lines = sum(order[name] for name in names)
    told = ", ".join(f"`{name}`" for name in order if name in names)
    path = file.split("/", 2)[2]
    return lines, f"- [{path}](../{file}): {sentence}. {counted(lines, 'line')}: {told}"


def page(root: str) -> str:
    """The text of docs/BELIEVE.md."""
    belief, table = gather(root), sentences(root)
    files = files_in_turn(belief)
    names: dict[str, set[str]] = defaultdict(set)
    for node in belief.names:
        names[node.file].add(node.name)
    for file in table:
        if file not in names or head_of(root, file):
            raise Fault(f"{SENTENCES} has a sentence about {file}, which needs none any more: delete that line")
    entries: dict[str, list[tuple[int, str]]] = defaultdict(list)
    for file in files:
        entries[crate_of(file)].append(section(belief, file, names[file], table))
    total = sum(lines for rows in entries.values() for lines, _ in rows)
    text = [intro(len(belief.names), len(files), total), *all_else(root, total), "", *layers(root), ""]
    for crate, rows in entries.items():
        count = sum(len(names[file]) for file in files if crate_of(file) == crate)
        lines = sum(lines for lines, _ in rows)
        text.append(f"## {crate}\n\n{counted(count, 'definition')}, {counted(lines, 'line')}.\n")
        text += [entry for _, entry in rows]
        text.append("")
    text += ["## The library of the kit\n", "These are defined in the library of the Rattle kit:\n", library_of(belief)]
    return "\n".join(text) + "\n"


def intro(definitions: int, files: int, lines: int) -> str:
    return f"""# What has to be believed

The contract of [`{CALL}`](../{CALL_FILE}) is proved. Definitions tell what it means, and no
proof tells whether they say what was meant. So they have to be read and believed: all that the contract names, and all
that those name in turn. No other definition has to be; what is trusted besides, the [README](../README.md) says. Crates
and files stand in reading order: each after those that it uses. This page is made by `tools/believe.py`, and `.ci/run`
holds it to the sources. `tools/believe.py --why NAME` tells through what the contract comes to a definition.

| What | How much |
|---|---|
| what has to be believed: {definitions:,} definitions in {files} files | {lines:,} lines |"""


def library_of(belief: Belief) -> str:
    """The names of the library, those that are operators without their holes."""
    return ", ".join(f"`{name}`" for name in sorted({name.replace("◌", " ").strip() for name in belief.library}))


def rest_in(text: str) -> tuple[str, list[int]]:
    """A page without the lines that all else has, and those."""
    return REST.sub("", text), [int(found.replace(",", "")) * 1000 for found in REST.findall(text)]


def check(root: str) -> int:
    """Compares the page with what it should be."""
    try:
        with open(f"{root}/{PAGE}", encoding="utf-8") as file:
            there = file.read()
    except OSError:
        there = ""
    (has, has_rest), (wants, wants_rest) = rest_in(there), rest_in(page(root))
    if has == wants and all(abs(a - b) <= SLACK for a, b in zip(has_rest, wants_rest)):
        return 0
    print(f"believe.py: {PAGE} is not up to date: run tools/believe.py, and commit what it writes", file=sys.stderr)
    return 1


def why(root: str, name: str) -> int:
    """Prints how `run` comes to the definitions of a name."""
    belief = gather(root)
    found = [node for node in belief.parents if node.name == name]
    for start in found:
        node: Node | None = start
        steps = []
        while node:
            steps.append(f"{node.name} ({node.file})")
            node = belief.parents[node]
        print("\n    of ".join([*steps, CALL]))
    if not found:
        print(f"believe.py: `{CALL}` stands on no definition {name}", file=sys.stderr)
    return 0 if found else 1


def main(words: list[str], root: str = TOP) -> int:
    parser = argparse.ArgumentParser(prog="believe.py", description="Writes docs/BELIEVE.md.")
    parser.add_argument("--check", action="store_true", help="only tell whether the page is up to date")
    parser.add_argument("--why", metavar="NAME", help="tell through what the contract comes to a definition")
    options = parser.parse_args(words)
    try:
        if options.why:
            return why(root, options.why)
        if options.check:
            return check(root)
        text = page(root)
    except Lost as error:
        sys.exit(f"believe.py: a name stands for nothing that is found: {error}")
    except (Fault, OSError) as error:
        sys.exit(f"believe.py: {error}")
    with open(f"{root}/{PAGE}", "w", encoding="utf-8") as file:
        file.write(text)
    return 0


if __name__ == "__main__":
    sys.exit(main(sys.argv[1:]))
