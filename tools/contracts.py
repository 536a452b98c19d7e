#!/usr/bin/env python3
"""Prints the public contracts of a tree, or compares those of two trees: nothing that is proved may be lost unseen.

    tools/contracts.py TREE                    prints each public function: its kind, place, head and clauses
    tools/contracts.py OLD NEW [--map FILE]    tells what NEW has lost, has otherwise, or has more than OLD

A tree is a folder, or a revision of this repository. Five kinds of things are compared:

    call   a function that other crates can name: its head and clauses
    law    a function that takes and gives nothing: its clauses, which are proved
    type   a struct, an enum, a constant, or what a trait has for proofs, if other crates can name it
    word   a definition in specs/
    lemma  what a public lemma in proofs/ states

White space and comments do not count. A name that stands for another definition than before does. A map has a line
for each crate that moved: its old name, a tab and its new name. If the new crate has parts, the part is the old name
from behind its first `_`, or stands behind another tab. What is the same but for its place or its name is told as
moved, and is not lost. The exit status is 0 if nothing is lost or changed, 1 if something is, and 2 if the words are
wrong.
"""

from __future__ import annotations

import argparse
import os
import re
import subprocess
import sys
import tempfile
from collections import Counter, defaultdict
from collections.abc import Callable, Hashable, Iterator
from contextlib import contextmanager
from dataclasses import dataclass, field
from functools import lru_cache

from names import Lost, Node, Tree, Uses, names_in_code, shown_to_proofs
from sources import Declared, Item, files_of, normal, read_antt, read_rt

CALL, LAW, TYPE, WORD, LEMMA = "call", "law", "type", "word", "lemma"
KINDS = [CALL, LAW, TYPE, WORD, LEMMA]

# A name, the place of what it stands for, and the text of that.
Meaning = tuple[str, str, str]


@dataclass(frozen=True)
class Thing:
    """One thing that is compared. `parts` are its head and clauses, and `meant` is what names in them stand for."""

    kind: str
    place: str
    name: str
    parts: tuple[str, ...]
    meant: tuple[Meaning, ...] = field(default=(), compare=False)

    @property
    def full(self) -> str:
        return f"{self.place}::{self.name}"


class Map:
    """Where crates have moved."""

    def __init__(self, path: str | None) -> None:
        self.moves: dict[str, str] = {}
        rows = []
        if path:
            with open(path, encoding="utf-8") as file:
                rows = [line.rstrip("\n").split("\t") for line in file if line.strip()]
        joined = Counter(row[1] for row in rows)
        for old, new, *part in rows:
            inner = part[0] if part else old.partition("_")[2] if joined[new] > 1 else ""
            self.moves[old] = f"{new}::{inner}" if inner else new
        names = "|".join(re.escape(name) for name in sorted(self.moves, key=len, reverse=True)) or "(?!)"
        behind = r"(\.(?:specs|proofs)(?:\.declared|\.contracts)?)?"
        self.named = re.compile(rf"(?<![\w:.])(Rattle\.)?({names})(?=::|\.){behind}")

    def place(self, crate: str, path: list[str]) -> str:
        """The place of a file, by the crate's new name."""
        return "::".join([self.moves.get(crate, crate), *(step for step in path if step not in ("lib", "Lib"))])

    def text(self, crate: str, text: str) -> str:
        """A text in which crates have their new names, and one's own is named as others are."""
        text = re.sub(r"(?<![\w:.])crate::", f"{crate}::", text)
        return self.named.sub(lambda found: f"{found[1] or ''}{self.moves[found[2]]}{found[3] or ''}", text)


def exported(root: str, crate: str) -> set[str]:
    """The names that others can reach: of public modules, and those that are passed on."""
    names: set[str] = set()

    def visit(items: list[Item], uses: list[tuple[bool, str]], folder: str, is_open: bool) -> None:
        for is_public, line in uses:
            if is_public:
                names.update(re.findall(r"\w+", line))
        for item in items:
            if is_open and item.is_public and item.word in ("fn", "struct", "enum", "trait", "const", "type"):
                names.add(item.name)
            path = f"{folder}/{item.name}"
            if item.word == "mod" and not item.has_body and os.path.exists(f"{path}.rt"):
                inner = read_rt(f"{path}.rt")
                visit(inner.items, inner.uses, path, is_open and item.is_public)

    top = f"{root}/crates/{crate}/src"
    if os.path.exists(f"{top}/lib.rt"):
        lib = read_rt(f"{top}/lib.rt")
        visit(lib.items, lib.uses, top, True)
    return names


def is_law(item: Item) -> bool:
    is_bare = re.match(r"fn \w+(<[^(]*>)?\(\)$", item.head)
    return bool(is_bare) and any(word != "requires" for word, _, _ in item.clauses)


def functions(items: list[Item], names: set[str], is_trait: bool = False) -> Iterator[tuple[str, str, tuple[str, ...]]]:
    """The kind, name and parts of each function, type and constant that others can name."""
    for item in items:
        target = re.sub(r"<.*", "", item.scope.split(" for ")[-1]).split("::")[-1].strip()
        reached = item.name in names if not item.scope else target in names
        if item.word == "fn" and reached and (item.is_public or is_trait):
            clauses = tuple(f"{word} {name} {{ {text} }}" for word, name, text in item.clauses)
            name = f"{target}::{item.name}" if target else item.name
            yield LAW if is_law(item) else CALL, name, (item.head, *clauses)
        elif item.word in ("struct", "enum", "trait", "const", "type") and item.is_public and item.name in names:
            if item.word != "trait":
                yield TYPE, item.name, (item.text,)
            yield from functions(item.inner, names, True)
        elif item.word == "ghost" and reached:
            yield TYPE, f"{item.scope} {item.name}", (item.head,)
        elif item.word == "impl":
            yield from functions(item.inner, names)


class Contents:
    """Gathers the things of a tree."""

    def __init__(self, root: str, moved: Map) -> None:
        self.root, self.moved = root, moved
        self.uses = Uses(Tree(root))
        self.meaning = lru_cache(maxsize=None)(self.read_meaning)
        self.found: list[Thing] = []

    def place(self, file: str) -> str:
        _, crate, _, *steps = os.path.splitext(file)[0].split("/")
        return self.moved.place(crate, steps)

    def read_meaning(self, node: Node) -> tuple[str, str]:
        """The place of a definition, and its text."""
        path = f"{self.root}/{node.file}"
        if node.file.endswith(".antt"):
            texts = [f"{it.around} {it.text}" for it in read_antt(path).declared if it.name == node.name]
        else:
            texts = shown_to_proofs(read_rt(path).items, node.name)
        text = self.moved.text(node.file.split("/")[1], normal(" ".join(texts)))
        return f"{self.place(node.file)}::{node.name}", text

    def meanings(self, names: Callable[[], dict[str, Node]]) -> tuple[Meaning, ...]:
        """What names stand for; a name that stands for nothing leaves out those that stand beside it."""
        try:
            return tuple((name, *self.meaning(node)) for name, node in sorted(names().items()))
        except Lost:
            return ()

    def add(self, kind: str, file: str, name: str, parts: tuple[str, ...], meant: tuple[Meaning, ...]) -> None:
        crate = file.split("/")[1]
        parts = tuple(self.moved.text(crate, part) for part in parts)
        self.found.append(Thing(kind, self.place(file), name, parts, meant))

    def add_declared(self, kind: str, file: str, declared: Declared, text: str) -> None:
        meant = self.meanings(lambda: self.uses.names_of_word(file, declared, text))
        self.add(kind, file, declared.name, (" ".join(f"{declared.around} {text}".split()),), meant)

    def add_functions(self, file: str, names: set[str]) -> None:
        for kind, name, parts in functions(read_rt(f"{self.root}/{file}").items, names):
            texts = [names_in_code(parts[0]), *parts[1:]]
            meant = () if kind == TYPE else self.meanings(lambda: self.uses.names_in(file, "\n".join(texts), set()))
            self.add(kind, file, name, parts, meant)

    def gather(self) -> list[Thing]:
        """All things of the tree."""
        names: dict[str, set[str]] = {}
        for crate, path in files_of(self.root, "src", ".rt"):
            names.setdefault(crate, exported(self.root, crate))
            self.add_functions(os.path.relpath(path, self.root), names[crate])
        for _, path in files_of(self.root, "specs", ".antt"):
            for word in read_antt(path).declared:
                self.add_declared(WORD, os.path.relpath(path, self.root), word, word.text)
        for _, path in files_of(self.root, "proofs", ".antt"):
            for lemma in read_antt(path).declared:
                if lemma.is_public:
                    self.add_declared(LEMMA, os.path.relpath(path, self.root), lemma, lemma.statement)
        return self.found


def unnamed(thing: Thing) -> tuple[str, ...]:
    """The parts of a thing without its name."""
    own = re.escape(thing.name.split("::")[-1])
    return tuple(re.sub(rf"(?<![\w.-]){own}(?![\w-])", "·", part) for part in thing.parts)


Pairs = list[tuple[Thing, Thing]]


@dataclass
class Difference:
    """What a new tree has otherwise than an old one, of one kind of things."""

    same: int
    moved: Pairs
    changed: Pairs
    lost: list[Thing]
    added: list[Thing]


def compare(old: list[Thing], new: list[Thing]) -> Difference:
    """Pairs things of one kind: those that are the same in all, that moved, that changed in place, that have another
    name, and at last those that moved and changed."""
    keys: list[Callable[[Thing], Hashable]] = [
        lambda it: (it.place, it.name, it.parts),
        lambda it: (it.name, it.parts),
        lambda it: (it.place, it.name),
        unnamed,
        lambda it: it.name,
    ]
    pairs: list[Pairs] = []
    for key in keys:
        waiting: dict[Hashable, list[Thing]] = defaultdict(list)
        for thing in new:
            waiting[key(thing)].append(thing)
        found: Pairs = []
        left = []
        for thing in old:
            others = waiting[key(thing)]
            if others:
                found.append((thing, others.pop(0)))
            else:
                left.append(thing)
        old, new = left, [thing for others in waiting.values() for thing in others]
        pairs.append(found)
    misread = [pair for pair in pairs[0] + pairs[1] + pairs[3] if other_meanings(*pair)]
    same, moved = ([pair for pair in found if pair not in misread] for found in (pairs[0], pairs[1] + pairs[3]))
    return Difference(len(same), moved, pairs[2] + pairs[4] + misread, old, new)


def other_meanings(before: Thing, after: Thing) -> list[str]:
    """The names by which the same text says something else: what they stand for has another place, and another text."""
    meant = {name: (place, text) for name, place, text in after.meant}
    found = []
    for name, place, text in before.meant:
        other_place, other_text = meant.get(name, (place, text))
        if place != other_place and text != other_text:
            found.append(f"{name} was {place}, and is {other_place}")
    return found


def told(difference: Difference, kind: str) -> Iterator[str]:
    """The lines about one kind of things."""
    for thing in difference.lost:
        yield f"lost {kind} {thing.full}"
        yield from (f"    - {part}" for part in thing.parts)
    for before, after in difference.changed:
        place = "" if before.full == after.full else f" (now {after.full})"
        yield f"changed {kind} {before.full}{place}"
        yield from (f"    - {part}" for part in before.parts if part not in after.parts)
        yield from (f"    + {part}" for part in after.parts if part not in before.parts)
        yield from (f"    ! {line}" for line in other_meanings(before, after))
    for before, after in difference.moved:
        yield f"moved {kind} {before.full} (now {after.full})"
    for thing in difference.added:
        yield f"added {kind} {thing.full}"


@contextmanager
def tree(name: str) -> Iterator[str]:
    """The folder of a tree, which is made for a revision and goes afterwards."""
    if os.path.isdir(f"{name}/crates"):
        yield name
        return
    top = os.path.dirname(os.path.dirname(os.path.abspath(__file__)))
    packed = subprocess.run(["git", "-C", top, "archive", name, "crates"], capture_output=True, check=False)
    if packed.returncode:
        sys.exit(f"contracts.py: {name} is neither a folder with crates/ nor a revision of this repository")
    with tempfile.TemporaryDirectory() as folder:
        subprocess.run(["tar", "-x", "-C", folder], input=packed.stdout, check=True)
        yield folder


def show(name: str) -> int:
    """Prints the calls and laws of a tree."""
    with tree(name) as root:
        for thing in Contents(root, Map(None)).gather():
            if thing.kind in (CALL, LAW):
                print(f"{thing.kind} {thing.full}", *(f"    {part}" for part in thing.parts), sep="\n")
    return 0


def differ(old_name: str, new_name: str, moved: Map) -> int:
    """Prints what one tree has otherwise than another."""
    with tree(old_name) as root:
        old = Contents(root, moved).gather()
    with tree(new_name) as root:
        new = Contents(root, Map(None)).gather()
    rows: list[tuple[str, list[int]]] = []
    is_less = False
    for kind in KINDS:
        olds, news = [it for it in old if it.kind == kind], [it for it in new if it.kind == kind]
        difference = compare(olds, news)
        for line in told(difference, kind):
            print(line)
        counts = [len(difference.moved), len(difference.changed), len(difference.lost), len(difference.added)]
        rows.append((kind, [len(olds), len(news), difference.same, *counts]))
        is_less = is_less or bool(difference.lost or difference.changed)
    print(f"{'':6}" + "".join(f"{word:>9}" for word in ("old", "new", "same", "moved", "changed", "lost", "added")))
    for kind, numbers in rows:
        print(f"{kind:6}" + "".join(f"{number:9,}" for number in numbers))
    return 1 if is_less else 0


def main(words: list[str]) -> int:
    parser = argparse.ArgumentParser(prog="contracts.py", description=__doc__.split("\n", maxsplit=1)[0])
    parser.add_argument("old", help="a folder or a revision")
    parser.add_argument("new", nargs="?", help="the tree that is compared with it")
    parser.add_argument("--map", help="a file with a line for each crate that moved")
    options = parser.parse_args(words)
    if options.new is None:
        if options.map:
            parser.error("a map wants two trees")
        return show(options.old)
    try:
        moved = Map(options.map)
    except (OSError, ValueError, IndexError) as error:
        parser.error(f"the map cannot be read: {error}")
    return differ(options.old, options.new, moved)


if __name__ == "__main__":
    sys.exit(main(sys.argv[1:]))
