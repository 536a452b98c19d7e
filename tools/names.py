"""Finds what the names in a tree of Rattle crates stand for: definitions, lemmas, and types and traits of code."""

from __future__ import annotations

import os
import re
from dataclasses import dataclass
from functools import lru_cache

from sources import NAME, Declared, Item, read_antt, read_rt

IMPORT = re.compile(r"(?:Rattle[.·])?(?P<path>[^{]*?)(?:[.·]\{(?P<names>.*)\})?(?: as (?P<alias>\S+))?$")
# What binds names in a text: telescopes, `λ`, `let`, `do`, and cases of `elim`; and fields, which are set or declared.
TELESCOPE = re.compile(r"[({]([^(){}:=]*?)\s:\s")
LAMBDA = re.compile(r"λ\s+([^.]*?)\.(?=\s)")
LET = re.compile(r"\blet\s+([^\s:=]+)")
DO = re.compile(r"([^\s;{}()]+)\s+←")
CASE = re.compile(r"[\[|]([^|\[\]↦]*)↦")
FIELD = re.compile(r"[{;]\s*([^\s{}();=]+)\s+=(?=\s)")
RECORD_FIELD = re.compile(r"(?m)^\s+(?:pub\s+)?([^():{}\n]+?)\s+:(?=\s)")
VARIANT = re.compile(r"(?:^|(?<=[,}]))\s*\w+(?=\s*[,({}]|\s*$)")
TEXT = re.compile(r'"[^"]*"')


@dataclass(frozen=True, order=True)
class Node:
    """What stands in a file: a definition or a lemma of an .antt file, or a type, trait or constant of code."""

    file: str
    name: str


class Lost(Exception):
    """A name stands for nothing that can be found."""


@dataclass(frozen=True)
class Import:
    """What a name of a file was imported from: an item of a path, or, without one, the path itself. std has no path."""

    path: tuple[str, ...]
    item: str | None


def split_names(names: str) -> list[tuple[str, str]]:
    """The names in the braces of an import, each with the one that it has here."""
    pairs = []
    for part in names.split(","):
        old, _, new = part.strip().partition(" as ")
        if old:
            pairs.append((old.strip(), (new or old).strip()))
    return pairs


def imports(line: str) -> dict[str, Import]:
    """What a line of `use` brings, by the names that it has then."""
    found = IMPORT.match(line)
    if not found:
        return {}
    path = tuple(re.split(r"[.·]", found["path"]))
    if found["names"] is None:
        return {found["alias"] or path[-1]: Import(path, None)}
    return {new: Import(path, old) for old, new in split_names(found["names"])}


class Tree:
    """A tree of crates, in which names are looked up."""

    def __init__(self, root: str) -> None:
        self.root = root
        self.file_here = lru_cache(maxsize=None)(lambda path: os.path.isfile(f"{root}/{path}"))

    # Files.

    def module(self, path: tuple[str, ...]) -> tuple[str, tuple[str, ...]]:
        """The .antt file of a path `crate, specs or proofs, ..`, and what is left of the path behind it."""
        crate, part, *steps = path
        for count in range(len(steps), 0, -1):
            file = f"crates/{crate}/{part}/{'/'.join(steps[:count])}.antt"
            if self.file_here(file):
                if count == len(steps):
                    return file, ()
                passed = self.passed_on(file, steps[count:])
                return passed if passed else (file, tuple(steps[count:]))
        passed = self.passed_on(f"crates/{crate}/{part}/Lib.antt", steps)
        if passed:
            return passed
        raise Lost(".".join(path))

    def passed_on(self, file: str, steps: list[str]) -> tuple[str, tuple[str, ...]] | None:
        """The file of a module that a node file passes on."""
        if self.file_here(file):
            for is_public, line in read_antt(f"{self.root}/{file}").uses:
                brought = imports(line).get(steps[0]) if is_public else None
                if brought and brought.item is None:
                    return self.module((*brought.path, *steps[1:]))
        return None

    def code(self, crate: str, steps: list[str]) -> tuple[str, list[str]]:
        """The .rt file of a path of modules, and what is left behind it."""
        for count in range(len(steps), 0, -1):
            file = f"crates/{crate}/src/{'/'.join(steps[:count])}.rt"
            if self.file_here(file):
                return file, steps[count:]
        return f"crates/{crate}/src/lib.rt", steps

    @lru_cache(maxsize=None)
    def has(self, crate: str) -> bool:
        """Whether a crate is of this tree, and not a library."""
        return os.path.isdir(f"{self.root}/crates/{crate}")

    # Names.

    def named(self, path: tuple[str, ...], name: str) -> Node | None:
        """What an item of a path stands for; None if it is of std."""
        if not self.has(path[0]):
            return None
        if path[2] in ("declared", "contracts"):
            file, rest = self.code(path[0], list(path[3:]))
            return self.in_code(file, rest[0] if rest else name)
        place, inner = self.module(path)
        return self.in_words(place, inner[0] if inner else name)

    def in_words(self, file: str, name: str) -> Node | None:
        """What a name of an .antt file stands for."""
        words = read_antt(f"{self.root}/{file}")
        for declared in words.declared:
            if name == declared.name or name in declared.makers:
                return Node(file, declared.name)
        for is_public, line in words.uses:
            brought = imports(line).get(name) if is_public else None
            if brought and brought.item:
                return self.named(brought.path, brought.item)
        raise Lost(f"{name} in {file}")

    def in_code(self, file: str, name: str) -> Node | None:
        """The type, trait or constant of a name in a .rt file."""
        source = read_rt(f"{self.root}/{file}")
        for item in source.items:
            if item.name == name and item.word in ("struct", "enum", "trait", "const", "type"):
                return Node(file, name)
        for _, line in source.uses:
            for brought in rust_imports(line):
                if brought[-1][1] == name:
                    return self.by_rust_path(file, [step for step, _ in brought])
        raise Lost(f"{name} in {file}")

    def by_rust_path(self, file: str, path: list[str]) -> Node | None:
        """What a path of code stands for, such as `crate::event::Opening`; None if it is of a library."""
        own = file.split("/")[1]
        crate = own if path[0] in ("crate", "super", "self") else path[0]
        steps = path[1:]
        if path[0] == "super":
            folder = os.path.splitext(file)[0].split("/")[3:-1]
            steps = [*folder, *steps]
        here = f"crates/{crate}/src/lib.rt"
        if path[0] not in ("crate", "super") and not os.path.isdir(f"{self.root}/crates/{crate}"):
            # A module of this file, or a library.
            folder = os.path.splitext(file)[0].split("/")[3:]
            steps = [*([] if folder == ["lib"] else folder), *path]
            if not self.file_here(f"crates/{own}/src/{'/'.join(steps[:-1])}.rt"):
                return None
            crate = own
        here, rest = self.code(crate, steps)
        return self.in_code(here, rest[0]) if rest else None


@lru_cache(maxsize=None)
def rust_imports(line: str) -> list[list[tuple[str, str]]]:
    """The paths that a `use` of code brings: each a list of steps, the last with the name that it has then."""
    head, brace, rest = line.partition("{")
    steps = [step for step in head.strip().rstrip(":").split("::") if step]
    if brace:
        paths = [([*steps, *old.split("::")], new) for old, new in split_names(rest.rstrip("} "))]
        return [[*((step, step) for step in path[:-1]), (path[-1], new)] for path, new in paths]
    last, _, alias = steps[-1].partition(" as ")
    return [[*((step, step) for step in steps[:-1]), (last, alias or last)]]


class Uses:
    """What the things of a tree name."""

    def __init__(self, tree: Tree) -> None:
        self.tree = tree
        self.library: set[str] = set()
        self.environment = lru_cache(maxsize=None)(self.read_environment)

    def read_environment(self, file: str) -> dict[str, Import | Node]:
        """What each name in a file stands for: what it declares, and what it imports."""
        path = f"{self.tree.root}/{file}"
        found: dict[str, Import | Node] = {}
        if file.endswith(".antt"):
            words = read_antt(path)
            for _, line in words.uses:
                found.update(imports(line))
            for declared in words.declared:
                for name in (declared.name, *declared.makers):
                    found[name] = Node(file, declared.name)
            return found
        source = read_rt(path)
        for _, line in source.uses:
            for steps in rust_imports(line):
                found[steps[-1][1]] = Import(("code", *(step for step, _ in steps)), None)
        for item in source.items:
            if item.word in ("struct", "enum", "trait", "const", "type"):
                found[item.name] = Node(file, item.name)
        for line in source.ghost_uses:
            found.update(imports(line))
        return found

    def meaning(self, file: str, name: str) -> Node | None:
        """What a name in a file stands for, which may have dots; None if it is of std, or bound there."""
        first, *rest = name.split(".")
        brought = self.environment(file).get(first)
        if brought is None or isinstance(brought, Node):
            return brought
        if brought.path[0] == "code":
            node = self.tree.by_rust_path(file, list(brought.path[1:]))
            if node is None:
                self.library.add(brought.path[-1])
            return node
        if not self.tree.has(brought.path[0]):
            self.library.add(brought.item or (rest[0] if rest else brought.path[-1]))
            return None
        if brought.item is None:
            return self.tree.named(brought.path, rest[0]) if rest else None
        return self.tree.named(brought.path, brought.item)

    def operators(self, file: str) -> dict[str, str]:
        """The names with holes in a file, by each of their parts."""
        return {part: name for name in self.environment(file) if "◌" in name for part in name.split("◌") if part}

    def of_text(self, file: str, text: str, bound: set[str]) -> set[Node]:
        """What a text names, but for what it binds itself."""
        return set(self.names_in(file, text, bound).values())

    def names_in(self, file: str, text: str, bound: set[str]) -> dict[str, Node]:
        """The same, by the names in the text."""
        text = TEXT.sub('""', text)
        bound = bound | bound_by(text)
        fields = {found.start(1) for found in FIELD.finditer(text)}
        operators = self.operators(file)
        nodes = {}
        for found in NAME.finditer(text):
            name = found[0]
            behind_dot = found.start() > 0 and text[found.start() - 1] == "."
            if name.split(".")[0] in bound or found.start() in fields or behind_dot:
                continue
            node = self.meaning(file, operators.get(name, name))
            if node:
                nodes[name] = node
        return nodes

    def names_of_word(self, file: str, declared: Declared, text: str) -> dict[str, Node]:
        """What a text of a definition or a lemma names, by the names in it: its statement, or all of it."""
        around = bound_by(declared.around)
        nodes = self.names_in(file, declared.around, set())
        fields = set(" ".join(RECORD_FIELD.findall(declared.text)).split())
        for chunk in clauses_of(declared.statement, text):
            bound = around | (fields if declared.word == "record" else self.patterns(file, chunk, declared.name))
            nodes.update(self.names_in(file, chunk, bound))
        return {name: node for name, node in nodes.items() if node != Node(file, declared.name)}

    def patterns(self, file: str, chunk: str, own: str) -> set[str]:
        """The names that the left side of a clause and the cases of `elim` bind: all but those that make data."""
        left = re.split(r"\s=(?=\s|$)", chunk, maxsplit=1)
        places = [*CASE.findall(chunk), *(left[:1] if len(left) > 1 else [])]
        names = {name for place in places for name in NAME.findall(place) if "." not in name}
        return {name for name in names if name != own and not self.makes(file, name)}

    def makes(self, file: str, name: str) -> bool:
        """Whether a name is one of those that make data, and so is matched in a pattern, and not bound."""
        brought = self.environment(file).get(name)
        is_variant = isinstance(brought, Import) and "TheVariants" in brought.path
        return name[:1].isupper() or not name[:1].isalpha() or is_variant

    def of_code(self, file: str, name: str) -> set[Node]:
        """What a type, a trait or a constant of code names, with what is said of a type to proofs."""
        nodes = set()
        for text in shown_to_proofs(read_rt(f"{self.tree.root}/{file}").items, name):
            nodes |= self.of_text(file, text, set())
        return nodes - {Node(file, name)}

    def of(self, node: Node) -> set[Node]:
        """What a thing names."""
        if node.file.endswith(".rt"):
            return self.of_code(node.file, node.name)
        for declared in read_antt(f"{self.tree.root}/{node.file}").declared:
            if declared.name == node.name:
                return set(self.names_of_word(node.file, declared, declared.text).values())
        raise Lost(f"{node.name} in {node.file}")


def bound_by(text: str) -> set[str]:
    """The names that a text binds by telescopes, `λ`, `let` and `do`."""
    bare = text
    while (less := re.sub(r"\([^()]*:[^()]*\)", " ", bare)) != bare:
        bare = less
    found = [*TELESCOPE.findall(text), *LAMBDA.findall(bare), *LET.findall(text), *DO.findall(text)]
    return {name for names in found for name in re.split(r"[\s(){}]+", names) if name}


def clauses_of(statement: str, text: str) -> list[str]:
    """The statement with which a text begins, and the clauses behind it."""
    parts = [statement]
    rest = text[len(statement) :].split("\n")
    depth = min((len(line) - len(line.lstrip()) for line in rest if line.strip()), default=0)
    for line in rest:
        if line.strip() and len(line) - len(line.lstrip()) <= depth:
            parts.append(line)
        else:
            parts[-1] += f"\n{line}"
    return parts


def names_in_code(text: str) -> str:
    """A text of code with blanks around its names, and dots in its paths."""
    return re.sub(r"[<>&:']", " ", text.replace("::", "."))


def shown_to_proofs(items: list[Item], name: str) -> list[str]:
    """What proofs see of a type, a trait or a constant: its text, and what stands for it."""
    texts = []
    for item in items:
        if item.word in ("struct", "const", "type") and item.name == name:
            texts.append(names_in_code(item.text))
        elif item.word == "enum" and item.name == name:
            texts.append(names_in_code(VARIANT.sub("", item.text.partition("{")[2])))
        elif item.word == "trait" and item.name == name:
            texts += [text for inner in item.inner for text in contract_texts(inner)]
        elif item.word == "impl" and re.match(rf"impl(<.*>)? Model for {name}\b", item.head):
            texts += [inner.head for inner in item.inner if inner.word == "ghost"]
    return texts


def contract_texts(item: Item) -> list[str]:
    """The head of an item, and its clauses."""
    head = item.head if item.word == "ghost" else names_in_code(item.head)
    return [head, *(text.replace("::", ".") for _, _, text in item.clauses)]
