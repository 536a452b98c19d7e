"""Reads the sources of a tree of Rattle crates, which are formatted: what each file declares, and what it imports."""

from __future__ import annotations

import os
import re
from dataclasses import dataclass, field
from functools import lru_cache

# What is no code in a .rt file: comments, texts, and characters.
COMMENT = re.compile(r"//[^\n]*|/\*.*?\*/", re.DOTALL)
NO_CODE = re.compile(r"//[^\n]*|/\*.*?\*/|\"(?:\\.|[^\"\\])*\"|b?'(?:\\.[^'\n]*|[^'\\\n])'(?!\w)", re.DOTALL)
CLAUSE = re.compile(r"(requires|ensures\*?|decreases)\s*(\w*)\s*(?=\{)")
ITEM = re.compile(
    r"(?P<pub>pub(?P<in>\([^)]*\))?\s+)?"
    r"(?:(?:const|unsafe)\s+(?=fn\b|trait\b|impl\b|unsafe\b))*"
    r"(?P<word>fn|struct|enum|trait|impl|mod|use|ghost\s+use|ghost|const|static|type)\b\s*(?P<name>\w*)"
)
OPENING, CLOSING = "([{", ")]}"


@dataclass
class Item:
    """What a .rt file declares: a function with its contract, a type, a trait, an implementation, a line of `ghost`."""

    word: str
    scope: str
    name: str
    is_public: bool
    head: str
    clauses: list[tuple[str, str, str]] = field(default_factory=list)
    has_body: bool = False
    text: str = ""
    lines: int = 0
    inner: list[Item] = field(default_factory=list)


@dataclass
class Source:
    """A .rt file: what it declares, and the lines by which it imports."""

    items: list[Item]
    uses: list[tuple[bool, str]]
    ghost_uses: list[str]


def blank(found: re.Match[str]) -> str:
    """As many blanks as were found, with the ends of lines."""
    return re.sub(r"[^\n]", " ", found[0])


def normal(text: str) -> str:
    """A text on one line, with one blank where there were many."""
    text = re.sub(r"\s+", " ", text).strip()
    text = re.sub(r",? ([)\]])", r"\1", text)
    return re.sub(r"([(\[]) ", r"\1", text)


def line_count(text: str) -> int:
    """How many lines of a text have something."""
    return sum(1 for line in text.split("\n") if line.strip())


class Reader:
    """Reads one .rt file. `code` has blanks for comments and texts, `shown` for comments alone."""

    def __init__(self, text: str) -> None:
        self.code = NO_CODE.sub(blank, text)
        self.shown = NO_CODE.sub(lambda found: blank(found) if COMMENT.fullmatch(found[0]) else found[0], text)
        self.uses: list[tuple[bool, str]] = []
        self.ghost_uses: list[str] = []

    def closing(self, at: int) -> int:
        """The place behind the bracket that closes the one that stands here."""
        depth = 0
        for place in range(at, len(self.code)):
            letter = self.code[place]
            if letter in OPENING:
                depth += 1
            elif letter in CLOSING:
                depth -= 1
                if depth == 0:
                    return place + 1
        return len(self.code)

    def end_of_head(self, at: int, end: int) -> int:
        """The place of the first `;`, `{` or clause at no depth."""
        while at < end:
            letter = self.code[at]
            if letter in ";{":
                return at
            if letter in "([":
                at = self.closing(at)
            elif letter.isalpha() and CLAUSE.match(self.code, at):
                return at
            elif letter.isalnum() or letter == "_":
                while at < end and (self.code[at].isalnum() or self.code[at] == "_"):
                    at += 1
            else:
                at += 1
        return end

    def read(self, at: int, end: int, scope: str) -> list[Item]:
        """The items between two places."""
        items: list[Item] = []
        is_test = False
        while at < end:
            letter = self.code[at]
            if letter == "#":
                close = self.closing(self.code.index("[", at))
                is_test = is_test or "test" in self.code[at:close]
                at = close
                continue
            found = ITEM.match(self.code, at) if letter.isalpha() else None
            if not found:
                at = self.closing(at) if letter in OPENING else at + 1
                continue
            item, at = self.read_item(found, end, scope)
            if item and not is_test:
                items.append(item)
            is_test = False
        return items

    def read_item(self, found: re.Match[str], end: int, scope: str) -> tuple[Item | None, int]:
        """The item that begins here, and the place behind it."""
        start, word, name = found.start("word"), normal(found["word"]), found["name"]
        if word in ("use", "ghost use"):
            close = self.code.find(";", start)
            line = normal(self.shown[found.end("word") : close])
            if word == "use":
                self.uses.append((bool(found["pub"]) and not found["in"], line))
            else:
                self.ghost_uses.append(line)
            return None, close + 1
        is_value = word in ("const", "static", "ghost", "type")
        close = self.value_end(start, end) if is_value else self.end_of_head(start, end)
        item = Item(word, scope, name, bool(found["pub"]) and not found["in"], normal(self.shown[start:close]))
        while clause := CLAUSE.match(self.code, close):
            after = self.closing(clause.end())
            item.clauses.append((clause[1], clause[2], normal(self.shown[clause.end() + 1 : after - 1])))
            close = self.skip_blank(after)
        if close < end and self.code[close] == "{":
            item.has_body, body = True, close
            close = self.closing(close)
            if word in ("impl", "trait", "mod"):
                item.inner = self.read(body + 1, close - 1, self.scope_of(item))
        elif close < end and self.code[close] == ";":
            close += 1
        item.text, item.lines = normal(self.shown[start:close]), line_count(self.shown[start:close])
        return item, close

    def value_end(self, at: int, end: int) -> int:
        """The place of the `;` or `,` that ends a value."""
        while at < end and self.code[at] not in ";":
            at = self.closing(at) if self.code[at] in OPENING else at + 1
        return at

    def skip_blank(self, at: int) -> int:
        while at < len(self.code) and self.code[at].isspace():
            at += 1
        return at

    @staticmethod
    def scope_of(item: Item) -> str:
        """What stands before the names of what an item holds: `Trait for Type`, or the name of a type or a trait."""
        if item.word == "mod":
            return item.name
        if item.word == "trait":
            return item.name
        head = re.sub(r"^impl\s*", "", item.head)
        if head.startswith("<"):
            depth = 0
            for place, letter in enumerate(head):
                depth += (letter == "<") - (letter == ">" and head[place - 1] != "-")
                if depth == 0:
                    head = head[place + 1 :].strip()
                    break
        return re.sub(r"\s+where\b.*", "", head)


@lru_cache(maxsize=None)
def read_rt(path: str) -> Source:
    """What a .rt file declares and imports."""
    with open(path, encoding="utf-8") as file:
        reader = Reader(file.read())
    items = reader.read(0, len(reader.code), "")
    return Source(items, reader.uses, reader.ghost_uses)


# Definitions and lemmas.

HEAD = re.compile(
    r"(?:(?:abbrev|unfoldable)\s+)?(?P<pub>pub\s+)?(?:abbrev\s+|unfoldable\s+)?"
    r"(?:(?P<word>record|data)\s+(?P<type>[^\s({:]+)|(?P<name>[^\s(){}\[\],;]+)\s+:(?=\s|$))"
)
NAME = re.compile(r"[^\s(){}\[\],;.]+(?:\.[^\s(){}\[\],;.]+)*")
ANTT_COMMENT = re.compile(r"(?<!\S)--(?=\s|-|$)[^\n]*")


@dataclass
class Declared:
    """What an .antt file declares: a definition or a lemma, a record, or data. `around` are the modules around it."""

    word: str
    name: str
    is_public: bool
    text: str
    around: str
    lines: int
    # Its type, or all of a record and of data.
    statement: str
    makers: list[str] = field(default_factory=list)


@dataclass
class Words:
    """An .antt file: what stands at its head, what it declares, and its lines of `use`."""

    head: str
    declared: list[Declared]
    uses: list[tuple[bool, str]]


def chunks(lines: list[str], depth: int) -> list[list[str]]:
    """The lines in groups: each begins with one that is as deep as told, and the others are deeper."""
    found: list[list[str]] = []
    for line in lines:
        if line.strip() and len(line) - len(line.lstrip()) <= depth:
            found.append([line])
        elif found:
            found[-1].append(line)
    return found


def declarations(lines: list[str], depth: int, around: str) -> list[Declared]:
    """What lines of an .antt file declare, which have no comments."""
    found: list[Declared] = []
    for chunk in chunks(lines, depth):
        first, text = chunk[0].strip(), "\n".join(chunk)
        if re.match(r"(pub )?use |pub mod |mod |infix", first):
            continue
        if first.startswith("module "):
            inner = [line for line in chunk[1:] if line.strip()]
            if inner:
                deeper = len(inner[0]) - len(inner[0].lstrip())
                found += declarations(inner, deeper, f"{around} {first}")
            continue
        head = HEAD.match(first)
        if head:
            word = head["word"] or "word"
            name = head["type"] or head["name"]
            found.append(Declared(word, name, "pub " in head[0], text, around, line_count(text), text))
            if word == "data":
                found[-1].makers = re.findall(r"(?m)^\s+([^\s(){}:|]+)\s+:(?=\s)", "\n".join(chunk[1:]))
        elif found:
            found[-1].text += "\n" + text
            found[-1].lines += line_count(text)
    return found


@lru_cache(maxsize=None)
def read_antt(path: str) -> Words:
    """What an .antt file declares and imports."""
    with open(path, encoding="utf-8") as file:
        text = file.read()
    head = re.match(r"(?:--[^\n]*\n)*", text)
    comment = " ".join(line.lstrip("- ").strip() for line in head[0].splitlines()) if head else ""
    lines = ANTT_COMMENT.sub(blank, text).split("\n")
    uses: list[tuple[bool, str]] = []
    for chunk in chunks(lines, 0):
        found = re.match(r"(pub )?(?:use|mod) (?=Rattle\.|std\.)", chunk[0])
        if found:
            uses.append((bool(found[1]), normal(" ".join(chunk)[found.end() :])))
    return Words(comment.strip(), declarations(lines, 0, ""), uses)


def files_of(root: str, part: str, ending: str) -> list[tuple[str, str]]:
    """The crate and path of each file of `src`, `specs` or `proofs` of a tree."""
    found = []
    for crate in sorted(os.listdir(f"{root}/crates")):
        for at, _, names in os.walk(f"{root}/crates/{crate}/{part}"):
            found += [(crate, f"{at}/{name}") for name in sorted(names) if name.endswith(ending)]
    return found
