#!/usr/bin/env python3
"""Tests that the pages lead where they say: each link of a page is there, each file of the repository that a page names
is there, and each word that a table names in a file of a crate stands in that file. Run it with no words."""

import re
import subprocess
import unittest
from pathlib import Path
from typing import Callable, Iterator, List, Set, Tuple

TOP = Path(__file__).resolve().parent.parent
FOLDERS = ("bench", "crates", "docs", "examples", "python", "tools", "wrong-bodies", ".ci")

LINK = re.compile(r"!?\[[^\]]*\]\(([^)\s]+)\)")
HEADING = re.compile(r"^#+ (.*)$", re.MULTILINE)
SPAN = re.compile(r"`([^`\n]+)`")
# A path from the top of the repository, also in a block of commands. `../` before it is from the folder of a crate.
PATH = re.compile(rf"(?<![\w/.$~-])(?:\.\./)*((?:{'|'.join(map(re.escape, FOLDERS))})/[\w./*-]*)")
# A file of a crate and the words in it, as a table has them: `r9_cons/src/line.rt`: `key`, `erase`
CRATE_FILE = r"(?:model|law|r9|tests)_\w+/(?:src|specs)/[\w./]+|rio9/src/main\.rt"
PLACE = re.compile(rf"`({CRATE_FILE})`(?:: ((?:`[^`]+`(?:, )?)+))?")
# What a page names that is made by a build, or stands for any name.
MADE = ("crates/rio9/out/", "wrong-bodies/NAME", "crates/NAME")


def pages() -> List[Path]:
    """The pages that git knows."""
    command = ["git", "ls-files", "-co", "--exclude-standard", "*.md"]
    listed = subprocess.run(command, cwd=TOP, check=True, capture_output=True, text=True)
    return [TOP / line for line in listed.stdout.split("\n") if line and (TOP / line).is_file()]


def anchors(text: str) -> Set[str]:
    """The names of a page's headings in links."""
    plain = (re.sub(r"[^\w\- ]", "", heading.lower()) for heading in HEADING.findall(text))
    return {heading.strip().replace(" ", "-") for heading in plain}


def lost_links(page: Path) -> Iterator[str]:
    """The links of a page that lead to nothing."""
    for target in LINK.findall(page.read_text(encoding="utf-8")):
        if re.match(r"[a-z]+:", target):
            continue
        name, _, anchor = target.partition("#")
        file = (page.parent / name).resolve() if name else page
        if not file.exists():
            yield target
        elif anchor and anchor not in anchors(file.read_text(encoding="utf-8")):
            yield target


def lost_paths(text: str) -> Iterator[str]:
    """The paths from the top of the repository that a text names and that are not there."""
    for path in PATH.findall(text):
        path = path.rstrip(".-")
        if not path.startswith(MADE) and not any(TOP.glob(path)):
            yield path


def places(text: str) -> Iterator[Tuple[str, List[str]]]:
    """The files of crates that a text names, with the words that it names in each."""
    for path, words in PLACE.findall(text):
        yield path, SPAN.findall(words)


def lost_places(text: str) -> Iterator[str]:
    """The files of crates that are not there, and the words that do not stand in them."""
    for path, words in places(text):
        file = TOP / "crates" / path
        if not file.is_file():
            yield path
            continue
        source = file.read_text(encoding="utf-8")
        yield from (f"{path}: {word}" for word in words if not re.search(rf"(?<!\w){re.escape(word)}(?!\w)", source))


class Documents(unittest.TestCase):
    def each_page(self, lost: Callable[[Path], Iterator[str]]) -> None:
        for page in pages():
            with self.subTest(page=str(page.relative_to(TOP))):
                self.assertEqual(list(lost(page)), [])

    def test_links(self) -> None:
        self.each_page(lost_links)

    def test_paths(self) -> None:
        self.each_page(lambda page: lost_paths(page.read_text(encoding="utf-8")))

    def test_places(self) -> None:
        self.each_page(lambda page: lost_places(page.read_text(encoding="utf-8")))


class Reading(unittest.TestCase):
    def test_a_path_in_a_sentence_and_in_a_command(self) -> None:
        text = "docs/NONE.md. `rt run < ../../examples/none.record | tools/rooms.py`, /far/docs, crates/rio9/out/rio9."
        self.assertEqual(list(lost_paths(text)), ["docs/NONE.md", "examples/none.record"])

    def test_anchors(self) -> None:
        self.assertEqual(anchors("# 9P messages (intro(5))\n## The program\n"), {"9p-messages-intro5", "the-program"})

    def test_places_with_words(self) -> None:
        text = "| `r9_memory/src/lib.rt`: `Memory`, `nowhere at all` | `r9_memory/src/none.rt` | `r9_memory` |"
        self.assertEqual(list(lost_places(text)), ["r9_memory/src/lib.rt: nowhere at all", "r9_memory/src/none.rt"])


if __name__ == "__main__":
    unittest.main()
