#!/usr/bin/env python3
"""Tests how contracts.py reads trees and compares them. Run it with no words."""

from __future__ import annotations

import contextlib
import io
import os
import tempfile
import unittest

import contracts

SHELF_FILE = "crates/r9_shelf/src/shelf.rt"
LIB = "//! A crate.\npub mod shelf;\nmod hidden;\n\npub use hidden::Key;\n"
SHELF = """//! A shelf.
ghost use Rattle.m_words.specs.Words.{room};

use crate::Key;

/// What it holds. `fn said() ensures { lies }` is a comment.
pub struct Shelf {
    pub items: u32,
}

impl Shelf {
    /// Puts one more.
    pub fn put(&mut self, key: Key) -> bool
        requires { 0 < room self.old }
        ensures more { self.new ≡ self.old + 1 }
        // Why it is so: a { bracket in a comment.
        ensures told {
            result ≡ true
        }
    {
        key.fits('{') && "}".len() == 1
    }

    fn private(&self) {}
}

/// Room is no less.
pub fn room_stays()
    ensures { (n : ℕ) → room n ≡ room n }
{}
"""
HIDDEN = "pub struct Key;\n\npub struct Unseen;\n\npub fn unseen() {}\n"
WORDS = """-- Words of shelves.
use Rattle.std.specs.Prelude.{ℕ}

-- how many go in
abbrev pub room : ℕ → ℕ
room n = n

pub record Place : Type 0 where
  pub at : ℕ
"""
LEMMAS = "pub room_is : (n : ℕ) → room n ≡ n\nroom_is n = refl\n\nown : ℕ\nown = 1\n"
TREE = {
    "crates/r9_shelf/src/lib.rt": LIB,
    SHELF_FILE: SHELF,
    "crates/r9_shelf/src/hidden.rt": HIDDEN,
    "crates/m_words/src/lib.rt": "//! No code.\n",
    "crates/m_words/specs/Words.antt": WORDS,
    "crates/m_words/proofs/Lemmas.antt": LEMMAS,
}


@contextlib.contextmanager
def tree(files):
    """The folder of a tree with these files."""
    with tempfile.TemporaryDirectory() as root:
        for name, text in files.items():
            os.makedirs(os.path.dirname(f"{root}/{name}"), exist_ok=True)
            with open(f"{root}/{name}", "w", encoding="utf-8") as file:
                file.write(text)
        yield root


def run(*words):
    """The exit status and the lines of contracts.py."""
    said = io.StringIO()
    with contextlib.redirect_stdout(said):
        status = contracts.main(list(words))
    return status, said.getvalue().splitlines()


class Comparing(unittest.TestCase):
    def differ(self, files, rows=""):
        """The status and the lines of a comparison of the tree with another one."""
        with tree(TREE) as old, tree({**files, "map": rows}) as new:
            return run(old, new, "--map", f"{new}/map")

    def changed(self, name, old, new):
        """The same of one change."""
        self.assertEqual(TREE[name].count(old), 1)
        return self.differ({**TREE, name: TREE[name].replace(old, new)})

    def test_the_same(self):
        status, lines = self.differ(TREE)
        self.assertEqual(status, 0)
        wanted = [[kind, n, n] for kind, n in zip(contracts.KINDS, "11221")]
        self.assertEqual([line.split()[:3] for line in lines[1:]], wanted)

    def test_white_space_and_comments_do_not_count(self):
        name = SHELF_FILE
        self.assertEqual(self.changed(name, "{\n            result ≡ true\n        }", "{ result ≡ true }")[0], 0)
        self.assertEqual(self.changed(name, "Puts one more.", "Puts another one.")[0], 0)

    def test_bodies_and_proofs_do_not_count(self):
        self.assertEqual(self.changed(SHELF_FILE, "key.fits('{')", "true")[0], 0)
        self.assertEqual(self.changed("crates/m_words/proofs/Lemmas.antt", "_is n = refl", "_is n = refl {n}")[0], 0)

    def test_a_clause_that_is_lost(self):
        status, lines = self.changed(SHELF_FILE, "ensures more { self.new ≡ self.old + 1 }", "")
        self.assertEqual(status, 1)
        self.assertEqual(lines[0], "changed call r9_shelf::shelf::Shelf::put")
        self.assertEqual(lines[1].strip(), "- ensures more { self.new ≡ self.old + 1 }")

    def test_a_clause_that_is_asked_more(self):
        more = "requires key { true ≡ true }\n        requires {"
        status, lines = self.changed(SHELF_FILE, "requires {", more)
        self.assertEqual((status, lines[1].strip()), (1, "+ requires key { true ≡ true }"))

    def test_a_law_a_word_and_a_lemma_that_change(self):
        for name, old, new, first in [
            (SHELF_FILE, "room n ≡ room n", "n ≡ n", "changed law r9_shelf::shelf::room_stays"),
            ("crates/m_words/specs/Words.antt", "room n = n", "room n = 0", "changed word m_words::Words::room"),
            ("crates/m_words/specs/Words.antt", "pub at", "pub where", "changed word m_words::Words::Place"),
            ("crates/m_words/proofs/Lemmas.antt", "room n ≡ n", "n ≡ n", "changed lemma m_words::Lemmas::room_is"),
            (SHELF_FILE, "items: u32", "items: u64", "changed type r9_shelf::shelf::Shelf"),
        ]:
            status, lines = self.changed(name, old, new)
            self.assertEqual((status, lines[0]), (1, first))

    def test_a_name_that_stands_for_something_else(self):
        other = WORDS.replace("room n = n", "room n = 0").replace("pub at", "pub where")
        more = {**TREE, "crates/m_words/specs/Other.antt": other}
        use = "use Rattle.m_words.specs.Words.{room};"
        with tree(more) as old, tree({**more, SHELF_FILE: SHELF.replace(use, use.replace("Words", "Other"))}) as new:
            status, lines = run(old, new)
        self.assertEqual((status, lines[0]), (1, "changed call r9_shelf::shelf::Shelf::put"))
        self.assertEqual(lines[1].strip(), "! room was m_words::Words::room, and is m_words::Other::room")
        # What stands there is the same, so nothing is changed but its place.
        same = {**TREE, "crates/m_words/specs/Other.antt": WORDS}
        with tree(same) as old, tree({**same, SHELF_FILE: SHELF.replace(use, use.replace("Words", "Other"))}) as new:
            self.assertEqual(run(old, new)[0], 0)

    def test_what_is_lost_and_added(self):
        less = {name: text for name, text in TREE.items() if not name.endswith("Words.antt")}
        other = "pub record Other : Type 0 where\n  pub on : ℕ\n"
        status, lines = self.differ({**less, "crates/m_words/specs/Other.antt": other})
        self.assertEqual(status, 1)
        told = [line for line in lines if not line.startswith(" ")]
        self.assertEqual(told[:2], ["lost word m_words::Words::room", "lost word m_words::Words::Place"])
        self.assertEqual(told[2], "added word m_words::Other::Other")

    def test_crates_that_move(self):
        shelf = SHELF.replace("m_words.specs.", "r9_all.specs.words.").replace("crate::", "crate::shelf::")
        moved = {
            "crates/r9_all/src/lib.rt": "pub mod shelf;\npub mod words;\n",
            "crates/r9_all/src/shelf.rt": LIB,
            "crates/r9_all/src/shelf/shelf.rt": shelf,
            "crates/r9_all/src/shelf/hidden.rt": HIDDEN,
            "crates/r9_all/specs/words/Words.antt": WORDS,
            "crates/r9_all/proofs/words/Lemmas.antt": LEMMAS,
        }
        status, lines = self.differ(moved, "r9_shelf\tr9_all\nm_words\tr9_all\n")
        self.assertEqual((status, lines[1:2]), (0, [f"call  {1:9}{1:9}{1:9}{0:9}{0:9}{0:9}{0:9}"]))

    def test_what_moves_or_has_another_name_is_told(self):
        moved = {name.replace("Words", "Names"): text for name, text in TREE.items()}
        status, lines = self.differ(moved)
        self.assertEqual((status, lines[0]), (0, "moved word m_words::Words::room (now m_words::Names::room)"))
        room = "abbrev pub room : ℕ → ℕ\nroom n"
        status, lines = self.changed("crates/m_words/specs/Words.antt", room, room.replace("room", "space"))
        self.assertEqual((status, lines[0]), (0, "moved word m_words::Words::room (now m_words::Words::space)"))


class Printing(unittest.TestCase):
    def test_calls_and_laws(self):
        with tree(TREE) as root:
            status, lines = run(root)
        self.assertEqual(status, 0)
        self.assertEqual(lines[0], "call r9_shelf::shelf::Shelf::put")
        self.assertEqual(lines[5:7], ["law r9_shelf::shelf::room_stays", "    fn room_stays()"])
        self.assertEqual(len(lines), 8)

    def test_bad_words(self):
        with contextlib.redirect_stderr(io.StringIO()), self.assertRaises(SystemExit) as found:
            run("/", "/nowhere", "--map", "/nowhere")
        self.assertEqual(found.exception.code, 2)
        with self.assertRaises(SystemExit) as found:
            run("no-such-revision")
        self.assertIn("neither a folder", str(found.exception.code))


if __name__ == "__main__":
    unittest.main()
