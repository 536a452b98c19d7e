#!/usr/bin/env python3
"""Tests which definitions believe.py finds, and the page that it makes of them. Run it with no words."""

from __future__ import annotations

import contextlib
import io
import os
import tempfile
import unittest

import believe
import names
import sources

CALL = """//! The call.
ghost use Rattle.std.specs.Prelude.{ℕ, ◌≡◌};
ghost use Rattle.r9_serve.specs.Run.{IsDone};
ghost use Rattle.r9_way.specs.Passed.{given as was_given};

use r9_way::{Door, Way as Path};
use std::sync::Wait;

pub fn run<D: Door, W: Wait>(way: Path, door: &mut D, count: u32) -> bool
    requires { 0 < was_given way.now }
    ensures done { result ≡ true → IsDone count }
{
    true
}
"""
RUN = """-- What is promised.
use Rattle.std.specs.Prelude.{ℕ, suc}
use Rattle.m_words.specs.Words as words
use Rattle.m_words.specs.declared.kind.Kind.TheVariants.{Small}
use Rattle.m_words.specs.Words.{hidden, unused}

abbrev pub IsDone : ℕ → Type 0
IsDone hidden = words.Made (own hidden) Small

own : ℕ → ℕ
own n = suc n

-- no clause names it
abbrev pub other : ℕ
other = unused
"""
WORDS = """-- Words: of things that are made. Further ones.
use Rattle.std.specs.Prelude.{ℕ}
use Rattle.m_words.specs.declared.kind.Kind.{Kind}

pub record Size : Type 0 where
  pub unused : ℕ
  pub known : Known

pub data Known : Type 0 where
  Yes : Known
  No : Known

abbrev pub Made : ℕ → Kind → Type 0
Made n kind = n ◇ n → Size

infixl 10 ◌◇◌
abbrev pub ◌◇◌ : ℕ → ℕ → Type 0
a ◇ b = let known : ℕ = a in IsKnown Yes

abbrev pub IsKnown : Known → Type 0
IsKnown Yes = (No : ℕ) → record { hidden = No }
IsKnown No = Known

abbrev pub hidden : ℕ
hidden = 1

abbrev pub unused : ℕ
unused = 2
"""
TREE = {
    "crates/r9_serve/src/lib.rt": "pub mod serve;\n",
    "crates/r9_serve/src/serve.rt": "pub mod call;\n",
    "crates/r9_serve/src/serve/call.rt": CALL,
    "crates/r9_serve/specs/Lib.antt": "pub mod Run\n",
    "crates/r9_serve/specs/Run.antt": RUN,
    "crates/r9_way/src/lib.rt": "//! Ways.\npub mod way;\n\npub use way::{Door, Way};\n",
    "crates/r9_way/src/way.rt": """ghost use Rattle.m_words.specs.Words.{unused, Made as made};

use std::marker::Model;

pub struct Way {
    steps: Vec<Step>,
}

pub struct Step;

impl Model for Way {
    ghost Value = { ℕ };
}

pub trait Door {
    ghost faults: { Self → ℕ };

    fn open(&mut self)
        ensures { faults self.new ≡ unused };
}
""",
    "crates/r9_way/specs/Lib.antt": "pub use Rattle.m_words.specs.Passed\n",
    "crates/m_words/src/lib.rt": "pub mod kind;\n",
    "crates/m_words/src/kind.rt": "//! Definitions: kinds. No code.\npub enum Kind {\n    Small,\n    Step,\n}\n",
    "crates/m_words/specs/Words.antt": WORDS,
    "crates/m_words/specs/Passed.antt": "-- What is passed on.\nabbrev pub given : ℕ → ℕ\ngiven n = n\n",
    "crates/m_words/proofs/Lemmas.antt": "pub lemma : ℕ\nlemma = 1\n",
    "tools/believe.txt": "crates/r9_way/src/way.rt\tDoors, and ways to them\n",
    "docs/rooms.txt": "# Words\nm_words\n\n# Ways, and serving\nr9_way\nr9_serve\n",
    "crates.txt": "# Crates\nr9_serve may_wait=1: r9_way m_words\nr9_way: m_words\nm_words:\n",
}


@contextlib.contextmanager
def tree(files):
    """The folder of a tree with these files."""
    with tempfile.TemporaryDirectory() as root:
        for name, text in files.items():
            os.makedirs(os.path.dirname(f"{root}/{name}"), exist_ok=True)
            with open(f"{root}/{name}", "w", encoding="utf-8") as file:
                file.write(text)
        yield root


def changed(name, old, new):
    """The tree with one change."""
    assert TREE[name].count(old) == 1, (name, old)
    return {**TREE, name: TREE[name].replace(old, new)}


def run(root, *words):
    """The exit status and what is said."""
    said = io.StringIO()
    with contextlib.redirect_stdout(said), contextlib.redirect_stderr(said):
        status = believe.main(list(words), root)
    return status, said.getvalue()


class Found(unittest.TestCase):
    def found(self, files):
        """The names of the definitions that are found, by file."""
        with tree(files) as root:
            belief = believe.gather(root)
        found = {}
        for node in sorted(belief.names):
            found.setdefault(node.file.split("crates/")[1], set()).add(node.name)
        return found, belief.library

    def test_what_the_contract_names_and_nothing_else(self):
        found, library = self.found(TREE)
        self.assertEqual(
            found,
            {
                "r9_serve/specs/Run.antt": {"IsDone", "own"},
                "m_words/specs/Words.antt": {"Made", "Size", "Known", "◌◇◌", "IsKnown", "unused"},
                "m_words/specs/Passed.antt": {"given"},
                "m_words/src/kind.rt": {"Kind"},
                "r9_way/src/way.rt": {"Door", "Way", "Step"},
            },
        )
        self.assertLessEqual({"ℕ", "suc", "Wait"}, library)

    def test_names_that_a_text_binds_are_not_those_of_definitions(self):
        # `hidden` is the argument of `IsDone` and a field that is set, and `hidden` of Words is neither.
        self.assertNotIn("hidden", self.found(TREE)[0]["m_words/specs/Words.antt"])
        for old, new in [("own hidden) Small", "own words.hidden) Small"), ("own n = suc n", "own n = hidden")]:
            found = self.found(changed("crates/r9_serve/specs/Run.antt", old, new))[0]
            self.assertIn("hidden", found["m_words/specs/Words.antt"])

    def test_binders(self):
        for text, bound in [
            ("(a b : A) → {c : B} → a", {"a", "b", "c"}),
            ("λ x (y : T z). x.1", {"x", "y"}),
            ("let n = 1 in let m : ℕ = 2 in n", {"n", "m"}),
            ("do { field ← read; Some field }", {"field"}),
        ]:
            self.assertEqual(names.bound_by(text), bound, text)

    def test_a_name_that_stands_for_nothing(self):
        with tree(changed("crates/m_words/specs/Words.antt", "abbrev pub Made :", "abbrev pub Making :")) as root:
            with self.assertRaises(SystemExit) as ended:
                run(root)
        self.assertIn("Made in crates/m_words/specs/Words.antt", str(ended.exception.code))


class Page(unittest.TestCase):
    def test_the_page(self):
        with tree(TREE) as root:
            self.assertEqual(run(root), (0, ""))
            self.assertEqual(run(root, "--check"), (0, ""))
            with open(f"{root}/docs/BELIEVE.md", encoding="utf-8") as file:
                text = file.read()
        self.assertIn("13 definitions in 5 files", text)
        self.assertIn("| Ways, and serving | under 1,000 lines | under 1,000 lines | none |\n", text)
        self.assertIn("](../crates/m_words/src/kind.rt): Kinds. No code. 4 lines: `Kind`\n", text)
        self.assertIn("/r9_way/src/way.rt): Doors, and ways to them. 12 lines: `Way`, `Step`, `Door`\n", text)
        self.assertIn("Words.antt): Words: of things that are made. 15 lines: `Size`, `Known`, `Made`,", text)
        order = [line[3:] for line in text.splitlines() if line.startswith("## ")]
        self.assertEqual(order, ["m_words", "r9_way", "r9_serve", "The library of the kit"])

    def test_a_page_that_is_not_up_to_date(self):
        with tree(TREE) as root:
            status, said = run(root, "--check")
            self.assertEqual((status, "run tools/believe.py" in said), (1, True))
            run(root)
            words = f"{root}/crates/m_words/specs/Words.antt"
            with open(words, "a", encoding="utf-8") as file:
                file.write("\nabbrev pub more : ℕ\nmore = 3\n-- a comment\n")
            sources.read_antt.cache_clear()
            self.assertEqual(run(root, "--check")[0], 0)
            with open(words, "w", encoding="utf-8") as file:
                file.write(WORDS.replace("IsKnown No = Known", "IsKnown No =\n    Known"))
            sources.read_antt.cache_clear()
            self.assertEqual(run(root, "--check")[0], 1)

    def test_files_without_a_comment_need_a_sentence(self):
        with tree({**TREE, "tools/believe.txt": ""}) as root, self.assertRaises(SystemExit) as ended:
            run(root)
        self.assertIn("crates/r9_way/src/way.rt has no comment at its head", str(ended.exception.code))
        more = TREE["tools/believe.txt"] + "crates/m_words/src/kind.rt\tKinds\n"
        with tree({**TREE, "tools/believe.txt": more}) as root, self.assertRaises(SystemExit) as ended:
            run(root)
        self.assertIn("needs none", str(ended.exception.code))

    def test_how_the_contract_comes_to_a_definition(self):
        with tree(TREE) as root:
            status, said = run(root, "--why", "Size")
            self.assertEqual(status, 0)
            self.assertEqual([line.split()[-2] for line in said.splitlines()][:-1], ["Size", "Made", "IsDone"])
            self.assertEqual(run(root, "--why", "nothing")[0], 1)


if __name__ == "__main__":
    unittest.main()
