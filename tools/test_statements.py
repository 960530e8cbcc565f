#!/usr/bin/env python3
"""Tests of the parser that says what has to be read to believe a clause (tools/statements.py, tools/believe): over a small repository
that it writes, whose texts it reads as it reads ours. It takes a second.

usage: tools/test_statements.py
"""
import contextlib
import importlib.machinery
import importlib.util
import os
import sys
import tempfile
import unittest

sys.dont_write_bytecode = True
HERE = os.path.dirname(os.path.abspath(__file__))
sys.path.insert(0, HERE)
import statements
from statements import Lost, Names, Statements, Walk, expand, first_sentence, masked, split, tokens_of

BASE = {
    "base/specs/Lib.antt": "pub mod Size\npub mod Other\n",
    "base/specs/Size.antt": """-- How large things are. Nothing else.
use Prim.{ℕ, ◌≤◌}
use Rattle.base.specs.Other.{Small}

-- What is large.
pub IsLarge : ℕ → Type
IsLarge n = Limit ≤ n

-- (used by IsLarge)
pub Limit : ℕ
Limit = 3

-- what nothing names
pub Unread : ℕ → Type
Unread n = Small n

pub record Told where
  pub count : ℕ
  pub large : IsLarge count
  pub small : Small count

pub data Way : Type where
  Short : Way
  Long : ℕ → Way

pub Counts : Way → ℕ
Counts Short = 1
Counts (Long n) = n
""",
    "base/specs/Other.antt": "use Prim.{ℕ, ◌≤◌}\n\npub Small : ℕ → Type\nSmall n = n ≤ 1\n",
    "base/src/lib.rt": """//! A base.
mod shelf;
pub use shelf::{measure, Shelf};
""",
    "base/src/shelf.rt": """use std::vec::Vec;
ghost use Prim.{◌≤◌, ◌≡◌};
ghost use Rattle.base.specs.Size.{IsLarge, Limit};
ghost use Rattle.base.specs.Size.{Told};

/// What holds things; "fn quoted(" is text.
pub struct Shelf {
    pub many: u64,
}

impl Model for Shelf {
    ghost Value = { Told };
}

impl Shelf {
    pub fn count(&self) -> u64
        ensures counted { result ≡ self.now.count }
    {
        self.many
    }
}

/// Measures.
pub fn measure(n: u64) -> u64
    requires { IsLarge n }
    ensures bounded { Limit ≤ result }
    ensures told { (λ (m : Limit). m ≤ n) }
{
    n
}

fn hidden() -> u64 {
    0
}
""",
    "top/specs/Lib.antt": "pub mod Whole\n",
    "top/specs/Whole.antt": "use Prim.{◌≡◌}\nuse Rattle.base.specs.Size as Sizes\n\npub IsWhole : Type\nIsWhole = Sizes.Counts Sizes.Short ≡ 1\n",
    "top/src/lib.rt": """//! The top.
use base::Shelf;
ghost use Rattle.top.specs.Whole.{IsWhole};

pub fn run(on: &Shelf) -> bool
    ensures { IsWhole }
{
    true
}
""",
    "base_tests/src/lib.rt": "fn nothing() {}\n",
}


@contextlib.contextmanager
def repository(files):
    """A repository with these files below crates/, in which a test runs."""
    before = os.getcwd()
    with tempfile.TemporaryDirectory() as folder:
        for path, text in files.items():
            path = f"{folder}/crates/{path}"
            os.makedirs(os.path.dirname(path), exist_ok=True)
            with open(path, "w", encoding="utf-8") as out:
                out.write(text)
        os.chdir(folder)
        statements.read_lines.cache_clear()
        statements.CONSTRUCTORS.clear()
        try:
            yield Statements()
        finally:
            os.chdir(before)


def believe():
    """The command as a module."""
    loader = importlib.machinery.SourceFileLoader("believe", f"{HERE}/believe")
    module = importlib.util.module_from_spec(importlib.util.spec_from_loader("believe", loader))
    loader.exec_module(module)
    return module


def names_of(text, known, bound=()):
    """Which of the known names a term names, and which names nobody knows."""
    names = Names()
    for name in known:
        names.add(name, ("M", name))
    walk = Walk(names, [])
    walk.term(tokens_of(text), set(bound))
    return [name for _, name, *_ in walk.found], walk.unknown


class Terms(unittest.TestCase):
    def test_comments_are_no_tokens(self):
        self.assertEqual(tokens_of("a -- b\n-- c\n(d)"), ["a", "(", "d", ")"])

    def test_a_dash_in_a_name_is_no_comment(self):
        self.assertEqual(tokens_of("in-Ok -- x"), ["in-Ok"])

    def test_a_name_is_found(self):
        self.assertEqual(names_of("Large n", ["Large"], ["n"]), (["Large"], set()))

    def test_an_unknown_name_is_told(self):
        self.assertEqual(names_of("Large n", ["Large"]), (["Large"], {"n"}))

    def test_a_binder_hides_a_name_in_its_body(self):
        self.assertEqual(names_of("λ Large. Large", ["Large"]), ([], set()))

    def test_a_binder_hides_nothing_behind_its_bracket(self):
        self.assertEqual(names_of("(λ Large. Large) Large", ["Large"])[0], ["Large"])

    def test_the_type_of_a_binder_counts(self):
        self.assertEqual(names_of("(n : Large) → n ≡ n", ["Large", "≡"])[0], ["Large", "≡"])

    def test_let_hides_from_its_place_on(self):
        self.assertEqual(names_of("let Large = Small in Large", ["Large", "Small"])[0], ["Small"])

    def test_a_label_of_a_record_is_no_name(self):
        self.assertEqual(names_of("record { Large = Small }", ["Large", "Small"])[0], ["Small"])

    def test_a_pattern_names_its_constructors_and_binds_the_rest(self):
        self.assertEqual(names_of("elim [ Long n ↦ n ]", ["Long"]), (["Long"], set()))

    def test_a_part_of_an_operator_stands_for_it(self):
        self.assertEqual(names_of("a ≼ b", ["◌≼◌"], "ab")[0], ["◌≼◌"])

    def test_a_field_names_its_owner_and_itself(self):
        names = Names()
        names.add("Told", ("M", "Told"))
        walk = Walk(names, [])
        walk.term(tokens_of("Told.count"), set())
        self.assertEqual(walk.found, [("M", "Told"), (("M", "Told"), "count", "member")])

    def test_split_leaves_brackets_whole(self):
        self.assertEqual(split(tokens_of("a ; (b ; c)"), ";"), [["a"], ["(", "b", ";", "c", ")"]])


class Texts(unittest.TestCase):
    def test_strings_and_comments_are_blanked(self):
        text = 'a("fn b {", \'{\') // fn c'
        self.assertEqual(len(masked(text)), len(text))
        self.assertNotIn("{", masked(text))
        self.assertNotIn("fn", masked(text))

    def test_a_lifetime_is_no_character(self):
        self.assertIn("&'a str", masked("fn f<'a>(x: &'a str) -> &'a str {}"))

    def test_a_tree_of_use_is_its_paths(self):
        self.assertEqual(expand("a::{b, c::{d as e}}"), [(["a", "b"], "b"), (["a", "c", "d"], "e")])

    def test_the_first_sentence_of_a_file(self):
        self.assertEqual(first_sentence("-- One, e.g. this\n-- one. Two.\ncode", "--"), "One, e.g. this one.")


class Reached(unittest.TestCase):
    def reached(self, crate, function, clauses=None, without=()):
        """The nodes that clauses of a function reach, by their names, and the words of the kit."""
        with repository(BASE) as here:
            order, words = here.reach([here.head(here.function(crate, function), clauses)], without)
            return [it.name for it in order if it.lines], sorted(words)

    def test_crates_of_tests_are_left_out(self):
        with repository(BASE) as here:
            self.assertEqual(here.crates, ["base", "top"])

    def test_a_clause_reaches_what_its_definitions_use_before_them(self):
        self.assertEqual(self.reached("base", "measure", ("bounded",))[0], ["Limit", "IsLarge"])

    def test_what_is_required_counts_and_other_clauses_do_not(self):
        self.assertEqual(self.reached("base", "measure", ())[0], ["Limit", "IsLarge"])

    def test_words_of_the_kit_are_told(self):
        self.assertIn(("Prim", "ℕ"), self.reached("base", "measure")[1])

    def test_what_no_clause_names_is_not_reached(self):
        self.assertNotIn("Unread", self.reached("base", "measure")[0])

    def test_a_type_is_read_by_its_value_and_the_fields_that_are_named(self):
        with repository(BASE) as here:
            order, _ = here.reach([here.head(here.function("base", "Shelf::count"))])
            told = next(it for it in order if it.name == "Told")
            lines = [statements.read_lines(told.path)[i].split()[1] for i in sorted(told.lines)]
            self.assertEqual(lines, ["record", "count"])

    def test_a_definition_left_out_is_not_followed(self):
        self.assertEqual(self.reached("base", "measure", (), ("IsLarge",))[0], [])

    def test_a_constructor_stands_for_its_type(self):
        self.assertEqual(self.reached("top", "run")[0][-3:], ["Way", "Counts", "IsWhole"])

    def test_types_of_the_signature_count(self):
        self.assertIn("Shelf", self.reached("top", "run")[0])

    def test_a_name_that_is_not_there_is_lost(self):
        files = dict(BASE)
        files["top/specs/Whole.antt"] = "use Prim.{◌≡◌}\nuse Rattle.base.specs.Size as Sizes\n\npub IsWhole : Type\nIsWhole = Sizes.Gone\n"
        with repository(files) as here, self.assertRaises(Lost):
            here.reach([here.head(here.function("top", "run"))])

    def test_an_unknown_name_is_lost(self):
        files = dict(BASE)
        files["top/specs/Whole.antt"] = "pub IsWhole : Type\nIsWhole = Nowhere\n"
        with repository(files) as here, self.assertRaises(Lost):
            here.reach([here.head(here.function("top", "run"))])

    def test_only_public_functions_are_found(self):
        with repository(BASE) as here:
            self.assertIsNone(here.function("base", "hidden"))
            self.assertEqual(here.function("base", "measure").clauses[0][:2], ("requires", ""))

    def test_a_string_is_no_function(self):
        with repository(BASE) as here:
            self.assertNotIn("quoted", [it.name for it in here.sources["crates/base/src/shelf.rt"].functions])


class Sums(unittest.TestCase):
    def test_comments_are_counted_apart(self):
        with repository(BASE) as here:
            size = here.specs["Rattle.base.specs.Size"].nodes["IsLarge"]
            self.assertEqual(believe().count(size.path, sorted(size.lines)), (2, 1))

    def test_files_stand_before_their_users(self):
        with repository(BASE) as here:
            order, _ = here.reach([here.head(here.function("top", "run"))])
            files = believe().file_order(here, [it for it in order if it.lines])
            self.assertLess(files.index("crates/base/specs/Size.antt"), files.index("crates/top/specs/Whole.antt"))


def main():
    tests = unittest.defaultTestLoader.loadTestsFromModule(sys.modules[__name__])
    told = unittest.TextTestRunner(verbosity=0).run(tests)
    failed = len(told.failures) + len(told.errors)
    print(f"{told.testsRun - failed} passed, {failed} failed", flush=True)
    return 1 if failed else 0


if __name__ == "__main__":
    sys.exit(main())
