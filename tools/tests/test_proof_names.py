"""Tests that each lemma is cited, and what a lemma's lines are; and what the statement of a small tree is."""
import os
import sys
import tempfile
import unittest
from pathlib import Path

TOP = Path(os.path.realpath(__file__)).parent.parent.parent
sys.path.insert(0, str(TOP / "tools"))
sys.path.insert(0, str(TOP / "tools" / "tests"))

from nds_tools import lemma_names
from nds_tools.statement import Sources, Statement
from test_names import excepted


class Lemmas(unittest.TestCase):
    def test_each_is_cited(self):
        alone = [f"{path} {name}" for path, _, _, name in lemma_names.unused(TOP)]
        self.assertEqual([], [it for it in alone if it not in excepted("lemma")], "nothing cites these lemmas")
        self.assertEqual([], [it for it in excepted("lemma") if it not in alone], "these exceptions can go")

    def test_what_a_lemma_is(self):
        rows = (
            ("a signature and its clauses", "pub a : x ≡ x\na n = refl\n\npub b : y\nb = refl\n", [("a", 0, 2), ("b", 3, 5)]),
            ("a block's closing brace", "a : x\na = record {\n  f = y;\n}\n\nb : y\nb = a\n", [("a", 0, 4), ("b", 5, 7)]),
            ("what stands below `where`", "a : x\na = b where\n  b : y\n\n  b = z\n\nc : x\nc = a\n", [("a", 0, 5), ("c", 6, 8)]),
            ("in a module's block", "module _ (n : ℕ) where\n  -- of n\n  a : x\n  a = y\n\n  c : z\n  c = a\n", [("a", 2, 4), ("c", 5, 7)]),
            ("a record", "record R : Type 0 where\n  f : x\n\nr : R\nr = y\n", [("R", 0, 2), ("r", 3, 5)]),
        )
        for name, text, lemmas in rows:
            with self.subTest(name):
                self.assertEqual(lemma_names.lemmas(text.splitlines()), lemmas)

    def test_what_nothing_cites(self):
        with tempfile.TemporaryDirectory() as room:
            write(room, "crates/a/proofs/One.antt", "pub used : x\nused = y\n\n-- of nobody, but for used and alone\npub alone : x\nalone = used\n")
            write(room, "crates/a/proofs/f/Answers.antt", "returns : x\nreturns = y\n")
            self.assertEqual(lemma_names.unused(room), [("crates/a/proofs/One.antt", 5, 6, "alone")])


class Statements(unittest.TestCase):
    def test_what_is_reached(self):
        with tempfile.TemporaryDirectory() as room:
            write(room, "crates/a/specs/Low.antt", "abbrev pub low : A\n-- in between\nlow = x\n\npub data D : Type 0 where\n  one : D\n\npub record Other : Type 0 where\n  pub x : A\n")
            write(room, "crates/b/specs/High.antt", "use Rattle.a.specs.Low.{low}\nuse Rattle.a.specs.Low.D.{one}\nuse Rattle.a.specs.declared.kinds.Kind.{Kind}\n"
                  "abbrev pub High : Kind → A\nHigh k = low\n\nabbrev pub law : A\nlaw = one\n\nabbrev pub more : A\nmore = High law\n")
            write(room, "crates/a/src/kinds.rt", "/// A kind.\npub enum Kind {\n    One,\n}\n\nimpl Model for Seen {\n    ghost Value = { A };\n    ghost view = { x };\n    ghost invariant = { y };\n}\n")
            rows = (
                ("a definition, and what it names", "High", {("definition", "High", 2), ("definition", "low", 2), ("type", "Kind", 3)}),
                ("a constructor's data type", "law", {("definition", "law", 2), ("definition", "D", 2)}),
                ("both", "more", {("definition", "more", 2), ("definition", "High", 2), ("definition", "low", 2), ("type", "Kind", 3),
                                  ("definition", "law", 2), ("definition", "D", 2)}),
            )
            for name, start, reached in rows:
                with self.subTest(name):
                    statement = Statement(Sources(room))
                    statement.add_spec("b", "specs.High", start)
                    self.assertEqual({(item.kind, item.name, item.lines) for item in statement.follow().values()}, reached)
            statement = Statement(Sources(room))
            statement.add_view("a", "Seen")
            self.assertEqual([(item.kind, item.lines) for item in statement.follow().values()], [("view", 4)])


def write(room, name, text):
    path = Path(room, name)
    path.parent.mkdir(parents=True, exist_ok=True)
    path.write_text(text, encoding="utf8")


if __name__ == "__main__":
    unittest.main()
