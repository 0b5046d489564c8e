"""Tests that a public name of the specs stands for one definition, that pages cite what is there, and that no line is too long.

What is still excepted stands in names_excepted.txt, a line an exception; one that is no longer needed has to go."""
import os
import sys
import unittest
from pathlib import Path

TOP = Path(os.path.realpath(__file__)).parent.parent.parent
sys.path.insert(0, str(TOP / "tools"))

from nds_tools import spec_names

EXCEPTED = Path(os.path.realpath(__file__)).parent / "names_excepted.txt"


def excepted(kind):
    """The exceptions of a kind, without it: `name WORD`, `cited PAGE WORD`, `long FOLDER` or `long FILE`."""
    lines = [line.partition("#")[0].split() for line in EXCEPTED.read_text(encoding="utf8").splitlines()]
    return [" ".join(line[1:]) for line in lines if line and line[0] == kind]


class Names(unittest.TestCase):
    maxDiff = None

    def test_one_definition_a_name(self):
        places = spec_names.places_by_name(TOP)
        twice = {name: " ".join(at) for name, at in places.items() if len(at) > 1}
        self.assertEqual({}, {name: at for name, at in twice.items() if name not in excepted("name")}, "a name has two definitions")
        self.assertEqual([], [name for name in excepted("name") if name not in twice], "these exceptions can go")

    def test_what_pages_cite_is_there(self):
        words, missing = spec_names.words_of(TOP), []
        for page in spec_names.files(TOP, spec_names.PAGES):
            paths, names = spec_names.cited(page.read_text(encoding="utf8"))
            here = page.relative_to(TOP)
            missing += [f"{here} {path}" for path in sorted(paths) if not spec_names.is_there(TOP, page, path)]
            missing += [f"{here} {name}" for name in sorted(names) if name not in words]
        self.assertEqual([], [it for it in missing if it not in excepted("cited")], "a page cites what isn't there")
        self.assertEqual([], [it for it in excepted("cited") if it not in missing], "these exceptions can go")

    def test_lines(self):
        counts, allowed = spec_names.long_lines(TOP), tuple(excepted("long"))
        self.assertEqual({}, {path: count for path, count in counts.items() if not path.startswith(allowed)}, "lines are longer than 150 columns")
        level = [front for front in allowed if (TOP / front).exists() and not any(path.startswith(front) for path in counts)]
        self.assertEqual([], level, "these exceptions can go")

    def test_counts(self):
        text = (TOP / "docs" / "ADDING.md").read_text(encoding="utf8")
        for word, folders, lines, held in spec_names.counts_told(text):
            with self.subTest(word):
                self.assertEqual(spec_names.counted(TOP, word, folders), (lines, held))


class Reading(unittest.TestCase):
    def test_names(self):
        rows = (
            ("a definition", "abbrev pub f : A\nf = x\n", ["f"]),
            ("one that doesn't unfold", "unfoldable pub g : A → B\n", ["g"]),
            ("a record, without its fields", "pub record R (n : A) : Type 0 where\n  pub x : A\n", ["R"]),
            ("data with its constructors", "pub data D : Type 0 where\n  -- the first\n  one : D\n  two : A\n      → D\n\nabbrev pub h : A\n", ["D", "one", "two", "h"]),
            ("what isn't public, and modules", "abbrev p : A\npub mod Inner\n", []),
        )
        for what, text, wanted in rows:
            with self.subTest(what):
                self.assertEqual([name for name, line in spec_names.names_of(text)], wanted)

    def test_cited(self):
        rows = (
            ("a file and a name", "see `specs/Io.antt` and `io_event`", ({"specs/Io.antt"}, {"io_event"})),
            ("a name of two words", "`IsLeast` but not `Tick` or `--words`", (set(), {"IsLeast"})),
            ("a block of code isn't read", "```\n`no_name`\n```\n`a_name`", (set(), {"a_name"})),
            ("nor what has more than a name", "`f x`, `a / b`, `nds run`", (set(), set())),
        )
        for what, text, wanted in rows:
            with self.subTest(what):
                self.assertEqual(spec_names.cited(text), wanted)

    def test_long(self):
        rows = (("x" * 150, False), ("x" * 151, True), ("| " + "x" * 150, False), ("  use " + "x" * 150, False), ("#[tactic(" + "x" * 150, False))
        for line, wanted in rows:
            with self.subTest(line[:8]):
                self.assertEqual(spec_names.is_long(line), wanted)

    def test_counts_told(self):
        text = "It is little: `grep -rw Root crates/ds_ports crates/ds_map`\nfinds 12 lines in 3 files."
        self.assertEqual(spec_names.counts_told(text), [("Root", ["crates/ds_ports", "crates/ds_map"], 12, 3)])


if __name__ == "__main__":
    unittest.main()
