"""Tests docs/DEFINITIONS.md: it is what tools/definitions writes, and what that reads of a file."""
import importlib.machinery
import importlib.util
import os
import subprocess
import sys
import tempfile
import unittest
from pathlib import Path

TOP = os.path.dirname(os.path.dirname(os.path.dirname(os.path.realpath(__file__))))
COMMAND = f"{TOP}/tools/definitions"


def command():
    """The command as a module."""
    loader = importlib.machinery.SourceFileLoader("definitions", COMMAND)
    spec = importlib.util.spec_from_loader("definitions", loader)
    module = importlib.util.module_from_spec(spec)
    loader.exec_module(module)
    return module


class Definitions(unittest.TestCase):
    def test_page(self):
        run = subprocess.run([sys.executable, "-B", COMMAND, "--check"], stdout=subprocess.PIPE, text=True)
        self.assertEqual((run.returncode, run.stdout), (0, ""))

    def test_reading(self):
        rows = (
            ("a comment right above a name is its own", "-- a\n-- b\nabbrev pub f : A\nf = x\n", ("", [("f", "a b")])),
            ("a comment by itself is the file's", "use A.{b}\n\n-- all\n\nunfoldable pub g : A\n", ("all", [("g", "")])),
            ("only the first is", "-- one\n\n-- two\n\npub data D : Type 0 where\n", ("one", [("D", "")])),
            ("records and data are names", "-- r\npub record R (n : A) : Type 0 where\n  -- a field\n  pub f : A\n", ("", [("R", "r")])),
            ("what isn't public is no name", "-- p\nabbrev p : A\n-- q\nabbrev pub q : A\n", ("", [("q", "q")])),
            ("modules are no names", "pub mod Inner\n", ("", [])),
        )
        with tempfile.TemporaryDirectory() as room:
            file = Path(room, "Some.antt")
            for what, text, wanted in rows:
                with self.subTest(what):
                    file.write_text(text)
                    self.assertEqual(command().definitions(file), wanted)


if __name__ == "__main__":
    unittest.main()
