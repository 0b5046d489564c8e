"""Tests tools/loop-in-line: what it reads of the sources and of a listing, and what it says of them."""
import importlib.machinery
import importlib.util
import os
import subprocess
import sys
import tempfile
import unittest
from pathlib import Path

TOP = os.path.dirname(os.path.dirname(os.path.dirname(os.path.realpath(__file__))))
COMMAND = f"{TOP}/tools/loop-in-line"


def command():
    """The command as a module."""
    loader = importlib.machinery.SourceFileLoader("loop_in_line", COMMAND)
    spec = importlib.util.spec_from_loader("loop_in_line", loader)
    module = importlib.util.module_from_spec(spec)
    loader.exec_module(module)
    return module


SOURCE = """/// A function with a mark.
#[inline(always)]
#[tactic(auto)]
pub fn marked(at: u32) -> u32
    ensures { result ≡ at }
{
    at
}

#[inline(never)]
fn apart() {}

impl<'a, const N: usize> Near<NineView<'_>> for SteadyPorts<N> {
    #[inline(always)]
    fn is_near(at: u32) -> bool {
        true
    }

    fn unmarked() {}
}

impl Parts {
    #[inline(always)]
    pub(crate) fn step(&mut self) {}
}

#[inline(always)]
pub const fn after() {}
"""

LISTING = """
00000000001b67c0 <run_ahead::consoles::Console::run_on>:
  1b67c4:\tcall   1b7c80 <ds_machine::parts::Parts::step>
  1b67d0:\tje     1b67f0 <run_ahead::consoles::Console::run_on+0x30>
  1b67d8:\tcall   1b9290 <arm_exec::transfers::transfer_at::<#02b8756c57c78bef>>
  1b67e0:\tjmp    1b67c0 <run_ahead::consoles::Console::run_on>
  1b67e8:\tjmp    1b9300 <arm_ops::running::plain+0x10>
  1b67f0:\tcall   *0x8(%rax)
"""


class LoopInLine(unittest.TestCase):
    def setUp(self):
        self.command = command()

    def test_marks(self):
        with tempfile.TemporaryDirectory() as room:
            path = Path(room) / "ones.rt"
            path.write_text(SOURCE)
            self.assertEqual(
                self.command.marks_of("one", path),
                {("one", "ones", "marked"), ("one", "SteadyPortsNear", "is_near"), ("one", "Parts", "step"), ("one", "ones", "after")},
            )

    def test_calls(self):
        self.assertEqual(
            self.command.calls_in(LISTING),
            {"ds_machine::parts::Parts::step", "arm_exec::transfers::transfer_at::<#02b8756c57c78bef>", "arm_ops::running::plain"},
        )

    def test_what_is_lost(self):
        head = "run_ahead::consoles::Console::run_on"
        fast = "ds_machine::sides::NineViewSide::run_fast"
        steps = "ds_machine::steps::take_fast_in_view::<#02b8>"
        rows = (
            # the functions of the program, those that the loop calls, those with a mark, and how many are lost
            ([head], [], [], 0),
            ([head, "arm_ops::running::plain"], ["arm_ops::running::plain"], [], 0),
            # the loop itself stands alone, called by run_on or by what run_on calls
            ([head, fast], [fast], [], 2),
            ([head, steps], ["ds_machine::steps::take_in_view::<#02b8>"], [], 1),
            # a copy that has no mark is lost where the loop calls it, and not where another does
            ([head, "arm_exec::transfers::transfer_at::<#1>"], ["arm_exec::transfers::transfer_at::<#1>"], [], 1),
            ([head, "arm_exec::transfers::transfer_at::<#1>"], [], [], 0),
            # a mark was dropped: of the same crate, type and name
            ([head, "ds_map::maps::Map::put"], ["ds_map::maps::Map::put"], [("ds_map", "Map", "put")], 1),
            ([head, "ds_map::maps::Map::put"], ["ds_map::maps::Map::put"], [("ds_map", "Block", "put")], 0),
            ([head, "ds_map::maps::Map::put"], ["ds_map::maps::Map::put"], [("ds_ports", "Map", "put")], 0),
        )
        for row, (symbols, called, marked, wanted) in enumerate(rows):
            with self.subTest(row=row):
                self.assertEqual(len(self.command.lost(symbols, called, set(marked))), wanted)

    def test_the_chain_is_of_this_program(self):
        # each function of the chain and each copy stands in the sources of its crate
        for crate, name in self.command.CHAIN | self.command.COPIES:
            with self.subTest(crate=crate, name=name):
                texts = [path.read_text() for path in Path(TOP, "crates", crate, "src").glob("**/*.rt")]
                self.assertTrue(any(f"fn {name}(" in text or f"fn {name}<" in text for text in texts))

    def test_marks_of_this_program(self):
        marked = self.command.marks(Path(TOP, "crates"))
        for it in (("ds_machine", "Machine", "go_fast"), ("ds_machine", "Parts", "take_fast"), ("ds_map", "NineViewBus", "read")):
            with self.subTest(it=it):
                self.assertIn(it, marked)

    def test_what_is_no_program(self):
        run = subprocess.run([sys.executable, "-B", COMMAND, f"{TOP}/README.md"], stdout=subprocess.PIPE, stderr=subprocess.PIPE, text=True)
        self.assertEqual((run.returncode, run.stdout), (2, ""))


if __name__ == "__main__":
    unittest.main()
