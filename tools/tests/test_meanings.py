"""What changed in object memory, palettes and pictures, in words; pipes by name; and how far a tool is, on a terminal."""
import io
import os
import struct
import subprocess
import unittest
from unittest import mock

from made import TOOLS, Room, end, frame, memory

from nds_tools import golden, meanings, progress
from nds_tools.hostile.boot_state import loop_cart, state_at

# The three attributes before and now, as GBATEK's table has their bits, and what is told.
OBJECTS = [
    ((70, 40, 1), (70, 41, 1), "object 3: x 40 and 41"),
    ((70, 40, 1), (71, 40, 1), "object 3: y 70 and 71"),
    ((70, 0x1F6, 1), (70, 4, 1), "object 3: x -10 and 4"),
    ((70, 40, 1), (70 | 0x200, 40, 1), "object 3: off no and yes"),
    ((70, 40, 1), (70, 40 | 0x1000, 1), "object 3: mirrored no and yes"),
    ((70, 40, 1), (70 | 0x4000, 40 | 0x8000, 1), "object 3: size 0 and 2, shape square and wide"),
    ((70, 40, 1), (70 | 0x2000, 40, 2 | 2 << 10), "object 3: tile 1 and 2, priority 0 and 2, 256 colours no and yes"),
    ((70, 40, 1), (70 | 0x400, 40, 1 | 5 << 12), "object 3: palette 0 and 5, mode normal and see-through"),
    ((70 | 0x100, 40 | 3 << 9, 1), (70 | 0x300, 40 | 4 << 9, 1), "object 3: double size no and yes, parameters 3 and 4"),
]
COLOURS = [(0x000, "A's background colour 0"), (0x022, "A's background colour 17 (palette 1, colour 1)"), (0x204, "A's object colour 2"),
           (0x5FE, "B's background colour 255 (palette 15, colour 15)"), (0x600, "B's object colour 0")]  # fmt: skip


def oam(attributes, parameter=0):
    return bytes(24) + struct.pack("<3H", *attributes) + struct.pack("<H", parameter) + bytes(2048 - 32)


def screens(pixels=()):
    return frame(1, 0, 0, pixels)[9:]


SQUARE = [(x, y, 31) for x in range(10, 18) for y in range(20, 28)]


class Meanings(unittest.TestCase):
    def test_objects_and_colours(self):
        for before, now, text in OBJECTS:
            with self.subTest(text=text):
                at = 24 if before[:2] != now[:2] else 28
                self.assertEqual(meanings.changes("oam", at, oam(before), oam(now)), [text])
        self.assertEqual(meanings.changes("oam", 28, oam((0, 0, 0), 0x100), oam((0, 0, 0), 0xFF00)), ["object parameters 0: PD 256 and -256"])
        self.assertEqual([(it, meanings.colour_name(it)) for it, _ in COLOURS], COLOURS)
        changed = meanings.changes("palette", 4, bytes(8), bytes(4) + struct.pack("<2H", 0x7FE0, 1))
        self.assertEqual(changed, ["A's background colour 2: 0000 (red 0, green 0, blue 0) and 7fe0 (red 0, green 31, blue 31)",
                                   "A's background colour 3: 0000 (red 0, green 0, blue 0) and 0001 (red 1, green 0, blue 0)"])  # fmt: skip

    def test_boxes_and_moves(self):
        right = [(x + 1, y, it) for x, y, it in SQUARE]
        lower = [(x - 2, y + 192 + 3, it) for x, y, it in SQUARE]
        rows = [
            (SQUARE, right, "16 pixels of the upper screen in the box (10, 20) to (18, 27)", "the upper screen is as it was, moved by (1, 0)"),
            ([(x, y + 192, it) for x, y, it in SQUARE], lower, "68 pixels of the lower screen in the box (8, 20) to (17, 30)",
             "the lower screen is as it was, moved by (-2, 3)"),
            ([], [(3, 4, 1)], "1 pixel of the upper screen in the box (3, 4) to (3, 4)", ""),
            ([], [(255, 191, 1), (0, 192, 1)], "1 pixel of the upper screen in the box (255, 191) to (255, 191) and 1 pixel of the lower screen in the box (0, 0) to (0, 0)", ""),
            (SQUARE, [*right, (100, 100, 9)], "17 pixels of the upper screen in the box (10, 20) to (100, 100)", ""),
        ]
        for before, now, box, moved in rows:
            with self.subTest(box=box):
                one, two = screens(before), screens(now)
                self.assertEqual((golden.boxes(golden.changed(one, two)), golden.moved(one, two)), (box, moved))


class Pipes(Room):
    """A pipe by name is read once: what its first byte told whether it is a state is still there."""

    def test_outputs_and_states(self):
        self.put("one.out", frame(1, 7) + memory() + end())
        self.put("one.state", state_at(loop_cart(), 2000000))
        rows = [("nds-frames <(cat one.out)", 0, "F  frame 1  tick 817920\n"), ("nds-frames /dev/stdin <one.out", 0, "F  frame 1"),
                ("nds-frames - <one.out", 0, "F  frame 1"), ("nds-frames <(cat one.state)", 0, "F  frame 2"), ("cat one.state | nds-frames -", 0, "F  frame 2"),
                ("nds-diff <(cat one.out) one.out", 0, "equal: 1 frames"), ("nds-diff <(cat one.state) <(cat one.state)", 0, "equal: memory"),
                ("nds-diff <(cat one.state) one.out", 2, "is a saved state, and one.out is none"), ("nds-frames <(true)", 2, "is empty"),
                ("nds-show <(cat one.out)", 0, "tick 100, 0.000 s"), ("nds-show --state <(cat one.state)", 0, "tick 2000000, 0.030 s")]  # fmt: skip
        for line, status, text in rows:
            with self.subTest(line=line):
                there = {**os.environ, "PATH": f"{TOOLS}:{os.environ['PATH']}"}
                ran = subprocess.run(["bash", "-c", line], cwd=self.room, env=there, capture_output=True, text=True, timeout=60)
                self.assertEqual(ran.returncode, status, ran.stderr)
                self.assertIn(text, ran.stdout + ran.stderr)


class OnATerminal(unittest.TestCase):
    def test_it_is_told_there_alone_and_after_a_second(self):
        class Terminal(io.StringIO):
            def isatty(self):
                return True

        rows = [(Terminal(), [0.9], ""), (Terminal(), [1.5, 7.2], "\r\033[Knds-x: 1 of 3 frames, 2 s, a\r\033[Knds-x: 2 of 3 frames, 7 s, b\r\033[K")]
        for stream, times, text in rows:
            out, clock = io.StringIO(), iter([0.0, *times])
            with mock.patch("sys.stderr", stream), mock.patch("sys.stdout", out), mock.patch("time.monotonic", lambda: next(clock)):
                told = progress.Progress("nds-x", 3, "frames")
                for it in "ab"[: len(times)]:
                    told.step(it)
                    told.tell()
                told.line("done")
            self.assertEqual((out.getvalue(), stream.getvalue()), ("done\n", text))

    def test_nothing_is_told_elsewhere(self):
        stream = io.StringIO()
        with mock.patch("sys.stderr", stream), mock.patch.object(progress, "AFTER", 0.0), mock.patch.object(progress, "EVERY", 0.01):
            with progress.Progress("nds-x", 3, "frames") as told:
                told.step("a")
                told.now("b")
        self.assertEqual(stream.getvalue(), "")


if __name__ == "__main__":
    unittest.main()
