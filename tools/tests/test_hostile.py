"""What the command hostile takes for right: causes said by hand, and that a wrong program is told. It needs no built program."""
import os
import random
import stat
import struct
import tempfile
import unittest
from unittest import mock

from made import end, memory, stop
from nds_tools.hostile import answers, makers
from nds_tools.hostile.answers import Answer, Runner
from nds_tools.hostile.checked import MARK, Checked
from nds_tools.hostile.boot_state import state_at
from nds_tools.hostile.causes import USAGE, accepted, header_fault, refusal, script_fault, wrong
from nds_tools.hostile.fuzz import batch
from nds_tools.hostile.memory import refused_by
from nds_tools.words import Untold

LOOP = struct.pack("<I", 0xEAFFFFFE)


def small(**words):
    """Returns a cartridge of two loops of which header words are these, by their offset."""
    header = bytearray(512)
    struct.pack_into("<4I", header, 0x20, 0x200, 0x2000000, 0x2000000, 4)
    struct.pack_into("<4I", header, 0x30, 0x204, 0x2100000, 0x2100000, 4)
    for at, value in words.items():
        struct.pack_into("<I", header, int(at[1:], 16), value)
    return bytes(header) + LOOP + LOOP


class Causes(unittest.TestCase):
    def test_words(self):
        good = ("run C none 9 none", "run C K 100000000000 all", "list C 9t", "asm F", "trace C none 1 7 1000000", "peek C none 9 dtcm 16383 1", "demo 0 1", "demo 4294967295 9", "save C K 9", "resume S C none 9 last")
        bad = (
            "", "run", "run C none 0 none", "run C none 01 none", "run C none 100000000001 none", "run C none 9 some", "run -c none 9 none", "list C 9T",
            "asm", "asm F F", "trace A none 9 9 0", "trace A none 9 8 1", "peek A none 9 dtcm 16384 1", "peek A none 9 dtcm 0 4097", "demo 4294967296 9", "demo -1 9",
            "save C K 0", "save C K 9 none", "resume S C none 9", "resume C none 9 none", "resume S C none 9 some", "resume S C none 0 none",
        )
        for text in good:
            self.assertTrue(accepted(text.split()), text)
        for text in bad:
            self.assertFalse(accepted(text.split()), text)
        self.assertFalse(accepted(["run", "", "none", "9", "none"]))

    def test_headers(self):
        rows = (
            (b"", ("Short", 0)), (bytes(511), ("Short", 511)), (small(), None), (small(x10=3 << 16), ("UnitCode", 3)), (small(x10=2 << 16), None),
            (small(x2C=9), ("Arm9Rom", 0x200)), (small(x20=0xFFFFFFFF), ("Arm9Rom", 0xFFFFFFFF)), (small(x28=0x2FFFFFD), ("Arm9Place", 0x2FFFFFD)),
            (small(x24=0x2000002), ("Arm9Entry", 0x2000002)), (small(x38=0x37F8000, x34=0x380FFFC), None), (small(x38=0x37F7FFF), ("Arm7Place", 0x37F7FFF)),
            (small(x34=0x3810000), ("Arm7Entry", 0x3810000)), (small(x3C=5), ("Arm7Rom", 0x204)),
        )
        for cart, fault in rows:
            self.assertEqual(header_fault(cart), fault)

    def test_scripts(self):
        rows = (
            (b"", None), (b"5 A+UP", None), (b"5 A\n", None), (b"100 A\n100 B\n", (2, 1)), (b"5 Q", (1, 3)), (b"5", (1, 2)), (b"05 A", (1, 2)), (b"5  A", (1, 3)),
            (b"5 B+A", (1, 5)), (b"5 A+", (1, 5)), (b"5 SEL", (1, 6)), (b"5 A\n\n", (2, 1)), (b"123456789012 A", (1, 12)), (b"5 A\r\n", (1, 4)), (b"5 Y+", (1, 4)),
        )
        for script, fault in rows:
            self.assertEqual(script_fault(script), fault, script)

    def test_answers(self):
        files = {"cart": small()}
        run = ["run", "cart", "none", "9", "none"]
        stop = b"X" + struct.pack("<QBBI", 3, 22, 2, 14)
        note = b"left out: Swi tick 3 actor 22 value 0x0000000e\n"
        rows = (
            (["run"], Answer(2, b"", USAGE.encode() + b"\n"), True), (["run"], Answer(2, b"", b""), False), (["list", "no", "9"], Answer(3, b"", b"no file: no\n"), True),
            (["list", "no", "9"], Answer(4, b"", b"read fault: no\n"), False), (run, Answer(9, stop, note), True), (run, Answer(9, stop[:-1] + b"x", note), False),
            (run, Answer(9, stop, note.replace(b"tick 3", b"tick 9")), False), (run, Answer(-11, b"", b""), False), (run, Answer(5, b"", b"write fault\n"), False),
            (["peek", "cart", "none", "9", "main", "0", "17"], Answer(0, bytes(58 + 13), b""), True), (["peek", "cart", "none", "9", "main", "0", "17"], Answer(0, bytes(70), b""), False),
        )
        for words, answer, right in rows:
            self.assertEqual(wrong(words, files, answer) is None, right, (words, answer))


class States(unittest.TestCase):
    """What a program has to answer to states, by the tools' own reading of them."""

    def setUp(self):
        self.cart, self.state = small(), state_at(small(), 100)
        self.files = {"cart": self.cart, "state": self.state}

    def right(self, words, answer, **files):
        return wrong(words.split(), {**self.files, **files}, answer) is None

    def test_saves(self):
        rows = (
            ("save cart none 100", Answer(0, self.state, b""), True), ("save cart none 101", Answer(0, self.state, b""), False),
            ("save cart none 100", Answer(0, self.state[:-1], b""), False), ("save cart none 100", Answer(0, self.state, b"x"), False),
            ("save cart none 100", Answer(9, b"", b"left out: Swi tick 3 actor 22 value 0x0000000e\n"), True),
            ("save cart none 3", Answer(9, b"", b"left out: Swi tick 3 actor 22 value 0x0000000e\n"), False),
            ("save cart none 100", Answer(9, b"X", b"left out: Swi tick 3 actor 22 value 0x0000000e\n"), False),
            ("save nothing none 100", Answer(3, b"", b"no file: nothing\n"), True),
        )
        for words, answer, is_right in rows:
            self.assertEqual(self.right(words, answer), is_right, (words, answer.status))

    def test_resumes(self):
        whole = memory() + end(200)
        rows = (
            ("resume state cart none 200 none", Answer(0, whole, b""), {}, True), ("resume state cart none 201 none", Answer(0, whole, b""), {}, False),
            ("resume state cart none 100 none", Answer(11, b"", b"bad state: offset 34\n"), {}, True), ("resume state cart none 100 none", Answer(0, whole, b""), {}, False),
            ("resume state cart none 200 none", Answer(11, b"", b"bad state: offset 34\n"), {}, False),
            ("resume state cart none 200 none", Answer(11, b"", b"bad state: offset 2\n"), {"cart": self.cart + b"\0"}, True),
            ("resume state cart none 200 none", Answer(11, b"", b"bad state: offset 5018009\n"), {"state": state_at(self.cart, 100, {"WRAMCNT": 4})}, True),
            ("resume state cart none 200 none", Answer(6, b"", b"too long: state\n"), {"state": bytes(8388609)}, True),
            ("resume nothing nobody none 200 none", Answer(3, b"", b"no file: nothing\n"), {}, True), ("resume state nobody none 200 none", Answer(3, b"", b"no file: nobody\n"), {}, True),
            ("resume state cart nokeys 200 none", Answer(3, b"", b"no file: nokeys\n"), {"state": b""}, True),
            ("resume state cart none 200 none", Answer(11, b"", b"bad state: offset 0\n"), {"state": b""}, True),
            ("resume state cart none 200 none", Answer(9, stop(150), b"left out: Swi tick 150 actor 22 value 0x0000000e\n"), {}, True),
        )
        for words, answer, files, is_right in rows:
            self.assertEqual(self.right(words, answer, **files), is_right, (words, answer.note))

    def test_made_states_are_accepted_or_not(self):
        found = [wanted[0] if wanted else 0 for wanted in (refusal(*makers.resumes(random.Random(number))) for number in range(30))]
        self.assertEqual(set(found), {0, 11})


# A program in whose last four bytes the number of the growth to refuse stands, and what it makes of that number.
REFUSING = """#!/bin/sh
number=$(tail -c 4 "$0" | od -An -tu4 | tr -d ' ')
[ $number -gt 3 ] && exit 0
%s
exit 12
"""


class Growths(unittest.TestCase):
    def refused(self, made_of_it):
        """Refuses each growth of such a program; returns how many there were, and what was wrong."""
        with tempfile.TemporaryDirectory() as folder:
            program = os.path.join(folder, "nds")
            checked = Checked(program, (REFUSING % made_of_it).encode() + MARK.to_bytes(4, "little"))
            runner = Runner(program)
            told = refused_by(checked, runner, ["list", "cart", "9"])
            os.rmdir(runner.folder)
        return told.growths, told.wrong

    def test_each_growth_is_refused(self):
        rows = (
            (":", (3, [])),
            ("echo out of memory >&2", (3, [])),
            ("[ $number -eq 2 ] && exit 0", (3, ["growth 2: Done, 0 bytes, b''"])),
            ("[ $number -eq 3 ] && echo x", (3, ["growth 3: NoMemory, 2 bytes, b''"])),
            ("[ $number -eq 1 ] && { echo bad access >&2; exit 1; }", (3, ["growth 1: status 1, 0 bytes, b'bad access\\n'"])),
            ("exit 0", (0, ["no growth was refused"])),
        )
        for made_of_it, wanted in rows:
            self.assertEqual(self.refused(made_of_it), wanted, made_of_it)

    def test_a_program_without_the_number(self):
        with tempfile.TemporaryDirectory() as folder:
            self.assertRaises(Untold, Checked, os.path.join(folder, "nds"), b"#!/bin/sh\n")


class Bounds(unittest.TestCase):
    def test_processor_time_counts_and_long_hangs(self):
        rows = (("while :; do :; done", 30, -14), ("sleep 1.5; exit 3", 30, 3), ("exec sleep 60", 2, -14))
        with tempfile.TemporaryDirectory() as folder:
            program = os.path.join(folder, "nds")
            for text, alarms, status in rows:
                with open(program, "w", encoding="ascii") as it:
                    it.write(f"#!/bin/sh\n{text}\n")
                os.chmod(program, stat.S_IRWXU)
                runner = Runner(program)
                with mock.patch.multiple(answers, SECONDS=1, MOST_ALARMS=alarms):
                    self.assertEqual(runner.run([], {"PATH": os.environ["PATH"]}).status, status, text)
                os.rmdir(runner.folder)


class Tries(unittest.TestCase):
    def test_a_seed_gives_the_same_tries(self):
        for number in range(200):
            one, other = (makers.case(random.Random(f"7:{number}")) for _ in range(2))
            self.assertEqual(one, other)

    def test_made_cartridges_are_accepted(self):
        for number in range(200):
            chance = random.Random(number)
            self.assertIsNone(header_fault(makers.cart(chance, makers.code(chance), makers.code(chance))))
            self.assertIsNone(script_fault(makers.script(chance)))

    def test_a_wrong_program_is_told(self):
        with tempfile.TemporaryDirectory() as folder:
            program = os.path.join(folder, "nds")
            with open(program, "w", encoding="ascii") as it:
                it.write("#!/bin/sh\nexit 12\n")
            os.chmod(program, stat.S_IRWXU)
            found = batch(program, "1", 0, 5)
            self.assertEqual(len(found.wrong), 5)
            runner = Runner(program)
            self.assertEqual(runner.run([]), Answer(12, b"", b""))
            os.rmdir(runner.folder)


if __name__ == "__main__":
    unittest.main()
