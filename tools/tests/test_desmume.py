"""The examples in an emulator of other people, DeSmuME (Debian's packages desmume and xvfb): they rest on nothing that is this machine's alone.

What it shows and holds is compared with what the examples' tests keep, and with frames of the built program, where one is there."""
import hashlib
import re
import struct
import subprocess
import time
import unittest

import desmume
from built import PROGRAM
from made import TOP, Room
from nds_tools.elf import Elf
from nds_tools.records import Frame, Reader

EXAMPLES = f"{TOP}/examples"
HALT, WAIT, PASSED, FAILED = 0xEE070F90, 0xEF050000, 0xEF550000, 0x0FAA0000
# Whether a condition holds, by N, Z, C and V, of those that compilers give to a failed check.
HOLDS = {0: lambda n, z, c, v: z, 1: lambda n, z, c, v: not z, 14: lambda n, z, c, v: True}


def kept(test):
    """Returns what a test keeps, by the lines' first words."""
    with open(f"{EXAMPLES}/{test}.expected") as it:
        return dict(line.rstrip("\n").split(" = ") for line in it if " = " in line)


def words_at(elf, *wanted, mask=0xFFFFFFFF):
    """Returns where words stand in a program's code."""
    found = []
    for base, code in elf.code_bytes():
        words = struct.unpack_from(f"<{len(code) // 4}I", code)
        found += [base + 4 * at for at, it in enumerate(words) if it & mask in wanted]
    return found


@unittest.skipUnless(desmume.IS_THERE, "desmume-cli and Xvfb aren't here")
class DeSmuME(Room):
    def setUp(self):
        super().setUp()
        self.screen = desmume.Screen(self.room)
        self.addCleanup(self.screen.close)

    def begun(self, cart):
        emulator = desmume.Emulator(self.room, self.screen, f"{EXAMPLES}/{cart}")
        self.addCleanup(emulator.close)
        return emulator

    def sees(self, cart, sums, elf=None):
        """Waits until the screens show a frame with one of these sums; where an ELF file tells of the program's variable `frames`, after it has
        counted three, since a program that dies at its first interrupt has drawn before."""
        # (once of some thirty starts, on a computer with much else to do, nothing was shown in a minute)
        for _ in range(2):
            emulator = self.begun(cart)
            if elf:
                self.counts(emulator, Elf(f"{EXAMPLES}/{elf}"), 3)
            emulator.go()
            until = time.monotonic() + desmume.SECONDS / 2
            while time.monotonic() < until:
                if hashlib.sha256(self.screen.pixels()).hexdigest() in sums:
                    emulator.close()
                    return
                time.sleep(0.1)
            emulator.close()
        self.fail(f"{cart}: no frame is as it is here")

    def counts(self, emulator, elf, wanted):
        """Lets a program go on until it has counted so many frames, by its waits for V-blank. (It comes to such a `swi` several times a frame,
        until the wait is over.)"""
        waits, count = words_at(elf, WAIT), elf.find("frames").address
        emulator.break_at(*waits)
        for _ in range(1000):
            emulator.go_to_a_break()
            if emulator.word(count) >= wanted:
                break
        self.assertEqual(emulator.word(count), wanted)
        emulator.break_no_more_at(*waits)

    def test_frames_that_the_examples_tests_keep(self):
        rows = [
            ("c-game/c-game.nds", "c-game/tests/begin", "frame 3", "c-game/game.elf"),
            ("bitmap/bitmap.nds", "bitmap/tests/bitmap", "frame 7", None),
        ]
        for cart, test, frame, elf in rows:
            with self.subTest(cart):
                self.sees(cart, [kept(test)[frame].partition("sha256 ")[2]], elf)

    @unittest.skipUnless(PROGRAM, "no program nds is built; NDS_PROGRAM names one")
    def test_frames_that_move(self):
        for cart, elf in (("scene/scene.nds", "scene/scene.elf"), ("screens.nds", None)):
            with self.subTest(cart):
                run = subprocess.Popen([PROGRAM, "run", f"{EXAMPLES}/{cart}", "none", str(20 * 1120380), "all"], stdout=subprocess.PIPE)
                frames = [it.pixels for it in Reader(run.stdout, cart) if isinstance(it, Frame)]
                run.communicate()
                self.sees(cart, [hashlib.sha256(it).hexdigest() for it in frames[3:]], elf)

    def test_memory_at_the_end_of_nitro(self):
        elf, emulator = Elf(f"{EXAMPLES}/nitro/nitro.elf"), self.begun("nitro/nitro.nds")
        emulator.break_at(*words_at(elf, HALT))
        emulator.go_to_a_break()
        for what, value in kept("nitro/tests/nitro").items():
            kind, _, name = what.partition(" ")
            if kind == "decimal":
                self.assertEqual(emulator.word(elf.find(name).address), int(value) & 0xFFFFFFFF, name)
            elif kind == "text":
                self.assertEqual(emulator.memory(elf.find(name).address, 32).partition(b"\0")[0], value[1:-1].replace("\\n", "\n").encode())

    def test_memory_after_two_frames_of_startup(self):
        elf, emulator = Elf(f"{EXAMPLES}/startup/nine.elf"), self.begun("startup/startup.nds")
        self.counts(emulator, elf, 2)
        for what, value in kept("startup/tests/startup").items():
            if what.startswith("peek "):
                self.assertEqual(f"{emulator.word(elf.find(what[5:]).address):08x}", value, what)

    def test_units_of_bios(self):
        for name in ("crc", "numbers", "unpack", "packed", "video", "libnds"):
            with self.subTest(name):
                elf, emulator = Elf(f"{EXAMPLES}/bios/units/{name}.elf"), self.begun(f"bios/units/{name}.nds")
                checks = words_at(elf, FAILED, mask=0x0FFFFFFF)
                emulator.break_at(*checks, *words_at(elf, PASSED))
                seen = set()
                while (at := emulator.go_to_a_break()) in checks:
                    flags = emulator.registers()[16] >> 28
                    self.assertFalse(HOLDS[emulator.word(at) >> 28](*(flags >> it & 1 for it in (3, 2, 1, 0))), f"a check fails at {at:x}")
                    seen.add(at)
                self.assertEqual(emulator.word(at), PASSED)
                self.assertEqual(seen, {it for it in checks if emulator.word(it) >> 28 != 14}, "each check was met")
                emulator.close()

    def test_numbers_of_handover(self):
        emulator = self.begun("handover.nds")
        until, found = time.monotonic() + desmume.SECONDS, (0, 0)
        while found[1] == 0 and time.monotonic() < until:
            emulator.go()
            time.sleep(0.2)
            emulator.stub.sendall(b"\x03")
            emulator.answer()
            found = emulator.word(0x2200000), emulator.word(0x2200004)
        self.assertEqual(found, (42, 43))


if __name__ == "__main__":
    unittest.main()
