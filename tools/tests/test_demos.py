"""The demo of a number against a run of its cartridge, which is made here anew by the rule of crates/nds_plays/specs/Demos.antt.

The program is the one of NDS_PROGRAM, otherwise one that was built here; without one these tests are left out."""
import hashlib
import struct
import subprocess
import unittest

from made import Room
from test_examples import PROGRAM

OPERATIONS = (0, 1, 2, 3, 4, 5, 12, 14)
NINE = (0xE3A08402, 0xE3A09000, 0xE3A0A622, 0xE5980028, 0xE5890000, 0xE2888004, 0xE2899004, 0xE3590A01, 0x1AFFFFF9, 0xE3A0F000)
SEVEN = (0xE3A0950E, 0xE2899901, 0xE3A0A622)


def body(state):
    """Returns the 1,024 words that are drawn from a state, and the state after them."""
    words = []
    for k in range(1024):
        state = (1664525 * state + 1013904223) % 2**32
        x = state >> 8
        rd, rn, rm, op = x & 7, x >> 3 & 7, x >> 6 & 7, OPERATIONS[x >> 9 & 7]
        if k == 1023:
            words.append(0xEAFFFBFF)
        elif k % 256 == 127:
            words.append(0xE58A0000 + 0x1000 * rd + 4 * k)
        elif k % 16 == 15:
            words.append(0xE5890000 + 0x1000 * rd + 4 * k)
        else:
            words.append(0xE0100000 + 0x200000 * op + 0x10000 * rn + 0x1000 * rd + rm)
    return words, state


def cartridge(number):
    """Returns the cartridge of a number: ARM9's image at 200h, ARM7's at 1400h."""
    nine, state = body(number)
    seven, _ = body(state)
    nine, seven = [*NINE, *nine], [*SEVEN, *seven]
    file = bytearray(0x240C)
    struct.pack_into("<4I", file, 0x20, 0x200, 0x2000000, 0x2000000, 4 * len(nine))
    struct.pack_into("<4I", file, 0x30, 0x1400, 0x3800000, 0x3800000, 4 * len(seven))
    struct.pack_into(f"<{len(nine)}I", file, 0x200, *nine)
    struct.pack_into(f"<{len(seven)}I", file, 0x1400, *seven)
    return bytes(file)


@unittest.skipUnless(PROGRAM, "no program nds is built; NDS_PROGRAM names one")
class Demos(Room):
    def called(self, *words):
        """Returns what the program writes that ends with status 0."""
        ran = subprocess.run([PROGRAM, *words], cwd=self.room, capture_output=True, timeout=60)
        self.assertEqual((ran.returncode, ran.stderr), (0, b""), words)
        return ran.stdout

    def lines_of(self, number, ticks):
        """Returns the four lines, by a run of the cartridge."""
        self.put("demo.nds", cartridge(number))
        output = self.called("run", "demo.nds", "none", str(ticks), "all")
        nine, seven, events, turns = struct.unpack("<4Q", output[-32:])
        digest = hashlib.sha256(output).hexdigest()
        return f"demo {number} {ticks}\nbytes {len(output)}\nsha256 {digest}\nsteps9 {nine} steps7 {seven} events {events} turns {turns}\n"

    def test_the_lines_are_those_of_a_run_of_the_cartridge(self):
        for number, ticks in ((0, 9), (7, 2000000), (4294967295, 817921)):
            lines = self.called("demo", str(number), str(ticks)).decode()
            self.assertEqual(lines, self.lines_of(number, ticks))
            self.assertEqual(lines, self.called("demo", str(number), str(ticks)).decode())

    def test_a_demo_to_tick_9_has_its_known_numbers(self):
        lines = self.called("demo", "0", "9").decode().splitlines()
        self.assertEqual((lines[0], lines[1], lines[3]), ("demo 0 9", "bytes 5017938", "steps9 2 steps7 5 events 0 turns 3"))
        self.assertEqual(struct.unpack("<I", cartridge(0)[0x228:0x22C])[0], 0xE1D63003)

    def test_peeks_and_traces_of_the_cartridge_show_it(self):
        self.put("demo.nds", cartridge(7))
        word = struct.unpack("<I", cartridge(7)[0x228:0x22C])[0]
        peeked = self.called("peek", "demo.nds", "none", "9", "main", "40", "4").decode()
        self.assertEqual(peeked, f"00000028: {struct.pack('<I', word).hex(' ')}\n")
        traced = self.called("trace", "demo.nds", "none", "9", "9", "2").decode()
        self.assertEqual(traced, "000000000000 02000000 e3a08402 mov r8, #0x2000000\n000000000005 02000004 e3a09000 mov r9, #0x0\n")


if __name__ == "__main__":
    unittest.main()
