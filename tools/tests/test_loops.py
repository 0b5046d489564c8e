"""What a failing test says of processors that stay in a handler or a loop, of calls and stacks, and what loads read."""
import io
import struct
import unittest

from made import CPSR, R15, elf, end, memory
from rising import CART

from nds_tools import hangs, loads, loops
from nds_tools.elf import Elf
from nds_tools.hangs import Spot
from nds_tools.hostile.boot_state import state_at
from nds_tools.memory import Map
from nds_tools.port_names import port_of
from nds_tools.records import Reader
from nds_tools.state_fields import read_state

R13, R14 = 18, 19
SYSTEM, IRQ, THUMB = 0x1F, 0x92, 0x3F
SYMBOLS = [("main", 0x2000000, 0x40, 0x12), ("on_interrupt", 0x2000040, 0x40, 0x12), ("flag", 0x2001000, 4, 0x11), ("grid", 0x2001010, 64, 0x11)]
# A word or half, and the base register and what is added, or None where it is no load of a number.
ARM_LOADS = [
    (0xE5910004, (1, 4, None, 0)), (0xE5110004, (1, -4, None, 0)), (0xE1D320B0, (3, 0, None, 0)), (0xE1D100F6, (1, 6, None, 0)), (0xE7D10002, (1, 0, 2, 0)),
    (0xE7910102, (1, 0, 2, 2)), (0xE59F0008, (15, 8, None, 0)), (0xE4910004, (1, 0, None, 0)), (0xE19100B2, (1, 0, 2, 0)), (0xE5810000, None),
    (0xE0010392, None), (0xE1020091, None), (0xE8910003, None), (0xE1A00001, None), (0xEAFFFFFE, None),
]  # fmt: skip
THUMB_LOADS = [
    (0x6848, (1, 4, None, 0)), (0x881A, (3, 0, None, 0)), (0x7848, (1, 1, None, 0)), (0x4801, (15, 4, None, 0)), (0x5888, (1, 0, 2, 0)), (0x9802, (13, 8, None, 0)),
    (0x6008, None), (0x5088, None), (0x1C08, None), (0xE7FE, None),
]  # fmt: skip
PORTS = [(0x4000184, "IPCFIFOCNT"), (0x4000185, "IPCFIFOCNT"), (0x4000006, "VCOUNT"), (0x40001A6, "ROMCTRL"), (0x40000DC, "DMA3CNT"), (0x400010E, "TM3CNT_H"),
         (0x40004A0, "SOUND10CNT"), (0x4100000, "IPCFIFORECV"), (0x4000FF0, "the port 4000ff0h")]  # fmt: skip


def known():
    return Map((Elf("game.elf", elf([(0x2000000, 0x2000000, bytes(0x80), 0x80)], SYMBOLS, sections=[(0x2000000, 0x80, "code"), (0x2001000, 0x50, ".data")])), None))


def record(words=(), nine=(), seven=()):
    return next(iter(Reader(io.BytesIO(memory(words, nine, seven) + end()), "made")))


class Loads(unittest.TestCase):
    def test_which_instructions_load_and_from_where(self):
        self.assertEqual([(it, loads.arm_load(it)) for it, _ in ARM_LOADS], ARM_LOADS)
        self.assertEqual([(it, loads.thumb_load(it)) for it, _ in THUMB_LOADS], THUMB_LOADS)

    def test_ports_by_name(self):
        self.assertEqual([(it, port_of(it)[1]) for it, _ in PORTS], PORTS)

    def test_a_base_is_taken_at_its_instruction_or_from_a_constant_beside_the_code(self):
        # ldr r3, [pc, #4]; ldrh r2, [r3]; b; the constant 4000184h
        code = {0x2000000: 0xE59F3004, 0x2000004: 0xE1D320B0, 0x2000008: 0xEAFFFFFC, 0x200000C: 0x4000184}

        def fetch(at, size):
            return code.get(at)

        registers = {f"r{it}": 0x100 * it for it in range(15)}
        self.assertEqual(list(loads.loads(0x2000000, 0x2000008, False, fetch, {0x2000000: registers})), [0x4000184])
        self.assertEqual(list(loads.loads(0x2000000, 0x2000008, False, fetch, {0x2000004: {**registers, "r3": 0x4000130}})), [0x4000130])


class Loops(unittest.TestCase):
    def setUp(self):
        self.known = known()

    def behind(self, spots, changes, words=()):
        """Returns what was seen of ARM9 at these spots: address, cpsr, and the place that an interrupt broke into, or None."""
        state = read_state(state_at(CART, 5000, changes))
        kept = record([("dtcm", 0x3FFC, 0x2000040), *words])
        registers = {f"r{it}": 0x4000180 if it == 3 else 0x2001000 for it in range(16)}
        made = [loops.Sample(Spot(0, at, cpsr, registers), Spot(0, before, SYSTEM, registers) if before else None) for at, cpsr, before in spots]
        return loops.Behind(state, kept, [made, []])

    def test_handlers(self):
        flags = {"ARM9 IE": 1, "ARM9 IF": 1}
        rows = [
            ([(0x2000044, IRQ, None), (0xFFFF0020, IRQ, None), (0x2000048, IRQ, None)], flags,
             "ARM9: its interrupt handler 02000040 (on_interrupt) is entered again and again: it doesn't acknowledge V-blank in IF (IF is 00000001, IE 00000001)"),
            ([(0x2000044, IRQ, None), (0x2000044, IRQ, None)], flags,
             "ARM9 at 02000044 (on_interrupt+0x4): its interrupt handler 02000040 (on_interrupt) doesn't end (IF is 00000001, IE 00000001: V-blank waits)"),
            ([(0x2000044, IRQ, None), (0x2000004, SYSTEM, None)], flags, ""),
        ]
        for spots, changes, text in rows:
            with self.subTest(text=text):
                self.assertEqual(loops.handler_line(0, self.behind(spots, changes), self.known), text)

    def test_loops(self):
        polls = [("main", 0x4, 0xE1D320B4), ("main", 0x8, 0xEAFFFFFC)]  # ldrh r2, [r3, #4]; b
        flag = [("main", 0x4, 0xE5910000), ("main", 0x8, 0xEAFFFFFC)]  # ldr r0, [r1]; b
        two, fifo = [(0x2000004, SYSTEM, None), (0x2000008, SYSTEM, None)], {"ARM9 IPCFIFOCNT": 0xC000}
        stays = "ARM9 at 02000004 (main+0x4): it stays in a loop of 8 bytes for 2 frames and polls 02001000 (flag): 00000000"
        rows = [
            (two, fifo, polls, "ARM9 at 02000004 (main+0x4): it stays in a loop of 8 bytes for 2 frames and polls IPCFIFOCNT (4000184h), which reads c101: send FIFO empty, receive FIFO empty, error, enabled"),
            (two, {}, flag, stays),
            ([*two, (0xFFFF0020, IRQ, 0x2000008)], {}, flag, stays),
            (two, {"ARM9 IE": 1, "ARM9 IME": 0, "ARM9 cpsr": SYSTEM}, flag, f"{stays}; it takes no interrupt, though IE has V-blank: IME is 0"),
            (two, {"ARM9 IE": 1, "ARM9 IME": 1, "ARM9 cpsr": SYSTEM | 0x80}, flag, f"{stays}; it takes no interrupt, though IE has V-blank: CPSR's I flag is set"),
            (two, {"ARM9 IE": 1, "ARM9 IME": 1, "ARM9 cpsr": SYSTEM}, flag, stays),
            (two, {"ARM9 IE": 0, "ARM9 IME": 0, "ARM9 cpsr": SYSTEM}, flag, stays),
            ([*two, (0x200003C, SYSTEM, None), (0x2000100, SYSTEM, None)], {}, flag, ""),
            ([(0xFFFF0108, SYSTEM, None)] * 3, {}, flag, ""),
            ([(0x2000004, SYSTEM, None)] * 3, {}, flag, ""),
        ]
        for spots, changes, words, text in rows:
            with self.subTest(text=text):
                self.assertEqual(loops.loop_line(0, self.behind(spots, changes, words), self.known), text)

    def test_it_is_looked_soon_after_each_frame_and_all_over_it(self):
        ticks = loops.ticks_behind(1000)
        self.assertEqual((ticks[0], ticks == sorted(set(ticks)), len(ticks)), (1037, True, 26))
        self.assertEqual([it for it in ticks if it > 1000 + 2 * 1120380], [])


class Crashes(unittest.TestCase):
    def trouble(self, words=(), nine=(), seven=(), proc=0):
        return hangs.trouble(proc, record(words, nine, seven), known())

    def test_calls_and_stacks(self):
        rows = [
            ([(R15, 0x0A000010), (CPSR, SYSTEM), (R14, 0x2000014), (R13, 0x3002F00)],
             "ARM9 at 0a000010: it runs where no memory is: a jump to a wrong address, or a lost return address; the last call was at 02000010 .main.0x10., by r14$"),
            ([(R15, 0x0A000010), (CPSR, THUMB), (R14, 0x2000015), (R13, 0x3002F00)], "the last call was at 02000012 .main.0x12., by r14$"),
            ([(R15, 0x0A000010), (CPSR, SYSTEM), (R14, 0x9000014), (R13, 0x3002F00)], "it runs where no memory is: a jump to a wrong address, or a lost return address$"),
            ([(R15, 0x100), (CPSR, SYSTEM), (R14, 0x2000014), (R13, 0x3002F00)], "a jump through a null pointer, or a lost return address; the last call was at 02000010"),
            ([(R15, 0x2000010), (CPSR, SYSTEM), (R13, 0x2001020)], r"its stack left its region: r13 is 02001020, in .data \(grid\+0x10\), which the program has$"),
            ([(R15, 0x2000010), (CPSR, SYSTEM), (R13, 0x2FFFE00)], "its stack left its region: r13 is 02fffe00, below DTCM, which begins at 03000000$"),
            ([(R15, 0x2000010), (CPSR, SYSTEM), (R13, 0x5FFFFFFC)], "its stack left its region: r13 is 5ffffffc, where no memory is$"),
            ([(R15, 0x2000010), (CPSR, SYSTEM), (R13, 0x23FF000)], "^$"),
            ([(R15, 0x2000010), (CPSR, SYSTEM), (R13, 0x3002F7C)], "^$"),
            ([(R15, 0x6001000), (CPSR, SYSTEM), (R13, 0x3002F7C)], "^$"),
            ([(R15, 0x2000020), (CPSR, IRQ), (R13, 0x3002F7C)], r"^ARM9 at 02000020 \(main\+0x20\): in an endless branch to itself: an interrupt handler that doesn't end$"),
        ]
        for nine, text in rows:
            with self.subTest(text=text):
                self.assertRegex(self.trouble([("main", 0x10, 1), ("main", 0x20, 0xEAFFFFFE)], nine), text)


if __name__ == "__main__":
    unittest.main()
