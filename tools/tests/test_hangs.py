"""What `nds-show` knows of a processor that is stuck, crashed or interrupted, on outputs made by hand."""
import io
import unittest

from made import CPSR, R15, Room, elf, end, memory, stop

from nds_tools import hangs, names
from nds_tools.elf import Elf
from nds_tools.memory import Map
from nds_tools.records import Reader

R1, R13_IRQ, R14_IRQ, R14_UND, R14_ABT, SPSR_IRQ, SPSR_UND = 1, 26, 27, 29, 25, 35, 36
SYSTEM, IRQ, UNDEFINED, ABORT = 0x1F, 0x92, 0x9B, 0x97
LOOP, THUMB_LOOP, UNDEFINED_WORD = 0xEAFFFFFE, 0xE7FEE7FE, 0xE7FFDEFF
SYMBOLS = [("main", 0x2000010, 16, 0x12), ("handler", 0x2000020, 16, 0x12)]
MAIN = "02000014 (main+0x4)"
ENDLESS = "in an endless branch to itself"


class Hangs(Room):
    TOOL, MODULE = "nds-show", "show_command"

    def setUp(self):
        super().setUp()
        self.elf = self.put("game.elf", elf([(0x2000000, 0x2000000, bytes(64), 64)], SYMBOLS))

    def show(self, words, nine=(), seven=()):
        """Returns what is shown of both processors; the other one is in a program."""
        self.put("game.out", memory([("main", 0, 1), ("main", 0x20, 1), *words], nine, seven) + end())
        status, out, notes = self.run_it("game.out", "--elf9", self.elf, "--elf7", self.elf)
        self.assertEqual((status, notes), (0, ""))
        return out

    def trouble(self, words, nine=(), seven=(), proc=0):
        """Returns the line of trouble of a processor."""
        known = Map((Elf(self.elf), Elf(self.elf)))
        record = next(iter(Reader(io.BytesIO(memory(words, nine, seven) + end()), "made")))
        return hangs.trouble(proc, record, known)

    def test_what_an_interrupt_broke_into_is_judged(self):
        loop, pushed = [("main", 0x14, LOOP)], [("dtcm", 0x3F68 + 4 * it, 0x100 + it) for it in range(5)] + [("dtcm", 0x3F7C, 0x2000018)]
        broken = f"  interrupted at {MAIN}, System mode, ARM state: {ENDLESS}"
        rows = [
            ("at the vector", loop, [(R15, 0xFFFF0018), (CPSR, IRQ), (R14_IRQ, 0x2000018), (SPSR_IRQ, SYSTEM)], broken),
            ("at the stub's entry", loop, [(R15, 0xFFFF0020), (CPSR, IRQ), (R14_IRQ, 0x2000018), (SPSR_IRQ, SYSTEM)], broken),
            ("before its return", loop, [(R15, 0xFFFF0040), (CPSR, IRQ), (R14_IRQ, 0x2000018), (SPSR_IRQ, SYSTEM)], broken),
            ("behind the push", loop + pushed, [(R15, 0xFFFF0038), (CPSR, IRQ), (R13_IRQ, 0x3003F68), (SPSR_IRQ, SYSTEM)], broken),
            ("in the handler", loop + pushed, [(R15, 0x2000020), (CPSR, IRQ), (R13_IRQ, 0x3003F48), (SPSR_IRQ, SYSTEM)], broken),
            ("Thumb code", [("main", 0x14, THUMB_LOOP)], [(R15, 0xFFFF0018), (CPSR, IRQ), (R14_IRQ, 0x2000018), (SPSR_IRQ, SYSTEM | 0x20)],
             f"  interrupted at {MAIN}, System mode, Thumb state: {ENDLESS}"),
            ("a wait, with r1 from the stack", [*pushed, ("dtcm", 0x3F6C, 1), ("dtcm", 0x3F7C, 0xFFFF010C), ("dtcm", 0x3FFC, 0x2000020)],
             [(R15, 0x2000020), (CPSR, IRQ), (R1, 4), (R13_IRQ, 0x3003F68), (SPSR_IRQ, SYSTEM)],
             "  interrupted at ffff0108 (boot ROM 108h), System mode, ARM state: halted in IntrWait or VBlankIntrWait (swi 4, 5): it waits for the flag of V-blank"),
            ("a program", [("main", 0x14, 0xE1A00000)], [(R15, 0xFFFF0018), (CPSR, IRQ), (R14_IRQ, 0x2000018), (SPSR_IRQ, SYSTEM)],
             f"  interrupted at {MAIN}, System mode, ARM state\n"),
        ]  # fmt: skip
        for name, words, nine, text in rows:
            with self.subTest(name=name):
                self.assertIn(text, self.show(words, nine))
        for name, nine in (("another stack", [(R15, 0x2000020), (CPSR, IRQ), (R13_IRQ, 0x2100000)]), ("no interrupt", [(CPSR, SYSTEM)])):
            with self.subTest(name=name):
                self.assertNotIn("interrupted", self.show(pushed, nine))

    def test_crashes_name_the_instruction(self):
        rows = [
            ("undefined", [("main", 0x14, UNDEFINED_WORD)], [(R15, 0xFFFF0004), (CPSR, UNDEFINED), (R14_UND, 0x2000018)], f"it is at {MAIN}: e7ffdeff\n"),
            ("undefined, Thumb", [("main", 0x14, 0x12345678)], [(R15, 0xFFFF0004), (CPSR, UNDEFINED), (R14_UND, 0x2000016), (SPSR_UND, 0x3F)], f"it is at {MAIN}: 5678\n"),
            ("bkpt", [("main", 0x14, 0xE1200070)], [(R15, 0xFFFF000C), (CPSR, ABORT), (R14_ABT, 0x2000018)], f"it is at {MAIN}: e1200070\n"),
            ("a jump there", [], [(R15, 0xFFFF0004), (CPSR, SYSTEM)], "r14 of Undefined mode is the address after it\n"),
            ("branch", [("main", 0x14, LOOP)], [(R15, 0x2000014)], f"  {ENDLESS}: the program ended there, or gave up\n"),
            ("branch, Thumb", [("main", 0x14, THUMB_LOOP)], [(R15, 0x2000014), (CPSR, 0x3F)], f"  {ENDLESS}"),
        ]  # fmt: skip
        for name, words, nine, text in rows:
            with self.subTest(name=name):
                self.assertIn(text, self.show(words, nine))
        halted = self.show([("wram7", 8, 0xE5C01301), ("wram7", 12, LOOP)], (), [(R15, 0x380000C)])
        self.assertIn("halted for good before a branch to itself, as the image does that make-cart gives", halted)

    def test_an_odd_pointer_is_thumb_codes(self):
        nine, seven = [(R15, 0xFFFF0108), (R1, 1)], [(R15, 0x108), (R1, 1)]
        shown = self.show([("dtcm", 0x3FFC, 0x2000021), ("wram7", 0xFFFC, 0x2000021)], nine, seven)
        self.assertIn("the handler is 02000021 handler: the pointer is odd, so it is Thumb code\n", shown)
        self.assertIn("the pointer is odd, so it is Thumb code, to which ARM7 can't go from there: make it ARM code\n", shown)
        self.assertNotIn("odd", self.show([("dtcm", 0x3FFC, 0x2000020)], nine))

    def test_trouble_is_one_line_where_a_processor_is_stuck_or_crashed(self):
        wait, handler = [(R15, 0xFFFF0108), (R1, 1)], ("dtcm", 0x3FFC, 0x2000020)
        rows = [
            ("a program", [], [], ""),
            ("a wait", [handler], wait, ""),
            ("a wait without a handler", [], wait, "ARM9 at ffff0108 (boot ROM 108h): halted in IntrWait"),
            ("a wait for nothing", [handler], [(R15, 0xFFFF0108)], "ARM9 at ffff0108 (boot ROM 108h): halted in IntrWait"),
            ("Halt", [], [(R15, 0xFFFF0134)], ""),
            ("Div", [], [(R15, 0xFFFF0140)], ""),
            ("undefined", [], [(R15, 0xFFFF0004), (CPSR, UNDEFINED), (R14_UND, 0x2000018)], "ARM9 at ffff0004 (boot ROM 004h): it stays at the vector 04h"),
            ("behind the stub", [], [(R15, 0xFFFF0200)], "ARM9 at ffff0200 (boot ROM 200h): it runs through the zeros behind the stub"),
            ("zeros", [], [(R15, 0x40)], "ARM9 at 00000040: it runs through zeros"),
            ("a branch", [("main", 0x14, LOOP)], [(R15, 0x2000014)], f"ARM9 at {MAIN}: {ENDLESS}"),
            ("a branch, at a frame's tick", [("main", 0x14, LOOP)], [(R15, 0xFFFF0018), (CPSR, IRQ), (R14_IRQ, 0x2000018), (SPSR_IRQ, SYSTEM)], f"ARM9 at {MAIN}: {ENDLESS}"),
        ]  # fmt: skip
        for name, words, nine, text in rows:
            with self.subTest(name=name):
                found = self.trouble(words, nine)
                self.assertEqual((found.startswith(text), bool(found)), (True, bool(text)), found)
        self.assertEqual(self.trouble([("wram7", 8, 0xE5C01301), ("wram7", 12, LOOP)], (), [(R15, 0x380000C)], 1), "")

    def test_a_stop_names_the_boot_roms_function(self):
        rows = [
            (22, 0x0E, "GetCRC16"), (22, 0x0C, "CpuFastSet"), (23, 0x1A, "GetSineTable"), (22, 0x1A, "GetSineTable, which ARM7's boot ROM alone has"),
            (23, 0x16, "Diff8bitUnFilterWrite8bit, which ARM9's boot ROM alone has"), (22, 0x1F, "CustomPost"), (23, 0x1F, "CustomHalt"),
            (22, 0x2A, "which no boot ROM has"), (22, 0x55, "an early end"), (23, 0xAA, "a failed assertion"),
        ]  # fmt: skip
        for rank, number, name in rows:
            with self.subTest(number=number, rank=rank):
                self.put("stop.out", stop(44, rank, 2, number))
                self.assertIn(f"stopped: Swi 0x{number:08x} ({name}) at tick 44 by ARM{'97'[rank - 22]} ", self.run_it("stop.out")[1])
        self.put("stop.out", stop(44, 1, 10, 0x0E))
        self.assertIn("stopped: Mosaic 0x0000000e at tick 44", self.run_it("stop.out")[1])
        self.assertEqual([it for it in names.STUB_FUNCTIONS if it not in names.FUNCTIONS], [])


class Symbols(unittest.TestCase):
    """Which symbol an address belongs to, and where DTCM lies."""

    def made(self, symbols, sections=()):
        return Elf("made.elf", elf([(0x2000000, 0x2000000, bytes(64), 64)], symbols, sections=sections))

    def test_a_symbol_without_a_size_ends_at_the_next_one_and_with_its_section(self):
        found = self.made([("label", 0x2000000, 0, 0x10, 3), ("other", 0x2000010, 0, 0x10, 3), ("sized", 0x2000020, 8, 0x12, 3), ("loose", 0x2800000, 0, 0x10, 3)],
                          [(0x2000000, 0x40, "code")])  # fmt: skip
        rows = [(0x2000000, "label"), (0x200000C, "label+0xc"), (0x2000010, "other"), (0x200001C, "other+0xc"), (0x2000024, "sized+0x4"), (0x2000028, ""),
                (0x2000100, ""), (0x2800000, "loose"), (0x2800004, "")]  # fmt: skip
        self.assertEqual([(at, found.near(at)) for at, _ in rows], rows)

    def test_a_variable_goes_before_a_linkers_symbol_at_its_address(self):
        bounds = [("__bss_start", 0x2000000, 0, 0x10, 3), ("__data_end", 0x2000000, 0, 0x10, 3)]
        for symbols in ([*bounds, ("score", 0x2000000, 4, 0x01, 3)], [("score", 0x2000000, 4, 0x11, 3), *bounds]):
            self.assertEqual(self.made(symbols, [(0x2000000, 0x40, ".bss")]).near(0x2000000), "score")
        inner = self.made([("outer", 0x2000000, 32, 0x12, 3), ("inner", 0x2000008, 4, 0x11, 3), ("label", 0x2000010, 0, 0x10, 3)], [(0x2000000, 0x40, "code")])
        self.assertEqual([inner.near(at) for at in (0x2000004, 0x2000008, 0x2000010)], ["outer+0x4", "inner", "outer+0x10"])

    def test_variables_are_those_with_a_place_and_a_size(self):
        found = self.made([("b", 0x2001004, 4, 0x11, 3), ("a", 0x2001000, 4, 0x01, 3), ("alias", 0x2001000, 4, 0x11, 3), ("code", 0x2000000, 4, 0x12, 3), ("label", 0x2001000, 0, 0x10, 3)])
        self.assertEqual([it.name for it in found.variables()], ["a", "b"])

    def test_dtcm_is_where_the_elf_file_has_it(self):
        rows = [
            ([("__dtcm_start", 0xB000000, 0, 0x10)], (), 0xB000000, False),
            ([("__dtcm_start", 0xB000040, 0, 0x10)], (), 0xB000000, False),
            ([], [(0x27C0000, 16, ".dtcm")], 0x27C0000, False),
            ([], [(0x27C0000, 0, ".dtcm"), (0x2000000, 16, ".data")], 0x3000000, True),
            ([], (), 0x3000000, True),
        ]
        for symbols, sections, base, is_assumed in rows:
            with self.subTest(symbols=symbols, sections=sections):
                known = Map((self.made(symbols, sections), None))
                self.assertEqual((known.dtcm_base, known.is_dtcm_assumed), (base, is_assumed))
        said = Map((self.made([("__dtcm_start", 0xB000000, 0, 0x10)]), None), 0x3000000)
        self.assertEqual((said.dtcm_base, said.is_dtcm_assumed), (0x3000000, False))
        self.assertEqual(Map((self.made([("__dtcm_start", 0xB000000, 0, 0x10)]), None)).place_of(0, 0xB000010), ("dtcm", 16))


if __name__ == "__main__":
    unittest.main()
