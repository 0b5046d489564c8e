"""`nds-trace` on traces made by hand and by a fake program."""
import unittest

from made import Room, elf
from rising import Rising

SYMBOLS = [("_start", 0x2000000, 8, 0x12), ("main", 0x2000008, 24, 0x12), ("tell", 0x2000020, 16, 0x12)]
# ARM9: main calls tell, waits in IntrWait, an interrupt comes and goes; a Thumb half at the end.
TRACE = """000000000000 02000000 e3a00301 mov r0, #0x4000000
000000000001 02000004 ea000000 b 0x2000008
000000000004 02000008 eb000004 bl 0x2000020
000000000007 02000020 e1a00000 mov r0, r0
000000000008 02000024 e12fff1e bx r14
000000000011 0200000c ef050000 swi 0x50000
000000000014 ffff0008 ea00000d b 0xffff0044
000000000020 ffff0104 ee072f90 mcr p15, 0, r2, c7, c0, 4
000000001000 ffff0108 irq
000000001003 ffff0018 ea000000 b 0xffff0020
000000001010 02000010 46c0 movh r8, r8
000000001011 03000000 e1a00000 mov r0, r0
"""


class Traces(Room):
    TOOL, MODULE = "nds-trace", "trace_command"

    def setUp(self):
        super().setUp()
        self.elf = self.put("game.elf", elf([(0x2000000, 0x2000000, bytes(64), 64)], SYMBOLS, sections=[(0x2000000, 64)]))
        self.trace = self.put("game.trace", TRACE)

    def shown(self, *words):
        status, out, notes = self.run_it("--read", self.trace, *words)
        self.assertEqual((status, notes), (0, ""))
        return out

    def test_steps_have_their_function_and_branches_where_they_go(self):
        lines = self.shown("--elf9", self.elf).splitlines()
        self.assertEqual([" ".join(it.split()) for it in lines], [
            "000000000000 02000000 _start e3a00301 mov r0, #0x4000000",
            "000000000001 02000004 _start+0x4 ea000000 b 0x2000008 ; main",
            "000000000004 02000008 main eb000004 bl 0x2000020 ; tell",
            "000000000007 02000020 tell e1a00000 mov r0, r0",
            "000000000008 02000024 tell+0x4 e12fff1e bx r14",
            "000000000011 0200000c main+0x4 ef050000 swi 0x50000",
            "000000000014 ffff0008 boot ROM vectors+0x8 ea00000d b 0xffff0044 ; boot ROM dispatcher of swi",
            "000000000020 ffff0104 boot ROM IntrWait+0x48 ee072f90 mcr p15, 0, r2, c7, c0, 4",
            "000000001000 ffff0108 boot ROM IntrWait+0x4c irq",
            "000000001003 ffff0018 boot ROM vectors+0x18 ea000000 b 0xffff0020 ; boot ROM entry of interrupts",
            "000000001010 02000010 main+0x8 46c0 movh r8, r8",
            "000000001011 03000000 (no symbol) e1a00000 mov r0, r0",
        ])  # fmt: skip
        self.assertIn("000000000004 02000008 (no symbol) ", self.shown())

    def test_steps_are_chosen(self):
        rows = [
            (("--in", "tell"), ["000000000007", "000000000008"]),
            (("--in", "boot ROM IntrWait"), ["000000000020", "000000001000"]),
            (("--since", "1003"), ["000000001003", "000000001010", "000000001011"]),
            (("--last", "1"), ["000000001011"]),
            (("--since", "5", "--in", "main", "--last", "1"), ["000000001010"]),
        ]
        for words, ticks in rows:
            with self.subTest(words=words):
                self.assertEqual([it.split()[0] for it in self.shown("--elf9", self.elf, *words).splitlines()], ticks)

    def test_functions_as_they_go_on(self):
        lines = self.shown("--elf9", self.elf, "--functions").splitlines()
        self.assertEqual([" ".join(it.split()) for it in lines], [
            "000000000000 _start 2 steps, 4 ticks",
            "000000000004 main 1 steps, 3 ticks",
            "000000000007 tell 2 steps, 4 ticks",
            "000000000011 main+0x4 1 steps, 3 ticks",
            "000000000014 boot ROM vectors+0x8 1 steps, 6 ticks",
            "000000000020 boot ROM IntrWait+0x48 1 steps, 980 ticks",
            "000000001003 boot ROM vectors+0x18 1 steps, 7 ticks",
            "000000001010 main+0x8 1 steps, 1 ticks",
            "000000001011 (no symbol) 1 steps, 0 ticks",
        ])  # fmt: skip

    def test_a_profile_counts_halts_apart(self):
        lines = self.shown("--elf9", self.elf, "--profile").splitlines()
        self.assertEqual([" ".join(it.split()) for it in lines], [
            "11 steps in 1011 ticks, halted for 980 of them (96.9%)",
            "ticks share steps entered function",
            "13 41.9% 2 0 boot ROM vectors",
            "7 22.6% 3 1 main",
            "4 12.9% 2 1 _start",
            "4 12.9% 2 1 tell",
            "3 9.7% 1 0 boot ROM IntrWait",
            "0 0.0% 1 0 (no symbol)",
        ])  # fmt: skip

    def test_arm7s_stub_stands_at_0(self):
        self.put("seven.trace", "000000000000 00000104 e5c42301 strb r2, [r4, #0x301]\n000000000100 00000108 e3a02001 mov r2, #0x1\n")
        status, out, _ = self.run_it("--read", "seven.trace", "--proc", "7", "--profile")
        self.assertEqual((status, out.splitlines()[0]), (0, "2 steps in 100 ticks, halted for 100 of them (100.0%)"))

    def test_the_program_is_run_and_its_ends_are_told(self):
        cart = self.put("game.nds")
        self.put("game.nds.out", TRACE)
        self.assertEqual(self.run_it(cart, "--frames", "2", "--keys", "a.keys", "--proc", "7")[::2], (0, ""))
        self.run_it(cart, "--ticks", "99", "--count", "50")
        self.assertEqual(self.calls(), [f"trace {cart} a.keys 1938301 7 1000000", f"trace {cart} none 99 9 50"])
        self.put("by-frame.keys", "press A 2\n")
        self.run_it(cart, "--ticks", "99", "--keys", "by-frame.keys")
        self.assertRegex(self.calls()[0], r"made\.keys 99 9 1000000$")
        status, out, notes = self.run_it(cart, "--ticks", "2000", "--count", "12")
        self.assertEqual((status, notes), (0, "nds-trace: the trace ends after 12 steps, at tick 1011 of 2000; it begins at boot\n"))
        self.put("game.nds.status", "9")
        self.put("game.nds.note", "left out: Swi tick 1012 actor 22 value 0x0000000e\n")
        status, out, notes = self.run_it(cart, "--ticks", "2000", "--last", "1")
        self.assertEqual((status, out.count("\n"), notes), (0, 1, "nds-trace: the run stops there: left out: Swi tick 1012 actor 22 value 0x0000000e\n"))
        self.put("game.nds.status", "3")
        self.put("game.nds.note", "no file: game.nds\n")
        self.put("game.nds.out", "")
        self.assertEqual(self.run_it(cart, "--ticks", "2000")[::2], (2, "nds-trace: no file: game.nds\n"))

    def test_what_is_no_trace_and_wrong_words(self):
        bad, cart = self.put("bad.trace", TRACE + "more\n"), self.put("game.nds")
        read = ("--read", self.trace)
        self.check([
            (("--read", bad), 2, f"{bad}: line 13 is none of a trace"),
            (("--read", "absent"), 2, "absent: No such file"),
            ((), 2, "it wants a cartridge, or --read TRACE"),
            ((cart, *read), 2, "it wants a cartridge, or --read TRACE"),
            ((cart,), 2, "it wants either --frames N or --ticks N"),
            ((cart, "--frames", "1", "--ticks", "1"), 2, "it wants either --frames N or --ticks N"),
            ((*read, "--ticks", "1"), 2, "--frames and --ticks go with a cartridge"),
            ((cart, "--ticks", "0"), 2, "--ticks takes a number from 1"),
            ((cart, "--ticks", "9", "--count", "1000001"), 2, "--count takes 1000000 at most"),
            ((*read, "--in", "tell"), 2, "no function tell is known, since --elf9 names no ELF file"),
            ((*read, "--in", "fly", "--elf9", self.elf), 2, "no function fly is known"),
            ((*read, "--in", "tell", "--elf9", self.elf, "--profile"), 2, "--in goes with steps"),
            ((*read, "--since", "2000"), 1, "the trace has no step that was asked for"),
            ((*read, "--since", "2000", "--profile"), 1, "the trace has no step that was asked for"),
        ])  # fmt: skip
        self.check_command("--read", "absent", status=2, text="absent: No such file")


class OfTests(Rising):
    """A trace of a test's cartridge, with its keys and ELF files."""

    TOOL, MODULE = "nds-trace", "trace_command"

    def test_a_test_tells_the_game(self):
        self.put("game.nds.out", TRACE)
        self.put("game.elf", elf([(0x2000000, 0x2000000, bytes(64), 64)], [("main", 0x2000000, 64, 0x12)], sections=[(0x2000000, 64, "code")]))
        self.put("one.test", "cart game.nds\nelf9 game.elf\nframes 3\nkeep frame 3\npress A 1\n")
        ran = self.run_it("one.test", "--last", "1")
        self.assertEqual((ran[0], " ".join(ran[1].split())), (0, "000000001011 03000000 (no symbol) e1a00000 mov r0, r0"))
        # (the cartridge is one branch to itself)
        self.assertEqual(ran[2], "nds-trace: elf9 game.elf isn't of the build in game.nds, so its symbols are others: at 02000000 (main) it has 00000000, "
                                 "and the cartridge eafffffe\n")  # fmt: skip
        self.assertRegex(self.calls()[0], r"^trace game\.nds .*made\.keys 3058681 9 1000000$")
        self.run_it("one.test", "--frames", "1", "--proc", "7")
        self.assertRegex(self.calls()[0], r"^trace game\.nds .*made\.keys 817921 7 1000000$")
        self.check([
            (("one.test", "--keys", "a.keys"), 2, "--keys a.keys: one.test is a test, which tells that itself"),
            (("one.test", "--frames", "3", "--ticks", "4"), 2, "it wants either --frames N or --ticks N"),
            (("game.nds",), 2, "it wants either --frames N or --ticks N"),
        ])  # fmt: skip


if __name__ == "__main__":
    unittest.main()
