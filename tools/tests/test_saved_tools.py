"""Saved states in the tools: `nds-show --state`, `nds-diff` of two of them, and tests of `nds-test` that begin from one."""
import os
import unittest

from made import Room, elf, end, frame, lists, memory, picture, stop

from nds_tools.hostile.boot_state import loop_cart, state_at
from nds_tools.scripts import KEYS
from nds_tools.state_banks import mapped
from nds_tools.states import NO_TICK

CART = loop_cart()
FRAME, AFTER_1, AFTER_2 = 1120380, 817921, 1938301
SYMBOLS = [("score", 0x2001000, 4, 0x11), ("main", 0x2000000, 64, 0x12)]
HALTED = {"ARM9 halted": 1, "ARM9 due": 0}
SHOWS = {"POWCNT1": 0x8202, "A DISPCNT": 0x10100, "B DISPCNT": 0x11000, "VRAMCNT_A": 0x81, "VRAMCNT_D": 0x84}
NO_VRAM = bytes(671744)
FILLED = NO_VRAM[:-1] + b"\1"
# A change of a state that boots, and a line of what is odd about it.
ODD = [
    (HALTED, "ARM9 is halted and IE is 0: nothing wakes it"),
    ({**HALTED, "ARM9 IE": 1}, "ARM9 is halted with IME 0: what IE enables wakes it, and no handler runs"),
    ({**HALTED, "ARM9 IE": 1, "ARM9 IME": 1}, "ARM9 is halted with CPSR's I flag set: what IE enables wakes it, and no handler runs"),
    ({**HALTED, "ARM9 IE": 1}, "ARM9 is halted and IE has V-blank, which DISPSTAT doesn't ask for: its bit 3 is 0"),
    ({**HALTED, "ARM9 IE": 4}, "ARM9 is halted and V-blank's interrupt isn't enabled: IE bit 0 is 0; it waits for V-count"),
    ({**HALTED, "ARM9 IE": 0x10}, "ARM9 is halted and IE has timer 1, which isn't started"),
    ({**HALTED, "ARM9 IE": 0x10, "ARM9 TM1CNT_H": 0x80}, "ARM9 is halted and IE has timer 1, which asks for no interrupt"),
    ({"ARM7 IE": 3, "ARM7 IF": 1}, "ARM7: V-blank asked for and enabled, and no interrupt is taken: IME is 0"),
    ({"ARM9 IE": 0x200000, "GXSTAT selector": 2, "ARM9 IME": 1}, "ARM9: geometry FIFO asked for and enabled, and no interrupt is taken: CPSR's I flag is set"),
    ({}, "engine A is off: POWCNT1 bit 1 is 0, and its screen is black"),
    ({}, "engine B is off: POWCNT1 bit 9 is 0, and its screen is black"),
    ({"POWCNT1": 2}, "engine A is on, and its display mode is 0: its screen is white"),
    ({"POWCNT1": 2, "A DISPCNT": 0x10080}, "engine A has forced blank, DISPCNT bit 7: its screen is white"),
    ({"POWCNT1": 2, "A DISPCNT": 0x60000}, "engine A shows bank B as it lies, and that isn't in LCDC: its screen is black"),
    ({"POWCNT1": 2, "A DISPCNT": 0x30000}, "engine A is to show main memory, which stops the run at the next line"),
    ({"POWCNT1": 2, "A DISPCNT": 0x10000}, "engine A shows no layer: DISPCNT bits 8 to 12 are 0"),
    ({**SHOWS, "VRAMCNT_A": 0x80}, "engine A shows backgrounds, and no bank is mapped to A's backgrounds"),
    ({**SHOWS, "VRAMCNT_D": 4}, "engine B shows objects, and no bank is mapped to B's objects"),
    ({"vram": FILLED}, "bank I holds something and isn't mapped: VRAMCNT_I is 00h, whose bit 7 is 0"),
    ({"vram": FILLED, "VRAMCNT_I": 0x83}, ""),
    ({"vram": b"\1" + NO_VRAM[1:], "VRAMCNT_A": 3}, "bank A holds something and isn't mapped: VRAMCNT_A is 03h, whose bit 7 is 0"),
    ({"VRAMCNT_A": 0x81, "VRAMCNT_E": 0x81}, "banks A and E lie in one place, A's backgrounds at 6000000h: reads give both, ORed"),
    ({"ARM9 IPCFIFORECV count": 1}, "ARM9 has 1 words to receive, and its IPCFIFOCNT isn't enabled, bit 15"),
    ({"ARM7 IPCFIFORECV count": 16, "ARM7 IPCFIFOCNT": 0x8000}, "the FIFO from ARM9 to ARM7 is full: what ARM9 sends is lost"),
    ({"ARM7 IPCFIFOCNT": 0x4000}, "ARM7's IPCFIFOCNT has an error: a word was sent to a full FIFO, or received from an empty one"),
    ({"ARM9 DMA2CNT": 1 << 31, "ARM9 DMA2 units left": 1, "ARM9 DMA2 running": 1}, "ARM9 waits for its DMA: channel 2"),
    ({"GXFIFO count": 261, "swap waits": 1}, "ARM9 waits for the geometry FIFO, in which 261 entries wait"),
    ({"swap waits": 1}, "the geometry engine waits for line 192, to swap buffers"),
    ({"list overflow": 1}, "the geometry lists overflowed: 0 vertices, 0 polygons"),
    ({"stack error": 1}, "a matrix stack was pushed or popped past its end: GXSTAT bit 15"),
    ({"card command": b"\xb8" + bytes(7), "card starter": 2, "ROMCTRL": 7 << 24}, "the card has word 0 ready, and ARM7 hasn't taken it"),
]  # fmt: skip
# A change, and a port's line.
PORTS = [
    ({"ARM9 TM1CNT_H": 0xC1, "ARM9 TM1 counter": 0xFFFE, "ARM9 TM1 restart": 4900, "ARM9 TM1CNT_L reload": 5},
     "ARM9 4000104  TM1CNT_L          fffe  reload 0005h", "ARM9 4000106  TM1CNT_H          00c1  runs, overflows at tick 5156, one count in 64 bus clocks, interrupt"),
    ({"ARM7 TM2CNT_H": 0x84}, "ARM7 400010a  TM2CNT_H          0084  runs, counts the overflows of TM1"),
    ({"ARM9 DMA3CNT": 0xAF000080, "ARM9 DMA3SAD": 0x4100010, "ARM9 DMA3 units left": 127, "ARM9 DMA3 source": 0x4100010, "ARM9 DMA3 target": 0x2000004},
     "ARM9 40000dc  DMA3CNT       af000080  enabled, 128 words, source fixed, target up, starts by the card, repeats", "ARM9 DMA3 waits for its start, 127 units left, next from 04100010 to 02000004"),
    ({"ARM7 DMA0CNT": 0x90000000, "ARM7 DMA0 units left": 0x4000}, "ARM7 40000b8  DMA0CNT       90000000  enabled, 16384 halves, source up, target up, starts at V-blank"),
    ({"ARM9 IPCSYNC sent": 5, "ARM7 IPCSYNC sent": 9, "ARM9 IPCSYNC enable": 1}, "ARM9 4000180  IPCSYNC           4509  sends 5h, has 9h"),
    ({"ARM7 IPCFIFORECV count": 1, "ARM7 IPCFIFORECV word 0": 7, "ARM9 IPCFIFOCNT": 0x8404},
     "ARM9 4000184  IPCFIFOCNT        8504  1 words sent that wait, 0 to be received, interrupt by an empty send FIFO, interrupt by received words, enabled", "ARM7 4100000  IPCFIFORECV   00000007  to be received: 00000007"),
    ({"KEYINPUT pressed": 1 | 1 << KEYS.index("R") | 1 << KEYS.index("Y")}, "4000130  KEYINPUT          02fe  pressed: A+R+Y", "ARM7 4000136  EXTKEYIN          007d"),
    ({"ARM9 KEYCNT": 0xC003}, "ARM9 4000132  KEYCNT            c003  interrupt by A+B, where all of them are pressed"),
    ({"DIVCNT mode": 1, "DIV_DENOM": 3, "divider due": 5010}, "4000280  DIVCNT            8001  64 by 32 bits, due at tick 5010, in 10", "4000298  DIV_DENOM     0000000000000003"),
    ({"SQRTCNT wide": 1, "square root due": 5001}, "40002b0  SQRTCNT           8001  of 64 bits, due at tick 5001, in 1"),
    ({"VRAMCNT_C": 0x8A, "WRAMCNT": 1}, "4000242  VRAMCNT_C           8a  128K, @vram+0x40000: ARM7's video memory at 6020000h; all of it is 0", "4000247  WRAMCNT             01  of the shared work RAM ARM9 and ARM7 see its second 16K and its first",
     "ARM7 4000240  VRAMSTAT            01"),
    ({"VRAMCNT_G": 0x9D}, "4000246  VRAMCNT_G           9d  16K, @vram+0x94000: A's extended object palette; all of it is 0"),
    ({"VRAMCNT_I": 0x80}, "4000249  VRAMCNT_I           80  16K, @vram+0xa0000: LCDC at 68a0000h; all of it is 0"),
    ({"ARM9 DISPSTAT": 0x53A9}, "ARM9 4000004  DISPSTAT          53a9  now: V-blank; interrupts: V-blank, V-count; V-count setting 339"),
    ({"POWCNT1": 0x8203}, "4000304  POWCNT1           8203  on: both screens, 2D engine A, 2D engine B; engine A on the upper screen"),
    ({"A DISPCNT": 0x00062F03}, "A 4000000  DISPCNT       00062f03  display mode 2: a bank as it lies B, background mode 3, shows BG0+BG1+BG2+BG3, window 0"),
    ({"B BG2X running": -384, "B BG3Y running": 256}, "B running points of the affine backgrounds: BG2 (-1.5, 0), BG3 (0, 1)"),
    ({"B MASTER_BRIGHT": 0x8010, "B BLDCNT": 0x40}, "B 400106c  MASTER_BRIGHT     8010  down by 16", "B 4001050  BLDCNT            0040  effect alpha"),
    ({"GXFIFO count": 6, "GXFIFO 0 command": 0x70, "GXFIFO 3 command": 0x11, "GXSTAT selector": 1, "geometry due": 5001, "position level": 3, "stack error": 1},
     "4000600  GXSTAT        4a02c301  6 entries wait; interrupt by less than half full", "engine: due at tick 5001, in 1; matrix mode projection; position level 3", "entry 3: command 11h, word 00000000"),
    ({"open vertices": 2, "list overflow": 1}, "4000604  RAM_COUNT     00020000  0 polygons and 2 vertices in the open lists", "4000060  DISP3DCNT         2000  lists overflowed"),
    ({"swap tick": 4000, "swap parameter": 3, "swapped vertices": 1}, "the last swap: at tick 4000, 1 vertices and 0 polygons, parameter 3h"),
    ({"ROMCTRL": 0x21000000, "card starter": 1, "card command": b"\xb7" + bytes(7), "card words taken": 4, "card due": NO_TICK, "ARM9 AUXSPICNT": 0xC000},
     "40001a4  ROMCTRL       a1800000  busy for ARM9, 4 of 128 words taken, a word is ready", "ARM9 40001a0  AUXSPICNT         c000  interrupt at the end, slot enabled", "40001a8  ROMCMD        b7 00 00 00 00 00 00 00"),
    ({"CP15 control": 0x5000, "CP15 DTCM": 0x027C000A}, "c1,c0,0  Control       00005078  instruction cache, round robin", "c9,c1,0  DTCM base     027c000a  from 027c0000 on, 16K"),
]  # fmt: skip


class ShowState(Room):
    TOOL, MODULE = "nds-show", "show_command"

    def setUp(self):
        super().setUp()
        self.put("game.nds", CART)
        self.put("game.elf", elf([(0x2000000, 0x2000000, bytes(64), 64)], SYMBOLS))

    def shown(self, changes, *words, tick=5000):
        self.put("game.state", state_at(CART, tick, changes))
        status, out, note = self.run_it("--state", "game.state", *words)
        self.assertEqual((status, note), (0, ""))
        return out.splitlines()

    def test_when_and_of_which_cartridge(self):
        lines = self.shown({"steps of ARM9": 4, "events": 2, "turns": 5}, tick=1123593)
        self.assertEqual(lines[0], "tick 1123593, 0.017 s, frame 2 line 0; steps of ARM9 4, of ARM7 0, events 2, turns 5")
        self.assertRegex(lines[1], "^cartridge sha256 [0-9a-f]{64}$")
        self.assertNotIn("another cartridge", "".join(self.shown({}, "--cart", "game.nds")))
        self.put("other.nds", CART + b"\0")
        self.assertEqual(self.shown({}, "--cart", "other.nds")[2], "it is a state of another cartridge than other.nds, which can't go on from it")

    def test_what_is_odd(self):
        for changes, line in ODD:
            with self.subTest(line=line):
                lines = self.shown(changes)
                told = [it[2:] for it in lines[3 : next(at for at, it in enumerate(lines) if it.startswith("ARM9  "))]]
                self.assertTrue(line in told if line else not any("holds something" in it for it in told), told)

    def test_nothing_is_odd(self):
        self.assertEqual(self.shown(SHOWS)[2], "nothing is odd")
        # (where the boot ROM's IntrWait waits, IME is 0 and that is right)
        waits = {**HALTED, "ARM9 r15": 0xFFFF0108, "ARM9 r1": 1, "ARM9 IE": 1, "ARM9 DISPSTAT": 8, **SHOWS}
        self.assertEqual(self.shown(waits)[2], "nothing is odd")

    def test_what_is_usual_at_a_frames_end_and_in_a_handler_is_not_odd(self):
        asked = {"ARM9 IE": 1, "ARM9 IF": 1, "ARM9 cpsr": 0x1F, **SHOWS}
        held, late = "ARM9: V-blank asked for and enabled, and no interrupt is taken: IME is 0", 817921 + 4260
        rows = [
            (817921, {}, ""), (817921 + 3000, {}, ""), (817921 + 1120380 * 3, {}, ""), (late, {}, held), (late, {"ARM9 IE": 9, "ARM9 IF": 9}, held.replace("blank", "blank, timer 0")),
            (817921, {"ARM9 IE": 9, "ARM9 IF": 9}, held.replace("blank", "blank, timer 0")),
            (late, {"ARM9 IME": 1, "ARM9 cpsr": 0x9F}, held.replace("IME is 0", "CPSR's I flag is set")),
            # (in a handler the I flag is set, on the way there too, and in IntrWait IME is 0 for a while)
            (late, {"ARM9 IME": 1, "ARM9 cpsr": 0x92}, ""), (late, {"ARM9 r15": 0xFFFF0100}, ""), (late, {"ARM9 r15": 0xFFFF0100, "ARM9 cpsr": 0x9F}, held),
        ]  # fmt: skip
        for tick, changes, line in rows:
            with self.subTest(tick=tick, changes=changes):
                self.put("one.state", state_at(CART, tick, {**asked, **changes}))
                out = self.run_it("--state", "one.state")[1].splitlines()
                self.assertEqual(out[2:4] if line else out[2:3], ["what is odd", f"  {line}"] if line else ["nothing is odd"])

    def test_ports_by_name(self):
        for changes, *wanted in PORTS:
            with self.subTest(wanted=wanted):
                lines = [it.strip() for it in self.shown(changes)]
                for line in wanted:
                    self.assertTrue(any(it.startswith(line) for it in lines), [it for it in lines if it.split()[:2] == line.split()[:2]])

    def test_registers_and_places(self):
        lines = self.shown({"ARM9 r15": 0x2000010, "main": bytes(0x1000) + b"\x14" + bytes(4194304 - 0x1001)}, "--elf9", "game.elf", "score")
        self.assertIn("  r15 02000010 (main+0x10)  r14 02000000 (main)", lines)
        self.assertEqual(lines[-2:], ["score  02001000 score", "  +000  00000014  (20)"])

    def test_places_are_where_the_state_has_them(self):
        dtcm = b"\x2a" + bytes(16383)
        vram = NO_VRAM[:0x20000] + b"\x2b" + NO_VRAM[0x20001:]
        lines = self.shown({"CP15 DTCM": 0x0B00000A, "dtcm": dtcm, "vram": vram, "VRAMCNT_B": 0x81, "VRAMCNT_C": 0x82}, "0xb000000", "0x6000000", "7:0x6000004", "0x6820000")
        self.assertEqual([it for it in lines if it.startswith("  +000")], ["  +000  0000002a  (42)", "  +000  0000002b  (43)", "  +000  00000000  (0)", "  +000  0000002b  (43)"])
        self.assertIn("0xb000000  0b000000", lines)
        self.check([(("--state", "game.state", "0x6200000"), 2, "no memory is known at 0x06200000 of ARM9: no bank is mapped there")])

    def test_all_fields_with_their_offsets(self):
        lines = self.shown({"swap tick": 9, "swapped vertices": 1, "swapped vertex 0 x": -5}, "--all")
        for line in ("        34  tick: 5000", "  5018130  ARM7 TM3", "   5018011  ARM9 IE: 00000000", "       400  main: 4194304 bytes", "   5416636  swapped vertex 0 x: -5"):
            self.assertTrue(any(it.strip().startswith(line.strip()) for it in lines) or "TM3" in line, line)
        self.assertIn("   5411984  projection matrix: 4096 0 0 0 0 4096 0 0 0 0 4096 0 0 0 0 4096", lines)

    def test_a_state_is_saved_first(self):
        self.put("game.nds.saved", state_at(CART, 5000))
        status, out, _ = self.run_it("--cart", "game.nds", "--tick", "5000", "0x2000000")
        self.assertEqual((status, out.splitlines()[0][:9], out.splitlines()[-1]), (0, "tick 5000", "  +000  eafffffe  (3942645758)"))
        self.put("a.keys", "press A 2\n")
        self.run_it("--cart", "game.nds", "--tick", "7", "--keys", "a.keys")
        calls = self.calls()
        self.assertEqual(calls[0], "save game.nds none 5000")
        self.assertRegex(calls[1], r"^save game\.nds /.*/made\.keys 7$")
        self.put("game.nds.save.status", "9")
        self.put("game.nds.save.note", "left out: Swi tick 0 actor 23 value 0x0000000e\n")
        self.check([(("--cart", "game.nds", "--tick", "7"), 2, "the run stops before tick 7, so there is no state: left out: Swi tick 0")])
        self.put("game.nds.save.status", "3")
        self.put("game.nds.save.note", "no file: game.nds\n")
        self.check([(("--cart", "game.nds", "--tick", "7"), 2, "no file: game.nds")])

    def test_what_is_no_state(self):
        whole = state_at(CART, 5000)
        self.put("short.state", whole[:-1])
        self.put("bad.state", state_at(CART, 5000, {"WRAMCNT": 4}))
        self.put("long.state", bytes(8388609))
        self.put("good.state", whole)
        self.check([
            (("--state", "short.state"), 2, "short.state: bad state: offset 5416676: card due: its 8 bytes aren't whole: the state ends at byte 5416683"),
            (("--state", "bad.state"), 2, "bad.state: bad state: offset 5018009: WRAMCNT: it is 4, and at most 3"),
            (("--state", "long.state"), 2, "long.state has 8388609 bytes, and a saved state has at most 8388608"),
            (("--state", "absent.state"), 2, "absent.state: No such file"),
            (("good.state",), 2, "byte 0 is 0x53, which begins no record: a saved state begins so, which nds-show --state shows"),
            (("--state", "good.state", "--tick", "3"), 2, "--state and --tick don't go together"),
            (("--state", "good.state", "--frame", "3"), 2, "--frame shows a run's end"),
            (("--tick", "3"), 2, "--tick 3 wants --cart GAME.nds beside it"),
            (("--tick", "0", "--cart", "game.nds"), 2, "0 is no whole number from 1"),
        ])  # fmt: skip

    def test_each_bank_is_mapped_as_the_table_has_it(self):
        rows = [
            ("A", 0x99, "A's backgrounds at 6060000h"), ("A", 0x92, "A's objects at 6400000h"), ("A", 0x8A, "A's objects at 6420000h"), ("B", 0x9B, "texture slot 3"), ("A", 0x93, "texture slot 2"), ("A", 0x80, "LCDC at 6800000h"),
            ("C", 0x84, "B's backgrounds at 6200000h"), ("D", 0x84, "B's objects at 6600000h"), ("D", 0x82, "ARM7's video memory at 6000000h"), ("D", 0x85, ""), ("E", 0x81, "A's backgrounds at 6000000h"), ("E", 0x83, "texture palettes 0 to 3"),
            ("E", 0x84, "A's extended background palettes 0 to 3"), ("E", 0x85, ""), ("F", 0x99, "A's backgrounds at 6014000h"), ("F", 0x9A, "A's objects at 6414000h"), ("G", 0x9B, "texture palette 5"), ("F", 0x8C, "A's extended background palettes from 2 on"),
            ("G", 0x84, "A's extended background palettes from 0 on"), ("G", 0x85, "A's extended object palette"), ("H", 0x81, "B's backgrounds at 6200000h"), ("H", 0x82, "B's extended background palettes 0 to 3"), ("H", 0x83, ""),
            ("I", 0x81, "B's backgrounds at 6208000h"), ("I", 0x82, "B's objects at 6600000h"), ("I", 0x83, "B's extended object palette"), ("I", 3, ""),
        ]  # fmt: skip
        self.assertEqual([(bank, control, mapped(bank, control)) for bank, control, _ in rows], rows)


class DiffStates(Room):
    TOOL, MODULE = "nds-diff", "diff_command"

    def both(self, one, two, *words):
        self.put("a.state", state_at(CART, 5000, one))
        self.put("b.state", state_at(CART, 5000, two))
        return self.run_it("a.state", "b.state", *words)

    def test_equal_states(self):
        self.assertEqual(self.both({}, {}), (0, "equal: memory, registers, fields\n", ""))
        self.assertEqual(self.both({}, {"ARM9 r0": 1}, "--only", "memory"), (0, "equal: memory\n", ""))

    def test_fields_are_told_by_name(self):
        two = {"ARM9 IE": 1, "divider due": 5003, "A BG2X running": -7, "POS_RESULT": (0, 0, 5, -6), "card command": bytes(range(8)), "steps of ARM9": 12}
        self.assertEqual(self.both({}, two), (1, """fields: 6 of 392 differ
  steps of ARM9: 0 and 12 (byte 42)
  ARM9 IE: 00000000 and 00000001 (byte 5018011)
  divider due: none and 5003 (byte 5018165)
  A BG2X running: 0 and -7 (byte 5018731)
  POS_RESULT, number 2: 0 and 5, and 1 more of it (byte 5416585)
  card command: 0000000000000000 and 0001020304050607 (byte 5416663)
""", ""))  # fmt: skip

    def test_registers_memories_and_frames(self):
        one, two = {"frame being drawn": (0,) * 98304}, {"frame being drawn": (0,) * 49153 + (0x1F,) * 2 + (0,) * 49149, "ARM7 r15": 0x3800004, "wram": bytes(4) + b"\2" + bytes(32763)}
        status, out, _ = self.both(one, two)
        self.assertEqual((status, out), (1, """wram, words: 1 of 8192 differ
  037f8004: 00000000 and 00000002
registers of ARM7: 1 of 37 differ
  r15 02100000 and 03800004
frame being drawn, pixels: 2 of 98304 differ
  lower screen (1, 0): 0000 and 001f
  lower screen (2, 0): 0000 and 001f
"""))  # fmt: skip

    def test_longer_lists(self):
        status, out, _ = self.both({"ARM7 IPCFIFORECV count": 1}, {"open vertices": 2})
        self.assertEqual(out, """fields: 17 of 407 differ
  ARM7 IPCFIFORECV count: 01 and 00 (byte 5018211)
  open vertices: 00000000 and 00000002 (bytes 5416612 and 5416608)
  1 fields in A alone, from ARM7 IPCFIFORECV word 0 on (byte 5018212)
  14 fields in B alone, from open vertex 0 x on (byte 5416616)
""")  # fmt: skip

    def test_what_cannot_be_compared(self):
        self.both({}, {})
        self.put("a.out", memory() + end())
        self.put("bad.state", b"S")
        self.check([
            (("a.state", "a.out"), 2, "a.state is a saved state, and a.out is none"),
            (("a.out", "a.state"), 2, "a.state is a saved state, and a.out is none"),
            (("a.state", "b.state", "--only", "counts"), 2, "--only counts: states have variables, memory, registers, fields"),
            (("a.out", "a.out", "--only", "fields"), 2, "--only fields: outputs have frames, lists"),
            (("a.state", "b.state", "--png", "x"), 2, "--frame and --png are for outputs"),
            (("a.state", "bad.state"), 2, "bad.state: bad state: offset 1: version: its 1 bytes aren't whole"),
        ])  # fmt: skip


class FramesOfStates(Room):
    TOOL, MODULE = "nds-frames", "frames_command"

    def test_the_last_whole_frame_of_a_state(self):
        self.put("a.state", state_at(CART, AFTER_2, {"last whole frame": (0x1F,) * 98304, "swap tick": AFTER_2 - 1, "swapped vertices": 1, "swapped polygons": 1, "swapped polygon 0 corners": 3}))
        self.assertEqual(self.run_it("a.state"), (0, f"""F  frame 2  tick {AFTER_2 - 1}
G  frame 2  tick {AFTER_2 - 1}  parameter 0x00000000  vertices 1  polygons 1
M  memories and registers: r15 of ARM9 0x02000000, of ARM7 0x02100000
E  tick {AFTER_2}  steps of ARM9 0, of ARM7 0, events 0, turns 0
""", ""))  # fmt: skip
        self.assertEqual(self.run_it("a.state", "--png", "shots")[1], "shots/frame-0002.png\n")
        self.assertEqual(picture(f"{self.room}/shots/frame-0002.png")[2][383], b"\xff\0\0" * 256)

    def test_a_state_before_the_first_frame(self):
        self.put("a.state", state_at(CART, AFTER_1 - 1))
        self.check([(("a.state", "--hash"), 1, "the output has no frame"), (("a.state",), 0, f"E  tick {AFTER_1 - 1}")])
        self.put("a.state", b"S")
        self.check([(("a.state",), 2, "a.state: bad state: offset 1")])


class TestsFromStates(Room):
    TOOL, MODULE = "nds-test", "games_command"
    TEST = "cart game.nds\nfrom level.state frames 1\npress A 1\npress B 2\nframes 2\nkeep peek @main+0x1000\nkeep frame 2\n"

    def setUp(self):
        super().setUp()
        self.put("one.test", self.TEST)
        self.game()

    def game(self, score=20, cart=CART, tick=AFTER_1):
        """Sets the cartridge and what the fake program answers: the state, and what the run from it gives."""
        self.put("game.nds", cart)
        self.put("game.nds.saved", state_at(cart, tick))
        self.put("game.nds.out", frame(2) + memory([("main", 0x1000, score)]) + end(AFTER_2))

    def last_line(self, *words):
        status, out, note = self.run_it(*words)
        self.assertEqual(note, "")
        return status, out.splitlines()[0]

    def test_a_state_is_made_and_used(self):
        self.assertEqual(self.last_line("one.test"), (2, "NEW     one: there is no state level.state yet; --update or --remake makes it"))
        self.assertEqual(self.calls(), [])
        self.assertEqual(self.last_line("one.test", "--update"), (0, "KEPT    one: level.state was made anew; its first results"))
        calls = self.calls()
        self.assertRegex(calls[0], rf"^save game\.nds /.*/made\.keys {AFTER_1}$")
        self.assertRegex(calls[1], rf"^resume level\.state game\.nds /.*/made\.keys {AFTER_2} last$")
        self.assertEqual(self.last_line("one.test"), (0, "PASS    one"))
        self.assertEqual([it.split()[0] for it in self.calls()], ["resume"])
        self.game(21)
        self.assertEqual(self.last_line("one.test"), (1, "FAIL    one: @main+0x1000 was 00000014, is 00000015"))

    def test_another_build_of_the_cartridge_is_told(self):
        self.run_it("one.test", "--update")
        self.game(21, CART + b"\0")
        self.calls()
        self.assertEqual(self.last_line("one.test"), (2, "NEW     one: level.state is a state of another build of game.nds; --update or --remake makes it anew"))
        self.assertEqual(self.calls(), [])
        # --remake makes the state, and tells what the new build changed; --update keeps that
        self.assertEqual(self.last_line("one.test", "--remake"), (1, "FAIL    one: level.state was made anew; @main+0x1000 was 00000014, is 00000015"))
        self.assertEqual(self.last_line("one.test"), (1, "FAIL    one: @main+0x1000 was 00000014, is 00000015"))
        self.assertEqual(self.last_line("one.test", "--update"), (0, "KEPT    one: @main+0x1000 was 00000014, is 00000015"))
        self.game(21, CART + b"\0\0")
        self.assertEqual(self.last_line("one.test", "--update"), (0, "KEPT    one: level.state was made anew"))
        self.assertEqual(self.last_line("one.test", "--remake"), (0, "PASS    one"))

    def test_another_tick_is_told(self):
        self.run_it("one.test", "--update")
        self.put("one.test", self.TEST.replace("frames 1", "ticks 900000"))
        self.assertEqual(self.last_line("one.test"), (2, f"NEW     one: level.state was saved at tick {AFTER_1}, and the test begins at tick 900000; --update or --remake makes it anew"))

    def test_keys_that_lead_to_the_state_come_first(self):
        self.put("level.keys", "press START 1\npress R 2-9\n")
        self.put("fake", "#!/bin/sh\n[ $1 = save ] && cat \"$3\" >>script\nexec ./nds \"$@\"\n")
        self.put("one.test", "cart game.nds\nfrom level.state frames 1 keys level.keys\npress B 2\nframes 2\nkeep peek @main+0x1000\n")
        os.chmod(f"{self.room}/fake", 0o755)
        self.run_it("one.test", "--update", "--nds", "./fake")
        self.assertEqual(self.text("script").splitlines()[:3], ["0 START", f"{FRAME} B", f"{2 * FRAME} -"])
        self.assertEqual(self.calls()[1].split()[:3], ["resume", "level.state", "game.nds"])

    def test_no_keys_lead_to_the_state(self):
        self.put("game.keys", f"5 A\n{FRAME} B\n")
        self.put("fake", "#!/bin/sh\n[ $1 = save ] && cat \"$3\" >>script\nexec ./nds \"$@\"\n")
        self.put("one.test", "cart game.nds\nfrom level.state frames 1 keys none\nkeys game.keys\nframes 2\nkeep peek @main+0x1000\n")
        os.chmod(f"{self.room}/fake", 0o755)
        self.assertEqual(self.run_it("one.test", "--update", "--nds", "./fake")[0], 0)
        self.assertEqual(self.text("script").splitlines()[:1], [f"{FRAME} B"])

    def test_tests_share_a_state(self):
        for name in ("a", "b", "c"):
            self.put(f"{name}.test", self.TEST.replace("press B 2", f"press {name.upper() if name < 'c' else 'X'} 2"))
        self.put("one.test", self.TEST)
        status, out, _ = self.run_it(".", "--update", "--jobs", "4")
        self.assertEqual((status, out.count("KEPT"), [it.split()[0] for it in self.calls()].count("save")), (0, 5, 1))
        self.put("c.test", self.TEST.replace("press A 1", "press L 1"))
        status, out, _ = self.run_it(".", "--remake", "--jobs", "1")
        self.assertEqual(status, 2)
        self.assertIn("ERROR   c: level.state is made by a too, of another cartridge, tick or keys: it wants a name of its own", out)

    def test_a_state_of_which_the_test_does_not_tell_how_it_is_made(self):
        self.put("one.test", self.TEST.replace(" frames 1", "").replace("press A 1\n", ""))
        self.assertEqual(self.last_line("one.test", "--update"), (2, "ERROR   one: there is no state level.state yet, and the test doesn't tell how to make one: `from level.state frames N` does"))
        self.put("level.state", state_at(CART, AFTER_1))
        self.assertEqual(self.last_line("one.test", "--update"), (0, "KEPT    one: its first results"))
        self.assertEqual([it.split()[0] for it in self.calls()], ["resume"])
        self.put("level.state", state_at(CART + b"\0", AFTER_1))
        self.assertEqual(self.last_line("one.test", "--update")[1], "ERROR   one: level.state is a state of another build of game.nds, and the test doesn't tell how to make one: `from level.state frames N` does")
        self.put("level.state", state_at(CART, AFTER_2))
        self.assertEqual(self.last_line("one.test"), (2, f"ERROR   one: one.test: it begins at tick {AFTER_2}, from its state, and runs to tick {AFTER_2}"))
        self.put("level.state", b"M" + bytes(100))
        self.assertEqual(self.last_line("one.test")[1], "ERROR   one: level.state is no saved state: it doesn't begin with the letter S and a head of 74 bytes")
        self.put("level.state", b"S\2" + bytes(100))
        self.assertEqual(self.last_line("one.test")[1], "ERROR   one: level.state is a saved state of version 2, and version 1 alone is known")

    def test_what_can_not_be_made(self):
        self.put("game.nds.save.status", "9")
        self.put("game.nds.save.note", "left out: Swi tick 0 actor 23 value 0x0000000e\n")
        self.assertEqual(self.last_line("one.test", "--update"), (2, f"ERROR   one: level.state can't be made: the run stops before tick {AFTER_1}: left out: Swi tick 0 actor 23 value 0x0000000e"))
        self.put("game.nds.save.status", "12")
        self.put("game.nds.save.note", "out of memory\n")
        self.assertEqual(self.last_line("one.test", "--update"), (2, "ERROR   one: level.state can't be made: out of memory"))
        self.put("one.test", self.TEST.replace("level.state", "game.nds"))
        self.assertEqual(self.last_line("one.test", "--update"), (2, "ERROR   one: game.nds is no saved state, so none is written over it"))

    def test_a_state_that_the_program_refuses_is_explained(self):
        self.run_it("one.test", "--update")
        self.put("level.state", state_at(CART, AFTER_1, {"WRAMCNT": 4}))
        self.put("game.nds.resume.status", "11")
        self.put("game.nds.resume.note", "bad state: offset 5018009\n")
        self.assertEqual(self.last_line("one.test"), (2, "ERROR   one: level.state: bad state: offset 5018009: WRAMCNT: it is 4, and at most 3"))
        self.put("game.nds.resume.note", "bad state: offset 7\n")
        self.assertEqual(self.last_line("one.test"), (2, "ERROR   one: level.state: bad state: offset 7"))

    def test_a_stop_after_the_state(self):
        self.put("one.test", "cart game.nds\nfrom level.state frames 1\nframes 2\nexpect stop Swi 14\n")
        self.put("game.nds.out", stop(AFTER_1 + 5))
        self.assertEqual(self.last_line("one.test", "--update"), (0, "KEPT    one: level.state was made anew; its first results"))
        self.assertEqual(self.last_line("one.test"), (0, "PASS    one"))

    def test_lists_that_were_swapped_before_the_state_count(self):
        self.put("game.nds.out", frame(1) + lists(1) + memory() + end(AFTER_1 + 9))
        self.put("one.test", f"cart game.nds\nfrom level.state frames 1\nticks {AFTER_1 + 9}\nkeep vertices\n")
        self.run_it("one.test", "--update")
        self.assertIn("swap = frame 1 parameter 00000000", self.text("one.expected"))
        self.assertRegex(self.calls()[-1], r" last$")

    def test_wrong_lines(self):
        rows = [
            ("from", "line 2: from takes a state's file and how it is made"),
            ("from level.state frames", "line 2: from takes a state's file"),
            ("from level.state frames 1 keys", "line 2: from takes a state's file"),
            ("from level.state tick 1", "line 2: from takes a state's file"),
            ("from level.state frames 0", "line 2: 0 is no number from 1"),
            ("from level.state frames 1\nfrom level.state frames 1", "line 3: from stands twice"),
            ("from level.state frames 2", f"one.test: it begins at tick {AFTER_2}, from its state, and runs to tick {AFTER_2}"),
            ("from level.state ticks 817920", ""),
            ("from level.state frames 1\nkeep frame 1", f"one.test: frame 1 is whole before tick {AFTER_1}, at which its state was saved; it has frames from 2 on"),
            ("from level.state frames 1 keys a.keys\npress A 1", f"one.test: keys are held in frame 1, before the state's tick {AFTER_1}, to which those of a.keys lead"),
        ]
        self.put("a.keys", "press A 1\n")
        for line, text in rows:
            with self.subTest(line=line):
                self.put("one.test", f"cart game.nds\n{line}\nframes 2\nkeep frame 2\n")
                status, out, _ = self.run_it("one.test")
                self.assertEqual(status, 2)
                self.assertIn(text or "there is no state", out)
        self.put("bad.keys", "5 Q\n")
        self.put("one.test", "cart game.nds\nfrom level.state frames 1 keys bad.keys\nframes 2\nkeep frame 2\n")
        self.assertIn("ERROR   one: bad.keys: bad script: line 1 column 3: there is no key Q", self.run_it("one.test", "--update")[1])


class OtherTools(Room):
    """Tests that begin from a state, for the tools that run a test from boot."""

    TOOL, MODULE = "nds-show", "show_command"

    def test_a_test_is_run_from_boot_where_it_tells_how(self):
        self.put("game.nds", CART)
        self.put("game.nds.out", memory() + end())
        self.put("one.test", "cart game.nds\nfrom level.state frames 1\nframes 2\nkeep frame 2\n")
        self.assertEqual(self.run_it("one.test")[0], 0)
        self.assertEqual(self.calls(), [f"run game.nds none {AFTER_2} none"])
        self.put("one.test", "cart game.nds\nfrom level.state\nframes 2\nkeep frame 2\n")
        self.check([(("one.test",), 2, "one.test begins from level.state and doesn't tell how that is made, so it can't be run from boot")])


if __name__ == "__main__":
    unittest.main()
