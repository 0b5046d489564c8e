"""`nds-frames`, `nds-show` and `nds-diff`, on outputs made by hand: what they tell, and what is none of a run."""
import hashlib
import io
import os
import struct
import unittest

from made import CPSR, R15, Room, elf, end, frame, lists, memory, picture, stop

from nds_tools import names, png
from nds_tools.records import Reader

VERTEX = (-4096, 2, 3, 4096, 0x7FFF, -1, 5)
POLYGON = (0x1F00C0, 0x20, 0x30, 0xBFFF0000, 3, 0, 1, 2, 0)
# Each: a name, the output, and what is said of it.
BAD = [
    ("empty", b"", "is empty"),
    ("letter", b"Z", "byte 0 is 0x5a, which begins no record"),
    ("later letter", frame(1) + b"f", "byte 196617 is 0x66, which begins no record"),
    ("cut frame", frame(1)[:-1], "cut within the record F that begins at byte 0: it ends at byte 196616"),
    ("cut second frame", frame(1) + frame(2)[:5], "cut within the record F that begins at byte 196617: it ends at byte 196622"),
    ("cut lists", frame(1) + lists(1, [VERTEX])[:-1], "cut within the record G"),
    ("cut memory", memory()[:5000], "cut within the record M that begins at byte 0: it ends at byte 5000"),
    ("cut end", memory() + end()[:40], "cut within the record E"),
    ("cut stop", stop()[:14], "cut within the record X"),
    ("no end", memory(), "ends after a record M"),
    ("frames alone", frame(1), "ends after a record F"),
    ("end first", end(), "a record E at byte 0 follows nothing"),
    ("more", memory() + end() + b"X", "follows the record E, after which nothing comes"),
    ("frames back", frame(2) + frame(1) + stop(), "the frame at byte 196617 has tick 817920, and the one before it 1938300"),
    ("no frame's tick", b"F" + bytes(196616), "has tick 0, at which none becomes whole"),
    ("too many", b"G" + struct.pack("<Q3I", 817920, 0, 6145, 0), "more than there can be"),
]


class Outputs(Room):
    def bad(self, *words):
        """Each output that is none of a run is refused in one line."""
        for name, content, text in BAD:
            with self.subTest(name=name):
                ran = self.run_it(self.put("bad.out", content), *words)
                self.assertEqual((ran[0], ran[2].count("\n")), (2, 1), ran[2])
                self.assertIn(text, ran[2])


class Frames(Outputs):
    TOOL, MODULE = "nds-frames", "frames_command"

    def setUp(self):
        super().setUp()
        self.game = frame(1, 0x1F, 0x7C00) + frame(2, pixels=[(255, 0, 0x7FFF), (0, 192, 1)]) + lists(2, [VERTEX], [POLYGON]) + frame(3)
        self.put("game.out", self.game + memory(nine=[(R15, 0x2000123)]) + end())

    def test_it_lists_each_record(self):
        self.assertEqual(self.run_it("game.out"), (0, """F  frame 1  tick 817920
F  frame 2  tick 1938300
G  frame 2  tick 1938300  parameter 0x00000000  vertices 1  polygons 1
F  frame 3  tick 3058680
M  memories and registers: r15 of ARM9 0x02000123, of ARM7 0x02000000
E  tick 100  steps of ARM9 62, of ARM7 27, events 0, turns 89
""", ""))  # fmt: skip
        self.assertEqual(self.run_it("-", given=stop(1, 1, 7, 258)), (0, "X  stopped: DisplayMode 0x00000102 at tick 1 by the display, which is rank 1\n", ""))

    def test_sums_are_a_line_a_frame(self):
        both, upper = (hashlib.sha256(struct.pack("<H", 0x1F) * 49152 + struct.pack("<H", 0x7C00) * count).hexdigest() for count in (49152, 0))
        self.assertEqual(self.run_it("game.out", "--hash", "--frame", "1"), (0, f"1 817920 {both}\n", ""))
        self.assertEqual(self.run_it("game.out", "--hash", "--upper", "--frame", "1")[1], f"1 817920 {upper}\n")
        self.assertEqual([it.split()[0] for it in self.run_it("game.out", "--hash")[1].splitlines()], ["1", "2", "3"])

    def test_the_number_is_the_frames_own_where_the_last_one_alone_is_kept(self):
        self.assertEqual(self.run_it("-", "--hash", given=frame(60) + memory() + end())[1].split()[:2], ["60", str(1120380 * 59 + 817920)])

    def test_sums_of_a_run_that_stopped_or_has_no_frame_are_no_golden_file(self):
        rows = [
            (frame(1) + stop(), 2, 1, "nds-frames: the run stopped: Swi 0x0000000e (GetCRC16) at tick 44 by ARM9; it has 1 of the frames\n"),
            (stop(), 2, 0, "nds-frames: the run stopped: Swi 0x0000000e (GetCRC16) at tick 44 by ARM9; it has 0 of the frames\n"),
            (memory() + end(), 1, 0, "nds-frames: the output has no frame\n"),
        ]
        for content, status, lines, text in rows:
            with self.subTest(text=text):
                ran = self.run_it("-", "--hash", given=content)
                self.assertEqual((ran[0], ran[1].count("\n"), ran[2]), (status, lines, text))

    def test_frames_are_chosen_by_number(self):
        rows = [(("--frame", "2-3"), ["2", "3"]), (("--every", "2"), ["1", "3"]), (("--frame", "2-9", "--every", "2"), ["2"])]
        for words, numbers in rows:
            with self.subTest(words=words):
                self.assertEqual([it.split()[0] for it in self.run_it("game.out", "--hash", *words)[1].splitlines()], numbers)

    def test_pictures_read_back(self):
        self.assertEqual(self.run_it("game.out", "--png", "shots"), (0, "".join(f"shots/frame-000{it}.png\n" for it in (1, 2, 3)), ""))
        wide, high, rows = picture(f"{self.room}/shots/frame-0001.png")
        self.assertEqual((wide, high, rows[0], rows[191], rows[192]), (256, 384, b"\xff\0\0" * 256, b"\xff\0\0" * 256, b"\0\0\xff" * 256))
        _, _, rows = picture(f"{self.room}/shots/frame-0002.png")
        self.assertEqual((rows[0][-6:], rows[192][:6]), (b"\0\0\0\xff\xff\xff", b"\x08\0\0\0\0\0"))
        self.run_it("game.out", "--png", "low", "--lower", "--frame", "2", "--scale", "3")
        wide, high, rows = picture(f"{self.room}/low/frame-0002.png")
        self.assertEqual((wide, high, rows[2][:12], rows[3][:3]), (768, 576, b"\x08\0\0" * 3 + b"\0\0\0", b"\0\0\0"))

    def test_channels_are_widened_to_the_whole_range(self):
        rows = [(0, 0), (1, 8), (4, 33), (16, 132), (31, 255)]
        self.assertEqual([(it, png.widened(it)) for it, _ in rows], rows)

    def test_what_is_no_output_or_no_frame(self):
        self.bad()
        self.check([
            (("game.out", "--frame", "4"), 1, "the output has no frame 4"),
            (("game.out", "--frame", "0"), 2, "--frame 0 is no frame: it wants a number from 1"),
            (("game.out", "--frame", "3-2"), 2, "--frame 3-2"),
            (("game.out", "--every", "0"), 2, "--every takes a number from 1"),
            (("game.out", "--scale", "17"), 2, "--scale"),
            (("game.out", "--upper", "--lower"), 2, "not allowed with"),
            (("absent.out",), 2, "absent.out: No such file"),
            ((), 2, "output"),
        ])  # fmt: skip
        self.check_command("absent.out", status=2, text="absent.out: No such file")

    def test_a_long_output_is_never_held_whole(self):
        class Long(io.RawIOBase):
            """A gigabyte of frames, made as it is read."""

            def __init__(self):
                self.number, self.left = 0, b""

            def read(self, size=-1):
                if not self.left:
                    self.number += 1
                    self.left = b"F" + struct.pack("<Q", 1120380 * (self.number - 1) + 817920) + SCREENS if self.number <= 200 else b""
                part, self.left = self.left[:size], self.left[size:]
                return part

        SCREENS = bytes(196608)
        reader, most = Reader(Long(), "long"), 0
        with self.assertRaisesRegex(Exception, "ends after a record F at byte 39323400"):
            for it in reader:
                most = max(most, it.number)
        self.assertEqual(most, 200)


class Show(Outputs):
    TOOL, MODULE = "nds-show", "show_command"

    def setUp(self):
        super().setUp()
        code = elf([(0x2000000, 0x2000000, bytes(64), 64)], [("main", 0x2000010, 16, 0x12), ("score", 0x2001000, 4, 0x11), ("names", 0x2001010, 12, 0x11)])
        self.elf = self.put("game.elf", code)
        words = [("main", 0x1000, 20), ("main", 0x1010, 0x6C6C6548), ("main", 0x1014, 0x6F), ("dtcm", 0x3FFC, 0x2000010), ("wram7", 0xFFFC, 0)]
        self.words = words
        self.put("game.out", memory(words, nine=[(R15, 0x2000014), (CPSR, 0x1F), (19, 0x2000018)], seven=[(R15, 0x3800000), (CPSR, 0x800000B2)]) + end())

    def test_registers_with_mode_state_interrupts_and_symbols(self):
        status, out, notes = self.run_it("game.out", "--elf9", self.elf)
        self.assertEqual((status, notes), (0, ""))
        for text in ("tick 100, ", "steps of ARM9 62, of ARM7 27", "ARM9  System mode, ARM state, interrupts let through, cpsr 0000001f",
                     "r15 02000014 (main+0x4)  r14 02000018 (main+0x8)", "ARM7  IRQ mode, Thumb state, interrupts masked, cpsr 800000b2", "spsr_irq 00000000"):  # fmt: skip
            self.assertIn(text, out)
        self.assertNotIn("spsr_und", out)
        self.assertIn("spsr_und", self.run_it("game.out", "--all")[1])

    def test_words_by_symbol_address_and_memory(self):
        rows = [
            ("score", "score  02001000 score\n  +000  00000014  (20)\n"),
            ("names", "names  02001010 names\n  +000  6c6c6548 0000006f 00000000\n"),
            ("names+4:1", "names+4:1  02001014 names+0x4\n  +000  0000006f  (111)\n"),
            ("0x2001000:2", "0x2001000:2  02001000 score\n  +000  00000014 00000000\n"),
            ("7:2001000h", "7:2001000h  02001000 score\n  +000  00000014  (20)\n"),
            ("@dtcm+0x3ffc", "@dtcm+0x3ffc  03003ffc  (DTCM is assumed at 0x3000000; --dtcm tells)\n  +000  02000010  (33554448)\n"),
            ("0x3003ffc", "0x3003ffc  03003ffc  (DTCM is assumed at 0x3000000; --dtcm tells)\n  +000  02000010  (33554448)\n"),
            ("0x200001c", "0x200001c  0200001c main+0xc\n  +000  00000000  (0)\n"),
            ("0x2000020", "0x2000020  02000020\n  +000  00000000  (0)\n"),
            ("0x2401000", "0x2401000  02001000 score\n  +000  00000014  (20)\n"),
        ]
        for place, text in rows:
            with self.subTest(place=place):
                self.assertTrue(self.run_it("game.out", place, "--elf9", self.elf)[1].endswith(text))
        self.assertTrue(self.run_it("-", "names", "--text", "--elf9", self.elf, given=memory(self.words) + end())[1].endswith("  Hello\n"))

    def test_what_a_hang_waits_for(self):
        wait, null = [(R15, 0xFFFF0108), (1, 1)], [(R15, 0x108), (1, 0x10001)]
        rows = [
            (wait, "halted in IntrWait or VBlankIntrWait (swi 4, 5): it waits for the flag of V-blank (r1 is 00000001; flags are 00000000); the handler is 02000010 main"),
            ([(R15, 0xFFFF0134)], "halted in Halt (swi 6), until an interrupt that IE enables is asked for"),
            ([(R15, 0xFFFF0004)], "it stays at the vector 04h: an undefined instruction"),
            ([(R15, 0xFFFF00B4)], "in WaitByLoop (swi 3)"),
            ([(R15, 0x40)], "it runs through zeros"),
            ([(R15, 0x40), (CPSR, 0x92)], "or a lost return address; it is in IRQ mode: was the handler's pointer written"),
            ([(R15, 0xFFFF0200)], "it runs through the zeros behind the stub"),
        ]
        for nine, text in rows:
            with self.subTest(text=text):
                self.put("hang.out", memory(self.words, nine=nine) + end())
                self.assertIn(text, self.run_it("hang.out", "--elf9", self.elf)[1])
        self.put("hang.out", memory(seven=[(R15, 0), (CPSR, 0xD2)]) + end())
        self.assertIn("by a pointer that was 0; it is in IRQ mode: was the handler's pointer written", self.run_it("hang.out")[1])
        self.put("hang.out", memory(self.words, seven=null) + end())
        self.assertNotIn("IRQ mode:", self.run_it("game.out")[1])
        self.assertIn("the flag of V-blank, IPCSYNC (r1 is 00010001; flags are 00000000); the handler's pointer is 0", self.run_it("hang.out")[1])

    def test_a_stop_is_told_with_the_run_to_its_tick_or_shown_by_it(self):
        self.put("stop.out", stop(44, 22, 2, 14))
        status, out, notes = self.run_it("stop.out")
        self.assertEqual((status, notes.count("\n")), (2, 1))
        self.assertEqual(out, "stopped: Swi 0x0000000e (GetCRC16) at tick 44 by ARM9 (rank 22)\n  see docs/COMING_FROM.md#the-boot-roms-functions\n  this runs to that tick, before the step: ./nds run GAME.nds none 44 none >stopped.out\n")
        cart = self.put("my game.nds")
        self.put("my game.nds.out", memory(nine=[(R15, 0x2000014)]) + end(44))
        status, out, notes = self.run_it("stop.out", "--cart", cart, "--keys", "a.keys", "--elf9", self.elf)
        self.assertEqual((status, notes, self.calls()), (0, "", [f"run {cart} a.keys 44 none"]))
        self.assertIn("r15 02000014 (main+0x4)", out)
        self.put("my game.nds.status", "3")
        self.put("my game.nds.note", "no file: a.keys\n")
        self.put("my game.nds.out", b"")
        self.assertEqual(self.run_it("stop.out", "--cart", cart)[0], 2)

    def test_what_is_no_output_and_no_place(self):
        self.bad()
        self.check([
            (("game.out", "absent"), 2, "no symbol absent is known, since no ELF file was given"),
            (("game.out", "absent", "--elf9", self.elf), 2, "no symbol absent is known: elf9"),
            (("game.out", "@rom"), 2, "there is no memory rom"),
            (("game.out", "0x6000000"), 2, "no memory is known at 0x06000000 of ARM9, since an output doesn't hold the banks' controls"),
            (("game.out", "0x4000000"), 2, "no memory is known at 0x04000000"),
            (("game.out", "0x2000000:0"), 2, "1 to 4096 words"),
            (("game.out", "@oam+2046:1"), 2, "1 to 4096 words of that memory"),
            (("game.out", "0x20zz"), 2, "0x20zz is no number"),
            (("game.out", "--elf9", self.put("no.elf", b"MZ")), 2, "no.elf is no ELF file"),
        ])  # fmt: skip
        self.check_command("absent.out", status=2, text="absent.out: No such file")


class Diff(Outputs):
    TOOL, MODULE = "nds-diff", "diff_command"

    def both(self, a, b, *words):
        self.put("a.out", a)
        self.put("b.out", b)
        return self.run_it("a.out", "b.out", *words)

    def test_equal_outputs(self):
        whole = frame(1) + lists(1, [VERTEX]) + memory() + end()
        self.assertEqual(self.both(whole, whole), (0, "equal: 1 frames, 1 lists, memory, registers, counts\n", ""))
        self.assertEqual(self.both(stop(), stop()), (0, "equal: both stopped: Swi 0x0000000e (GetCRC16) at tick 44 by ARM9\n", ""))

    def test_a_frame_is_told_by_screen_pixel_and_colours(self):
        tail = memory() + end()
        status, out, _ = self.both(frame(1) + frame(2) + tail, frame(1) + frame(2, pixels=[(10, 20, 0x1F), (11, 20, 1), (0, 192, 0x7C00)]) + tail, "--png", "shots")
        self.assertEqual(status, 1)
        self.assertEqual(out, "frames: 1 of 2 differ\n  frame 2: upper screen, 2 pixels in the box (10, 20) to (11, 20), first (10, 20): 0000 (red 0, green 0, blue 0) and 001f (red 31, green 0, blue 0); "
                              "lower screen, 1 pixel, first (0, 0): 0000 (red 0, green 0, blue 0) and 7c00 (red 0, green 0, blue 31)  "
                              "shots/frame-0002-difference.png\n")  # fmt: skip
        rows = {it: picture(f"{self.room}/shots/frame-0002-{it}.png")[2] for it in ("a", "b", "difference")}
        self.assertEqual([rows[it][20][30:36] for it in rows], [bytes(6), b"\xff\0\0\x08\0\0", b"\xff\0\0" * 2])

    def test_each_part_tells_how_much_and_the_first_three(self):
        words = [("main", 4 * it, it + 1) for it in range(5)] + [("oam", 0, 7)]
        status, out, _ = self.both(memory() + end(), memory(words, nine=[(0, 5), (R15, 0x2000004)], seven=[(36, 1)]) + end(100, 63, 27, 0, 90))
        self.assertEqual((status, out), (1, """main, words: 5 of 1048576 differ
  02000000: 00000000 and 00000001
  02000004: 00000000 and 00000002
  02000008: 00000000 and 00000003
oam, words: 1 of 512 differ
  object 0: y 0 and 7
registers of ARM9: 2 of 37 differ
  r0 00000000 and 00000005
  r15 02000000 and 02000004
registers of ARM7: 1 of 37 differ
  spsr_und 00000000 and 00000001
counts: 2 of 5 differ
  steps9 62 and 63
  turns 89 and 90
"""))  # fmt: skip
        for part, first in (("memory", "main"), ("registers", "registers"), ("counts", "counts")):
            self.assertEqual(self.run_it("a.out", "b.out", "--only", part)[1].split()[0].rstrip(",:"), first)
        self.assertEqual(self.run_it("a.out", "b.out", "--only", "frames")[0], 0)

    def test_code_is_left_out_and_symbols_named(self):
        code = elf([(0x2000000, 0x2000000, bytes(16), 16)], [("label", 0x2001000, 0, 0x10, 4)], sections=[(0x2000000, 16), (0x2001000, 16, ".bss")])
        path = self.put("game.elf", code)
        pair = memory() + end(), memory([("main", 12, 1), ("main", 0x1000, 2)]) + end()
        self.assertIn("main, words: 2 of", self.both(*pair, "--elf9", path)[1])
        self.assertEqual(self.both(*pair, "--elf9", path, "--skip-code")[1], "main, words: 1 of 1048576 differ\n  02001000 label: 00000000 and 00000002\n")
        self.assertEqual(self.both(pair[0], memory([("main", 12, 1)]) + end(), "--elf9", path, "--skip-code")[0], 0)

    def test_variables_come_by_name_and_pointers_into_code_aside(self):
        symbols = [("score", 0x2001000, 4, 0x11), ("grid", 0x2001010, 12, 0x11), ("on_key", 0x2001020, 4, 0x11), ("lives", 0x2001024, 1, 0x11), ("same", 0x2001028, 4, 0x11)]
        nine = self.put("nine.elf", elf([(0x2000000, 0x2000000, bytes(64), 64)], symbols, sections=[(0x2000000, 64)]))
        moved = self.put("moved.elf", elf([(0x2000000, 0x2000000, bytes(64), 64)], [(name, at + 0x100, *more) for name, at, *more in symbols], sections=[(0x2000000, 64)]))
        seven = self.put("seven.elf", elf([(0x3800000, 0x3800000, bytes(64), 64)], [("score", 0x3800100, 4, 0x11)], sections=[(0x3800000, 64)]))
        one = [("main", 0x1000, 1), ("main", 0x1020, 0x2000010), ("main", 0x2000, 0x2000011), ("main", 0x1028, 7)]
        two = [("main", 0x1000, 11), ("main", 0x1014, 5), ("main", 0x1018, 6), ("main", 0x1020, 0x2000014), ("main", 0x1024, 2), ("main", 0x2000, 0x2000015), ("wram7", 0x100, 9), ("main", 0x1028, 7)]
        told = "variables: {} of 6 differ{}\n  score: 00000001 and 0000000b\n  grid+0x4: 00000000 and 00000005, and 1 more of it\n  lives: 00 and 02\n  7:score: 00000000 and 00000009\n"
        words = ("--elf9", nine, "--elf7", seven)
        pair = memory(one) + end(), memory(two) + end()
        self.assertEqual(self.both(*pair, *words), (1, told.format(5, "; 1 of them in pointers into code alone")
                                                    + "main, words outside variables: 1 of 1048576 differ; 1 of them are pointers into code\n", ""))  # fmt: skip
        self.assertEqual(self.both(*pair, *words, "--skip-code")[1], told.format(4, ""))
        self.assertEqual(self.both(*pair, *words, "--only", "variables", "--skip-code")[1], told.format(4, ""))
        shifted = [(it, at + 0x100 if it == "main" and at < 0x1100 else at, value) for it, at, value in two]
        self.assertEqual(self.both(pair[0], memory(shifted) + end(), *words, "--elf9-b", moved, "--skip-code")[1], told.format(4, ""))
        self.assertEqual(self.both(pair[0], pair[0], *words), (0, "equal: variables, memory, registers, counts\n", ""))

    def test_an_output_of_another_program_is_told(self):
        code = struct.pack("<4I", 1, 2, 3, 4)
        old = self.put("old.elf", elf([(0x2000000, 0x2000000, code, 16)], sections=[(0x2000000, 16)]))
        new = self.put("new.elf", elf([(0x2000000, 0x2000000, code[::-1], 16)], sections=[(0x2000000, 16)]))
        words = [[("main", 4 * at, value) for at, value in enumerate(struct.unpack("<4I", it))] for it in (code, code[::-1])]
        pair = memory(words[0]) + end(), memory([*words[1], ("main", 0x3FFE2C, 5)]) + end()
        told = f"nds-diff: {{}} isn't a run of {old}, whose code is another one{{}}\n"
        self.assertEqual(self.both(*pair, "--elf9", old, "--skip-code")[::2], (0, told.format("B", "; --elf9-b names that of B")))
        self.assertEqual(self.both(*pair[::-1], "--elf9", old, "--skip-code")[::2], (0, told.format("A", "")))
        self.assertEqual(self.both(*pair, "--elf9", old, "--elf9-b", new, "--skip-code")[::2], (0, ""))

    def test_frames_and_pictures_are_limited(self):
        tail = memory() + end()
        pair = b"".join(map(frame, range(1, 6))) + tail, b"".join(frame(it, 1) for it in range(1, 6)) + tail
        rows = [((), ["1", "2", "3", "4", "5"]), (("--most", "2"), ["1", "2"]), (("--frame", "3-4"), ["3", "4"]), (("--frame", "2"), ["2"])]
        for at, (words, numbers) in enumerate(rows):
            with self.subTest(words=words):
                self.assertEqual(self.both(*pair, "--png", f"shots{at}", *words)[0], 1)
                self.assertEqual(sorted(os.listdir(f"{self.room}/shots{at}")), [f"frame-000{it}-{which}.png" for it in numbers for which in ("a", "b", "difference")])
        self.assertIn("frames: 2 of 2 differ\n", self.run_it("a.out", "b.out", "--frame", "3-4")[1])
        many = b"".join(frame(it, 0, 0, [(0, 0, it)]) for it in range(1, 24))
        self.both(b"".join(map(frame, range(1, 24))) + tail, many + tail, "--png", "many")
        self.assertEqual(len(os.listdir(f"{self.room}/many")), 60)

    def test_code_is_left_out_where_it_runs_and_where_it_is_copied_from(self):
        path = self.put("game.elf", elf([(0x1000000, 0x2000100, bytes(16), 16)], sections=[(0x1000000, 16)]))
        for memory_name, at in (("itcm", 0), ("itcm", 12), ("main", 0x100), ("main", 0x10C)):
            self.assertEqual(self.both(memory() + end(), memory([(memory_name, at, 1)]) + end(), "--elf9", path, "--skip-code")[0], 0)
        for memory_name, at in (("itcm", 16), ("main", 0xFC), ("main", 0x110)):
            self.assertEqual(self.both(memory() + end(), memory([(memory_name, at, 1)]) + end(), "--elf9", path, "--skip-code")[0], 1)

    def test_lists_and_frames_that_one_lacks(self):
        tail, other = memory() + end(), (*VERTEX[:2], 9, *VERTEX[3:])
        rows = [
            (frame(1) + lists(1, [VERTEX]), frame(1) + lists(1, [other]), "lists: 1 of 1 differ\n  frame 1: vertex 0: z 3 and 9\n"),
            (frame(1) + lists(1, [VERTEX]), frame(1) + lists(1, [VERTEX] * 2), "lists: 1 of 1 differ\n  frame 1: vertex count 1 and 2\n"),
            (frame(1) + lists(1, [], [POLYGON]), frame(1) + lists(1, [], [(*POLYGON[:1], 1, *POLYGON[2:])]), "  frame 1: polygon 0: texture 32 and 1\n"),
            (frame(1) + lists(1), frame(1) + lists(1, parameter=1), "  frame 1: swap parameter 00000000 and 00000001\n"),
            (frame(1) + lists(1), frame(1), "lists: 1 of 1 differ\n  frame 1: in A alone\n"),
            (frame(1) + frame(2), frame(2), "frames: 1 of 2 differ\n  frame 1: in A alone\n"),
            (frame(2), frame(1) + frame(2), "frames: 1 of 2 differ\n  frame 1: in B alone\n"),
            (frame(1), frame(1) + frame(2), "frames: 1 of 2 differ\n  frame 2: in B alone\n"),
        ]
        for a, b, text in rows:
            with self.subTest(text=text):
                status, out, _ = self.both(a + tail, b + tail)
                self.assertEqual(status, 1)
                self.assertIn(text, out)

    def test_a_stop_is_told_by_name(self):
        status, out, _ = self.both(memory() + end(), stop(44, 1, 10, 2))
        self.assertEqual((status, out), (1, "stop: 1 of 1 differ\n  A came to tick 100; B stopped: Mosaic 0x00000002 at tick 44 by the display\n"))

    def test_what_is_no_output(self):
        self.put("good.out", memory() + end())
        self.bad("good.out")
        self.check([
            (("good.out", "absent.out"), 2, "absent.out: No such file"),
            (("good.out", "good.out", "--skip-code"), 2, "--skip-code wants --elf9 or --elf7"),
            (("good.out", "good.out", "--only", "variables"), 2, "--only variables wants --elf9"),
            (("good.out", "good.out", "--elf9-b", "x"), 2, "--elf9-b and --elf7-b want"),
            (("good.out", "good.out", "--frame", "0"), 2, "--frame 0"),
            (("good.out", "good.out", "--most", "0"), 2, "--most takes"),
            (("-", "-"), 2, "one output alone"),
            (("good.out",), 2, "required: b"),
        ])  # fmt: skip
        self.check_command("good.out", "good.out", status=0, text="equal")


class Names(unittest.TestCase):
    def test_actors_and_frames(self):
        rows = [(0, "the key script"), (5, "ARM9's timer 3"), (6, "ARM7's timer 0"), (14, "ARM9's DMA channel 0"), (21, "ARM7's DMA channel 3"), (23, "ARM7")]
        self.assertEqual([(it, names.actor(it)) for it, _ in rows], rows)
        rows = [(817919, 0), (817920, 1), (1938300, 2), (0, 0)]
        self.assertEqual([(it, names.frame_number(it)) for it, _ in rows], rows)
        self.assertEqual(names.ticks_of_frames(3), 3058681)


if __name__ == "__main__":
    unittest.main()
