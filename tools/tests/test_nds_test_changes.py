"""`nds-test`: what it tells of a change, pictures that are kept, keys by frame, which tests run, and who is stuck."""
import os
import struct
import unittest
import xml.etree.ElementTree as xml
import zlib

from made import CPSR, R15, Room, elf, end, frame, lists, memory, picture, stop

SYMBOLS = [("score", 0x2001000, 4, 0x11), ("scene", 0x2001004, 4, 0x11), ("grid", 0x2001010, 12, 0x11), ("main", 0x2000000, 64, 0x12)]
HEAD = "cart game.nds\nelf9 game.elf\n"
FRAME = 1120380
# Registers' places in the record M, and where main memory has the header's word of ARM7's entry.
R1, R14_UND, R14_IRQ, SPSR_IRQ, ENTRY_OF_SEVEN = 1, 29, 27, 35, 0x3FFE34
ITSELF = 0xEAFFFFFE


class Games(Room):
    TOOL, MODULE = "nds-test", "games_command"

    def setUp(self):
        super().setUp()
        self.put("game.nds")
        self.put("game.elf", elf([(0x2000000, 0x2000000, bytes(64), 64)], SYMBOLS))

    def game(self, frames=(), score=20, scene=1, grid=(), more=b"", words=(), **registers):
        """Sets what the fake program answers; frames as (number, colour) or with pixels as (x, y, colour)."""
        given = [("main", 0x1000, score), ("main", 0x1004, scene), *(("main", 0x1010 + 4 * at, it) for at, it in enumerate(grid)), *words]
        pictures = b"".join(frame(number, *colour) for number, *colour in frames)
        self.put("game.nds.out", pictures + more + memory(given, **registers) + end(3058681))

    def keep(self, lines, name="one", **how):
        """Writes a test and keeps its results."""
        self.put(f"{name}.test", HEAD + lines)
        self.game(**how)
        self.assertEqual(self.run_it(f"{name}.test", "--update")[:2], (0, f"KEPT    {name}: its first results\n1 tests: 1 KEPT\n"))

    def told(self, *words, status=1, name="one"):
        """Runs a test, and returns what it prints but for the last line."""
        ran = self.run_it(f"{name}.test", *words)
        self.assertEqual((ran[0], ran[2]), (status, ""), ran[1])
        return ran[1].splitlines()[:-1]


class Changes(Games):
    def test_values_come_before_frames_and_frames_are_ranges(self):
        self.keep("frames 9\nkeep frame 1-9\nkeep peek score scene\n", frames=[(it, 0) for it in range(1, 10)])
        self.game([(it, 31 if it > 3 else 0) for it in range(1, 10)], 31)
        self.assertEqual(self.told(), ["FAIL    one: score was 00000014, is 0000001f; frames 4-9 changed, first 4: nds-test-out/one.frame-0004-actual.png"])
        written = sorted(os.listdir(f"{self.room}/nds-test-out"))
        self.assertEqual(written, ["last-failed", *(f"one.frame-000{it}-actual.png" for it in (4, 5, 6))])

    def test_frames_that_are_apart(self):
        self.keep("frames 20\nkeep frame 1-20\n", frames=[(it, 0) for it in range(1, 21)])
        rows = [((5,), "frame 5 changed: "), ((1, 2, 3, 9, 20), "frames 1-3, 9, 20 changed, first 1: "), ((1, 3, 5, 7, 9, 10), "6 frames from 1 to 10 changed, first 1: ")]
        for changed, text in rows:
            self.game([(it, 31 * (it in changed)) for it in range(1, 21)])
            self.assertEqual(self.told()[0].partition("nds-test-out")[0], f"FAIL    one: {text}")

    def test_more_changes_are_counted_or_all_told(self):
        places = [f"@main+{0x1100 + 4 * it}" for it in range(6)]
        self.keep(f"frames 3\nkeep peek {' '.join(places)}\nkeep frame 1-3\n", frames=[(1, 0), (2, 0), (3, 0)])
        self.game([(1, 0), (2, 1), (3, 1)], words=[("main", 0x1100 + 4 * it, it + 1) for it in range(6)])
        texts = [f"{place} was 00000000, is {at + 1:08x}" for at, place in enumerate(places)]
        pictures = "frames 2-3 changed, first 2: nds-test-out/one.frame-0002-actual.png"
        self.assertEqual(self.told("--junit", "a.xml"), [f"FAIL    one: {'; '.join(texts[:4])}; and 3 more, which --all tells"])
        self.assertEqual(self.told("--all"), ["FAIL    one:", *(f"        {it}" for it in [*texts, pictures])])
        failure = xml.parse(f"{self.room}/a.xml").getroot()[0][0]
        self.assertEqual(failure.text.splitlines(), [*texts, pictures])
        self.assertEqual(failure.get("message"), f"FAIL: {'; '.join(texts[:4])}; and 3 more, which --all tells")

    def test_vertices_are_one_change(self):
        row = (1, 2, 3, 4096, 0, 0, 0)
        self.keep("frames 3\nkeep vertices\nkeep peek score\n", more=lists(3, [row] * 5))
        self.game(score=21, more=lists(3, [(9, *row[1:])] * 7))
        self.assertEqual(self.told()[0], "FAIL    one: score was 00000014, is 00000015; swap was frame 3 parameter 00000000 vertices 5 polygons 0, is frame 3 parameter 00000000"
                         " vertices 7 polygons 0; vertex 0 was x 1 y 2 z 3 w 4096 colour 0000 s 0 t 0, is x 9 y 2 z 3 w 4096 colour 0000 s 0 t 0, and 6 vertices more")  # fmt: skip

    def test_decimals_and_several_places_a_line(self):
        self.keep("frames 3\nkeep decimal score grid:2 @main+0x1000:1\n", grid=(5, 0xFFFFFFFF))
        self.assertEqual(self.text("one.expected").splitlines()[2:], ["decimal score = 20", "decimal grid:2 = 5 -1", "decimal @main+0x1000:1 = 20"])
        self.game(score=31, grid=(5, 0xFFFFFFFE))
        self.assertEqual(self.told()[0], "FAIL    one: score was 20, is 31; grid:2 number 2 was -1, is -2; @main+0x1000:1 was 20, is 31")

    def test_a_line_that_was_added_is_new_and_not_a_failure(self):
        self.keep("frames 3\nkeep peek score\n")
        self.put("one.test", HEAD + "frames 3\nkeep peek score scene\n")
        self.assertEqual(self.told(status=2), ["NEW     one: nothing is kept of peek scene; --update keeps what this run gave"])
        self.game(score=21)
        self.assertEqual(self.told(), ["FAIL    one: score was 00000014, is 00000015; nothing is kept of peek scene"])

    def test_a_symbol_that_is_not_there_is_told_by_line_and_with_names_that_are(self):
        rows = [
            ("frames 3\nkeep peek score\nkeep peek scores\n", "one.test: line 5: no symbol scores is known: elf9 game.elf has none; is score meant?"),
            ("frames 3\nkeep peek x_y_z\n", "one.test: line 4: no symbol x_y_z is known: elf9 game.elf has none"),
            ("frames 3\nkeep peak score\n", "one.test: line 4: keep peak is nothing that can be kept (is peek meant?); there are frame,"),
            ("frame 3\nkeep peek score\n", "one.test: line 3: no line begins with frame (is frames meant?); there are cart,"),
            ("frames 3\nkeep output all\n", "one.test: line 4: keep output takes no further word, and all is one"),
            ("frames 3\nkeep text\n", "one.test: line 4: keep text takes one or more places, as keep text score"),
            ("frames 3\nkeep frame upper\n", "one.test: line 4: it wants frames: a number from 1, or a first and a last as 10-80"),
            ("frames 3\nkeep frame 5-3\n", "one.test: line 4: 5-3 is no frame"),
            ("frames 3\nkeep frame 1-99999999\n", "one.test: line 4: 1-99999999: no run goes past frame 89255"),
            ("frames 3\nkeep output\nexpect stop Mosiac 1\n", "one.test: line 5: there is no stop Mosiac (is Mosaic meant?)"),
        ]
        self.game()
        for text, said in rows:
            with self.subTest(text=text):
                self.put("one.test", HEAD + text)
                self.assertTrue(self.told(status=2)[0].startswith(f"ERROR   one: {said}"), self.run_it("one.test")[1])


class Pictures(Games):
    def test_one_screen_alone(self):
        self.keep("frames 3\nkeep frame 2-3 upper\n", frames=[(1, 0), (2, 0), (3, 0)])
        self.game([(1, 0), (2, 0, 31), (3, 0, 31)])
        self.assertEqual(self.told(status=0), ["PASS    one"])
        self.game([(1, 0), (2, 31), (3, 31)])
        self.assertEqual(self.told(), ["FAIL    one: frames 2-3 (upper screen) changed, first 2: nds-test-out/one.frame-0002-upper-actual.png"])
        self.assertEqual(picture(f"{self.room}/nds-test-out/one.frame-0002-upper-actual.png")[:2], (256, 192))

    def test_a_kept_picture_is_compared_pixel_by_pixel(self):
        self.keep("frames 3\nkeep picture 2\nkeep frame 1-3\n", frames=[(1, 0), (2, 5, 7), (3, 0)])
        self.assertEqual(picture(f"{self.room}/one.frame-0002.png")[:2], (256, 384))
        self.game([(1, 0), (2, 5, 7, [(10, 200, 31), (11, 200, 31)]), (3, 9)])
        self.assertEqual(self.told(), ["FAIL    one: frames 2-3 changed, first 2, by 2 pixels of the lower screen in the box (10, 8) to (11, 8): nds-test-out/one.frame-0002-difference.png"])
        found = [picture(f"{self.room}/nds-test-out/one.frame-0002-{it}.png")[2][200][30:33] for it in ("expected", "actual", "difference")]
        self.assertEqual(found, [bytes((57, 0, 0)), bytes((255, 0, 0)), bytes((255, 0, 0))])
        self.assertEqual(picture(f"{self.room}/nds-test-out/one.frame-0002-difference.png")[2][0][:3], bytes((41 // 4, 0, 0)))

    def test_the_first_frame_that_a_picture_is_kept_of_is_told_too(self):
        self.keep("frames 3\nkeep picture 3\nkeep frame 1-2\n", frames=[(1, 0), (2, 5), (3, 0)])
        self.game([(1, 1), (2, 6), (3, 0, 0, [(7, 9, 31), (8, 11, 31)])])
        self.assertEqual(self.told(), ["FAIL    one: frames 1-3 changed, first 1: nds-test-out/one.frame-0001-actual.png; frame 3, by 2 pixels of the upper screen in "
                                       "the box (7, 9) to (8, 11): nds-test-out/one.frame-0003-difference.png"])  # fmt: skip

    def test_a_picture_that_is_not_kept_yet_is_new(self):
        self.keep("frames 3\nkeep frame 3\n", frames=[(3, 5)])
        self.put("one.test", HEAD + "frames 3\nkeep picture 3\n")
        self.assertEqual(self.told(status=2), ["NEW     one: no picture is kept of frame 3; --update keeps what this run gave"])
        self.assertEqual(self.told("--update", status=0), ["KEPT    one: no picture is kept of frame 3"])
        self.assertEqual(self.told(status=0), ["PASS    one"])
        before = os.stat(f"{self.room}/one.frame-0003.png").st_mtime_ns
        self.told("--update", status=0)
        self.assertEqual(os.stat(f"{self.room}/one.frame-0003.png").st_mtime_ns, before)

    def test_a_kept_picture_that_cannot_be_compared_is_told(self):
        self.keep("frames 3\nkeep picture 3\n", frames=[(3, 5)])
        with open(f"{self.room}/one.frame-0003.png", "rb") as it:
            whole = it.read()
        self.game([(3, 6)])
        path = "nds-test-out/one.frame-0003-actual.png"
        rows = [
            (b"text", f"{path} (one.frame-0003.png is no PNG)"),
            (whole[:-30], f"{path} (one.frame-0003.png is a damaged PNG)"),
            (whole[:40] + bytes(40) + whole[80:], f"{path} (one.frame-0003.png is a damaged PNG)"),
            (coloured((8, 0, 0)), f"{path} (one.frame-0003.png isn't the picture of the kept sum)"),
        ]
        for content, said in rows:
            self.put("one.frame-0003.png", content)
            self.assertEqual(self.told(), [f"FAIL    one: frame 3 changed: {said}"])

    def test_pictures_that_other_programs_wrote(self):
        from nds_tools import golden

        rows = [(0, True), (1, False), (2, True), (3, False), (4, True), (4, False)]
        for kind, opacity in rows:
            self.put("a.png", coloured((255, 123, 8), kind, opacity))
            self.assertEqual(golden.read(f"{self.room}/a.png"), struct.pack("<H", 31 | 15 << 5 | 1 << 10) * 256 * 192, (kind, opacity))


def coloured(colour, kind=0, has_opacity=False):
    """Returns a PNG of one screen of a colour, whose rows have a filter."""
    pixel = bytes(colour) + b"\xff" * has_opacity
    step, row = len(pixel), pixel * 256
    rows = bytearray()
    for y in range(192):
        above = row if y else bytes(len(row))
        rows.append(kind)
        for at, value in enumerate(row):
            left = row[at - step] if at >= step else 0
            up, corner = above[at], above[at - step] if at >= step else 0
            guess = left + up - corner
            paeth = min((left, up, corner), key=lambda it: abs(guess - it))
            rows.append((value - (0, left, up, (left + up) // 2, paeth)[kind]) & 255)
    whole = b"\x89PNG\r\n\x1a\n"
    head = struct.pack(">2I5B", 256, 192, 8, 6 if has_opacity else 2, 0, 0, 0)
    for name, content in ((b"IHDR", head), (b"tEXt", b"made"), (b"IDAT", zlib.compress(bytes(rows))), (b"IEND", b"")):
        whole += struct.pack(">I", len(content)) + name + content + struct.pack(">I", zlib.crc32(name + content))
    return whole


class Keys(Games):
    def test_keys_by_frame_become_the_script_of_the_program(self):
        self.put("nds", '#!/bin/sh\ncat "$3" >"$(dirname "$0")/script"\ncat "$2.out"\n')
        self.put("one.test", HEAD + "frames 3\nkeep peek score\npress x+A 3 5-6 # twice\nhold LEFT 2-4\n")
        self.game()
        self.assertEqual(self.told("--update", status=0), ["KEPT    one: its first results"])
        lines = [(1, "LEFT"), (2, "A+LEFT+X"), (3, "LEFT"), (4, "A+X"), (6, "-")]
        self.assertEqual(self.text("script"), "".join(f"{FRAME * frame} {keys}\n" for frame, keys in lines))
        self.put("some.keys", "# by frame\nhold LEFT 2-4\n\n  press A+X 3 5-6\n")
        self.put("one.test", HEAD + "frames 3\nkeep peek score\nkeys some.keys\n")
        self.told(status=0)
        self.assertEqual(self.text("script"), "".join(f"{FRAME * frame} {keys}\n" for frame, keys in lines))

    def test_wrong_keys_by_frame(self):
        rows = [
            ("press Q 3\n", "one.test: line 5: there is no key Q; there are A B SELECT"),
            ("press A\n", "one.test: line 5: it wants keys and frames, as `press A+B 60-65`"),
            ("hold A+ 3\n", "one.test: line 5: there is no key without a name"),
            ("hold A 0\n", "one.test: line 5: 0 is no frame"),
            ("hold A 99999\n", "one.test: line 5: frame 99999 is too late: a script goes to frame 89255"),
            ("keys a.keys\npress A 3\n", "one.test: keys are told by `keys ./a.keys` or by `press` and `hold`, and not by both"),
        ]
        self.game()
        for text, said in rows:
            with self.subTest(text=text):
                self.put("one.test", HEAD + "frames 3\nkeep peek score\n" + text)
                self.assertTrue(self.told(status=2)[0].startswith(f"ERROR   one: {said}".replace("./", "")), self.run_it("one.test")[1])

    def test_a_script_that_is_bad_is_told_with_its_file_and_why(self):
        self.put("game.nds.status", "8")
        self.put("one.test", HEAD + "frames 3\nkeep peek score\nkeys some.keys\n")
        rows = [("0 A\n5 RIGHT+UP+L+R\n", 2, 14, "R comes before L: the order is A B SELECT"), ("0 A\n7 a\n", 2, 3, "a is written A"), ("0 A\n7 A\n", 9, 9, "")]
        for text, line, column, why in rows:
            self.put("some.keys", text)
            self.put("game.nds.note", f"bad script: line {line} column {column}\n")
            said = f"ERROR   one: some.keys: bad script: line {line} column {column}{': ' if why else ''}{why}"
            self.assertTrue(self.told(status=2)[0].startswith(said), self.run_it("one.test")[1])


class Which(Games):
    def setUp(self):
        super().setUp()
        for name in ("a/one", "a/two", "b/three"):
            self.put(f"{name}.test", "cart ../game.nds\nframes 3\nkeep peek @main+0x1000\n")
        self.game()
        self.run_it("a", "b", "--update")

    def test_the_first_failure_ends_it(self):
        self.game(score=21)
        ran = self.run_it("a", "b", "-x", "--jobs", "1")
        self.assertEqual(ran[:2], (1, "FAIL    a/one: @main+0x1000 was 00000014, is 00000015\n1 tests: 1 FAIL; 2 not run\n"))

    def test_those_that_failed_last(self):
        self.assertEqual(self.run_it("a", "b", "--last-failed")[1].splitlines()[-1], "3 tests: 3 PASS")
        self.assertFalse(os.path.exists(f"{self.room}/nds-test-out"))
        self.put("b/three.expected", "end = done\npeek @main+0x1000 = 00000015\n")
        self.assertEqual(self.run_it("a", "b")[0], 1)
        self.assertEqual(self.run_it("a", "b", "--last-failed")[:2], (1, "FAIL    b/three: @main+0x1000 was 00000015, is 00000014\n1 tests: 1 FAIL\n"))
        self.run_it("b", "--update")
        self.assertEqual(self.run_it("a", "b", "--last-failed", "--list")[:2], (0, "a/one\na/two\nb/three\n"))

    def test_names_and_times(self):
        self.calls()
        self.assertEqual(self.run_it("a", "b", "--list", "--filter", "o"), (0, "a/one\na/two\n", ""))
        self.assertEqual(self.calls(), [])
        said = self.run_it("a", "b", "--durations", "2")[1].splitlines()
        self.assertEqual(len(said), 6)
        for it in said[3:5]:
            self.assertRegex(it, r"^ +\d+\.\d{3} s  [ab]/(one|two|three)$")

    def test_kept_files_that_no_test_asks_for(self):
        self.put("a/gone.expected", "end = done\n")
        self.put("a/one.frame-0003.png")
        self.put("a/title.png")
        said = self.run_it("a", "b")
        self.assertEqual((said[0], said[1].splitlines()[3:]), (0, [
            "STALE   a/gone.expected: there is no test a/gone.test", "STALE   a/one.frame-0003.png: a/one.test keeps no such picture", "3 tests: 3 PASS"]))  # fmt: skip
        self.assertNotIn("STALE", self.run_it("a", "b", "--filter", "o")[1])

    def test_wrong_words_are_named(self):
        self.check([
            (("a", "--jobs", "two"), 2, "nds-test: argument --jobs: two is no whole number from 1; --help"),
            (("a", "--timeout", "0"), 2, "argument --timeout: 0 is no number from 0.01"),
            (("a", "--durations", "-1"), 2, "--durations"),
            (("a", "--fly"), 2, "unrecognized arguments: --fly; --help"),
            (("a", "--jbos", "3"), 2, "unrecognized arguments: --jbos 3 (is --jobs meant?); --help"),
            (("a", "--update", "tow"), 2, "there is no test tow (is two meant?)"),
        ])  # fmt: skip


class Stuck(Games):
    def test_what_a_failing_test_says_of_the_processors(self):
        interrupt = {CPSR: 0x92, R15: 0xFFFF0018, SPSR_IRQ: 0x1F}
        thumb = [("main", 0x20, 0xE7FEE7FE)]
        undefined = {R15: 0xFFFF0004, CPSR: 0x9B, R14_UND: 0x2000014}
        endless = "in an endless branch to itself: the program ended there, or gave up"
        rows = [
            ({"nine": {R15: 0x2000010}}, ""),
            ({"nine": undefined}, "ARM9 at ffff0004 (boot ROM 004h): it stays at the vector 04h: an undefined instruction"),
            ({"nine": {R15: 0x2000010}, "words": [("main", 0x10, ITSELF)]}, f"ARM9 at 02000010 (main+0x10): {endless}"),
            ({"nine": {R15: 0x2000020, CPSR: 0x3F}, "words": thumb}, f"ARM9 at 02000020 (main+0x20): {endless}"),
            ({"nine": {**interrupt, R14_IRQ: 0x2000014}, "words": [("main", 0x10, ITSELF)]}, f"ARM9 at 02000010 (main+0x10): {endless}"),
            ({"nine": {**interrupt, R14_IRQ: 0xFFFF0008}}, "ARM9 at ffff0004 (boot ROM 004h): it stays at the vector 04h"),
            ({"nine": {**interrupt, R14_IRQ: 0x2000014}}, ""),
            ({"nine": {R15: 0x100}}, "ARM9 at 00000100: it runs through zeros"),
            ({"nine": {R15: 0xFFFF0108, R1: 1}}, "ARM9 at ffff0108 (boot ROM 108h): halted in IntrWait or VBlankIntrWait (swi 4, 5): it waits for the flag of V-blank"),
            ({"seven": {R15: 0x3800010}, "words": [("wram7", 0x10, ITSELF)]}, f"ARM7 at 03800010: {endless}"),
            ({"seven": {R15: 0x3800010}, "words": [("wram7", 0x10, ITSELF), ("main", ENTRY_OF_SEVEN, 0x3800010)]}, ""),
        ]
        self.keep("frames 3\nkeep peek score\n")
        for how, said in rows:
            with self.subTest(said=said):
                self.game(score=21, **how)
                lines = self.told()
                self.assertEqual(lines[0], "FAIL    one: score was 00000014, is 00000015")
                self.assertEqual(len(lines), 1 + bool(said), lines)
                self.assertTrue("".join(lines[1:]).startswith(said and f"        {said}"), lines)

    def test_a_processor_that_takes_no_step_more_waits_for_an_interrupt_that_is_not_enabled(self):
        self.put("nds", f'#!/bin/sh\n[ "$4" = {3058681 + FRAME} ] && exec cat "$2.later"\ncat "$2.out"\n')
        self.keep("frames 3\nkeep peek score\n")
        self.game(score=21, nine={R15: 0xFFFF0108, R1: 1}, words=[("dtcm", 0x3FFC, 0x2000000)])
        rows = [((62, 28, 0, 89), "ARM9 at ffff0108 (boot ROM 108h): halted in IntrWait or VBlankIntrWait (swi 4, 5): it waits for the flag of V-blank (r1 is 00000001; flags are 00000000);"
                                  " the handler is 02000000 main; it took no step in a frame more: no interrupt that IE enables came"), ((63, 28, 0, 89), "")]  # fmt: skip
        for counts, said in rows:
            self.put("game.nds.later", memory() + end(3058681 + FRAME, *counts))
            self.assertEqual(self.told()[1:], [f"        {said}"] if said else [])
        self.put("game.nds.later", stop())
        self.assertEqual(len(self.told()), 1)


if __name__ == "__main__":
    unittest.main()
