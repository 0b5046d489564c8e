"""The tools on the example game in C, with the built program: when its score rises, keys by frame, kept pictures, and who is stuck."""
import struct
import unittest

from built import CLANG, Built, has_compiler
from made import TOP, picture
from nds_tools.elf import Elf

COIN = f"{TOP}/examples/c-game/tests/coin.test"
SCORE = Elf(f"{TOP}/examples/c-game/game.elf").find("score").address
HEAD = f"cart {TOP}/examples/c-game/c-game.nds\nelf9 {TOP}/examples/c-game/game.elf\n"


class Games(Built):
    def test_the_tick_at_which_the_score_rises(self):
        said = self.tool("nds-when", COIN, "score >= 1").splitlines()
        self.assertRegex(said[0], r"^score >= 1 holds from tick \d+ on, in frame \d+, \d\.\d{3} s; a test sees it by `frames \d+`$")
        self.assertRegex(said[1], r"^  before: score 0; then: score 1; at tick \d+ a step was taken by ARM9")
        tick, at = int(said[0].split()[6]), SCORE - 0x2000000
        for ticks, score in ((tick - 1, 0), (tick, 1)):
            words = ("peek", "c-game/c-game.nds", "c-game/tests/coin.keys", str(ticks), "main", str(at), "4")
            self.assertEqual(self.run_of(*words).split()[1:], [b"%02x" % score, b"00", b"00", b"00"])
        self.assertIn("score == 9 holds at the end of none of ", self.tool("nds-when", COIN, "score == 9", status=1))

    def test_values_frame_by_frame(self):
        lines = self.tool("nds-watch", COIN, "score", "--frames", "60-90", "--csv").splitlines()
        self.assertEqual((lines[0], len(lines), lines[1], lines[-1]), ("frame,score", 32, "60,0", "90,1"))
        first = next(it for it in lines[1:] if it.endswith(",1"))
        sees = self.tool("nds-when", COIN, "score >= 1").split("`frames ")[1].split("`")[0]
        self.assertEqual(first, f"{sees},1")

    def test_conditions_and_values_at_frames(self):
        self.put("one.test", HEAD + "frames 90\nhold RIGHT 1-87\nat frame 60 90 keep decimal score\nexpect score == 1\nat frame 60 expect player:s32 < coin:s32\n")
        self.tool("nds-test", "one.test", "--update")
        self.assertEqual(self.text("one.expected").splitlines()[1:], ["end = done", "at frame 60 decimal score = 0", "at frame 90 decimal score = 1"])
        self.put("one.test", self.text("one.test").replace("score == 1", "score == 2"))
        self.assertIn("score == 2 was expected, and score 1", self.tool("nds-test", "one.test", status=1))

    def test_a_game_is_shown_at_a_frame(self):
        for frame, score in ((1, 0), (90, 1)):
            said = self.tool("nds-show", COIN, "--frame", str(frame), "score")
            self.assertTrue(said.endswith(f"score  {SCORE:08x} score\n  +000  0000000{score}  ({score})\n"), said)

    def test_keys_by_frame_press_as_a_script_does(self):
        lines = "frames 90\nkeep frame 90\nkeep peek player coin score\n"
        for name, keys in (("ticks", f"keys {TOP}/examples/c-game/tests/coin.keys\n"), ("frames", "hold RIGHT 1-87\n"), ("less", "hold RIGHT 1-86\n")):
            self.put(f"{name}.test", HEAD + lines + keys)
            self.tool("nds-test", f"{name}.test", "--update")
        self.assertEqual(self.text("ticks.expected"), self.text("frames.expected"))
        self.assertNotEqual(self.text("ticks.expected"), self.text("less.expected"))

    @unittest.skipUnless(has_compiler(), f"clang and lld {CLANG} and make aren't here")
    def test_a_picture_shows_what_an_edit_changed(self):
        self.copied("c-game")
        self.put("c-game/tests/shot.test", "cart ../c-game.nds\nelf9 ../game.elf\nframes 3\nkeep picture 1-3\nkeep decimal score\n")
        self.tool("nds-test", "c-game/tests/shot.test", "--update")
        with open(f"{self.room}/c-game/game.c") as it:
            text = it.read()
        self.put("c-game/game.c", text.replace("PALETTE[0] = 0x2108;", "PALETTE[0] = 0x2109;"))
        self.built_again("c-game")
        said = self.tool("nds-test", "c-game/tests/shot.test", status=1)
        self.assertRegex(said, r"frames [1-3]-3 changed, first \d, by [\d,]+ pixels.* nds-test-out/c-game\.tests\.shot\.frame-000\d-difference\.png\n")
        first = said.split("first ")[1][0]
        sizes = [picture(f"{self.room}/nds-test-out/c-game.tests.shot.frame-000{first}-{it}.png")[:2] for it in ("expected", "actual", "difference")]
        self.assertEqual(sizes, [(256, 384)] * 3)

    @unittest.skipUnless(has_compiler(), f"clang and lld {CLANG} and make aren't here")
    def test_a_failing_test_says_who_crashed(self):
        line = "        tell(score);\n"
        rows = [
            ('__asm__ volatile(".word 0xe7f000f0");\n', "an undefined instruction"),
            ("for (;;) {}\n", "in an endless branch to itself"),
            ("*(volatile unsigned short *)0x4000004 = 0;\n", "it took no step in a frame more: no interrupt that IE enables came"),
        ]
        for edit, said in rows:
            with self.subTest(edit=edit):
                self.copied("c-game", ("game.c", line, line + edit))
                told = self.tool("nds-test", "c-game/tests/coin.test", status=1).splitlines()
                self.assertTrue(told[0].startswith("FAIL    c-game/tests/coin: "), told[0])
                self.assertIn(said, told[1])
                self.assertTrue(told[1].startswith("        ARM9 at "), told[1])
                self.removed("c-game")

    def test_a_run_that_stops_in_a_test(self):
        code = self.put("stop.bin", struct.pack("<3I", 0xE1A00000, 0xEF0E0000, 0xEAFFFFFE))
        self.tool("make-cart", "--arm9", f"{code}@0x2000000", "-o", "stop.nds")
        said = self.tool("nds-show", "stop.nds", "--frame", "1")
        self.assertIn(" at tick 5 by ARM9 (rank 22)\n  see docs/COMING_FROM.md#the-boot-roms-functions\n  as it is at that tick, before the step:\ntick 5, ", said)


if __name__ == "__main__":
    unittest.main()
