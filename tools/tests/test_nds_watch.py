"""`nds-watch`: values frame by frame, on a fake program whose score rises."""
import unittest

from rising import SYMBOLS, Rising

from made import elf


class NdsWatch(Rising):
    TOOL, MODULE = "nds-watch", "watch_command"

    def watch(self, *words, status=0):
        ran = self.run_it("game.nds", *words, "--elf9", "game.elf")
        self.assertEqual((ran[0], ran[2]), (status, ""))
        return ran[1].splitlines()

    def test_a_line_a_frame(self):
        # (frame N is whole at tick 817,921 + 1,120,380 (N - 1): frame 9 at 9,780,961, and frame 10 at 10,901,341)
        self.assertEqual(self.watch("score", "debt:s16", "message", "--frames", "8-11"), [
            "frame  score  debt:s16  message",
            "    8      0         0      0 0",
            "    9      0         0      0 0",
            "   10      1        -1      0 0",
            "   11      1        -1      0 0",
        ])  # fmt: skip

    def test_forms(self):
        rows = [
            (("score", "--csv", "--frames", "10-19", "--every", "9"), ["frame,score", "10,1", "19,2"]),
            (("grid", "--csv", "--frames", "1"), ["frame,grid", "1,0 0 0"]),
            (("debt", "--csv", "--frames", "10-10"), ["frame,debt", "10,65535"]),
            (("debt", "--csv", "--frames", "10-10", "--signed"), ["frame,debt", "10,-1"]),
            (("score", "--csv", "--changes", "--frames", "28"), ["frame,score", "1,0", "10,1", "19,2", "28,3"]),
            (("score:2u8", "--csv", "--frames", "10-10"), ["frame,score:2u8", "10,1 0"]),
        ]
        for words, lines in rows:
            with self.subTest(words=words):
                self.assertEqual(self.watch(*words), lines)

    def test_few_runs_go_from_boot(self):
        self.watch("score", "--frames", "60")
        from_boot = [it for it in self.runs if it[0] != "resume"]
        self.assertEqual((len(self.runs), len(from_boot)), (60, 8), "eight groups, each a state that is a look too")
        self.assertEqual(len(set(self.runs)), 60)

    def test_a_stop_ends_it(self):
        self.last = 3000000
        lines = self.watch("score", "--frames", "9", status=1)
        self.assertEqual(lines[:3], ["frame  score", "    1      0", "    2      0"])
        self.assertTrue(lines[3].startswith("the run stops: Swi 0x0000000e (GetCRC16) at tick 3000000 by ARM9"), lines)
        self.assertEqual(len(lines), 4)

    def test_a_test_tells_the_game(self):
        self.put("one.test", "cart game.nds\nelf9 game.elf\nframes 2\nkeep peek score\nkeep decimal score grid:1\n")
        ran = self.run_it("one.test", "--csv")
        self.assertEqual((ran[0], ran[1]), (0, "frame,score,grid:1\n1,0,0\n2,0,0\n"))
        self.put("two.test", "cart game.nds\nframes 2\nkeep frame 1\n")
        self.check([(("two.test",), 2, "two.test keeps no place, so name one")])

    def test_wrong_words_are_named(self):
        self.put("other.elf", elf([(0x2000000, 0x2000000, b"\1\2\3\4" + bytes(60), 64)], SYMBOLS, sections=[(0x2000000, 64, "code")]))
        self.check([
            (("game.nds",), 2, "name a place"),
            (("game.nds", "@main", "--frames", "0"), 2, "--frames 0: 0 is no number from 1"),
            (("game.nds", "@main", "--frames", "9-3"), 2, "--frames 9-3: 9-3 is no frame"),
            (("game.nds", "@main", "--frames", "99999999"), 2, "a run goes to frame"),
            (("game.nds", "scores", "--elf9", "game.elf"), 2, "no symbol scores is known: elf9 game.elf has none; is score meant?; elf7 was not given"),
            (("game.nds", "7:score", "--elf9", "game.elf"), 2, "no symbol score is known, since no ELF file was given for that processor: elf7"),
            (("game.nds", "score", "--elf9", "other.elf"), 2,
             "elf9 other.elf isn't of the build in game.nds, so its symbols are others: at 02000000 (main) it has 04030201, and the cartridge eafffffe"),
            (("game.nds", "@main:9x"), 2, "9x is no number, as 2, or form, as u8 or 3s16"),
        ])  # fmt: skip
        self.check_command("game.nds", "@main", "--frames", "1", "--nds", "nowhere", status=2, text="--nds names no program: nowhere")


if __name__ == "__main__":
    unittest.main()
