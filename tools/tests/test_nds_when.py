"""`nds-when`: conditions, and the tick at which one begins to hold, on a fake program whose score rises."""
import unittest

from made import end, memory
from rising import Rising


class NdsWhen(Rising):
    TOOL, MODULE = "nds-when", "when_command"

    def when(self, condition, *words):
        """Runs the tool; returns its status and the first line's tick, or the note."""
        status, out, note = self.run_it("game.nds", condition, "--elf9", "game.elf", *(words or ("--frames", "60")))
        return status, int(out.split(" holds from tick ")[1].split(" ")[0]) if status == 0 else out + note

    def test_the_first_tick(self):
        rows = [
            ("score >= 5", 50000000),
            ("score == 3", 30000000),
            ("score != 0", 10000000),
            ("score>0x4", 50000000),
            ("debt < -2", 30000000),
            ("debt > 65530 and score > 1", 20000000),
            ('message == "go"', 30000000),
            ("score >= @main+0x1000:1 and score == 4", 40000000),
            ("score == 0", 1),
        ]
        for jobs in ("1", "3"):
            for text, tick in rows[:1] if jobs == "1" else rows:
                with self.subTest(text=text, jobs=jobs):
                    self.assertEqual(self.when(text, "--frames", "60", "--jobs", jobs), (0, tick))

    def test_what_it_tells(self):
        status, out, _ = self.run_it("game.nds", "score >= 5", "--elf9", "game.elf", "--frames", "60")
        self.assertEqual((status, out), (0, "score >= 5 holds from tick 50000000 on, in frame 45, 0.746 s; a test sees it by `frames 45`\n"
                         "  before: score 4; then: score 5; at tick 49999999 a step was taken by ARM9\n"
                         "  ARM9 stood at 02000008 (main+0x8)\n  ARM7 stood at 02000000\n"))  # fmt: skip
        self.assertEqual(len(self.runs), len(set(self.runs)), "no tick is run twice from the same state")
        from_boot = [it for it in self.runs if it[0] != "resume"]
        self.assertLess(len(from_boot), 12, "few runs go from boot")

    def test_a_test_tells_the_game(self):
        self.put("one.test", "cart game.nds\nelf9 game.elf\nframes 30\nkeep peek score\npress A 3\n")
        status, out, _ = self.run_it("one.test", "score >= 2")
        self.assertEqual((status, out.splitlines()[0]), (0, "score >= 2 holds from tick 20000000 on, in frame 18, 0.298 s; a test sees it by `frames 19`"))
        self.assertRegex(" ".join(self.runs[0]), r"^run game\.nds .*made\.keys 1 none$")
        self.assertEqual(self.run_it("one.test", "score >= 5")[0], 1)
        self.assertEqual(self.run_it("one.test", "score >= 5", "--ticks", "50000000")[0], 0)

    def test_what_does_not_hold(self):
        status, out = self.when("score == 9")
        self.assertEqual(status, 1)
        self.assertEqual(out, "score == 9 holds at the end of none of 60 frames up to tick 66920341, in frame 60; between these it wasn't looked at\n"
                         "  there: score 6\n")  # fmt: skip
        self.last = 44000000
        self.assertEqual(self.when("score == 4"), (0, 40000000))
        self.assertIn("score == 5 holds at the end of none of 39 frames up to tick 44000000, in frame 40;", self.when("score == 5")[1])
        self.assertIn("there: score 4; the run stops: Swi ", self.when("score == 5")[1])

    def test_a_condition_that_ended_again_is_found_in_the_first_frame_at_whose_end_it_held(self):
        # (a phase is less than a frame long: at the end of frame 3 it is 3 for the first time, from 3,000,000 on, and of 7,000,000 ticks)
        self.assertEqual(self.when("phase == 3", "--ticks", "60000000"), (0, 3000000))
        # (held for 1,000,000 ticks, from 52,000,000 on; a search by halves would begin at 60,000,000 and miss it)
        self.assertEqual(self.when("phase == 3 and score == 5", "--ticks", "60000000"), (0, 52000000))

    def test_wrong_words_are_named(self):
        rows = [
            ("score", "`score` is no comparison: it wants PLACE"),
            ("score = 5", "`score = 5` is no comparison: it wants PLACE ==|!=|<|<=|>|>= NUMBER, PLACE or \"TEXT\", as 'score >= 5'; = is no comparison, and == is"),
            ("score >= 5 or score == 3", "`or score == 3` follows a comparison, after which `and` comes or nothing"),
            ("score >= 5 and", "`and` follows a comparison"),
            ("scores >= 5", "no symbol scores is known: elf9 game.elf has none; is score meant?; elf7 was not given"),
            ("score >= 5x", "5x is no number"),
            ("grid == 5", "grid is 12 bytes, and a comparison wants one number: give grid:1, or its place as grid+4:1, grid+2:s16"),
            ("grid+4 == 5", "grid+4 is 8 bytes, and a comparison wants one number: give grid+4:1, or its place as grid+4+4:1"),
            ("grid:2 == 5", "give grid:1, or its place as grid+4:1"),
            ('message < "go"', "texts are compared by == and !="),
        ]
        for text, said in rows:
            with self.subTest(text=text):
                status, out = self.when(text)
                self.assertEqual(status, 2)
                self.assertIn(said, out)
        self.check([
            (("game.nds",), 2, "condition"),
            (("game.nds", "@main == 0", "--frames", "0"), 2, "argument --frames: 0 is no whole number from 1"),
            (("game.nds", "@main == 0", "--frames", "3", "--ticks", "3"), 2, "--frames and --ticks don't go together"),
            (("game.nds", "@main == 0", "--frames", "99999"), 2, "and a run goes to 100000000000"),
        ])  # fmt: skip
        self.put("game.nds.out", memory() + end(9))
        self.check_command("game.nds", "@main == 0", "--ticks", "9", "--nds", self.nds, status=0, text="@main == 0 holds from tick 1 on, in frame 1, 0.000 s; a test sees it by `frames 1`")


if __name__ == "__main__":
    unittest.main()
