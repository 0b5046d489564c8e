"""`nds-show GAME --frame N`: a run and what it shows, as one command."""
import unittest

from made import R15, Room, elf, end, memory, stop

FRAME = 1120380
SYMBOLS = [("score", 0x2001000, 4, 0x11), ("main", 0x2000000, 64, 0x12)]


class ShowGame(Room):
    TOOL, MODULE = "nds-show", "show_command"

    def setUp(self):
        super().setUp()
        self.put("game.nds")
        self.put("game.elf", elf([(0x2000000, 0x2000000, bytes(64), 64)], SYMBOLS))
        self.put("game.nds.out", memory([("main", 0x1000, 20)], {R15: 0x2000010}) + end(1938301))

    def test_a_game_is_run_and_shown(self):
        status, out, note = self.run_it("game.nds", "--frame", "2", "--elf9", "game.elf", "score")
        self.assertEqual((status, note), (0, ""))
        self.assertTrue(out.startswith("tick 1938301, 0.029 s; steps of ARM9 62, of ARM7 27\nARM9  System mode"), out)
        self.assertTrue(out.endswith("score  02001000 score\n  +000  00000014  (20)\n"), out)
        self.assertEqual(self.calls(), ["run game.nds none 1938301 none"])
        self.put("a.keys", "press A 2\n")
        self.run_it("game.nds", "--ticks", "99", "--keys", "a.keys")
        self.assertRegex(self.calls()[0], r"^run game\.nds /.*/made\.keys 99 none$")

    def test_a_test_is_run_and_shown(self):
        self.put("one.test", "cart game.nds\nelf9 game.elf\nframes 3\nkeep peek score\npress A 2\n")
        self.assertTrue(self.run_it("one.test", "score")[1].endswith("score  02001000 score\n  +000  00000014  (20)\n"))
        self.run_it("one.test", "--frame", "1")
        self.assertEqual([it.split(" ")[3] for it in self.calls()], [str(2 * FRAME + 817921), "817921"])

    def test_a_run_that_stops_is_shown_as_it_was_before(self):
        self.put("game.nds.status", "9")
        self.put("game.nds.out", stop(44, 22, 2, 14))
        self.put("game.nds.before", memory(nine={R15: 0x2000014}) + end(44))
        status, out, _ = self.run_it("game.nds", "--frame", "2", "--elf9", "game.elf")
        self.assertEqual(status, 0)
        self.assertIn(" at tick 44 by ARM9 (rank 22)\n  see docs/COMING_FROM.md#the-boot-roms-functions\n  as it is at that tick, before the step:\ntick 44, ", out)
        self.assertIn("r15 02000014 (main+0x14)", out)
        self.put("game.nds.out", stop(0, 22, 2, 14))
        self.check([(("game.nds", "--frame", "2"), 2, "it stopped at its first step, and r15 is the entry")])

    def test_what_cannot_be_shown(self):
        self.put("one.test", "cart game.nds\nframes 3\nkeep output\n")
        self.put("a.keys", "5 Q\n")
        rows = [
            (("game.nds", "--frame", "0"), 2, "argument --frame: 0 is no whole number from 1"),
            (("game.nds", "--frame", "2", "--ticks", "2"), 2, "--frame and --ticks don't go together"),
            (("game.nds", "--frame", "99999"), 2, "and a run goes to 100000000000"),
            (("game.nds", "--frame", "2", "--cart", "game.nds"), 2, "--cart game.nds is for an output that stopped"),
            (("one.test", "--elf9", "game.elf"), 2, "--elf9 game.elf: one.test is a test, which tells that itself"),
            (("game.nds", "--frame", "2", "scores", "--elf9", "game.elf"), 2, "no symbol scores is known: elf9 game.elf has none; is score meant?"),
        ]
        self.check(rows)
        self.put("game.nds.status", "8")
        self.put("game.nds.note", "bad script: line 1 column 3\n")
        self.check([(("game.nds", "--frame", "2", "--keys", "a.keys"), 2, "a.keys: bad script: line 1 column 3: there is no key Q")])


if __name__ == "__main__":
    unittest.main()
