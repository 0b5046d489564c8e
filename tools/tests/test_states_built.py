"""The built program's saved states: what it saves is what the tools make by hand, it refuses what they refuse at the same offset, and it goes on."""
import shutil
import struct
import subprocess
import unittest

from built import PROGRAM, Built
from made import TOP
from state_rows import AT, CART, MASKS, RANGES, ROWS

from nds_tools.hostile.boot_state import state_at
from nds_tools.state_fields import read_state
from nds_tools.states import Broken, Wanted, digest_of

# A cartridge whose processors branch to themselves, at tick 9: the steps so far and the ticks of the next ones.
AT_9 = {"steps of ARM9": 2, "steps of ARM7": 1, "turns": 3, "ARM9 due": 14, "ARM7 due": 14}


def has_states():
    """Tells whether the built program saves states."""
    return bool(PROGRAM) and b"|save|resume" in subprocess.run([PROGRAM], capture_output=True, stdin=subprocess.DEVNULL).stderr


@unittest.skipUnless(has_states(), "no program nds is built that saves states; NDS_PROGRAM names one")
class BuiltStates(Built):
    def setUp(self):
        super().setUp()
        self.put("cart", CART)

    def answer(self, *words):
        """Runs the program in the test's folder; returns its status, its output and its note."""
        ran = subprocess.run([PROGRAM, *words], cwd=self.room, capture_output=True, stdin=subprocess.DEVNULL, timeout=120)
        return ran.returncode, ran.stdout, ran.stderr.decode()

    def test_what_is_saved_is_what_is_made_by_hand(self):
        status, out, note = self.answer("save", "cart", "none", "9")
        self.assertEqual((status, note), (0, ""))
        found, wanted = read_state(out, Wanted(digest_of(CART), 10)), read_state(state_at(CART, 9, AT_9))
        self.assertEqual({it: found.values[it] for it in found.values if found.values[it] != wanted.values[it]}, {})
        self.assertEqual(out, wanted.content)

    def test_it_goes_on_as_the_run_does(self):
        self.put("state", state_at(CART, 9, AT_9))
        went, ran = (self.answer(*words)[1] for words in (("resume", "state", "cart", "none", "18", "none"), ("run", "cart", "none", "18", "none")))
        self.assertEqual((went[:-40], len(went)), (ran[:-40], len(ran)))
        self.assertEqual([struct.unpack("<5Q", it[-40:]) for it in (went, ran)], [(18, 3, 2, 0, 5), (18, 3, 2, 0, 4)])

    def test_what_was_saved_is_saved_again(self):
        cases = ((CART, 3213), (CART, 817921), (CART, 1120381))
        for cart, tick in cases:
            self.put("cart", cart)
            self.put("state", self.answer("save", "cart", "none", str(tick))[1])
            went, ran = (self.answer(*words)[1] for words in (("resume", "state", "cart", "none", str(tick + 5000), "last"), ("run", "cart", "none", str(tick + 5000), "last")))
            self.assertEqual(went[:-8], ran[:-8], tick)

    def test_a_game_is_saved_at_each_of_its_first_ticks(self):
        shutil.copy(f"{TOP}/examples/game.nds", f"{self.room}/game")
        ran = self.answer("run", "game", "none", "400", "all")[1]
        for tick in range(1, 201):
            self.put("state", self.answer("save", "game", "none", str(tick))[1])
            status, went, note = self.answer("resume", "state", "game", "none", "400", "all")
            self.assertEqual((status, note, went[:-8]), (0, "", ran[:-8]), tick)

    def test_it_refuses_what_the_tools_refuse(self):
        changes = [it for it, _ in ROWS] + [{name: kept} for name, kept, _ in MASKS] + [{name: wrong} for name, _, wrong in MASKS if wrong]
        changes += [{name: most + more} for name, most in RANGES for more in (0, 1)]
        for change in changes:
            content = state_at(CART, AT, change)
            self.refuses_alike(content, str(change)[:200])

    def test_it_refuses_what_is_cut_where_the_tools_do(self):
        whole = state_at(CART, AT, {"open vertices": 2, "ARM9 IPCFIFORECV count": 2})
        for size in (0, 1, 33, 34, 73, 74, 76, 231, 388, 400, 9999, 4344208, 5015951, 5015952, 5018009, 5018763, 5018770, 5215400, 5411990, 5416600, len(whole) - 1):
            self.refuses_alike(whole[:size], f"cut to {size} bytes")
        self.refuses_alike(whole + b"\0", "a byte more")

    def test_the_example_that_begins_later(self):
        self.copied_later()
        self.assertIn("NEW ", self.tool("nds-test", "c-game/later", status=2))
        said = self.tool("nds-test", "c-game/later", "--remake")
        self.assertIn("PASS    c-game/later/coin: ", said)
        self.assertIn("PASS    c-game/later/coin\n", self.tool("nds-test", "c-game/later"))
        shown = self.tool("nds-show", "--state", "c-game/later/coin.state", "--cart", "c-game/c-game.nds", "--elf9", "c-game/game.elf", "score")
        self.assertTrue(shown.startswith("tick 66920341, 0.998 s, frame 60 line 192; "), shown[:200])
        self.assertIn("equal: ", self.tool("nds-diff", "c-game/later/coin.state", "c-game/later/coin.state"))

    def copied_later(self):
        """Copies the example, without a state that was made there."""
        shutil.copytree(f"{TOP}/examples/c-game", f"{self.room}/c-game", ignore=shutil.ignore_patterns("*.state"))

    def refuses_alike(self, content, what):
        """The program's answer to a state is the one that the tools' reading has."""
        self.put("state", content)
        try:
            read_state(content, Wanted(digest_of(CART), AT + 1))
            offset = None
        except Broken as why:
            offset = why.offset
        status, _, note = self.answer("resume", "state", "cart", "none", str(AT + 1), "none")
        with self.subTest(what):
            if offset is None:
                self.assertIn(status, (0, 9), note)
            else:
                self.assertEqual((status, note), (11, f"bad state: offset {offset}\n"))


if __name__ == "__main__":
    unittest.main()
