"""`nds-test`: conditions, values at frames, ELF files of another build, places that can't be written or read, and the report's page."""
import os
import re
import subprocess
import sys
import unittest
import xml.etree.ElementTree as xml
from unittest import mock

from made import TOOLS, elf, end, frame, memory
from rising import SYMBOLS, Rising

HEAD = "cart game.nds\nelf9 game.elf\n"
SCORE = 0x2001000


class Moments(Rising):
    """The run's end has what `ends` says; at frames the score is that of the fake program: 1 from frame 10 on, and 2 from frame 19 on."""

    TOOL, MODULE = "nds-test", "games_command"

    def setUp(self):
        super().setUp()
        self.ends(5)
        # (what processors do behind the end is tried in test_loops.py)
        patch = mock.patch("nds_tools.game_runs.seen_behind", lambda *_: "")
        patch.start()
        self.addCleanup(patch.stop)

    def ends(self, score, frames=()):
        self.put("game.nds.out", b"".join(frame(*it) for it in frames) + memory([("main", 0x1000, score), ("main", 0x1010, 0x6F67)]) + end(2))

    def told(self, *words, status=1):
        ran = self.run_it("one.test", *words)
        self.assertEqual((ran[0], ran[2]), (status, ""), ran[1])
        return ran[1].splitlines()[:-1]

    def test_conditions(self):
        rows = [
            ("expect score >= 5", "PASS"),
            ("expect score >= 5 # as it was", "PASS"),
            ('expect message == "go"', "PASS"),
            ("expect score == 5 and score:u8 == 5\nexpect debt == 0", "PASS"),
            ("at frame 10 12 15-19 expect score >= 1", "PASS"),
            ("expect score >= 6", "score >= 6 was expected, and score 5"),
            ('expect message == "no # go"', 'message == "no # go" was expected, and message "go"'),
            ("at frame 9 expect score >= 1", "at frame 9, score >= 1 was expected, and score 0"),
            ("at frame 9 11 expect debt < 0", "at frame 9, debt < 0 was expected, and debt 0"),
            ("at frame 10 expect debt >= 0", "at frame 10, debt >= 0 was expected, and debt -1"),
            ("at frame 10 expect debt == 0", "at frame 10, debt == 0 was expected, and debt 65535"),
        ]
        for line, said in rows:
            with self.subTest(line=line):
                self.put("one.test", f"{HEAD}frames 20\n{line}\n")
                is_good = said == "PASS"
                self.assertEqual(self.told(status=0 if is_good else 1), ["PASS    one"] if is_good else [f"FAIL    one: {said}"])

    def test_what_is_kept_at_frames(self):
        self.put("one.test", f"{HEAD}frames 28\nat frame 9-11 keep decimal score debt:s16\nat frame 20 keep peek score\nkeep peek score\nexpect score > 4\n")
        self.assertEqual(self.told("--update", status=0), ["KEPT    one: its first results"])
        lines = ["end = done"]
        for at, score in ((9, 0), (10, 1), (11, 1)):
            lines += [f"at frame {at} decimal score = {score}", f"at frame {at} decimal debt:s16 = {-score}"]
        self.assertEqual(self.text("one.expected").splitlines()[1:], [*lines, "at frame 20 peek score = 00000002", "peek score = 00000005"])
        self.assertEqual([it[0] for it in self.runs], ["save", "resume", "resume", "resume"], "one saved state serves all, and is a look too")
        self.assertEqual(self.told(status=0), ["PASS    one"])
        self.put("one.expected", self.text("one.expected").replace("frame 10 decimal score = 1", "frame 10 decimal score = 7"))
        self.assertEqual(self.told(), ["FAIL    one: at frame 10 score was 7, is 1"])
        self.ends(4)
        self.assertEqual(self.told(), ["FAIL    one: score > 4 was expected, and score 4; at frame 10 score was 7, is 1; score was 00000005, is 00000004"])
        self.assertEqual(self.told("--update"), ["FAIL    one: score > 4 was expected, and score 4; so nothing is kept"])

    def test_lines_that_are_wrong(self):
        rows = [
            ("at frame 30 expect score == 3", "frame 30 isn't whole by tick 22105141; `frames 30` runs that far"),
            ("at 3 keep peek score", "line 4: at takes frames and what is looked at there"),
            ("at frame keep peek score", "line 4: at takes frames and what is looked at there"),
            ("at frame 3 keep", "line 4: at takes frames and what is looked at there"),
            ("at frame 3 keep frame 3", "line 4: at a frame `keep` takes peek, decimal, text and places, as `at frame 30 keep peek score`"),
            ("at frame 3-1 keep peek score", "line 4: 3-1 is no frame"),
            ("at frame 3 keep peek scores", "line 4: no symbol scores is known: elf9 game.elf has none; is score meant?; elf7 was not given"),
            ("expect score = 3", "line 4: `score = 3` is no comparison"),
            ("expect", "line 4: expect takes `done`, `stop KIND VALUE`, or a condition, as `expect score >= 10`"),
            ("expect stop Swi 3\nexpect score == 3", "a run that stops writes no memories, so `expect score == 3` and `expect stop` don't go together"),
            ("expect done\nexpect done\nkeep peek score", "line 5: `expect done` or `expect stop` stands twice"),
        ]
        for line, said in rows:
            with self.subTest(line=line):
                self.put("one.test", f"{HEAD}frames 20\n{line}\n")
                found = self.told(status=2)
                self.assertTrue(found[0].startswith(f"ERROR   one: one.test: {said}"), found)

    def test_an_elf_file_of_another_build_is_no_guide(self):
        code = [(0x2000000, 64, "code")]
        self.put("game.elf", elf([(0x2000000, 0x2000000, b"\xfe\xff\xff\xeb" + bytes(60), 64)], SYMBOLS, sections=code))
        self.put("one.test", f"{HEAD}frames 3\nkeep peek score\n")
        said = "ERROR   one: elf9 game.elf isn't of the build in game.nds, so its symbols are others: at 02000000 (main) it has ebfffffe, and the cartridge eafffffe"
        for words in ((), ("--update",)):
            self.assertEqual(self.told(*words, status=2), [said])
        # (where the cartridge has it packed, it stands in memory)
        self.put("game.nds.out", memory([("main", 0, 0xEBFFFFFE)]) + end(2))
        self.assertEqual(self.told("--update", status=0), ["KEPT    one: its first results"])
        self.put("game.elf", elf([(0x2000000, 0x2000000, b"\xfe\xff\xff\xea" + bytes(60), 64)], SYMBOLS, sections=code))
        self.ends(0)
        self.assertEqual(self.told(status=0), ["PASS    one"])

    def test_what_cannot_be_written_changes_no_verdict(self):
        self.ends(5, [(1, 0), (2, 0), (3, 7)])
        self.put("one.test", f"{HEAD}frames 3\nkeep peek score\nkeep picture 3\n")
        self.told("--update", status=0)
        self.ends(6, [(1, 0), (2, 0), (3, 8)])
        self.put("nds-test-out", "a file stands where the folder would")
        self.put("there", "")
        for words in ((), ("--junit", "there/a.xml"), ("--report", "there")):
            ran = self.run_it("one.test", *words)
            self.assertEqual(ran[0], 1)
            self.assertRegex(ran[1], r"^FAIL    one: score was 00000005, is 00000006; frame 3 changed, by 49,152 pixels of the upper screen in the box \(0, 0\) to "
                             r"\(255, 191\): no picture, since nds-test-out can't be written: ")  # fmt: skip
            self.assertEqual([it.split(" can't be written: ")[0] for it in ran[2].splitlines()],
                             ["nds-test: nds-test-out", *(f"nds-test: {it}" for it in words[1:])])  # fmt: skip

    def test_results_that_are_no_text(self):
        self.put("a.test", f"{HEAD}frames 3\nkeep peek score\n")
        self.put("b.test", f"{HEAD}frames 3\nexpect score == 5\n")
        self.put("a.expected", b"end = \xff\n")
        self.put("k.test", f"{HEAD}frames 3\nkeep peek score\nkeys k.keys\n")
        self.put("k.keys", b"hold \xff 3\n")
        ran = self.run_it("a.test", "b.test")
        self.assertEqual(ran[:2], (2, "ERROR   a: a.expected is no text; --update writes the file anew\nPASS    b\n2 tests: 1 PASS, 1 ERROR\n"))

    def test_names_with_letters_that_the_encoding_lacks(self):
        self.put("lämp.test", "cart game.nds\nframes 3\nkeep peek @main+0x1000\n")
        self.put("b.test", "cart game.nds\nframes 3\nkeep peek @main+0x1000\n")
        for encoding, name in (("ascii", b"l\\xe4mp"), ("utf-8", "lämp".encode())):
            words = [sys.executable, "-B", f"{TOOLS}/nds-test", ".", "--junit", "a.xml", "--report", "seen"]
            there = {**os.environ, "PYTHONIOENCODING": encoding, "NDS_PROGRAM": self.nds}
            ran = subprocess.run(words, cwd=self.room, env=there, stdin=subprocess.DEVNULL, capture_output=True, timeout=60)
            self.assertEqual((ran.returncode, ran.stderr), (2, b""))
            self.assertIn(b"NEW     " + name + b": no results are kept yet", ran.stdout)
            self.assertIn("lämp", [it.get("name") for it in xml.parse(f"{self.room}/a.xml").getroot()])

    def test_the_report(self):
        self.put("games/one.test", "cart ../game.nds\nelf9 ../game.elf\nframes 3\nkeep peek score\nkeep picture 2\nkeep frame 3\nexpect score < 7\n")
        self.put("two.test", f"{HEAD}frames 3\nexpect score < 9\n")
        self.ends(5, [(1, 0), (2, 5), (3, 7)])
        self.run_it("games", "two.test", "--update")
        self.ends(8, [(1, 0), (2, 5, 0, [(9, 200, 31)]), (3, 7)])
        status, out, note = self.run_it("games", "two.test", "--report", "seen", "--junit", "a.xml")
        self.assertEqual((status, out.splitlines()[-1], note), (1, "report: seen/index.html", ""))
        page = self.text("seen/index.html")
        rows = [
            "<title>2 tests: 1 FAIL, 1 PASS</title>", '<section id="games/one" class="FAIL">', '<section id="two" class="PASS">', '<a href="#games/one">FAIL games/one</a>',
            "<tr class=changed><td>peek score</td><td>00000005</td><td>00000008</td></tr>", "<tr><td>end</td><td>done</td><td>done</td></tr>",
            "<li>score &lt; 7 was expected, and score 8</li>", "frame 2, kept</figcaption>", "frame 2, now</figcaption>", "frame 2, difference</figcaption>",
            "frame 3, now</figcaption>", "frames 1 to 3, the last second as it moved</figcaption>",
        ]  # fmt: skip
        self.assertEqual([it for it in rows if it not in page], [])
        self.assertEqual(re.findall(r'(?:src|href)="(?!data:image/png;base64,|#)', page), [], "it needs no other file")
        self.assertEqual(page.count("data:image/png;base64,"), 5 + 1)
        cases = xml.parse(f"{self.room}/a.xml").getroot()
        self.assertEqual([(it.get("classname"), it.get("name"), it.find("system-out").text) for it in cases],
                         [("games", "games/one", "seen/index.html#games/one"), ("nds-test", "two", "seen/index.html#two")])  # fmt: skip


if __name__ == "__main__":
    unittest.main()
