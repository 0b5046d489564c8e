"""`nds-test`: each verdict, each status, what is kept, and what is wrong in a test's lines."""
import os
import shutil
import struct
import subprocess
import sys
import unittest
import xml.etree.ElementTree as xml

from made import R15, TOOLS, Room, elf, end, frame, lists, memory, picture, stop

VERTEX = (-4096, 2, 3, 4096, 0x7FFF, -1, 5)
POLYGON = (0x1F00C0, 0x20, 0x30, 0xBFFF0000, 3, 0, 1, 2, 0)
ALL = "cart game.nds\nelf9 game.elf\nkeys none\nframes 3\nkeep frame 1 3\nkeep peek score\nkeep peek grid:3\nkeep text name\nkeep vertices\nexpect done\n"
SYMBOLS = [("score", 0x2001000, 4, 0x11), ("grid", 0x2001010, 12, 0x11), ("name", 0x2001020, 16, 0x11), ("step", 0x2000010, 32, 0x12)]


class NdsTest(Room):
    TOOL, MODULE = "nds-test", "games_command"

    def setUp(self):
        super().setUp()
        self.put("game.nds")
        self.elf = self.put("game.elf", elf([(0x2000000, 0x2000000, bytes(64), 64)], SYMBOLS))
        self.game()

    def game(self, score=20, red=0x1F, x=-4096, code=0, grid=5):
        """Sets what the fake program answers: the game's output."""
        words = [("main", 0, code), ("main", 0x1000, score), ("main", 0x1014, grid), ("main", 0x1020, 0x6968)]
        pictures = frame(1) + lists(1, [(x, *VERTEX[1:]), VERTEX], [POLYGON]) + frame(2) + frame(3, red)
        self.put("game.nds.out", pictures + memory(words) + end())

    def kept(self, text=ALL, name="all"):
        """Writes a test and keeps its results."""
        self.put(f"{name}.test", text)
        self.assertEqual(self.run_it(f"{name}.test", "--update")[:2], (0, f"KEPT    {name}: its first results\n1 tests: 1 KEPT\n"))

    def test_results_are_kept_line_by_line(self):
        self.kept()
        self.assertEqual(self.text("all.expected").splitlines()[1:2] + self.text("all.expected").splitlines()[4:], [
            "end = done",
            "peek score = 00000014",
            "peek grid:3 = 00000000 00000005 00000000",
            'text name = "hi"',
            "swap = frame 1 parameter 00000000 vertices 2 polygons 1",
            "vertex 0 = x -4096 y 2 z 3 w 4096 colour 7fff s -1 t 5",
            "vertex 1 = x -4096 y 2 z 3 w 4096 colour 7fff s -1 t 5",
            "polygon 0 = attributes 001f00c0 texture 00000020 palette 00000030 viewport bfff0000 corners 0 1 2",
        ])  # fmt: skip
        self.assertRegex(self.text("all.expected"), r"\nframe 1 = sha256 [0-9a-f]{64}\nframe 3 = sha256 [0-9a-f]{64}\n")
        self.assertEqual(self.calls(), ["run game.nds none 3058681 all"])

    def test_an_edit_of_code_alone_leaves_a_test_green(self):
        self.kept()
        self.game(code=0xE1A00000)
        self.assertEqual(self.run_it("all.test"), (0, "PASS    all\n1 tests: 1 PASS\n", ""))

    def test_a_result_that_changed_is_named_by_symbol_or_frame(self):
        self.kept()
        rows = [
            ({"score": 21}, "score was 00000014, is 00000015"),
            ({"grid": 6}, "grid:3 +0x4 was 00000005, is 00000006"),
            ({"x": 0}, "vertex 0 was x -4096 y 2 z 3 w 4096 colour 7fff s -1 t 5, is x 0 y 2 z 3 w 4096 colour 7fff s -1 t 5"),
            ({"red": 1}, "frame 3 changed: nds-test-out/all.frame-0003-actual.png"),
        ]
        for how, text in rows:
            with self.subTest(how=how):
                self.game(**how)
                self.assertEqual(self.run_it("all.test"), (1, f"FAIL    all: {text}\n1 tests: 1 FAIL\n", ""))
        self.assertEqual(picture(f"{self.room}/nds-test-out/all.frame-0003-actual.png")[2][0], b"\x08\0\0" * 256)
        status, out, _ = self.run_it("all.test", "--update")
        self.assertIn("KEPT    all: frame 3 changed", out)
        self.assertEqual(self.run_it("all.test")[0], 0)

    def test_a_new_test_is_not_green(self):
        self.put("all.test", ALL)
        self.assertEqual(self.run_it("all.test"), (2, "NEW     all: no results are kept yet; --update keeps those of this run\n1 tests: 1 NEW\n", ""))
        self.assertFalse(os.path.exists(f"{self.room}/all.expected"))

    def test_a_line_more_or_less_of_the_test_is_told(self):
        self.kept()
        self.put("all.test", ALL.replace("keep text name\n", "keep text name\nkeep peek step\n").replace("keep peek score\n", ""))
        self.assertEqual(self.run_it("all.test")[1].splitlines()[0], "NEW     all: nothing is kept of peek step; peek score is kept, and no line of the test asks for it; --update keeps what this run gave")
        self.game(grid=6)
        self.assertEqual(self.run_it("all.test")[1].splitlines()[0], "FAIL    all: grid:3 +0x4 was 00000005, is 00000006; nothing is kept of peek step; peek score is kept, and no line of the test asks for it")

    def test_a_stop_fails_and_is_never_kept_unless_it_is_expected(self):
        self.kept()
        before = self.text("all.expected")
        self.put("game.nds.status", "9")
        self.put("game.nds.out", frame(1) + stop(44, 22, 2, 14))
        self.put("game.nds.before", memory(nine=[(R15, 0x2000014)]) + end(44))
        line = "STOPPED all: Swi 0x0000000e (GetCRC16) at tick 44 by ARM9, r15 02000014 step+0x4; see docs/COMING_FROM.md#the-boot-roms-functions"
        for words in ((), ("--update",)):
            self.assertEqual(self.run_it("all.test", *words)[:2], (1, f"{line}\n1 tests: 1 STOPPED\n"))
        self.assertEqual(self.text("all.expected"), before)
        self.kept("cart game.nds\nticks 100\nexpect stop Swi 14\n", "stops")
        self.assertEqual(self.run_it("stops.test")[:2], (0, "PASS    stops\n1 tests: 1 PASS\n"))
        self.put("other.test", "cart game.nds\nticks 100\nexpect stop Mosaic 0x2\n")
        self.assertIn("STOPPED other: Swi 0x0000000e (GetCRC16) at tick 44 by ARM9, r15 02000014; Mosaic 0x00000002 was expected", self.run_it("other.test", "--update")[1])

    def test_an_expected_stop_that_does_not_come_fails(self):
        self.put("stops.test", "cart game.nds\nticks 100\nexpect stop Swi 14\n")
        for words in ((), ("--update",)):
            self.assertEqual(self.run_it("stops.test", *words)[:2], (1, "FAIL    stops: it came to tick 100, and the stop Swi 0x0000000e was expected\n1 tests: 1 FAIL\n"))

    def test_a_whole_output_counts_only_where_a_line_asks(self):
        self.kept("cart game.nds\nticks 100\nkeep output\n", "whole")
        self.assertIn(f"output = {5017938 + 3 * 196617 + 21 + 44 + 25} bytes sha256 ", self.text("whole.expected"))
        self.game(code=1)
        self.assertIn("FAIL    whole: output was ", self.run_it("whole.test")[1])

    def test_no_more_frames_are_asked_for_than_the_test_keeps(self):
        rows = [("keep peek @main\n", "none"), ("keep frame 3\n", "last"), ("keep vertices\n", "last"), ("keep frame 2 3\n", "all")]
        for line, keep in rows:
            self.put("one.test", f"cart game.nds\nframes 3\n{line}")
            self.run_it("one.test")
            self.assertEqual(self.calls(), [f"run game.nds none 3058681 {keep}"])

    def test_folders_filters_jobs_and_junit(self):
        for name in ("a/one", "a/two", "b/three"):
            self.put(f"{name}.test", "cart ../game.nds\nticks 100\nkeep peek @main+0x1000\n")
        self.run_it("a", "b", "--update", "two")
        self.assertEqual(sorted(it for it in os.listdir(f"{self.room}/a")), ["one.test", "two.expected", "two.test"])
        self.run_it("--update", "a/one.test")
        self.game(score=21)
        self.put("b/three.expected", "end = done\npeek @main+0x1000 = 00000015\n")
        status, out, _ = self.run_it("a", "b", "--jobs", "3", "--junit", "results.xml", "--timeout", "20")
        self.assertEqual((status, out), (1, "FAIL    a/one: @main+0x1000 was 00000014, is 00000015\nFAIL    a/two: @main+0x1000 was 00000014, is 00000015\n"
                                            "PASS    b/three\n3 tests: 1 PASS, 2 FAIL\n"))  # fmt: skip
        root = xml.parse(f"{self.room}/results.xml").getroot()
        self.assertEqual((root.get("tests"), root.get("failures"), root.get("errors")), ("3", "2", "0"))
        self.assertEqual([it.get("name") for it in root], ["a/one", "a/two", "b/three"])
        self.assertEqual(root[0][0].text, "@main+0x1000 was 00000014, is 00000015")
        self.assertEqual(self.run_it(".", "--filter", "three")[:2], (0, "PASS    b/three\n1 tests: 1 PASS\n"))
        self.assertEqual(self.run_it("-", given=b"b/three.test\n")[:2], (0, "PASS    b/three\n1 tests: 1 PASS\n"))

    def test_what_cannot_be_judged_is_an_error(self):
        self.put("one.test", "cart game.nds\nticks 100\nkeep peek @main\n")
        rows = [
            ("game.nds.status", "3", "no file: game.nds\n", "ERROR   one: no file: game.nds"),
            ("game.nds.status", "7", "bad header: Short 0x00000000\n", "ERROR   one: bad header: Short 0x00000000"),
            ("game.nds.out", b"M", "", "ERROR   one: the run's output is cut within the record M"),
            ("game.nds.out", b"Z" * 1000000, "", "ERROR   one: the run's output: byte 0 is 0x5a"),
            ("game.nds.out", b"", "", "ERROR   one: the run's output is empty"),
        ]
        for name, content, note, text in rows:
            with self.subTest(text=text):
                self.put(name, content)
                self.put("game.nds.note", note)
                status, out, _ = self.run_it("one.test", "--update")
                self.assertEqual((status, out.startswith(text)), (2, True), out)
                self.put("game.nds.status", "0")
        self.put("game.nds.slow")
        self.assertEqual(self.run_it("one.test", "--timeout", "0.2")[:2], (2, "ERROR   one: the run took more than 0.2 seconds\n1 tests: 1 ERROR\n"))
        self.assertFalse(os.path.exists(f"{self.room}/one.expected"))

    def test_wrong_lines_are_named(self):
        good = "cart game.nds\nticks 100\nkeep peek @main\n"
        rows = [
            ("fly\n", "one.test: line 1: no line begins with fly"),
            (good + "cart a b\n", "one.test: line 4: cart takes one word"),
            (good + "ticks 5\n", "one.test: line 4: ticks stands twice"),
            (good + "keep all\n", "one.test: line 4: keep all is nothing that can be kept; there are frame, picture, peek, decimal, text, vertices, output"),
            (good + "keep frame 0\n", "one.test: line 4: 0 is no frame: it wants a number from 1"),
            (good + "expect win\n", "one.test: line 4: expect takes"),
            (good + "expect stop Crash 1\n", "one.test: line 4: there is no stop Crash"),
            (good + "keep frame 'a\n", "one.test: line 4: No closing quotation"),
            (good + "frames 3\n", "one.test: it wants either `frames N` or `ticks N`"),
            ("ticks 100\nkeep peek @main\n", "one.test: the line `cart GAME.nds` is missing"),
            ("cart game.nds\nkeep peek @main\n", "one.test: it wants either"),
            ("cart game.nds\nticks 100\n", "one.test: it keeps nothing"),
            ("cart game.nds\nticks 100000000001\nkeep output\n", "one.test: it runs to tick 100000000001"),
            ("cart game.nds\nframes 2\nkeep frame 3\n", "one.test: frame 3 isn't whole by tick 1938301; `frames 3` runs that far"),
            (good + "expect stop Swi 14\n", "one.test: a run that stops writes no memories"),
            (good + "keep peek score\n", "one.test: line 4: no symbol score is known, since no ELF file was given"),
            (good + "elf9 absent.elf\n", "absent.elf: No such file"),
        ]
        for text, said in rows:
            with self.subTest(text=text):
                self.put("one.test", text)
                status, out, _ = self.run_it("one.test")
                self.assertEqual(status, 2)
                self.assertIn(f"ERROR   one: {said}", out)
        self.put("one.test", good)
        self.put("one.expected", "nothing\n")
        self.assertIn("one.expected: line 1 is no result", self.run_it("one.test")[1])
        self.assertEqual(self.run_it("one.test", "--update")[0], 0)
        self.assertEqual(self.run_it("one.test")[0], 0)

    def test_without_a_named_program_the_wrapper_builds_it_first(self):
        shutil.copytree(TOOLS, f"{self.room}/repository/tools", ignore=shutil.ignore_patterns("tests", "__pycache__"))
        self.put("one.test", "cart game.nds\nticks 100\nkeep peek @main\n")
        self.put("fake", self.text("nds"))
        os.chmod(f"{self.room}/fake", 0o755)
        there = {"cwd": self.room, "env": {"PATH": os.environ["PATH"]}, "capture_output": True, "text": True, "timeout": 60}
        rows = [
            ("#!/bin/sh\necho 'nds: not built' >&2\nexit 1\n", "the program nds isn't there; --nds or NDS_PROGRAM names one that was built"),
            ('#!/bin/sh\nmkdir -p "$(dirname "$0")/out"\ncp fake "$(dirname "$0")/out/nds"\n', "NEW     one"),
        ]
        for wrapper, text in rows:
            os.chmod(self.put("repository/nds", wrapper), 0o755)
            ran = subprocess.run([sys.executable, "-B", "repository/tools/nds-test", "one.test"], **there)
            self.assertEqual(ran.returncode, 2)
            self.assertIn(text, ran.stdout + ran.stderr)
        unproved = "#!/bin/sh\necho 'nds: NOT PROVED: slow' >&2\n[ \"$1\" = asm ] && exit 0\necho 'no file: game.nds' >&2\nexit 3\n"
        os.chmod(self.put("repository/nds", unproved), 0o755)
        there["env"]["NDS_UNPROVED"] = "1"
        ran = subprocess.run([sys.executable, "-B", "repository/tools/nds-test", "one.test"], **there)
        self.assertEqual((ran.stdout.splitlines()[0], ran.stderr), ("ERROR   one: no file: game.nds", "nds: NOT PROVED: slow\n"))

    def test_a_program_that_lies_beside_the_tools_is_run_as_it_is(self):
        shutil.copytree(TOOLS, f"{self.room}/kept/tools", ignore=shutil.ignore_patterns("tests", "__pycache__"))
        shutil.copy(shutil.which("true"), f"{self.room}/kept/nds")
        self.put("one.test", "cart game.nds\nticks 100\nkeep peek @main\n")
        there = {"cwd": self.room, "env": {"PATH": os.environ["PATH"]}, "capture_output": True, "text": True, "timeout": 60}
        ran = subprocess.run([sys.executable, "-B", "kept/tools/nds-test", "one.test"], **there)
        self.assertTrue(ran.stdout.startswith("ERROR   one: the run's output is empty"), ran.stdout + ran.stderr)

    def test_no_tests_no_program_and_the_command(self):
        os.mkdir(f"{self.room}/void")
        self.put("one.test", "cart game.nds\nticks 100\nkeep peek @main\n")
        self.check([
            ((), 2, "name a test or a folder"),
            (("void",), 2, "has no file that ends in .test"),
            (("absent.test",), 2, "there is no file or folder absent.test"),
            (("one.test", "--filter", "two"), 2, "there is no test two"),
            (("one.test", "--jobs", "0"), 2, "argument --jobs: 0 is no whole number from 1"),
            (("one.test", "--nds", "/absent"), 2, "--nds names no program: /absent"),
        ])  # fmt: skip
        self.check_command("one.test", "--nds", self.nds, status=2, text="NEW     one")


class Endings(unittest.TestCase):
    def test_the_frames_that_are_whole_below_a_tick(self):
        from nds_tools.game_tests import Test

        rows = [(817920, 0), (817921, 1), (1938300, 1), (1938301, 2), (1, 0)]
        self.assertEqual([(tick, Test("", "", ticks=tick).last_frame) for tick, _ in rows], rows)
        self.assertEqual(struct.calcsize("<4iH2h"), 22)


if __name__ == "__main__":
    unittest.main()
