"""The tools on outputs that the program `nds` made of the examples, the games among them, and the recipes of docs/TESTING_A_GAME.md.

The program is the one of NDS_PROGRAM, otherwise one that was built here; without one these tests are left out."""
import os
import re
import shutil
import stat
import struct
import subprocess
import unittest

from built import CLANG, PROGRAM, Built, has_compiler
from made import TOOLS, TOP, Room, picture, stop


class Examples(Built):
    def test_the_games_tests_pass(self):
        said = self.tool("nds-test", *(f"{TOP}/examples/{it}/tests" for it in ("c-game", "scene", "startup", "bitmap", "nitro")))
        self.assertRegex(said, r"\n(\d+) tests: \1 PASS\n$")

    @unittest.skipUnless(has_compiler(), f"clang and lld {CLANG} and make aren't here")
    def test_a_build_gives_what_is_committed(self):
        for name, files in (("c-game", ("c-game.nds", "game.elf", "seven.elf")), ("scene", ("scene.nds", "scene.elf")),
                            ("startup", ("startup.nds", "nine.elf", "seven.elf")), ("bitmap", ("bitmap.nds", "bitmap.elf")),
                            ("nitro", ("nitro.nds", "nitro.elf"))):  # fmt: skip
            self.copied(name)
            for file in files:
                pair = []
                for at in (f"{TOP}/examples", self.room):
                    with open(f"{at}/{name}/{file}", "rb") as it:
                        pair.append(it.read())
                self.assertTrue(pair[0] == pair[1], f"{name}/{file} is another one")

    @unittest.skipUnless(has_compiler(), f"clang and lld {CLANG} and make aren't here")
    def test_an_edit_of_code_alone_leaves_the_tests_green(self):
        self.copied("c-game", ("game.c", "        tell(score);\n", '        __asm__ volatile("nop\\n nop\\n nop");\n        tell(score);\n'))
        for name in ("game.elf", "c-game.nds"):
            with open(f"{TOP}/examples/c-game/{name}", "rb") as a, open(f"{self.room}/c-game/{name}", "rb") as b:
                self.assertNotEqual(a.read(), b.read())
        self.assertIn("3 tests: 3 PASS", self.tool("nds-test", "c-game/tests"))

    @unittest.skipUnless(has_compiler(), f"clang and lld {CLANG} and make aren't here")
    def test_an_edit_that_changes_a_result_is_named(self):
        self.copied("c-game", ("game.c", "score++", "score += 2"), ("game.c", "PALETTE[0] = 0x2108;", "PALETTE[0] = 0x2109;"))
        said = self.tool("nds-test", "c-game/tests", status=1)
        path = "nds-test-out/c-game.tests.coin.frame-0090-actual.png"
        self.assertIn(f'FAIL    c-game/tests/coin: score was 00000001, is 00000002; message was "coins 1", is "coins 2"; frame 90 changed: {path}\n', said)
        self.assertEqual(picture(f"{self.room}/{path}")[:2], (256, 384))

    @unittest.skipUnless(shutil.which("arm-none-eabi-gcc") and shutil.which("make"), "arm-none-eabi-gcc and make aren't here")
    def test_gnus_compiler_builds_a_game_that_passes_the_same_tests(self):
        self.copied("c-game", words=["CC=arm-none-eabi-gcc"])
        self.assertIn("3 tests: 3 PASS", self.tool("nds-test", "c-game/tests"))

    def test_the_listing_of_the_scene(self):
        with open(f"{TOP}/examples/scene/scene.arm9.txt", "rb") as it:
            listing = it.read()
        self.assertEqual(self.run_of("list", "scene/scene.nds", "9"), listing)
        self.tool("make-cart", "--arm9", f"{TOP}/examples/scene/scene.arm9.txt", "-o", "again.nds", "--title", "SCENE")
        with open(f"{self.room}/again.nds", "rb") as a, open(f"{TOP}/examples/scene/scene.nds", "rb") as b:
            self.assertEqual(a.read(), b.read())

    def test_an_example_is_made_again_of_its_listings(self):
        listings = [f"{TOP}/examples/handover.{it}.txt" for it in ("arm9", "thumb9", "arm7", "thumb7")]
        self.tool("make-cart", "--arm9", listings[0], "--arm9", listings[1], "--arm7", listings[2], "--arm7", listings[3], "-o", "again.nds")
        with open(f"{self.room}/again.nds", "rb") as a, open(f"{TOP}/examples/handover.nds", "rb") as b:
            pair = a.read(), b.read()
        for at in (0x20, 0x30):
            (one, *heads), (two, *others) = (struct.unpack_from("<4I", it, at) for it in pair)
            self.assertEqual((heads, pair[0][one : one + heads[2]]), (others, pair[1][two : two + others[2]]))

    def test_outputs_of_the_examples(self):
        self.put("loop.out", self.run_of("run", "loop.nds", "none", "100", "none"))
        self.put("later.out", self.run_of("run", "loop.nds", "none", "130", "none"))
        self.put("screens.out", self.run_of("run", "screens.nds", "none", "3361140", "all"))
        self.assertTrue(self.tool("nds-show", "loop.out", "0x2001000", "7:0x2101000").endswith(
            "0x2001000  02001000\n  +000  00000004  (4)\n7:0x2101000  02101000\n  +000  00000002  (2)\n"))  # fmt: skip
        self.assertIn("main, words: 2 of 1048576 differ\n  02001000: 00000004 and 00000006\n  02101000: 00000002 and 00000003\n", self.tool("nds-diff", "loop.out", "later.out", status=1))
        self.assertEqual([it[0:1] for it in self.tool("nds-frames", "screens.out").splitlines()], ["F", "F", "F", "M", "E"])
        self.tool("nds-frames", "-", "--png", "shots", "--frame", "3", given=open_bytes(f"{self.room}/screens.out"))
        rows = picture(f"{self.room}/shots/frame-0003.png")[2]
        self.assertEqual((rows[20][30:33], rows[192 + 100][0:3]), (bytes((255, 0, 0)), bytes((156, 0, 99))))

    def test_a_trace_of_an_example_by_function(self):
        elf = f"{TOP}/examples/startup/nine.elf"
        loop, startup = f"{TOP}/examples/loop.nds", f"{TOP}/examples/startup/startup.nds"
        lines = self.tool("nds-trace", loop, "--ticks", "100", "--profile").splitlines()
        self.assertEqual((lines[0], len(lines), lines[2].split()[2:]), ("16 steps in 99 ticks, halted for 0 of them (0.0%)", 3, ["16", "0", "(no", "symbol)"]))
        self.assertIn(" bl 0x200005c  ; memories\n", self.tool("nds-trace", startup, "--ticks", "100", "--elf9", elf))

    def test_a_stop_is_shown_by_a_run_to_its_tick(self):
        code = self.put("stop.bin", struct.pack("<3I", 0xE1A00000, 0xEF0E0000, 0xEAFFFFFE))
        self.tool("make-cart", "--arm9", code, "--flat", "-o", "stop.nds")
        self.put("stop.out", self.run_of("run", f"{self.room}/stop.nds", "none", "100", "none", status=9))
        said = self.tool("nds-show", "stop.out", "--cart", "stop.nds")
        self.assertIn("stopped: Swi 0x0000000e (GetCRC16) at tick 5 by ARM9 (rank 22)", said)
        self.assertIn("ARM9  System mode, ARM state, interrupts masked, cpsr 000000df\n  r15 02000004", said)

    def test_the_way_of_the_document_from_c_to_a_test(self):
        os.symlink(f"{TOP}/examples", f"{self.room}/examples")
        os.symlink(TOOLS, f"{self.room}/tools")
        blocks = re.findall(r"(?:^    .*\n)+", open_text("TESTING_A_GAME.md").partition("## From C to a test")[2].partition("## The lines")[0], re.M)
        statuses = []
        for line in re.sub(r"\\\n", "", "".join(blocks)).splitlines():
            ran = subprocess.run(["sh", "-c", line], cwd=self.room, env={**os.environ, "NDS_PROGRAM": PROGRAM}, capture_output=True, timeout=60)
            statuses.append(ran.returncode)
        self.assertEqual(statuses, [0, 0, 0, 2, 0, 0])

    def test_the_first_commands_of_the_readme(self):
        os.remove(f"{self.room}/nds")  # a room has a fake one
        for name in ("examples", "tools", "nds"):
            os.symlink(f"{TOP}/{name}", f"{self.room}/{name}")
        with open(f"{TOP}/README.md") as it:
            text = it.read()
        first = text.partition("## Five minutes")[2].partition("\n## ")[0]
        self.assertLessEqual(text.index(first) + len(first), sum(len(it) + 1 for it in text.splitlines()[:60]), "it stands in the first 60 lines")
        said = []
        for line in re.sub(r"\\\n", "", "".join(re.findall(r"(?:^    .*\n)+", first, re.M))).splitlines():
            ran = subprocess.run(["sh", "-c", line], cwd=self.room, env={**os.environ, "NDS_PROGRAM": PROGRAM}, capture_output=True, text=True, timeout=60)
            self.assertEqual((ran.returncode, ran.stderr), (0, ""), line)
            said.append(ran.stdout)
        for number, text in enumerate(("0\n", "(4)\n", "3 PASS\n", "", "", "KEPT", "PASS", "score >= 1 holds from tick ", "message", "shots/frame-0003.png\n")):
            self.assertIn(text, said[number])
        self.assertTrue(os.path.exists(f"{self.room}/shots/frame-0003.png"))


class Recipe(Room):
    """The CI recipe of the document, with a repository whose program is a fake."""

    def test_it_builds_once_and_then_calls_the_kept_program(self):
        block = re.search(r"    #!/bin/sh\n(?:    .*\n|\n)+?    NDS_PROGRAM.*\n", open_text("TESTING_A_GAME.md"))
        git = ["git", "-c", "user.name=test", "-c", "user.email=test@localhost"]
        built = "#!/bin/sh\necho built >>\"$(dirname \"$0\")/../../builds\"\nmkdir -p \"$(dirname \"$0\")/out\"\ncp \"$(dirname \"$0\")/fake\" \"$(dirname \"$0\")/out/nds\"\necho proved >\"$(dirname \"$0\")/out/nds.proved\"\n"
        self.put("repository/nds", built)
        self.put("repository/fake", self.text("nds"))
        shutil.copytree(TOOLS, f"{self.room}/repository/tools", ignore=shutil.ignore_patterns("tests", "__pycache__"))
        for name in ("nds", "fake"):
            os.chmod(f"{self.room}/repository/{name}", stat.S_IRWXU)
        for words in (["init", "-q"], ["add", "-A"], ["commit", "-q", "-m", "small"]):
            subprocess.run([*git, *words], cwd=f"{self.room}/repository", check=True, capture_output=True)
        commit = subprocess.run([*git, "rev-parse", "HEAD"], cwd=f"{self.room}/repository", capture_output=True, text=True).stdout.strip()
        text = re.sub(r"^    ", "", block[0], flags=re.M)
        text = text.replace("https://example.org/copperant.git", f"'{self.room}/repository'").replace("0123456789abcdef0123456789abcdef01234567", commit)
        self.put("ci-test", text)
        self.put("game.nds.out", stop())
        self.put("game.nds.status", "9")
        self.put("one.test", "cart game.nds\nticks 9\nexpect stop Swi 14\n")
        self.put("one.expected", "end = stop Swi 0x0000000e\n")
        for _ in range(2):
            environment = {**os.environ, "KEPT": f"{self.room}/kept", "HOME": self.room}
            ran = subprocess.run(["sh", "ci-test", "one.test"], cwd=self.room, env=environment, capture_output=True, text=True, timeout=60)
            self.assertEqual((ran.returncode, ran.stdout[:7]), (0, "PASS   "), ran.stdout + ran.stderr)
        self.assertEqual(self.text("builds"), "built\n")
        self.assertEqual(sorted(os.listdir(f"{self.room}/kept")), ["calls", "nds", "nds.proved", "tools"], "calls is the fake's own")


def open_text(name):
    with open(f"{TOP}/docs/{name}") as it:
        return it.read()


def open_bytes(path):
    with open(path, "rb") as it:
        return it.read()


if __name__ == "__main__":
    unittest.main()
