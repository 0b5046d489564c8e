"""`examples/make-*`: each makes its cartridge again, and leaves the one that is there where anything fails on the way."""
import os
import re
import shutil
import subprocess
import unittest

from made import TOOLS, TOP, Room

NAMES = ("first", "loop", "handover", "screens", "game")


class Makers(Room):
    def setUp(self):
        super().setUp()
        os.remove(self.nds)
        self.put("nds", '#!/bin/sh\n[ -e "$2.bin" ] && cat "$2.bin" && exit 0\necho "nds: not built" >&2\nexit 1\n')
        os.chmod(self.nds, 0o755)

    def copied(self, name):
        """Copies an example's script; returns the cartridge as it is committed, and its listings with their places."""
        os.makedirs(f"{self.room}/examples", exist_ok=True)
        shutil.copy(f"{TOP}/examples/make-{name}", f"{self.room}/examples/")
        with open(f"{TOP}/examples/{name}.nds", "rb") as it:
            whole = it.read()
        listings = re.findall(r"^code (\S+) (\S+)$", self.text(f"examples/make-{name}"), re.M)
        return whole, [(int(at, 0), listing) for at, listing in listings]

    def run_maker(self, name):
        return subprocess.run([f"{self.room}/examples/make-{name}"], capture_output=True, text=True, timeout=60).returncode

    def content(self, name):
        with open(f"{self.room}/examples/{name}.nds", "rb") as it:
            return it.read()

    def test_each_makes_what_is_committed(self):
        for name in NAMES:
            with self.subTest(name=name):
                whole, listings = self.copied(name)
                for number, (at, listing) in enumerate(listings):
                    end = listings[number + 1][0] if number + 1 < len(listings) else len(whole)
                    self.put(f"examples/{listing}.bin", whole[at:end])
                self.assertEqual(self.run_maker(name), 0)
                self.assertEqual(self.content(name), whole)
                self.assertEqual([it for it in os.listdir(f"{self.room}/examples") if ".new" in it], [])

    def test_what_fails_leaves_the_cartridge(self):
        for name in NAMES[1:]:
            with self.subTest(name=name):
                whole, listings = self.copied(name)
                self.put(f"examples/{name}.nds", whole)
                for _, listing in listings[:-1]:
                    self.put(f"examples/{listing}.bin", b"code")
                self.assertNotEqual(self.run_maker(name), 0)
                self.assertEqual(self.content(name), whole)
                self.assertEqual([it for it in os.listdir(f"{self.room}/examples") if ".new" in it], [])


# A compiler that writes what is committed where -o says, and keeps its words.
COMPILER = r"""#!/bin/sh
echo "$*" >>"$KEPT"
while [ $# -gt 1 ]; do
    if [ "$1" = -o ]; then
        case $2 in *game.elf) cp was/game.elf "$2" ;; *) cp was/seven.elf "$2" ;; esac
    fi
    shift
done
"""


@unittest.skipUnless(shutil.which("make"), "make isn't here")
class CGame(Room):
    """The Makefile of the game in C, with compilers that are fakes."""

    def setUp(self):
        super().setUp()
        shutil.copytree(f"{TOP}/examples/c-game", f"{self.room}/game/was")
        for name in os.listdir(f"{self.room}/game/was"):
            if name not in ("tests", "later", "flags.txt", "game.elf", "seven.elf", "c-game.nds"):
                shutil.copy(f"{self.room}/game/was/{name}", f"{self.room}/game/")
        for name in ("clang", "arm-none-eabi-gcc"):
            os.chmod(self.put(f"bin/{name}", COMPILER), 0o755)

    def make(self, *words):
        """Runs make; returns the compilers' words."""
        environment = {**os.environ, "PATH": f"{self.room}/bin:{os.environ['PATH']}", "KEPT": f"{self.room}/kept"}
        self.put("kept")
        ran = subprocess.run(["make", "-s", f"TOOLS={TOOLS}", *words], cwd=f"{self.room}/game", env=environment, capture_output=True, text=True, timeout=60)
        self.assertEqual(ran.returncode, 0, ran.stderr)
        return self.text("kept").splitlines()

    def test_each_compiler_gets_its_own_words_and_a_change_of_them_builds_anew(self):
        nine, seven = self.make()
        self.assertTrue(nine.startswith("--target=armv5te-none-eabi -mcpu=arm946e-s -fuse-ld=lld "), nine)
        self.assertTrue(seven.startswith("--target=armv4t-none-eabi -mcpu=arm7tdmi -fuse-ld=lld "), seven)
        self.assertEqual(self.make(), [], "nothing changed")
        nine, seven = self.make("CC=arm-none-eabi-gcc")
        self.assertTrue(nine.startswith("-mcpu=arm946e-s -marm ") and nine.endswith(" -o game.elf -lgcc"), nine)
        self.assertTrue(seven.startswith("-mcpu=arm7tdmi -marm ") and seven.endswith(" -o seven.elf -lgcc"), seven)
        self.assertEqual(self.make("CC=arm-none-eabi-gcc"), [])
        self.assertEqual(len(self.make("CC=arm-none-eabi-gcc", "BOTH=-O0")), 2)
        self.assertEqual(len(self.make()), 2)
        with open(f"{self.room}/game/c-game.nds", "rb") as a, open(f"{self.room}/game/was/c-game.nds", "rb") as b:
            self.assertEqual(a.read(), b.read())

    def test_what_is_committed_was_built_by_the_words_that_stand_beside_it(self):
        self.make()
        self.assertEqual(self.text("game/flags.txt"), self.text("game/was/flags.txt"))


if __name__ == "__main__":
    unittest.main()
