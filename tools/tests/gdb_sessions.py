"""gdb itself (Debian's package gdb-multiarch) over the built program for gdb, and games that GNU's compiler builds for it.

Both are other people's programs, which no proof needs: where one isn't there the tests are left out, and NDS_PEERS=none leaves out all of them,
as the gate does."""
import os
import re
import shutil
import subprocess
import unittest

from built import PROGRAM
from made import TOOLS, TOP, Room

HERE = os.path.dirname(os.path.realpath(__file__))
GDB, GCC = shutil.which("gdb-multiarch"), shutil.which("arm-none-eabi-gcc")
SECONDS = 600
FLAGS = "-marm -mfloat-abi=soft -ffreestanding -fno-builtin -O0 -g -nostdlib -Wl,--nmagic -Wl,--build-id=none".split()
C_GAME = f"{TOP}/examples/c-game"
# What gdb says as it ends.
DETACHED = "[Inferior 1 (Remote target) detached]\n"


def program():
    """Returns the built program for gdb, or None; one that NDS_GDB_PROGRAM names has to be there."""
    if os.environ.get("NDS_GDB_PROGRAM"):
        return os.path.abspath(os.environ["NDS_GDB_PROGRAM"])
    built = [it for it in (f"{TOP}/out/nds-gdb", f"{TOP}/crates/nds_gdb/out/nds_gdb") if os.access(it, os.X_OK)]
    return built[0] if built else None


OWN = program()
IS_THERE = bool(GDB and GCC and OWN) and os.environ.get("NDS_PEERS") != "none"


def line_of(path, text):
    """Returns the number of the one line of a source that has a text."""
    with open(path) as it:
        found = [number for number, line in enumerate(it, 1) if text in line]
    assert len(found) == 1, (path, text, found)
    return found[0]


@unittest.skipUnless(IS_THERE, "gdb-multiarch, arm-none-eabi-gcc or a program for gdb isn't here; NDS_GDB_PROGRAM names one")
class Gdb(Room):
    """Each test has a folder of its own, in which it builds a game for debugging."""

    def compiled(self, name, cpu, linked, *words):
        """Builds an ELF file of start code and C by GNU's compiler."""
        words = [GCC, f"-mcpu={cpu}", *FLAGS, f"-I{C_GAME}", "-T", f"{C_GAME}/{linked}.ld", *words, "-o", f"{name}.elf", "-lgcc"]
        ran = subprocess.run(words, cwd=self.room, capture_output=True, text=True)
        self.assertEqual(ran.returncode, 0, ran.stderr)

    def packed(self, name, nine, seven=None, *words):
        """Packs a cartridge."""
        seven = ["--arm7", f"{seven}.elf"] if seven else []
        words = [f"{TOOLS}/make-cart", "--arm9", f"{nine}.elf", *seven, "-o", f"{name}.nds", *words]
        ran = subprocess.run(words, cwd=self.room, capture_output=True, text=True)
        self.assertEqual(ran.returncode, 0, ran.stderr)

    def c_game(self):
        """Builds examples/c-game for debugging."""
        self.compiled("game", "arm946e-s", "arm9", f"{C_GAME}/start9.s", f"{C_GAME}/game.c")
        self.compiled("seven", "arm7tdmi", "arm7", f"{C_GAME}/start7.s", f"{C_GAME}/seven.c")
        self.packed("c-game", "game", "seven")

    def of_tests(self, name, source, *words, seven=None):
        """Builds a game of the folder tools/tests/gdb."""
        self.compiled(name, "arm946e-s", "arm9", f"{C_GAME}/start9.s", *words, f"{HERE}/gdb/{source}.c")
        if seven:
            self.compiled("seven", "arm7tdmi", "arm7", f"{C_GAME}/start7.s", f"{HERE}/gdb/{seven}.c")
        self.packed(name, name, "seven" if seven else None)

    def target(self, cart, keys="none"):
        """Returns the command that begins a session."""
        return f'target remote | "{OWN}" {cart}.nds "{keys}"'

    def words_of(self, elf, elf7=None, remote=None):
        """Returns gdb's words up to the beginning of a session."""
        # (a program that takes more than gdb's two seconds to answer first is asked twice, and then gdb takes an answer for the next one's)
        begin = ["set remotetimeout 60", "set confirm off", "set width 0", "set pagination off", f"file {elf}.elf"]
        if elf7:
            begin.append(f"add-symbol-file {elf7}.elf")
        begin.append(remote)
        return [GDB, "-q", "-nx", "-nh", "-batch", *(word for it in begin for word in ("-ex", it))]

    def said(self, remote, *commands, elf, elf7=None):
        """Runs gdb with commands, and returns what each said, in their order; the beginning's stands first."""
        words = self.words_of(elf, elf7, remote)
        for it in commands:
            words += ["-ex", "echo @@\\n", "-ex", it]
        ran = subprocess.run(words, cwd=self.room, stdin=subprocess.DEVNULL, stdout=subprocess.PIPE, stderr=subprocess.STDOUT, text=True, timeout=SECONDS)
        parts = ran.stdout.replace(DETACHED, "").split("@@\n")
        self.assertEqual(len(parts), len(commands) + 1, ran.stdout[-3000:])
        return parts

    def tick_of(self, text):
        """Returns the tick that `monitor tick` told."""
        found = re.search(r"^tick (\d+)", text, re.M)
        self.assertTrue(found, text)
        return int(found[1])


def saved(cart, keys, tick, path):
    """Writes the state of a fresh run to a tick, by the program `nds`."""
    with open(path, "wb") as out:
        subprocess.run([PROGRAM, "save", cart, keys, str(tick)], stdout=out, check=True)


def but_turns(path):
    """Returns a saved state without its count of turns, which alone tells how a run was cut (docs/STATES.md)."""
    with open(path, "rb") as it:
        content = it.read()
    return content[:66] + content[74:]
