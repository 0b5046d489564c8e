"""The built program, the example games and their compiler, for tests of the tools on what that program makes of the examples."""
import os
import shutil
import subprocess
import unittest

from made import TOOLS, TOP, Room

CLANG = "14.0.6"
MODULES = {
    "make-cart": "cart_command",
    "nds-diff": "diff_command",
    "nds-frames": "frames_command",
    "nds-keys": "keys_command",
    "nds-show": "show_command",
    "nds-test": "games_command",
    "nds-trace": "trace_command",
    "nds-watch": "watch_command",
    "nds-when": "when_command",
}


def program():
    """Returns the built program's path, or None; one that NDS_PROGRAM names has to be there."""
    if os.environ.get("NDS_PROGRAM"):
        return os.path.abspath(os.environ["NDS_PROGRAM"])
    built = [it for it in (f"{TOP}/out/nds", f"{TOP}/crates/nds/out/nds") if os.access(it, os.X_OK)]
    return built[0] if built else None


PROGRAM = program()


def has_compiler():
    """Tells whether the compiler is here that built what is committed."""
    if not (shutil.which("clang") and shutil.which("ld.lld") and shutil.which("make")):
        return False
    return CLANG in subprocess.run(["clang", "--version"], capture_output=True, text=True).stdout


@unittest.skipUnless(PROGRAM, "no program nds is built; NDS_PROGRAM names one")
class Built(Room):
    """Each test has a folder of its own, and the built program."""

    def tool(self, name, *words, status=0, given=b""):
        """Runs a tool with the built program; returns its output."""
        self.TOOL, self.MODULE = name, MODULES[name]
        ran = self.run_it(*words, given=given, NDS_PROGRAM=PROGRAM)
        self.assertEqual(ran[0], status, ran[1][-2000:] + ran[2])
        return ran[1]

    def run_of(self, *words, status=0):
        """Runs the program in the examples' folder; returns its output."""
        ran = subprocess.run([PROGRAM, *words], cwd=f"{TOP}/examples", capture_output=True, timeout=60)
        self.assertEqual(ran.returncode, status, ran.stderr)
        return ran.stdout

    def copied(self, name, *edits, words=()):
        """Copies an example, edits a file of it by (file, old, new), and builds it, with more words for make."""
        shutil.copytree(f"{TOP}/examples/{name}", f"{self.room}/{name}")
        for file, old, new in edits:
            with open(f"{self.room}/{name}/{file}") as it:
                text = it.read()
            self.assertEqual(text.count(old), 1, old)
            self.put(f"{name}/{file}", text.replace(old, new))
        self.built_again(name, *words)

    def built_again(self, name, *words):
        """Builds a copied example anew."""
        words = ["make", "-s", "-B", f"TOOLS={TOOLS}", *words]
        ran = subprocess.run(words, cwd=f"{self.room}/{name}", capture_output=True, text=True, timeout=60)
        self.assertEqual(ran.returncode, 0, ran.stderr)

    def removed(self, name):
        shutil.rmtree(f"{self.room}/{name}")
