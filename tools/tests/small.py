"""A small repository with a fake `rt`, for the tests of the commands at the top of this one."""
import os
import shutil
import subprocess
import sys
import tempfile
import unittest

TOP = os.path.dirname(os.path.dirname(os.path.dirname(os.path.realpath(__file__))))
TOOLS = "sh awk find sort tr xargs sha256sum cut cat cp mv rm mkdir grep sed tail head nproc sleep dirname wc git touch env chmod basename seq readlink mktemp nice date ls".split()


class Small(unittest.TestCase):
    """Each test has a folder of its own: `repository`, `bin` with all tools but `rt`, `fake` with `rt` alone, and `tmp`."""

    COMMAND, CRATES, FAKE = "", "", ""

    def setUp(self):
        # (with a space, which a path may have)
        self.room = os.path.realpath(tempfile.mkdtemp(prefix="tools tests-"))
        self.addCleanup(shutil.rmtree, self.room, ignore_errors=True)
        self.top = f"{self.room}/repository"
        for folder in ("bin", "fake", "tmp", "repository"):
            os.mkdir(f"{self.room}/{folder}")
        for tool in TOOLS:
            if not shutil.which(tool):
                self.skipTest(f"there is no command {tool}")
            os.symlink(shutil.which(tool), f"{self.room}/bin/{tool}")
        self.write(f"{self.room}/fake/rt", self.FAKE, 0o755)
        shutil.copy(f"{TOP}/{self.COMMAND}", f"{self.top}/{self.COMMAND}")
        shutil.copy(f"{TOP}/.gitignore", f"{self.top}/.gitignore")
        self.write(f"{self.top}/crates.txt", self.CRATES)
        for line in self.CRATES.split("\n"):
            name = line.partition(":")[0]
            if name and not name.startswith("#"):
                self.write(f"{self.top}/crates/{name}/src/lib.rt", f"// {name}\n")
        self.git("init", "-q")

    def write(self, file, text, mode=0o644):
        os.makedirs(os.path.dirname(file), exist_ok=True)
        with open(file, "w") as it:
            it.write(text)
        os.chmod(file, mode)

    def read(self, file):
        if not os.path.exists(file):
            return ""
        with open(file) as it:
            return it.read()

    def git(self, *words, at=None):
        name = ["-c", "user.name=test", "-c", "user.email=test@localhost", "-c", "init.defaultBranch=main"]
        subprocess.run(["git", *name, *words], cwd=at or self.top, check=True, stdout=subprocess.DEVNULL)

    def commit(self):
        self.git("add", "-A")
        self.git("commit", "-q", "-m", "small")

    def environment(self, has_rt=True, **more):
        paths = [f"{self.room}/fake"] * has_rt + [f"{self.room}/bin"]
        return {"PATH": ":".join(paths), "HOME": self.room, "TMPDIR": f"{self.room}/tmp", "FAKE": self.room, **more}

    def words(self, *words, at=None):
        command = f"{at or self.top}/{self.COMMAND}"
        is_python = self.read(command).startswith("#!/usr/bin/env python3")
        return [sys.executable, "-B", command, *words] if is_python else [command, *words]

    def run_it(self, *words, at=None, **how):
        """Runs the command; returns its status, its output and its notes."""
        there = {"cwd": self.room, "env": self.environment(**how), "stdin": subprocess.DEVNULL}
        ran = subprocess.run(self.words(*words, at=at), capture_output=True, text=True, timeout=60, **there)
        return ran.returncode, ran.stdout, ran.stderr

    def calls(self):
        """Returns what the fake rt was called with since the last time this was asked."""
        file = f"{self.room}/calls"
        found = self.read(file).splitlines()
        self.write(file, "")
        return found
