"""`make-release`: what the archive holds, that it is tried, and what is refused; in a small repository whose program is a script."""
import hashlib
import os
import re
import shutil
import subprocess
import sys
import tarfile
import unittest

from small import TOP, Small

VERSION = re.search(r"^version=(.*)$", open(f"{TOP}/nds").read(), re.M)[1]
# Makes a program that assembles anything to its name.
FAKE = r"""#!/bin/sh
[ "$1" = version ] && { echo "rattle-kit-0 logic 0"; exit 0; }
[ "$1" = all ] && exit 0
mkdir -p out
printf '#!/bin/sh\n[ "$1" = asm ] || exit 2\necho "$2"\n' >out/nds
chmod +x out/nds
"""


class MakeRelease(Small):
    COMMAND, CRATES, FAKE = "nds", "nds: low\nlow:\n", FAKE

    def setUp(self):
        super().setUp()
        for name in ("README.md", "CHANGELOG.md", "LICENSE-MIT", "LICENSE-APACHE", "docs/FORMATS.md", "docs/bench/run.md", "examples/loop.arm9.txt"):
            self.write(f"{self.top}/{name}", f"{name}: `rattle-kit-0 logic 0`\n")
        shutil.copytree(f"{TOP}/tools", f"{self.top}/tools", ignore=shutil.ignore_patterns("__pycache__", "hostile", "tests", "*.new"))
        self.commit()

    def make(self, *words, **how):
        """Runs the tool; returns its status, its output and its notes."""
        there = {"cwd": self.room, "env": self.environment(**how), "stdin": subprocess.DEVNULL}
        ran = subprocess.run([sys.executable, "-B", f"{self.top}/tools/make-release", *words], capture_output=True, text=True, timeout=60, **there)
        return ran.returncode, ran.stdout, ran.stderr

    def commit_of(self, form):
        return subprocess.run(["git", "log", "-1", f"--format={form}"], cwd=self.top, capture_output=True, text=True).stdout.strip()

    def test_an_archive_runs_without_the_toolchain_and_is_made_again_the_same(self):
        status, out, notes = self.make()
        folder = f"nds-{VERSION}-{self.commit_of('%h')}"
        self.assertEqual((status, notes.count("\n")), (0, 1), out + notes)
        content = open_bytes(f"{self.room}/{folder}.tar.gz")
        self.assertRegex(out, rf"^{folder}\.tar\.gz: \d+ files, {len(content):,} bytes; tried: no tests\nprogram [0-9a-f]{{64}}\nversion {VERSION}\n")
        self.assertEqual(self.read(f"{self.room}/{folder}.tar.gz.sha256"), f"{hashlib.sha256(content).hexdigest()}  {folder}.tar.gz\n")
        self.assertEqual(self.make("-o", "again.tgz")[0], 0)
        self.assertEqual(open_bytes(f"{self.room}/again.tgz"), content)
        top = self.unpacked("again.tgz", folder)
        names = [os.path.relpath(os.path.join(at, it), top) for at, _, files in os.walk(top) for it in files]
        self.assertEqual([it for it in names if it.startswith(("crates", "docs/bench", "tools/tests", "tools/make-release", "tools/definitions"))], [])
        for name in ("nds", "out/nds", "out/nds.proved", "tools/nds-test", "tools/nds_tools/png.py", "docs/FORMATS.md", "LICENSE-MIT", "CHANGELOG.md"):
            self.assertIn(name, names)
        checked = subprocess.run(["sha256sum", "-c", "--quiet", "SHA256SUMS"], cwd=top, capture_output=True, text=True)
        self.assertEqual((checked.returncode, len(self.read(f"{top}/SHA256SUMS").splitlines())), (0, len(names) - 1), checked.stdout)
        self.assertEqual(self.run_it("asm", "x", at=top, has_rt=False), (0, "x\n", ""))
        said = self.run_it("--version", at=top, has_rt=False)[1].splitlines()
        self.assertEqual((said[0], said[2:4]), (f"nds {VERSION}, proved", [f"commit  {self.commit_of('%H')}", "kit  rattle-kit-0 logic 0"]))

    def unpacked(self, name, folder):
        with tarfile.open(f"{self.room}/{name}") as tar:
            tar.extractall(f"{self.room}/there", **({"filter": "data"} if hasattr(tarfile, "data_filter") else {}))
        return f"{self.room}/there/{folder}"

    def test_the_tag_of_the_version_gives_the_archive_its_name(self):
        self.git("tag", f"v{VERSION}")
        self.assertEqual(self.make()[0], 0)
        self.assertTrue(os.path.exists(f"{self.room}/nds-{VERSION}.tar.gz"))
        self.assertTrue(os.path.exists(f"{self.unpacked(f'nds-{VERSION}.tar.gz', f'nds-{VERSION}')}/out/nds"))

    def test_links_to_what_is_not_packed_are_texts_there(self):
        page = "See [the rules](FORMATS.md), [runs](bench/run.md#fast), [the\ncrate](../crates/low/) and [a site](https://example.org/x).\n\n    [code](bench/run.md)\n"
        self.write(f"{self.top}/docs/USING.md", page)
        self.commit()
        self.assertEqual(self.make("-o", "a.tgz")[0], 0)
        told = self.read(f"{self.unpacked('a.tgz', 'nds-' + VERSION + '-' + self.commit_of('%h'))}/docs/USING.md")
        self.assertEqual(told, "See [the rules](FORMATS.md), runs, the\ncrate and [a site](https://example.org/x).\n\n    [code](bench/run.md)\n")

    def test_states_that_tests_begin_from_are_packed(self):
        self.write(f"{self.top}/examples/game/later.test", "frames 9\nfrom later.state frames 3\n")
        # (a fake of nds-test: it makes a state, and then wants it)
        fake = "import os, sys\np = 'examples/game/later.state'\n" \
            "if '--remake' in sys.argv: assert sys.argv[1:-1] == ['examples/game/later.test']; open(p, 'w').write('state')\nelif not os.path.exists(p): sys.exit('NEW  no state')\nprint('1 tests: 1 PASS')\n"
        self.write(f"{self.top}/tools/nds-test", fake, 0o755)
        self.commit()
        status, out, _ = self.make("-o", "a.tgz")
        self.assertEqual((status, out.partition("; ")[2].splitlines()[0]), (0, "tried: 1 tests: 1 PASS"))
        top = self.unpacked("a.tgz", f"nds-{VERSION}-{self.commit_of('%h')}")
        self.assertEqual(self.read(f"{top}/examples/game/later.state"), "state")
        self.assertIn("  examples/game/later.state\n", self.read(f"{top}/SHA256SUMS"))

    def test_a_program_that_was_built_elsewhere(self):
        self.write(f"{self.room}/built", '#!/bin/sh\n[ "$1" = asm ] && echo built\n', 0o755)
        sum_of = hashlib.sha256(open_bytes(f"{self.room}/built")).hexdigest()
        sources = self.run_it("--sources")[1].strip()
        right = {"program": sum_of, "sources": sources, "commit": "0, and changes", "kit": "rattle-kit-0 logic 0"}
        refused = f"make-release: nobody tells that built was proved: built.proved, which ./nds writes when it has proved and built it, is "
        rows = [
            ({}, 1, refused + "not there\n"),
            ({**right, "program": 64 * "0"}, 1, refused + "of another program\n"),
            ({**right, "kit": ""}, 1, refused + "of another program\n"),
            ({**right, "sources": 64 * "0"}, 1, "make-release: built was proved of other sources than those that are here\n"),
            (right, 0, ""),
        ]
        for proved, status, said in rows:
            with self.subTest(said):
                if proved:
                    self.write(f"{self.room}/built.proved", "".join(f"{name} {text}\n" for name, text in proved.items()))
                ran = self.make("--program", "built", "-o", "a.tgz", has_rt=False)
                self.assertEqual((ran[0], ran[2]), (status, said))
        self.assertEqual(ran[1].splitlines()[1:], [
            f"program {sum_of}", f"version {VERSION}", f"sources {sources}", f"commit {self.commit_of('%H')}", "kit rattle-kit-0 logic 0"])  # fmt: skip

    def test_the_program_for_gdb_is_packed_where_it_was_proved(self):
        lacks = "without nds-gdb: nobody tells of a program for gdb that it was proved of these sources"
        shutil.copy(f"{TOP}/nds-gdb", f"{self.top}/nds-gdb")
        self.write(f"{self.top}/crates.txt", "nds: low\nlow:\nnds_gdb: low\n")
        self.write(f"{self.top}/crates/nds_gdb/src/main.rt", "// for gdb\n")
        self.write(f"{self.top}/examples/loop.nds", "a cartridge\n")
        self.commit()
        folder = f"nds-{VERSION}-{self.commit_of('%h')}"
        status, out, _ = self.make("-o", "a.tgz")
        self.assertEqual((status, out.splitlines()[-1]), (0, lacks))
        self.assertEqual([it for it in os.listdir(self.unpacked("a.tgz", folder)) if "gdb" in it], [])
        self.write(f"{self.top}/out/nds-gdb", '#!/bin/sh\n[ "$2" = none ] && grep -q cartridge "$1"\n', 0o755)
        sources = subprocess.run([f"{self.top}/nds-gdb", "--sources"], env=self.environment(), capture_output=True, text=True).stdout.strip()
        told = f"sources {sources}\nkit rattle-kit-0 logic 0\n"
        for proved, is_told in (("", False), (f"program {64 * '0'}\n{told}", False)):
            self.write(f"{self.top}/out/nds-gdb.proved", proved)
            self.assertEqual(self.make("-o", "a.tgz")[1].splitlines()[-1] != lacks, is_told)
        proved = f"program {hashlib.sha256(open_bytes(f'{self.top}/out/nds-gdb')).hexdigest()}\n{told}"
        self.write(f"{self.top}/out/nds-gdb.proved", proved)
        status, out, notes = self.make("-o", "a.tgz")
        self.assertEqual((status, out.count("without")), (0, 0), notes)
        shutil.rmtree(f"{self.room}/there")
        top = self.unpacked("a.tgz", folder)
        ran = subprocess.run([f"{top}/nds-gdb", "--version"], env=self.environment(False), capture_output=True, text=True)
        self.assertEqual(ran.stdout.splitlines()[:2], [f"nds-gdb {VERSION}, proved", f"sources  {sources}"])
        self.assertTrue(os.access(f"{top}/tools/nds-gdb-rom.py", os.R_OK))
        for path, content, said in (("unproved", "AddressSanitizer", "compiled with checks and before any proof"), ("own", "x", "nobody tells that own was proved")):
            self.write(f"{self.room}/{path}", f"#!/bin/sh\n# {content}\n", 0o755)
            ran = self.make("--gdb", path)
            self.assertEqual(ran[0], 1)
            self.assertIn(said, ran[2])

    def test_what_is_refused(self):
        self.write(f"{self.room}/wrong", "#!/bin/sh\nexit 3\n", 0o755)
        self.write(f"{self.room}/text", "text\n", 0o755)
        self.write(f"{self.room}/checked", "#!/bin/sh\n# AddressSanitizer\n", 0o755)
        rows = [
            (("--program", "wrong"), 2, "wrong doesn't assemble examples/loop.arm9.txt, so it isn't the program nds"),
            (("--program", "text"), 2, "text is no program"),
            (("--program", "absent"), 2, "absent: No such file"),
            (("--program", "checked"), 1, "checked was compiled with checks and before any proof"),
            (("--fly",), 2, "unrecognized arguments: --fly"),
        ]
        for words, status, said in rows:
            ran = self.make(*words)
            self.assertEqual((ran[0], ran[1]), (status, ""))
            self.assertIn(said, ran[2])
        self.write(f"{self.top}/crates/low/src/lib.rt", "// changed\n")
        self.assertEqual(self.make()[::2], (1, "make-release: crates/low/src/lib.rt isn't as it is committed: commit first\n"))
        self.git("checkout", "-q", ".")
        self.write(f"{self.top}/docs/new.md", "new\n")
        self.assertEqual(self.make()[::2], (1, "make-release: docs/new.md isn't as it is committed: commit first\n"))
        os.remove(f"{self.top}/docs/new.md")
        self.write(f"{self.top}/examples/c-game/tests/one.test", "cart absent.nds\nframes 1\nkeep output\n")
        self.commit()
        self.assertIn("make-release: the archive's tests don't pass: ERROR   examples/c-game/tests/one: ", self.make()[2])
        self.assertEqual([it for it in os.listdir(self.room) if it.startswith("nds-")], [], "none is handed out")


def open_bytes(path):
    with open(path, "rb") as it:
        return it.read()


if __name__ == "__main__":
    unittest.main()
