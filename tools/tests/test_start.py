"""What each command does first: Python that is too old, streams that are closed or can't say a name, and an interruption while it begins."""
import ast
import os
import signal
import subprocess
import sys
import time
import unittest

from made import TOOLS, Room

PYTHON = sys.executable
TOLD_ALONE = ("definitions", "loop-in-line", "statement-size")
# Runs a command as another version of Python would begin it.
OLD = "import runpy, sys; sys.version_info = ({}, 'final', 0); sys.argv = [{!r}, '--help']; runpy.run_path({!r}, run_name='__main__')"
# A module that a command imports, and that takes long.
SLOW = "import os, time\nopen(os.environ['BEGUN'], 'w').close()\ntime.sleep(30)\n"


def commands():
    """Returns the commands of the folder tools by their names."""
    found = []
    for name in sorted(os.listdir(TOOLS)):
        path = f"{TOOLS}/{name}"
        if os.path.isfile(path) and os.access(path, os.X_OK) and name not in TOLD_ALONE:
            found.append(name)
    return found


class Start(Room):
    def ran(self, *words, shell=None, **environment):
        """Runs words, or a line of the shell; returns the status, the output and the notes."""
        # (output that isn't held back is written at once, and nothing is left for the end)
        kept = {name: it for name, it in os.environ.items() if name != "PYTHONUNBUFFERED"}
        given = {"cwd": self.room, "env": {**kept, **environment}, "capture_output": True, "timeout": 60}
        ran = subprocess.run(["sh", "-c", shell, "sh", *words] if shell else list(words), stdin=subprocess.DEVNULL, **given)
        return ran.returncode, ran.stdout.decode("latin-1"), ran.stderr.decode("utf-8", "replace")

    def test_python_that_is_too_old_is_told_in_a_line(self):
        for version, said in (("3, 6, 15", "3.6"), ("3, 8, 18", "3.8")):
            for name in commands():
                with self.subTest(name, version=version):
                    ran = self.ran(PYTHON, "-B", "-c", OLD.format(version, name, f"{TOOLS}/{name}"))
                    self.assertEqual(ran, (2, "", f"{name}: wants Python 3.9 or later, and this is {said}\n"))
        for name in commands():
            self.assertEqual(self.ran(PYTHON, "-B", f"{TOOLS}/{name}", "--help")[0], 0, name)

    def test_what_an_old_python_reads_is_written_as_it_reads(self):
        first = [f"{TOOLS}/{it}" for it in commands()] + [f"{TOOLS}/nds_tools/__init__.py", f"{TOOLS}/nds_tools/start.py"]
        rest = [f"{TOOLS}/nds_tools/{it}" for it in os.listdir(f"{TOOLS}/nds_tools") if it.endswith(".py")]
        for paths, version in ((first, (3, 7)), (rest + [f"{TOOLS}/{it}" for it in TOLD_ALONE], (3, 9))):
            for path in paths:
                with open(path, encoding="utf-8") as it:
                    ast.parse(it.read(), path, feature_version=version)

    def test_closed_and_full_streams(self):
        show = f"{TOOLS}/nds-show"
        self.put("one.test", "cart absent.nds\nframes 1\nkeep output\n")
        rows = [
            ('"$@" --help >&-', 2, "nds-show: standard output is closed\n"),
            ('"$@" --help >&- 2>&-', 2, ""),
            ('"$1" "$2" "${3%/*}/nds-test" . --list >/dev/full', 2, "nds-test: the system: No space left on device\n"),
            ('"$1" "$2" "${3%/*}/make-release" --help >/dev/full', 2, "make-release: the system: No space left on device\n"),
            ('"$@" --help >/dev/full', 2, "nds-show: the system: No space left on device\n"),
            ('"$@" absent 2>&-', 2, ""),
            ('"$@" absent 2>/dev/full', 2, ""),
            ('"$@" - <&-', 2, "nds-show: the output is empty: a run writes M and E, or X where it stops; see the run's status and note\n"),
            ('"$@" --help | :', 0, ""),
        ]
        for line, status, said in rows:
            with self.subTest(line):
                ran = self.ran(PYTHON, "-B", show, shell=line)
                self.assertEqual((ran[0], ran[2]), (status, said))

    def test_names_that_the_output_cannot_say(self):
        self.put("ä.test", "cart absent.nds\nframes 1\nkeep output\n")
        with open(os.fsencode(f"{self.room}/") + b"\xff.test", "wb") as it:
            it.write(b"cart absent.nds\nframes 1\nkeep output\n")
        for environment in ({"PYTHONIOENCODING": "ascii"}, {"LC_ALL": "C", "PYTHONCOERCECLOCALE": "0", "PYTHONUTF8": "0"}, {"PYTHONUTF8": "1"}):
            for words in (["--list"], [], ["--junit", "all.xml"]):
                with self.subTest(environment=environment, words=words):
                    status, out, notes = self.ran(PYTHON, "-B", f"{TOOLS}/nds-test", ".", *words, NDS_PROGRAM=self.nds, **environment)
                    self.assertEqual((status, notes), (0 if words == ["--list"] else 2, ""))
                    self.assertIn("\\udcff", out)

    def test_an_interruption_while_a_command_begins(self):
        self.put("slow/argparse.py", SLOW)
        for name in commands():
            with self.subTest(name):
                begun = f"{self.room}/begun-{name}"
                environment = {**os.environ, "PYTHONPATH": f"{self.room}/slow", "BEGUN": begun}
                run = subprocess.Popen([PYTHON, "-B", f"{TOOLS}/{name}"], env=environment, stdout=subprocess.PIPE, stderr=subprocess.PIPE)
                for _ in range(300):
                    if os.path.exists(begun):
                        break
                    time.sleep(0.05)
                run.send_signal(signal.SIGINT)
                out, notes = run.communicate(timeout=30)
                self.assertEqual((run.returncode, out, notes.decode()), (2, b"", f"{name}: interrupted\n"))

    def test_what_wants_the_sources_says_so_where_there_are_none(self):
        for name in TOLD_ALONE:
            with open(f"{TOOLS}/{name}") as it:
                self.put(f"tools/{name}", it.read())
            ran = self.ran(PYTHON, "-B", f"{self.room}/tools/{name}")
            self.assertEqual(ran, (2, "", f"{name}: there is no folder crates here: a release has no sources\n"))


if __name__ == "__main__":
    unittest.main()
