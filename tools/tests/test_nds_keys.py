"""`nds-keys`: scripts of the program, keys by frame, and recordings."""
import os
import subprocess
import unittest

from made import Room

FRAME = 1120380
HEAD = "version 1\nemuVersion 91300\nromChecksum 00000000\nromSerial NTR-XXXX-XXX\nguid 5A5A5A5A-0000-0000-0000-000000000000\nuseExtBios 0\nsavestate 0\n"
# Text, line, column, and a part of the reason: the rows of docs/SCRIPTS.md, and more.
BAD = [
    ("5 Q", 1, 3, "no key Q"),
    ("5 STOP", 1, 5, "no key STOP"),
    ("5 B+A", 1, 5, "A comes before B"),
    ("5 A+", 1, 5, "a key has to follow"),
    ("5 Y+", 1, 4, "no key comes after Y"),
    ("5", 1, 2, "the keys are missing"),
    ("05 A", 1, 2, "no leading zero"),
    ("123456789012 A", 1, 12, "11 digits"),
    ("100 A\n100 B", 2, 1, "isn't above 100"),
    ("5 A\n\n", 2, 1, "a line is empty"),
    ("5 A\r\n6 B\r\n", 1, 4, "carriage return"),
    ("5 R+LEFT", 1, 6, "LEFT comes before R"),
    ("5 a", 1, 3, "a is written A"),
    ("5  A", 1, 3, "one space"),
    ("5 A ", 1, 4, "one space"),
    ("5\tA", 1, 2, "one space has to follow"),
    ("5 -A", 1, 4, "nothing follows -"),
    ("# x\n", 1, 1, "begins with its tick"),
    ("5 RIG", 1, 6, "no key RIG"),
]


def row(keys="", command=0, touch=(0, 0, 0)):
    """Returns a line of a recording."""
    held = "".join(it if it in keys else "." for it in "RLDUTSBAYXWEG")
    return f"|{command}|{held}{touch[0]:03d} {touch[1]:03d} {touch[2]}|\n"


class NdsKeys(Room):
    TOOL, MODULE = "nds-keys", "keys_command"

    def test_a_script_is_checked_and_written_as_it_stands(self):
        good = ["", "0 -\n5 A+B+SELECT+START+RIGHT+LEFT+UP+DOWN+R+L+X+Y\n", "7 R", "7 RIGHT+R+L\n99999999999 -\n"]
        for text in good:
            self.put("a.keys", text)
            self.assertEqual(self.run_it("a.keys"), (0, text, ""))
        for text, line, column, why in BAD:
            with self.subTest(text=text):
                self.put("a.keys", text)
                status, out, note = self.run_it("a.keys")
                self.assertEqual((status, out), (2, ""))
                self.assertTrue(note.startswith(f"nds-keys: a.keys: line {line} column {column}: "), note)
                self.assertIn(why, note)

    @unittest.skipUnless(os.environ.get("NDS_PROGRAM"), "no program nds is built; NDS_PROGRAM names one")
    def test_the_program_refuses_them_at_the_same_place(self):
        top = os.path.dirname(os.path.dirname(os.path.dirname(os.path.realpath(__file__))))
        for text, line, column, _ in BAD:
            self.put("a.keys", text)
            words = [os.environ["NDS_PROGRAM"], "run", f"{top}/examples/first.nds", f"{self.room}/a.keys", "9", "none"]
            ran = subprocess.run(words, capture_output=True, text=True, timeout=60)
            self.assertEqual((ran.returncode, ran.stderr), (8, f"bad script: line {line} column {column}\n"), text)

    def test_keys_by_frame(self):
        self.put("a.keys", "hold LEFT 2-4 # all along\n# and\npress B+a 1 3\npress A 3-4\n")
        said = f"0 A+B\n{FRAME} LEFT\n{2 * FRAME} A+B+LEFT\n{3 * FRAME} A+LEFT\n{4 * FRAME} -\n"
        self.assertEqual(self.run_it("a.keys"), (0, said, ""))
        self.assertEqual(self.run_it("a.keys", "-o", "b.keys"), (0, "", ""))
        self.assertEqual(self.text("b.keys"), said)
        self.put("a.test", "cart game.nds\nframes 9\nkeep output\npress A 2\n")
        self.assertEqual(self.run_it("a.test"), (0, f"{FRAME} A\n{2 * FRAME} -\n", ""))

    def test_recordings(self):
        self.put("a.dsm", HEAD + row() + row("RA") + row("RA") + row("R") + row() + row("WEG") + row("LDUTSBYX"))
        said = f"{FRAME} A+RIGHT\n{3 * FRAME} RIGHT\n{4 * FRAME} -\n{5 * FRAME} R+L\n{6 * FRAME} B+SELECT+START+LEFT+UP+DOWN+X+Y\n{7 * FRAME} -\n"
        self.assertEqual(self.run_it("a.dsm"), (0, said.replace("RIGHT+A", "A+RIGHT"), ""))
        self.put("a.dsm", HEAD + row("A") + row("A", touch=(100, 20, 1)) + row("", 1))
        self.assertEqual(self.run_it("a.dsm"), (0, f"0 A\n{2 * FRAME} -\n", "nds-keys: a.dsm: 2 of 3 frames use the touch screen or the microphone, which are left out\n"))

    def test_what_is_none_of_these(self):
        rows = [
            ("a.dsm", HEAD, "a.dsm has no line of a frame"),
            ("a.dsm", HEAD + "|0|..|\n", "a.dsm: line 8 is no frame of a recording"),
            ("a.dsm", HEAD + row("", 2), "a.dsm: line 8: a reset, which a script can't have"),
            ("a.dsm", HEAD + row("", 4), "a.dsm: line 8: a closed lid"),
            ("a.dsm", "version 1\nbinary 1\n", "a.dsm: line 2: a binary recording: save it as text"),
            ("a.dsm", "version 1\nsavestate c3RhdGU=\n", "a.dsm: line 2: it begins in a saved state"),
            ("a.keys", "press A 3\n5 B\n", "a.keys: line 2: it begins with 5, and has to begin with press or hold"),
            ("a.keys", "press A\n", "a.keys: line 1: it wants keys and frames"),
            ("a.test", "cart game.nds\nframes 9\nkeep output\n", "a.test has no line `press` or `hold`"),
        ]
        for name, text, said in rows:
            with self.subTest(text=text):
                self.put(name, text)
                self.check([((name,), 2, said)])
        self.check([((), 2, "file"), (("absent.keys",), 2, "absent.keys: No such file")])
        self.put("a.keys", "press A 3\n")
        self.check_command("a.keys", status=0, text=f"{2 * FRAME} A")


if __name__ == "__main__":
    unittest.main()
