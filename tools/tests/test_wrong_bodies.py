"""`wrong-bodies`: what it tries, what it keeps, what it says, and each of its statuses."""
import os
import signal
import subprocess
import time
import unittest

from small import Small

FAKE = r"""#!/bin/sh
# What an edit's file says is what comes of it.
case "$1" in
version)
    cat "$FAKE/version" 2>/dev/null || echo kit ;;
all)
    echo "prove $4$([ -f ../low/out/rlib/stamp ] && echo " over kept")" >>"$FAKE/calls"
    echo "== summary"
    for name in $(sed -n 's/^all_that_are_tried: //p' ../../crates.txt); do
        [ -e "$FAKE/unproved-$name" ] && echo "$name: failed (1)" || echo "$name: ok"
    done ;;
must-fail)
    for edit in "crates/$2/must-fail"/*.edit; do
        name=$2/$(basename "$edit") says=$(cat "$edit")
        echo "$name" >>"$FAKE/calls"
        case $says in
        refused*) echo "rt: must-fail $name: refused, as it must be: src/lib.rt:1:1: error" ;;
        through) echo "rt: must-fail $name: NOT REFUSED: the crate is still proved with this edit" ;;
        bad) printf 'rt: must-fail %s: BAD EDIT: it did not reach the prover\nmore of it\n' "$name" ;;
        meets)
            touch "$FAKE/met-$2"
            for _ in $(seq 300); do
                [ -e "$FAKE/met-low" ] && [ -e "$FAKE/met-aside" ] && { echo "rt: must-fail $name: refused, as it must be"; break; }
                sleep 0.1
            done ;;
        waits) touch "$FAKE/waits"; sleep 50; touch "$FAKE/waited" ;;
        esac
    done ;;
esac
"""


class WrongBodies(Small):
    COMMAND = "wrong-bodies"
    CRATES = "# the crates\ntop: low thiserror\nlow:\naside:\n"
    FAKE = FAKE

    def setUp(self):
        super().setUp()
        self.commit()

    def edit(self, name, says="refused", folder="wrong-bodies"):
        crate, _, label = name.partition("/")
        self.write(f"{self.top}/crates/{crate}/{folder}/{label}.edit", says)

    def last(self, ran):
        return ran[0], ran[1].splitlines()[-1]

    def test_what_was_refused_is_kept(self):
        for name in ("top/one", "top/two", "low/one"):
            self.edit(name)
        self.assertEqual(self.last(self.run_it("--jobs", "1")), (0, "3 of 3 wrong bodies refused, 0 of them in an earlier run"))
        self.assertEqual(self.calls(), ["prove 1", "top/one.edit", "top/two.edit", "low/one.edit"])
        self.assertEqual(self.last(self.run_it()), (0, "3 of 3 wrong bodies refused, 3 of them in an earlier run"))
        self.assertEqual(self.calls(), [])
        self.assertEqual(self.last(self.run_it("low", "aside")), (0, "1 of 1 wrong bodies refused, 1 of them in an earlier run"))
        self.assertEqual(os.listdir(f"{self.room}/tmp"), [])

    def test_it_is_tried_again_where_what_it_rests_on_changed(self):
        rows = [
            ("crates/top/src/lib.rt", ["top/one.edit"]),
            ("crates/top/specs/Top.antt", ["top/one.edit"]),
            ("crates/top/proofs/Top.antt", ["top/one.edit"]),
            ("crates/low/src/lib.rt", ["top/one.edit", "low/one.edit"]),
            ("crates/low/notes.txt", []),
            ("crates/aside/src/lib.rt", []),
            ("crates/top/wrong-bodies/one.edit", ["top/one.edit"]),
            ("../version", ["low/one.edit", "top/one.edit"]),
        ]
        self.edit("top/one")
        self.edit("low/one")
        self.run_it()
        for file, calls in rows:
            with self.subTest(file=file):
                self.calls()
                self.write(f"{self.top}/{file}", "refused anew")
                self.assertEqual(self.run_it()[0], 0)
                self.assertEqual(sorted(it for it in self.calls() if "prove" not in it), sorted(calls))

    def test_what_is_let_through_or_is_bad_is_named_and_tried_again(self):
        rows = [
            ("through", 1, "top/one.edit: NOT REFUSED: the crate is still proved with this edit"),
            ("bad", 1, "top/one.edit: BAD EDIT: it did not reach the prover\nmore of it"),
            ("silent", 2, "top/one.edit: NOT JUDGED: "),
        ]
        self.edit("top/two")
        self.run_it()
        for says, status, line in rows:
            with self.subTest(says=says):
                self.edit("top/one", says)
                for _ in range(2):
                    ran = self.run_it()
                    self.assertEqual(self.last(ran), (status, "1 of 2 wrong bodies refused, 1 of them in an earlier run"))
                    self.assertIn(line, ran[1])
        self.edit("low/one", "through")
        self.assertEqual(self.run_it()[0], 1, "what is let through counts before what wasn't judged")

    def test_a_file_that_is_no_edit_fails(self):
        self.edit("low/one")
        self.write(f"{self.top}/crates/low/wrong-bodies/two.edits", "refused")
        self.write(f"{self.top}/crates/low/wrong-bodies/README.md", "to be read")
        ran = self.run_it("low")
        self.assertEqual(self.last(ran), (1, "1 of 2 wrong bodies refused, 0 of them in an earlier run"))
        self.assertIn("low/two.edits: BAD EDIT", ran[1])

    def test_the_edits_of_the_gate_are_not_tried(self):
        self.edit("low/named", folder="must-fail")
        self.edit("low/one")
        self.assertEqual(self.run_it()[0], 0)
        self.assertNotIn("low/named.edit", self.calls())
        self.assertEqual(os.listdir(f"{self.top}/crates/low/must-fail"), ["named.edit"])

    def test_what_is_kept_of_the_crates_is_taken_along(self):
        self.edit("top/one")
        self.write(f"{self.top}/crates/low/out/rlib/stamp", "")
        self.assertEqual(self.run_it("--jobs", "3")[0], 0)
        self.assertEqual(self.calls()[0], "prove 3 over kept")

    def test_crates_are_tried_side_by_side(self):
        self.edit("low/one", "meets")
        self.edit("aside/one", "meets")
        self.assertEqual(self.run_it("--jobs", "2")[0], 0)

    def test_nothing_is_judged(self):
        self.edit("top/one")
        self.write(f"{self.room}/unproved-top", "")
        rows = [
            ((), {}, "top: NOT JUDGED: the crate isn't proved"),
            (("none",), {}, "crates.txt has no crate none"),
            ((), {"has_rt": False}, "the command rt of the Rattle toolchain isn't found"),
            (("--jobs", "0"), {}, "a number above 0"),
            (("--wrong",), {}, "unrecognized arguments"),
        ]
        for words, how, line in rows:
            with self.subTest(words=words, how=how):
                ran = self.run_it(*words, **how)
                self.assertEqual(ran[0], 2)
                self.assertIn(line, ran[1] + ran[2])

    def test_help_needs_no_rt(self):
        ran = self.run_it("--help", has_rt=False)
        self.assertEqual((ran[0], ran[2]), (0, ""))
        self.assertIn("./wrong-bodies [--jobs N] [NAME..]", ran[1])

    def test_an_interrupted_run_leaves_nothing(self):
        for number in (signal.SIGINT, signal.SIGTERM):
            with self.subTest(number=number):
                self.edit("low/one", "waits")
                there = {"cwd": self.room, "env": self.environment(), "stdin": subprocess.DEVNULL}
                run = subprocess.Popen(self.words(), stdout=subprocess.DEVNULL, stderr=subprocess.DEVNULL, **there)
                until = time.monotonic() + 20
                while not os.path.exists(f"{self.room}/waits") and time.monotonic() < until:
                    time.sleep(0.05)
                run.send_signal(number)
                self.assertEqual(run.wait(20), 128 + number)
                self.assertEqual(os.listdir(f"{self.room}/tmp"), [])
                os.remove(f"{self.room}/waits")
        self.assertFalse(os.path.exists(f"{self.room}/waited"))


if __name__ == "__main__":
    unittest.main()
