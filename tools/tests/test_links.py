"""Tests that each link of a page leads to what is there, to a heading too where it names one."""
import os
import subprocess
import unittest

from made import TOP
from nds_tools import names
from nds_tools.links import headings, led_to, targets, with_live_links

SKIPPED = {".git", ".rt", "out", "built", "__pycache__", "nds-test-out"}


def pages():
    """Yields the repository's pages."""
    for at, folders, files in os.walk(TOP):
        folders[:] = [it for it in folders if it not in SKIPPED]
        for name in files:
            if name.endswith(".md"):
                yield os.path.relpath(os.path.join(at, name), TOP)


def read(name):
    with open(f"{TOP}/{name}", encoding="utf-8") as it:
        return it.read()


class Links(unittest.TestCase):
    def test_each_leads_to_something(self):
        dead, seen = [], 0
        for page in pages():
            for target in targets(read(page)):
                path, heading = led_to(page, target)
                is_there = os.path.exists(f"{TOP}/{path}")
                if is_there and heading and path.endswith(".md"):
                    is_there = heading in headings(read(path))
                seen += 1
                dead += [] if is_there else [f"{page}: {target}"]
        self.assertEqual([], dead, "links lead to nothing")
        self.assertGreater(seen, 100)

    def test_each_page_that_is_linked_is_committed(self):
        if not os.path.exists(f"{TOP}/.git"):
            self.skipTest("no repository")
        known = subprocess.run(["git", "-C", TOP, "ls-files", "-z"], capture_output=True, text=True).stdout.split("\0")
        folders = {os.path.dirname(it) for it in known}
        for page in (it for it in known if it.endswith(".md")):
            for target in targets(read(page)):
                path = led_to(page, target)[0]
                self.assertTrue(path in known or path in folders or any(it.startswith(f"{path}/") for it in folders), f"{page}: {target} isn't committed")

    def test_pages_that_tools_name_for_a_stop(self):
        swi = next(code for code, name in names.KINDS.items() if name == "Swi")
        rows = [(swi, 0x0E, "docs/COMING_FROM.md"), (swi, 0xAA, "docs/COMING_FROM.md"), (swi, 0x55, "docs/COMING_FROM.md")]
        rows += [(code, 0xAA, "docs/FORMATS.md") for code in (*names.KINDS, 99) if code != swi]
        for code, value, wanted in rows:
            path, heading = led_to("x.md", names.page(code, value))
            self.assertEqual(path, wanted)
            self.assertIn(heading, headings(read(path)))

    def test_what_is_read_of_a_page(self):
        page = (
            "# A b, c\n\nSee [x](y.md#z), ![p](q.png) and [two\nlines](../r/) or [s](https://t.u/v).\n\n    [code](w.md)\n\n"
            "```\n[more](code.md)\n# no heading\n```\n## `nds run`: what [it](x.md) does\n### A b, c\n"
        )
        self.assertEqual(targets(page), ["y.md#z", "q.png", "../r/", "x.md"])
        self.assertEqual(headings(page), {"a-b-c", "a-b-c-1", "nds-run-what-it-does"})
        rows = [("y.md#z", ("docs/y.md", "z")), ("#z", ("docs/page.md", "z")), ("../README.md", ("README.md", "")), ("bench/", ("docs/bench", ""))]
        for target, wanted in rows:
            self.assertEqual(led_to("docs/page.md", target), wanted)
        told = with_live_links("docs/page.md", page, lambda it: it in ("docs/y.md", "r"))
        self.assertEqual(told, page.replace("![p](q.png)", "p").replace("[it](x.md)", "it"))


if __name__ == "__main__":
    unittest.main()
