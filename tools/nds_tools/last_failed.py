"""Which tests weren't good when they ran last, so that --last-failed runs them alone."""
import os
from typing import Iterable, List, Set, Tuple

NAME = "last-failed"


class LastFailed:
    """A file of tests' paths, a line each, in the folder of what nds-test writes; where there is none, nothing failed."""

    def __init__(self, folder: str) -> None:
        self.folder, self.path = folder, os.path.join(folder, NAME)

    def read(self) -> Set[str]:
        if not os.path.exists(self.path):
            return set()
        with open(self.path, encoding="utf-8", errors="surrogateescape") as it:
            return {line.rstrip("\n") for line in it if line.strip()}

    def among(self, tests: List[Tuple[str, str]]) -> List[Tuple[str, str]]:
        """Returns those of the tests that weren't good when they ran last; all, where there is none of these."""
        failed = self.read()
        return [it for it in tests if os.path.abspath(it[0]) in failed] or tests

    def keep(self, ran: Iterable[Tuple[str, bool]]) -> None:
        """Takes the paths of tests that ran now, and whether each was good."""
        before = now = self.read()
        for path, is_good in ran:
            now = now - {os.path.abspath(path)} if is_good else now | {os.path.abspath(path)}
        if now and now != before:
            os.makedirs(self.folder, exist_ok=True)
            with open(self.path, "w", encoding="utf-8", errors="surrogateescape") as it:
                it.write("".join(f"{path}\n" for path in sorted(now)))
        elif before and not now:
            os.remove(self.path)
