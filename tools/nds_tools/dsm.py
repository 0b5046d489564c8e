"""Recordings of DeSmuME (.dsm): a text with a head and a line for each frame, `|COMMAND|RLDUTSBAYXWEG000 000 0|`."""
import re
from dataclasses import dataclass, field
from typing import FrozenSet, List, Tuple

from nds_tools.words import Untold

ENDING = ".dsm"
# In the order of a line; what isn't held is a dot or a space there. G is a key of developers' consoles.
LETTERS = ("RIGHT", "LEFT", "DOWN", "UP", "START", "SELECT", "B", "A", "Y", "X", "L", "R", "")
LINE = re.compile(r"\|(\d+)\|(.{13})\s*(\d+) +(\d+) +(\d)\|.*")
MICROPHONE, RESET, LID = 1, 2, 4


@dataclass
class Recording:
    """Which keys are held in which frames, from 1, first and last included; and in how many frames something is left out."""

    held: List[Tuple[FrozenSet[str], int, int]] = field(default_factory=list)
    frames: int = 0
    touched: int = 0

    def add(self, keys: FrozenSet[str]) -> None:
        """Takes the keys of the next frame."""
        self.frames += 1
        if self.held and self.held[-1][0] == keys and self.held[-1][2] == self.frames - 1:
            self.held[-1] = (keys, self.held[-1][1], self.frames)
        elif keys:
            self.held.append((keys, self.frames, self.frames))


def check_head(line: str, where: str) -> None:
    """Refuses what a head says that can't be played here."""
    key, _, value = line.partition(" ")
    if key == "binary" and value.strip() not in ("", "0"):
        raise Untold(f"{where}: a binary recording: save it as text")
    if key == "savestate" and value.strip() not in ("", "0"):
        raise Untold(f"{where}: it begins in a saved state, and a run begins at boot")


def read(text: str, name: str) -> Recording:
    """Reads a recording. The touch screen and the microphone are left out; a reset or a closed lid is refused."""
    found = Recording()
    for at, line in enumerate(text.split("\n"), 1):
        where, line = f"{name}: line {at}", line.rstrip("\r")
        if not line.startswith("|"):
            check_head(line, where)
            continue
        form = LINE.fullmatch(line)
        if not form:
            raise Untold(f"{where} is no frame of a recording, as |0|.............000 000 0|")
        command = int(form[1])
        if command & (RESET | LID):
            raise Untold(f"{where}: {'a reset' if command & RESET else 'a closed lid'}, which a script can't have")
        found.touched += form[5] != "0" or bool(command & MICROPHONE)
        found.add(frozenset(key for key, it in zip(LETTERS, form[2]) if key and it not in ". "))
    if not found.frames:
        raise Untold(f"{name} has no line of a frame, as |0|.............000 000 0|")
    return found
