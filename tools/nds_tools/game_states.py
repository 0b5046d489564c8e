"""The saved states that tests begin from: whether one is there and is the cartridge's, and how one is made anew."""
import hashlib
import os
import re
import threading
from dataclasses import dataclass, field
from typing import Dict, List, Optional, Tuple

from nds_tools import names, scripts
from nds_tools.program import DONE, LEFT_OUT, finished, said, words_of_save
from nds_tools.state_fields import read_state
from nds_tools.states import Broken, Wanted, content_of, digest_of, head_of, is_state
from nds_tools.words import Untold, bytes_of

MAKES = "--update or --remake makes it"
BAD_STATE = re.compile(r"bad state: offset (\d+)")


@dataclass(frozen=True)
class Start:
    """Where a test begins: its state's file, the tick at which that is saved, 0 where the test doesn't tell, and the file of the keys that lead
    there, where they aren't the test's own."""

    state: str
    tick: int = 0
    keys: Optional[str] = None

    @property
    def is_made(self) -> bool:
        """Whether the test tells how to make the state."""
        return self.tick > 0

    def saved_at(self) -> int:
        """Returns the tick at which the test begins, by the state's file where the test doesn't tell."""
        return self.tick or head_of(self.state).tick


def start_of(words: List[str], folder: str) -> Start:
    """Reads what follows `from`: STATE, STATE frames N or STATE ticks N, and behind these keys F."""
    state, rest = os.path.join(folder, words[0]) if words else "", words[1:]
    if not state or (rest and (len(rest) not in (2, 4) or rest[0] not in ("frames", "ticks") or rest[2:3] not in ([], ["keys"]))):
        raise ValueError("from takes a state's file and how it is made: `from STATE frames N` or `ticks N`, and `keys F` behind for others' keys")
    if not rest:
        return Start(state)
    if not (rest[1].isascii() and rest[1].isdigit()) or int(rest[1]) < 1:
        raise ValueError(f"{rest[1]} is no number from 1")
    tick = names.ticks_of_frames(int(rest[1])) if rest[0] == "frames" else int(rest[1])
    keys = rest[3] if rest[2:] else None
    return Start(state, tick, keys if keys in (None, scripts.NONE) else os.path.join(folder, keys))


def merged(before: str, after: str, tick: int) -> str:
    """Returns a script with the lines of one below a tick, and those of another from it on."""
    lines = [it for it in before.splitlines() if tick_of(it) < tick]
    lines += [it for it in after.splitlines() if tick_of(it) >= tick]
    return "".join(f"{it}\n" for it in lines)


def tick_of(line: str) -> int:
    return int(line.split(" ")[0])


def text_of(name: str) -> str:
    """Returns the program's script for a file of keys; what is none is refused."""
    if name == scripts.NONE:
        return ""
    found = scripts.made_of(name)
    if found is None:
        with open(name, encoding="latin-1", newline="") as it:
            found = it.read()
    for line, column, why in scripts.faults(found):
        raise Untold(f"{name}: bad script: line {line} column {column}: {why}")
    return found


def why_not(start: Start, cart: str) -> str:
    """Returns why a test can't begin from its state as it is; nothing where it can."""
    if not os.path.exists(start.state):
        return f"there is no state {start.state} yet"
    head = head_of(start.state)
    if head.digest != digest_of(bytes_of(cart)):
        return f"{start.state} is a state of another build of {cart}"
    if start.is_made and head.tick != start.tick:
        return f"{start.state} was saved at tick {head.tick}, and the test begins at tick {start.tick}"
    return ""


def lacking(start: Start, cart: str) -> str:
    """As `why_not`, with what to do; where nothing can be done, the test can't be judged."""
    why = why_not(start, cart)
    if why and not start.is_made:
        raise Untold(f"{why}, and the test doesn't tell how to make one: `from {os.path.basename(start.state)} frames N` does")
    return f"{why}; {MAKES}{'' if why.startswith('there is no') else ' anew'}" if why else ""


@dataclass(frozen=True)
class Made:
    """How a state was made, and by which test."""

    recipe: Tuple[str, int, str]
    by: str
    changed: bool


@dataclass
class Maker:
    """Makes states, each once, whichever of the tests that begin from it comes first."""

    program: str
    timeout: float
    lock: threading.Lock = field(default_factory=threading.Lock)
    locks: Dict[str, threading.Lock] = field(default_factory=dict)
    made: Dict[str, Made] = field(default_factory=dict)

    def make(self, start: Start, cart: str, script: str, name: str) -> bool:
        """Makes the state from which the test `name` begins; returns whether that changed its file."""
        path = os.path.realpath(start.state)
        with self.lock:
            mine = self.locks.setdefault(path, threading.Lock())
        keys = "".join(f"{it}\n" for it in text_of(script).splitlines() if tick_of(it) < start.tick)
        recipe = hashlib.sha256(bytes_of(cart)).hexdigest(), start.tick, keys
        with mine:
            before = self.made.get(path)
            if before is None:
                before = self.made[path] = Made(recipe, name, self.save(start, cart, script))
            if before.recipe != recipe:
                raise Untold(f"{start.state} is made by {before.by} too, of another cartridge, tick or keys: it wants a name of its own")
        return before.changed

    def save(self, start: Start, cart: str, script: str) -> bool:
        """Runs to the tick and writes the state, through a new file; one that stays as it was is left, and a file that is none isn't written over.
        Returns whether it changed."""
        if os.path.exists(start.state) and os.path.getsize(start.state) and not is_state(start.state):
            raise Untold(f"{start.state} is no saved state, so none is written over it")
        status, out, note = finished(self.program, self.timeout, *words_of_save(cart, script, start.tick))
        if status == LEFT_OUT:
            raise Untold(f"{start.state} can't be made: the run stops before tick {start.tick}: {said(note, status)}")
        if status != DONE:
            raise Untold(f"{start.state} can't be made: {said(note, status)}")
        if os.path.exists(start.state) and bytes_of(start.state) == out:
            return False
        new = f"{start.state}.new"
        with open(new, "wb") as it:
            it.write(out)
        os.replace(new, start.state)
        return True


def explained(note: str, state: str, cart: str, until: int) -> str:
    """Adds to the program's refusal of a state which field that is, and why."""
    form = BAD_STATE.fullmatch(note)
    if not form:
        return note
    try:
        read_state(content_of(state), Wanted(digest_of(bytes_of(cart)), until))
    except Broken as why:
        if why.offset == int(form[1]):
            return f"{state}: {why}"
    except (OSError, Untold):
        pass
    return f"{state}: {note}"
