"""What differs between the results that are kept of a test and those of a run: values first, then frames, as ranges."""
import re
from dataclasses import dataclass, field
from typing import Callable, Dict, List

from nds_tools.game_tests import Results
from nds_tools.spans import joined

SHOWN = 4
KEY = re.compile(r"(?P<when>at frame \d+ )?(?P<kind>text|peek|decimal) (?P<name>.*)")
# A number as it is kept in hexadecimal digits: of a word, a half or a byte.
WORD = re.compile(r"[0-9a-f]{8}|[0-9a-f]{4}|[0-9a-f]{2}")
# Given a place with its bytes before and now, tells the first field that changed; nothing where no field is known.
Fields = Callable[[str, bytes, bytes], str]


def no_fields(name: str, before: bytes, now: bytes) -> str:
    return ""


# Results of which a run may have more or fewer, whatever the test's lines are.
COUNTED = ("vertex", "polygon")


@dataclass
class Changes:
    """Texts on values that changed, keys of frames that did, and lines that the test has and the kept results lack, or the other way round."""

    values: List[str] = field(default_factory=list)
    frames: List[str] = field(default_factory=list)
    added: List[str] = field(default_factory=list)
    gone: List[str] = field(default_factory=list)

    @property
    def is_none(self) -> bool:
        return not (self.values or self.frames or self.added or self.gone)

    @property
    def is_of_lines_alone(self) -> bool:
        """Tells whether every result that both have is the same: the test's lines changed, and not what the run gave."""
        return not (self.values or self.frames) and not self.is_none

    def lines(self, pictured: str) -> List[str]:
        """Returns a text for each change, the most telling first; `pictured` stands behind the frames'."""
        told = list(self.values)
        for screen, numbers in by_screen(self.frames).items():
            told.append(f"{joined(numbers)}{screen} changed{pictured if len(told) == len(self.values) else ''}")
        if self.added:
            told.append(f"nothing is kept of {', '.join(self.added)}")
        if self.gone:
            one, it = ("is", "it") if len(self.gone) == 1 else ("are", "them")
            told.append(f"{', '.join(self.gone)} {one} kept, and no line of the test asks for {it}")
        return told


def by_screen(keys: List[str]) -> Dict[str, List[int]]:
    """Returns the numbers of frames by what is told of their screen: nothing for both, otherwise which one."""
    found: Dict[str, List[int]] = {}
    for it in keys:
        _, number, *screen = it.split()
        found.setdefault(f" ({screen[0]} screen)" if screen else "", []).append(int(number))
    return found


def short(lines: List[str]) -> str:
    """Returns the first texts in one line, and how many more there are."""
    more = len(lines) - SHOWN
    return "; ".join(lines[:SHOWN]) + (f"; and {more} more, which --all tells" if more > 0 else "")


def value_change(key: str, before: str, now: str, fields: Fields = no_fields) -> str:
    """Tells of one result that changed: for words the first one that differs, and how many do; by its field's name where that is known."""
    form = KEY.fullmatch(key)
    if not form:
        return f"{key} was {before}, is {now}"
    when, kind, name = form["when"] or "", form["kind"], form["name"]
    if kind == "text":
        return f"{when}{name} was {before}, is {now}"
    one, two = before.split(), now.split()
    if len(one) != len(two):
        return f"{when}{name} was {len(one)} numbers, is {len(two)}"
    differ = [at for at, (a, b) in enumerate(zip(one, two)) if a != b]
    at = differ[0]
    more = f", and {len(differ) - 1} more of it" if len(differ) > 1 else ""
    if kind == "decimal" or not all(WORD.fullmatch(it) for it in one + two):
        return f"{when}{name}{f' number {at + 1}' if len(one) > 1 else ''} was {one[at]}, is {two[at]}{more}"
    named = fields(name, bytes_of_words(one), bytes_of_words(two))
    if named:
        return f"{when}{named}{more}"
    return f"{when}{name}{f' +0x{at * len(one[at]) // 2:x}' if at else ''} was {one[at]}, is {two[at]}{more}"


def bytes_of_words(words: List[str]) -> bytes:
    """Returns the bytes of numbers as they are kept, in hexadecimal digits."""
    return b"".join(int(it, 16).to_bytes(len(it) // 2, "little") for it in words)


def counted_change(kind: str, changed: List[str], kept: Results, now: Results) -> str:
    """Tells the first vertex or polygon that changed, came or went, and how many more did."""
    first = changed[0]
    told = value_change(first, kept.get(first, "nothing"), now.get(first, "nothing"))
    return told + (f", and {len(changed) - 1} {'vertices' if kind == 'vertex' else 'polygons'} more" if len(changed) > 1 else "")


def changes(kept: Results, now: Results, fields: Fields = no_fields) -> Changes:
    """Compares the results that are kept with those of a run."""
    found = Changes()
    counted: Dict[str, List[str]] = {it: [] for it in COUNTED}
    for key in [*now, *(it for it in kept if it not in now)]:
        kind = key.split()[0]
        if kept.get(key) == now.get(key):
            continue
        if kind in COUNTED and "swap" in kept and "swap" in now:
            counted[kind].append(key)
        elif key not in kept:
            found.added.append(key)
        elif key not in now:
            found.gone.append(key)
        elif kind == "frame":
            found.frames.append(key)
        else:
            found.values.append(value_change(key, kept[key], now[key], fields))
    found.values += [counted_change(kind, keys, kept, now) for kind, keys in counted.items() if keys]
    return found
