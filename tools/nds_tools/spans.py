"""Numbers of frames as tests and messages write them: 60, 10-80."""
from dataclasses import dataclass
from typing import Iterable, List, Optional

from nds_tools.words import Untold

MOST_RANGES = 4


def span(text: str) -> range:
    """Reads `60` or `10-80`, numbers from 1, both ends included."""
    first, is_range, last = text.partition("-")
    if not is_range:
        last = first
    if not all(it.isascii() and it.isdigit() for it in (first, last)) or not 1 <= int(first) <= int(last):
        raise ValueError(f"{text} is no frame: it wants a number from 1, or a first and a last as 10-80")
    return range(int(first), int(last) + 1)


def ranges(numbers: Iterable[int]) -> List[range]:
    """Returns numbers as ranges, in rising order; numbers that follow one another are in one."""
    found: List[range] = []
    for it in sorted(set(numbers)):
        if found and found[-1].stop == it:
            found[-1] = range(found[-1].start, it + 1)
        else:
            found.append(range(it, it + 1))
    return found


def joined(numbers: Iterable[int]) -> str:
    """Writes frames by their numbers: `frame 3`, `frames 1-5, 9`, or, where these would be many ranges, `40 frames from 60 to 2400`."""
    found = ranges(numbers)
    count = sum(map(len, found))
    if count == 1:
        return f"frame {found[0].start}"
    if len(found) > MOST_RANGES:
        return f"{count} frames from {found[0].start} to {found[-1].stop - 1}"
    return "frames " + ", ".join(str(it.start) if len(it) == 1 else f"{it.start}-{it.stop - 1}" for it in found)


@dataclass(frozen=True)
class Wanted:
    """Frames from the first to the last, where there is one, and of these each Nth."""

    first: int = 1
    last: Optional[int] = None
    every: int = 1

    def has(self, number: int) -> bool:
        return self.first <= number <= (self.last or number) and (number - self.first) % self.every == 0


def wanted(text: Optional[str], every: int = 1) -> Wanted:
    """Reads what follows --frame; without it all frames are wanted."""
    if text is None:
        return Wanted(every=every)
    try:
        found = span(text)
    except ValueError as why:
        raise Untold(f"--frame {why}") from None
    return Wanted(found.start, found.stop - 1, every)
