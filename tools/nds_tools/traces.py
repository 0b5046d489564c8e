"""Traces of a processor, as `nds trace` writes them (docs/WATCHING.md): read line by line, with each step's function."""
import re
from dataclasses import dataclass, field
from typing import Dict, Iterable, Iterator, List, NamedTuple, Optional, Tuple

from nds_tools.elf import Elf
from nds_tools.hangs import STUB
from nds_tools.words import Untold

LINE = re.compile(r"([0-9]{12}) ([0-9a-f]{8}) (?:irq|([0-9a-f]{8}|[0-9a-f]{4}) (.+))")
TARGET = re.compile(r"bl?x?[a-z]{0,2} 0x([0-9a-f]+)")
WAIT = re.compile(r"mcr.* p15, 0, r[0-9]+, c7, c0, 4")
# The stub's functions: first and last offset, and a name.
STUB_FUNCTIONS: List[Tuple[int, int, str]] = [
    (0x000, 0x01C, "vectors"),
    (0x020, 0x040, "entry of interrupts"),
    (0x044, 0x0AC, "dispatcher of swi"),
    (0x0B0, 0x0B8, "WaitByLoop"),
    (0x0BC, 0x124, "IntrWait"),
    (0x128, 0x134, "Halt"),
    (0x138, 0x19C, "Div"),
    (0x1A0, 0x1E0, "CpuSet"),
]
# Where the stub halts: CP15's wait on ARM9, the write of HALTCNT on ARM7.
STUB_HALTS = (0x104, 0x130)
NOWHERE = "(no symbol)"


class Step(NamedTuple):
    """A step: its tick, the instruction's address, its word or half in hexadecimal digits, and its statement; `irq`, without a word, is the entry of
    an interrupt."""

    tick: int
    address: int
    code: str
    text: str


def steps_in(lines: Iterable[bytes], name: str) -> Iterator[Step]:
    """Reads a trace's lines."""
    for at, line in enumerate(lines, 1):
        form = LINE.fullmatch(line.decode("ascii", "replace").rstrip("\n"))
        if not form:
            raise Untold(f"{name}: line {at} is none of a trace")
        yield Step(int(form[1]), int(form[2], 16), form[3] or "", form[4] or "irq")


@dataclass(frozen=True)
class Place:
    """A function and how far an address is in it."""

    function: str
    offset: int

    @property
    def is_entry(self) -> bool:
        """Whether it is a function's first instruction."""
        return self.offset == 0 and self.function != NOWHERE

    def __str__(self) -> str:
        return f"{self.function}{f'+0x{self.offset:x}' if self.offset else ''}"


@dataclass
class Functions:
    """Finds the function of an address: of the program by its symbols, of the boot ROM stub by its offsets."""

    proc: int
    elf: Optional[Elf]
    found: Dict[int, Place] = field(default_factory=dict)

    def at(self, address: int) -> Place:
        place = self.found.get(address)
        if place is None:
            place = self.found[address] = self.look(address)
        return place

    def look(self, address: int) -> Place:
        offset = address - STUB[self.proc]
        for first, last, name in STUB_FUNCTIONS:
            if first <= offset <= last:
                return Place(f"boot ROM {name}", offset - first)
        owner = self.elf.owner(address) if self.elf else None
        return Place(owner.name, address - owner.address) if owner else Place(NOWHERE, 0)

    def halts(self, step: Step) -> bool:
        """Whether a step halts the processor, so that the time to the next one isn't the step's."""
        return step.address - STUB[self.proc] in STUB_HALTS or WAIT.fullmatch(step.text) is not None

    def named(self, address: int) -> str:
        """Returns an address's place: by its line of source where the ELF file tells it, otherwise by how far it is in its function."""
        place = self.at(address)
        line = self.elf.line_of(address) if self.elf and place.offset else ""
        return f"{line} in {place.function}" if line else str(place)

    def shown(self, step: Step) -> str:
        """Writes a step's line with its place, and with the function that a branch goes to."""
        place = self.named(step.address)
        form = TARGET.fullmatch(step.text)
        target = str(self.at(int(form[1], 16))) if form else NOWHERE
        more = f"  ; {target}" if target != NOWHERE else ""
        return f"{step.tick:012d} {step.address:08x} {place:32} {step.code:8} {step.text}{more}"


@dataclass
class Spent:
    """What a function took: its steps, its ticks without halts, and how often it was entered at its first instruction."""

    steps: int = 0
    ticks: int = 0
    entered: int = 0


@dataclass
class Profile:
    """What each function took, from the first step to the last one, whose own time isn't told."""

    spent: Dict[str, Spent] = field(default_factory=dict)
    halted: int = 0
    first: int = 0
    last: int = 0

    @property
    def ticks(self) -> int:
        return self.last - self.first

    @property
    def steps(self) -> int:
        return sum(it.steps for it in self.spent.values())

    def rows(self) -> List[Tuple[str, Spent]]:
        """Returns functions and what they took, the most ticks first."""
        return sorted(self.spent.items(), key=lambda it: (-it[1].ticks, it[0]))


def profile_of(steps: Iterable[Step], functions: Functions) -> Profile:
    """Sums a trace by function: a step's ticks are those up to the next one."""
    whole, before, row = Profile(), None, Spent()
    for it in steps:
        place = functions.at(it.address)
        if before is None:
            whole.first = it.tick
        elif functions.halts(before):
            whole.halted += it.tick - before.tick
        else:
            row.ticks += it.tick - before.tick
        row = whole.spent.setdefault(place.function, Spent())
        row.steps += it.text != "irq"
        row.entered += place.is_entry and it.text != "irq"
        whole.last, before = it.tick, it
    return whole


class Stay(NamedTuple):
    """A run of steps in one function: where it begins, whether at the function's first instruction, and how many steps and ticks it takes."""

    tick: int
    place: Place
    steps: int
    ticks: int


def stays(steps: Iterable[Step], functions: Functions) -> Iterator[Stay]:
    """Returns a trace as runs of steps in one function each; the entry of an interrupt begins a new one."""
    start: Optional[Tuple[int, Place]] = None
    count, tick = 0, 0
    for it in steps:
        place, tick = functions.at(it.address), it.tick
        if start and (place.function != start[1].function or it.text == "irq"):
            yield Stay(start[0], start[1], count, tick - start[0])
            start = None
        if it.text == "irq":
            continue
        if start is None:
            start, count = (it.tick, place), 0
        count += 1
    if start:
        yield Stay(start[0], start[1], count, tick - start[0])
