"""Where the memories of two outputs differ: variables by name, then words that belong to none."""
from dataclasses import dataclass, field
from functools import cached_property
from typing import Dict, Iterator, List, Optional, Tuple

from nds_tools import meanings, names
from nds_tools.builds import is_in_memory
from nds_tools.memory import Map
from nds_tools.records import Memory
from nds_tools.words import Untold

SHOWN, SHOWN_VARIABLES, SHOWN_BY_MEANING = 3, 40, 12
BLOCK = 4_096
# Where main memory has the header's copy, which tells how long the images are.
HEADER = ("main", 0x3F_FE00, 0x3F_FF70)
# A memory, the first offset, and the one after the last.
Range = Tuple[str, int, int]


@dataclass
class Part:
    """What differs in one part: how many of how many, and what to say of the first ones."""

    title: str
    every: int = 0
    count: int = 0
    lines: List[str] = field(default_factory=list)
    most: int = SHOWN
    aside: str = ""

    def add(self, differs: bool, line: str = "") -> None:
        self.every += 1
        self.count += differs
        if differs and len(self.lines) < self.most:
            self.lines.append(line)

    def said(self) -> List[str]:
        if not self.count:
            return []
        return [f"{self.title}: {self.count} of {self.every} differ{self.aside}", *(f"  {it}" for it in self.lines)]


@dataclass(frozen=True)
class Side:
    """One of both outputs: its memories, and what is known of its program."""

    record: Memory
    known: Map

    @cached_property
    def code(self) -> List[Tuple[int, int]]:
        """Where both programs have code, by address."""
        return [it for elf in self.known.elves if elf for it in elf.code()]

    def is_code(self, value: int) -> bool:
        """Whether a word points into code, of ARM or Thumb."""
        return any(first <= value & ~1 < end for first, end in self.code)

    def runs(self, proc: int) -> bool:
        """Whether the code of a processor's ELF file stands in memory, so that the file may be that of the program that ran."""
        elf = self.known.elves[proc]
        return elf is None or is_in_memory(elf, proc, self.known, self.record)

    def word(self, memory: str, at: int) -> int:
        return int.from_bytes(self.record.memories[memory][at : at + 4], "little")


def range_of(known: Map, proc: int, address: int, size: int) -> Optional[Range]:
    """Returns where bytes of a program lie, as much of them as one memory has; None where no memory is known there."""
    try:
        memory, at = known.place_of(proc, address)
    except Untold:
        return None
    return memory, at, min(at + size, names.SIZES[memory])


def variables(known: Map) -> Dict[str, Range]:
    """Returns the variables of both programs by name, ARM7's after `7:`; of several with one name the second one has ` (2)` behind it."""
    found: Dict[str, Range] = {}
    for proc, elf in enumerate(known.elves):
        for it in elf.variables() if elf else []:
            place = range_of(known, proc, it.address, it.size)
            name = f"{'7:' if proc else ''}{it.name}"
            again = sum(one == name or one.startswith(f"{name} (") for one in found)
            if place:
                found[f"{name} ({again + 1})" if again else name] = place
    return found


def code_ranges(known: Map) -> List[Range]:
    """Returns where code lies, and the header's copy."""
    found = [range_of(known, proc, first, end - first) for proc, elf in enumerate(known.elves) if elf for first, end in elf.code()]
    return [it for it in found if it] + [HEADER]


def value_line(name: str, one: bytes, two: bytes, known: Optional[Map] = None) -> str:
    """Tells of a variable that differs its value, or of a long one the first word that differs and how many more do; where types are known the
    first field, by its name."""
    if len(one) != len(two):
        return f"{name}: {len(one)} bytes and {len(two)} bytes"
    field = known.field_change(name, one, two) if known and " (" not in name else ""
    if field:
        places = sum(one[at : at + 4] != two[at : at + 4] for at in range(0, len(one), 4))
        return field.replace(" was ", ": ").replace(", is ", " and ") + (f", and more in {places - 1} words of it" if places > 1 else "")
    width = 4 if len(one) % 4 == 0 else 2 if len(one) % 2 == 0 else 1
    differ = [at for at in range(0, len(one), width) if one[at : at + width] != two[at : at + width]]
    values = " and ".join(f"{int.from_bytes(it[differ[0] : differ[0] + width], 'little'):0{2 * width}x}" for it in (one, two))
    place = f"{name}+0x{differ[0]:x}" if differ[0] else name
    return f"{place}: {values}{f', and {len(differ) - 1} more of it' if len(differ) > 1 else ''}"


def points_alone(a: Side, b: Side, one: Range, two: Range) -> bool:
    """Whether two variables of one size differ in words alone that point into code on both sides."""
    size = one[2] - one[1]
    if size % 4 or size != two[2] - two[1]:
        return False
    pairs = [(a.word(one[0], one[1] + at), b.word(two[0], two[1] + at)) for at in range(0, size, 4)]
    return all(x == y or (a.is_code(x) and b.is_code(y)) for x, y in pairs)


def compare_variables(a: Side, b: Side, skips_code: bool) -> Part:
    """Compares the variables that both programs have."""
    part, pointers, theirs = Part("variables", most=SHOWN_VARIABLES), 0, variables(b.known)
    for name, one in variables(a.known).items():
        two = theirs.get(name)
        if two is None:
            continue
        contents = [side.record.memories[memory][first:end] for side, (memory, first, end) in ((a, one), (b, two))]
        differs = contents[0] != contents[1]
        points = differs and points_alone(a, b, one, two)
        pointers += points
        part.add(differs and not points, value_line(name, *contents, a.known) if differs and not points else "")
    if part.count > len(part.lines):
        part.lines.append(f"and {part.count - len(part.lines)} more")
    if pointers and not skips_code:
        part.count += pointers
        part.aside = f"; {pointers} of them in pointers into code alone"
    return part


def blanked(content: bytes, ranges: List[Range], name: str) -> bytes:
    """Returns a memory with zeros in some ranges."""
    whole = bytearray(content)
    for memory, first, end in ranges:
        if memory == name:
            whole[first:end] = bytes(end - first)
    return bytes(whole)


def differing(one: bytes, two: bytes) -> Iterator[int]:
    """Returns the offsets of the words that differ."""
    for at in range(0, len(one), BLOCK):
        if one[at : at + BLOCK] != two[at : at + BLOCK]:
            yield from (it for it in range(at, min(at + BLOCK, len(one)), 4) if one[it : it + 4] != two[it : it + 4])


def compare_memory(a: Side, b: Side, skips_code: bool) -> List[Part]:
    """Compares each memory word by word, without the variables, which are told by name, and without code where it is left out."""
    skip = [*variables(a.known).values(), *variables(b.known).values()]
    outside = " outside variables" if skip else ""
    skip += [*code_ranges(a.known), *code_ranges(b.known)] if skips_code else []
    parts = []
    for name, size in names.SIZES.items():
        assumed = f" (DTCM is assumed at 0x{a.known.dtcm_base:07x})" if name == "dtcm" and a.known.is_dtcm_assumed else ""
        part, pointers = Part(f"{name}, words{outside}{assumed}", size // 4), 0
        for at in differing(blanked(a.record.memories[name], skip, name), blanked(b.record.memories[name], skip, name)):
            one, two = a.word(name, at), b.word(name, at)
            if a.is_code(one) and b.is_code(two):
                pointers += 1
                continue
            part.count += 1
            if name in ("oam", "palette"):
                told = meanings.changes(name, at, a.record.memories[name], b.record.memories[name])
                part.lines += [it for it in told if it not in part.lines][: max(SHOWN_BY_MEANING - len(part.lines), 0)]
            elif len(part.lines) < SHOWN:
                part.lines.append(f"{a.known.show(name, at)}: {one:08x} and {two:08x}")
        if pointers and not skips_code:
            part.count += pointers
            part.aside = f"; {pointers} of them are pointers into code"
        parts.append(part)
    return parts
