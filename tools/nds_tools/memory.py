"""Places: which byte of which memory an address or a symbol names, as the maps of both processors stand at boot (docs/MEMORY.md)."""
import difflib
import json
import re
from dataclasses import dataclass
from functools import cached_property
from typing import List, NamedTuple, Optional, Tuple

from nds_tools import names
from nds_tools.dwarf_types import Number, Part, steps_of
from nds_tools.elf import Elf
from nds_tools.records import Memory
from nds_tools.words import Untold, number

PLACE = re.compile(r"(?:(?P<proc>[97]):)?(?P<base>@?[^:+]+)(?P<more>(?:\+\w+)*)(?::(?P<words>\w+))?")
# Numbers in a row, as 3s16 or u8: how many, whether they have a sign, and their bits.
NUMBERS = re.compile(r"(?P<count>\d*)(?P<sign>[us])(?P<bits>8|16|32)")
FORM = "[9:|7:]ADDRESS|SYMBOL[.FIELD|[N]]|@MEMORY[+BYTES][:WORDS or, as u8, s16, 3s32, numbers]"
# From, to, and the memory that repeats there.
NINE = ((0x0200_0000, 0x02FF_FFFF, "main"), (0x0500_0000, 0x05FF_FFFF, "palette"), (0x0700_0000, 0x07FF_FFFF, "oam"), (0, 0x01FF_FFFF, "itcm"))
SEVEN = ((0x0200_0000, 0x02FF_FFFF, "main"), (0x0300_0000, 0x037F_FFFF, "wram"), (0x0380_0000, 0x03FF_FFFF, "wram7"))
MOST_WORDS = 4_096
FIELDS_A_LINE = 6
# A bank of video memory that is mapped: whose addresses these are (0 for ARM9, 1 for ARM7), from, to, and its offset in video memory.
Bank = Tuple[int, int, int, int]


@dataclass(frozen=True)
class Place:
    """Bytes of one memory: `count` of them from `offset` on; `name` is how they were asked for. `number` is how they are numbers, where the place
    itself tells (as :s16, by `is_told`) or the ELF file does; `part` is what of a program's variables they are, where a symbol names them whole."""

    name: str
    memory: str
    offset: int
    count: int
    is_text: bool = False
    number: Optional[Number] = None
    is_told: bool = False
    proc: int = 0
    part: Optional[Part] = None

    def bytes_in(self, record: Memory) -> bytes:
        return record.memories[self.memory][self.offset : self.offset + self.count]

    @property
    def width(self) -> int:
        """How many bytes each of its numbers has: as is told, or words, or halves or bytes where they aren't whole words."""
        return self.number.width if self.number else width_of(self.count)

    @property
    def is_signed(self) -> bool:
        return self.number is not None and self.number.is_signed

    def told_in(self, record: Memory) -> str:
        """Returns its numbers in decimal digits, an enum's by name, or its text."""
        content = self.bytes_in(record)
        return json.dumps(text_in(content), ensure_ascii=False) if self.is_text else (self.number or Number(self.width)).told_all(content)


class Base(NamedTuple):
    """What stands before + and : in a place: memory, offset and size, 0 where it isn't known; and of a symbol the part of a variable that it is,
    where types are known, and whose it is."""

    memory: str
    offset: int
    size: int = 0
    part: Optional[Part] = None
    proc: int = 0


@dataclass(frozen=True)
class Map:
    """What is known of a program: its symbols, by processor; where DTCM lies, where somebody says so, and which banks of video memory are mapped
    where: an output doesn't tell, and a saved state does."""

    elves: Tuple[Optional[Elf], Optional[Elf]] = (None, None)
    dtcm: Optional[int] = None
    banks: Tuple[Bank, ...] = ()

    @cached_property
    def linked_dtcm(self) -> Optional[int]:
        """Where ARM9's ELF file has DTCM."""
        return self.elves[0].dtcm() if self.elves[0] else None

    @cached_property
    def dtcm_base(self) -> int:
        """Where DTCM lies: as was said, or as ARM9's ELF file has it, or else as it is at boot."""
        told = self.linked_dtcm if self.dtcm is None else self.dtcm
        return names.BASES["dtcm"] if told is None else told

    @property
    def is_dtcm_assumed(self) -> bool:
        """Whether nothing tells where DTCM lies."""
        return self.dtcm is None and self.linked_dtcm is None

    def place_of(self, proc: int, address: int) -> Tuple[str, int]:
        """Returns memory and offset of an address of ARM9 (0) or ARM7 (1)."""
        if proc == 0 and self.dtcm_base <= address < self.dtcm_base + names.SIZES["dtcm"]:
            return "dtcm", address - self.dtcm_base
        if proc == 0 and 0x0680_0000 <= address <= 0x06FF_FFFF:
            if address % 0x10_0000 < names.SIZES["vram"]:
                return "vram", address % 0x10_0000
        for first, last, memory in (NINE, SEVEN)[proc]:
            if first <= address <= last:
                return memory, address % names.SIZES[memory]
        for whose, first, last, offset in self.banks:
            if whose == proc and first <= address <= last:
                return "vram", offset + address - first
        more = ", since an output doesn't hold the banks' controls: give 0x6800000 and on, or @vram+OFFSET" if 0x0600_0000 <= address < 0x0680_0000 else ""
        more = ": no bank is mapped there" if more and self.banks else more
        raise Untold(f"no memory is known at 0x{address:08x} of {names.PROCESSORS[proc]}{more}")

    def has_none(self, proc: int, address: int) -> bool:
        """Whether no memory is at an address; a bank of video memory may be where an output doesn't tell of one."""
        try:
            self.place_of(proc, address)
        except Untold:
            return not 0x0600_0000 <= address < 0x0700_0000
        return False

    def word_at(self, proc: int, address: int, record: Memory, size: int = 4) -> Optional[int]:
        """Returns the word, or `size` bytes as a number, that a processor has at an address; None where no memory is known there."""
        try:
            memory, at = self.place_of(proc, address)
        except Untold:
            return None
        content = record.memories[memory][at : at + size]
        return int.from_bytes(content, "little") if len(content) == size else None

    def named(self, proc: int, address: int) -> str:
        """Returns an address, and in brackets the symbol of the processor's program that it belongs to."""
        elf = self.elves[proc]
        found = elf.near(address) if elf else ""
        return f"{address:08x}{f' ({found})' if found else ''}"

    def show(self, memory: str, offset: int) -> str:
        """Returns the usual address of a place, and the symbol that it belongs to."""
        address = (self.dtcm_base if memory == "dtcm" else names.BASES[memory]) + offset
        found = ""
        for elf in self.elves:
            found = found or (elf.near(address) if elf and memory not in ("palette", "vram", "oam") else "")
        return f"{address:08x}{' ' + found if found else ''}"

    def find(self, text: str, is_text: bool = False) -> Place:
        """Reads a place in the form of FORM."""
        form = PLACE.fullmatch(text)
        if not form:
            raise Untold(f"{text} is no place: it wants {FORM}")
        more = sum(self.count(text, it) for it in form["more"].split("+")[1:])
        memory, offset, size, part, proc = self.base(text, form["base"], form["proc"])
        kind = part.number if part else None
        numbers = NUMBERS.fullmatch(form["words"] or "")
        if numbers:
            kind = Number(int(numbers["bits"]) // 8, numbers["sign"] == "s")
            count = kind.width * int(numbers["count"] or 1)
        else:
            part = part if not (more or form["words"]) else None
            kind = part.number if part else None
            count = 4 * self.count(text, form["words"]) if form["words"] else max(size - more, 0) or 4
        offset += more
        if not 1 <= count <= 4 * MOST_WORDS or offset + count > names.SIZES[memory]:
            raise Untold(f"{text} is {count} bytes from {memory}+0x{offset:x} on, and has to be 1 to {MOST_WORDS} words of that memory")
        return Place(text, memory, offset, count, is_text, kind, numbers is not None, proc, None if numbers else part)

    def count(self, text: str, digits: str) -> int:
        try:
            return number(digits)
        except ValueError:
            raise Untold(f"{text} is no place: {digits} is no number{', as 2, or form, as u8 or 3s16' if ':' in text else ''}") from None

    def base(self, text: str, base: str, proc: Optional[str]) -> Base:
        """Reads what stands before + and : in a place."""
        if base.startswith("@"):
            if base[1:] not in names.SIZES:
                raise Untold(f"{text}: there is no memory {base[1:]}; there are {', '.join(names.SIZES)}")
            return Base(base[1:], 0)
        if base[0].isdigit():
            return Base(*self.place_of(1 if proc == "7" else 0, self.count(text, base)))
        for which in [0, 1] if proc is None else [0 if proc == "9" else 1]:
            elf = self.elves[which]
            found = self.symbol(text, base, which, elf) if elf else None
            if found:
                return found
        raise Untold(f"no symbol {base} is known{self.why_unknown(base, proc)}")

    def symbol(self, text: str, base: str, which: int, elf: Elf) -> Optional[Base]:
        """Returns where a symbol of a program is, or a field of it; None where the program has none of that name."""
        whole = elf.find(base)
        first, steps = (base, []) if whole else steps_of(base)
        found = whole or (elf.find(first) if steps else None)
        if found is None:
            return None
        memory, offset = self.place_of(which, found.address)
        part = elf.part_of(found, steps, text)
        inside, size = (part.offset, part.size) if part else (0, 0)
        return Base(memory, offset + inside, size or found.size, part, which)

    def why_unknown(self, base: str, proc: Optional[str]) -> str:
        """Returns why a symbol isn't known: which files have none, which weren't given, and one that may be meant."""
        asked = [0, 1] if proc is None else [0 if proc == "9" else 1]
        known = [f"elf{'97'[it]} {elf.name}" for it, elf in enumerate(self.elves) if elf and it in asked]
        lacking = [f"elf{'97'[it]}" for it, elf in enumerate(self.elves) if not elf and it in asked]
        if not known:
            return f", since no ELF file was given{'' if len(lacking) == 2 else ' for that processor: ' + lacking[0]}"
        has = f": {' and '.join(known)} {'has' if len(known) == 1 else 'have'} none"
        return f"{has}{self.alike(base)}{f'; {lacking[0]} was not given' if lacking else ''}"

    def field_change(self, text: str, before: bytes, now: bytes) -> str:
        """Tells the first field of a place that two contents have otherwise, by its name and both numbers; nothing where no ELF file tells it."""
        at = next((it for it, (one, two) in enumerate(zip(before, now)) if one != two), None)
        proc, begin = self.address_of(text)
        elf = self.elves[proc]
        field = elf.field_at(begin + at) if elf and at is not None and begin else None
        if at is None or field is None or field.number is None or field.address < begin:
            return ""
        first = at // field.number.width * field.number.width if field.number.is_character else field.address - begin
        parts = [content[first : first + field.number.width] for content in (before, now)]
        if len(parts[0]) < field.number.width:
            return ""
        name = f"{field.name}[{first - (field.address - begin)}]" if field.number.is_character and len(before) > 1 else field.name
        return f"{name} was {field.number.told(parts[0])}, is {field.number.told(parts[1])}"

    def fields_in(self, place: Place, content: bytes) -> List[str]:
        """Returns the fields of a place that is one whole structure, with what they hold, several a line."""
        elf = self.elves[place.proc]
        found = elf.fields_of(place.part) if elf and place.part else []
        told = [f"{it.path} {it.number.told_all(content[it.offset : it.offset + it.size])}" for it in found if it.number]
        return [", ".join(told[at : at + FIELDS_A_LINE]) for at in range(0, len(told), FIELDS_A_LINE)]

    def address_of(self, text: str) -> Tuple[int, int]:
        """Returns the processor of a place by symbol, and the address; an address of 0 where it is none by symbol."""
        form = PLACE.fullmatch(text)
        base = form["base"] if form else "@"
        if not form or base.startswith("@") or base[0].isdigit():
            return 0, 0
        for which in [0, 1] if form["proc"] is None else [0 if form["proc"] == "9" else 1]:
            elf = self.elves[which]
            first, steps = (base, []) if elf is None or elf.find(base) else steps_of(base)
            found = elf.find(first) if elf else None
            if elf and found:
                part = elf.part_of(found, steps, text)
                return which, found.address + (part.offset if part else 0) + sum(self.count(text, it) for it in form["more"].split("+")[1:])
        return 0, 0

    def alike(self, name: str) -> str:
        """Returns a question whether a symbol that is there was meant, or nothing where none is alike."""
        every = {it.name for elf in self.elves if elf for it in elf.symbols}
        found = difflib.get_close_matches(name, sorted(every), 3)
        return f"; is {' or '.join(found)} meant?" if found else ""


def width_of(count: int) -> int:
    """Returns how many bytes each number has where nothing tells: words, or halves or bytes where so many bytes aren't whole words."""
    return 4 if count % 4 == 0 else 2 if count % 2 == 0 else 1


def shown(content: bytes, width: int = 0) -> str:
    """Writes bytes as numbers of that many bytes, in hexadecimal digits; where that is 0, as `width_of` has it."""
    width = width or width_of(len(content))
    return " ".join(f"{int.from_bytes(content[at : at + width], 'little'):0{2 * width}x}" for at in range(0, len(content), width))


def text_in(content: bytes) -> str:
    """Returns the text up to the first zero; bytes that aren't UTF-8 are written as \\xNN."""
    return content.split(b"\0", 1)[0].decode("utf-8", "backslashreplace")
