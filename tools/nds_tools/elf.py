"""ELF files for ARM, as linkers write them: segments by load address, symbols, where code lies, and where DTCM does."""
import struct
import zlib
from bisect import bisect_right
from dataclasses import dataclass, replace
from functools import cached_property
from typing import Dict, List, NamedTuple, Optional, Tuple

from nds_tools import dwarf
from nds_tools.dwarf_lines import Lines
from nds_tools.dwarf_types import Number, Part, Step, Types
from nds_tools.words import Untold, bytes_of

MAGIC = b"\x7fELF"
EXECUTABLE, ARM, LOADED = 2, 40, 1
ALLOC, CODE = 2, 4
SYMBOL_TABLE, NO_BYTES = 2, 8
OBJECT, FUNCTION, SECTION, FILE = 1, 2, 3, 4
CONSTANT = 0xFFF1
DTCM_BYTES = 0x4000
# What reading debugging information may come to that is cut, or of a form that isn't known.
UNREAD = (dwarf.BadDwarf, ArithmeticError, IndexError, KeyError, ValueError, RecursionError, zlib.error)
OTHER_TYPES = {0: "an ELF file of no type", 1: "an object file, which isn't linked yet", 3: "a shared object", 4: "a core file"}
OTHER_MACHINES = {3: "x86", 8: "MIPS", 20: "PowerPC", 62: "x86-64", 183: "AArch64", 243: "RISC-V"}


@dataclass(frozen=True)
class Segment:
    """A segment that is loaded: its bytes, where they are copied from (`load`) and where the program looks for them (`address`)."""

    address: int
    load: int
    content: bytes
    size: int
    is_code: bool


class Section(NamedTuple):
    """A section's header, in the file's order."""

    name_at: int
    kind: int
    flags: int
    address: int
    offset: int
    size: int
    link: int
    info: int
    alignment: int
    step: int


@dataclass(frozen=True)
class Symbol:
    """A symbol; a size of 0 isn't told. A constant, as of .equ, is no place of the program's. `home` is the number of its section."""

    name: str
    address: int
    size: int
    is_local: bool
    is_constant: bool
    kind: int = 0
    home: int = 0

    @property
    def is_variable(self) -> bool:
        return self.kind == OBJECT and self.size > 0 and not self.is_constant


class Field(NamedTuple):
    """A variable, or a field or element of one: its name with what leads there, where it begins, and how it is a number, where it is one."""

    name: str
    address: int
    number: Optional[Number]


class Elf:
    """An executable for ARM. What is none is refused by name."""

    def __init__(self, name: str, content: Optional[bytes] = None) -> None:
        self.name, self.content = name, bytes_of(name) if content is None else content
        try:
            self.check()
            head = struct.unpack_from("<4I2H3H3H", self.content, 0x14)
            self.entry, self.segments_at, self.sections_at = head[1], head[2], head[3]
            self.segment_size, self.segment_count = struct.unpack_from("<2H", self.content, 0x2A)
            self.section_size, self.section_count, self.names_in = struct.unpack_from("<3H", self.content, 0x2E)
            self.segments = self.read_segments()
            self.sections = self.read_sections()
            self.symbols = self.read_symbols()
        except (struct.error, IndexError, ValueError):
            raise Untold(f"{name} is a cut or damaged ELF file") from None
        self.placed = self.with_ends()
        self.found: Dict[int, str] = {}

    def check(self) -> None:
        """Refuses by name what isn't a little-endian executable of 32 bits for ARM."""
        if self.content[:4] != MAGIC:
            raise Untold(f"{self.name} is no ELF file")
        if self.content[4] != 1:
            raise Untold(f"{self.name} is an ELF file of 64 bits, and so for another machine than ARM9 and ARM7")
        if self.content[5] != 1:
            raise Untold(f"{self.name} is big-endian; the machine is little-endian")
        kind, machine = struct.unpack_from("<2H", self.content, 0x10)
        if machine != ARM:
            raise Untold(f"{self.name} is for another machine: {OTHER_MACHINES.get(machine, f'number {machine}')}, and not ARM")
        if kind != EXECUTABLE:
            raise Untold(f"{self.name} is {OTHER_TYPES.get(kind, f'an ELF file of type {kind}')}; it has to be a linked executable")

    def read_segments(self) -> List[Segment]:
        found = []
        for at in range(self.segment_count):
            head = struct.unpack_from("<8I", self.content, self.segments_at + at * self.segment_size)
            kind, offset, address, load, in_file, size, flags, _ = head
            if kind == LOADED:
                if offset + in_file > len(self.content):
                    raise Untold(f"{self.name} is a cut or damaged ELF file")
                found.append(Segment(address, load, self.content[offset : offset + in_file], size, bool(flags & 1)))
        return found

    def read_sections(self) -> List[Section]:
        step = self.section_size
        return [Section(*struct.unpack_from("<10I", self.content, self.sections_at + at * step)) for at in range(self.section_count)]

    def read_symbols(self) -> List[Symbol]:
        found = []
        for section in self.sections:
            if section.kind != SYMBOL_TABLE:
                continue
            texts = self.sections[section.link].offset
            for at in range(section.offset, section.offset + section.size, 16):
                name_at, value, size, info, _, home = struct.unpack_from("<3I2BH", self.content, at)
                name, kind = self.text(texts + name_at), info & 15
                if home and name and not name.startswith("$") and kind not in (SECTION, FILE):
                    address = value & ~1 if kind == FUNCTION else value
                    found.append(Symbol(name, address, size, info >> 4 == 0, home == CONSTANT, kind, home))
        return found

    def text(self, at: int) -> str:
        return self.content[at : self.content.index(0, at)].decode("utf-8", "replace")

    def section_name(self, section: Section) -> str:
        """Returns a section's name, or nothing where the file doesn't tell it."""
        if self.names_in >= len(self.sections):
            return ""
        at = self.sections[self.names_in].offset + section.name_at
        end = self.content.find(0, at)
        return self.content[at:end].decode("utf-8", "replace") if end >= 0 else ""

    def with_ends(self) -> List[Tuple[int, int, Symbol]]:
        """Returns each symbol that is a place with its address and the one after its last: by its size, or else up to the next symbol, and no
        further than its section."""
        places = sorted((it for it in self.symbols if not it.is_constant), key=lambda it: it.address)
        starts = sorted({it.address for it in places})
        found = []
        for it in places:
            following = bisect_right(starts, it.address)
            end = it.address + it.size if it.size else self.end_of(it, starts[following] if following < len(starts) else 0)
            found.append((it.address, end, it))
        return found

    def end_of(self, symbol: Symbol, next_at: int) -> int:
        """Returns where a symbol without a size ends, with the address of the next symbol, or 0 where none follows."""
        end = symbol.address + 1
        if symbol.home < len(self.sections):
            section = self.sections[symbol.home]
            if section.address <= symbol.address < section.address + section.size:
                end = section.address + section.size
        return min(end, next_at) if next_at else end

    @cached_property
    def debug(self) -> dwarf.Sections:
        """The sections of debugging information, of which a program built without -g has none."""
        found = dwarf.Sections()
        for it in self.sections:
            name = self.section_name(it)
            if name.startswith(".debug_") and it.kind != NO_BYTES:
                found[name] = dwarf.unpacked(self.content[it.offset : it.offset + it.size], it.flags)
        return found

    @cached_property
    def lines(self) -> Optional[Lines]:
        """Lines of source; None where they aren't told, or otherwise than they are read here."""
        parts = [(address, address + size) for address, size in self.code_parts()]
        try:
            return Lines(self.debug, lambda at: any(first <= at < end for first, end in parts))
        except UNREAD:
            return None

    @cached_property
    def types(self) -> Optional[Types]:
        """Types of variables; None where they aren't told, or otherwise than they are read here."""
        try:
            found = Types(self.debug)
            return found if found.variables else None
        except UNREAD:
            return None

    def line_of(self, address: int) -> str:
        """Returns an address's file and line of source, or nothing where they aren't told."""
        row = self.lines.at(address) if self.lines else None
        return f"{row.file}:{row.line}" if row else ""

    def field_at(self, address: int) -> Optional[Field]:
        """Returns the field of a variable that a byte belongs to; None where no type is told."""
        owner = self.owner(address)
        if owner is None or owner.kind == FUNCTION or self.types is None:
            return None
        try:
            part = self.types.field_at(owner.address, address - owner.address)
        except UNREAD:
            return None
        return Field(f"{owner.name}{part.path}", owner.address + part.offset, part.number) if part and part.kind else None

    def part_of(self, symbol: Symbol, steps: List[Step], text: str) -> Optional[Part]:
        """Returns the part of a variable to which fields and elements lead; None where there are none and its type isn't told."""
        if self.types is None:
            if steps:
                raise Untold(f"{text}: {self.name} doesn't tell the fields of {symbol.name}; build with -g")
            return None
        try:
            return self.types.found(symbol.address, steps, text) if steps or self.types.variable(symbol.address) else None
        except UNREAD:
            raise Untold(f"{text}: the types in {self.name} can't be read") from None

    def fields_of(self, part: Part) -> List[Part]:
        """Returns the fields of a structure, with what leads to each and its place in the structure; none where it is none."""
        try:
            return self.types.fields_of(replace(part, offset=0, path="")) if self.types else []
        except UNREAD:
            return []

    def find(self, name: str) -> Optional[Symbol]:
        """Returns the symbol of a name; a global one goes before local ones, of which there may be one alone."""
        found = [it for it in self.symbols if it.name == name]
        best = [it for it in found if not it.is_local] or found
        if len({it.address for it in best}) > 1:
            where = ", ".join(f"0x{it.address:08x}" for it in best)
            raise Untold(f"{self.name} has several symbols {name}, at {where}: give the address")
        return best[0] if best else None

    def owner(self, address: int) -> Optional[Symbol]:
        """Returns the symbol that an address belongs to: one with a size before one without, then the nearest, a global one, a variable or a
        function."""
        having = [it for first, end, it in self.placed if first <= address < end]
        return max(having, key=lambda it: (bool(it.size), it.address, not it.is_local, it.kind in (OBJECT, FUNCTION)), default=None)

    def near(self, address: int) -> str:
        """Returns `symbol` or `symbol+0xN` for the symbol that an address belongs to, or nothing; where the file tells more, `file.c:12 in symbol` of
        code behind the symbol, and the field of a variable that begins there."""
        if address not in self.found:
            best = self.owner(address)
            line = self.line_of(address) if best and best.kind != OBJECT else ""
            field = self.field_at(address) if best and best.kind == OBJECT else None
            more = f"+0x{address - best.address:x}" if best and best.address != address else ""
            self.found[address] = f"{best.name}{more}" if best else ""
            if line and best and best.address != address:
                self.found[address] = f"{line} in {best.name}"
            elif field and best and field.address == address != best.address:
                self.found[address] = field.name
        return self.found[address]

    def variables(self) -> List[Symbol]:
        """Returns the variables by address, of several at one place the first alone."""
        found: Dict[Tuple[int, int], Symbol] = {}
        for _, _, it in self.placed:
            if it.is_variable:
                found.setdefault((it.address, it.size), it)
        return list(found.values())

    def dtcm(self) -> Optional[int]:
        """Returns where the linker put DTCM: the symbol __dtcm_start or a section that has `dtcm` in its name, at a multiple of 16 KiB."""
        at = [it.address for it in self.symbols if it.name == "__dtcm_start"]
        at += [it.address for it in self.sections if it.flags & ALLOC and it.size and "dtcm" in self.section_name(it)]
        return at[0] // DTCM_BYTES * DTCM_BYTES if at else None

    def code_bytes(self) -> List[Tuple[int, bytes]]:
        """Returns the bytes of code that the file has, with the address that they are copied to at boot."""
        found = []
        for address, size in self.code_parts():
            for it in self.segments:
                at = address - it.address
                if 0 <= at < len(it.content):
                    found.append((it.load + at, it.content[at : at + size]))
        return found

    def code_parts(self) -> List[Tuple[int, int]]:
        """Returns the sections of code, or the segments where there are no sections, by address and size."""
        if not self.sections:
            return [(it.address, it.size) for it in self.segments if it.is_code]
        return [(it.address, it.size) for it in self.sections if it.flags & ALLOC and it.flags & CODE]

    def code(self) -> List[Tuple[int, int]]:
        """Returns where code lies, as first address and the one after the last, at the places that it runs at and is copied from."""
        found: Dict[Tuple[int, int], None] = {}
        for address, size in self.code_parts():
            found[(address, address + size)] = None
            for it in self.segments:
                if it.address <= address < it.address + it.size:
                    load = it.load + address - it.address
                    found[(load, load + size)] = None
        return list(found)
