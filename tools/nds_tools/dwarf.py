"""DWARF, as compilers write it into an ELF file: its entries with their attributes, of versions 2 to 5 in the format of 32 bits.

Names of tags, attributes and forms are those of the DWARF Debugging Information Format, Version 5, chapter 7, without their beginnings."""
import zlib
from dataclasses import dataclass, field
from typing import Dict, Iterator, List, NamedTuple, Optional, Tuple, Union

ARRAY_TYPE, CLASS_TYPE, ENUMERATION_TYPE, MEMBER, POINTER_TYPE, REFERENCE_TYPE = 0x01, 0x02, 0x04, 0x0D, 0x0F, 0x10
STRUCTURE_TYPE, TYPEDEF, UNION_TYPE, INHERITANCE, SUBRANGE_TYPE, BASE_TYPE = 0x13, 0x16, 0x17, 0x1C, 0x21, 0x24
CONST_TYPE, ENUMERATOR, VARIABLE, VOLATILE_TYPE, RESTRICT_TYPE, RVALUE_TYPE, ATOMIC_TYPE = 0x26, 0x28, 0x34, 0x35, 0x37, 0x42, 0x47
LOCATION, NAME, BYTE_SIZE, BIT_SIZE, CONST_VALUE, UPPER_BOUND, COUNT = 0x02, 0x03, 0x0B, 0x0D, 0x1C, 0x2F, 0x37
MEMBER_AT, DECLARATION, ENCODING, SPECIFICATION, TYPE = 0x38, 0x3C, 0x3E, 0x47, 0x49
STR_OFFSETS_BASE, ADDR_BASE = 0x72, 0x73
KEPT = frozenset((LOCATION, NAME, BYTE_SIZE, BIT_SIZE, CONST_VALUE, UPPER_BOUND, COUNT, MEMBER_AT, DECLARATION, ENCODING, SPECIFICATION, TYPE,
                  STR_OFFSETS_BASE, ADDR_BASE))  # fmt: skip
# Forms that are a number of as many bytes, and those of a block whose length has as many.
NUMBERS: Dict[int, int] = {0x01: 4, 0x05: 2, 0x06: 4, 0x07: 8, 0x0B: 1, 0x0C: 1, 0x17: 4, 0x1C: 4, 0x1D: 4, 0x20: 8, 0x24: 8}
BLOCKS: Dict[int, int] = {0x03: 2, 0x04: 4, 0x0A: 1}
# References into the unit, and indices into tables of texts and addresses, by how many bytes they have; 0 stands for LEB128.
IN_UNIT: Dict[int, int] = {0x11: 1, 0x12: 2, 0x13: 4, 0x14: 8, 0x15: 0}
TEXT_AT: Dict[int, int] = {0x1A: 0, 0x25: 1, 0x26: 2, 0x27: 3, 0x28: 4}
ADDRESS_AT: Dict[int, int] = {0x1B: 0, 0x29: 1, 0x2A: 2, 0x2B: 3, 0x2C: 4}
STRING, BLOCK, SDATA, STRP, UDATA, REF_ADDR, INDIRECT, EXPRLOC, FLAG_PRESENT = 0x08, 0x09, 0x0D, 0x0E, 0x0F, 0x10, 0x16, 0x18, 0x19
DATA16, LINE_STRP, IMPLICIT_CONST, LOCLISTX, RNGLISTX = 0x1E, 0x1F, 0x21, 0x22, 0x23
SKELETON, SPLIT, TYPE_UNIT, SPLIT_TYPE = 4, 5, 2, 6
OP_ADDR, OP_PLUS, OP_ADDRX = 0x03, 0x23, 0xA1
COMPRESSED, ZLIB = 0x800, 1


class BadDwarf(Exception):
    """Bytes that are no DWARF as it is read here."""


class TextIndex(int):
    """An index into the unit's table of texts."""


class AddressIndex(int):
    """An index into the unit's table of addresses."""


Value = Union[int, str, bytes, TextIndex, AddressIndex]


@dataclass
class Cursor:
    """Reads bytes from a place on."""

    content: bytes
    at: int = 0

    def number(self, size: int) -> int:
        self.at += size
        return int.from_bytes(self.content[self.at - size : self.at], "little")

    def signed(self, size: int) -> int:
        self.at += size
        return int.from_bytes(self.content[self.at - size : self.at], "little", signed=True)

    def uleb(self) -> int:
        value, shift = 0, 0
        while True:
            byte = self.content[self.at]
            self.at += 1
            value |= (byte & 0x7F) << shift
            shift += 7
            if byte < 0x80:
                return value

    def sleb(self) -> int:
        begin = self.at
        value = self.uleb()
        bits = 7 * (self.at - begin)
        return value - (1 << bits) if value >> bits - 1 & 1 else value

    def text(self) -> str:
        end = self.content.index(0, self.at)
        found = self.content[self.at : end].decode("utf-8", "replace")
        self.at = end + 1
        return found

    def take(self, count: int) -> bytes:
        self.at += count
        return self.content[self.at - count : self.at]


class Sections(Dict[str, bytes]):
    """The sections of debugging information by name; one that isn't there has no bytes."""

    def __missing__(self, name: str) -> bytes:
        return b""

    def text(self, name: str, at: int) -> str:
        return Cursor(self[name], at).text()


def unpacked(content: bytes, flags: int) -> bytes:
    """Returns a section's bytes, which may be packed by zlib."""
    if not flags & COMPRESSED:
        return content
    if int.from_bytes(content[:4], "little") != ZLIB:
        raise BadDwarf("a section is packed otherwise than by zlib")
    return zlib.decompress(content[12:])


# How an attribute stands in an entry: its name, its form, and the value of a form that has none there.
Shape = Tuple[int, int, int]


class Abbreviation(NamedTuple):
    """What entries of one number have."""

    tag: int
    has_children: bool
    shapes: List[Shape]


def abbreviations(content: bytes, at: int) -> Dict[int, Abbreviation]:
    """Reads a table of abbreviations."""
    it, found = Cursor(content, at), {}
    while True:
        code = it.uleb()
        if not code:
            return found
        tag, has_children, shapes = it.uleb(), bool(it.number(1)), []
        while True:
            name, form = it.uleb(), it.uleb()
            constant = it.sleb() if form == IMPLICIT_CONST else 0
            if not (name or form):
                break
            shapes.append((name, form, constant))
        found[code] = Abbreviation(tag, has_children, shapes)


@dataclass
class Entry:
    """An entry: where it begins in the section, its tag, its attributes by name, and the entries in it."""

    unit: "Unit"
    offset: int
    tag: int
    values: Dict[int, Value]
    children: List["Entry"] = field(default_factory=list)

    def number(self, name: int) -> Optional[int]:
        value = self.values.get(name)
        return int(value) if isinstance(value, int) else None

    @property
    def name(self) -> str:
        value = self.values.get(NAME, "")
        return self.unit.text(value) if isinstance(value, TextIndex) else value if isinstance(value, str) else ""

    @property
    def address(self) -> Optional[int]:
        """The address of a variable whose location is one place for good."""
        place = self.values.get(LOCATION)
        if not isinstance(place, bytes) or not place:
            return None
        if place[0] == OP_ADDR and len(place) == 5:
            return int.from_bytes(place[1:], "little")
        return self.unit.address(Cursor(place, 1).uleb()) if place[0] == OP_ADDRX else None

    @property
    def member_at(self) -> int:
        """How many bytes a member begins behind the begin of its structure."""
        value = self.values.get(MEMBER_AT, 0)
        if isinstance(value, bytes):
            return Cursor(value, 1).uleb() if value[:1] == bytes([OP_PLUS]) else 0
        return int(value) if isinstance(value, int) else 0


class Unit:
    """A compilation unit: its entries are read at once."""

    def __init__(self, sections: Sections, at: int) -> None:
        self.sections, self.offset = sections, at
        it = Cursor(sections[".debug_info"], at)
        length = it.number(4)
        if length >= 0xFFFF_FFF0:
            raise BadDwarf("it is DWARF of 64 bits")
        self.end, self.version = it.at + length, it.number(2)
        if not 2 <= self.version <= 5 or self.end > len(it.content):
            raise BadDwarf(f"a unit of version {self.version}")
        kind = it.number(1) if self.version == 5 else 1
        self.address_size = it.number(1) if self.version == 5 else 0
        table = it.number(4)
        self.address_size = self.address_size or it.number(1)
        it.at += {SKELETON: 8, SPLIT: 8, TYPE_UNIT: 12, SPLIT_TYPE: 12}.get(kind, 0)
        self.table = abbreviations(sections[".debug_abbrev"], table)
        self.root = self.read(it)

    def read(self, it: Cursor) -> Entry:
        """Reads all entries of the unit, and returns the outermost."""
        root = Entry(self, it.at, 0, {})
        inside = [root]
        while it.at < self.end:
            begin, code = it.at, it.uleb()
            if not code:
                inside.pop()
                if len(inside) <= 1:
                    break
                continue
            shape = self.table[code]
            values = {}
            for name, form, constant in shape.shapes:
                value = self.value(it, form, constant)
                if name in KEPT:
                    values[name] = value
            entry = Entry(self, begin, shape.tag, values)
            inside[-1].children.append(entry)
            if shape.has_children:
                inside.append(entry)
            elif len(inside) == 1:
                break
        return root.children[0] if root.children else root

    def value(self, it: Cursor, form: int, constant: int) -> Value:
        """Reads an attribute's value by its form."""
        if form in NUMBERS:
            return it.number(NUMBERS[form])
        for table, kind in ((IN_UNIT, int), (TEXT_AT, TextIndex), (ADDRESS_AT, AddressIndex)):
            if form in table:
                found = it.number(table[form]) if table[form] else it.uleb()
                return kind(found + self.offset if table is IN_UNIT else found)
        if form in BLOCKS:
            return it.take(it.number(BLOCKS[form]))
        return self.other_value(it, form, constant)

    def other_value(self, it: Cursor, form: int, constant: int) -> Value:
        if form in (BLOCK, EXPRLOC):
            return it.take(it.uleb())
        if form in (STRP, LINE_STRP):
            return self.sections.text(".debug_str" if form == STRP else ".debug_line_str", it.number(4))
        if form == REF_ADDR:
            return it.number(self.address_size if self.version == 2 else 4)
        if form == INDIRECT:
            return self.value(it, it.uleb(), 0)
        if form in (STRING, SDATA):
            return it.text() if form == STRING else it.sleb()
        if form in (UDATA, LOCLISTX, RNGLISTX):
            return it.uleb()
        if form in (FLAG_PRESENT, IMPLICIT_CONST):
            return 1 if form == FLAG_PRESENT else constant
        if form == DATA16:
            return it.take(16)
        raise BadDwarf(f"a form {form:x}h")

    def text(self, index: int) -> str:
        """Returns a text by its index."""
        base = self.root.number(STR_OFFSETS_BASE)
        at = (8 if base is None else base) + 4 * index
        return self.sections.text(".debug_str", int.from_bytes(self.sections[".debug_str_offsets"][at : at + 4], "little"))

    def address(self, index: int) -> int:
        """Returns an address by its index."""
        at = (self.root.number(ADDR_BASE) or 8) + 4 * index
        return int.from_bytes(self.sections[".debug_addr"][at : at + 4], "little")


def units(sections: Sections) -> Iterator[Unit]:
    """Gives all units of the debugging information."""
    at = 0
    while at < len(sections[".debug_info"]):
        unit = Unit(sections, at)
        yield unit
        at = unit.end
