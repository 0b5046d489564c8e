"""What DWARF tells of a program's variables: their types, where a field of one lies (`lamp.wires[1].left`), and which field a byte belongs to."""
import json
import re
import struct
from dataclasses import dataclass, replace
from functools import cached_property
from typing import Dict, Iterator, List, Optional, Tuple, Union

from nds_tools import dwarf
from nds_tools.dwarf import Entry
from nds_tools.words import Untold

SKIPPED = (dwarf.TYPEDEF, dwarf.CONST_TYPE, dwarf.VOLATILE_TYPE, dwarf.RESTRICT_TYPE, dwarf.ATOMIC_TYPE)
RECORDS = (dwarf.STRUCTURE_TYPE, dwarf.CLASS_TYPE, dwarf.UNION_TYPE)
POINTERS = (dwarf.POINTER_TYPE, dwarf.REFERENCE_TYPE, dwarf.RVALUE_TYPE)
FLOAT, SIGNED, SIGNED_CHAR, CHARACTERS = 0x04, 0x05, 0x06, (0x06, 0x08)
POINTER_BYTES, MOST_FOLLOWED, MOST_FIELDS = 4, 64, 48
STEP = re.compile(r"\.(?P<name>[A-Za-z_]\w*)|\[(?P<at>\d+)\]")
Step = Union[str, int]


@dataclass(frozen=True)
class Number:
    """How bytes are a number: how many there are, whether it has a sign, whether it is a character, the names of its values, of an enum's,
    whether it is an address, and whether it is a floating-point number."""

    width: int
    is_signed: bool = False
    is_character: bool = False
    names: Tuple[Tuple[int, str], ...] = ()
    is_pointer: bool = False
    is_real: bool = False

    def told(self, content: bytes) -> str:
        """Writes bytes as the number, in decimal digits, or by its name; an address in hexadecimal ones."""
        if self.is_real:
            return f"{struct.unpack('<f' if self.width == 4 else '<d', content)[0]:.9g}"
        value = int.from_bytes(content, "little", signed=self.is_signed)
        return f"{value:08x}" if self.is_pointer else dict(self.names).get(value, str(value))


    def told_all(self, content: bytes) -> str:
        """Writes bytes as such numbers, or, where they are several characters, as a text up to its first zero."""
        if self.is_character and len(content) > 1:
            return json.dumps(content.split(b"\0", 1)[0].decode("utf-8", "backslashreplace"), ensure_ascii=False)
        return " ".join(self.told(content[at : at + self.width]) for at in range(0, len(content), self.width))


@dataclass(frozen=True)
class Part:
    """A part of a variable: how far behind its begin, how many bytes, its type's entry, and the number that it is, or that an array has."""

    offset: int
    size: int
    kind: Optional[Entry]
    number: Optional[Number] = None
    path: str = ""


class Types:
    """The variables of a program with their types."""

    def __init__(self, sections: dwarf.Sections) -> None:
        self.units = list(dwarf.units(sections))

    def entries(self) -> Iterator[Entry]:
        """Gives all entries."""
        waiting = [it.root for it in self.units]
        while waiting:
            entry = waiting.pop()
            yield entry
            waiting += entry.children

    @cached_property
    def by_offset(self) -> Dict[int, Entry]:
        return {it.offset: it for it in self.entries()}

    @cached_property
    def variables(self) -> Dict[int, Entry]:
        """The variables that have an address, by it."""
        found: Dict[int, Entry] = {}
        for it in self.by_offset.values():
            if it.tag == dwarf.VARIABLE and it.address is not None:
                found.setdefault(it.address, it)
        return found

    @cached_property
    def whole_records(self) -> Dict[Tuple[int, str], Entry]:
        """The structures by tag and name whose members are told, of which other units have declarations alone."""
        found: Dict[Tuple[int, str], Entry] = {}
        for it in self.by_offset.values():
            if it.tag in RECORDS and it.name and dwarf.DECLARATION not in it.values:
                found.setdefault((it.tag, it.name), it)
        return found

    def type_of(self, entry: Optional[Entry]) -> Optional[Entry]:
        """Returns the type of a variable, member or type, without names, const and the like; None where it isn't told."""
        for _ in range(MOST_FOLLOWED):
            if entry is None:
                return None
            if entry.number(dwarf.TYPE) is None and entry.number(dwarf.SPECIFICATION) is not None:
                entry = self.by_offset.get(entry.number(dwarf.SPECIFICATION) or 0)
                continue
            found = self.by_offset.get(entry.number(dwarf.TYPE) or -1)
            if found is None or found.tag not in SKIPPED:
                return self.whole(found)
            entry = found
        return None

    def whole(self, entry: Optional[Entry]) -> Optional[Entry]:
        if entry and entry.tag in RECORDS and dwarf.DECLARATION in entry.values:
            return self.whole_records.get((entry.tag, entry.name), entry)
        return entry

    def counts(self, array: Entry) -> List[int]:
        """Returns how many elements an array has, by dimension."""
        found = []
        for it in array.children:
            if it.tag == dwarf.SUBRANGE_TYPE:
                count, last = it.number(dwarf.COUNT), it.number(dwarf.UPPER_BOUND)
                found.append(count if count is not None else last + 1 if last is not None and last < 1 << 31 else 0)
        return found

    def size(self, entry: Optional[Entry]) -> int:
        """Returns how many bytes a type has; 0 where that isn't told."""
        if entry is None:
            return 0
        told = entry.number(dwarf.BYTE_SIZE)
        if told is not None:
            return told
        if entry.tag in POINTERS:
            return POINTER_BYTES
        if entry.tag != dwarf.ARRAY_TYPE:
            return 0
        whole = self.size(self.type_of(entry))
        for count in self.counts(entry):
            whole *= count
        return whole

    def number(self, entry: Optional[Entry]) -> Optional[Number]:
        """Returns how a type is a number, or an array's elements are; None for a structure."""
        if entry is None:
            return None
        if entry.tag == dwarf.ARRAY_TYPE:
            return self.number(self.type_of(entry))
        size = self.size(entry)
        if entry.tag in POINTERS:
            return Number(size, is_pointer=True)
        if entry.tag == dwarf.BASE_TYPE and size in (1, 2, 4, 8):
            encoding = entry.number(dwarf.ENCODING)
            if encoding == FLOAT:
                return Number(size, is_real=True) if size >= 4 else None
            return Number(size, encoding in (SIGNED, SIGNED_CHAR), encoding in CHARACTERS and entry.name.endswith("char") and size == 1)
        if entry.tag == dwarf.ENUMERATION_TYPE and size in (1, 2, 4):
            names = tuple((it.number(dwarf.CONST_VALUE) or 0, it.name) for it in entry.children if it.tag == dwarf.ENUMERATOR)
            return Number(size, any(value < 0 for value, _ in names), False, names)
        return None

    def members(self, record: Entry) -> Iterator[Tuple[str, int, Entry]]:
        """Gives a structure's members, those of nameless and of base ones as its own, each with its offset."""
        for it in record.children:
            if it.tag not in (dwarf.MEMBER, dwarf.INHERITANCE):
                continue
            inner = self.type_of(it)
            if it.tag == dwarf.MEMBER and it.name:
                yield it.name, it.member_at, it
            elif inner and inner.tag in RECORDS:
                for name, at, member in self.members(inner):
                    yield name, it.member_at + at, member

    def part_of(self, offset: int, entry: Optional[Entry], path: str, kind: Optional[Entry] = None) -> Part:
        """Returns the part that a variable or member is, or an element whose type is given."""
        kind = kind or self.type_of(entry)
        return Part(offset, self.size(kind), kind, self.number(kind), path)

    def variable(self, address: int) -> Optional[Part]:
        """Returns the variable that begins at an address, as a part of itself."""
        found = self.variables.get(address)
        return self.part_of(0, found, "") if found else None

    def stepped(self, part: Part, step: Step, text: str) -> Part:
        """Returns a field by its name, or an element by its number; what isn't there is named."""
        if isinstance(step, int):
            return self.element(part, step, text)
        if part.kind is None or part.kind.tag not in RECORDS:
            raise Untold(f"{text}: what stands before .{step} is no structure")
        for name, at, member in self.members(part.kind):
            if name == step:
                if dwarf.BIT_SIZE in member.values:
                    raise Untold(f"{text}: {step} is a field of {member.number(dwarf.BIT_SIZE)} bits; give the number that it stands in")
                return self.part_of(part.offset + at, member, f"{part.path}.{name}")
        there = ", ".join(name for name, _, _ in self.members(part.kind))
        raise Untold(f"{text}: there is no field {step}; there are {there}")

    def element(self, part: Part, step: int, text: str) -> Part:
        if part.kind is None or part.kind.tag != dwarf.ARRAY_TYPE:
            raise Untold(f"{text}: what stands before [{step}] is no array")
        counts = self.counts(part.kind)
        rest = part.size // counts[0] if counts and counts[0] else 0
        if not rest or step >= counts[0]:
            raise Untold(f"{text}: the array has {counts[0] if counts else 0} elements, from [0] on")
        offset, path = part.offset + step * rest, f"{part.path}[{step}]"
        if len(counts) == 1:
            return self.part_of(offset, None, path, self.type_of(part.kind))
        return Part(offset, rest, self.narrowed(part.kind), part.number, path)

    def narrowed(self, array: Entry) -> Entry:
        """Returns the type of an array's elements where these are arrays too."""
        ranges = [it for it in array.children if it.tag == dwarf.SUBRANGE_TYPE]
        return replace(array, values={name: it for name, it in array.values.items() if name != dwarf.BYTE_SIZE}, children=ranges[1:])

    def found(self, address: int, steps: List[Step], text: str) -> Part:
        """Returns the part of the variable at an address to which fields and elements lead."""
        part = self.variable(address)
        if part is None:
            raise Untold(f"{text}: the ELF file doesn't tell the type of that variable; build with -g")
        for it in steps:
            part = self.stepped(part, it, text)
        return part

    def fields_of(self, part: Part) -> List[Part]:
        """Returns the fields of a structure that are numbers, those of structures in it too, with paths from it on; of arrays of structures none."""
        found: List[Part] = []
        for name, at, member in self.members(part.kind) if part.kind and part.kind.tag in RECORDS else []:
            inner = self.part_of(part.offset + at, member, f"{part.path}.{name}" if part.path else name)
            if dwarf.BIT_SIZE in member.values or len(found) >= MOST_FIELDS:
                continue
            found += [inner] if inner.number else self.fields_of(inner)
        return found

    def field_at(self, address: int, offset: int) -> Optional[Part]:
        """Returns the innermost part of the variable at an address that a byte of it belongs to; None where its type isn't told."""
        part = self.variable(address)
        while part and part.kind:
            inner = self.inner(part, offset)
            if inner is None:
                return part
            part = inner
        return part

    def inner(self, part: Part, offset: int) -> Optional[Part]:
        """Returns the field or element of a part that a byte belongs to."""
        if part.kind and part.kind.tag in RECORDS:
            fields = [(name, at, it) for name, at, it in self.members(part.kind) if dwarf.BIT_SIZE not in it.values]
            for name, at, member in fields:
                found = self.part_of(part.offset + at, member, f"{part.path}.{name}")
                if found.offset <= offset < found.offset + found.size:
                    return found
        if part.kind and part.kind.tag == dwarf.ARRAY_TYPE and part.size:
            counts = self.counts(part.kind)
            rest = part.size // counts[0] if counts and counts[0] else 0
            is_text = part.number is not None and part.number.is_character and len(counts) == 1
            return self.element(part, (offset - part.offset) // rest, "") if rest and not is_text else None
        return None


def steps_of(text: str) -> Tuple[str, List[Step]]:
    """Splits `lamps[2].number` into the symbol and what follows it."""
    base = re.split(r"[.\[]", text, maxsplit=1)[0]
    steps: List[Step] = []
    at = len(base)
    while at < len(text):
        form = STEP.match(text, at)
        if not form:
            raise Untold(f"{text}: after {text[:at]} a field comes, as .number, or an element, as [2]")
        steps.append(form["name"] if form["name"] else int(form["at"]))
        at = form.end()
    return base, steps
