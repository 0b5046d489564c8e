"""A saved state, which `nds save` writes: read field by field, each held against its rule, and written (docs/STATES.md has the table).

It is a second reading of that table, which doesn't look at the program's sources, so that both can be held against each other."""
import hashlib
import struct
from dataclasses import dataclass
from functools import cached_property
from typing import Any, Callable, Dict, Generator, List, Optional, Tuple, Union

from nds_tools import names
from nds_tools.memory import Bank, Map
from nds_tools.records import Memory
from nds_tools.words import Untold, bytes_of, first_byte

LETTER, VERSION = 0x53, 1
# The letter, the version, the digest, the tick, and five counts less one.
HEAD_BYTES, DIGEST_BYTES = 74, 32
MOST_BYTES = 8_388_608
NO_TICK = 2**64 - 1

# A field's value: a number, several in a row, or bytes as they lie.
Value = Union[int, Tuple[int, ...], bytes]
# What is wrong with a number, or with bytes, in words; nothing where its rule holds.
Rule = Callable[[Any], str]


@dataclass(frozen=True)
class Field:
    """A field: its name, how it stands in bytes by a letter of `struct` (or bytes as they lie, by `s`), how many of it stand in a row, and its
    rule."""

    name: str
    code: str
    count: int = 1
    rule: Optional[Rule] = None

    @property
    def width(self) -> int:
        return 1 if self.code == "s" else struct.calcsize(f"<{self.code}")

    @property
    def size(self) -> int:
        return self.width * self.count

    @property
    def is_many(self) -> bool:
        return self.code != "s" and self.count > 1

    def read(self, content: bytes) -> Value:
        """Returns the value that its bytes spell."""
        if self.code == "s":
            return content
        found = struct.unpack(f"<{self.count}{self.code}", content)
        return found if self.is_many else found[0]

    def bytes_of(self, value: Value) -> bytes:
        """Returns the bytes of a value; its rule isn't asked."""
        if isinstance(value, bytes):
            if self.code != "s" or len(value) != self.count:
                raise ValueError(f"{self.name}: {len(value)} bytes are none of its values")
            return value
        numbers = value if isinstance(value, tuple) else (value,)
        try:
            return struct.pack(f"<{self.count}{self.code}", *numbers)
        except struct.error as why:
            raise ValueError(f"{self.name}: {why}") from None

    def first_wrong(self, value: Value) -> Optional[Tuple[int, str]]:
        """Returns the place of the first number that breaks the rule, and what is wrong with it."""
        if self.rule is None:
            return None
        numbers = value if isinstance(value, tuple) else (value,)
        wrong = {it: why for it, why in ((it, self.rule(it)) for it in set(numbers)) if why}
        return next(((at, wrong[it]) for at, it in enumerate(numbers) if it in wrong), None) if wrong else None


@dataclass(frozen=True)
class Placed:
    """A field of a state, where it begins, and its value."""

    field: Field
    offset: int
    value: Value

    @property
    def end(self) -> int:
        return self.offset + self.field.size


@dataclass(frozen=True)
class Wanted:
    """What a state is held against: the cartridge's digest and the tick that is run to; what is None isn't held against anything."""

    digest: Optional[bytes] = None
    until: Optional[int] = None


class Seen(Dict[str, Value]):
    """The values of the fields so far, by name."""

    def number(self, name: str) -> int:
        value = self[name]
        assert isinstance(value, int)
        return value

    def numbers(self, name: str) -> Tuple[int, ...]:
        value = self[name]
        assert isinstance(value, tuple)
        return value

    def content(self, name: str) -> bytes:
        value = self[name]
        assert isinstance(value, bytes)
        return value


# Gives the fields in order. Which comes next may hang on what was seen, so that each one's value is kept before the next is asked for.
Fields = Generator[Field, None, None]


class Broken(Exception):
    """Bytes that are no state: the offset of the first field that isn't whole or breaks its rule, or of the first byte left over; which field
    that is; and what is wrong."""

    def __init__(self, offset: int, name: str, why: str) -> None:
        super().__init__(f"bad state: offset {offset}: {name}: {why}")
        self.offset, self.name, self.why = offset, name, why


class State:
    """A state: its fields in order, and their values by name."""

    def __init__(self, placed: List[Placed]) -> None:
        self.placed = placed

    @cached_property
    def values(self) -> Seen:
        return Seen((it.field.name, it.value) for it in self.placed)

    @cached_property
    def by_name(self) -> Dict[str, Placed]:
        return {it.field.name: it for it in self.placed}

    def __getitem__(self, name: str) -> int:
        """Returns the number of a field that has one alone."""
        return self.values.number(name)

    @property
    def tick(self) -> int:
        return self["tick"]

    @property
    def content(self) -> bytes:
        """Returns its bytes."""
        return b"".join(it.field.bytes_of(it.value) for it in self.placed)

    def due(self, name: str) -> Optional[int]:
        """Returns a tick, None where it is none."""
        tick = self[name]
        return None if tick == NO_TICK else tick

    @cached_property
    def memory(self) -> Memory:
        """Returns the memories and registers as a run's output has them."""
        registers = [{it: self[f"{proc} {it}"] for it in names.REGISTERS} for proc in names.PROCESSORS]
        return Memory({it: self.values.content(it) for it in names.SIZES}, registers)

    @property
    def dtcm_base(self) -> int:
        """Returns where DTCM lies."""
        return self["CP15 DTCM"] & 0xFFFF_F000

    def map(self, known: Map, banks: Tuple[Bank, ...] = ()) -> Map:
        """Returns what is known of the program, with DTCM where the state has it, and banks of video memory where they are mapped."""
        return Map(known.elves, self.dtcm_base if known.dtcm is None else known.dtcm, banks)


Layout = Callable[[Seen, Wanted], Fields]


def read(content: bytes, layout: Layout, wanted: Wanted = Wanted(), last: Optional[str] = None) -> State:
    """Reads a state, and raises Broken where the bytes are none. With the name of a field it reads that far alone."""
    seen, placed, at = Seen(), [], 0
    for field in layout(seen, wanted):
        part = content[at : at + field.size]
        whole = len(part) // field.width * field.width if field.is_many else len(part)
        is_whole = len(part) == field.size
        if not is_whole and not (field.is_many and whole):
            raise Broken(at, field.name, f"its {field.size} bytes aren't whole: the state ends at byte {len(content)}")
        value = field.read(part) if is_whole else struct.unpack(f"<{whole // field.width}{field.code}", part[:whole])
        wrong = field.first_wrong(value)
        if wrong:
            raise Broken(at + wrong[0] * field.width, named(field, wrong[0]), wrong[1])
        if not is_whole:
            raise Broken(at + whole, named(field, whole // field.width), f"it isn't whole: the state ends at byte {len(content)}")
        seen[field.name] = value
        placed.append(Placed(field, at, value))
        at += field.size
        if field.name == last:
            return State(placed)
    if at < len(content):
        raise Broken(at, "the end", f"{len(content) - at} bytes are left over")
    return State(placed)


def named(field: Field, at: int) -> str:
    """Returns the name of one number of a field."""
    return f"{field.name}, number {at}" if field.is_many else field.name


def written(values: Dict[str, Value], layout: Layout) -> bytes:
    """Returns the bytes of a state by its fields' values, of which all that the table has then must be there; no rule is asked."""
    seen, parts = Seen(), []
    for field in layout(seen, Wanted()):
        seen[field.name] = values[field.name]
        parts.append(field.bytes_of(values[field.name]))
    more = sorted(set(values) - set(seen))
    if more:
        raise ValueError(f"a state with these counts has no field {more[0]}")
    return b"".join(parts)


def digest_of(cart: bytes) -> bytes:
    """Returns the digest by which a state knows its cartridge."""
    return hashlib.sha256(cart).digest()


@dataclass(frozen=True)
class Head:
    """What a state's first bytes tell, for those who don't need the rest."""

    digest: bytes
    tick: int


def head_of(name: str) -> Head:
    """Reads the first bytes of a state's file alone."""
    with open(name, "rb") as it:
        content = it.read(HEAD_BYTES)
    if len(content) < HEAD_BYTES or content[0] != LETTER:
        raise Untold(f"{name} is no saved state: it doesn't begin with the letter S and a head of {HEAD_BYTES} bytes")
    if content[1] != VERSION:
        raise Untold(f"{name} is a saved state of version {content[1]}, and version {VERSION} alone is known")
    return Head(content[2 : 2 + DIGEST_BYTES], int.from_bytes(content[34:42], "little"))


def is_state(name: str) -> bool:
    """Whether a file, a pipe or standard input, for `-`, may be a saved state, by its first byte, with which no record of a run begins."""
    return first_byte(name) == bytes([LETTER])


def content_of(name: str) -> bytes:
    """Returns the bytes of a state's file; one that is too long for any state is refused."""
    content = bytes_of(name)
    if len(content) > MOST_BYTES:
        raise Untold(f"{name} has {len(content)} bytes, and a saved state has at most {MOST_BYTES}")
    return content
