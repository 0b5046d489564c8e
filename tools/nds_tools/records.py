"""The output of `nds run`, read record by record, so that a long one is never held whole."""
import struct
from dataclasses import dataclass
from typing import IO, Dict, Iterator, List, NamedTuple, Optional, Union

from nds_tools import names
from nds_tools.words import Untold, opened

SCREEN = 2 * 256 * 192
FRAME_BYTES = 9 + 2 * SCREEN
MEMORY_BYTES = sum(names.SIZES.values())
REGISTER_BYTES = 4 * len(names.REGISTERS)
M_BYTES = 1 + MEMORY_BYTES + 2 * REGISTER_BYTES
E_BYTES, X_BYTES, G_BYTES = 41, 15, 21
VERTEX, POLYGON = struct.Struct("<4iH2h"), struct.Struct("<4IB4H")
MOST_VERTICES, MOST_POLYGONS = 6_144, 2_048


class Vertex(NamedTuple):
    """A vertex of the lists, before clipping."""

    x: int
    y: int
    z: int
    w: int
    colour: int
    s: int
    t: int


class Polygon(NamedTuple):
    """A polygon of the lists; an index that isn't used is 0."""

    attributes: int
    texture: int
    palette: int
    viewport: int
    corners: int
    a: int
    b: int
    c: int
    d: int


@dataclass(frozen=True)
class Frame:
    """The record F: both screens as 16-bit pixels, the upper one first."""

    tick: int
    pixels: bytes

    @property
    def number(self) -> int:
        return names.frame_number(self.tick)


@dataclass(frozen=True)
class Lists:
    """The record G: the vertices and polygons of a swap."""

    tick: int
    parameter: int
    vertex_bytes: bytes
    polygon_bytes: bytes

    @property
    def number(self) -> int:
        return names.frame_number(self.tick)

    @property
    def vertices(self) -> List[Vertex]:
        return [Vertex(*it) for it in VERTEX.iter_unpack(self.vertex_bytes)]

    @property
    def polygons(self) -> List[Polygon]:
        return [Polygon(*it) for it in POLYGON.iter_unpack(self.polygon_bytes)]


@dataclass(frozen=True)
class Memory:
    """The record M: each memory by its name, and the registers of both processors by theirs."""

    memories: Dict[str, bytes]
    registers: List[Dict[str, int]]


@dataclass(frozen=True)
class End:
    """The record E: the tick that was come to, and the counts."""

    ticks: int
    steps9: int
    steps7: int
    events: int
    turns: int


@dataclass(frozen=True)
class Stop:
    """The record X: the step that stopped the run."""

    tick: int
    rank: int
    kind: int
    value: int

    @property
    def page(self) -> str:
        return names.page(self.kind, self.value)

    def __str__(self) -> str:
        meant = f" ({names.function(self.value, self.rank)})" if names.kind(self.kind) == "Swi" else ""
        return f"{names.kind(self.kind)} 0x{self.value:08x}{meant} at tick {self.tick} by {names.actor(self.rank)}"


Record = Union[Frame, Lists, Memory, End, Stop]


class Reader:
    """Reads an output's records in order, and refuses by name what no run writes."""

    def __init__(self, stream: IO[bytes], name: str) -> None:
        self.stream, self.name, self.at, self.begin = stream, "the output" if name == "-" else name, 0, 0

    def take(self, letter: str, count: int) -> bytes:
        """Returns the next bytes of the record that began last; says where the output is cut."""
        parts, left = [], count
        while left:
            part = self.stream.read(left)
            if not part:
                raise Untold(f"{self.name} is cut within the record {letter} that begins at byte {self.begin}: it ends at byte {self.at}")
            parts.append(part)
            left -= len(part)
            self.at += len(part)
        return parts[0] if len(parts) == 1 else b"".join(parts)

    def letter(self) -> Optional[str]:
        """Returns the next record's letter, or None at the end."""
        self.begin = self.at
        first = self.stream.read(1)
        self.at += len(first)
        if first and first not in b"FGMEX":
            hint = ": a saved state begins so, which nds-show --state shows" if first == b"S" and not self.begin else ""
            raise Untold(f"{self.name}: byte {self.begin} is 0x{first[0]:02x}, which begins no record{hint}")
        return first.decode() if first else None

    def __iter__(self) -> Iterator[Record]:
        readers = {"F": self.frame, "G": self.lists, "M": self.memory, "E": self.end, "X": self.stop}
        before, tick = "", -1
        while (letter := self.letter()) is not None:
            self.check_order(before, letter)
            record = readers[letter]()
            if isinstance(record, Frame):
                if record.tick <= tick:
                    raise Untold(f"{self.name}: the frame at byte {self.begin} has tick {record.tick}, and the one before it {tick}")
                tick = record.tick
            before = letter
            yield record
        if not before:
            raise Untold(f"{self.name} is empty: a run writes M and E, or X where it stops; see the run's status and note")
        if before not in "EX":
            raise Untold(f"{self.name} ends after a record {before} at byte {self.at}: M and E, or X, have to follow")

    def check_order(self, before: str, letter: str) -> None:
        """Frames and lists come first; then M and E, or X; and nothing after those."""
        if before in ("E", "X"):
            raise Untold(f"{self.name}: a record {letter} at byte {self.begin} follows the record {before}, after which nothing comes")
        if (before == "M") != (letter == "E"):
            raise Untold(f"{self.name}: a record {letter} at byte {self.begin} follows {before or 'nothing'}; E comes after M, and M alone before E")

    def frame(self) -> Frame:
        whole = self.take("F", FRAME_BYTES - 1)
        tick = int.from_bytes(whole[:8], "little")
        if not names.frame_number(tick):
            raise Untold(f"{self.name}: the frame at byte {self.begin} has tick {tick}, at which none becomes whole")
        return Frame(tick, whole[8:])

    def lists(self) -> Lists:
        tick, parameter, vertices, polygons = struct.unpack("<Q3I", self.take("G", G_BYTES - 1))
        if vertices > MOST_VERTICES or polygons > MOST_POLYGONS:
            raise Untold(f"{self.name}: the lists at byte {self.begin} have {vertices} vertices and {polygons} polygons, more than there can be")
        return Lists(tick, parameter, self.take("G", VERTEX.size * vertices), self.take("G", POLYGON.size * polygons))

    def memory(self) -> Memory:
        memories = {name: self.take("M", size) for name, size in names.SIZES.items()}
        words = [struct.unpack("<37I", self.take("M", REGISTER_BYTES)) for _ in names.PROCESSORS]
        return Memory(memories, [dict(zip(names.REGISTERS, it)) for it in words])

    def end(self) -> End:
        return End(*struct.unpack("<5Q", self.take("E", E_BYTES - 1)))

    def stop(self) -> Stop:
        return Stop(*struct.unpack("<QBBI", self.take("X", X_BYTES - 1)))


def records_of(name: str) -> Iterator[Record]:
    """Reads the records of a file, or of standard input for `-`."""
    with opened(name) as it:
        yield from Reader(it, name)
