"""make-cart: puts compiled or assembled code into a cartridge that `nds` runs.

    tools/make-cart --arm9 F[@ADDR[,ENTRY]].. [--arm7 F[@ADDR[,ENTRY]]..] -o GAME.nds [--title T] [--flat] [--file D[=NAME]]..

  --arm9 F    ARM9's code: an ELF executable, a listing (docs/LISTING.md), or flat bytes as objcopy -O binary writes them, which have an
              address behind them, or --flat
  --arm7 F    ARM7's code; left out, ARM7 gets an image that halts
  --flat      what is neither an ELF file nor a listing is flat bytes, also a text or a cartridge, which otherwise are refused
  --file D    a file that goes behind the images, by its own name in the cartridge or by NAME, which may have folders, parted by /;
              of a folder all files, by their paths in it, below NAME where there is one. They can be found by the usual tables of names
              and places, which the header tells
  -o GAME     the cartridge to write
  --title T   the title in the header, at most 12 ASCII characters
  --nds PATH  the program that assembles listings; left out, that of NDS_PROGRAM, or this repository's nds

`-` as F is standard input, as GAME standard output. ADDR is where flat bytes go: 0x2000000 for ARM9 and 0x3800000 for ARM7 where it is
left out. ELF files and listings tell it themselves: segments go to their load addresses (those without bytes are skipped), gaps are
filled with zeros, and the length is padded to 4. ENTRY is the first instruction's address: left out, an ELF file's own entry, otherwise
the first byte. Several files of one processor, as the listings of its ARM and Thumb code, become one image; the first one's entry counts.
Numbers are decimal, or hexadecimal after 0x.

Ends with 0 where the cartridge is written, with 1 where code breaks a rule of cartridges, which is named, and with 2 where that can't be
told: a file that can't be read, is cut or is no code, an object file, another machine, no program, wrong words. Then no file is written."""
import os
import re
import struct
import sys
from dataclasses import dataclass
from typing import List, Optional, Tuple

from nds_tools import file_tables, names
from nds_tools.elf import MAGIC, Elf
from nds_tools.program import assembled, program
from nds_tools.words import GOOD, Refused, Untold, Words, bytes_of, number

TOOL = "make-cart"
USAGE = "tools/make-cart --arm9 F[@ADDR[,ENTRY]].. [--arm7 F[@ADDR[,ENTRY]]..] -o GAME.nds [--title T] [--flat] [--file D[=NAME]].. [--nds PATH]"
HEADER = 0x200
MOST = 4_194_304
MOST_IN_ALL = 33_554_432
MAIN = (0x0200_0000, 0x02FF_FFFF)
WORK = (0x037F_8000, 0x0380_FFFF)
PLACES = ((MAIN,), (MAIN, WORK))
USUAL = (0x0200_0000, 0x0380_0000)
COPY = (0x027F_FE00, 0x170)
# mov r0, #0x4000000; mov r1, #0x80; strb r1, [r0, #0x301]; b to itself: halts, and no interrupt is ever enabled.
HALTS = struct.pack("<4I", 0xE3A00301, 0xE3A01080, 0xE5C01301, 0xEAFFFFFE)
# Bytes that a text has.
TEXT = frozenset((*range(0x20, 0x7F), *b"\t\n\f\r"))
LISTED = re.compile(rb"\.(arm|thumb)([97]) 0x([0-9a-f]{1,8})\n")


@dataclass(frozen=True)
class Piece:
    """Bytes and the address that they are copied to."""

    source: str
    address: int
    content: bytes

    @property
    def end(self) -> int:
        return self.address + len(self.content)


@dataclass(frozen=True)
class Image:
    """What the header tells of one processor."""

    address: int
    entry: int
    content: bytes


def split(text: str) -> Tuple[str, Optional[int], Optional[int]]:
    """Reads F[@ADDR[,ENTRY]]."""
    form = re.fullmatch(r"(?P<file>.+?)@(?P<address>\w*)(?:,(?P<entry>\w+))?", text)
    if not form or os.path.exists(text):
        return text, None, None
    try:
        address, entry = (number(form[it]) if form[it] else None for it in ("address", "entry"))
    except ValueError:
        raise Untold(f"{text}: what follows @ has to be ADDRESS or ADDRESS,ENTRY") from None
    return form["file"], address, entry


def pieces_of_elf(elf: Elf, address: Optional[int], entry: Optional[int]) -> Tuple[List[Piece], int]:
    """Returns an executable's segments that have bytes, by load address, and its entry."""
    if address is not None:
        raise Untold(f"{elf.name} is an ELF file, which tells its addresses itself: leave @ADDR out")
    pieces = [Piece(elf.name, it.load, it.content) for it in elf.segments if it.content]
    if not pieces:
        raise Refused(f"{elf.name} has no segment with bytes")
    return pieces, elf.entry if entry is None else entry


def is_cartridge(content: bytes) -> bool:
    """Whether a header stands first whose images lie in the file and whose addresses are memory's."""
    if len(content) < HEADER:
        return False
    for at, ranges in zip((0x20, 0x30), PLACES):
        offset, entry, address, size = struct.unpack_from("<4I", content, at)
        if not size or offset + size > len(content) or not any(first <= it <= last for it in (entry, address) for first, last in ranges):
            return False
    return True


def check_flat(file: str, content: bytes, is_addressed: bool) -> None:
    """Refuses as flat bytes what nobody called so, and what looks like something else."""
    if is_cartridge(content):
        raise Untold(f"{file} is a cartridge already, and no code for one; --flat takes it as flat bytes all the same")
    if all(it in TEXT for it in content[:HEADER]):
        raise Untold(f"{file} is a text, and neither an ELF file nor a listing: compile it first; --flat takes it as flat bytes all the same")
    if not is_addressed:
        raise Untold(f"{file} is neither an ELF file nor a listing; flat bytes want an address, as {file}@0x2000000, or --flat")


def pieces_of(text: str, proc: int, nds: Optional[str], is_flat: bool) -> Tuple[List[Piece], int]:
    """Returns what one word of --arm9 or --arm7 stands for, and its entry."""
    file, address, entry = split(text)
    content = bytes_of(file)
    if content[:4] == MAGIC:
        return pieces_of_elf(Elf(file, content), address, entry)
    if content[:8] == b"!<arch>\n":
        raise Untold(f"{file} is an archive of object files, which isn't linked yet")
    listed = LISTED.match(content)
    if listed:
        if int(listed[2]) != (9, 7)[proc]:
            raise Refused(f"{file} is a listing for ARM{int(listed[2])}, and was given for {names.PROCESSORS[proc]}")
        if address is not None:
            raise Untold(f"{file} is a listing, which tells its address itself: leave @ADDR out")
        return listing(file, int(listed[3], 16), listed[1] == b"thumb", content, entry, nds)
    at = USUAL[proc] if address is None else address
    if not content:
        raise Refused(f"{file} is empty")
    if not is_flat:
        check_flat(file, content, address is not None)
    return [Piece(file, at, content)], at if entry is None else entry


def listing(file: str, at: int, is_thumb: bool, text: bytes, entry: Optional[int], nds: Optional[str]) -> Tuple[List[Piece], int]:
    """Assembles a listing by the program."""
    if file == "-":
        raise Untold("a listing can't come from a pipe, since the program reads files: name its file")
    content = assembled(program(nds), file)
    return [Piece(file, at, content)], entry if entry is not None else at + is_thumb


def joined(pieces: List[Piece], proc: int) -> Tuple[int, bytes]:
    """Returns the address of all pieces as one, and its bytes: gaps are filled, and the length is padded."""
    pieces = sorted(pieces, key=lambda it: it.address)
    first, end = pieces[0].address, max(it.end for it in pieces)
    if end - first > MOST:
        raise Refused(f"{names.PROCESSORS[proc]}'s code reaches from 0x{first:08x} to 0x{end:08x}: {end - first} bytes, and an image has at most {MOST}")
    for one, next_one in zip(pieces, pieces[1:]):
        if one.end > next_one.address:
            parts = f"{one.source} at 0x{one.address:08x} to 0x{one.end - 1:08x} and {next_one.source} at 0x{next_one.address:08x}"
            raise Refused(f"overlap: {parts} have bytes for the same addresses")
    whole = bytearray(end - first)
    for it in pieces:
        whole[it.address - first : it.end - first] = it.content
    return first, bytes(whole) + bytes(-len(whole) % 4)


def checked(proc: int, address: int, entry: int, content: bytes) -> Image:
    """Refuses by the header's field what `nds` would, and an entry that starts no code of the image."""
    name = names.PROCESSORS[proc]
    field = f"Arm{'97'[proc]}"
    ranges = " or ".join(f"0x{first:08x} to 0x{last:08x}" for first, last in PLACES[proc])
    if not any(first <= address and address + len(content) - 1 <= last for first, last in PLACES[proc]):
        raise Refused(f"{field}Place 0x{address:08x}: {name}'s {len(content)} bytes have to lie in {ranges}")
    if entry % 2:
        raise Refused(f"{field}Entry 0x{entry:08x}: a Thumb entry; both processors begin in ARM state, so begin with ARM code that branches by bx")
    if entry % 4 or not any(first <= entry <= last for first, last in PLACES[proc]):
        raise Refused(f"{field}Entry 0x{entry:08x}: it has to be a multiple of 4 in {ranges}")
    if not address <= entry < address + len(content):
        raise Refused(f"{field}Entry 0x{entry:08x}: it isn't in the image, which is 0x{address:08x} to 0x{address + len(content) - 1:08x}")
    return Image(address, entry, content)


def image(proc: int, words: List[str], nds: Optional[str], is_flat: bool) -> Image:
    """Returns one processor's image."""
    pieces: List[Piece] = []
    entry: Optional[int] = None
    for text in words:
        more, its_entry = pieces_of(text, proc, nds, is_flat)
        pieces += more
        entry = its_entry if entry is None else entry
    address, content = joined(pieces, proc)
    return checked(proc, address, entry or 0, content)


def places(name: str, address: int, size: int) -> List[Tuple[str, str, int, int]]:
    """Returns the memories that bytes are copied into, with the place there: main memory repeats each 4 MiB."""
    if MAIN[0] <= address <= MAIN[1]:
        at = address % names.SIZES["main"]
        first = min(size, names.SIZES["main"] - at)
        return [(name, "main", at, at + first)] + ([(name, "main", 0, size - first)] if size > first else [])
    return [(name, "work", address, address + size)]


def check_overlap(nine: Image, seven: Image) -> None:
    """Refuses images that would be copied over each other, or under the header's copy."""
    parts = places("ARM9's image", nine.address, len(nine.content)) + places("ARM7's image", seven.address, len(seven.content))
    parts += places("the header's copy at 0x027ffe00", *COPY)
    for at, (name, memory, first, end) in enumerate(parts):
        for other, its_memory, its_first, its_end in parts[at + 1 :]:
            if memory == its_memory and first < its_end and its_first < end and name != other:
                raise Refused(f"overlap: {name} and {other} take the same bytes of main memory, which repeats each 4 MiB")


def cartridge(nine: Image, seven: Image, title: bytes, files: List[str]) -> bytes:
    """Returns the file: the header, both images at multiples of 200h, and files behind them."""
    nine_at = HEADER
    seven_at = nine_at + len(nine.content) + -len(nine.content) % HEADER
    whole = bytearray(seven_at + len(seven.content))
    whole[:12] = title.ljust(12, b"\0")
    struct.pack_into("<4I", whole, 0x20, nine_at, nine.entry, nine.address, len(nine.content))
    struct.pack_into("<4I", whole, 0x30, seven_at, seven.entry, seven.address, len(seven.content))
    whole[nine_at : nine_at + len(nine.content)] = nine.content
    whole[seven_at:] = seven.content
    if files:
        file_tables.add(whole, files, HEADER)
    struct.pack_into("<2I", whole, 0x80, len(whole), HEADER)
    if len(whole) > MOST_IN_ALL:
        raise Refused(f"the cartridge would have {len(whole)} bytes, and has at most {MOST_IN_ALL}")
    return bytes(whole)


def main() -> int:
    words = Words(TOOL, USAGE, __doc__ or "")
    words.add_argument("--arm9", action="append", required=True)
    words.add_argument("--arm7", action="append")
    words.add_argument("-o", dest="to", required=True)
    words.add_argument("--title", default="")
    words.add_argument("--flat", action="store_true")
    words.add_argument("--file", action="append", default=[])
    words.add_argument("--nds")
    given = words.read()
    title = given.title.encode("ascii", "replace")
    if len(title) > 12 or not given.title.isascii() or not (given.title == "" or given.title.isprintable()):
        raise Refused(f"the title {given.title} isn't 12 ASCII characters at most")
    nine = image(0, given.arm9, given.nds, given.flat)
    seven = image(1, given.arm7, given.nds, given.flat) if given.arm7 else Image(USUAL[1], USUAL[1], HALTS)
    check_overlap(nine, seven)
    whole = cartridge(nine, seven, title, given.file)
    if given.to == "-":
        sys.stdout.buffer.write(whole)
    else:
        with open(given.to, "wb") as it:
            it.write(whole)
    return GOOD
