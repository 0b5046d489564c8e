"""Whether an ELF file is of the build that a cartridge holds, or that ran: otherwise its symbols name other places."""
import os
import struct
from typing import Callable, List, Optional, Tuple

from nds_tools import names
from nds_tools.elf import Elf
from nds_tools.memory import Map
from nds_tools.records import Memory
from nds_tools.words import Untold, bytes_of

# Where the header tells an image's place in the file, its address and its length: ARM9's and ARM7's (GBATEK, "DS Cartridge Header").
IMAGES = ((0x20, 0x28, 0x2C), (0x30, 0x38, 0x3C))
# Where code was, how the ELF file has it, and how it is there.
Other = Tuple[int, bytes, bytes]


def image_of(cart: bytes, proc: int) -> Tuple[int, bytes]:
    """Returns an image of a cartridge: the address to which it is copied at boot, and its bytes; none where the header doesn't tell."""
    if len(cart) < 0x40:
        return 0, b""
    place, address, size = (struct.unpack_from("<I", cart, it)[0] for it in IMAGES[proc])
    return address, cart[place : place + size]


def first_other(elf: Elf, at: int, content: bytes) -> Optional[Other]:
    """Returns the first place of a file's code that some bytes from an address on have otherwise; None where all they have of it agrees."""
    for address, code in elf.code_bytes():
        low, high = max(address, at), min(address + len(code), at + len(content))
        mine, theirs = code[low - address : high - address], content[low - at : high - at]
        if low < high and mine != theirs:
            step = next(it for it in range(len(mine)) if mine[it] != theirs[it]) // 4 * 4
            return low + step, mine[step : step + 4], theirs[step : step + 4]
    return None


def other_in_cart(elf: Elf, proc: int, cart: bytes) -> Optional[Other]:
    return first_other(elf, *image_of(cart, proc))


def is_in_memory(elf: Elf, proc: int, known: Map, record: Memory) -> bool:
    """Whether a file's code stands in memory, as that of an image does that was packed in the cartridge."""
    for address, code in elf.code_bytes():
        try:
            memory, at = known.place_of(proc, address)
        except Untold:
            continue
        size = min(len(code), names.SIZES[memory] - at)
        if record.memories[memory][at : at + size] != code[:size]:
            return False
    return True


def not_in_memory(known: Map, record: Memory) -> List[str]:
    """Returns a line for each ELF file whose code isn't in memory, where no cartridge tells."""
    found = []
    for proc, elf in enumerate(known.elves):
        if elf and not is_in_memory(elf, proc, known, record):
            found.append(f"elf{'97'[proc]} {elf.name} isn't of the program that ran, whose code is another one, so its symbols may be others")
    return found


def others(known: Map, cart: str, record: Optional[Memory] = None) -> List[str]:
    """Returns a line for each ELF file that is of another build than the cartridge: its code is another one there, and in memory too, where
    memories are given. A cartridge whose header or images aren't whole is none to tell it by."""
    found = []
    content = bytes_of(cart) if any(known.elves) and os.path.isfile(cart) else b""
    for proc, elf in enumerate(known.elves):
        other = other_in_cart(elf, proc, content) if elf else None
        if elf and other and not (record and is_in_memory(elf, proc, known, record)):
            where = elf.near(other[0]) or "its code"
            words = [int.from_bytes(it, "little") for it in other[1:]]
            text = f"at {other[0]:08x} ({where}) it has {words[0]:08x}, and the cartridge {words[1]:08x}"
            found.append(f"elf{'97'[proc]} {elf.name} isn't of the build in {cart}, so its symbols are others: {text}")
    return found


def refuse_others(known: Map, cart: str, memory: Callable[[], Optional[Memory]]) -> None:
    """Refuses an ELF file of another build; memories are asked for where the cartridge has other code, which may be packed there."""
    if others(known, cart):
        for it in others(known, cart, memory()):
            raise Untold(it)
