"""States made without the program: what a cartridge boots to (docs/PROGRAMS.md, docs/MEMORY.md), as values of a saved state's fields."""
import functools
import struct
from typing import Dict, Optional

from nds_tools import names
from nds_tools.state_fields import BLANK, FRAME, LINE, MISSING, layout, write_state
from nds_tools.states import LETTER, NO_TICK, VERSION, Seen, Value, Wanted, digest_of

# Where the header's copy stands in main memory, and how much of it there is.
HEADER_AT, HEADER_BYTES = 0x3F_FE00, 0x170
SYSTEM_MASKED = 0xDF
STACKS = ((0x0300_2F7C, 0x0300_3F80, 0x0300_3FC0), (0x0380_FD80, 0x0380_FF80, 0x0380_FFC0))
IDENTITY = tuple(4096 * (it % 5 == 0) for it in range(16))
BOOT = {"letter": LETTER, "version": VERSION, "CP15 control": 0x0005_2000, "CP15 DTCM": 0x0300_000A, "CP15 ITCM": 0x20, "WRAMCNT": 3}
UNDUE = ("divider due", "square root due", "geometry due", "card due")


def put(memories: Dict[str, bytearray], proc: int, address: int, image: bytes) -> None:
    """Copies an image to where its processor has the address at boot, when WRAMCNT is 3."""
    for at, byte in enumerate(image, address):
        if 0x0200_0000 <= at <= 0x02FF_FFFF:
            memories["main"][at % names.SIZES["main"]] = byte
        elif proc == 1 and 0x0300_0000 <= at <= 0x037F_FFFF:
            memories["wram"][at % names.SIZES["wram"]] = byte
        elif proc == 1 and 0x0380_0000 <= at <= 0x03FF_FFFF:
            memories["wram7"][at % names.SIZES["wram7"]] = byte


@functools.lru_cache(2)
def booted_memories(cart: bytes) -> Dict[str, bytes]:
    """Returns the eight memories after both images and the header were copied."""
    memories = {name: bytearray(size) for name, size in names.SIZES.items()}
    for proc, at in enumerate((0x20, 0x30)):
        offset, _, address, size = struct.unpack_from("<4I", cart, at)
        put(memories, proc, address, cart[offset : offset + size])
    memories["main"][HEADER_AT : HEADER_AT + HEADER_BYTES] = cart[:HEADER_BYTES].ljust(HEADER_BYTES, b"\0")
    return {name: bytes(it) for name, it in memories.items()}


def values_at(cart: bytes, tick: int, changes: Optional[Dict[str, Value]] = None) -> Dict[str, Value]:
    """Returns the values of a cartridge that has booted and took no steps, as at a tick; `changes` stand in place of these values, and may be
    counts of lists, whose further fields are 0 then."""
    given: Dict[str, Value] = {**BOOT, "tick": tick, "SHA-256 of the cartridge": digest_of(cart), **booted_memories(cart)}
    for proc, at in zip(names.PROCESSORS, (0x24, 0x34)):
        entry = struct.unpack_from("<I", cart, at)[0]
        given.update({f"{proc} {it}": entry for it in ("r12", "r14", "r15")}, **{f"{proc} cpsr": SYSTEM_MASKED, f"{proc} due": tick})
        stacks = STACKS[proc == "ARM7"]
        given.update({f"{proc} r13{bank}": it for bank, it in zip(("", "_irq", "_svc"), stacks)})
    before = max(tick - 1, 0) % FRAME
    given.update({"VCOUNT": before // LINE, "H-blank came": int(before % LINE >= BLANK)}, **{it: NO_TICK for it in UNDUE})
    given.update({f"{name} matrix": IDENTITY for name in ("projection", "position", "vector", "texture")})
    given.update({f"vertex {it} back": MISSING for it in (3, 2, 1)})
    given.update(changes or {})
    return filled(given)


def filled(given: Dict[str, Value]) -> Dict[str, Value]:
    """Returns values for all fields: those that are given, and 0."""
    seen = Seen()
    for field in layout(seen, Wanted()):
        zero: Value = bytes(field.count) if field.code == "s" else (0,) * field.count if field.is_many else 0
        if field.name.startswith("GXFIFO ") and field.name.endswith(" command"):
            zero = 0x10
        seen[field.name] = given.get(field.name, zero)
    unknown = sorted(set(given) - set(seen))
    if unknown:
        raise ValueError(f"a state with these counts has no field {unknown[0]}")
    return dict(seen)


def state_at(cart: bytes, tick: int, changes: Optional[Dict[str, Value]] = None) -> bytes:
    """Returns the bytes of such a state."""
    return write_state(values_at(cart, tick, changes))


def loop_cart(place_of_seven: int = 0x0210_0000) -> bytes:
    """Returns a cartridge of 512 bytes, of which each processor's image is one branch to itself."""
    header = bytearray(0x200)
    struct.pack_into("<4I", header, 0x20, 0x1FC, 0x0200_0000, 0x0200_0000, 4)
    struct.pack_into("<4I", header, 0x30, 0x1FC, place_of_seven, place_of_seven, 4)
    struct.pack_into("<I", header, 0x1FC, 0xEAFF_FFFE)
    return bytes(header)
