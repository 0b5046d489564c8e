"""Cartridges, scripts, listings and words, made and mutated by chance, as broken as they come."""
import random
import struct
from typing import Dict, List, Tuple

from nds_tools.hostile.boot_state import values_at
from nds_tools.hostile.causes import KEYS, MEMORIES, MOST_TICKS
from nds_tools.state_fields import layout, write_state
from nds_tools.states import NO_TICK, Field, Seen, Value, Wanted

Case = Tuple[List[str], Dict[str, bytes]]
LOOP = 0xEAFFFFFE
EDGES = (0, 1, 2, 3, 4, 8, 15, 16, 31, 32, 0x7F, 0x80, 0xFF, 0x100, 0x1FF, 0x200, 0x7FFF, 0x8000, 0xFFFF, 0x10000, 0x7FFFFFFF, 0x80000000, 0xFFFFFFFE, 0xFFFFFFFF)
PORTS = (
    tuple(range(0, 0x70, 2)) + tuple(range(0xB0, 0xF0, 2)) + tuple(range(0x100, 0x110, 2)) + tuple(range(0x1A0, 0x1B0, 2))
    + tuple(range(0x240, 0x24A)) + tuple(range(0x280, 0x2C0, 4)) + tuple(range(0x330, 0x340)) + tuple(range(0x400, 0x700, 4)) + tuple(range(0x1000, 0x1070, 2))
    + (0x60, 0x130, 0x132, 0x136, 0x180, 0x184, 0x188, 0x204, 0x208, 0x210, 0x214, 0x300, 0x301, 0x304, 0x100000, 0x100010)
)
PLACES = (0x0200_0000, 0x0220_0000, 0x0300_0000, 0x037F_8000, 0x0380_0000, 0x0500_0000, 0x0600_0000, 0x0680_0000, 0x0700_0000, 0, 0x0100_0000, 0xFFFF_0000)


def word(chance: random.Random) -> int:
    """Returns a number that is often an edge, or near a memory."""
    at = chance.random()
    if at < 0.3:
        return chance.choice(EDGES)
    return chance.choice(PLACES) + 4 * chance.randrange(0x400) if at < 0.5 else chance.getrandbits(32)


def access(chance: random.Random) -> List[int]:
    """Returns code that loads an address and a value from behind it, and stores or loads there: a port mostly."""
    at = 0x0400_0000 + chance.choice(PORTS) if chance.random() < 0.7 else word(chance)
    value = word(chance)
    made = chance.choice((0xE5810000, 0xE5810000, 0xE1C100B0, 0xE5C10000, 0xE5910000, 0xE1D100B0, 0xE5D10000, 0xE8A1001D, 0xE8B1001C, 0xE1010090))
    # ldr r1, [pc, #4]; ldr r0, [pc, #4]; the access; b over the two words
    return [0xE59F1008, 0xE59F0008, made, 0xEA000001, at, value]


def code(chance: random.Random) -> bytes:
    """Returns code: accesses, words by chance, interrupts that are let in, waits and jumps."""
    words: List[int] = []
    for _ in range(chance.randrange(1, 14)):
        at = chance.random()
        if at < 0.6:
            words += access(chance)
        elif at < 0.75:
            words.append(chance.getrandbits(32))
        elif at < 0.85:
            words.append(chance.choice((0xE121F000, 0xE321F01F, 0xEE070F90, 0xEF050000, 0xEF040000, 0xE25EF004, 0xE8FD8000, 0xEE090F11, 0xEE010F10, 0xE12FFF11)))
        else:
            words.append(0xE000_0000 | chance.getrandbits(28))
    words.append(chance.choice((LOOP, 0xEA00_0000 | (-len(words) - 2) & 0xFF_FFFF)))
    return struct.pack(f"<{len(words)}I", *words)


def cart(chance: random.Random, nine: bytes, seven: bytes) -> bytes:
    """Returns a cartridge of two images that is accepted."""
    place_nine = chance.choice((0x0200_0000, 0x0200_0000, 0x0210_0000 - 4 * (len(nine) // 4)))
    place_seven = chance.choice((0x0210_0000, 0x0380_0000, 0x037F_8000, 0x0200_0000))
    header = bytearray(0x200)
    header[0x12] = chance.choice((0, 2))
    struct.pack_into("<4I", header, 0x20, 0x200, place_nine, place_nine, len(nine))
    struct.pack_into("<4I", header, 0x30, 0x200 + len(nine), place_seven, place_seven, len(seven))
    return bytes(header) + nine + seven


def mutated(chance: random.Random, data: bytes, alphabet: bytes = b"") -> bytes:
    """Returns data with some bytes changed, dropped, doubled or cut off."""
    changed = bytearray(data)
    for _ in range(chance.choice((1, 1, 1, 2, 3, 8))):
        at = chance.randrange(len(changed) + 1)
        fresh = chance.choice(alphabet) if alphabet and chance.random() < 0.9 else chance.getrandbits(8)
        way = chance.randrange(5)
        if way == 0 and at < len(changed):
            changed[at] = fresh
        elif way == 1:
            changed.insert(at, fresh)
        elif way == 2 and at < len(changed):
            del changed[at : at + chance.choice((1, 1, 4))]
        elif way == 3:
            changed[at:at] = changed[at : at + chance.randrange(1, 12)]
        elif chance.random() < 0.2:
            del changed[at:]
    return bytes(changed)


def script(chance: random.Random) -> bytes:
    """Returns a script that is accepted."""
    tick, lines = 0, []
    for _ in range(chance.randrange(8)):
        pressed = [it for it in KEYS if chance.random() < 0.2]
        lines.append(f"{tick} {'+'.join(pressed) or '-'}")
        tick += chance.choice((1, 2, 40, 5000, 10**9))
    return ("\n".join(lines) + ("\n" if lines and chance.random() < 0.8 else "")).encode()


def runs(chance: random.Random) -> Case:
    """A run, a trace or a peek of code by chance, with or without a script."""
    files = {"cart": cart(chance, code(chance), code(chance))}
    keys = "none"
    if chance.random() < 0.2:
        files["keys"], keys = script(chance), "keys"
    ticks = str(chance.choice((1, 9, 100, 3000, 4000, 20000, 20000)))
    at = chance.random()
    if at < 0.15:
        return ["run", "cart", keys, ticks, chance.choice(("all", "last", "none"))], files
    if at < 0.55:
        return ["trace", "cart", keys, ticks, chance.choice("97"), str(chance.choice((1, 50, 100000)))], files
    memory = chance.choice(list(MEMORIES))
    length = min(chance.choice((1, 16, 17, 4096)), MEMORIES[memory])
    return ["peek", "cart", keys, ticks, memory, str(chance.randrange(MEMORIES[memory] - length + 1)), str(length)], files


def headers(chance: random.Random) -> Case:
    """A peek of a cartridge whose header was broken."""
    whole = cart(chance, struct.pack("<I", LOOP), struct.pack("<I", LOOP))
    if chance.random() < 0.5:
        broken = bytearray(whole)
        struct.pack_into("<I", broken, chance.choice((0x10, 0x20, 0x24, 0x28, 0x2C, 0x30, 0x34, 0x38, 0x3C)), word(chance))
        whole = bytes(broken)
    else:
        whole = mutated(chance, whole)
    return ["peek", "cart", "none", "9", "main", "0", "4"], {"cart": whole}


def scripts(chance: random.Random) -> Case:
    """A peek with a script that was broken."""
    broken = mutated(chance, script(chance) or b"5 A\n", b"0123456789 +-\nABXYRLSTUPDOWNEFGHIC")
    return ["peek", "cart", "keys", "9", "main", "0", "4"], {"cart": cart(chance, struct.pack("<I", LOOP), struct.pack("<I", LOOP)), "keys": broken}


def words(chance: random.Random) -> Case:
    """Words that ask for something, or for nothing."""
    files = {"cart": cart(chance, struct.pack("<I", LOOP), struct.pack("<I", LOOP)), "keys": b""}
    asked = chance.choice(
        (
            ["run", "cart", "none", "9", "none"],
            ["list", "cart", "9"],
            ["trace", "cart", "none", "9", "9", "2"],
            ["peek", "cart", "keys", "9", "main", "0", "4"],
            ["demo", "3", "9"],
            ["asm", "nothing"],
            ["save", "cart", "none", "9"],
            ["resume", "nothing", "cart", "none", "9", "none"],
        )
    )
    strange = ("", "-", "-x", "0", "01", "9", "9t", "none", "all", "keys", "nothing", "4294967295", "4294967296", "100000000000", "100000000001", "1000001", "4097", "9 ", "+9", "main", "oam", "18446744073709551617", "ä")
    if chance.random() < 0.1:
        asked = asked[: chance.randrange(len(asked) + 1)]
    for _ in range(chance.randrange(3)):
        at = chance.randrange(len(asked) + 1)
        asked[at : at + chance.randrange(2)] = [chance.choice(strange)]
    return [short(it) if at > 1 else it for at, it in enumerate(asked)], files


def short(given: str) -> str:
    """Returns a word, or 77 in place of a number of ticks that would take long to run to."""
    return "77" if given.isdigit() and given.isascii() and 1_000_000 < int(given) <= MOST_TICKS else given


def demos(chance: random.Random) -> Case:
    """A small demo."""
    return ["demo", str(chance.getrandbits(32)), str(chance.choice((1, 9, 5000, 50000)))], {}


def listings(chance: random.Random) -> Case:
    """The listing of an image by chance, to be assembled again: who plays it writes the text, and breaks it."""
    image = bytes(chance.getrandbits(8) for _ in range(chance.choice((0, 1, 2, 3, 4, 5, 8, 40, 41, 120))))
    return ["list", "cart", chance.choice(("9", "7", "9t", "7t"))], {"cart": cart(chance, image, image)}


def value(chance: random.Random, field: Field, before: Value, tick: int) -> Value:
    """Returns another value of a field, an edge of it often; of bytes it changes one, and of several numbers too."""
    if isinstance(before, bytes):
        at = chance.randrange(len(before))
        return before[:at] + bytes([chance.getrandbits(8)]) + before[at + 1 :]
    if isinstance(before, tuple):
        at = chance.randrange(len(before))
        return (*before[:at], fresh(chance, field, before[at], tick), *before[at + 1 :])
    return fresh(chance, field, before, tick)


def fresh(chance: random.Random, field: Field, before: int, tick: int) -> int:
    """Returns another number of a field."""
    bits, at = 8 * field.width, chance.random()
    if field.code == "Q" and at < 0.7:
        return chance.choice((0, 1, tick - 1, tick, tick + 1, tick + 2**32, tick + 2**32 + 1, NO_TICK)) % 2**64
    if field.code in "BH" and at < 0.5:
        return chance.choice((0, 1, 2, 3, 4, 5, 15, 16, 17, 31, 32, 64, 128, 132))
    number = before ^ 1 << chance.randrange(bits) if at < 0.6 else chance.choice(EDGES) if at < 0.8 else chance.getrandbits(bits)
    return (number + (2 ** (bits - 1) if field.code in "hi" else 0)) % 2**bits - (2 ** (bits - 1) if field.code in "hi" else 0)


def state(chance: random.Random, whole: bytes, tick: int) -> bytes:
    """Returns a state of a cartridge that was changed in some fields: it may be one that is accepted, or break a rule."""
    values, seen = values_at(whole, tick), Seen()
    fields = [it for it in layout(Seen(values), Wanted()) if it.name in values]
    chosen = {it.name for it in chance.sample(fields, chance.choice((0, 1, 1, 2, 2, 3, 5, 9)))}
    for field in layout(seen, Wanted()):
        zero: Value = bytes(field.count) if field.code == "s" else (0,) * field.count if field.is_many else 0
        it = values.get(field.name, zero)
        is_changed = field.name in chosen or (field.name not in values and chance.random() < 0.2)
        seen[field.name] = value(chance, field, it, tick) if is_changed else it
        if field.name in ("open vertices", "open polygons", "swapped vertices", "swapped polygons", "GXFIFO count"):
            seen[field.name] = min(seen.number(field.name), 400)
    return write_state(dict(seen))


def resumes(chance: random.Random) -> Case:
    """A run from a state that was made and changed field by field, or whose bytes were cut or changed."""
    whole, tick = cart(chance, code(chance), code(chance)), chance.choice((0, 1, 9, 3213, 4000))
    content = state(chance, whole, tick)
    at = chance.random()
    if at < 0.05:
        content = content[: chance.choice((0, 1, 34, 74, 400, 5_015_952, chance.randrange(len(content)), len(content) - 1))]
    elif at < 0.08:
        content += bytes(chance.choice((1, 4)))
    until = str(max(tick + chance.choice((0, 1, 1, 9, 100, 3000)), 1))
    given = whole + b"\0" if chance.random() < 0.03 else whole
    return ["resume", "state", "cart", "none", until, chance.choice(("none", "none", "last", "all"))], {"cart": given, "state": content}


def saves(chance: random.Random) -> Case:
    """A state of code by chance."""
    files = {"cart": cart(chance, code(chance), code(chance))}
    return ["save", "cart", "none", str(chance.choice((1, 9, 100, 3213, 4000, 20000)))], files


WAYS = ((runs, 50), (headers, 10), (scripts, 12), (words, 10), (listings, 16), (demos, 2), (resumes, 6), (saves, 4))


def case(chance: random.Random) -> Case:
    """Returns the words and the files of one try."""
    made = chance.choices([way for way, _ in WAYS], [share for _, share in WAYS])[0]
    return made(chance)
