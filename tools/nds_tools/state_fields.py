"""The fields of a saved state in order, by GBATEK's names where it has one, each with its rule (docs/STATES.md has both as a table).

A rule that looks at several fields stands at the last of them."""
from typing import Dict, List, Optional, Tuple

from nds_tools import names
from nds_tools.records import MOST_POLYGONS, MOST_VERTICES, End, Memory
from nds_tools.states import DIGEST_BYTES, LETTER, NO_TICK, VERSION, Field, Fields, Rule, Seen, State, Value, Wanted
from nds_tools.states import read, written

# How much later than the state's tick a part may be due.
SOON = 2**32
MOST_STEPS = 24
# How long after its trigger, or after the unit before, a channel's unit comes.
UNIT = 4
MOST_ENTRIES, STALLED, HALF, AHEAD = 324, 260, 128, 4
PIXELS = 98_304
MISSING = 0xFFFF
BANKS = "ABCDEFGHI"
# The bits that a register keeps.
STATUS = (0xF800_00FF, 0xF000_00FF)
CONTROL, DTCM, ITCM = 0x000F_7005, 0xFFFF_F03E, 0x0000_003E
IE = (0x2F_1F7F, 0x0F_1F7F)
GEOMETRY_BIT = 1 << 21
# Ticks of one count of a timer by its prescaler.
PACES = (2, 128, 512, 2048)
# Each geometry command's number of parameters, by its code.
PARAMETERS: Dict[int, int] = {
    0x10: 1, 0x11: 0, 0x12: 1, 0x13: 1, 0x14: 1, 0x15: 0, 0x16: 16, 0x17: 12, 0x18: 16, 0x19: 12, 0x1A: 9, 0x1B: 3, 0x1C: 3,
    0x20: 1, 0x21: 1, 0x22: 1, 0x23: 2, 0x24: 1, 0x25: 1, 0x26: 1, 0x27: 1, 0x28: 1, 0x29: 1, 0x2A: 1, 0x2B: 1,
    0x30: 1, 0x31: 1, 0x32: 1, 0x33: 1, 0x34: 32, 0x40: 1, 0x41: 0, 0x50: 1, 0x60: 1, 0x70: 3, 0x71: 2, 0x72: 1,
}  # fmt: skip
LINE, FRAME, BLANK = 4_260, names.FRAME_TICKS, 3_212
STACKED = 31


def says(is_right: bool, why: str) -> str:
    return "" if is_right else why


def at_most(most: int) -> Rule:
    return lambda it: says(it <= most, f"it is {it}, and at most {most}")


def keeps(mask: int) -> Rule:
    return lambda it: says(not it & ~mask, f"it is {it:x}h, and has bits of {mask:x}h alone")


def soon(at: int) -> Rule:
    """A due tick, or none."""
    return lambda it: says(it == NO_TICK or at <= it <= at + SOON, f"it is due at {it}, and has to be from tick {at} to 2^32 ticks later, or none")


def unused(is_used: bool, rule: Optional[Rule] = None, what: str = "what it belongs to") -> Rule:
    """A number that is 0 where it isn't used, and otherwise keeps another rule."""

    def check(it: int) -> str:
        if not is_used:
            return says(it == 0, f"it is {it}, and has to be 0 without {what}")
        return rule(it) if rule else ""

    return check


FLAG = at_most(1)


def earlier(at: int) -> Rule:
    return lambda it: says(it <= at, f"it is {it}, later than tick {at}")


def first_of(*rules: Rule) -> Rule:
    """Several rules of one number, of which the first broken one is told."""
    return lambda it: next((why for why in (rule(it) for rule in rules) if why), "")


def layout(seen: Seen, wanted: Wanted) -> Fields:
    """All fields of a state."""
    yield from head(seen, wanted)
    at = seen.number("tick")
    for which, proc in enumerate(names.PROCESSORS):
        yield from core(seen, at, proc, STATUS[which])
    for name, mask in (("CP15 control", CONTROL), ("CP15 DTCM", DTCM), ("CP15 ITCM", ITCM)):
        yield Field(name, "I", rule=keeps(mask))
    yield from memories()
    yield Field("WRAMCNT", "B", rule=at_most(3))
    for which, proc in enumerate(names.PROCESSORS):
        yield from interrupts(seen, which, proc)
    for proc in names.PROCESSORS:
        for number in range(4):
            yield from timer(seen, at, f"{proc} TM{number}", number > 0)
    yield from math(at)
    for proc in names.PROCESSORS:
        yield from ipc(seen, proc)
    yield Field("KEYINPUT pressed", "H", rule=at_most(0xFFF))
    for proc in names.PROCESSORS:
        yield Field(f"{proc} KEYCNT", "H", rule=keeps(0xC3FF))
    for which, proc in enumerate(names.PROCESSORS):
        yield from channels(seen, at, which, proc)
    for number in range(4):
        yield Field(f"DMA{number}FILL", "I")
    yield from video(at)
    yield from matrices()
    yield from geometry(seen, at)
    yield from lists(seen, at)
    yield from fifo(seen, at)
    yield from card(seen, at)


def head(seen: Seen, wanted: Wanted) -> Fields:
    yield Field("letter", "B", rule=lambda it: says(it == LETTER, f"it is {it:02x}h, and has to be S, {LETTER:02x}h"))
    yield Field("version", "B", rule=lambda it: says(it == VERSION, f"it is {it}, and version {VERSION} alone is known"))
    yield Field("SHA-256 of the cartridge", "s", DIGEST_BYTES, lambda it: says(wanted.digest in (None, it), "it is another cartridge's"))
    until = wanted.until
    yield Field("tick", "Q", rule=lambda it: says(until is None or it < until, f"it is {it}, and the run goes to tick {until}"))
    yield Field("steps of ARM9", "Q")
    yield Field("steps of ARM7", "Q")
    before = seen.number("steps of ARM9") + seen.number("steps of ARM7")
    most = MOST_STEPS * seen.number("tick")
    yield Field("events", "Q", rule=lambda it: says(before + it <= most, f"steps and events are {before + it}, and at most {most} by that tick"))
    steps = before + seen.number("events")
    yield Field("turns", "Q", rule=lambda it: says(it <= steps, f"it is {it}, more than the {steps} steps and events"))


def core(seen: Seen, at: int, proc: str, status: int) -> Fields:
    for name in names.REGISTERS:
        yield Field(f"{proc} {name}", "I", rule=keeps(status) if "psr" in name else None)
    yield Field(f"{proc} halted", "B", rule=FLAG)
    is_halted = seen.number(f"{proc} halted")
    late = at_most(at + SOON)
    yield Field(f"{proc} due", "Q", rule=unused(not is_halted, late, "a processor that isn't halted"))


def memories() -> Fields:
    for name, size in names.SIZES.items():
        yield Field(name, "s", size)
        if name == "vram":
            for bank in BANKS:
                yield Field(f"VRAMCNT_{bank}", "B", rule=keeps(0x9B if bank in "ABHI" else 0x9F))


def interrupts(seen: Seen, which: int, proc: str) -> Fields:
    yield Field(f"{proc} IME", "B", rule=FLAG)
    yield Field(f"{proc} IE", "I", rule=keeps(IE[which]))
    asked = seen.number(f"{proc} IE") if which == 1 and seen.number(f"{proc} halted") else 0
    wakes = "{} is halted, and IE and IF share bits {:x}h, which wake it"
    yield Field(f"{proc} IF", "I", rule=first_of(keeps(0xFFFF_FFFF ^ GEOMETRY_BIT), lambda it: says(not it & asked, wakes.format(proc, it & asked))))


def timer(seen: Seen, at: int, name: str, may_count_up: bool) -> Fields:
    yield Field(f"{name}CNT_L reload", "H")
    yield Field(f"{name}CNT_H", "B", rule=keeps(0xC7))
    yield Field(f"{name} counter", "H")
    control = seen.number(f"{name}CNT_H")
    is_anchored = control & 0x80 and not (may_count_up and control & 4)
    left = (0x1_0000 - seen.number(f"{name} counter")) * PACES[control & 3]
    due = first_of(earlier(at), lambda it: says(it + left >= at, f"it is {it}, so that the timer was due at {it + left}, before tick {at}"))
    yield Field(f"{name} restart", "Q", rule=unused(bool(is_anchored), due, "a timer that runs by the clock"))


def math(at: int) -> Fields:
    yield Field("DIVCNT mode", "B", rule=at_most(3))
    for name in ("DIV_NUMER", "DIV_DENOM", "DIV_RESULT", "DIVREM_RESULT"):
        yield Field(name, "Q")
    yield Field("divider due", "Q", rule=soon(at))
    yield Field("SQRTCNT wide", "B", rule=FLAG)
    yield Field("SQRT_PARAM", "Q")
    yield Field("SQRT_RESULT", "I")
    yield Field("square root due", "Q", rule=soon(at))


def ipc(seen: Seen, proc: str) -> Fields:
    yield Field(f"{proc} IPCSYNC sent", "B", rule=at_most(15))
    yield Field(f"{proc} IPCSYNC enable", "B", rule=FLAG)
    yield Field(f"{proc} IPCFIFOCNT", "H", rule=keeps(0xC404))
    yield Field(f"{proc} IPCFIFORECV last", "I")
    yield Field(f"{proc} IPCFIFORECV count", "B", rule=at_most(16))
    for it in range(seen.number(f"{proc} IPCFIFORECV count")):
        yield Field(f"{proc} IPCFIFORECV word {it}", "I")


def greatest_count(which: int, number: int) -> int:
    """Returns the greatest number that a channel's count can have."""
    return 0x1F_FFFF if which == 0 else 0xFFFF if number == 3 else 0x3FFF


def channels(seen: Seen, at: int, which: int, proc: str) -> Fields:
    """The four channels of a processor, and its last unit."""
    for number in range(4):
        yield from channel(seen, at, which, proc, number)
    yield Field(f"{proc} DMA last unit", "Q", rule=earlier(at))
    is_there = seen.number(f"{proc} DMA last unit") > 0
    waits = unused(is_there, at_most(16), "a last unit")
    yield Field(f"{proc} DMA last waits", "I", rule=first_of(waits, lambda it: comes_late(seen, at, it)) if which == 1 else waits)


def comes_late(seen: Seen, at: int, waits: int) -> str:
    """What is wrong with ARM7's channel that is due: nothing holds it, so that it isn't due before the state's tick. (ARM9's may have been held by
    the geometry FIFO, and is due at once then.)"""
    running = [it for it in range(4) if seen.number(f"ARM7 DMA{it} running")]
    if not running:
        return ""
    last = seen.number("ARM7 DMA last unit")
    due = max(seen.number(f"ARM7 DMA{running[0]} trigger") + UNIT, last + UNIT + waits if last else 0)
    return says(due >= at, f"ARM7's DMA channel {running[0]} was due at {due}, before tick {at}, and nothing holds it")


def channel(seen: Seen, at: int, which: int, proc: str, number: int) -> Fields:
    name, most = f"{proc} DMA{number}", greatest_count(which, number)
    yield Field(f"{name}SAD", "I", rule=keeps(0x0FFF_FFFF))
    yield Field(f"{name}DAD", "I", rule=keeps(0x0FFF_FFFF))
    yield Field(f"{name}CNT", "I", rule=None if which == 0 else keeps(0xF7E0_0000 | most))
    is_enabled = bool(seen.number(f"{name}CNT") >> 31)
    for it in ("source", "target"):
        yield Field(f"{name} {it}", "I", rule=unused(is_enabled, None, "an enabled channel"))
    some = lambda it: says(1 <= it <= most + 1, f"it is {it}, and an enabled channel has 1 to {most + 1} units left")  # noqa: E731 (a rule)
    yield Field(f"{name} units left", "I", rule=unused(is_enabled, some, "an enabled channel"))
    yield Field(f"{name} burst left", "I", rule=at_most(min(seen.number(f"{name} units left"), 112)) if is_enabled else None)
    burst = seen.number(f"{name} burst left")

    def runs(it: int) -> str:
        why = FLAG(it) or says(not it or is_enabled, "it runs, and isn't enabled")
        return why or says(it == 1 or burst == 0, f"it doesn't run, and has {burst} units left in a burst")

    awake = own_due(seen, at, proc, number) if which == 1 and number == 3 else (lambda it: "")
    yield Field(f"{name} running", "B", rule=first_of(runs, awake))
    is_running = bool(seen.number(f"{name} running"))
    yield Field(f"{name} trigger", "Q", rule=unused(is_running, earlier(at), "a channel that runs"))


def own_due(seen: Seen, at: int, proc: str, number: int) -> Rule:
    """Where nothing holds a processor it isn't due before the state's tick; told by its last channel's running flag, which is the number."""
    is_held = any(seen.number(f"{proc} DMA{it} running") for it in range(number)) or seen.number(f"{proc} halted")
    due = seen.number(f"{proc} due")
    return lambda it: says(bool(is_held or it) or due >= at, f"{proc} is due at {due}, before tick {at}, and neither is halted nor waits for its DMA")


# An engine's registers in order, each with its letter of `struct` and the bits that it keeps.
ENGINE = [("DISPCNT", "I", 0xFFFF_FFFF)]
ENGINE += [(f"BG{it}CNT", "H", 0xFFFF) for it in range(4)]
ENGINE += [(f"BG{it}{way}OFS", "H", 0x1FF) for it in range(4) for way in "HV"]
for _bg in (2, 3):
    ENGINE += [(f"BG{_bg}P{it}", "H", 0xFFFF) for it in "ABCD"] + [(f"BG{_bg}{it}", "I", 0x0FFF_FFFF) for it in "XY"]
ENGINE += [(it, "H", 0xFFFF) for it in ("WIN0H", "WIN1H", "WIN0V", "WIN1V")]
ENGINE += [("WININ", "H", 0x3F3F), ("WINOUT", "H", 0x3F3F), ("MOSAIC", "H", 0xFFFF)]
ENGINE += [("BLDCNT", "H", 0x3FFF), ("BLDALPHA", "H", 0x1F1F), ("BLDY", "H", 0x1F)]
OF_A_ALONE = [("DISPCAPCNT", "I", 0xFFFF_FFFF)]
LAST = [("MASTER_BRIGHT", "H", 0xC01F)]
ENGINES = {"A": ENGINE + OF_A_ALONE + LAST, "B": ENGINE + LAST}


def video(at: int) -> Fields:
    before = max(at - 1, 0) % FRAME
    line, is_past = before // LINE, int(before % LINE >= BLANK)
    yield Field("VCOUNT", "H", rule=lambda it: says(it == line, f"it is {it}, and at tick {at} it is {line}"))
    phase = ("not yet", "already")[is_past]
    past = first_of(FLAG, lambda it: says(it == is_past, f"it is {it}, and at tick {at} the line's H-blank has {phase} come"))
    yield Field("H-blank came", "B", rule=past)
    for proc in names.PROCESSORS:
        yield Field(f"{proc} DISPSTAT", "H", rule=keeps(0xFFBF))
    for engine, registers in ENGINES.items():
        for name, code, mask in registers:
            yield Field(f"{engine} {name}", code, rule=keeps(mask))
    yield Field("POWCNT1", "H")
    for engine in ENGINES:
        for background in (2, 3):
            for way in "XY":
                yield Field(f"{engine} BG{background}{way} running", "i")
    for name in ("frame being drawn", "last whole frame"):
        yield Field(name, "H", PIXELS, keeps(0x7FFF))


def matrices() -> Fields:
    yield Field("MTX_MODE", "B", rule=at_most(3))
    yield Field("position level", "B", rule=at_most(STACKED))
    yield Field("projection level", "B", rule=FLAG)
    yield Field("texture level", "B", rule=FLAG)
    yield Field("stack error", "B", rule=FLAG)
    for name in ("projection", "position", "vector", "texture"):
        yield Field(f"{name} matrix", "i", 16)
    for name in ("position", "vector"):
        for it in range(STACKED):
            yield Field(f"stored {name} matrix {it}", "i", 16)
    for name in ("projection", "texture"):
        yield Field(f"stored {name} matrix", "i", 16)


COLOUR, PALETTE = keeps(0x7FFF), at_most(0x1FFF)


def geometry(seen: Seen, at: int) -> Fields:
    """The numbers that geometry commands keep, and the results of tests."""
    yield Field("list overflow", "B", rule=FLAG)
    yield Field("SWAP_BUFFERS waiting parameter", "I")
    yield Field("COLOR", "H", rule=COLOUR)
    for name in ("VTX x", "VTX y", "VTX z", "TEXCOORD raw s", "TEXCOORD raw t", "TEXCOORD s", "TEXCOORD t"):
        yield Field(name, "h")
    for name in ("POLYGON_ATTR set", "POLYGON_ATTR in force", "TEXIMAGE_PARAM"):
        yield Field(name, "I")
    yield Field("PLTT_BASE", "I", rule=PALETTE)
    yield Field("VIEWPORT", "I")
    for name in ("diffuse", "ambient", "specular", "emission"):
        yield Field(f"{name} colour", "H", rule=COLOUR)
    yield Field("SHININESS on", "B", rule=FLAG)
    yield Field("SHININESS", "s", 128)
    for light in range(4):
        for way in "xyz":
            yield Field(f"LIGHT_VECTOR {light} {way}", "i")
        yield Field(f"LIGHT_COLOR {light}", "H", rule=COLOUR)
    yield Field("BEGIN_VTXS kind", "B", rule=at_most(3))
    yield Field("vertices of the run", "Q", rule=earlier(at))
    run = seen.number("vertices of the run")
    for back in (3, 2, 1):
        missing = lambda it: says(it == MISSING, f"it is {it}, and the run has only {run} vertices")  # noqa: E731 (a rule)
        yield Field(f"vertex {back} back", "H", rule=missing if run < back else None)
    yield Field("POS_RESULT", "i", 4)
    for way in "xyz":
        yield Field(f"VEC_RESULT {way}", "h")
    yield Field("box result", "B", rule=FLAG)


def lists(seen: Seen, at: int) -> Fields:
    """The open lists, and those of the last swap."""
    places: List[int] = [seen.number(f"vertex {it} back") for it in (3, 2, 1)]

    def holds(it: int) -> str:
        late = [place for place in places if place != MISSING and place >= it]
        return says(not late, f"it is {it}, and the run has a vertex with index {max(late, default=0)}")

    yield Field("open vertices", "I", rule=first_of(at_most(MOST_VERTICES), holds))
    yield Field("open polygons", "I", rule=at_most(MOST_POLYGONS))
    yield from one_list(seen, "open")
    yield Field("swap tick", "Q", rule=earlier(at))
    is_there = seen.number("swap tick") > 0
    yield Field("swap parameter", "I", rule=unused(is_there, None, "a swap"))
    yield Field("swapped vertices", "I", rule=unused(is_there, at_most(MOST_VERTICES), "a swap"))
    yield Field("swapped polygons", "I", rule=unused(is_there, at_most(MOST_POLYGONS), "a swap"))
    yield from one_list(seen, "swapped")


def one_list(seen: Seen, which: str) -> Fields:
    """The vertices of a list, and then its polygons."""
    for it in range(seen.number(f"{which} vertices")):
        for way in "xyzw":
            yield Field(f"{which} vertex {it} {way}", "i")
        yield Field(f"{which} vertex {it} colour", "H", rule=COLOUR)
        for way in "st":
            yield Field(f"{which} vertex {it} {way}", "h")
    for it in range(seen.number(f"{which} polygons")):
        name = f"{which} polygon {it}"
        yield Field(f"{name} attributes", "I")
        yield Field(f"{name} texture", "I")
        yield Field(f"{name} palette", "I", rule=PALETTE)
        yield Field(f"{name} viewport", "I")
        yield Field(f"{name} corners", "B", rule=lambda it: says(it in (3, 4), f"it is {it}, and a polygon has 3 or 4"))
        for corner in "abc":
            yield Field(f"{name} {corner}", "H")
        yield Field(f"{name} d", "H", rule=unused(seen.number(f"{name} corners") == 4, None, "a fourth corner"))


def shown_count(entries: int) -> int:
    """Returns GXSTAT's count of entries."""
    return min(max(entries - AHEAD, 0), 256)


def level(selector: int, entries: int) -> bool:
    """Whether GXSTAT's condition holds, which is bit 21 of ARM9's IF."""
    return (selector == 1 and shown_count(entries) < HALF) or (selector == 2 and shown_count(entries) == 0)


def waiting(seen: Seen, at: int, it: int) -> str:
    """What the rest of the machine asks of the number of entries."""
    flags = seen.number("ARM9 IF") | (GEOMETRY_BIT if level(seen.number("GXSTAT selector"), it) else 0)
    shared = seen.number("ARM9 IE") & flags
    if seen.number("ARM9 halted") and shared:
        return f"ARM9 is halted, and IE and IF share bits {shared:x}h, which wake it"
    due = seen.number("ARM9 due")
    is_held = seen.number("ARM9 halted") or any(seen.number(f"ARM9 DMA{number} running") for number in range(4)) or it > STALLED
    if not is_held and due < at:
        return f"ARM9 is due at {due}, before tick {at}, and neither is halted nor waits for its DMA or the geometry FIFO"
    for number in range(4):
        control = seen.number(f"ARM9 DMA{number}CNT")
        is_armed = control >> 31 and control >> 27 & 7 == 7 and not seen.number(f"ARM9 DMA{number} running")
        if is_armed and shown_count(it) < HALF:
            return f"ARM9's DMA channel {number} waits for the geometry FIFO, which is less than half full"
    return ""


def fifo(seen: Seen, at: int) -> Fields:
    yield Field("DISP3DCNT", "H", rule=keeps(0x5FFF))
    yield Field("GXSTAT selector", "B", rule=at_most(3))
    yield Field("GXFIFO count", "H", rule=first_of(at_most(MOST_ENTRIES), lambda it: waiting(seen, at, it)))
    known = lambda it: says(it in PARAMETERS, f"it is {it:02x}h, which is no command")  # noqa: E731 (a rule)
    count = seen.number("GXFIFO count")
    for it in range(count):
        yield Field(f"GXFIFO {it} command", "B", rule=known)
        yield Field(f"GXFIFO {it} word", "I")
    yield Field("GXFIFO packed commands left", "I")
    packed = seen.number("GXFIFO packed commands left")
    most = PARAMETERS.get(packed & 0xFF, 0)

    def of_first(it: int) -> str:
        if not packed:
            return says(it == 0, f"it is {it}, and no packed command is left")
        if not most:
            return f"the packed commands left, {packed:08x}h, begin with {packed & 0xFF:02x}h, which is no command with parameters"
        return says(1 <= it <= most, f"it is {it}, and command {packed & 0xFF:02x}h has 1 to {most} left")

    yield Field("GXFIFO parameters left", "B", rule=of_first)
    yield Field("geometry due", "Q", rule=soon(at))
    yield Field("swap waits", "B", rule=first_of(FLAG, lambda it: geometry_waits(seen, count, it)))


def geometry_waits(seen: Seen, count: int, is_waiting: int) -> str:
    """What is wrong with whether a swap waits, by its parameter and by whether geometry is due."""
    parameter, is_due = seen.number("SWAP_BUFFERS waiting parameter"), seen.number("geometry due") != NO_TICK
    if is_waiting:
        return says(not is_due, "a swap waits, and geometry is due")
    if parameter:
        return f"no swap waits, and there is a parameter of one, {parameter:x}h"
    is_whole = count > 0 and count >= max(PARAMETERS[seen.number("GXFIFO 0 command")], 1)
    if is_whole:
        return says(is_due, "the first command has all its entries, and geometry isn't due")
    return says(not is_due, "no command has all its entries, and geometry is due")


# Words of a card's block by ROMCTRL bits 24 to 26.
BLOCK_WORDS = (0, 128, 256, 512, 1024, 2048, 4096, 1)


def card(seen: Seen, at: int) -> Fields:
    for proc in names.PROCESSORS:
        yield Field(f"{proc} AUXSPICNT", "H", rule=keeps(0xE000))
    yield Field("ROMCTRL", "I", rule=keeps(0x7F7F_FFFF))
    yield Field("card command", "s", 8)
    first = seen.content("card command")[0]
    busy = lambda it: says(not it or first in (0xB7, 0xB8), f"a transfer is busy, and its command begins with {first:02x}h")  # noqa: E731 (a rule)
    yield Field("card starter", "B", rule=first_of(at_most(2), busy))
    is_busy, words = bool(seen.number("card starter")), BLOCK_WORDS[seen.number("ROMCTRL") >> 24 & 7]
    fewer = lambda it: says(not words or it < words, f"it is {it}, and the block has {words} words")  # noqa: E731 (a rule)
    yield Field("card words taken", "I", rule=unused(is_busy, fewer, "a transfer"))
    taken = seen.number("card words taken")

    def due(it: int) -> str:
        if not is_busy:
            return says(it == NO_TICK, "no transfer is busy, and the card is due")
        return says(words > 0 or (taken == 0 and it != NO_TICK), "the block has no words, and one is ready or was taken")

    yield Field("card due", "Q", rule=first_of(soon(at), due))


def read_state(content: bytes, wanted: Wanted = Wanted()) -> State:
    """Reads a state, and raises Broken where the bytes are none."""
    return read(content, layout, wanted)


def memory_in(content: bytes) -> Tuple[Memory, End]:
    """Returns the memories, registers and counts of a state that the program wrote; what follows them isn't read."""
    state = read(content, layout, last=list(names.SIZES)[-1])
    return state.memory, End(state.tick, *(state[it] for it in ("steps of ARM9", "steps of ARM7", "events", "turns")))


def write_state(values: Dict[str, Value]) -> bytes:
    """Returns the bytes of a state; no rule is asked."""
    return written(values, layout)
