"""Names and numbers of the machine: memories, registers, modes, actors, kinds of stops (docs/FORMATS.md has them as tables)."""
from typing import Dict, List, Tuple

SECOND = 67_027_964
FRAME_TICKS = 1_120_380
FIRST_FRAME = 817_920

# In the order of the record M, each with its length and the address at which a program of ARM9, or else of ARM7, finds it at boot.
MEMORIES: List[Tuple[str, int, int]] = [
    ("main", 4_194_304, 0x0200_0000),
    ("wram", 32_768, 0x037F_8000),
    ("wram7", 65_536, 0x0380_0000),
    ("itcm", 32_768, 0x0000_0000),
    ("dtcm", 16_384, 0x0300_0000),
    ("palette", 2_048, 0x0500_0000),
    ("vram", 671_744, 0x0680_0000),
    ("oam", 2_048, 0x0700_0000),
]
SIZES: Dict[str, int] = {name: size for name, size, _ in MEMORIES}
BASES: Dict[str, int] = {name: base for name, _, base in MEMORIES}

PROCESSORS = ("ARM9", "ARM7")
BANKS = ("fiq", "svc", "abt", "irq", "und")
REGISTERS: List[str] = (
    [f"r{n}" for n in range(13)]
    + [f"r{n}_fiq" for n in range(8, 13)]
    + ["r13", "r14"]
    + [f"r{n}_{bank}" for bank in BANKS for n in (13, 14)]
    + ["r15", "cpsr"]
    + [f"spsr_{bank}" for bank in BANKS]
)
MODES: Dict[int, Tuple[str, str]] = {
    0x10: ("User", ""),
    0x11: ("FIQ", "_fiq"),
    0x12: ("IRQ", "_irq"),
    0x13: ("Supervisor", "_svc"),
    0x17: ("Abort", "_abt"),
    0x1B: ("Undefined", "_und"),
    0x1F: ("System", ""),
}

KINDS: Dict[int, str] = {
    1: "NotYet",
    2: "Swi",
    3: "BigEndian",
    4: "HaltMode",
    5: "DmaStart",
    6: "CardTransfer",
    7: "DisplayMode",
    8: "BgMode",
    9: "Capture",
    10: "Mosaic",
    11: "ExtendedBackground",
    12: "BitmapObject",
}

# The functions of the console's boot ROMs by number (GBATEK, "BIOS Functions"): the name, and whether ARM9's and ARM7's ROM has it. The stub has
# those of STUB_FUNCTIONS; a `swi` with another number stops the run.
BOTH, NINE_ALONE, SEVEN_ALONE = "97", "9", "7"
FUNCTIONS: Dict[int, Tuple[str, str]] = {
    0x00: ("SoftReset", BOTH),
    0x03: ("WaitByLoop", BOTH),
    0x04: ("IntrWait", BOTH),
    0x05: ("VBlankIntrWait", BOTH),
    0x06: ("Halt", BOTH),
    0x07: ("Sleep", SEVEN_ALONE),
    0x08: ("SoundBias", SEVEN_ALONE),
    0x09: ("Div", BOTH),
    0x0B: ("CpuSet", BOTH),
    0x0C: ("CpuFastSet", BOTH),
    0x0D: ("Sqrt", BOTH),
    0x0E: ("GetCRC16", BOTH),
    0x0F: ("IsDebugger", BOTH),
    0x10: ("BitUnPack", BOTH),
    0x11: ("LZ77UnCompReadNormalWrite8bit", BOTH),
    0x12: ("LZ77UnCompReadByCallbackWrite16bit", BOTH),
    0x13: ("HuffUnCompReadByCallback", BOTH),
    0x14: ("RLUnCompReadNormalWrite8bit", BOTH),
    0x15: ("RLUnCompReadByCallbackWrite16bit", BOTH),
    0x16: ("Diff8bitUnFilterWrite8bit", NINE_ALONE),
    0x18: ("Diff16bitUnFilter", NINE_ALONE),
    0x1A: ("GetSineTable", SEVEN_ALONE),
    0x1B: ("GetPitchTable", SEVEN_ALONE),
    0x1C: ("GetVolumeTable", SEVEN_ALONE),
    0x1D: ("GetBootProcs", SEVEN_ALONE),
}
STUB_FUNCTIONS = (0x03, 0x04, 0x05, 0x06, 0x09, 0x0B)
# (one number, and a function of its own on each processor)
LAST_FUNCTION = {"9": "CustomPost", "7": "CustomHalt"}
# Numbers that no boot ROM has, and what a game's own tests mean by them (docs/COMING_FROM.md).
OWN_NUMBERS = {0x55: "an early end", 0xAA: "a failed assertion"}
COUNTS = ("ticks", "steps9", "steps7", "events", "turns")


def actor(rank: int) -> str:
    """Returns the name of the actor of a rank."""
    for first, last, name in ((2, 5, "timer"), (6, 9, "timer"), (14, 17, "DMA channel"), (18, 21, "DMA channel")):
        if first <= rank <= last:
            return f"{'ARM9' if rank in (2, 3, 4, 5, 14, 15, 16, 17) else 'ARM7'}'s {name} {rank - first}"
    alone = {0: "the key script", 1: "the display", 10: "the divider", 11: "the square root", 12: "geometry", 13: "the card", 22: "ARM9", 23: "ARM7"}
    return alone.get(rank, f"actor {rank}")


def kind(code: int) -> str:
    """Returns the name of a kind of stop."""
    return KINDS.get(code, f"kind {code}")


def function(number: int, rank: int) -> str:
    """Returns the name of the boot ROM's function of a `swi` of ARM9 (rank 22) or ARM7 (23), or what a game means by a number of its own."""
    proc = "7" if rank == 23 else "9"
    if number == 0x1F:
        return LAST_FUNCTION[proc]
    name, where = FUNCTIONS.get(number, ("", BOTH))
    if name and proc not in where:
        return f"{name}, which ARM{where}'s boot ROM alone has"
    return name or OWN_NUMBERS.get(number, "which no boot ROM has")


def page(code: int, value: int) -> str:
    """Returns where a document tells of a stop and what to do."""
    if kind(code) != "Swi":
        return "docs/FORMATS.md#a-run-that-stops"
    return f"docs/COMING_FROM.md#{'a-failed-assertion-an-early-end' if value in OWN_NUMBERS else 'the-boot-roms-functions'}"


def frame_number(tick: int) -> int:
    """Returns the number, from 1, of the frame that becomes whole at a tick; 0 where none does."""
    count, rest = divmod(tick - FIRST_FRAME, FRAME_TICKS)
    return 0 if rest or count < 0 else count + 1


def frames_below(tick: int) -> int:
    """Returns how many frames become whole below a tick."""
    return max((tick - 1 - FIRST_FRAME) // FRAME_TICKS + 1, 0)


def ticks_of_frames(count: int) -> int:
    """Returns the tick to run to so that `count` frames become whole, the last of them at the step before it."""
    return FIRST_FRAME + FRAME_TICKS * (count - 1) + 1
