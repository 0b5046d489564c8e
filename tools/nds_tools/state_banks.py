"""Where a bank of video memory is mapped by its control (GBATEK, "DS Memory Control - VRAM"; docs/MEMORY.md has what this machine maps)."""
from typing import Dict, Iterator, List, Optional, Tuple

from nds_tools.memory import Bank
from nds_tools.state_fields import BANKS
from nds_tools.states import State

# A bank's bytes, and the address at which LCDC has it.
BANK: Dict[str, Tuple[int, int]] = {
    "A": (0x20000, 0x680_0000), "B": (0x20000, 0x682_0000), "C": (0x20000, 0x684_0000), "D": (0x20000, 0x686_0000), "E": (0x10000, 0x688_0000),
    "F": (0x4000, 0x689_0000), "G": (0x4000, 0x689_4000), "H": (0x8000, 0x689_8000), "I": (0x4000, 0x68A_0000),
}  # fmt: skip
# A space's first address, None where processors don't see it, and its name.
A_BG, B_BG, A_OBJ, B_OBJ = 0x600_0000, 0x620_0000, 0x640_0000, 0x660_0000
# What a bank is by MST: the name of the space, its first address where processors see it, and what OFS's two bits add to the place.
Row = Tuple[str, Optional[int], int, int]
ARM7 = ("ARM7's video memory", 0x600_0000, 0x20000, 0)
SLOT, PALETTE_SLOT = ("texture slot {}", None, 1, 2), ("texture palette {}", None, 1, 4)
BG_OF_A, OBJ_OF_A = ("A's backgrounds", A_BG, 0x20000, 0x40000), ("A's objects", A_OBJ, 0x20000, 0)
SMALL = [("A's backgrounds", A_BG, 0x4000, 0x10000), ("A's objects", A_OBJ, 0x4000, 0x10000), PALETTE_SLOT]
SMALL += [("A's extended background palettes from {} on", None, 2, 0), ("A's extended object palette", None, 0, 0)]
WHOLE_E = [("A's backgrounds", A_BG, 0, 0), ("A's objects", A_OBJ, 0, 0), ("texture palettes 0 to 3", None, 0, 0)]
WHOLE_E += [("A's extended background palettes 0 to 3", None, 0, 0)]
MAPPED: Dict[str, List[Row]] = {
    "A": [BG_OF_A, OBJ_OF_A, SLOT],
    "B": [BG_OF_A, OBJ_OF_A, SLOT],
    "C": [BG_OF_A, ARM7, SLOT, ("B's backgrounds", B_BG, 0, 0)],
    "D": [BG_OF_A, ARM7, SLOT, ("B's objects", B_OBJ, 0, 0)],
    "E": WHOLE_E,
    "F": SMALL,
    "G": SMALL,
    "H": [("B's backgrounds", B_BG, 0, 0), ("B's extended background palettes 0 to 3", None, 0, 0)],
    "I": [("B's backgrounds", B_BG + 0x8000, 0, 0), ("B's objects", B_OBJ, 0, 0), ("B's extended object palette", None, 0, 0)],
}


def place_of(bank: str, control: int) -> Optional[Tuple[str, Optional[int]]]:
    """Returns the space to which a control maps its bank, and its address where processors see it; None where it is mapped nowhere."""
    if not control & 0x80:
        return None
    mst, low, high = control & 7, control >> 3 & 1, control >> 4 & 1
    if mst == 0:
        return "LCDC", BANK[bank][1]
    if mst > len(MAPPED[bank]):
        return None
    name, base, by_low, by_high = MAPPED[bank][mst - 1]
    offset = low * by_low + high * by_high
    return name.format(offset), None if base is None else base + offset


def mapped(bank: str, control: int) -> str:
    """Returns where a control maps its bank, in words; nothing where it is mapped nowhere."""
    found = place_of(bank, control)
    if found is None:
        return ""
    name, base = found
    return name if base is None else f"{name} at {base:07x}h"


def of_state(state: State) -> Iterator[Tuple[str, int, int]]:
    """Gives each bank of a state with its control and where it begins in video memory."""
    at = 0
    for bank in BANKS:
        yield bank, state[f"VRAMCNT_{bank}"], at
        at += BANK[bank][0]


def banks_of(state: State) -> Tuple[Bank, ...]:
    """Returns where processors see banks. (LCDC is found without: it has the whole of video memory in the order of the banks.)"""
    found = []
    for bank, control, at in of_state(state):
        place = place_of(bank, control)
        if place and place[1] is not None and place[0] != "LCDC":
            found.append((int(place[0] == ARM7[0]), place[1], place[1] + BANK[bank][0] - 1, at))
    return tuple(found)


def is_filled(state: State, bank: str, at: int) -> bool:
    """Whether a bank has a byte that isn't 0."""
    return any(state.values.content("vram")[at : at + BANK[bank][0]])


def lines_of_banks(state: State) -> List[str]:
    """Returns a line for each bank: its control, and where it lies."""
    found = []
    for number, (bank, control, at) in enumerate(of_state(state)):
        what = mapped(bank, control) or ("nowhere: it isn't enabled" if not control & 0x80 else f"nowhere: it has no MST {control & 7}")
        holds = "" if is_filled(state, bank, at) else "; all of it is 0"
        address = 0x4000240 + number + (bank in "HI")
        found.append(f"{address:07x}  VRAMCNT_{bank}           {control:02x}  {BANK[bank][0] // 1024}K, @vram+0x{at:x}: {what}{holds}")
    return found


def unmapped_with_content(state: State) -> List[str]:
    """Returns the banks that hold something and are mapped nowhere."""
    return [bank for bank, control, at in of_state(state) if is_filled(state, bank, at) and not mapped(bank, control)]


def has_space(state: State, name: str) -> bool:
    """Whether some bank is mapped to a space by its name."""
    return any((place_of(bank, control) or ("", None))[0] == name for bank, control, _ in of_state(state))
