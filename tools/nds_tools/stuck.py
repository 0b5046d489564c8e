"""What a failing test says of a processor that is stuck or crashed, in one line, from the memories and registers at a run's end."""
from typing import Callable, Optional, Tuple

from nds_tools import names
from nds_tools.hangs import finding, here, interrupted, trouble, where
from nds_tools.memory import Map
from nds_tools.records import Memory

# The stub's functions that wait: VBlankIntrWait, IntrWait and Halt.
WAITS = range(0xBC, 0x138)
# Where main memory has the header's word of ARM7's entry: a program of one branch stays there for good.
ENTRY_OF_SEVEN = 0x3F_FE34
Steps = Callable[[], Optional[Tuple[int, int]]]


def is_parked(proc: int, record: Memory) -> bool:
    """Tells whether a processor is ARM7 and at its first instruction, where an image without a program stays."""
    entry = int.from_bytes(record.memories["main"][ENTRY_OF_SEVEN : ENTRY_OF_SEVEN + 4], "little")
    return proc == 1 and record.registers[proc]["r15"] == entry


def halted(proc: int, record: Memory, known: Map) -> str:
    """Returns what is to say of a processor that takes no steps any more; of ARM7 only where it waits in the boot ROM stub."""
    spot = interrupted(proc, record, known) or here(proc, record)
    if proc == 1 and spot.in_stub not in WAITS:
        return ""
    found = finding(spot, record, known)
    text = f"{names.PROCESSORS[proc]} at {where(proc, spot.address, known)}: {found.text if found else 'halted'}"
    return f"{text}; it took no step in a frame more: no interrupt that IE enables came"


def stuck(record: Memory, known: Map, steps: Steps) -> str:
    """Returns one line on a processor that crashed, is in an endless branch, or is halted for good; nothing where neither seems to be.

    `steps` runs a frame further and gives how many steps each processor took there, or None where that can't be told."""
    told = [trouble(proc, record, known) for proc in range(2) if not is_parked(proc, record)]
    if not any(told):
        taken = steps() or (1, 1)
        told = [halted(proc, record, known) for proc in range(2) if not taken[proc]]
    return "; ".join(it for it in told if it)
