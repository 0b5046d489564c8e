"""What is odd in a saved state, in words: why nothing goes on, and why nothing is seen."""
from typing import List

from nds_tools import names
from nds_tools.hangs import INTERRUPTS, IRQ_MODE, here
from nds_tools.state_banks import has_space, mapped, unmapped_with_content
from nds_tools.state_fields import BANKS, LINE, STALLED
from nds_tools.state_ports import bits, flags_of
from nds_tools.states import State

# The part of the boot ROM stub that waits for an interrupt's flag; it halts with IME 0, and sets it after.
WAITS = range(0xBC, 0x128)
# Its entry of interrupts, on the way to a handler and back.
ENTRY = range(0x18, 0x44)
I_FLAG = 0x80
V_BLANK = 1
# The display's interrupts, which are asked for at the tick at which a frame is whole.
OF_DISPLAY = 7
# The bits of DISPSTAT that ask for the interrupts 0 to 2.
ASKED_AT = 3


def of_processor(state: State, which: int) -> List[str]:
    """Returns what is odd of a processor that is halted, or whose interrupts are held back."""
    proc, found = names.PROCESSORS[which], []
    enabled, flags, is_on = state[f"{proc} IE"], flags_of(state, which), state[f"{proc} IME"]
    masked = state[f"{proc} cpsr"] & I_FLAG
    if not state[f"{proc} halted"]:
        if enabled & flags and not (is_on and not masked) and not is_soon_taken(state, which, enabled & flags):
            why = "IME is 0" if not is_on else "CPSR's I flag is set"
            found.append(f"{proc}: {bits(enabled & flags)} asked for and enabled, and no interrupt is taken: {why}")
        return found
    if not enabled:
        return [f"{proc} is halted and IE is 0: nothing wakes it"]
    if here(which, state.memory).in_stub not in WAITS:
        if not is_on:
            found.append(f"{proc} is halted with IME 0: what IE enables wakes it, and no handler runs")
        elif masked:
            found.append(f"{proc} is halted with CPSR's I flag set: what IE enables wakes it, and no handler runs")
    if not enabled & V_BLANK:
        found.append(f"{proc} is halted and V-blank's interrupt isn't enabled: IE bit 0 is 0; it waits for {bits(enabled)}")
    return found + unasked(state, proc, enabled)


def is_soon_taken(state: State, which: int, asked: int) -> bool:
    """Tells whether it is usual that interrupts which are asked for aren't taken yet: the processor is in a handler, which has the I flag set; in the
    boot ROM stub's IntrWait, which sets IME; or the display asked for them less than a line ago, as at each tick at which a frame is whole."""
    spot = here(which, state.memory)
    if spot.mode == IRQ_MODE or spot.in_stub in ENTRY or (spot.in_stub in WAITS and not spot.cpsr & I_FLAG):
        return True
    return not asked & ~OF_DISPLAY and (state.tick - names.FIRST_FRAME) % names.FRAME_TICKS < LINE


def unasked(state: State, proc: str, enabled: int) -> List[str]:
    """Returns the display's and the timers' interrupts that a halted processor enables and that nothing asks for."""
    found = []
    for bit in range(3):
        if enabled >> bit & 1 and not state[f"{proc} DISPSTAT"] >> ASKED_AT + bit & 1:
            found.append(f"{proc} is halted and IE has {INTERRUPTS[bit]}, which DISPSTAT doesn't ask for: its bit {ASKED_AT + bit} is 0")
    for number in range(4):
        control = state[f"{proc} TM{number}CNT_H"]
        if enabled >> 3 + number & 1 and control & 0xC0 != 0xC0:
            why = "isn't started" if not control & 0x80 else "asks for no interrupt"
            found.append(f"{proc} is halted and IE has timer {number}, which {why}")
    return found


def of_banks(state: State) -> List[str]:
    """Returns what is odd of video memory: banks that hold something nowhere, and banks in one place."""
    found = []
    for bank in unmapped_with_content(state):
        control = state[f"VRAMCNT_{bank}"]
        why = f"VRAMCNT_{bank} is {control:02x}h, " + (f"which has no MST {control & 7}" if control & 0x80 else "whose bit 7 is 0")
        found.append(f"bank {bank} holds something and isn't mapped: {why}")
    places = {it: mapped(it, state[f"VRAMCNT_{it}"]) for it in BANKS}
    for at, bank in enumerate(BANKS):
        for other in BANKS[at + 1 :]:
            if places[bank] and places[bank] == places[other]:
                found.append(f"banks {bank} and {other} lie in one place, {places[bank]}: reads give both, ORed")
    return found


def of_engine(state: State, engine: str) -> List[str]:
    """Returns why an engine shows nothing, or not all that it is to show."""
    control, bit = state[f"{engine} DISPCNT"], 1 if engine == "A" else 9
    mode = control >> 16 & (3 if engine == "A" else 1)
    if not state["POWCNT1"] >> bit & 1:
        return [f"engine {engine} is off: POWCNT1 bit {bit} is 0, and its screen is black"]
    if mode == 0:
        return [f"engine {engine} is on, and its display mode is 0: its screen is white"]
    if control >> 7 & 1:
        return [f"engine {engine} has forced blank, DISPCNT bit 7: its screen is white"]
    if mode == 2:
        bank = "ABCD"[control >> 18 & 3]
        is_there = mapped(bank, state[f"VRAMCNT_{bank}"]).startswith("LCDC")
        return [] if is_there else [f"engine {engine} shows bank {bank} as it lies, and that isn't in LCDC: its screen is black"]
    if mode == 3:
        return ["engine A is to show main memory, which stops the run at the next line"]
    found = [] if control >> 8 & 0x1F else [f"engine {engine} shows no layer: DISPCNT bits 8 to 12 are 0"]
    if control >> 8 & 0xF and not has_space(state, f"{engine}'s backgrounds"):
        found.append(f"engine {engine} shows backgrounds, and no bank is mapped to {engine}'s backgrounds")
    if control >> 12 & 1 and not has_space(state, f"{engine}'s objects"):
        found.append(f"engine {engine} shows objects, and no bank is mapped to {engine}'s objects")
    return found


def between(state: State) -> List[str]:
    """Returns what is odd of the FIFOs between the processors."""
    found = []
    for which, proc in enumerate(names.PROCESSORS):
        control, other = state[f"{proc} IPCFIFOCNT"], names.PROCESSORS[1 - which]
        waiting = state[f"{proc} IPCFIFORECV count"]
        if waiting and not control >> 15 & 1:
            found.append(f"{proc} has {waiting} words to receive, and its IPCFIFOCNT isn't enabled, bit 15")
        elif waiting == 16:
            found.append(f"the FIFO from {other} to {proc} is full: what {other} sends is lost")
        if control >> 14 & 1:
            found.append(f"{proc}'s IPCFIFOCNT has an error: a word was sent to a full FIFO, or received from an empty one")
    return found


def of_geometry(state: State) -> List[str]:
    rows = (
        (state["GXFIFO count"] > STALLED, f"ARM9 waits for the geometry FIFO, in which {state['GXFIFO count']} entries wait"),
        (state["swap waits"], "the geometry engine waits for line 192, to swap buffers"),
        (state["list overflow"], f"the geometry lists overflowed: {state['open vertices']} vertices, {state['open polygons']} polygons"),
        (state["stack error"], "a matrix stack was pushed or popped past its end: GXSTAT bit 15"),
    )
    return [text for is_so, text in rows if is_so]


def of_rest(state: State) -> List[str]:
    """Returns what is odd of DMA and the card."""
    found = []
    for proc in names.PROCESSORS:
        running = [f"channel {it}" for it in range(4) if state[f"{proc} DMA{it} running"]]
        if running:
            found.append(f"{proc} waits for its DMA: {', '.join(running)}")
    starter = state["card starter"]
    if starter and state.due("card due") is None:
        taken = state["card words taken"]
        found.append(f"the card has word {taken} ready, and {names.PROCESSORS[starter - 1]} hasn't taken it")
    return found


def odd(state: State) -> List[str]:
    """Returns all that is odd, a line each."""
    found = of_processor(state, 0) + of_processor(state, 1) + between(state) + of_rest(state) + of_geometry(state)
    return found + of_engine(state, "A") + of_engine(state, "B") + of_banks(state)
