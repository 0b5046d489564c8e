"""What a processor does at a run's end: what it waits for in the boot ROM stub, where it crashed, and what an interrupt broke into.

docs/BOOT_ROM.md has the stub, and where a game hangs."""
from dataclasses import dataclass
from typing import Dict, List, Optional, Tuple

from nds_tools import names
from nds_tools.elf import ALLOC
from nds_tools.memory import Map
from nds_tools.records import Memory

STUB_END = 0x1E4
STUB = (0xFFFF_0000, 0)
IRQ_MODE, ABORT_MODE, UNDEFINED_MODE = 0x12, 0x17, 0x1B
THUMB = 0x20
# Below DTCM a stack that left it is looked for this far, and above main memory's first place.
BELOW, PAST_MAIN = 0x10_0000, 0x0240_0000
# Where the word of flags stands that IntrWait looks at; the handler's pointer follows it.
FLAGS = (("dtcm", 0x3FF8), ("wram7", 0xFFF8))
# The stack of IRQ mode at boot. The stub puts r0 to r3, r12 and r14 on it, in this order upwards.
IRQ_STACK = (0x0300_3F80, 0x0380_FF80)
PUSHED = ("r0", "r1", "r2", "r3", "r12")
# The offsets of the stub at which r14 of IRQ mode still is the interrupted place and 4, and those at which all is on the stack.
ENTERED, PUSHED_AT = (0x18, 0x20, 0x40), range(0x24, 0x40, 4)
VECTORS = {
    0x00: "reset: a jump to the stub's first word, as by a pointer that was 0",
    0x04: "an undefined instruction: r14 of Undefined mode is the address after it",
    0x0C: "bkpt, or a jump there: r14 of Abort mode is 4 more than the address of a bkpt",
    0x10: "a jump to the vector of data aborts, which this machine never takes",
    0x14: "a jump to the reserved vector",
    0x1C: "a jump to the vector of FIQ, which this machine never takes",
}
INTERRUPTS = {0: "V-blank", 1: "H-blank", 2: "V-count", 3: "timer 0", 4: "timer 1", 5: "timer 2", 6: "timer 3", 8: "DMA 0", 9: "DMA 1",
              10: "DMA 2", 11: "DMA 3", 12: "keys", 16: "IPCSYNC", 17: "send FIFO empty", 18: "receive FIFO not empty", 19: "card",
              21: "geometry FIFO"}  # fmt: skip
# First and last offset of the stub, and what runs there.
PARTS: List[Tuple[int, int, str]] = [
    (0x18, 0x40, "the entry of an interrupt, on its way to the game's handler or back"),
    (0x08, 0x08, "the dispatcher of swi"),
    (0x44, 0xAC, "the dispatcher of swi"),
    (0xB0, 0xB8, "WaitByLoop (swi 3), which counts r0 down: a count of loops, not of milliseconds"),
    (0x128, 0x130, "Halt (swi 6)"),
    (0x138, 0x19C, "Div (swi 9)"),
    (0x1A0, 0x1E0, "CpuSet (swi 0Bh)"),
]
# `b` to itself in ARM and in Thumb code; and the store to HALTCNT before it, with which make-cart's image without a program ends.
TO_ITSELF, TO_ITSELF_THUMB, HALTS = 0xEAFF_FFFE, 0xE7FE, 0xE5C0_1301


@dataclass(frozen=True)
class Spot:
    """A processor's next instruction, with its registers: the one that it is at, or the one that an interrupt broke into."""

    proc: int
    address: int
    cpsr: int
    registers: Dict[str, int]

    @property
    def mode(self) -> int:
        return self.cpsr & 0x1F

    @property
    def in_stub(self) -> int:
        """The offset in the stub; outside it no number of 0 to FFFFh."""
        return self.address - STUB[self.proc]

    @property
    def state(self) -> str:
        mode = names.MODES.get(self.mode, (f"unknown {self.mode:02x}h", ""))[0]
        return f"{mode} mode, {'Thumb' if self.cpsr & THUMB else 'ARM'} state"


@dataclass(frozen=True)
class Finding:
    """What a processor does at a spot; trouble is what it doesn't come out of by itself, or should never have come to."""

    text: str
    is_trouble: bool = False


def where(proc: int, address: int, known: Map) -> str:
    """Returns an address and the symbol or the part of the stub that it belongs to."""
    if 0 <= address - STUB[proc] < 0x1000:
        return f"{address:08x} (boot ROM {address - STUB[proc]:03x}h)"
    return known.named(proc, address)


def here(proc: int, record: Memory) -> Spot:
    """Returns where a processor is."""
    registers = record.registers[proc]
    return Spot(proc, registers["r15"], registers["cpsr"], registers)


def interrupted(proc: int, record: Memory, known: Map) -> Optional[Spot]:
    """Returns what an interrupt broke into, where the processor is in IRQ mode and the place can be told: at the stub's entry, or in a handler
    that leaves the stack of IRQ mode where it was at boot."""
    spot = here(proc, record)
    registers = spot.registers
    if spot.mode != IRQ_MODE:
        return None
    if spot.in_stub in ENTERED:
        return Spot(proc, registers["r14_irq"] - 4 & 0xFFFF_FFFF, registers["spsr_irq"], registers)
    stack = registers["r13_irq"] if spot.in_stub in PUSHED_AT else IRQ_STACK[proc] - 24
    if not 0 <= stack - registers["r13_irq"] < 0x400:
        return None
    pushed = [known.word_at(proc, stack + 4 * it, record) for it in range(6)]
    words = [it for it in pushed if it is not None]
    if len(words) < 6 or words[5] % 2 or words[5] < 4:
        return None
    return Spot(proc, words[5] - 4, registers["spsr_irq"], {**registers, **dict(zip(PUSHED, words))})


def bits(mask: int) -> str:
    """Returns the names of interrupts."""
    named = [name for bit, name in INTERRUPTS.items() if mask >> bit & 1]
    return ", ".join(named) or f"bits 0x{mask:x}, which no interrupt has"


def handler_text(proc: int, handler: int, known: Map) -> str:
    """Returns what is to say of a handler's pointer; an odd one is Thumb code's, to which ARM9 alone goes."""
    elf = known.elves[proc]
    name = elf.near(handler & ~1) if elf else ""
    text = f"the handler is {handler:08x}{' ' + name if name else ''}"
    if not handler & 1:
        return text
    more = ", to which ARM7 can't go from there: make it ARM code" if proc else ""
    return f"{text}: the pointer is odd, so it is Thumb code{more}"


def waits(spot: Spot, record: Memory, known: Map) -> Finding:
    """Returns what IntrWait waits for: the bits of r1, the flags that stand there, and the handler's pointer."""
    memory, at = FLAGS[spot.proc]
    flags, handler = (int.from_bytes(record.memories[memory][it : it + 4], "little") for it in (at, at + 4))
    mask = spot.registers["r1"]
    said = "halted in" if spot.in_stub == 0x108 else "in"
    text = f"{said} IntrWait or VBlankIntrWait (swi 4, 5): it waits for the flag of {bits(mask)} (r1 is {mask:08x}; flags are {flags:08x})"
    if not handler:
        return Finding(f"{text}; the handler's pointer is 0, so no interrupt can set a flag", True)
    is_trouble = bool(handler & 1 and spot.proc) or not any(mask >> it & 1 for it in INTERRUPTS)
    return Finding(f"{text}; {handler_text(spot.proc, handler, known)}", is_trouble)


def at_vector(spot: Spot, record: Memory, known: Map, hint: str) -> Finding:
    """Returns why a processor stays at a vector, and the instruction that brought it there."""
    at = spot.in_stub
    text = f"it stays at the vector {at:02x}h: {VECTORS[at]}{(hint or called(spot, known)) if at == 0 else ''}"
    suffix = {(0x04, UNDEFINED_MODE): "und", (0x0C, ABORT_MODE): "abt"}.get((at, spot.mode))
    if suffix is None:
        return Finding(text, True)
    size = 2 if at == 0x04 and spot.registers[f"spsr_{suffix}"] & THUMB else 4
    culprit = spot.registers[f"r14_{suffix}"] - size & 0xFFFF_FFFF
    word = known.word_at(spot.proc, culprit, record, size)
    code = f": {word:0{2 * size}x}" if word is not None else ""
    return Finding(f"{text}; it is at {where(spot.proc, culprit, known)}{code}", True)


def outside(spot: Spot, record: Memory, known: Map, hint: str) -> Optional[Finding]:
    """Returns what a processor does outside the stub: it branches to itself, runs through zeros, or is in a program, of which there is nothing to
    say."""
    size = 2 if spot.cpsr & THUMB else 4
    word = known.word_at(spot.proc, spot.address, record, size)
    if word == (TO_ITSELF_THUMB if size == 2 else TO_ITSELF):
        if size == 4 and known.word_at(spot.proc, spot.address - 4, record) == HALTS:
            return Finding("halted for good before a branch to itself, as the image does that make-cart gives where there is no program")
        what = "an interrupt handler that doesn't end" if spot.mode == IRQ_MODE else "the program ended there, or gave up"
        return Finding(f"in an endless branch to itself: {what}", True)
    is_empty = spot.address < 0x0200_0000 and (spot.proc == 1 or not any(record.memories["itcm"][spot.address % 0x8000 :][:4]))
    if is_empty:
        text = "it runs through zeros, each an instruction that does nothing: a jump through a null pointer, or a lost return address"
        return Finding(text + hint + called(spot, known), True)
    if known.has_none(spot.proc, spot.address & ~1):
        return Finding(f"it runs where no memory is: a jump to a wrong address, or a lost return address{hint}{called(spot, known)}", True)
    return stack_left(spot, known)


def called(spot: Spot, known: Map) -> str:
    """Tells the call before a place that r14 leads back to, where it leads into the program; nothing otherwise."""
    elf = known.elves[spot.proc]
    back = spot.registers[f"r14{names.MODES.get(spot.mode, ('', ''))[1]}"]
    at = (back & ~1) - (2 if back & 1 else 4)
    if not elf or not any(first <= at < end for first, end in elf.code()):
        return ""
    return f"; the last call was at {at:08x} ({elf.near(at)}), by r14"


def stack_left(spot: Spot, known: Map) -> Optional[Finding]:
    """Returns that a mode's stack pointer is where no stack is: in a section of the program, below DTCM, or where no memory is."""
    r13 = spot.registers[f"r13{names.MODES.get(spot.mode, ('', ''))[1]}"]
    elf = known.elves[spot.proc]
    inside = next((it for it in elf.sections if it.flags & ALLOC and it.address < r13 < it.address + it.size), None) if elf else None
    name = elf.section_name(inside) if elf and inside else ""
    where_in = elf.near(r13) if elf and inside else ""
    if inside and "stack" not in f"{name}{where_in}".lower():
        return Finding(f"its stack left its region: r13 is {r13:08x}, in {name}{f' ({where_in})' if where_in else ''}, which the program has", True)
    if spot.proc == 0 and known.dtcm_base - BELOW <= r13 < known.dtcm_base and r13 >= PAST_MAIN:
        return Finding(f"its stack left its region: r13 is {r13:08x}, below DTCM, which begins at {known.dtcm_base:08x}", True)
    # (0 stands in no stack at boot: a program that has none may have written it)
    if r13 and known.has_none(spot.proc, r13 - 4 & 0xFFFF_FFFC):
        return Finding(f"its stack left its region: r13 is {r13:08x}, where no memory is", True)
    return None


def finding(spot: Spot, record: Memory, known: Map) -> Optional[Finding]:
    """Returns what a processor does at a spot, or None where it is in a program."""
    at = spot.in_stub
    hint = "; it is in IRQ mode: was the handler's pointer written before IME was set?" if spot.mode == IRQ_MODE else ""
    if not 0 <= at < 0x1_0000:
        return outside(spot, record, known, hint)
    if at in VECTORS:
        return at_vector(spot, record, known, hint)
    if at in range(0xBC, 0x128, 4):
        return waits(spot, record, known)
    if at == 0x134:
        return Finding("halted in Halt (swi 6), until an interrupt that IE enables is asked for")
    for first, last, text in PARTS:
        if first <= at <= last:
            return Finding(f"in {text}")
    if at >= STUB_END:
        return Finding("it runs through the zeros behind the stub: a jump to a wrong address", True)
    return Finding("in the boot ROM stub")


def waiting(proc: int, record: Memory, known: Map) -> List[str]:
    """Returns what is to say of a processor: of where it is, and, in an interrupt, of where that broke in."""
    found = finding(here(proc, record), record, known)
    lines = [found.text] if found else []
    before = interrupted(proc, record, known)
    if before:
        found = finding(before, record, known)
        lines.append(f"interrupted at {where(proc, before.address, known)}, {before.state}{': ' + found.text if found else ''}")
    return lines


def trouble(proc: int, record: Memory, known: Map) -> str:
    """Returns in one line how a processor crashed or what it is stuck in, where that can be told, and otherwise nothing."""
    for spot in (here(proc, record), interrupted(proc, record, known)):
        found = finding(spot, record, known) if spot else None
        if spot and found and found.is_trouble:
            return f"{names.PROCESSORS[proc]} at {where(proc, spot.address, known)}: {found.text}"
    return ""
