"""What processors do for some frames behind a run's end, where a test failed: a handler that doesn't end or doesn't acknowledge, a loop that polls.

The state at the end is saved, and runs go on from it to a few ticks of the next frames, at which both processors are looked at."""
import os
import tempfile
import time
from contextlib import closing
from dataclasses import dataclass
from typing import Dict, List, Optional

from nds_tools import names
from nds_tools.hangs import IRQ_MODE, STUB, THUMB, Spot, bits, here, interrupted, where
from nds_tools.loads import loads
from nds_tools.looks import Game, Look, Looker
from nds_tools.memory import Map
from nds_tools.port_names import is_port, port_of
from nds_tools.records import Memory
from nds_tools.state_fields import read_state
from nds_tools.state_odd import I_FLAG
from nds_tools.state_ports import flags_of, of_bits, sections
from nds_tools.states import Broken, State
from nds_tools.words import Untold

# How far behind the end it is looked: a few times soon after V-blank, when a program that waits for it works, and then over the frame.
SOON = (37, 211, 1_009, 4_001, 16_007, 64_007)
FRAMES, EVENLY = 2, 8
# How long that may take, which with a program that isn't proved is long.
MOST_SECONDS = 60.0
# The longest loop, in bytes, and the offsets of the stub's entry of interrupts.
LONGEST = 96
ENTRY = range(0x18, 0x44)
FIFO_CONTROL = 0x400_0184
FIFO_BITS = {0: "send FIFO empty", 1: "send FIFO full", 8: "receive FIFO empty", 9: "receive FIFO full", 14: "error", 15: "enabled"}


@dataclass(frozen=True)
class Sample:
    """A processor at a tick: where it is, and, in an interrupt, what that broke into where that can be told."""

    spot: Spot
    before: Optional[Spot]

    @property
    def is_in_handler(self) -> bool:
        return self.spot.mode == IRQ_MODE or self.spot.in_stub in ENTRY


@dataclass(frozen=True)
class Behind:
    """What was seen behind a run's end: the state there, the last memories, and samples of both processors."""

    state: State
    record: Memory
    samples: List[List[Sample]]


def ticks_behind(end: int) -> List[int]:
    """Returns the ticks that are looked at."""
    found = []
    for frame in range(FRAMES):
        begin = end + names.FRAME_TICKS * frame
        found += [begin + it for it in SOON] + [begin + names.FRAME_TICKS * it // EVENLY + 97 * it for it in range(1, EVENLY)]
    return sorted(set(found))


def behind(game: Game, end: int, known: Map) -> Optional[Behind]:
    """Looks at what comes behind a run's end; None where the run stops there, or no state can be saved."""
    with tempfile.TemporaryDirectory(prefix="nds-behind-") as folder:
        path, kept, begin = os.path.join(folder, "end.state"), [], time.monotonic()
        try:
            if game.state or not game.saved(end, path):
                return None
            with open(path, "rb") as it:
                state = read_state(it.read())

            def take(look: Look) -> Optional[List[Sample]]:
                if look.memory is None:
                    return None
                if time.monotonic() - begin > MOST_SECONDS:
                    raise Untold("it takes too long")
                kept[:] = [look.memory]
                return [Sample(here(proc, look.memory), interrupted(proc, look.memory, known)) for proc in range(2)]

            with closing(Looker(game.on_from(path), 1).each(ticks_behind(end), take)) as looks:
                samples = [it for _, it in looks]
        except (Untold, Broken, OSError):
            return None
    whole = [it for it in samples if it]
    return Behind(state, kept[0], [[it[proc] for it in whole] for proc in range(2)]) if len(whole) == len(samples) and kept else None


def handler_line(proc: int, found: Behind, known: Map) -> str:
    """Returns what is to say of a processor that was in an interrupt at each look."""
    samples = found.samples[proc]
    if not all(it.is_in_handler for it in samples):
        return ""
    name, asked = names.PROCESSORS[proc], flags_of(found.state, proc) & found.state[f"{names.PROCESSORS[proc]} IE"]
    flags = f"IF is {flags_of(found.state, proc):08x}, IE {found.state[f'{name} IE']:08x}"
    at = where(proc, handler_of(proc, found.record), known)
    outside = [it.spot for it in samples if not 0 <= it.spot.in_stub < 0x1000]
    if len(outside) < len(samples):
        return f"{name}: its interrupt handler {at} is entered again and again: it doesn't acknowledge {bits(asked)} in IF ({flags})"
    text = f"{name} at {where(proc, outside[-1].address, known)}: its interrupt handler {at} doesn't end"
    return f"{text} ({flags}{f': {bits(asked)} waits' if asked else ''})"


def handler_of(proc: int, record: Memory) -> int:
    """Returns the handler's pointer."""
    memory, at = (("dtcm", 0x3FFC), ("wram7", 0xFFFC))[proc]
    return int.from_bytes(record.memories[memory][at : at + 4], "little") & ~1


def port_text(state: State, proc: int, address: int) -> str:
    """Returns what a port says at the state's tick, as nds-show --state tells it."""
    wanted = (f"{names.PROCESSORS[proc]} {address:07x}  ", f"{address:07x}  ", f"A {address:07x}  ")
    for section in sections(state):
        for line in section.lines:
            if line.startswith(wanted):
                _, value, *text = line.partition(f"{address:07x}  ")[2].split()
                told = of_bits(int(value, 16), FIFO_BITS) if address == FIFO_CONTROL else text
                return f"reads {value}{': ' if told else ''}{(', ' if address == FIFO_CONTROL else ' ').join(told)}"
    return ""


def loop_line(proc: int, found: Behind, known: Map) -> str:
    """Returns what a processor polls that was in one short loop at each look, but for interrupts."""
    spots = [it.before if it.is_in_handler else it.spot for it in found.samples[proc]]
    inside = [it for it in spots if it]
    if len(inside) < len(spots) // 2 or any(0 <= it.address - STUB[proc] < 0x1000 for it in inside):
        return ""
    first, last = min(it.address for it in inside), max(it.address for it in inside)
    if last - first > LONGEST or len({it.cpsr & THUMB for it in inside}) > 1 or last == first:
        return ""
    seen: Dict[int, Dict[str, int]] = {it.address: it.registers for it in inside}

    def fetch(at: int, size: int) -> Optional[int]:
        return known.word_at(proc, at, found.record, size)

    addresses = dict.fromkeys(loads(first, last, bool(inside[0].cpsr & THUMB), fetch, seen))
    what = [polled(it, proc, found, known) for it in addresses]
    more = f" and polls {', '.join(it for it in what if it)}" if any(what) else ""
    stays = f"it stays in a loop of {last - first + 4} bytes for {FRAMES} frames{more}{held_back(proc, found)}"
    return f"{names.PROCESSORS[proc]} at {where(proc, first, known)}: {stays}"


def held_back(proc: int, found: Behind) -> str:
    """Tells why no interrupt that a looping processor enables reaches it, where its own masks hold them back."""
    name = names.PROCESSORS[proc]
    enabled = found.state[f"{name} IE"]
    if not enabled or found.samples[proc][-1].is_in_handler:
        return ""
    masks = [said for is_so, said in ((not found.state[f"{name} IME"], "IME is 0"), (found.state[f"{name} cpsr"] & I_FLAG, "CPSR's I flag is set")) if is_so]
    return f"; it takes no interrupt, though IE has {bits(enabled)}: {' and '.join(masks)}" if masks else ""


def polled(address: int, proc: int, found: Behind, known: Map) -> str:
    """Tells what a load of a loop reads."""
    if is_port(address):
        at, name = port_of(address)
        text = port_text(found.state, proc, at)
        return f"{name} ({at:07x}h){f', which {text}' if text else ''}"
    value = known.word_at(proc, address & ~3, found.record)
    return "" if value is None else f"{known.named(proc, address)}: {value:08x}"


def seen_behind(game: Game, end: int, known: Map) -> str:
    """Returns in one line what processors are in for the frames behind a run's end; nothing where neither stays in a handler or a loop."""
    found = behind(game, end, known)
    if not found:
        return ""
    lines = [handler_line(proc, found, known) or loop_line(proc, found, known) for proc in range(2)]
    return "; ".join(it for it in lines if it)
