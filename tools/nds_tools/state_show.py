"""A saved state in words, and where two of them differ by their fields' names."""
import struct
from typing import Iterator, List

from nds_tools import names
from nds_tools.compared import SHOWN, SHOWN_VARIABLES, Part
from nds_tools.records import End, Frame, Lists, Record
from nds_tools.state_fields import PIXELS, read_state
from nds_tools.state_odd import odd
from nds_tools.state_ports import sections
from nds_tools.states import NO_TICK, Broken, Placed, State, Wanted, content_of, digest_of
from nds_tools.words import Untold

# Fields that stand in a memory of their own, which are compared as memories are.
AS_MEMORIES = tuple(names.SIZES)
# Fields that are compared number by number.
FRAMES = ("frame being drawn", "last whole frame")
WIDTH, ROWS = 256, 192


def state_in(content: bytes, name: str, wanted: Wanted = Wanted()) -> State:
    """Reads a state; what is none is refused with the offset."""
    try:
        return read_state(content, wanted)
    except Broken as why:
        raise Untold(f"{name}: {why}") from None


def state_of(name: str, wanted: Wanted = Wanted()) -> State:
    """Reads a state's file."""
    return state_in(content_of(name), name, wanted)


def head_lines(state: State) -> List[str]:
    """Returns when a state was saved, and of which cartridge."""
    tick = state.tick
    seconds = f"{tick / names.SECOND:.3f} s, frame {max(tick - 1, 0) // names.FRAME_TICKS + 1} line {state['VCOUNT']}"
    counts = f"steps of ARM9 {state['steps of ARM9']}, of ARM7 {state['steps of ARM7']}, events {state['events']}, turns {state['turns']}"
    digest = state.values.content("SHA-256 of the cartridge").hex()
    return [f"tick {tick}, {seconds}; {counts}", f"cartridge sha256 {digest}"]


def odd_lines(state: State) -> List[str]:
    found = odd(state)
    return ["what is odd", *(f"  {it}" for it in found)] if found else ["nothing is odd"]


def port_lines(state: State) -> List[str]:
    """Returns all ports, section by section."""
    return [line for it in sections(state) for line in (it.title, *(f"  {line}" for line in it.lines))]


def list_bytes(state: State, kind: str) -> bytes:
    """Returns the bytes of the vertices or polygons of the last swap."""
    prefix = f"swapped {kind} "
    return b"".join(it.field.bytes_of(it.value) for it in state.placed if it.field.name.startswith(prefix))


def records_in(state: State) -> Iterator[Record]:
    """Gives what a run to the state's tick writes with `last`, but for the count of turns of one that goes on."""
    number = names.frames_below(state.tick)
    if number:
        pixels = struct.pack(f"<{PIXELS}H", *state.values.numbers("last whole frame"))
        yield Frame(names.ticks_of_frames(number) - 1, pixels)
    if state["swap tick"]:
        yield Lists(state["swap tick"], state["swap parameter"], list_bytes(state, "vertex"), list_bytes(state, "polygon"))
    yield state.memory
    yield End(state.tick, *(state[it] for it in ("steps of ARM9", "steps of ARM7", "events", "turns")))


def another_cartridge(state: State, name: str, cart: bytes) -> str:
    """Returns a line where a state is of another cartridge than this one."""
    is_same = state.values.content("SHA-256 of the cartridge") == digest_of(cart)
    return "" if is_same else f"it is a state of another cartridge than {name}, which can't go on from it"


def spelled(it: Placed, at: int = 0) -> str:
    """Writes a field's value: ticks and counts as they are counted, signed numbers with their sign, other numbers in hexadecimal digits."""
    value = it.value[at] if isinstance(it.value, tuple) else it.value
    if isinstance(value, bytes):
        return value.hex()
    if it.field.code == "Q":
        return "none" if value == NO_TICK else str(value)
    return str(value) if it.field.code in "hi" else f"{value:0{2 * it.field.width}x}"


def field_lines(state: State) -> List[str]:
    """Returns a line for each field: its offset, its name and its value; of a long one how many bytes it has."""
    lines = ["fields, each with its offset"]
    for it in state.placed:
        numbers = it.value if isinstance(it.value, tuple) else (0,)
        value = " ".join(spelled(it, at) for at in range(len(numbers))) if it.field.size <= 128 else f"{it.field.size} bytes"
        lines.append(f"  {it.offset:8}  {it.field.name}: {value}")
    return lines


def compare_pixels(a: Placed, b: Placed) -> Part:
    """Compares frames pixel by pixel."""
    part = Part(f"{a.field.name}, pixels")
    assert isinstance(a.value, tuple) and isinstance(b.value, tuple)
    part.every = len(a.value)
    for at in (it for it, pair in enumerate(zip(a.value, b.value)) if pair[0] != pair[1]):
        part.count += 1
        if len(part.lines) < SHOWN:
            screen, row = ("upper", "lower")[at // (WIDTH * ROWS)], at % (WIDTH * ROWS) // WIDTH
            part.lines.append(f"{screen} screen ({at % WIDTH}, {row}): {spelled(a, at)} and {spelled(b, at)}")
    return part


def differing_numbers(a: Placed, b: Placed) -> str:
    """Tells of a field the first number that differs, and how many more do."""
    if not (isinstance(a.value, tuple) and isinstance(b.value, tuple)):
        return f"{a.field.name}: {spelled(a)} and {spelled(b)}"
    found = [at for at, (one, two) in enumerate(zip(a.value, b.value)) if one != two]
    more = f", and {len(found) - 1} more of it" if len(found) > 1 else ""
    return f"{a.field.name}, number {found[0]}: {spelled(a, found[0])} and {spelled(b, found[0])}{more}"


def is_register(name: str) -> bool:
    """Whether a field is a register of a processor, which is compared with its symbol."""
    return any(name == f"{proc} {it}" for proc in names.PROCESSORS for it in names.REGISTERS)


def alone(part: Part, a: State, b: State, which: str) -> None:
    """Tells of the fields that one state alone has, as its lists are longer, how many there are and the first of them."""
    found = [it for it in a.placed if it.field.name not in b.by_name]
    if found:
        part.every += len(found)
        part.count += len(found)
        part.lines.append(f"{len(found)} fields in {which} alone, from {found[0].field.name} on (byte {found[0].offset})")


def compare_fields(a: State, b: State) -> List[Part]:
    """Compares all fields but memories and registers, which outputs of runs have too; the first that differ are told by name."""
    part, pixels = Part("fields", most=SHOWN_VARIABLES), []
    for one in a.placed:
        two = b.by_name.get(one.field.name)
        if two is None or one.field.name in AS_MEMORIES or is_register(one.field.name):
            continue
        if one.field.name in FRAMES:
            pixels.append(compare_pixels(one, two))
            continue
        at = f"byte {one.offset}" if one.offset == two.offset else f"bytes {one.offset} and {two.offset}"
        differs = one.value != two.value
        part.add(differs, f"{differing_numbers(one, two)} ({at})" if differs else "")
    if part.count > len(part.lines):
        part.lines.append(f"and {part.count - len(part.lines)} more")
    alone(part, a, b, "A")
    alone(part, b, a, "B")
    return [part, *pixels]
