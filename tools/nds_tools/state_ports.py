"""What the ports of a saved state hold and read, by GBATEK's names and addresses, each with what it says in words."""
from dataclasses import dataclass
from typing import Dict, List, Optional

from nds_tools import names
from nds_tools.hangs import INTERRUPTS
from nds_tools.state_banks import lines_of_banks
from nds_tools.state_fields import BLOCK_WORDS, ENGINES, PACES, PARAMETERS, level, shown_count
from nds_tools.scripts import KEYS
from nds_tools.states import State

WHOLE_SHARED = ("all 32K and none", "its second 16K and its first", "its first 16K and its second", "nothing and all 32K")
STARTS_OF_NINE = ("now", "at V-blank", "at H-blank", "at each line drawn", "by main-memory display", "by the card", "by the GBA slot")
STARTS = ((*STARTS_OF_NINE, "by the geometry FIFO"), ("now", "at V-blank", "by the card", "by wireless or the GBA slot"))
WAYS = ("up", "down", "fixed", "up and again")
MODES_OF_DISPLAY = ("off, white", "graphics", "a bank as it lies", "main memory")
EFFECTS = ("none", "alpha", "brighten", "darken")
LAYERS = ("BG0", "BG1", "BG2", "BG3", "OBJ")
MATRIX_MODES = ("projection", "position", "position and vector", "texture")
RUN_KINDS = ("triangles", "quads", "triangle strip", "quad strip")
CONTROL_BITS = {0: "protection unit", 2: "data cache", 12: "instruction cache", 13: "vectors at FFFF0000h", 14: "round robin",
                15: "no Thumb by loads", 16: "DTCM", 17: "DTCM's load mode", 18: "ITCM", 19: "ITCM's load mode"}  # fmt: skip
DIVISIONS = ("32 by 32 bits", "64 by 32 bits", "64 by 64 bits", "64 by 32 bits")


@dataclass(frozen=True)
class Port:
    """A port: its address, its name, the bytes that it has, what it reads or was written to it, and what that says."""

    at: int
    name: str
    width: int
    value: int
    text: str = ""

    def line(self) -> str:
        return f"{self.at:07x}  {self.name.ljust(13)} {f'{self.value:0{2 * self.width}x}'.rjust(8)}{'  ' if self.text else ''}{self.text}"


@dataclass(frozen=True)
class Section:
    """Ports and further lines that belong together."""

    title: str
    lines: List[str]


def joined(parts: List[str]) -> str:
    return ", ".join(it for it in parts if it)


def of_bits(value: int, known: Dict[int, str]) -> List[str]:
    """Returns the names of the bits that are 1."""
    return [name for bit, name in known.items() if value >> bit & 1]


def bits(mask: int) -> str:
    """Returns the interrupts of a word by name, and bits that are none."""
    named = [name for bit, name in INTERRUPTS.items() if mask >> bit & 1]
    rest = mask & ~sum(1 << it for it in INTERRUPTS)
    return joined(named + ([f"bits {rest:x}h, which no interrupt has"] if rest else [])) or "none"


def when(tick: Optional[int], state: State) -> str:
    """Tells a due tick."""
    return "not due" if tick is None else f"due at tick {tick}, in {tick - state.tick}"


def flags_of(state: State, which: int) -> int:
    """Returns IF, ARM9's with the geometry FIFO's bit."""
    asked = state[f"{names.PROCESSORS[which]} IF"]
    has_level = which == 0 and level(state["GXSTAT selector"], state["GXFIFO count"])
    return asked | (1 << 21 if has_level else 0)


def interrupts(state: State) -> Section:
    lines = []
    for which, proc in enumerate(names.PROCESSORS):
        enabled, flags = state[f"{proc} IE"], flags_of(state, which)
        ports = [Port(0x4000208, "IME", 4, state[f"{proc} IME"], ("all are held back", "let through")[state[f"{proc} IME"]])]
        ports += [Port(0x4000210, "IE", 4, enabled, bits(enabled)), Port(0x4000214, "IF", 4, flags, bits(flags))]
        lines += [f"{proc} {it.line()}" for it in ports]
        halted = "it is halted" if state[f"{proc} halted"] else f"its next step is due at tick {state[f'{proc} due']}"
        lines.append(f"{proc} {halted}; both enabled and asked for: {bits(enabled & flags)}")
    return Section("interrupts", lines)


def counter(state: State, name: str) -> int:
    """Returns what a timer's counter reads at the state's tick."""
    control, count = state[f"{name}CNT_H"], state[f"{name} counter"]
    since = state[f"{name} restart"]
    free = control & 0x80 and (not control & 4 or name.endswith("0"))
    return (count + (state.tick - since) // PACES[control & 3]) % 0x1_0000 if free else count


def timers(state: State) -> Section:
    lines = []
    for proc in names.PROCESSORS:
        for number in range(4):
            name = f"{proc} TM{number}"
            control, pace = state[f"{name}CNT_H"], PACES[state[f"{name}CNT_H"] & 3]
            counts_up = bool(control & 4) and number > 0
            how = f"counts the overflows of TM{number - 1}" if counts_up else f"one count in {pace // 2} bus clock{'s' if pace > 2 else ''}"
            due = state[f"{name} restart"] + (0x1_0000 - state[f"{name} counter"]) * pace
            runs = "stopped" if not control & 0x80 else "runs" if counts_up else f"runs, overflows at tick {due}"
            reload = state[f"{name}CNT_L reload"]
            ports = [Port(0x4000100 + 4 * number, f"TM{number}CNT_L", 2, counter(state, name), f"reload {reload:04x}h")]
            ports.append(Port(0x4000102 + 4 * number, f"TM{number}CNT_H", 2, control, joined([runs, how, "interrupt" if control & 0x40 else ""])))
            lines += [f"{proc} {it.line()}" for it in ports]
    return Section("timers", lines)


def control_text(which: int, number: int, control: int) -> str:
    """Tells a DMA channel's control in words."""
    start = STARTS[0][control >> 27 & 7] if which == 0 else STARTS[1][control >> 28 & 3]
    greatest = 0x1F_FFFF if which == 0 else 0xFFFF if number == 3 else 0x3FFF
    count = control & greatest or greatest + 1
    what = f"{count} {'words' if control >> 26 & 1 else 'halves'}, source {WAYS[control >> 23 & 3]}, target {WAYS[control >> 21 & 3]}, starts {start}"
    more = ["repeats" if control >> 25 & 1 else "", "interrupt at its end" if control >> 30 & 1 else ""]
    return joined(["enabled" if control >> 31 else "not enabled", what, *more])


def dma(state: State) -> Section:
    lines = []
    for which, proc in enumerate(names.PROCESSORS):
        for number in range(4):
            name, at = f"{proc} DMA{number}", 0x40000B0 + 12 * number
            control = state[f"{name}CNT"]
            ports = [Port(at, f"DMA{number}SAD", 4, state[f"{name}SAD"]), Port(at + 4, f"DMA{number}DAD", 4, state[f"{name}DAD"])]
            ports.append(Port(at + 8, f"DMA{number}CNT", 4, control, control_text(which, number, control)))
            lines += [f"{proc} {it.line()}" for it in ports]
            if control >> 31:
                runs = f"runs since tick {state[f'{name} trigger']}" if state[f"{name} running"] else "waits for its start"
                burst = f", {state[f'{name} burst left']} of them in this burst" if state[f"{name} burst left"] else ""
                left = f"{state[f'{name} units left']} units left{burst}"
                lines.append(f"{proc} DMA{number} {runs}, {left}, next from {state[f'{name} source']:08x} to {state[f'{name} target']:08x}")
        last = state[f"{proc} DMA last unit"]
        lines.append(f"{proc} last unit of DMA: {f'at tick {last}' if last else 'none'}")
    lines += [Port(0x40000E0 + 4 * it, f"DMA{it}FILL", 4, state[f"DMA{it}FILL"]).line() for it in range(4)]
    return Section("DMA", lines)


def ipc(state: State) -> Section:
    lines = []
    for which, proc in enumerate(names.PROCESSORS):
        other = names.PROCESSORS[1 - which]
        given, taken = state[f"{proc} IPCSYNC sent"], state[f"{other} IPCSYNC sent"]
        sync = taken | given << 8 | state[f"{proc} IPCSYNC enable"] << 14
        sent, received = state[f"{other} IPCFIFORECV count"], state[f"{proc} IPCFIFORECV count"]
        kept = state[f"{proc} IPCFIFOCNT"]
        control = kept | (sent == 0) | (sent == 16) << 1 | (received == 0) << 8 | (received == 16) << 9
        enables = of_bits(kept, {2: "interrupt by an empty send FIFO", 10: "interrupt by received words", 14: "an error", 15: "enabled"})
        texts = [f"sends {given:x}h, has {taken:x}h", joined([f"{sent} words sent that wait, {received} to be received", *enables])]
        ports = [Port(0x4000180, "IPCSYNC", 2, sync, texts[0]), Port(0x4000184, "IPCFIFOCNT", 2, control, texts[1])]
        words = [state[f"{proc} IPCFIFORECV word {it}"] for it in range(received)]
        last = state[f"{proc} IPCFIFORECV last"]
        text = f"to be received: {' '.join(f'{it:08x}' for it in words)}" if words else "the last word received"
        ports.append(Port(0x4100000, "IPCFIFORECV", 4, words[0] if words else last, text))
        lines += [f"{proc} {it.line()}" for it in ports]
    return Section("between the processors", lines)


def keys(state: State) -> Section:
    pressed = state["KEYINPUT pressed"]
    held = "+".join(name for it, name in enumerate(KEYS) if pressed >> it & 1) or "none"
    # (bit i of what is pressed is key i of a script; KEYINPUT has the first ten, and 0 for a pressed one)
    inputs = 0x3FF & ~pressed
    lines = [Port(0x4000130, "KEYINPUT", 2, inputs, f"pressed: {held}").line()]
    for proc in names.PROCESSORS:
        control = state[f"{proc} KEYCNT"]
        way = "where all of them are pressed" if control >> 15 & 1 else "where one of them is pressed"
        chosen = "+".join(name for it, name in enumerate(KEYS[:10]) if control >> it & 1) or "no key"
        text = f"interrupt by {chosen}, {way}" if control >> 14 & 1 else "no interrupt"
        lines.append(f"{proc} {Port(0x4000132, 'KEYCNT', 2, control, text).line()}")
    lines.append(f"ARM7 {Port(0x4000136, 'EXTKEYIN', 2, 0x7C | 3 & ~(pressed >> 10)).line()}")
    return Section("keys", lines)


def math(state: State) -> Section:
    mode, busy = state["DIVCNT mode"], state.due("divider due")
    control = mode | (state["DIV_DENOM"] == 0) << 14 | (busy is not None) << 15
    text = joined([DIVISIONS[mode], "by zero" if state["DIV_DENOM"] == 0 else "", when(busy, state) if busy is not None else ""])
    ports = [Port(0x4000280, "DIVCNT", 2, control, text)]
    for at, name in ((0x290, "DIV_NUMER"), (0x298, "DIV_DENOM"), (0x2A0, "DIV_RESULT"), (0x2A8, "DIVREM_RESULT")):
        ports.append(Port(0x4000000 + at, name, 8, state[name]))
    busy = state.due("square root due")
    root = state["SQRTCNT wide"] | (busy is not None) << 15
    text = joined([("of 32 bits", "of 64 bits")[state["SQRTCNT wide"]], when(busy, state) if busy is not None else ""])
    ports.append(Port(0x40002B0, "SQRTCNT", 2, root, text))
    ports += [Port(0x40002B4, "SQRT_RESULT", 4, state["SQRT_RESULT"]), Port(0x40002B8, "SQRT_PARAM", 8, state["SQRT_PARAM"])]
    return Section("divider and square root", [it.line() for it in ports])


def memory_control(state: State) -> Section:
    lines = lines_of_banks(state)
    shown = WHOLE_SHARED[state["WRAMCNT"]]
    lines.insert(7, Port(0x4000247, "WRAMCNT", 1, state["WRAMCNT"], f"of the shared work RAM ARM9 and ARM7 see {shown}").line())
    taken = [state[f"VRAMCNT_{it}"] & 0x87 == 0x82 for it in "CD"]
    lines.append(f"ARM7 {Port(0x4000240, 'VRAMSTAT', 1, taken[0] | taken[1] << 1, 'banks C and D that ARM7 has').line()}")
    return Section("memory control", lines)


def power(state: State) -> str:
    """Tells POWCNT1 in words."""
    value = state["POWCNT1"]
    upper = "A" if value >> 15 & 1 else "B"
    named = of_bits(value, {0: "both screens", 1: "2D engine A", 9: "2D engine B", 2: "3D rendering", 3: "geometry"})
    return f"on: {joined(named) or 'nothing'}; engine {upper} on the upper screen"


def dispcnt(engine: str, value: int) -> str:
    """Tells an engine's control in words."""
    mode = value >> 16 & (3 if engine == "A" else 1)
    layers = [name for it, name in enumerate(LAYERS) if value >> 8 + it & 1]
    windows = of_bits(value, {13: "window 0", 14: "window 1", 15: "object window"})
    bank = f" {'ABCD'[value >> 18 & 3]}" if mode == 2 else ""
    more = [f"background mode {value & 7}", f"shows {'+'.join(layers) or 'no layer'}", *windows]
    more += ["BG0 is 3D" if engine == "A" and value >> 3 & 1 else "", "forced blank" if value >> 7 & 1 else ""]
    return joined([f"display mode {mode}: {MODES_OF_DISPLAY[mode]}{bank}", *more])


def register_text(engine: str, name: str, value: int) -> str:
    """Tells in words what some registers of an engine say."""
    if name == "DISPCNT":
        return dispcnt(engine, value)
    if name.startswith("BG") and name.endswith("CNT"):
        return f"priority {value & 3}, tiles at {value >> 2 & 15} x 16K, map at {value >> 8 & 31} x 2K, size {value >> 14}"
    if name == "BLDCNT":
        return f"effect {EFFECTS[value >> 6 & 3]}"
    if name == "MASTER_BRIGHT":
        return f"{('off', 'up', 'down', 'off')[value >> 14]} by {value & 31}" if value else ""
    return ""


def offsets(engine: str) -> List[int]:
    """Returns the addresses of an engine's registers."""
    found, at = [], 0x4000000 if engine == "A" else 0x4001000
    for name, code, _ in ENGINES[engine]:
        at = {"BG0CNT": 8, "BLDCNT": 0x50, "DISPCAPCNT": 0x64, "MASTER_BRIGHT": 0x6C}.get(name, at & 0xFF) | at & ~0xFF
        found.append(at)
        at += 4 if code == "I" else 2
    return found


def display(state: State) -> Section:
    line = state["VCOUNT"]
    lines = [Port(0x4000006, "VCOUNT", 2, line, f"H-blank of the line has {'come' if state['H-blank came'] else 'not come yet'}").line()]
    for proc in names.PROCESSORS:
        value = state[f"{proc} DISPSTAT"]
        flags, asks = (of_bits(value >> shift, {0: "V-blank", 1: "H-blank", 2: "V-count"}) for shift in (0, 3))
        text = f"now: {joined(flags) or 'none'}; interrupts: {joined(asks) or 'none'}; V-count setting {value >> 8 | (value >> 7 & 1) << 8}"
        lines.append(f"{proc} {Port(0x4000004, 'DISPSTAT', 2, value, text).line()}")
    lines.append(Port(0x4000304, "POWCNT1", 2, state["POWCNT1"], power(state)).line())
    for engine, registers in ENGINES.items():
        for at, (name, code, _) in zip(offsets(engine), registers):
            value = state[f"{engine} {name}"]
            lines.append(f"{engine} {Port(at, name, 4 if code == 'I' else 2, value, register_text(engine, name, value)).line()}")
        points = [f"BG{it} ({state[f'{engine} BG{it}X running'] / 256:g}, {state[f'{engine} BG{it}Y running'] / 256:g})" for it in (2, 3)]
        lines.append(f"{engine} running points of the affine backgrounds: {joined(points)}")
    return Section("display", lines)


def gxstat(state: State) -> int:
    """Returns what GXSTAT reads."""
    count = state["GXFIFO count"]
    codes = {state[f"GXFIFO {it} command"] for it in range(count)}
    shown = shown_count(count)
    value = bool(codes & {0x70, 0x71, 0x72}) | state["box result"] << 1 | state["position level"] << 8 | state["projection level"] << 13
    value |= bool(codes & {0x11, 0x12}) << 14 | state["stack error"] << 15 | shown << 16 | (shown < 128) << 25 | (shown == 0) << 26
    return value | (count > 0 or state["swap waits"]) << 27 | state["GXSTAT selector"] << 30


def matrix_lines(state: State, name: str) -> List[str]:
    """Returns a matrix row by row, each cell divided by 4096."""
    cells = state.values.numbers(name)
    return [f"{name}: " + "; ".join(" ".join(f"{it / 4096:g}" for it in cells[row : row + 4]) for row in range(0, 16, 4))]


def geometry(state: State) -> Section:
    count = state["GXFIFO count"]
    selects = ("by nothing", "by less than half full", "by empty", "by nothing")[state["GXSTAT selector"]]
    overflow = state["list overflow"]
    ports = [Port(0x4000060, "DISP3DCNT", 2, state["DISP3DCNT"] | overflow << 13, "lists overflowed" if overflow else "")]
    ports.append(Port(0x4000600, "GXSTAT", 4, gxstat(state), f"{count} entries wait; interrupt {selects}"))
    lengths = state["open polygons"] | state["open vertices"] << 16
    open_lists = f"{state['open polygons']} polygons and {state['open vertices']} vertices in the open lists"
    ports.append(Port(0x4000604, "RAM_COUNT", 4, lengths, open_lists))
    lines = [it.line() for it in ports]
    parameter = state["SWAP_BUFFERS waiting parameter"]
    waits = f"waits for the swap with parameter {parameter:x}h" if state["swap waits"] else when(state.due("geometry due"), state)
    lines.append(f"engine: {waits}; matrix mode {MATRIX_MODES[state['MTX_MODE']]}; position level {state['position level']}")
    for it in range(min(count, 8)):
        lines.append(f"entry {it}: command {state[f'GXFIFO {it} command']:02x}h, word {state[f'GXFIFO {it} word']:08x}")
    if count > 8:
        lines.append(f"and {count - 8} entries more")
    packed = state["GXFIFO packed commands left"]
    if packed:
        lines.append(f"packed commands left {packed:08x}, of the first {state['GXFIFO parameters left']} of {PARAMETERS[packed & 0xFF]} parameters")
    for name in ("projection", "position", "vector", "texture"):
        lines += matrix_lines(state, f"{name} matrix")
    run = f"{state['vertices of the run']} vertices of {RUN_KINDS[state['BEGIN_VTXS kind']]}"
    force = f"attributes {state['POLYGON_ATTR in force']:08x}, texture {state['TEXIMAGE_PARAM']:08x}, colour {state['COLOR']:04x}"
    lines.append(f"the run: {run}; {force}")
    swap = state["swap tick"]
    lists = f"{state['swapped vertices']} vertices and {state['swapped polygons']} polygons, parameter {state['swap parameter']:x}h"
    lines.append(f"the last swap: {f'at tick {swap}, {lists}' if swap else 'none'}")
    return Section("geometry", lines)


def card(state: State) -> Section:
    starter, due = state["card starter"], state.due("card due")
    is_ready = starter > 0 and due is None
    lines = []
    for proc in names.PROCESSORS:
        value = state[f"{proc} AUXSPICNT"]
        named = of_bits(value, {13: "SPI mode", 14: "interrupt at the end", 15: "slot enabled"})
        lines.append(f"{proc} {Port(0x40001A0, 'AUXSPICNT', 2, value, joined(named)).line()}")
    control = state["ROMCTRL"] | is_ready << 23 | (starter > 0) << 31
    words = BLOCK_WORDS[state["ROMCTRL"] >> 24 & 7]
    busy = f"busy for {names.PROCESSORS[starter - 1]}, {state['card words taken']} of {words} words taken" if starter else "no transfer"
    text = joined([busy, "a word is ready" if is_ready else when(due, state) if starter else ""])
    lines.append(Port(0x40001A4, "ROMCTRL", 4, control, text).line())
    command = state.values.content("card command")
    lines.append(f"40001a8  ROMCMD        {command.hex(' ')}")
    return Section("card", lines)


def cp15(state: State) -> Section:
    control = state["CP15 control"] | 0x78
    lines = [f"c1,c0,0  Control       {control:08x}  {joined(of_bits(control, CONTROL_BITS))}"]
    for name, what, register in (("DTCM", "c9,c1,0  DTCM base    ", state["CP15 DTCM"]), ("ITCM", "c9,c1,1  ITCM size    ", state["CP15 ITCM"])):
        size = 512 << (register >> 1 & 31)
        base = f"from {register & 0xFFFFF000:08x} on, " if name == "DTCM" else "from 0 on, "
        lines.append(f"{what} {register:08x}  {base}{size // 1024}K")
    return Section("CP15", lines)


SECTIONS = (interrupts, timers, dma, ipc, keys, math, memory_control, display, geometry, card, cp15)


def sections(state: State) -> List[Section]:
    """Returns all ports of a state."""
    return [it(state) for it in SECTIONS]
