"""nds-diff: tells where two outputs of `nds run` differ: frames, lists, variables, memories, registers, counts, stops; or two saved states.

    tools/nds-diff A B [--only PART].. [--elf9 F] [--elf7 F] [--skip-code] [--frame 60|1-10] [--png DIR [--most N]]

  A, B         what two runs wrote; one of them may be `-`, standard input. Or two saved states, which `nds save` writes
  --only P     that part alone: frames, lists, variables, memory, registers or counts; of states variables, memory, registers or fields; may be
               given several times
  --elf9 F, --elf7 F   the programs' ELF files, for their variables and symbols
  --elf9-b F, --elf7-b F   those of B, where it is another build: variables are then found by name in each
  --skip-code  leaves out the bytes where these files have code, the header's copy, and words that point into code in both outputs: those
               change with an edit that changes no result
  --frame F    the frames and lists of these numbers alone: one, or a first and a last
  --png DIR    three pictures for each frame that differs: A's, B's, and the difference, red where they differ
  --most N     pictures of at most N frames; left out, 20
  --dtcm A     where the program put DTCM; left out, as ARM9's ELF file has it, otherwise 0x3000000

Variables that differ come by name, with their values or the first word that differs. For each other part it tells how much differs and the
first three places: of a frame the screen, how many pixels, the least box that holds them, the first one's (x, y) and both colours, and whether
it is A's picture moved; of a memory the address, the symbol and both words, without the variables and the pointers into code; of object memory
and the palettes what they say, as `object 0: x 40 and 41`. All registers and counts that differ are told, and a stop by its name. Of states
the fields come by name, as ports of GBATEK's names, with both values and both offsets; DTCM is where each state has it.

Where the code in an output's memory isn't its ELF file's, standard error says so: then its variables lie elsewhere.

Ends with 0 where nothing differs, with 1 where something does, and with 2 where an output is none of a run or a file isn't there."""
import argparse
import sys
from dataclasses import dataclass
from typing import Iterator, List, Optional, Tuple, Union

from nds_tools import golden, names, png
from nds_tools.compared import SHOWN, Part, Side, compare_memory, compare_variables
from nds_tools.meanings import colour
from nds_tools.memory import Map
from nds_tools.records import SCREEN, End, Frame, Lists, Memory, Record, Stop, records_of
from nds_tools.show_command import map_of
from nds_tools.spans import Wanted, wanted
from nds_tools.state_banks import banks_of
from nds_tools.state_show import compare_fields, state_of
from nds_tools.states import State, is_state
from nds_tools.words import FAILED, GOOD, Untold, Words

TOOL = "nds-diff"
USAGE = "tools/nds-diff A B [--only PART].. [--elf9 F] [--elf7 F] [--elf9-b F] [--elf7-b F] [--skip-code] [--frame F] [--png DIR [--most N]] [--dtcm A]"
PARTS = ("frames", "lists", "variables", "memory", "registers", "counts")
PARTS_OF_STATES = ("variables", "memory", "registers", "fields")
PICTURES = 20
Pictured = Union[Frame, Lists]


@dataclass
class Tail:
    """What comes after the frames: memories and the end, or a stop."""

    memory: Optional[Memory] = None
    end: Optional[End] = None
    stop: Optional[Stop] = None

    def take(self, record: Record) -> None:
        if isinstance(record, Memory):
            self.memory = record
        elif isinstance(record, End):
            self.end = record
        elif isinstance(record, Stop):
            self.stop = record


def pictured(records: Iterator[Record], tail: Tail, wanted: Wanted) -> Iterator[Pictured]:
    """Hands on the frames and lists that are asked for; what follows them goes to the tail."""
    for it in records:
        if isinstance(it, (Frame, Lists)):
            if wanted.has(it.number):
                yield it
        else:
            tail.take(it)


def paired(one: Iterator[Pictured], two: Iterator[Pictured]) -> Iterator[Tuple[Optional[Pictured], Optional[Pictured]]]:
    """Pairs frames, and lists, of the same tick; where one output lacks one it is None."""
    a, b = next(one, None), next(two, None)
    while a or b:
        first, second = (None if it is None else (it.tick, isinstance(it, Lists)) for it in (a, b))
        is_a = first is not None and (second is None or first <= second)
        is_b = second is not None and (first is None or second <= first)
        yield (a if is_a else None), (b if is_b else None)
        a = next(one, None) if is_a else a
        b = next(two, None) if is_b else b


def pixels(a: bytes, b: bytes) -> List[int]:
    """Returns the places of the pixels that differ."""
    return [] if a == b else [at for at, (x, y) in enumerate(zip(png.pixels_of(a), png.pixels_of(b))) if x != y]


def frame_line(a: Frame, b: Frame) -> str:
    """Tells of a frame that differs the screens, and each one's first pixel."""
    told = []
    for name, at in (("upper", 0), ("lower", SCREEN)):
        one, two = a.pixels[at : at + SCREEN], b.pixels[at : at + SCREEN]
        found = pixels(one, two)
        if found:
            first = found[0]
            both = " and ".join(colour(int.from_bytes(it[2 * first : 2 * first + 2], "little")) for it in (one, two))
            how_many = "1 pixel" if len(found) == 1 else f"{len(found)} pixels"
            rows, columns = [it // png.WIDTH for it in found], [it % png.WIDTH for it in found]
            box = f" in the box ({min(columns)}, {min(rows)}) to ({max(columns)}, {max(rows)})" if len(found) > 1 else ""
            told.append(f"{name} screen, {how_many}{box}, first ({first % png.WIDTH}, {first // png.WIDTH}): {both}")
    way = golden.moved(a.pixels, b.pixels)
    return f"frame {a.number}: {'; '.join(told)}{f'; {way}' if way else ''}"


def picture(folder: str, a: Frame, b: Frame) -> str:
    """Writes the three pictures of a frame; returns where the difference is."""
    changed, table = set(pixels(a.pixels, b.pixels)), png.colours()

    def paint(at: int, value: int) -> bytes:
        return b"\xff\0\0" if at in changed else bytes(it // 4 for it in table[value & 0x7FFF])

    for name, frame in (("a", a), ("b", b)):
        png.write(folder, f"frame-{a.number:04d}-{name}.png", frame.pixels)
    return png.write(folder, f"frame-{a.number:04d}-difference.png", a.pixels, 1, paint)


def lists_line(a: Lists, b: Lists) -> str:
    """Tells the first thing in which two lists differ."""
    if a.parameter != b.parameter:
        return f"frame {a.number}: swap parameter {a.parameter:08x} and {b.parameter:08x}"
    for kind, one, two in (("vertex", a.vertices, b.vertices), ("polygon", a.polygons, b.polygons)):
        for at, (x, y) in enumerate(zip(one, two)):
            if x != y:
                which = [it for it in x._fields if getattr(x, it) != getattr(y, it)]
                values = ", ".join(f"{it} {getattr(x, it)} and {getattr(y, it)}" for it in which)
                return f"frame {a.number}: {kind} {at}: {values}"
        if len(one) != len(two):
            return f"frame {a.number}: {kind} count {len(one)} and {len(two)}"
    return f"frame {a.number}"


def compare_pictured(pairs: Iterator[Tuple[Optional[Pictured], Optional[Pictured]]], folder: Optional[str], most: int) -> List[Part]:
    """Compares frames and lists, one pair at a time, and writes pictures of at most that many frames."""
    frames, lists, pictures = Part("frames"), Part("lists"), 0
    for a, b in pairs:
        either = a or b
        part = frames if isinstance(either, Frame) else lists
        if a is None or b is None:
            part.add(True, f"frame {either.number if either else 0}: in {'A' if b is None else 'B'} alone")
        elif isinstance(a, Frame) and isinstance(b, Frame):
            differs = a.pixels != b.pixels
            line = frame_line(a, b) if differs and len(frames.lines) < SHOWN else ""
            shown = picture(folder, a, b) if differs and folder and pictures < most else ""
            pictures += bool(shown)
            part.add(differs, f"{line}  {shown}".rstrip())
        elif isinstance(a, Lists) and isinstance(b, Lists):
            differs = a != b
            part.add(differs, lists_line(a, b) if differs and len(lists.lines) < SHOWN else "")
    return [frames, lists]


def register(side: Side, proc: int, name: str) -> str:
    """Returns a register's value, of r14 and r15 with the symbol that it belongs to."""
    value, elf = side.record.registers[proc][name], side.known.elves[proc]
    near = elf.near(value) if elf and name.startswith(("r14", "r15")) else ""
    return f"{value:08x}{' ' + near if near else ''}"


def compare_registers(sides: Tuple[Side, Side]) -> List[Part]:
    """Compares all registers of both processors; all that differ are told."""
    parts = []
    for proc, name in enumerate(names.PROCESSORS):
        one, two = (side.record.registers[proc] for side in sides)
        differ = [it for it in names.REGISTERS if one[it] != two[it]]
        lines = [f"{it} " + " and ".join(register(side, proc, it) for side in sides) for it in differ]
        parts.append(Part(f"registers of {name}", len(names.REGISTERS), len(differ), lines))
    return parts


def compare_counts(a: End, b: End) -> Part:
    """Compares all counts; all that differ are told."""
    values = {it: (getattr(a, it), getattr(b, it)) for it in names.COUNTS}
    lines = [f"{it} {one} and {two}" for it, (one, two) in values.items() if one != two]
    return Part("counts", len(values), len(lines), lines)


def tell_other_programs(sides: Tuple[Side, Side]) -> None:
    """Says which output isn't a run of the program whose ELF file was given."""
    for name, side in zip("AB", sides):
        for proc, elf in enumerate(side.known.elves):
            if elf and not side.runs(proc):
                hint = f"; --elf{'97'[proc]}-b names that of B" if name == "B" else ""
                print(f"{TOOL}: {name} isn't a run of {elf.name}, whose code is another one{hint}", file=sys.stderr)


def compare_tails(a: Tail, b: Tail, only: List[str], maps: Tuple[Map, Map], skips_code: bool) -> List[Part]:
    """Compares what follows the frames."""
    if a.stop or b.stop:
        ends = [f"{name} {f'stopped: {it.stop}' if it.stop else f'came to tick {it.end.ticks if it.end else 0}'}" for name, it in (("A", a), ("B", b))]
        return [Part("stop", 1, int(a.stop != b.stop), ["; ".join(ends)])]
    parts: List[Part] = []
    if a.memory and b.memory and a.end and b.end:
        sides = Side(a.memory, maps[0]), Side(b.memory, maps[1])
        tell_other_programs(sides)
        parts += [compare_variables(*sides, skips_code)] if "variables" in only else []
        parts += compare_memory(*sides, skips_code) if "memory" in only else []
        parts += compare_registers(sides) if "registers" in only else []
        parts += [compare_counts(a.end, b.end)] if "counts" in only else []
    return parts


def compare_states(a: State, b: State, only: List[str], maps: Tuple[Map, Map], skips_code: bool) -> List[Part]:
    """Compares two saved states."""
    one, two = (Side(state.memory, state.map(known, banks_of(state))) for state, known in zip((a, b), maps))
    sides = one, two
    tell_other_programs(sides)
    parts = [compare_variables(*sides, skips_code)] if "variables" in only else []
    parts += compare_memory(*sides, skips_code) if "memory" in only else []
    parts += compare_registers(sides) if "registers" in only else []
    return parts + (compare_fields(a, b) if "fields" in only else [])


def is_of_states(given: argparse.Namespace) -> bool:
    """Whether both are saved states; one alone can't be compared with an output."""
    one, two = is_state(given.a), is_state(given.b)
    if one != two:
        raise Untold(f"{given.a if one else given.b} is a saved state, and {given.b if one else given.a} is none")
    if one and (given.frame or given.png):
        raise Untold("--frame and --png are for outputs; of states frames are compared pixel by pixel")
    return one


def parts_of(given: argparse.Namespace, known: Tuple[str, ...], what: str) -> List[str]:
    """Returns the parts that are asked for, of those that are there."""
    wrong = [it for it in given.only or [] if it not in known]
    if wrong:
        raise Untold(f"--only {wrong[0]}: {what} {', '.join(known)}")
    return given.only or [it for it in known if it != "variables" or given.elf9 or given.elf7]


def read_words() -> argparse.Namespace:
    words = Words(TOOL, USAGE, __doc__ or "")
    words.add_argument("a")
    words.add_argument("b")
    words.add_argument("--only", action="append", choices=(*PARTS, "fields"))
    for name in ("--elf9", "--elf7", "--elf9-b", "--elf7-b", "--dtcm", "--frame", "--png"):
        words.add_argument(name)
    words.add_argument("--most", type=int, default=PICTURES)
    words.add_argument("--skip-code", action="store_true")
    given = words.read()
    has_elf = given.elf9 or given.elf7
    if given.skip_code and not has_elf:
        raise Untold("--skip-code wants --elf9 or --elf7, which tell where code lies")
    if "variables" in (given.only or []) and not has_elf:
        raise Untold("--only variables wants --elf9 or --elf7, which name them")
    if (given.elf9_b and not given.elf9) or (given.elf7_b and not given.elf7):
        raise Untold("--elf9-b and --elf7-b want --elf9 and --elf7 beside them, for A")
    if given.a == given.b == "-":
        raise Untold("one output alone can come from a pipe")
    if given.most < 1:
        raise Untold("--most takes a number from 1")
    return given


def main() -> int:
    given = read_words()
    maps = (map_of(given.elf9, given.elf7, given.dtcm), map_of(given.elf9_b or given.elf9, given.elf7_b or given.elf7, given.dtcm))
    if is_of_states(given):
        given.only = parts_of(given, PARTS_OF_STATES, "states have")
        states = state_of(given.a), state_of(given.b)
        lines = [line for it in compare_states(*states, given.only, maps, given.skip_code) for line in it.said()]
        print("\n".join(lines) or f"equal: {', '.join(given.only)}")
        return FAILED if lines else GOOD
    given.only = parts_of(given, PARTS, "outputs have")
    tails, frames = (Tail(), Tail()), wanted(given.frame)
    one, two = (pictured(records_of(name), tail, frames) for name, tail in zip((given.a, given.b), tails))
    folder = given.png if "frames" in given.only else None
    parts = [it for it in compare_pictured(paired(one, two), folder, given.most) if it.title in given.only]
    parts += compare_tails(*tails, given.only, maps, given.skip_code)
    lines = [line for it in parts for line in it.said()]
    same = [f"{it.every} {it.title}" for it in parts if it.title in ("frames", "lists") and it.every]
    same += [f"both stopped: {tails[0].stop}"] if tails[0].stop else [it for it in given.only if it not in ("frames", "lists")]
    print("\n".join(lines) or f"equal: {', '.join(same)}")
    return FAILED if lines else GOOD
