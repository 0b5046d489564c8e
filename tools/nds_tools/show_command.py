"""nds-show: shows the registers of both processors, where they are by symbol, what they wait for, and words of memory.

    tools/nds-show OUTPUT [--elf9 F] [--elf7 F] [--all] [PLACE..]
    tools/nds-show OUTPUT --cart GAME.nds [--keys F] [--elf9 F] [--elf7 F] [PLACE..]
    tools/nds-show GAME.nds --frame N|--ticks N [--keys F] [--elf9 F] [--elf7 F] [--all] [PLACE..]
    tools/nds-show NAME.test [--frame N|--ticks N] [--all] [PLACE..]
    tools/nds-show --state FILE [--cart GAME.nds] [--elf9 F] [--elf7 F] [--all] [PLACE..]
    tools/nds-show --cart GAME.nds --tick N [--keys F] [--elf9 F] [--elf7 F] [--all] [PLACE..]

  OUTPUT      what `nds run` wrote; `-` is standard input
  GAME.nds    with --frame or --ticks, a cartridge, which is run until N frames are whole, as by `frames N` in a test, or to a tick. Where
              that run stops, it is shown as it is at the tick of the stop
  NAME.test   a test of nds-test, of which cartridge, keys, ELF files and, where nothing is said, the last tick are taken
  PLACE       words to show: [9:|7:]ADDRESS, [9:|7:]SYMBOL or @MEMORY, then +BYTES and :WORDS where you like, as score, score:4,
              0x2001000:8, 7:counter, @vram+0x40:2; or numbers in a form, as speed:s16, grid:8u8. A symbol is as long as the ELF file
              says, otherwise a word; of one with types (-g) fields and elements can be named, lamps[2].number, and numbers have their
              sign. Memories are main, wram, wram7, itcm, dtcm, palette, vram and oam
  --elf9 F, --elf7 F   the ELF files of both programs, for their symbols
  --text      shows places as text, up to the first zero
  --all       all 37 registers, those of every mode too; of a state all its fields too, each with its offset in bytes
  --state F   a saved state, as `nds save` writes it: its processors, what is odd, and every port by GBATEK's name. DTCM and the banks of video
              memory are where the state has them. With --cart it is told whether it is that cartridge's
  --tick N    saves the state of --cart at that tick, and shows it
  --dtcm A    where the program put DTCM; left out, as ARM9's ELF file has it (the symbol __dtcm_start, or a section with dtcm in its
              name), and otherwise it is assumed where it is at boot, at 0x3000000, which is said where a place lies in it
  --keys F    a key script, keys by frame, or a recording (.dsm)
  --cart C    where the output ends in a stop: runs that cartridge, with --keys, to the tick of the stop, and shows that run. Without it
              the command that does so is told
  --nds PATH  the program to run; left out, that of NDS_PROGRAM, or this repository's nds

Ends with 0, and with 2 where that can't be told: the output ends in a stop and there is no cartridge to run to it, or is none of a run; a
file is no state; a place, a symbol or a file isn't there. docs/BOOT_ROM.md tells more of hangs, docs/STATES.md of saved states."""
import argparse
import io
import shlex
import sys
from dataclasses import dataclass
from typing import Iterable, List, Optional, Tuple

from nds_tools import names, scripts
from nds_tools.builds import not_in_memory, others
from nds_tools.elf import Elf
from nds_tools.game_tests import MOST_TICKS, Test, test_of
from nds_tools.hangs import waiting, where
from nds_tools.memory import Map, shown, text_in
from nds_tools.program import DONE, LEFT_OUT, finished, program, ready, said, words_of_run, words_of_save
from nds_tools.records import End, Memory, Reader, Record, Stop, records_of
from nds_tools.state_banks import banks_of
from nds_tools.state_show import another_cartridge, field_lines, head_lines, odd_lines, port_lines, state_in, state_of
from nds_tools.states import State
from nds_tools.words import GOOD, Untold, Words, bytes_of, count_from, number

TOOL = "nds-show"
USAGE = """tools/nds-show OUTPUT|GAME.nds|NAME.test [--frame N|--ticks N] [--keys F] [--cart C] [--elf9 F] [--elf7 F] [--all] [--text]
                      [--dtcm A] [--nds PATH] [PLACE..]
       tools/nds-show --state FILE|--cart GAME.nds --tick N [--keys F] [--elf9 F] [--elf7 F] [--all] [--text] [--nds PATH] [PLACE..]"""


# How long a run may take.
SECONDS = 600.0


@dataclass(frozen=True)
class Ending:
    """How an output ends: in memories and counts, or in a stop."""

    memory: Optional[Memory]
    end: Optional[End]
    stop: Optional[Stop]


def ending(records: Iterable[Record]) -> Ending:
    """Reads an output to its end."""
    memory, end, stop = None, None, None
    for it in records:
        memory = it if isinstance(it, Memory) else memory
        end = it if isinstance(it, End) else end
        stop = it if isinstance(it, Stop) else stop
    return Ending(memory, end, stop)


def map_of(elf9: Optional[str], elf7: Optional[str], dtcm: Optional[str]) -> Map:
    """Returns what is known of a program by its ELF files and its DTCM's base."""
    try:
        base = None if dtcm is None else number(dtcm)
    except ValueError:
        raise Untold(f"--dtcm {dtcm}: it wants an address") from None
    return Map((Elf(elf9) if elf9 else None, Elf(elf7) if elf7 else None), base)


def processor(proc: int, record: Memory, known: Map, is_whole: bool) -> List[str]:
    """Returns the lines of one processor."""
    registers = record.registers[proc]
    cpsr = registers["cpsr"]
    mode, bank = names.MODES.get(cpsr & 0x1F, (f"unknown {cpsr & 0x1F:02x}h", ""))
    state = "Thumb" if cpsr & 0x20 else "ARM"
    interrupts = "masked" if cpsr & 0x80 else "let through"
    lines = [f"{names.PROCESSORS[proc]}  {mode} mode, {state} state, interrupts {interrupts}, cpsr {cpsr:08x}"]
    lines.append(f"  r15 {where(proc, registers['r15'], known)}  r14 {where(proc, registers['r14' + bank], known)}")
    lines += [f"  {it}" for it in waiting(proc, record, known)]
    if is_whole:
        shown_names = names.REGISTERS
    else:
        fast = "_fiq" if bank == "_fiq" else ""
        shown_names = [f"r{n}" for n in range(8)] + [f"r{n}{fast}" for n in range(8, 13)] + [f"r13{bank}"]
        shown_names += [f"spsr{bank}"] if bank else []
    width = max(map(len, shown_names))
    cells = [f"{it.rjust(width)} {registers[it]:08x}" for it in shown_names]
    return lines + ["  " + "  ".join(cells[at : at + 8]) for at in range(0, len(cells), 8)]


def places(record: Memory, known: Map, asked: List[str], is_text: bool) -> List[str]:
    """Returns the lines of the places that are asked for, eight words a line."""
    lines = []
    for place in [known.find(it) for it in asked]:
        content = place.bytes_in(record)
        assumed = f"  (DTCM is assumed at 0x{known.dtcm_base:07x}; --dtcm tells)" if place.memory == "dtcm" and known.is_dtcm_assumed else ""
        lines.append(f"{place.name}  {known.show(place.memory, place.offset)}{assumed}")
        if is_text:
            lines.append(f"  {text_in(content)}")
        for at in [] if is_text else range(0, len(content), 32):
            part = content[at : at + 32]
            is_short = at == 0 and (len(content) <= 4 or (place.number and len(content) <= 16))
            value = f"  ({place.told_in(record)})" if is_short else ""
            lines.append(f"  +{at:03x}  {shown(part, place.width)}{value}")
        lines += [] if is_text else [f"  {it}" for it in known.fields_in(place, content)]
    return lines


def run_to(stop: Stop, cart: Optional[str], keys: str, nds: Optional[str]) -> Tuple[List[str], Optional[Ending]]:
    """Runs to the tick of a stop where there is a cartridge, and otherwise tells the command that does so."""
    words = words_of_run(cart or "GAME.nds", keys, max(stop.tick, 1), "none")
    command = " ".join(map(shlex.quote, (program(nds) if nds else "./nds", *words)))
    lines = [f"stopped: {stop} (rank {stop.rank})", f"  see {stop.page}"]
    if stop.tick == 0:
        return lines + ["  at its first step: r15 is the entry"], None
    if cart is None:
        return lines + [f"  this runs to that tick, before the step: {command} >stopped.out"], None
    with scripts.of_file(keys) as script:
        return lines + [f"  as it is at that tick, before the step ({command}):"], Run(ready(nds), cart, script, keys).to(stop.tick)


@dataclass(frozen=True)
class Run:
    """A cartridge with its key script's file, as the program takes it and as it was given, and the program that runs it."""

    nds: str
    cart: str
    script: str
    keys: str

    def to(self, ticks: int) -> Ending:
        """Runs to a tick, and returns how that ends."""
        status, out, note = finished(self.nds, SECONDS, *words_of_run(self.cart, self.script, ticks, "none"))
        if status not in (DONE, LEFT_OUT):
            raise Untold(scripts.explained(said(note, status), self.keys))
        return ending(Reader(io.BytesIO(out), "the run"))

    def shown_to(self, ticks: int) -> Ending:
        """Runs to a tick, and where the run stops before, tells so and runs to the tick of the stop."""
        found = self.to(ticks)
        if not found.stop:
            return found
        print(f"stopped: {found.stop} (rank {found.stop.rank})\n  see {found.stop.page}", flush=True)
        if found.stop.tick == 0:
            raise Untold(f"it stopped at its first step, and r15 is the entry: {found.stop}")
        print("  as it is at that tick, before the step:")
        return self.to(found.stop.tick)


def of_output(given: argparse.Namespace) -> Ending:
    """Returns how an output ends; where that is a stop, how the run to its tick ends."""
    found = ending(records_of(given.output))
    if not found.stop:
        return found
    lines, run = run_to(found.stop, given.cart, given.keys, given.nds)
    print("\n".join(lines), flush=True)
    if run is None:
        raise Untold(f"the run stopped, so there are no memories and registers to show: {found.stop}")
    return run


def of_game(given: argparse.Namespace, test: Optional[Test]) -> Ending:
    """Runs a cartridge, or a test's, and returns how that ends."""
    asked = given.ticks or (names.ticks_of_frames(given.frame) if given.frame else 0)
    ticks = asked or (test.ticks if test else 0)
    if ticks > MOST_TICKS:
        raise Untold(f"it would run to tick {ticks}, and a run goes to {MOST_TICKS}")
    cart, keys = (test.cart, test.keys) if test else (given.output, given.keys)
    with test.script() if test else scripts.of_file(keys) as script:
        return Run(ready(given.nds), cart, script, keys).shown_to(ticks)


def saved_at(given: argparse.Namespace) -> State:
    """Saves the state of a cartridge at a tick, and reads it."""
    with scripts.of_file(given.keys) as script:
        status, out, note = finished(ready(given.nds), SECONDS, *words_of_save(given.cart, script, given.tick))
    if status == LEFT_OUT:
        raise Untold(f"the run stops before tick {given.tick}, so there is no state: {said(note, status)}")
    if status != DONE:
        raise Untold(scripts.explained(said(note, status), given.keys))
    return state_in(out, "what the program saved")


def show_state(given: argparse.Namespace) -> int:
    """Shows a saved state: of a file, or of a cartridge at a tick."""
    state = state_of(given.state) if given.state else saved_at(given)
    known = state.map(map_of(given.elf9, given.elf7, given.dtcm), banks_of(state))
    for it in not_in_memory(known, state.memory):
        print(f"{TOOL}: {it}", file=sys.stderr)
    asked = [known.find(it).name for it in given.places]
    lines = head_lines(state)
    if given.state and given.cart:
        lines += [it for it in [another_cartridge(state, given.cart, bytes_of(given.cart))] if it]
    lines += odd_lines(state)
    for proc in range(2):
        lines += processor(proc, state.memory, known, given.all)
    lines += port_lines(state) + (field_lines(state) if given.all else [])
    print("\n".join(lines + places(state.memory, known, asked, given.text)))
    return GOOD


def read_words() -> argparse.Namespace:
    words = Words(TOOL, USAGE, __doc__ or "")
    words.add_argument("output", nargs="?")
    words.add_argument("places", nargs="*")
    for name in ("--elf9", "--elf7", "--dtcm", "--cart", "--nds", "--state"):
        words.add_argument(name)
    words.add_argument("--keys", default=scripts.NONE)
    for name in ("--frame", "--ticks", "--tick"):
        words.add_argument(name, type=count_from(1, int))
    words.add_argument("--all", action="store_true")
    words.add_argument("--text", action="store_true")
    given = words.read()
    if given.state or given.tick:
        return words_of_state(given)
    if given.output is None:
        words.error("the following arguments are required: output")
    if given.frame and given.ticks:
        raise Untold("--frame and --ticks don't go together")
    if given.cart and (given.frame or given.ticks):
        with_it = "--frame" if given.frame else "--ticks"
        raise Untold(f"--cart {given.cart} is for an output that stopped: with {with_it} the cartridge stands in its place")
    return given


def words_of_state(given: argparse.Namespace) -> argparse.Namespace:
    """Takes the words where a state is to be shown, of which all that are no option's are places."""
    if given.state and given.tick:
        raise Untold("--state and --tick don't go together: one shows a file, the other saves a state first")
    if given.frame or given.ticks:
        raise Untold(f"--{'frame' if given.frame else 'ticks'} shows a run's end; a state is saved by --tick")
    if given.tick and not given.cart:
        raise Untold(f"--tick {given.tick} wants --cart GAME.nds beside it")
    given.places = ([given.output] if given.output else []) + given.places
    return given


def main() -> int:
    given = read_words()
    if given.state or given.tick:
        return show_state(given)
    test = test_of(given.output, elf9=given.elf9, elf7=given.elf7, dtcm=given.dtcm, cart=given.cart, keys=given.keys)
    known = test.map() if test else map_of(given.elf9, given.elf7, given.dtcm)
    asked = [known.find(it).name for it in given.places]
    found = of_game(given, test) if test or given.frame or given.ticks else of_output(given)
    if not found.memory or not found.end:
        raise Untold("the output has no memories")
    cart = test.cart if test else given.cart or (given.output if given.frame or given.ticks else None)
    for it in others(known, cart, found.memory) if cart else not_in_memory(known, found.memory):
        print(f"{TOOL}: {it}", file=sys.stderr)
    print(f"tick {found.end.ticks}, {found.end.ticks / names.SECOND:.3f} s; steps of ARM9 {found.end.steps9}, of ARM7 {found.end.steps7}")
    for proc in range(2):
        print("\n".join(processor(proc, found.memory, known, given.all)))
    for line in places(found.memory, known, asked, given.text):
        print(line)
    return GOOD
