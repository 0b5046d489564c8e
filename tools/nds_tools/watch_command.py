"""nds-watch: shows what variables hold, frame by frame.

    tools/nds-watch GAME.nds PLACE.. [--frames N|A-B] [--every K] [--keys F] [--elf9 F] [--elf7 F] [--changes] [--csv] [--signed]
                    [--dtcm A] [--jobs N] [--timeout S] [--nds PATH]
    tools/nds-watch NAME.test [PLACE..] [--frames N|A-B] [..]

  GAME.nds     the cartridge; or a test of nds-test, of which cartridge, keys, ELF files, places where none is given, and the last frame are taken
  PLACE        as nds-show has it: score, player.x, lamps[2].number, 7:counter, 0x2001000:s16, @oam:4, message
  --frames N   the frames 1 to N, 60 where nothing is said; A-B those from A to B
  --every K    of these each Kth
  --changes    the frames alone in which a value is another than in the one before
  --csv        one line a frame with commas between, as tables read it; the first has the places
  --signed     words, halves and bytes with their sign, also where neither the place (:s16) nor the ELF file tells it
  --keys F     a key script, keys by frame, or a recording (.dsm)
  --jobs N     how many runs at a time; left out, as many as there are processors
  --timeout S  how many seconds a run may take, 600 where it is left out

A frame's line is what is there when it becomes whole, as `frames N` of a test and `nds-show --frame N` have it. Numbers are decimal, with their
sign where the ELF file has types (built with -g); an enum's values by name, and arrays of char as text. Few runs go from boot: states are saved
on the way, and runs go on from them, so 600 frames take about as long as 24 runs of them.

Ends with 0, and with 2 where that can't be told. Where the run stops, the lines end with the stop, and the status is 1."""
import argparse
import csv
import io
import os
from contextlib import ExitStack, closing
from dataclasses import replace
from typing import List, Optional, Tuple

from nds_tools import names, scripts
from nds_tools.builds import refuse_others
from nds_tools.dwarf_types import Number
from nds_tools.game_tests import MOST_TICKS, Test, test_of, whole
from nds_tools.looks import Game, Look, Looker
from nds_tools.memory import Map, Place
from nds_tools.program import ready
from nds_tools.progress import Progress
from nds_tools.show_command import map_of
from nds_tools.spans import span
from nds_tools.words import FAILED, GOOD, Untold, Words, count_from

TOOL = "nds-watch"
USAGE = """tools/nds-watch GAME.nds|NAME.test [PLACE..] [--frames N|A-B] [--every K] [--keys F] [--elf9 F] [--elf7 F] [--changes] [--csv]
                      [--signed] [--dtcm A] [--jobs N] [--timeout S] [--nds PATH]"""
FRAMES = 60
# The least room of a column.
NARROW = 5


def row_of(look: Look, places: List[Place]) -> List[str]:
    """Returns what the places hold."""
    return [it.told_in(look.memory) for it in places] if look.memory else []


def with_sign(place: Place) -> Place:
    """Returns a place whose numbers have a sign."""
    number = place.number or Number(place.width)
    return place if number.is_character else replace(place, number=replace(number, is_signed=True))


class Table:
    """Lines of values, in columns or with commas."""

    def __init__(self, places: List[Place], is_csv: bool) -> None:
        self.is_csv = is_csv
        self.heads = ["frame", *(it.name for it in places)]
        self.widths = [max(NARROW, len(it)) for it in self.heads]

    def line(self, cells: List[str]) -> str:
        if self.is_csv:
            text = io.StringIO()
            csv.writer(text, lineterminator="").writerow(cells)
            return text.getvalue()
        self.widths = [max(width, len(it)) for width, it in zip(self.widths, cells)]
        return "  ".join(it.rjust(width) for width, it in zip(self.widths, cells)).rstrip()


def read_words() -> argparse.Namespace:
    words = Words(TOOL, USAGE, __doc__ or "")
    words.add_argument("game")
    words.add_argument("places", nargs="*")
    for name in ("--keys", "--elf9", "--elf7", "--dtcm", "--nds", "--frames"):
        words.add_argument(name)
    words.add_argument("--every", type=count_from(1, int), default=1)
    for name in ("--changes", "--csv", "--signed"):
        words.add_argument(name, action="store_true")
    count = len(os.sched_getaffinity(0)) if hasattr(os, "sched_getaffinity") else os.cpu_count() or 1
    words.add_argument("--jobs", type=count_from(1, int), default=count)
    words.add_argument("--timeout", type=count_from(0.01, float), default=600.0)
    return words.read()


def frames_of(text: Optional[str], otherwise: int, every: int) -> List[int]:
    """Returns the frames that are asked for."""
    try:
        found = range(1, otherwise + 1) if text is None else span(text) if "-" in text else range(1, whole(text) + 1)
    except ValueError as why:
        raise Untold(f"--frames {text}: {why}") from None
    if names.ticks_of_frames(found[-1]) > MOST_TICKS:
        raise Untold(f"--frames {text}: a run goes to frame {scripts.LAST_FRAME}")
    return list(found[::every])


def asked(test: Optional[Test], given: argparse.Namespace, known: Map) -> List[Place]:
    """Returns the places that are asked for, or those that the test keeps."""
    if test and not given.places:
        found = list({it.name: it for _, it in test.find(known)}.values())
        if not found:
            raise Untold(f"{test.path} keeps no place, so name one")
    else:
        found = [known.find(it) for it in given.places]
    if not found:
        raise Untold("name a place: what is to be watched?")
    return [with_sign(it) for it in found] if given.signed else found


def watch(looker: Looker, frames: List[int], places: List[Place], given: argparse.Namespace) -> int:
    """Prints the lines."""
    table, before = Table(places, given.csv), None
    ticks = {names.ticks_of_frames(it): it for it in frames}

    def take(look: Look) -> Tuple[Look, List[str]]:
        return Look(look.tick, None, None, look.stop), row_of(look, places)

    with Progress(TOOL, len(frames), "frames") as progress, closing(looker.each(list(ticks), take)) as found:
        progress.line(table.line(table.heads))
        for tick, (look, row) in found:
            if look.stop:
                progress.line(f"the run stops: {look.stop}")
                return FAILED
            if not (given.changes and row == before):
                progress.line(table.line([str(ticks[tick]), *row]))
            before = row
            progress.step(f"frame {ticks[tick]}")
    return GOOD


def main() -> int:
    given = read_words()
    with ExitStack() as stack:
        test = test_of(given.game, keys=given.keys, elf9=given.elf9, elf7=given.elf7, dtcm=given.dtcm)
        known = test.map() if test else map_of(given.elf9, given.elf7, given.dtcm)
        cart = test.cart if test else given.game
        places = asked(test, given, known)
        frames = frames_of(given.frames, max(test.last_frame, 1) if test else FRAMES, given.every)
        script = stack.enter_context(test.script() if test else scripts.of_file(given.keys or scripts.NONE))
        game = Game(ready(given.nds), cart, script, script, given.timeout)
        refuse_others(known, cart, lambda: game.look(names.ticks_of_frames(frames[-1])).memory)
        return watch(Looker(game, given.jobs), frames, places, given)
