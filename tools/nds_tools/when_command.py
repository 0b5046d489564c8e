"""nds-when: tells the first tick and frame at which a condition on memory holds, by a look at each frame.

    tools/nds-when GAME.nds CONDITION [--keys F] [--elf9 F] [--elf7 F] [--frames N | --ticks N] [--dtcm A] [--jobs N] [--timeout S] [--nds PATH]
    tools/nds-when NAME.test CONDITION [--frames N | --ticks N] [..]

  GAME.nds     the cartridge; or a test of nds-test, of which cartridge, keys, ELF files and the last tick are taken
  CONDITION    'PLACE OP VALUE', or several with `and` between them: 'score >= 5', 'lives == 0 and level > 2', 'message == "game over"'.
               A place is one of nds-show's, of one number; OP is == != < <= > or >=; VALUE a number, another place, the name of an enum's
               value, or with == and != a text. Numbers have a sign where the place tells (x:s16), where the ELF file does (-g), and where
               the condition has a number below 0, or asks for < 0 or >= 0
  --frames N   looks up to frame N, 600 where nothing is said; --ticks N up to that tick
  --keys F     a key script, keys by frame, or a recording (.dsm)
  --jobs N     how many runs at a time; left out, as many as there are processors
  --timeout S  how many seconds a run may take, 600 where it is left out

It looks at tick 1 and each time a frame becomes whole, in order, as nds-watch does, and where the condition holds first, searches the tick in
that frame. It tells the tick before which the condition doesn't hold and from which on it does, the frame in which that is, what the places
held and hold, and where both processors stood. What holds for less than a frame, and at no frame's end, isn't seen.

Ends with 0; with 1 where the condition holds at no frame's end up to there; and with 2 where that can't be judged."""
import argparse
import os
import tempfile
from concurrent.futures import ThreadPoolExecutor
from contextlib import ExitStack, closing
from dataclasses import dataclass, field
from typing import Dict, List, Optional, Tuple

from nds_tools import names, scripts
from nds_tools.builds import refuse_others
from nds_tools.conditions import Condition, condition
from nds_tools.game_tests import MOST_TICKS, test_of
from nds_tools.hangs import where
from nds_tools.looks import Game, Look, Looker
from nds_tools.memory import Map
from nds_tools.program import ready
from nds_tools.progress import Progress
from nds_tools.records import End, Stop
from nds_tools.show_command import map_of
from nds_tools.words import FAILED, GOOD, Untold, Words, count_from

TOOL = "nds-when"
USAGE = """tools/nds-when GAME.nds|NAME.test CONDITION [--keys F] [--elf9 F] [--elf7 F] [--frames N | --ticks N] [--dtcm A]
                      [--jobs N] [--timeout S] [--nds PATH]"""
FRAMES = 600


@dataclass(frozen=True)
class Seen:
    """What is looked at of a run to a tick: whether the condition holds, what its places hold, where the processors stand, and how the run ended."""

    holds: bool
    shown: str
    spots: List[str]
    end: Optional[End]
    stop: Optional[Stop]


@dataclass
class Search:
    """Looks at one game, and what the condition is at each. The same tick is never looked at twice."""

    game: Game
    condition: Condition
    known: Map
    jobs: int
    seen: Dict[int, Seen] = field(default_factory=dict)

    def take(self, look: Look) -> Seen:
        """Judges a look; its memories are let go of then."""
        if not look.memory:
            return Seen(False, "nothing is known", [], None, look.stop)
        spots = [where(proc, look.memory.registers[proc]["r15"], self.known) for proc in range(2)]
        return Seen(self.condition.holds(look.memory), self.condition.shown(look.memory), spots, look.end, None)

    def at(self, ticks: int, game: Optional[Game] = None) -> Seen:
        if ticks not in self.seen:
            self.seen[ticks] = self.take((game or self.game).look(ticks))
        return self.seen[ticks]

    def first_of(self, ticks: List[int], game: Game) -> Optional[int]:
        """Returns which of the ticks is the first at which the condition holds, by runs side by side."""
        with ThreadPoolExecutor(self.jobs) as pool:
            held = list(pool.map(lambda it: self.at(it, game).holds, ticks))
        return next((at for at, it in enumerate(held) if it), None)

    def between(self, low: int, high: int) -> int:
        """Returns a tick at which the condition begins to hold, where it doesn't at `low` and does at `high`; runs go on from `low`."""
        with tempfile.TemporaryDirectory(prefix="nds-when-") as folder:
            path = os.path.join(folder, "low.state")
            game = self.game.on_from(path) if self.game.state is None and self.game.saved(low, path) else self.game
            while high - low > 1:
                count = min(self.jobs, high - low - 1)
                points = [low + (high - low) * it // (count + 1) for it in range(1, count + 1)]
                found = self.first_of(points, game)
                low, high = (points[-1], high) if found is None else ((points[found - 1] if found else low), points[found])
        return high


def looked_at(last: int) -> List[int]:
    """Returns the ticks that are looked at behind the first, up to the last one: each at which a frame is whole, and the last."""
    return sorted({last, *(names.ticks_of_frames(it) for it in range(1, names.frames_below(last) + 1))})


def found_tick(search: Search, last: int, progress: Progress) -> Tuple[Optional[int], int]:
    """Returns the tick at which the condition begins to hold, if it does, and the last tick that was looked at."""
    if search.at(1).holds:
        return 1, last
    before = 1
    with closing(Looker(search.game, search.jobs).each(looked_at(last), search.take)) as looks:
        for tick, seen in looks:
            search.seen[tick] = seen
            if seen.stop:
                last = max(seen.stop.tick, 1)
                tick, seen = last, search.at(last)
            if seen.holds:
                break
            before = tick
            progress.step(f"frame {names.frames_below(tick)}")
        else:
            return None, last
    if seen.holds:
        progress.now(f"it holds at the end of frame {names.frames_below(tick)}, and its tick is searched")
    return (search.between(before, tick) if seen.holds else None), last


def frame_of(tick: int) -> int:
    """Returns the number, from 1, of the frame that a tick belongs to."""
    return tick // names.FRAME_TICKS + 1


def frames_that_show(tick: int) -> int:
    """Returns the least number of whole frames after which a run is at a tick or later."""
    return max(-(-(tick - names.ticks_of_frames(1)) // names.FRAME_TICKS) + 1, 1)


def who(before: Seen, now: Seen) -> str:
    """Returns who took steps from the one tick to the next."""
    if not before.end or not now.end:
        return ""
    counts = {"ARM9": "steps9", "ARM7": "steps7", "another actor, as DMA": "events"}
    told = [name for name, it in counts.items() if getattr(now.end, it) > getattr(before.end, it)]
    return f"; at tick {before.end.ticks} a step was taken by {' and '.join(told)}" if told else ""


def lines(search: Search, tick: int) -> List[str]:
    """Returns what is told of the tick that was found."""
    now, seconds = search.at(tick), tick / names.SECOND
    begin = f"{search.condition.text} holds from tick {tick} on, in frame {frame_of(tick)}, {seconds:.3f} s; a test sees it by"
    told = [f"{begin} `frames {frames_that_show(tick)}`"]
    if tick == 1:
        return told + [f"  it holds as soon as the first steps are taken: {now.shown}"]
    before = search.at(tick - 1)
    told.append(f"  before: {before.shown}; then: {now.shown}{who(before, now)}")
    return told + [f"  {name} stood at {spot}" for name, spot in zip(names.PROCESSORS, before.spots)]


def not_found(search: Search, last: int) -> str:
    """Returns what is told where the condition doesn't hold."""
    stop = next((it.stop for it in search.seen.values() if it.stop), None)
    frames = names.frames_below(last)
    looked = f"at the end of none of {frames} frames" if frames else "at none of the ticks"
    text = f"{search.condition.text} holds {looked} up to tick {last}, in frame {frame_of(last)}; between these it wasn't looked at"
    return f"{text}\n  there: {search.at(last).shown}{f'; the run stops: {stop}' if stop else ''}"


def read_words() -> argparse.Namespace:
    words = Words(TOOL, USAGE, __doc__ or "")
    words.add_argument("game")
    words.add_argument("condition")
    for name in ("--keys", "--elf9", "--elf7", "--dtcm", "--nds"):
        words.add_argument(name)
    words.add_argument("--frames", type=count_from(1, int))
    words.add_argument("--ticks", type=count_from(1, int))
    count = len(os.sched_getaffinity(0)) if hasattr(os, "sched_getaffinity") else os.cpu_count() or 1
    words.add_argument("--jobs", type=count_from(1, int), default=count)
    words.add_argument("--timeout", type=count_from(0.01, float), default=600.0)
    given = words.read()
    if given.frames and given.ticks:
        raise Untold("--frames and --ticks don't go together")
    return given


def last_tick(given: argparse.Namespace, otherwise: int) -> int:
    """Returns up to which tick is looked."""
    ticks = given.ticks or (names.ticks_of_frames(given.frames) if given.frames else otherwise)
    if ticks > MOST_TICKS:
        raise Untold(f"it would look up to tick {ticks}, and a run goes to {MOST_TICKS}")
    return ticks


def main() -> int:
    given = read_words()
    with ExitStack() as stack:
        test = test_of(given.game, keys=given.keys, elf9=given.elf9, elf7=given.elf7, dtcm=given.dtcm)
        if test:
            known, cart, last = test.map(), test.cart, last_tick(given, test.ticks)
            keys = stack.enter_context(test.script())
        else:
            known, cart, last = map_of(given.elf9, given.elf7, given.dtcm), given.game, last_tick(given, names.ticks_of_frames(FRAMES))
            keys = stack.enter_context(scripts.of_file(given.keys or scripts.NONE))
        wanted = condition(given.condition, known)
        game = Game(ready(given.nds), cart, keys, keys, given.timeout)
        refuse_others(known, cart, lambda: game.look(last).memory)
        search = Search(game, wanted, known, given.jobs)
        with Progress(TOOL, len(looked_at(last)), "looks") as progress:
            tick, last = found_tick(search, last, progress)
        print(not_found(search, last) if tick is None else "\n".join(lines(search, tick)))
    return FAILED if tick is None else GOOD
