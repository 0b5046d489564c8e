"""What a game's memories hold at several ticks of one run: from boot, or from saved states, so that few runs go the whole way.

Ticks are looked at in groups. The state is saved at each group's first tick, which holds the memories too, and the other ticks of the group are
runs that go on from there. With as many groups as a group has ticks, N looks cost about N times a group's length
in place of N times half the run."""
import io
import math
import os
import tempfile
from collections import deque
from concurrent.futures import Future, ThreadPoolExecutor
from dataclasses import dataclass
from typing import Callable, Deque, Iterator, List, Optional, Sequence, Tuple, TypeVar

from nds_tools import scripts
from nds_tools.game_states import explained
from nds_tools.program import BAD_STATE, DONE, LEFT_OUT, finished, said, words_of_resume, words_of_run, words_of_save
from nds_tools.records import End, Memory, Reader, Stop
from nds_tools.state_fields import memory_in
from nds_tools.words import Untold

T = TypeVar("T")
# As many ticks are one group.
MOST_OF_ONE = 8


@dataclass(frozen=True)
class Look:
    """What is there at a tick: memories and registers with the counts so far; or the stop that ends the run before it."""

    tick: int
    memory: Optional[Memory] = None
    end: Optional[End] = None
    stop: Optional[Stop] = None


@dataclass(frozen=True)
class Game:
    """A cartridge with its key script's file as the program takes it, the keys as they were given, the program, how many seconds a run may take,
    and the saved state from which it goes on, where it does."""

    program: str
    cart: str
    script: str
    keys: str
    timeout: float
    state: Optional[str] = None

    def look(self, tick: int) -> Look:
        """Runs to a tick."""
        asked = (self.cart, self.script, tick, "none")
        words = words_of_resume(self.state, *asked) if self.state else words_of_run(*asked)
        status, out, note = finished(self.program, self.timeout, *words)
        if status == BAD_STATE and self.state:
            raise Untold(explained(said(note, status), self.state, self.cart, tick))
        if status not in (DONE, LEFT_OUT):
            raise Untold(scripts.explained(said(note, status), self.keys))
        memory, end, stop = None, None, None
        for it in Reader(io.BytesIO(out), "the run"):
            memory = it if isinstance(it, Memory) else memory
            end = it if isinstance(it, End) else end
            stop = it if isinstance(it, Stop) else stop
        return Look(tick, memory, end, stop)

    def saved(self, tick: int, path: str) -> Optional[Look]:
        """Saves the state at a tick into a file, and returns what is there then; None where the run stops before."""
        status, out, note = finished(self.program, self.timeout, *words_of_save(self.cart, self.script, tick))
        if status == LEFT_OUT:
            return None
        if status != DONE:
            raise Untold(scripts.explained(said(note, status), self.keys))
        with open(path, "wb") as it:
            it.write(out)
        memory, end = memory_in(out)
        return Look(tick, memory, end)

    def on_from(self, state: str) -> "Game":
        """Returns the game as it goes on from a state."""
        return Game(self.program, self.cart, self.script, self.keys, self.timeout, state)


@dataclass(frozen=True)
class Group:
    """Ticks that are looked at from one saved state, or from boot where there is none; the first of them is the state's own."""

    ticks: List[int]
    is_saved: bool


def grouped(ticks: Sequence[int], can_save: bool) -> List[Group]:
    """Returns rising ticks as groups: about as many as each has ticks, and a few as one group."""
    size = math.isqrt(len(ticks) - 1) + 1 if len(ticks) > MOST_OF_ONE else MOST_OF_ONE
    groups = [list(ticks[it : it + size]) for it in range(0, len(ticks), size)]
    return [Group(it, can_save and len(it) > 1) for it in groups]


class Looker:
    """Looks at a game's ticks side by side; what `take` makes of a look is given in order, and the memories are let go of."""

    def __init__(self, game: Game, jobs: int) -> None:
        self.game, self.jobs = game, jobs

    def each(self, ticks: Sequence[int], take: Callable[[Look], T]) -> Iterator[Tuple[int, T]]:
        """Gives each tick with what was taken of it, up to the first one before which the run stops; whoever wants no more closes it."""
        with tempfile.TemporaryDirectory(prefix="nds-looks-") as folder:
            pool = ThreadPoolExecutor(self.jobs)
            try:
                yield from self.looked(pool, folder, grouped(ticks, self.game.state is None), take)
            finally:
                pool.shutdown(cancel_futures=True)

    def looked(self, pool: ThreadPoolExecutor, folder: str, groups: List[Group], take: Callable[[Look], T]) -> Iterator[Tuple[int, T]]:
        ahead: Deque[Tuple[Group, str, "Optional[Future[Optional[Look]]]"]] = deque()
        left = list(groups)
        while left or ahead:
            while left and len(ahead) < 2:
                group, path = left.pop(0), os.path.join(folder, f"{len(left)}.state")
                ahead.append((group, path, pool.submit(self.game.saved, group.ticks[0], path) if group.is_saved else None))
            group, path, state = ahead.popleft()
            mine = [pool.submit(self.one, it, group, path, state, take) for it in group.ticks]
            for tick, it in zip(group.ticks, mine):
                value, is_stopped = it.result()
                yield tick, value
                if is_stopped:
                    return
            if group.is_saved and os.path.exists(path):
                os.remove(path)

    def one(self, tick: int, group: Group, path: str, state: "Optional[Future[Optional[Look]]]", take: Callable[[Look], T]) -> Tuple[T, bool]:
        """Looks at one tick; returns what was taken of it, and whether the run stops before."""
        first = state.result() if state else None
        if first and tick == first.tick:
            return take(first), False
        look = (self.game.on_from(path) if first else self.game).look(tick)
        return take(look), look.stop is not None
