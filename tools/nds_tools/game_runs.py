"""The run of one test: its output is read as it comes, and only what the test keeps is held."""
import hashlib
import io
import threading
from collections import deque
from contextlib import closing
from dataclasses import dataclass, field
from typing import Deque, Dict, List, Optional, Sequence, Tuple

from nds_tools import names
from nds_tools.builds import others
from nds_tools.conditions import Condition
from nds_tools.looks import Game, Look, Looker
from nds_tools.loops import seen_behind
from nds_tools.memory import Map, Place, shown, text_in, width_of
from nds_tools.game_states import explained as explained_state
from nds_tools.program import BAD_STATE, DONE, LEFT_OUT, finished, said, output_of, start
from nds_tools.records import End, Frame, Lists, Memory, Reader, Stop
from nds_tools.game_tests import Asked, Expected, Results, Shot, Test, as_text, sum_of
from nds_tools.scripts import explained
from nds_tools.stuck import stuck
from nds_tools.words import Untold

# How many frames are held whose sums aren't the kept ones, to be written as pictures.
MOST_HELD = 8


@dataclass
class Ran:
    """What a run gave: the results that the test keeps, pixels of frames that may be written, and how it ended otherwise than the test expects."""

    results: Results = field(default_factory=dict)
    frames: Dict[Shot, bytes] = field(default_factory=dict)
    unmet: List[str] = field(default_factory=list)
    stopped: str = ""
    missed: str = ""
    stuck: str = ""
    last: Sequence[Frame] = ()


@dataclass(frozen=True)
class Hold:
    """Which frames of a run are held: of how many that differ, of how many that are kept, and how many of the last ones, whatever they are."""

    differing: int = MOST_HELD
    kept: int = 0
    last: int = 0


@dataclass(frozen=True)
class Playing:
    """A test with the program that runs it, its key script's file, what is kept of it, and which frames are held."""

    test: Test
    program: str
    timeout: float
    keys: str
    kept: Results
    hold: "Hold"

    @property
    def game(self) -> Game:
        state = self.test.start.state if self.test.start else None
        return Game(self.program, self.test.cart, self.keys, self.test.keys, self.timeout, state)

    def words(self, ticks: int, keep: str) -> Tuple[str, ...]:
        return self.test.words(self.keys, ticks, keep)


class Summed(io.RawIOBase):
    """A stream that sums what is read from it."""

    def __init__(self, stream) -> None:
        self.stream, self.sum, self.count = stream, hashlib.sha256(), 0

    def read(self, size: int = -1) -> bytes:
        part = self.stream.read(size)
        self.sum.update(part)
        self.count += len(part)
        return part


@dataclass
class Seen:
    """What of an output a test looks at."""

    memory: Optional[Memory] = None
    end: Optional[End] = None
    lists: Optional[Lists] = None
    stop: Optional[Stop] = None
    frames: Dict[Shot, bytes] = field(default_factory=dict)
    sums: Dict[Shot, str] = field(default_factory=dict)
    sum: str = ""
    differ: int = 0
    last: Deque[Frame] = field(default_factory=deque)

    def take_frame(self, frame: Frame, playing: Playing) -> None:
        """Sums what the test keeps of a frame; holds its pixels where a picture of it is kept, and of the first that differ."""
        if playing.hold.last:
            self.last.append(frame)
            while len(self.last) > playing.hold.last:
                self.last.popleft()
        for shot in [it for it in playing.test.shots if it.number == frame.number] if frame.number in playing.test.frames else []:
            pixels = shot.pixels_of(frame)
            self.sums[shot] = sum_of(pixels)
            differs = playing.kept.get(shot.key, self.sums[shot]) != self.sums[shot]
            self.differ += differs
            is_held = len(self.frames) < playing.hold.kept or (differs and self.differ <= playing.hold.differing)
            if playing.test.shots[shot] or is_held:
                self.frames[shot] = pixels


def seen(playing: Playing) -> Seen:
    """Runs the test's cartridge, and returns what it looks at. A run that takes too long or is refused can't be judged."""
    test = playing.test
    run = start(playing.program, *playing.words(test.ticks, "all" if playing.hold.last else test.keep))
    found, late = Seen(), threading.Event()
    watch = threading.Timer(playing.timeout, lambda: (late.set(), run.kill()))
    watch.start()
    try:
        stream = Summed(output_of(run)) if test.has_output else output_of(run)
        reader = Reader(stream, "the run's output")
        why = read_into(found, playing, reader)
        if why:
            output_of(run).close()
        if isinstance(stream, Summed):
            found.sum = f"{stream.count} bytes sha256 {stream.sum.hexdigest()}"
        note = run.stderr.read() if run.stderr else b""
        run.wait()
    finally:
        watch.cancel()
        run.kill()
        run.wait()
        for pipe in (run.stdout, run.stderr):
            if pipe:
                pipe.close()
    if late.is_set():
        raise Untold(f"the run took more than {playing.timeout:g} seconds")
    if why and reader.at:
        raise why
    if run.returncode == BAD_STATE and test.start:
        raise Untold(explained_state(said(note, run.returncode), test.start.state, test.cart, test.ticks))
    if run.returncode not in (DONE, LEFT_OUT):
        raise Untold(explained(said(note, run.returncode), playing.keys if test.held else test.keys))
    if why:
        raise why
    return found


def read_into(found: Seen, playing: Playing, reader: Reader) -> Optional[Untold]:
    """Reads an output to its end; returns why it is none."""
    try:
        for it in reader:
            if isinstance(it, Frame):
                found.take_frame(it, playing)
            elif isinstance(it, Lists):
                found.lists = it
            elif isinstance(it, Memory):
                found.memory = it
            elif isinstance(it, End):
                found.end = it
            elif isinstance(it, Stop):
                found.stop = it
    except Untold as why:
        return why
    return None


def ran(test: Test, program: str, timeout: float, kept: Optional[Results], hold: Hold = Hold()) -> Ran:
    """Runs a test and returns its results, or how its end isn't the one that is expected. Where it differs from what is kept, it is asked too
    whether a processor is stuck."""
    known = test.map()
    wanted = Wanted(test.find(known), test.expected(known))
    with test.script() as keys:
        playing = Playing(test, program, timeout, keys, kept or {}, hold)
        found = seen(playing)
        other_builds = others(known, test.cart, found.memory)
        if other_builds and not found.stop:
            raise Untold(other_builds[0])
        whole = judged_end(playing, found, Map() if other_builds else known) or results_of(playing, found, wanted)
        whole.last = found.last
        differs = whole.missed or whole.unmet or (kept is not None and any(kept.get(key, it) != it for key, it in whole.results.items()))
        if differs and found.memory and not whole.stopped:
            whole.stuck = stuck(found.memory, known, lambda: steps_after(playing, found.end)) or seen_behind(playing.game, test.ticks, known)
    return whole


def judged_end(playing: Playing, found: Seen, known: Map) -> Optional[Ran]:
    """Returns what is wrong with how the run ended; None where it ended as the test expects."""
    test, stop = playing.test, found.stop
    if stop and test.stop != (names.kind(stop.kind), stop.value):
        wanted = f"; {test.stop[0]} 0x{test.stop[1]:08x} was expected" if test.stop else ""
        return Ran(stopped=f"{stop}{at_stop(playing, stop, known)}{wanted}; see {stop.page}")
    if test.stop and not stop:
        return Ran(missed=f"it came to tick {test.ticks}, and the stop {test.stop[0]} 0x{test.stop[1]:08x} was expected")
    if test.frames and max(test.frames) not in {it.number for it in found.sums}:
        late = min(test.frames - {it.number for it in found.sums})
        return Ran(missed=f"the run stopped before frame {late} was whole")
    return None


@dataclass(frozen=True)
class Wanted:
    """The places that a test keeps, and the conditions that are to hold, of its end and of frames."""

    places: List[Tuple[Asked, Place]]
    conditions: List[Tuple[Expected, Condition]]

    def of(self, frame: int) -> "Wanted":
        """Returns those of a frame, or of the end for 0."""
        return Wanted([it for it in self.places if it[0].frame == frame], [it for it in self.conditions if it[0].frame == frame])

    def judge(self, record: Memory, whole: Ran) -> None:
        """Takes what the memories hold into a run's results, and the conditions that don't hold there."""
        for asked, place in self.places:
            whole.results[asked.key] = kept_value(asked, place, record)
        for asked_for, it in self.conditions:
            if not it.holds(record):
                whole.unmet.append(f"{asked_for.when}{it.text} was expected, and {it.shown(record)}")


def kept_value(asked: Asked, place: Place, record: Memory) -> str:
    """Returns what is kept of a place: a text, or its numbers as the line asks; in a form that the place tells, as :s16, they are decimal."""
    content = place.bytes_in(record)
    if asked.kind == "text":
        return as_text(text_in(content))
    if place.is_told and asked.kind == "peek":
        return place.told_in(record)
    return shown(content) if asked.kind == "peek" else decimals(content, place.width if place.is_told else 0)


def results_of(playing: Playing, found: Seen, wanted: Wanted) -> Ran:
    """Returns the results that the test keeps."""
    test, whole = playing.test, Ran(frames=found.frames)
    whole.results["end"] = f"stop {test.stop[0]} 0x{test.stop[1]:08x}" if test.stop else "done"
    for shot in sorted(found.sums, key=lambda it: (it.number, it.screen)):
        whole.results[shot.key] = found.sums[shot]
    missed = look_at_moments(playing, wanted, whole)
    if missed:
        return Ran(missed=missed)
    if found.memory:
        wanted.of(0).judge(found.memory, whole)
    if test.has_vertices:
        whole.results.update(listed(found.lists))
    if found.sum:
        whole.results["output"] = found.sum
    return whole


def look_at_moments(playing: Playing, wanted: Wanted, whole: Ran) -> str:
    """Looks at the frames of which something is kept or expected; returns why one of them isn't there."""
    test = playing.test
    ticks = {names.ticks_of_frames(it): it for it in test.moments}
    if not ticks:
        return ""

    def take(look: Look) -> str:
        if look.memory:
            wanted.of(ticks[look.tick]).judge(look.memory, whole)
        return "" if look.memory else f"the run stopped before frame {ticks[look.tick]} was whole"

    with closing(Looker(playing.game, 1).each(list(ticks), take)) as looks:
        return next((missed for _, missed in looks if missed), "")


def decimals(content: bytes, width: int = 0) -> str:
    """Writes bytes as signed numbers: of words, or of halves or bytes where they aren't whole words, where nothing tells."""
    width = width or width_of(len(content))
    return " ".join(str(int.from_bytes(content[at : at + width], "little", signed=True)) for at in range(0, len(content), width))


def run_to(playing: Playing, ticks: int) -> Tuple[Optional[Memory], Optional[End]]:
    """Runs to a tick, and returns its memories and counts, where there are some."""
    try:
        out = finished(playing.program, playing.timeout, *playing.words(ticks, "none"))[1]
        records = list(Reader(io.BytesIO(out), "the run"))
    except Untold:
        return None, None
    memory = next((it for it in records if isinstance(it, Memory)), None)
    return memory, next((it for it in records if isinstance(it, End)), None)


def steps_after(playing: Playing, end: Optional[End]) -> Optional[Tuple[int, int]]:
    """Returns how many steps each processor takes in the frame after the test's end, or None where that can't be told."""
    ticks = playing.test.ticks + names.FRAME_TICKS
    later = run_to(playing, ticks)[1]
    return (later.steps9 - end.steps9, later.steps7 - end.steps7) if later and end and later.ticks == ticks else None


def listed(lists: Optional[Lists]) -> Results:
    """Returns the results of `keep vertices`, a line for each vertex and polygon."""
    if lists is None:
        return {"swap": "none"}
    found = {"swap": f"frame {lists.number} parameter {lists.parameter:08x} vertices {len(lists.vertices)} polygons {len(lists.polygons)}"}
    for at, it in enumerate(lists.vertices):
        found[f"vertex {at}"] = f"x {it.x} y {it.y} z {it.z} w {it.w} colour {it.colour:04x} s {it.s} t {it.t}"
    for at, one in enumerate(lists.polygons):
        corners = " ".join(map(str, one[5 : 5 + one.corners]))
        numbers = f"attributes {one.attributes:08x} texture {one.texture:08x} palette {one.palette:08x} viewport {one.viewport:08x}"
        found[f"polygon {at}"] = f"{numbers} corners {corners}"
    return found


def at_stop(playing: Playing, stop: Stop, known: Map) -> str:
    """Returns where the processor stands that stopped the run, by a run to that tick."""
    if stop.rank not in (22, 23) or stop.tick == 0:
        return ""
    record = run_to(playing, stop.tick)[0]
    if record is None:
        return ""
    at = record.registers[stop.rank - 22]["r15"]
    elf = known.elves[stop.rank - 22]
    near = elf.near(at) if elf else ""
    return f", r15 {at:08x}{' ' + near if near else ''}"
