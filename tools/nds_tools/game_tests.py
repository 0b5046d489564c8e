"""Tests of a game as small texts, and the results that are kept of them (docs/TESTING_A_GAME.md has the lines)."""
import difflib
import hashlib
import json
import os
import re
import shlex
from contextlib import AbstractContextManager
from dataclasses import dataclass, field
from typing import Callable, Dict, Iterable, List, Optional, Set, Tuple, TypeVar

from nds_tools import names, scripts
from nds_tools.conditions import Condition, condition
from nds_tools.elf import Elf
from nds_tools.game_states import Start, merged, start_of, text_of
from nds_tools.memory import Map, Place
from nds_tools.program import words_of_resume, words_of_run
from nds_tools.records import SCREEN, Frame
from nds_tools.scripts import Held
from nds_tools.spans import span
from nds_tools.words import Untold, number

ENDING, KEPT = ".test", ".expected"
MOST_TICKS = 100_000_000_000
HEAD = "# What nds-test compares; nds-test --update writes it.\n"
SCREENS = {"both": slice(None), "upper": slice(SCREEN), "lower": slice(SCREEN, None)}
ONCE = {"cart": 1, "elf9": 1, "elf7": 1, "keys": 1, "dtcm": 1, "frames": 1, "ticks": 1, "from": None, "expect": None}
OFTEN = ("keep", "at", *scripts.BY_FRAME)
KINDS_OF_PLACES = ("peek", "decimal", "text")
KINDS_KEPT = ("frame", "picture", *KINDS_OF_PLACES, "vertices", "output")
BEFORE_COMMENT = re.compile(r"""(?:[^#"'\\]|\\.|"(?:[^"\\]|\\.)*"|'[^']*')*""")
T = TypeVar("T")


@dataclass(frozen=True)
class Shot:
    """Pixels that a test keeps: of a frame, numbered from 1, both screens or one of them."""

    number: int
    screen: str = "both"

    @property
    def key(self) -> str:
        """Returns the name of the result."""
        return f"frame {self.number}" + ("" if self.screen == "both" else f" {self.screen}")

    @property
    def file(self) -> str:
        """Returns what tells a picture's file from others of its test."""
        return f"frame-{self.number:04d}" + ("" if self.screen == "both" else f"-{self.screen}")

    def pixels_of(self, frame: Frame) -> bytes:
        return frame.pixels[SCREENS[self.screen]]


@dataclass(frozen=True)
class Asked:
    """A place that a test keeps, as a line of it asks for it: at the end, or when a frame becomes whole."""

    kind: str
    text: str
    line: int
    frame: int = 0

    @property
    def key(self) -> str:
        """Returns the name of the result."""
        return f"{f'at frame {self.frame} ' if self.frame else ''}{self.kind} {self.text}"


@dataclass(frozen=True)
class Expected:
    """A condition that a test wants to hold, at the end, or when a frame becomes whole."""

    text: str
    line: int
    frame: int = 0

    @property
    def when(self) -> str:
        return f"at frame {self.frame}, " if self.frame else ""


@dataclass
class Test:
    """One test: what is run, to which tick, what is kept, and how the run is to end."""

    path: str
    name: str
    cart: str = ""
    elf9: Optional[str] = None
    elf7: Optional[str] = None
    keys: str = scripts.NONE
    held: List[Held] = field(default_factory=list)
    dtcm: Optional[int] = None
    ticks: int = 0
    shots: Dict[Shot, bool] = field(default_factory=dict)
    places: List[Asked] = field(default_factory=list)
    conditions: List[Expected] = field(default_factory=list)
    has_vertices: bool = False
    has_output: bool = False
    stop: Optional[Tuple[str, int]] = None
    start: Optional[Start] = None

    @property
    def stem(self) -> str:
        """Returns the path without the ending, which other files of the test begin with."""
        return self.path[: -len(ENDING)] if self.path.endswith(ENDING) else self.path

    @property
    def kept_in(self) -> str:
        return self.stem + KEPT

    def picture_of(self, shot: Shot) -> str:
        """Returns the path of a picture that is kept."""
        return f"{self.stem}.{shot.file}.png"

    @property
    def pictures(self) -> List[Shot]:
        """Returns of which frames a picture is kept beside the sum."""
        return [shot for shot, is_picture in self.shots.items() if is_picture]

    @property
    def frames(self) -> Set[int]:
        return {it.number for it in self.shots}

    @property
    def last_frame(self) -> int:
        """Returns the number of the last frame that is whole below the tick; 0 where none is."""
        return names.frames_below(self.ticks)

    @property
    def keep(self) -> str:
        """Returns which frames the run has to write."""
        if any(it != self.last_frame for it in self.frames):
            return "all"
        return "last" if self.frames or self.has_vertices else "none"

    def map(self) -> Map:
        return Map((Elf(self.elf9) if self.elf9 else None, Elf(self.elf7) if self.elf7 else None), self.dtcm)

    @property
    def moments(self) -> List[int]:
        """Returns the frames at whose end something is looked at."""
        return sorted({it.frame for it in [*self.places, *self.conditions] if it.frame})

    @property
    def is_of_conditions_alone(self) -> bool:
        """Whether it keeps nothing, and so needs no results that were kept."""
        return bool(self.conditions) and not (self.shots or self.places or self.has_vertices or self.has_output or self.stop)

    def find(self, known: Map) -> List[Tuple[Asked, Place]]:
        """Returns the places that are asked for; one that isn't known is named by its line."""
        return [(it, self.told(it.line, lambda: known.find(it.text, it.kind == "text"))) for it in self.places]

    def expected(self, known: Map) -> List[Tuple[Expected, Condition]]:
        """Returns the conditions that are to hold; one that can't be read is named by its line."""
        return [(it, self.told(it.line, lambda: condition(it.text, known))) for it in self.conditions]

    def told(self, line: int, what: Callable[[], T]) -> T:
        """Returns what can't be told without a line's words, and names the line where it can't."""
        try:
            return what()
        except Untold as why:
            raise Untold(f"{self.path}: line {line}: {why}") from None

    def script(self) -> "AbstractContextManager[str]":
        """Gives the name of the key script's file as the program takes it, as long as it is used. Where other keys lead to the state from which the
        test begins, the script has these first, so that a run from boot comes to the same."""
        own = scripts.script_of(self.held) if self.held else None
        if self.start and self.start.keys:
            return scripts.as_file(merged(text_of(self.start.keys), text_of(self.keys) if own is None else own, self.start.tick))
        return scripts.of_file(self.keys) if own is None else scripts.as_file(own)

    def words(self, script: str, ticks: int, keep: str) -> Tuple[str, ...]:
        """Returns the program's words of a run of the test to a tick."""
        if self.start:
            return words_of_resume(self.start.state, self.cart, script, ticks, keep)
        return words_of_run(self.cart, script, ticks, keep)

    def check_start(self, tick: int) -> None:
        """Refuses a test that asks for what lies before the tick at which it begins."""
        if self.ticks <= tick:
            raise Untold(f"{self.path}: it begins at tick {tick}, from its state, and runs to tick {self.ticks}")
        asked, begun = self.frames | set(self.moments), names.frames_below(tick)
        early = min(asked, default=0)
        if asked and early <= begun:
            raise Untold(f"{self.path}: frame {early} is whole before tick {tick}, at which its state was saved; it has frames from {begun + 1} on")


class Lines:
    """Reads a test's lines one by one into the test; a wrong one is named by file and line."""

    def __init__(self, test: Test) -> None:
        self.test, self.folder, self.at = test, os.path.dirname(test.path), 0
        self.seen: Set[str] = set()
        self.bare = ""

    def file(self, name: str) -> str:
        return os.path.join(self.folder, name)

    def read(self, text: str) -> Test:
        for self.at, line in enumerate(text.split("\n"), 1):
            try:
                words = shlex.split(line, comments=True)
                if words:
                    self.bare = without_comment(line)
                    self.line(words)
            except ValueError as why:
                raise Untold(f"{self.test.path}: line {self.at}: {why}") from None
        self.check()
        return self.test

    def line(self, words: List[str]) -> None:
        """Takes one line; some first words come once alone."""
        first, rest = words[0], words[1:]
        if first not in ONCE and first not in OFTEN:
            raise ValueError(f"no line begins with {first}{near(first, [*ONCE, *OFTEN])}; there are {', '.join([*ONCE, *OFTEN])}")
        wanted = ONCE.get(first)
        if wanted is not None and len(rest) != wanted:
            raise ValueError(f"{first} takes one word" + (f", and {rest[1]} is one more" if rest else ""))
        if first in ONCE and first in self.seen and first != "expect":
            raise ValueError(f"{first} stands twice")
        self.seen.add(first)
        if first in scripts.BY_FRAME:
            self.test.held += scripts.held_of(rest)
        elif first in ("cart", "elf9", "elf7", "keys"):
            self.take_file(first, rest[0])
        else:
            getattr(self, f"take_{first}")(*rest)

    def take_file(self, first: str, name: str) -> None:
        setattr(self.test, first, name if (first, name) == ("keys", "none") else self.file(name))

    def take_from(self, *words: str) -> None:
        self.test.start = start_of(list(words), self.folder)

    def take_dtcm(self, text: str) -> None:
        self.test.dtcm = number(text)

    def take_frames(self, text: str) -> None:
        self.test.ticks = names.ticks_of_frames(whole(text))

    def take_ticks(self, text: str) -> None:
        self.test.ticks = whole(text)

    def take_keep(self, kind: str = "", *rest: str) -> None:
        if kind not in KINDS_KEPT:
            raise ValueError(f"keep {kind or 'alone'} is nothing that can be kept{near(kind, KINDS_KEPT)}; there are {', '.join(KINDS_KEPT)}")
        if kind in ("vertices", "output"):
            if rest:
                raise ValueError(f"keep {kind} takes no further word, and {rest[0]} is one")
            setattr(self.test, f"has_{kind}", True)
        elif kind in ("frame", "picture"):
            self.take_shots(kind == "picture", list(rest))
        elif not rest:
            raise ValueError(f"keep {kind} takes one or more places, as keep {kind} score")
        else:
            self.test.places += [Asked(kind, it, self.at) for it in rest]

    def take_shots(self, is_picture: bool, words: List[str]) -> None:
        """Takes frames, and the screen that may stand behind them; a frame that is asked for twice is kept once, as a picture if either asks so."""
        screen = words.pop() if words and words[-1] in SCREENS else "both"
        if not words:
            raise ValueError("it wants frames: a number from 1, or a first and a last as 10-80")
        for word in words:
            if span(word)[-1] > scripts.LAST_FRAME:
                raise ValueError(f"{word}: no run goes past frame {scripts.LAST_FRAME}")
            for it in span(word):
                shot = Shot(it, screen)
                self.test.shots[shot] = self.test.shots.get(shot, False) or is_picture

    def take_at(self, *words: str) -> None:
        """Takes what is looked at when frames become whole: `at frame 30 60-65 keep ..` or `expect ..`."""
        verb = next((at for at, it in enumerate(words) if it in ("keep", "expect")), 0)
        if words[:1] != ("frame",) or verb < 2 or len(words) == verb + 1:
            raise ValueError("at takes frames and what is looked at there: `at frame 30 keep peek score`, `at frame 30 60-65 expect lives == 3`")
        frames = [it for word in words[1:verb] for it in span(word)]
        if words[verb] == "expect":
            self.test.conditions += [Expected(self.condition(), self.at, it) for it in frames]
            return
        kind, rest = words[verb + 1], words[verb + 2 :]
        if kind not in KINDS_OF_PLACES or not rest:
            raise ValueError(f"at a frame `keep` takes {', '.join(KINDS_OF_PLACES)} and places, as `at frame 30 keep peek score`")
        self.test.places += [Asked(kind, it, self.at, frame) for frame in frames for it in rest]

    def condition(self) -> str:
        """Returns the condition of the line, with its quotation marks."""
        return self.bare.partition("expect")[2].strip()

    def take_expect(self, how: str = "", *rest: str) -> None:
        if how not in ("stop", "done"):
            if not rest:
                raise ValueError("expect takes `done`, `stop KIND VALUE`, or a condition, as `expect score >= 10`")
            self.test.conditions.append(Expected(self.condition(), self.at))
            return
        if "the end" in self.seen:
            raise ValueError("`expect done` or `expect stop` stands twice")
        self.seen.add("the end")
        if how == "stop" and len(rest) == 2:
            if rest[0] not in names.KINDS.values():
                raise ValueError(f"there is no stop {rest[0]}{near(rest[0], names.KINDS.values())}; there are {', '.join(names.KINDS.values())}")
            self.test.stop = (rest[0], number(rest[1]))
        elif how != "done" or rest:
            raise ValueError("expect takes `done`, `stop KIND VALUE`, or a condition, as `expect score >= 10`")

    def check(self) -> None:
        """Refuses a test that can't be run, or that keeps nothing."""
        test, path = self.test, self.test.path
        if not test.cart:
            raise Untold(f"{path}: the line `cart GAME.nds` is missing")
        if ("frames" in self.seen) == ("ticks" in self.seen):
            raise Untold(f"{path}: it wants either `frames N` or `ticks N`")
        if test.held and "keys" in self.seen:
            raise Untold(f"{path}: keys are told by `keys {test.keys}` or by `press` and `hold`, and not by both")
        if not 1 <= test.ticks <= MOST_TICKS:
            raise Untold(f"{path}: it runs to tick {test.ticks}, and a run goes to 1 to {MOST_TICKS}")
        if test.start and test.start.is_made:
            self.check_keys(test.start)
            test.check_start(test.start.tick)
        late = max(test.frames | set(test.moments), default=0)
        if late > test.last_frame:
            raise Untold(f"{path}: frame {late} isn't whole by tick {test.ticks}; `frames {late}` runs that far")
        at_end = [f"keep {it.kind}" for it in test.places if not it.frame] + [f"expect {it.text}" for it in test.conditions if not it.frame]
        if test.stop and at_end:
            raise Untold(f"{path}: a run that stops writes no memories, so `{at_end[0]}` and `expect stop` don't go together")
        if not (test.shots or test.places or test.conditions or test.has_vertices or test.has_output or test.stop):
            raise Untold(f"{path}: it keeps nothing, so it would pass whatever the game does: add a line `keep ..` or `expect ..`")

    def check_keys(self, start: Start) -> None:
        """Refuses keys of the test's own before its state, where other keys lead there."""
        early = min((it.first for it in self.test.held), default=0)
        if start.keys and early and names.FRAME_TICKS * (early - 1) < start.tick:
            raise Untold(f"{self.test.path}: keys are held in frame {early}, before the state's tick {start.tick}, to which those of {start.keys} lead")


def without_comment(line: str) -> str:
    """Returns a line up to a # outside quotation marks."""
    form = BEFORE_COMMENT.match(line)
    return form[0] if form else line


def near(word: str, known: Iterable[str]) -> str:
    """Returns a question whether a word that is there was meant, or nothing where none is alike."""
    found = difflib.get_close_matches(word, list(known), 1)
    return f" (is {found[0]} meant?)" if found else ""


def whole(text: str) -> int:
    """Reads a number from 1 in decimal digits."""
    if not (text.isascii() and text.isdigit()) or int(text) < 1:
        raise ValueError(f"{text} is no number from 1")
    return int(text)


def test_of(path: str, **words: Optional[str]) -> Optional[Test]:
    """Returns the test where a tool's word for a game names one; what it tells can't be told beside it."""
    if not path.endswith(ENDING):
        return None
    for name, word in words.items():
        if word and word != scripts.NONE:
            raise Untold(f"--{name} {word}: {path} is a test, which tells that itself")
    test = read_test(path, path)
    if test.start and not test.start.is_made:
        state = test.start.state
        raise Untold(f"{path} begins from {state} and doesn't tell how that is made, so it can't be run from boot; nds-show --state shows the state")
    return test


def read_test(path: str, name: str) -> Test:
    """Reads a test's file."""
    try:
        with open(path, encoding="utf-8") as it:
            text = it.read()
    except UnicodeDecodeError:
        raise Untold(f"{path} is no text") from None
    return Lines(Test(path, name)).read(text)


def found_in(words: List[str]) -> List[Tuple[str, str]]:
    """Returns path and name of each test that files and folders name, in order, each once."""
    found: Dict[str, str] = {}
    for word in words:
        if not os.path.isdir(word):
            if not os.path.exists(word):
                raise Untold(f"there is no file or folder {word}")
            found[os.path.normpath(word)] = ""
            continue
        inside = [os.path.join(at, it) for at, _, files in os.walk(word) for it in files if it.endswith(ENDING)]
        if not inside:
            raise Untold(f"the folder {word} has no file that ends in {ENDING}")
        found.update((os.path.normpath(it), "") for it in sorted(inside))
    return [(it, it[: -len(ENDING)] if it.endswith(ENDING) else it) for it in found]


PICTURE = re.compile(r"(.+)\.(frame-\d{4,}(?:-upper|-lower)?)\.png")


def stale(words: List[str]) -> List[Tuple[str, str]]:
    """Returns the kept files in folders that no test asks for, each with why."""
    folders = [it for it in words if os.path.isdir(it)]
    inside = [os.path.join(at, it) for folder in folders for at, _, files in os.walk(folder) for it in sorted(files)]
    found = []
    for path in dict.fromkeys(map(os.path.normpath, inside)):
        picture = PICTURE.fullmatch(path)
        stem = picture[1] if picture else path[: -len(KEPT)] if path.endswith(KEPT) else ""
        if picture and os.path.exists(stem + ENDING) and not keeps(stem, picture[2]):
            found.append((path, f"{stem}{ENDING} keeps no such picture"))
        elif stem and not os.path.exists(stem + ENDING) and (not picture or os.path.exists(stem + KEPT)):
            found.append((path, f"there is no test {stem}{ENDING}"))
    return found


def keeps(stem: str, file: str) -> bool:
    """Tells whether a test keeps the picture of that name; one that can't be read may."""
    try:
        return any(it.file == file for it in read_test(stem + ENDING, stem).pictures)
    except (Untold, OSError):
        return True


Results = Dict[str, str]


def sum_of(pixels: bytes) -> str:
    """Returns what is kept of a frame's pixels."""
    return f"sha256 {hashlib.sha256(pixels).hexdigest()}"


def read_kept(path: str) -> Optional[Results]:
    """Reads the results that were kept, a line `KEY = VALUE` each; None where there are none yet."""
    if not os.path.exists(path):
        return None
    found: Results = {}
    try:
        with open(path, encoding="utf-8") as it:
            lines = it.read().split("\n")
    except UnicodeDecodeError:
        raise Untold(f"{path} is no text; --update writes the file anew") from None
    for at, line in enumerate(lines, 1):
        if line.startswith("#") or not line.strip():
            continue
        key, is_line, value = line.partition(" = ")
        if not is_line or key in found:
            raise Untold(f"{path}: line {at} is no result: `KEY = VALUE` is wanted, each key once; --update writes the file anew")
        found[key] = value
    return found


def write_kept(path: str, results: Results) -> None:
    """Writes results, through a new file, so that a fault leaves the old one."""
    new = f"{path}.new"
    with open(new, "w", encoding="utf-8") as it:
        it.write(HEAD + "".join(f"{key} = {value}\n" for key, value in results.items()))
    os.replace(new, path)


def as_text(text: str) -> str:
    """Writes a text in one line, in quotation marks."""
    return json.dumps(text, ensure_ascii=False)
