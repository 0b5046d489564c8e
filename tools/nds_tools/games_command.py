"""nds-test: runs a game's tests: small texts that name a cartridge, keys, how far to run, and which results are kept.

    tools/nds-test FOLDER|FILE.. [--update [NAME]] [--remake] [--filter S] [--last-failed] [-x] [--all] [--list] [--durations [N]]
                   [--jobs N] [--timeout S] [--junit F] [--report DIR] [--out DIR] [--nds PATH]

  FOLDER|FILE      tests: files that end in .test, and the folders in which they are looked for; `-` reads such names from standard input
  --update [NAME]  keeps what the runs give now as right, of all tests or of the one NAME; a run that stops is kept only where the test
                   expects it. States from which tests begin are made anew first
  --remake         makes the states from which tests begin anew, and keeps no results: after each build of the cartridge, as a state of another
                   build is refused
  --filter S       the tests alone whose name has S
  --last-failed    those alone that weren't good when they ran last; all, where there is none of these
  -x               begins no further test after the first that isn't good
  --all            tells every change, a line each, and writes a picture of every frame that changed
  --list           writes the tests' names, and runs nothing
  --durations [N]  tells at the end the N slowest tests, 10 where N is left out
  --jobs N         how many run at a time; left out, as many as there are processors
  --timeout S      how many seconds a run may take, 600 where it is left out
  --junit F        writes the results as JUnit's XML too, with every change
  --report DIR     writes a page to look at, DIR/index.html, which needs no other file: each test's values before and after, its kept picture,
                   the new one and the difference side by side, and the last second as it moved
  --out DIR        where pictures of frames that differ go; left out, nds-test-out
  --nds PATH       the program to run; left out, that of NDS_PROGRAM, or this repository's nds

A test's lines, with files named from the test's folder, and # for comments:

    cart GAME.nds            elf9 F, elf7 F    keys F, a key script, keys by frame or a recording of DeSmuME
    press A+UP 60-65 90      hold LEFT 10-80   keys that are held in these frames, any number of lines in any order
    frames 120               run until that many frames are whole; or: ticks N
    from F.state frames 60   begins from a saved state, which is made by a run of 60 frames with the test's keys; or: ticks N; with keys F behind,
                             by the keys of F. Frames and ticks are counted from boot all the same
    keep frame 60 100-120    the sums of these frames, numbered from 1; `upper` or `lower` behind them keeps that screen alone
    keep picture 60          as well, and the picture itself, as a PNG beside the test
    keep peek PLACE..        words of memory, each place by symbol or as [9:|7:]ADDRESS, @MEMORY+BYTES, with :WORDS
    keep decimal PLACE..     the same as signed decimal numbers
    keep text PLACE..        the text there, up to the first zero
    keep vertices            the vertices and polygons of the last swap
    keep output              a sum of the whole output, code and all
    expect done              or: expect stop KIND VALUE
    expect score >= 10       fails the test where that doesn't hold at the end: a condition as nds-when has it
    at frame 30 60-65 keep peek|decimal|text PLACE..    the same kept when these frames become whole; or: at frame 30 expect lives == 3
    dtcm ADDRESS             where the program puts DTCM, if not at 0x3000000

Results are kept in NAME.expected beside NAME.test, pictures in NAME.frame-0060.png. A line a test tells: PASS; FAIL, conditions that don't hold
and what changed, values before frames, and below it which processor is stuck, if one is; STOPPED, where a run stops that isn't expected to;
NEW, where a result or a picture isn't kept yet, or a state isn't there or is another build's; ERROR, where the test can't be judged, as by an
ELF file of another build; KEPT, what --update wrote. STALE names a kept file that no test asks for.

Ends with 0 where each test passed or was kept; with 1 where one failed or stopped; otherwise with 2 where one is new or can't be judged."""
import argparse
import os
import sys
import time
from concurrent.futures import ThreadPoolExecutor
from dataclasses import dataclass, field
from typing import Callable, List, Optional, Set, Tuple
from xml.sax.saxutils import escape, quoteattr

from nds_tools import golden, png, report_page
from nds_tools.changes import Changes, changes, short
from nds_tools.game_runs import MOST_HELD, Hold, Ran, ran
from nds_tools.game_states import Maker, lacking
from nds_tools.game_tests import Results, Shot, Test, found_in, near, read_kept, read_test, stale, sum_of, write_kept
from nds_tools.last_failed import LastFailed
from nds_tools.program import ready
from nds_tools.progress import Progress
from nds_tools.report_page import MOST_PICTURES, MOVING, Details, Shown, Told
from nds_tools.report_page import NAME as PAGE
from nds_tools.words import FAILED, GOOD, UNTOLD, Untold, Words, count_from

TOOL = "nds-test"
USAGE = """tools/nds-test FOLDER|FILE.. [--update [NAME]] [--remake] [--filter S] [--last-failed] [-x] [--all] [--list] [--durations [N]]
                      [--jobs N] [--timeout S] [--junit F] [--report DIR] [--out DIR] [--nds PATH]"""
PASS, FAIL, STOPPED, NEW, ERROR, KEPT = "PASS", "FAIL", "STOPPED", "NEW", "ERROR", "KEPT"
STATUS = {PASS: GOOD, KEPT: GOOD, FAIL: FAILED, STOPPED: FAILED, NEW: UNTOLD, ERROR: UNTOLD}
# Of how many frames that changed pictures are written, without --all.
PICTURED = 3
INDENT = "\n        "


@dataclass
class Judged:
    """What came of a test: what is told of it, text by text, and what is known of a processor that is stuck."""

    name: str
    verdict: str
    told: List[str] = field(default_factory=list)
    stuck: str = ""
    seconds: float = 0.0
    details: Optional[Details] = None

    @property
    def status(self) -> int:
        return STATUS[self.verdict]

    def line(self, is_all: bool) -> str:
        """Returns the lines that are printed: all that is told a line each, or the first of it in one."""
        texts = [INDENT + it for it in self.told] if is_all and len(self.told) > 1 else [f" {short(self.told)}"] if self.told else []
        texts += [INDENT + self.stuck] if self.stuck else []
        return f"{self.verdict.ljust(7)} {self.name}{':' if texts else ''}{''.join(texts)}"

    @property
    def whole(self) -> str:
        """Returns all that is told, a line each."""
        return "\n".join([*self.told, *([self.stuck] if self.stuck else [])])


@dataclass(frozen=True)
class How:
    """What the words say of all tests."""

    program: str
    timeout: float
    out: str
    is_update: bool
    is_all: bool
    has_report: bool
    maker: Optional[Maker] = None


def pictured(test: Test, shot: Shot, kept: Results, now: bytes, out: str) -> str:
    """Writes the pictures of a frame that changed: expected, actual and difference where one is kept, otherwise how it is now. Returns how it
    changed, and where the picture is; one that can't be written is told."""
    stem = f"{test.name.replace(os.sep, '.').lstrip('.')}.{shot.file}"
    before, why = before_of(test, shot, kept, now)
    if before is None:
        return f": {written(lambda: png.write(out, f'{stem}-actual.png', now))}{why}"
    places = golden.changed(before, now)
    places = [it + png.WIDTH * png.HEIGHT for it in places] if shot.screen == "lower" else places
    how = "; ".join(it for it in (golden.boxes(places), golden.moved(before, now) if shot.screen == "both" else "") if it)
    return f", by {how}: {written(lambda: golden.write_three(out, stem, before, now))}"


def before_of(test: Test, shot: Shot, kept: Results, now: bytes) -> Tuple[Optional[bytes], str]:
    """Returns the pixels of a frame that are kept, or why there are none."""
    path = test.picture_of(shot)
    if not test.shots[shot] or not os.path.exists(path):
        return None, ""
    try:
        before = golden.read(path)
    except Untold as why:
        return None, f" ({why})"
    if sum_of(before) != kept.get(shot.key) or len(before) != len(now):
        return None, f" ({path} isn't the picture of the kept sum)"
    return before, ""


def written(write: Callable[[], str]) -> str:
    """Returns the path of a picture that is written, or why it can't be."""
    try:
        return write()
    except OSError as why:
        return f"no picture, since {why.filename} can't be written: {why.strerror}"


def frames_told(test: Test, found: Changes, kept: Results, run: Ran, how: How) -> str:
    """Writes pictures of the first frames that changed, and returns what is told of the first one, and of the first one that a picture is kept of."""
    shots = [it for it in sorted(run.frames, key=lambda it: (it.number, it.screen)) if it.key in found.frames]
    if not shots:
        return ""
    best = next((it for it in shots if before_of(test, it, kept, run.frames[it])[0] is not None), shots[0])
    chosen = shots if how.is_all else list(dict.fromkeys([*shots[:PICTURED], best]))
    told = {it: pictured(test, it, kept, run.frames[it], how.out) for it in chosen}
    more = f"; {best.key}{told[best]}" if best != shots[0] else ""
    return (f", first {shots[0].number}" if len(found.frames) > 1 else "") + told[shots[0]] + more


def keep_all(test: Test, kept: Optional[Results], run: Ran) -> None:
    """Writes the results of a run, and the pictures that the test keeps; one whose frame stayed is left as it is."""
    for shot in test.pictures:
        path = test.picture_of(shot)
        if kept is None or kept.get(shot.key) != run.results[shot.key] or not os.path.exists(path):
            png.write(os.path.dirname(path) or ".", os.path.basename(path), run.frames[shot])
    write_kept(test.kept_in, run.results)


def kept_of(test: Test, how: How) -> Optional[Results]:
    """Returns what is kept; a file that is no results counts as none where it is written anew."""
    try:
        return read_kept(test.kept_in)
    except Untold:
        if not how.is_update:
            raise
        return None


def judge(test: Test, how: How) -> Judged:
    """Runs a test and compares it with what is kept, or keeps it. The state from which it begins is made anew first where that is asked for."""
    if test.start is None:
        return judge_run(test, how)
    made = made_anew(test, how)
    lacks = lacking(test.start, test.cart)
    if lacks:
        return Judged(test.name, NEW, [lacks])
    test.check_start(test.start.saved_at())
    found = judge_run(test, how)
    found.told = made + found.told
    if made and how.is_update and found.verdict == PASS:
        found.verdict = KEPT
    return found


def made_anew(test: Test, how: How) -> List[str]:
    """Makes the state from which a test begins, where that is asked for and the test tells how; returns what is told of it."""
    if how.maker is None or test.start is None or not test.start.is_made:
        return []
    with test.script() as script:
        changed = how.maker.make(test.start, test.cart, script, test.name)
    return [f"{test.start.state} was made anew"] if changed else []


def judge_run(test: Test, how: How) -> Judged:
    """Runs a test, whose state is there where it begins from one, and compares it with what is kept, or keeps it."""
    kept = kept_of(test, how)
    hold = Hold(sys.maxsize if how.is_all else MOST_HELD, MOST_PICTURES if how.has_report else 0, MOVING if how.has_report else 0)
    run = ran(test, how.program, how.timeout, kept, hold)
    found = judge_ran(test, how, kept, run)
    found.details = details_of(test, kept, run) if how.has_report else None
    return found


def details_of(test: Test, kept: Optional[Results], run: Ran) -> Details:
    """Returns what a report shows of a test."""
    shots = sorted(run.frames.items(), key=lambda it: (it[0].number, it[0].screen))[:MOST_PICTURES]
    pictures = [Shown(shot.key, before_of(test, shot, kept or {}, pixels)[0], pixels) for shot, pixels in shots]
    return Details(kept, run.results, pictures, run.last)


def judge_ran(test: Test, how: How, kept: Optional[Results], run: Ran) -> Judged:
    """Compares a run with what is kept, or keeps it."""
    if run.stopped:
        return Judged(test.name, STOPPED, [run.stopped])
    if run.missed:
        return Judged(test.name, FAIL, [run.missed], run.stuck)
    if kept is None and test.is_of_conditions_alone:
        return Judged(test.name, FAIL if run.unmet else PASS, run.unmet, run.stuck)
    if run.unmet and (kept is None or how.is_update):
        return Judged(test.name, FAIL, [*run.unmet, *(["so nothing is kept"] if how.is_update else [])], run.stuck)
    unseen = [f"no picture is kept of {it.key}" for it in test.pictures if not os.path.exists(test.picture_of(it))]
    if kept is None:
        return judge_first(test, how, run)
    found = changes(kept, run.results, test.map().field_change)
    if found.is_none and not unseen and not run.unmet:
        return Judged(test.name, PASS)
    told = run.unmet + found.lines(frames_told(test, found, kept, run, how) if found.frames and not how.is_update else "") + unseen
    if how.is_update:
        keep_all(test, kept, run)
        return Judged(test.name, KEPT, told)
    if not run.unmet and (found.is_none or found.is_of_lines_alone):
        return Judged(test.name, NEW, [*told, "--update keeps what this run gave"])
    return Judged(test.name, FAIL, told, run.stuck)


def judge_first(test: Test, how: How, run: Ran) -> Judged:
    """Judges a test of which nothing is kept yet."""
    if not how.is_update:
        return Judged(test.name, NEW, ["no results are kept yet; --update keeps those of this run"])
    keep_all(test, None, run)
    return Judged(test.name, KEPT, ["its first results"])


def judged(at: Tuple[str, str], how: How) -> Judged:
    """Judges a test by its file; what can't be judged is named."""
    path, name = at
    begin = time.monotonic()
    try:
        found = judge(read_test(path, name), how)
    except Untold as why:
        found = Judged(name, ERROR, [str(why)])
    except OSError as why:
        found = Judged(name, ERROR, [f"{why.filename}: {why.strerror}"])
    except UnicodeError as why:
        found = Judged(name, ERROR, [f"a file of it is no text: {why}"])
    found.seconds = time.monotonic() - begin
    return found


def class_of(name: str) -> str:
    """Returns what JUnit's readers group a test by: its folder, with dots."""
    return os.path.dirname(name).replace(os.sep, ".").strip(".") or TOOL


def junit(path: str, all_judged: List[Judged], report: str = "") -> None:
    """Writes the results as JUnit's XML, each with its place in the report, where there is one."""
    lines = ['<?xml version="1.0" encoding="UTF-8"?>']
    counts = [sum(it.status == status for it in all_judged) for status in (FAILED, UNTOLD)]
    lines.append(f'<testsuite name="nds-test" tests="{len(all_judged)}" failures="{counts[0]}" errors="{counts[1]}">')
    for it in all_judged:
        tag = {FAILED: "failure", UNTOLD: "error"}.get(it.status)
        inside = f"<{tag} message={quoteattr(f'{it.verdict}: {short(it.told)}')}>{escape(it.whole)}</{tag}>" if tag else ""
        page = f"<system-out>{escape(f'{report}#{it.name}')}</system-out>" if report else ""
        where = f"classname={quoteattr(class_of(it.name))} name={quoteattr(it.name)}"
        lines.append(f"  <testcase {where} time=\"{it.seconds:.3f}\">{inside}{page}</testcase>")
    with open(path, "w", encoding="utf-8", errors="backslashreplace") as file:
        file.write("\n".join([*lines, "</testsuite>", ""]))


def write_report(folder: str, all_judged: List[Judged]) -> None:
    """Writes the report's page, and tells where it is."""
    tests = [Told(it.name, it.verdict, [*it.told, *([it.stuck] if it.stuck else [])], it.seconds, it.details) for it in all_judged]
    print(f"report: {report_page.write(folder, tests)}")


def judge_all(tests: List[Tuple[str, str]], how: How, jobs: int, is_to_first: bool, progress: Progress) -> List[Judged]:
    """Judges tests side by side, and prints each one's lines, in order; after an interrupt, or the first that isn't good where that ends it,
    no further one begins."""
    found: List[Judged] = []
    pool = ThreadPoolExecutor(jobs)
    try:
        for it in pool.map(lambda at: judged(at, how), tests):
            progress.line(it.line(how.is_all))
            progress.step(it.name)
            found.append(it)
            if is_to_first and it.status != GOOD:
                break
    finally:
        pool.shutdown(cancel_futures=True)
    return found


def chosen(given: argparse.Namespace) -> List[Tuple[str, str]]:
    """Returns the tests that are asked for."""
    words = [line.strip() for line in sys.stdin if line.strip()] if given.tests == ["-"] else given.tests
    if not words:
        raise Untold("name a test or a folder; --help tells the words")
    every = found_in(words)
    found = [it for it in every if given.filter is None or given.filter in it[1]]
    if given.update:
        found = [it for it in found if given.update in (it[1], os.path.basename(it[1]), it[0])]
    if not found:
        wanted = given.update or given.filter
        raise Untold(f"there is no test {wanted}{near(wanted, [os.path.basename(it[1]) for it in every])}")
    return found


def read_words() -> argparse.Namespace:
    words = Words(TOOL, USAGE, __doc__ or "")
    words.add_argument("tests", nargs="*")
    words.add_argument("--update", nargs="?", const="", default=None)
    for name in ("--filter", "--junit", "--nds", "--report"):
        words.add_argument(name)
    for name in ("--last-failed", "-x", "--all", "--list", "--remake"):
        words.add_argument(name, action="store_true")
    count = len(os.sched_getaffinity(0)) if hasattr(os, "sched_getaffinity") else os.cpu_count() or 1
    words.add_argument("--jobs", type=count_from(1, int), default=count)
    words.add_argument("--timeout", type=count_from(0.01, float), default=600.0)
    words.add_argument("--durations", type=count_from(1, int), nargs="?", const=10, default=0)
    words.add_argument("--out", default="nds-test-out")
    given = words.read()
    if given.update and os.path.exists(given.update):
        given.tests, given.update = [given.update, *given.tests], ""
    return given


def tell_end(given: argparse.Namespace, all_judged: List[Judged], not_run: int) -> None:
    """Prints what stands below the tests' own lines."""
    if not (given.filter or given.update or given.last_failed):
        for path, why in stale(given.tests):
            print(f"STALE   {path}: {why}")
    for it in sorted(all_judged, key=lambda it: -it.seconds)[: given.durations]:
        print(f"{it.seconds:8.3f} s  {it.name}")
    counts = [(it, sum(one.verdict == it for one in all_judged)) for it in STATUS]
    told = ", ".join(f"{count} {it}" for it, count in counts if count)
    print(f"{len(all_judged)} tests: {told}{f'; {not_run} not run' if not_run else ''}")


def main() -> int:
    given = read_words()
    tests = chosen(given)
    last = LastFailed(given.out)
    if given.last_failed:
        tests = last.among(tests)
    if given.list:
        print("\n".join(name for _, name in tests))
        return GOOD
    program, is_update = ready(given.nds), given.update is not None
    maker = Maker(program, given.timeout) if is_update or given.remake else None
    how = How(program, given.timeout, given.out, is_update, given.all, bool(given.report), maker)
    with Progress(TOOL, len(tests), "tests") as progress:
        all_judged = judge_all(tests, how, given.jobs, given.x, progress)
    tell_end(given, all_judged, len(tests) - len(all_judged))
    statuses = {it.status for it in all_judged} | kept_aside(given, last, tests, all_judged)
    return FAILED if FAILED in statuses else UNTOLD if UNTOLD in statuses else GOOD


def kept_aside(given: argparse.Namespace, last: LastFailed, tests: List[Tuple[str, str]], all_judged: List[Judged]) -> Set[int]:
    """Writes what is kept beside the tests' own lines; what can't be written is told, and changes no test's verdict. Returns the statuses of
    that."""
    writes: List[Callable[[], None]] = [lambda: last.keep([(path, it.status == GOOD) for (path, _), it in zip(tests, all_judged)])]
    if given.junit:
        writes.append(lambda: junit(given.junit, all_judged, os.path.join(given.report, PAGE) if given.report else ""))
    if given.report:
        writes.append(lambda: write_report(given.report, all_judged))
    found = set()
    for at, write in enumerate(writes):
        try:
            write()
        except OSError as why:
            print(f"{TOOL}: {why.filename} can't be written: {why.strerror}", file=sys.stderr)
            found |= {UNTOLD} if at else set()
    return found
