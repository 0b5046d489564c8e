"""nds-trace: shows a processor's steps with the program's functions, or sums them by function.

    tools/nds-trace GAME.nds --frames N|--ticks N [--keys F] [--proc 9|7] [--elf9 F] [--elf7 F] [--count N] [how it is shown]
    tools/nds-trace NAME.test [--frames N|--ticks N] [--proc 9|7] [--count N] [how it is shown]
    tools/nds-trace --read TRACE [--proc 9|7] [--elf9 F] [--elf7 F] [how it is shown]

  GAME.nds     the cartridge; it is run with the keys of --keys until N frames are whole, or to tick N
  NAME.test    a test of nds-test, of which cartridge, keys, ELF files and, where nothing is said, the last tick are taken
  --keys F     a key script, keys by frame, or a recording (.dsm)
  --read F     a trace that `nds trace` wrote; `-` is standard input
  --proc P     whose steps: 9, which is meant where it is left out, or 7
  --elf9 F, --elf7 F   the programs' ELF files, for their functions
  --count N    at most that many steps from boot on; left out, 1000000, which is the most that the program gives
  --since T    the steps from tick T on
  --in F       those in the function F alone, a line each
  --last N     the last N of these
  --functions  a line each time another function goes on: its tick, where it goes on, how many steps and ticks it stays there
  --profile    a line a function: its ticks without halts, their share, its steps, and how often it was entered at its first instruction
  --nds PATH   the program to run; left out, that of NDS_PROGRAM, or this repository's nds

Without --functions and --profile each step has a line: tick, address, function, word, statement, and behind a branch the function that it
goes to. Functions of the boot ROM stub have `boot ROM` before their names. A trace begins at boot; where it ends before the tick, or where
the run stops, standard error says so.

Ends with 0; with 1 where no step is there that was asked for; and with 2 where a file, a function or the program isn't there, or a line is
none of a trace."""
import argparse
import subprocess
import sys
from collections import deque
from contextlib import contextmanager
from typing import Iterable, Iterator, List, Optional

from nds_tools import names, scripts
from nds_tools.builds import others
from nds_tools.elf import Elf
from nds_tools.game_tests import ENDING, Test, test_of
from nds_tools.memory import Map
from nds_tools.program import DONE, LEFT_OUT, output_of, plain, ready, said, start
from nds_tools.traces import Functions, Profile, Stay, Step, profile_of, stays, steps_in
from nds_tools.words import GOOD, Refused, Untold, Words, opened

TOOL = "nds-trace"
USAGE = "tools/nds-trace GAME.nds|NAME.test --frames N|--ticks N [--keys F] [--proc 9|7] [--elf9 F] [--count N] [--since T] [--in F] [--last N] [--functions|--profile]"
MOST_STEPS = 1_000_000


def tell(text: str) -> None:
    print(f"{TOOL}: {text}", file=sys.stderr)


def lines_of(run: "subprocess.Popen[bytes]", ticks: int, count: int, keys: str) -> Iterator[bytes]:
    """Returns the lines that the program writes, and tells where they end before the tick."""
    number, last = 0, b""
    for line in output_of(run):
        number, last = number + 1, line
        yield line
    note = run.stderr.read() if run.stderr else b""
    if run.wait() == LEFT_OUT:
        tell(f"the run stops there: {said(note, LEFT_OUT)}")
    elif run.returncode != DONE:
        raise Untold(scripts.explained(said(note, run.returncode), keys))
    elif number == count:
        tell(f"the trace ends after {count} steps, at tick {int(last[:12])} of {ticks}; it begins at boot")


@contextmanager
def trace(given: argparse.Namespace, test: Optional[Test]) -> Iterator[Iterator[Step]]:
    """Gives the steps of the trace that is read or made."""
    if given.read:
        with opened(given.read) as it:
            yield steps_in(it, "standard input" if given.read == "-" else given.read)
        return
    ticks = given.ticks or (names.ticks_of_frames(given.frames) if given.frames else test.ticks if test else 0)
    with test.script() if test else scripts.of_file(given.keys) as script:
        keys = script if script == scripts.NONE else plain(script)
        run = start(ready(given.nds), "trace", plain(test.cart if test else given.cart), keys, str(ticks), given.proc, str(given.count))
        try:
            yield steps_in(lines_of(run, ticks, given.count, given.keys), "the trace")
        finally:
            run.kill()
            run.wait()
            for pipe in (run.stdout, run.stderr):
                if pipe:
                    pipe.close()


def chosen(steps: Iterable[Step], since: int, inside: Optional[str], functions: Functions) -> Iterator[Step]:
    """Returns the steps that are asked for."""
    for it in steps:
        if it.tick >= since and (inside is None or functions.at(it.address).function == inside):
            yield it


def ending(items: Iterable, count: Optional[int]) -> Iterable:
    """Returns the last ones alone, where that is asked for."""
    return items if count is None else deque(items, count)


def stay_line(stay: Stay) -> str:
    return f"{stay.tick:012d} {str(stay.place):32} {stay.steps} steps, {stay.ticks} ticks"


def table(profile: Profile) -> List[str]:
    """Returns the lines of a profile."""
    busy = profile.ticks - profile.halted
    lines = [f"{profile.steps} steps in {profile.ticks} ticks, halted for {profile.halted} of them ({share(profile.halted, profile.ticks)})"]
    lines.append(f"{'ticks':>12} {'share':>7} {'steps':>9} {'entered':>8}  function")
    for name, it in profile.rows():
        lines.append(f"{it.ticks:>12} {share(it.ticks, busy):>7} {it.steps:>9} {it.entered:>8}  {name}")
    return lines


def share(part: int, whole: int) -> str:
    return f"{100 * part / whole:.1f}%" if whole else "-"


def read_words() -> argparse.Namespace:
    words = Words(TOOL, USAGE, __doc__ or "")
    words.add_argument("cart", nargs="?")
    for name in ("--read", "--elf9", "--elf7", "--in", "--nds"):
        words.add_argument(name)
    for name in ("--frames", "--ticks", "--last"):
        words.add_argument(name, type=int)
    words.add_argument("--keys", default=scripts.NONE)
    words.add_argument("--proc", choices=("9", "7"), default="9")
    words.add_argument("--count", type=int, default=MOST_STEPS)
    words.add_argument("--since", type=int, default=0)
    how = words.add_mutually_exclusive_group()
    how.add_argument("--functions", action="store_true")
    how.add_argument("--profile", action="store_true")
    given = words.read()
    check(given)
    return given


def check(given: argparse.Namespace) -> None:
    """Refuses words that don't go together."""
    if bool(given.cart) == bool(given.read):
        raise Untold("it wants a cartridge, or --read TRACE")
    is_told = given.frames is not None or given.ticks is not None
    if given.cart and (given.frames is not None) == (given.ticks is not None) and (is_told or not given.cart.endswith(ENDING)):
        raise Untold("it wants either --frames N or --ticks N, to which the cartridge is run")
    if given.read and (given.frames is not None or given.ticks is not None):
        raise Untold("--frames and --ticks go with a cartridge, and not with --read")
    if getattr(given, "in") and (given.functions or given.profile):
        raise Untold("--in goes with steps, and not with --functions and --profile")
    numbers = {"--frames": given.frames, "--ticks": given.ticks, "--last": given.last, "--count": given.count}
    for name, value in numbers.items():
        if value is not None and value < 1:
            raise Untold(f"{name} takes a number from 1")
    if given.count > MOST_STEPS:
        raise Untold(f"--count takes {MOST_STEPS} at most")


def functions_of(given: argparse.Namespace) -> Functions:
    """Returns the functions of the processor's program; the one of --in has to be among them. An ELF file of another build is told."""
    file = given.elf9 if given.proc == "9" else given.elf7
    functions = Functions("97".index(given.proc), Elf(file) if file else None)
    for it in others(Map((functions.elf, None) if given.proc == "9" else (None, functions.elf)), given.cart) if given.cart else []:
        tell(it)
    inside = getattr(given, "in")
    if inside and not inside.startswith("boot ROM ") and not (functions.elf and functions.elf.find(inside)):
        raise Untold(f"no function {inside} is known{f': {file} has none' if file else f', since --elf{given.proc} names no ELF file'}")
    return functions


def main() -> int:
    given = read_words()
    test = test_of(given.cart, elf9=given.elf9, elf7=given.elf7, keys=given.keys) if given.cart else None
    if test:
        given.elf9, given.elf7, given.cart, given.keys = test.elf9, test.elf7, test.cart, test.keys
    functions = functions_of(given)
    shown = 0
    with trace(given, test) as whole:
        steps = chosen(whole, given.since, getattr(given, "in"), functions)
        if given.profile:
            profile = profile_of(ending(steps, given.last), functions)
            shown = profile.steps
            print("\n".join(table(profile) if shown else []), end="\n" if shown else "")
        elif given.functions:
            for stay in ending(stays(steps, functions), given.last):
                print(stay_line(stay))
                shown += 1
        else:
            for it in ending(steps, given.last):
                print(functions.shown(it))
                shown += 1
    if not shown:
        raise Refused("the trace has no step that was asked for")
    return GOOD
