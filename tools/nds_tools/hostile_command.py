"""hostile: tries the built program with refused memory, broken streams, and inputs by chance.

    tools/hostile memory [--nds PATH | --checked]
    tools/hostile streams [--nds PATH]
    tools/hostile fuzz [--runs N] [--first N] [--seed S] [--jobs N] [--kept DIR] [--nds PATH]

  memory    refuses each growth of memory of each command in turn, by a library that it compiles and puts before the C library's, and runs
            each with ever more address space: the status has to be 12, with nothing on the output. With --checked it is the program that `rt try`
            compiles, not proved and with checks, in which rt refuses the growths: one that is answered by a bad access is told as well
  streams   a full disk, a closed pipe, a reader of one byte at a time, folders, a fifo, a file that shrinks, one of 4 GiB, one that may not be
            read, signals: a named status, or the signal's own, and a front of the output
  fuzz      cartridges, headers, scripts, listings and words by chance; each answer is held beside its cause, which is said anew in
            tools/nds_tools/hostile/causes.py. Tells how often each status came. What has no cause, any signal, and any run of over 20 seconds
            of processor time is kept as a folder, with what plays it again
  --runs N  how many tries (10,000)
  --first N the number of the first try (0): with --runs 1 a try that was kept is played again
  --seed S  tries depend on the seed and their number alone; left out, one is taken from the clock and told
  --jobs N  how many side by side; left out, one a processor
  --kept D  where tries are kept (hostile-kept)
  --nds P   the program; left out, that of NDS_PROGRAM, or this repository's nds, which is built first

A million tries take half an hour or so on four processors. None of this is part of the gate. Ends with 0 where nothing was wrong, with 1 where something was, with 2 where it
can't be tried."""
import os
import time

from nds_tools.hostile.fuzz import fuzz
from nds_tools.hostile.memory import checked_memory, memory
from nds_tools.hostile.streams import streams
from nds_tools.program import ready
from nds_tools.words import FAILED, GOOD, Words

TOOL = "hostile"
USAGE = "tools/hostile memory|streams|fuzz [--checked] [--runs N] [--first N] [--seed S] [--jobs N] [--kept DIR] [--nds PATH]"


def main() -> int:
    """Reads the words and tries what they name."""
    words = Words(TOOL, USAGE, __doc__ or "")
    words.add_argument("what", choices=("memory", "streams", "fuzz"))
    words.add_argument("--nds")
    words.add_argument("--checked", action="store_true")
    words.add_argument("--runs", type=int, default=10_000)
    words.add_argument("--first", type=int, default=0)
    words.add_argument("--seed", default=str(int(time.time())))
    words.add_argument("--jobs", type=int, default=os.cpu_count() or 1)
    words.add_argument("--kept", default="hostile-kept")
    given = words.read()
    if given.checked and (given.what != "memory" or given.nds):
        words.error("--checked goes with memory alone, and makes the program itself")
    if given.checked:
        return GOOD if checked_memory() else FAILED
    program = ready(given.nds)
    if given.what == "memory":
        right = memory(program)
    elif given.what == "streams":
        right = streams(program)
    else:
        right = fuzz(program, given.seed, given.first, given.runs, given.jobs, os.path.abspath(given.kept))
    return GOOD if right else FAILED
