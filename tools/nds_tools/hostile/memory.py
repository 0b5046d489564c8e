"""Refuses each growth of memory in turn, and little memory altogether: the status is 12, and nothing is written."""
import os
import resource
import shutil
import subprocess
import tempfile
from dataclasses import dataclass
from typing import Dict, List, Optional, Tuple

from nds_tools.hostile.answers import Answer, Runner
from nds_tools.hostile.boot_state import state_at
from nds_tools.hostile.checked import Checked, caught
from nds_tools.hostile.makers import LOOP
from nds_tools.words import Untold

NO_MEMORY = 12
NOTE = b"out of memory\n"
# How many numbers in a row have to be past a run's growths, before it is taken that there are no more.
PAST = 4
# A library before the C library: the call with the number NDS_REFUSE, from 1, of those that take memory answers that there is none. At the end it writes how many there were.
LIBRARY = r"""
#define _GNU_SOURCE
#include <errno.h>
#include <fcntl.h>
#include <stdlib.h>
#include <stdio.h>
#include <string.h>
#include <unistd.h>
extern void *__libc_malloc(size_t), *__libc_calloc(size_t, size_t), *__libc_realloc(void *, size_t), *__libc_memalign(size_t, size_t);
static unsigned long made, refused;
static int read_it;
static int refuse(void) {
    if (!read_it) { const char *text = getenv("NDS_REFUSE"); read_it = 1; refused = text ? strtoul(text, 0, 10) : 0; }
    if (++made != refused) return 0;
    errno = ENOMEM;
    return 1;
}
void *malloc(size_t n) { return refuse() ? 0 : __libc_malloc(n); }
void *calloc(size_t n, size_t m) { return refuse() ? 0 : __libc_calloc(n, m); }
void *realloc(void *p, size_t n) { return refuse() ? 0 : __libc_realloc(p, n); }
void *memalign(size_t a, size_t n) { return refuse() ? 0 : __libc_memalign(a, n); }
void *aligned_alloc(size_t a, size_t n) { return refuse() ? 0 : __libc_memalign(a, n); }
int posix_memalign(void **p, size_t a, size_t n) { if (refuse()) return ENOMEM; *p = __libc_memalign(a, n); return *p ? 0 : ENOMEM; }
__attribute__((destructor)) static void tell(void) {
    const char *name = getenv("NDS_COUNT");
    int file = name ? open(name, O_WRONLY | O_CREAT | O_TRUNC, 0600) : -1;
    char text[32];
    if (file < 0) return;
    if (write(file, text, (size_t) snprintf(text, sizeof text, "%lu", made)) < 0) return;
    close(file);
}
"""


@dataclass(frozen=True)
class Told:
    """What refusing a command's growths came to."""

    name: str
    growths: int
    wrong: List[str]


def commands() -> Tuple[Dict[str, bytes], List[List[str]]]:
    """Returns the files, and the words of each command, with and without a script."""
    loop = LOOP.to_bytes(4, "little")
    header = bytearray(0x200)
    for at, place in ((0x20, 0x0200_0000), (0x30, 0x0210_0000)):
        for more, value in enumerate((0x200, place, place, 4)):
            header[at + 4 * more : at + 4 * more + 4] = value.to_bytes(4, "little")
    cart = bytes(header) + loop
    files = {"cart": cart, "state": state_at(cart, 5), "keys": b"".join(b"%d A\n%d -\n" % (2 * it, 2 * it + 1) for it in range(300)), "text": b".arm9 0x2000000\nmov r0, #0x1\n"}
    return files, [
        ["run", "cart", "none", "9", "none"],
        ["run", "cart", "keys", "9", "all"],
        ["list", "cart", "9"],
        ["asm", "text"],
        ["trace", "cart", "keys", "9", "9", "2"],
        ["peek", "cart", "keys", "9", "main", "0", "4"],
        ["demo", "0", "9"],
        ["save", "cart", "keys", "9"],
        ["resume", "state", "cart", "keys", "9", "all"],
    ]


def library(folder: str) -> str:
    """Compiles the library."""
    compiler = shutil.which("cc") or shutil.which("clang")
    if not compiler:
        raise Untold("there is no C compiler to make the library of refusals")
    source, made = os.path.join(folder, "refuse.c"), os.path.join(folder, "refuse.so")
    with open(source, "w", encoding="ascii") as it:
        it.write(LIBRARY)
    subprocess.run([compiler, "-shared", "-fPIC", "-O1", "-fno-builtin", "-o", made, source], check=True)
    return made


def refused(runner: Runner, words: List[str], made: str, folder: str) -> Told:
    """Refuses each growth of a command in turn."""
    count = os.path.join(folder, "count")
    environment = {"LD_PRELOAD": made, "NDS_COUNT": count}
    good = runner.run(words, environment)
    with open(count, encoding="ascii") as it:
        growths = int(it.read())
    wrong = [] if good.status == 0 else [f"without a refusal: {good.name()}"]
    for number in range(1, growths + 1):
        answer = runner.run(words, {**environment, "NDS_REFUSE": str(number)})
        wrong += wrong_of(number, answer)
    return Told(" ".join(words), growths, wrong)


def wrong_of(number: int, answer: Answer) -> List[str]:
    """Returns what is wrong with the answer of a run of which this growth was refused."""
    right = answer.status == NO_MEMORY and not answer.out and answer.note in (NOTE, b"")
    return [] if right else [f"growth {number}: {answer.name()}, {len(answer.out)} bytes, {answer.note[-300:]!r}"]


def refused_by(checked: Checked, runner: Runner, words: List[str]) -> Told:
    """Refuses each growth of a command in turn, by the number in the program itself; those past the last leave the run as it is."""
    answers: List[Answer] = []
    past = 0
    while past < PAST:
        checked.refuse(len(answers) + 1)
        answers.append(runner.run(words))
        past = past + 1 if answers[-1].status == 0 else 0
    growths = len(answers) - PAST
    wrong = [text for number, it in enumerate(answers[:growths], 1) for text in wrong_of(number, it)]
    return Told(" ".join(words), growths, wrong or ([] if growths else ["no growth was refused"]))


def limited(runner: Runner, words: List[str]) -> Told:
    """Runs a command with little address space, by steps of 256 KB up to what it needs."""
    wrong, tried = [], 0
    before = resource.getrlimit(resource.RLIMIT_AS)
    for room in range(2 << 20, 64 << 20, 256 << 10):
        tried += 1
        answer = limited_run(runner, words, room, before)
        if answer is None:
            continue
        if answer[0] == 0:
            break
        if answer[0] != NO_MEMORY or answer[1]:
            wrong.append(f"{room >> 10} KB: status {answer[0]}, {answer[1]} bytes")
    return Told(f"{' '.join(words)} with little address space", tried, wrong)


def limited_run(runner: Runner, words: List[str], room: int, before: Tuple[int, int]) -> Optional[Tuple[int, int]]:
    """Returns a run's status and the length of its output; None where the system has too little to begin it (127, or a signal before `main`)."""

    def little() -> None:
        resource.setrlimit(resource.RLIMIT_AS, (room, before[1]))

    ran = subprocess.run([runner.program, *words], cwd=runner.folder, stdin=subprocess.DEVNULL, capture_output=True, check=False, preexec_fn=little)
    begun = ran.returncode not in (127, -11, -6, -9) or ran.stdout
    return (ran.returncode, len(ran.stdout)) if begun else None


def memory(program: str) -> bool:
    """Tries all commands, and tells of each. Returns whether nothing was wrong."""
    runner = Runner(program)
    files, asked = commands()
    runner.put(files)
    with tempfile.TemporaryDirectory() as folder:
        made = library(folder)
        return all([tell(it) for words in asked for it in (refused(runner, words, made, folder), limited(runner, words))])


def checked_memory() -> bool:
    """Tries all commands of the program that `rt try` makes, and tells of each. Returns whether nothing was wrong."""
    files, asked = commands()
    with tempfile.TemporaryDirectory() as folder:
        checked = caught(folder)
        runner = Runner(checked.path)
        runner.put(files)
        return all([tell(refused_by(checked, runner, words)) for words in asked])


def tell(told: Told) -> bool:
    """Tells what refusals came to. Returns whether nothing was wrong."""
    print(f"{told.growths:5} refusals, {len(told.wrong)} wrong: {told.name}", flush=True)
    for it in told.wrong:
        print(f"      {it}", flush=True)
    return not told.wrong
