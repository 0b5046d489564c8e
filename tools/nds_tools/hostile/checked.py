"""The program that `rt try` compiles, before any proof and with checks of its own (each access, each sum), with one growth refused.

`rt try --fail-alloc N` builds anew for each N. So it builds once here, for a number that no run comes to, which stands in the built
program as an instruction's constant, wherever a growth is counted; the program is taken out of the folder in which `rt` runs it, and
the constant is written over, by each N in turn."""
import glob
import os
import shutil
import subprocess
import time
from typing import List, Optional

from nds_tools.hostile.answers import Runner
from nds_tools.program import TOP
from nds_tools.words import Untold

# A number that no command's growths come to, and that nothing else in the program is. It fits an instruction's constant, which has a sign.
MARK = 0x5A17_C0DE
ENDLESS = ("demo", "1", "100000000000")
SHORT = ("demo", "0", "9")
SECONDS = 60


class Checked:
    """The caught program, the number of the growth that it refuses, and the places where that stands in it."""

    def __init__(self, path: str, data: bytes) -> None:
        self.path = path
        self.places = places(data)
        if not self.places:
            raise Untold("the program that rt try made doesn't hold the number of the growth to refuse, so that it can't be put")
        with open(path, "wb") as it:
            it.write(data)
        os.chmod(path, 0o700)

    def refuse(self, number: int) -> None:
        """Has the growth with this number refused, counted from 1."""
        with open(self.path, "r+b") as it:
            for place in self.places:
                it.seek(place)
                it.write(number.to_bytes(4, "little"))


def places(data: bytes) -> List[int]:
    """Returns where the number stands in a program."""
    mark, found, at = MARK.to_bytes(4, "little"), [], -1
    while (at := data.find(mark, at + 1)) >= 0:
        found.append(at)
    return found


def caught(folder: str) -> Checked:
    """Has `rt try` make the program and run it endlessly, and takes a copy, which goes into the folder."""
    if not shutil.which("rt"):
        raise Untold("the command rt of the Rattle toolchain isn't found; put its folder on PATH")
    room, log = os.path.join(folder, "room"), os.path.join(folder, "log")
    os.mkdir(room)
    words = ["rt", "try", "--fail-alloc", str(MARK), "--seconds", str(SECONDS), "--", *ENDLESS]
    with open(log, "wb") as to:
        where = {"cwd": os.path.join(TOP, "crates", "nds"), "env": {**os.environ, "TMPDIR": room}}
        run = subprocess.Popen(words, stdin=subprocess.DEVNULL, stdout=to, stderr=to, **where)  # type: ignore[call-overload]
    try:
        found = None
        while found is None and run.poll() is None:
            time.sleep(0.2)
            found = whole(room, os.path.join(folder, "program"))
    finally:
        run.terminate()
        run.wait()
        shutil.rmtree(room, ignore_errors=True)
    if found is None:
        with open(log, encoding="utf-8", errors="replace") as it:
            raise Untold(f"rt try made no program: {it.read().strip()[-300:]}")
    return found


def whole(room: str, path: str) -> Optional[Checked]:
    """Returns a copy of the program that is in the folder of `rt try`, or None where it isn't there, or not yet whole."""
    for name in glob.glob(os.path.join(room, "*", "*", "program")):
        try:
            with open(name, "rb") as it:
                checked = Checked(path, it.read())
            runner = Runner(path)
            answer = runner.run(SHORT)
            os.rmdir(runner.folder)
        except (OSError, Untold):
            continue
        if answer.status == 0:
            return checked
    return None
