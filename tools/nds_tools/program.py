"""The program `nds`: which one is run, and what it answers."""
import os
import shutil
import subprocess
from typing import IO, Optional, Tuple

from nds_tools.words import Untold

TOP = os.path.dirname(os.path.dirname(os.path.dirname(os.path.realpath(__file__))))
DONE, LEFT_OUT, BAD_STATE = 0, 9, 11
# What the wrapper tells before each run of a program that isn't proved.
UNPROVED = "nds: NOT PROVED"
# What a program for Linux begins with; the wrapper is a script.
PROGRAM = b"\x7fELF"


def named(given: Optional[str]) -> Optional[str]:
    """Returns the program that --nds or NDS_PROGRAM names, or None where neither does."""
    for source, name in (("--nds", given), ("NDS_PROGRAM", os.environ.get("NDS_PROGRAM"))):
        if name:
            found = shutil.which(name)
            if not found:
                raise Untold(f"{source} names no program: {name}")
            return os.path.abspath(found)
    return None


def beside() -> Optional[str]:
    """Returns the program that lies beside the folder tools, as where both were copied, or None where the wrapper lies there."""
    path = os.path.join(TOP, "nds")
    if not os.access(path, os.X_OK):
        return None
    with open(path, "rb") as it:
        return path if it.read(len(PROGRAM)) == PROGRAM else None


def program(given: Optional[str]) -> str:
    """Returns the program to run: the one that is named, or the one beside the tools, which may be the wrapper."""
    return named(given) or os.path.join(TOP, "nds")


def ready(given: Optional[str]) -> str:
    """As `program`, but where it is the wrapper, lets it build first, so that a run's time is the run's alone. With NDS_UNPROVED it is the
    program that isn't proved, as long as the proved one isn't there; the wrapper tells so at each use."""
    found = named(given) or beside()
    if found:
        return found
    wrapper = os.path.join(TOP, "nds")
    ran = subprocess.run([wrapper, "asm", os.path.join(TOP, "examples", "loop.arm9.txt")], stdout=subprocess.DEVNULL, stdin=subprocess.DEVNULL)
    if ran.returncode:
        raise Untold("the program nds isn't there; --nds or NDS_PROGRAM names one that was built")
    return wrapper if os.environ.get("NDS_UNPROVED") else os.path.join(TOP, "out", "nds")


def words_of_run(cart: str, keys: str, ticks: int, keep: str) -> Tuple[str, ...]:
    """Returns the words of a run; files' names can't begin with - there."""
    return ("run", plain(cart), keys if keys == "none" else plain(keys), str(ticks), keep)


def words_of_save(cart: str, keys: str, tick: int) -> Tuple[str, ...]:
    """Returns the words that save the state at a tick."""
    return ("save", plain(cart), keys if keys == "none" else plain(keys), str(tick))


def words_of_resume(state: str, cart: str, keys: str, ticks: int, keep: str) -> Tuple[str, ...]:
    """Returns the words of a run that goes on from a saved state."""
    return ("resume", plain(state), *words_of_run(cart, keys, ticks, keep)[1:])


def plain(name: str) -> str:
    """Returns a file's name as the program takes it: not beginning with -, and not the word `none`."""
    return os.path.join(".", name) if name.startswith("-") or name == "none" else name


def start(found: str, *words: str) -> "subprocess.Popen[bytes]":
    """Starts the program, with its output and its note as pipes."""
    try:
        return subprocess.Popen([found, *words], stdin=subprocess.DEVNULL, stdout=subprocess.PIPE, stderr=subprocess.PIPE)
    except OSError as why:
        raise Untold(f"{found} can't be run: {why.strerror}") from None


def finished(found: str, timeout: float, *words: str) -> Tuple[int, bytes, bytes]:
    """Runs the program to its end, and returns its status, its output and its note; one that takes too long can't be judged."""
    run = start(found, *words)
    try:
        out, note = run.communicate(timeout=timeout)
    except subprocess.TimeoutExpired:
        raise Untold(f"the run took more than {timeout:g} seconds") from None
    finally:
        run.kill()
        run.communicate()
    return run.returncode, out, note


def assembled(found: str, listing: str) -> bytes:
    """Returns the bytes that a listing stands for."""
    run = start(found, "asm", plain(listing))
    out, note = run.communicate()
    if run.returncode:
        raise Untold(f"{listing}: {said(note, run.returncode)}")
    return out


def said(note: bytes, status: int) -> str:
    """Returns the last line of a note, or the status where there is none."""
    lines = note.decode("utf-8", "replace").split("\n")
    text = [it.strip() for it in lines if it.strip() and not it.startswith(UNPROVED)]
    return text[-1] if text else f"nds ended with status {status} and no note"


def output_of(run: "subprocess.Popen[bytes]") -> IO[bytes]:
    """Returns the run's output as a stream."""
    assert run.stdout is not None
    return run.stdout
