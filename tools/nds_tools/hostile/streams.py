"""Broken files, full disks, slow readers and signals: each run has a named status, and what it wrote is a front of its output."""
import os
import signal
import subprocess
import tempfile
import threading
import time
from dataclasses import dataclass
from typing import Callable, IO, List, Optional, Tuple

from nds_tools.hostile.memory import commands

Seen = Tuple[int, bytes, bytes]
NOBODY = 65534
LONG = 4 << 30


@dataclass(frozen=True)
class Room:
    """The program, and a folder with files to run it on."""

    program: str
    folder: str

    def start(self, words: List[str], **more: object) -> "subprocess.Popen[bytes]":
        """Starts the program."""
        given = {"stdin": subprocess.DEVNULL, "stdout": subprocess.PIPE, "stderr": subprocess.PIPE, **more}
        return subprocess.Popen([self.program, *words], cwd=self.folder, **given)  # type: ignore[call-overload, no-any-return]

    def run(self, words: List[str], **more: object) -> Seen:
        """Runs the program to its end."""
        run = self.start(words, **more)
        out, note = run.communicate(timeout=60)
        return run.returncode, out or b"", note or b""

    def path(self, name: str) -> str:
        """Returns a file's path."""
        return os.path.join(self.folder, name)


def long_run() -> List[str]:
    """A run that goes on for seconds and writes frames all along."""
    return ["run", "cart", "none", "3000000000", "all"]


def full(room: Room) -> Optional[str]:
    """The disk is full."""
    with open("/dev/full", "wb") as it:
        status, _, note = room.run(["run", "cart", "none", "9", "none"], stdout=it)
    return None if (status, note) == (5, b"write fault\n") else f"status {status}, {note!r}"


def full_notes(room: Room) -> Optional[str]:
    """A note can't be written: the status is the same."""
    with open("/dev/full", "wb") as it:
        status, out, _ = room.run(["run", "nowhere", "none", "9", "none"], stderr=it)
    return None if (status, out) == (3, b"") else f"status {status}, {len(out)} bytes"


def closed(room: Room) -> Optional[str]:
    """Who read the output is gone."""
    reader, writer = os.pipe()
    os.close(reader)
    status, _, note = room.run(["run", "cart", "none", "9", "none"], stdout=writer)
    os.close(writer)
    return None if (status, note) == (5, b"write fault\n") or status == -signal.SIGPIPE else f"status {status}, {note!r}"


def unopened(room: Room) -> Optional[str]:
    """There is no standard output at all."""
    status, _, note = room.run(["list", "cart", "9"], stdout=None, preexec_fn=lambda: os.close(1))
    return None if status in (0, 5) else f"status {status}, {note!r}"


def slow(room: Room) -> Optional[str]:
    """A reader that takes one byte at a time gets all of them."""
    whole = room.run(["trace", "cart", "none", "9000", "9", "1000"])[1]
    run = room.start(["trace", "cart", "none", "9000", "9", "1000"], bufsize=0)
    assert run.stdout is not None
    taken = b"".join(iter(lambda: os.read(run.stdout.fileno(), 1), b""))  # type: ignore[union-attr]
    run.communicate()
    return None if run.returncode == 0 and taken == whole and whole else f"status {run.returncode}, {len(taken)} of {len(whole)} bytes"


def gone_midway(room: Room) -> Optional[str]:
    """A reader that goes after some bytes: a write fault."""
    run = room.start(["run", "cart", "none", "9", "none"], bufsize=0)
    assert run.stdout is not None
    os.read(run.stdout.fileno(), 1000)
    run.stdout.close()
    status = run.wait(60)
    return None if status in (5, -signal.SIGPIPE) else f"status {status}"


def status_of(words: List[str], wanted: Tuple[int, ...], note: bytes) -> Callable[[Room], Optional[str]]:
    """A check that a run ends so, with nothing on its output."""

    def check(room: Room) -> Optional[str]:
        status, out, said = room.run(words)
        return None if status in wanted and said == note and not out else f"status {status}, {said!r}, {len(out)} bytes"

    return check


def unreadable(room: Room) -> Optional[str]:
    """A file that may not be read, asked for by who may read nothing."""
    if os.geteuid() != 0:
        return None
    program = room.path("program")
    with open(room.program, "rb") as it, open(program, "wb") as to:
        to.write(it.read())
    os.chmod(program, 0o755)
    os.chmod(room.folder, 0o755)
    os.chmod(room.path("closed"), 0o600)
    status, out, note = Room(program, room.folder).run(["run", "closed", "none", "9", "none"], user=NOBODY)
    return None if (status, note) == (4, b"read fault: closed\n") and not out else f"status {status}, {note!r}"


def fifo(room: Room) -> Optional[str]:
    """A cartridge that comes through a fifo, piece by piece, is read whole."""
    os.mkfifo(room.path("fifo"))
    with open(room.path("cart"), "rb") as it:
        cart = it.read()

    def feed() -> None:
        with open(room.path("fifo"), "wb", buffering=0) as to:
            for at in range(0, len(cart), 100):
                to.write(cart[at : at + 100])
                time.sleep(0.001)

    feeder = threading.Thread(target=feed)
    feeder.start()
    status, out, note = room.run(["list", "fifo", "9"])
    feeder.join()
    return None if (status, out) == (0, b".arm9 0x2000000\nb 0x2000000\n") else f"status {status}, {out!r}, {note!r}"


def shrinks(room: Room) -> Optional[str]:
    """A cartridge that is cut while it is read: a header's fault, too short, or a whole one; never anything else."""
    with open(room.path("cart"), "rb") as it:
        cart = it.read()
    seen = set()
    for at in range(60):
        with open(room.path("cut"), "wb") as to:
            to.write(cart + bytes(20 << 20))
        run = room.start(["list", "cut", "9"])
        time.sleep(at / 10000)
        os.truncate(room.path("cut"), at * 9)
        run.communicate()
        seen.add(run.returncode)
    return None if seen <= {0, 7} else f"statuses {sorted(seen)}"


def interrupted(number: int) -> Callable[[Room], Optional[str]]:
    """A signal that ends a run: its output is a front of the whole one."""

    def check(room: Room) -> Optional[str]:
        with open(room.path("part"), "wb") as to:
            run = room.start(long_run(), stdout=to)
            time.sleep(0.4)
            run.send_signal(number)
            run.communicate(timeout=60)
        with open(room.path("part"), "rb") as it:
            part = it.read()
        return None if run.returncode == -number and front(room, part) else f"status {run.returncode}, {len(part)} bytes"

    return check


def front(room: Room, part: bytes) -> bool:
    """Whether bytes are a front of the long run's output."""
    run = room.start(long_run())
    assert run.stdout is not None
    same = read_whole(run.stdout, len(part)) == part
    run.kill()
    run.communicate()
    return same


def read_whole(stream: IO[bytes], count: int) -> bytes:
    """Reads so many bytes."""
    return stream.read(count)


def halted(room: Room) -> Optional[str]:
    """A run that is stopped for a while and goes on writes the same."""
    words = ["run", "cart", "none", "20000000", "all"]
    whole = room.run(words)[1]
    with open(room.path("part"), "wb") as to:
        run = room.start(words, stdout=to)
        for _ in range(5):
            run.send_signal(signal.SIGSTOP)
            time.sleep(0.02)
            run.send_signal(signal.SIGCONT)
            time.sleep(0.01)
        run.communicate(timeout=60)
    with open(room.path("part"), "rb") as it:
        return None if run.returncode == 0 and it.read() == whole else f"status {run.returncode}"


CHECKS = (
    ("the disk is full", full),
    ("the notes' disk is full", full_notes),
    ("the output's reader is gone", closed),
    ("there is no output", unopened),
    ("a reader of one byte at a time", slow),
    ("a reader that goes midway", gone_midway),
    ("a folder as cartridge", status_of(["run", ".", "none", "9", "none"], (4,), b"read fault: .\n")),
    ("a folder as script", status_of(["run", "cart", ".", "9", "none"], (4,), b"read fault: .\n")),
    ("a folder as text", status_of(["asm", "."], (4,), b"read fault: .\n")),
    ("a path through a file", status_of(["list", "cart/x", "9"], (3, 4), b"read fault: cart/x\n")),
    ("a cartridge of 4 GiB", status_of(["list", "sparse", "9"], (6,), b"too long: sparse\n")),
    ("a script of 4 GiB", status_of(["run", "cart", "sparse", "9", "none"], (6,), b"too long: sparse\n")),
    ("a text of 4 GiB", status_of(["asm", "sparse"], (6,), b"too long: sparse\n")),
    ("an empty cartridge", status_of(["list", "empty", "9"], (7,), b"bad header: Short 0x00000000\n")),
    ("a cartridge that has no end", status_of(["list", "/dev/zero", "9"], (6,), b"too long: /dev/zero\n")),
    ("a file that may not be read", unreadable),
    ("a cartridge through a fifo", fifo),
    ("a cartridge that shrinks", shrinks),
    ("ended by SIGTERM", interrupted(signal.SIGTERM)),
    ("ended by SIGINT", interrupted(signal.SIGINT)),
    ("ended by SIGKILL", interrupted(signal.SIGKILL)),
    ("stopped and continued", halted),
)


def streams(program: str) -> bool:
    """Tries all of them, and tells of each. Returns whether nothing was wrong."""
    right = True
    with tempfile.TemporaryDirectory() as folder:
        room = Room(program, folder)
        for name, data in {**commands()[0], "empty": b"", "closed": b"x"}.items():
            with open(room.path(name), "wb") as it:
                it.write(data)
        with open(room.path("sparse"), "wb") as it:
            it.truncate(LONG)
        for name, check in CHECKS:
            fault = check(room)
            print(f"{'wrong' if fault else 'right'}: {name}{': ' + fault if fault else ''}", flush=True)
            right = right and not fault
    return right
