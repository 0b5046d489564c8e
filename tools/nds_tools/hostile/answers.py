"""One run of the program: its status, its output and its note."""
import os
import signal
import tempfile
from dataclasses import dataclass
from typing import Dict, Optional, Sequence

from nds_tools.words import Untold

# The bound of a run in seconds of processor time, which a busy machine doesn't shorten; and how often so many seconds have to pass by
# the clock for a run that hangs.
SECONDS = 20
MOST_ALARMS = 30
NAMES = {0: "Done", 2: "Usage", 3: "NoFile", 4: "ReadFault", 5: "WriteFault", 6: "TooLong", 7: "BadHeader", 8: "BadScript", 9: "LeftOut", 10: "BadText", 11: "BadState", 12: "NoMemory"}


@dataclass(frozen=True)
class Answer:
    """What a run came to: its status, or the signal that ended it as a number below 0, and what it wrote."""

    status: int
    out: bytes
    note: bytes

    def name(self) -> str:
        """Returns the status by name, or the signal."""
        return NAMES.get(self.status, f"signal {-self.status}" if self.status < 0 else f"status {self.status}")


class Runner:
    """Runs the program in a folder of its own, with output and note in files of memory that are used again."""

    def __init__(self, program: str) -> None:
        self.program = program
        self.folder = tempfile.mkdtemp(prefix="hostile-", dir="/dev/shm" if os.path.isdir("/dev/shm") else None)
        self.out = os.memfd_create("out")
        self.note = os.memfd_create("note")
        self.nothing = os.open(os.devnull, os.O_RDONLY)

    def put(self, files: Dict[str, bytes]) -> None:
        """Writes files into the folder."""
        for name, data in files.items():
            with open(os.path.join(self.folder, name), "wb") as it:
                it.write(data)

    def run(self, words: Sequence[str], environment: Optional[Dict[str, str]] = None) -> Answer:
        """Runs the program with these words, and ends it after a bound that no small run comes near, which counts as SIGALRM."""
        for it in (self.out, self.note):
            os.ftruncate(it, 0)
            os.lseek(it, 0, os.SEEK_SET)
        actions = [(os.POSIX_SPAWN_DUP2, self.nothing, 0), (os.POSIX_SPAWN_DUP2, self.out, 1), (os.POSIX_SPAWN_DUP2, self.note, 2)]
        os.chdir(self.folder)
        try:
            child = os.posix_spawn(self.program, [self.program, *words], environment or {}, file_actions=actions)
        except OSError as why:
            raise Untold(f"{self.program} can't be run: {why.strerror}") from None
        return Answer(self.waited(child), whole(self.out), whole(self.note))

    def waited(self, child: int) -> int:
        """Waits for a run, and kills one that passes its bound, of processor time or, many times longer, by the clock: as if by SIGALRM."""
        late, alarms = False, 0

        def look(number: int, frame: object) -> None:
            nonlocal late, alarms
            alarms += 1
            late = processor_time(child) >= SECONDS or alarms >= MOST_ALARMS
            if late:
                os.kill(child, signal.SIGKILL)
            else:
                signal.alarm(SECONDS)

        before = signal.signal(signal.SIGALRM, look)
        signal.alarm(SECONDS)
        _, status = os.waitpid(child, 0)
        signal.alarm(0)
        signal.signal(signal.SIGALRM, before)
        return -signal.SIGALRM if late else os.waitstatus_to_exitcode(status)


def processor_time(child: int) -> float:
    """Returns how many seconds of processor time a run has taken, and 0 where it has just ended."""
    try:
        with open(f"/proc/{child}/stat", encoding="ascii", errors="replace") as it:
            fields = it.read().rpartition(")")[2].split()
    except OSError:
        return 0
    return (int(fields[11]) + int(fields[12])) / os.sysconf("SC_CLK_TCK")


def whole(file: int) -> bytes:
    """Returns all bytes of a file that is open."""
    size = os.fstat(file).st_size
    return os.pread(file, size, 0) if size else b""
