"""Moving pictures: an animated PNG of a run's frames, in which each picture has the rows alone that changed (APNG 1.0)."""
import os
import struct
from contextlib import contextmanager
from dataclasses import dataclass
from typing import IO, Iterator, Optional, Tuple

from nds_tools import names, png

ROW = 2 * png.WIDTH
# The time of a frame as a fraction of a second that fits into 16 bits: 1,120,380 / 67,027,964 but for a ten-millionth of a second.
FRAME_TIME = (167, 9_991)
MOST = 0xFFFF
FOREVER = 0
# A picture stays, and the next one is put over it.
STAYS, OVER = 0, 0


def delay(frames: int) -> Tuple[int, int]:
    """Returns the time of some frames as a fraction of a second of which both numbers fit into 16 bits."""
    top, bottom = FRAME_TIME
    if frames * top <= MOST:
        return frames * top, bottom
    hundredths = round(100 * frames * names.FRAME_TICKS / names.SECOND)
    return min(hundredths, MOST), 100


def changed_rows(before: bytes, now: bytes) -> Tuple[int, int]:
    """Returns the first row in which two pictures of one size differ, and the one after the last."""
    count = len(now) // ROW
    differ = [at for at in range(count) if before[at * ROW : (at + 1) * ROW] != now[at * ROW : (at + 1) * ROW]]
    return (differ[0], differ[-1] + 1) if differ else (0, 0)


@dataclass
class Pending:
    """A picture that isn't written yet, since it isn't known how long it stays: its first row, its rows, its packed bytes, and its frame's number."""

    top: int
    rows: int
    body: bytes
    number: int


class Animation:
    """Writes frames to a file as they come; one that is as the one before it makes that one stay longer. It begins again at its end."""

    def __init__(self, file: IO[bytes], scale: int = 1) -> None:
        self.file, self.scale = file, scale
        self.before: bytes = b""
        self.pending: Optional[Pending] = None
        self.pictures, self.sequence, self.counts_at, self.last = 0, 0, 0, 0

    def add(self, pixels: bytes, number: int) -> None:
        """Takes the frame of a number; numbers rise, and all frames have one size."""
        if not self.before:
            self.begin(len(pixels) // ROW)
            top, bottom = 0, len(pixels) // ROW
        else:
            top, bottom = changed_rows(self.before, pixels)
        self.before = pixels
        if top < bottom:
            self.flush(number)
            self.pending = Pending(top, bottom - top, png.compressed(pixels[top * ROW : bottom * ROW], self.scale), number)
        self.last = number

    def begin(self, height: int) -> None:
        """Writes what comes before the pictures; how many there are is written at the end."""
        self.file.write(png.SIGNATURE + png.header(height, self.scale))
        self.counts_at = self.file.tell()
        self.file.write(self.counts())

    def counts(self) -> bytes:
        return png.chunk(b"acTL", struct.pack(">2I", self.pictures, FOREVER))

    def next_number(self) -> bytes:
        self.sequence += 1
        return struct.pack(">I", self.sequence - 1)

    def flush(self, until: int) -> None:
        """Writes the picture that waits, which stays until the frame of a number."""
        it = self.pending
        if it is None:
            return
        size = struct.pack(">4I", png.WIDTH * self.scale, it.rows * self.scale, 0, it.top * self.scale)
        how = struct.pack(">2H2B", *delay(until - it.number), STAYS, OVER)
        self.file.write(png.chunk(b"fcTL", self.next_number() + size + how))
        self.file.write(png.chunk(b"IDAT", it.body) if self.pictures == 0 else png.chunk(b"fdAT", self.next_number() + it.body))
        self.pictures += 1
        self.pending = None

    def end(self) -> None:
        """Writes the last picture, and how many there are; without a frame it writes nothing."""
        if not self.before:
            return
        self.flush(self.last + 1)
        self.file.write(png.chunk(b"IEND", b""))
        self.file.seek(self.counts_at)
        self.file.write(self.counts())


@contextmanager
def animation(path: str, scale: int = 1) -> Iterator[Animation]:
    """Gives an animation that becomes the file when it is whole; where something fails, or no frame came, there is none."""
    new = f"{path}.new"
    try:
        with open(new, "wb") as file:
            whole = Animation(file, scale)
            yield whole
            whole.end()
        if whole.pictures:
            os.replace(new, path)
    finally:
        if os.path.exists(new):
            os.remove(new)
