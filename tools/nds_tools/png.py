"""Pictures: PNG files of screens, whose channels of five bits are widened to eight."""
import functools
import os
import struct
import zlib
from array import array
from typing import Callable, List, Optional
import sys

WIDTH, HEIGHT = 256, 192


def widened(channel: int) -> int:
    """Returns the eight bits of a channel of five."""
    return (channel << 3) + (channel >> 2)


@functools.lru_cache(maxsize=None)
def colours() -> List[bytes]:
    """Returns red, green and blue of each pixel value without its bit 15, made at the first use, and whole for whoever asks meanwhile."""
    wide = [widened(it) for it in range(32)]
    return [bytes((wide[it & 31], wide[it >> 5 & 31], wide[it >> 10])) for it in range(0x8000)]


def pixels_of(content: bytes) -> array:
    """Returns pixels as numbers, whatever this computer's order of bytes is."""
    found = array("H", content)
    if sys.byteorder == "big":
        found.byteswap()
    return found


def chunk(kind: bytes, content: bytes) -> bytes:
    return struct.pack(">I", len(content)) + kind + content + struct.pack(">I", zlib.crc32(kind + content))


SIGNATURE = b"\x89PNG\r\n\x1a\n"
Paint = Callable[[int, int], bytes]


def header(height: int, scale: int = 1) -> bytes:
    """Returns the part that tells the size: 256 pixels wide, `height` high, each pixel `scale` wide and high, with three channels of eight bits."""
    return chunk(b"IHDR", struct.pack(">2I5B", WIDTH * scale, height * scale, 8, 2, 0, 0, 0))


def compressed(content: bytes, scale: int = 1, paint: Optional[Paint] = None) -> bytes:
    """Returns the packed rows of 256 pixels, each pixel `scale` wide and high; `paint` gives a pixel's colour by place and value."""
    table, pixels, rows = colours(), pixels_of(content), []
    for at in range(0, len(pixels), WIDTH):
        if paint:
            row = b"".join(paint(at + x, it) * scale for x, it in enumerate(pixels[at : at + WIDTH]))
        elif scale == 1:
            row = b"".join([table[it & 0x7FFF] for it in pixels[at : at + WIDTH]])
        else:
            row = b"".join([table[it & 0x7FFF] * scale for it in pixels[at : at + WIDTH]])
        rows.append((b"\0" + row) * scale)
    return zlib.compress(b"".join(rows), 6)


def encoded(content: bytes, scale: int = 1, paint: Optional[Paint] = None) -> bytes:
    """Returns a PNG of rows of 256 pixels, as `compressed` takes them."""
    body = chunk(b"IDAT", compressed(content, scale, paint)) + chunk(b"IEND", b"")
    return SIGNATURE + header(len(content) // (2 * WIDTH), scale) + body


def write(folder: str, name: str, content: bytes, scale: int = 1, paint: Optional[Paint] = None) -> str:
    """Writes a picture into a folder, which is made where it isn't there, and returns its path."""
    os.makedirs(folder, exist_ok=True)
    path = os.path.join(folder, name)
    with open(path, "wb") as it:
        it.write(encoded(content, scale, paint))
    return path
