"""Pictures of frames that are kept beside a test's sums: read back from PNG, and compared with what a run draws."""
import struct
import zlib
from typing import Dict, List

from nds_tools import png
from nds_tools.words import Untold, bytes_of

SIGNATURE = b"\x89PNG\r\n\x1a\n"
# Bytes a pixel by PNG's type of colour: red, green and blue, and these with an opacity.
CHANNELS = {2: 3, 6: 4}
# How far a picture is looked for that was moved.
MOVED = 8


def parts_of(name: str, whole: bytes) -> Dict[bytes, bytes]:
    """Returns the chunks of a PNG, those of the same kind joined; a sum that is wrong is refused."""
    found: Dict[bytes, bytes] = {}
    at = len(SIGNATURE)
    while at + 12 <= len(whole):
        size, kind = struct.unpack_from(">I4s", whole, at)
        content, tail = whole[at + 8 : at + 8 + size], whole[at + 8 + size : at + 12 + size]
        if len(tail) < 4 or struct.unpack(">I", tail)[0] != zlib.crc32(kind + content):
            raise Untold(f"{name} is a damaged PNG")
        found[kind] = found.get(kind, b"") + content
        at += 12 + size
    return found


def nearest(left: int, up: int, corner: int) -> int:
    """Returns PNG's Paeth predictor: which of the three is nearest to left + up - corner."""
    guess = left + up - corner
    return min((abs(guess - left), 0, left), (abs(guess - up), 1, up), (abs(guess - corner), 2, corner))[2]


def unfiltered(kind: int, row: bytearray, above: bytes, step: int) -> None:
    """Takes PNG's filter off a row of bytes."""
    for at in range(len(row)):
        left = row[at - step] if at >= step else 0
        if kind == 1:
            more = left
        elif kind == 2:
            more = above[at]
        elif kind == 3:
            more = (left + above[at]) // 2
        else:
            more = nearest(left, above[at], above[at - step] if at >= step else 0)
        row[at] = (row[at] + more) & 0xFF


def rows_of(name: str, raw: bytes, width: int, height: int, step: int) -> List[bytes]:
    """Returns the rows of a picture's bytes, without their filters."""
    length = 1 + width * step
    if len(raw) != length * height:
        raise Untold(f"{name} is a damaged PNG")
    rows: List[bytes] = []
    above = bytes(length - 1)
    for at in range(0, len(raw), length):
        kind, row = raw[at], bytearray(raw[at + 1 : at + length])
        if kind > 4:
            raise Untold(f"{name} is a damaged PNG")
        if kind:
            unfiltered(kind, row, above, step)
        above = bytes(row)
        rows.append(above)
    return rows


def read(name: str) -> bytes:
    """Returns the pixels of a kept picture as a frame has them, 16 bits each: of one screen or of both."""
    whole = bytes_of(name)
    parts = parts_of(name, whole) if whole.startswith(SIGNATURE) else {}
    if len(parts.get(b"IHDR", b"")) != 13 or b"IDAT" not in parts:
        raise Untold(f"{name} is no PNG")
    width, height, depth, colour, _, _, interlaced = struct.unpack(">2I5B", parts[b"IHDR"])
    if width != png.WIDTH or height not in (png.HEIGHT, 2 * png.HEIGHT) or depth != 8 or colour not in CHANNELS or interlaced:
        raise Untold(f"{name} isn't such a PNG as nds-test writes: {png.WIDTH} pixels wide, red, green and blue of 8 bits")
    step = CHANNELS[colour]
    try:
        raw = zlib.decompress(parts[b"IDAT"])
    except zlib.error:
        raise Untold(f"{name} is a damaged PNG") from None
    pixels = bytearray()
    for row in rows_of(name, raw, width, height, step):
        for at in range(0, len(row), step):
            pixels += struct.pack("<H", row[at] >> 3 | row[at + 1] >> 3 << 5 | row[at + 2] >> 3 << 10)
    return bytes(pixels)


def changed(before: bytes, now: bytes) -> List[int]:
    """Returns the places of the pixels that differ; where one picture is longer, of what both have."""
    if before == now:
        return []
    return [at for at, (a, b) in enumerate(zip(png.pixels_of(before), png.pixels_of(now))) if (a ^ b) & 0x7FFF]


def boxes(places: List[int]) -> str:
    """Tells of pixels that differ how many there are, and the least box that holds them, by screen."""
    told = []
    for screen, first in (("upper", 0), ("lower", png.WIDTH * png.HEIGHT)):
        mine = [it - first for it in places if first <= it < first + png.WIDTH * png.HEIGHT]
        if mine:
            rows, columns = [it // png.WIDTH for it in mine], [it % png.WIDTH for it in mine]
            box = f"({min(columns)}, {min(rows)}) to ({max(columns)}, {max(rows)})"
            told.append(f"{len(mine):,} pixel{'' if len(mine) == 1 else 's'} of the {screen} screen in the box {box}")
    return " and ".join(told)


def rows_in(content: bytes) -> List[bytes]:
    return [content[at : at + 2 * png.WIDTH] for at in range(0, len(content), 2 * png.WIDTH)]


def is_moved(before: List[bytes], now: List[bytes], right: int, down: int) -> bool:
    """Whether a screen's rows are other rows moved by some pixels, but for those that come in at the edges, and differ from them between these."""
    first, last = max(right, 0), png.WIDTH + min(right, 0)
    differs = False
    for row in range(max(down, 0), len(before) + min(down, 0)):
        here = now[row][2 * first : 2 * last]
        if here != before[row - down][2 * (first - right) : 2 * (last - right)]:
            return False
        differs = differs or here != before[row][2 * first : 2 * last]
    return differs


def moved(before: bytes, now: bytes) -> str:
    """Tells where a screen's picture is the one before, moved by up to MOVED pixels; nothing where it isn't."""
    screen, told = 2 * png.WIDTH * png.HEIGHT, []
    for name, at in (("upper", 0), ("lower", screen)):
        one, two = rows_in(before[at : at + screen]), rows_in(now[at : at + screen])
        if one == two:
            continue
        ways = [(x, y) for y in range(-MOVED, MOVED + 1) for x in range(-MOVED, MOVED + 1)]
        found = next((it for it in sorted(ways, key=lambda it: abs(it[0]) + abs(it[1])) if is_moved(one, two, *it)), None)
        if found:
            told.append(f"the {name} screen is as it was, moved by ({found[0]}, {found[1]})")
    return "; ".join(told)


def write_difference(folder: str, name: str, before: bytes, now: bytes) -> str:
    """Writes a picture of what differs, red over the dimmed picture that was kept, and returns its path."""
    places, table = set(changed(before, now)), png.colours()

    def paint(at: int, value: int) -> bytes:
        return b"\xff\0\0" if at in places else bytes(it // 4 for it in table[value & 0x7FFF])

    return png.write(folder, name, before, 1, paint)


def write_three(folder: str, stem: str, before: bytes, now: bytes) -> str:
    """Writes what was expected, what is there and the difference; returns the path of the last."""
    png.write(folder, f"{stem}-expected.png", before)
    png.write(folder, f"{stem}-actual.png", now)
    return write_difference(folder, f"{stem}-difference.png", before, now)
