"""What bytes of object memory and of palettes say (GBATEK, "LCD OBJ - OAM Attributes", "LCD Color Palettes"), and how two contents differ by that."""
from typing import Dict, List, Tuple

# A field of an object's attributes: which of the three, its lowest bit, and how many bits it has.
FIELDS: Dict[str, Tuple[int, int, int]] = {
    "x": (1, 0, 9), "y": (0, 0, 8), "tile": (2, 0, 10), "priority": (2, 10, 2), "palette": (2, 12, 4), "size": (1, 14, 2), "shape": (0, 14, 2),
    "mode": (0, 10, 2), "mosaic": (0, 12, 1), "256 colours": (0, 13, 1), "affine": (0, 8, 1),
}  # fmt: skip
# Fields that stand there for an affine object, and for one that isn't.
OF_AFFINE: Dict[str, Tuple[int, int, int]] = {"double size": (0, 9, 1), "parameters": (1, 9, 5)}
OF_OTHERS: Dict[str, Tuple[int, int, int]] = {"off": (0, 9, 1), "mirrored": (1, 12, 1), "upside down": (1, 13, 1)}
MODES = ("normal", "see-through", "window", "bitmap")
SHAPES = ("square", "wide", "high", "none")
OBJECT_BYTES, OBJECTS = 8, 128
SPACES = ("A's background", "A's object", "B's background", "B's object")
SPACE_BYTES = 0x200


def halves(content: bytes) -> List[int]:
    return [int.from_bytes(content[at : at + 2], "little") for at in range(0, len(content), 2)]


def object_fields(attributes: List[int]) -> Dict[str, str]:
    """Returns what an object's three attributes say, by name."""
    is_affine = attributes[0] >> 8 & 1
    found = {}
    for name, (which, low, bits) in {**FIELDS, **(OF_AFFINE if is_affine else OF_OTHERS)}.items():
        value = attributes[which] >> low & (1 << bits) - 1
        text = str(value - 512 if name == "x" and value >= 256 else value)
        found[name] = MODES[value] if name == "mode" else SHAPES[value] if name == "shape" else ("no", "yes")[value] if bits == 1 else text
    return found


def object_changes(number: int, one: bytes, two: bytes) -> List[str]:
    """Tells of an object's eight bytes each field that differs, and of the parameters of a rotation that lie there."""
    first, second = halves(one), halves(two)
    mine, theirs = object_fields(first[:3]), object_fields(second[:3])
    fields = [f"{name} {mine.get(name, 'none')} and {theirs.get(name, 'none')}" for name in [*mine, *(it for it in theirs if it not in mine)]
              if mine.get(name) != theirs.get(name)]  # fmt: skip
    told = [f"object {number}: {', '.join(fields)}"] if fields else []
    if first[3] != second[3]:
        values = [(it ^ 0x8000) - 0x8000 for it in (first[3], second[3])]
        told.append(f"object parameters {number // 4}: P{'ABCD'[number % 4]} {values[0]} and {values[1]}")
    return told


def colour(value: int) -> str:
    """Writes a colour: its number, and red, green and blue of 0 to 31."""
    return f"{value:04x} (red {value & 31}, green {value >> 5 & 31}, blue {value >> 10 & 31})"


def colour_name(at: int) -> str:
    """Returns which colour of a palette a byte belongs to."""
    number = at % SPACE_BYTES // 2
    return f"{SPACES[at // SPACE_BYTES]} colour {number}{f' (palette {number // 16}, colour {number % 16})' if number >= 16 else ''}"


def changes(memory: str, at: int, one: bytes, two: bytes) -> List[str]:
    """Tells how two contents of object memory or of the palettes differ at a word, by meaning."""
    if memory == "oam":
        begin = at // OBJECT_BYTES * OBJECT_BYTES
        return object_changes(begin // OBJECT_BYTES, one[begin : begin + OBJECT_BYTES], two[begin : begin + OBJECT_BYTES])
    pairs = [(it, halves(one[it : it + 2])[0], halves(two[it : it + 2])[0]) for it in (at, at + 2)]
    return [f"{colour_name(it)}: {colour(a)} and {colour(b)}" for it, a, b in pairs if a != b]
