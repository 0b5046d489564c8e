"""What the program has to answer, said anew from docs/FORMATS.md, SCRIPTS.md, LISTING.md and STATES.md: the tools' own reading of those pages."""
import re
import struct
from typing import Dict, List, Optional, Tuple

from nds_tools.hostile.answers import Answer
from nds_tools.state_fields import read_state
from nds_tools.states import MOST_BYTES, Broken, Wanted, digest_of

USAGE = "usage: nds run|list|asm|trace|peek|demo|save|resume"
MEMORIES = {"main": 4194304, "wram": 32768, "wram7": 65536, "itcm": 32768, "dtcm": 16384, "palette": 2048, "vram": 671744, "oam": 2048}
KEYS = ("A", "B", "SELECT", "START", "RIGHT", "LEFT", "UP", "DOWN", "R", "L", "X", "Y")
KINDS = ("NotYet", "Swi", "BigEndian", "HaltMode", "DmaStart", "CardTransfer", "DisplayMode", "BgMode", "Capture", "Mosaic", "ExtendedBackground", "BitmapObject")
MOST_CART, MOST_SCRIPT, MOST_IMAGE, MOST_TICKS = 33_554_432, 4_194_304, 4_194_304, 100_000_000_000
TICK = re.compile(rb"(0|[1-9][0-9]{0,10})\Z")
NOTE = re.compile(rb"left out: ([A-Za-z]+) tick (\d+) actor (\d+) value 0x([0-9a-f]{8})\n\Z")

Refusal = Tuple[int, str]


def number(word: str, least: int, most: int) -> bool:
    """Whether a word is a number in this range, in decimal digits without a leading zero."""
    return word.isascii() and word.isdigit() and (word == "0" or word[0] != "0") and len(word) < 20 and least <= int(word) <= most


def accepted(words: List[str]) -> bool:
    """Whether the words ask for something."""
    if not words or any(not it or it.startswith("-") for it in words):
        return False
    command, more = words[0], words[1:]
    if command == "asm":
        return len(more) == 1
    if command == "list":
        return len(more) == 2 and more[1] in ("9", "7", "9t", "7t")
    if command == "demo":
        return len(more) == 2 and number(more[0], 0, 2**32 - 1) and number(more[1], 1, MOST_TICKS)
    if command == "resume":
        command, more = "run", more[1:]
    if command not in ("run", "trace", "peek", "save") or len(more) < 3 or not number(more[2], 1, MOST_TICKS):
        return False
    if command == "run":
        return len(more) == 4 and more[3] in ("all", "last", "none")
    if command == "save":
        return len(more) == 3
    if command == "trace":
        return len(more) == 5 and more[3] in ("9", "7") and number(more[4], 1, 1_000_000)
    if len(more) != 6 or more[3] not in MEMORIES:
        return False
    return number(more[4], 0, 2**40) and number(more[5], 1, 4096) and int(more[4]) + int(more[5]) <= MEMORIES[more[3]]


def in_main(at: int, size: int) -> bool:
    """Whether bytes lie in main memory's addresses."""
    return 0x0200_0000 <= at <= 0x02FF_FFFF and at + size <= 0x0300_0000


def in_work(at: int, size: int) -> bool:
    """Whether bytes lie where ARM7's image may beside main memory."""
    return 0x037F_8000 <= at <= 0x0380_FFFF and at + size <= 0x0381_0000


def header_fault(cart: bytes) -> Optional[Tuple[str, int]]:
    """Returns the first rule that a cartridge's header breaks, by its field and the value."""
    if len(cart) < 512:
        return "Short", len(cart)
    if cart[0x12] not in (0, 2):
        return "UnitCode", cart[0x12]
    for name, at, seven in (("Arm9", 0x20, False), ("Arm7", 0x30, True)):
        offset, entry, place, size = struct.unpack_from("<4I", cart, at)
        if size > MOST_IMAGE or offset + size > len(cart):
            return f"{name}Rom", offset
        if not (in_main(place, size) or seven and in_work(place, size)):
            return f"{name}Place", place
        if entry % 4 or not (in_main(entry, 0) or seven and in_work(entry, 0)):
            return f"{name}Entry", entry
    return None


def begins_keys(text: str) -> bool:
    """Whether a text begins some line's keys."""
    if text in ("", "-"):
        return True
    *named, last = text.split("+")
    places = [KEYS.index(it) if it in KEYS else -1 for it in named]
    if -1 in places or places != sorted(set(places)):
        return False
    after = places[-1] + 1 if places else 0
    return any(it.startswith(last) for it in KEYS[after:])


def begins_line(text: bytes) -> bool:
    """Whether a text begins some line of a script."""
    tick, space, keys = text.partition(b" ")
    if not space:
        return tick == b"" or bool(TICK.match(tick))
    return bool(TICK.match(tick)) and begins_keys(keys.decode("latin-1"))


def is_line(text: bytes) -> bool:
    """Whether a text is a line of a script."""
    tick, space, keys = text.partition(b" ")
    if not space or not TICK.match(tick):
        return False
    names = keys.decode("latin-1").split("+")
    places = [KEYS.index(it) if it in KEYS else -1 for it in names]
    return keys == b"-" or -1 not in places and places == sorted(set(places))


def script_fault(script: bytes) -> Optional[Tuple[int, int]]:
    """Returns the line and the column of the first bad line, from 1."""
    lines = script.split(b"\n")
    if lines[-1] == b"":
        lines.pop()
    before = -1
    for at, line in enumerate(lines, 1):
        if not is_line(line):
            longest = max(it for it in range(len(line) + 1) if begins_line(line[:it]))
            return at, longest + 1
        tick = int(line.partition(b" ")[0])
        if tick <= before:
            return at, 1
        before = tick
    return None


def cart_refusal(name: str, files: Dict[str, bytes]) -> Optional[Refusal]:
    """Returns the status and the note of a cartridge that is refused."""
    cart = files.get(name)
    if cart is None:
        return 3, f"no file: {name}"
    if len(cart) > MOST_CART:
        return 6, f"too long: {name}"
    fault = header_fault(cart)
    return (7, f"bad header: {fault[0]} 0x{fault[1]:08x}") if fault else None


def script_refusal(name: str, files: Dict[str, bytes]) -> Optional[Refusal]:
    """Returns the status and the note of a script that is refused."""
    if name == "none":
        return None
    script = files.get(name)
    if script is None:
        return 3, f"no file: {name}"
    if len(script) > MOST_SCRIPT:
        return 6, f"too long: {name}"
    fault = script_fault(script)
    return (8, f"bad script: line {fault[0]} column {fault[1]}") if fault else None


def ticks_of(words: List[str]) -> int:
    """Returns the tick that accepted words run to."""
    return int(words[{"demo": 2, "resume": 4}.get(words[0], 3)])


def state_fault(state: bytes, cart: bytes, until: int) -> Optional[int]:
    """Returns the offset at which bytes are no state of a cartridge for a run to a tick; None where they are one."""
    try:
        read_state(state, Wanted(digest_of(cart), until))
    except Broken as why:
        return why.offset
    return None


def resume_refusal(words: List[str], files: Dict[str, bytes]) -> Optional[Refusal]:
    """Returns the status and the note of a run from a state that is refused by its files."""
    name, cart, keys = words[1:4]
    state = files.get(name)
    if state is None:
        return 3, f"no file: {name}"
    if len(state) > MOST_BYTES:
        return 6, f"too long: {name}"
    found = cart_refusal(cart, files) or script_refusal(keys, files)
    if found:
        return found
    offset = state_fault(state, files[cart], ticks_of(words))
    return None if offset is None else (11, f"bad state: offset {offset}")


def refusal(words: List[str], files: Dict[str, bytes]) -> Optional[Refusal]:
    """Returns the status and the note that come before anything is run, or None where the files and words are accepted. (Of a text it tells only whether it is there.)"""
    if not accepted(words):
        return 2, USAGE
    command = words[0]
    if command == "demo":
        return None
    if command == "asm":
        return None if words[1] in files else (3, f"no file: {words[1]}")
    if command == "resume":
        return resume_refusal(words, files)
    found = cart_refusal(words[1], files)
    return found or (None if command == "list" else script_refusal(words[2], files))


def wrong_stop(words: List[str], answer: Answer) -> Optional[str]:
    """Returns what is wrong with the answer of a run that stopped."""
    told = NOTE.match(answer.note)
    if not told or told[1].decode() not in KINDS[1:]:
        return "the note of the stop is none"
    kind, tick, rank, value = KINDS.index(told[1].decode()) + 1, int(told[2]), int(told[3]), int(told[4], 16)
    if tick >= ticks_of(words) or rank > 23:
        return "the stop isn't below the limit"
    if words[0] in ("run", "resume") and not answer.out.endswith(b"X" + struct.pack("<QBBI", tick, rank, kind, value)):
        return "the record isn't the note's"
    return "there is output" if words[0] in ("peek", "demo", "save") and answer.out else None


def wrong_state(words: List[str], files: Dict[str, bytes], answer: Answer) -> Optional[str]:
    """Returns what is wrong with a state that was saved."""
    cart, ticks = files[words[1]], ticks_of(words)
    offset = state_fault(answer.out, cart, ticks + 1)
    if offset is not None:
        return f"what is saved is no state: offset {offset}"
    return None if read_state(answer.out).tick == ticks else "the state isn't the tick's"


def wrong_end(words: List[str], files: Dict[str, bytes], answer: Answer) -> Optional[str]:
    """Returns what is wrong with the answer of a command that came to its end."""
    if answer.note:
        return "there is a note"
    if words[0] == "save":
        return wrong_state(words, files, answer)
    if words[0] in ("run", "resume"):
        ticks, nine, seven, events, turns = struct.unpack("<5Q", answer.out[-40:])
        if answer.out[-41:-40] != b"E" or ticks != ticks_of(words):
            return "the record of the end isn't the run's"
        if nine + seven + events > 24 * ticks or turns > nine + seven + events:
            return "the counts are too large"
        return None if len(answer.out) >= 5_017_938 else "the output is too short"
    if words[0] == "trace":
        lines = answer.out.split(b"\n")
        return None if lines[-1] == b"" and len(lines) - 1 <= int(words[5]) else "the trace has no such lines"
    if words[0] == "peek":
        return None if len(answer.out) == sum(10 + 3 * min(16, int(words[6]) - it) for it in range(0, int(words[6]), 16)) else "the peek's length is wrong"
    return None


def wrong(words: List[str], files: Dict[str, bytes], answer: Answer) -> Optional[str]:
    """Returns what is wrong with an answer, or None where it has its cause. Texts are judged by those who made them."""
    wanted = refusal(words, files)
    if wanted:
        right = answer.status == wanted[0] and answer.note == wanted[1].encode() + b"\n" and not answer.out
        return None if right else f"wanted status {wanted[0]}, {wanted[1]}"
    if answer.status == 9 and words[0] not in ("list", "asm"):
        return wrong_stop(words, answer)
    if answer.status == 10 and words[0] == "asm":
        return None if re.match(rb"bad text: line [1-9]\d*\n\Z", answer.note) and not answer.out else "the note is none"
    return wrong_end(words, files, answer) if answer.status == 0 else f"{answer.name()} has no cause"
