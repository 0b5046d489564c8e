"""What the loads in a few instructions read: each one's address, from registers at that instruction or, failing that, anywhere in the loop (ARM
Architecture Reference Manual, chapters A5 "Addressing Modes" and A7 "Thumb Instructions")."""
from typing import Callable, Dict, Iterator, List, Optional, Tuple

PC = 15
# Gives the word or half at an address, or None where there is no memory.
Fetch = Callable[[int, int], Optional[int]]
Registers = Dict[str, int]
# A load: the number of its base register, what is added, the number of a register that is added (or None), and how far that is shifted.
Load = Tuple[int, int, Optional[int], int]


def arm_load(word: int) -> Optional[Load]:
    """Returns what an ARM instruction loads from; None where it is no load of one number."""
    sign = 1 if word >> 23 & 1 else -1
    base, is_before = word >> 16 & 15, word >> 24 & 1
    if word >> 26 & 3 == 1 and word >> 20 & 1:
        if word >> 25 & 1:
            return (base, 0, word & 15, word >> 7 & 31) if not word >> 4 & 1 and is_before else None
        return base, sign * (word & 0xFFF) if is_before else 0, None, 0
    if word >> 25 & 7 == 0 and word >> 20 & 1 and word & 0x90 == 0x90 and word >> 5 & 3:
        if word >> 22 & 1:
            return base, sign * (word >> 4 & 0xF0 | word & 15) if is_before else 0, None, 0
        return (base, 0, word & 15, 0) if is_before else None
    return None


def thumb_load(half: int) -> Optional[Load]:
    """Returns what a Thumb instruction loads from; None where it is no load of one number."""
    top, base, offset = half >> 11, half >> 3 & 7, half >> 6 & 31
    if top == 0b01001:
        return PC, 4 * (half & 0xFF), None, 0
    if top in (0b01101, 0b01111, 0b10001):
        return base, offset * {0b01101: 4, 0b01111: 1, 0b10001: 2}[top], None, 0
    if top == 0b10011:
        return 13, 4 * (half & 0xFF), None, 0
    if half >> 12 == 0b0101 and half >> 9 & 7 >= 3:
        return base, 0, half >> 6 & 7, 0
    return None


def value_of(register: int, at: int, is_thumb: bool, registers: Registers) -> int:
    """Returns what a register reads as at an instruction."""
    if register == PC:
        return (at & ~3) + 4 if is_thumb else at + 8
    return registers[f"r{register}"]


def loads(first: int, last: int, is_thumb: bool, fetch: Fetch, seen: Dict[int, Registers]) -> Iterator[int]:
    """Gives the addresses that the loads of some instructions read, but for constants beside the code; `seen` has registers by instruction."""
    size = 2 if is_thumb else 4
    code = [(at, fetch(at, size)) for at in range(first, last + size, size)]
    for at, word in code:
        load = None if word is None else thumb_load(word) if is_thumb else arm_load(word)
        if load is None or load[0] == PC:
            continue
        registers = seen.get(at) or by_constants(at, load, code, is_thumb, fetch) or next(iter(seen.values()))
        address = value_of(load[0], at, is_thumb, registers) + load[1]
        if load[2] is not None:
            address += value_of(load[2], at, is_thumb, registers) << load[3]
        yield address & 0xFFFF_FFFF


def by_constants(at: int, load: Load, code: List[Tuple[int, Optional[int]]], is_thumb: bool, fetch: Fetch) -> Optional[Registers]:
    """Returns the base register's value where an instruction of the loop before takes it from a constant beside the code."""
    for before, word in reversed([it for it in code if it[0] < at]):
        found = None if word is None else thumb_load(word) if is_thumb else arm_load(word)
        into = 0 if word is None else word >> 8 & 7 if is_thumb else word >> 12 & 15
        if found and found[0] == PC and into == load[0]:
            value = fetch(value_of(PC, before, is_thumb, {}) + found[1], 4)
            return None if value is None or load[2] is not None else {f"r{load[0]}": value}
    return None
