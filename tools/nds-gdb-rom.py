"""Frames of the boot ROM stub for gdb: who called a function of it, as the wait for V-blank, and what an interrupt broke into.

    (gdb) source tools/nds-gdb-rom.py

The stub has no symbols, so that `backtrace` ends where a processor waits in it, and `finish` and `up` don't work. With this they do. From an
interrupt's handler gdb stops at the stub's entry all the same ("previous frame inner to this frame"), since the stack of IRQ mode lies below the
program's: nothing that is read here changes that."""
from typing import Callable, Dict, List, Tuple

END = 0x1E4
USER, IRQ, SUPERVISOR, SYSTEM = 0x10, 0x12, 0x13, 0x1F
# What stands on a stack while the next instruction is one from the first offset to the last, the lowest word first (docs/BOOT_ROM.md):
# on IRQ's, on Supervisor's, and on System's the dispatcher's below those of functions.
ON_IRQ = [(0x24, 0x3C, "r0 r1 r2 r3 r12 lr")]
ON_SUPERVISOR = [(0x48, 0x50, "r11 r12 lr"), (0x54, 0x5C, "cpsr r11 r12 lr"), (0xA0, 0xA0, "cpsr r11 r12 lr"), (0xA4, 0xA8, "r11 r12 lr")]
BY_FUNCTION = [(0xC8, 0x124, "r3 r4 -"), (0x13C, 0x198, "r4 r5"), (0x1A4, 0x1DC, "r3 r4")]
BY_DISPATCHER = [(0x64, 0x94, "r2 lr"), (0xB0, 0x1E0, "r2 lr")]

Rows = List[Tuple[int, int, str]]
Values = Dict[str, int]


def popped(rows: Rows, at: int, stack: int, word: Callable[[int], int]) -> Tuple[Values, int]:
    """Returns what stands on a stack at an offset of the stub, by the registers' names, and where the stack is when that is taken back."""
    for first, last, names in rows:
        if first <= at <= last:
            values = {name: word(stack + 4 * index) for index, name in enumerate(names.split())}
            values.pop("-", None)
            return values, stack + 4 * len(names.split())
    return {}, stack


def stack_of(mode: int, number: Callable[[str], int]) -> Values:
    """Returns stack and link register of the mode that called or was broken into."""
    bank = {IRQ: "irq", SUPERVISOR: "svc"}.get(mode & 31, "usr")
    return {"sp": number(f"r13_{bank}"), "lr": number(f"r14_{bank}")}


def broken_into(at: int, number: Callable[[str], int], word: Callable[[int], int]) -> Values:
    """Returns the registers of what an interrupt broke into, in its entry or its return."""
    values, _ = popped(ON_IRQ, at, number("sp"), word)
    back = values.get("lr", number("lr"))
    before = number("spsr_irq")
    return {**values, **stack_of(before, number), "pc": back - 4, "cpsr": before}


def called_by(at: int, number: Callable[[str], int], word: Callable[[int], int]) -> Values:
    """Returns the registers of who called a function, while the stub is in Supervisor mode: at the function's entry and return."""
    values, _ = popped(ON_SUPERVISOR, at, number("sp"), word)
    back = values.get("lr", number("lr"))
    before = values.get("cpsr", number("spsr_svc"))
    return {**values, **stack_of(before, number), "pc": back, "cpsr": before}


def waits_for(at: int, number: Callable[[str], int], word: Callable[[int], int]) -> Values:
    """Returns the registers of who called a function, while that runs: in System mode, over what the entry left on Supervisor's stack."""
    own, stack = popped(BY_FUNCTION, at, number("sp"), word)
    more, stack = popped(BY_DISPATCHER, at, stack, word)
    kept = [word(number("r13_svc") + 4 * it) for it in range(4)]
    before, values = kept[0], {**own, **more, "r11": kept[1], "r12": kept[2], "pc": kept[3], "cpsr": kept[0]}
    is_same_stack = before & 31 in (USER, SYSTEM)
    return {**values, **({"sp": stack, "lr": values.get("lr", number("lr"))} if is_same_stack else stack_of(before, number))}


def caller(pc: int, mode: int, number: Callable[[str], int], word: Callable[[int], int]) -> Values:
    """Returns the registers of the frame above one of the stub's, by a register's number and a word of memory; nothing elsewhere."""
    at = pc - 0xFFFF0000 if pc >= 0xFFFF0000 else pc
    if at >= END:
        return {}
    if mode == IRQ and (at == 0x18 or 0x20 <= at <= 0x40):
        return broken_into(at, number, word)
    if mode == SUPERVISOR and (at == 8 or 0x44 <= at <= 0x5C or 0xA0 <= at <= 0xAC):
        return called_by(at, number, word)
    if mode == SYSTEM and 0x60 <= at:
        return waits_for(at, number, word)
    return {}


def register() -> None:
    """Tells gdb of it."""
    import gdb
    from gdb.unwinder import Unwinder, register_unwinder

    class Place:
        """What gdb knows a frame by."""

        def __init__(self, sp: int, pc: int):
            self.sp, self.pc = gdb.Value(sp), gdb.Value(pc)

    class Rom(Unwinder):
        """Finds the frame above one of the stub's."""

        def __init__(self) -> None:
            super().__init__("nds-boot-rom")

        def __call__(self, frame):  # type: ignore
            def number(name: str) -> int:
                return int(frame.read_register(name)) & 0xFFFFFFFF

            def word(at: int) -> int:
                return int.from_bytes(gdb.selected_inferior().read_memory(at & 0xFFFFFFFF, 4).tobytes(), "little")

            try:
                found = caller(number("pc"), number("cpsr") & 31, number, word)
            except (gdb.MemoryError, ValueError):
                return None
            if not found:
                return None
            info = frame.create_unwind_info(Place(number("sp"), number("pc")))
            for it in frame.architecture().registers():
                value = frame.read_register(it)
                info.add_saved_register(it, gdb.Value(found[it.name] & 0xFFFFFFFF).cast(value.type) if it.name in found else value)
            return info

    register_unwinder(None, Rom(), replace=True)
    gdb.invalidate_cached_frames()


if __name__ == "__main__":
    register()
