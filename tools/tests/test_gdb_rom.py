"""The unwinder of the boot ROM stub, without gdb: at each word of the stub's listing, what stands on the stacks there is followed by hand."""
import importlib.util
import re
import unittest

from made import TOOLS, TOP

# (its name is a file's for gdb to read, and no module's)
SPEC = importlib.util.spec_from_file_location("rom", f"{TOOLS}/nds-gdb-rom.py")
rom = importlib.util.module_from_spec(SPEC)
SPEC.loader.exec_module(rom)

IRQ, SUPERVISOR, SYSTEM = 0x12, 0x13, 0x1F
BANKS = {IRQ: "irq", SUPERVISOR: "svc", SYSTEM: "usr"}
# Where functions begin, as the dispatcher calls them; VBlankIntrWait at BCh goes on in IntrWait.
FUNCTIONS = (0xB0, 0xBC, 0x128, 0x138, 0x1A0)
STACKS = {IRQ: 0x3003F80, SUPERVISOR: 0x3003FC0, SYSTEM: 0x3002F00}
BACK = 0x2000124


def statements():
    with open(f"{TOP}/examples/boot_rom.arm9.txt") as it:
        return [line.strip() for line in it][1:]


class Stub:
    """The stub, entered from a mode, as it stands at some offset: what was pushed where, and every other register as its caller had it."""

    def __init__(self, entry, caller_mode):
        self.entry, self.caller_mode, self.mode = entry, caller_mode, IRQ if entry == 0x20 else SUPERVISOR
        self.memory, self.pushed = {}, set()
        self.sp = dict(STACKS)
        self.values = {f"r{it}": 0x10000 + it for it in range(13)}
        self.link = {it: 0x20000 + it for it in STACKS}
        self.link[self.mode] = BACK + 4 * (entry == 0x20)
        self.is_caller_s_link = {it: it == caller_mode for it in STACKS}

    def named(self, name):
        return f"r14_{BANKS[self.mode]}" if name in ("r14", "lr") else name

    def value(self, name):
        return self.link[self.mode] if name == "r14" else self.values[name]

    def take(self, statement):
        """Follows one statement, as far as stacks and modes go."""
        found = re.fullmatch(r"(stmdb|ldmia) r13!, \{(.*)\}", statement)
        if found and found[1] == "stmdb":
            names = found[2].split(",")
            self.sp[self.mode] -= 4 * len(names)
            for index, name in enumerate(names):
                self.memory[self.sp[self.mode] + 4 * index] = self.value(name)
                if name == "r14":
                    self.link[self.mode] = 0xBAD0
                else:
                    self.values[name] = 0xBAD1
        elif found:
            for index, name in enumerate(found[2].split(",")):
                word = self.memory.pop(self.sp[self.mode] + 4 * index)
                if name == "r14":
                    self.link[self.mode] = word
                elif name != "r15":
                    self.values[name] = word
            self.sp[self.mode] += 4 * len(found[2].split(","))
        elif statement == "mrs r11, spsr":
            self.values["r11"] = 0x60000000 | self.caller_mode
        elif statement == "msr cpsr_c, r11":
            self.mode = SYSTEM
        elif statement == "msr cpsr_c, r12":
            self.mode = SUPERVISOR
        elif statement.startswith("ldrb r12"):
            self.values["r12"] = 0xBAD2

    def number(self, base, at):
        def found(name):
            if name in ("sp", "lr"):
                return self.sp[self.mode] if name == "sp" else self.link[self.mode]
            if name.startswith("spsr"):
                return 0x60000000 | self.caller_mode
            kind, _, bank = name.partition("_")
            mode = next(it for it, named in BANKS.items() if named == bank)
            return self.sp[mode] if kind == "r13" else self.link[mode]

        return found

    def caller(self, base, at):
        return rom.caller(base + at, self.mode, self.number(base, at), lambda place: self.memory[place])


class RomUnwinder(unittest.TestCase):
    def compared(self, stub, base, at):
        """Compares what is found with what the caller had."""
        found = stub.caller(base, at)
        with self.subTest(at=hex(at), mode=hex(stub.mode), caller=hex(stub.caller_mode)):
            self.assertEqual((found["pc"], found["cpsr"]), (BACK, 0x60000000 | stub.caller_mode))
            self.assertEqual((found["sp"], found["lr"]), (STACKS[stub.caller_mode], 0x20000 + stub.caller_mode))
            for name in ("r2", "r3", "r4", "r5", "r11", "r12"):
                self.assertEqual(found.get(name, stub.values[name]), 0x10000 + int(name[1:]), name)

    def followed(self, entry, first, base, caller_mode, through):
        """Goes from the entry on to a function and through it, and compares at each word."""
        words = statements()
        stub = Stub(entry, caller_mode)
        at = first
        for upto in through:
            while True:
                self.compared(stub, base, at)
                stub.take(words[at // 4])
                if at == upto[0]:
                    at = upto[1]
                    break
                at += 4
        self.assertEqual((stub.sp, stub.memory), (STACKS, {}), "all is taken back")

    def test_each_word_of_an_interrupt(self):
        for base in (0, 0xFFFF0000):
            self.followed(0x20, 0x20, base, SYSTEM, [(0x40, 0)])

    def test_each_word_of_each_function(self):
        ends = {0xB0: 0xB8, 0xBC: 0x124, 0x128: 0x134, 0x138: 0x19C, 0x1A0: 0x1E0}
        calls = {int(it.split()[1], 16) & 0xFFF: 4 * at for at, it in enumerate(statements()) if it.startswith("bleq")}
        self.assertEqual(sorted(calls), sorted([*FUNCTIONS, 0xC4]))
        for base in (0, 0xFFFF0000):
            for function in FUNCTIONS:
                for caller_mode in (SYSTEM, IRQ):
                    at = calls[function]
                    self.followed(0x44, 0x44, base, caller_mode, [(at, function), (ends[function], at + 4), (0xAC, 0)])

    def test_elsewhere_nothing_is_said(self):
        nothing = lambda _: self.fail("nothing is looked at")
        for pc, mode in ((0x2000000, SYSTEM), (0x1E4, SYSTEM), (0xFFFF01E4, SYSTEM), (4, 0x1B), (0x100, IRQ), (0x60, SUPERVISOR)):
            self.assertEqual(rom.caller(pc, mode, nothing, nothing), {})


if __name__ == "__main__":
    unittest.main()
