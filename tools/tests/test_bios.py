"""examples/bios: its functions, compiled for this computer, undo what is packed here in Python; its unit tests on the console are those of nds-test.

Without a compiler for this computer the first are left out, and without a built program the others."""
import ctypes
import heapq
import os
import random
import re
import shutil
import subprocess
import unittest

from built import CLANG, PROGRAM, has_compiler
from made import TOOLS, TOP, Room

from nds_tools import names

COMPILER = next((it for it in ("cc", "clang", "gcc") if shutil.which(it)), None)
BIOS = f"{TOP}/examples/bios"
UNITS = ("crc", "libnds", "numbers", "packed", "unpack", "video")


def head(kind, size):
    """Returns the word before what is packed: the kind, and the size unpacked."""
    return bytes((kind,)) + size.to_bytes(3, "little")


def with_lz77(content):
    """Packs bytes by LZ77, greedily."""
    packed, at = bytearray(head(0x10, len(content))), 0
    while at < len(content):
        flags, pieces = 0, bytearray()
        for bit in range(7, -1, -1):
            found = max(((count, back) for back in range(1, min(at, 4096) + 1) for count in [matching(content, at, back)]), default=(0, 0))
            if found[0] >= 3:
                flags |= 1 << bit
                pieces += bytes(((found[0] - 3) << 4 | (found[1] - 1) >> 8, (found[1] - 1) & 0xFF))
                at += found[0]
            elif at < len(content):
                pieces.append(content[at])
                at += 1
        packed += bytes((flags,)) + pieces
    return bytes(packed)


def matching(content, at, back):
    """Returns how many bytes from a place on are those that stand some bytes before, 18 at most."""
    count = 0
    while count < 18 and at + count < len(content) and content[at + count] == content[at + count - back]:
        count += 1
    return count


def with_runs(content):
    """Packs bytes by runs of three and more."""
    packed, at, loose = bytearray(head(0x30, len(content))), 0, bytearray()
    while at < len(content):
        count = next((it for it in range(1, 130) if content[at : at + it + 1] != content[at : at + 1] * (it + 1)), 130)
        if count >= 3 or len(loose) == 128:
            packed += bytes((len(loose) - 1,)) + loose if loose else b""
            loose = bytearray()
        if count >= 3:
            packed += bytes((0x80 | count - 3, content[at]))
            at += count
        else:
            loose.append(content[at])
            at += 1
    return bytes(packed + (bytes((len(loose) - 1,)) + loose if loose else b""))


def with_codes(units, bits):
    """Packs units of some bits by Huffman's codes, with the tree laid out level by level."""
    heap = [(units.count(it), number, it) for number, it in enumerate(sorted(set(units)))]
    heapq.heapify(heap)
    number = len(heap)
    while len(heap) > 1:
        one, two = heapq.heappop(heap), heapq.heappop(heap)
        heapq.heappush(heap, (one[0] + two[0], number, (one[2], two[2])))
        number += 1
    tree, codes, waiting = [None], {}, [(0, heap[0][2], "")]
    while waiting:
        place, pair, code = waiting.pop(0)
        first = len(tree)
        # (the root is byte 5 of the source, which lies at an even address)
        offset = (5 + first - (5 + place & ~1) - 2) // 2
        assert offset < 64, offset
        tree[place] = offset | (not isinstance(pair[0], tuple)) << 7 | (not isinstance(pair[1], tuple)) << 6
        for bit, child in enumerate(pair):
            tree.append(child)
            if isinstance(child, tuple):
                waiting.append((first + bit, child, f"{code}{bit}"))
            else:
                codes[child] = f"{code}{bit}"
    stream = "".join(codes[it] for it in units)
    stream += "0" * (-len(stream) % 32)
    size = 1 + len(tree) + -(1 + len(tree)) % 4
    table = (bytes((size // 2 - 1,)) + bytes(tree)).ljust(size, b"\0")
    words = b"".join(int(stream[at : at + 32], 2).to_bytes(4, "little") for at in range(0, len(stream), 32))
    return head(0x20 | bits, len(units) * bits // 8) + table + words


def drawn(chance, most):
    """Returns bytes with repetitions."""
    content = bytearray()
    while len(content) < most:
        if content and chance.random() < 0.6:
            back = chance.randint(1, min(len(content), 300))
            for _ in range(chance.randint(1, 30)):
                content.append(content[-back])
        else:
            content += bytes(chance.randrange(256) for _ in range(chance.randint(1, 9)))
    return bytes(content[:most])


@unittest.skipUnless(COMPILER, "no compiler for this computer is here")
class Functions(Room):
    def setUp(self):
        super().setUp()
        library = f"{self.room}/bios.so"
        subprocess.run([COMPILER, "-shared", "-fPIC", "-O1", "-o", library, f"{BIOS}/bios.c"], check=True, capture_output=True, timeout=300)
        self.bios = ctypes.CDLL(library)

    def unpacked(self, name, packed, size):
        """Returns what a function makes of packed bytes; nothing behind its end is written."""
        source, target = ctypes.create_string_buffer(packed + bytes(64)), ctypes.create_string_buffer(b"\xa5" * (size + 8), size + 8)
        self.assertEqual(getattr(self.bios, name)(source, target), size)
        self.assertEqual(target.raw[size:], b"\xa5" * 8)
        return target.raw[:size]

    def test_what_was_packed_is_unpacked(self):
        chance = random.Random(62)
        for size in (1, 2, 3, 7, 64, 255, 1000):
            content = drawn(chance, size)
            with self.subTest(size=size):
                self.assertEqual(self.unpacked("bios_lz77", with_lz77(content), size), content)
                self.assertEqual(self.unpacked("bios_rle", with_runs(content), size), content)
                differences = bytes(one - two & 0xFF for one, two in zip(content, b"\0" + content))
                self.assertEqual(self.unpacked("bios_diff8", head(0x81, size) + differences, size), content)

    def test_what_has_codes(self):
        chance = random.Random(62)
        for bits, values in ((8, 2), (8, 3), (8, 30), (4, 2), (4, 16)):
            units = [min(int(chance.expovariate(0.3)), values - 1) for _ in range(796)] + [0, 1, 0, 1]
            content = bytes(units) if bits == 8 else bytes(one | two << 4 for one, two in zip(units[::2], units[1::2]))
            with self.subTest(bits=bits, values=values):
                self.assertEqual(self.unpacked("bios_huffman", with_codes(units, bits), len(content)), content)

    def test_differences_of_halves(self):
        halves = [0, 1, 0xFFFF, 0x1234, 0x1233]
        whole = b"".join((one - two & 0xFFFF).to_bytes(2, "little") for one, two in zip(halves, [0, *halves]))
        self.assertEqual(self.unpacked("bios_diff16", head(0x82, 10) + whole, 10), b"".join(it.to_bytes(2, "little") for it in halves))

    def test_roots_and_sums(self):
        for square in (0, 1, 2, 3, 4, 65535, 65536, 2**31, 2**32 - 1, 12345678):
            root = self.bios.bios_sqrt(ctypes.c_uint32(square))
            self.assertTrue(root * root <= square < (root + 1) ** 2)
        self.bios.bios_crc16.restype = ctypes.c_uint16
        self.assertEqual(self.bios.bios_crc16(0xFFFF, b"123456789", 9), 0x4B37)


class Units(Room):
    """The unit tests on the console, by `nds-test`."""

    TOOL, MODULE = "nds-test", "games_command"

    def test_each_unit_has_a_cartridge_and_a_test(self):
        rows = [(f"units/{it}.{end}" if end != "test" else f"tests/{it}.test") for it in UNITS for end in ("c", "elf", "nds", "test")]
        self.assertEqual([it for it in rows if not os.path.exists(f"{BIOS}/{it}")], [])

    @unittest.skipUnless(has_compiler(), f"clang and lld {CLANG} and make aren't here")
    def test_a_build_gives_what_is_committed(self):
        shutil.copytree(BIOS, f"{self.room}/bios")
        words = ["make", "-s", "-B", f"TOOLS={TOOLS}", f"GAME={TOP}/examples/c-game"]
        subprocess.run(words, cwd=f"{self.room}/bios", check=True, capture_output=True, timeout=300)
        for name in [f"units/{it}.{end}" for it in UNITS for end in ("elf", "nds")]:
            with open(f"{BIOS}/{name}", "rb") as a, open(f"{self.room}/bios/{name}", "rb") as b:
                self.assertEqual(a.read(), b.read(), name)

    @unittest.skipUnless(PROGRAM, "no program nds is built; NDS_PROGRAM names one")
    def test_they_pass(self):
        status, out, _ = self.run_it(f"{BIOS}/tests", NDS_PROGRAM=PROGRAM)
        self.assertEqual(status, 0, out)
        self.assertIn("6 tests: 6 PASS", out)

    @unittest.skipUnless(PROGRAM and has_compiler(), f"there is no built program, or clang and lld {CLANG} and make aren't here")
    def test_a_check_that_does_not_hold_names_its_function(self):
        shutil.copytree(BIOS, f"{self.room}/bios")
        with open(f"{BIOS}/bios.c") as it:
            self.put("bios/bios.c", it.read().replace("0xA001", "0xA002"))
        words = ["make", "-s", f"TOOLS={TOOLS}", f"GAME={TOP}/examples/c-game"]
        subprocess.run(words, cwd=f"{self.room}/bios", check=True, capture_output=True, timeout=300)
        status, out, _ = self.run_it("bios/tests/crc.test", NDS_PROGRAM=PROGRAM)
        self.assertEqual(status, 1, out)
        self.assertRegex(out, r"STOPPED bios/tests/crc: Swi 0x000000aa \(a failed assertion\) at tick \d+ by ARM9, r15 [0-9a-f]{8} sums_of_the_digits")


class Page(unittest.TestCase):
    """The table of functions in docs/COMING_FROM.md."""

    def test_it_has_the_numbers_and_names_that_the_tools_know(self):
        with open(f"{TOP}/docs/COMING_FROM.md") as it:
            rows = re.findall(r"^\| ([0-9A-F]{2})h \| (\S.*?) \| (yes)? ?\| (yes)? ?\| (.+) \|$", it.read(), re.M)
        *rows, last = rows
        told = {int(number, 16): (name, ("9" if nine else "") + ("7" if seven else "")) for number, name, nine, seven, _ in rows}
        self.assertEqual(told, names.FUNCTIONS)
        self.assertEqual(tuple(int(number, 16) for number, *_, here in rows if here == "in the stub"), names.STUB_FUNCTIONS)
        self.assertEqual(last[:2], ("1F", f"{names.LAST_FUNCTION['9']} (ARM9), {names.LAST_FUNCTION['7']} (ARM7)"))

    def test_its_functions_are_there(self):
        with open(f"{TOP}/docs/COMING_FROM.md") as page, open(f"{BIOS}/bios.h") as header, open(f"{BIOS}/wrap.txt") as words, open(f"{BIOS}/libnds.c") as code:
            told, declared = set(re.findall(r"`(bios_\w+)`", page.read())), set(re.findall(r" (bios_\w+)\(", header.read()))
            self.assertEqual(told, declared)
            self.assertEqual(re.findall(r"--wrap=(\w+)", words.read()), re.findall(r"__wrap_(\w+)\(", code.read()))


if __name__ == "__main__":
    unittest.main()
