"""Lines of source, fields and types of a program, of what clang and GNU's compiler write, where they are here, and of files that are cut."""
import os
import shutil
import subprocess
import unittest

from made import Room

from nds_tools.conditions import condition
from nds_tools.elf import Elf
from nds_tools.memory import Map
from nds_tools.words import Untold

SOURCE = """typedef short s16;
enum kind { OFF, LIT = 5, LOST = -1 };
struct wire { unsigned short left, right; };
struct lamp {
    int number;
    s16 x, y;
    unsigned char is_lit;
    signed char heat;
    struct { struct wire wires[2]; };
    enum kind kind;
    const volatile unsigned *port;
    unsigned low : 3, high : 5;
};
struct lamp lamp = {3, -5, 70, 1, -12, {{{1, 2}, {3, 4}}}, LIT, 0, 1, 2};
struct lamp lamps[5];
char message[8] = "dark";
static volatile s16 grid[2][3] = {{1, 2, 3}, {4, -5, 6}};
unsigned score = 0xFFFFFFFE; long long big = -5; float ratio[2] = {1.5f, -0.25f};
int plain(int it)
{
    return it + 1;
}
int _start(void)
{
    static unsigned calls = 7;
    int found = plain((int)score);

    calls += (unsigned)found;
    return grid[1][1] + (int)calls;
}
"""
COMPILERS = {
    "clang": ["clang", "--target=armv5te-none-eabi", "-fuse-ld=lld"],
    "gcc": ["arm-none-eabi-gcc", "-mcpu=arm946e-s", "-fno-short-enums"],
}
BOTH = ["-marm", "-mfloat-abi=soft", "-ffreestanding", "-nostdlib", "-fno-inline", "-Wl,-Ttext=0x2000000", "-Wl,--build-id=none"]
# A place, and what it shows: its numbers as they are, by the words of a person.
PLACES = [
    ("lamp.number", "3"), ("lamp.x", "-5"), ("lamp.y", "70"), ("lamp.is_lit", "1"), ("lamp.heat", "-12"), ("lamp.wires[1].left", "3"), ("lamp.kind", "LIT"),
    ("lamps[4].number", "0"), ("message", '"dark"'), ("message[1]", "97"), ("grid[1][1]", "-5"), ("grid[1]", "4 -5 6"), ("score", "4294967294"),
    ("big", "-5"), ("ratio", "1.5 -0.25"), ("lamp.port", "00000000"), ("lamp.wires[0]:2u16", "1 2"), ("lamp.wires+6:u16", "4"),
]  # fmt: skip
WRONG = [
    ("lamp.numbr", "lamp.numbr: there is no field numbr; there are number, x, y, is_lit, heat, wires, kind, port, low, high"),
    ("lamps[5]", "lamps[5]: the array has 5 elements, from [0] on"),
    ("lamp[0]", "lamp[0]: what stands before [0] is no array"),
    ("score.x", "score.x: what stands before .x is no structure"),
    ("lamp.high", "lamp.high: high is a field of 5 bits; give the number that it stands in"),
    ("lamp.", "lamp.: after lamp a field comes, as .number, or an element, as [2]"),
    ("lmap.x", "no symbol lmap.x is known: elf9 game.elf has none; is lamp meant?; elf7 was not given"),
]
# A byte of a variable, and the field that it belongs to.
FIELDS = [("lamp", 0, "lamp"), ("lamp", 6, "lamp.y"), ("lamp", 12, "lamp.wires[0].right"), ("grid", 10, "grid[1][2]"), ("message", 3, "message+0x3"),
          ("score", 0, "score"), ("lamp", 5, "lamp+0x5")]  # fmt: skip


class Record:
    """Memories as a program has them at boot."""

    def __init__(self, elf):
        main = bytearray(0x400000)
        for it in elf.segments:
            at = it.address & 0x3FFFFF
            main[at : at + len(it.content)] = it.content
        self.memories = {"main": bytes(main)}


class Compiled(Room):
    def built(self, compiler, *words):
        """Returns the ELF file of the source, by a compiler with some words; skips where that isn't here."""
        if not shutil.which(COMPILERS[compiler][0]):
            self.skipTest(f"{compiler} isn't here")
        self.put("game.c", SOURCE)
        ran = subprocess.run([*COMPILERS[compiler], *BOTH, *words, "game.c", "-o", "game.elf"], cwd=self.room, capture_output=True, text=True)
        self.assertEqual(ran.returncode, 0, ran.stderr)
        with open(f"{self.room}/game.elf", "rb") as it:
            return Elf("game.elf", it.read())

    def check_all(self, elf):
        known, record = Map((elf, None)), Record(elf)
        self.assertEqual([(it, known.find(it).told_in(record)) for it, _ in PLACES], PLACES)
        for text, said in WRONG:
            with self.assertRaises(Untold) as why:
                known.find(text)
            self.assertEqual(str(why.exception), said)
        self.assertEqual([(name, at, elf.near(elf.find(name).address + at)) for name, at, _ in FIELDS], FIELDS)
        shown = [known.fields_in(place, place.bytes_in(record)) for place in map(known.find, ("lamp", "lamp.wires[1]", "lamps", "score", "lamp:2"))]
        self.assertEqual(shown, [["number 3, x -5, y 70, is_lit 1, heat -12, kind LIT", "port 00000000"], ["left 3, right 4"], [], [], []])
        start, plain = elf.find("_start").address, elf.find("plain").address
        # (from its opening brace on; an optimizer leaves the return alone)
        self.assertEqual(elf.near(plain), "plain")
        self.assertRegex(elf.line_of(plain), r"^game\.c:2[0-2]$")
        self.assertRegex(elf.near(start + 8), r"^game\.c:2[4-6] in _start$")
        self.assertEqual(elf.line_of(0x2800000), "")

    def test_conditions_by_types(self):
        elf = self.built("clang", "-g")
        known, record = Map((elf, None)), Record(elf)
        rows = [("lamp.x == -5 and lamp.heat < 0 and lamp.y > lamp.x", True), ("lamp.x < lamps[0].x", True), ("lamp.kind == LIT", True), ("lamp.kind != OFF", True),
                ("big < -4", True), ("score == 0xfffffffe", True), ("score < 0", True), ("score >= 1", True), ("lamp.x == 65531", True), ("lamp.x >= 0", False),
                ("grid[1][1] == -5", True), ("lamp.x:u16 == 65531", True), ('message == "dark"', True)]  # fmt: skip
        self.assertEqual([(text, condition(text, known).holds(record)) for text, _ in rows], rows)
        for text, said in (("ratio[0] > 1", "ratio[0] is a floating-point number, which conditions don't compare"), ("lamp.kind == LAT", "no symbol LAT is known")):
            with self.assertRaises(Untold) as why:
                condition(text, known)
            self.assertIn(said, str(why.exception))

    def check_compiler(self, compiler):
        for words in (("-g",), ("-g", "-O2"), ("-gdwarf-5",), ("-gdwarf-4", "-O1"), ("-gdwarf-3",), ("-gdwarf-2",), ("-g", "-gz=zlib"), ("-g", "-mthumb")):
            with self.subTest(compiler=compiler, words=words):
                self.check_all(self.built(compiler, *words))

    def test_clang(self):
        self.check_compiler("clang")

    def test_gcc(self):
        self.check_compiler("gcc")

    def test_lines_are_those_of_another_reader(self):
        reader = shutil.which("llvm-addr2line") or shutil.which("addr2line")
        if not reader:
            self.skipTest("there is no addr2line")
        for compiler in COMPILERS:
            elf = self.built(compiler, "-g", "-O1")
            places = [at for first, last in elf.code() for at in range(first, last, 4)]
            ran = subprocess.run([reader, "-e", f"{self.room}/game.elf", *map(hex, places)], capture_output=True, text=True)
            told = [os.path.basename(it).split(" ")[0] for it in ran.stdout.splitlines()]
            self.assertEqual([elf.line_of(it) for it in places], ["" if it.startswith("??") or it.endswith((":0", ":?")) else it for it in told])

    def test_without_debugging_information_places_are_as_they_were(self):
        elf = self.built("clang")
        known = Map((elf, None))
        self.assertEqual((elf.lines, elf.types) if elf.lines is None else (elf.lines.rows, elf.types), ([], None))
        self.assertRegex(elf.near(elf.find("_start").address + 8), r"^_start\+0x8$")
        self.assertEqual(known.find("score").told_in(Record(elf)), "4294967294")
        with self.assertRaises(Untold) as why:
            known.find("lamp.x")
        self.assertEqual(str(why.exception), "lamp.x: game.elf doesn't tell the fields of lamp; build with -g")

    def test_what_is_cut_or_of_another_form_tells_nothing_and_never_falls_over(self):
        whole = self.built("clang", "-g").content
        for name in (b".debug_info", b".debug_abbrev", b".debug_line"):
            elf = Elf("game.elf", whole)
            section = next(it for it in elf.sections if elf.section_name(it).encode() == name)
            for at in range(0, section.size, max(section.size // 60, 1)):
                for value in (0x00, 0x7F, 0xFF):
                    content = bytearray(whole)
                    content[section.offset + at] = value
                    broken = Elf("game.elf", bytes(content))
                    broken.line_of(0x2000010)
                    broken.near(broken.find("lamp").address + 6)


if __name__ == "__main__":
    unittest.main()
