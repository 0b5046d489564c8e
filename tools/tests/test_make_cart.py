"""`make-cart`: what each kind of file becomes, and each refusal by its name."""
import os
import shutil
import struct
import unittest

from made import TOP, Room, elf

BRANCH = struct.pack("<I", 0xEAFFFFFE)
OBJECT, SHARED, X86 = 1, 3, 62


class MakeCart(Room):
    TOOL, MODULE = "make-cart", "cart_command"

    def made(self, *words):
        """Makes a cartridge; returns its words of ARM9 and of ARM7 (offset, entry, address, size), and both images."""
        ran = self.run_it(*words, "-o", "game.nds")
        self.assertEqual(ran, (0, "", ""))
        with open(f"{self.room}/game.nds", "rb") as it:
            whole = it.read()
        heads = [struct.unpack_from("<4I", whole, at) for at in (0x20, 0x30)]
        self.assertEqual(struct.unpack_from("<2I", whole, 0x80), (len(whole), 512))
        return [it[1:] for it in heads], [whole[it[0] : it[0] + it[3]] for it in heads], whole

    def test_flat_bytes_go_to_their_address_and_arm7_halts_where_it_has_none(self):
        code = self.put("code.bin", BRANCH + b"\1\2\3")
        heads, images, whole = self.made("--arm9", code, "--flat", "--title", "HELLO")
        self.assertEqual(heads, [(0x2000000, 0x2000000, 8), (0x3800000, 0x3800000, 16)])
        self.assertEqual(images[0], BRANCH + b"\1\2\3\0")
        self.assertEqual(struct.unpack("<4I", images[1]), (0xE3A00301, 0xE3A01080, 0xE5C01301, 0xEAFFFFFE))
        self.assertEqual(whole[:16], b"HELLO" + bytes(11))
        heads, images, _ = self.made("--arm9", f"{code}@0x2100000,0x2100004", "--arm7", f"{code}@0x37f8000")
        self.assertEqual(heads, [(0x2100004, 0x2100000, 8), (0x37F8000, 0x37F8000, 8)])

    def test_pipes(self):
        status, out, notes = self.run_it("--arm9", "-@0x2000010", "-o", "-", given=BRANCH)
        self.assertEqual((status, notes), (0, ""))
        self.assertEqual(struct.unpack_from("<4I", out.encode("latin-1"), 0x20), (512, 0x2000010, 0x2000010, 4))

    def test_segments_go_to_their_load_addresses_and_gaps_are_filled(self):
        segments = [(0x3000000, 0x2000020, b"data", 4), (0x2000000, 0x2000000, BRANCH * 2, 8), (0x2000100, 0x2000100, b"", 64), (0x2000024, 0x2000024, b"x", 1)]
        code = self.put("code.elf", elf(segments, entry=0x2000004))
        heads, images, _ = self.made("--arm9", code)
        self.assertEqual(heads[0], (0x2000004, 0x2000000, 0x28))
        self.assertEqual(images[0], BRANCH * 2 + bytes(24) + b"datax" + bytes(3))

    def test_listings_are_assembled_and_several_become_one_image(self):
        arm, thumb = self.put("a.txt", ".arm9 0x2000000\nb 0x2000000\n"), self.put("t.txt", ".thumb9 0x2000008\nbx r14\n")
        self.put("a.txt.out", BRANCH)
        self.put("t.txt.out", b"\x70\x47")
        heads, images, _ = self.made("--arm9", arm, "--arm9", thumb)
        self.assertEqual((heads[0], images[0]), ((0x2000000, 0x2000000, 12), BRANCH + bytes(4) + b"\x70\x47\0\0"))
        self.assertEqual(self.calls(), [f"asm {arm}", f"asm {thumb}"])

    def test_an_example_of_two_listings_is_made_again(self):
        with open(f"{TOP}/examples/loop.nds", "rb") as it:
            whole = it.read()
        for proc, at in ((9, 512), (7, 536)):
            shutil.copy(f"{TOP}/examples/loop.arm{proc}.txt", self.room)
            self.put(f"loop.arm{proc}.txt.out", whole[at : at + 24])
        heads, images, _ = self.made("--arm9", "loop.arm9.txt", "--arm7", "loop.arm7.txt")
        self.assertEqual(heads, [struct.unpack_from("<3I", whole, at) for at in (0x24, 0x34)])
        self.assertEqual(images, [whole[512:536], whole[536:560]])

    def refused(self, rows):
        """Each row: files' words, the status, and what the note says; no cartridge is left."""
        for words, status, text in rows:
            with self.subTest(words=words):
                ran = self.run_it(*words, "-o", "none.nds")
                self.assertEqual((ran[0], ran[1], ran[2].count("\n")), (status, "", 1), ran[2])
                self.assertIn(text, ran[2])
                self.assertFalse(os.path.exists(f"{self.room}/none.nds"))

    def test_what_nds_would_refuse_is_named_by_the_headers_field(self):
        code, big = self.put("code.bin", BRANCH * 4), self.put("big.bin", bytes(4194305))
        self.refused([
            (("--arm9", f"{code}@0x3000000"), 1, "Arm9Place 0x03000000"),
            (("--arm9", f"{code}@0x2fffff4"), 1, "Arm9Place 0x02fffff4"),
            (("--arm9", f"{code}@0x1fffff8"), 1, "Arm9Place 0x01fffff8"),
            (("--arm9", f"{code}@0x2000000,0x2000002"), 1, "Arm9Entry 0x02000002: it has to be a multiple of 4"),
            (("--arm9", f"{code}@0x2000000,0x2000001"), 1, "Arm9Entry 0x02000001: a Thumb entry"),
            (("--arm9", f"{code}@0x2000000,0x3000000"), 1, "Arm9Entry 0x03000000: it has to be a multiple of 4"),
            (("--arm9", f"{code}@0x2000000,0x2000010"), 1, "Arm9Entry 0x02000010: it isn't in the image"),
            (("--arm9", f"{big}@0x2000000"), 1, "4194305 bytes, and an image has at most 4194304"),
            (("--arm9", f"{code}@0x2000000", "--arm7", f"{code}@0x37f7ffc"), 1, "Arm7Place 0x037f7ffc"),
            (("--arm9", f"{code}@0x2000000", "--arm7", f"{code}@0x380fff4"), 1, "Arm7Place 0x0380fff4"),
            (("--arm9", f"{code}@0x2000000", "--arm7", f"{code}@0x3800000,0x3800003"), 1, "Arm7Entry 0x03800003: a Thumb entry"),
        ])  # fmt: skip

    def test_overlap_is_refused(self):
        code = self.put("code.bin", BRANCH * 4)
        self.refused([
            (("--arm9", f"{code}@0x2000000", "--arm9", f"{code}@0x200000c"), 1, "overlap: "),
            (("--arm9", f"{code}@0x2000000", "--arm7", f"{code}@0x200000c"), 1, "overlap: ARM9's image and ARM7's image"),
            (("--arm9", f"{code}@0x2000000", "--arm7", f"{code}@0x2400000"), 1, "overlap: ARM9's image and ARM7's image"),
            (("--arm9", f"{code}@0x2000000", "--arm7", f"{code}@0x27ffdf4"), 1, "overlap: ARM7's image and the header's copy"),
            (("--arm9", f"{code}@0x23fff6c"), 1, "overlap: ARM9's image and the header's copy"),
            (("--arm9", self.put("two.elf", elf([(0, 0x2000000, bytes(8), 8), (0, 0x2000004, bytes(8), 8)]))), 1, "overlap: "),
        ])  # fmt: skip
        self.made("--arm9", f"{code}@0x23fff70", "--arm7", f"{code}@0x2000000")

    def test_files_that_are_no_code_are_named(self):
        loaded = [(0x2000000, 0x2000000, BRANCH, 4)]
        whole = elf(loaded)
        listing = self.put("bad.txt", ".arm9 0x2000000\nfly\n")
        self.put("bad.txt.status", "10")
        self.put("bad.txt.note", "bad text: line 2\n")
        self.put("seven.txt", ".arm7 0x2000000\n")
        self.refused([
            (("--arm9", self.put("object.o", elf([], kind=OBJECT))), 2, "an object file, which isn't linked yet"),
            (("--arm9", self.put("shared.so", elf(loaded, kind=SHARED))), 2, "a shared object"),
            (("--arm9", self.put("lib.a", b"!<arch>\nmore")), 2, "an archive of object files"),
            (("--arm9", self.put("x86.elf", elf(loaded, machine=X86))), 2, "another machine: x86-64"),
            (("--arm9", self.put("wide.elf", b"\x7fELF\2\1" + whole[6:])), 2, "64 bits"),
            (("--arm9", self.put("big.elf", b"\x7fELF\1\2" + whole[6:])), 2, "big-endian"),
            (("--arm9", self.put("cut.elf", whole[:70])), 2, "cut or damaged"),
            (("--arm9", self.put("cut2.elf", whole[:84])), 2, "cut or damaged"),
            (("--arm9", self.put("void.elf", elf([(0x2000000, 0x2000000, b"", 64)]))), 1, "no segment with bytes"),
            (("--arm9", self.put("thumb.elf", elf(loaded, entry=0x2000001))), 1, "a Thumb entry"),
            (("--arm9", self.put("one.elf", whole) + "@0x2000000"), 2, "leave @ADDR out"),
            (("--arm9", self.put("empty.bin")), 1, "is empty"),
            (("--arm9", "absent.bin"), 2, "absent.bin: No such file"),
            (("--arm9", listing), 2, "bad text: line 2"),
            (("--arm9", "seven.txt"), 1, "a listing for ARM7"),
            (("--arm9", "one.elf", "--arm7", "a@zz"), 2, "what follows @ has to be"),
            (("--arm9", "one.elf", "--title", "THIRTEEN CHARS"), 1, "12 ASCII characters"),
            (("--arm7", "one.elf"), 2, "--arm9"),
        ])  # fmt: skip

    def test_what_nobody_called_flat_is_refused(self):
        cart = bytearray(0x220)
        struct.pack_into("<8I", cart, 0x20, 0x200, 0x2000000, 0x2000000, 16, 0x210, 0x3800000, 0x3800000, 16)
        code, text, whole = self.put("code.bin", BRANCH * 4), self.put("game.c", "int main(void) { return 0; }\n"), self.put("old.nds", bytes(cart))
        self.refused([
            (("--arm9", code), 2, f"{code} is neither an ELF file nor a listing; flat bytes want an address, as {code}@0x2000000, or --flat"),
            (("--arm9", text), 2, "game.c is a text, and neither an ELF file nor a listing: compile it first"),
            (("--arm9", f"{text}@0x2000000"), 2, "game.c is a text"),
            (("--arm9", whole), 2, "old.nds is a cartridge already"),
            (("--arm9", f"{whole}@0x2000000"), 2, "old.nds is a cartridge already"),
            (("--arm9", f"{code}@0x2000000", "--arm7", code), 2, "code.bin is neither"),
        ])  # fmt: skip
        for words in ((f"{code}@0x2000000",), (code, "--flat"), (text, "--flat"), (whole, "--flat")):
            self.made("--arm9", *words)

    def test_files_go_behind_the_images_by_the_usual_tables(self):
        code = self.put("code.bin", BRANCH)
        os.makedirs(f"{self.room}/data/d/e")
        for name, content in (("a.txt", b"one"), ("d/b", b"seven"), ("d/e/c", bytes(600))):
            self.put(f"data/{name}", content)
        _, _, whole = self.made("--arm9", code, "--flat", "--file", "data")
        # three folders, F000h the root, F001h d, F002h e: where each list begins, its first file, its parent (for the root how many there are)
        head = struct.pack("<I2HI2HI2H", 24, 0, 3, 35, 1, 0xF000, 42, 2, 0xF001)
        lists = b"\x05a.txt\x81d\x01\xf0\0" + b"\x01b\x81e\x02\xf0\0" + b"\x01c\0"
        self.assertEqual(struct.unpack_from("<4I", whole, 0x40), (0x8000, 45, 0x8200, 24))
        self.assertEqual(whole[0x8000 : 0x8000 + 45], head + lists)
        self.assertEqual(struct.unpack_from("<6I", whole, 0x8200), (0x8400, 0x8403, 0x8600, 0x8605, 0x8800, 0x8800 + 600))
        self.assertEqual((whole[0x8400:0x8403], whole[0x8600:0x8605], whole[0x8800:]), (b"one", b"seven", bytes(600)))

    def test_a_file_has_its_own_name_or_another_and_a_cartridge_without_files_no_tables(self):
        code, level = self.put("code.bin", BRANCH), self.put("level.bin", b"x")
        os.makedirs(f"{self.room}/data")
        self.put("data/z", b"z")
        _, _, whole = self.made("--arm9", code, "--flat", "--file", level, "--file", f"{level}=levels/1", "--file", "data=levels")
        names, size = struct.unpack_from("<2I", whole, 0x40)
        head = struct.pack("<I2HI2H", 16, 0, 2, 36, 1, 0xF000)
        self.assertEqual(whole[names : names + size], head + b"\x09level.bin\x86levels\x01\xf0\0" + b"\x011\x01z\0")
        self.assertEqual(self.made("--arm9", code, "--flat")[2][0x40:0x50], bytes(16))

    def test_names_that_the_tables_cannot_have_are_refused(self):
        code, one = self.put("code.bin", BRANCH) + "@0x2000000", self.put("one", b"1")
        self.refused([
            (("--arm9", code, "--file", one, "--file", f"{one}=one"), 1, "one is there twice"),
            (("--arm9", code, "--file", f"{one}=a", "--file", f"{one}=a/b"), 1, "a/b: a is a file already"),
            (("--arm9", code, "--file", f"{one}=a/b", "--file", f"{one}=a"), 1, "a is there twice"),
            (("--arm9", code, "--file", f"{one}=a*"), 1, "the name a* in the cartridge"),
            (("--arm9", code, "--file", f"{one}=a//b"), 1, "the name a//b in the cartridge"),
            (("--arm9", code, "--file", f"{one}=../b"), 1, "the name ../b in the cartridge"),
            (("--arm9", code, "--file", f"{one}=" + "n" * 128), 1, "1 to 127 ASCII characters"),
            (("--arm9", code, "--file", f"{one}="), 2, "has to be FILE or FILE=NAME"),
            (("--arm9", code, "--file", "none"), 2, "none: No such file"),
            (("--arm9", code, "--file", self.put("big", bytes(33_554_432))), 1, "and has at most 33554432"),
        ])  # fmt: skip

    def test_no_program_for_a_listing_and_help(self):
        ran = self.run_it("--arm9", self.put("a.txt", ".arm9 0x2000000\n"), "-o", "x.nds", NDS_PROGRAM="/absent")
        self.assertEqual((ran[0], ran[2]), (2, "make-cart: NDS_PROGRAM names no program: /absent\n"))
        self.check_command("--arm9", "a.txt", "-o", "x.nds", "--nds", "/absent", status=2, text="--nds names no program: /absent")


if __name__ == "__main__":
    unittest.main()
