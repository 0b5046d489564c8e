"""`nds-frames --apng`: the moving picture read back, its times, and what leaves none."""
import os
import struct
import unittest
import zlib
from fractions import Fraction

from made import Room, end, frame, memory, stop

from nds_tools import apng, names

RED, BLACK = b"\xff\0\0", b"\0\0\0"


def chunks(path):
    """Returns the chunks of a PNG, each with its sum checked."""
    with open(path, "rb") as it:
        whole = it.read()
    assert whole[:8] == b"\x89PNG\r\n\x1a\n", whole[:8]
    at, found = 8, []
    while at < len(whole):
        size, kind = struct.unpack(">I4s", whole[at : at + 8])
        content = whole[at + 8 : at + 8 + size]
        assert zlib.crc32(kind + content) == struct.unpack(">I", whole[at + 8 + size : at + 12 + size])[0], kind
        found.append((kind, content))
        at += 12 + size
    return found


def played(path):
    """Plays an animated PNG: returns its size, how many pictures it tells, and each picture's rows and time, put over the ones before it."""
    parts = chunks(path)
    assert [kind for kind, _ in parts[:2]] == [b"IHDR", b"acTL"] and parts[-1] == (b"IEND", b""), parts[:2]
    wide, high = struct.unpack(">2I", parts[0][1][:8])
    count, again = struct.unpack(">2I", parts[1][1])
    assert again == 0, again
    rows, pictures, number = [bytes(3 * wide)] * high, [], 0
    for (kind, control), (body_kind, body) in zip(parts[2:-1:2], parts[3:-1:2]):
        sequence, its_wide, its_high, left, top, top_time, bottom_time, dispose, blend = struct.unpack(">5I2H2B", control)
        assert (kind, sequence, its_wide, left, dispose, blend) == (b"fcTL", number, wide, 0, 0, 0), control
        number += 1
        if pictures:
            assert (body_kind, struct.unpack(">I", body[:4])[0]) == (b"fdAT", number), body_kind
            number, body = number + 1, body[4:]
        else:
            assert (body_kind, its_high, top) == (b"IDAT", high, 0), "the first picture is whole"
        pixels, step = zlib.decompress(body), 1 + 3 * wide
        assert len(pixels) == step * its_high and top + its_high <= high, (its_high, top)
        rows = rows[:top] + [pixels[it + 1 : it + step] for it in range(0, len(pixels), step)] + rows[top + its_high :]
        pictures.append((rows, Fraction(top_time, bottom_time)))
    return (wide, high), count, pictures


class Moving(Room):
    TOOL, MODULE = "nds-frames", "frames_command"

    def test_pictures_and_times_read_back(self):
        frames = frame(1, 0x1F) + frame(2, 0x1F) + frame(3, 0x1F, pixels=[(5, 100, 0), (0, 200, 0x1F)]) + frame(4)
        self.put("game.out", frames + memory() + end())
        self.assertEqual(self.run_it("game.out", "--apng", "game.png"), (0, "game.png  4 frames, 3 pictures\n", ""))
        size, count, pictures = played(f"{self.room}/game.png")
        self.assertEqual((size, count, len(pictures)), ((256, 384), 3, 3))
        (one, first), (two, second), (three, third) = pictures
        self.assertEqual((one[0], one[191], one[192]), (RED * 256, RED * 256, BLACK * 256))
        self.assertEqual((two[99], two[100], two[200]), (RED * 256, RED * 5 + BLACK + RED * 250, RED + BLACK * 255))
        self.assertEqual(set(three), {BLACK * 256})
        exact = Fraction(names.FRAME_TICKS, names.SECOND)
        for time, frames in ((first, 2), (second, 1), (third, 1)):
            self.assertLess(abs(time - frames * exact), Fraction(1, 1_000_000))
        self.assertEqual(os.listdir(self.room).count("game.png.new"), 0)

    def test_screens_scale_and_choice(self):
        self.put("game.out", b"".join(frame(it, it, pixels=[(0, 192, it)]) for it in range(1, 8)) + memory() + end())
        self.assertEqual(self.run_it("game.out", "--apng", "one.png", "--lower", "--scale", "2", "--frame", "2-6", "--every", "2")[1], "one.png  3 frames, 3 pictures\n")
        size, _, pictures = played(f"{self.room}/one.png")
        self.assertEqual(size, (512, 384))
        self.assertEqual([rows[1][:9] for rows, _ in pictures], [bytes((red, 0, 0)) * 2 + BLACK for red in (16, 33, 49)])
        self.assertEqual([round(float(time), 4) for _, time in pictures], [0.0334, 0.0334, 0.0167])

    def test_times_fit_into_their_numbers(self):
        for frames in (1, 60, 392, 393, 3600, 39000):
            top, bottom = apng.delay(frames)
            self.assertTrue(0 < top <= 0xFFFF and 0 < bottom <= 0xFFFF)
            self.assertLess(abs(top / bottom - frames * names.FRAME_TICKS / names.SECOND), 0.0051)

    def test_without_a_frame_or_of_a_bad_output_there_is_none(self):
        self.put("none.out", memory() + end())
        self.put("bad.out", frame(1) + b"Z")
        for name, status, text in (("none.out", 1, "the output has no frame"), ("bad.out", 2, "begins no record")):
            ran = self.run_it(name, "--apng", "game.png")
            self.assertEqual((ran[0], ran[1]), (status, ""))
            self.assertIn(text, ran[2])
            self.assertEqual([it for it in os.listdir(self.room) if "png" in it], [])
        self.put("stop.out", frame(1) + stop())
        ran = self.run_it("stop.out", "--apng", "game.png")
        self.assertEqual((ran[0], ran[1]), (2, "game.png  1 frames, 1 pictures\n"))
        self.assertEqual(played(f"{self.room}/game.png")[1], 1)


if __name__ == "__main__":
    unittest.main()
