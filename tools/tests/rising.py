"""A fake program whose score rises with the tick, as runs from boot, from states and as saved states tell it."""
import struct
from unittest import mock

from made import R15, Room, elf, end, memory, stop

from nds_tools.hostile.boot_state import loop_cart, state_at

CART = loop_cart()
SYMBOLS = [("score", 0x2001000, 4, 0x11), ("debt", 0x2001004, 2, 0x11), ("phase", 0x2001006, 2, 0x11), ("grid", 0x2001020, 12, 0x11),
           ("message", 0x2001010, 8, 0x11), ("main", 0x2000000, 64, 0x12)]  # fmt: skip


class Rising(Room):
    """The score is the tick in tens of millions, the debt that below 0, and the phase goes on by each million ticks, from 0 to 6."""

    def setUp(self):
        super().setUp()
        self.put("game.nds", CART)
        self.put("game.elf", elf([(0x2000000, 0x2000000, bytes(64), 64)], SYMBOLS))
        self.last, self.runs = 10**12, []
        patch = mock.patch("nds_tools.looks.finished", self.finished)
        patch.start()
        self.addCleanup(patch.stop)

    def finished(self, program, timeout, *words):
        """Answers a run to a tick, from boot or from a state, and a saved state, with a score, a half, a text and counts that are as they would be
        then."""
        self.runs.append(words)
        ticks = int(words[4 if words[0] == "resume" else 3])
        if ticks > self.last:
            return 9, b"" if words[0] == "save" else stop(self.last), b"left out"
        score = ticks // 10000000
        given = [("main", 0x1000, score), ("main", 0x1004, (-score & 0xFFFF) | (ticks // 1000000 % 7) << 16), ("main", 0x1010, 0x6F67 if score > 2 else 0)]
        if words[0] == "save":
            main = bytearray(4194304)
            for _, at, value in given:
                struct.pack_into("<I", main, at, value)
            return 0, state_at(CART, ticks, {"main": bytes(main), "steps of ARM9": ticks // 2, "ARM9 r15": 0x2000008 if ticks % 2 else 0x200000C}), b""
        return 0, memory(given, {R15: 0x2000008 if ticks % 2 else 0x200000C}) + end(ticks, ticks // 2, 5, 6, 7), b""
