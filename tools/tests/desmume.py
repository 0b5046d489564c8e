"""DeSmuME, an emulator of other people, on a screen of its own: Debian's packages desmume and xvfb. Its pictures are read from the screen, and
its memory through its stub for gdb.

It is another's program, which on a computer with much else to do says nothing for a minute once of some dozens of starts: where it stays silent a
test is left out, and NDS_PEERS=none leaves out all of them, as the gate does."""
import os
import shutil
import signal
import socket
import struct
import subprocess
import time
import unittest

SECONDS = 60.0
WIDE, HIGH = 256, 384
# (Debian puts games where not every PATH looks)
PLACES = os.environ.get("PATH", os.defpath) + ":/usr/games"
CLI, SERVER = shutil.which("desmume-cli", path=PLACES), shutil.which("Xvfb")
IS_THERE = bool(CLI and SERVER) and os.environ.get("NDS_PEERS") != "none"


class Screen:
    """A screen that nobody sees. Its pictures are read from the file into which the server draws."""

    def __init__(self, room):
        self.file = f"{room}/Xvfb_screen0"
        read, write = os.pipe()
        # (wider than the emulator's window, so that the pointer in the middle lies beside it)
        words = [SERVER, "-displayfd", str(write), "-screen", "0", "640x480x24", "-noreset", "-nolisten", "tcp", "-fbdir", room]
        self.server = subprocess.Popen(words, pass_fds=[write], stdin=subprocess.DEVNULL, stdout=subprocess.DEVNULL, stderr=subprocess.DEVNULL)
        os.close(write)
        with os.fdopen(read) as it:
            self.name = f":{it.readline().strip()}"

    def pixels(self):
        """Returns the emulated screens as a record F has them: halves of five bits a colour, the upper screen first."""
        with open(self.file, "rb") as it:
            whole = it.read()
        # (the file's head is xwd's, of words with the highest byte first)
        head = struct.unpack_from(">25I", whole)
        first, line, colours = head[0] + 12 * head[19], head[12], []
        for y in range(HIGH):
            row = whole[first + y * line : first + y * line + 4 * WIDE]
            colours += [red >> 3 | green >> 3 << 5 | blue >> 3 << 10 for blue, green, red in zip(row[0::4], row[1::4], row[2::4])]
        return struct.pack(f"<{WIDE * HIGH}H", *colours)

    def close(self):
        ended(self.server)


class Emulator:
    """A cartridge in DeSmuME, with the stub for gdb of ARM9, which lets it go on from `go` alone."""

    def __init__(self, room, screen, cart):
        with socket.socket() as it:
            it.bind(("127.0.0.1", 0))
            port = it.getsockname()[1]
        words = [CLI, "--disable-sound", "--cpu-mode=0", "--3d-engine=0", "--nojoy=1", f"--arm9gdb={port}", cart]
        environment = {**os.environ, "HOME": room, "DISPLAY": screen.name, "SDL_AUDIODRIVER": "dummy", "SDL_VIDEODRIVER": "x11"}
        quiet = {"stdin": subprocess.DEVNULL, "stdout": subprocess.DEVNULL, "stderr": subprocess.DEVNULL}
        self.run = subprocess.Popen(words, env=environment, **quiet)
        self.stub = self.connected(port)
        self.stub.settimeout(SECONDS)
        self.ask("?")

    def connected(self, port):
        until = time.monotonic() + SECONDS
        while True:
            try:
                return socket.create_connection(("127.0.0.1", port), 5)
            except OSError:
                if time.monotonic() > until or self.run.poll() is not None:
                    self.close()
                    raise
                time.sleep(0.05)

    def send(self, text):
        self.stub.sendall(b"$%s#%02x" % (text.encode(), sum(text.encode()) & 255))

    def answer(self):
        got = b""
        while b"#" not in got or len(got) < got.index(b"#") + 3:
            try:
                part = self.stub.recv(4096)
            except socket.timeout:
                raise unittest.SkipTest(f"DeSmuME says nothing in {SECONDS:.0f} seconds") from None
            if not part:
                raise OSError("the stub is gone")
            got += part
        self.stub.sendall(b"+")
        return got[got.index(b"$") + 1 : got.index(b"#")].decode()

    def ask(self, text):
        self.send(text)
        return self.answer()

    def memory(self, address, size):
        return bytes.fromhex(self.ask(f"m{address:x},{size:x}"))

    def word(self, address):
        return int.from_bytes(self.memory(address, 4), "little")

    def registers(self):
        """Returns r0 to r15 and CPSR (between them are eight registers of 12 bytes and a word, which ARM9 hasn't)."""
        whole = bytes.fromhex(self.ask("g"))
        return [*struct.unpack_from("<16I", whole), struct.unpack_from("<I", whole, 64 + 8 * 12 + 4)[0]]

    def break_at(self, *addresses):
        for it in addresses:
            assert self.ask(f"Z0,{it:x},4") == "OK"

    def break_no_more_at(self, *addresses):
        for it in addresses:
            assert self.ask(f"z0,{it:x},4") == "OK"

    def go(self):
        self.send("c")

    def go_to_a_break(self):
        """Goes on to the next instruction at which it shall break; returns its address."""
        self.ask("s")
        self.go()
        self.answer()
        return self.registers()[15]

    def close(self):
        ended(self.run)
        if hasattr(self, "stub"):
            self.stub.close()


def ended(run):
    """Ends a process that was started here."""
    run.send_signal(signal.SIGKILL)
    run.wait()
