"""Outputs, ELF files and a program `nds` made by hand, for the tests of the tools for authors."""
import contextlib
import importlib
import io
import os
import shutil
import struct
import subprocess
import sys
import tempfile
import unittest
import zlib

TOOLS = os.path.dirname(os.path.dirname(os.path.realpath(__file__)))
sys.path.insert(0, TOOLS)
from nds_tools.words import ended  # noqa: E402 (the path comes first)

TOP = os.path.dirname(TOOLS)
MEMORIES = {"main": 4194304, "wram": 32768, "wram7": 65536, "itcm": 32768, "dtcm": 16384, "palette": 2048, "vram": 671744, "oam": 2048}
R15, CPSR = 30, 31
# Answers `run CART ..` with what CART.out holds (or, at tick 44, CART.before) and the status of CART.status, and `asm FILE` with what FILE.out holds; keeps its words.
# `save CART ..` has CART.saved, and `resume STATE CART ..` CART.out; their statuses and notes are those of CART.save and CART.resume in their place.
FAKE = r"""#!/bin/sh
echo "$*" >>"$(dirname "$0")/calls"
if [ "$1" = save ] || [ "$1" = resume ]; then
    cart=$2 out=$2.saved
    [ "$1" = resume ] && cart=$3 out=$3.out
    [ -e "$cart.$1.note" ] && cat "$cart.$1.note" >&2
    [ -e "$cart.$1.status" ] && exit "$(cat "$cart.$1.status")"
    cat "$out"
    exit
fi
[ -e "$2.slow" ] && exec sleep 30
[ -e "$2.note" ] && cat "$2.note" >&2
if [ "$1,$4" = run,44 ] && [ -e "$2.before" ]; then cat "$2.before"; exit 0; fi
[ -e "$2.out" ] && cat "$2.out"
exit "$(cat "$2.status" 2>/dev/null || echo 0)"
"""


def frame(number, upper=0, lower=0, pixels=()):
    """Returns a record F: screens of one colour each, and pixels as (x, y, colour) with y from 192 on for the lower screen."""
    whole = bytearray(struct.pack("<H", upper) * 49152 + struct.pack("<H", lower) * 49152)
    for x, y, colour in pixels:
        struct.pack_into("<H", whole, 512 * y + 2 * x, colour)
    return b"F" + struct.pack("<Q", 1120380 * (number - 1) + 817920) + bytes(whole)


def lists(number, vertices=(), polygons=(), parameter=0):
    """Returns a record G."""
    head = struct.pack("<Q3I", 1120380 * (number - 1) + 817920, parameter, len(vertices), len(polygons))
    return b"G" + head + b"".join(struct.pack("<4iH2h", *it) for it in vertices) + b"".join(struct.pack("<4IB4H", *it) for it in polygons)


def memory(words=(), nine=(), seven=()):
    """Returns a record M: zeros but for words by (memory, offset, value) and registers by (place, value)."""
    parts = {name: bytearray(size) for name, size in MEMORIES.items()}
    for name, at, value in words:
        struct.pack_into("<I", parts[name], at, value)
    registers = []
    for given in (nine, seven):
        found = {R15: 0x2000000, CPSR: 0xDF, **dict(given)}
        registers.append(struct.pack("<37I", *[found.get(it, 0) for it in range(37)]))
    return b"M" + b"".join(map(bytes, parts.values())) + b"".join(registers)


def end(ticks=100, *counts):
    """Returns a record E."""
    return b"E" + struct.pack("<5Q", ticks, *(counts or (62, 27, 0, 89)))


def stop(tick=44, rank=22, kind=2, value=14):
    """Returns a record X."""
    return b"X" + struct.pack("<QBBI", tick, rank, kind, value)


def elf(segments, symbols=(), entry=0x2000000, kind=2, machine=40, sections=()):
    """Returns an ELF file: segments as (address, load address, bytes, size), symbols as (name, address, size, info) and a section's number, from 3
    for the first of the sections, which are given as (address, size) and a name; they are code's, where the name doesn't begin with a dot."""
    body, heads, at = b"", b"", 52 + 32 * len(segments)
    for address, load, content, size in segments:
        heads += struct.pack("<8I", 1, at + len(body), address, load, len(content), size, 5, 4)
        body += content
    texts, table = b"\0", bytes(16)
    for name, address, size, info, *home in symbols:
        table += struct.pack("<3I2BH", len(texts), address, size, info, 0, *(home or [1]))
        texts += name.encode() + b"\0"
    heads_of = []
    for address, size, *name in sections:
        heads_of.append((len(texts) if name else 0, 1, 2 if name and name[0].startswith(".") else 6, address, 0, size, 0, 0, 4, 0))
        texts += name[0].encode() + b"\0" if name else b""
    texts_at, table_at = at + len(body), at + len(body) + len(texts)
    rows = [(0,) * 10, (0, 3, 0, 0, texts_at, len(texts), 0, 0, 1, 0), (0, 2, 0, 0, table_at, len(table), 1, 0, 4, 16)]
    rows += heads_of
    named = b"".join(struct.pack("<10I", *it) for it in rows)
    head = b"\x7fELF\1\1\1" + bytes(9) + struct.pack("<2H5I6H", kind, machine, 1, entry, 52, table_at + len(table), 0, 52, 32, len(segments), 40, len(rows), 1)
    return head + heads + body + texts + table + named


def picture(path):
    """Reads a PNG back: width, height and rows of red, green and blue."""
    with open(path, "rb") as it:
        whole = it.read()
    assert whole[:8] == b"\x89PNG\r\n\x1a\n", whole[:8]
    at, parts = 8, {}
    while at < len(whole):
        size, kind = struct.unpack(">I4s", whole[at : at + 8])
        content = whole[at + 8 : at + 8 + size]
        assert zlib.crc32(kind + content) == struct.unpack(">I", whole[at + 8 + size : at + 12 + size])[0], kind
        parts[kind] = content
        at += 12 + size
    assert list(parts) == [b"IHDR", b"IDAT", b"IEND"], list(parts)
    width, height, *how = struct.unpack(">2I5B", parts[b"IHDR"])
    assert how == [8, 2, 0, 0, 0], how
    rows, step = zlib.decompress(parts[b"IDAT"]), 1 + 3 * width
    assert len(rows) == step * height and not any(rows[::step]), "each row is there, with no filter"
    return width, height, [rows[it + 1 : it + step] for it in range(0, len(rows), step)]


class Room(unittest.TestCase):
    """Each test has a folder of its own, with a fake program `nds`."""

    TOOL, MODULE = "", ""

    def setUp(self):
        # (with a space, which a path may have)
        self.room = os.path.realpath(tempfile.mkdtemp(prefix="tools tests-"))
        self.addCleanup(shutil.rmtree, self.room, ignore_errors=True)
        self.nds = self.put("nds", FAKE)
        os.chmod(self.nds, 0o755)

    def put(self, name, content=b""):
        """Writes a file, and returns its path."""
        path = f"{self.room}/{name}"
        os.makedirs(os.path.dirname(path), exist_ok=True)
        with open(path, "wb") as it:
            it.write(content if isinstance(content, bytes) else content.encode())
        return path

    def text(self, name):
        with open(f"{self.room}/{name}") as it:
            return it.read()

    def calls(self):
        """Returns the words with which the fake program was run since this was asked last."""
        path = f"{self.room}/calls"
        found = self.text("calls").splitlines() if os.path.exists(path) else []
        self.put("calls")
        return found

    def run_it(self, *words, given=b"", **environment):
        """Runs the tool in the test's folder, within this process; returns its status, its output and its notes."""
        command = importlib.import_module(f"nds_tools.{self.MODULE}")
        out, notes, kept = io.TextIOWrapper(io.BytesIO(), "utf-8"), io.StringIO(), (sys.argv, sys.stdin, os.getcwd(), dict(os.environ))
        try:
            os.chdir(self.room)
            os.environ.update({"NDS_PROGRAM": self.nds, **environment})
            sys.argv, sys.stdin = [self.TOOL, *words], io.TextIOWrapper(io.BytesIO(given), "utf-8")
            with contextlib.redirect_stdout(out), contextlib.redirect_stderr(notes):
                status = ended(command.TOOL, command.main)
        except SystemExit as why:
            status = why.code
        finally:
            sys.argv, sys.stdin = kept[:2]
            os.chdir(kept[2])
            os.environ.clear()
            os.environ.update(kept[3])
        out.flush()
        return status, out.buffer.getvalue().decode("latin-1"), notes.getvalue()

    def run_as_command(self, *words):
        """Runs the tool as a command of its own; returns its status, its output and its notes."""
        ran = subprocess.run([f"{TOOLS}/{self.TOOL}", *words], cwd=self.room, stdin=subprocess.DEVNULL, capture_output=True, timeout=60)
        return ran.returncode, ran.stdout.decode("latin-1"), ran.stderr.decode()

    def check_command(self, *words, status, text):
        """The command itself: its help, and a status of its own."""
        ran = self.run_as_command("--help")
        self.assertEqual((ran[0], ran[2]), (0, ""))
        self.assertIn(f"tools/{self.TOOL} ", ran[1])
        ran = self.run_as_command(*words)
        self.assertEqual(ran[0], status)
        self.assertIn(text, ran[1] + ran[2])

    def check(self, rows):
        """Each row: words, status, and a text that the output or the note has."""
        for words, status, text in rows:
            with self.subTest(words=words):
                ran = self.run_it(*words)
                self.assertEqual(ran[0], status, ran[2])
                self.assertIn(text, ran[1] + ran[2])
                self.assertEqual(ran[2].count("\n"), 1 if status == 2 else ran[2].count("\n"), "an error is one line")
