#!/usr/bin/env python3
"""Measures nds-gdb under gdb, by the clock: docs/bench/gdb/measure.py PROGRAM

PROGRAM is the built program for gdb. Wants gdb-multiarch and arm-none-eabi-gcc. Prints a line for each row of docs/bench/gdb.md."""
import os
import subprocess
import sys
import tempfile

TOP = os.path.dirname(os.path.dirname(os.path.dirname(os.path.dirname(os.path.realpath(__file__)))))
GAME, GAMES = f"{TOP}/examples/c-game", f"{TOP}/tools/tests/gdb"
FLAGS = "-marm -mfloat-abi=soft -ffreestanding -fno-builtin -O0 -g -nostdlib -Wl,--nmagic -Wl,--build-id=none".split()
BOTH = [("game", 9, f"{GAME}/game.c"), ("seven", 7, f"{GAME}/seven.c"), ("thumb", 9, f"{GAMES}/thumb.c"), ("count", 7, f"{GAMES}/count.c")]
CARTS = (("c-game", "game", "seven"), ("thumb", "thumb", "count"))
# What gdb's own Python does: each row is timed there, without gdb's start.
TIMED = r"""
import gdb, re, time

def run(*commands):
    return [gdb.execute(it, to_string=True) for it in commands][-1]

def steps():
    return sum(map(int, re.search(r"steps (\d+) and (\d+)", run("monitor tick")).groups()))

def timed(what, command, count=1):
    before, begin = steps(), time.monotonic()
    for _ in range(count):
        run(command)
    took = time.monotonic() - begin
    went = steps() - before
    rate = f", {went / took / 1e6:.1f} million steps a second" if went > 1000000 else ""
    print(f"ROW {what}: {took / count * 1000:.1f} ms{rate}", flush=True)

"""
C_GAME = """
run('break step', 'continue', 'delete')
timed('c-game, stepi', 'stepi', 300)
timed('c-game, step', 'step', 50)
timed('c-game, next', 'next', 50)
timed('c-game, reverse-stepi', 'reverse-stepi', 50)
timed('c-game, reverse-next', 'reverse-next', 20)
run('monitor until-frame 61', 'continue')
timed('c-game, first reverse-stepi after 60 frames', 'reverse-stepi')
run('watch score')
timed('c-game, reverse-continue over 60 frames to the beginning', 'reverse-continue')
"""
THUMB = """
run('break thumb_add', 'continue', 'delete')
timed('thumb, stepi', 'stepi', 300)
run('monitor until-frame 60')
timed('thumb, continue over 60 frames, nothing set', 'continue')
timed('thumb, first reverse-stepi after them', 'reverse-stepi')
timed('thumb, reverse-stepi', 'reverse-stepi', 50)
run('break *0x2100000', 'monitor until-frame 120')
timed('thumb, continue over 60 frames, a breakpoint that is not met', 'continue')
run('delete', 'watch *(int *)0x2100000', 'monitor until-frame 180')
timed('thumb, continue over 60 frames, a watchpoint that is not met', 'continue')
print('ROW thumb, saves:', run('monitor saves').strip())
run('delete', 'watch rounds')
timed('thumb, reverse-continue to the last write', 'reverse-continue')
run('delete', 'monitor until-frame 60', 'continue', 'watch *(int *)0x2100000')
timed('thumb, reverse-continue over 60 frames to the beginning', 'reverse-continue')
"""


def built(room):
    """Builds the games in a folder."""
    for name, cpu, source in BOTH:
        words = ["arm-none-eabi-gcc", "-mcpu=arm946e-s" if cpu == 9 else "-mcpu=arm7tdmi", *FLAGS, f"-I{GAME}", "-T", f"{GAME}/arm{cpu}.ld"]
        subprocess.run([*words, f"{GAME}/start{cpu}.s", source, "-o", f"{name}.elf", "-lgcc"], cwd=room, check=True)
    for name, nine, seven in CARTS:
        subprocess.run([f"{TOP}/tools/make-cart", "--arm9", f"{nine}.elf", "--arm7", f"{seven}.elf", "-o", f"{name}.nds"], cwd=room, check=True)


def measured(room, program, cart, elf, rows):
    """Runs gdb on a game, and prints what it took."""
    with open(f"{room}/rows.py", "w") as it:
        it.write(TIMED + rows)
    begin = ["set confirm off", "set pagination off", f"file {elf}.elf", f'target remote | "{program}" {cart}.nds none', "source rows.py"]
    words = ["gdb-multiarch", "-q", "-nx", "-batch", *(word for it in begin for word in ("-ex", it))]
    ran = subprocess.run(words, cwd=room, stdout=subprocess.PIPE, stderr=subprocess.STDOUT, text=True)
    for line in ran.stdout.splitlines():
        if line.startswith("ROW "):
            print(line[4:], flush=True)
    if "Error" in ran.stdout or "error" in ran.stdout:
        print(ran.stdout[-2000:], file=sys.stderr)


def main():
    program = os.path.abspath(sys.argv[1])
    with tempfile.TemporaryDirectory() as room:
        built(room)
        measured(room, program, "c-game", "game", C_GAME)
        measured(room, program, "thumb", "thumb", THUMB)


if __name__ == "__main__":
    main()
