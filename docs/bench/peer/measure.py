#!/usr/bin/env python3
"""How fast a cartridge of this folder runs in nds, and in the same minutes in DeSmuME (Debian's packages desmume and xvfb), by its interpreter
and by its recompiler.

    NDS_PROGRAM=.. docs/bench/peer/measure.py [--seconds N] [CART..]

Each cartridge tells in main memory how many V-blanks came and how many rounds it has made. DeSmuME shows no number, so it runs for N seconds
of processor time, and what the cartridge told is read from its memory before and after. In nds a round's steps of both processors are known by
the record of the end. Rows are told as: who, frames a second, rounds a second, million steps a second (rounds by nds's steps of a round)."""
import os
import re
import resource
import shutil
import signal
import struct
import subprocess
import sys
import tempfile
import time

HERE = os.path.dirname(os.path.realpath(__file__))
TOP = os.path.dirname(os.path.dirname(os.path.dirname(HERE)))
sys.path.insert(0, os.path.join(TOP, "tools", "tests"))
from desmume import CLI, Screen  # (the path comes first)

MARK = struct.pack("<4I", *((0x43504552 * 5**n + (5**n - 1) // 4) % 2**32 for n in range(4)))
# (where it tells, in main memory)
TOLD, FRAME = 0x300000, 1120380
HZ = os.sysconf("SC_CLK_TCK")


def spent(pid):
    """Returns the seconds of processor time that a process has taken."""
    with open(f"/proc/{pid}/stat") as it:
        words = it.read().rpartition(")")[2].split()
    return (int(words[11]) + int(words[12])) / HZ


def regions(pid):
    with open(f"/proc/{pid}/maps") as it:
        for line in it:
            found = re.match(r"([0-9a-f]+)-([0-9a-f]+) rw", line)
            if found:
                yield int(found.group(1), 16), int(found.group(2), 16)


def place_of_mark(pid):
    """Returns where a process has the mark, or nothing."""
    with open(f"/proc/{pid}/mem", "rb", 0) as it:
        for start, end in regions(pid):
            try:
                it.seek(start)
                at = it.read(end - start).find(MARK)
            except OSError:
                continue
            if at >= 0:
                return start + at
    return None


def told(pid, place):
    """Returns frames, rounds, and the processor time at which they were read."""
    with open(f"/proc/{pid}/mem", "rb", 0) as it:
        it.seek(place + 16)
        return (*struct.unpack("<2I", it.read(8)), spent(pid))


def of_desmume(room, screen, cart, mode, seconds):
    """Returns frames and rounds a second of processor time."""
    words = [CLI, "--disable-sound", "--disable-limiter", f"--cpu-mode={mode}", "--3d-engine=0", "--nojoy=1", cart]
    environment = {**os.environ, "HOME": room, "DISPLAY": screen.name, "SDL_AUDIODRIVER": "dummy", "SDL_VIDEODRIVER": "x11"}
    run = subprocess.Popen(words, env=environment, stdin=subprocess.DEVNULL, stdout=subprocess.DEVNULL, stderr=subprocess.DEVNULL)
    try:
        place = None
        while place is None:
            time.sleep(0.5)
            place = place_of_mark(run.pid)
        first = told(run.pid, place)
        while spent(run.pid) - first[2] < seconds:
            time.sleep(0.1)
        last = told(run.pid, place)
    finally:
        run.send_signal(signal.SIGKILL)
        run.wait()
    time_of_it = last[2] - first[2]
    return (last[0] - first[0]) / time_of_it, (last[1] - first[1]) / time_of_it


def of_nds(*words):
    """Returns what nds wrote, and the seconds of processor time that it took."""
    before = resource.getrusage(resource.RUSAGE_CHILDREN)
    out = subprocess.run([f"{TOP}/nds", *words], stdout=subprocess.PIPE, check=True).stdout
    after = resource.getrusage(resource.RUSAGE_CHILDREN)
    return out, after.ru_utime + after.ru_stime - before.ru_utime - before.ru_stime


def measured(cart, seconds):
    """Returns of nds frames, rounds and steps a second, by a run of about so many seconds, less one to tick 1."""
    start, ticks = of_nds("run", cart, "none", "1", "none")[1], 30 * FRAME
    while True:
        out, took = of_nds("run", cart, "none", str(ticks), "none")
        took -= start
        if took >= seconds / 2:
            break
        ticks = int(ticks * max(2, seconds / max(took, 0.05)))
    steps = sum(struct.unpack("<2Q", out[-32:-16]))
    line = of_nds("peek", cart, "none", str(ticks), "main", str(TOLD + 16), "8")[0].decode()
    frames, rounds = struct.unpack("<2I", bytes.fromhex(line.partition(":")[2]))
    return frames / took, rounds / took, steps / took, steps / max(rounds, 1)


def main(words):
    seconds = 10.0
    if words[:1] == ["--seconds"]:
        seconds, words = float(words[1]), words[2:]
    if not CLI or not shutil.which("Xvfb"):
        print("measure.py: wants Debian's packages desmume and xvfb", file=sys.stderr)
        return 2
    with tempfile.TemporaryDirectory() as room:
        screen = Screen(room)
        try:
            for name in words or ("cpu", "scene", "ipc"):
                cart = f"{HERE}/{name}.nds"
                frames, rounds, steps, each = measured(cart, seconds)
                print(f"{name}: nds: {frames:.1f} frames, {rounds:.0f} rounds, {steps / 1e6:.1f} million steps a second; {each:.1f} steps a round")
                for mode, said in ((0, "interpreter"), (1, "recompiler")):
                    frames, rounds = of_desmume(room, screen, cart, mode, seconds)
                    print(f"{name}: DeSmuME's {said}: {frames:.1f} frames, {rounds:.0f} rounds, {rounds * each / 1e6:.1f} million steps a second")
        finally:
            screen.close()
    return 0


if __name__ == "__main__":
    sys.exit(main(sys.argv[1:]))
