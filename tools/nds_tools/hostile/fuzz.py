"""A fuzzer: cases by chance from a seed, each answer held beside its cause; who has none is kept as a file."""
import collections
import json
import os
import random
import re
import time
from concurrent.futures import ProcessPoolExecutor
from dataclasses import dataclass, field
from typing import Counter, Dict, List, Optional, Tuple

from nds_tools.hostile import makers
from nds_tools.hostile.answers import Answer, Runner
from nds_tools.hostile.causes import wrong

BATCH = 500
LETTERS = b"0123456789abcdefrlsptm, #[]{}-!^.x\n"


@dataclass
class Found:
    """Answers by command and status, and what was wrong, by the number of the try."""

    answers: Counter[str] = field(default_factory=collections.Counter)
    wrong: List[Tuple[int, str]] = field(default_factory=list)

    def add(self, other: "Found") -> None:
        """Adds what others found."""
        self.answers.update(other.answers)
        self.wrong += other.wrong


class Tries:
    """The tries of a seed, by number."""

    def __init__(self, program: str, seed: str) -> None:
        self.runner, self.seed, self.found = Runner(program), seed, Found()

    def played(self, words: List[str], files: Dict[str, bytes]) -> Tuple[Answer, Optional[str]]:
        """Runs a case, and counts its answer; returns it, and what is wrong with it."""
        for it in os.listdir(self.runner.folder):
            os.unlink(os.path.join(self.runner.folder, it))
        self.runner.put(files)
        answer = self.runner.run(words)
        self.found.answers[f"{words[0] if words else '-'} {answer.name()}"] += 1
        return answer, wrong(words, files, answer)

    def text(self, chance: random.Random, listing: bytes, image: bytes) -> Optional[str]:
        """Assembles a listing, which gives the image, and then a broken one: refused at its first bad line, or taken where it is a listing again."""
        answer, fault = self.played(["asm", "text"], {"text": listing})
        if fault or answer.status or answer.out != image:
            return fault or "the listing isn't assembled to its image"
        broken = makers.mutated(chance, listing, LETTERS)
        answer, fault = self.played(["asm", "text"], {"text": broken})
        if fault or answer.status == 0:
            return fault or self.listed_again(broken, answer.out)
        bad = int(re.findall(rb"\d+", answer.note)[0])
        lines = broken.splitlines(keepends=True) if b"\r" not in broken else [it + b"\n" for it in broken.split(b"\n")]
        before = b"".join(broken.split(b"\n")[it] + b"\n" for it in range(bad - 1))
        good, fault = self.played(["asm", "text"], {"text": before})
        if bad > 1 and good.status:
            return fault or f"the lines before line {bad} are no listing"
        return fault if bad <= len(lines) + 1 else f"there is no line {bad}"

    def listed_again(self, text: bytes, image: bytes) -> Optional[str]:
        """A text that was taken is the listing of what it was taken for, where a cartridge can hold that."""
        head = re.match(rb"\.(arm|thumb)([97]) 0x([0-9a-f]+)\n", text)
        if not head:
            return "a text without its first line was taken"
        at, proc = int(head[3], 16), head[2].decode()
        whole = bytearray(makers.cart(random.Random(0), image if proc == "9" else b"", image if proc == "7" else b""))
        for place in (0x24, 0x28) if proc == "9" else (0x34, 0x38):
            whole[place : place + 4] = (at if place & 8 else at & ~3).to_bytes(4, "little")
        words = ["list", "cart", proc + ("t" if head[1] == b"thumb" else "")]
        answer, fault = self.played(words, {"cart": bytes(whole)})
        if answer.status == 7 or fault:
            return fault
        return None if answer.out == text else "a text was taken that isn't its image's listing"

    def one(self, number: int) -> Optional[str]:
        """Plays the try with this number; returns what is wrong."""
        chance = random.Random(f"{self.seed}:{number}")
        words, files = makers.case(chance)
        answer, fault = self.played(words, files)
        if fault or words[:1] != ["list"] or answer.status:
            return fault
        size = int.from_bytes(files["cart"][0x2C:0x30], "little")
        return self.text(chance, answer.out, files["cart"][0x200 : 0x200 + size])


def batch(program: str, seed: str, first: int, count: int) -> Found:
    """Plays a stretch of tries in a process of its own."""
    tries = Tries(program, seed)
    for number in range(first, first + count):
        fault = tries.one(number)
        if fault:
            tries.found.wrong.append((number, fault))
    for it in os.listdir(tries.runner.folder):
        os.unlink(os.path.join(tries.runner.folder, it))
    os.rmdir(tries.runner.folder)
    return tries.found


def kept(folder: str, seed: str, number: int, fault: str) -> None:
    """Keeps a try that was found as a folder: its words, what is wrong, its files."""
    words, files = makers.case(random.Random(f"{seed}:{number}"))
    place = os.path.join(folder, f"{seed}-{number}")
    os.makedirs(place, exist_ok=True)
    with open(os.path.join(place, "try.json"), "w", encoding="utf-8") as it:
        json.dump({"words": words, "wrong": fault, "seed": seed, "number": number}, it, indent=1)
    for name, data in files.items():
        with open(os.path.join(place, name), "wb") as it:
            it.write(data)


def fuzz(program: str, seed: str, first: int, count: int, jobs: int, folder: str) -> bool:
    """Plays tries side by side, tells how many came to what, and keeps what was wrong. Returns whether nothing was."""
    print(f"seed {seed}, tries {first} to {first + count - 1}, {jobs} side by side", flush=True)
    found, began = Found(), time.monotonic()
    with ProcessPoolExecutor(jobs) as pool:
        starts = range(first, first + count, BATCH)
        sizes = [min(BATCH, first + count - it) for it in starts]
        for part in pool.map(batch, [program] * len(starts), [seed] * len(starts), starts, sizes):
            for number, fault in part.wrong:
                kept(folder, seed, number, fault)
                print(f"try {number}: {fault}; kept in {folder}", flush=True)
            found.add(part)
    for name, times in sorted(found.answers.items()):
        print(f"{times:9,} {name}")
    print(f"{sum(found.answers.values()):9,} runs of the program in {time.monotonic() - began:.0f} s, {len(found.wrong)} of {count:,} tries wrong")
    return not found.wrong
