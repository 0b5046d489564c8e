"""gdb over the built program: forwards, backwards, watchpoints, interrupts, both processors, what is left out, what is refused, ^C.

Expected values come from the sources of the games, by hand, and from what gdb prints of any target."""
import json
import os
import pty
import random
import re
import select
import subprocess
import time
import unittest

from built import PROGRAM
from gdb_sessions import C_GAME, GDB, HERE, OWN, Gdb, but_turns, line_of, saved
from made import TOOLS, TOP

GAME, SEVEN, NITRO = f"{C_GAME}/game.c", f"{C_GAME}/seven.c", f"{TOP}/examples/nitro/nitro.c"
COIN = f"{C_GAME}/tests/coin.keys"
# What gdb says of the present line: its number and a tab.
AT = r"^(?:0x\w+\t)?{}\t"


def addresses(texts):
    """Returns the address that each text of `print/x $pc` tells."""
    return [int(re.search(r"0x[0-9a-f]+", it)[0], 16) for it in texts]


class CGame(Gdb):
    """examples/c-game, in which RIGHT is held: a player at (120, 92) takes the coin at (200, 92) once it is 7 pixels away."""

    def setUp(self):
        super().setUp()
        self.c_game()

    def play(self, *commands):
        return self.said(self.target("c-game", COIN), *commands, elf="game", elf7="seven")

    def at(self, said, line):
        self.assertRegex(said, re.compile(AT.format(line), re.M))

    def test_breakpoints_steps_and_frames(self):
        step = line_of(GAME, "player.x = within(")
        said = self.play("break game.c:step", "continue", "backtrace", "info threads", "print/x keys", "next", "next", "print player", "finish", "monitor tick")
        self.assertRegex(said[2], r"Thread 1 hit Breakpoint 1, step \(keys=\d+, speed=1\) at \S*game\.c:%d\n" % step)
        self.assertRegex(said[3], r"^#0  step \(.*\n#1  0x\w+ in main \(\) at \S*game\.c:%d\n" % line_of(GAME, "step(~KEYINPUT"))
        self.assertRegex(said[4], r"\* 1 +Thread 1 \(ARM9, runs\) step .*\n  2 +Thread 2 \(ARM7, \w+\) ")
        self.assertEqual(said[5], "$1 = 0xfffffc10\n", "RIGHT, and the bits that KEYINPUT hasn't")
        self.at(said[6], step + 1)
        self.at(said[7], step + 2)
        self.assertEqual(said[8], "$2 = {x = 121, y = 92}\n")
        self.assertIn("main () at ", said[9])
        self.assertGreater(self.tick_of(said[10]), 817920, "after the first V-blank")

    def test_a_wait_is_one_line_and_goes_back_as_one(self):
        line = line_of(GAME, "        wait_for_vblank();")
        said = self.play(f"break game.c:{line}", "continue", "monitor tick", "next", "monitor tick", "next", "monitor tick",
                         "reverse-next", "monitor tick", "reverse-next", "monitor tick")  # fmt: skip
        self.at(said[4], line + 1)
        self.at(said[6], line + 2)
        self.at(said[8], line + 1)
        self.at(said[10], line)
        ticks = [self.tick_of(said[it]) for it in (3, 5, 7, 9, 11)]
        self.assertLess(ticks[0], 817920)
        self.assertTrue(817920 < ticks[1] < ticks[2] < 817920 + 1000, ticks)
        self.assertEqual(ticks[3:], [ticks[1], ticks[0]], "back to where it was")

    def test_the_other_processor(self):
        main = line_of(SEVEN, "begin_interrupts(HANDLER")
        said = self.play("break game.c:step", "continue", "delete", "break seven.c:main", "reverse-continue", "backtrace", "info threads", "next", "next",
                         "thread 1", "backtrace")  # fmt: skip
        self.assertRegex(said[5], r"Thread 2 hit Breakpoint 2, main \(\) at \S*seven\.c:\d+\n")
        self.assertRegex(said[6], r"^#0  main \(\) at \S*seven\.c:\d+\n#1  0x038\w+ in _start \(\)")
        self.assertRegex(said[7], r"\* 2 +Thread 2 \(ARM7, runs\) main ")
        self.at(said[8], main)
        self.at(said[9], main + 2)
        self.assertRegex(said[11], r"^#0  .*_start \(\) at \S*start9\.s")

    def test_the_store_that_wrote_a_value(self):
        line = line_of(GAME, "score++;")
        said = self.play("break main", "delete", "watch score", "continue", "x/i $pc-4", "monitor tick", "print score", "delete",
                         "monitor until-frame 90", "continue", "watch score", "reverse-continue", "x/i $pc", "monitor tick", "print score",
                         "stepi", "print score")  # fmt: skip
        self.assertRegex(said[4], r"Thread 1 hit Hardware watchpoint \d+: score\n\nOld value = 0\nNew value = 1\n")
        self.assertRegex(said[5], r"<step\+\d+>:\tstr\t")
        self.assertEqual(said[7], "$1 = 1\n")
        self.assertRegex(said[12], r"Hardware watchpoint \d+: score\n\nOld value = 1\nNew value = 0\n")
        self.at(said[12], line)
        self.assertRegex(said[13], r"^=> 0x\w+ <step\+\d+>:\tstr\t")
        self.assertEqual(self.tick_of(said[14]), self.tick_of(said[6]) - 1, "right before the store")
        self.assertEqual((said[15], said[17]), ("$2 = 0\n", "$3 = 1\n"))

    def test_back_to_the_beginning(self):
        said = self.play("break tell", "continue", "delete", "reverse-continue", "monitor tick", "print $pc")
        self.assertIn("No more reverse-execution history.", said[4])
        self.assertEqual(self.tick_of(said[5]), 0)
        self.assertRegex(said[6], r"0x2000000 <_start>")

    def test_out_of_functions_both_ways(self):
        said = self.play("break put", "continue", "reverse-finish", "x/i $pc", "delete", "stepi", "finish", "backtrace")
        self.assertRegex(said[4], r"^=> 0x\w+ <main\+\d+>:\tbl\t\w+ <put>")
        self.assertRegex(said[7], r"main \(\) at \S*game\.c:")
        self.assertRegex(said[8], r"^#0  (0x\w+ in )?main \(\) at ")

    def test_a_watchpoint_of_many_bytes(self):
        said = self.play("watch *(char(*)[1025])&player", "continue", "monitor tick", "delete", "watch *(char(*)[1024])&player", "continue", "monitor tick")
        self.assertIn("Could not insert hardware watchpoint 1.", said[2])
        self.assertEqual(self.tick_of(said[3]), 0)
        self.assertRegex(said[6], r"Thread \d hit Hardware watchpoint 2: ")
        self.assertGreater(self.tick_of(said[7]), 0)

    def test_what_is_refused(self):
        said = self.play("print score = 7", "set var $r0 = 5", "x/2xw 0x0f000000", "print score", "monitor tick", "x/2xw 0x4000208", "x/xh 0x4000130",
                         "x/2i 0xffff0008", "monitor no-such-command")  # fmt: skip
        self.assertIn("Cannot access memory at address 0x", said[1])
        self.assertIn('Could not write register "r0"', said[2])
        self.assertIn("Cannot access memory at address 0xf000000", said[3])
        self.assertEqual((said[4], self.tick_of(said[5])), ("$1 = 0\n", 0))
        self.assertRegex(said[6], r"0x4000208:\t0x00000000\t0x00000000\n")
        self.assertRegex(said[7], r"0x4000130:\t0x03ff\n", "RIGHT is pressed by a step of tick 0")
        self.assertRegex(said[8], r"0xffff0008:\tb\t0xffff0044\n +0xffff000c:\tb\t0xffff000c\n")
        self.assertIn("until-frame", said[9])

    def test_who_waits_in_the_boot_rom(self):
        main = line_of(GAME, "        wait_for_vblank();")
        said = self.play(f"source {TOOLS}/nds-gdb-rom.py", "monitor until-frame 5", "continue", "thread 2", "backtrace", "thread 1", "backtrace", "up", "finish",
                         "tbreak game.c:on_interrupt", "continue", "backtrace")  # fmt: skip
        for place, source, at in ((7, "game", main), (5, "seven", line_of(SEVEN, "        wait_for_vblank();"))):
            self.assertRegex(said[place], r"^#0  0x\w+ in \?\? \(\)\n#1  0x\w+ in wait_for_vblank \(\) at \S*ports\.h:\d+\n#2  0x\w+ in main \(\) at \S*%s\.c:%d\n" % (source, at))
        self.assertRegex(said[9], r"main \(\) at \S*game\.c:%d\n" % (main + 1))
        self.assertRegex(said[12], r"^#0  on_interrupt \(\) at .*\n#1  0xffff003c in \?\? \(\)\n")

    @unittest.skipUnless(PROGRAM, "no program nds is built; NDS_PROGRAM names one")
    def test_states_and_frames_are_those_of_a_run(self):
        said = self.play("monitor until-frame 2", "continue", "monitor tick", "monitor state own.state", "monitor frame own.frame")
        tick = self.tick_of(said[3])
        saved(f"{self.room}/c-game.nds", COIN, tick, f"{self.room}/fresh.state")
        self.assertEqual(but_turns(f"{self.room}/own.state"), but_turns(f"{self.room}/fresh.state"))
        run = subprocess.run([PROGRAM, "run", f"{self.room}/c-game.nds", COIN, str(tick), "last"], capture_output=True, check=True)
        with open(f"{self.room}/own.frame", "rb") as it:
            self.assertEqual(it.read(), run.stdout[: 9 + 2 * 98304])


class Interrupts(Gdb):
    """tools/tests/gdb/timer.c: a timer interrupts ARM9's loop every 256 clocks of the bus."""

    def setUp(self):
        super().setUp()
        self.of_tests("timer", "timer")
        self.source = f"{HERE}/gdb/timer.c"

    def play(self, *commands):
        return self.said(self.target("timer"), *commands, elf="timer")

    def test_steps_pass_over_handlers_both_ways(self):
        count = 60
        lines = {line_of(self.source, it) for it in ("    sum += by;", "    sum ^= 1;", "        add(1);", "        add(2);", "        add(3);", "sum = sum * 3;")}
        ends = {line_of(self.source, "    sum ^= 1;") + 1}
        said = self.play("tbreak add", "continue", "print ticks", *["step"] * count, "print ticks", *["reverse-step"] * count, "print ticks")
        there, back = said[4 : 4 + count], said[5 + count : 5 + 2 * count]
        shown = [int(re.search(AT.format(r"(\d+)"), it, re.M)[1]) for it in (said[2], *there)]
        self.assertEqual({*shown} - lines - ends, set(), "no line of the handler")
        numbers = [int(said[it].split("= ")[1]) for it in (3, 4 + count)]
        self.assertGreater(numbers[1], numbers[0] + 2, "interrupts came meanwhile")
        returned = [int(re.search(AT.format(r"(\d+)"), it, re.M)[1]) for it in back]
        self.assertEqual(returned[:20], list(reversed(shown))[1:21])

    def test_instructions_back_are_those_that_were_stepped(self):
        count = 200
        said = self.play("tbreak add", "continue", "print/x $pc", *["stepi", "print/x $pc"] * count, "print ticks", *["reverse-stepi", "print/x $pc"] * count,
                         "print ticks")  # fmt: skip
        there = addresses(said[3 : 4 + 2 * count : 2])
        back = addresses(said[6 + 2 * count : 6 + 4 * count : 2])
        self.assertEqual(len(there), count + 1)
        self.assertEqual(back, list(reversed(there))[1:])
        self.assertTrue(all(0x2000000 <= it < 0x2001000 for it in there), "none is in a handler's entry")
        came, before = (int(it.split("= ")[1]) for it in (said[4 + 2 * count], said[-1]))
        self.assertGreater(came, before, "interrupts came meanwhile")

    def test_handlers_are_stepped_into_where_they_are_shown(self):
        said = self.play("tbreak add", "continue", "monitor irq show", *["stepi", "print/x $pc"] * 200)
        self.assertIn(0xFFFF0018, addresses(said[5::2]))


class Thumb(Gdb):
    """tools/tests/gdb/thumb.c: ARM9 in Thumb and ARM code, and ARM7 that counts."""

    def test_functions_of_both_instruction_sets(self):
        self.of_tests("thumb", "thumb", seven="count")
        said = self.said(self.target("thumb"), "break thumb_add", "break arm_mul", "continue", "backtrace", "finish", "continue", "backtrace", "finish", "print pair",
                         "delete", "break more", "continue", "print count", "info threads", "watch count", "delete 3", "continue", "reverse-continue",
                         elf="thumb", elf7="seven")  # fmt: skip
        self.assertIn("Thread 1 hit Breakpoint 1, thumb_add (a=0, b=1) at ", said[3])
        self.assertRegex(said[4], r"^#0  thumb_add .*\n#1  0x\w+ in thumb_both \(n=3\) .*\n#2  0x\w+ in main \(\) ")
        self.assertIn("Value returned is $1 = 1", said[5])
        self.assertIn("Thread 1 hit Breakpoint 2, arm_mul (a=0, b=2) at ", said[6])
        self.assertIn("Value returned is $2 = 0", said[8])
        self.assertEqual(said[9], "$3 = {a = 1, b = 0}\n")
        self.assertIn("Thread 2 hit Breakpoint 3, more (by=3) at ", said[12])
        self.assertRegex(said[14], r"  1 +Thread 1 \(ARM9, runs\).*\n\* 2 +Thread 2 \(ARM7, runs\) more ")
        count = int(said[13].split("= ")[1])
        self.assertEqual(count % 3, 0)
        self.assertIn(f"Old value = {count}\nNew value = {count + 3}\n", said[17])
        self.assertIn(f"Old value = {count + 3}\nNew value = {count}\n", said[18])

    def test_watchpoints_of_reads_both_ways(self):
        self.of_tests("thumb", "thumb", seven="count")
        said = self.said(self.target("thumb"), "break thumb.c:main", "continue", "delete", "rwatch total", "continue", "x/i $pc-4", "monitor tick", "continue",
                         "monitor tick", "reverse-continue", "x/i $pc", "monitor tick", "reverse-continue", "monitor tick", "stepi", "monitor tick", "delete",
                         "thread 2", "rwatch count", "continue", "x/i $pc-4", "continue", elf="thumb", elf7="seven")  # fmt: skip
        told = "Thread 1 hit Hardware read watchpoint 2: total\n\nValue = {}\n"
        self.assertIn(told.format(0), said[5])
        self.assertRegex(said[6], r"<main\+\d+>:\tldr\t")
        self.assertIn(told.format(12), said[8], "(0 + 1) + (1 + 1) + (2 + 1) and 0 + 2 + 4")
        self.assertIn(told.format(12), said[10])
        self.assertRegex(said[11], r"^=> 0x\w+ <main\+\d+>:\tldr\t")
        self.assertIn(told.format(0), said[13])
        ticks = [self.tick_of(said[it]) for it in (7, 9, 12, 14)]
        self.assertEqual(ticks[2:], [ticks[1] - 1, ticks[0] - 1], "right before the loads")
        self.assertIn(told.format(0), said[15])
        self.assertEqual(self.tick_of(said[16]), ticks[0])
        counts = [int(re.search(r"Thread 2 hit Hardware read watchpoint 3: count\n\nValue = (\d+)\n", said[it])[1]) for it in (20, 22)]
        self.assertEqual((counts[0] % 3, counts[1] - counts[0]), (0, 3))
        self.assertRegex(said[21], r"<more\+\d+>:\tldr\t")

    def test_watchpoints_of_reads_and_writes(self):
        self.of_tests("thumb", "thumb", seven="count")
        said = self.said(self.target("thumb"), "break thumb_add", "continue", "delete", "awatch pair.a", "continue", "x/i $pc-2", "continue", "continue", "x/i $pc-2",
                         "reverse-continue", "x/i $pc", "print pair.a", "delete", "awatch total", "continue", "x/i $pc-4", "continue", "x/i $pc-4",
                         elf="thumb", elf7="seven")  # fmt: skip
        name = "Thread 1 hit Hardware access (read/write) watchpoint {}\n\n"
        self.assertIn(name.format("2: pair.a") + "Value = 1\n", said[5], "written as it was")
        self.assertRegex(said[6], r"<thumb_add\+\d+>:\tstr\t")
        self.assertIn(name.format("2: pair.a") + "Old value = 1\nNew value = 2\n", said[7])
        self.assertIn(name.format("2: pair.a") + "Old value = 2\nNew value = 3\n", said[8])
        self.assertIn(name.format("2: pair.a") + "Old value = 3\nNew value = 2\n", said[10])
        self.assertRegex(said[11], r"^=> 0x\w+ <thumb_add\+\d+>:\tstr\t")
        self.assertEqual(said[12], "$1 = 2\n")
        self.assertIn(name.format("3: total") + "Value = 0\n", said[15])
        self.assertRegex(said[16], r"<main\+\d+>:\tldr\t")
        self.assertIn(name.format("3: total") + "Old value = 0\nNew value = 12\n", said[17])
        self.assertRegex(said[18], r"<main\+\d+>:\tstr\t")

    def test_what_is_left_out_and_the_way_back(self):
        self.of_tests("left", "thumb", "-DSTOPS", seven="count")
        said = self.said(self.target("left"), "continue", "x/i $pc", "print rounds", "monitor tick", "continue", "monitor tick", "reverse-stepi", "monitor tick", "stepi",
                         "monitor tick", "stepi", "reverse-continue", "monitor tick", "break thumb_add", "continue", elf="left", elf7="seven")  # fmt: skip
        for it in (said[1], said[5], said[11]):
            self.assertRegex(it, r"left out: Swi tick \d+ actor 22 value 0x00000099\n")
            self.assertIn("Thread 1 received signal SIGILL", it)
        self.assertRegex(said[2], r"^=> 0x\w+ <main\+\d+>:\tsvc\t0x00990000")
        self.assertEqual(said[3], "$1 = 100\n")
        ticks = [self.tick_of(said[it]) for it in (4, 6, 8, 10)]
        self.assertEqual(ticks[:1] * 2, ticks[:2])
        self.assertLess(ticks[2], ticks[0])
        self.assertLessEqual(ticks[3], ticks[0])
        self.assertIn("No more reverse-execution history.", said[12])
        self.assertEqual(self.tick_of(said[13]), 0)
        self.assertIn("Thread 1 hit Breakpoint 1, thumb_add (a=0, b=1) at ", said[15])


class Nitro(Gdb):
    """examples/nitro: the card's words come by DMA, and functions have arguments."""

    def setUp(self):
        super().setUp()
        folder = f"{TOP}/examples/nitro"
        self.compiled("nitro", "arm946e-s", "arm9", f"{folder}/start9.s", f"{folder}/nitro.c")
        self.packed("nitro", "nitro", None, "--file", f"{folder}/files")

    def play(self, *commands):
        return self.said(self.target("nitro"), *commands, elf="nitro")

    def test_words_that_dma_writes(self):
        said = self.play("break take_by_channel", "continue", "backtrace", "delete", "watch sum_of::block[0]", "continue", "monitor tick")
        self.assertRegex(said[3], r"^#0  take_by_channel \(place=\d+, to=0x\w+ <\S+>\) at .*\n#1  0x\w+ in sum_of \(file=\d+\) at .*\n#2  0x\w+ in main \(\)")
        self.assertRegex(said[6], r"(?i)actor \d+|DMA")
        self.assertRegex(said[6], r"Old value = 0\nNew value = \d+\n")

    def test_conditions_and_texts(self):
        said = self.play("tbreak find if path[0] == 'h'", "continue", "print path", "finish", "watch greeting[0]", "continue", "delete", "watch ended", "continue",
                         "print greeting", "print number", "print missing", "reverse-continue", "print ended")  # fmt: skip
        self.assertRegex(said[2], r'find \(path=0x\w+ "hello\.txt"\)')
        self.assertRegex(said[3], r'= 0x\w+ "hello\.txt"')
        self.assertRegex(said[6], r"Old value = 0 '\\000'\nNew value = 104 'h'\n")
        self.assertRegex(said[9], r"Old value = 0\nNew value = 1\n")
        self.assertRegex(said[10], r'"hello from the cartridge\\n')
        self.assertEqual((said[11][said[11].index("=") :], said[12][said[12].index("=") :]), ("= 2\n", "= -1\n"))
        self.assertRegex(said[13], r"Old value = 1\nNew value = 0\n")
        self.assertTrue(said[14].endswith("= 0\n"))


class Example(Gdb):
    """examples/debugging, as docs/DEBUGGING.md tells it."""

    def commands(self):
        """Returns the five commands of the page, and what it says the last one says."""
        with open(f"{TOP}/docs/DEBUGGING.md") as it:
            begin, _, rest = it.read().partition("    target remote | ./nds-gdb examples/debugging/game.nds")
        self.assertTrue(begin and rest)
        found = re.search(r"^    target remote .*\n(?:    .*\n)*", "    target remote | ./nds-gdb examples/debugging/game.nds" + rest, re.M)[0]
        told = re.search(r"The last one says\n\n((?:    .*\n|\n)*)", rest)[1]
        return [it.strip() for it in found.splitlines()], [it.strip() for it in told.splitlines() if it.strip()]

    def test_five_commands_from_a_wrong_value_to_its_line(self):
        (remote, *commands), told = self.commands()
        self.assertEqual(len(commands), 4)
        for name in ("game.elf", "game.nds", "right.keys", "game.c"):
            with open(f"{TOP}/examples/debugging/{name}", "rb") as it:
                self.put(f"examples/debugging/{name}", it.read())
        remote = remote.replace("./nds-gdb", f'"{OWN}"')
        said = self.said(remote, "directory examples/debugging", *commands, "print game.next", elf="examples/debugging/game")
        for line in told:
            self.assertIn(line, [it.strip() for it in said[5].splitlines()])
        self.assertIn(f"game.c:{line_of(f'{TOP}/examples/debugging/game.c', 'game.marks[game.next] = game.player;')}\n", said[5])
        self.assertEqual(said[6], "$1 = 8\n")

    def test_the_launch_file_begins_a_session(self):
        with open(f"{TOP}/examples/debugging/launch.json") as it:
            launch = json.load(it)["configurations"][0]
        self.assertEqual((launch["miDebuggerPath"], launch["launchCompleteCommand"]), ("gdb-multiarch", "None"))
        folder = f"{TOP}/examples/debugging"
        lines = [it["text"].replace("${workspaceFolder}/../../nds-gdb", OWN).replace("${workspaceFolder}", folder) for it in launch["customLaunchSetupCommands"]]
        lines += ["-break-insert leave_mark", "-exec-continue"]
        gdb = subprocess.Popen([GDB, "-q", "-nx", "--interpreter=mi"], stdin=subprocess.PIPE, stdout=subprocess.PIPE, text=True, cwd=folder)
        self.addCleanup(gdb.communicate)
        self.addCleanup(gdb.kill)
        for number, line in enumerate(lines):
            gdb.stdin.write(f"{number}{line}\n")
            gdb.stdin.flush()
            until = f"{number}^" if number < 4 else "*stopped,reason=\"breakpoint-hit\""
            for said in gdb.stdout:
                self.assertNotIn("^error", said)
                if said.startswith(until):
                    break
        self.assertIn('func="leave_mark"', said)


class Interrupted(Gdb):
    """^C, which gdb hears at a terminal alone."""

    def test_the_program_stops_and_goes_on(self):
        self.of_tests("thumb", "thumb", seven="count")
        own, other = pty.openpty()
        words = [it for it in self.words_of("thumb", "seven", self.target("thumb")) if it != "-batch"]
        gdb = subprocess.Popen(words, stdin=other, stdout=other, stderr=other, cwd=self.room, env={**os.environ, "TERM": "dumb"}, start_new_session=True,
                               preexec_fn=lambda: __import__("fcntl").ioctl(0, __import__("termios").TIOCSCTTY, 0))  # fmt: skip
        os.close(other)
        self.addCleanup(gdb.wait)
        self.addCleanup(gdb.kill)
        heard = ""

        def until(text):
            nonlocal heard
            end = time.monotonic() + 120
            while text not in heard and time.monotonic() < end:
                if select.select([own], [], [], 1)[0]:
                    heard += os.read(own, 4096).decode("utf-8", "replace")
            self.assertIn(text, heard)
            before, _, heard = heard.partition(text)
            return before

        def say(text):
            os.write(own, text.encode())

        until("(gdb) ")
        # (short ones, for a program that is checked as it runs, and slow)
        say("monitor slice 200000\n")
        until("(gdb) ")
        for _ in range(2):
            say("continue\n")
            until("Continuing.")
            time.sleep(1)
            say("\x03")
            until("SIGINT")
            until("(gdb) ")
            say("monitor tick\n")
            self.assertGreater(self.tick_of(until("steps").replace("\r", "\n")), 0)
            until("(gdb) ")
        say("stepi\n")
        until("(gdb) ")
        say("kill\n")
        until("(gdb) ")


@unittest.skipUnless(PROGRAM, "no program nds is built; NDS_PROGRAM names one")
class Chance(Gdb):
    """Moves by chance: wherever they lead, the state is that of a fresh run to the same tick."""

    MOVES = 25

    def moves(self, chance, functions, variables):
        """Returns gdb's commands of moves by chance, and of a state after each."""
        commands = []
        for number in range(self.MOVES):
            move = chance.choice(["stepi {n}", "stepi {n}", "reverse-stepi", "step", "reverse-step", "break {f}", "watch {v}", "back {f}", "thread {t}"])
            filled = move.format(n=chance.randint(1, 400), f=chance.choice(functions), v=chance.choice(variables), t=chance.randint(1, 2))
            kind, _, rest = filled.partition(" ")
            group = [filled]
            if kind in ("break", "watch"):
                group = [filled, "continue", "delete"]
            elif kind == "back":
                group = [f"break {rest}", "reverse-continue", "delete"]
            commands.append([*group, "monitor tick", f"monitor state {number}.state"])
        return commands

    def held(self, seed, cart, keys, elf, elf7, functions, variables):
        """Makes the moves of a seed, and holds each state beside a fresh run's."""
        moves = self.moves(random.Random(seed), functions, variables)
        said = self.said(self.target(cart, keys), *(it for move in moves for it in move), elf=elf, elf7=elf7)[1:]
        seen = set()
        for number, move in enumerate(moves):
            tick = self.tick_of(said[len(move) - 2])
            said = said[len(move) :]
            if tick == 0:
                continue
            with self.subTest(seed=seed, number=number, move=move[:-2], tick=tick):
                saved(f"{self.room}/{cart}.nds", keys, tick, f"{self.room}/fresh.state")
                self.assertEqual(but_turns(f"{self.room}/{number}.state"), but_turns(f"{self.room}/fresh.state"))
            seen.add(tick)
        self.assertGreater(len(seen), 5)

    def test_two_busy_processors(self):
        self.of_tests("thumb", "thumb", seven="count")
        for seed in (1, 2):
            self.held(seed, "thumb", "none", "thumb", "seven", ("thumb_add", "arm_mul", "more"), ("count", "total", "pair.a"))

    def test_interrupts(self):
        self.of_tests("timer", "timer")
        for seed in (3, 4):
            self.held(seed, "timer", "none", "timer", None, ("add", "on_timer"), ("sum", "ticks"))

    def test_a_game_that_waits(self):
        self.c_game()
        for seed in (5, 6):
            self.held(seed, "c-game", COIN, "game", "seven", ("step", "tell", "game.c:on_interrupt", "seven.c:on_interrupt"), ("player.x", "frames"))


if __name__ == "__main__":
    unittest.main()
