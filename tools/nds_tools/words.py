"""How each tool reads its words, names its errors and ends: 0 for good, 1 for what differs or failed, 2 for what can't be judged."""
import argparse
import difflib
import io
import os
import sys
from typing import Callable, Dict, IO, NoReturn, cast

GOOD, FAILED, UNTOLD = 0, 1, 2


class Untold(Exception):
    """Nothing can be judged; says why in one line."""


class Refused(Exception):
    """What was asked for breaks a rule; says which in one line."""


class Words(argparse.ArgumentParser):
    """A parser whose `--help` is the tool's docstring, and whose errors are one line and status 2."""

    def __init__(self, tool: str, usage: str, text: str) -> None:
        super().__init__(prog=tool, usage=usage, add_help=False, allow_abbrev=False)
        self.text = text
        self.add_argument("-h", "--help", action="store_true")

    def read(self) -> argparse.Namespace:
        """Reads the words; shows the help and ends where it is asked for, also beside words that are missing."""
        words = []
        for it in sys.argv[1:]:
            # (standard input with an address, which otherwise would be read as an option)
            if it.startswith("-@") and words:
                words[-1] += f"={it}"
            else:
                words.append(it)
        if "--help" in words or "-h" in words:
            print(self.text.strip())
            sys.exit(GOOD)
        return self.parse_intermixed_args(words)

    def meant(self, message: str) -> str:
        """Returns a question whether an option that is there was meant by one that isn't, or nothing where none is alike."""
        wrong = message.partition("unrecognized arguments: ")[2].split(" ")[0]
        found = difflib.get_close_matches(wrong, self._option_string_actions, 1, 0.7) if wrong.startswith("--") else []
        return f" (is {found[0]} meant?)" if found else ""

    def error(self, message: str) -> NoReturn:
        print(f"{self.prog}: {message}{self.meant(message)}; --help tells the words", file=sys.stderr)
        sys.exit(UNTOLD)


def ended(tool: str, main: Callable[[], int]) -> int:
    """Runs a tool's main, and turns its named errors into one line on standard error and a status."""
    try:
        status = main()
        sys.stdout.flush()
        return status
    except Refused as why:
        print(f"{tool}: {why}", file=sys.stderr)
        return FAILED
    except Untold as why:
        print(f"{tool}: {why}", file=sys.stderr)
    except BrokenPipeError:
        # (who read the output has ended: what is left of it goes nowhere, and in silence)
        os.dup2(os.open(os.devnull, os.O_WRONLY), sys.stdout.fileno())
    except OSError as why:
        print(f"{tool}: {why.filename or 'the system'}: {why.strerror}", file=sys.stderr)
    except KeyboardInterrupt:
        print(f"{tool}: interrupted", file=sys.stderr)
    return UNTOLD


# Pipes whose first byte was looked at, by name: what comes of them can't be had again, so that whoever reads them next goes on there.
looked_at: Dict[str, IO[bytes]] = {}


def opened(name: str) -> IO[bytes]:
    """Opens a file to read its bytes; `-` is standard input."""
    if name in looked_at:
        return looked_at.pop(name)
    return sys.stdin.buffer if name == "-" else open(name, "rb")


def first_byte(name: str) -> bytes:
    """Returns the first byte of what `opened` reads, or nothing where there is none; it is still there for who opens it next."""
    if os.path.isfile(name) and name != "-":
        with open(name, "rb") as it:
            return it.read(1)
    stream = opened(name)
    buffered = stream if isinstance(stream, io.BufferedReader) else io.BufferedReader(cast(io.RawIOBase, stream))
    looked_at[name] = buffered
    return buffered.peek(1)[:1]


def bytes_of(name: str) -> bytes:
    """Returns all bytes of a file, or of standard input for `-`."""
    with opened(name) as it:
        return it.read()


def count_from(least: float, kind: Callable[[str], float]) -> Callable[[str], float]:
    """Returns what reads an option's word that is a number, not below the least one."""

    def read(text: str) -> float:
        try:
            value = kind(text)
        except ValueError:
            value = least - 1
        if not value >= least:
            raise argparse.ArgumentTypeError(f"{text} is no {'whole ' if kind is int else ''}number from {least:g}")
        return value

    return read


def number(text: str) -> int:
    """Reads a number: decimal, or hexadecimal after 0x or before h."""
    low = text.lower().replace("_", "")
    if low.endswith("h"):
        return int(low[:-1], 16)
    return int(low, 16) if low.startswith("0x") else int(low, 10)
