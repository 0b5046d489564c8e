"""How far a tool is, on one line of a terminal's standard error, for what takes more than a second. Elsewhere nothing is told."""
import sys
import threading
import time
from typing import Optional

AFTER, EVERY, WIDEST = 1.0, 0.25, 120
CLEARED = "\r\033[K"


class Progress:
    """Tells how many of how many parts are done, and for how long it has gone on; lines of the output come through `line`, so that both don't
    mix."""

    def __init__(self, tool: str, of: Optional[int] = None, what: str = "") -> None:
        self.tool, self.of, self.what, self.done, self.text = tool, of, what, 0, ""
        self.is_shown = sys.stderr.isatty()
        self.begin, self.is_there = time.monotonic(), False
        self.lock, self.ended = threading.Lock(), threading.Event()

    def step(self, text: str = "") -> None:
        """Counts one part more; it is told, with a text behind, with the next look at the clock."""
        with self.lock:
            self.done += 1
            self.text = text

    def tell(self) -> None:
        """Tells how far it is, where it has gone on for a while."""
        seconds = time.monotonic() - self.begin
        if seconds >= AFTER:
            count = f"{self.done} of {self.of}" if self.of else f"{self.done}"
            self.write(f"{count} {self.what}, {seconds:.0f} s{f', {self.text}' if self.text else ''}")

    def write(self, text: str) -> None:
        sys.stderr.write(f"{CLEARED}{self.tool}: {text}"[:WIDEST])
        sys.stderr.flush()
        self.is_there = True

    def now(self, text: str) -> None:
        """Tells at once what is done next, which takes a while."""
        with self.lock:
            self.of, self.what, self.text = None, "", text
            if self.is_shown:
                self.write(text)

    def line(self, text: str) -> None:
        """Prints a line of the output, in place of what is told."""
        with self.lock:
            self.clear()
            print(text, flush=True)

    def clear(self) -> None:
        if self.is_there:
            sys.stderr.write(CLEARED)
            sys.stderr.flush()
            self.is_there = False

    def go_on(self) -> None:
        """Tells again and again how far it is, until it is ended."""
        while not self.ended.wait(EVERY):
            with self.lock:
                if self.of:
                    self.tell()

    def __enter__(self) -> "Progress":
        if self.is_shown:
            threading.Thread(target=self.go_on, daemon=True).start()
        return self

    def __exit__(self, *_: object) -> None:
        self.ended.set()
        with self.lock:
            self.clear()
