"""Lines of source by address, of DWARF's line number programs (DWARF 5, chapter 6.2; versions 2 to 5)."""
import os
from bisect import bisect_right
from typing import Callable, Dict, List, NamedTuple, Optional, Tuple

from nds_tools.dwarf import BLOCK, DATA16, LINE_STRP, STRING, STRP, UDATA, BadDwarf, Cursor, Sections

COPY, ADVANCE_PC, ADVANCE_LINE, SET_FILE, SET_COLUMN, CONST_ADD_PC, FIXED_ADVANCE_PC, SET_ISA = 1, 2, 3, 4, 5, 8, 9, 12
END_SEQUENCE, SET_ADDRESS = 1, 2
PATH = 1
# How many bytes the numbers have that a table of files may hold.
SIZES: Dict[int, int] = {0x0B: 1, 0x05: 2, 0x06: 4, 0x07: 8}


class Row(NamedTuple):
    """From an address on, and up to another, the code of a line of a file."""

    address: int
    end: int
    file: str
    line: int


class Program:
    """One line number program: its head, and the rows that it makes."""

    def __init__(self, sections: Sections, at: int) -> None:
        self.sections = sections
        it = self.it = Cursor(sections[".debug_line"], at)
        length = it.number(4)
        if length >= 0xFFFF_FFF0:
            raise BadDwarf("it is DWARF of 64 bits")
        self.end, self.version = it.at + length, it.number(2)
        if not 2 <= self.version <= 5 or self.end > len(it.content):
            raise BadDwarf(f"a line program of version {self.version}")
        it.at += 2 if self.version == 5 else 0
        head_bytes = it.number(4)
        self.begin = it.at + head_bytes
        self.shortest = it.number(1)
        it.at += 2 if self.version >= 4 else 1
        self.line_base, self.line_range, self.first_special = it.signed(1), it.number(1), it.number(1)
        self.operands = [0] + [it.number(1) for _ in range(self.first_special - 1)]
        self.files = self.read_files() if self.version == 5 else self.read_old_files()

    def read_old_files(self) -> List[str]:
        """Reads the files' names up to version 4, which are numbered from 1."""
        it = self.it
        while it.text():
            pass
        found = [""]
        while True:
            name = it.text()
            if not name:
                return found
            found.append(os.path.basename(name))
            for _ in range(3):
                it.uleb()

    def read_files(self) -> List[str]:
        """Reads the files' names of version 5, which are numbered from 0; the folders stand before them in the same form."""
        found: List[str] = []
        for _ in range(2):
            shapes = [(self.it.uleb(), self.it.uleb()) for _ in range(self.it.number(1))]
            found = []
            for _ in range(self.it.uleb()):
                values = {kind: self.value(form) for kind, form in shapes}
                found.append(os.path.basename(values.get(PATH, "")))
        return found

    def value(self, form: int) -> str:
        """Reads a value of a table; those that are no texts are left out."""
        it = self.it
        if form in (STRP, LINE_STRP):
            return self.sections.text(".debug_str" if form == STRP else ".debug_line_str", it.number(4))
        if form == STRING:
            return it.text()
        if form == UDATA:
            it.uleb()
        elif form == BLOCK:
            it.take(it.uleb())
        elif form == DATA16 or form in SIZES:
            it.take(SIZES.get(form, 16))
        else:
            raise BadDwarf(f"a form {form:x}h in a table of files")
        return ""

    def rows(self) -> List[Row]:
        """Runs the program; the rows of each sequence follow one another, and end where it does."""
        it, found = self.it, []
        it.at = self.begin
        points: List[Tuple[int, int, int]] = []
        address, file, line = 0, 1, 1
        while it.at < self.end:
            code = it.number(1)
            if code >= self.first_special:
                steps, more = divmod(code - self.first_special, self.line_range)
                address, line = address + steps * self.shortest, line + self.line_base + more
                points.append((address, file, line))
            elif code == 0:
                size = it.uleb()
                kind, rest = it.number(1), it.at + size - 1
                if kind == SET_ADDRESS:
                    address = it.number(size - 1)
                elif kind == END_SEQUENCE:
                    found += self.sequence([*points, (address, 0, 0)])
                    points, address, file, line = [], 0, 1, 1
                it.at = rest
            elif code == COPY:
                points.append((address, file, line))
            else:
                address, file, line = self.standard(code, address, file, line)
        return found

    def standard(self, code: int, address: int, file: int, line: int) -> Tuple[int, int, int]:
        """Takes one of the standard operations that make no row."""
        it = self.it
        if code == ADVANCE_PC:
            return address + it.uleb() * self.shortest, file, line
        if code == ADVANCE_LINE:
            return address, file, line + it.sleb()
        if code == SET_FILE:
            return address, it.uleb(), line
        if code == CONST_ADD_PC:
            return address + (255 - self.first_special) // self.line_range * self.shortest, file, line
        if code == FIXED_ADVANCE_PC:
            return address + it.number(2), file, line
        for _ in range(self.operands[code]):
            it.uleb()
        return address, file, line

    def sequence(self, points: List[Tuple[int, int, int]]) -> List[Row]:
        """Returns the rows of a sequence; of several at one address the last counts."""
        found = []
        for (address, file, line), after in zip(points, points[1:]):
            if address < after[0] and file < len(self.files):
                found.append(Row(address, after[0], self.files[file], line))
        return found


class Lines:
    """All lines of a program by address."""

    def __init__(self, sections: Sections, is_code: Callable[[int], bool]) -> None:
        rows, at = [], 0
        while at < len(sections[".debug_line"]):
            program = Program(sections, at)
            rows += program.rows()
            at = program.end
        # (code that the linker left out has rows at 0 and the like)
        self.rows = sorted(it for it in rows if is_code(it.address))
        self.starts = [it.address for it in self.rows]

    def at(self, address: int) -> Optional[Row]:
        """Returns the row of an address, where there is one with a line."""
        place = bisect_right(self.starts, address) - 1
        row = self.rows[place] if place >= 0 else None
        return row if row and row.address <= address < row.end and row.line else None
