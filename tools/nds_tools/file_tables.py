"""The tables by which a program finds files of its cartridge: names by folder, and where each file stands (GBATEK, "DS Cartridge NitroROM and
NitroARC File Systems"). They are those that ndstool writes, so that libraries which read by names find them."""
import os
import re
import struct
from dataclasses import dataclass, field
from typing import Dict, List, NoReturn, Tuple

from nds_tools.words import Refused, Untold, bytes_of

# Numbers of folders begin here; those of files are below.
FOLDERS = 0xF000
MOST_FILES, MOST_FOLDERS = FOLDERS, 0x1000
# The card gives no byte below this place (GBATEK, "DS Cartridge Protocol"): what a program reads while it runs stands behind it.
FIRST_READ = 0x8000
# A name of a file or folder: ASCII, but for what ndstool and others don't take.
NAME = re.compile(r'[ -~]{1,127}')
NOT_IN_NAMES = set('\\/?"<>*:;|')


@dataclass
class Folder:
    """A folder: its files by name, and the folders in it."""

    files: Dict[str, bytes] = field(default_factory=dict)
    folders: Dict[str, "Folder"] = field(default_factory=dict)


def checked_name(name: str, path: str) -> str:
    """Refuses a name that the table can't have."""
    if not NAME.fullmatch(name) or NOT_IN_NAMES & set(name) or name in (".", ".."):
        raise Refused(f"the name {path} in the cartridge: each part has 1 to 127 ASCII characters, without any of " + r'\ / ? " < > * : ; |')
    return name


def put(root: Folder, path: str, content: bytes) -> None:
    """Puts a file at a path, whose parts are parted by /."""
    *parts, name = (checked_name(it, path) for it in path.split("/"))
    at = root
    for part in parts:
        if part in at.files:
            raise Refused(f"{path}: {part} is a file already")
        at = at.folders.setdefault(part, Folder())
    if name in at.files or name in at.folders:
        raise Refused(f"{path} is there twice")
    at.files[name] = content


def not_read(why: OSError) -> NoReturn:
    raise why


def put_tree(root: Folder, folder: str, under: str) -> None:
    """Puts all files of a folder of the disk, by their paths in it."""
    for there, folders, files in os.walk(folder, onerror=not_read):
        folders.sort()
        for name in sorted(files):
            path = os.path.join(there, name)
            inner = os.path.relpath(path, folder).replace(os.sep, "/")
            put(root, under + inner, bytes_of(path))


def split(text: str) -> Tuple[str, str]:
    """Reads F[=NAME]: the file on the disk, and its name in the cartridge, or nothing."""
    file, sign, name = text.rpartition("=")
    if not sign or os.path.exists(text):
        return text, ""
    if not file or not name.strip("/"):
        raise Untold(f"{text}: it has to be FILE or FILE=NAME")
    return file, name.strip("/")


def tree(words: List[str]) -> Folder:
    """Returns all files that the words of --file name. A folder's files go to the root, or below its NAME; a file has its own name, or NAME."""
    root = Folder()
    for text in words:
        file, name = split(text)
        if os.path.isdir(file):
            put_tree(root, file, f"{name}/" if name else "")
        else:
            put(root, name or os.path.basename(file), bytes_of(file))
    return root


@dataclass(frozen=True)
class Row:
    """A folder in the order of its number: what it has, its parent's number, and its first file's number."""

    folder: Folder
    parent: int
    first: int


def rows(root: Folder) -> List[Row]:
    """Returns the folders in the order of their numbers, the root first: those of a folder follow all that came before."""
    found: List[Row] = []
    waiting = [(root, 0)]
    files = 0
    while waiting:
        folder, parent = waiting.pop(0)
        number = FOLDERS + len(found)
        found.append(Row(folder, parent, files))
        files += len(folder.files)
        waiting += [(folder.folders[it], number) for it in sorted(folder.folders)]
    if files > MOST_FILES or len(found) > MOST_FOLDERS:
        raise Refused(f"{files} files in {len(found)} folders: the tables have room for {MOST_FILES} files and {MOST_FOLDERS} folders")
    return found


def entries(row: Row, numbers: Dict[int, int]) -> bytes:
    """Returns a folder's list of names: each with its length, and bit 7 and the number behind it where it is a folder's; 0 ends it."""
    whole = b""
    for name in sorted((*row.folder.files, *row.folder.folders)):
        inner = row.folder.folders.get(name)
        whole += bytes([len(name) + (0x80 if inner else 0)]) + name.encode("ascii")
        whole += struct.pack("<H", numbers[id(inner)]) if inner else b""
    return whole + b"\0"


def names_table(found: List[Row]) -> bytes:
    """Returns the table of names: a row of 8 bytes for each folder, and behind them their lists."""
    numbers = {id(row.folder): FOLDERS + at for at, row in enumerate(found)}
    head, lists = b"", b""
    for row in found:
        # the root has in place of a parent how many folders there are
        head += struct.pack("<I2H", 8 * len(found) + len(lists), row.first, row.parent or len(found))
        lists += entries(row, numbers)
    return head + lists


def contents(found: List[Row]) -> List[bytes]:
    """Returns the files in the order of their numbers."""
    return [row.folder.files[name] for row in found for name in sorted(row.folder.files)]


def padded(whole: bytearray, step: int) -> int:
    """Fills up to a multiple of `step`; returns the length."""
    whole += bytes(-len(whole) % step)
    return len(whole)


def add(whole: bytearray, words: List[str], step: int) -> None:
    """Puts the tables behind a cartridge's images, then the files, each at a multiple of `step`, where the card gives them, and tells the header
    where the tables are."""
    found = rows(tree(words))
    whole += bytes(max(0, FIRST_READ - len(whole)))
    names, files = names_table(found), contents(found)
    names_at = padded(whole, step)
    whole += names
    places_at = padded(whole, step)
    whole += bytes(8 * len(files))
    struct.pack_into("<4I", whole, 0x40, names_at, len(names), places_at, 8 * len(files))
    for number, content in enumerate(files):
        first = padded(whole, step)
        whole += content
        struct.pack_into("<2I", whole, places_at + 8 * number, first, first + len(content))
