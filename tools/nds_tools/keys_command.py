"""nds-keys: makes the program's key script of keys by frame, of a test's, or of a recording of DeSmuME.

    tools/nds-keys FILE [-o OUT]

  FILE     keys by frame: lines `press A+B 60-65 90` and `hold LEFT 10-80`, in any order, with # for comments; a test (.test) that has such
           lines; or a recording (.dsm), of which the keys are taken, and the touch screen and the microphone left out
  -o OUT   where the script goes; left out, standard output

A file that is a script already is checked, and written as it stands.

Frames are numbered from 1, as nds-test numbers them: frame N goes from tick 1,120,380 (N - 1) up to the next one's, and a game that looks at
the keys at its V-blank sees them once. Line N of a recording's frames is frame N.

Ends with 0, and with 2 where FILE is none of these; then one line on standard error says which line is wrong, and why."""
import sys
from typing import Optional

from nds_tools import dsm, scripts
from nds_tools.game_tests import ENDING, read_test
from nds_tools.words import GOOD, Untold, Words

TOOL = "nds-keys"
USAGE = "tools/nds-keys FILE [-o OUT]"


def script_in(name: str) -> str:
    """Returns the program's script for what a file holds."""
    if name.endswith(ENDING):
        test = read_test(name, name)
        if not test.held:
            raise Untold(f"{name} has no line `press` or `hold`")
        return scripts.script_of(test.held)
    made: Optional[str] = scripts.made_of(name)
    if made is not None:
        return made
    with open(name, encoding="latin-1", newline="") as it:
        text = it.read()
    for line, column, why in scripts.faults(text):
        raise Untold(f"{name}: line {line} column {column}: {why}")
    return text


def left_out(name: str) -> str:
    """Returns what of a recording a script can't have, or nothing."""
    with open(name, encoding="utf-8", errors="replace") as it:
        found = dsm.read(it.read(), name)
    return f"{name}: {found.touched} of {found.frames} frames use the touch screen or the microphone, which are left out" if found.touched else ""


def main() -> int:
    words = Words(TOOL, USAGE, __doc__ or "")
    words.add_argument("file")
    words.add_argument("-o", dest="out")
    given = words.read()
    script = script_in(given.file)
    note = left_out(given.file) if given.file.lower().endswith(dsm.ENDING) else ""
    if note:
        print(f"{TOOL}: {note}", file=sys.stderr)
    if given.out:
        with open(given.out, "w", encoding="ascii", newline="") as it:
            it.write(script)
    else:
        sys.stdout.write(script)
    return GOOD
