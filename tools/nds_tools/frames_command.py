"""nds-frames: lists the records of a run's output, and writes its frames as pictures or sums.

    tools/nds-frames OUTPUT [--frame 60|1-10] [--every N] [--hash | --png FOLDER | --apng FILE] [--upper | --lower] [--scale K]

  OUTPUT        what `nds run` wrote; `-` is standard input. Or a saved state, of which the last whole frame and the last lists are taken
  --frame F     the frames of these numbers alone: one, or a first and a last. A frame's number tells which it is of the run, from 1
  --every N     of these each Nth, from the first on
  --hash        a line a frame: number, tick, and the SHA-256 of its pixels: a golden file that git shows well
  --png FOLDER  a picture a frame, FOLDER/frame-0001.png and on, both screens one above the other, and a line with its path
  --apng FILE   one moving picture, which browsers show, at the console's pace, and a line with its path, its frames and its pictures: frames
                that are as the one before them are one picture
  --upper, --lower   that screen alone, in sums and pictures
  --scale K     each pixel K wide and high, 1 to 16

Without --hash, --png and --apng it lists each record: frames, lists of vertices, memories, the end with its counts, or the stop. It reads record by
record, so an output of any length needs little memory.

Ends with 0; with 1 where no frame is there that was asked for; and with 2 where sums or pictures are those of a run that stopped, or where
the output is none of a run: empty, cut, or with a letter that begins no record, which is told with the byte."""
import argparse
import hashlib
from contextlib import nullcontext
from typing import Optional, Tuple

from nds_tools import png
from nds_tools.apng import Animation, animation
from nds_tools.records import SCREEN, End, Frame, Lists, Memory, Record, Stop, records_of
from nds_tools.spans import wanted
from nds_tools.state_show import records_in, state_of
from nds_tools.states import is_state
from nds_tools.words import GOOD, Refused, Untold, Words

TOOL = "nds-frames"
USAGE = "tools/nds-frames OUTPUT [--frame 60|1-10] [--every N] [--hash | --png FOLDER | --apng FILE] [--upper | --lower] [--scale K]"


def screens(frame: Frame, which: str) -> bytes:
    """Returns the pixels of both screens, or of the upper or lower one."""
    return {"both": frame.pixels, "upper": frame.pixels[:SCREEN], "lower": frame.pixels[SCREEN:]}[which]


def listed(record: Record) -> str:
    """Returns the line of a record."""
    if isinstance(record, Frame):
        return f"F  frame {record.number}  tick {record.tick}"
    if isinstance(record, Lists):
        counts = f"vertices {len(record.vertices)}  polygons {len(record.polygons)}"
        return f"G  frame {record.number}  tick {record.tick}  parameter 0x{record.parameter:08x}  {counts}"
    if isinstance(record, Memory):
        return f"M  memories and registers: r15 of ARM9 0x{record.registers[0]['r15']:08x}, of ARM7 0x{record.registers[1]['r15']:08x}"
    if isinstance(record, End):
        counts = f"steps of ARM9 {record.steps9}, of ARM7 {record.steps7}, events {record.events}, turns {record.turns}"
        return f"E  tick {record.ticks}  {counts}"
    return f"X  stopped: {record}, which is rank {record.rank}"


def show(record: Record, given: argparse.Namespace, movie: Optional[Animation]) -> None:
    """Prints a record's line; in sums and pictures frames alone have one, and a moving picture has none before its end."""
    if isinstance(record, Frame) and movie:
        movie.add(screens(record, given.which), record.number)
    elif not given.has_frames_alone:
        print(listed(record))
    elif isinstance(record, Frame) and given.hash:
        print(record.number, record.tick, hashlib.sha256(screens(record, given.which)).hexdigest())
    elif isinstance(record, Frame):
        print(png.write(given.png, f"frame-{record.number:04d}.png", screens(record, given.which), given.scale))


def show_all(given: argparse.Namespace, movie: Optional[Animation]) -> Tuple[int, str]:
    """Shows the records that are asked for; returns how many frames there were, and how the run stopped, if it did."""
    chosen, frames, stop = wanted(given.frame, given.every), 0, ""
    for record in records_in(state_of(given.output)) if is_state(given.output) else records_of(given.output):
        if isinstance(record, (Frame, Lists)) and not chosen.has(record.number):
            continue
        frames += isinstance(record, Frame)
        stop = f"the run stopped: {record}" if isinstance(record, Stop) else ""
        show(record, given, movie)
    return frames, stop


def read_words() -> argparse.Namespace:
    words = Words(TOOL, USAGE, __doc__ or "")
    words.add_argument("output")
    words.add_argument("--frame")
    words.add_argument("--every", type=int, default=1)
    how = words.add_mutually_exclusive_group()
    how.add_argument("--hash", action="store_true")
    how.add_argument("--png", metavar="FOLDER")
    how.add_argument("--apng", metavar="FILE")
    which = words.add_mutually_exclusive_group()
    which.add_argument("--upper", dest="which", action="store_const", const="upper", default="both")
    which.add_argument("--lower", dest="which", action="store_const", const="lower")
    words.add_argument("--scale", type=int, default=1)
    given = words.read()
    if given.every < 1 or not 1 <= given.scale <= 16:
        raise Untold("--every takes a number from 1, and --scale one from 1 to 16")
    given.has_frames_alone = bool(given.hash or given.png or given.apng)
    return given


def main() -> int:
    given = read_words()
    with animation(given.apng, given.scale) if given.apng else nullcontext() as movie:
        frames, stop = show_all(given, movie)
    if movie and frames:
        print(f"{given.apng}  {frames} frames, {movie.pictures} pictures")
    if stop and given.has_frames_alone:
        raise Untold(f"{stop}; it has {frames} of the frames")
    if not frames and (given.frame or given.has_frames_alone):
        raise Refused(f"the output has no frame {given.frame or ''}".strip())
    return GOOD
