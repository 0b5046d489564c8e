"""What each command does first. It is read by every Python 3, so nothing newer stands here."""
import os
import sys

OLDEST = (3, 9)
UNTOLD = 2


def streams():
    """Makes standard streams of what the command was started with; returns why it can't go on, or nothing."""
    if sys.stdin is None:
        sys.stdin = open(os.devnull)
    if sys.stdout is None:
        return "standard output is closed"
    if sys.stderr is None:
        sys.stderr = open(os.devnull, "w")
    # (a name that the output can't say, as one in another encoding, is written with its numbers)
    for it in (sys.stdout, sys.stderr):
        it.reconfigure(errors="backslashreplace")
    return ""


def written(tool, status):
    """Writes what is left of the output; returns the status, or that of what can't be judged where nothing can be written any more, and then
    lets the end of Python try no other time."""
    try:
        sys.stdout.flush()
        return status
    except OSError as why:
        os.dup2(os.open(os.devnull, os.O_WRONLY), sys.stdout.fileno())
        if status == 0 and not isinstance(why, BrokenPipeError) and sys.stderr is not None:
            sys.stderr.write("%s: the system: %s\n" % (tool, why.strerror))
        return status or UNTOLD


def command(module):
    """Runs a command, which is the `main` of a module of this folder, and returns its status."""
    tool = os.path.basename(sys.argv[0])
    try:
        if sys.version_info < OLDEST:
            wrong = "wants Python %d.%d or later, and this is %d.%d" % (OLDEST + tuple(sys.version_info[:2]))
        else:
            wrong = streams()
        if wrong:
            if sys.stderr is not None:
                sys.stderr.write("%s: %s\n" % (tool, wrong))
            return UNTOLD
        import importlib

        words = importlib.import_module("nds_tools.words")
        found = importlib.import_module("nds_tools." + module)
    except KeyboardInterrupt:
        sys.stderr.write("%s: interrupted\n" % tool)
        return UNTOLD
    try:
        status = words.ended(found.TOOL, found.main)
    except SystemExit as why:
        # (as after a help, or a wrong word)
        status = why.code
    except OSError:
        # (nothing can be said, where standard error can't be written)
        status = UNTOLD
        sys.stderr = None
    return written(tool, status)
