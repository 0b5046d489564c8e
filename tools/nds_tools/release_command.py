"""make-release: makes an archive of the built program, the tools, the documents and the examples, for authors without the toolchain.

    tools/make-release [-o FILE.tar.gz] [--program PATH] [--gdb PATH]

  -o FILE         where it goes; left out, nds-VERSION.tar.gz of the commit that has the tag vVERSION, and nds-VERSION-COMMIT.tar.gz of
                  another. Beside it comes FILE.sha256, which `sha256sum -c` reads
  --program PATH  a program that ./nds built of these sources elsewhere, with PATH.proved beside it, as ./nds writes out/nds.proved; left
                  out, the one that ./nds builds here
  --gdb PATH      the same of the program for gdb, which ./nds-gdb built elsewhere; left out, the one that it built here. That one is packed
                  where somebody tells that it was proved of these sources, and left out with its wrapper where nobody does

What a program was proved of is told by the file that ./nds wrote when it had proved and built it. A program without one, or with one that
tells of another program or of other sources, is refused.

The archive holds one folder, of the archive's name: the wrapper `nds`, which runs out/nds there, and beside that out/nds.proved, the sums of
the program and of the sources, the version, the commit and the toolchain that proved it, which `./nds --version` tells; the same of
`nds-gdb`; tools/, docs/, examples/ with the states that their tests begin from, the README, the changelog, the licences; and SHA256SUMS of all of it. A link of a page
to what isn't packed is its text alone there. The same commit and program make the same archive, byte for byte, by one version of Python.
What is packed has to be committed. Before it is handed out the archive is unpacked and tried: its program assembles a listing, that for gdb
takes a cartridge, and the examples' tests pass.

Ends with 0; with 1 where something isn't committed, where nobody tells what the program was proved of, or the archive doesn't work; and with
2 where it can't be made."""
import contextlib
import gzip
import hashlib
import io
import os
import re
import subprocess
import sys
import tarfile
import tempfile
from dataclasses import dataclass
from typing import Callable, Dict, Iterator, List, Optional

from nds_tools.links import with_live_links
from nds_tools.progress import Progress
from nds_tools.program import PROGRAM, TOP, finished, ready
from nds_tools.words import GOOD, Refused, Untold, Words, bytes_of

TOOL = "make-release"
USAGE = "tools/make-release [-o FILE.tar.gz] [--program PATH] [--gdb PATH]"
PACKED = ("README.md", "CHANGELOG.md", "LICENSE-MIT", "LICENSE-APACHE", "nds", "nds-gdb", "docs", "examples", "tools")
# What of these serves the repository alone.
LEFT_OUT = ("docs/bench/", "tools/tests/", "tools/hostile", "tools/definitions", "tools/statement-size", "tools/loop-in-line",
            "tools/make-release", "tools/nds_tools/hostile", "tools/nds_tools/release_command.py", "tools/nds_tools/spec_names.py",
            "tools/nds_tools/lemma_names.py", "tools/nds_tools/statement.py", "tools/nds_tools/links.py")  # fmt: skip
SOURCES = ("crates", "crates.txt")
LISTING = os.path.join("examples", "loop.arm9.txt")
CART = os.path.join("examples", "loop.nds")
FROM = re.compile(rb"^\s*from\s", re.M)
VERSION = re.compile(r"^version=(\S+)$", re.M)
SECONDS = 600.0
# What a program has in it that is checked as it runs.
UNPROVED = b"AddressSanitizer"
# (newer versions of Python want to be told, and older ones don't know the word)
SAFELY = {"filter": "data"} if hasattr(tarfile, "data_filter") else {}


def git(*words: str) -> str:
    """Returns what git says in this repository."""
    try:
        ran = subprocess.run(["git", "-C", TOP, *words], stdin=subprocess.DEVNULL, capture_output=True, text=True)
    except FileNotFoundError:
        raise Untold("the command git isn't found") from None
    if ran.returncode:
        raise Untold(f"git {words[0]}: {(ran.stderr.strip() or 'failed').splitlines()[-1]}")
    return ran.stdout


@dataclass(frozen=True)
class File:
    """A file of the archive."""

    content: bytes
    is_command: bool = False


def tracked() -> Dict[str, File]:
    """Returns the files that are packed, by their names, as they are committed; a file that was changed since is refused."""
    changed = git("status", "--porcelain", "--", *PACKED, *SOURCES).splitlines()
    if changed:
        raise Refused(f"{changed[0][3:]} isn't as it is committed{f', nor are {len(changed) - 1} more' if len(changed) > 1 else ''}: commit first")
    names = [it for it in git("ls-files", "-z", "--", *PACKED).split("\0") if it and not it.startswith(LEFT_OUT)]
    found = {}
    for name in names:
        path = os.path.join(TOP, name)
        found[name] = File(bytes_of(path), os.access(path, os.X_OK))
    return found


def version() -> str:
    """Returns the version, which stands in the wrapper."""
    with open(os.path.join(TOP, "nds"), encoding="utf-8") as it:
        found = VERSION.search(it.read())
    if not found:
        raise Untold("the wrapper nds has no line version=")
    return found[1]


def name_of(number: str) -> str:
    """Returns the archive's name: the version, and the commit where that isn't the version's own, which its tag tells."""
    is_tagged = f"v{number}" in git("tag", "--points-at", "HEAD").split()
    return f"nds-{number}" if is_tagged else f"nds-{number}-{git('log', '-1', '--format=%h').strip()}"


def proved_of(path: str, program: bytes, number: str, wrapper: str = "nds") -> str:
    """Returns what the wrapper's program was proved of, by the file beside it; refuses one of another program or of other sources."""
    told: Dict[str, str] = {}
    if os.path.exists(f"{path}.proved"):
        with open(f"{path}.proved", encoding="utf-8") as it:
            told = {name: text for name, _, text in (line.rstrip("\n").partition(" ") for line in it)}
    sum_of = hashlib.sha256(program).hexdigest()
    if told.get("program") != sum_of or not told.get("kit"):
        beside = "of another program" if told else "not there"
        raise Refused(f"nobody tells that {path} was proved: {path}.proved, which ./{wrapper} writes when it has proved and built it, is {beside}")
    sources = subprocess.run([os.path.join(TOP, wrapper), "--sources"], capture_output=True, text=True).stdout.strip()
    if not sources or told.get("sources") != sources:
        raise Refused(f"{path} was proved of other sources than those that are here")
    return f"program {sum_of}\nversion {number}\nsources {sources}\ncommit {git('rev-parse', 'HEAD').strip()}\nkit {told['kit']}\n"


def for_gdb(named: Optional[str], number: str) -> Dict[str, File]:
    """Returns the program for gdb and what it was proved of, by their names in the archive; nothing where none was built and named."""
    path = named or os.path.join(TOP, "out", "nds-gdb")
    if not named and not os.path.exists(path):
        return {}
    program = bytes_of(path)
    if UNPROVED in program:
        raise Refused(f"{path} was compiled with checks and before any proof, as ./nds-gdb --unproved has it: no release is made of that")
    try:
        proved = proved_of(path, program, number, "nds-gdb")
    except Refused:
        if named:
            raise
        return {}
    if finished(os.path.abspath(path), SECONDS, os.path.join(TOP, CART), "none")[0]:
        raise Untold(f"{path} doesn't take {CART}, so it isn't the program nds-gdb")
    return {"out/nds-gdb": File(program, True), "out/nds-gdb.proved": File(proved.encode())}


def with_links(files: Dict[str, File]) -> Dict[str, File]:
    """Returns the files with pages whose links lead to what is packed alone."""
    folders = {os.path.dirname(name) for name in files}

    def is_there(path: str) -> bool:
        return path in files or path in folders or any(it.startswith(f"{path}/") for it in folders)

    found = dict(files)
    for name, file in files.items():
        if name.endswith(".md"):
            found[name] = File(with_live_links(name, file.content.decode(), is_there).encode())
    return found


def archive(folder: str, files: Dict[str, File], time: int) -> bytes:
    """Returns the archive of the files in one folder: the same files and time make the same bytes."""
    whole = io.BytesIO()
    with gzip.GzipFile(filename="", mode="wb", fileobj=whole, mtime=time) as packed:
        with tarfile.open(mode="w", fileobj=packed, format=tarfile.PAX_FORMAT) as tar:
            for name, file in sorted(files.items()):
                info = tarfile.TarInfo(f"{folder}/{name}")
                info.size, info.mtime, info.mode = len(file.content), time, 0o755 if file.is_command else 0o644
                tar.addfile(info, io.BytesIO(file.content))
    return whole.getvalue()


@contextlib.contextmanager
def unpacked(content: bytes, folder: str) -> Iterator[str]:
    """Unpacks an archive elsewhere, and hands out where its folder is."""
    with tempfile.TemporaryDirectory(prefix="nds-release-") as room:
        with tarfile.open(fileobj=io.BytesIO(content)) as tar:
            tar.extractall(room, **SAFELY)
        yield os.path.join(room, folder)


def run_in(top: str, *words: str) -> "subprocess.CompletedProcess[bytes]":
    """Runs a command of an unpacked archive, as one who has nothing else."""
    environment = {name: it for name, it in os.environ.items() if not name.startswith("NDS_")}
    return subprocess.run(words, cwd=top, env=environment, stdin=subprocess.DEVNULL, capture_output=True, timeout=SECONDS)


def tests_of(files: Dict[str, File]) -> List[str]:
    """Returns the names of the examples' tests."""
    return sorted(it for it in files if it.startswith("examples/") and it.endswith(".test"))


def states(content: bytes, folder: str, tests: List[str]) -> Dict[str, File]:
    """Returns the states that these tests begin from, as the archive's own program makes them."""
    with unpacked(content, folder) as top:
        made = run_in(top, sys.executable, os.path.join("tools", "nds-test"), *tests, "--remake")
        if made.returncode:
            raise Refused(f"the archive's states can't be made: {said_first(made)}")
        paths = [os.path.join(at, it) for at, _, names in os.walk(os.path.join(top, "examples")) for it in names if it.endswith(".state")]
        return {os.path.relpath(it, top): File(bytes_of(it)) for it in paths}


def tried(content: bytes, folder: str, number: str, is_tested: bool) -> str:
    """Unpacks an archive elsewhere and tries it; returns what the examples' tests said."""
    with unpacked(content, folder) as top:
        version_said, listing = (run_in(top, "./nds", *it) for it in (["--version"], ["asm", LISTING]))
        if not version_said.stdout.startswith(f"nds {number}, proved\n".encode()) or listing.returncode or not listing.stdout:
            raise Refused(f"the archive's program doesn't run: {(version_said.stderr or listing.stderr).decode('utf-8', 'replace').strip()}")
        if os.path.exists(os.path.join(top, "nds-gdb")):
            version_said, heard = (run_in(top, "./nds-gdb", *it) for it in (["--version"], [CART, "none"]))
            if not version_said.stdout.startswith(f"nds-gdb {number}, proved\n".encode()) or heard.returncode:
                raise Refused(f"the archive's program for gdb doesn't run: {(version_said.stderr or heard.stderr).decode('utf-8', 'replace').strip()}")
        if not is_tested:
            return "no tests"
        ran = run_in(top, sys.executable, os.path.join("tools", "nds-test"), "examples")
        if ran.returncode:
            raise Refused(f"the archive's tests don't pass: {said_first(ran)}")
        return ran.stdout.decode("utf-8", "replace").strip().splitlines()[-1]


def said_first(ran: "subprocess.CompletedProcess[bytes]") -> str:
    """Returns the first line that tells what isn't good, of the output or of the notes."""
    lines = (ran.stdout + ran.stderr).decode("utf-8", "replace").strip().splitlines() or ["it said nothing"]
    return next((it for it in lines if not it.startswith(("PASS", "KEPT"))), lines[0])


def program_of(found: str) -> bytes:
    """Returns the program's bytes, after a try."""
    content = bytes_of(found)
    if not content.startswith(PROGRAM) and not content.startswith(b"#!"):
        raise Untold(f"{found} is no program")
    if UNPROVED in content:
        raise Refused(f"{found} was compiled with checks and before any proof, as ./nds --unproved has it: no release is made of that")
    if finished(os.path.abspath(found), SECONDS, "asm", os.path.join(TOP, LISTING))[0]:
        raise Untold(f"{found} doesn't assemble {LISTING}, so it isn't the program nds")
    return content


def sums(files: Dict[str, File]) -> bytes:
    """Returns the sums of all files, as sha256sum reads them."""
    lines: List[str] = [f"{hashlib.sha256(it.content).hexdigest()}  {name}\n" for name, it in sorted(files.items())]
    return "".join(lines).encode()


def main() -> int:
    words = Words(TOOL, USAGE, __doc__ or "")
    words.add_argument("-o", dest="out")
    words.add_argument("--program")
    words.add_argument("--gdb")
    given = words.read()
    files = tracked()
    time, number = int(git("log", "-1", "--format=%ct")), version()
    folder = name_of(number)
    path = given.program or ready(None)
    program = program_of(path)
    files["out/nds"] = File(program, True)
    files["out/nds.proved"] = File(proved_of(path, program, number).encode())
    of_gdb = for_gdb(given.gdb, number)
    files.update(of_gdb)
    lacks_gdb = not of_gdb and bool(files.pop("nds-gdb", None))
    files = with_links(files)
    tests = tests_of(files)
    from_states = [it for it in tests if FROM.search(files[it].content)]
    with Progress(TOOL) as progress:
        progress.now("making the states that tests begin from")
        if from_states:
            files.update(states(archive(folder, files, time), folder, from_states))
        files["SHA256SUMS"] = File(sums(files))
        content = archive(folder, files, time)
        progress.now(f"trying the archive: its program and {len(tests)} tests")
        said = tried(content, folder, number, bool(tests))
    out = given.out or f"{folder}.tar.gz"
    with open(out, "wb") as it:
        it.write(content)
    with open(f"{out}.sha256", "w", encoding="utf-8") as it:
        it.write(f"{hashlib.sha256(content).hexdigest()}  {os.path.basename(out)}\n")
    print(f"{out}: {len(files)} files, {len(content):,} bytes; tried: {said}")
    print(files["out/nds.proved"].content.decode(), end="")
    if lacks_gdb:
        print("without nds-gdb: nobody tells of a program for gdb that it was proved of these sources")
    return GOOD
