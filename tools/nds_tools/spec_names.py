"""The public names of the specs of all crates, what pages cite, and lines that are too long."""
import re
from pathlib import Path

DEFINED = re.compile(r"(?:unfoldable |abbrev )*pub (?:unfoldable |abbrev )*(?!mod |use )(record |data )?([^\s:({]+)")
CONSTRUCTOR = re.compile(r"  ([^\s:({-][^\s:({]*) : ")
WIDTH = 150
PAGES = ("README.md", "CONTRIBUTING.md", "CHANGELOG.md", "docs/*.md", "examples/**/*.md", "crates/nds_rows/data/README.md")
SOURCES = ("crates/*/specs/**/*.antt", "crates/*/src/**/*.rt")
CITED = re.compile(r"`([^`\n]+)`")
FILE = re.compile(r"[\w.*-]+(?:/[\w.*-]+)*\.(?:antt|rt|rows|edit|md|py)|(?:crates|docs|tools|examples)/[\w./*-]+")
WORD = re.compile(r"[A-Za-z][A-Za-z0-9]*(?:_[A-Za-z0-9]+)+|[A-Z][a-z0-9]+(?:[A-Z][a-z0-9]+)+")


def files(top, patterns):
    return [path for pattern in patterns for path in sorted(Path(top).glob(pattern)) if "out" not in path.relative_to(top).parts]


def names_of(text):
    """The public definitions of a file of specs, and the constructors of its data, each with its line."""
    names, in_data = [], False
    for number, line in enumerate(text.splitlines(), 1):
        found = DEFINED.match(line)
        if found:
            names.append((found.group(2), number))
            in_data = found.group(1) == "data "
        elif in_data and CONSTRUCTOR.match(line):
            names.append((CONSTRUCTOR.match(line).group(1), number))
        elif line and not line.startswith(" "):
            in_data = False
    return names


def places_by_name(top):
    """Each public name of the specs of all crates with the places of its definitions."""
    places = {}
    for path in files(top, SOURCES[:1]):
        for name, number in names_of(path.read_text(encoding="utf8")):
            places.setdefault(name, []).append(f"{path.relative_to(top)}:{number}")
    return places


def cited(text):
    """What a page cites between backticks outside its blocks of code: the files and, where they can be told from other words, the names."""
    plain = re.sub(r"(?ms)^ *```.*?^ *```", "", text)
    paths, names = set(), set()
    for word in CITED.findall(plain):
        if FILE.fullmatch(word):
            paths.add(word)
        elif WORD.fullmatch(word):
            names.add(word)
    return paths, names


def is_there(top, page, path):
    """A file is named from the top, from `crates`, from the page's folder, or by the end of its path in a crate or an example that the text
    speaks of. A word in capitals, as in `crates/NAME/src`, stands for any."""
    path = re.sub(r"\b[A-Z]+\b(?!\.md)", "*", path.rstrip("/"))
    bases = [(Path(top), path), (Path(top, "crates"), path), (page.parent, path), (Path(top, "crates"), f"*/**/{path}"), (Path(top, "examples"), f"**/{path}")]
    return any(True for base, name in bases for _ in base.glob(name))


def words_of(top):
    """Every word of the sources, the tools, the examples and the shell commands at the top, but of the exceptions to this rule."""
    words = set()
    places = ("crates/*/specs/**/*.antt", "crates/*/src/**/*.rt", "crates/*/proofs/**/*.antt", "crates/*/must-fail/*", "crates/*/wrong-bodies/*",
              "tools/**/*", "examples/**/*", "*")
    for path in files(top, places):
        if path.is_file() and path.suffix != ".md" and path.name != "names_excepted.txt":
            words.update(re.findall(r"\w+", path.read_bytes().decode("utf8", "replace")))
            words.update(re.findall(r"\w+", path.stem))
    return words


def is_long(line):
    """A row of a table, an import and an attribute stand on one line, however long."""
    return len(line) > WIDTH and not line.lstrip().startswith(("|", "use ", "pub use ", "ghost use ", "#["))


def long_lines(top):
    """How many lines of each page and source are too long."""
    counts = {}
    for path in files(top, (*PAGES, *SOURCES)):
        count = sum(is_long(line) for line in path.read_text(encoding="utf8").splitlines())
        if count:
            counts[str(path.relative_to(top))] = count
    return counts


COUNT = re.compile(r"`grep -rw (\w+) ([\w/ ]+)` finds (\d+) lines in (\d+) files")


def counts_told(text):
    """Of a page's counts `grep -rw WORD FOLDER..` finds N lines in M files: word, folders, N, M."""
    plain = " ".join(text.split())
    return [(word, folders.split(), int(lines), int(held)) for word, folders, lines, held in COUNT.findall(plain)]


def counted(top, word, folders):
    """How many lines in how many files name a word, as grep finds them in a clone that has built nothing."""
    found = re.compile(rf"\b{word}\b")
    paths = [path for path in files(top, [f"{folder}/**/*" for folder in folders]) if path.is_file()]
    hits = [sum(1 for line in path.read_bytes().decode("utf8", "replace").splitlines() if found.search(line)) for path in paths]
    return sum(hits), sum(1 for hit in hits if hit)
