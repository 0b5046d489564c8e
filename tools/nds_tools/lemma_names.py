"""Lemmas of the proofs that nothing cites: names that stand in their own lines alone."""
import re
from collections import Counter
from pathlib import Path

STARTS = re.compile(r"( *)(?:pub )?(?:abbrev |unfoldable )*(?:pub )?(record |data )?([^\s:({}\[\]=]+) (?::|\(|\{)")
NAME = re.compile(r"[\w'₀-₉-]+")
PLAIN = re.compile(r"[A-Za-z_][\w'₀-₉-]*")
NO_NAMES = {"module", "where", "let", "in", "if", "else", "then", "use", "pub", "record", "data", "unfolding", "elim", "case", "match"}


def sources(top):
    """All files in which a lemma may be cited."""
    for pattern in ("crates/*/proofs/**/*.antt", "crates/*/src/**/*.rt", "crates/*/specs/**/*.antt"):
        yield from (path for path in Path(top).glob(pattern) if "out" not in path.relative_to(top).parts)


def lemma_files(top):
    """The files of lemmas, which stand in proofs/ itself or in a module of it; the folders named after functions hold answers."""
    for path in sorted(Path(top).glob("crates/*/proofs/**/*.antt")):
        if path.name not in ("Lib.antt", "Answers.antt", "Invariants.antt", "Proof.antt", "Goals.antt") and "out" not in path.relative_to(top).parts:
            yield path


def words_of(text):
    """Every name in a text, with how often it stands there; comments don't count."""
    plain = re.sub(r"(?m)(^|\s)(--|//).*$", "", text)
    return Counter(NAME.findall(plain))


def lemmas(lines):
    """The lemmas of a file: name, first line, the line behind the last one, and the lines of its comment above."""
    found = []
    for number, line in enumerate(lines):
        start = STARTS.match(line)
        if not start or start.group(3) in NO_NAMES or not PLAIN.fullmatch(start.group(3)) or len(start.group(1)) not in (0, 2):
            continue
        if start.group(1) and not in_module(lines, number):
            continue
        end = number + 1
        own = re.compile(rf"{start.group(1)}(?:{re.escape(start.group(3))}(?:\s|$)|unfolding\b|[)}}\]]|  \s*\S)")
        while end < len(lines) and (own.match(lines[end]) or goes_on(lines, end, start)):
            end += 1
        found.append((start.group(3), number, end))
    return found


def in_module(lines, number):
    """Whether a line that is set in stands right in a module's block."""
    for line in reversed(lines[:number]):
        if line and not line.startswith((" ", "--")):
            return line.startswith("module ")
    return False


def goes_on(lines, at, start):
    """A blank line or a comment inside a lemma's block: what comes next is still its own."""
    if lines[at].strip() and not lines[at].lstrip().startswith("--"):
        return False
    deeper = len(start.group(1)) + 2
    for line in lines[at:]:
        if line.strip() and not line.lstrip().startswith("--"):
            return len(line) - len(line.lstrip()) >= deeper and not line.startswith(start.group(1) + start.group(3) + " ")
    return False


def unused(top):
    """Each lemma that nothing cites, as its file, its first line and its name."""
    texts = {path: path.read_text(encoding="utf8") for path in sources(top)}
    counts = Counter()
    for text in texts.values():
        counts.update(words_of(text))
    found = []
    for path in lemma_files(top):
        lines = texts[path].splitlines()
        for name, first, end in lemmas(lines):
            own = words_of("\n".join(lines[first:end]))[name]
            if counts[name] == own:
                found.append((str(path.relative_to(top)), first + 1, end, name))
    return found
