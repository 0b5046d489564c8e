"""The links of pages in Markdown: where each leads, and what a page's headings are called."""
import posixpath
import re
from typing import Callable, List, Set, Tuple

LINK = re.compile(r"!?\[((?:[^\[\]]|\[[^\]]*\])*)\]\(([^()\s]+)\)")
HEADING = re.compile(r"^#{1,6} (.*)$", re.M)
OUTSIDE = re.compile(r"[a-z]+:")


def without_code(text: str) -> str:
    """Returns a page with its blocks of code blank, line by line, so that all else stays in its place."""
    lines, is_code = [], False
    for line in text.splitlines(keepends=True):
        is_fence = line.startswith("```")
        is_blank = is_fence or is_code or line.startswith("    ")
        is_code ^= is_fence
        lines.append(" " * (len(line) - 1) + "\n" if is_blank else line)
    return "".join(lines)


def targets(text: str) -> List[str]:
    """Returns where a page's links and pictures lead, but for addresses outside."""
    return [it[2] for it in LINK.finditer(without_code(text)) if not OUTSIDE.match(it[2])]


def led_to(page: str, target: str) -> Tuple[str, str]:
    """Returns the path that a link of a page leads to, from the same top as the page's, and the heading, or nothing."""
    path, _, heading = target.partition("#")
    return posixpath.normpath(posixpath.join(posixpath.dirname(page), path)) if path else page, heading


def headings(text: str) -> Set[str]:
    """Returns what links call a page's headings: small letters, dashes for blanks, no other marks; a second of a name ends with -1, and so on."""
    found: Set[str] = set()
    for it in HEADING.findall(without_code(text)):
        plain = re.sub(r"\[([^\]]*)\]\([^)]*\)", r"\1", it).strip().lower()
        name = re.sub(r"[^\w\- ]", "", plain).replace(" ", "-")
        names = (name, *(f"{name}-{number}" for number in range(1, 100)))
        found.add(next(each for each in names if each not in found))
    return found


def with_live_links(page: str, text: str, is_there: Callable[[str], bool]) -> str:
    """Returns a page in which a link to what isn't there is its text alone."""
    parts, at = [], 0
    for it in LINK.finditer(without_code(text)):
        if not OUTSIDE.match(it[2]) and not is_there(led_to(page, it[2])[0]):
            parts += [text[at : it.start()], it[1]]
            at = it.end()
    return "".join(parts) + text[at:]
