"""A report of tests to look at: one page of HTML that needs no other file, with values before and after, pictures and the last second as it moved."""
import base64
import io
import os
import re
from dataclasses import dataclass, field
from html import escape
from typing import Dict, List, Optional, Sequence, Tuple

from nds_tools import golden, png
from nds_tools.apng import Animation
from nds_tools.records import Frame

# How many frames the moving picture has, a second's, and of how many frames a test's pictures are shown.
MOVING, MOST_PICTURES = 60, 12
LONGEST = 2_000
NAME = "index.html"
SUM = re.compile(r"sha256 [0-9a-f]{64}")
STYLE = """
:root { color-scheme: light dark; --good: #2a7; --bad: #c33; --new: #b80; --line: #8885; }
body { font: 15px/1.45 system-ui, sans-serif; max-width: 75rem; margin: 1.5rem auto; padding: 0 1rem; }
h1 { font-size: 1.4rem; } h2 { font-size: 1.1rem; margin: 0; overflow-wrap: anywhere; }
section { border: 1px solid var(--line); border-left: 6px solid var(--good); border-radius: 4px; padding: .8rem 1rem; margin: 1rem 0; }
section.FAIL, section.STOPPED { border-left-color: var(--bad); } section.NEW, section.ERROR { border-left-color: var(--new); }
b.verdict { color: var(--good); } .FAIL b.verdict, .STOPPED b.verdict { color: var(--bad); } .NEW b.verdict, .ERROR b.verdict { color: var(--new); }
table { border-collapse: collapse; margin: .6rem 0; } td, th { border: 1px solid var(--line); padding: .15rem .5rem; text-align: left; }
td { font-family: ui-monospace, monospace; font-size: .85rem; overflow-wrap: anywhere; max-width: 30rem; }
tr.changed td { background: #c333; } ul.told { margin: .4rem 0; padding-left: 1.2rem; }
figure { display: inline-block; margin: .4rem .8rem .4rem 0; vertical-align: top; } figcaption { font-size: .8rem; }
img { image-rendering: pixelated; width: 256px; border: 1px solid var(--line); display: block; }
nav a { margin-right: 1rem; white-space: nowrap; } .small { opacity: .7; font-size: .85rem; }
"""


@dataclass(frozen=True)
class Shown:
    """A frame that a test keeps: its name, its pixels as they were kept, where a picture of it was, and as they are."""

    key: str
    before: Optional[bytes]
    now: bytes


@dataclass
class Details:
    """What a report shows of a test beside what is told of it: kept results and those of the run, frames, and the run's last ones."""

    kept: Optional[Dict[str, str]] = None
    results: Dict[str, str] = field(default_factory=dict)
    pictures: List[Shown] = field(default_factory=list)
    last: Sequence[Frame] = ()


@dataclass(frozen=True)
class Told:
    """A test as a report has it: its name, its verdict, what is told of it, how long it took, and the details, where there are some."""

    name: str
    verdict: str
    lines: List[str]
    seconds: float
    details: Optional[Details]


def data(content: bytes) -> str:
    """Returns a picture as an address that holds it."""
    return f"data:image/png;base64,{base64.b64encode(content).decode()}"


def figure(content: bytes, text: str) -> str:
    return f'<figure><img src="{data(content)}" alt="{escape(text)}"><figcaption>{escape(text)}</figcaption></figure>'


def difference(before: bytes, now: bytes) -> bytes:
    """Returns a picture of what differs, red over the dimmed picture that was kept."""
    places, table = set(golden.changed(before, now)), png.colours()
    return png.encoded(before, 1, lambda at, value: b"\xff\0\0" if at in places else bytes(it // 4 for it in table[value & 0x7FFF]))


def pictures_of(shown: Shown) -> List[str]:
    """Returns a frame's pictures side by side: kept, now, and the difference where there is one."""
    now = figure(png.encoded(shown.now), f"{shown.key}, now")
    if shown.before is None or len(shown.before) != len(shown.now):
        return [now]
    kept = figure(png.encoded(shown.before), f"{shown.key}, kept")
    if shown.before == shown.now:
        return [figure(png.encoded(shown.now), f"{shown.key}, as it was kept")]
    return [kept, now, figure(difference(shown.before, shown.now), f"{shown.key}, difference")]


def moving(frames: Sequence[Frame]) -> str:
    """Returns the run's last frames as one moving picture; nothing where there are none."""
    if not frames:
        return ""
    file = io.BytesIO()
    whole = Animation(file)
    for it in frames:
        whole.add(it.pixels, it.number)
    whole.end()
    first, last = frames[0].number, frames[-1].number
    return figure(file.getvalue(), f"frame {last}, the last" if first == last else f"frames {first} to {last}, the last second as it moved")


def short(value: str) -> str:
    """Returns a value as a table shows it: a sum by its first digits, and the begin of what is long."""
    if SUM.fullmatch(value):
        return f"{value[:23]}.."
    return value if len(value) <= LONGEST else f"{value[:LONGEST]} .. ({len(value)} characters)"


def rows_of(details: Details) -> List[Tuple[str, str, str]]:
    """Returns each result with what was kept of it and what it is now."""
    kept = details.kept or {}
    keys = [*details.results, *(it for it in kept if it not in details.results)]
    return [(it, kept.get(it, ""), details.results.get(it, "")) for it in keys]


def table_of(details: Details) -> str:
    """Returns the table of results; one that isn't as it was kept stands out."""
    rows = []
    for key, kept, now in rows_of(details):
        is_changed = details.kept is not None and kept != now
        cells = "".join(f"<td>{escape(short(it))}</td>" for it in (key, kept, now))
        rows.append(f"<tr{' class=changed' if is_changed else ''}>{cells}</tr>")
    return f"<table><tr><th>result<th>kept<th>now</tr>{''.join(rows)}</table>" if rows else ""


def section(told: Told) -> str:
    """Returns a test's part of the page; its anchor is the test's name, as JUnit's file has it."""
    lines = "".join(f"<li>{escape(it)}</li>" for it in told.lines)
    parts = [f'<section id="{escape(told.name)}" class="{told.verdict}">']
    parts.append(f'<h2><b class="verdict">{told.verdict}</b> <a href="#{escape(told.name)}">{escape(told.name)}</a></h2>')
    parts.append(f'<div class="small">{told.seconds:.2f} s</div>{f"<ul class=told>{lines}</ul>" if lines else ""}')
    if told.details:
        rows = ["".join(pictures_of(it)) for it in told.details.pictures] + [moving(told.details.last)]
        parts += [table_of(told.details), *(f'<div class="row">{it}</div>' for it in rows if it)]
    return "\n".join([*parts, "</section>"])


def page(tests: Sequence[Told]) -> str:
    """Returns the page: how many tests have which verdict, those that aren't good first, and then all of them."""
    counts: Dict[str, int] = {}
    for it in tests:
        counts[it.verdict] = counts.get(it.verdict, 0) + 1
    summary = ", ".join(f"{count} {verdict}" for verdict, count in counts.items())
    bad = [it for it in tests if it.verdict not in ("PASS", "KEPT")]
    links = "".join(f'<a href="#{escape(it.name)}">{it.verdict} {escape(it.name)}</a>' for it in bad)
    head = f'<!DOCTYPE html><html lang="en"><head><meta charset="utf-8"><title>{len(tests)} tests: {summary}</title><style>{STYLE}</style></head>'
    body = f"<h1>{len(tests)} tests: {summary}</h1>{f'<nav>{links}</nav>' if links else ''}"
    return "\n".join([head, "<body>", body, *(section(it) for it in [*bad, *(it for it in tests if it not in bad)]), "</body></html>", ""])


def write(folder: str, tests: Sequence[Told]) -> str:
    """Writes the page into a folder, which is made where it isn't there, and returns its path."""
    os.makedirs(folder, exist_ok=True)
    path = os.path.join(folder, NAME)
    with open(f"{path}.new", "w", encoding="utf-8", errors="backslashreplace") as it:
        it.write(page(tests))
    os.replace(f"{path}.new", path)
    return path
