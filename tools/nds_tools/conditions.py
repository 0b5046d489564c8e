"""Conditions on memory: `score >= 5`, `lives == 0 and message == "game over"`."""
import json
import operator
import re
from dataclasses import dataclass
from typing import Callable, Dict, List, Optional, Union

from nds_tools.memory import Map, Place, text_in
from nds_tools.records import Memory
from nds_tools.words import Untold, number

COMPARISONS: Dict[str, Callable[[object, object], bool]] = {
    "==": operator.eq,
    "!=": operator.ne,
    "<=": operator.le,
    ">=": operator.ge,
    "<": operator.lt,
    ">": operator.gt,
}
TERM = re.compile(r'\s*(?P<place>[^\s<>=!"]+)\s*(?P<how>==|!=|<=|>=|<|>)\s*(?P<value>"(?:[^"\\]|\\.)*"|[^\s<>=!"]+)\s*')
NUMBER = re.compile(r"-?\d\w*")
Value = Union[int, str]


@dataclass(frozen=True)
class Term:
    """One comparison: of a place with a number, a text or another place."""

    place: Place
    how: str
    value: Optional[Value]
    other: Optional[Place]

    def is_signed(self, place: Place) -> bool:
        """Whether a place's number is read with a sign: where it is compared with a number below 0, or asked whether it is below 0, and where it
        has one, unless it is compared with a number that no such number is."""
        if not isinstance(self.value, int):
            return place.is_signed
        if self.value == 0 and self.how in ("<", ">="):
            return True
        return self.value < 0 or (place.is_signed and self.value < 1 << 8 * place.count - 1)

    def read(self, place: Place, record: Memory) -> Value:
        """Returns what a place holds: a number as the comparison wants it, or a text."""
        content = place.bytes_in(record)
        return text_in(content) if isinstance(self.value, str) else int.from_bytes(content, "little", signed=self.is_signed(place))

    def holds(self, record: Memory) -> bool:
        wanted = self.read(self.other, record) if self.other else self.value
        return COMPARISONS[self.how](self.read(self.place, record), wanted)

    def shown(self, record: Memory) -> str:
        """Returns the places of the comparison with what they hold."""
        told = [(it, self.read(it, record)) for it in (self.place, self.other) if it]
        return ", ".join(f"{place.name} {self.written(place, it)}" for place, it in told)

    def written(self, place: Place, value: Value) -> str:
        """Writes what a place holds: a text in quotation marks, an enum's value by name, otherwise a number."""
        if isinstance(value, str):
            return json.dumps(value, ensure_ascii=False)
        return dict(place.number.names).get(value, str(value)) if place.number else str(value)


@dataclass(frozen=True)
class Condition:
    """Comparisons that all have to hold."""

    text: str
    terms: List[Term]

    def holds(self, record: Memory) -> bool:
        return all(it.holds(record) for it in self.terms)

    def shown(self, record: Memory) -> str:
        return ", ".join(it.shown(record) for it in self.terms)


def one_number(place: Place) -> Place:
    """Returns a place of one number: a byte, a half or a word."""
    if place.number and place.number.is_real:
        raise Untold(f"{place.name} is a floating-point number, which conditions don't compare")
    if place.count != place.width or place.count not in ((1, 2, 4, 8) if place.number else (1, 2, 4)):
        bare = place.name.rpartition(":")[0] if re.search(r"[^97]:\w+$", place.name) else place.name
        give = f"give {bare}:1, or its place as {bare}+4:1, {bare}+2:s16"
        raise Untold(f"{place.name} is {place.count} bytes, and a comparison wants one number: {give}")
    return place


def term(form: "re.Match[str]", known: Map) -> Term:
    """Reads one comparison."""
    name, how, text = form["place"], form["how"], form["value"]
    if text.startswith('"'):
        if how not in ("==", "!="):
            raise Untold(f"{form[0].strip()}: texts are compared by == and !=")
        try:
            return Term(known.find(name, True), how, json.loads(text), None)
        except json.JSONDecodeError:
            raise Untold(f"{text} is no text") from None
    place = one_number(known.find(name))
    if not NUMBER.fullmatch(text):
        named = {name: value for value, name in place.number.names} if place.number else {}
        if text in named:
            return Term(place, how, named[text], None)
        return Term(place, how, None, one_number(known.find(text)))
    try:
        return Term(place, how, number(text), None)
    except ValueError:
        raise Untold(f"{text} is no number") from None


def condition(text: str, known: Map) -> Condition:
    """Reads a condition: comparisons with `and` between them."""
    terms: List[Term] = []
    at = 0
    while True:
        form = TERM.match(text, at)
        if not form:
            rest = text[at:].strip()
            more = "; = is no comparison, and == is" if re.search(r"[^<>=!]=(?!=)", rest) else ""
            raise Untold(f"`{rest or text}` is no comparison: it wants PLACE ==|!=|<|<=|>|>= NUMBER, PLACE or \"TEXT\", as 'score >= 5'{more}")
        terms.append(term(form, known))
        at = form.end()
        if at == len(text):
            return Condition(text.strip(), terms)
        if not text.startswith("and ", at):
            raise Untold(f"`{text[at:]}` follows a comparison, after which `and` comes or nothing")
        at += len("and ")
