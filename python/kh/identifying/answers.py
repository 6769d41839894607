"""Whether two links are one, and which names a link has: what the search found, once it is checked."""
from __future__ import annotations

import functools
import json
import random
import re
from collections.abc import Callable, Iterator, Sequence
from typing import NamedTuple, Union

from ..links import Link
from ..places import reference_file
from ..reference.stored import FILES
from ..tables import FIELDS
from .checking import check_answer
from .diagrams import Diagram, Reached
from .numbers import numbered, reversed_too
from .searching import Clock, joined_somehow, simplified

Given = Union[Link, str]
Say = Callable[[str], object]
Rows = tuple[tuple[tuple[int, int, int], ...], ...]
ONE, DIFFERENT, OPEN = "one link", "different", "not decided"
# The parts of the time that are spent one after another: most is decided within the first.
SHARES = (0.05, 0.95)
# Names that no table has; and of tables that have one name of a link, which others may not be another one of it.
NO_NAMES = re.compile(r"row \d+|\d+ curls apart|no link")
TABLES = {"knot": r"\d+_\d+|K\d+[an]\d+", "Rolfsen": r"\d+\^\d_\d+", "torus": r"T\(.*\)", "pretzel": r"P\(.*\)"}
FEWEST = re.compile(r"[KL]?(\d+)[_^an]")


class Simplified(NamedTuple):
    """A link with the lines of `kh edit` that led to its diagram."""

    link: Link
    lines: tuple[str, ...]


class Same(NamedTuple):
    """What is answered of two diagrams: `verdict` is "one link", "different" or "not decided". In an `if` it is true for "one link" alone.

    *Proved* is "one link": `scripts` are lines of `kh edit`, from the first diagram and from the second, that lead to one text, `meets`;
    where `is_reversed`, all components of the second were turned round before. So is "different": over `field` the two tables have these
    `dimensions` at the degrees `row`, j first. `check_answer` has checked both. With "not decided" the tables over all four fields agree,
    and `left` says how many crossings the diagrams have that were compared; where `is_alike` holds, they are one diagram but for numbers or
    the order of components, and no lines were found that change these. `name` and `mirrored` are what `kh.identify` asks about."""

    verdict: str
    first: str
    second: str
    scripts: tuple[tuple[str, ...], tuple[str, ...]] = ((), ())
    is_reversed: bool = False
    meets: str = ""
    field: int = 0
    row: tuple[int, int] = (0, 0)
    dimensions: tuple[int, int] = (0, 0)
    left: tuple[int, int] = (0, 0)
    is_alike: bool = False
    name: str = ""
    mirrored: bool = False

    def __bool__(self) -> bool:
        return self.verdict == ONE

    @property
    def json(self) -> str:
        """The answer as a line of JSON, which `kh.check_answer` and others can check."""
        found: dict[str, object] = {"same 1": self.verdict, "first": self.first, "second": self.second}
        if self.name:
            found.update(name=self.name, mirrored=self.mirrored)
        if self.verdict == ONE:
            found.update(reversed=self.is_reversed, scripts=self.scripts, meets=self.meets)
        elif self.verdict == DIFFERENT:
            found.update(field=self.field, j=self.row[0], i=self.row[1], dimensions=self.dimensions)
        else:
            found.update(fields=FIELDS, crossings=self.left)
        return json.dumps(found)

    def __str__(self) -> str:
        if self.verdict == ONE:
            first, second = (f"{len(lines)} move{'' if len(lines) == 1 else 's'}" for lines in self.scripts)
            return f"{ONE}: {first} from the first, {second} from {'the reversal of ' * self.is_reversed}the second, to {self.meets}"
        if self.verdict == DIFFERENT:
            (j, i), (one, other) = self.row, self.dimensions
            return f"{DIFFERENT}: over {self.field} at j {j} i {i} the dimensions are {one} and {other}"
        left = "the diagrams are the same but for numbers" if self.is_alike else f"{self.left[0]} and {self.left[1]} crossings are left"
        return f"{OPEN}: the tables agree over 2, 3, 5 and 7; {left}"


class Named(NamedTuple):
    """A `name` of a link, whether the link is the mirror image of what has this name, `mirrored`, and the answer that proves it, `same`."""

    name: str
    mirrored: bool
    same: Same

    def __str__(self) -> str:
        said = ", turned round" * self.same.is_reversed + " (the same diagram, but for numbers)" * self.same.is_alike
        return f"{'the mirror image of ' * self.mirrored}{self.name}{said}"


class Names:
    """The names of a link, each a `Named`, which it goes over; if there are none, `near` has those whose tables agree over all fields."""

    __slots__ = ("found", "near")

    def __init__(self, found: Sequence[Named], near: Sequence[Named]) -> None:
        self.found, self.near = tuple(found), tuple(near)

    def __iter__(self) -> Iterator[Named]:
        return iter(self.found)

    def __len__(self) -> int:
        return len(self.found)

    def __str__(self) -> str:
        names = "; ".join(map(str, self.found or self.near))
        if self.found:
            return names
        return f"{OPEN}: the tables agree with those of {names}" if names else "no name of the reference has these tables"


class _Side:
    """A link, and what is reached from its diagram so far."""

    def __init__(self, link: Link, goal: int = 0) -> None:
        self.link, self.start, self.draw = link, Diagram.of(link), random.Random(0)
        # (what the Jones polynomial needs)
        spread = [exponent for exponent, _ in link.jones.terms] or [0]
        self.least = (max(spread) - min(spread)) // 2 - len(link.components)
        self.best = simplified(Reached(self.start), Clock(2), max(goal, self.least), self.draw, 0)

    @property
    def count(self) -> int:
        return len(self.best.diagram)

    def simplify(self, seconds: float, goal: int = 0) -> None:
        self.best = simplified(self.best, Clock(seconds), max(goal, self.least), self.draw)


def simplify(link: Given, seconds: float = 2) -> Simplified:
    """The link with fewer crossings, as few as were found within about so many seconds. Proved: the diagram is what `kh edit` makes by the
    lines, so it is one of the same link. That there is none with fewer crossings is not said."""
    side = _Side(_link(link))
    side.simplify(seconds)
    return Simplified(side.link.move(*side.best.lines), side.best.lines)


def same(first: Given, second: Given, seconds: float = 20, say: Say | None = None) -> Same:
    """Whether two diagrams are of one link, up to the direction of all components at once. Of the answers "one link" and "different" are
    proved. The search takes about so many seconds at most; `say` is told how it goes on."""
    one, other = _link(first), _link(second)
    row = _row(one, other)
    if row is not None:
        return _checked(row)
    sides = _Side(one), _Side(other)
    for share in SHARES:
        (say or str)(f"the tables agree; {sides[0].count} and {sides[1].count} crossings")
        answer = _checked(_one_link(*sides, share * seconds))
        if answer or answer.is_alike:
            break
    return answer


def identify(link: Given, seconds: float = 20, say: Say | None = None) -> Names:
    """The names of a link in the reference, as far as they are found within about so many seconds; up to mirror images and the direction of
    all components at once, which is told. Proved is that the diagram of the name is one of the link; that people mean this link by the
    name is not (docs/REFERENCE.md, "The links")."""
    known = _link(link)
    sides = {it: _named(*it) for it in _by_tables().get(_rows_of(known), [])}
    side = _Side(known, min((it.count for it in sides.values()), default=0))
    found: dict[str, Named] = {}
    near: dict[tuple[str, bool], Named] = {}
    for share in SHARES:
        for (name, mirrored), there in sides.items():
            if _table_of(name) not in found:
                (say or str)(f"{name}: {side.count} and {there.count} crossings")
                answer = _one_link(side, there, share * seconds / len(sides))._replace(name=name, mirrored=mirrored)
                near[name, mirrored] = Named(name, mirrored, _checked(answer))
                if near[name, mirrored].same:
                    found[_table_of(name)] = near[name, mirrored]
    return Names(list(found.values()), [] if found else list(near.values()))


def _link(given: Given) -> Link:
    return given if isinstance(given, Link) else Link(given)


def _row(one: Link, other: Link) -> Same | None:
    """The first row in which the tables differ, as an answer."""
    for field in FIELDS:
        first, second = one.table(field), other.table(field)
        for j, i in sorted({*first, *second}):
            if first[j, i] != second[j, i]:
                return Same(DIFFERENT, one.code, other.code, field=field, row=(j, i), dimensions=(first[j, i], second[j, i]))
    return None


def _one_link(one: _Side, other: _Side, seconds: float) -> Same:
    """The answer that two links are one, where it is found within about so many seconds, and not yet checked."""
    met = _met(one, other, Clock(seconds))
    if met:
        back = reversed_too(met[1], other.start, Diagram.of(other.link.reverse()))
        for is_reversed, end in ((False, met[1]), (True, back)):
            begin = end and numbered(met[0], end.diagram)
            if begin and end:
                return Same(ONE, one.link.code, other.link.code, (begin.lines, end.lines), is_reversed, end.diagram.text)
    return Same(OPEN, one.link.code, other.link.code, left=(one.count, other.count), is_alike=bool(met))


def _met(one: _Side, other: _Side, clock: Clock) -> tuple[Reached, Reached] | None:
    """What is reached from both sides and is the same on the sphere."""
    for it, there in ((one, other), (other, one)):
        it.simplify(clock.left / 4, there.count)
    # (where there may be simpler ones, time is left for that)
    part = 1 if min(one.count, other.count) in (one.least, other.least) else 0.7
    met = joined_somehow(one.best, other.best, Clock(part * clock.left)) if one.count == other.count else None
    for it in (one, other) if met is None else ():
        it.simplify(clock.left / 2)
    return met


def _checked(answer: Same) -> Same:
    """The answer, where it decides nothing or is checked; else one that decides nothing."""
    return answer if answer.verdict == OPEN or check_answer(answer.json) else answer._replace(verdict=OPEN)


def _rows_of(link: Link) -> Rows:
    """The rows of the tables over all fields."""
    return tuple(tuple(link.table(field).rows) for field in FIELDS)


@functools.cache
def _by_tables() -> dict[Rows, list[tuple[str, bool]]]:
    """The names of the reference, and those of mirror images, by their tables."""
    tables: dict[str, dict[int, list[list[int]]]] = {}
    for name in FILES.values():
        with open(reference_file(name), encoding="utf-8") as file:
            for it in map(json.loads, file):
                if "name" in it and not NO_NAMES.fullmatch(it["name"]):
                    tables.setdefault(it["name"], {})[it["field"]] = it["rows"]
    found: dict[Rows, list[tuple[str, bool]]] = {}
    for sign in (1, -1):
        for name, rows in tables.items():
            key = tuple(tuple(sorted((sign * j, sign * i, count) for j, i, count in rows[field])) for field in FIELDS)
            found.setdefault(key, []).append(("unknot" if name == "1 loops" else name, sign < 0))
    return found


@functools.cache
def _named(name: str, mirrored: bool) -> _Side:
    """The link of a name, or its mirror image."""
    fewest = FEWEST.match(name)
    return _Side(Link(name).mirror() if mirrored else Link(name), int(fewest[1]) if fewest else 0)


def _table_of(name: str) -> str:
    """The table that a name is from, which has one name of a link; of other names they themselves."""
    return next((table for table, form in TABLES.items() if re.fullmatch(form, name)), name)
