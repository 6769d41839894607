"""What is to be said of a table that ought to be one of the reference: that it is, or in which way it is another one.

The reference's table is turned in eight ways, and shifted by a constant of j and of i. A way is told where the table is exact in it; where
nothing is exact, the nearest way is told if it explains most of the differences, with the rows that are other ones in it.
"""
import re
from collections import Counter
from typing import NamedTuple

from .table_forms import INTEGRAL
from .groups import has_torsion
from .stored import given_tables, listed

AGREES, EXPLAINED, OTHER = "agrees", "explained", "another table"
# What each turning of the reference makes of the degrees (j, i), what comes of it, and what is said of a table that agrees with it.
TURNINGS = [
    (lambda j, i: (j, i), "the reference", "the same table"),
    (lambda j, i: (-j, -i), "the mirror image, with i and j negated", "it is the table of the mirror image: i and j are negated"),
    (lambda j, i: (-j, i), "the reference with j negated", "j is negated: q stands for the inverse of the reference's"),
    (lambda j, i: (j, -i), "the reference with i negated", "i is negated: t stands for the inverse of the reference's"),
    (lambda j, i: (i, j), "the reference with i before j", "the columns are exchanged: i stands before j"),
    (lambda j, i: (-i, -j), "the mirror image with i before j", "the columns are exchanged, and i and j are negated: the mirror image"),
    (lambda j, i: (i, -j), "the reference with i before j, and j negated", "the columns are exchanged, and j is negated"),
    (lambda j, i: (-i, j), "the reference with i before j, and i negated", "the columns are exchanged, and i is negated"),
]
# The same in few words.
SHORT = [
    "", "mirrored", "j negated", "i negated", "columns exchanged", "columns exchanged, mirrored", "columns exchanged, j negated",
    "columns exchanged, i negated",
]
MIRROR, EXCHANGED, NEGATES_I = 1, 4, (1, 3, 5, 7)
HOMOLOGY = "the groups are homology: torsion stands at i - 1 where the reference, in cohomology, has it at i"
NEAREST, WORDS_BEFORE = "nearest is", re.compile("^(it|this) is ")
INVERSES = "i and j are negated: q and t stand for the inverses of the reference's, and the link is not mirrored"
LEFT_OUT = "which link.pd leaves out, and link.loops counts"
# How many shifts of a turning are tried, how many names and rows are told.
SHIFTS, NAMES, ROWS = 2, 3, 6


class Table(NamedTuple):
    """A table to be compared: its groups by (j, i), over what they are, whether that was told, and whether they are reduced."""

    groups: dict
    field: object
    is_told: bool
    is_reduced: bool


class Verdict(NamedTuple):
    """What is said of a table: whether it agrees, is explained or is another one, the lines, the same in few words, and the turning and the
    shift in which it is exactly the one that is wanted, if it is in any."""

    kind: str
    lines: list
    short: str
    exact: tuple = None


class Way(NamedTuple):
    """A way in which a table is tried: the number of the turning, the shift, whether its torsion is that of homology; the table, the
    reference's one turned and shifted, and how many rows are other ones."""

    place: int
    shift: tuple
    is_homology: bool
    table: dict
    other: dict
    count: int

    def rank(self):
        """Of two ways that fit as well the simpler one is told."""
        return self.count, self.shift != (0, 0), self.is_homology, self.place

    def sentence(self):
        """What is said of a table that agrees in this way."""
        words = sentence(self.place, self.shift, INVERSES if self.is_homology and self.place == MIRROR else TURNINGS[self.place][2])
        if self.is_homology and self.place not in NEGATES_I:
            return HOMOLOGY if words == TURNINGS[0][2] else f"{words}; and {HOMOLOGY}"
        return words

    def short(self):
        """The same in few words."""
        words = short(self.place, self.shift)
        if self.is_homology and self.place not in NEGATES_I:
            return f"{words}, as homology" if words else "as homology"
        return words.replace("mirrored", "i and j negated") if self.is_homology and self.place == MIRROR else words

    def heading(self):
        """What is said before the rows that are other ones in this way."""
        words = f", and {shift_words(self.place, self.shift)}" if self.shift != (0, 0) else ""
        return f"{NEAREST} {TURNINGS[self.place][1]}{words}{', in homology' if self.is_homology else ''}:"

    def name(self):
        """What the reference's table, turned and shifted so, is called beside yours."""
        words = "mirrored " if self.place == MIRROR else "turned " if self.place else "shifted " if self.shift != (0, 0) else ""
        return f"the {words}reference"

    def explains(self, differences):
        """Whether this way explains the most of so many differences; a shift, which can be of any size, has to explain more."""
        return self.count * (2 if self.shift == (0, 0) else 4) <= differences


def shift_words(place, shift):
    """How j and i are shifted, where the columns of a turning may be exchanged."""
    j, i = shift[::-1] if place >= EXCHANGED else shift
    return " and ".join(f"{letter} shifted by {by}" for letter, by in (("j", j), ("i", i)) if by)


def short(place, shift):
    """How the reference is turned and shifted, in few words."""
    return ", ".join(filter(None, (SHORT[place], shift_words(place, shift))))


def sentence(place, shift, words=""):
    """What is said of a table that agrees with the reference turned and shifted so."""
    words = words or TURNINGS[place][2]
    return f"{words}, with {shift_words(place, shift)}" if shift != (0, 0) else words


def other_rows(table, other):
    return [key for key in sorted({*table, *other}) if table.get(key, 0) != other.get(key, 0)]


def row_lines(table, other, words, is_exchanged=False):
    """A line for each pair of degrees with another dimension; the words have places for both dimensions."""
    lines, sizes = [], {key[0] for key in (*table, *other)}
    for key in other_rows(table, other):
        j, i = key[:0:-1] if is_exchanged else key[1:]
        where = f"over {key[0]} elements j" if len(sizes) > 1 else "j"
        lines.append(f"{where} {j} i {i}: {words.format(table.get(key, 0), other.get(key, 0))}")
    return lines


def turned(table, place):
    return {(size, *TURNINGS[place][0](j, i)): dimension for (size, j, i), dimension in table.items()}


def shifted(table, shift):
    return {(size, one + shift[0], two + shift[1]): dimension for (size, one, two), dimension in table.items()}


def with_loop(table: dict) -> dict:
    """The table of the same link with a loop beside it: once one step of j up, and once one down."""
    found = Counter()
    for (size, j, i), dimension in table.items():
        found.update({(size, j + 1, i): dimension, (size, j - 1, i): dimension})
    return dict(found)


def likely_shifts(table, other):
    """The shifts, other than none, that bring the most rows of one table to rows of the other."""
    found = Counter()
    for (size, one, two), dimension in table.items():
        found.update((one - a, two - b) for (it, a, b), count in other.items() if it == size and count == dimension)
    del found[0, 0]
    return [shift for shift, _ in found.most_common(SHIFTS)]


def ways(table, sizes, other, turnings=range(len(TURNINGS))):
    """All ways in which a table is tried with one of the reference."""
    for place in turnings:
        there = turned(other, place)
        for is_homology, given in enumerate(readings(table, sizes, place)):
            for shift in [(0, 0), *likely_shifts(given, there)]:
                moved = shifted(there, shift)
                yield Way(place, shift, bool(is_homology), given, moved, len(other_rows(given, moved)))


def readings(table, sizes, place=0):
    """The dimensions that a table says where it stands turned so; where it has torsion, also as those of homology."""
    steps = (-1, 1) if table.field == INTEGRAL and has_torsion(table.groups) else (-1,)
    if place < EXCHANGED:
        return [given_tables(table.groups, table.field, sizes, step) for step in steps]
    # (what torsion adds, it adds beside it along i, which stands first)
    groups = {pair[::-1]: group for pair, group in table.groups.items()}
    return [turned(given_tables(groups, table.field, sizes, step), EXCHANGED) for step in steps]


class Comparison:
    """A table beside that of a link of the reference."""

    def __init__(self, table, reference, name):
        self.table, self.reference, self.name = table, reference, name
        self.wanted, self.sizes = reference.wanted(name, table.field, table.is_reduced), tuple(reference.need(name))

    def verdict(self):
        """What is to be said, the simplest first."""
        given = readings(self.table, self.sizes)[0]
        for it in self.wanted:
            if given == it.dimensions:
                return Verdict(AGREES, agreement(it, self.table.field), AGREES)
        tried = [way for it in self.wanted for way in ways(self.table, self.sizes, it.dimensions)]
        exact = min((way for way in tried if not way.count), key=Way.rank, default=None)
        way = exact and (exact.place, exact.shift)
        lines = [] if exact and exact.shift == (0, 0) else self.without_loops() or self.other_field() or self.other_kind()
        if exact and not lines:
            return Verdict(EXPLAINED, [exact.sentence(), *self.reason(exact)], exact.short(), way)
        lines = lines or other_links(self.table, self.reference)
        if not lines:
            return Verdict(OTHER, self.nearest(tried), OTHER)
        return Verdict(EXPLAINED, lines, WORDS_BEFORE.sub("", lines[0].partition(", and not")[0].partition(", which")[0]), way)

    def agrees_in(self, place, shift):
        """Whether the table is exact in this way."""
        others = [shifted(turned(it.dimensions, place), shift) for it in self.wanted]
        return any(table == other for table in readings(self.table, self.sizes, place) for other in others)

    def exact_ways(self, name, field, is_reduced):
        """The ways, as it stands or mirrored, in which the table is exactly one that a link has over a field, if the reference has it."""
        table, sizes = self.table._replace(field=field), tuple(self.reference.need(name))
        wanted = self.reference.wanted_if_any(name, field, is_reduced)
        return [way for it in wanted for way in ways(table, sizes, it.dimensions, (0, MIRROR)) if not way.count]

    def without_loops(self) -> list[str]:
        """Whether it is the table of the diagram without its loops, or some of them, as it stands or mirrored."""
        given, loops = readings(self.table, self.sizes)[0], str(next(iter(self.reference.need(self.name).values())).get("pd")).count("Loop")
        for count in range(1, loops + 1):
            given = with_loop(given)
            for place in (0, MIRROR):
                if any(given == turned(it.dimensions, place) for it in self.wanted):
                    some = "the loops" if count == loops else f"{count} of the {loops} loops"
                    return [f"it is the table{' of the mirror image' if place else ''} without {some} of the diagram, {LEFT_OUT}"]
        return []

    def other_field(self):
        """Whether it is the link's table over other fields."""
        if self.table.field == INTEGRAL:
            return []
        found = {}
        for size in self.reference.need(self.name):
            if size != self.table.field:
                for way in self.exact_ways(self.name, size, self.table.is_reduced):
                    if way.shift == (0, 0):
                        found.setdefault(way.place, []).append(size)
        if not found:
            return []
        place = min(found)
        mirrored = " of the mirror image" if place else ""
        untold = "" if self.table.is_told else ", and not over 2, which is taken where --field names none"
        return [f"it is the table{mirrored} over {listed(found[place])} elements{untold}"]

    def other_kind(self):
        """Whether it is the link's reduced table, where it ought to be the unreduced one, or the other way round."""
        exact = min(self.exact_ways(self.name, self.table.field, not self.table.is_reduced), key=Way.rank, default=None)
        if not exact:
            return []
        words = "" if exact.rank() == (0, False, False, 0) else f": {exact.sentence()}"
        if self.table.is_reduced:
            return [f"it is the unreduced table{words}"]
        return [f"it is the reduced table, which --reduced compares{words}"]

    def reason(self, way):
        """Why a table may be shifted so."""
        if way.place or way.shift == (0, 0):
            return []
        line = next(iter(self.reference.need(self.name).values()))
        plus, minus = line.get("plus", 0), line.get("minus", 0)
        if way.shift == (2 * minus - plus, minus):
            return ["so are the degrees of the cube, without the numbers n+ and n- of crossings"]
        components = sum(coefficient for _, coefficient in line.get("jones", []))
        if components > 2 and way.shift[0] == 3 * way.shift[1] and way.shift[1] % 2 == 0:
            return ["so it is where components are turned round that link the others"]
        if way.shift == (3 * (minus - plus), minus - plus):
            return ["so it is where n+ and n- are exchanged, since the signs of all crossings are the other ones"]
        return []

    def nearest(self, tried):
        """The rows that are other ones, in the way that explains the most, if one does."""
        plain = [way for way in tried if way.rank()[1:] == (False, False, 0)]
        as_it_stands = min(plain, key=Way.rank)
        fitting = [way for way in tried if way.explains(as_it_stands.count)]
        best = min(fitting, key=Way.rank, default=as_it_stands)
        if best.rank()[1:] == (False, False, 0):
            it = self.wanted[plain.index(best)]
            words = f"{{}}, and {{}} in the reference{' ' if it.marks else ''}{it.marks}"
            return row_lines(best.table, best.other, words) + doubt(it, best)
        return [best.heading(), *row_lines(best.table, best.other, f"yours {{}}, {best.name()} {{}}", best.place >= EXCHANGED)]


def agreement(wanted, field):
    """What is said of a table that is the one that is wanted."""
    over = f" over {listed(sorted({size for size, _, _ in wanted.dimensions}))} elements" if field == INTEGRAL else ""
    lines = [" ".join(filter(None, (f"the tables agree{over}", wanted.marks)))]
    if wanted.undecided:
        rows = [f"j {j} i {i}" for _, j, i in sorted(wanted.undecided)]
        but = listed(rows) if len(rows) <= ROWS else f"{len(rows)} rows"
        lines.append(f"(the reference decides all but {but}, where torsion at {listed(wanted.sizes)} in one place would look the same)")
    return lines


def doubt(wanted, way):
    """Where a rational table has less than the reference's fields, by pairs side by side, the reference does not exclude it."""
    rows, sums = other_rows(way.table, way.other), Counter()
    for size, j, i in rows:
        sums[j] += (-1) ** i * (way.other.get((size, j, i), 0) - way.table.get((size, j, i), 0))
    is_less = all(way.table.get(key, 0) < way.other.get(key, 0) for key in rows)
    if is_less and set(rows) <= wanted.undecided and not any(sums.values()):
        return [f"(only torsion at {listed(wanted.sizes)} in one place would explain this)"]
    return []


def names_of(table, reference, is_mirrored):
    """The links of the reference that have a table, or whose mirror images have it."""
    known = {}
    for name, lines in reference.lines.items():
        sizes = tuple(lines)
        if sizes not in known:
            given = readings(table, sizes)[0]
            known[sizes] = turned(given, MIRROR) if is_mirrored else given
        if any(it.dimensions == known[sizes] for it in reference.wanted_if_any(name, table.field, table.is_reduced)):
            yield name


def other_links(table, reference):
    """What is said of a table that links of the reference have, as it stands or mirrored, if any have."""
    for is_mirrored, words in ((False, "the table"), (True, "the table of the mirror image")):
        names = [f"of {name}" for name in names_of(table, reference, is_mirrored)]
        if names:
            more = [f"of {len(names) - NAMES} others"] if len(names) > NAMES + 1 else names[NAMES:]
            return [f"this is {words} {listed(names[:NAMES] + more)}"]
    return []
