"""All that a page tells of a diagram, as `kh` answers it: its code, counts, signs, drawing, polynomial and tables."""
import re
from typing import NamedTuple

from ..commands import Unreadable
from ..laurent import Polynomial, jones_of
from ..tables import FIELDS, Table
from .arcs import crossings_of
from .asking import CHECK, CONVERT, DRAW, GAUSS, JONES
from .generators import MOST_COUNTED, Degrees, by_degrees, refuse_other_sum, states_of
from .slices import read_drawing

COUNTS = re.compile(
    r"accepted crossings (?P<crossings>\d+) plus (?P<plus>\d+) minus (?P<minus>\d+) components (?P<components>\d+) "
    r"pieces (?P<pieces>\d+) faces (?P<faces>\d+) loops (?P<loops>\d+)\n"
)
SIGNS = re.compile(r"Signs\[([-\d, ]*)\]")


class Sheet(NamedTuple):
    """The name of a diagram; its code as `kh convert` writes it, its crossings, their signs, how many loops; the counts of `check` by
    their words; the slices of its drawing; its Jones line, and what it says; its tables, or the line of the limit; its states, where
    these are counted."""

    name: str
    code: str
    crossings: list
    signs: list
    loops: int
    counts: dict
    slices: list
    jones_line: str
    jones: Polynomial
    tables: list
    limit: str
    states: list

    def degrees(self):
        return Degrees(self.counts["plus"], self.counts["minus"])

    def generators(self):
        """For each pair of degrees the states whose generators stand there."""
        return by_degrees(self.states, self.degrees())


def sheet_of(kh, text, name=""):
    """What `kh` answers of a code in any form that it reads."""
    counts = {word: int(count) for word, count in COUNTS.fullmatch(kh.answer(CHECK, text)).groupdict().items()}
    code = kh.answer(CONVERT, text).strip()
    signs = SIGNS.search(kh.answer(GAUSS, code))
    jones_line = kh.answer(JONES, code).strip()
    tables, limit = tables_of(kh, code)
    sheet = Sheet(
        name, code, crossings_of(code, "the answer"), [int(it) for it in re.findall(r"-?\d+", signs[1] if signs else "")],
        counts["loops"], counts, read_drawing(kh.answer(DRAW, code)), jones_line, jones_of(jones_line), tables, limit, [],
    )
    if len(sheet.signs) != len(sheet.crossings) or sheet.signs.count(1) != counts["plus"]:
        raise Unreadable("the signs of the Gauss code are not those that were counted")
    if len(sheet.crossings) <= MOST_COUNTED:
        sheet = sheet._replace(states=states_of(sheet.crossings, sheet.loops))
        refuse_other_sum(sheet.states, sheet.degrees(), sheet.jones)
    return sheet


def tables_of(kh, code):
    """The tables over all fields; where the first is too large none, and the line of the limit."""
    tables = []
    for field, scanned in zip(FIELDS, kh.all_scanned(code)):
        text, is_table = kh.table(field, code, scanned)
        if not is_table:
            return [], text.strip()
        tables += Table.all_of(text)
    return tables, ""


def alike(tables):
    """The tables in groups that have the same dimensions: the fields of each, and one of its tables."""
    groups = {}
    for table in tables:
        groups.setdefault(tuple(table.items()), []).append(table)
    return [([it.field for it in them], them[0]) for them in groups.values()]
