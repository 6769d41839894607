"""Reads tables as other programs print them: lines, polynomials in q and t, dictionaries and JSON, over a field or over the integers."""
import ast
import json
import re
import warnings
from collections import Counter
from typing import Any, NamedTuple

from ..commands import Unreadable
from ..polynomial_texts import dimensions
from ..tables import FIELD, MARK, ROW, Degrees
from .groups import IN_POLYNOMIAL, group_of, order_and_count

ROW_OF_THREE = re.compile(r"(-?\d+)[\s,;]+(-?\d+)[\s,;]+(\S.*)")
# What else may stand in the text of `kh`.
OTHER = re.compile(r"table 2|field [2357]|mark \d+|jones .*|")
POLYNOMIAL = re.compile(r"\s*\d+\s*|[\d\s^*/+(){}-]*[qt][\dqt\s^*/+(){}-]*")
BEGINS = re.compile(r"[{\[]|(dict|Counter|OrderedDict|defaultdict)\(")
WRAPPED = re.compile(r"(?:dict|Counter|OrderedDict|defaultdict)\((?:<class '\w+'>,)?(.*)\)", re.S)
# The value of a dictionary that is no number and no text in quotes: a group's name.
BARE = re.compile(r":\s*([^\s'\"{\[(\d-][^,{}]*?|\d+\s*[^\s,{}\])\d][^,{}]*?)\s*(?=[,}])")
# How Python shows a table of the package.
SHOWN = re.compile(r"(?:kh\.)?Table\((\{.*\}), field=([2357])(?:, mark=(\d+))?\)", re.S)
LONG = re.compile(r"\d{7,}")
PAIR = re.compile(r"\(?\s*(-?\d+)\s*[,;\s]\s*(-?\d+)\s*\)?")
SIZE = re.compile(r"over (?:(Rational Field)|Finite Field of size (\d+))")
MEMBERS, ROW_MEMBERS = ("rows", "table_rows", "table", "dimensions", "polynomial"), ("dim", "dimension", "rank", "group")
RATIONAL, INTEGRAL = 0, "Z"
FIELDS = {**{str(field): field for field in (2, 3, 5, 7)}, "0": RATIONAL, "q": RATIONAL, "qq": RATIONAL, "rational": RATIONAL}
FIELDS.update({"z": INTEGRAL, "zz": INTEGRAL, "integers": INTEGRAL})


class Empty(Unreadable):
    """A text with nothing in it."""


class Reading(NamedTuple):
    """A table that was read: its groups by pairs of degrees; whether j stands first in these, or nothing where the form does not say it;
    over what it is, where the text says it: a field's size, 0 for the rational numbers, Z; whether it is reduced; its Jones line; and the
    mark of a reduced one, where the text says it."""

    cells: dict
    is_j_first: bool = True
    field: Any = None
    is_reduced: bool = False
    jones: str = None
    mark: int = None


class Cells:
    """The groups of a table that is read, one after another, and over what they say that they are."""

    def __init__(self):
        self.groups, self.field = {}, None

    def add(self, degrees, value):
        """A group at these degrees, as a number or as a text."""
        first, second = degrees
        group = group_of(str(value))
        if group is None:
            raise Unreadable(f"{value} is no dimension and no group")
        if (first, second) in self.groups:
            raise Unreadable(f"{first}, {second} stands twice in the table")
        self.groups[first, second] = group
        size = SIZE.search(str(value))
        if size:
            self.field = RATIONAL if size[1] else int(size[2])
        elif re.search("[ZℤC]", str(value)):
            self.field = INTEGRAL

    def reading(self, is_j_first):
        if not any(sum(group.values()) for group in self.groups.values()):
            raise Unreadable("no dimension is above 0")
        return Reading(self.groups, is_j_first, self.field)


def field_of(value: object) -> Any:
    """The field that a word or a number names, or nothing where it names none."""
    return FIELDS.get(str(value).lower())


def read(text: str) -> Reading:
    """The table of a text in any of the forms."""
    text = text.lstrip("\ufeff").strip()
    if not text:
        raise Empty("the program wrote nothing")
    shown = SHOWN.fullmatch(text)
    if shown:
        mark = None if shown[3] is None else int(shown[3])
        return read(shown[1])._replace(is_j_first=True, field=int(shown[2]), is_reduced=mark is not None, mark=mark)
    try:
        return read_value(value_of(text)) if BEGINS.match(text) else read_lines(text)
    except (ValueError, RecursionError) as fault:
        raise Unreadable(f"no table is so deep, or has such numbers: {fault}") from None


def read_lines(text: str) -> Reading:
    """The table of lines of rows, or of a polynomial."""
    if LONG.search(text):
        raise Unreadable(f"no table has such a number: {LONG.search(text)[0][:80]}")
    cells, rest, told = Cells(), [], []
    for number, line in enumerate(text.splitlines(), 1):
        rows = rows_of(line)
        for j, i, group in rows:
            if (j, i) in cells.groups:
                raise Unreadable(f"line {number} gives j {j} i {i} a second time")
            cells.add((j, i), group)
        if OTHER.fullmatch(line.strip()):
            told.append(line.strip())
        elif not rows:
            rest.append((number, line))
    whole = " ".join(line for _, line in rest)
    if rest and (cells.groups or not POLYNOMIAL.fullmatch(IN_POLYNOMIAL.sub("(1)", whole))):
        number, line = rest[0]
        raise Unreadable(f"line {number} is no row of a table, and the text no polynomial in q and t: {line[:80]}")
    if rest:
        cells.groups, cells.field = groups_from(whole), INTEGRAL if IN_POLYNOMIAL.search(whole) else None
    field = next((int(it[1]) for it in map(FIELD.fullmatch, told) if it), cells.field)
    jones = next((line for line in told if line.startswith("jones ")), None)
    mark = next((int(it[1]) for it in map(MARK.fullmatch, told) if it), None)
    return cells.reading(True)._replace(field=field, is_reduced=mark is not None, jones=jones, mark=mark)


def rows_of(line):
    """The rows of a line, or nothing where it is none: one row, or as `kh-tabulate` writes them, with `; ` between."""
    found = row_of(line)
    rows = [found] if found else [row_of(part) for part in line.split(";")]
    return rows if all(rows) else []


def row_of(text):
    """The degrees and the text of the group of a row, or nothing."""
    found = ROW.fullmatch(text.strip()) or ROW_OF_THREE.fullmatch(text.strip())
    return (int(found[1]), int(found[2]), found[3]) if found and group_of(found[3]) is not None else None


def groups_from(text):
    """The groups by degrees of a polynomial, whose terms may have summands such as Z[2]: for each order those terms alone are counted."""

    def counted(*wanted):
        def number(found):
            order, count = order_and_count(found)
            return f"({count if order in wanted else 0})"

        return Counter(dimensions(IN_POLYNOMIAL.sub(number, text)))

    if "T" in text and "t" not in text:
        raise Unreadable("T^2 is read as torsion, Z[2], and the text has no t: write t where T stands for it")
    orders = sorted({order_and_count(found)[0] for found in IN_POLYNOMIAL.finditer(text)} - {0})
    free, groups = counted(0), {}
    parts = {0: free, **{order: counted(0, order) - free for order in orders}}
    if sum(parts.values(), Counter()) != counted(0, *orders):
        raise Unreadable("a term of the polynomial has two groups")
    for order, terms in parts.items():
        for degrees, count in terms.items():
            groups.setdefault(degrees, Counter())[order] += count
    return groups


def without_doubles(pairs):
    """A dictionary of these keys and values, of which no key stands twice."""
    found = {}
    for key, value in pairs:
        if key in found:
            raise Unreadable(f"{key} stands twice in a dictionary")
        found[key] = value
    return found


def value_of(text):
    """The value of a text of JSON, or of a dictionary or list as Python or Sage print it."""
    try:
        return json.loads(text, object_pairs_hook=without_doubles)
    except ValueError:
        pass
    if len(text.splitlines()) > 1 and all(is_json(line) for line in text.splitlines()):
        raise Unreadable("the text has several JSON values; --all compares such")
    while WRAPPED.fullmatch(text):
        text = WRAPPED.fullmatch(text)[1].strip()
    try:
        with warnings.catch_warnings():
            warnings.simplefilter("ignore")
            return plain_value(ast.parse(BARE.sub(lambda it: f": {it[1]!r}", text), mode="eval").body)
    except (SyntaxError, ValueError, RecursionError):
        raise Unreadable(f"no dictionary and no list goes on so: {text[:80]}") from None


def is_json(text):
    try:
        json.loads(text)
        return True
    except ValueError:
        return False


def plain_value(node):
    """The value of a tree of dictionaries, lists, pairs, numbers and texts."""
    if isinstance(node, ast.Dict):
        return without_doubles((plain_value(key), plain_value(value)) for key, value in zip(node.keys, node.values))
    if isinstance(node, (ast.List, ast.Tuple)):
        return tuple(map(plain_value, node.elts))
    if isinstance(node, ast.Call) and ast.unparse(node.func).rpartition(".")[2] == Degrees.__name__:
        return degrees_of(node)
    return ast.literal_eval(node)


def degrees_of(node: ast.Call) -> Degrees:
    """The pair of degrees of `Degrees(j=1, i=0)`, as Python shows it."""
    named = {it.arg: plain_value(it.value) for it in node.keywords}
    if node.args or {*named} != {"j", "i"}:
        raise ValueError
    return Degrees(number_of(named["j"]), number_of(named["i"]))


def read_value(value: Any) -> Reading:
    """The table of a value: a text, an object with a table as a member, a dictionary or a list."""
    if isinstance(value, str):
        return read(value)
    if isinstance(value, dict):
        return read_object(value) if any(member in value for member in MEMBERS) else read_dictionary(value)
    if isinstance(value, (list, tuple)):
        return read_list(value)
    raise Unreadable(f"{value} is no table")


def read_dictionary(value: dict) -> Reading:
    """The table of a dictionary by pairs of degrees, or by one degree and then by the other."""
    cells, is_nested = Cells(), all(isinstance(it, dict) for it in value.values())
    for key, inner in value.items():
        for pair, group in [((key, it), group) for it, group in inner.items()] if is_nested else [(key, inner)]:
            cells.add(pair_of(pair), group)
    # (such pairs say which degree is which)
    return cells.reading(True if value and all(isinstance(key, Degrees) for key in value) else None)


def read_list(value):
    """The table of a list: of rows j, i, group; of objects with these; or of pairs of degrees with their groups."""
    cells = Cells()
    for row in value:
        if isinstance(row, dict):
            cells.add((number_of(row.get("j")), number_of(row.get("i"))), next((row[it] for it in ROW_MEMBERS if it in row), None))
        elif isinstance(row, (list, tuple)) and len(row) in (2, 3):
            cells.add(pair_of(row[0] if len(row) == 2 else row[:2]), row[-1])
        else:
            raise Unreadable(f"{row} is no row of a table")
    return cells.reading(None if any(len(row) == 2 for row in value) else True)


def read_object(value):
    """The table of an object such as a line of the reference, or of `kh-tabulate write --json`."""
    reading = read_value(next(value[member] for member in MEMBERS if member in value))
    field = field_of(value["field"]) if value.get("field") is not None else reading.field
    if field is None and value.get("field") is not None:
        raise Unreadable(f"{value['field']} is no field of the reference, nor 0 for the rational numbers, nor Z")
    # (a line of the reference has its reduced tables as a list beside the unreduced one)
    is_reduced = reading.is_reduced or value.get("reduced") is True or "mark" in value
    return reading._replace(field=field, is_reduced=is_reduced)


def number_of(value):
    """A degree, as a number or as a text."""
    if isinstance(value, bool) or not re.fullmatch(r"\s*-?\d+\s*", str(value)):
        raise Unreadable(f"{value} is no degree")
    return int(value)


def pair_of(key):
    """A pair of degrees, as a list of two or as a text."""
    found = PAIR.fullmatch(key) if isinstance(key, str) else None
    if found or isinstance(key, (list, tuple)) and len(key) == 2:
        return tuple(map(number_of, found.groups() if found else key))
    raise Unreadable(f"{key} is no pair of degrees")


def j_is_first(reading: Reading, parity: int | None = None) -> bool | None:
    """Whether j stands first in the pairs of a table, nothing where that can not be told: the quantum degrees of one link are all even or
    all odd, and which of these it is where a parity is given."""
    turned = {(second, first): group for (first, second), group in reading.cells.items()}
    if reading.is_j_first is not None or turned == reading.cells:
        return reading.is_j_first is not False
    firsts, seconds = ({pair[place] % 2 for pair in reading.cells} for place in (0, 1))
    for one, other in ((firsts == {parity}, seconds == {parity}), (len(firsts) == 1, len(seconds) == 1)):
        if one or other:
            return None if one and other else one
    return None


def groups_of(reading: Reading, is_first: bool) -> dict[tuple[int, int], Counter[int]]:
    """The groups of a table by degrees (j, i)."""
    return {pair if is_first else pair[::-1]: group for pair, group in reading.cells.items()}
