"""The tables of the reference, and what they say of tables over the rational numbers and over the integers.

Tables that are compared are dimensions by (size of the field, j, i). A table over the rational numbers has the size 0; one over the
integers is compared over all fields.
"""
import functools
import json
from collections.abc import Iterator, Sequence
from typing import Any, NamedTuple

from ..codes import plain_lists, turning
from ..codes.stored_names import FILES as FILES
from ..commands import Unreadable
from ..laurent import jones_of
from ..tables import of_short_rows
from .table_forms import INTEGRAL, RATIONAL
from .groups import over, ranks



class Wanted(NamedTuple):
    """A table that is wanted: its dimensions; of a reduced one the marks that have it, where others have another; and of a rational one the
    sizes of the fields that it is taken from, and the degrees at which they do not decide."""

    dimensions: dict
    marks: str = ""
    sizes: tuple = ()
    undecided: frozenset = frozenset()


def listed(words):
    """Words in a row: one, two and three."""
    *first, last = map(str, words)
    return f"{', '.join(first)} and {last}" if first else last


@functools.cache
def diagrams(path: str) -> dict[str, str]:
    """The planar diagrams of a file of vectors, by name."""
    return {it["name"]: it["pd"] for it in lines_of(path)}


def lines_of(path: str) -> Iterator[dict[str, Any]]:
    """The lines of a file of vectors, or of what `kh-tabulate write --json` writes; of the latter those with a table."""
    with open(path, encoding="utf-8") as file:
        for number, text in enumerate(file, 1):
            try:
                line = dict(json.loads(text))
                if "code" in line and "table_rows" in line:
                    line = of_results(line)
                if line and "name" in line:
                    line["pd"], line["rows"], line["field"]
                    yield line
            except (ValueError, TypeError, KeyError):
                raise Unreadable(f"{path}:{number}: this is no line of a reference, nor one that kh-tabulate write --json writes") from None


def of_results(line: dict[str, Any]) -> dict[str, Any]:
    """A line of `kh-tabulate write --json` as one of a reference; nothing where it has no table."""
    if line["refusal"]:
        return {}
    rows = [[j, i, dimension] for (j, i), dimension in of_short_rows(line["table_rows"]).items()]
    jones = [[j, count] for (j, _), count in jones_of(f"jones {line['jones']}").terms.items()]
    return {"name": line["name"], "pd": diagram_of(line["code"]), "field": line["field"], "rows": rows, "jones": jones}


@functools.lru_cache(maxsize=4_096)
def diagram_of(code: str) -> str:
    """The planar diagram of a code, as `kh` writes it."""
    return plain_lists.written(code) or next(turning.all_of(code)).code


class Reference:
    """The lines of files of vectors, by name and field."""

    def __init__(self, *paths: str) -> None:
        self.lines, self.known = {}, {}
        for path in paths:
            for it in lines_of(path):
                known = self.lines.setdefault(it["name"], {})
                if any(line["pd"] != it["pd"] for line in known.values()):
                    raise Unreadable(f"{path} has two codes of {it['name']}")
                known[it["field"]] = it

    def need(self, name):
        """The lines of a link by fields."""
        if name not in self.lines:
            raise Unreadable(f"the reference has no {name}")
        return self.lines[name]

    def parity(self, name, is_reduced):
        """That of the quantum degrees of a link, if the reference has it."""
        rows = next(iter(self.lines[name].values()))["rows"] if name in self.lines else []
        return (rows[0][0] + is_reduced) % 2 if rows else None

    def wanted(self, name, field, is_reduced):
        """The tables that a link has over a field, over the rational numbers or the integers: one, or reduced ones by their marks."""
        key = name, field, is_reduced
        if key not in self.known:
            self.known[key] = self.found(*key)
        return self.known[key]

    def found(self, name, field, is_reduced):
        lines = self.need(name)
        if field not in (RATIONAL, INTEGRAL, *lines):
            raise Unreadable(f"the reference has no {name} over {field} elements")
        chosen = lines if field in (RATIONAL, INTEGRAL) else {field: lines[field]}
        tables = reduced_tables(name, chosen) if is_reduced else [({size: of_rows(it["rows"]) for size, it in chosen.items()}, "")]
        return [rational(by_size, marks) if field == RATIONAL else Wanted(joined(by_size), marks) for by_size, marks in tables]

    def wanted_if_any(self, name, field, is_reduced):
        """The same, and none where the reference has none."""
        try:
            return self.wanted(name, field, is_reduced)
        except Unreadable:
            return []


def of_rows(rows):
    return {(j, i): dimension for j, i, dimension in rows}


def joined(tables):
    """Tables over several fields as one, with the size of the field before the degrees."""
    return {(size, *degrees): dimension for size, table in tables.items() for degrees, dimension in table.items()}


def reduced_tables(name, lines):
    """The reduced tables of a link over these fields, each with its marks, if there are others."""
    if not all(it.get("reduced") for it in lines.values()):
        raise Unreadable(f"the reference has no reduced table of {name}")
    found = {}
    for mark in sorted({mark for it in lines.values() for part in it["reduced"] for mark in part["marks"]}):
        tables = {size: next(of_rows(part["rows"]) for part in it["reduced"] if mark in part["marks"]) for size, it in lines.items()}
        found.setdefault(repr(tables), (tables, []))[1].append(mark)
    one = len(found) == 1
    return [(tables, "" if one else f"at the mark{'s' if marks[1:] else ''} {listed(marks)}") for tables, marks in found.values()]


def rational(tables, marks):
    """The rational table, as far as these tables decide it. Over a field there are more dimensions only by torsion, which adds one at some
    i and one at i + 1: where the fewest are, a row without such a neighbour is one of the rational table."""
    sums = {size: sum(table.values()) for size, table in tables.items()}
    least = tables[min(sums, key=sums.get)]
    sizes = tuple(size for size in sorted(tables) if tables[size] == least)
    undecided = {(RATIONAL, j, i) for j, i in least if (j, i - 1) in least or (j, i + 1) in least}
    return Wanted(joined({RATIONAL: least}), marks, sizes, frozenset(undecided))


def given_tables(groups: Any, field: Any, sizes: Sequence[int], step: int = -1) -> dict[tuple[int, int, int], int]:
    """The table that these groups say, over a field, the rational numbers, or for integers over the fields of these sizes."""
    if field == RATIONAL:
        return joined({RATIONAL: ranks(groups)})
    return joined({size: over(groups, size, step) for size in (sizes if field == INTEGRAL else [field])})
