"""Links of one's own in place of those of a file: what the programs answer of them is what such a file has."""
from __future__ import annotations

from collections.abc import Mapping
from typing import Any

from ..links import Link
from ..many import results
from ..refused import Refused
from ..tables import FIELDS
from .stored import Reference
from .table_forms import INTEGRAL, RATIONAL

# Reduced tables come from the cube: where nobody asked for them they are made of diagrams of so many crossings at most.
CUBE = 11


class OwnLinks(Reference):
    """The tables of these links, by their names. A link that has none is refused."""

    def __init__(self, links: Mapping[str, Link], jobs: int, is_reduced: bool) -> None:
        super().__init__()
        self.links, self.is_reduced = dict(links), is_reduced
        names = {id(link): name for name, link in self.links.items()}
        heads = {name: head_of(link, name) for name, link in self.links.items()}
        self.lines = {name: {} for name in self.links}
        for it in results(self.links.values(), "all", jobs):
            name = names[id(it.link)]
            if it.table is None:
                raise without_table(name, it.fault)
            self.lines[name][it.field] = {**heads[name], "field": it.field, "rows": it.table.rows, "jones": terms_of(it.table)}
        self.lines = {name: {field: lines[field] for field in FIELDS} for name, lines in self.lines.items()}

    def found(self, name: str, field: Any, is_reduced: bool) -> Any:
        if is_reduced:
            self.add_reduced(name, FIELDS if field in (RATIONAL, INTEGRAL) else (field,))
        return super().found(name, field, is_reduced)

    def add_reduced(self, name: str, sizes: tuple[int, ...]) -> None:
        """The reduced tables of a link, at each component, over fields of these sizes; none where the cube is too large."""
        link = self.links[name]
        if len(link.pd) > CUBE and not self.is_reduced:
            return
        for size in sizes:
            line = self.lines[name].get(size, {})
            if line and "reduced" not in line:
                try:
                    tables = [(component[0], link.reduced(component[0], size)) for component in link.components]
                except (Refused, MemoryError):
                    return
                line["reduced"] = [{"rows": table.rows, "marks": [mark]} for mark, table in tables]


def head_of(link: Link, name: str) -> dict[str, Any]:
    """What a line has of a link, whatever the field."""
    try:
        signs = link.signs
    except Refused as fault:
        raise without_table(name, fault) from None
    return {"name": name, "pd": link.code, "plus": signs.count(1), "minus": signs.count(-1)}


def terms_of(table: Any) -> list[tuple[int, int]]:
    """The exponents and coefficients of the Jones polynomial of a table."""
    return [(j, count) for (j, _), count in table.jones.terms.items()]


def without_table(name: str, fault: Any) -> Exception:
    """Why a link has no table, with its name."""
    if isinstance(fault, Refused):
        fault.what = f"{name}: {fault.what}"
        return fault
    return type(fault)(f"{name}: {fault}")
