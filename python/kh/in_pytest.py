"""What pytest shows of two tables that are not equal: the degrees at which they differ. An installed package brings it along; beside a
checkout a `conftest.py` asks for it, `pytest_plugins = ["kh.in_pytest"]`."""
from __future__ import annotations

from collections.abc import Mapping
from typing import Any

from .tables import Table

# How many degrees are shown.
MOST = 12


def pytest_assertrepr_compare(config: Any, op: str, left: object, right: object) -> list[str] | None:
    """The lines on two tables, or one and a plain mapping, in an assertion of `==`; of all else what pytest has itself."""
    if op != "==" or not isinstance(left, Mapping) or not isinstance(right, Mapping):
        return None
    known = left if isinstance(left, Table) else right
    if not isinstance(known, Table):
        return None
    try:
        return ["the tables are equal", *_lines(_like(left, known), _like(right, known))]
    except (TypeError, ValueError):
        return None


def _like(value: Mapping[Any, Any], known: Table) -> Table:
    """A plain mapping as a table like the one beside it."""
    return value if isinstance(value, Table) else Table(value, field=known.field, mark=known.mark)


def _lines(left: Table, right: Table) -> list[str]:
    """In what two tables differ, the field first."""
    lines = [] if left.field == right.field else [f"the left one is over {left.field} elements, the right one over {right.field}"]
    if (left.mark is None) != (right.mark is None):
        lines.append(f"the {'left' if right.mark is None else 'right'} one is reduced")
    found = left.differences(right)
    lines += [f"j {j} i {i}: {one} on the left, {other} on the right" for (j, i), (one, other) in [*found.items()][:MOST]]
    return lines + ([f"and {len(found) - MOST} degrees more"] if len(found) > MOST else [])
