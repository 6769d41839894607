"""Many links: lists of codes that are read, and their tables, worked out side by side."""
from __future__ import annotations

import itertools
import os
import warnings
from collections.abc import Iterable, Iterator
from typing import TYPE_CHECKING, Any, NamedTuple, Union

from . import programs
from .codes import turning
from .links import Link, refused_by
from .refused import Refused, need_answer
from .tables import FIELDS, Table, of_short_rows

if TYPE_CHECKING:
    import pandas

Fields = Union[str, int, Iterable[int]]
# How many links are taken at once.
PART = 500


class Result(NamedTuple):
    """What came of a link over a field: its table, or why there is none."""

    link: Link
    field: int
    table: Table | None
    fault: Exception | None


def read(path: str | os.PathLike[str], *, clockwise: bool = False, skip_wrong: bool = False) -> list[Link]:
    """The links of a file, each with its name: a list as `kh-tabulate` reads it (a name, a tab and a code in a line), a table with a heading
    as KnotInfo's, or codes in any form, one or more lines each. A wrong code raises `Refused`, with the line; with `skip_wrong` it is left
    out, with a warning."""
    with open(path, encoding="utf-8-sig") as file:
        text = file.read()
    found = []
    for it in turning.all_of(text, clockwise):
        if not it.fault and not turning.is_in_no_plane(it.said):
            found.append(Link._of_code(it.code, it.name, it.said))
            continue
        line, fault = it.line, Refused(it.said[-1].partition(", so")[0], it.statement.text) if not it.fault else None
        if it.fault:
            line, fault = it.statement.place(it.fault.place)[0], refused_by(it.statement, it.fault)
        assert fault
        fault.what = f"{os.fspath(path)}:{line}: {it.name}: {fault.what}"
        if not skip_wrong:
            raise fault
        warnings.warn(f"left out: {fault}", stacklevel=2)
    return found


def fields_of(fields: Fields) -> tuple[int, ...]:
    """The fields that are named: "all", one, or some."""
    if isinstance(fields, str):
        chosen: tuple[int, ...] = FIELDS if fields == "all" else tuple(int(it) for it in fields.split(",") if it.isdecimal())
    else:
        chosen = (fields,) if isinstance(fields, int) else tuple(dict.fromkeys(fields))
    if not chosen or not set(chosen) <= set(FIELDS):
        raise ValueError(f"fields have 2, 3, 5 or 7 elements, or are \"all\", and not {fields!r}")
    return chosen


def need_jobs(jobs: object) -> None:
    """Refuses what is no number of things to be done at once."""
    if not isinstance(jobs, int) or jobs < 1:
        raise ValueError(f"jobs is a number from 1, and not {jobs!r}")


def results(links: Iterable[Link], fields: Fields = "all", jobs: int | None = None) -> Iterator[Result]:
    """What comes of each link over each field, as it comes, so in any order; with so many processes, or as many as there are processors.
    Tables are those of `Link.table`."""
    from .tabulate.tasks import Lost, Task
    from .tabulate.streams import Scans, in_runs

    if jobs is not None:
        need_jobs(jobs)
    chosen, left = fields_of(fields), iter(links)
    # (a process is over fixed fields, so links are given over one field and then over the next, some hundreds at a time)
    parts = iter(lambda: [Task(link, link.code, chosen) for link in itertools.islice(left, PART)], [])
    scans: Any = Scans(programs.program(programs.SCAN), jobs or os.cpu_count() or 1, None)
    for it in scans.answers(run for part in parts for run in in_runs(part)):
        if isinstance(it, Lost):
            link: Any = it.key
            yield Result(link, it.field, None, MemoryError(it.how) if it.kind == "out of memory" else programs.Missing(it.how))
        elif it is not None:
            yield _result(it)


def _result(it: Any) -> Result:
    if it.status == programs.ANSWERED:
        return Result(it.key, it.field, Table._of(of_short_rows(it.table_rows), it.field), None)
    try:
        need_answer(programs.Answer(it.status, it.refusal), "homology", it.key.code)
    except Refused as fault:
        return Result(it.key, it.field, None, fault)
    raise AssertionError(it)


def frame(links: Iterable[Link], fields: Fields = "all", jobs: int | None = None) -> pandas.DataFrame:
    """A data frame of pandas with a row for each dimension above 0: link (its place among the links, from 0), name, field, j, i and dim, in
    the order of the links. Tables are those of `Link.table`. A link without a table has no row; it is warned of, and stands in
    `frame.attrs["without"]` with its field and why."""
    import pandas

    every = list(links)
    places: dict[int, list[int]] = {}
    for place, link in enumerate(every):
        places.setdefault(id(link), []).append(place)
    once = [every[them[0]] for them in places.values()]
    rows: list[tuple[int, str, int, int, int, int]] = []
    without: list[tuple[int, str, int, str]] = []
    for it in results(once, fields, jobs):
        for place in places[id(it.link)]:
            if it.table is None:
                without.append((place, it.link.name, it.field, str(it.fault)))
            else:
                rows += [(place, it.link.name, it.field, *row) for row in it.table.rows]
    found = pandas.DataFrame(sorted(rows), columns=["link", "name", "field", "j", "i", "dim"])
    found.attrs["without"] = sorted(without)
    if without:
        count = "1 table is" if len(without) == 1 else f"{len(without)} tables are"
        warnings.warn(f"{count} missing, and attrs[\"without\"] says why", stacklevel=2)
    return found
