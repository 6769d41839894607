"""Answers of other programs beside the tables of the reference, or beside ours of links of one's own."""
from __future__ import annotations

import os
from collections.abc import Callable, Iterable, Iterator, Mapping, Sequence
from typing import TYPE_CHECKING, Any, Union

from .codes import link_names
from .commands import Unreadable
from .links import Link
from .places import reference_file
from .refused import Refused
from .tables import Table

if TYPE_CHECKING:
    from .asking import Given

Answers = Union[Callable[..., Any], Mapping[str, Any]]
# A link of one's own: a link, a code, or a name with one of these.
Own = Union[Link, str, Sequence[Any]]


class Comparison:
    """What came of a comparison. `agrees` says whether all answers agree. `links` has what came of each link, by its name: "agrees", one
    way in which its table is another one, such as "mirrored" or "j shifted by 2", else "another table", "no table" where the answer can
    not be read, or "no answer"; where that is not the same over all fields, "another table over 3". `causes` has why there is no table or
    no answer, by the names of links of which that is known. `lines` are those that are printed, and that `reference/compare --all` writes.

    The tables of the reference are those that `kh` or `kh-scan` writes, which are proved; how others are told from them is not."""

    __slots__ = ("lines", "links", "causes", "agrees")

    def __init__(self, lines: Iterable[str], links: Mapping[str, str], agrees: bool, causes: Mapping[str, str] | None = None) -> None:
        self.lines, self.links, self.causes, self.agrees = tuple(lines), dict(links), dict(causes or {}), agrees

    def __bool__(self) -> bool:
        return self.agrees

    def __str__(self) -> str:
        return "\n".join(self.lines)

    def __repr__(self) -> str:
        return f"<Comparison: {self.lines[0]}>"


class _Words:
    """What the words of `reference/compare` would say."""

    def __init__(self, field: Any, reduced: bool, order: str | None, most: int) -> None:
        self.field, self.reduced, self.order, self.most = field, reduced, order, most


def compare(
    mine: Answers, reference: str | os.PathLike[str] = "reference", *, links: Own | Iterable[Own] | Mapping[str, Any] | None = None,
    field: int | str | None = None, reduced: bool = False, order: str | None = None, names: Iterable[str] | None = None, most: int = 5,
    jobs: int = 1, progress: bool = False,
) -> Comparison:
    """Compares answers with the reference: `mine(link)` over one field, 2 where none is named, `mine(link, field)` over all four, or a
    mapping of names to tables. An answer is a `Table`, a mapping of (j, i) or (i, j) to dimensions, rows, or a text in any form that
    docs/REFERENCE.md lists; `order` names the order of a pair, "ji" or "ij", where it can not be told. `None`, or a text with nothing in
    it, is no answer, and nor is an exception: its cause is told, and the others go on. The reference is "reference" (168 links), "prime"
    (the prime knots of 10 and 11 crossings), "large", or the path of such a file, or of what `kh-tabulate write --json` writes; `names` are
    those of it that are asked, some of `kh.names(reference)`: any other raises `Refused`, with those that are near it.

    `links` are links of your own in place of the reference's: links, codes, or pairs of a name and one of these. What the programs answer
    of them stands for the reference then. So many links of a kind as `most` are printed; `jobs` calls of `mine` run at once, in threads;
    with `progress` standard error says how far it is."""
    from .many import need_jobs
    from .reference.collection import Collection

    if not callable(mine) and not isinstance(mine, Mapping):
        raise TypeError(f"answers are a function from a link to its table, or a mapping of names to tables, and not {mine!r}")
    need_jobs(jobs)
    words = _Words(_field(field), reduced, order, most)
    if order not in (None, "ji", "ij"):
        raise ValueError(f"the order of pairs is \"ji\" or \"ij\", and not {order!r}")
    known = _known(reference, names) if links is None else _own(links, names, jobs, reduced)
    found = Collection(list(_answers(mine, known, words.field, jobs, progress)), known, words)
    return Comparison(found.lines(), found.links(), found.is_fine(), found.causes())


def names(reference: str | os.PathLike[str] = "reference") -> list[str]:
    """The names of the links of the reference, in its order: knots such as "8_19", links of more components such as "Hopf", "Whitehead",
    "Borromean" and "7^2_1", torus links such as "T(3,5)", and links that lie apart, such as "3_1 and two loops". `kh.compare` asks them all
    where it is given no `names`, and `kh.Link` takes each of them. "prime" and "large" are other references, as in `kh.compare`."""
    from .reference.stored import diagrams

    try:
        return list(diagrams(_path(reference)))
    except Unreadable as fault:
        raise Refused(str(fault)) from None


def _field(field: Any) -> Any:
    """Over what answers are: the size of a field, 0 for the rational numbers, Z, or nothing where it is not named."""
    from .reference.table_forms import field_of

    if field is not None and (isinstance(field, float) or field_of(field) is None):
        raise ValueError(f"the field has 2, 3, 5 or 7 elements, or is 0 for the rational numbers or \"Z\", and not {field!r}")
    return None if field is None else field_of(field)


def _path(reference: Any) -> str:
    """The path of the file that is "reference", "prime" or "large", or that is named by its path."""
    from .reference.stored import FILES

    if not isinstance(reference, (str, os.PathLike)):
        raise TypeError(f"a reference is a text or a path, and not {reference!r}: names= takes names of it, and links= links of your own")
    path = reference_file(FILES[reference]) if isinstance(reference, str) and reference in FILES else os.fspath(reference)
    if not os.path.exists(path):
        raise Refused(f"there is no reference {path}: \"reference\", \"prime\" and \"large\" are such, and the path of a file", str(path))
    return path


def _known(reference: Any, asked: Any) -> Any:
    """The reference of this name or path; the links of these names alone, where some are asked."""
    from .reference.stored import Reference

    try:
        known = Reference(_path(reference))
    except Unreadable as fault:
        raise Refused(str(fault)) from None
    if asked is not None:
        known.lines = {name: known.lines[name] for name in _names_of([asked] if isinstance(asked, str) else asked, known.lines)}
    return known


def _names_of(asked: Iterable[str], known: Iterable[str]) -> Iterator[str]:
    """These names, all of which the reference has to have."""
    every = [*known]
    for name in asked:
        if name not in every:
            meant = link_names.question(link_names.near(str(name), every))
            raise Refused(" ".join(filter(None, (f"the reference has no {name};", meant, "kh.names lists all that it has"))), str(name))
        yield name


def _own(links: Any, asked: Any, jobs: int, reduced: bool) -> Any:
    """Our tables of these links."""
    from .reference.own import OwnLinks

    if asked is not None:
        raise ValueError("names are those of the reference, and links are your own: give one of them")
    if isinstance(links, Mapping):
        links = links.items()
    elif isinstance(links, (str, Link)):
        links = [links]
    found: dict[str, Link] = {}
    for number, it in enumerate(links, 1):
        name, link = _named(it, number)
        if name in found:
            name = f"{name} ({number})"
        found[name] = Link._of_code(link.code, name, link.said, link._history)
    return OwnLinks(found, jobs, reduced)


def _named(it: Any, number: int) -> tuple[str, Link]:
    """A link of one's own with its name; with its number, where it has none."""
    name = ""
    if isinstance(it, (tuple, list)) and len(it) == 2 and isinstance(it[0], str):
        name, it = it
    link = it if isinstance(it, Link) else Link(it)
    return name or link.name or f"link {number}", link


def _answers(mine: Any, known: Any, field: Any, jobs: int, progress: bool) -> Iterator[Any]:
    """The answers, as those of a file are read."""
    from .asking import Given, Wanted, answers

    if callable(mine):
        came: Iterable[Given] = answers(mine, [Wanted(*it) for it in _wanted(mine, known, field)], jobs, progress)
    else:
        came = (Given(Wanted(name, known, field), value) for name, value in mine.items())
    for it in came:
        yield _answer(it)


def _answer(given: Given) -> Any:
    """What a function gave, as the answer of a file is read."""
    from .reference.collection import Answer
    from .reference.table_forms import Empty

    name, size = given.wanted.name, given.wanted.field
    nothing: Any = None
    where = name if size is None else f"{name} over {size}"
    try:
        reading = nothing if given.value is None else _reading(given.value, size)
        return Answer(where, name, reading, given.cause, size, given.value is None)
    except Unreadable as fault:
        return Answer(where, name, nothing, str(fault), size, isinstance(fault, Empty))


def _wanted(mine: Any, known: Any, field: Any) -> Iterator[tuple[str, Link, Any]]:
    """The name of each link, the link, and the field where it is named."""
    from .asking import takes_two

    for name, lines in known.lines.items():
        link = known.links[name] if hasattr(known, "links") else Link._of_code(next(iter(lines.values()))["pd"], name)
        for size in lines if field is None and takes_two(mine) else (field,):
            yield name, link, size


def _reading(value: Any, field: Any) -> Any:
    """What is read of an answer."""
    from .reference.table_forms import Reading, read, read_value
    from .reference.groups import group_of

    if isinstance(value, Table):
        cells = {(j, i): group_of(str(dimension)) for (j, i), dimension in value.items()}
        return Reading(cells, True, value.field, value.mark is not None)
    if isinstance(value, Mapping):
        value = {key: it if isinstance(it, Mapping) else str(it) for key, it in value.items() if it != 0}
    reading = read(value) if isinstance(value, str) else read_value(value)
    return reading._replace(field=field) if field is not None and reading.field is None else reading
