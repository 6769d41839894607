"""Tables of Khovanov homology over a field, as values."""
from __future__ import annotations

import operator
import re
from collections import Counter
from collections.abc import Iterator, Mapping
from typing import TYPE_CHECKING, Any, NamedTuple, cast

from .commands import Unreadable
from .laurent import Polynomial, jones_line, jones_of

if TYPE_CHECKING:
    import pandas

FIELDS = (2, 3, 5, 7)
# The lines of a table, and what may stand before them: the answers to the lines of a schedule, the version of the table.
FIELD, MARK = re.compile(r"field (2|3|5|7)"), re.compile(r"mark (\d+)")
ROW = re.compile(r"^j (-?\d+) i (-?\d+) dim ([1-9]\d*)$", re.M)
_BEFORE = re.compile(r"\d+ (looked|zero|committed|stale|idle|forgot|noblock)\b.*|verified|table 2")
# A table as an answer of `kh-scan` has it: its field, its rows, its Jones line.
ANSWER = re.compile(r"table 2\nfield ([2357])\n((?:j -?\d+ i -?\d+ dim \d+\n)*)jones ([^\n]*)\n")
# What the degrees of a reduced table lack of the Jones polynomial.
_UNKNOT = Polynomial({-1: 1, 1: 1})


class Degrees(NamedTuple):
    """A pair of degrees: the quantum degree j, which comes first in all of this package, then the homological degree i."""

    j: int
    i: int


def need_field(field: Any) -> int:
    """The size of a field of 2, 3, 5 or 7 elements; anything else is refused."""
    try:
        size = operator.index(field)
    except TypeError:
        size = 0
    if size not in FIELDS:
        raise ValueError(f"the field has 2, 3, 5 or 7 elements, and not {field!r}")
    return size


def _whole(value: Any, what: str) -> int:
    """A number that is whole, whatever its type."""
    if isinstance(value, (str, bytes)) or not hasattr(value, "__int__") or int(value) != value:
        raise ValueError(f"{what} is a whole number, and not {value!r}")
    return int(value)


class Table(Mapping[Degrees, int]):
    """A table of homology over a field: a mapping of degrees (j, i) to dimensions, immutable. `table[13, 4]` is the dimension at j = 13 and
    i = 4, and 0 where the table has none; what it is iterated over, and counts, are the degrees with a dimension above 0, ascending.

    Of a table that `Link.table` or `Link.reduced` gives, field, dimensions and Jones polynomial are proved to be the definition's. One that
    is made otherwise, `Table({(1, 0): 1, (-1, 0): 1}, field=3)` or `Table.read(..)`, is what it was made of. `mirror`, `shift` and products
    are computed in Python, which is not proved; that the tables of a mirror image and of a disjoint union are these is (docs/THEOREM.md)."""

    __slots__ = ("_field", "_mark", "_dimensions", "_text")
    _dimensions: dict[Degrees, int] | None

    def __init__(self, dimensions: Mapping[tuple[int, int], int], *, field: int, mark: int | None = None) -> None:
        if not isinstance(dimensions, Mapping):
            raise TypeError(f"a table is made of a mapping of degrees (j, i) to dimensions, and not of {dimensions!r}")
        found = {_degrees(key): _whole(dimension, "a dimension") for key, dimension in dimensions.items()}
        if any(dimension < 0 for dimension in found.values()):
            raise ValueError("a dimension is 0 or more")
        self._field, self._mark, self._text = need_field(field), None if mark is None else _whole(mark, "a mark"), ""
        self._dimensions = {degrees: found[degrees] for degrees in sorted(found) if found[degrees]}

    @classmethod
    def _of(cls, dimensions: Mapping[tuple[int, int], int], field: int, mark: int | None = None) -> Table:
        """The table of whole numbers over a field of this size, which is 0 of the rational numbers."""
        table = cls.__new__(cls)
        table._field, table._mark, table._text = field, mark, ""
        table._dimensions = {Degrees(*degrees): dimensions[degrees] for degrees in sorted(dimensions) if dimensions[degrees]}
        return table

    @classmethod
    def _of_answer(cls, text: str, field: int) -> Table:
        """The table that `kh` or `kh-scan` has written, which is read once it is looked into."""
        table = cls.__new__(cls)
        marked = MARK.match(text)
        table._field, table._mark, table._text, table._dimensions = field, int(marked[1]) if marked else None, text, None
        return table

    @classmethod
    def read(cls, text: str, *, field: int | None = None, order: str | None = None) -> Table:
        """The table of a text: as `kh` writes it, as rows, as a polynomial in q and t, as a dictionary by pairs (docs/REFERENCE.md). The
        field is the one that the text names, else this one, else 2. `order` is that of pairs, "ji" or "ij", where it can not be told."""
        from .reference import groups, stored, table_forms as forms
        from .refused import Refused

        if order not in (None, "ji", "ij"):
            raise ValueError(f"the order of pairs is \"ji\" or \"ij\", and not {order!r}")
        try:
            reading = forms.read(text)
            is_first = order == "ji" if order and reading.is_j_first is None else forms.j_is_first(reading)
            if is_first is None:
                raise Unreadable("the numbers of its pairs may be j, i or i, j: order=\"ji\" or order=\"ij\" says it")
            size = reading.field if reading.field in FIELDS else need_field(2 if field is None else field)
            found = forms.groups_of(reading, is_first)
            if groups.has_torsion(found) or reading.field not in (None, *FIELDS):
                return cls({(j, i): count for (_, j, i), count in stored.given_tables(found, forms.INTEGRAL, (size,)).items()}, field=size)
        except Unreadable as fault:
            raise Refused(str(fault), text) from None
        mark = reading.mark if reading.mark is not None else 0 if reading.is_reduced else None
        return cls({degrees: sum(group.values()) for degrees, group in found.items()}, field=size, mark=mark)

    @classmethod
    def all_of(cls, text: str) -> list[Table]:
        """All tables that stand in a text as `kh` writes them, in their order. Where one has another Jones line than its dimensions imply,
        or a line is none of a table, the text is refused."""
        found: list[Table] = []
        mark, is_open = None, False
        for number, line in enumerate(text.splitlines(), 1):
            row, field, marked = ROW.fullmatch(line), FIELD.fullmatch(line), MARK.fullmatch(line)
            jones = jones_of(line) if is_open and line.startswith("jones") else None
            if marked:
                mark = int(marked[1])
            elif field:
                found.append(cls({}, field=int(field[1]), mark=mark))
                mark, is_open = None, True
            elif row and is_open:
                found[-1]._known[Degrees(int(row[1]), int(row[2]))] = int(row[3])
            elif jones is not None:
                if jones != found[-1].jones:
                    raise Unreadable(f"the table over {found[-1].field} elements does not fit its Jones line")
                is_open = False
            elif not _BEFORE.fullmatch(line):
                raise Unreadable(f"line {number} is no line of a table: {line[:80]}")
        if not found:
            raise Unreadable("there is no table; `kh homology` and `kh reduced` write one")
        return [it.shift() for it in found]

    @property
    def field(self) -> int:
        """The number of elements of the field."""
        return self._field

    @property
    def mark(self) -> int | None:
        """Of a reduced table the arc or loop at which it is reduced, else nothing."""
        return self._mark

    @property
    def dimensions(self) -> dict[Degrees, int]:
        """The dimensions above 0 by degrees (j, i), as a new dictionary."""
        return dict(self._known)

    @property
    def _known(self) -> dict[Degrees, int]:
        if self._dimensions is None:
            self._dimensions = {Degrees(int(j), int(i)): int(dimension) for j, i, dimension in ROW.findall(self._text)}
        return self._dimensions

    def __getitem__(self, degrees: tuple[int, int]) -> int:
        try:
            return self._known[cast(Degrees, degrees)]
        except (KeyError, TypeError):
            # (what is asked is looked at where the table has nothing there)
            return self._known.get(_degrees(degrees), 0)

    def at(self, *, j: int, i: int) -> int:
        """The dimension at these degrees, which are named."""
        return self[j, i]

    def __contains__(self, degrees: object) -> bool:
        return degrees in self._known

    def __iter__(self) -> Iterator[Degrees]:
        return iter(self._known)

    def __len__(self) -> int:
        return len(self._known)

    def __eq__(self, other: object) -> bool:
        """Whether field and dimensions are the same, and both are reduced or none is; of a plain mapping by (j, i) the dimensions."""
        if isinstance(other, Table):
            same = self._field == other._field and (self._mark is None) == (other._mark is None)
            return same and self._known == other._known
        if isinstance(other, Mapping):
            return self._known == {key: dimension for key, dimension in other.items() if dimension}
        return NotImplemented

    def __hash__(self) -> int:
        return hash((self._field, self._mark is None, tuple(self._known.items())))

    def differences(self, other: Mapping[Any, int]) -> dict[Degrees, tuple[int, int]]:
        """The degrees at which the dimensions are other ones, ascending, with that of this table and that of the other."""
        theirs = other if isinstance(other, Table) else Table(other, field=self._field)
        return {at: (self[at], theirs[at]) for at in sorted({*self, *theirs}) if self[at] != theirs[at]}

    @property
    def total(self) -> int:
        """The sum of all dimensions."""
        return sum(self._known.values())

    @property
    def euler(self) -> Polynomial:
        """The Euler characteristic: the sum of (-1)^i dim q^j. That it is the Jones polynomial is proved of `Link.table`."""
        sums: Counter[int] = Counter()
        for (j, i), dimension in self._known.items():
            sums[j] += -dimension if i % 2 else dimension
        return Polynomial(sums)

    @property
    def jones(self) -> Polynomial:
        """The unnormalised Jones polynomial, q + q^-1 for the unknot: the Euler characteristic, times q + q^-1 of a reduced table."""
        return self.euler if self._mark is None else self.euler * _UNKNOT

    def poincare(self) -> Polynomial:
        """The Poincaré polynomial: the sum of dim q^j t^i."""
        return Polynomial({(j, i): dimension for (j, i), dimension in self._known.items()})

    def mirror(self) -> Table:
        """The table with both degrees negated, which is that of the mirror image."""
        return Table({(-j, -i): dimension for (j, i), dimension in self._known.items()}, field=self._field, mark=self._mark)

    def shift(self, *, j: int = 0, i: int = 0) -> Table:
        """The table with all degrees raised by so much."""
        moved = {(at_j + j, at_i + i): dimension for (at_j, at_i), dimension in self._known.items()}
        return Table(moved, field=self._field, mark=self._mark)

    def __mul__(self, other: Table) -> Table:
        """The products of dimensions, summed by sums of degrees, as the table of a disjoint union has them."""
        if not isinstance(other, Table):
            return NotImplemented
        if self._field != other._field:
            raise ValueError(f"one table is over {self._field} elements and the other over {other._field}")
        if None not in (self._mark, other._mark):
            raise ValueError("both tables are reduced, so the product is no table of the union")
        mark = self._mark if other._mark is None else other._mark
        return Table((self.poincare() * other.poincare()).terms, field=self._field, mark=mark)

    @property
    def rows(self) -> list[tuple[int, int, int]]:
        """The rows j, i, dimension, ascending."""
        return [(j, i, dimension) for (j, i), dimension in self._known.items()]

    @property
    def text(self) -> str:
        """The text as `kh homology` or `kh reduced` writes it."""
        head = ["table 2", f"field {self._field}"] if self._mark is None else [f"mark {self._mark}", "table 2", f"field {self._field}"]
        rows = (f"j {j} i {i} dim {dimension}" for j, i, dimension in self.rows)
        return self._text or "\n".join([*head, *rows, jones_line(self.jones), ""])

    def to_frame(self) -> pandas.DataFrame:
        """A data frame of pandas with the columns field, j, i and dim."""
        import pandas

        columns = ["field", "j", "i", "dim"]
        return pandas.DataFrame([(self._field, *row) for row in self.rows], columns=columns).astype(int)

    def __str__(self) -> str:
        from .show import grids

        return str(grids.text_of([self], 100)).rstrip("\n")

    def __repr__(self) -> str:
        mark = "" if self._mark is None else f", mark={self._mark}"
        return f"Table({ {tuple(degrees): dimension for degrees, dimension in self._known.items()} }, field={self._field}{mark})"

    def _repr_html_(self) -> str:
        from .show import grids

        return str(grids.html_of(self, [self]))

    def _repr_latex_(self) -> str:
        from .show import grids

        rows, columns = grids.ranges([self])
        head = " & ".join(["j \\backslash i", *map(str, columns)])
        lines = [" & ".join([str(j), *(str(self[j, i] or "") for i in columns)]) for j in rows]
        body = " \\\\\n".join([f"{head} \\\\ \\hline\n{lines[0] if lines else ''}", *lines[1:]])
        return f"$\\begin{{array}}{{r|{'r' * len(columns)}}}\n{body}\n\\end{{array}}$"


def _degrees(key: Any) -> Degrees:
    """A pair of degrees; what is none is refused."""
    if not isinstance(key, (tuple, list)) or len(key) != 2:
        raise TypeError(f"degrees are a pair (j, i), the quantum degree first, and not {key!r}")
    return Degrees(_whole(key[0], "the degree j"), _whole(key[1], "the degree i"))


def short_rows(rows: str) -> str:
    """The rows of a table, as `kh-tabulate` keeps them: `j i dimension; ..`."""
    return rows.replace("j ", "").replace(" i ", " ").replace(" dim ", " ").rstrip("\n").replace("\n", "; ")


def of_short_rows(text: str) -> dict[tuple[int, int], int]:
    """The dimensions by degrees (j, i) of rows as `kh-tabulate` keeps them."""
    rows = [tuple(map(int, row.split())) for row in text.split(";")] if text else []
    return {(j, i): dimension for j, i, dimension in rows}
