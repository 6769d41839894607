"""What tables over several fields tell of torsion over the integers."""
from __future__ import annotations

from collections.abc import Mapping

from .tables import Degrees, Table


class Torsion:
    """What the tables of a link over fields tell of the torsion of its homology over the integers; computed in Python, and not proved.

    A summand of order a power of p of the integral (co)homology at j, i adds one to the dimension over p elements at j, i and one at
    j, i - 1 (universal coefficients), and nothing over the others. So the tables know, at all degrees, how many such summands there are
    for each p *more than* for the prime whose table is the least, `least`. That these are all of them, that the least table is the rational
    one, is known where `undecided` has nothing of that row j: such torsion would show as two dimensions side by side in the least table.
    Fields tell neither the orders (2 from 4) nor torsion of other primes."""

    __slots__ = ("_counts", "_least", "_undecided")

    def __init__(self, counts: Mapping[int, Mapping[Degrees, int]], least: Table, undecided: frozenset[Degrees]) -> None:
        self._counts = {p: dict(found) for p, found in counts.items() if found}
        self._least, self._undecided = least, undecided

    @classmethod
    def of(cls, tables: Mapping[int, Table]) -> Torsion:
        """The same of these tables of one link, by their fields."""
        least = min(tables.values(), key=lambda it: (it.total, -it.field))
        counts = {p: _summands(table, least) for p, table in tables.items()}
        neighbours = (Degrees(j, i) for j, i in least if least[j, i - 1] or least[j, i + 1])
        return cls(counts, least, frozenset(neighbours))

    def __getitem__(self, prime: int) -> dict[Degrees, int]:
        """How many summands of order a power of this prime there are at each (j, i), more than of the prime of the least table."""
        return dict(self._counts.get(prime, {}))

    @property
    def primes(self) -> tuple[int, ...]:
        """The primes that show torsion, of those asked."""
        return tuple(self._counts)

    @property
    def least(self) -> Table:
        """The table with the fewest dimensions, which is the rational one where nothing is undecided."""
        return self._least

    @property
    def undecided(self) -> frozenset[Degrees]:
        """The degrees at which torsion of all primes asked, in one place, would look the same as what is there."""
        return self._undecided

    def __bool__(self) -> bool:
        return bool(self._counts)

    def __eq__(self, other: object) -> bool:
        return isinstance(other, Torsion) and (self._counts, self._least) == (other._counts, other._least)

    def __hash__(self) -> int:
        return hash((frozenset((p, frozenset(found.items())) for p, found in self._counts.items()), self._least))

    def __str__(self) -> str:
        lines = []
        for p, found in self._counts.items():
            lines += [f"{count} of order a power of {p} at j {j} i {i}" for (j, i), count in found.items()]
        if self._undecided:
            where = ", ".join(f"j {j} i {i}" for j, i in sorted(self._undecided))
            lines.append(f"undecided, where torsion of all primes in one place would look the same: {where}")
        return "\n".join(lines or ["none shows"])

    def __repr__(self) -> str:
        shown = {p: {tuple(degrees): count for degrees, count in found.items()} for p, found in self._counts.items()}
        return f"<Torsion {shown}, undecided {sorted((j, i) for j, i in self._undecided)}>"


def _summands(table: Table, least: Table) -> dict[Degrees, int]:
    """How many summands there are at each degree more than those of the least table: what it has more at i is t(i) + t(i + 1)."""
    found: dict[Degrees, int] = {}
    for j in sorted({j for j, _ in table} | {j for j, _ in least}):
        columns = [i for at, i in (*table, *least) if at == j]
        above = 0
        for i in range(max(columns), min(columns) - 1, -1):
            above = table[j, i] - least[j, i] - above
            if above:
                found[Degrees(j, i)] = above
        if above:
            raise ValueError(f"the tables over {table.field} and {least.field} elements are not those of one link: row j {j}")
    return dict(sorted(found.items()))
