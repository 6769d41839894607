"""What can be said of a table without another one: whether it can be the table of a link of one component or more."""
from typing import Any

from ..laurent import Polynomial, divided, jones_line, jones_of
from ..tables import Table
from .table_forms import INTEGRAL, RATIONAL
from .groups import over, ranks

MARK = 1


def plain_table(table: Any) -> Table:
    """The dimensions of a table, over two elements where it is one over the integers, as a table with a field and a mark."""
    found = ranks(table.groups) if table.field == RATIONAL else over(table.groups, 2 if table.field == INTEGRAL else table.field)
    field = 2 if table.field == INTEGRAL else table.field
    return Table._of(found, field, MARK if table.is_reduced else None)


def terms_of(table):
    """The Jones line that a table implies."""
    return jones_line(plain_table(table).jones)


def at_one(polynomial):
    """The value at q = 1."""
    return sum(polynomial.terms.values())


def doubts(table, jones):
    """Why a table is none of a link of one component or more, where its text may have a Jones line."""
    plain = plain_table(table)
    implied, degrees = plain.jones, {j + table.is_reduced for j, _ in plain}
    if jones is not None and jones_of(jones) != implied:
        yield "its Jones line is another than its Euler characteristic"
    if divided(implied) is None:
        yield "its Euler characteristic is not divisible by q + q^-1, as that of a link is"
    if len({j % 2 for j in degrees}) > 1:
        yield "some j are even and some are odd; of a link all are even or odd as the number of its components is"
    elif at_one(implied) not in [2**count for count in range(1, 60) if all((j - count) % 2 == 0 for j in degrees)]:
        yield counted(plain)
    for i in sorted({i for _, i in plain}) if plain.field == 2 and not table.is_reduced else ():
        column = divided(Polynomial({j: dimension for (j, at), dimension in plain.items() if at == i}))
        if column is None or min(column.terms.values(), default=0) < 0:
            yield f"i {i} does not split into pairs j and j + 2, as each i over two elements does"


def counted(plain):
    """What is said of a table whose polynomial has another sum than that of a link of such degrees."""
    if plain.mark is None:
        return f"its Euler characteristic at q = 1 is {at_one(plain.jones)}; of c components it is 2^c, with c even or odd as j is"
    whole = at_one(plain.euler)
    return f"its Euler characteristic at q = 1 is {whole}; of c components a reduced one is 2^(c - 1), with c even or odd as j + 1 is"
