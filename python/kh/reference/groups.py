"""Groups as other programs write them, and the dimensions that they have over a field.

A group is a count by orders: how many summands there are of each order, where 0 stands for the integers, or for a dimension over a field.
"""
from __future__ import annotations

import re
from collections import Counter
from collections.abc import Mapping
from typing import Any

INTEGERS = "ZMod|ZZ|Z|ℤ"
SUMMAND = re.compile(
    rf"\(?(?:(?P<count>\d+)\s*\*?\s*)?(?:{INTEGERS}|C|QQ|Q|ℚ)"
    rf"(?:\[\s*(?P<listed>\d+)\s*\]|_?\{{?(?P<below>\d+)\}}?|/\(?(?P<modulo>\d+)\s*(?:{INTEGERS})?\)?)?\)?(?:\^[({{]?(?P<power>\d+)[)}}]?)?"
)
SPACE = re.compile(r"Vector space of dimension (\d+) over (?:Rational Field|Finite Field of size \d+)")
BETWEEN = re.compile(r"\s*(?:\(\+\)|[+×⊕]|\bx\b)\s*")
# Summands in a polynomial: Z[2], ZMod[2] or Z_2, also with a power that counts them; and T^2, whose exponent is the order.
IN_POLYNOMIAL = re.compile(
    r"(?:ZMod|Z|ℤ)(?:\[\s*(?P<listed>\d+)\s*\]|_?\{?(?P<below>\d+)\}?)?(?:\^[({]?(?P<power>\d+)[)}]?)?|T\^[({]?(?P<order>\d+)[)}]?"
)


def group_of(text: str) -> Counter[int] | None:
    """The group that a text writes: a number, `Z`, `Z^2`, `Z[2]`, `Z x C2 x C4`, `(Z/2)^3` and the like; nothing where it writes none."""
    text = text.strip()
    space = SPACE.fullmatch(text)
    if text.isdecimal() or space:
        return Counter({0: int(space[1] if space else text)})
    group: Counter[int] = Counter()
    for part in BETWEEN.split(text):
        found = SUMMAND.fullmatch(part)
        if not found:
            return None
        order = found["listed"] or found["below"] or found["modulo"] or 0
        group[int(order)] += int(found["count"] or 1) * int(found["power"] or 1)
    return group


def order_and_count(found):
    """The order of a summand in a polynomial, and how many of it there are."""
    return int(found["order"] or found["listed"] or found["below"] or 0), int(found["power"] or 1)


def has_torsion(groups: Mapping[Any, Mapping[int, int]]) -> bool:
    return any(order > 1 and count for group in groups.values() for order, count in group.items())


def over(groups, field, step=-1):
    """The dimensions over a field by the universal coefficient theorem: a summand at i whose order the field's size divides counts at i,
    and at i - 1 where the groups are cohomology; of homology, whose differential goes down, it is i + 1."""
    found = Counter()
    for (j, i), group in groups.items():
        for order, count in group.items():
            if order == 0 or order % field == 0:
                found[j, i] += count
            if order and order % field == 0:
                found[j, i + step] += count
    return {degrees: count for degrees, count in found.items() if count}


def ranks(groups):
    """The ranks of the free parts."""
    return {degrees: group[0] for degrees, group in groups.items() if group[0]}
