"""The numbers of a planar diagram in its drawing: which crossing is which, the arc at each corner, and the directions.

`kh convert` and `kh draw` wrote the two of one diagram.
"""
import re
from typing import NamedTuple

from ..commands import Unreadable, given
from .planar import walk_from

ITEM = re.compile(r"X\[(\d+), ?(\d+), ?(\d+), ?(\d+)\]")
OTHER = "the drawing is not one of this planar diagram"


def read_code(path):
    """The arcs at the crossings of a file that `kh convert` wrote."""
    return crossings_of(given([path]), path)


def crossings_of(text: str, path: str) -> list[tuple[int, ...]]:
    """The arcs at the crossings of a text that `kh convert` wrote; it is named so where it has another form."""
    crossings = [tuple(map(int, it)) for it in ITEM.findall(text)]
    if not text.startswith("PD[") or sorted(arc for it in crossings for arc in it) != sorted([*range(1, 2 * len(crossings) + 1)] * 2):
        raise Unreadable(f"{path} has no planar diagram as `kh convert` writes it")
    return crossings


def drawn_crossings(slices, crossings):
    """For each crossing of a drawing, in its order, its number and its slot at the upper left: that of the arc that leads there, and of
    the first crossing that is not drawn where no arc leads."""
    darts = [(number, slot) for number in range(len(crossings)) for slot in range(4)]
    partner = {(a, p): (b, q) for a, p in darts for b, q in darts if (a, p) != (b, q) and crossings[a][p] == crossings[b][q]}
    row, found = [], []
    for word, position in slices:
        at = position - 1
        if word == "open":
            row[at:at] = [None, None]
        elif word == "close":
            del row[at : at + 2]
        else:
            first = next((it for it in range(len(crossings)) if it not in {number for number, _ in found}), None)
            number, slot = partner[row[at]] if row[at] else (first, 0)
            if number is None or (slot % 2 == 0) != (word == "right"):
                raise Unreadable(OTHER)
            found.append((number, slot))
            if not row[at]:
                row[at - 1] = number, slot
            row[at : at + 3] = [(number, (slot + turn) % 4) for turn in (1, 2, 3)]
    if len(found) != len(crossings):
        raise Unreadable(OTHER)
    return found


class Numbers(NamedTuple):
    """The number of each crossing, from 0, in the order of the drawing; the arc at each dart; the darts by which under passes leave."""

    crossings: list
    arcs: dict
    leaving: list


def numbers_of(plane, slices, crossings):
    """The numbers of a planar diagram in a drawing of it."""
    found = drawn_crossings(slices, crossings)
    arcs = {(at, corner): crossings[number][(slot + corner) % 4] for at, (number, slot) in enumerate(found) for corner in range(4)}
    if any(arcs[dart] != arcs[other] for dart, other in plane.partner.items()):
        raise Unreadable(OTHER)
    return Numbers([number for number, _ in found], arcs, [(at, (2 - slot) % 4) for at, (_, slot) in enumerate(found)])


def leaving_darts(plane, numbers):
    """For each component a dart by which it leaves a crossing. Where it is over everywhere its arcs ascend; where these are two, it goes
    from the lesser to the greater at the crossing that is listed first."""
    darts = list(numbers.leaving)
    seen = {arc for dart in darts for arc in map(numbers.arcs.get, walk_from(plane, dart))}
    for dart in sorted(plane.partner, key=lambda dart: numbers.crossings[dart[0]]):
        if numbers.arcs[dart] not in seen:
            arcs = [numbers.arcs[it] for it in walk_from(plane, dart)]
            behind = dict(zip(arcs, arcs[1:] + arcs[:1]))
            if behind[min(arcs)] == min(arcs) + 1 and (len(arcs) > 2 or arcs[0] == max(arcs)):
                darts.append(dart)
                seen.update(arcs)
    return darts


def in_order(components, numbers):
    """The components by their least arcs, each from the crossing at the end of that."""
    found = []
    for component in components:
        arcs = [numbers.arcs[dart] for dart in component.walk]
        first = (arcs.index(min(arcs)) + 1) % len(arcs)
        found.append((min(arcs), component._replace(walk=component.walk[first:] + component.walk[:first])))
    return [component for _, component in sorted(found, key=lambda it: it[0])]
