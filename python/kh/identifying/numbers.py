"""Numbers: the lines of `edit` that lead from a diagram to the very text of another one that is the same on the sphere.

No line of `edit` numbers arcs or crossings. What does it is a finger beside a crossing, of one of its strands over the other, and the
bigon of this crossing and the nearer of the two new ones, which is taken out: so the crossing comes last, and where its arc begins a
component, the numbers of that begin an arc earlier. Components keep their order.
"""
from __future__ import annotations

from collections.abc import Iterator, Mapping

from .diagrams import CROSSINGS, Diagram, Reached, line_of, turned

# The most lines that are tried.
LINES = 500


def matchings(one: Diagram, other: Diagram, turn: int = 0, found: Mapping[int, int] | None = None) -> Iterator[dict[int, int]]:
    """For each way in which two diagrams are the same the place of each crossing in the other one, whose slots are turned by so many; where
    they are turned by two, all components go the other way."""
    found = found or {}
    first = next((it for it in range(len(one)) if it not in found), None)
    if first is None:
        yield dict(found)
        return
    for there in set(range(len(other))).difference(found.values()) if len(one) == len(other) and one.loops == other.loops else ():
        more = _piece(one, other, turn, first, there)
        if more and not set(more.values()) & set(found.values()):
            yield from matchings(one, other, turn, {**found, **more})


def _piece(one: Diagram, other: Diagram, turn: int, here: int, there: int) -> dict[int, int] | None:
    """The places of the crossings of a piece, where this crossing is that one; nothing where it can not be."""
    found, waiting = {here: there}, [here]
    for place in waiting:
        if one.positive[place] != other.positive[found[place]]:
            return None
        for slot in range(4):
            dart, image = one.partner[4 * place + slot], other.partner[turned(4 * found[place] + slot, turn)]
            if dart >> 2 not in found:
                found[dart >> 2] = image >> 2
                waiting.append(dart >> 2)
            if turned(4 * found[dart >> 2] + (dart & 3), turn) != image:
                return None
    return found if len(set(found.values())) == len(found) else None


def numbered(reached: Reached, wanted: Diagram) -> Reached | None:
    """What is reached where lines lead to the text of a diagram that is the same on the sphere, as few as are found; nothing where other
    components stand first."""
    tries = (_numbered(reached, wanted, it) for it in matchings(reached.diagram, wanted))
    found = sorted((it for it in tries if it), key=lambda it: len(it.lines))
    return found[0] if found else None


def _numbered(reached: Reached, wanted: Diagram, matching: Mapping[int, int]) -> Reached | None:
    places = {reached.diagram.names[here]: there for here, there in matching.items()}
    current: Reached | None = reached
    while current and len(current.lines) < len(reached.lines) + LINES:
        dart = _begins_elsewhere(current.diagram, wanted, places)
        if dart is None:
            break
        current = _renewed(current, dart >> 2, dart & 3 != 2, dart & 3 == 2, places) if dart >= 0 else None
    order = [places[it] for it in current.diagram.names] if current else []
    kept = max((count for count in range(len(order) + 1) if [it for it in order if it < count] == list(range(count))), default=0)
    for there in range(kept, len(order)):
        if current:
            current = _renewed(current, [places[it] for it in current.diagram.names].index(there), False, False, places)
    return current if current and current.diagram.text == wanted.text else None


def _begins_elsewhere(diagram: Diagram, wanted: Diagram, places: Mapping[int, int]) -> int | None:
    """The dart on which the first arc of a component leaves its crossing, where that arc is not the first in the other diagram; -1 where
    the component is another one."""
    firsts = {wanted.arc(dart): min(map(wanted.arc, walk)) for walk in wanted.walks for dart in walk}
    for walk in diagram.walks:
        first = min(map(diagram.arc, walk))
        dart = diagram.ends[1][first]
        image = wanted.arc(4 * places[diagram.names[dart >> 2]] + (dart & 3))
        if firsts[image] != first:
            return -1
        if image != first:
            return dart
    return None


def _renewed(reached: Reached, place: int, over_ahead: bool, under_ahead: bool, places: dict[int, int]) -> Reached | None:
    """What is reached where the crossing at a place is made anew, ahead of it on these strands, and so comes last."""
    diagram = reached.diagram
    over = 4 * place + (1 if diagram.positive[place] == over_ahead else 3)
    under = 4 * place + (2 if under_ahead else 0)
    # (a finger at the corner between two slots, which is at the left of the first of them)
    before = {it: diagram.partner[it] if turned(other, 1) == it else it for it, other in ((over, under), (under, over))}
    if diagram.arc(over) == diagram.arc(under) or len(diagram) + 2 > CROSSINGS:
        return None
    made = reached.by(f"r2 add {diagram.side(before[over])} {diagram.side(before[under])}")
    bigons = sorted(sorted(it) for it in made.diagram.corners(2) if place + 1 in it and max(it) > len(diagram))
    if not bigons:
        return None
    found = made.by(line_of(bigons[0]))
    places[found.diagram.names[-1]] = places[diagram.names[place]]
    return found


def reversed_too(reached: Reached, start: Diagram, other: Diagram) -> Reached | None:
    """The same moves from the diagram that is the reversal of the start."""
    there, here = Reached(other), Reached(start)
    for line in reached.lines:
        matching = next(matchings(here.diagram, there.diagram, 2), None)
        if matching is None:
            return None
        there = there.by(_image(line, here.diagram, there.diagram, matching))
        here = here.by(line)
    return there if next(matchings(here.diagram, there.diagram, 2), None) is not None else None


def _image(line: str, here: Diagram, there: Diagram, matching: Mapping[int, int]) -> str:
    """The line that does to a diagram what this one does to its reversal."""
    words = line.split()
    if words[:2] != ["r2", "add"]:
        return line_of([matching[int(it) - 1] + 1 for it in words if it.isdigit()])
    sides = []
    for arc, side in ((int(words[2]), words[3]), (int(words[4]), words[5])):
        dart = here.ends[side == "left"][arc]
        sides.append(there.side(turned(4 * matching[dart >> 2] + (dart & 3), 2)))
    return f"r2 add {' '.join(sides)}"
