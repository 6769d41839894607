"""The strands of a drawing as they are drawn: broken where they pass under, or joined to the circles of a state."""
from typing import NamedTuple

from .shape import along, distance, point_at, sampled, split

# How broad a strand is drawn, and how far an under strand stays away from the middle of the over strand.
BROAD, GAP = 5, 10
# How far from a crossing a smoothed strand turns, and how sharply.
SMOOTHED, SHARPNESS = 22, 0.62


class Strand(NamedTuple):
    """The curve of a strand, the number of its component, whether it ends where it begins, and the darts of its arcs."""

    curve: list
    component: int
    is_closed: bool
    darts: tuple = ()


def gap_end(plane, shape, dart):
    """Where on its arc an under strand comes out of its gap."""
    crossing, corner = dart
    over = [it for turn in (1, 3) for it in sampled(shape.arcs[crossing, (corner + turn) % 4][:7], 12)]
    curve = shape.arcs[dart]
    places = (number / 24 for number in range(1, 8 * (len(curve) - 1)))
    return next((at for at in places if min(distance(point_at(curve, at), it) for it in over) >= GAP), (len(curve) - 1) / 9)


def joined(curves):
    """Curves that follow one another as one."""
    return [*curves[0], *(point for curve in curves[1:] for point in curve[1:])]


def strands_of(plane, shape, components):
    """All strands, from gap to gap, and those that have none."""
    found = []
    for number, (walk, _) in enumerate(components):
        unders = [at for at, dart in enumerate(walk) if not plane.is_over(dart)]
        for at, end in zip(unders, unders[1:] + [len(walk) + it for it in unders[:1]]):
            darts = [walk[it % len(walk)] for it in range(at, end)]
            curve = joined([shape.arcs[dart] for dart in darts])
            curve = split(curve, gap_end(plane, shape, darts[0]))[1]
            curve = split(curve[::-1], gap_end(plane, shape, plane.partner[darts[-1]]))[1][::-1]
            found.append(Strand(curve, number, False, tuple(darts)))
        if not unders:
            found.append(Strand(joined([shape.arcs[dart] for dart in walk]), number, True, tuple(walk)))
    loops = [Strand(curve, len(components) + number, True) for number, curve in enumerate(shape.loops)]
    return found + loops


def arms_of(plane, shape):
    """The curve of each dart's arc between the places where it turns in a smoothed crossing."""
    ends = {}
    for dart, curve in shape.arcs.items():
        places = (number / 24 for number in range(1, 8 * (len(curve) - 1)))
        ends[dart] = next((at for at in places if distance(point_at(curve, at), curve[0]) >= SMOOTHED), (len(curve) - 1) / 9)
    return {dart: split(split(curve, ends[dart])[1][::-1], ends[plane.partner[dart]])[1][::-1] for dart, curve in shape.arcs.items()}


def smoothing_of(plane, state):
    """For each dart the one that a state joins it to: the 0-smoothing joins the ends of the under strand to the next corners,
    counterclockwise, and the 1-smoothing to those before."""
    joins = {}
    for crossing, (over, bit) in enumerate(zip(plane.overs, state)):
        for corner in (1 - over, 3 - over):
            one, other = (crossing, corner), (crossing, (corner + (-1 if bit else 1)) % 4)
            joins.update({one: other, other: one})
    return joins


class Circle(NamedTuple):
    """A circle of a state: the lesser darts of its arcs, none for a loop, and its curve."""

    darts: list
    curve: list


def circles_of(plane, shape, arms, state):
    """The circles of a state, by their least darts; loops come last."""
    joins, seen, found = smoothing_of(plane, state), set(), []
    for start in sorted(arms):
        darts, curves, dart = [], [], start
        while dart not in seen:
            other = plane.partner[dart]
            behind = joins[other]
            seen.update((dart, other))
            darts.append(min(dart, other))
            turn = [along(arms[it][0], shape.arcs[other][0], SHARPNESS) for it in (other, behind)]
            curves.append([*arms[dart], *turn, arms[behind][0]])
            dart = behind
        if darts:
            found.append(Circle(sorted(darts), joined(curves)))
    return found + [Circle([], curve) for curve in shape.loops]
