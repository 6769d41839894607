"""Tangles: strands in a disc of radius 1, the code of their crossings, and the curves of them, uncut or smoothed. Here y goes up.

A strand is a row of stops: an end on the rim, passes of crossings, and an end; a stop may be a place alone, for a bend. The ends are
numbered counterclockwise from the left, and the arcs between crossings go on from there. A curve is a list of points as in `shape.py`.
"""
import math
from typing import NamedTuple

# How far around a crossing a strand is cut, how far a curve keeps its direction, as a part of its length, and how near joins come.
CUT, KEPT, NEAR = 0.2, 0.42, 0.55


class Stop(NamedTuple):
    """A stop: its place, the direction in degrees, the number of the crossing that is passed, or 0, and whether the strand is over."""

    place: tuple
    way: float
    crossing: int = 0
    is_over: bool = False


class Arc(NamedTuple):
    """An arc: its number, and its stops, of which the first and the last are ends of strands or passes of crossings."""

    number: int
    stops: list


def towards(place, way, length):
    """The point at this distance in this direction."""
    return place[0] + length * math.cos(math.radians(way)), place[1] + length * math.sin(math.radians(way))


def ends_of(strands):
    """The places of the ends, counterclockwise from the left."""
    places = [strand[at].place for strand in strands for at in (0, -1)]
    return sorted(places, key=lambda it: math.atan2(-it[1], -it[0]) % (2 * math.pi))


def cut(strand):
    """The stops of each arc of a strand."""
    parts = [[strand[0]]]
    for stop in strand[1:]:
        parts[-1].append(stop)
        if stop.crossing:
            parts.append([stop])
    return parts


def arcs_of(strands):
    """The arcs: those at ends by the number of the end, then the others."""
    ends, found = ends_of(strands), []
    count = len(ends)
    for stops in (part for strand in strands for part in cut(strand)):
        outer = [ends.index(it.place) + 1 for it in (stops[0], stops[-1]) if it.place in ends]
        count += not outer
        found.append(Arc(outer[0] if outer else count, stops))
    return found


def slots_of(strands):
    """For each crossing, in their order, its four arcs with their directions there, counterclockwise from the incoming under arc."""
    there = {}
    for arc in arcs_of(strands):
        for stop, turn in ((arc.stops[-1], 180), (arc.stops[0], 0)):
            if stop.crossing:
                there.setdefault(stop.crossing, []).append(((stop.way + turn) % 360, arc.number, turn == 180 and not stop.is_over))
    slots = []
    for _, found in sorted(there.items()):
        first = next(way for way, _, enters_under in found if enters_under)
        slots.append([(way, number) for way, number, _ in sorted(found, key=lambda it: (it[0] - first) % 360)])
    return slots


def code_of(strands):
    """The arcs at the slots of each crossing."""
    return [tuple(number for _, number in slots) for slots in slots_of(strands)]


def middles(strands):
    """The place of each crossing, in their order."""
    return [place for _, place in sorted({stop.crossing: stop.place for strand in strands for stop in strand if stop.crossing}.items())]


def arc_curve(arc):
    """The curve of an arc, from where it is cut to where it is cut."""
    points = []
    for one, other in zip(arc.stops, arc.stops[1:]):
        start = towards(one.place, one.way, CUT if one.crossing else 0)
        stop = towards(other.place, other.way, -CUT if other.crossing else 0)
        keep = KEPT * math.dist(start, stop)
        points = points or [start]
        points += [towards(start, one.way, keep), towards(stop, other.way, -keep), stop]
    return points


def over_curves(strands):
    """The strands over crossings, each with its arc on the way in."""
    passes = ((arc.number, arc.stops[-1]) for arc in arcs_of(strands))
    for number, stop in ((number, stop) for number, stop in passes if stop.is_over):
        yield number, [towards(stop.place, stop.way, CUT * part) for part in (-1, -0.3, 0.3, 1)]


def joins(slots, middle, smoothing):
    """The two curves by which a smoothing joins the arcs at a crossing, each with one of its arcs."""
    for one, other in ((0, 3), (1, 2)) if smoothing else ((0, 1), (2, 3)):
        (way, number), (other_way, _) = slots[one], slots[other]
        ways = [(way, CUT), (way, CUT * (1 - NEAR)), (other_way, CUT * (1 - NEAR)), (other_way, CUT)]
        yield number, [towards(middle, way, length) for way, length in ways]


def uncut(strands):
    """All curves of the strands, with gaps where they are under, each with its arc."""
    return [*((arc.number, arc_curve(arc)) for arc in arcs_of(strands)), *over_curves(strands)]


def smoothed(strands, bits):
    """All curves of a state, each with its arc; the state has the smoothing of each crossing."""
    curves = [(arc.number, arc_curve(arc)) for arc in arcs_of(strands)]
    for slots, middle, bit in zip(slots_of(strands), middles(strands), bits):
        curves += joins(slots, middle, bit)
    return curves


def kink(is_first_over):
    """A strand from the left to the right that passes a crossing twice."""
    middle = (0, -0.22)
    strand = [
        Stop((-1, 0), -40), Stop(middle, 45, 1, is_first_over), Stop((0, 0.62), 180), Stop(middle, -45, 1, not is_first_over),
        Stop((1, 0), 40),
    ]
    return [strand]


def bigon():
    """A strand under another one, and back."""
    low, high = ([towards((0, 0), way, 1) for way in ways] for ways in ((215, 325), (145, 35)))
    left, right = (-0.58, 0), (0.58, 0)
    under = [Stop(high[0], -30), Stop(left, -50, 1), Stop(right, 50, 2), Stop(high[1], 30)]
    over = [Stop(low[0], 30), Stop(left, 50, 1, True), Stop(right, -50, 2, True), Stop(low[1], -30)]
    return [under, over]


def triangle(offset):
    """Three strands, each through opposite ends and bent to one side: the first over the others, the second over the third."""
    corner = {pair: towards((0, 0), way, 2 * offset) for pair, way in (((0, 1), 30), ((0, 2), 150), ((1, 2), 270))}
    strands = []
    for own, (way, others) in enumerate(((0, (2, 1)), (60, (2, 0)), (120, (1, 0)))):
        stops = [Stop(towards((0, 0), way + 180, 1), way)]
        for other in others if offset > 0 else others[::-1]:
            pair = tuple(sorted((own, other)))
            stops.append(Stop(corner[pair], way, {(0, 1): 1, (0, 2): 2, (1, 2): 3}[pair], own < other))
        strands.append([*stops, Stop(towards((0, 0), way, 1), way)])
    return strands
