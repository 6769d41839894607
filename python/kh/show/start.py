"""The layout of a diagram behind a move: all that the move does not touch stays at its place, and the rest starts from the old strands.

Places here are those of `shape.py`, in its lengths before they are scaled; the darts are those of a plane diagram.
"""
import functools
import itertools
import math
from typing import NamedTuple

from .descent import descended
from .elastic import Threads
from .mesh import piece_of
from .planar import faces_of, pieces_of
from .shape import NEAREST, Like, Shape, along, bounds, clearance, curves_of, distance, sampled

# How stiff the threads are in turn, how many steps there are, and how many places are tried for them; and how short a step may be.
STAGES, NEAREST_STEP = ((0.1, 40, 200), (8.0, 100, 300)), 1e-3
# How far from the middle of a side strands come to it where a triangle is slid, as a part of the side; the radius of a kink.
BESIDE, KINK = (0.3, 0.6), (0.6, 0.4, 0.25)
# The least clearance of strands, as a part of the one that they should have.
LEAST = 0.45


class Old(NamedTuple):
    """The picture before a move: the curve of each dart's arc, and what comes from where (`passage.py`, with plane darts)."""

    arcs: dict
    passage: object


def chain(curve):
    """The points that a curve goes through."""
    return curve[::3]


def line_of(old, came):
    """The points along the old strands that an arc comes from."""
    points = [point for at, dart in enumerate(came.darts) for point in sampled(old.arcs[dart], 6)[1 if at else 0 :]]
    return points if (came.start, came.end) == (0.0, 1.0) else part_of(points, came.start, came.end)


def lengths(points):
    """How far each point is from the first one, along the line."""
    found = [0.0]
    for one, other in zip(points, points[1:]):
        found.append(found[-1] + distance(one, other))
    return found


def spaced(points, count):
    """So many points on a line at even distances, with both ends."""
    far, found, at = lengths(points), [], 0
    for number in range(count):
        wanted = far[-1] * number / (count - 1)
        while at < len(points) - 2 and far[at + 1] < wanted:
            at += 1
        step = far[at + 1] - far[at]
        found.append(along(points[at], points[at + 1], min(1.0, (wanted - far[at]) / step if step else 0.0)))
    return found


def part_of(points, start, end):
    """The part of a line between two parts of its length."""
    every = spaced(points, 201)
    return every[round(200 * start) : round(200 * end) + 1]


def swapped(old, partner, dart):
    """The points of the other side of a bigon that is dropped, along this side."""
    one, other = dart, partner[dart]
    for turn in (1, 3):
        side = one[0], (one[1] + turn) % 4
        if partner[side] == (other[0], (other[1] - turn) % 4):
            return sampled(old.arcs[side], 6)[1:-1]
    return sampled(old.arcs[dart], 6)[1:-1]


def dropped_line(old, partner, came):
    """The points that an arc starts from whose crossings are dropped: straight on at a kink, along the other side of a bigon."""
    gone, points = set(old.passage.dropped), []
    for dart in came.darts:
        there = partner[dart]
        if dart[0] == there[0] and dart[0] in gone:
            continue
        if dart[0] in gone and there[0] in gone:
            points += swapped(old, partner, dart)
            continue
        some = sampled(old.arcs[dart], 6)
        is_kink = len(gone) == 1
        points += some[(1 if dart[0] in gone else 0) : (len(some) if is_kink or there[0] not in gone else -1)]
    return points


def kink_points(middle, way, radius, is_left):
    """The places of a new kink: around its crossing that of the strand before, the loop, and the strand behind."""
    def at(turns, far):
        # (turns to the left of the way, on a page whose y goes up)
        angle = 2 * math.pi * (turns if is_left else -turns)
        across, up = math.cos(angle), math.sin(angle)
        return middle[0] + far * radius * (way[0] * across - way[1] * up), middle[1] + far * radius * (way[1] * across + way[0] * up)

    return at(-3 / 8, 1), [at(1 / 8, 1), at(1 / 6, 1.6), at(1 / 4, 1.9), at(1 / 3, 1.6), at(3 / 8, 1)], at(-1 / 8, 1)


class Layout:
    """A piece behind a move, on its way to rest."""

    def __init__(self, plane, old, old_partner, between):
        self.plane, self.old, self.between = plane, old, between
        self.piece = piece_of(plane, pieces_of(plane)[0], between)
        self.partner = old_partner
        self.places = {}
        self.touched = set()

    def is_whole(self, dart):
        """Whether an arc is an old one."""
        came, passage = self.old.passage.came[dart], self.old.passage
        ends = {dart[0], self.plane.partner[dart][0]}
        return len(came.darts) == 1 and came[1:] == (0.0, 1.0) and not ends & {*passage.slid, *passage.added}

    def put(self, points, places):
        self.places.update(zip(points, places))
        self.touched.update(points)

    def begin(self, size):
        """Puts each point where it starts."""
        self.places, self.touched, passage = {}, set(), self.old.passage
        for crossing, other in passage.kept.items():
            self.places[crossing] = self.old.arcs[other, 0][0]
        if passage.slid:
            self.slide(size)
        for dart, points in self.piece.chains.items():
            if dart < self.plane.partner[dart] and not {dart[0], self.plane.partner[dart][0]} & set(passage.added):
                self.start_arc(dart, points, size)
        if passage.added:
            self.kink(passage.added[0], size)

    def side(self, one, other):
        """The points of a triangle's side between two of its old crossings."""
        dart = next(it for it in self.old.passage.sides if it[0] == one and self.partner[it][0] == other)
        return sampled(self.old.arcs[dart], 6)

    def slide(self, size):
        """Puts each crossing of a triangle on the side across from it."""
        kept = self.old.passage.kept
        for crossing in self.old.passage.slid:
            one, other = (kept[it] for it in self.old.passage.slid if it != crossing)
            self.put([crossing], [spaced(self.side(one, other), 41)[20]])

    def way_in(self, crossing, corner, size):
        """From a crossing that is slid along a side towards an old corner, where the strand went through."""
        kept = self.old.passage.kept
        third = next(kept[it] for it in self.old.passage.slid if kept[it] not in (kept[crossing], corner))
        line = spaced(self.side(third, corner), 41)
        return [self.places[crossing], *line[20 + round(20 * size) : 39 : 3]]

    def start_arc(self, dart, points, size):
        """Puts the points of an arc on the old strands that it comes from."""
        came, there = self.old.passage.came[dart], self.plane.partner[dart]
        if self.is_whole(dart):
            self.places.update(zip(points[1:-1], chain(self.old.arcs[came.darts[0]])[1:-1]))
            return
        slid, ends = self.old.passage.slid, (came.darts[0], self.partner[came.darts[0]])
        if slid and came.darts[0] in self.old.passage.sides:
            line = [self.places[points[0]], self.places[points[-1]]]
        elif slid:
            begin = self.way_in(dart[0], ends[0][0], size) if dart[0] in slid else [self.places[points[0]]]
            end = self.way_in(there[0], ends[1][0], size) if there[0] in slid else [self.places[points[-1]]]
            line = [*begin, *sampled(self.old.arcs[came.darts[0]], 6)[2:-2], *end[::-1]]
        else:
            line = dropped_line(self.old, self.partner, came)
        self.put(points[1:-1], spaced(line, len(points))[1:-1])

    def kink(self, crossing, size):
        """Puts a kink on the arc that it comes from."""
        darts = [(crossing, slot) for slot in range(4)]
        loop = next(it for it in darts if self.plane.partner[it] in darts)
        loop = loop if self.plane.partner[loop] == (crossing, (loop[1] + 1) % 4) else self.plane.partner[loop]
        # (the strand comes in across from the loop's one end, goes around it to the left, and out across from its other end)
        inward, out = (crossing, (loop[1] + 2) % 4), (crossing, (loop[1] + 3) % 4)
        came = self.old.passage.came[out]
        whole = [(x, -y) for x, y in sampled(self.old.arcs[came.darts[0]], 12)]
        whole = whole if came.start >= 0.5 else whole[::-1]
        line = spaced(whole, 41)
        ahead = line[22][0] - line[18][0], line[22][1] - line[18][1]
        length = math.hypot(*ahead) or 1.0
        before, around, behind = kink_points(line[20], (ahead[0] / length, ahead[1] / length), size, True)
        chains = self.piece.chains
        self.put([crossing], [(line[20][0], -line[20][1])])
        for dart, places in (
            (loop, [line[20], *around, line[20]]), (out, [line[20], behind, *line[26:]]), (inward, [line[20], before, *line[14::-1]]),
        ):
            points = chains[dart]
            self.put(points[1:-1], [(x, -y) for x, y in spaced(places, len(points))[1:-1]])

    def rested(self):
        """Where the points stand when those that the move touches have come to rest; nothing where strands cross that should not."""
        points = [self.places[it] for it in range(self.piece.count)]
        threads, place = Threads(self.piece), [x for x, _ in points] + [-y for _, y in points]
        if not threads.is_plane(place):
            return None
        threads.only(self.touched)
        free = [float(at % self.piece.count in self.touched) for at in range(len(place))]

        def energy(stiff, there):
            value, slope = threads.energy(stiff, there)
            return value, [it * part for it, part in zip(slope, free)]

        for stiff, steps, tries in STAGES:
            left = itertools.count(tries, -1)
            place = descended(
                functools.partial(energy, stiff), lambda there: next(left) > 0 and threads.is_plane(there), place, steps, NEAREST_STEP
            )
        return [(x, -y) for x, y in zip(place[: self.piece.count], place[self.piece.count :])]


def outer_face(plane, arcs):
    """The darts around the outer face of a piece, which is the one on the other side of its strands."""
    def area(face):
        points = [point for dart in face for point in sampled(arcs[dart], 4)]
        return math.fsum(x * deep - y * far for (x, y), (far, deep) in zip(points, points[1:] + points[:1]))

    return max(faces_of(plane, pieces_of(plane)[0]), key=area)


def like_of(plane, before, old):
    """What a drawing behind a move is to be like where it is made anew: its crossings near their places, and its outer face the old one."""
    if len(pieces_of(plane)) != 1 or len(pieces_of(before)) != 1 or not old.passage.kept:
        return None
    outer = set(outer_face(before, old.arcs))

    def common(face):
        return sum(it in outer for dart in face for it in old.passage.came[dart].darts)

    faces = faces_of(plane, pieces_of(plane)[0])
    face, most = max(faces, key=common), max(map(len, faces))
    # (a small face around all others would stretch them)
    places = {it: old.arcs[other, 0][0] for it, other in old.passage.kept.items()}
    slid = old.passage.slid
    middle = [math.fsum(places[it][at] for it in slid) / 3 for at in (0, 1)]
    places.update({it: along(middle, places[it], -1) for it in slid})
    return Like(places, face[0] if 3 * len(face) >= 2 * most else None)


def moved_shape(plane, old, old_partner):
    """The shape behind a move, or nothing where it is better drawn anew."""
    passage = old.passage
    parts = {len(curve) // 3 for curve in old.arcs.values()}
    if len(pieces_of(plane)) != 1 or plane.loops or len(parts) != 1 or len(passage.added) > 1:
        return None
    layout = Layout(plane, old, old_partner, parts.pop() - 1)
    for size in BESIDE if passage.slid else KINK if passage.added else (1.0,):
        layout.begin(size)
        points = layout.rested()
        if points:
            arcs = curves_of(plane, layout.piece, points)
            if clearance(plane, arcs) > LEAST * NEAREST:
                left, top, right, bottom = bounds([point for curve in arcs.values() for point in sampled(curve)])
                return Shape(arcs, [], right - left, bottom - top)
    return None
