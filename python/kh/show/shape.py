"""The shape of a drawing on a page: a smooth curve for the arc of each dart, and a circle for each loop, piece beside piece.

A curve is a list of points: where it begins, then for each cubic part two points that it is drawn towards and where this part ends. The
lengths here are those of `mesh.py`; y goes down, as on a page.
"""
import bisect
import functools
import math
from typing import NamedTuple

from .columns import column_curves
from .elastic import bent
from .mesh import piece_of, spread, turned
from .planar import components_of, pieces_of

# The radius of a loop, the room between pieces, and how wide a row of them becomes.
RADIUS, ROOM, WIDEST = 1.9, 1.5, 48.0
# How near strands come at least, what is beside a crossing, and how much larger a piece may become for that.
NEAREST, BESIDE, LARGEST = 0.65, 1.3, 2.5
# Two points of one arc are near where the way between them is so much longer, for each step of the way.
FOLDED = 0.1
# How a circle's quarter is drawn as a cubic curve.
QUARTER = 0.5523
# The mean square of distances between points and mirrored ones up to which left and right are alike.
ALIKE = 0.05


class Shape(NamedTuple):
    """The curve of each dart's arc, from its crossing to the other one; the curves of loops; and the size of the page around them."""

    arcs: dict
    loops: list
    width: float
    height: float


def along(one, other, part):
    """The point between two points at this part of the way."""
    return one[0] + (other[0] - one[0]) * part, one[1] + (other[1] - one[1]) * part


def distance(one, other):
    x, y = other[0] - one[0], other[1] - one[1]
    return math.sqrt(x * x + y * y)


def split(points, at):
    """A curve cut in two; the place is counted in parts from its beginning."""
    number = min(int(at), len(points) // 3 - 1)
    rows = [points[3 * number : 3 * number + 4]]
    while len(rows[-1]) > 1:
        rows.append([along(one, other, at - number) for one, other in zip(rows[-1], rows[-1][1:])])
    return points[: 3 * number] + [it[0] for it in rows], [it[-1] for it in rows[::-1]] + points[3 * number + 4 :]


def point_at(points, at):
    """Where a cut of the curve there lies."""
    number = min(int(at), len(points) // 3 - 1)
    part, places = at - number, points[3 * number : 3 * number + 4]
    one, two, three = map(along, places, places[1:], (part, part, part))
    return along(along(one, two, part), along(two, three, part), part)


def sampled(points, parts=8):
    """Points on a curve, so many for each of its parts, and its end."""
    return [point_at(points, number / parts) for number in range(len(points) // 3 * parts)] + points[-1:]


def between_for(count):
    """How many points there are between the crossings of a piece of so many crossings."""
    return 5 if count <= 8 else 4 if count <= 12 else 3


def way_at(before, point, behind):
    """The direction at the middle one of three points, of the circle through them."""
    one, other = distance(before, point), distance(point, behind)
    x = (point[0] - before[0]) * other / one + (behind[0] - point[0]) * one / other
    y = (point[1] - before[1]) * other / one + (behind[1] - point[1]) * one / other
    length = math.sqrt(x * x + y * y)
    return x / length, y / length


def closed_curve(points):
    """The smooth curve through points, from the first around to the first."""
    ways = [way_at(points[at - 1], points[at], points[(at + 1) % len(points)]) for at in range(len(points))]
    curve = points[:1]
    for at, (point, way) in enumerate(zip(points, ways)):
        behind, its = points[(at + 1) % len(points)], ways[(at + 1) % len(points)]
        third = distance(point, behind) / 3
        curve.append((point[0] + third * way[0], point[1] + third * way[1]))
        curve += [(behind[0] - third * its[0], behind[1] - third * its[1]), behind]
    return curve


def curves_of(plane, piece, points):
    """The curve of each dart of a piece whose points stand at these places."""
    arcs = {}
    for walk, _ in components_of(plane, []):
        if walk[0] in piece.chains:
            curve, parts = closed_curve([points[it] for dart in walk for it in piece.chains[dart][:-1]]), 0
            for dart in walk:
                count = len(piece.chains[dart]) - 1
                arcs[dart] = curve[3 * parts : 3 * (parts + count) + 1]
                arcs[plane.partner[dart]] = arcs[dart][::-1]
                parts += count
    return arcs


def clearance(plane, arcs):
    """How near two strands come, or a strand to itself, but for what is beside a crossing of both; at most as near as they may."""
    squares, points = {}, []
    for dart, curve in arcs.items():
        if dart < plane.partner[dart]:
            ends = [(dart[0], curve[0]), (plane.partner[dart][0], curve[-1])]
            for at, point in enumerate(sampled(curve, 4)):
                points.append((dart, at, point, {crossing for crossing, end in ends if distance(point, end) < BESIDE}))
    least = NEAREST
    for number, (dart, at, (x, y), beside) in enumerate(points):
        across, down = int(x // NEAREST), int(y // NEAREST)
        for square in ((across + right, down + low) for right in (-1, 0, 1) for low in (-1, 0, 1)):
            for other in squares.get(square, ()):
                its_dart, its_at, point, its_beside = points[other]
                if not beside & its_beside and (its_dart != dart or distance((x, y), point) < FOLDED * (at - its_at)):
                    least = min(least, distance((x, y), point))
        squares.setdefault((across, down), []).append(number)
    return least


def bounds(points):
    """The least and the greatest x and y of some points."""
    xs, ys = zip(*points)
    return min(xs), min(ys), max(xs), max(ys)


def rotated(points, turns):
    """The points turned around the point 0."""
    across, down = turned(turns)
    return [(x * across - y * down, x * down + y * across) for x, y in points]


def least(worth, turns, reach):
    """The turn of the least worth near this one, within such a reach."""
    for part in (reach / 10, reach / 100, reach / 1000):
        turns = min((turns + number * part for number in range(-10, 11)), key=worth)
    return turns


def nearest(points, x, y):
    """The square of the distance from a place to the nearest of some points, which are sorted."""
    start, best = bisect.bisect(points, (x, y)), math.inf
    for way in (range(start, len(points)), range(start - 1, -1, -1)):
        for at in way:
            far, deep = points[at]
            if (far - x) * (far - x) >= best:
                break
            square = (far - x) * (far - x) + (deep - y) * (deep - y)
            if square < best:
                best = square
    return best


def mirrored_worth(points):
    """How far points are from their mirror image, turned by so much: the mean square of the distances to the nearest ones; and how fast
    its root changes at most, for a turn."""

    @functools.cache
    def unlike(turns):
        these = sorted(rotated(points, turns))
        return math.fsum(nearest(these, -x, y) for x, y in these) / len(these)

    # (the mirror image turns twice as far)
    return unlike, 4 * math.pi * math.sqrt(math.fsum(x * x + y * y for x, y in points) / len(points))


def axes_of(points):
    """The turns after which left and right of some points are alike. A turn is followed no further where none near it can be one."""
    unlike, fastest = mirrored_worth(points)
    worths, found = [unlike(number / 120) for number in range(60)], []
    for at in (number / 120 for number in range(60) if worths[number] <= min(worths[number - 1], worths[(number + 1) % 60])):
        for part in (1 / 1200, 1 / 12000, 1 / 120000):
            if math.sqrt(unlike(at)) > math.sqrt(ALIKE) + 11.2 * part * fastest:
                break
            at = min((at + number * part for number in range(-10, 11)), key=unlike)
        found += [at] if unlike(at) < ALIKE else []
    return found


def upright(points, marks):
    """The points turned so that left and right are alike, where that can be, by some of the points; else so that they need little room.
    They are broader than high, and the heavier half is below."""
    middle = [math.fsum(it) / len(points) for it in zip(*points)]
    points = [(x - middle[0], y - middle[1]) for x, y in points]

    def room(turns):
        left, top, right, bottom = bounds(rotated(points, turns))
        return (right - left) * (bottom - top)

    def height(turns):
        _, top, _, bottom = bounds(rotated(points, turns))
        return round(bottom - top, 2)

    area = least(room, 0.125, 0.125)
    best = min(axes_of([points[it] for it in marks]) or [area, area + 0.25], key=height)
    _, top, _, bottom = bounds(rotated(points, best))
    return rotated(points, best if top + bottom < 1e-6 else best + 0.5)


class Like(NamedTuple):
    """A drawing that another one is to be like: where crossings stand, and a dart at the outer face."""

    places: dict
    outer: tuple


def turned_like(points, places):
    """The points turned so that some of them come as near as they can to these places."""
    pairs = [(points[it], place) for it, place in places.items()]
    middles = [[math.fsum(pair[side][at] for pair in pairs) / len(pairs) for at in (0, 1)] for side in (0, 1)]
    across = up = 0.0
    for (x, y), (far, deep) in pairs:
        x, y, far, deep = x - middles[0][0], y - middles[0][1], far - middles[1][0], deep - middles[1][1]
        across, up = across + x * far + y * deep, up + x * deep - y * far
    turns = math.atan2(up, across) / (2 * math.pi)
    these = rotated([(x - middles[0][0], y - middles[0][1]) for x, y in points], turns)
    return [(x + middles[1][0], y + middles[1][1]) for x, y in these]


def piece_shape(plane, crossings, slices, like=None):
    """The curves of a piece: smooth ones, or where these come too near to each other those of its drawing."""
    between = between_for(len(crossings))
    piece = piece_of(plane, crossings, between, like and like.outer)
    begun = spread(piece, between)
    if begun:
        points = [(x, -y) for x, y in zip(*bent(piece, *begun))]
        marks = [*range(len(crossings)), *sorted({chain[1 + between // 2] for chain in piece.chains.values()})]
        points = turned_like(points, like.places) if like else upright(points, marks)
        arcs = curves_of(plane, piece, points)
        near = clearance(plane, arcs)
        if near * LARGEST > NEAREST:
            return {dart: moved(curve, 0, 0, NEAREST / near) for dart, curve in arcs.items()}
    return {dart: curve for dart, curve in column_curves(slices).items() if dart in piece.chains}


def circle(radius):
    """The curve of a loop around the point 0, counterclockwise as it is seen on the page."""
    hand = radius * QUARTER
    quarters = [(radius, 0), (radius, -hand), (hand, -radius), (0, -radius), (-hand, -radius), (-radius, -hand)]
    return [*quarters, *((-x, -y) for x, y in quarters), (radius, 0)]


def moved(curve, x, y, scale=1.0):
    return [(scale * (across + x), scale * (down + y)) for across, down in curve]


def shape_of(plane, slices, like=None):
    """The shape of a drawing: its pieces and its loops stand in rows. One piece may be drawn like another drawing."""
    pieces = pieces_of(plane)
    parts = [piece_shape(plane, crossings, slices, like if len(pieces) == 1 else None) for crossings in pieces]
    parts += [{("loop", number): circle(RADIUS)} for number in range(plane.loops)]
    sizes = [bounds([point for curve in part.values() for point in sampled(curve)]) for part in parts]
    rows, broad = [], 0.0
    for part, size in zip(parts, sizes):
        if not rows or broad + ROOM + size[2] - size[0] > WIDEST:
            rows.append([])
            broad = -ROOM
        rows[-1].append((part, size))
        broad += ROOM + size[2] - size[0]
    breadths = [math.fsum(size[2] - size[0] + ROOM for _, size in row) - ROOM for row in rows]
    width = max(breadths, default=0.0)
    curves, top = {}, 0.0
    for row, breadth in zip(rows, breadths):
        high = max(size[3] - size[1] for _, size in row)
        left = (width - breadth) / 2
        for part, size in row:
            down = top + (high - size[3] + size[1]) / 2 - size[1]
            curves.update({dart: moved(curve, left - size[0], down) for dart, curve in part.items()})
            left += size[2] - size[0] + ROOM
        top += high + ROOM
    loops = [curves.pop(("loop", number)) for number in range(plane.loops)]
    return Shape(curves, loops, width, max(0.0, top - ROOM))


def scaled(shape, scale):
    """A shape in other lengths."""
    arcs = {dart: moved(curve, 0, 0, scale) for dart, curve in shape.arcs.items()}
    return Shape(arcs, [moved(curve, 0, 0, scale) for curve in shape.loops], scale * shape.width, scale * shape.height)
