"""Finds room on a drawing for what is not strands: arrows on them, and the numbers of arcs and crossings, which cover nothing."""
import math
from typing import NamedTuple

from .mesh import turned
from .page import ABOVE, BELOW, DIGIT
from .shape import along, distance, point_at, sampled
from .strands import BROAD

# The size of numbers, and the room that they keep to all else.
SIZE, ROOM = 14, 3
# How far an arrow reaches before and behind its place, and to both sides; how near other strands may come to that place.
TIP, TAIL, NOTCH, SIDE, CLEAR = 9, 6, 3, 6.5, 13
# How many arcs of a component there are for each of its arrows.
ARCS_OF_ARROW = 6
# The size of the squares by which points are found, and how far from a number strands are looked for.
CELL, FAR = 24, 40


class Box(NamedTuple):
    """A text's place: its middle at its line, and the edges of the room that it needs."""

    x: float
    y: float
    left: float
    top: float
    right: float
    bottom: float


def box_at(x, y, text):
    """The box of a text around this middle."""
    line, half = y + SIZE * (ABOVE - BELOW) / 2, SIZE * DIGIT * len(str(text)) / 2
    return Box(x, line, x - half, line - SIZE * ABOVE, x + half, line + SIZE * BELOW)


class Page:
    """What stands on a page so far: points of strands, each with a name, and boxes."""

    def __init__(self):
        self.cells, self.boxes = {}, []

    def add(self, name, points):
        for x, y in points:
            self.cells.setdefault((x // CELL, y // CELL), []).append((name, x, y))

    def near(self, left, top, right, bottom):
        """The points within these edges."""
        for across in range(int(left // CELL), int(right // CELL) + 1):
            for down in range(int(top // CELL), int(bottom // CELL) + 1):
                yield from (it for it in self.cells.get((across, down), ()) if left <= it[1] <= right and top <= it[2] <= bottom)

    def is_free(self, box):
        """Whether a box keeps its room to all that stands on the page."""
        grown = BROAD / 2 + ROOM
        if next(self.near(box.left - grown, box.top - grown, box.right + grown, box.bottom + grown), None):
            return False
        return all(
            box.right + ROOM <= it.left or it.right + ROOM <= box.left or box.bottom + ROOM <= it.top or it.bottom + ROOM <= box.top
            for it in self.boxes
        )

    def is_nearest(self, box, name):
        """Whether the strand of this name is the nearest one to a box, by far."""
        middle = box.x, (box.top + box.bottom) / 2
        own = min((far for far, other in self.distances(middle, FAR) if other == name), default=math.inf)
        return own + 5 <= min((far for far, other in self.distances(middle, FAR) if other != name), default=math.inf)

    def distances(self, place, reach):
        """How far points are that are near a place, with their names."""
        for name, x, y in self.near(place[0] - reach, place[1] - reach, place[0] + reach, place[1] + reach):
            yield distance(place, (x, y)), name


def page_of(plane, shape):
    """A page with the strands of a drawing; the name of a strand is the lesser dart of its arc, and of a loop its number."""
    page = Page()
    for dart, curve in shape.arcs.items():
        if dart < plane.partner[dart]:
            page.add(dart, sampled(curve, parts_for(curve)))
    for number, curve in enumerate(shape.loops):
        page.add(number, sampled(curve, parts_for(curve)))
    return page


def parts_for(curve):
    """How often each part of a curve is sampled, so that the points are near enough."""
    longest = max(distance(curve[at], curve[at + 1]) for at in range(len(curve) - 1))
    return 4 + int(3 * longest / 2)


def way_of(curve, at):
    """The direction of a curve at a place."""
    before, behind = point_at(curve, max(0, at - 0.02)), point_at(curve, min((len(curve) - 1) / 3, at + 0.02))
    length = distance(before, behind)
    return (behind[0] - before[0]) / length, (behind[1] - before[1]) / length


def bend_at(curve, at):
    """How far a curve leaves its direction where an arrow stands on it."""
    (x, y), (across, down) = point_at(curve, at), way_of(curve, at)
    points = [it for it in sampled(curve) if distance(it, (x, y)) <= TIP + 2]
    return max((abs((far - x) * down - (deep - y) * across) for far, deep in points), default=0.0)


def arrow_places(page, name, curve):
    """The places on an arc where an arrow may stand, the best ones least: away from crossings and strands, where the arc is straight,
    in its middle."""
    parts, places = (len(curve) - 1) // 3, []
    for number in range(4, 17):
        at = parts * number / 20
        place = point_at(curve, at)
        is_near = any(other != name and far < CLEAR for far, other in page.distances(place, CLEAR))
        is_near = is_near or min(distance(place, curve[0]), distance(place, curve[-1])) < 2 * CLEAR
        places.append((is_near, round(2 * bend_at(curve, at)), abs(number - 10), at))
    return places


def arrow(curve, at):
    """The corners of an arrow on a curve."""
    (x, y), (across, down) = point_at(curve, at), way_of(curve, at)
    corners = (TIP, 0), (-TAIL, SIDE), (-NOTCH, 0), (-TAIL, -SIDE)
    return [(x + ahead * across - side * down, y + ahead * down + side * across) for ahead, side in corners]


def arrows_of(plane, shape, components, page, kept=None):
    """The arrows of all directed components and of loops, each with the number of its component; none on the arc that is kept free."""
    found = []
    for number, (walk, is_directed) in enumerate(components):
        count = -(-len(walk) // ARCS_OF_ARROW) if is_directed else 0
        for part in range(count):
            darts = walk[part * len(walk) // count : (part + 1) * len(walk) // count]
            darts = [dart for dart in darts if name_of(plane, dart) != kept] or darts
            places = [(*it, dart) for dart in darts for it in arrow_places(page, name_of(plane, dart), shape.arcs[dart])]
            *_, at, dart = min(places)
            found.append((arrow(shape.arcs[dart], at), number))
    for number, curve in enumerate(shape.loops):
        found.append((arrow(curve, 0.5 if kept != number else 2.5), len(components) + number))
    for corners, _ in found:
        page.add(None, [*corners, *(along(one, other, 0.5) for one, other in zip(corners, corners[1:] + corners[:1]))])
    return found


def name_of(plane, dart):
    """The name of a dart's arc on a page."""
    return min(dart, plane.partner[dart])


def around(middle):
    """Places around a crossing, the nearest first."""
    for far in (14, 16, 18, 20, 23, 26, 30, 34):
        for number in range(16):
            across, down = turned(number / 16)
            yield middle[0] + far * across, middle[1] - far * down


def beside(curve):
    """Places at both sides of an arc, the nearest first."""
    parts = (len(curve) - 1) / 3
    for far in (13, 15, 17, 20, 23, 26):
        for part in (10, 9, 11, 8, 12, 7, 13, 6, 14, 5, 15, 4, 16):
            (x, y), (across, down) = point_at(curve, parts * part / 20), way_of(curve, parts * part / 20)
            yield x - far * down, y + far * across
            yield x + far * down, y - far * across


def placed(page, text, places, name=None):
    """The box of a text at the first of these places that is free, where its own strand is the nearest one if there is such a place."""
    free = [box for box in (box_at(x, y, text) for x, y in places) if page.is_free(box)]
    best = next((box for box in free if name is None or page.is_nearest(box, name)), free[0] if free else None)
    if best:
        page.boxes.append(best)
    return best
