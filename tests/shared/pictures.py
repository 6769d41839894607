"""Reads pictures of diagrams from their text alone: strands as rows of points, what stands beside them, and what they show.

A strand is broken where it passes under, so two ends face each other there, and the strand between them passes over.
"""
import math
import re
import xml.etree.ElementTree
from typing import NamedTuple

NUMBER = r"-?\d+(?:\.\d+)?"
# How far apart the two ends at a crossing may be, and how well they have to face each other.
FARTHEST, FACING = 70, 0.6


class Text(NamedTuple):
    """A number of a picture: the classes that it has, and the edges of the room that a broad font needs for it."""

    classes: list
    text: str
    left: float
    top: float
    right: float
    bottom: float

    def middle(self):
        return (self.left + self.right) / 2, (self.top + self.bottom) / 2


class Picture(NamedTuple):
    """The edges of the page; strands with their colours; arrows by their corners; the dots; numbers; and what the style says."""

    edges: tuple
    strands: list
    colours: list
    arrows: list
    dots: list
    texts: list
    style: str


def points_of(path):
    """Points on a path, not far from one another."""
    points, words = [], re.findall(r"[MLCZ][^MLCZ]*", path)
    for word in words:
        numbers = list(map(float, re.findall(NUMBER, word)))
        ends = list(zip(numbers[::2], numbers[1::2])) or points[:1]
        if word[0] == "M":
            points += ends
            continue
        a, d = points[-1], ends[-1]
        b, c = ends[:2] if word[0] == "C" else (a, d)
        steps = 2 + int(math.dist(a, d))
        for at in (it / steps for it in range(1, steps + 1)):
            u, v, w, z = (1 - at) ** 3, 3 * (1 - at) ** 2 * at, 3 * (1 - at) * at**2, at**3
            points.append((u * a[0] + v * b[0] + w * c[0] + z * d[0], u * a[1] + v * b[1] + w * c[1] + z * d[1]))
    return points


def text_of(element):
    """A number with the room that it needs."""
    x, y, text, size = float(element.get("x")), float(element.get("y")), element.text, 14
    half = 0.64 * size * len(text) / 2
    return Text(element.get("class").split(), text, x - half, y - 0.75 * size, x + half, y)


def read_picture(wrote):
    """A picture that `show/drawing --svg` wrote; it is well-formed, and has a title and a description."""
    root = xml.etree.ElementTree.fromstring(wrote)
    for element in root.iter():
        element.tag = element.tag.split("}")[-1]
    if root.get("role") != "img" or not root.findtext("title") or root.find("desc") is None:
        raise ValueError("a picture without a title")
    left, top, width, height = map(float, root.get("viewBox").split())
    paths = [(it.get("class").split(), it.get("d")) for it in root.findall("path")]
    return Picture(
        (left, top, left + width, top + height),
        [(points_of(path), path.endswith("Z")) for classes, path in paths if "strand" in classes],
        [classes[-1] for classes, _ in paths if "strand" in classes],
        [(points_of(path)[:1] + corners_of(path), classes[-1]) for classes, path in paths if "arrow" in classes],
        [(float(it.get("cx")), float(it.get("cy"))) for it in root.findall("circle")],
        [text_of(it) for it in root.findall("text")],
        root.findtext("style"),
    )


def corners_of(path):
    """The corners of a path of straight lines, but for the first."""
    numbers = list(map(float, re.findall(NUMBER, path)))
    return list(zip(numbers[2::2], numbers[3::2]))


def unit(one, other):
    length = math.dist(one, other) or 1.0
    return (other[0] - one[0]) / length, (other[1] - one[1]) / length


def crossing_of(one, other, points):
    """The places at which a straight line between two points crosses a strand, each by the number of the point before."""

    def turn(a, b, c):
        return (b[0] - a[0]) * (c[1] - a[1]) - (b[1] - a[1]) * (c[0] - a[0])

    near, reach = (one[0] + other[0]) / 2, math.dist(one, other)
    for at, (before, behind) in enumerate(zip(points, points[1:])):
        if abs(before[0] - near) <= reach and (turn(one, other, before) > 0) != (turn(one, other, behind) > 0):
            if (turn(before, behind, one) > 0) != (turn(before, behind, other) > 0):
                yield at


class Crossing(NamedTuple):
    """A crossing: the two ends that face each other, each a strand and whether it is its last point; the strand over it, and where."""

    ends: tuple
    over: tuple
    middle: tuple


def crossings_of(picture):
    """The crossings of a picture: the ends that face each other across one strand, the nearest first."""
    ends = {}
    for strand, (points, is_closed) in enumerate(picture.strands):
        if not is_closed:
            ends[strand, False] = points[0], unit(points[3], points[0])
            ends[strand, True] = points[-1], unit(points[-4], points[-1])
    pairs = []
    for one, (here, way) in ends.items():
        for other, (there, back) in ends.items():
            across, down = unit(here, there)
            faces = min(way[0] * across + way[1] * down, -back[0] * across - back[1] * down) > FACING
            if one < other and faces and math.dist(here, there) <= FARTHEST:
                pairs.append((math.dist(here, there), one, other))
    found, used = [], set()
    for _, one, other in sorted(pairs):
        here, there = ends[one][0], ends[other][0]
        over = []
        for strand, (points, is_closed) in enumerate(picture.strands):
            # (a broken strand does not pass over itself where it ends)
            skipped = 0 if is_closed else 3
            over += [(strand, at + skipped) for at in crossing_of(here, there, points[skipped : len(points) - skipped])]
        if len(over) == 1 and not used & {one, other}:
            used |= {one, other}
            found.append(Crossing((one, other), over[0], picture.strands[over[0][0]][0][over[0][1]]))
    if used != set(ends):
        raise ValueError(f"{len(ends) - len(used)} ends of strands face no other one")
    return found


class Pass(NamedTuple):
    """A pass: the number of the crossing, whether it is over, the direction, and the place on the strand."""

    crossing: int
    is_over: bool
    way: tuple
    at: int

    def turned(self):
        """The pass in the other direction."""
        return self._replace(way=(-self.way[0], -self.way[1]))


class Reading:
    """What a picture shows: its crossings, and for each component its passes and strands, in the direction of an arrow on it."""

    def __init__(self, picture):
        self.picture, self.crossings = picture, crossings_of(picture)
        self.behind = {}
        for number, crossing in enumerate(self.crossings):
            one, other = crossing.ends
            self.behind.update({one: (number, other), other: (number, one)})
        self.against = {strand for strand, _ in map(self.arrow_on, picture.arrows) if not _}
        self.with_arrow = {strand for strand, _ in map(self.arrow_on, picture.arrows)}
        self.turned, self.components = {}, []
        for start in [*sorted(self.with_arrow), *range(len(picture.strands))]:
            if start not in self.turned:
                self.components.append(self.walk(start))

    def arrow_on(self, arrow):
        """The strand that an arrow is on, and whether it goes in the direction of its points."""
        tip, _, notch, _ = arrow[0]
        strand, at, _ = nearest(((tip[0] + notch[0]) / 2, (tip[1] + notch[1]) / 2), self.picture)
        points = self.picture.strands[strand][0]
        way, along = unit(notch, tip), unit(points[max(0, at - 2)], points[min(len(points) - 1, at + 2)])
        return strand, way[0] * along[0] + way[1] * along[1] > 0

    def overs(self, strand):
        """The over passes of a strand, in the order of its points."""
        points, found = self.picture.strands[strand][0], []
        for number, crossing in enumerate(self.crossings):
            if crossing.over[0] == strand:
                at = crossing.over[1]
                found.append(Pass(number, True, unit(points[at], points[at + 1]), at))
        return sorted(found, key=lambda it: it.at)

    def walk(self, start):
        """The passes of a component."""
        passes, strand, is_turned = [], start, start in self.against
        while strand not in self.turned:
            self.turned[strand] = is_turned
            points, is_closed = self.picture.strands[strand]
            overs = self.overs(strand)
            passes += [it.turned() for it in overs[::-1]] if is_turned else overs
            if is_closed:
                break
            number, (far, is_last) = self.behind[strand, not is_turned]
            there = self.picture.strands[far][0][-1 if is_last else 0]
            passes.append(Pass(number, False, unit(points[0 if is_turned else -1], there), -1))
            strand, is_turned = far, is_last
        return passes

    def next_pass(self, place):
        """The crossing to which one comes from the strand at a place, and whether one is over there; nothing on a loop."""
        strand, at, _ = nearest(place, self.picture)
        overs, is_turned = self.overs(strand), self.turned[strand]
        ahead = [it for it in overs if it.at < at][::-1] if is_turned else [it for it in overs if it.at >= at]
        if not ahead and self.picture.strands[strand][1]:
            ahead = overs[::-1] if is_turned else overs
            if not ahead:
                return None
        return (ahead[0].crossing, True) if ahead else (self.behind[strand, not is_turned][0], False)


def nearest(place, picture):
    """The strand nearest to a place, the number of its point there, and how far that is."""
    points = ((math.dist(place, it), strand, at) for strand, (points, _) in enumerate(picture.strands) for at, it in enumerate(points))
    far, strand, at = min(points)
    return strand, at, far
