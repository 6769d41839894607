"""The curves of a piece as its drawing has them, strands on columns with round corners.

They serve where curls lie in each other too deeply for the curves of `mesh.py` and `elastic.py`.
"""
import math

from .layout import events_of, levels_of, places_of

# The room between columns and between levels, the half of a crossing of columns far apart, and the radius of corners.
BROAD, HIGH, HALF, ROUND = 1.2, 3.2, 0.9, 0.6


class Columns:
    """The stretches of columns between their events: an end of a stretch is its number and 0 above, 1 below."""

    def __init__(self, slices):
        self.places, self.joined, self.darts, self.middles = {}, {}, {}, []
        events, right_of = events_of(slices)
        places, at, count = places_of(right_of), {}, 0
        for (word, left, right), level in zip(events, levels_of(events, places)):
            x, far, y = BROAD * places[left], BROAD * places[right], HIGH * (level + 0.5)
            if word != "open":
                above = at[left], at[right]
                self.places.update({(above[0], 1): (x, y), (above[1], 1): (far, y)})
            if word != "close":
                below = at[left], at[right] = count, count + 1
                count += 2
                self.places.update({(below[0], 0): (x, y), (below[1], 0): (far, y)})
            if word in ("left", "right"):
                for corner, end in enumerate(((above[0], 1), (below[0], 0), (below[1], 0), (above[1], 1))):
                    self.darts[end] = len(self.middles), corner
                self.middles.append(((x + far) / 2, y))
            else:
                one, other = [(it, 0) for it in below] if word == "open" else [(it, 1) for it in above]
                self.joined.update({one: other, other: one})

    def arm(self, end):
        """The points from a crossing to an end of a stretch: at half a right angle, then level where that is far."""
        (middle, y), (x, _) = self.middles[self.darts[end][0]], self.places[end]
        far = x - middle
        steps = [(far, abs(far))] if abs(far) < 1.5 * BROAD else [(math.copysign(HALF, far), HALF), (far, HALF)]
        return [(middle, y), *((middle + across, y - up if end[1] else y + up) for across, up in steps)]

    def trail(self, end):
        """The points along an arc from the crossing at this end, and the end at which it comes to a crossing."""
        points, there = self.arm(end), (end[0], 1 - end[1])
        while there not in self.darts:
            behind = self.joined[there]
            points += [self.places[there], self.places[behind]]
            there = behind[0], 1 - behind[1]
        return points + self.arm(there)[::-1], there


def rounded(points):
    """A curve along straight lines, with round corners."""
    curve = points[:1]

    def go(point):
        (x, y), (far, deep) = curve[-1], point
        if max(abs(far - x), abs(deep - y)) > 1e-6:
            curve.extend([(x + (far - x) / 3, y + (deep - y) / 3), (x + 2 * (far - x) / 3, y + 2 * (deep - y) / 3), point])

    for before, point, behind in zip(points, points[1:], points[2:]):
        start, end = near(point, before), near(point, behind)
        go(start)
        curve.extend([halfway(start, point), halfway(end, point), end])
    go(points[-1])
    return curve


def near(point, other):
    """The point where the corner at a point begins, on the line to another one."""
    x, y = other[0] - point[0], other[1] - point[1]
    part = min(0.5, ROUND / max(abs(x), abs(y)))
    return point[0] + part * x, point[1] + part * y


def halfway(one, other):
    return (one[0] + other[0]) / 2, (one[1] + other[1]) / 2


def column_curves(slices):
    """The curve of each dart's arc, from its crossing to the other one."""
    columns, arcs = Columns(slices), {}
    for end, dart in columns.darts.items():
        points, there = columns.trail(end)
        if end <= there:
            arcs[dart] = rounded(points)
            arcs[columns.darts[there]] = arcs[dart][::-1]
    return arcs
