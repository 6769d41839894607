"""Realises Gauss codes in the plane: finds signs of their crossings with which a diagram has them.

A Gauss code names the crossings along each component, positive for a pass over, negative for one under. All crossings of a diagram can be
smoothed so that each piece becomes one closed curve that does not meet itself. A crossing is then a chord of that curve, inside or outside;
of two chords whose ends stand in turn one is inside and one is outside. Where sides can be given so, the chords contracted are a diagram.
(The idea is that of M. Dehn, Über kombinatorische Topologie, 1936.)
"""


class NotPlanar(Exception):
    """No diagram in the plane has the code; a crossing at which that shows."""

    def __init__(self, crossing):
        super().__init__(crossing)
        self.crossing = crossing


def smoothed(components):
    """A closed curve for each piece: the ends of passes by which it comes to and leaves its crossings, each pass in or out (0, 1)."""
    curves = [[((label, 0), (label, 1)) for label in them] for them in components if them]
    for crossing in range(1, sum(map(len, curves)) // 2 + 1):
        at = [(curve, place) for curve in curves for place, (end, _) in enumerate(curve) if abs(end[0]) == crossing]
        (one, first), (other, second) = at
        (comes, leaves), (far_comes, far_leaves) = one[first], other[second]
        if one is other:
            back = [(out, into) for into, out in reversed(one[first + 1 : second])]
            one[first : second + 1] = [(comes, far_comes), *back, (leaves, far_leaves)]
        else:
            one[first : first + 1] = [(comes, far_leaves), *other[second + 1 :], *other[:second], (far_comes, leaves)]
            curves = [curve for curve in curves if curve is not other]
    return curves


def sign_inside(crossing, ends):
    """The sign of a crossing whose chord is inside, given its four ends counterclockwise: positive where an over pass leaves behind the
    under pass that comes in."""
    return 1 if ends[(ends.index((-crossing, 0)) + 1) % 4] == (crossing, 1) else -1


def hands(components):
    """The signs of the crossings, and the number of parts of which each may be mirrored alone: the first crossing of each is positive."""
    signs, parts = {}, 0
    for curve in smoothed(components):
        places, inside = {}, {}
        for place, (end, _) in enumerate(curve):
            places.setdefault(abs(end[0]), []).append(place)
        for crossing, (one, other) in places.items():
            # (along a chord the curve comes to its crossing by both ends of one pass)
            if curve[one][0][0] != curve[other][0][0]:
                raise NotPlanar(crossing)
            inside[crossing] = sign_inside(crossing, [*curve[one], *curve[other]])
        for first in sorted(places):
            if first not in signs:
                parts += 1
                signs.update(part_of(first, places, inside))
    return [signs[crossing] for crossing in sorted(signs)], parts


def part_of(first, places, inside):
    """The signs of a crossing, which is positive, and of all whose sides follow from its own."""
    sides, todo = {first: inside[first]}, [first]
    for crossing in todo:
        low, high = places[crossing]
        for other, ends in places.items():
            if sum(low < end < high for end in ends) == 1:
                if other not in sides:
                    sides[other] = -sides[crossing]
                    todo.append(other)
                if sides[other] == sides[crossing]:
                    raise NotPlanar(other)
    return {crossing: side * inside[crossing] for crossing, side in sides.items()}
