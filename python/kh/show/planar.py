"""The plane diagram that a drawing shows: crossings and what joins them, pieces, faces, and the way along each component.

Crossings are numbered from 0, from the top of the page. A crossing has the corners 0 to 3, counterclockwise from the upper left. A dart
is a crossing with one of its corners: an end of an arc.
"""
from typing import NamedTuple


class Plane(NamedTuple):
    """For each crossing the lesser corner of its over strand, for each dart the other dart of its arc, and the number of loops."""

    overs: list
    partner: dict
    loops: int

    def is_over(self, dart):
        return dart[1] % 2 == self.overs[dart[0]]


def opposite(dart):
    """The dart across the crossing, on the same strand."""
    return dart[0], (dart[1] + 2) % 4


def classes(things, pairs):
    """The classes of things that these pairs join, in the order of the things."""
    class_of = {thing: [thing] for thing in things}
    for one, other in pairs:
        if class_of[one] is not class_of[other]:
            class_of[one] += class_of[other]
            class_of.update({thing: class_of[one] for thing in class_of[other]})
    return list({id(them): them for them in class_of.values()}.values())


def plane_of(slices):
    """The diagram of a drawing. A strand of the page begins at a cap or below a crossing; a cup joins two of them."""
    row, ends, joined, overs = [], [], [], []
    for word, position in slices:
        at = position - 1
        if word == "open":
            row[at:at] = [len(ends)] * 2
            ends.append([])
        elif word == "close":
            joined.append(row[at : at + 2])
            del row[at : at + 2]
        else:
            corners = row[at], len(ends), len(ends) + 1, row[at + 1]
            ends += [[], []]
            for corner, strand in enumerate(corners):
                ends[strand].append((len(overs), corner))
            row[at : at + 2] = corners[1:3]
            overs.append(0 if word == "left" else 1)
    arcs = [[dart for strand in them for dart in ends[strand]] for them in classes(range(len(ends)), joined)]
    partner = {dart: other for arc in arcs if arc for dart, other in (arc, arc[::-1])}
    return Plane(overs, partner, arcs.count([]))


def pieces_of(plane):
    """The crossings of each piece, by their numbers."""
    pairs = [(one[0], other[0]) for one, other in plane.partner.items()]
    return sorted(map(sorted, classes(range(len(plane.overs)), pairs)))


def faces_of(plane, crossings):
    """The darts around each face of a piece, which has the face at the left of each."""
    faces, seen = [], set()
    for start in ((crossing, corner) for crossing in crossings for corner in range(4)):
        face, dart = [], start
        while dart not in seen:
            seen.add(dart)
            face.append(dart)
            crossing, corner = plane.partner[dart]
            dart = crossing, (corner - 1) % 4
        if face:
            faces.append(face)
    return faces


def walk_from(plane, start):
    """The darts by which a strand leaves the crossings, along its component, from this one on."""
    walk, dart = [], start
    while dart != start or not walk:
        walk.append(dart)
        dart = opposite(plane.partner[dart])
    return walk


class Component(NamedTuple):
    """The darts by which a component leaves its crossings, and whether this is known to be its direction."""

    walk: list
    is_directed: bool


def components_of(plane, leaving):
    """The components that have crossings, in the direction that some of these darts say, and in any where none does."""
    found, seen = [], set()
    for start in [*leaving, *sorted(plane.partner)]:
        if start not in seen:
            walk = walk_from(plane, start)
            seen.update(walk, (plane.partner[dart] for dart in walk))
            found.append(Component(walk, start in leaving))
    return found


def first_passes(plane):
    """What a drawing tells of directions without its code: in each piece the first crossing is entered below at its upper left."""
    return [(piece[0], 2) for piece in pieces_of(plane) if plane.overs[piece[0]] == 1]
