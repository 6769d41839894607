"""Spreads a piece of a plane diagram evenly over a page, roughly: a net of triangles between its strands is pulled into shape.

Each arc has some points. Each face but the outer one is filled with triangles around its middle, and the outer face with triangles up to a
ring of fixed points. At first each point stands amid its neighbours, which no two strands can cross in (Tutte 1963, How to draw a graph).
Then the triangles are pulled towards those of ideal faces, whose sides all are arcs of one length that meet at right angles; no step turns
a triangle over. All is done with sums, products, quotients and square roots, so that all machines come to the same.
"""
import math
from typing import NamedTuple

from .planar import faces_of

# The length of each arc of an ideal face.
ARC = 6.0
# How much it matters that triangles have the size of ideal ones, beside their angles, and how much those of the outer face matter.
SIZE, OUTSIDE = 0.3, 0.01
# The height that triangles have when they need no more room, how many steps come then, and how many there are at most.
ENOUGH, LAST, MOST = 0.1, 40, 250
# How far the ring of fixed points is, beside the square root of the area of all ideal triangles.
RING = 1.5
# How often points are moved amid their neighbours before it is given up.
TRIES = 30


class Piece(NamedTuple):
    """A piece of a diagram as points, of which the crossings are the first: the points along the arc of each dart, with both crossings;
    the points around each face, of which the outer one, with the most arcs, comes last; how many points there are."""

    crossings: list
    chains: dict
    faces: list
    count: int


def piece_of(plane, crossings, between, outer_dart=None):
    """A piece with so many points between the ends of each arc; the face of a dart is its outer one, where one is said."""
    place, count, chains = {crossing: at for at, crossing in enumerate(crossings)}, len(crossings), {}
    for dart in ((crossing, corner) for crossing in crossings for corner in range(4)):
        if dart not in chains:
            other = plane.partner[dart]
            chains[dart] = [place[dart[0]], *range(count, count + between), place[other[0]]]
            chains[other] = chains[dart][::-1]
            count += between
    every = faces_of(plane, crossings)
    faces = [[point for dart in face for point in chains[dart][:-1]] for face in every]
    outer = next((them for face, them in zip(every, faces) if outer_dart in face), None) or max(faces, key=len)
    return Piece(crossings, chains, [it for it in faces if it is not outer] + [outer], count)


def turned(turns):
    """The cosine and the sine of so many full turns."""
    angle, term, sums = 2 * math.pi * (turns - math.floor(turns + 0.5)), 1.0, [1.0, 0.0]
    for number in range(1, 40):
        term *= (-angle if number % 2 == 0 else angle) / number
        sums[number % 2] += term
    return sums


def ideal_face(sides, between):
    """The points of an ideal face around its middle: each side bends alike, and sides meet at right angles."""
    x = y = turns = 0.0
    points = []
    for _ in range(sides):
        for number in range(between + 1):
            points.append((x, y))
            across, down = turned(turns)
            x, y = x + across * ARC / (between + 1), y + down * ARC / (between + 1)
            turns += (1 / sides - 0.25) / between if number < between else 0.25
    middle = [math.fsum(it) / len(points) for it in zip(*points)]
    return [(x - middle[0], y - middle[1]) for x, y in points]


class Triangle(NamedTuple):
    """Three points counterclockwise, the inverse of the matrix of the ideal triangle's two sides from the first, and its weight."""

    points: tuple
    inverse: tuple
    weight: float


def triangle(points, ideal, weight=None):
    """A triangle whose ideal is this; it weighs as much as its area is where nothing else is said."""
    (x, y), (ux, uy), (vx, vy) = ideal
    ux, uy, vx, vy = ux - x, uy - y, vx - x, vy - y
    area = ux * vy - uy * vx
    return Triangle(points, (vy / area, -vx / area, -uy / area, ux / area), area / 2 if weight is None else weight)


def face_triangles(face, between, count):
    """The triangles of an inner face, and how many points there are with those in it: its middle, and a ring around that where the face
    comes to a crossing twice."""
    ideal, size = ideal_face(len(face) // (between + 1), between), len(face)
    rings, ideals = [face], [ideal]
    if len(set(face)) < size:
        rings.append(list(range(count, count + size)))
        ideals.append([(x / 2, y / 2) for x, y in ideal])
        count += size
    found = []
    for at in range(size):
        behind = (at + 1) % size
        for ring, inner, its, others in zip(rings, rings[1:], ideals, ideals[1:]):
            found.append(triangle((ring[at], ring[behind], inner[at]), (its[at], its[behind], others[at])))
            found.append(triangle((ring[behind], inner[behind], inner[at]), (its[behind], others[behind], others[at])))
        found.append(triangle((count, rings[-1][at], rings[-1][behind]), ((0.0, 0.0), ideals[-1][at], ideals[-1][behind])))
    return found, count + 1


def amid(neighbours, xs, ys, free, triangles):
    """Moves each free point amid its neighbours, again and again, and tells whether all triangles are as they should be."""
    for _ in range(TRIES):
        for _ in range(25):
            for point in range(free):
                near = neighbours[point]
                xs[point] += 1.5 * (math.fsum(xs[it] for it in near) / len(near) - xs[point])
                ys[point] += 1.5 * (math.fsum(ys[it] for it in near) / len(near) - ys[point])
        if all(doubled_area(points, xs, ys) > 0 for points in triangles):
            return True
    return False


def doubled_area(points, xs, ys):
    a, b, c = points
    return (xs[b] - xs[a]) * (ys[c] - ys[a]) - (ys[b] - ys[a]) * (xs[c] - xs[a])


def pulls(triangles, xs, ys):
    """What the triangles would have each point do less of: the gradient of how far each is from its ideal, by angles and size."""
    across, down = [0.0] * len(xs), [0.0] * len(ys)
    for (a, b, c), (i, j, k, l), weight in triangles:
        ux, uy, vx, vy = xs[b] - xs[a], ys[b] - ys[a], xs[c] - xs[a], ys[c] - ys[a]
        # (the matrix that takes the ideal triangle to this one, and its determinant)
        p, q, r, s = ux * i + vx * k, ux * j + vx * l, uy * i + vy * k, uy * j + vy * l
        size = p * s - q * r
        one = 2 * weight / size
        other = weight * (SIZE * (1 - 1 / (size * size)) - (p * p + q * q + r * r + s * s) / (size * size))
        p, q, r, s = one * p + other * s, one * q - other * r, one * r - other * q, one * s + other * p
        across[b] += p * i + q * j
        across[c] += p * k + q * l
        across[a] -= p * (i + k) + q * (j + l)
        down[b] += r * i + s * j
        down[c] += r * k + s * l
        down[a] -= r * (i + k) + s * (j + l)
    return across, down


def rooms(triangles, xs, ys):
    """For each point the least height of a triangle that it is in: none turns over while all points move by less than a third."""
    room = [math.inf] * len(xs)
    for points in triangles:
        a, b, c = points
        sides = [(xs[one] - xs[other], ys[one] - ys[other]) for one, other in ((a, b), (b, c), (c, a))]
        height = doubled_area(points, xs, ys) / math.sqrt(max(x * x + y * y for x, y in sides))
        for point in points:
            room[point] = min(room[point], height)
    return room


def pulled(inner, outer, xs, ys, free):
    """Pulls the triangles into shape, each point by a part of the room that it has. Those of the outer face are held by how they are."""
    every, left = [it.points for it in inner] + outer, LAST
    for number in range(MOST):
        if number % 10 == 0:
            held = [triangle(it, [(xs[point], ys[point]) for point in it], OUTSIDE) for it in outer]
        across, down = pulls(inner + held, xs, ys)
        room = rooms(every, xs, ys)
        left -= min(room) >= ENOUGH
        if not left:
            return
        part = 0.1 + 0.23 * left / LAST
        for point in range(free):
            x, y = across[point], down[point]
            length = math.sqrt(x * x + y * y)
            if length:
                xs[point] -= part * room[point] * x / length
                ys[point] -= part * room[point] * y / length


def net_of(piece, between):
    """The triangles of the inner faces of a piece, the points of those of the outer face, and how many points are not fixed."""
    inner, count = [], piece.count
    for face in piece.faces[:-1]:
        found, count = face_triangles(face, between, count)
        inner += found
    face, ring = piece.faces[-1], range(count, count + len(piece.faces[-1]))
    outer = []
    for at in range(len(face)):
        outer += [(face[at - 1], face[at], ring[at - 1]), (face[at], ring[at], ring[at - 1])]
    return inner, outer, count


def spread(piece, between):
    """Where the points of a piece stand: their x and their y, upwards; nothing where curls lie in each other too deeply for that."""
    inner, outer, free = net_of(piece, between)
    every, count = [it.points for it in inner] + outer, len(piece.faces[-1])
    xs, ys = [0.0] * free, [0.0] * free
    area = math.fsum(it.weight for it in inner)
    for at in range(count):
        across, up = turned(-at / count)
        xs.append(-RING * math.sqrt(area) * up)
        ys.append(RING * math.sqrt(area) * across)
    neighbours = [set() for _ in xs]
    for points in every:
        for point in points:
            neighbours[point].update(points)
    if not amid([sorted(it - {point}) for point, it in enumerate(neighbours)], xs, ys, free, every):
        return None
    scale = math.sqrt(2 * area / math.fsum(doubled_area(it.points, xs, ys) for it in inner))
    xs, ys = [scale * x for x in xs], [scale * y for y in ys]
    pulled(inner, outer, xs, ys, free)
    return xs[: piece.count], ys[: piece.count]
