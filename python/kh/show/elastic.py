"""Bends the strands of a piece as elastic threads: they keep away from each other, cross at right angles, and bend as little as they can.

A place is a list of numbers: the x of all points, then their y. Only points of one face keep away from each other, since other strands
stand between all others. No step lets a strand go through another one.
"""
import functools

from .descent import descended
from .energies import WALL, add_bend, add_length, add_near, add_square, add_walls

# How much points keep away from each other, and the part of that which counts in the outer face.
NEAR, OUTSIDE = 18.0, 0.5
# How stiff the threads are, first so that they come apart, then so that they are smooth; and how many steps there are for each.
STAGES = ((0.1, 80), (8.0, 250))


def bends_of(piece):
    """Each three points that follow one another on a strand."""
    found = [it for chain in piece.chains.values() if chain <= chain[::-1] for it in zip(chain, chain[1:], chain[2:])]
    for at, crossing in enumerate(piece.crossings):
        for corner in (0, 1):
            found.append((piece.chains[crossing, corner][1], at, piece.chains[crossing, corner + 2][1]))
    return found


def crosses_of(piece):
    """Each crossing with its four neighbours, counterclockwise."""
    return [(at, *(piece.chains[crossing, corner][1] for corner in range(4))) for at, crossing in enumerate(piece.crossings)]


def near_pairs(piece):
    """The pairs of points that keep away from each other, with how much they do; those side by side on a strand do not."""
    pairs = {}
    for face in piece.faces:
        weight = OUTSIDE if face is piece.faces[-1] else 1.0
        for at, one in enumerate(face):
            for before, other in enumerate(face[:at]):
                if 2 <= at - before <= len(face) - 2 and one != other:
                    pair = min(one, other), max(one, other)
                    pairs[pair] = pairs.get(pair, 0.0) + weight
    return [(*pair, weight) for pair, weight in pairs.items()]


def side_pairs(piece):
    """The pairs of sides of one face that have no point in common: these may not cross."""
    found = set()
    for face in piece.faces:
        sides = list(zip(face, face[1:] + face[:1]))
        found.update((*other, *side) for at, side in enumerate(sides) for other in sides[:at] if not {*side} & {*other})
    return sorted(found)


def turn(a, b, c, xs, ys):
    """Above 0 where one turns left at b on the way from a to c."""
    return (xs[b] - xs[a]) * (ys[c] - ys[a]) - (ys[b] - ys[a]) * (xs[c] - xs[a])


def is_around(middle, ring, xs, ys):
    """Whether four points are around a crossing in this order, counterclockwise."""
    right = [at for at in range(4) if turn(middle, ring[at], ring[(at + 1) % 4], xs, ys) <= 0]
    if not right:
        return True
    return len(right) == 1 and all(turn(middle, ring[(right[0] + at) % 4], ring[(right[0] + at + 2) % 4], xs, ys) > 0 for at in (1, 2))


class Threads:
    """The strands of a piece: what bends, what is near, and what may not be crossed."""

    def __init__(self, piece):
        self.count, self.chains = piece.count, [it for it in piece.chains.values() if it <= it[::-1]]
        self.bends, self.crosses, self.pairs, self.sides = bends_of(piece), crosses_of(piece), near_pairs(piece), side_pairs(piece)
        self.scale = NEAR / (len(self.chains[0]) - 1) ** 2
        self.steps = [step for chain in piece.chains.values() for step in zip(chain, chain[1:])]
        self.beside = [[] for _ in range(piece.count)]
        for one, other in self.steps:
            self.beside[one].append(other)
        self.corners = []
        for middle, *ring in self.crosses:
            for one, other in zip(ring, ring[1:] + ring[:1]):
                self.corners += [(one, middle, other), (other, middle, one)]

    def only(self, free):
        """Leaves out what does not change while these points alone move."""
        def some(them, count):
            return [it for it in them if not free.isdisjoint(it[:count])]

        self.bends, self.crosses, self.pairs = some(self.bends, 3), some(self.crosses, 5), some(self.pairs, 2)
        self.sides, self.corners = some(self.sides, 4), some(self.corners, 3)
        self.chains = [it for it in self.chains if not free.isdisjoint(it)]

    def energy(self, stiff, place):
        """The energy of a place and its slope."""
        xs, ys, across, down = place[: self.count], place[self.count :], [0.0] * self.count, [0.0] * self.count
        longest = max((xs[a] - xs[b]) * (xs[a] - xs[b]) + (ys[a] - ys[b]) * (ys[a] - ys[b]) for a, b in self.steps)
        energy, close = add_near(self.pairs, self.scale, WALL * WALL + longest / 4, xs, ys, across, down)
        energy += add_walls(self.corners, close, self.beside, xs, ys, across, down)
        energy += add_bend(self.bends, stiff, xs, ys, across, down)
        energy += add_square(self.crosses, xs, ys, across, down)
        energy += add_length(self.chains, xs, ys, across, down)
        return energy, across + down

    def is_plane(self, place):
        """Whether strands meet at crossings alone, and there in their order."""
        xs, ys = place[: self.count], place[self.count :]
        for a, b, c, d in self.sides:
            x, y, far, deep = xs[a], ys[a], xs[b] - xs[a], ys[b] - ys[a]  # (two times `turn`, which is called too often for a call)
            if (far * (ys[c] - y) - deep * (xs[c] - x) > 0) != (far * (ys[d] - y) - deep * (xs[d] - x) > 0):
                if (turn(c, d, a, xs, ys) > 0) != (turn(c, d, b, xs, ys) > 0):
                    return False
        return all(is_around(middle, ring, xs, ys) for middle, *ring in self.crosses)


def bent(piece, xs, ys):
    """Where the points of a piece stand when its strands have come to rest, from places at which they meet at crossings alone."""
    threads, place = Threads(piece), xs + ys
    for stiff, steps in STAGES:
        place = descended(functools.partial(threads.energy, stiff), threads.is_plane, place, steps)
    return place[: piece.count], place[piece.count :]
