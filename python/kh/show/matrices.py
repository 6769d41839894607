"""The matrices of the differential between the generators of a diagram, over the integers, with what they come to.

A generator is a state with a label on each of its circles, in their order. Along an edge of the cube merging circles multiply their labels,
a circle that splits spreads its label, and the sign is that of the ones before the crossing that changes (Bar-Natan 2002, On Khovanov's
categorification of the Jones polynomial, section 3).
"""
import itertools
from typing import NamedTuple

from ..commands import Unreadable
from .generators import State, edges_of

PLUS, MINUS = 1, -1
# Which labels a merge and a split make.
MERGED = {(PLUS, PLUS): PLUS, (PLUS, MINUS): MINUS, (MINUS, PLUS): MINUS}
SPLIT = {PLUS: ((PLUS, MINUS), (MINUS, PLUS)), MINUS: ((MINUS, MINUS),)}


class Generator(NamedTuple):
    """A state, and the label of each circle."""

    state: State
    labels: tuple


def generators_at(found):
    """The generators of these states (as `by_degrees` has them), by their states and by the places of the labels v-."""
    generators = []
    for state, _, minuses in found:
        for places in itertools.combinations(range(len(state.circles)), minuses):
            generators.append(Generator(state, tuple(MINUS if it in places else PLUS for it in range(len(state.circles)))))
    return generators


def images(edge, labels):
    """The labels of the generators at the head of an edge that one at its tail goes to."""
    tail, head = edge.tail.circles, edge.head.circles
    kept = {tuple(circle): label for circle, label in zip(tail, labels)}
    mine = [circle for circle in tail if circle not in head]
    theirs = [circle for circle in head if circle not in tail]
    values = tuple(kept[tuple(it)] for it in mine)
    made = [(MERGED[values],)] if len(mine) == 2 and values in MERGED else [] if len(mine) == 2 else SPLIT[values[0]]
    for new in made:
        there = {**kept, **dict(zip(map(tuple, theirs), new))}
        yield tuple(there[tuple(circle)] for circle in head)


class Differential:
    """The differential of all states of a diagram, by the edges that leave each state."""

    def __init__(self, states):
        self.leaving = {}
        for edge in edges_of(states):
            self.leaving.setdefault(edge.tail.bits, []).append(edge)

    def matrix(self, columns, rows):
        """The matrix from some generators to others: a row for each of these, a column for each of those."""
        place = {(it.state.bits, it.labels): at for at, it in enumerate(rows)}
        matrix = [[0] * len(columns) for _ in rows]
        for at, it in enumerate(columns):
            for edge in self.leaving.get(it.state.bits, ()):
                sign = -1 if sum(edge.tail.bits[: edge.crossing]) % 2 else 1
                for labels in images(edge, it.labels):
                    matrix[place[edge.head.bits, labels]][at] = sign
        return matrix


def divisors(matrix):
    """The elementary divisors of a matrix over the integers: the numbers on the diagonal that row and column operations leave."""
    rows, found = [row[:] for row in matrix if any(row)], []
    while rows:
        places = ((row, k) for row, them in enumerate(rows) for k, it in enumerate(them) if it)
        at, column = min(places, key=lambda it: abs(rows[it[0]][it[1]]))
        pivot = rows[at]
        for other in (it for it in rows if it is not pivot and it[column]):
            part = other[column] // pivot[column]
            other[:] = [one - part * its for one, its in zip(other, pivot)]
        if any(it[column] for it in rows if it is not pivot):
            continue
        if any(it % pivot[column] for it in pivot):
            for k, it in enumerate(pivot):
                if k != column and it:
                    part = it // pivot[column]
                    for row in rows:
                        row[k] -= part * row[column]
            continue
        wrong = next((it for it in rows if it is not pivot and any(one % pivot[column] for one in it)), None)
        if wrong:
            pivot[:] = [one + its for one, its in zip(pivot, wrong)]
            continue
        found.append(abs(pivot[column]))
        rows = [it for it in rows if it is not pivot and any(it)]
    return found


def rank(numbers, field):
    """The rank over a field of a matrix with these elementary divisors."""
    return sum(it % field != 0 for it in numbers)


def refuse_other_ranks(counts, ranks, dimensions, place):
    """Refuses a table whose dimension at a place is not what generators and ranks come to."""
    if counts - sum(ranks) != dimensions:
        raise Unreadable(f"at {place} the matrices come to {counts - sum(ranks)}, and the table has {dimensions}")
