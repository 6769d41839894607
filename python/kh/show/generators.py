"""The states of a code with their circles, and the generators that stand at a pair of degrees.

They are counted from the code alone, and their sum by signs is compared with the Jones line of `kh`.
"""
import itertools
import math
from collections import Counter
from typing import NamedTuple

from ..commands import Unreadable
from ..laurent import Polynomial
from .planar import classes

# The crossings up to which all states are counted, up to which they are listed, and up to which they are drawn.
MOST_COUNTED, MOST_LISTED, MOST_DRAWN = 12, 6, 6


class State(NamedTuple):
    """A state: its choices in the order of the crossings, and its circles, each a list of arcs, by their least arcs."""

    bits: tuple
    circles: list

    def text(self):
        return "".join(map(str, self.bits))

    def name(self):
        return self.text() or "the one state"


def joins_of(arcs, bit):
    """The places, from 0, of the arcs at a crossing that its smoothing joins: `X[i,j,k,l]` at 0 joins i with j and k with l, at 1 i with l
    and j with k."""
    return ((0, 3), (1, 2)) if bit else ((0, 1), (2, 3))


def state_of(crossings, loops, bits):
    """The state of these choices."""
    arcs = range(1, 2 * len(crossings) + 1)
    pairs = [(at[one], at[other]) for at, bit in zip(crossings, bits) for one, other in joins_of(at, bit)]
    circles = [sorted(it) for it in classes(arcs, pairs)]
    return State(tuple(bits), sorted(circles + [[2 * len(crossings) + number] for number in range(1, loops + 1)]))


def states_of(crossings, loops):
    """All states, by the number of their ones."""
    every = [state_of(crossings, loops, bits) for bits in itertools.product((0, 1), repeat=len(crossings))]
    return sorted(every, key=lambda it: (sum(it.bits), [-bit for bit in it.bits]))


class Degrees(NamedTuple):
    """The positive and the negative crossings, by which degrees are counted."""

    plus: int
    minus: int

    def homological(self, state):
        return sum(state.bits) - self.minus

    def quantum(self, state, minuses):
        """The quantum degree of the generators of a state with so many labels v-."""
        return len(state.circles) - 2 * minuses + sum(state.bits) + self.plus - 2 * self.minus

    def of(self, state):
        """The quantum degrees of a state's generators, each with how many there are, from the least."""
        count = len(state.circles)
        return [(self.quantum(state, minuses), math.comb(count, minuses)) for minuses in range(count, -1, -1)]


def by_degrees(states, degrees):
    """For each pair of degrees (j, i) the states whose generators stand there, each with how many and with the labels v- of each."""
    found = {}
    for state in states:
        for minuses in range(len(state.circles) + 1):
            at = degrees.quantum(state, minuses), degrees.homological(state)
            found.setdefault(at, []).append((state, math.comb(len(state.circles), minuses), minuses))
    return found


def refuse_other_sum(states, degrees, jones):
    """Refuses a Jones line that is not the sum of all generators by signs, as no answer of `kh` is."""
    sums = Counter()
    for (j, i), them in by_degrees(states, degrees).items():
        sums[j] += (-1 if i % 2 else 1) * sum(count for _, count, _ in them)
    if Polynomial(sums) != jones:
        raise Unreadable("the generators of the states do not add up to the Jones line")


class Edge(NamedTuple):
    """An edge of the cube: the state that it leaves, the one that it leads to, the crossing that is changed, from 0."""

    tail: State
    head: State
    crossing: int

    def kind(self):
        return "merge" if len(self.head.circles) < len(self.tail.circles) else "split"


def edges_of(states):
    """The edges of the cube, by the states that they leave."""
    known = {state.bits: state for state in states}
    for state in states:
        for at in (at for at, bit in enumerate(state.bits) if not bit):
            yield Edge(state, known[state.bits[:at] + (1,) + state.bits[at + 1 :]], at)
