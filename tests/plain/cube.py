"""A plain second reading of the cube: circles, generators, the differential, blocks, tables over a field, and state sums.

It was written from the definitions alone and is for diagrams of a few crossings. `blocks(diagram)` gives, for each quantum degree and
each homological degree, the generators; with a mark it gives those of the reduced complex. `table(..)` and `jones_line(..)` give the
lines that the program writes; `generator_count(..)` and `jones_line(..)` go crossing by crossing, so they take any diagram.
"""
import functools
from collections import Counter, defaultdict

from plain.diagrams import classes, code_of

# What a merge and a split make of the labels of the circles that they touch; 1 is v-, of degree -1.
MERGED = {(0, 0): [(0,)], (0, 1): [(1,)], (1, 0): [(1,)], (1, 1): []}
SPLIT = {(0,): [(0, 1), (1, 0)], (1,): [(1, 1)]}


def minus_of(diagram):
    return sum(not crossing.positive for crossing in diagram.crossings)


def joins_of(slots, smoothing):
    """The pairs of arcs that a smoothing joins: the 0-smoothing the slots 0 and 1, and 2 and 3; the other one 0 and 3, and 1 and 2."""
    i, j, k, l = slots
    return ((i, l), (j, k)) if smoothing else ((i, j), (k, l))


@functools.lru_cache(maxsize=4096)
def circles(code, state):
    """The circles of a state, each a set of arcs, by their least arcs; loops come last."""
    count = len(code.crossings)
    pairs = (pair for at, slots in enumerate(code.crossings) for pair in joins_of(slots, state >> at & 1))
    names = range(2 * count + 1, 2 * count + code.loops + 1)
    return [frozenset(them) for them in classes(range(1, 2 * count + 1), pairs)] + [frozenset([name]) for name in names]


def degrees(diagram, state, label, mark=None):
    """The homological and the quantum degree; the reduced complex has the latter raised by one."""
    count, minus = len(circles(code_of(diagram), state)), minus_of(diagram)
    ones, plus = state.bit_count(), len(diagram.crossings) - minus
    return ones - minus, count - 2 * label.bit_count() + ones + plus - 2 * minus + (mark is not None)


def blocks(diagram, mark=None):
    """For each quantum degree the generators of each homological degree, by state, then by label: a bit of 1 is v-."""
    found, code = defaultdict(lambda: defaultdict(list)), code_of(diagram)
    for state in range(2 ** len(code.crossings)):
        them = circles(code, state)
        marked = next((at for at, circle in enumerate(them) if mark in circle), None)
        for label in range(2 ** len(them)):
            if mark is None or label >> marked & 1:
                i, j = degrees(diagram, state, label, mark)
                found[j][i].append((state, label))
    return {j: dict(found[j]) for j in sorted(found)}


def edges(code, state, label):
    """What the differential makes of a generator: generators with their signs."""
    before = circles(code, state)
    kept = {circle: label >> at & 1 for at, circle in enumerate(before)}
    for at in range(len(code.crossings)):
        if state >> at & 1:
            continue
        head = state | 1 << at
        after = circles(code, head)
        old, new = ([circle for circle in them if circle not in others] for them, others in ((before, after), (after, before)))
        rows = (MERGED if len(old) == 2 else SPLIT)[tuple(kept[circle] for circle in old)]
        sign = (-1) ** (state & ((1 << at) - 1)).bit_count()
        for row in rows:
            labels = {**kept, **dict(zip(new, row))}
            yield (head, sum(labels[circle] << place for place, circle in enumerate(after))), sign


def columns(code, tails, heads, field):
    """The differential between two lists of generators: for each of the first its entries by the places of the second."""
    place = {generator: at for at, generator in enumerate(heads)}
    found = []
    for tail in tails:
        column = Counter()
        for head, sign in edges(code, *tail):
            column[place[head]] += sign
        found.append({row: value % field for row, value in column.items() if value % field})
    return found


def rank(matrix, field):
    """The rank of a matrix, a list of columns: each is reduced by those before it that have its greatest row."""
    lows = {}
    for column in map(dict, matrix):
        while column and max(column) in lows:
            other = lows[max(column)]
            factor = column[max(column)] * pow(other[max(column)], -1, field)
            for row, value in other.items():
                left = (column.get(row, 0) - factor * value) % field
                column.pop(row, None)
                if left:
                    column[row] = left
        if column:
            lows[max(column)] = column
    return len(lows)


def ranks(diagram, field, mark=None):
    """For each quantum degree the generators and the rank of the differential out of each homological degree."""
    code = code_of(diagram)
    for j, lists in blocks(diagram, mark).items():
        yield j, {i: (len(lists[i]), rank(columns(code, lists[i], lists.get(i + 1, []), field), field)) for i in sorted(lists)}


@functools.lru_cache(maxsize=4096)
def dimensions(diagram, field, mark=None):
    """The dimensions above 0 by quantum and homological degree, in the order of the table."""
    found = {}
    for j, sizes in ranks(diagram, field, mark):
        for i, (count, leaving) in sizes.items():
            dimension = count - leaving - sizes.get(i - 1, (0, 0))[1]
            if dimension:
                found[j, i] = dimension
    return found


@functools.lru_cache(maxsize=4096)
def turns(diagram, field):
    """For each quantum degree how many cancellations bring its block to zero: the sum of its ranks."""
    return {j: sum(leaving for _, leaving in sizes.values()) for j, sizes in ranks(diagram, field)}


def table_text(found, field):
    return f"table 2\nfield {field}\n" + "".join(f"j {j} i {i} dim {dimension}\n" for (j, i), dimension in found.items())


def table(diagram, field, mark=None):
    return table_text(dimensions(diagram, field, mark), field)


def characteristic(found):
    """The Euler characteristic of dimensions: a sum for each quantum degree."""
    sums = Counter()
    for (j, i), dimension in found.items():
        sums[j] += -dimension if i % 2 else dimension
    return {j: value for j, value in sums.items() if value}


def with_path(ends, one, other):
    """The joined open ends with a path more between two arcs, and whether this closes a circle."""
    ends = dict(ends)
    if one == other or ends.get(one) == other:
        ends.pop(one, None), ends.pop(other, None)
        return ends, True
    for arc in (one, other):
        if arc in ends:
            far = ends.pop(arc)
            one, other = (far if arc == one else one), (far if arc == other else other)
    ends[one], ends[other] = other, one
    return ends, False


def over_states(code, closed, one_smoothing):
    """A sum over all states, crossing by crossing: `closed` and `one_smoothing` say what a circle and a 1-smoothing make of a term."""
    sums = {(): Counter({0: 1})}
    for slots in code.crossings:
        after = defaultdict(Counter)
        for ends, term in sums.items():
            for smoothing in (0, 1):
                now, value = ends, one_smoothing(term) if smoothing else term
                for pair in joins_of(slots, smoothing):
                    now, closes = with_path(now, *pair)
                    value = closed(value) if closes else value
                after[tuple(sorted(dict(now).items()))].update(value)
        sums = after
    whole = sums[()]
    for _ in range(code.loops):
        whole = closed(whole)
    return whole


def shifted(term, exponent, factor=1):
    return Counter({at + exponent: factor * value for at, value in term.items()})


def with_circle(term):
    """Times q + q^-1."""
    whole = shifted(term, 1)
    whole.update(shifted(term, -1))
    return whole


@functools.lru_cache(maxsize=4096)
def generator_count(code):
    """The sum of 2 to the number of circles, over all states."""
    return over_states(code, lambda term: shifted(term, 0, 2), lambda term: term)[0]


@functools.lru_cache(maxsize=4096)
def state_sum(diagram):
    """The coefficients of the unnormalised Jones polynomial, by their exponents."""
    minus = minus_of(diagram)
    whole = over_states(code_of(diagram), with_circle, lambda term: shifted(term, 1, -1))
    whole = shifted(whole, len(diagram.crossings) - 3 * minus, (-1) ** minus)
    return {at: whole[at] for at in sorted(whole) if whole[at]}


def polynomial_line(coefficients):
    return "jones " + (" ".join(f"{value}*q^{at}" for at, value in coefficients.items()) or "0") + "\n"


def jones_line(diagram):
    return polynomial_line(state_sum(diagram))
