"""Finds a place of little energy, step by step downhill, with what the last steps tell of how the slope bends.

It is the method of Nocedal (1980, Updating quasi-Newton matrices with limited storage). Sums are rounded once, so that all machines come to
the same place.
"""
import math
import operator

REMEMBERED = 10
# What a step may move a number by, and the least that is tried; a decrease that counts for none, and how many of them end the search.
FARTHEST, NEAREST, LITTLE, PATIENCE = 0.3, 1e-7, 1e-6, 3


def dot(one, other):
    return math.fsum(map(operator.mul, one, other))


def along(place, length, way):
    return [it + length * step for it, step in zip(place, way)]


def downhill(slope, memory):
    """The way to go: against the slope, as the remembered steps and changes of slope bend it."""
    way, parts = slope, []
    for step, change, product in reversed(memory):
        parts.append(dot(step, way) / product)
        way = along(way, -parts[-1], change)
    if memory:
        _, change, product = memory[-1]
        scale = product / dot(change, change)
        way = [scale * it for it in way]
    for (step, change, product), part in zip(memory, reversed(parts)):
        way = along(way, part - dot(change, way) / product, step)
    return [-it for it in way]


def stepped(energy, is_allowed, place, value, slope, way, nearest):
    """The place behind a step that way, with its energy and slope: as far as one may go and it pays; or nothing."""
    fall, farthest = dot(way, slope), max(map(abs, way))
    length = min(1.0, FARTHEST / farthest) if farthest else 0.0
    while length * farthest > nearest:
        there = along(place, length, way)
        found = energy(there)
        if found[0] <= value + 1e-4 * length * fall and is_allowed(there):
            return there, *found
        length /= 2
    return None


def descended(energy, is_allowed, place, steps, nearest=NEAREST):
    """A place of little energy that is found in so many steps from here, none of them shorter than this. The energy of a place comes with
    its slope."""
    (value, slope), memory, idle = energy(place), [], 0
    for _ in range(steps):
        found = stepped(energy, is_allowed, place, value, slope, downhill(slope, memory), nearest)
        if found is None and not memory or idle == PATIENCE:
            break
        if found is None:
            memory = []
            continue
        there, lower, steeper = found
        step, change = along(there, -1, place), along(steeper, -1, slope)
        product = dot(step, change)
        memory = (memory + [(step, change, product)])[-REMEMBERED:] if product > 1e-14 else memory
        idle = idle + 1 if value - lower < LITTLE * value else 0
        place, value, slope = there, lower, steeper
    return place
