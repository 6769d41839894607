"""The scan of a planar diagram, crossing by crossing, as `docs/SCAN.md` tells it: objects, and maps that are sums of dotted discs.

A crossing is its four arcs, an object its pairs of open arcs with its homological degree r and its shift q. A disc of two pairings is
named by the least of its arcs, and a map has a number modulo p for each set of dotted discs. Objects are numbered in the order of the
objects that they come from, the smoothing, and the labels of closed circles.
"""
from typing import NamedTuple


class Object(NamedTuple):
    """An object: its pairs, each with the lesser arc first, and both degrees."""

    pairs: tuple
    degree: int
    shift: int


class Scan(NamedTuple):
    """The scan behind some crossings: the open arcs, the objects by their numbers, and the maps by their two ends."""

    opened: tuple
    objects: dict
    maps: dict


class Origin(NamedTuple):
    """Where a new object comes from: an object, a smoothing, and a label, 0 for v+ and 1 for v-, of each circle that is closed."""

    tail: int
    smoothing: int
    labels: dict


FIRST = Scan((), {0: Object((), 0, 0)}, {})
PLAIN = frozenset()


def classes(points, *joins):
    """The least point of the class of each point."""
    least = {point: point for point in points}
    for one, other in (pair for pairs in joins for pair in pairs):
        low, high = sorted((least[one], least[other]))
        least = {point: low if name == high else name for point, name in least.items()}
    return least


def discs(points, *joins):
    return sorted(set(classes(points, *joins).values()))


def dotted(p, components, faces, strips, rims):
    """The map that a surface is: on each component its faces, each a place with its marks, its half strips, each a place with how many,
    and the discs at its rim. A component of genus g with 1 - g marks counts 2^g times; so each rim has a dot, or all but one."""
    made = {PLAIN: 1}
    for name in set(components.values()):
        here = [it for it in rims if components[it] == name]
        euler = 2 * len(here) + sum(2 for at, _ in faces if components[at] == name) - sum(n for at, n in strips if components[at] == name)
        genus, marks = (4 - euler) // 4, sum(marks for at, marks in faces if components[at] == name)
        bare = 1 - genus - marks
        choices = [] if bare < 0 else [frozenset(here)] if bare == 0 else [frozenset(here) - {it} for it in here]
        made = {dots | more: value * 2**genus % p for dots, value in made.items() for more in choices if 2**genus % p}
    return made


def add(p, maps, ends, terms, factor):
    """Adds a multiple of a map to the one between these ends."""
    here = dict(maps.get(ends, {}))
    for dots, value in terms.items():
        here[dots] = (here.get(dots, 0) + factor * value) % p
    maps[ends] = {dots: value for dots, value in here.items() if value}
    if not maps[ends]:
        del maps[ends]


def joined_by(crossing, smoothing):
    """What a smoothing joins."""
    i, j, k, l = crossing
    return [(i, l), (j, k)] if smoothing else [(i, j), (k, l)]


def open_behind(opened, crossing):
    """The open arcs with one crossing more."""
    ends = [*opened, *crossing]
    return tuple(sorted(it for it in ends if ends.count(it) == 1))


def origins(scan, crossing):
    """The origin of each new object, and the object."""
    points, opened = {*scan.opened, *crossing}, open_behind(scan.opened, crossing)
    for tail, old in sorted(scan.objects.items()):
        for smoothing in (0, 1):
            names = classes(points, old.pairs, joined_by(crossing, smoothing))
            ends = {name: tuple(it for it in opened if names[it] == name) for name in sorted(set(names.values()))}
            pairs = tuple(sorted(pair for pair in ends.values() if pair))
            closed = [name for name, pair in ends.items() if not pair]
            for bits in range(2 ** len(closed)):
                labels = {name: bits >> at & 1 for at, name in enumerate(closed)}
                shift = old.shift + sum(1 - 2 * label for label in labels.values())
                yield Origin(tail, smoothing, labels), Object(pairs, old.degree + smoothing, shift)


def new_map(p, scan, crossing, one, other, rims):
    """The map between two new objects: of the old one between their objects, or of the saddle."""
    m, n = scan.objects[one.tail].pairs, scan.objects[other.tail].pairs
    points, opened = {*scan.opened, *crossing}, open_behind(scan.opened, crossing)
    components = classes(points, m, joined_by(crossing, one.smoothing), n, joined_by(crossing, other.smoothing))
    ends = [*one.labels.items(), *((name, 1 - label) for name, label in other.labels.items())]
    strips = [*((it, 1) for it in scan.opened), *((it, -1) for it in opened)]
    made = {}
    if one.smoothing == other.smoothing:
        for dots, value in scan.maps.get((one.tail, other.tail), {}).items():
            faces = [(name, name in dots) for name in discs(scan.opened, m, n)]
            add(p, made, 0, dotted(p, components, faces + ends, strips, rims), value)
    elif one.tail == other.tail and one.smoothing == 0:
        faces = [(first, 0) for first, _ in m]
        add(p, made, 0, dotted(p, components, faces + ends, strips + [(crossing[0], 2)], rims), (-1) ** scan.objects[one.tail].degree)
    return made.get(0)


def added(p, scan, crossing):
    """The scan with one crossing more."""
    found, opened = list(origins(scan, crossing)), open_behind(scan.opened, crossing)
    maps = {}
    for tail, (one, first) in enumerate(found):
        for head, (other, second) in enumerate(found):
            made = new_map(p, scan, crossing, one, other, discs(opened, first.pairs, second.pairs))
            if made:
                maps[tail, head] = made
    return Scan(opened, {number: it for number, (_, it) in enumerate(found)}, maps)


def composed(p, scan, tail, between, head, first, second):
    """The second of two maps after the first, which meet at one pairing."""
    m, n, o = (scan.objects[it].pairs for it in (tail, between, head))
    components, made = classes(scan.opened, m, n, o), {}
    strips, rims = [(it, 1) for it in scan.opened], discs(scan.opened, m, o)
    before, behind = discs(scan.opened, m, n), discs(scan.opened, n, o)
    for dots, value in first.items():
        for others, factor in second.items():
            faces = [*((it, it in dots) for it in before), *((it, it in others) for it in behind)]
            add(p, made, 0, dotted(p, components, faces, strips, rims), value * factor)
    return made.get(0, {})


def number_at(scan, tail, head):
    """The number that the map between two objects is times the identity, or none."""
    terms = scan.maps.get((tail, head), {})
    return terms[PLAIN] if set(terms) == {PLAIN} and scan.objects[tail].pairs == scan.objects[head].pairs else None


def eliminated(p, scan, tail, head):
    """The scan without two objects between which the map is a number: the others less the ways through it."""
    factor, maps = -pow(number_at(scan, tail, head), -1, p), dict(scan.maps)
    for (x, y), first in scan.maps.items():
        for (z, w), second in scan.maps.items():
            if (y, z) == (head, tail) and x != tail and w != head:
                add(p, maps, (x, w), composed(p, scan, x, tail, w, first, second), factor)
    left = {number: it for number, it in scan.objects.items() if number not in (tail, head)}
    return Scan(scan.opened, left, {ends: terms for ends, terms in maps.items() if set(ends) <= set(left)})


def steps(p, crossings):
    """What is done at each crossing: the scan with it, the ends of what is eliminated then, and the scan that is left."""
    scan = FIRST
    for crossing in crossings:
        whole = scan = added(p, scan, crossing)
        ends = []
        while pivot := next((it for it in sorted(scan.maps) if number_at(scan, *it) is not None), None):
            ends.append(pivot)
            scan = eliminated(p, scan, *pivot)
        yield whole, ends, scan
