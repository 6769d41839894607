"""What becomes of the arcs of a diagram at a move: where on its old strands each new arc comes from.

A dart is a crossing of the code, from 0, with one of its slots: an end of an arc. Crossings that a move drops are those that its line
names; those that it adds come last.
"""
import itertools
from typing import NamedTuple


class Came(NamedTuple):
    """The old darts along which a new arc comes, from its dart on, and the part of that way, from 0 to 1, where it is a part."""

    darts: tuple
    start: float = 0.0
    end: float = 1.0


class Passage(NamedTuple):
    """For each new dart where its arc comes from; for each crossing that stays the old one; the crossings of a triangle that is slid, and
    the old darts of its sides; those that are dropped (old) and those that are added (new)."""

    came: dict
    kept: dict
    slid: tuple = ()
    sides: tuple = ()
    dropped: tuple = ()
    added: tuple = ()


def partners(crossings):
    """The other end of the arc at each dart."""
    places = {}
    for number, arcs in enumerate(crossings):
        for slot, arc in enumerate(arcs):
            places.setdefault(arc, []).append((number, slot))
    return {one: other for them in places.values() for one, other in (them, them[::-1])}


def opposite(dart):
    return dart[0], (dart[1] + 2) % 4


def ways(larger, gone):
    """From each dart at a crossing that is not gone the darts along its strand up to the next such crossing, and the one where it comes."""
    partner = partners(larger)
    for start in ((number, slot) for number in range(len(larger)) if number not in gone for slot in range(4)):
        way, dart = [start], start
        while partner[dart][0] in gone:
            dart = opposite(partner[dart])
            way.append(dart)
        yield start, tuple(way), partner[dart]


def parts_of(count):
    """Where a way is cut that so many arcs come from: a kink and a finger begin small."""
    if count == 1:
        return [0.0, 1.0]
    return [0.0, *((0.5 + 0.1 * (at / (count - 2) - 0.5)) if count > 2 else 0.5 for at in range(count - 1)), 1.0]


def between_sizes(before, behind, gone, drops):
    """The passage that drops these crossings of the larger diagram, or adds them, or nothing where an arc has no crossing left."""
    larger, smaller = (before, behind) if drops else (behind, before)
    number = {it: at for at, it in enumerate(it for it in range(len(larger)) if it not in gone)}
    partner, came, seen = partners(smaller), {}, 0
    for start, way, there in ways(larger, gone):
        one, other = ((number[it[0]], it[1]) for it in (start, there))
        if partner.get(one) != other:
            return None
        seen += len(way)
        if drops:
            came[one] = Came(way)
        else:
            cuts = parts_of(len(way))
            came.update({dart: Came((one,), *cuts[at : at + 2]) for at, dart in enumerate(way)})
    if seen != 4 * len(larger):
        return None
    kept = {at: it for it, at in number.items()} if drops else number
    gone = tuple(sorted(gone))
    return Passage(came, kept, dropped=gone) if drops else Passage(came, kept, added=gone)


def triangles(crossings, numbers):
    """The darts around each face of three sides at these crossings."""
    partner, found = partners(crossings), []
    for start in ((min(numbers), slot) for slot in range(4)):
        face, dart = [], start
        while dart != start or not face:
            face.append(dart)
            dart = partner[dart][0], (partner[dart][1] - 1) % 4
            if len(face) > 3:
                break
        if len(face) == 3 and {it[0] for it in face} == set(numbers):
            found.append(face)
    return found


def slid_passage(before, behind, numbers):
    """The passage of a slide: along each side its two crossings change places."""
    partner, now = partners(before), partners(behind)
    for face in triangles(before, numbers):
        moved = {dart: dart for dart in partner}
        for one in face:
            other = partner[one]
            moved.update({other: opposite(one), opposite(other): one, opposite(one): other, one: opposite(other)})
        if all(partner[moved[dart]] == moved[there] for dart, there in now.items()):
            sides = tuple(itertools.chain.from_iterable((it, partner[it]) for it in face))
            return Passage({dart: Came((it,)) for dart, it in moved.items()}, {at: at for at in range(len(before))}, tuple(numbers), sides)
    return None


def passage_of(before, behind, line, is_back=False):
    """The passage from a diagram to the one behind the move of a line, or back from that; nothing where an arc becomes a loop or is one."""
    words = line.split()
    if words[0] == "r3":
        return slid_passage(before, behind, sorted(int(it) - 1 for it in words[1:])) if len(before) == len(behind) else None
    drops, count = (words[1] == "drop") != is_back, int(words[0][1])
    larger = before if drops else behind
    if len(before) - len(behind) != (count if drops else -count):
        return None
    gone = {int(it) - 1 for it in words[2:]} if words[1] == "drop" else set(range(len(larger) - count, len(larger)))
    return between_sizes(before, behind, gone, drops)
