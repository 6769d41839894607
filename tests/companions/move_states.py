"""Tries the pictures of the states of Reidemeister moves (`show/move_states`): the curves against the plain reading of circles, the maps
and what is cancelled against the scan, what is left against the other side of the move, and where texts stand.

The companion `show` runs these behind its own cases. No program is run for them.
"""
import itertools
import math
import re
import sys
import xml.etree.ElementTree
from collections import Counter

import plain.cube
import plain.diagrams
from companions.pictures import CONTRAST, luminance
from kh.show import local_states as states, scan, shape, tangles

MOVES = ("kink", "bigon", "slide")
# How near the curves of two circles of a state come at least, where the disc has the radius 1, and two ends that are one.
APART, SAME = 0.1, 1e-6
# How many objects are left of each row with something cancelled.
LEFT = {"kink": 1, "bigon": 1, "slide": 5}
# How far apart the texts of two arrows are at least, and the texts that have digits.
BETWEEN = 30
DIGITS = "r = [0-3]|[01]{1,3}(, v[+\u2212])?|the circle at [01]"


def rows(move):
    """The rows of a picture in which something is cancelled."""
    return [it for it in states.rows_of(move) if it.pairs]


def pairings(ends):
    """All ways to join ends outside without crossings."""
    if not ends:
        yield []
    for at in range(1, len(ends), 2):
        for inside, behind in itertools.product(pairings(ends[1:at]), pairings(ends[at + 1 :])):
            yield [(ends[0], ends[at]), *inside, *behind]


def closed_code(crossings, outside):
    """The code of a tangle whose ends are joined outside."""
    other = {high: low for low, high in outside}
    joined = [[other.get(arc, arc) for arc in arcs] for arcs in crossings]
    number = {arc: at for at, arc in enumerate(sorted({arc for arcs in joined for arc in arcs}), 1)}
    return plain.diagrams.Code(tuple(tuple(number[arc] for arc in arcs) for arcs in joined), 0)


def drawn_circles(strands, bits, outside):
    """The curves of a state in classes, where two meet at an end, or at ends that are joined outside."""
    curves, ends = [points for _, points in tangles.smoothed(strands, bits)], tangles.ends_of(strands)
    tips = [(at, point) for at, points in enumerate(curves) for point in (points[0], points[-1])]
    meet = [(one, other) for (one, p), (other, q) in itertools.combinations(tips, 2) if math.dist(p, q) < SAME]
    at_end = {number: next(at for at, point in tips if math.dist(point, place) < SAME) for number, place in enumerate(ends, 1)}
    return curves, plain.diagrams.classes(range(len(curves)), [*meet, *((at_end[a], at_end[b]) for a, b in outside)])


def curves_fault(strands):
    """However the ends are joined outside, each state has as many circles as the plain reading counts; and circles are apart."""
    code = tangles.code_of(strands)
    for outside in pairings(list(range(1, len(tangles.ends_of(strands)) + 1))):
        for bits in itertools.product((0, 1), repeat=len(code)):
            _, found = drawn_circles(strands, bits, outside)
            state = sum(bit << at for at, bit in enumerate(bits))
            if len(found) != len(plain.cube.circles(closed_code(code, outside), state)):
                return f"{len(found)} circles at {bits}, {outside}"
    return next(filter(None, (near_fault(strands, bits) for bits in itertools.product((0, 1), repeat=len(code)))), None)


def near_fault(strands, bits):
    """Curves of two circles keep their distance, and all of them are in the disc."""
    curves, found = drawn_circles(strands, bits, [])
    points = [[it for at in circle for it in shape.sampled(curves[at], 6)] for circle in found]
    if any(math.hypot(*it) > 1 + SAME for here in points for it in here):
        return f"a curve leaves the disc at {bits}"
    near = any(math.dist(p, q) < APART for one, other in itertools.combinations(points, 2) for p in one for q in other)
    return f"curves are near at {bits}" if near else None


def square_fault(local):
    """The maps are a complex: two in a row add up to 0."""
    sums = {}
    for (x, y), first in local.maps.items():
        for (z, w), second in local.maps.items():
            if y == z:
                scan.add(states.FIELD, sums, (x, w), scan.composed(states.FIELD, local, x, y, w, first, second), 1)
    return f"{sums}" if sums else None


def listed(objects):
    return Counter((it.pairs, it.degree, it.shift) for it in objects)


def scan_fault(row):
    """A scan of the crossings leaves objects with the same pairs and degrees, whatever it eliminates first."""
    *_, (_, _, last) = scan.steps(states.FIELD, tangles.code_of(row.local.strands))
    found = states.left_of(row.local, row.pairs).scan
    numbers = [ends for ends in found.maps if scan.number_at(found, *ends) is not None]
    return None if listed(found.objects.values()) == listed(last.objects.values()) and not numbers else f"{found.objects}, {numbers}"


def signs_of(strands):
    """How many positive and negative crossings: along the strand below the one above passes from left to right, or from right to left."""
    ways = {(stop.crossing, stop.is_over): math.radians(stop.way) for strand in strands for stop in strand if stop.crossing}
    turns = [math.sin(ways[number, False] - ways[number, True]) > 0 for number in range(1, 1 + len(ways) // 2)]
    return turns.count(True), turns.count(False)


def straight_fault(row):
    """What is left of a kink or a bigon is the strands with no crossing, at the degrees 0 and 0."""
    ends, (plus, minus) = tangles.ends_of(row.local.strands), signs_of(row.local.strands)
    wanted = sorted(tuple(sorted(ends.index(strand[at].place) + 1 for at in (0, -1))) for strand in row.local.strands)
    ((_, it),) = states.left_of(row.local, row.pairs).scan.objects.items()
    found = list(it.pairs), it.degree - minus, it.shift + it.degree + plus - 2 * minus
    return None if found == (wanted, 0, 0) else f"{found} and not {wanted}"


def sides_fault(before, after):
    """What is left before a slide and after it is the same, with a sign for each object; and the ends are those of the same strands."""
    one, other = (states.left_of(row.local, row.pairs).scan for row in (before, after))
    to = {a: b for a, x in one.objects.items() for b, y in other.objects.items() if x == y}
    if len(to) != 5 or len(set(to.values())) != 5 or tangles.ends_of(before.local.strands) != tangles.ends_of(after.local.strands):
        return f"{one.objects} and {other.objects}"
    for signs in itertools.product((1, 2), repeat=5):
        sign = dict(zip(to, signs))
        maps = {
            (to[a], to[b]): {dots: sign[a] * sign[b] * value % 3 for dots, value in terms.items()} for (a, b), terms in one.maps.items()
        }
        if maps == other.maps:
            return None
    return f"{one.maps} and {other.maps}"


def boxes(root):
    """The room of each text of a picture."""
    for it in root.iter("{http://www.w3.org/2000/svg}text"):
        big, start = "big" in it.get("class"), "start" in it.get("class")
        size, x, y = 14 if big else 12, float(it.get("x")), float(it.get("y"))
        width = 0.6 * size * len(it.text)
        yield it.text, x if start else x - width / 2, y - 0.76 * size, x + width if start else x + width / 2, y


def picture_fault(move):
    """As many discs, arrows and red arrows as there are states, maps and cancelled pairs; no text covers another one or leaves the page."""
    wrote, every = states.picture_of(move), list(states.rows_of(move))
    root = xml.etree.ElementTree.fromstring(wrote)
    counts = [len(re.findall(it, wrote)) for it in ('class="disc ', 'class="head ', 'class="head accent"')]
    wanted = [sum(bool(row.pairs) + len(row.local.scan.objects) for row in every), sum(len(row.local.scan.maps) for row in every)]
    if counts != [*wanted, sum(len(row.pairs) for row in every)]:
        return f"{counts}"
    left, top, width, height = map(float, root.get("viewBox").split())
    found = list(boxes(root))
    for text, *edges in found:
        if edges[0] < left or edges[1] < top or edges[2] > left + width or edges[3] > top + height:
            return f"{text} is not on the page"
    for (one, a, b, c, d), (other, e, f, g, h) in itertools.combinations(found, 2):
        if a < g and e < c and b < h and f < d:
            return f"{one} covers {other} at {a:.0f} {b:.0f}"
    return contrast_fault(wrote)


def colours_fault(move):
    """Strands have one colour exactly where they join the same ends, in all rows of a picture."""
    shown = {(it.pairs, row.colours[number]) for row in states.rows_of(move) for number, it in row.local.scan.objects.items()}
    return None if len({pairs for pairs, _ in shown}) == len(shown) == len({colour for _, colour in shown}) else f"{shown}"


def texts_fault(move):
    """Digits are smoothings and numbers of ones alone, and the texts of arrows keep their distance."""
    root = xml.etree.ElementTree.fromstring(states.picture_of(move))
    found = [*root.iter("{http://www.w3.org/2000/svg}text")]
    digits = [it.text for it in found if re.search("[0-9]", it.text) and not re.fullmatch(DIGITS, it.text)]
    places = [(it.text, (float(it.get("x")), float(it.get("y")))) for it in found if "over" in it.get("class").split()]
    near = [(one, other) for (one, p), (other, q) in itertools.combinations(places, 2) if math.dist(p, q) < BETWEEN]
    return f"{digits}, {near}" if digits or near else None


def contrast_fault(wrote):
    """On a light and on a dark screen strands and texts stand out from the ground."""
    for colours in ("".join(part) for part in re.findall(r"<style>(.*)@media\(prefers-color-scheme:dark\){([^@]*)}</style>", wrote)[0]):
        shown = dict(re.findall(r"\.(\w+){color:(#\w{6})}", colours))
        ground = luminance(shown["ground"])
        for name in ("ink", "faint", "accent", "colour0", "colour3"):
            low, high = sorted((luminance(shown[name]), ground))
            if (high + 0.05) / (low + 0.05) < CONTRAST:
                return f"{name} is {shown[name]}"
    return None


def told_fault(move, words):
    """A screen reader says what is cancelled, and what is left."""
    told = re.search(r"<desc>(.*)</desc>", states.picture_of(move))[1]
    missing = [it for it in words if it not in told]
    return f"{missing} in {told}" if missing else None


WORDS = {
    "kink": ("Cancelled: 0, v+ with 1. Left: 0, v−.", "Cancelled: 0 with 1, v−. Left: 1, v+."),
    "bigon": ("Cancelled: 01, v+ with 11 and 00 with 01, v−. Left: 10.",),
    "slide": ("Cancelled: 101, v+ with 111 and 100 with 101, v−. Left: 000, 001, 010, 011, 110.",),
}


def faults():
    """The name of each test, and what is wrong, if anything is."""
    for move in MOVES:
        for row in rows(move):
            name = f"show/move_states {move}, {row.title}"
            left = states.left_of(row.local, row.pairs).scan
            yield f"{name}: curves", curves_fault(row.local.strands)
            yield f"{name}: a complex", square_fault(row.local.scan) or square_fault(left)
            yield f"{name}: as a scan leaves it", scan_fault(row)
            yield f"{name}: so many are left", None if len(left.objects) == LEFT[move] else f"{left.objects}"
            if move != "slide":
                yield f"{name}: the strands alone are left", straight_fault(row)
        yield f"show/move_states {move}: the picture", picture_fault(move)
        yield f"show/move_states {move}: colours", colours_fault(move)
        yield f"show/move_states {move}: texts", texts_fault(move)
        yield f"show/move_states {move}: in words", told_fault(move, WORDS[move])
    yield "show/move_states slide: both sides leave the same", sides_fault(*rows("slide"))


if __name__ == "__main__":
    from shared.running import tell_all

    sys.exit(tell_all(faults()))
