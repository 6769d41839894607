"""The pictures of a scan's steps: objects with their pairings, and the maps between them, in columns by the homological degree."""
import math
from html import escape

from .page import number_text as near
from .scan import PLAIN, discs

STEP, AHEAD = 170, 40
ROUND, SMALL = 27, 15


def text_at(x, y, text, names="ink"):
    return f'<text class="{names}" x="{near(x)}" y="{near(y)}">{escape(text)}</text>'


def around(crossings):
    """The open arcs of some crossings, counterclockwise around them: behind each arc the next slot, through arcs with both ends here."""
    ends = {}
    for number, arcs in enumerate(crossings):
        for slot, arc in enumerate(arcs):
            ends.setdefault(arc, []).append((number, slot))
    order, todo = [], sorted(arc for arc, here in ends.items() if len(here) == 1)
    while todo:
        arc = todo[0]
        while arc in todo:
            todo.remove(arc)
            order.append(arc)
            number, slot = ends[arc][0]
            while len(ends[arc := crossings[number][(slot + 1) % 4]]) == 2:
                number, slot = next(it for it in ends[arc] if it != (number, (slot + 1) % 4))
    return order


def object_lines(it, order, x, y, gone):
    """One object: a circle with its pairs, by the arcs around it, and its shift."""
    names = "gone" if gone else "ink"
    shift = f"{it.shift:+d}" if it.shift else "0"
    if not order:
        return [f'<circle class="{names}" cx="{near(x)}" cy="{near(y)}" r="{SMALL}"/>', text_at(x, y + 4, shift, names)]
    lines = [f'<circle class="rule" cx="{near(x)}" cy="{near(y)}" r="{ROUND}"/>']
    place = {}
    for at, arc in enumerate(order):
        turn = 2 * math.pi * (at / len(order) - 3 / 8)
        place[arc] = math.cos(turn), -math.sin(turn)
        lines.append(text_at(x + (ROUND + 9) * place[arc][0], y + (ROUND + 9) * place[arc][1] + 4, str(arc), "faint"))
    for pair in it.pairs:
        (a, b), (c, d) = ((x + ROUND * place[arc][0], y + ROUND * place[arc][1]) for arc in pair)
        middle = f"{near((a + c) / 6 + x * 2 / 3)} {near((b + d) / 6 + y * 2 / 3)}"
        colour = "gone" if gone else "pair"
        lines.append(f'<path class="{colour}" stroke-width="3" d="M{near(a)} {near(b)}Q{middle} {near(c)} {near(d)}"/>')
    return [*lines, text_at(x, y + ROUND + 26, f"q {shift}", names)]


def term_text(scan, ends, dots, value):
    """A term of a map: how often, and the discs with a dot, or that it is the identity or a saddle."""
    tail, head = (scan.objects[it].pairs for it in ends)
    names = " ".join(f"•{name}" for name in discs(scan.opened, tail, head) if name in dots)
    plain = dots == PLAIN and ("S" if tail != head else "1")
    return (plain or names) if value == 1 else f"{value}" + ("" if plain == "1" else f"·{plain or names}")


def arrow_lines(scan, ends, places, reach, gone):
    """A map, with its terms where its objects have open arcs."""
    (x, y), (z, w) = (places[it] for it in ends)
    x, z, bend = x + reach, z - reach - 5, (z - x - 2 * reach) / 3
    colour = "gone" if gone else "faint"
    curve = f"M{near(x)} {near(y)}C{near(x + bend)} {near(y)} {near(z - bend)} {near(w)} {near(z)} {near(w)}"
    lines = [f'<path class="{colour}" stroke-width="{2 if gone else 1.2}" d="{curve}m-6 -4l6 4l-6 4"/>']
    if scan.opened:
        terms = sorted(scan.maps[ends].items(), key=lambda it: sorted(it[0]))
        text = " + ".join(term_text(scan, ends, dots, value) for dots, value in terms)
        share, up = (0.5, -6) if w == y else (0.3, 4)
        names = f"over {'gone' if gone else 'ink'}"
        lines.append(text_at(x + (z - x) * share, y + (w - y) * share * share * (3 - 2 * share) + up, text, names))
    return lines


def row_lines(scan, order, pivots, top, left):
    """The complex of a row, below this line and behind this edge, and where it ends."""
    columns = {}
    for number, it in sorted(scan.objects.items()):
        columns.setdefault(it.degree, []).append(number)
    reach, step = (ROUND + 14, 96) if order else (SMALL, 38)
    height = step * max(map(len, columns.values()))
    places = {}
    for degree, numbers in columns.items():
        for at, number in enumerate(numbers):
            places[number] = left + STEP * degree + AHEAD, top + height / 2 + step * (at - (len(numbers) - 1) / 2)
    dead = {number for ends in pivots for number in ends}
    ends = sorted(scan.maps, key=lambda it: (it in pivots, it))
    lines = [line for it in ends for line in arrow_lines(scan, it, places, reach, it in pivots)]
    for number, (x, y) in places.items():
        lines += object_lines(scan.objects[number], order, x, y, number in dead)
    return lines, top + height
