"""Draws the states of the crossings of a Reidemeister move, and what is cancelled of them.

    show/move_states kink > kink.svg
    show/move_states bigon > bigon.svg
    show/move_states slide > slide.svg

The crossings have the letters x, y and z, the ends the letters from a on. The states stand in columns by the number r of their ones. Under
each are its smoothings, 0 or 1, at x, y and z; the one at which a small circle closes stands there twice, with v+ and with v- on that.
Strands of one colour join the same ends. An arrow is a map over three elements: id is the identity, S a saddle, a dot with an end the
strand at that end with a dot (v+ becomes v-, and v- becomes 0). Rims, names and arrows of what is cancelled are red. Of a kink there are
both kinds; of a slide both sides, with what is left of each.
"""
import sys
from typing import NamedTuple

from ..commands import command, reader
from .page import number_text as near, path_of, picture, text_at
from .scan import FIRST, PLAIN, added, classes, eliminated, joined_by, number_at, origins
from .shape import distance, point_at, sampled
from .tangles import bigon, code_of, ends_of, kink, middles, smoothed, triangle, uncut

# A field over which -1 is not 1; the radii of discs; the room of a state, the left edge of the columns, the room of a row.
FIELD, RADIUS, LARGE, DOWN, LEFT, GAP = 3, 38, 58, 108, 196, 26
# The room of a column, and where many arrows cross.
STEP, WIDE_STEP = 176, 226
# The letters of ends and of crossings: digits are smoothings alone.
ENDS, CROSSINGS = "abcdef", "xyz"
# How near to the text of an arrow other arrows may come, and other texts; how often texts are placed anew.
BESIDE, BETWEEN, PASSES = 13, 40, 4
RULES = (
    ".strand{fill:none;stroke:currentColor;stroke-width:2.4;stroke-linecap:round}.thin{fill:none;stroke:currentColor}"
    ".disc{fill:currentColor;stroke:none}.rim{fill:none;stroke:currentColor}.head{fill:currentColor;stroke:none}"
    "text{font-size:12px;text-anchor:middle}.big{font-size:14px}.start{text-anchor:start}.bold{font-weight:bold}"
)
LABELS = ("v+", "v\u2212")
# The colours of strands, by the ends that they join, and of the small circle.
COLOURS, SMALL = ("colour0", "colour1", "colour2", "colour5", "colour6"), "colour3"


class Local(NamedTuple):
    """The states of a tangle: its strands, the smoothings and the label of the small circle (0 for v+, 1 for v-, or none) of each object
    by its number, and the objects with their maps."""

    strands: list
    names: dict
    scan: object


class Row(NamedTuple):
    """A row of a picture: its title, the states, what of them is cancelled, and the colour of each object by its number."""

    title: str
    local: Local
    pairs: list
    colours: dict

    def gone(self):
        """The objects that are cancelled."""
        return {number for ends in self.pairs for number in ends}


def states_of(strands):
    """All states of a tangle, with nothing cancelled."""
    scan, names = FIRST, {0: ("", None)}
    for crossing in code_of(strands):
        tails, names = names, {}
        for number, (origin, _) in enumerate(origins(scan, crossing)):
            bits, label = tails[origin.tail]
            names[number] = bits + str(origin.smoothing), next(iter(origin.labels.values()), label)
        scan = added(FIELD, scan, crossing)
    return Local(strands, names, scan)


def pairs_of(local):
    """What is cancelled: the state of the small circle with v+ and the first one above that it merges into, and the first one below and the
    state with v- into which it splits."""
    places = sorted(local.names, key=lambda it: local.names[it][0][::-1])
    found = []
    for number in (it for it in places if local.names[it][1] is not None):
        plus = local.names[number][1] == 0
        ends = ((number, it) if plus else (it, number) for it in places)
        found += [it for it in ends if number_at(local.scan, *it) is not None][:1]
    return found


def left_of(local, pairs):
    """What is left when these are cancelled."""
    scan = local.scan
    for tail, head in pairs:
        scan = eliminated(FIELD, scan, tail, head)
    return Local(local.strands, local.names, scan)


def colours_of(objects):
    """A colour for each object, the same for those that join the same ends."""
    joined = sorted({it.pairs for it in objects.values()})
    return {number: COLOURS[joined.index(it.pairs)] for number, it in objects.items()}


def rows_of(move):
    """The rows of the picture of a move."""
    tangles = {
        "kink": {"the circle at 0": kink(False), "the circle at 1": kink(True)},
        "bigon": {"a bigon": bigon()},
        "slide": {"before": triangle(0.24), "after": triangle(-0.24)},
    }[move]
    for title, strands in tangles.items():
        local = states_of(strands)
        pairs = pairs_of(local)
        yield Row(title, local, pairs, colours_of(local.scan.objects))
        if move == "slide":
            left = left_of(local, pairs)
            yield Row("what is left", left, [], colours_of(left.scan.objects))


def caption(local, number):
    """The name of a state: its smoothings, and the label of the small circle."""
    bits, label = local.names[number]
    return bits if label is None else f"{bits}, {LABELS[label]}"


def map_text(local, ends):
    """A map in words: its terms, each with its sign."""
    tail, head = (local.scan.objects[it].pairs for it in ends)
    text = ""
    for dots, value in sorted(local.scan.maps[ends].items(), key=lambda it: sorted(it[0])):
        sign = "\u2212" if value == FIELD - 1 else "+" if text else ""
        plain = "id" if tail == head else "S"
        text += sign + (plain if dots == PLAIN else " ".join(f"•{ENDS[it - 1]}" for it in sorted(dots)))
    return text


def curves_at(curves, x, y, radius, colour_of):
    """Curves of a tangle as paths, in the colour of each arc."""
    for number, points in curves:
        yield path_of([(x + radius * a, y - radius * b) for a, b in points], f' class="strand {colour_of(number)}"')


def disc_lines(x, y, radius, is_gone=False):
    size = f'cx="{near(x)}" cy="{near(y)}" r="{near(radius)}"'
    rim = 'class="rim accent" stroke-width="2.2"' if is_gone else 'class="rim rule"'
    return [f'<circle class="disc band" {size}/>', f"<circle {rim} {size}/>"]


def uncut_lines(strands, x, y):
    """The tangle, larger, with the letters of its ends and its crossings."""
    lines = [*disc_lines(x, y, LARGE), *curves_at(uncut(strands), x, y, LARGE, lambda _: "ink")]
    for letter, (a, b) in zip(ENDS, ends_of(strands)):
        lines.append(text_at(x + (LARGE + 10) * a, y - (LARGE + 10) * b + 4, letter, ' class="faint"'))
    for letter, (a, b) in zip(CROSSINGS, middles(strands)):
        out = LARGE + 15 / distance((0, 0), (a, b))
        lines.append(text_at(x + out * a, y - out * b + 4, letter, ' class="bold ink"'))
    return lines


def state_lines(row, number, x, y):
    """A state in its disc, with its name, its small circle in a colour of its own; where it is cancelled the rim and the name are red."""
    local = row.local
    bits, _ = local.names[number]
    code, ends = code_of(local.strands), range(1, 1 + len(ends_of(local.strands)))
    names = classes({arc for arcs in code for arc in arcs}, *(joined_by(arcs, int(bit)) for arcs, bit in zip(code, bits)))
    shown = {names[end] for end in ends}
    colour, is_gone = row.colours[number], number in row.gone()
    lines = [*disc_lines(x, y, RADIUS, is_gone)]
    lines += curves_at(smoothed(local.strands, map(int, bits)), x, y, RADIUS, lambda arc: colour if names[arc] in shown else SMALL)
    return [*lines, text_at(x, y + RADIUS + 16, caption(local, number), f' class="bold {"accent" if is_gone else colour}"')]


def arrow_curve(ends, places):
    """The curve of an arrow, from the one disc to the other."""
    (x, y), (z, w) = (places[it] for it in ends)
    x, z = x + RADIUS + 4, z - RADIUS - 6
    return [(x, y), (x + (z - x) / 2.6, y), (z - (z - x) / 2.6, w), (z, w)]


def arrow_lines(row, ends, curve):
    """A map as an arrow."""
    gone = ends in row.pairs
    colour, (x, y) = ("accent" if gone else "faint"), curve[-1]
    path = path_of(curve, f' class="thin {colour}" stroke-width="{2.2 if gone else 1.2}"')
    return [path, f'<path class="head {colour}" d="M{near(x + 3)} {near(y)}l-8 -4l0 8Z"/>']


def arrow_texts(row, curves):
    """The texts of the arrows, each on its arrow, near the middle where there is room to the others and their texts: they are placed in
    turn, and then each of them anew."""
    others = {it: [point for other, curve in curves.items() if other != it for point in sampled(curve, 24)] for it in curves}
    places = {}
    for ends in [*curves] * PASSES:
        taken = [place for other, place in places.items() if other != ends]
        tried = (point_at(curves[ends], part / 40) for part in sorted(range(4, 35), key=lambda it: abs(it - 17)))
        places[ends] = max(tried, key=lambda it: room_at(it, others[ends], taken))
    for ends, (x, y) in places.items():
        yield text_at(x, y + 4, map_text(row.local, ends), f' class="over bold {"accent" if ends in row.pairs else "ink"}"')


def room_at(point, others, taken):
    """The room of a point between other arrows and the texts that stand there, as a part of the room that is wanted."""
    beside = min((distance(point, it) for it in others), default=BESIDE) / BESIDE
    between = min((distance(point, it) for it in taken), default=BETWEEN) / BETWEEN
    return round(min(beside, between, 1), 2)


def row_lines(row, top, step):
    """A row below this line: its tangle, its states in columns with this room and their maps, and where it ends."""
    columns = {}
    for number, it in sorted(row.local.scan.objects.items()):
        columns.setdefault(it.degree, []).append(number)
    height = DOWN * max(map(len, columns.values()))
    places = {
        number: (LEFT + step * degree + RADIUS, top + height / 2 - 8 + DOWN * (at - (len(numbers) - 1) / 2))
        for degree, numbers in columns.items() for at, number in enumerate(numbers)
    }
    lines = [text_at(0, top + 10, row.title, ' class="start big bold ink"')]
    if row.pairs:
        lines += uncut_lines(row.local.strands, LARGE + 16, top + height / 2)
    curves = {ends: arrow_curve(ends, places) for ends in sorted(row.local.scan.maps, key=lambda it: (it in row.pairs, it))}
    lines += [line for ends, curve in curves.items() for line in arrow_lines(row, ends, curve)]
    lines += [line for number, place in places.items() for line in state_lines(row, number, *place)]
    return [*lines, *arrow_texts(row, curves)], top + height


def told(row):
    """What a screen reader says of a row."""
    name = {it: caption(row.local, it) for it in row.local.names}
    arrows = "; ".join(f"{name[tail]} to {name[head]}: {map_text(row.local, (tail, head))}" for tail, head in sorted(row.local.scan.maps))
    gone = " and ".join(f"{name[tail]} with {name[head]}" for tail, head in row.pairs)
    left = ", ".join(name[it] for it in row.colours if it not in row.gone())
    return f"{row.title[0].upper()}{row.title[1:]}: maps {arrows}." + (f" Cancelled: {gone}. Left: {left}." if row.pairs else "")


def picture_of(move):
    """The picture of a move."""
    rows, lines, top = list(rows_of(move)), [], 26
    most, step = max(it.degree for row in rows for it in row.local.scan.objects.values()), WIDE_STEP if move == "slide" else STEP
    right = LEFT + step * most + 2 * RADIUS
    lines += [text_at(LEFT + step * degree + RADIUS, 6, f"r = {degree}", ' class="big faint"') for degree in range(most + 1)]
    for row in rows:
        lines.append(f'<path class="thin rule" d="M0 {near(top - 8)}H{near(right)}"/>')
        made, end = row_lines(row, top + 8, step)
        lines, top = lines + made, end + GAP
    title = f"The states of a {move}, and what is cancelled of them"
    light, dark = "#ffffff", "#0d1117"
    over = f".over{{paint-order:stroke;stroke-width:5px;stroke:{light}}}@media(prefers-color-scheme:dark){{.over{{stroke:{dark}}}}}"
    return picture([(0, 0), (right, top - GAP)], 16, title, " ".join(map(told, rows)), RULES + over, lines)


@command
def main():
    parser = reader(__doc__)
    parser.add_argument("move", choices=("kink", "bigon", "slide"), help="the move")
    sys.stdout.write(picture_of(parser.parse_args().move))
