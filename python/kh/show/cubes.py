"""Draws all states of a diagram of up to eight crossings as a cube, from what `kh draw` writes.

    ./kh draw < examples/trefoil.pd | show/states > states.svg
    ./kh draw < examples/trefoil.pd | show/states --numbers examples/trefoil.pd > states.svg

A state chooses at each crossing between its 0-smoothing and its 1-smoothing, and leaves circles. The states stand in columns by the
number of their ones. Each has its choices, in the order in which the drawing has the crossings, and the number of its circles. With
--numbers CODE the choices are in the order of the code, and each circle is named in its colour, by its arcs, a loop by its own number;
CODE is a file with what `kh convert` writes of the same diagram. Up to six crossings the edges are drawn: each changes one 0 to 1, from
left to right, and either two circles merge, or one splits; they have no arrows and no signs.
"""
import itertools
from typing import NamedTuple

from ..commands import Unreadable, command, given, reader
from .arcs import numbers_of, read_code
from .page import colour_class, number_text, path_of, picture, text_at, text_width
from .planar import plane_of
from .shape import scaled, shape_of
from .slices import read_drawing
from .strands import arms_of, circles_of

MOST, MOST_WITH_EDGES = 8, 6
# The lengths of a shape, how large its picture in a state becomes at most, and how broad its strokes are there.
SCALE, LARGEST, STROKE = 20, 120, 2.2
# The room around a drawing and between states, the height of a line, the size of texts, and the room of a crossing's edges.
PAD, BETWEEN, LINE, SIZE, EDGES = 12, 16, 20, 13, 26
RULES = (
    ".circle{fill:none;stroke:currentColor;stroke-linejoin:round}"
    ".state{fill:currentColor;stroke:none}.frame{fill:none;stroke:currentColor}"
    ".edge{fill:none;stroke:currentColor;stroke-width:1.3}.split{stroke-dasharray:5 4}"
    f"text{{font-size:{SIZE}px;text-anchor:middle}}.bits{{font-weight:bold}}.legend{{text-anchor:start}}"
)


class State(NamedTuple):
    """A state: its choices in the order of the names, its circles with their names, where it stands, and the middle of its right side."""

    bits: tuple
    circles: list
    names: list

    def text(self):
        return "".join(map(str, self.bits)) or "the one state"


class Cube:
    """All states of a drawing, and how large each is drawn."""

    def __init__(self, slices, crossings=None):
        self.plane = plane_of(slices)
        self.count = len(self.plane.overs)
        if self.count > MOST:
            raise Unreadable(f"the drawing has {self.count} crossings, and the cube is drawn up to {MOST}")
        self.numbers = None if crossings is None else numbers_of(self.plane, slices, crossings)
        self.shape = scaled(shape_of(self.plane, slices), SCALE)
        self.part = min(0.5, LARGEST / max(self.shape.width, self.shape.height, 1))
        arms = arms_of(self.plane, self.shape)
        self.columns = [[] for _ in range(self.count + 1)]
        for bits in itertools.product((0, 1), repeat=self.count):
            self.columns[sum(bits)].append(self.state(bits, arms))
        texts = [text for column in self.columns for state in column for text in (f"{state.text()}: 8 circles", " ".join(state.names))]
        self.width = max(self.part * self.shape.width, *(text_width(text, SIZE) for text in texts)) + 2 * PAD
        self.head = LINE * (1 if crossings is None else 2)
        self.height = self.part * self.shape.height + self.head + 2 * PAD
        self.gap = BETWEEN + (EDGES * self.count if self.has_edges() else BETWEEN)

    def has_edges(self):
        return 0 < self.count <= MOST_WITH_EDGES

    def state(self, bits, arms):
        """A state with its circles, by their least arcs, where there is a code."""
        drawn = [bits[number] for number in self.numbers.crossings] if self.numbers else bits
        circles = circles_of(self.plane, self.shape, arms, drawn)
        if not self.numbers:
            return State(bits, circles, [])
        loops = itertools.count(2 * self.count + 1)
        arcs = [sorted(self.numbers.arcs[dart] for dart in it.darts) or [next(loops)] for it in circles]
        order = sorted(range(len(circles)), key=arcs.__getitem__)
        return State(bits, [circles[it] for it in order], ["{" + ",".join(map(str, arcs[it])) + "}" for it in order])

    def place(self, ones, down):
        """The upper left corner of a state, by its column and its place in it."""
        lowest = max(map(len, self.columns)) - len(self.columns[ones])
        return ones * (self.width + self.gap), (down + lowest / 2) * (self.height + BETWEEN)


def state_lines(cube, state, x, y):
    """The drawing of a state in its frame, under its choices and circles."""
    count = len(state.circles)
    middle, room = x + cube.width / 2, (cube.width - cube.part * cube.shape.width) / 2
    size = f'width="{number_text(cube.width)}" height="{number_text(cube.height)}"'
    frame = f'x="{number_text(x)}" y="{number_text(y)}" {size} rx="8"'
    caption = f'<tspan class="bits">{state.text()}</tspan>: {count} circle{"s" if count != 1 else ""}'
    lines = [f'<rect class="state band" {frame}/>', f'<rect class="frame rule" {frame}/>']
    lines.append(f'<text class="ink" x="{number_text(middle)}" y="{number_text(y + PAD + SIZE)}">{caption}</text>')
    if state.names:
        parts = [f'<tspan class="{colour_class(number)}" fill="currentColor">{name}</tspan>' for number, name in enumerate(state.names)]
        lines.append(f'<text x="{number_text(middle)}" y="{number_text(y + PAD + SIZE + LINE)}">{" ".join(parts)}</text>')
    place = f"translate({number_text(x + room)} {number_text(y + cube.head + PAD)}) scale({cube.part:.3f})"
    curves = [path_of(it.curve, f' class="circle {colour_class(number)}"', True) for number, it in enumerate(state.circles)]
    return [*lines, f'<g transform="{place}" stroke-width="{number_text(STROKE / cube.part)}">', *curves, "</g>"]


def edges_of(cube):
    """The edges of the cube: a state and the one behind the change, each by its column and place, and the place of the change."""
    places = {state.bits: (ones, down) for ones, column in enumerate(cube.columns) for down, state in enumerate(column)}
    for bits, tail in places.items():
        for at in (at for at, bit in enumerate(bits) if not bit):
            yield tail, places[bits[:at] + (1,) + bits[at + 1 :]], at


def ports(edges, side, other):
    """How far down its state each edge begins or ends, as a part of the height: in the order of the states at the other end."""
    at = {}
    for edge in edges:
        at.setdefault(edge[side], []).append(edge)
    orders = [sorted(them, key=lambda edge: edge[other][1]) for them in at.values()]
    return {edge: (place + 1) / (len(order) + 1) for order in orders for place, edge in enumerate(order)}


def edge_lines(cube):
    """The edges, and how many circles merge and split along them."""
    edges, lines, counts = list(edges_of(cube)), [], {"merge": 0, "split": 0}
    leaving, coming = ports(edges, 0, 1), ports(edges, 1, 0)
    for edge in edges:
        (ones, down), (more, far), at = edge
        tail, head = cube.columns[ones][down], cube.columns[more][far]
        kind = "merge" if len(head.circles) < len(tail.circles) else "split"
        counts[kind] += 1
        x, y = cube.place(ones, down)
        far_x, far_y = cube.place(more, far)
        start, end = (x + cube.width, y + leaving[edge] * cube.height), (far_x, far_y + coming[edge] * cube.height)
        hand = cube.gap / 2.5
        name = "".join(map(str, tail.bits[:at])) + "*" + "".join(map(str, tail.bits[at + 1 :]))
        more = f' class="edge {kind} {"ink" if kind == "merge" else "accent"}"'
        path = path_of([start, (start[0] + hand, start[1]), (end[0] - hand, end[1]), end], more)
        lines.append(path.replace("/>", f"><title>{name}: {kind}</title></path>"))
    return lines, counts


def legend(x, y):
    """What the edges stand for, from this place on."""
    lines = []
    for kind, colour, text in (("merge", "ink", "two circles merge"), ("split", "accent", "one circle splits")):
        lines.append(f'<path class="edge {kind} {colour} key" d="M{number_text(x)} {number_text(y)}H{number_text(x + 40)}"/>')
        lines.append(text_at(x + 48, y + 4, text, ' class="legend ink"'))
        x += 48 + text_width(text, SIZE) + 16
    return lines, x


def cube_of(slices, crossings=None):
    """The picture of all states, with the arcs of the circles where there is a code."""
    cube = Cube(slices, crossings)
    edges, counts = edge_lines(cube) if cube.has_edges() else ([], {})
    lines, count = [*edges], sum(map(len, cube.columns))
    for ones, column in enumerate(cube.columns):
        for down, state in enumerate(column):
            lines += state_lines(cube, state, *cube.place(ones, down))
    right = cube.place(cube.count, 0)[0] + cube.width
    bottom = max(map(len, cube.columns)) * (cube.height + BETWEEN) - BETWEEN
    if edges:
        keys, end = legend(0, bottom + LINE + BETWEEN)
        lines, right, bottom = lines + keys, max(right, end), bottom + LINE + BETWEEN
    told = [f"The states stand in columns by the number of their ones, {count} in all."]
    if edges:
        told.append(f"Of the {len(edges)} edges two circles merge along {counts['merge']}, and one splits along {counts['split']}.")
    title = f"The cube of states of a diagram of {cube.count} crossing{'s' if cube.count != 1 else ''}"
    return picture([(0, 0), (right, bottom)], BETWEEN, title, " ".join(told), RULES, lines)


@command
def main():
    parser = reader(__doc__)
    parser.add_argument("file", nargs="*", help="instead of standard input")
    parser.add_argument("--numbers", metavar="CODE", help="name circles by their arcs")
    words = parser.parse_args()
    slices = read_drawing(given(words.file))
    print(cube_of(slices, read_code(words.numbers) if words.numbers else None), end="")
