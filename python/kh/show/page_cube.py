"""The cube of states on a page: columns by the number of ones, each state with its circles, and the edges between them."""
from typing import NamedTuple

from .generators import edges_of
from .page import number_text, path_of, text_at
from .page_figure import box_text

# How broad the strokes of a state are, its room, the height of a line, and the room between states.
STROKE, PAD, LINE, BETWEEN = 2.2, 8, 17, 9


def ports(edges, end):
    """How far down its state each edge begins or ends, as a part of the height: by the place of the state at the other end."""
    at = {}
    for edge, (tail, head) in edges.items():
        at.setdefault((tail, head)[end], []).append(((tail, head)[1 - end], edge))
    orders = [sorted(them, key=lambda it: it[0]) for them in at.values()]
    return {edge: (place + 1) / (len(order) + 1) for order in orders for place, (_, edge) in enumerate(order)}


class Sizes(NamedTuple):
    """How large the picture of a state becomes at most, the size of texts, the least breadth of a state, and the room between columns."""

    picture: int
    text: int
    breadth: int
    gap: int


# By the number of crossings; the last is that of all that follow.
SIZES = (*4 * [Sizes(84, 14, 74, 66)], Sizes(70, 13, 70, 58), Sizes(56, 12, 68, 54), Sizes(46, 12, 68, 50))


class Cube:
    """All states of a figure, where each stands, and the edges."""

    def __init__(self, figure, states):
        self.figure, self.states, self.count = figure, states, figure.count
        self.inner = figure.inner()
        self.of = SIZES[min(self.count, len(SIZES) - 1)]
        self.part = min(0.5, self.of.picture / max(self.inner[2], self.inner[3], 1))
        self.width = max(self.part * self.inner[2] + 2 * PAD, self.of.breadth)
        self.height = self.part * self.inner[3] + 2 * PAD + LINE
        self.gap = self.of.gap
        columns = {}
        for state in states:
            columns.setdefault(sum(state.bits), []).append(state)
        self.most = max(map(len, columns.values()))
        self.places = {state.bits: (ones, down) for ones, them in columns.items() for down, state in enumerate(them)}
        self.sizes = {ones: len(them) for ones, them in columns.items()}

    def corner(self, bits):
        """The upper left corner of a state."""
        ones, down = self.places[bits]
        return ones * (self.width + self.gap), (down + (self.most - self.sizes[ones]) / 2) * (self.height + BETWEEN)

    def edge_lines(self):
        """The edges, each from a state to the one behind it."""
        edges = {(edge.tail.bits, edge.crossing): edge for edge in edges_of(self.states)}
        ends = {name: (self.places[edge.tail.bits], self.places[edge.head.bits]) for name, edge in edges.items()}
        leaving, coming, lines = ports(ends, 0), ports(ends, 1), []
        for name, edge in edges.items():
            (x, y), (far, deep) = self.corner(edge.tail.bits), self.corner(edge.head.bits)
            start, end = (x + self.width, y + leaving[name] * self.height), (far, deep + coming[name] * self.height)
            curve = [start, (start[0] + self.gap / 2.5, start[1]), (end[0] - self.gap / 2.5, end[1]), end]
            data = f' data-tail="{edge.tail.text()}" data-head="{edge.head.text()}"'
            lines.append(path_of(curve, f' class="edge {edge.kind()} {"accent" if edge.kind() == "split" else "ink"}"{data}'))
        return lines

    def state_lines(self, state):
        """A state, which leads to its circles on the drawing."""
        x, y = self.corner(state.bits)
        count, size = len(state.circles), f'width="{number_text(self.width)}" height="{number_text(self.height)}"'
        told = f"state {state.name()}, {count} circle{'s' if count != 1 else ''}"
        left, top, broad, _ = self.inner
        move = f"translate({number_text(x + (self.width - self.part * broad) / 2 - self.part * left)} "
        move += f"{number_text(y + LINE + PAD - self.part * top)}) scale({self.part:.3f})"
        return [
            f'<a class="state" href="#state-{state.text()}" data-state="{state.text()}" aria-label="{told}">',
            f'<rect class="band" x="{number_text(x)}" y="{number_text(y)}" {size} rx="6"/>',
            text_at(x + self.width / 2, y + LINE - 2, f"{state.name()}: {count}", f' class="ink" style="font-size:{self.of.text}px"'),
            f'<g transform="{move}" stroke-width="{number_text(STROKE / self.part)}">{self.figure.circles(state)}</g>',
            "</a>",
        ]


def cube_of(figure, states):
    """The picture of the cube. Its states are links, in the order of the columns."""
    cube = Cube(figure, states)
    width = cube.count * (cube.width + cube.gap) + cube.width
    height = cube.most * (cube.height + BETWEEN) - BETWEEN
    edges = cube.edge_lines()
    box = f'width="{number_text(width + 8)}" height="{number_text(height + 8)}" viewBox="{box_text((-4, -4, width + 8, height + 8))}"'
    told = f"The cube of states: {len(states)} states in columns by the number of their ones, {len(edges)} edges"
    head = f'<svg id="cube-picture" class="cube" {box} role="group" aria-label="{told}">'
    return "\n".join([head, *edges, *(line for state in states for line in cube.state_lines(state)), "</svg>"])
