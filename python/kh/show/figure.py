"""A drawing's diagram with its code, and what stands beside its strands: arrows, numbers and a dot.

`drawing` makes a picture of them, and `page_figure.py` the drawing of a page.
"""
from __future__ import annotations

from typing import Any

from ..commands import Unreadable
from .arcs import in_order, leaving_darts, numbers_of
from .labels import arrows_of, around, beside, name_of, page_of, placed
from .page import colour_class, number_text, path_of, picture, text_at
from .planar import components_of, first_passes, plane_of
from .shape import point_at, scaled, shape_of
from .slices import Slice
from .strands import BROAD, strands_of

# The lengths of a shape in pixels, the least first: the next is taken where there is no room for a number.
SCALES = (20, 23, 26, 30, 35, 40, 46, 53, 61, 70)
MARGIN, DOT = 26, 8
RULES = (
    f".strand{{fill:none;stroke:currentColor;stroke-width:{BROAD};stroke-linecap:round;stroke-linejoin:round}}"
    ".arrow,.dot{fill:currentColor;stroke-linejoin:round}text{font-size:14px;text-anchor:middle}.crossing{font-weight:bold}"
)


class Diagram:
    """A drawing's diagram with what its code says of it, where there is one."""

    def __init__(self, slices, crossings=None):
        self.plane = plane_of(slices)
        self.numbers = None if crossings is None else numbers_of(self.plane, slices, crossings)
        if crossings is None:
            self.components = components_of(self.plane, first_passes(self.plane))
        else:
            self.components = in_order(components_of(self.plane, leaving_darts(self.plane, self.numbers)), self.numbers)

    def strand_of(self, number):
        """The name of an arc or a loop: these are numbered behind all arcs."""
        arcs, loop = self.numbers.arcs, number - len(self.plane.partner) // 2 - 1
        dart = min((dart for dart in arcs if arcs[dart] == number), default=None)
        if dart is None and not 0 <= loop < self.plane.loops:
            raise Unreadable(f"the diagram has neither an arc {number} nor a loop {number}")
        return loop if dart is None else dart

    def title(self):
        crossings, count = len(self.plane.overs), len(self.components) + self.plane.loops
        kind = {0: "The empty link", 1: "A knot"}.get(count, f"A link of {count} components")
        return f"{kind}, drawn with {crossings or 'no'} crossing{'s' if crossings != 1 else ''}"

    def description(self, mark=None):
        """What one meets along each component, for those who do not see it."""
        parts = []
        for number, (walk, is_directed) in enumerate(self.components, 1):
            way = "" if is_directed else ", in one of its two directions"
            passes = [f"{'over' if self.plane.is_over(dart) else 'under'} {self.crossing(dart)}" for dart in walk]
            parts.append(f"Along component {number}{way}: {', '.join(passes)}.")
        parts += [f"Components without crossings: {self.plane.loops}."] if self.plane.loops else []
        parts += [f"A dot marks {mark}."] if mark else []
        return " ".join(parts)

    def crossing(self, dart):
        """The number of a crossing, from 1: that of the code, or of the drawing from its top."""
        return (self.numbers.crossings[dart[0]] if self.numbers else dart[0]) + 1


class Labels:
    """The dot, the arrows and the numbers of a picture, each with its class; `texts` is nothing where a number finds no room."""

    def __init__(self, diagram, shape, mark, with_numbers, scale=1):
        self.diagram, self.shape, self.page, self.scale = diagram, shape, page_of(diagram.plane, shape), scale
        self.marked = None if mark is None else diagram.strand_of(mark)
        self.dot = None if mark is None else self.middle(self.marked)
        if self.dot:
            self.page.add(None, [(self.dot[0] + x, self.dot[1] + y) for x in (-DOT, 0, DOT) for y in (-DOT, 0, DOT)])
        self.arrows = arrows_of(diagram.plane, shape, diagram.components, self.page, self.marked)
        self.texts = self.numbers() if with_numbers else []

    def middle(self, name):
        """The middle of an arc, or the top of a loop."""
        if isinstance(name, int):
            return point_at(self.shape.loops[name], 1)
        curve = self.shape.arcs[name]
        return point_at(curve, (len(curve) - 1) / 6)

    def numbers(self):
        """The numbers of crossings, arcs and loops: text, box, and the component of an arc or a loop."""
        arcs, found = self.diagram.numbers.arcs, []
        for crossing in range(len(self.diagram.plane.overs)):
            text = self.diagram.crossing((crossing, 0))
            found.append((text, placed(self.page, text, around(self.shape.arcs[crossing, 0][0])), None))
        for number, (walk, _) in enumerate(self.diagram.components):
            for dart in walk:
                box = placed(self.page, arcs[dart], beside(self.shape.arcs[dart]), name_of(self.diagram.plane, dart))
                found.append((arcs[dart], box, number))
        for number, curve in enumerate(self.shape.loops):
            text = 2 * len(self.diagram.plane.overs) + number + 1
            found.append((text, placed(self.page, text, beside(curve), number), len(self.diagram.components) + number))
        return None if any(box is None for _, box, _ in found) else found


def labels_of(diagram, shape, mark, with_numbers):
    """The labels of a picture, in the least lengths in which all find room."""
    for scale in SCALES:
        labels = Labels(diagram, scaled(shape, scale), mark, with_numbers, scale)
        if labels.texts is not None:
            return labels
    raise Unreadable("there is no room for the numbers of this diagram")


class Lines:
    """The lines of a picture: strands, arrows, numbers; components have colours of their own or none."""

    def __init__(self, diagram, labels, colours):
        self.labels, self.colours = labels, colours
        self.parts = strands_of(diagram.plane, labels.shape, diagram.components)

    def colour(self, component, other="ink"):
        return colour_class(component) if self.colours else other

    def strands(self, more=None):
        """The strands, each with an attribute more where there are some."""
        return [
            path_of(curve, f' class="strand {self.colour(number)}"{it}', is_closed)
            for (curve, number, is_closed, _), it in zip(self.parts, more or [""] * len(self.parts))
        ]

    def arrows(self):
        lines = []
        for corners, number in self.labels.arrows:
            points = "L".join(f"{number_text(x)} {number_text(y)}" for x, y in corners)
            lines.append(f'<path class="arrow {self.colour(number)}" d="M{points}Z"/>')
        return lines

    def numbers(self):
        lines = []
        for text, box, number in self.labels.texts:
            kind = "crossing faint" if number is None else f"arc {self.colour(number, 'accent')}"
            lines.append(text_at(box.x, box.y, text, f' class="{kind}"'))
        return lines

    def edges(self):
        """Points that are on the page."""
        boxes = [box for _, box, _ in self.labels.texts]
        corners = [(x, y) for box in boxes for x, y in ((box.left, box.top), (box.right, box.bottom))]
        return [edge for strand in self.parts for edge in strand.curve] + corners


def svg_of(
    slices: list[Slice], crossings: Any = None, with_numbers: bool = False, mark: int | None = None, colours: bool = False
) -> str:
    """The picture of a drawing, with arrows where there is a code or directions are known without it."""
    diagram = Diagram(slices, crossings)
    labels = labels_of(diagram, shape_of(diagram.plane, slices), mark, with_numbers)
    parts = Lines(diagram, labels, colours)
    dot = []
    if labels.dot:
        dot = [f'<circle class="dot accent" cx="{number_text(labels.dot[0])}" cy="{number_text(labels.dot[1])}" r="{DOT}"/>']
    marked = None if mark is None else f"{'loop' if isinstance(labels.marked, int) else 'arc'} {mark}"
    lines = [*parts.strands(), *parts.arrows(), *dot, *parts.numbers()]
    return picture(parts.edges(), MARGIN, diagram.title(), diagram.description(marked), RULES, lines)
