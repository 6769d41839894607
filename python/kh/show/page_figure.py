"""The drawing of a page, and the pieces of which the circles of its states are put together.

Each arc of the code has an arm, from the place where it turns at one crossing to the place where it turns at the other, and each crossing
has two turns for either smoothing. They are drawn once, under names; a circle of a state uses those that it is made of.
"""
import math
from html import escape
from typing import NamedTuple

from .figure import MARGIN, RULES, Diagram, Lines, labels_of
from .generators import joins_of
from .page import colour_class, number_text, path_of, style
from .mesh import turned
from .passage import Passage, passage_of
from .planar import faces_of, pieces_of
from .shape import along, bounds, distance, sampled, shape_of
from .start import Old, like_of, line_of, moved_shape, spaced
from .strands import SHARPNESS, arms_of, joined

# The radius of what is clicked at a crossing, and how far a small picture of one reaches.
HIT, VIEW = 17, 34
# How many times as large as its lengths a drawing is shown at most.
LARGEST = 2
SIGNS = {1: "positive", -1: "negative"}
# The kinds of moves that are marked at their faces: what stands there, and what is said.
MARKED = {"unkink": ("R1", "take the kink out:"), "bigon": ("R2", "take the bigon out:"), "slide": ("R3", "slide:")}
# How many points there are for each arc along which a strand lay before a change.
FROM = 12


def old_of(figure, change):
    """The picture before a change, for its darts in the plane; nothing where an arc becomes a loop or is one."""
    before = change.before
    found = passage_of(before.sheet.crossings, figure.sheet.crossings, change.line, change.is_back)
    if not found:
        return None

    def there(darts):
        return tuple(before.dart(*it) for it in darts)

    came = {figure.dart(*dart): it._replace(darts=there(it.darts)) for dart, it in found.came.items()}
    kept = {figure.places[one][0]: before.places[other][0] for one, other in found.kept.items()}
    slid, added = (tuple(figure.places[it][0] for it in them) for them in (found.slid, found.added))
    dropped = tuple(before.places[it][0] for it in found.dropped)
    return Old(before.drawn.arcs, Passage(came, kept, slid, there(found.sides), dropped, added))


class Change(NamedTuple):
    """What led to a diagram: the figure before, the line of the move, and whether it was taken back."""

    before: object
    line: str
    is_back: bool = False


class Figure:
    """A diagram on a page: its shape, and where its crossings and arcs are. Behind a change it keeps what the move does not touch at its
    place, where that can be, and knows from where each strand comes."""

    def __init__(self, sheet, change=None, drawn=None):
        self.sheet, self.count = sheet, len(sheet.crossings)
        self.diagram = Diagram(sheet.slices, sheet.crossings)
        self.plane, self.numbers = self.diagram.plane, self.diagram.numbers
        # (for each crossing of the code, from 0, that of the drawing, and its corner at which the slot 0 is)
        self.places = {self.numbers.crossings[at]: (at, (corner + 2) % 4) for at, corner in self.numbers.leaving}
        self.change, self.old = change, old_of(self, change) if change else None
        kept = drawn or self.shape_behind()
        self.is_kept, self.drawn = bool(kept), kept or shape_of(self.plane, sheet.slices, self.like())
        self.labels = labels_of(self.diagram, self.drawn, None, True)
        self.shape, self.arms = self.labels.shape, arms_of(self.plane, self.labels.shape)
        self.lines = Lines(self.diagram, self.labels, len(self.diagram.components) + self.plane.loops > 1)

    def shape_behind(self):
        """The shape behind a change, or nothing where there is none, or the diagram is better drawn anew."""
        return moved_shape(self.plane, self.old, self.change.before.plane.partner) if self.old else None

    def like(self):
        return like_of(self.plane, self.change.before.plane, self.old) if self.old else None

    def dart(self, crossing, slot):
        """The dart at a slot of a crossing of the code."""
        at, corner = self.places[crossing]
        return at, (corner + slot) % 4

    def from_curves(self):
        """For each strand that is drawn the points along which it lay before the change; nothing where that is not known."""
        if not self.old or self.plane.loops or self.change.before.plane.loops:
            return None
        scale = self.labels.scale
        return [
            [(scale * x, scale * y) for dart in strand.darts for x, y in line_of(self.old, self.old.passage.came[dart])]
            for strand in self.lines.parts
        ]

    def middle(self, crossing):
        return self.shape.arcs[self.dart(crossing, 0)][0]

    def arcs(self):
        """The number of each arc, with its curve and its arm, which are those of a loop too."""
        for dart in sorted(self.arms, key=self.numbers.arcs.get):
            if dart < self.plane.partner[dart]:
                yield self.numbers.arcs[dart], self.shape.arcs[dart], self.arms[dart], False
        for number, curve in enumerate(self.shape.loops, 2 * self.count + 1):
            yield number, curve, curve, True

    def turn(self, crossing, one, other):
        """The curve by which two slots of a crossing are joined."""
        darts = self.dart(crossing, one), self.dart(crossing, other)
        hands = [along(self.arms[dart][0], self.shape.arcs[dart][0], SHARPNESS) for dart in darts]
        return [self.arms[darts[0]][0], *hands, self.arms[darts[1]][0]]

    def pieces(self):
        """The pieces under their names."""
        lines = []
        for number, curve, arm, is_closed in self.arcs():
            lines.append(path_of(curve, f' id="arc-{number}"', is_closed))
            lines.append(path_of(arm, f' id="arm-{number}"', is_closed))
        for crossing in range(self.count):
            for one, other in (*joins_of(None, 0), *joins_of(None, 1)):
                lines.append(path_of(self.turn(crossing, one, other), f' id="turn-{crossing + 1}-{one}{other}"'))
        return lines

    def circles(self, state, are_named=False):
        """The circles of a state, each in its colour, put together of pieces, and under its own name where that is wanted."""
        groups = []
        for number, circle in enumerate(state.circles):
            names = [f"arm-{arc}" for arc in circle]
            for crossing, (arcs, bit) in enumerate(zip(self.sheet.crossings, state.bits), 1):
                names += [f"turn-{crossing}-{one}{other}" for one, other in joins_of(arcs, bit) if arcs[one] in circle]
            uses = "".join(f'<use href="#{name}"/>' for name in names)
            name = f' id="circle-{state.text()}-{number}"' if are_named else ""
            groups.append(f'<g class="circle {colour_class(number)}"{name}>{uses}</g>')
        return "".join(groups)

    def edges(self):
        """The edges of the page around all that stands on it: left, top, breadth and height."""
        left, top, right, bottom = bounds(self.lines.edges() or [(0, 0)])
        return left - MARGIN, top - MARGIN, right - left + 2 * MARGIN, bottom - top + 2 * MARGIN

    def inner(self):
        """The edges around the strands alone."""
        curves = [point for *_, curve, _, _ in self.arcs() for point in sampled(curve)]
        left, top, right, bottom = bounds(curves or [(0, 0)])
        return left, top, right - left, bottom - top


def box_text(edges):
    return " ".join(map(number_text, edges))


def target(figure, crossing):
    """What is clicked at a crossing."""
    x, y = figure.middle(crossing)
    told = f"crossing {crossing + 1}, {SIGNS[figure.sheet.signs[crossing]]}"
    circle = f'<circle cx="{number_text(x)}" cy="{number_text(y)}" r="{HIT}"/>'
    return f'<a class="target" href="#crossing-{crossing + 1}"><title>{told}</title>{circle}</a>'


def face_of(figure, move):
    """The curve around the face of a move, whether it is the outer one, and the place of its mark."""
    arcs = set(move.arcs) or {arc for arc in figure.sheet.crossings[move.crossings[0] - 1] if is_loop_at(figure, move, arc)}
    number, found = figure.numbers.arcs, []
    for face in (face for piece in pieces_of(figure.plane) for face in faces_of(figure.plane, piece)):
        if len(face) == len(move.crossings) and {number[dart] for dart in face} <= arcs and met(figure, face) == set(move.crossings):
            curve = joined([figure.shape.arcs[dart] for dart in face])
            points = sampled(curve)
            area = math.fsum(x * deep - y * far for (x, y), (far, deep) in zip(points, points[1:] + points[:1]))
            found.append((area > 0, curve, points))
    is_outer, curve, points = min(found, key=lambda it: it[0])
    middle = [math.fsum(it) / len(points) for it in zip(*points)]
    return curve, is_outer, points[len(points) // 6] if is_outer else free_place(figure, middle, points)


def free_place(figure, middle, points):
    """The place nearest to the middle of a face that is away from its sides and from numbers, if there is one."""
    numbers = [(box.x, (box.top + box.bottom) / 2) for _, box, _ in figure.labels.texts]
    for far in range(0, 60, 4):
        for number in range(12 if far else 1):
            across, up = turned(number / 12)
            place = middle[0] + far * across, middle[1] - far * up
            if min(distance(place, it) for it in points) > 15 and all(distance(place, it) > 21 for it in numbers):
                return place
    return middle


def met(figure, face):
    """The crossings around a face, from 1."""
    return {figure.numbers.crossings[crossing] + 1 for crossing, _ in face}


def is_loop_at(figure, move, arc):
    return figure.sheet.crossings[move.crossings[0] - 1].count(arc) == 2


def move_mark(figure, move, preview):
    """What is clicked to make a move at a face of the drawing."""
    curve, is_outer, (x, y) = face_of(figure, move)
    data = f'data-arcs="{" ".join(map(str, move.arcs))}" data-crossings="{" ".join(map(str, move.crossings))}" data-preview="{preview}"'
    told = f"{MARKED[move.kind][1]} {move.told}"
    return (
        f'<g class="move" role="button" tabindex="0" data-line="{move.line}" {data} aria-label="{told}"><title>{told}</title>'
        f'{path_of(curve, f""" class="face{" outer" if is_outer else ""}" """.rstrip(), True)}'
        f'<circle cx="{number_text(x)}" cy="{number_text(y)}" r="12"/>'
        f'<text x="{number_text(x)}" y="{number_text(y + 4)}">{MARKED[move.kind][0]}</text></g>'
    )


def preview_of(figure, behind):
    """The picture of a figure behind a move, in the frame of the figure before it where there is room for it."""
    edges, more = figure.edges(), behind.edges()
    fits = more[0] >= edges[0] and more[1] >= edges[1]
    fits = fits and more[0] + more[2] <= edges[0] + edges[2] and more[1] + more[3] <= edges[1] + edges[3]
    lines, box = [*behind.lines.strands(), *behind.lines.arrows()], edges if fits else more
    ground = f'<rect class="ground" x="{box[0]}" y="{box[1]}" width="{box[2]}" height="{box[3]}" fill="currentColor"/>'
    size = f'width="{number_text(box[2])}" height="{number_text(box[3])}" viewBox="{box_text(box)}"'
    name, rules = style(RULES, [ground, *lines])
    head = f'<svg xmlns="http://www.w3.org/2000/svg" class="{name}" {size}>'
    title = f"<title>{escape(behind.diagram.title())}</title>"
    return "\n".join([head, title, rules, ground, *lines, "</svg>"]) + "\n"


def from_texts(figure):
    """For each strand, as an attribute, the line along which it lay before the change."""
    curves = figure.from_curves()
    if curves is None:
        return ["" for _ in figure.lines.parts]
    rows = [spaced(points, 1 + FROM * max(1, len(strand.darts))) for points, strand in zip(curves, figure.lines.parts)]
    return [f' data-from="{" ".join(f"{x:.0f},{y:.0f}" for x, y in row)}"' for row in rows]


def drawing_of(figure, listed, moves=()):
    """The drawing, with places to click, and the circles of those states that are listed, which are shown where one is chosen; and the
    moves at its faces, each with the address of its picture."""
    edges, diagram = figure.edges(), figure.diagram
    # (a small drawing is made larger, but not by much)
    size = f'viewBox="{box_text(edges)}" style="max-width:min(26rem,{number_text(LARGEST * edges[2])}px)"'
    overlays = [f'<g class="overlay" id="state-{state.text()}">{figure.circles(state, True)}</g>' for state in listed]
    return "\n".join([
        f'<svg id="drawing" class="figure" {size} role="group" aria-labelledby="drawing-title" aria-describedby="drawing-told">',
        f'<title id="drawing-title">{escape(diagram.title())}</title>',
        f'<desc id="drawing-told">{escape(diagram.description())}</desc>',
        "<defs>", *figure.pieces(), "</defs>",
        '<g id="strands">', *figure.lines.strands(from_texts(figure)), *figure.lines.arrows(), "</g>",
        '<g id="numbers" aria-hidden="true">', *figure.lines.numbers(), "</g>",
        *overlays,
        '<g id="shown" aria-hidden="true"></g>',
        *(move_mark(figure, move, preview) for move, preview in moves if move.kind in MARKED),
        *(target(figure, crossing) for crossing in range(figure.count)),
        '<g id="preview" aria-hidden="true"></g>', '<g id="marks" aria-hidden="true"></g>',
        "</svg>",
    ])


def around(figure, crossing, inside, label):
    """A small picture of the place around a crossing."""
    x, y = figure.middle(crossing)
    edges = box_text((x - VIEW, y - VIEW, 2 * VIEW, 2 * VIEW))
    return f'<svg class="view" viewBox="{edges}" width="68" height="68" role="img" aria-label="{label}">{inside}</svg>'


def smoothing_view(figure, crossing, bit):
    """A small picture of a smoothing of a crossing, with the arcs that end there."""
    pieces = [f"turn-{crossing + 1}-{one}{other}" for one, other in joins_of(None, bit)]
    pieces += [f"arm-{arc}" for arc in sorted(set(figure.sheet.crossings[crossing]))]
    uses = "".join(f'<use href="#{name}"/>' for name in pieces)
    return around(figure, crossing, f'<g class="circle ink">{uses}</g>', f"its {bit}-smoothing")


def crossing_view(figure, crossing):
    return around(figure, crossing, '<use href="#strands"/>', f"crossing {crossing + 1}")
