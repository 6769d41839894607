"""Tries the drawing behind a move: it shows the diagram that the move makes, and what the move does not touch stays at its place.

`page.py` runs this. The diagrams are drawn by `plain.drawing`, and the pictures are read as those of `pictures.py`.
"""
import math
from types import SimpleNamespace

import plain.diagrams
import plain.drawing
import plain.moves
from companions import pictures
from kh.show.figure import MARGIN, RULES
from kh.show.page import picture
from kh.show.page_figure import Change, Figure
from kh.show.passage import passage_of
from kh.show.slices import read_drawing
from rows.texts import TREFOIL
from shared import known_diagrams

# What is drawn first, the lines of moves, and for each whether all else stays at its place.
ROWS = [
    ("a kink and back", known_diagrams.diagram_of(TREFOIL), ["r1 add 1 under plus", "r1 drop 4"], [True, True]),
    ("a finger, and another way back", known_diagrams.diagram_of(TREFOIL), ["r2 add 1 left 3 left", "r2 drop 4 5"], [False, True]),
    ("a slide, and a kink taken out", known_diagrams.braid(3, [1, 2, 1]), ["r3 1 2 3", "r1 drop 2"], [True, True]),
]


def figure_of(diagram, change=None):
    """The drawing of a diagram on a page."""
    code = plain.diagrams.code_of(diagram)
    signs = [1 if it.positive else -1 for it in diagram.crossings]
    slices = read_drawing(plain.drawing.drawing(code))
    return Figure(SimpleNamespace(crossings=list(code.crossings), signs=signs, loops=code.loops, slices=slices), change)


def shown_fault(diagram, figure):
    """The drawing, as a picture with its numbers, shows the diagram."""
    lines = [*figure.lines.strands(), *figure.lines.arrows(), *figure.lines.numbers()]
    told = figure.diagram.title(), figure.diagram.description()
    return pictures.shown_fault(plain.diagrams.code_of(diagram), picture(figure.lines.edges(), MARGIN, *told, RULES, lines))


def kept_fault(before, figure, line):
    """Crossings that are kept and not slid stand where they stood."""
    passage = passage_of(before.sheet.crossings, figure.sheet.crossings, line)
    for one, other in passage.kept.items():
        place, old = (it.drawn.arcs[it.dart(at, 0)][0] for it, at in ((figure, one), (before, other)))
        if one not in passage.slid and math.dist(place, old) > 1e-6:
            return f"crossing {one + 1}"
    return None


def row_faults(name, diagram, lines, kept):
    """What is wrong behind each move of a row."""
    figure = figure_of(diagram)
    for line, is_kept in zip(lines, kept):
        before, diagram = figure, plain.moves.moved(diagram, line)
        figure = figure_of(diagram, Change(before, line))
        back = passage_of(figure.sheet.crossings, before.sheet.crossings, line, True)
        fault = shown_fault(diagram, figure) or (None if back else "no way back")
        if figure.is_kept != is_kept:
            fault = fault or f"kept: {figure.is_kept}"
        yield f"{name}: {line}", fault or (kept_fault(before, figure, line) if is_kept else None)


def faults():
    """The name of each test, and what is wrong, if anything is."""
    for row in ROWS:
        yield from row_faults(*row)
