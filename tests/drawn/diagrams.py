"""Diagrams of up to 20 crossings that are drawn at random, of one piece or of several, and moves at them, one after another."""
import functools

import drawn.moves as draws
import plain.algebra as algebra
import plain.diagrams as codes
import plain.moves as moves
from shared.known_diagrams import braid

# What letters of a closed braid become: all crossings of one sign, alternating ones, or any.
SIGNED = (lambda draw, letter: letter, lambda draw, letter: (-1) ** letter * letter, lambda draw, letter: draw.choice((1, -1)) * letter)
STRANDS = 4
# Above so many crossings they are fewer, and scans are short.
FEW_CROSSINGS, FEW_STRANDS = 12, 3
# The crossings of diagrams that are moved, and of those that moves begin with.
LEAST, MOST = 14, codes.CROSSINGS
FIRST = (14, 15)


def piece(draw, crossings):
    """A closed braid of so many crossings on a few strands, all of which cross."""
    strands = draw.randint(2, min(crossings + 1, STRANDS if crossings <= FEW_CROSSINGS else FEW_STRANDS))
    letters = [*range(1, strands), *draw.choices(range(1, strands), k=crossings - strands + 1)]
    signed = draw.choice(SIGNED)
    return braid(strands, [signed(draw, letter) for letter in draw.sample(letters, crossings)])


def parts_of(draw, count):
    """Numbers above 0 with this sum."""
    while count:
        part = draw.randint(1, count)
        count -= part
        yield part


def directed_anew(draw, diagram):
    """The diagram with some of its components going the other way: a crossing of one of them and another has the other sign."""
    back = {arc for them in codes.components(codes.code_of(diagram)) if draw.random() < 0.5 for arc in them}
    crossings = []
    for under, over, positive in diagram.crossings:
        passes = [codes.Pass(*it[::-1]) if it.enters in back else it for it in (under, over)]
        crossings.append(codes.Crossing(*passes, positive ^ (under.enters in back) ^ (over.enters in back)))
    return codes.renumbered(codes.Diagram(tuple(crossings), diagram.loops))


def listed_anew(draw, diagram):
    """The same diagram with its crossings in any order, and its components in any order too, each numbered from any of its arcs on."""
    arcs = codes.arcs_of(diagram)
    name = dict(zip(arcs, draw.sample(arcs, len(arcs))))
    crossings = [codes.renamed(it, name.get, name.get) for it in draw.sample(diagram.crossings, len(diagram.crossings))]
    return codes.renumbered(codes.Diagram(tuple(crossings), diagram.loops))


def apart(draw, counts, loops):
    """Pieces that lie apart, each of so many crossings, and so many loops: directed, listed and numbered in any way."""
    pieces = [codes.code_of(piece(draw, count)) for count in counts]
    whole = codes.accepted(functools.reduce(algebra.united, pieces, codes.Code((), loops)))
    return listed_anew(draw, directed_anew(draw, whole))


def first(draw):
    """A diagram for moves to begin with: of one piece, or of pieces that lie apart and a few loops."""
    crossings = draw.choice(FIRST)
    if draw.random() < 0.5:
        return apart(draw, [crossings], 0)
    return apart(draw, parts_of(draw, crossings), draw.randint(0, 4))


def next_move(draw, diagram):
    """The line of a move, of a kind that is drawn first, and the diagram that it leaves; None where there is no room for any."""
    for kind in draw.sample(draws.KINDS, len(draws.KINDS)):
        for line in draws.draw_some(draw, kind(draw, diagram), 1):
            try:
                left = moves.moved(diagram, line)
            except codes.Refused:
                continue
            if LEAST <= len(left.crossings) <= MOST and left.loops <= codes.LOOPS_OF_A_TEXT:
                return line, left
    return None


def walk(draw, diagram, most):
    """Up to so many moves, one after another: the line of each, and the diagram that it leaves."""
    for _ in range(most):
        found = next_move(draw, diagram)
        if not found:
            return
        yield found
        diagram = found[1]
