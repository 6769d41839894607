"""A plain second reading of mirror images, reversals, unions and pieces of diagrams, and what they do to tables and polynomials."""
from collections import Counter

from plain.codes import need_room
from plain.diagrams import CROSSINGS, LOOPS_OF_A_TEXT, Code, Crossing, Diagram, Pass, code_of, pieces, printed, renumbered


def mirrored(diagram):
    """At each crossing the other strand is over, so that its sign is the other one."""
    crossings = tuple(Crossing(it.over, it.under, not it.positive) for it in diagram.crossings)
    return renumbered(Diagram(crossings, diagram.loops))


def reversed_(diagram):
    """Each pass goes the other way."""
    crossings = tuple(Crossing(Pass(*it.under[::-1]), Pass(*it.over[::-1]), it.positive) for it in diagram.crossings)
    return renumbered(Diagram(crossings, diagram.loops))


def united(first, second):
    """The crossings of the first code, then those of the second with arcs behind the first's; too many of them are a limit."""
    arcs = 2 * len(first.crossings)
    crossings = first.crossings + tuple(tuple(arc + arcs for arc in slots) for slots in second.crossings)
    need_room("crossings", len(crossings), CROSSINGS)
    need_room("loops", first.loops + second.loops, LOOPS_OF_A_TEXT)
    return Code(crossings, first.loops + second.loops)


def split(diagram):
    """The pieces of a diagram, each a diagram of its own; its loops are in none of them."""
    for numbers in pieces(code_of(diagram)):
        yield renumbered(Diagram(tuple(diagram.crossings[number - 1] for number in numbers), 0))


def text_of(diagram):
    return printed(code_of(diagram)) + "\n"


def product(first, second):
    """The product of two polynomials, or of two tables of dimensions over one field: degrees are added."""
    whole = Counter()
    for one, value in first.items():
        for other, far in second.items():
            at = tuple(map(sum, zip(one, other))) if isinstance(one, tuple) else one + other
            whole[at] += value * far
    return {at: whole[at] for at in sorted(whole) if whole[at]}


def turned(table):
    """The table with all degrees negated."""
    return {at: table[-at[0], -at[1]] for at in sorted((-j, -i) for j, i in table)}
