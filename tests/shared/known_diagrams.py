"""Diagrams for the tests of commands: those of the stored tables and of moves, closed braids, and some that are drawn at random."""
import os
import random

import drawn.moves as draws
import plain.diagrams as codes
import plain.moves as moves
import rows.edit_by_hand as hand
import rows.texts as texts
from shared import stored_links
from shared.places import TOP
from bench.braids import closure, planar_diagram

ALTERNATING_BRAIDS = ((3, [1, -2] * 10), (5, [1, -2, 3, -4] * 5), (6, [1, -2, 3, -4, 5] * 4), (2, [1] * 20), (4, [1, -2, 3] * 6 + [1, -2]))
BRAIDS = ((4, [1, -2, 3] * 4), (3, [1, 2] * 6), (3, [1, -2] * 7), (4, [1, 2, 3, -2] * 4))
SOME_TABLES = ("5_2", "Whitehead", "6_3", "Borromean", "T(2,6)", "7_7", "8_18", "8_19", "9_42", "10_123", "10_152")
SMALL = (
    ("no crossings", "PD[]"),
    ("two loops", "PD[Loop[1], Loop[2]]"),
    ("a curl", hand.CURL),
    ("a curl of the other sign", "PD[X[1,2,2,1]]"),
    ("a curl over first, with loops", "PD[X[2,2,1,1], Loop[3], Loop[4]]"),
    ("a curl over first of the other sign", "PD[X[2,1,1,2]]"),
    ("a Hopf link", hand.HOPF),
    ("the other Hopf link", "PD[X[1,3,2,4], X[3,1,4,2]]"),
    ("two curls apart", hand.TWO_CURLS),
    ("a circle over a circle", hand.CIRCLE_OVER_CIRCLE),
    ("a circle over a circle, listed the other way", "PD[X[2,4,1,3], X[1,4,2,3], Loop[5]]"),
    ("a circle over a curl", hand.CIRCLE_OVER_CURL),
    ("a circle with a curl over a circle", hand.CIRCLE_WITH_CURL),
    ("a Hopf link with a curl", hand.HOPF_WITH_CURL),
    ("a trefoil", hand.TREFOIL),
    ("the other trefoil", "PD[X[4,2,5,1], X[6,4,1,3], X[2,6,3,5]]"),
    ("two triangles", hand.TWO_TRIANGLES),
    ("a figure eight", "PD[X[4,2,5,1], X[8,6,1,5], X[6,3,7,4], X[2,7,3,8]]"),
    ("a curl and a trefoil apart, with a loop", "PD[X[1,1,2,2], X[3,6,4,7], X[5,8,6,3], X[7,4,8,5], Loop[1]]"),
    ("two Hopf links apart", "PD[X[4,1,3,2], X[2,3,1,4], X[8,5,7,6], X[6,7,5,8]]"),
    ("five curls and eight loops", hand.with_more(texts.links(5), ", ".join(["Loop[1]"] * 8))),
    ("twelve curls", texts.links(12)),
)


def stored():
    """The name and the text of each link with a stored table: knots and links of 5 to 10 crossings."""
    return list(stored_links.texts("tables.txt").items())


def begun():
    """The name and the text of each diagram that moves begin with."""
    tables, polynomials = stored_links.texts("tables.txt"), stored_links.texts("polynomials.txt")
    some = [(name, tables[name]) for name in SOME_TABLES]
    braids = [(f"a braid of {len(word)} crossings on {strands} strands", planar_diagram(strands, word)) for strands, word in BRAIDS]
    return [*SMALL, *some, *braids, *list(polynomials.items())[:7:3]]


def named():
    """The name and the text of each prime knot of up to 8 crossings, and of each prime link of up to 7, of `reference/braids.txt`."""
    with open(os.path.join(TOP, "reference", "braids.txt"), encoding="utf-8") as file:
        lines = [line.split() for line in file if line.strip() and not line.startswith("#")]
    for name, strands, *letters in lines:
        if name[0].isdigit() and int(name[0]) <= 8:
            yield name, planar_diagram(int(strands), [int(letter) for letter in letters])


def large():
    """Links of up to 20 crossings, and diagrams of many pieces and loops."""
    yield from stored_links.texts("large_tables.txt").items()
    yield from stored_links.texts("polynomials.txt").items()
    for strands, letters in ALTERNATING_BRAIDS:
        yield f"{len(letters)} letters on {strands} strands", planar_diagram(strands, letters)
    curls = tuple((arc, arc, arc + 1, arc + 1) for arc in range(1, 41, 2))
    yield "twenty curls and eight loops", codes.printed(codes.Code(curls, 8))
    yield "eight loops", codes.printed(codes.Code((), 8))


def braid(strands, letters):
    """The accepted diagram of a closed braid; strands without a letter are loops."""
    crossings, loops = closure(strands, letters)
    return codes.accepted(codes.Code(tuple(map(tuple, crossings)), loops))


def drawn(seed, count, most=codes.CROSSINGS):
    """Diagrams that are drawn at random: closed braids, and what moves make of small ones; none has more crossings than are asked for."""
    draw = random.Random(seed)
    while count:
        strands = draw.randint(2, 5)
        letters = [draw.choice((1, -1)) * draw.randint(1, strands - 1) for _ in range(draw.randint(0, min(most, 12)))]
        diagram = braid(strands, letters)
        for _ in range(draw.choice((0, 0, 2, 6, 12))):
            try:
                diagram = moves.moved(diagram, draws.good_line(draw, diagram))
            except codes.Refused:
                pass
        if len(diagram.crossings) <= most and diagram.loops <= codes.LOOPS_OF_A_TEXT:
            count -= 1
            yield diagram


def text_of(diagram):
    return codes.printed(codes.code_of(diagram))


def diagram_of(text):
    return codes.accepted(codes.read(text))
