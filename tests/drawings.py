#!/usr/bin/env python3
"""Compares what `kh draw` writes with a plain second reading of its rules, and reads each drawing by its text alone.

    tests/drawings.py PROGRAM

A drawing is compared in two ways: it has the text that the rules give, and what it shows is the diagram: its crossings, which strand is
over at each, how they are joined, and its loops; and no row has more than 2n + 2 strands for n crossings. `tests/program` runs these
cases behind its rows. The last line is 'N passed, M failed'.
"""
import sys

import plain.diagrams as codes
import plain.drawing
import plain.moves as moves
from shared import known_diagrams
from shared.pool import tell_parts
from shared.running import Child, fault_of, told

NAME = "draw, "
DRAWN = 400

ROWS = (
    ("no crossings", "PD[]", ""),
    ("a loop", "PD[Loop[1]]", "open 1: /\\\nclose 1: \\/\n"),
    ("a curl", "PD[X[1,1,2,2]]", "open 1: /\\\nopen 3: | | /\\\nright 2: | -/ |\nclose 1: \\/ | |\nclose 1: \\/\n"),
    (
        "a trefoil",
        "PD[X[1,4,2,5], X[3,6,4,1], X[5,2,6,3]]",
        "open 1: /\\\nopen 3: | | /\\\nright 2: | -/ |\nopen 2: | /\\ | | |\nleft 1: \\- | | | |\nopen 2: | /\\ | | | | |\n"
        "left 1: \\- | | | | | |\nclose 3: | | \\/ | | | |\nclose 3: | | \\/ | |\nclose 2: | \\/ |\nclose 1: \\/\n",
    ),
)

# A closed braid, and how many strands its widest row has: as many as twenty crossings may.
STRANDS, LETTERS, WIDEST = 3, [1, -2] * 10, 42

# A curl in a curl in a curl, and curls inside the loops of others.
NESTED = (
    ("curls in curls", ["r1 add 1 under plus", "r1 add 2 over minus", "r1 add 3 under minus", "r1 add 4 over plus", "r1 add 3 under plus"]),
    ("curls along a curl", ["r1 add 2 under plus", "r1 add 2 under plus", "r1 add 2 over minus", "r1 add 1 over plus"]),
    ("fingers in fingers", ["r2 add 1 left 2 right", "r1 add 3 under minus", "r2 add 2 left 6 right", "r1 add 1 over plus"]),
)


def nested():
    """The name and the text of each nested diagram."""
    for name, lines in NESTED:
        diagram = known_diagrams.diagram_of("PD[X[1,1,2,2]]")
        for line in lines:
            try:
                diagram = moves.moved(diagram, line)
            except codes.Refused:
                pass
        yield name, known_diagrams.text_of(diagram)


def texts():
    """The name and the text of each diagram that is drawn."""
    yield from ((name, text) for name, text, _ in ROWS)
    yield from nested()
    yield from known_diagrams.begun()
    yield from known_diagrams.stored()
    yield from known_diagrams.large()
    for number, diagram in enumerate(known_diagrams.drawn("drawings", DRAWN)):
        yield f"drawn at random, {number}", known_diagrams.text_of(diagram)


def width_fault(child):
    """What is wrong with the widest row of the closed braid, if anything is."""
    text = known_diagrams.text_of(known_diagrams.braid(STRANDS, LETTERS))
    found = plain.drawing.shown(child.run(["draw"], text.encode()).wrote.decode()).widest
    return None if found == WIDEST else f"{found} strands"


def faults(program, word=""):
    """The name of each case whose name has the word, and what is wrong with it, if anything is."""
    if not told(program, "draw"):
        return
    child = Child(program)
    for name, text, wanted in ROWS:
        if word in NAME + name:
            yield f"{NAME}{name}, by hand", fault_of(child, ["draw"], text, 0, wanted)
    if word in f"{NAME}a widest row":
        yield f"{NAME}a widest row", width_fault(child)
    for name, text in texts():
        if word in NAME + name:
            code = codes.read(text)
            yield NAME + name, fault_of(child, ["draw"], text, 0, plain.drawing.drawing(code))
            yield f"{NAME}{name}, what it shows", plain.drawing.difference(child.run(["draw"], text.encode()).wrote.decode(), code)


def parts(program, word=""):
    """The part of these tests: its name, and what gives the name of each case and what is wrong with it, if anything is."""
    yield "drawings", lambda: faults(program, word)


if __name__ == "__main__":
    sys.exit(tell_parts(parts, __doc__))
