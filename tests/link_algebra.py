#!/usr/bin/env python3
"""Compares `kh mirror`, `kh reverse` and `kh union` with a plain second reading of their rules, and with what they do to invariants.

    tests/link_algebra.py PROGRAM

Over four fields the table of a mirror image is the table turned round, and the polynomial has q and q^-1 exchanged; a reversal keeps both;
the polynomial of a union is the product, and so is its table over each field (Künneth). `tests/program` runs these cases behind its rows.
The last line is 'N passed, M failed'.
"""
import re
import sys

import plain.algebra as algebra
import plain.answers
import plain.cube
import plain.diagrams as codes
from plain.codes import Ended
from rows.texts import TREFOIL
from shared import known_diagrams
from shared.pool import tell_parts
from shared.running import Child, fault_of, told
from shared.tables import table_of, wrong

COMMANDS = ("mirror", "reverse", "union")
DRAWN = 300
FIELDS = "2357"
TWO_OVER = "PD[X[2,4,1,3], X[1,4,2,3]]"

ROWS = (
    ("mirror", TREFOIL, 0, "PD[X[4, 2, 5, 1], X[6, 4, 1, 3], X[2, 6, 3, 5]]\n"),
    ("reverse", TREFOIL, 0, "PD[X[6, 3, 1, 4], X[4, 1, 5, 2], X[2, 5, 3, 6]]\n"),
    ("mirror", TWO_OVER, 0, "PD[X[3, 1, 4, 2], X[4, 1, 3, 2]]\n"),
    ("mirror", "PD[]", 0, "PD[]\n"),
    ("reverse", "PD[Loop[9], Loop[9]]", 0, "PD[Loop[1], Loop[2]]\n"),
    ("mirror", "PD[X[1,2,1,2]]", 1, "refused checkerboard at arc 1\n"),
    ("reverse", TREFOIL + ";", 1, "refused text at 38\n"),
    ("union", "PD[X[1,1,2,2]];PD[X[4,1,3,2],X[2,3,1,4]]", 0, "PD[X[1, 1, 2, 2], X[6, 3, 5, 4], X[4, 5, 3, 6]]\n"),
    ("union", "PD[]", 1, "second\nrefused text at 0\n"),
    ("union", "PD[];", 1, "second\nrefused text at 0\n"),
    ("union", ";PD[]", 1, "refused text at 0\n"),
    ("union", "PD[;PD[", 1, "refused text at 3\n"),
    ("union", "PD[Loop[1]];PD[Loop[1]];", 1, "second\nrefused text at 11\n"),
    ("union", "PD[];;PD[]", 1, "second\nrefused text at 0\n"),
    ("union", "PD[]; \n[[1,1,2,2]]", 0, "PD[X[1, 1, 2, 2]]\n"),
    ("union", "[[1,1,2,2]];GaussCode[{1,-1},{}]Signs[-1]", 0, "PD[X[1, 1, 2, 2], X[4, 3, 3, 4], Loop[5]]\n"),
    ("union", "GaussCode[1];PD[", 1, "refused label at 10\n"),
    ("union", "PD[];GaussCode[1,-1]", 1, "second\nrefused no signs\n"),
    ("union", "PD[];[[1,1,2]]", 1, "second\nrefused shape at crossing 1 slot 3\n"),
    ("union", "PD[];[;]", 1, "second\nrefused json\n"),
    ("union", "PD[X[1,2,1,2]];PD[X[1,2,1,2]]", 1, "refused checkerboard at arc 1\n"),
    ("union", "PD[X[1,1,2,2]];PD[X[1,2,1,2]]", 1, "second\nrefused checkerboard at arc 1\n"),
)


def curls(count, loops=0):
    crossings = tuple((arc, arc, arc + 1, arc + 1) for arc in range(1, 2 * count, 2))
    return codes.printed(codes.Code(crossings, loops))


# Sums of crossings and loops at their limits.
SUMS = (
    ("twenty crossings", curls(13), curls(7), 0, curls(20) + "\n"),
    ("21 crossings", curls(13), curls(8), 6, "limit crossings 21 of 20\n"),
    ("40 crossings", curls(20), curls(20), 6, "limit crossings 40 of 20\n"),
    ("eight loops", curls(0, 3), curls(0, 5), 0, curls(0, 8) + "\n"),
    ("nine loops", curls(0, 3), curls(0, 6), 6, "limit loops 9 of 8\n"),
    ("ten loops", curls(0, 5), curls(0, 5), 6, "limit loops 10 of 8\n"),
    ("21 crossings and nine loops", curls(13, 3), curls(8, 6), 6, "limit crossings 21 of 20\n"),
    ("twenty crossings and eight loops", curls(10, 4), curls(10, 4), 0, curls(20, 8) + "\n"),
    ("21 crossings in the first", curls(21), "PD[", 6, "limit crossings 21 of 20\n"),
    ("21 crossings in the second", curls(1), curls(21), 6, "second\nlimit crossings 21 of 20\n"),
    ("nine loops in the second", curls(20), curls(1, 9), 6, "second\nlimit loops 9 of 8\n"),
    ("too many in the second, and none of its own", curls(20, 8), curls(1, 1), 6, "limit crossings 21 of 20\n"),
)


def rows(child):
    for command, given, status, text in ROWS:
        yield f"{command}, by hand", fault_of(child, [command], given, status, text)
    for name, one, other, status, text in SUMS:
        yield f"union, {name}", fault_of(child, ["union"], f"{one};{other}", status, text)


def new_codes(child):
    """Mirror images and reversals of many diagrams, and these twice."""
    diagrams = [known_diagrams.diagram_of(text) for _, text in known_diagrams.begun() + known_diagrams.stored()]
    for diagram in [*diagrams, *known_diagrams.drawn("algebra", DRAWN)]:
        text = known_diagrams.text_of(diagram)
        for command, changed in (("mirror", algebra.mirrored), ("reverse", algebra.reversed_)):
            once = changed(diagram)
            yield f"{command}, a code", fault_of(child, [command], text, 0, algebra.text_of(once))
            yield f"{command}, twice", fault_of(child, [command], known_diagrams.text_of(once), 0, algebra.text_of(changed(once)))


def homology(child, text, field):
    """The dimensions by both degrees, and the Jones line."""
    return table_of(child, ["homology", "--field", field], text)


def terms_of(line):
    """The coefficients of a Jones line, by exponents."""
    return {int(at): int(value) for value, at in re.findall(r"(-?\d+)\*q\^(-?\d+)", "".join(line))}


def invariants(child):
    """Tables and polynomials of 60 diagrams, their mirror images and reversals, over four fields."""
    texts = [text for _, text in known_diagrams.begun() + known_diagrams.stored() if len(codes.read(text).crossings) <= 9]
    few = [text for text in texts if plain.cube.generator_count(codes.read(text)) <= 20_000]
    few += [known_diagrams.text_of(it) for it in known_diagrams.drawn("tables", 60 - len(few[:40]), most=7)]
    for text in few[:40] + few[-20:]:
        image = child.run(["mirror"], text.encode()).wrote.decode()
        back = child.run(["reverse"], text.encode()).wrote.decode()
        for field in FIELDS:
            table, jones = homology(child, text, field)
            turned, turned_jones = homology(child, image, field)
            yield f"mirror, its table over {field}", wrong(turned, algebra.turned(table))
            mirrored = dict(sorted((-at, value) for at, value in terms_of(jones).items()))
            yield f"mirror, its polynomial over {field}", wrong(terms_of(turned_jones), mirrored)
            yield f"reverse, its table over {field}", wrong(homology(child, back, field), (table, jones))


def pairs(child):
    """Unions of each pair of ten diagrams: the code, the polynomial, and of small ones the table over each field."""
    names = ("no crossings", "two loops", "a curl", "a Hopf link", "a trefoil", "the other trefoil", "a figure eight")
    texts = [text for name, text in known_diagrams.begun() if name in names] + [text for _, text in known_diagrams.stored()[:3]]
    found = {(text, field): homology(child, text, field) for text in texts for field in FIELDS}
    for first in texts:
        for second in texts:
            both = algebra.united(codes.read(first), codes.read(second))
            yield "union, a pair", fault_of(child, ["union"], f"{first};{second}", 0, codes.printed(both) + "\n")
            line = plain.cube.polynomial_line(algebra.product(*(terms_of(found[text, "2"][1]) for text in (first, second))))
            yield "union, its polynomial", fault_of(child, ["jones"], codes.printed(both), 0, line)
            for field in FIELDS if plain.cube.generator_count(both) <= 100_000 else "":
                table = homology(child, codes.printed(both), field)[0]
                yield f"union, its table over {field}", wrong(table, algebra.product(found[first, field][0], found[second, field][0]))


def refused_pairs(child):
    """Unions of texts of all kinds and forms: the first code's refusals, then the second's, then the limits of both."""
    texts = ["PD[X[1,2,1,2]]", "PD[X[1,1,2,2]", "[[1,1,2,2]]", "GaussCode[1,-1]Signs[2]", "", " ", "[[1]]", "G"]
    texts += [curls(19), curls(2, 8), curls(21)]
    for first in texts:
        for second in texts:
            yield "union, texts of all kinds", fault_of(child, ["union"], f"{first};{second}", *union_answer(first, second))


def union_answer(first, second):
    """The status and the text of a union of two texts, by the plain readings."""
    try:
        one = codes.code_of(plain.answers.read(first.encode()))
    except Ended as it:
        return it.status, it.line + "\n"
    try:
        other = codes.code_of(plain.answers.read(second.encode()))
    except Ended as it:
        return it.status, f"second\n{it.line}\n"
    try:
        return 0, codes.printed(algebra.united(one, other)) + "\n"
    except Ended as it:
        return it.status, it.line + "\n"


def parts(program, word=""):
    """The parts of these tests: a name, and what gives the name of each case and what is wrong with it, if anything is."""
    if told(program, *COMMANDS):
        for group in (rows, new_codes, invariants, pairs, refused_pairs):
            yield f"link algebra, {group.__name__}", lambda group=group: group(Child(program))


if __name__ == "__main__":
    sys.exit(tell_parts(parts, __doc__))
