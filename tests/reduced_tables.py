#!/usr/bin/env python3
"""Compares `kh reduced` with a plain second reading of the reduced complex, and with what is known of reduced homology.

    tests/reduced_tables.py PROGRAM

For knots and links, at marks on arcs and loops: (q + q^-1) times the reduced Euler characteristic is the Jones polynomial; the table of an
alternating knot lies on one diagonal; over two elements the unreduced table is the reduced one twice, at j - 1 and j + 1 (Shumakovitch),
so that it is the same for every mark. Tables of small cubes are compared whole. `tests/program` runs these cases behind its rows. The last
line is 'N passed, M failed'.
"""
import re
import sys
from collections import Counter

import link_algebra
import plain.cube
import plain.diagrams as codes
from rows.link import REDUCED_TREFOIL
from rows.texts import TREFOIL, USAGE
from shared import known_diagrams
from shared.pool import tell_parts
from shared.running import Child, fault_of, told
from shared.tables import wrong

FIELDS = "2357"
WHOLE = 1_000
GENERATORS = 30_000
SHARES = 8
LOOP = "table 2\nfield 2\nj 0 i 0 dim 1\njones 1*q^-1 1*q^1\n"
TWO_LOOPS = "table 2\nfield 2\nj -1 i 0 dim 1\nj 1 i 0 dim 1\njones 1*q^-2 2*q^0 1*q^2\n"
NINE_CURLS = link_algebra.curls(9)

ROWS = (
    *((["reduced", "--mark", "1", "--field", field], TREFOIL, 0, REDUCED_TREFOIL.replace("field 2", f"field {field}")) for field in FIELDS),
    (["reduced", "--mark", "1"], "PD[Loop[1]]", 0, "mark 1\n" + LOOP),
    (["reduced", "--mark=001"], "PD[Loop[1]]", 0, "mark 1\n" + LOOP),
    (["--mark", "3", "reduced", "--workers", "4"], "PD[X[1,1,2,2]]", 1, "refused mark 3\n"),
    (["reduced", "--mark", "2"], "PD[Loop[1],Loop[1]]", 0, "mark 2\n" + TWO_LOOPS),
    (["reduced", "--mark", "3"], "PD[Loop[1],Loop[1]]", 1, "refused mark 3\n"),
    (["reduced", "--mark", "7"], TREFOIL, 1, "refused mark 7\n"),
    (["reduced", "--mark", "007"], TREFOIL, 1, "refused mark 7\n"),
    (["reduced", "--mark", "1"], "PD[]", 1, "refused mark 1\n"),
    (["reduced", "--mark", "0"], TREFOIL, 1, "refused mark 0\n"),
    (["reduced", "--mark", "255"], TREFOIL, 1, "refused mark 255\n"),
    (["reduced", "--mark", "256"], TREFOIL, 2, USAGE),
    (["reduced", "--mark", "0001"], TREFOIL, 2, USAGE),
    (["reduced", "--mark", "+1"], TREFOIL, 2, USAGE),
    (["reduced", "--mark", ""], TREFOIL, 2, USAGE),
    (["reduced", "--mark", "1", "--mark", "1"], TREFOIL, 2, USAGE),
    (["reduced"], TREFOIL, 2, USAGE),
    (["check", "--mark", "256"], TREFOIL, 2, USAGE),
    (["check", "--mark", "255"], TREFOIL, 0, "accepted crossings 3 plus 0 minus 3 components 1 pieces 1 faces 5 loops 0\n"),
    (["reduced", "--mark", "0"], "PD[X[1,2,1,2]]", 1, "refused checkerboard at arc 1\n"),
    (["reduced", "--mark", "0"], NINE_CURLS, 1, "refused mark 0\n"),
    (["reduced", "--mark", "19"], NINE_CURLS, 1, "refused mark 19\n"),
    (["reduced", "--mark", "18"], NINE_CURLS, 6, "limit generators 10077696 of 4194304\n"),
    (["reduced", "--mark", "1"], TREFOIL + ";", 1, "refused text at 38\n"),
)


def is_alternating(code):
    """Whether each arc goes from an over pass to an under pass, or back: one of its ends is at an odd slot and one at an even one."""
    return all((one[1] + other[1]) % 2 for one, other in codes.darts_of(code).values())


def is_alternating_knot(diagram):
    code = codes.code_of(diagram)
    return is_alternating(code) and not code.loops and len(codes.components(code)) == 1


def reduced(child, text, mark, field):
    """The status, the dimensions, and the lines before and behind them."""
    came = child.run(["reduced", "--mark", str(mark), "--field", field], text.encode())
    lines = came.wrote.decode(errors="replace").splitlines()
    rows = [re.fullmatch(r"j (-?\d+) i (-?\d+) dim (\d+)", line) for line in lines]
    table = {(int(it[1]), int(it[2])): int(it[3]) for it in rows if it}
    return came.status, table, [line for line, it in zip(lines, rows) if not it]


def doubled(table):
    """The table twice, at j - 1 and at j + 1."""
    whole = Counter()
    for (j, i), dimension in table.items():
        whole[j - 1, i] += dimension
        whole[j + 1, i] += dimension
    return dict(sorted(whole.items()))


def table_faults(child, name, diagram, mark, field, whole_table):
    """What is wrong with a reduced table, rule by rule."""
    text, jones = known_diagrams.text_of(diagram), plain.cube.jones_line(diagram)
    status, table, others = reduced(child, text, mark, field)
    head = [f"mark {mark}", "table 2", f"field {field}"]
    yield f"{name}, its lines", wrong((status, others), (0, [*head, *jones.splitlines()]))
    circle = plain.cube.with_circle(Counter(plain.cube.characteristic(table)))
    polynomial = {at: circle[at] for at in sorted(circle) if circle[at]}
    yield f"{name}, its Euler characteristic", wrong(polynomial, plain.cube.state_sum(diagram))
    if is_alternating_knot(diagram):
        diagonals = {j - 2 * i for j, i in table}
        yield f"{name}, one diagonal", None if len(diagonals) == 1 else f"{text}: {diagonals}"
    if field == "2":
        yield f"{name}, twice is the table", wrong(doubled(table), whole_table)
    if plain.cube.generator_count(codes.code_of(diagram)) <= WHOLE:
        wanted = "".join(line + "\n" for line in head[:1]) + plain.cube.table(diagram, int(field), mark) + jones
        yield f"{name}, by the definition", fault_of(child, ["reduced", "--mark", str(mark), "--field", field], text, 0, wanted)


def chosen():
    """The knots and links of few generators, with the fields that are tried at each mark: of most marks the first alone."""
    named = [(name, known_diagrams.diagram_of(text)) for name, text in known_diagrams.begun() + known_diagrams.stored()]
    named += [("drawn at random", diagram) for diagram in known_diagrams.drawn("reduced", 40, most=7)]
    for name, diagram in named:
        names = 2 * len(diagram.crossings) + diagram.loops
        if names and plain.cube.generator_count(codes.code_of(diagram)) <= GENERATORS:
            yield name, diagram, {mark: FIELDS if mark in (1, names) else "2" for mark in range(1, names + 1)}


def by_hand(child):
    for words, given, status, text in ROWS:
        yield "reduced, by hand", fault_of(child, words, given, status, text)


def named():
    """The prime knots and links of few crossings, with all their marks over each field."""
    for name, text in known_diagrams.named():
        diagram = known_diagrams.diagram_of(text)
        yield name, diagram, dict.fromkeys(range(1, 2 * len(diagram.crossings) + 1), FIELDS)


def parts(program, word=""):
    """The parts of these tests: a name, and what gives the name of each case and what is wrong with it, if anything is."""
    if told(program, "reduced"):
        yield "reduced, by hand", lambda: by_hand(Child(program))
        diagrams = [it for it in (*chosen(), *named()) if word in f"reduced, {it[0]}"]
        for share in range(SHARES):
            yield f"reduced tables, share {share}", lambda some=diagrams[share::SHARES]: all_faults(Child(program), some)


def all_faults(child, diagrams):
    """What is wrong with the reduced tables of these diagrams."""
    for name, diagram, fields in diagrams:
        yield from marked_faults(child, name, diagram, fields)


def marked_faults(child, name, diagram, fields):
    """What is wrong with the reduced tables of a diagram, at marks over the fields of each."""
    table = link_algebra.homology(child, known_diagrams.text_of(diagram), "2")[0]
    for mark in fields:
        for field in fields[mark]:
            yield from table_faults(child, f"reduced, {name}", diagram, mark, field, table)


if __name__ == "__main__":
    sys.exit(tell_parts(parts, __doc__))
