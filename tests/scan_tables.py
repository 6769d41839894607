#!/usr/bin/env python3
"""Compares `kh-scan` with `kh homology`, with stored tables, and beyond the limit on generators with what tables of one link have to do.

    tests/scan_tables.py PROGRAM [WORD]
    KH_SCANS=2000 tests/scan_tables.py PROGRAM drawn
    KH_SCAN_MOVES=100000 tests/scan_tables.py PROGRAM moved

PROGRAM is that of `kh`; that of scans stands in `crates/scan_main/out`, or where KH_SCAN_PROGRAM says. Each row on `homology` is run
again, then random diagrams over four fields. At up to 20 crossings the Euler characteristic of a table is the polynomial that `kh jones`
writes, and a mirror image turns the table round. Over each field the table of a diagram is the product of those of its pieces (Künneth),
times q + q^-1 for each loop, and KH_SCAN_MOVES Reidemeister moves, or 2,000, leave each byte. `tests/program` runs these cases behind its
rows. The last line is 'N passed, M failed'.
"""
import functools
import os
import random
import sys

import drawn.diagrams as draws
import plain.algebra as algebra
import plain.cube
import plain.diagrams as codes
from plain import frames
from rows.runs import answers
from shared import known_diagrams, stored_links
from shared.pool import tell_parts
from shared.running import Child, fault_of
from shared.scanning import LIMIT_OF_CUBES, is_there, parts_of, scan_of, words_behind
from shared.tables import dimensions, jones_of, table_of, written, wrong

FIELDS = "2357"
DRAWN = int(os.environ.get("KH_SCANS", "120"))
LEAST_AT_MOST = 15  # (crossings of random diagrams that `kh homology` is asked about)
APART = 120
MOVES, MOVES_OF_A_WALK = int(os.environ.get("KH_SCAN_MOVES", "2000")), 50


def rows(scan, program):
    """Each row on `homology` that is not about the limit on generators; and that limit's rows, which end as done."""
    child = Child(scan)
    for row in answers():
        words = words_behind(row.words)
        if words is None:
            continue
        name = f"kh-scan, {row.name}"
        if row.wrote.startswith(LIMIT_OF_CUBES.encode()):
            came = child.run(words, row.given)
            yield name, None if came.status == 0 and came.wrote.startswith(b"table 2\n") else f"{came.status}, {came.wrote[:100]!r}"
        else:
            yield name, fault_of(child, words, row.given, row.status, row.wrote.decode())


def stored(scan, program):
    child = Child(scan)
    for name, text, field, wrote in stored_links.tables():
        yield f"kh-scan, {name} over {field} elements", fault_of(child, ["--field", field], text, 0, wrote)


def compared(scan, program, seed, count):
    """What both programs write of diagrams that are drawn at random."""
    child, whole = Child(scan), Child(program)
    for diagram in known_diagrams.drawn(seed, count, most=LEAST_AT_MOST):
        text = known_diagrams.text_of(diagram).encode()
        for field in FIELDS:
            came, wanted = (it.run(words, text) for it, words in ((whole, ["homology", "--field", field]), (child, ["--field", field])))
            if came.wrote.startswith(LIMIT_OF_CUBES.encode()):
                continue
            yield f"kh-scan, drawn, over {field}", None if came[:2] == wanted[:2] else f"{text.decode()}: {wanted[:2]} and not {came[:2]}"


def euler_characteristics(scan, program):
    """Large diagrams: the Euler characteristic is the polynomial, over four fields."""
    child, whole = Child(scan), Child(program)
    for name, text in known_diagrams.large():
        if name.startswith("twenty curls"):  # (whose whole tables are those of `curls_apart`)
            continue
        line = whole.run(["jones"], text.encode()).wrote.decode()
        for field in FIELDS:
            table, jones = table_of(child, ["--field", field], text)
            yield f"kh-scan, the Euler characteristic of {name} over {field}", wrong((jones_of(table), jones), (line, [line.strip()]))


def mirrors(scan, program):
    child = Child(scan)
    for name, text in list(known_diagrams.large())[:8]:
        image = algebra.text_of(algebra.mirrored(known_diagrams.diagram_of(text)))
        for field in "23":
            came, wanted = table_of(child, ["--field", field], image)[0], algebra.turned(table_of(child, ["--field", field], text)[0])
            yield f"kh-scan, the mirror image of {name}", wrong(came, wanted)


def all_answers(child, diagrams):
    """The statuses and the texts that answer a list of diagrams, by field, each in the order of the diagrams."""
    given = "".join(known_diagrams.text_of(it) + "\n" for it in diagrams)
    came = child.run(["each", "--field", "all"], given.encode())
    found, rest = frames.read(came.wrote) or ([], came.wrote)
    if rest or len(found) != len(FIELDS) * len(diagrams):
        raise ValueError(f"{len(found)} frames, then {rest[:200]!r}, status {came.status}: {given}")
    return {field: [(it.status, it.text.decode()) for it in found if it.field == field] for field in FIELDS}


def product_faults(child, name, diagram):
    """Over each field: whether the table of a diagram is the product of those of its pieces, times q + q^-1 for each loop."""
    for field, (came, *of_pieces) in all_answers(child, [diagram, *algebra.split(diagram)]).items():
        tables = [dimensions(text) for _, text in of_pieces] + [{(-1, 0): 1, (1, 0): 1}] * diagram.loops
        wanted = 0, written(functools.reduce(algebra.product, tables, {(0, 0): 1}), field)
        yield f"kh-scan, {name} over {field}", None if came == wanted else f"{known_diagrams.text_of(diagram)}: {came} and not {wanted}"


def loops(scan, program):
    """No crossing, and one piece, with none to eight loops."""
    child, draw = Child(scan), random.Random("loops")
    for count in range(codes.LOOPS_OF_A_TEXT + 1):
        for crossings in (0, 1, 3, 9):
            diagram = draws.piece(draw, crossings) if crossings else codes.Diagram((), 0)
            yield from product_faults(child, f"{crossings} crossings and {count} loops", diagram._replace(loops=count))


def curls_apart(scan, program):
    """Unlinks of 24, 25 and 28 components. A table of a cube could have all dimensions of the first, and not those of the others."""
    for count in (16, 17, 20):
        curls = tuple((arc, arc, arc + 1, arc + 1) for arc in range(1, 2 * count, 2))
        yield from product_faults(Child(scan), f"{count} curls apart and eight loops", codes.accepted(codes.Code(curls, 8)))


def apart(scan, program, seed, count):
    """Pieces that lie apart, of up to 20 crossings together, and up to eight loops."""
    child, draw = Child(scan), random.Random(seed)
    for _ in range(count):
        counts = draws.parts_of(draw, draw.randint(2, codes.CROSSINGS))
        diagram = draws.apart(draw, counts, draw.randint(0, codes.LOOPS_OF_A_TEXT))
        yield from product_faults(child, f"{len(list(algebra.split(diagram)))} pieces apart and {diagram.loops} loops", diagram)


def moved(scan, program, seed, count):
    """Moves at diagrams of 14 to 20 crossings leave what is written. What is written first has the polynomial, and what is written last is
    that of the pieces."""
    child, draw = Child(scan), random.Random(seed)
    while count:
        first = draws.first(draw)
        steps = list(draws.walk(draw, first, min(count, MOVES_OF_A_WALK)))
        diagrams = [first, *(diagram for _, diagram in steps)]
        for field, found in all_answers(child, diagrams).items():
            status, text = found[0]
            yield f"kh-scan, to be moved, over {field}", wrong((status, text.splitlines(True)[-1:]), (0, [plain.cube.jones_line(first)]))
            for (line, _), diagram, before, behind in zip(steps, diagrams, found, found[1:]):
                fault = None if behind == before else f"{line} at {known_diagrams.text_of(diagram)}: {behind} and not {before}"
                yield f"kh-scan, moved, over {field}", fault
        yield from product_faults(child, "moved, its pieces", diagrams[-1])
        count -= len(steps)


GROUPS = (rows, stored, euler_characteristics, mirrors, loops, curls_apart)


def parts(program, word=""):
    """The parts of these tests: a name, and what gives the name of each case and what is wrong with it, if anything is."""
    scan = scan_of(program)
    if not is_there(scan):
        return
    found = {group.__name__: functools.partial(group, scan, program) for group in GROUPS}
    for group, count, share in ((compared, DRAWN, 30), (apart, APART, 30), (moved, MOVES, 250)):
        for at in range(0, count, share):
            name = f"{group.__name__} {at}"
            found[name] = functools.partial(group, scan, program, name, min(share, count - at))
    yield from parts_of(scan, found)


if __name__ == "__main__":
    sys.exit(tell_parts(parts, __doc__))
