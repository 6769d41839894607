"""Tries the scan of `python/kh/show/scan.py` on stored tables, and its picture.

`tests/program` runs these behind its rows. No program is run for them but `show/scan_steps`.
"""
import os
from collections import Counter

import plain.diagrams
from kh.show import scan
from shared import stored_links
from shared.places import TOP, read_text
from shared.running import ended

MOST = 6


def table_of(code, crossings, p):
    """The dimensions by j and i that the objects count which a scan leaves that takes the crossings in this order: q + r + n+ - 2 n- and
    r - n-, with v+ or v- on each loop."""
    signs = [it.positive for it in plain.diagrams.accepted(code).crossings]
    plus, minus = signs.count(True), signs.count(False)
    *_, last = [scan.FIRST, *(left for _, _, left in scan.steps(p, crossings))]
    table = Counter((it.shift + it.degree + plus - 2 * minus, it.degree - minus) for it in last.objects.values())
    for _ in range(code.loops):
        table = sum((Counter({(j + label, i): count for (j, i), count in table.items()}) for label in (1, -1)), Counter())
    return "maps that are left" if last.maps else dict(table)


def stored():
    """The name, the code and the rows over each field of the stored diagrams with few crossings."""
    for name, text, *tables, _ in stored_links.blocks_of("tables.txt"):
        code = plain.diagrams.read(text)
        if len(code.crossings) <= MOST:
            yield name, code, [line.split(": ") for line in tables]


def table_fault(code, tables):
    for field, rows in tables:
        wanted = {(j, i): n for j, i, n in (map(int, row.split(",")) for row in rows.split())}
        found = table_of(code, code.crossings, int(field))
        if found != wanted:
            return f"over {field}: {found} and not {wanted}"
    return None


def order_fault(code, p):
    """The table does not depend on the order of the crossings."""
    one, other = (table_of(code, crossings, p) for crossings in (code.crossings, code.crossings[::-1]))
    return None if one == other else f"{other} and not {one}"


def picture_fault():
    """The picture of `docs/pictures` is what its script makes."""
    came = ended([os.path.join(TOP, "show", "scan_steps"), os.path.join(TOP, "examples", "trefoil.pd")])
    return None if came == (0, read_text("docs", "pictures", "trefoil-scan.svg"), "") else f"status {came[0]}, {came[2]}"


def faults(program=None):
    """The name of each test, and what is wrong, if anything is."""
    for name, code, tables in stored():
        yield f"python/kh/show/scan.py: {name}", table_fault(code, tables)
        yield f"python/kh/show/scan.py: {name}, the other way round", order_fault(code, 3)
    yield "show/scan_steps: the picture", picture_fault()
