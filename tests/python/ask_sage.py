"""Asks SageMath what `test_conversions.py` keeps, and whether the lines of the page hold: `sage --python tests/python/ask_sage.py WHAT`.

`kept` writes a line of JSON for each of some links of SageMath: its planar diagram, the number of its components, and the dimensions of its
homology over three elements. `lines` runs lines that a user writes, where this package is on the path.
"""
import json
import sys

from sage.all import GF, BraidGroup, Knots, Link
from sage.version import version

KNOTS = [(3, 1), (4, 1), (5, 1), (5, 2), (6, 2), (7, 1), (8, 19), (8, 20)]
BRAIDS = {"Hopf": (2, [1, 1]), "5^2_1": (3, [1, -2, 1, -2, -2]), "Borromean": (3, [1, -2] * 3), "T(3,3)": (3, [1, 2] * 3)}
# Lists of arcs, which go clockwise in SageMath: the unknot as a curl, and a circle over another.
LISTS = {"curl": [[1, 1, 2, 2]], "a circle over another": [[1, 3, 2, 4], [2, 3, 1, 4]]}


def links():
    yield from ((f"{n}_{k}", Knots().from_table(n, k)) for n, k in KNOTS)
    yield from ((name, Link(BraidGroup(strands)(word))) for name, (strands, word) in BRAIDS.items())
    yield from ((name, Link(crossings)) for name, crossings in LISTS.items())


def dimensions(link, size):
    """The dimensions above 0 by degrees, as rows j, i, dimension; of links without a crossing that comes from SageMath's own words."""
    found = link.khovanov_homology(ring=GF(size))
    rows = [[int(j), int(i), int(it.dimension())] for j in sorted(found) for i, it in sorted(found[j].items())]
    return [row for row in rows if row[2]]


def kept():
    print(json.dumps({"made by": "tests/python/ask_sage.py kept", "program": f"SageMath {version}"}))
    for name, link in links():
        pd = [[int(arc) for arc in it] for it in link.pd_code()]
        print(json.dumps({"name": name, "pd": pd, "components": int(link.number_of_components()), "rows": dimensions(link, 3)}))


def mine(knot):
    """A function of one's own: the homology that SageMath computes."""
    return {(j, i): dimension for j, i, dimension in dimensions(knot, 3)}


def lines():
    import kh

    for n in range(3, 9):
        K = Knots().from_table(n, 1)
        assert kh.from_sage(K).table(3) == mine(K), n
    for name, link in links():
        ours = kh.from_sage(link)
        assert ours.table(3) == mine(link), name
        assert kh.from_sage(ours.to_sage()).table(3) == ours.table(3), name
        assert ours.writhe == link.writhe(), name
    L = kh.Link("8_19")
    assert mine(L.to_sage()) == L.table(3) and kh.from_sage(L.to_sage()) == L
    assert kh.Link("unknot").to_sage().number_of_components() == 1
    print("the lines hold")


if __name__ == "__main__":
    {"kept": kept, "lines": lines}[sys.argv[1]]()
