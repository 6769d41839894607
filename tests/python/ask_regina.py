"""Asks Regina what `test_conversions.py` keeps, and whether links come back from it: `regina-python tests/python/ask_regina.py WHAT`.

`kept` writes a line of JSON for each of some links of Regina: its planar diagram, the number of its components, its writhe, and the terms of
its Jones polynomial, by exponents of the square root of t. `lines` runs lines that a user writes, where this package is on the path.
"""
import json
import sys

import regina

LINKS = {
    "trefoil, right": regina.ExampleLink.trefoilRight, "trefoil, left": regina.ExampleLink.trefoilLeft, "Hopf": regina.ExampleLink.hopf,
    "figure eight": regina.ExampleLink.figureEight, "Whitehead": regina.ExampleLink.whitehead, "Borromean": regina.ExampleLink.borromean,
    "Conway": regina.ExampleLink.conway, "T(3,4)": lambda: regina.ExampleLink.torus(3, 4), "unknot": lambda: regina.Link(1),
    "three circles": lambda: regina.Link(3), "monster": regina.ExampleLink.monster,
}


def jones(link):
    """The terms of the Jones polynomial, as pairs of an exponent of x, the square root of t, and a coefficient."""
    found = link.jones()
    terms = ((at, int(str(found[at]))) for at in range(found.minExp(), found.maxExp() + 1))
    return [[at, count] for at, count in terms if count]


def kept():
    print(json.dumps({"made by": "tests/python/ask_regina.py kept", "program": f"Regina {regina.versionString()}"}))
    for name, make in LINKS.items():
        link = make()
        pd = [[int(arc) for arc in it] for it in link.pdData()]
        record = {"name": name, "pd": pd, "components": link.countComponents(), "writhe": link.writhe(), "jones": jones(link)}
        print(json.dumps(record))


def lines():
    import kh

    for name, make in LINKS.items():
        theirs = make()
        ours = kh.from_regina(theirs)
        assert ours.writhe == theirs.writhe() and len(ours.components) == theirs.countComponents(), name
        again = ours.to_regina()
        assert again.jones() == theirs.jones() and kh.from_regina(again).jones == ours.jones, name
    print("the lines hold")


if __name__ == "__main__":
    {"kept": kept, "lines": lines}[sys.argv[1]]()
