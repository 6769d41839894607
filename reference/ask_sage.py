"""Asks SageMath of knots and links, for `reference/check`, which runs this by SageMath's own Python.

A line of JSON is a question and another the answer. A question has a `name` and one of `knot`, a pair of numbers of Rolfsen's table as
SageMath has it; `link`, a name of the part of KnotInfo that it carries; and `pd`, a diagram whose crossings list their arcs clockwise, as
SageMath's do. It is asked for polynomials, or with `homology` for that over the integers (Z) or the field of so many elements.
"""
import json
import sys

from sage.all import GF, Knots, Link, ZZ
from sage.knots.knotinfo import KnotInfo
from sage.knots.knot_table import small_knots_table
from sage.version import version


def braid_of(question):
    """The strands and letters that a table has of a link."""
    if "knot" in question:
        strands, letters = small_knots_table[tuple(question["knot"])]
    else:
        letters = KnotInfo[question["link"]].braid_notation()
        strands = max(map(abs, letters)) + 1
    return [strands, list(letters)]


def link_of(question):
    """The link of a question."""
    if "knot" in question:
        return Knots().from_table(*question["knot"])
    if "link" in question:
        # (KnotInfo lists arcs counterclockwise, and this turns them)
        return KnotInfo[question["link"]].link()
    return Link(question["pd"])


def polynomial_text(terms):
    """Terms as a text, ascending: exponents of a and z."""
    return " ".join(f"{count}*a^{at_a}*z^{at_z}" for (at_a, at_z), count in sorted(terms.items()))


def homfly(link):
    """The HOMFLY polynomial with a P(+) - a^-1 P(-) = z P(0)."""
    terms = link.homfly_polynomial(normalization="az").dict()
    return polynomial_text({tuple(map(int, at)): int(count) for at, count in terms.items()})


def jones(link):
    """The terms of the Jones polynomial: exponents of A, with t = A^4, and coefficients."""
    return sorted([int(at), int(count)] for at, count in link.jones_polynomial(skein_normalization=True).dict().items())


def homology(link, ring):
    """The groups or spaces that are not 0, as rows j, i, group or dimension."""
    groups = link.khovanov_homology(ring=ZZ if ring == "Z" else GF(ring))
    rows = [(j, i, str(it) if ring == "Z" else str(it.dimension())) for j in sorted(groups) for i, it in sorted(groups[j].items())]
    return "; ".join(f"{j} {i} {it}" for j, i, it in rows if it != "0")


def answer(question):
    """The answer to a question."""
    link = link_of(question)
    if "homology" in question:
        return {"homology": homology(link, question["homology"])}
    # (of a diagram SageMath's Jones polynomial takes seconds, and Regina is asked for it)
    return {"homfly": homfly(link)} if "pd" in question else {"braid": braid_of(question), "homfly": homfly(link), "jones": jones(link)}


def main():
    print(json.dumps({"program": f"SageMath {version}"}), flush=True)
    for line in sys.stdin:
        question = json.loads(line)
        print(json.dumps({"name": question["name"], **answer(question)}, default=int), flush=True)


if __name__ == "__main__":
    main()
