"""Asks Regina of knots and links, for `reference/check`, which runs this by `regina-python`.

A line of JSON is a question and another the answer. `census` asks for the knots of so many crossings that Regina's census of prime knots
has, with their names after Dowker and Thistlethwaite; `torus` for a torus link; `ours` and `theirs`, two diagrams, how the complements
stand to one another; `jones`, a diagram, for its polynomial; `smaller`, a diagram, for one with fewer crossings; `christy`, a diagram,
whether J. Christy's census of complements has its own under the name that is `wanted`. Diagrams are lists of crossings, whose arcs go
counterclockwise, as here.
"""
import json
import os
import re
import sys

import regina

TRIES, LOOKED_UP, FEW = 60, 150, 12
NAME = re.compile(r".*\(DT: (\d+)([an])_(\d+)\)")
# Whether an isomorphism keeps the orientation, turns it round, or there are both.
RELATIONS = {(): "other", (1,): "same", (-1,): "mirror image", (-1, 1): "amphicheiral"}


def link_of(pd):
    """The link of a diagram."""
    return regina.Link.fromPD([tuple(it) for it in pd])


def pd_of(link):
    return [list(it) for it in link.pdData()]


def smaller(pd):
    """The link of a diagram, with as few crossings as Regina finds soon."""
    link = link_of(pd)
    link.intelligentSimplify()
    other, there = regina.Link(link), regina.Link(link)
    there.reflect()
    is_told = link.countComponents() == 1 and link.homflyAZ() != there.homflyAZ()
    # (what is found by exhaustive search may be the mirror image)
    if is_told and other.simplifyExhaustive(1, 1):
        if other.homflyAZ() != link.homflyAZ():
            other.reflect()
        return other
    return link


def structure(pd):
    """The complement of a link with a hyperbolic structure, or nothing where none is found."""
    link = link_of(pd)
    link.intelligentSimplify()
    found = regina.SnapPeaTriangulation(link.complement())
    for _ in range(TRIES):
        if found.solutionType() == regina.SolutionType.geometric_solution and found.volume() > 1:
            return found
        found.randomise()
    return None


def canonical(pd):
    """The canonical triangulation of a complement (J. Weeks), or nothing where it has no hyperbolic structure."""
    found = structure(pd)
    for _ in range(TRIES if found else 0):
        try:
            return found.canonise()
        except regina.UnsolvedCase:
            found.randomise()
    return None


def orientations(one, other):
    """1 where an isomorphism of triangulations keeps the orientation, -1 where one turns it round."""
    found = set()

    def see(isomorphism):
        there = other.tetrahedron(isomorphism.simpImage(0)).orientation()
        found.add(one.tetrahedron(0).orientation() * there * isomorphism.facetPerm(0).sign())
        return False

    one.findAllIsomorphisms(other, see)
    return tuple(sorted(found))


def relation(ours, theirs):
    """How the complements of two diagrams stand to one another."""
    one, other = canonical(ours), canonical(theirs)
    return RELATIONS[orientations(one, other)] if one and other else "not hyperbolic"


def is_of_christy(pd, wanted):
    """Whether the complement of a diagram is found under a name of Christy's census, such as L206003: components, crossings, number."""
    link, found = link_of(pd), structure(pd)
    for _ in range(LOOKED_UP if found else FEW):
        triangulation = regina.Triangulation3(found) if found else link.complement()
        if wanted in {hit.name() for hit in regina.Census.lookup(triangulation)}:
            return True
        if found:
            found.randomise()
    return False


def torus(strands, turns):
    """A torus link, all of whose crossings have the sign of its turns."""
    link = regina.ExampleLink.torus(strands, abs(turns))
    if turns < 0:
        link.reflect()
    return link


def jones(pd):
    """The terms of the Jones polynomial: exponents of A, with t = A^4, and coefficients. Regina's x is A^2."""
    polynomial = link_of(pd).jones()
    terms = ((at, int(str(polynomial[at]))) for at in range(polynomial.minExp(), polynomial.maxExp() + 1))
    return [[2 * at, count] for at, count in terms if count]


def census(wanted):
    """The knots of so many crossings of the census: name, DT code, diagram."""
    top = regina.open(os.path.join(regina.GlobalDirs.examples(), "knot-census.rga"))
    packet, found = top.firstChild(), []
    while packet:
        name = NAME.match(packet.label())
        if name and int(name[1]) == wanted:
            link = regina.Link(packet)
            found.append([f"K{name[1]}{name[2]}{name[3]}", [int(it) for it in link.dtData()], pd_of(link)])
        packet = packet.nextTreePacket()
    return found


def answer(question):
    """The answer to a question."""
    if "census" in question:
        return {"knots": census(question["census"])}
    if "torus" in question:
        return {"pd": pd_of(torus(*question["torus"]))}
    if "smaller" in question:
        return {"pd": pd_of(smaller(question["smaller"]))}
    if "jones" in question:
        return {"jones": jones(question["jones"])}
    if "christy" in question:
        return {"found": is_of_christy(question["christy"], question["wanted"]), "crossings": smaller(question["christy"]).size()}
    return {"relation": relation(question["ours"], question["theirs"])}


def main():
    print(json.dumps({"program": f"Regina {regina.versionString()}"}), flush=True)
    for line in sys.stdin:
        question = json.loads(line)
        print(json.dumps({"name": question["name"], **answer(question)}), flush=True)


if __name__ == "__main__":
    main()
