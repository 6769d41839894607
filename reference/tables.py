"""The diagrams that tables of other programs have under the names of the reference, for `reference/check`."""
import re

import arcs
import others
from named import numbered

KNOT, ELEVEN, TORUS = re.compile(r"(\d+)_(\d+)"), re.compile(r"K11[an]\d+"), re.compile(r"T\((\d+),(-?\d+)\)")
LINK, ROLFSEN = re.compile(r"(L\d+a\d+)\{(\d)\}"), re.compile(r"(\d)\^(\d)_(\d)")
# Second names of links of Rolfsen's table.
SECOND = {"Hopf": "2^2_1", "Whitehead": "5^2_1", "Borromean": "6^3_2"}
# How many prime knots of so many crossings SageMath has, and those links of KnotInfo that it carries.
KNOTS = {3: 1, 4: 1, 5: 2, 6: 3, 7: 7, 8: 21, 9: 49, 10: 165}
LINKS = [f"{name}{{{turned}}}" for name in ("L2a1", "L4a1", "L5a1", "L6a1", "L6a2") for turned in (0, 1)]


def clockwise(code):
    """The crossings of a code as SageMath lists them."""
    return [[i, l, k, j] for i, j, k, l in code.crossings]


def rolfsen(name):
    """The name of a link in Rolfsen's table, where it has one."""
    name = SECOND.get(name, name)
    return name if ROLFSEN.fullmatch(name) else None


def christy(name):
    """The name that the complement of a link of Rolfsen's table has in Christy's census: L206003 for 6^2_3."""
    crossings, components, number = ROLFSEN.fullmatch(rolfsen(name)).groups()
    return f"L{components}{int(crossings):02}{int(number):03}"


def of_sage(names):
    """The program, and what SageMath has of those of these names that are in its tables: braid, HOMFLY and Jones polynomial."""
    questions = []
    for name in names:
        knot, link = KNOT.fullmatch(name), LINK.fullmatch(name)
        if knot:
            questions.append({"name": name, "knot": [int(knot[1]), int(knot[2])]})
        elif link:
            questions.append({"name": name, "link": f"{link[1]}_{link[2]}"})
    return others.asked(others.SAGE, questions)


def of_regina(names):
    """The program, and what Regina has of those of these names that it lists, knots of 11 crossings and torus links: DT codes, diagrams."""
    found = [TORUS.fullmatch(name) for name in names]
    questions = [{"name": it[0], "torus": [int(it[1]), int(it[2])]} for it in found if it]
    if any(map(ELEVEN.fullmatch, names)):
        questions.append({"name": "census", "census": 11})
    program, answers = others.asked(others.REGINA, questions)
    knots = answers.pop("census", {"knots": []})["knots"]
    answers.update({name: {"entries": entries, "pd": pd} for name, entries, pd in knots if name in names})
    return program, answers


def of_hap(wanted):
    """The program, and the codes that HAP has of knots of so many crossings, by their numbers there."""
    program, found = others.arc_presentations()
    return program, {(n, k): numbered(arcs.planar_diagram(it)) for n in wanted for k, it in enumerate(found[n], 1)}
