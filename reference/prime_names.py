"""Writes `prime.txt`: the knots of 10 and 11 crossings and links of KnotInfo, by codes that other programs have."""
import functools
import os

import homfly
from kh.codes import link_names
import named
import others
import tables

HEAD = """\
# Links by a braid whose closure they are, as in braids.txt, or by a DT code: + where the first crossing is positive, - where it is
# negative, then the entries. `reference/check --names` writes this file from tables of other programs, and `docs/REFERENCE.md` says which.
#
"""
TITLES = {
    "10": "# Prime knots of 10 crossings, by their names on the Knot Atlas: SageMath's braid words.",
    "11": "#\n# Prime knots of 11 crossings, by the names of Dowker and Thistlethwaite: Regina's DT codes, in the hand of HAP's knots.",
    "L": "#\n# Links by the names of Thistlethwaite and LinkInfo, with directions: the braid words of KnotInfo that SageMath has.",
}


@functools.cache
def key_of(code):
    """The HOMFLY polynomial of a code or of its mirror image, whichever comes first."""
    terms = homfly.homfly(code)
    return min(homfly.text_of(terms), homfly.text_of(homfly.mirrored(terms)))


def matched(knots, atlas):
    """HAP's code of each of these knots of 11 crossings, which it has under other numbers: by HOMFLY polynomials, and complements where
    several knots have one."""
    if not knots:
        return {}
    by_key = {}
    for (n, k), code in atlas.items():
        if n == 11:
            by_key.setdefault(key_of(code), []).append(k)
    pairs = [(name, k) for name, code in knots.items() for k in by_key.get(key_of(code), [])]
    questions = [{"name": f"{name} {k}", "ours": knots[name].crossings, "theirs": atlas[11, k].crossings} for name, k in pairs]
    relations = others.asked(others.REGINA, questions)[1]
    found = {}
    for name, k in pairs:
        alone = by_key[key_of(knots[name])] == [k]
        if relations[f"{name} {k}"]["relation"] not in ("other", "not hyperbolic") or alone:
            found.setdefault(name, []).append(k)
    return {name: atlas[11, them[0]] for name, them in found.items() if len(them) == 1}


def hand_signs(entries, atlas):
    """For each name + or -, whichever gives its DT code the hand of HAP's knot: by complements, or else by HOMFLY polynomials."""
    positive = {name: named.code_of(["+", *map(str, it)]) for name, it in entries.items()}
    questions = [{"name": name, "ours": code.crossings, "theirs": atlas[name].crossings} for name, code in positive.items()]
    found = {}
    for name, it in others.asked(others.REGINA, questions)[1].items():
        is_same = homfly.homfly(positive[name]) == homfly.homfly(atlas[name])
        told = {"same": True, "amphicheiral": True, "mirror image": False}
        found[name] = "+" if told.get(it["relation"], is_same) else "-"
    return found


def order(name):
    return name[3] == "n", int(name[4:])


def eleven():
    """The lines of the knots of 11 crossings."""
    _, listed = others.asked(others.REGINA, [{"name": "census", "census": 11}])
    entries = {name: it for name, it, _ in listed["census"]["knots"]}
    drawn = {name: named.numbered(pd) for name, _, pd in listed["census"]["knots"]}
    signs = hand_signs(entries, matched(drawn, tables.of_hap([11])[1]))
    for name in sorted(entries, key=order):
        yield f"{name} {signs[name]} {' '.join(map(str, entries[name]))}"


def of_sage(names):
    """The lines of names whose braid words SageMath has."""
    for name, it in tables.of_sage(names)[1].items():
        strands, letters = it["braid"]
        yield f"{name} {strands} {' '.join(map(str, letters))}"


def write():
    """Writes the file."""
    parts = {"10": of_sage([f"10_{k}" for k in range(1, tables.KNOTS[10] + 1)]), "11": eleven(), "L": of_sage(tables.LINKS)}
    text = HEAD + "".join("".join(f"{line}\n" for line in [TITLES[part], *lines]) for part, lines in parts.items())
    with open(os.path.join(os.path.dirname(link_names.PRIME), "prime.txt"), "w", encoding="utf-8") as file:
        file.write(text)
