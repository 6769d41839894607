#!/usr/bin/env python3
"""Measures `kh.identify` and `kh.same`: how many answers they find, and how long they take; each is checked by the programs.

    bench/same.py [PART..]

Without a word all parts are taken, which is about an hour of one processor:

    knots      500 knots of 3 to 10 crossings, scrambled by 10 to 60 moves at random, of up to 20 crossings, and named
    links      60 links of the reference, scrambled and named alike
    flypes     90 pairs of diagrams of one alternating knot of 8 to 10 crossings, the second by flypes of the first
    unknots    the diagrams of the unknot of `unknots.txt`, made smaller
    pairs      different knots of up to 10 crossings with equal tables, some of 11, and two mutants: no pair may be decided
    altered    90 answers with one thing changed: `kh.check_answer` has to refuse them

Build the programs first, by `./build`. The gate does not run it.
"""
import argparse
import itertools
import json
import os
import random
import re
import statistics

import kh
from kh.identifying import answers
from kh.identifying.diagrams import CROSSINGS, Diagram, line_of

HERE = os.path.dirname(os.path.abspath(__file__))
SEED, KNOT, LINK = 71, re.compile(r"\d+_\d+"), re.compile(r"\d+\^\d_\d+|L\w+\{\d\}|Hopf|Whitehead|Borromean")
# Two mutants: the knots of Conway, and of Kinoshita and Terasaka.
MUTANTS = (
    "X[1,12,2,13] X[4,19,5,20] X[5,10,6,11] X[7,1,8,22] X[9,2,10,3] X[11,6,12,7] X[13,9,14,8] X[14,18,15,17] X[16,22,17,21] X[18,3,19,4] "
    "X[20,16,21,15]",
    "X[1,6,2,7] X[4,11,5,12] X[5,19,6,18] X[7,20,8,21] X[8,14,9,13] X[10,3,11,4] X[12,16,13,15] X[14,10,15,9] X[17,22,18,1] X[19,3,20,2] "
    "X[21,16,22,17]",
)



def names(form):
    """The names of the reference that have a form."""
    return sorted({it for it in kh.names() + kh.names("prime") if form.fullmatch(it)}, key=lambda it: [len(it), it])


def timed(call, *given, **words):
    """What a call gives, and the seconds of processor that it takes, with those of the programs that are begun for it."""
    begun = sum(os.times()[:4])
    found = call(*given, **words)
    return found, sum(os.times()[:4]) - begun


def tell(what, seconds, missed):
    """Prints what was found, how long it took, and what was not found."""
    print(f"{what}, median {statistics.median(seconds):.3f} s, at most {max(seconds):.1f} s of processor", *missed, sep="\n  ", flush=True)


def line_by_chance(link, draw):
    """A line of `kh edit` that can be carried out, or none; more kinds put crossings in than take them out."""
    diagram, kind = Diagram.of(link), draw.randrange(10)
    if kind < 2 and 0 < len(diagram) < CROSSINGS:
        return f"r1 add {draw.randint(1, 2 * len(diagram))} {draw.choice(('under', 'over'))} {draw.choice(('plus', 'minus'))}"
    fingers = diagram.fingers() if kind < 5 else []
    lines = fingers or [line_of(it) for it in diagram.corners(3 if kind < 8 else draw.randint(1, 2))]
    return draw.choice(lines) if lines else None


def scrambled(link, draw):
    """A link behind 10 to 60 moves at random."""
    for _ in range(draw.randint(10, 60)):
        line = line_by_chance(link, draw)
        link = link.move(line) if line else link
    return kh.Link(link.code)


def named(form, count):
    """How many scrambled links are named, and how long that takes."""
    draw, chosen, missed, seconds = random.Random(SEED), names(form), [], []
    kh.identify("3_1")
    for number in range(count):
        name = chosen[number % len(chosen)] if count > len(chosen) else draw.choice(chosen)
        found, took = timed(kh.identify, scrambled(kh.Link(name), draw))
        seconds.append(took)
        if name not in [it.name for it in found if kh.check_answer(it.same.json)]:
            missed.append(f"{name}: {found} ({took:.1f} s)")
    tell(f"{count - len(missed)} of {count} named", seconds, missed)


def flyped(link, draw):
    """The diagram behind a flype: a crossing and a tangle beside it, which is turned over, change places. Nothing where none fits."""
    diagram = Diagram.of(link)
    crossing = draw.randrange(len(diagram))
    slot, faces = draw.randrange(4), diagram.face_of
    # (the tangle is at the right of the crossing, so the faces above and below it are those at the corners of its slots)
    upper_left, lower_left, lower_right, upper_right = (4 * crossing + (slot + it & 3) for it in range(4))
    above, below = faces[upper_right], faces[lower_left]
    ends = [(one, other) for one in diagram.faces[above] for other in diagram.faces[below] if is_end(diagram, crossing, one, other)]
    if not ends:
        return None
    one, other = draw.choice(ends)
    return turned_over(diagram, crossing, (upper_left, lower_left, lower_right, upper_right), (one, other))


def is_end(diagram, crossing, one, other):
    """Whether arcs of two faces, which are at no crossing before the tangle, are at a face together."""
    arcs = {diagram.arc(one), diagram.arc(other)}
    near = {diagram.arc(4 * crossing + it) for it in range(4)}
    across = {diagram.face_of[diagram.partner[one]], diagram.face_of[diagram.partner[other]]}
    return len(arcs) == 2 and not arcs & near and len(across) == 1


def turned_over(diagram, crossing, corners, ends):
    """The link whose tangle, behind these corners up to these ends, is turned over, with the crossing at its other side."""
    upper_left, lower_left, lower_right, upper_right = corners
    cut = {diagram.arc(it) for it in (lower_right, upper_right, *ends)}
    tangle = [diagram.partner[lower_right] >> 2, diagram.partner[upper_right] >> 2]
    for place in tangle:
        for it in range(4 * place, 4 * place + 4):
            there = diagram.partner[it] >> 2
            if diagram.arc(it) not in cut and there not in tangle:
                tangle.append(there)
    if crossing in tangle or len(set(tangle)) in (1, len(diagram) - 1):
        return None
    first, second = 2 * len(diagram) + 1, 2 * len(diagram) + 2
    new = {diagram.arc(upper_right): diagram.arc(lower_left), diagram.arc(lower_right): diagram.arc(upper_left)}
    new.update({diagram.arc(ends[0]): first, diagram.arc(ends[1]): second})
    found = []
    for place, (i, j, k, l) in enumerate(diagram.crossings):
        i, j, k, l = (new.get(it, it) if place in tangle else it for it in (i, j, k, l))
        found.append([j, i, l, k] if place in tangle else [i, j, k, l])
    around = [second, first, diagram.arc(ends[1]), diagram.arc(ends[0])]
    found[crossing] = around if upper_left & 1 == 0 else around[1:] + around[:1]
    return kh.Link(found)


def flypes():
    """Pairs of diagrams of one alternating knot."""
    draw, seconds, missed = random.Random(SEED), [], []
    chosen = [it for it in names(KNOT) if it[:2] in ("8_", "9_", "10")]
    while len(seconds) < 90:
        name = draw.choice(chosen)
        side = answers._Side(kh.Link(name), int(name.split("_")[0]))
        link = other = kh.Link(side.best.diagram.text)
        if side.count > side.least:
            continue
        for _ in range(40):
            other = flyped(other, draw) or other
        if Diagram.of(link).key == Diagram.of(other).key:
            continue
        found, took = timed(kh.same, link, other)
        seconds.append(took)
        missed += [] if found else [f"{name}: {found} {other.code} ({took:.1f} s)"]
    tell(f"{90 - len(missed)} of 90 joined", seconds, missed)


def unknots():
    """Hard diagrams of the unknot."""
    with open(os.path.join(HERE, "unknots.txt"), encoding="utf-8") as file:
        links = [kh.Link(line.strip()) for line in file if not line.startswith("#")]
    found = [timed(kh.simplify, it, 20) for it in links]
    tell(f"{sum(not it.link.pd for it, _ in found)} of {len(found)} undone", [took for _, took in found], [])


def pairs():
    """Different knots with equal tables."""
    conway, other = (kh.Link(f"PD[{it.replace(' ', ', ')}]") for it in MUTANTS)
    found = [("Conway", conway, "Kinoshita and Terasaka", other)]
    for them in answers._by_tables().values():
        knots = [it for it in them if re.fullmatch(answers.TABLES["knot"], it[0])]
        for (one, is_first), (other, is_mirrored) in itertools.combinations(knots, 2):
            if one != other and not is_first:
                found.append((one, kh.Link(one), other, kh.Link(other).mirror() if is_mirrored else kh.Link(other)))
    large = [it for it in found if "K" in it[0] + it[2]]
    found = [it for it in found if it not in large] + large[:: len(large) // 20]
    told = [(one, other, kh.same(first, second, 5)) for one, first, other, second in found]
    wrong = [f"{one} and {other}: {it}" for one, other, it in told if it.verdict != "not decided"]
    print(f"{len(told) - len(wrong)} of {len(told)} pairs are not decided", *wrong, sep="\n  ")


def altered(answer, draw):
    """An answer with one thing changed."""
    it = json.loads(answer)
    kinds = ["meets", "reversed", "name"] + ["scripts"] * any(it["scripts"]) if it["same 1"] == "one link" else ["field", "row"]
    kind = draw.choice(["first", "second", *kinds])
    if kind == "scripts":
        lines = draw.choice([them for them in it["scripts"] if them])
        place = draw.randrange(len(lines))
        lines[place : place + 1] = draw.choice(([], [lines[place], "r1 add 1 under plus"], [re.sub(r"\d+", "1", lines[place]) + "9"]))
    elif kind in ("first", "second", "meets"):
        # (tables of other diagrams may well differ in the same row)
        others = [kh.Link(it[kind]).mirror().code, kh.Link(it[kind]).union(kh.Link("unknot")).code] if it["same 1"] == "one link" else []
        it[kind] = draw.choice([*others, it[kind][:-2]])
    elif kind == "reversed":
        it["reversed"] = not it["reversed"]
    elif kind == "name":
        it.update(draw.choice(({"name": "7_7"}, {"mirrored": not it["mirrored"]}, {"name": "nonesuch"})))
    elif kind == "field":
        it["field"] = draw.choice((0, 4, 11))
    else:
        it.update(draw.choice(({"j": it["j"] + 1}, {"i": it["i"] + 40}, {"dimensions": it["dimensions"][::-1]}, {"dimensions": [1, 1]})))
    return json.dumps(it), kind


def alterations():
    """Answers that are changed."""
    draw, told = random.Random(SEED), []
    while len(told) < 90:
        name, other = draw.sample([it for it in names(KNOT) if len(it) == 3], 2)
        answer = draw.choice([it.same for it in kh.identify(scrambled(kh.Link(name), draw))] + [kh.same(name, other)])
        assert kh.check_answer(answer.json)
        text, kind = altered(answer.json, draw)
        told.append((kh.check_answer(text), kind, text))
    wrong = [f"{kind}: {text}" for is_taken, kind, text in told if is_taken]
    print(f"{90 - len(wrong)} of 90 altered answers refused", *wrong, sep="\n  ")


PARTS = {
    "knots": lambda: named(KNOT, 500), "links": lambda: named(LINK, 60), "flypes": flypes, "unknots": unknots, "pairs": pairs,
    "altered": alterations,
}


def main():
    parser = argparse.ArgumentParser(description=__doc__, formatter_class=argparse.RawDescriptionHelpFormatter)
    parser.add_argument("part", nargs="*", choices=[[], *PARTS], metavar="PART", help=", ".join(PARTS))
    for part in parser.parse_args().part or PARTS:
        print(f"{part}: ", end="", flush=True)
        PARTS[part]()


if __name__ == "__main__":
    main()
