"""Links of 13 to 20 crossings on which scans are measured: closed braids, pretzels, and diagrams that moves have scrambled.

`links()` are those that `bench/scan.py` compares with another program; `twenties()` have 20 crossings each. All are the same in each run.
"""
import os
import random
import sys

from braids import braids, planar_diagram

TOP = os.path.dirname(os.path.dirname(os.path.abspath(__file__)))
sys.path.append(os.path.join(TOP, "tests"))
from drawn import moves as drawn
from plain import diagrams, moves

LEAST, MOST = 13, 20

# Larger closed braids: a name, the number of strands, a word, and how often it is said.
TWISTED = [
    ("torus_2_17", 2, [1], 17),
    ("torus_2_20", 2, [1], 20),
    ("torus_3_9", 3, [1, 2], 9),
    ("torus_3_10", 3, [1, 2], 10),
    ("torus_4_6", 4, [1, 2, 3], 6),
    ("torus_5_5", 5, [1, 2, 3, 4], 5),
    ("torus_6_4", 6, [1, 2, 3, 4, 5], 4),
    ("turks_head_3_18", 3, [1, -2], 9),
    ("turks_head_3_20", 3, [1, -2], 10),
    ("alternating_4_18", 4, [1, -2, 3], 6),
    ("turks_head_5_20", 5, [1, -2, 3, -4], 5),
    ("turks_head_6_20", 6, [1, -2, 3, -4, 5], 4),
]
PRETZELS = [(3, 4, 7), (-2, 3, 9), (5, 5, -5), (3, -3, 4, -4), (5, 6, 7), (-4, 3, 5, 7), (2, 2, 3, 3, 4, 5), (-3, 4, -5, 7), (7, 7, -6), (7, 6, 7), (5, -5, 5, -5)]


def pretzel(columns):
    """A pretzel link: columns of crossings of two strands, side by side, each of one sense by its sign."""
    ends, count = {}, 0  # (the ends of strands at each crossing: upper left, lower left, lower right, upper right, counterclockwise)
    tops, bottoms = [], []
    for size in columns:
        above = None
        for _ in range(abs(size)):
            here = [(count, it) for it in range(4)]
            if above is None:
                tops.append((here[0], here[3]))
            else:
                ends[above[1]], ends[here[0]], ends[above[2]], ends[here[3]] = here[0], above[1], here[3], above[2]
            above, count = here, count + 1
        bottoms.append((above[1], above[2]))
    for row in (tops, bottoms):
        for (_, right), (left, _) in zip(row, row[1:] + row[:1]):
            ends[right], ends[left] = left, right
    # (the strand from the upper left is over in a column of a positive number)
    overs = [0 if size > 0 else 1 for size in columns for _ in range(abs(size))]
    return walked(ends, overs)


def pretzel_name(columns):
    return "_".join(map(str, ("pretzel", *columns)))


def walked(ends, overs):
    """The text of a diagram, given the end that each end of a crossing is joined with, and which pair of opposite ends is over."""
    arcs, enters = {}, {}
    for start in ends:
        leaves = start
        while leaves not in arcs:
            comes = ends[leaves]
            arcs[leaves] = arcs[comes] = len(arcs) // 2 + 1
            enters[comes] = True
            leaves = (comes[0], (comes[1] + 2) % 4)
    items = []
    for crossing, over in enumerate(overs):
        under = 1 - over
        first = under if (crossing, under) in enters else under + 2
        items.append("X[%d,%d,%d,%d]" % tuple(arcs[crossing, (first + k) % 4] for k in range(4)))
    return "PD[" + ",".join(items) + "]"


def scrambled(seed, text, crossings):
    """A diagram that random moves make of another, until it has so many crossings."""
    draw = random.Random(seed)
    diagram = diagrams.accepted(diagrams.read(text))
    while len(diagram.crossings) < crossings:
        room = crossings - len(diagram.crossings)
        lines = drawn.kink_adds(draw, diagram) if room < 2 or draw.random() < 0.2 else drawn.finger_adds(draw, diagram)
        try:
            diagram = moves.moved(diagram, draw.choice(lines))
        except diagrams.Refused:
            continue
    return diagrams.printed(diagrams.code_of(diagram))


def random_braids(seed, kind, strands, letters, count):
    """So many random closed braids in which all strands cross: `positive`, `mixed` or `alternating`."""
    draw, found = random.Random(seed), 0
    while found < count:
        word = [draw.randrange(1, strands) for _ in range(letters)]
        if set(word) != set(range(1, strands)):
            continue
        signs = {"positive": lambda it: 1, "mixed": lambda it: draw.choice((1, -1)), "alternating": lambda it: 1 if it % 2 else -1}
        found += 1
        yield f"{kind}_{strands}_{letters}_{found}", planar_diagram(strands, [it * signs[kind](it) for it in word])


def links():
    """A name and a planar diagram of each link, of 13 to 20 crossings: 65 of them."""
    made = [(name, planar_diagram(strands, letters)) for name, strands, letters in braids() if LEAST <= len(letters) <= MOST]
    made += [(name, planar_diagram(strands, word * times)) for name, strands, word, times in TWISTED]
    made += [(pretzel_name(it), pretzel(it)) for it in PRETZELS[:6]]
    trefoil = planar_diagram(2, [1, 1, 1])
    made += [(f"scrambled_{size}_{seed}", scrambled(seed, trefoil, size)) for seed, size in enumerate((14, 16, 18, 20, 20))]
    for seed, (kind, strands, letters) in enumerate(
        [("mixed", 4, 17), ("positive", 5, 18), ("alternating", 4, 17), ("mixed", 6, 20), ("alternating", 5, 19), ("positive", 7, 20)]
    ):
        made += random_braids(100 + seed, kind, strands, letters, 3)
    return made[:65]


def twenties():
    """A name and a planar diagram of each link of 20 crossings: 60 of them."""
    made = [(name, planar_diagram(strands, word * times)) for name, strands, word, times in TWISTED if len(word) * times == MOST]
    for strands in range(3, 9):
        for kind in ("positive", "mixed", "alternating"):
            made += random_braids(200 + strands, kind, strands, MOST, 2)
    made += [(pretzel_name(it), pretzel(it)) for it in PRETZELS if sum(map(abs, it)) == MOST]
    figure_eight = planar_diagram(3, [1, -2, 1, -2])
    seed = 0
    while len(made) < 60:
        seed += 1
        made.append((f"scrambled_{MOST}_{seed}", scrambled(300 + seed, figure_eight, MOST)))
    return made[:60]
