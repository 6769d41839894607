#!/usr/bin/env python3
"""Measures `kh jones` against another program, side by side, on closures of braids of 12 to 16 crossings.

    bench/jones.py [RUNS] [OTHER WORDS..]

OTHER WORDS.. is a program that goes through all states of the diagram whose planar diagram text it reads, with its words; without it the
times of `kh` stand alone. Runs of the two are alternated. For each diagram it prints the mean user times, their ratio, and whether `kh`
gets by with an address space of 8 MB; and at the end by how much a crossing more multiplies its time. The system counts user time in
ticks, so the mean of many runs is taken. Build the program first, by `./build`. The gate does not run it.
"""
import argparse

from braids import planar_diagram
from measuring import PROGRAM, reader, run

JONES = [PROGRAM, "jones"]
MEMORY = 8 * 1024 * 1024

# Name, strands, and letters: letter k is a crossing of the strands k and k + 1, negative where the letter is.
BRAIDS = [
    ("alternating, 12 crossings", 3, [1, -2] * 6),
    ("alternating, 13 crossings", 3, [1, -2] * 6 + [1]),
    ("alternating, 14 crossings", 3, [1, -2] * 7),
    ("alternating, 15 crossings", 3, [1, -2] * 7 + [1]),
    ("alternating, 16 crossings", 3, [1, -2] * 8),
    ("alternating on five strands, 16 crossings", 5, [1, -2, 3, -4] * 4),
    ("torus knot T(3, 8), 16 crossings", 3, [1, 2] * 8),
    ("torus knot T(5, 4), 16 crossings", 5, [1, 2, 3, 4] * 4),
    ("mixed, 16 crossings", 3, [1, 1, 2, -2, 2, 1, -1, 1, -2, 2, 2, 2, -2, 1, -1, 2]),
]


def main(runs, other):
    times = []
    for name, strands, letters in BRAIDS:
        text = planar_diagram(strands, letters)
        mine = others = 0
        for _ in range(runs):
            mine += run(JONES, text).user
            others += run(other, text).user if other else 0
        times.append(mine)
        beside = f", other {others / runs * 1000:.1f} ms, ratio {mine / others:.2f}" if other else ""
        memory = "8 MB are enough" if run(JONES, text, MEMORY).status == 0 else "8 MB are not enough"
        print(f"{name}: {mine / runs * 1000:.1f} ms{beside}, {memory}")
    print(f"from 12 to 16 crossings each multiplies the time by {(times[4] / times[0]) ** 0.25:.2f}")


if __name__ == "__main__":
    parser = reader(__doc__, 40)
    parser.add_argument("other", nargs=argparse.REMAINDER, metavar="OTHER WORDS")
    words = parser.parse_args()
    main(words.runs, words.other)
