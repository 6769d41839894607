#!/usr/bin/env python3
"""Measures `kh-scan` on diagrams of pieces that lie apart, and beside them on diagrams of one piece, alone or against another program.

    bench/pieces.py [RUNS] [--field P] [--scan PATH] [OTHER]

OTHER is another program of `kh-scan`, as that of another version. Runs of the two are alternated. It prints for each diagram the least user
and system time of some runs and the most memory; with OTHER also those of the other, how often the first takes as much, and whether both
write the same. (The system shows the memory of this script, where that is more.) Build the program first, by `./build`. The gate does not
run it.
"""
import os

from braids import planar_diagram
from measuring import FIELDS, SCAN, TREFOIL, in_turns, reader
from scan_links import diagrams
from plain import algebra

CURL = planar_diagram(2, [1])
BRAID = planar_diagram(3, [1, -2] * 8)
LEAST = 0.001  # (a shorter time is as short as this one, so that ratios of the two mean something)


def beside(texts, loops=0):
    """The text of diagrams that lie apart, with so many loops."""
    whole = diagrams.Code((), loops)
    for text in texts:
        whole = algebra.united(whole, diagrams.read(text))
    return diagrams.printed(whole)


def measured():
    """The name and the text of each diagram."""
    yield "twenty curls and eight loops", beside([CURL] * 20, 8)
    yield "six trefoils", beside([TREFOIL] * 6)
    yield "a trefoil beside a braid of 16 crossings", beside([TREFOIL, BRAID])
    yield "a trefoil beside seventeen curls", beside([TREFOIL] + [CURL] * 17)
    yield "that braid alone", BRAID
    yield "a braid of twenty crossings on five strands", planar_diagram(5, [1, -2, 3, -4] * 5)
    yield "the trefoil", TREFOIL


def main(given):
    load, programs = os.getloadavg()[0], [given.scan, *filter(None, [given.other])]
    for name, text in measured():
        (wrote, seconds, _, memory), *others = in_turns([([it, "--field", given.field], text) for it in programs], given.runs)
        line = f"{name}: {seconds * 1000:.0f} ms, {memory:.0f} MB"
        for far_wrote, far_seconds, _, far_memory in others:
            ratios = max(seconds, LEAST) / max(far_seconds, LEAST), memory / far_memory
            line += f", other {far_seconds * 1000:.0f} ms, {far_memory:.0f} MB, ratios {ratios[0]:.2f} and {ratios[1]:.2f}"
            line += ", same" if wrote == far_wrote else ", DIFFERENT"
        print(line, flush=True)
    print(f"load before {load:.1f}, after {os.getloadavg()[0]:.1f}")


if __name__ == "__main__":
    parser = reader(__doc__, 3, scan=SCAN)
    parser.add_argument("--field", choices=FIELDS, default="2")
    parser.add_argument("other", nargs="?")
    main(parser.parse_intermixed_args())
