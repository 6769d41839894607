#!/usr/bin/env python3
"""Measures `kh-scan`: against another program that scans, against `kh homology`, at 20 crossings, and against `true`.

    bench/scan.py [RUNS] [--scan PATH] [--kh PATH] [OTHER]

OTHER is a program that reads a planar diagram text and writes what `kh-scan` writes over two elements, but for the first line and the
last. Runs of two programs are alternated, and the least processor time of some runs is taken. Where OTHER takes ten milliseconds or less
the two are compared and not timed. It prints a line for each link, then the figures of `bench/RESULTS.md`. The links are those of
`scan_links.py`. Build the programs first, by `./build`. The gate does not run it.
"""
import os
import statistics

from braids import braids, planar_diagram
from measuring import FIELDS, PROGRAM, SCAN, TREFOIL, against_true, in_turns, reader
from scan_links import MOST, links, twenties

TIMED = 0.010
CUBES = 16


def rows_of(text):
    """The lines of a table that both programs write."""
    return [line for line in text.splitlines() if line.startswith(("field", "j "))]


def turns_of(words, others, text, runs):
    """Whether two programs write the same rows, the least processor time of each, and the ratio of the two."""
    (wrote, mine, *_), (others_wrote, other, *_) = in_turns([(words, text), (others, text)], runs)
    return rows_of(wrote) == rows_of(others_wrote), mine, other, mine / max(other, 1e-6)


def compared(title, words, others, some, runs, least):
    """Compares two programs on some links, and prints the ratios of those where the other takes so long."""
    ratios, differ = [], 0
    for name, text in some:
        same, mine, other, ratio = turns_of(words, others, text, runs)
        differ += not same
        if other > least:
            ratios.append(ratio)
        print(f"{name}: {mine * 1000:.1f} ms, other {other * 1000:.1f} ms, ratio {ratio:.2f}, {'same' if same else 'DIFFERENT'}", flush=True)
    print(f"{title}: median {statistics.median(ratios):.2f}, worst {max(ratios):.2f} of {len(ratios)} timed; other answers: {differ}")


def at_most_crossings(scan, runs):
    """The worst time and memory of the links of twenty crossings, over each field."""
    for field in FIELDS:
        seen = []
        for name, text in twenties():
            (_, seconds, _, memory), = in_turns([([scan, "--field", field], text)], runs)
            seen.append((seconds, memory, name))
        slowest, largest = max(seen), max(seen, key=lambda it: it[1])
        middle = statistics.median(it[0] for it in seen)
        print(
            f"{MOST} crossings over {field}: worst {slowest[0]:.2f} s ({slowest[2]}), {largest[1]:.0f} MB ({largest[2]}),"
            f" median {middle * 1000:.1f} ms, of {len(seen)}",
            flush=True,
        )


if __name__ == "__main__":
    parser = reader(__doc__, 3, scan=SCAN, kh=PROGRAM)
    parser.add_argument("other", nargs="?")
    given = parser.parse_args()
    load = os.getloadavg()[0]
    if given.other:
        compared("against the other that scans", [given.scan], [given.other], links(), given.runs, TIMED)
    cubes = [(name, planar_diagram(strands, letters)) for name, strands, letters in braids() if len(letters) == CUBES]
    compared(f"against homology at {CUBES} crossings", [given.scan], [given.kh, "homology"], cubes, given.runs, 0)
    at_most_crossings(given.scan, given.runs)
    against_true("the trefoil, whole process", [given.scan], TREFOIL, 100 * given.runs)
    print(f"load before {load:.1f}, after {os.getloadavg()[0]:.1f}")
