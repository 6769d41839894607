#!/usr/bin/env python3
"""Measures `kh reduced` against `kh homology`, and `kh draw` and `kh mirror` of 20 crossings against `true`.

    bench/reduced.py [RUNS] [--program PATH]

On the ten largest diagrams of `braids.txt` runs of `reduced --mark 1` and of `homology`, over three elements by one worker, take turns, so
that whatever else the machine does falls on both. (Over two elements `homology` takes the reduced cube itself.) It prints for each the
ratio of the least user and system times and of the most memory, then the worst of both; at the end the medians of wall times of whole runs
on a braid of 20 crossings, as ratios to `true`.
Build the program first, by `./build`. The gate does not run it.
"""
import os

from braids import braids, planar_diagram
from measuring import PROGRAM, TOP, against_true, in_turns, reader

LARGEST = 10
THREE = ("--field", "3")


def largest():
    """The ten largest diagrams: those with the most crossings, then letters."""
    found = sorted(braids(), key=lambda it: len(it[2]), reverse=True)[:LARGEST]
    return [(name, planar_diagram(strands, letters)) for name, strands, letters in found]


def against_homology(program, runs):
    times, memories = [], []
    for name, text in largest():
        calls = [([program, *words, *THREE], text) for words in (("reduced", "--mark", "1"), ("homology",))]
        (_, mine, _, memory), (_, other, _, others_memory) = in_turns(calls, runs)
        times.append(mine / other)
        memories.append(memory / others_memory)
        print(f"{name}: reduced {mine:.2f} s, homology {other:.2f} s, ratio {times[-1]:.2f}, memory {memories[-1]:.2f}", flush=True)
    print(f"worst: time {max(times):.2f}, memory {max(memories):.2f}")


def against_nothing(program, runs):
    with open(os.path.join(TOP, "examples", "braid-20.pd"), encoding="utf-8") as file:
        text = file.read()
    for command in ("draw", "mirror"):
        against_true(f"{command} of 20 crossings", [program, command], text, 100 * runs)


if __name__ == "__main__":
    given = reader(__doc__, 2, program=PROGRAM).parse_args()
    against_homology(given.program, given.runs)
    against_nothing(given.program, given.runs)
