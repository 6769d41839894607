#!/usr/bin/env python3
"""Measures what the words of a run cost: the bench against the same diagram read, wrong words against `true`, and memory.

    bench/words.py [RUNS] [--program PATH]

Three ratios of whole runs, whose times alternate, so that whatever else the machine does falls on both; the medians are printed, then
the ratios: `bench --number N` against `homology` of that number's diagram as a text, for four numbers; wrong words against `true`. Last
comes the least address space in which `check` of a diagram writes its answer, in which wrong words are refused, and in which `true`
runs. Times are user and system time but for those of wrong words and `true`, which are wall times. Build the program first, by
`./build`. The gate does not run it.
"""
import os
import statistics

from braids import closure
from measuring import PROGRAM, TREFOIL, reader, run

NUMBERS = [0, 349_525, 559_240, 1_047_524]
EVERY_OPTION = ["--field=7", "--workers=64", "--to", "gauss", "--number", "1234567"]
STEP = 16 * 1024


def diagram(number):
    """The text of a number's diagram, with a loop for each strand without crossings."""
    letters = [(1, -1, 2, -2)[number // 4**place % 4] for place in range(10)]
    crossings, loops = closure(3, letters)
    items = ["X[%d,%d,%d,%d]" % tuple(it) for it in crossings] + [f"Loop[{2 * len(letters) + k}]" for k in range(1, loops + 1)]
    return "PD[" + ", ".join(items) + "]"


def compared(one, other, runs, which):
    """The medians of a time of two runs, given by their words and texts."""
    pairs = [(getattr(run(*one), which), getattr(run(*other), which)) for _ in range(runs)]
    return [statistics.median(times) for times in zip(*pairs)]


def least_memory(words, text, status):
    """The least address space, in steps, in which a run ends so."""
    low, high = 0, 64 * 1024 * 1024
    while high - low > STEP:
        middle = (low + high) // 2 // STEP * STEP
        if run(words, text, middle).status == status:
            high = middle
        else:
            low = middle
    return high


def main(arguments):
    program, runs, ratios = os.path.abspath(arguments.program), arguments.runs, []
    for number in NUMBERS:
        bench = [program, "bench", "--number", str(number)]
        mine, read = compared((bench,), ([program, "homology"], diagram(number)), runs, "seconds")
        print(f"bench --number {number}: {mine * 1000:.2f} ms; homology of its diagram: {read * 1000:.2f} ms")
        ratios.append((f"the bench of {number} to homology", mine / read))
    wrong = [program, "-f", "3", "homology"]
    mine, true = compared((wrong,), (["true"],), max(runs, 201), "wall")
    print(f"kh -f 3 homology: {mine * 1000:.2f} ms of wall time; true: {true * 1000:.2f} ms")
    ratios.append(("wrong words to true", mine / true))
    for name, words, text, status in (
        ("check", [program, "check"], TREFOIL, 0),
        ("check with all options", [program, *EVERY_OPTION, "check"], TREFOIL, 0),
        ("bench --number 559240", [program, "bench", "--number", "559240"], "", 0),
        ("wrong words", wrong, "", 2),
        ("5,000 words", [program] + ["homology"] * 5_000, "", 2),
        ("true", ["true"], "", 0),
    ):
        print(f"{name}: {least_memory(words, text, status) / 2**20:.2f} MB of address space")
    for name, ratio in ratios:
        print(f"{name}: {ratio:.2f}")


if __name__ == "__main__":
    main(reader(__doc__, 31, program=PROGRAM).parse_args())
