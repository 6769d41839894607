#!/usr/bin/env python3
"""Measures whole runs of the program on small and on hostile inputs against runs of `true`, and the memory that they take.

    bench/inputs.py [RUNS] [WORD]

For each input the runs of the two are alternated, so that whatever else the machine does falls on both. It prints the medians, their
ratio, and whether a run gets by with an address space of 20 MB; with a word only the inputs whose names have it. Build the program
first, by `./build`. The gate does not run it.
"""
import statistics

from measuring import PROGRAM, TREFOIL, reader, run

LIMIT = 65_536
MEMORY = 20 * 1024 * 1024
OUT_OF_MEMORY = 5

# Name, words and input.
INPUTS = [
    ("the trefoil", ["homology"], TREFOIL),
    ("the figure eight", ["homology"], "PD[X[4,2,5,1], X[8,6,1,5], X[6,3,7,4], X[2,7,3,8]]"),
    ("a full input", ["convert"], TREFOIL.ljust(LIMIT)),
    ("a byte too many", ["convert"], " " * (LIMIT + 1)),
    ("5,900 crossings", ["convert"], "PD[" + ",".join(["X[1,1,2,2]"] * 5_900) + "]"),
    ("65,000 digits", ["convert"], "PD[Loop[" + "0" * 65_000 + "]]"),
    ("65,536 commas", ["convert"], "," * LIMIT),
    ("65,536 brackets", ["convert"], "PD" + "[" * (LIMIT - 2)),
    ("a JSON array of 32,767 zeros", ["convert"], "[" + ",".join(["0"] * 32_767) + "]"),
    ("JSON nested 127 deep", ["convert"], "[" * 127 + "]" * 127),
    ("JSON nested 30,000 deep", ["convert"], "[" * 30_000 + "]" * 30_000),
    ("a JSON text of 60,000 letters", ["convert"], '["' + "a" * 60_000 + '"]'),
    ("a JSON number of 60,000 digits", ["convert"], "[[" + "1" * 60_000 + "]]"),
    ("no command", [], TREFOIL),
]


def measured(words, given, runs):
    """The medians of the wall times of both, and whether the first has room enough."""
    pairs = [(run(words, given).wall, run(["/bin/true"]).wall) for _ in range(runs)]
    return *map(statistics.median, zip(*pairs)), run(words, given, MEMORY).status != OUT_OF_MEMORY


def main(runs, word):
    for name, words, given in INPUTS:
        if word in name:
            mine, other, fits = measured([PROGRAM, *words], given, runs)
            memory = "20 MB are enough" if fits else "20 MB are not enough"
            print(f"{name}: {mine * 1000:.2f} ms, true {other * 1000:.2f} ms, ratio {mine / other:.1f}, {memory}")


if __name__ == "__main__":
    parser = reader(__doc__, 50)
    parser.add_argument("word", nargs="?", default="")
    words = parser.parse_args()
    main(words.runs, words.word)
