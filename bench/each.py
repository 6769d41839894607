#!/usr/bin/env python3
"""Measures `kh-scan each` against runs of `kh-scan` for one code at a time, and `kh-tabulate` against `kh-scan each`, over all four fields.

    bench/each.py [CODES] [--crossings N] [--jobs N] [--scan PATH]

The codes are closed braids that are drawn at random, the same in each run, none with a letter beside its inverse. They are taken in some
parts, and in each part the three take turns, so that what else the machine does falls on all of them:

    one by one   a run of `kh-scan --field P` for each code and field; its time is the user and system time of all runs, less as often the
                 mean of some runs on the empty diagram, so that what is left is the computing
    each         one run of `kh-scan each --field all` on the part: its user and system time
    kh-tabulate  `kh-tabulate run --fields all` on the part, into a new database, with so many processes as --jobs says: the user and system
                 time of all its processes; and its wall time as often as there are processes, which tells something on idle cores alone

It prints the seconds of each, and their ratios: what `each` takes of the computing one by one, and what `kh-tabulate` takes of `each`, of
which at most 2 is wanted. It compares what `each` writes with what the runs write, byte for byte. Build the programs first, by `./build`.
The gate does not run it.
"""
import os
import random
import re
import sys
import tempfile

import measuring
from braids import planar_diagram
from measuring import FIELDS, SCAN, TOP, reader

TABULATE = os.path.join(TOP, "tabulate", "kh-tabulate")
PARTS, SEED, WANTED = 4, 16, 2
EMPTY = 5
FRAME = re.compile(r"code (\d+) field (\d) status (\d+) bytes (\d+)\n")


def drawn(count, crossings):
    """So many different closed braids of so many crossings, on three to five strands that all cross."""
    draw, found = random.Random(SEED), {}
    while len(found) < count:
        strands, word = draw.randrange(3, 6), []
        while len(word) < crossings:
            letter = draw.choice((1, -1)) * draw.randrange(1, strands)
            word += [letter] if not word or letter != -word[-1] else []
        if len({*map(abs, word)}) == strands - 1 and word[0] != -word[-1]:
            found[planar_diagram(strands, word)] = None
    return list(found)


def run(words, text=""):
    """A run that has to answer."""
    came = measuring.run(words, text)
    if came.status:
        sys.exit(f"each: {' '.join(words)} ended with status {came.status}")
    return came


def one_by_one(scan, codes):
    """The texts of the runs by code and field, in their order, and the seconds of computing."""
    empty = sum(run([scan], "PD[]").seconds for _ in range(EMPTY)) / EMPTY
    texts, seconds = [], 0
    for code in codes:
        for field in FIELDS:
            came = run([scan, "--field", field], code)
            texts.append(came.wrote)
            seconds += came.seconds - empty
    return texts, max(seconds, 1e-6)


def frames(wrote):
    """The texts of the answers that `each` has written."""
    at = len("answers 1\n")
    while at < len(wrote):
        found = FRAME.match(wrote, at)
        at = found.end() + int(found[4])
        yield wrote[found.end() : at]


def tabulated(scan, codes, jobs, folder):
    """The processor seconds and the wall seconds of `kh-tabulate` on codes."""
    path, results = (os.path.join(folder, it) for it in ("list", "results.db"))
    with open(path, "w", encoding="utf-8") as file:
        file.writelines(f"code {number}\t{code}\n" for number, code in enumerate(codes))
    words = [TABULATE, "run", path, results, "--fields", "all", "--jobs", str(jobs), "--scan", scan]
    came = run(words)
    os.remove(results)
    return came.seconds, came.wall


def measured(scan, codes, jobs):
    """The seconds of all four measures, by name, and how many answers are other ones."""
    sums, differ = dict.fromkeys(("one by one", "each", "kh-tabulate", "wall"), 0), 0
    size = -(-len(codes) // PARTS)
    with tempfile.TemporaryDirectory() as folder:
        for at in range(0, len(codes), size):
            part = codes[at : at + size]
            texts, alone = one_by_one(scan, part)
            wrote, each, *_ = run([scan, "each", "--field", "all"], "".join(f"{code}\n" for code in part))
            processors, wall = tabulated(scan, part, jobs, folder)
            found = list(frames(wrote))
            differ += sum(one != two for one, two in zip(texts, found)) + abs(len(texts) - len(found))
            for name, seconds in zip(sums, (alone, each, processors, wall * jobs)):
                sums[name] += seconds
    return sums, differ


def main(given):
    load, codes = os.getloadavg()[0], drawn(given.codes, given.crossings)
    sums, differ = measured(given.scan, codes, given.jobs)
    print(f"{len(codes)} codes of {given.crossings} crossings over four fields; {given.jobs} processes of kh-tabulate")
    for name, seconds in sums.items():
        what = f"kh-tabulate, wall, {given.jobs} times" if name == "wall" else name
        print(f"{what}: {seconds:.2f} s, {seconds / len(codes) * 1000:.2f} ms a code")
    print(f"each: {sums['each'] / sums['one by one']:.2f} times the computing one by one; other answers: {differ}")
    ratios = [sums[name] / sums["each"] for name in ("kh-tabulate", "wall")]
    print(f"kh-tabulate: {ratios[0]:.2f} times each, {ratios[1]:.2f} by the wall; wanted at most {WANTED}")
    print(f"load before {load:.1f}, after {os.getloadavg()[0]:.1f}")


if __name__ == "__main__":
    parser = reader(__doc__, crossings=16, jobs=os.cpu_count(), scan=SCAN)
    parser.add_argument("codes", nargs="?", type=int, default=2_000)
    main(parser.parse_args())
