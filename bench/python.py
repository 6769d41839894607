#!/usr/bin/env python3
"""Measures `kh.Link.table` of many small links in one loop against `kh-scan each` on the same list, over one field.

    bench/python.py [CODES] [--crossings N] [--field P] [--scan PATH]

The codes are closed braids of up to so many crossings, drawn at random, the same in each run. They are taken in some parts, and in each the
three take turns, so that what else the machine does falls on all:

    each     one run of `kh-scan each --field P` on the part
    loop     `for link in links: link.table(P)[1, 0]`, in this process: each link is asked, and a dimension is looked up
    making   the same, and before it the links are made of their codes

The times are user and system time, of this process and of the ones that it asks, and wall time. It prints them, the microseconds of a link,
and the ratios to `each`, of which at most 2 is wanted of the loop. Build the programs first, by `./build`. The gate does not run it.
"""
import argparse
import os
import random
import resource
import subprocess
import sys
import time

import kh
from braids import planar_diagram
from kh.programs import SCAN, STREAMS

PARTS, SEED, WANTED = 5, 58, 2


def drawn(count, most):
    """So many different closed braids of three crossings and more, on two to four strands that all cross."""
    draw, found = random.Random(SEED), {}
    while len(found) < count:
        strands = draw.randrange(2, 5)
        word = [draw.choice((1, -1)) * draw.randrange(1, strands) for _ in range(draw.randrange(3, most + 1))]
        if len({*map(abs, word)}) == strands - 1:
            found[planar_diagram(strands, word)] = None
    return list(found)


def used():
    """The user and system time of this process and of those that it has waited for, and the time of the clock."""
    times = (resource.getrusage(who) for who in (resource.RUSAGE_SELF, resource.RUSAGE_CHILDREN))
    return sum(it.ru_utime + it.ru_stime for it in times), time.perf_counter()


def measured(call):
    """The times of a call, and what it gives."""
    before = used()
    given = call()
    return [behind - begun for begun, behind in zip(before, used())], given


def by_each(part, field):
    """How many bytes a run on the part writes."""
    words = [kh.program(SCAN), "each", "--field", str(field)]
    return len(subprocess.run(words, input="".join(f"{it}\n" for it in part).encode(), stdout=subprocess.PIPE, check=True).stdout)


def by_loop(links, field):
    """The sum of the dimensions at j = 1, i = 0; the process that was asked is ended, so that its time is counted."""
    total = 0
    for link in links:
        total += link.table(field)[1, 0]
    STREAMS.end()
    return total


def main():
    parser = argparse.ArgumentParser(description=__doc__, formatter_class=argparse.RawDescriptionHelpFormatter)
    parser.add_argument("codes", nargs="?", type=int, default=10_000)
    parser.add_argument("--crossings", type=int, default=8, help="the most of a code; without it 8")
    parser.add_argument("--field", type=int, choices=kh.FIELDS, default=3)
    parser.add_argument("--scan", metavar="PATH", help="the program; without it the one that the package finds")
    words = parser.parse_args()
    if words.scan:
        os.environ["KH_SCAN_PROGRAM"] = words.scan
    codes = drawn(words.codes, words.crossings)
    ways = {"each": by_each, "loop": by_loop, "making": lambda part, field: by_loop(map(kh.Link, part), field)}
    times = {name: [0.0, 0.0] for name in ways}
    # (the first link loads what reads its code)
    by_loop([kh.Link(codes[0])], words.field)
    for start in range(PARTS):
        part = codes[start::PARTS]
        links, sums = [kh.Link(it) for it in part], {}
        for name, way in ways.items():
            took, sums[name] = measured(lambda: way(links if name == "loop" else part, words.field))
            times[name] = [one + other for one, other in zip(times[name], took)]
        if not sums["each"] or sums["loop"] != sums["making"]:
            sys.exit("kh-scan has not answered both times the same")
    print(f"{len(codes)} codes of up to {words.crossings} crossings over {words.field} elements; wanted of the loop: {WANTED} times each at most")
    for name, (processor, wall) in times.items():
        ratio = f"{processor / times['each'][0]:.2f} times each, {wall / times['each'][1]:.2f} by the clock"
        print(f"{name}: {processor:.2f} s, {1e6 * processor / len(codes):.0f} microseconds a link; {wall:.2f} s by the clock; {ratio}")


if __name__ == "__main__":
    main()
