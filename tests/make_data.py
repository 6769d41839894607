#!/usr/bin/env python3
"""Makes `large_tables.txt`, `polynomials.txt` and `numbers.txt` anew, which `tests/program` compares with what the program writes.

    tests/make_data.py OTHER

It also compares `tables.txt`, whose links have 5 to 10 crossings, with OTHER, and stops where they differ.

OTHER is a program that shares no code with `kh`: it reads a planar diagram text, is given `--field` and a field, and writes the table's
rows and the Jones line. The stored tables are those of a C++ program that cancels the cube block by block over sorted columns and rows,
and stops where the table's Euler characteristic is not the state sum. It lists slots counterclockwise and takes v+ for degree 1, as here.
The polynomials are worked out by this script, which takes one crossing after another into a sum over the ways that the open ends are
joined (Kauffman's bracket by tangles), and goes through no states; for the links with a table it is compared with OTHER's. Of a number
OTHER is given `--bench` and the number, makes the closed braid of its digits itself, and writes the four lines of `kh bench`; their
Jones line is compared with what this script works out from the digits. No value is taken from `kh`.
"""
import argparse
import os
import re
import subprocess
import sys
from collections import Counter

from plain.cube import with_path
from shared.places import DATA, write_text
from shared.stored_links import blocks_of
from bench.braids import planar_diagram

HEAD = """\
# {what} Each link is a closed braid: its strands, and its letters k
# where the strand at k crosses over the next. `tests/make_data.py` made this file, and says by what program.
#
# A name with its braid; the text; {lines}
"""

# Number of strands and letters.
TABLES = [
    (4, [1, 3, -2, 1, 3, -2, 1, -2, 3, -2, 1, -2, 3, 1, -2, 3, -2]),
    (6, [1, 2, 3, 4, 5, 1, 2, 3, 4, 5, 1, 2, 3, 4, 5, 1, 2]),
]
POLYNOMIALS = [
    *TABLES, (3, [1, -2] * 8 + [1]), (2, [1] * 17), (18, list(range(1, 18))), (3, [1, -2] * 9), (4, [1, 2, 3] * 6),
    (4, [1, -2, 3, 2, -1, 2] * 3), (2, [-1] * 18), (3, [1, 2] * 9 + [1]), (5, [1, -2, 3, -4] * 4 + [1, -2, 3]),
    (20, [(-1) ** k * k for k in range(1, 20)]), (3, [1, -2] * 10), (5, [1, 2, 3, 4] * 5), (6, [-1, -2, -3, -4, -5] * 4),
    (4, [1, 1, -2, -2, 3, 3, -2, 1, 2, -3] * 2), (2, [1] * 20), (21, list(range(1, 21))),
]


# Numbers of diagrams: two neighbours, and from 0 to the greatest in even steps.
NUMBERS = [0, 1, *(step * 1_048_575 // 998 for step in range(1, 999))]
NUMBERS_HEAD = """\
# What `kh bench` writes of 1,000 numbers: the closed braid of three strands whose ten letters the digits to the base 4 give, the least
# first. `tests/make_data.py` made this file, and says by what program.
#
# The number; its loops; its generators; all dimensions summed, over two elements and over three; the Jones polynomial.

"""


def written_by(other, words, text):
    return subprocess.run([other, *words], input=text, check=True, capture_output=True, text=True).stdout.splitlines()


def named(strands, letters):
    return f"{len(letters)} crossings, {' '.join(map(str, letters))}: {strands} strands"


def lines_of(other, text):
    """The lines of a link's tables over the four fields, and its Jones line."""
    lines, jones = [], set()
    for field in "2357":
        rows = [line.split() for line in written_by(other, ["--field", field], text)]
        lines.append(f"{field}: " + " ".join(f"{row[1]},{row[3]},{row[5]}" for row in rows if row[0] == "j"))
        jones.add(" ".join(rows[-1]))
    assert jones == {jones_line(text)}, (jones, jones_line(text))
    return [*lines, *jones]


def table_of(other, strands, letters):
    """The block of a link whose tables are stored."""
    text = planar_diagram(strands, letters)
    return "\n".join([named(strands, letters), text, *lines_of(other, text)])


def compare_tables(other):
    """Stops where a block of `tables.txt` is not what the other program and this script find."""
    for name, text, *lines in blocks_of("tables.txt"):
        if lines != lines_of(other, text):
            sys.exit(f"{name} is not what the other program finds")


def shifted(polynomial, sign, exponent):
    return Counter({at + exponent: sign * count for at, count in polynomial.items()})


def positive_crossings(crossings):
    """How many crossings are positive: their over pass goes from slot 3 to slot 1. Each component has three arcs or more."""
    component = {}
    for i, j, k, l in crossings:
        component.setdefault(i, {i}), component.setdefault(k, {k}), component.setdefault(j, {j}), component.setdefault(l, {l})
        for one, other in ((i, k), (j, l)):
            both = component[one] | component[other]
            component.update({arc: both for arc in both})
    return sum(j == (l + 1 if l + 1 in component[l] else min(component[l])) for _, j, _, l in crossings)


def with_circle(polynomial):
    """Times q + q^-1."""
    whole = shifted(polynomial, 1, 1)
    whole.update(shifted(polynomial, 1, -1))
    return whole


def jones_line(text, plus=None, loops=0):
    """The sum over the states of (-1)^(r - n-) q^(r + n+ - 2n-) (q + q^-1)^circles, crossing by crossing."""
    crossings = [tuple(map(int, it.split(","))) for it in re.findall(r"X\[([^]]*)\]", text)]
    sums = {(): Counter({0: 1})}
    for i, j, k, l in crossings:
        after = {}
        for ends, polynomial in sums.items():
            for pairs, sign, exponent in ((((i, j), (k, l)), 1, 0), (((i, l), (j, k)), -1, 1)):
                open_ends, term = dict(ends), shifted(polynomial, sign, exponent)
                for pair in pairs:
                    open_ends, closes = with_path(open_ends, *pair)
                    if closes:
                        term = with_circle(term)
                after.setdefault(tuple(sorted(open_ends.items())), Counter()).update(term)
        sums = after
    plus = positive_crossings(crossings) if plus is None else plus
    minus = len(crossings) - plus
    whole = shifted(sums[()], (-1) ** minus, plus - 2 * minus)
    for _ in range(loops):
        whole = with_circle(whole)
    return "jones " + " ".join(f"{whole[at]}*q^{at}" for at in sorted(whole) if whole[at])


def polynomial_of(strands, letters):
    """The block of a link whose Jones line is stored."""
    text = planar_diagram(strands, letters)
    return "\n".join([named(strands, letters), text, jones_line(text)])


def number_line(other, number):
    """The line of a number, from what the other program writes of it over two elements and over three."""
    letters = [(1, -1, 2, -2)[number // 4**place % 4] for place in range(10)]
    crossed = {strand for letter in letters for strand in (abs(letter), abs(letter) + 1)}
    (head, counts, two, jones), three = (written_by(other, ["--bench", str(number), "--field", field], "") for field in "23")
    _, crossings, _, loops, _, generators = counts.split()
    assert [head, counts, jones] == [three[0], three[1], three[3]] and (head, crossings) == (f"bench {number}", "10"), number
    assert int(loops) == 3 - len(crossed), number
    assert jones == jones_line(planar_diagram(3, letters), sum(it > 0 for it in letters), int(loops)), number
    return " ".join([str(number), loops, generators, two.split()[1], three[2].split()[1], *jones.split()[1:]])


def write_numbers(other):
    write_text(os.path.join(DATA, "numbers.txt"), NUMBERS_HEAD + "".join(number_line(other, number) + "\n" for number in NUMBERS))


def write(name, what, lines, blocks):
    write_text(os.path.join(DATA, name), "\n\n".join([HEAD.format(what=what, lines=lines).rstrip("\n"), *blocks]) + "\n")


def main():
    reader = argparse.ArgumentParser(description=__doc__, formatter_class=argparse.RawDescriptionHelpFormatter)
    reader.add_argument("other")
    other = reader.parse_args().other
    compare_tables(other)
    tables = [table_of(other, *braid) for braid in TABLES]
    write("large_tables.txt", "Homology tables of links of 17 crossings.", "for each field the rows j,i,dim; the Jones line.", tables)
    polynomials = [polynomial_of(*braid) for braid in POLYNOMIALS]
    write("polynomials.txt", "Jones polynomials of links of 17 to 20 crossings.", "the Jones line.", polynomials)
    write_numbers(other)


if __name__ == "__main__":
    main()
