"""Compares what `kh bench` writes of the numbers of `numbers.txt`, over two elements and over three, with what is stored there.

`tests/program` runs these behind its rows, in a few shares.
"""
import os

from shared.places import DATA
from shared.running import Child, fault_of

SHARES = 8


def stored():
    """The words of a run, and what it has to write, for each number and field."""
    with open(os.path.join(DATA, "numbers.txt"), encoding="utf-8") as file:
        for line in file.read().split("\n\n", 1)[1].splitlines():
            number, loops, generators, over_two, over_three, *polynomial = line.split()
            for field, dimension in (("2", over_two), ("3", over_three)):
                counts = f"bench {number}\ncrossings 10 loops {loops} generators {generators}\ndimension {dimension}\n"
                yield ["bench", "--number", number, "--field", field], counts + "jones " + " ".join(polynomial) + "\n"


def faults(program, runs):
    """The words of each of these runs, and what is wrong with it, if anything is."""
    child = Child(program)
    for words, wanted in runs:
        yield " ".join(words), fault_of(child, words, "", 0, wanted)


def parts(program, word=""):
    """The parts of these tests, of the runs whose words have this word: a name, and what gives what is wrong with each run."""
    runs = [run for run in stored() if word in " ".join(run[0])]
    for share in range(SHARES):
        yield f"numbers, share {share}", lambda some=runs[share::SHARES]: faults(program, some)
