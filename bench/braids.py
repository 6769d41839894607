"""Planar diagrams of closed braids, for the benchmarks."""
import os

HERE = os.path.dirname(os.path.abspath(__file__))


def braids():
    """The name, the number of strands and the letters of each closed braid of `braids.txt`."""
    with open(os.path.join(HERE, "braids.txt"), encoding="utf-8") as file:
        for line in file:
            if line.strip() and not line.startswith("#"):
                name, strands, *letters = line.split()
                yield name, int(strands), [int(letter) for letter in letters]


def strands_of(strands, letters):
    """The crossings of a closed braid, each by the names of its strands' ends: upper left and right, lower left and right."""
    at, fresh, crossings = list(range(strands)), strands, []
    for letter in letters:
        left = abs(letter) - 1
        crossings.append((at[left], at[left + 1], fresh, fresh + 1))
        at[left], at[left + 1], fresh = fresh, fresh + 1, fresh + 2
    closed = {bottom: top for top, bottom in enumerate(at)}
    return [tuple(closed.get(end, end) for end in crossing) for crossing in crossings]


def planar_diagram(strands, letters):
    """The text of a closed braid whose strands all cross: arcs are numbered along each component."""
    crossings = strands_of(strands, letters)
    after = {}
    for upper_left, upper_right, lower_left, lower_right in crossings:
        after[upper_left], after[upper_right] = lower_right, lower_left
    numbers = {}
    for start in after:
        arc = start
        while arc not in numbers:
            numbers[arc] = len(numbers) + 1
            arc = after[arc]
    items = []
    for letter, ends in zip(letters, crossings):
        upper_left, upper_right, lower_left, lower_right = (numbers[end] for end in ends)
        slots = (
            (upper_right, upper_left, lower_left, lower_right)
            if letter < 0
            else (upper_left, lower_left, lower_right, upper_right)
        )
        items.append("X[%d,%d,%d,%d]" % slots)
    return "PD[" + ",".join(items) + "]"


def closure(strands, letters):
    """The crossings and the loops of a closed braid, under the numbers that `kh` gives its arcs: of each strand, walked up from the
    bottom of the least position that is not walked yet, one arc after another.
    """
    crossings, loops, walked, arc = [[0, 0, 0, 0] for _ in letters], 0, set(), 1
    for start in range(1, strands + 1):
        if start in walked:
            continue
        first, at, slot = arc, start, None
        while start not in walked or at != start:
            walked.add(at)
            for crossing, letter in zip(crossings, letters):
                if at in (abs(letter), abs(letter) + 1):
                    rises = at == abs(letter)
                    enters, leaves = (0, 2) if rises == (letter < 0) else (3, 1) if letter > 0 else (1, 3)
                    crossing[enters], crossing[leaves], slot, arc = arc, arc + 1, (crossing, leaves), arc + 1
                    at += 1 if rises else -1
        if slot:
            slot[0][slot[1]] = first
        else:
            loops += 1
    return crossings, loops
