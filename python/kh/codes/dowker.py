"""Reads Dowker-Thistlethwaite codes: `DTCode[4, 6, 2]`, `DT: [(4, 6, 2)]`, `DT[cacbca]`, and realises them in the plane.

Passes are numbered from 1 along one component after another, so that each crossing has an odd and an even number. The code lists the even
ones by the odd ones, a list for each component; one is negative where its pass goes over. In letters (J. Hoste and M. Thistlethwaite) come
first the number of crossings, that of components and those of the entries of each; a is 1 or the entry 2, A the entry -2.
"""
import re

from . import codes, gauss_codes, plane

WORD = re.compile(r"(?i)\s*(DT|Dowker)[a-z_]*\s*(?=$|[:\[({]):?")
IN_LETTERS = re.compile(r"[\s\[({]*(?P<letters>[A-Za-z]+)(?P<flips>\.\w+)?[\s\])}]*")
MIRRORED = "the mirror image has the same code; chosen is the diagram whose first crossing is positive"
PARTS = "each of its {} parts may be mirrored; chosen is the diagram in which the first crossing of each is positive"


def entries_of(groups):
    """The numbers of all lists, as nodes."""
    return [it for them in groups for it in them]


def looks_like_one(groups):
    """Whether lists of numbers have more than one number, all of them even, and none twice."""
    numbers = [abs(it.value) for it in entries_of(groups)]
    return len(numbers) > 1 and all(it % 2 == 0 for it in numbers) and len({*numbers}) == len(numbers)


def from_letters(found):
    """The lists of numbers of a code in letters."""
    place, letters = found.start("letters"), found["letters"]
    if found["flips"]:
        raise codes.Fault("what stands behind the dot is not read: leave it out", found.start("flips"))
    values = [ord(it) - ord("a") + 1 if it.islower() else ord("A") - 1 - ord(it) for it in letters]
    count, lists = values[0], max([0, *values[1:2]])
    sizes, entries = values[2 : 2 + lists], values[2 + lists :]
    if not lists or len(sizes) != lists or min(sizes) < 0 or not sum(sizes) == count == len(entries):
        raise codes.Fault("the first letters say how many crossings, components and entries of each there are, and here are others", place)
    nodes = iter(codes.Node(place + 2 + lists + at, "", 2 * value, None) for at, value in enumerate(entries))
    return [[next(nodes) for _ in range(size)] for size in sizes]


def need_even(groups):
    """Refuses entries that are not the even numbers from 2 on, each once."""
    count, seen = len(entries_of(groups)), set()
    for it in entries_of(groups):
        if it.value % 2 or not 2 <= abs(it.value) <= 2 * count or abs(it.value) in seen:
            even = ", ".join(map(str, range(2, 2 * count + 1, 2)))
            raise codes.Fault(f"a DT code of {count} numbers has {even} once each, with or without a minus", it.place)
        seen.add(abs(it.value))


def components_of(groups):
    """The Gauss code of a DT code: crossings have the numbers of their entries."""
    labels = {}
    for crossing, it in enumerate(entries_of(groups), 1):
        odd = crossing if it.value > 0 else -crossing
        labels[2 * crossing - 1], labels[abs(it.value)] = odd, -odd
    passes = iter(sorted(labels))
    return [[labels[next(passes)] for _ in range(2 * len(them))] for them in groups]


def links_of(groups):
    """The crossings of lists of numbers, and what there is to say."""
    need_even(groups)
    components = components_of(groups)
    try:
        signs, parts = plane.hands(components)
    except plane.NotPlanar as fault:
        entry = entries_of(groups)[fault.crossing - 1]
        raise codes.Fault("no diagram in the plane has this DT code, as shows at this crossing", entry.place) from None
    return gauss_codes.crossings_of(components, signs), [f"a DT code: {MIRRORED if parts == 1 else PARTS.format(parts)}"]


def read(text):
    """The crossings of a DT code, with or without a word before it, and what there is to say."""
    head = WORD.match(text)
    text = " " * head.end() + text[head.end() :] if head else text
    found = IN_LETTERS.fullmatch(text)
    groups = from_letters(found) if found else codes.groups_of(codes.tree_of(text))
    if not groups or not any(groups):
        raise codes.Fault("a DT code is a list of even numbers, or lists of them", len(text) - len(text.lstrip()))
    return links_of(groups)
