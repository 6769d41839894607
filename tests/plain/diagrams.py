"""A plain second reading of planar diagrams: which codes are accepted, the directions and signs that they have, and how they are numbered.

It was written from the rules alone, for `plain/moves.py`. A code has the numbers of arcs at the four slots of each crossing. A diagram has
the two passes of each crossing in their directions: an arc is the head of the pass that it enters and the tail of the one that it leaves.
"""
import functools
import re
from typing import NamedTuple

CROSSINGS = 20
COMPONENTS = 28
LOOPS_OF_A_TEXT = 8

ITEM = re.compile(r"X\[(\d+), ?(\d+), ?(\d+), ?(\d+)\]|Loop\[-?\d+\]")
TEXT = re.compile(rf"PD\[((?:{ITEM.pattern})(?:, ?(?:{ITEM.pattern}))*)?\]")


class Refused(Exception):
    """A code that breaks a rule of acceptance, or a line of a script that cannot be carried out; its text says why."""


class Code(NamedTuple):
    """For each crossing the arcs at its slots, counterclockwise from the incoming under arc; and the number of loops."""

    crossings: tuple
    loops: int


class Pass(NamedTuple):
    """A way through a crossing: the arc that enters and the arc that leaves."""

    enters: int
    leaves: int


class Crossing(NamedTuple):
    """The two passes of a crossing, and whether it is positive."""

    under: Pass
    over: Pass
    positive: bool


class Diagram(NamedTuple):
    """Crossings with directed passes, and the number of loops."""

    crossings: tuple
    loops: int


def read(text):
    """The code of a text of the form that is printed, with or without blanks after commas; the numbers of loops are not used."""
    if not TEXT.fullmatch(text):
        raise ValueError(text)
    items = ITEM.findall(text)
    crossings = tuple(tuple(map(int, item)) for item in items if item[0])
    return Code(crossings, len(items) - len(crossings))


def printed(code):
    """The text of a code: its loops have the numbers behind those of the arcs."""
    items = ["X[{}, {}, {}, {}]".format(*slots) for slots in code.crossings]
    items += [f"Loop[{2 * len(code.crossings) + loop}]" for loop in range(1, code.loops + 1)]
    return f"PD[{', '.join(items)}]"


def classes(things, pairs):
    """The classes of things that these pairs join, each in order, by their least things."""
    class_of = {thing: [thing] for thing in things}
    for one, other in pairs:
        if class_of[one] is not class_of[other]:
            both = class_of[one] + class_of[other]
            class_of.update({thing: both for thing in both})
    return sorted(sorted(them) for them in {id(them): them for them in class_of.values()}.values())


def arcs_of(code):
    return range(1, 2 * len(code.crossings) + 1)


def numbered(code):
    """The crossings with their numbers."""
    return enumerate(code.crossings, 1)


def components(code):
    """The classes of arcs that are joined by passes."""
    return classes(arcs_of(code), (pair for i, j, k, l in code.crossings for pair in ((i, k), (j, l))))


def followers(code):
    """For each arc the next one of its component, which is an interval."""
    return {arc: it[(place + 1) % len(it)] for it in components(code) for place, arc in enumerate(it)}


def darts_of(code):
    """For each arc its two darts, crossing and slot."""
    darts = {arc: [] for arc in arcs_of(code)}
    for number, slots in numbered(code):
        for slot, arc in enumerate(slots):
            darts[arc].append((number, slot))
    return darts


def partners(code):
    """For each dart the other dart of its arc."""
    return {dart: other for one, two in darts_of(code).values() for dart, other in ((one, two), (two, one))}


@functools.lru_cache(maxsize=1000)
def faces(code):
    """The cycles of darts: from a dart to the other one of its arc, then to the slot before."""
    partner, cycles, seen = partners(code), [], set()
    for start in sorted(partner):
        cycle, dart = [], start
        while dart not in seen:
            seen.add(dart)
            cycle.append(dart)
            crossing, slot = partner[dart]
            dart = crossing, (slot - 1) % 4
        if cycle:
            cycles.append(cycle)
    return cycles


@functools.lru_cache(maxsize=1000)
def pieces(code):
    """The classes of crossings that share arcs."""
    pairs = ((one[0], two[0]) for one, two in darts_of(code).values())
    return classes(range(1, len(code.crossings) + 1), pairs)


def face_counts(code):
    """The number of faces, and the number that a planar code has."""
    return len(faces(code)), len(code.crossings) + 2 * len(pieces(code))


def arc_range_fault(code):
    for number, slots in numbered(code):
        for slot, arc in enumerate(slots):
            if arc not in arcs_of(code):
                return f"arc range at crossing {number} slot {slot}"


def arc_times_fault(code):
    for arc in arcs_of(code):
        times = sum(slots.count(arc) for slots in code.crossings)
        if times != 2:
            return f"arc {arc} times {times}"


def interval_fault(code):
    for them in components(code):
        if them != list(range(them[0], them[0] + len(them))):
            return f"interval of arc {them[0]}"


def under_fault(code):
    following = followers(code)
    for number, (i, _, k, _) in numbered(code):
        if following[i] != k:
            return f"under pass at crossing {number}"


def over_fault(code):
    following = followers(code)
    for number, (_, j, _, l) in numbered(code):
        if following[j] != l and following[l] != j:
            return f"over pass at crossing {number}"


def two_arc_fault(code):
    """The least crossing whose under pass goes the way of an earlier one, in a component of two arcs."""
    pairs, seen = [set(it) for it in components(code) if len(it) == 2], set()
    for number, (i, _, k, _) in numbered(code):
        if (i, k) in seen and {i, k} in pairs:
            return f"two-arc component at crossing {number}"
        seen.add((i, k))


def checkerboard_fault(code):
    """The least arc so that no numbers 0 and 1 at the crossings meet the equations of it and the arcs before."""
    differs = {number: (number, 0) for number, _ in numbered(code)}
    for arc, ((one, slot), (two, far_slot)) in darts_of(code).items():
        (root, odd), (far_root, far_odd) = differs[one], differs[two]
        wanted = (1 + slot + far_slot + odd + far_odd) % 2
        if root == far_root and wanted:
            return f"checkerboard at arc {arc}"
        for it, (its_root, its_odd) in list(differs.items()):
            if its_root == far_root and root != far_root:
                differs[it] = root, (its_odd + wanted) % 2


def genus_fault(code):
    found, wanted = face_counts(code)
    if found != wanted:
        return f"genus faces {found} wanted {wanted}"


def components_fault(code):
    count = len(components(code)) + code.loops
    if count > COMPONENTS:
        return f"components {count}"


RULES = (
    arc_range_fault, arc_times_fault, interval_fault, under_fault, over_fault, two_arc_fault, checkerboard_fault, genus_fault, components_fault
)


def fault_of(code):
    """What the first broken rule of acceptance says, if one is broken."""
    return next(filter(None, (rule(code) for rule in RULES)), None)


def over_passes(code):
    """The over pass of each crossing of a code that keeps the rules, in its direction."""
    following, unders, seen = followers(code), {(i, k) for i, _, k, _ in code.crossings}, set()
    size = {arc: len(them) for them in components(code) for arc in them}
    for _, j, _, l in code.crossings:
        least, greatest = sorted((j, l))
        if size[j] > 2:
            yield Pass(j, l) if following[j] == l else Pass(l, j)
        elif {(j, l), (l, j)} & unders:
            yield Pass(l, j) if (j, l) in unders else Pass(j, l)
        else:
            yield Pass(greatest, least) if least in seen else Pass(least, greatest)
        seen.add(least)


def accepted(code):
    """The diagram of a code; a code that breaks a rule is refused."""
    fault = fault_of(code)
    if fault:
        raise Refused(fault)
    overs = zip(code.crossings, over_passes(code))
    return Diagram(tuple(Crossing(Pass(i, k), over, over.enters == l) for (i, _, k, l), over in overs), code.loops)


def slots_of(crossing):
    """The arcs at the slots of a crossing: the over pass goes from slot 3 to slot 1 where it is positive."""
    (enters, leaves), over, positive = crossing
    return (enters, over.leaves, leaves, over.enters) if positive else (enters, over.enters, leaves, over.leaves)


def code_of(diagram):
    return Code(tuple(map(slots_of, diagram.crossings)), diagram.loops)


def counts(diagram):
    """What `check` writes of a diagram."""
    code, plus = code_of(diagram), sum(crossing.positive for crossing in diagram.crossings)
    count = len(code.crossings)
    return (
        f"accepted crossings {count} plus {plus} minus {count - plus} components {len(components(code))}"
        f" pieces {len(pieces(code))} faces {len(faces(code))} loops {code.loops}\n"
    )


def entered(code):
    """For each arc of an accepted code the number of the crossing to which it leads, and whether it is over there."""
    unders, overs = ({it[way].enters: (number, way == 1) for number, it in numbered(accepted(code))} for way in (0, 1))
    return {**unders, **overs}


def passes(code):
    """The passes of each component of an accepted code, the crossing and whether it is over, from the end of its least arc; a loop has none."""
    enters = entered(code)
    return [[enters[arc] for arc in them] for them in components(code)] + [[]] * code.loops


def renamed(crossing, enters, leaves):
    """The crossing with other names of the arcs that enter and of those that leave."""
    under, over = (Pass(enters(it.enters), leaves(it.leaves)) for it in crossing[:2])
    return Crossing(under, over, crossing.positive)


def first_arc(component, crossings):
    """Where the numbers of a component begin: a component of two arcs that is over at both begins where it enters the first crossing."""
    overs = [it.over.enters for it in crossings if it.over.enters in component]
    return overs[0] if len(component) == 2 and len(overs) == 2 else component[0]


def renumbered(diagram):
    """The diagram with the arcs of each component numbered along it from its first arc, the components by their least names."""
    passes = [it for crossing in diagram.crossings for it in crossing[:2]]
    following, number = dict(passes), {}
    for component in classes(following, passes):
        arc = first_arc(component, diagram.crossings)
        while arc not in number:
            number[arc] = len(number) + 1
            arc = following[arc]
    return Diagram(tuple(renamed(it, number.get, number.get) for it in diagram.crossings), diagram.loops)
