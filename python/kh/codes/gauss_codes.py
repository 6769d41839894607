"""Reads signed Gauss codes, and says of those without signs what to write.

A component is the list of its passes in their order: the number of the crossing, positive for the pass over, negative for the one under.
"""
from . import codes, plane

NO_PLANE = "no diagram in the plane has this Gauss code"


def crossings_of(components, signs):
    """The crossings of components with these signs: arcs have numbers along each component, and its first pass is entered by its first."""
    ends, arc = {}, 1
    for component in components:
        if len(component) == 2 and min(component) > 0:
            # (of two arcs that go over twice `kh` has the smaller enter the first crossing)
            component = sorted(component)
        for place, label in enumerate(component):
            ends[label] = arc + place, arc + (place + 1) % len(component)
        arc += len(component)
    crossings = []
    for number, sign in enumerate(signs, 1):
        (u, v), (s, t) = ends[-number], ends[number]
        crossings.append([u, t, v, s] if sign > 0 else [u, s, v, t])
    return codes.Links(crossings, sum(not it for it in components), {})


def components_of(node):
    """The components of a Gauss code: lists in a list, or a list for one alone."""
    groups = node.items if any(it.items is not None for it in node.items) else [node] if node.items else []
    if any(it.items is None for it in groups):
        raise codes.Fault("components in braces are wanted here", node.place)
    return [codes.numbers_of(it, "a component") for it in groups]


def is_whole(components):
    """Whether each crossing, from 1 on, has one pass over and one under."""
    labels = [label for them in components for label in them]
    half = range(1, len(labels) // 2 + 1)
    return sorted(labels) == sorted([*half, *(-it for it in half)])


def from_one(components):
    """The same components with the crossings numbered from 1, in the order of their numbers."""
    rank = {it: number for number, it in enumerate(sorted({abs(label) for them in components for label in them}), 1)}
    return [[rank[abs(label)] * (1 if label > 0 else -1) for label in them] for them in components]


def text_of(components):
    """A Gauss code without signs, as `kh` reads it with signs behind it."""
    lists = [", ".join(map(str, them)) for them in components]
    return f"GaussCode[{lists[0] if len(lists) == 1 else ', '.join(f'{{{it}}}' for it in lists)}]"


def what_to_write(components):
    """What to write in place of a Gauss code without signs."""
    try:
        signs, parts = plane.hands(components)
    except plane.NotPlanar:
        return NO_PLANE
    mirrored = [-sign for sign in signs]
    others = "" if parts == 1 else f" (or others: each of its {parts} parts may be mirrored)"
    written = f"write {text_of(components)} Signs{signs}, or Signs{mirrored} for the mirror image{others}"
    return f"a Gauss code without signs does not say the hand: {written}"


def read(text):
    """A signed Gauss code: `GaussCode[-1, 3, -2, 1, -3, 2] Signs[-1, -1, -1]`, with braces where there are several components."""
    reader = codes.Reader(text)
    body = reader.tree()
    signs = codes.numbers_of(reader.tree(), "the list of signs") if reader.next().kind != "end" else []
    reader.finish()
    components = components_of(body)
    if not is_whole(components):
        raise codes.Fault("each crossing, from 1 on, has one pass over and one under", body.place)
    if any(components) and not signs:
        raise codes.Fault(what_to_write(components), reader.next().place)
    if len(signs) != sum(map(len, components)) // 2 or not {*signs} <= {1, -1}:
        raise codes.Fault("each crossing has one sign, 1 or -1", reader.next().place)
    return crossings_of(components, signs)
