"""Links of SageMath, SnapPy and Regina, from and to those of this package. Plain Python, and not proved.

| Program | Its planar diagram | What is done |
|---|---|---|
| this package, Knot Atlas, KnotTheory | arcs counterclockwise, from the one on which the under pass comes in; from 1 | |
| SageMath, `Link.pd_code()` | clockwise, from that arc; from 1 | the second and the fourth arc are exchanged |
| SnapPy, `Link.PD_code()` | counterclockwise, from that arc; from 0 | arcs are numbered from 1 |
| Regina, `Link.pdData()` | counterclockwise, from that arc; from 1 | nothing |

So no link is mirrored on the way. The other way round a planar diagram has no circles without crossings in any of the three: a circle goes
there as a curl, a crossing more, which is the same link. Coming from them such circles are counted, and are loops. A component that passes
under nowhere has no direction in a planar diagram but that of its numbers.
"""
from __future__ import annotations

from collections.abc import Sequence
from typing import TYPE_CHECKING, Any

from .codes import codes
from .refused import Refused

if TYPE_CHECKING:
    from .links import Link

Crossings = Sequence[Sequence[int]]


def _link_of(crossings: Crossings, components: int, name: str) -> Link:
    """The link of crossings with their arcs counterclockwise, which has so many components, those without crossings too."""
    from .links import Link

    numbered, _, _ = codes.numbered([list(map(int, it)) for it in crossings]) if crossings else ([], None, None)
    faces, wanted = codes.sphere_counts(numbered)
    if faces != wanted:
        raise Refused(f"it can be drawn on no sphere ({faces} faces, not {wanted})", codes.text_of(numbered, 0))
    arcs = {arc: number for number, walk in enumerate(_walks(numbered)) for arc in walk}
    loops = components - len(set(arcs.values()))
    return Link._of_code(codes.text_of(numbered, loops), name)


def _walks(crossings: Crossings) -> list[set[int]]:
    """The arcs of each component that has a crossing."""
    follows: dict[int, set[int]] = {}
    for i, j, k, l in crossings:
        for one, other in ((i, k), (j, l)):
            follows.setdefault(one, set()).add(other)
            follows.setdefault(other, set()).add(one)
    found: list[set[int]] = []
    left = set(follows)
    while left:
        walk, todo = set(), {min(left)}
        while todo:
            walk |= todo
            todo = {it for arc in todo for it in follows[arc]} - walk
        found.append(walk)
        left -= walk
    return found


def from_sage(link: Any, name: str = "") -> Link:
    """The link of a `Link` or `Knot` of SageMath. A strand of a braid that nothing crosses is lost, since SageMath 9.5 counts none."""
    crossings = [(i, l, k, j) for i, j, k, l in link.pd_code()]
    return _link_of(crossings, int(link.number_of_components()), name)


def from_snappy(link: Any, name: str = "") -> Link:
    """The link of a `Link` of SnapPy, or of a `Manifold` that knows its link."""
    link = link if hasattr(link, "PD_code") else link.link()
    crossings = [tuple(it) for it in link.PD_code()]
    return _link_of(crossings, len(_walks(crossings)) + int(getattr(link, "unlinked_unknot_components", 0)), name)


def from_regina(link: Any, name: str = "") -> Link:
    """The link of a `Link` of Regina."""
    return _link_of([tuple(it) for it in link.pdData()], int(link.countComponents()), name)


def with_curls(link: Link) -> list[tuple[int, int, int, int]]:
    """The crossings of a link, with a curl for each loop."""
    crossings, arc = link.pd, 2 * len(link.pd) + 1
    for loop in range(link.loops):
        at = arc + 2 * loop
        crossings.append((at, at, at + 1, at + 1))
    return crossings


def to_sage(link: Link) -> Any:
    """The `Link` of SageMath; SageMath's own Python, or one that has its modules, is wanted."""
    from sage.all import Link as Theirs

    return Theirs([[i, l, k, j] for i, j, k, l in with_curls(link)])


def to_snappy(link: Link) -> Any:
    """The `Link` of SnapPy."""
    import snappy

    return snappy.Link(with_curls(link))


def to_regina(link: Link) -> Any:
    """The `Link` of Regina; `regina-python`, or a Python that has its module, is wanted."""
    import regina

    return regina.Link.fromPD(with_curls(link)) if link.code != "PD[]" else regina.Link()
