"""Strands that are over, or under, at all their crossings: other ways along which they can be laid, and the moves of `edit` that do it.

A strand is taken out, which leaves a gap; what it crossed goes straight through. A way is a list of steps from region to region: the dart
of an arc that is crossed, at whose left the step begins, and the region behind it.
"""
from __future__ import annotations

import itertools
from collections import Counter, deque
from collections.abc import Iterator, Sequence

from .diagrams import CROSSINGS, Diagram, Key, Reached, line_of, renumbered, turned

Way = Sequence[tuple[int, int]]
# What stands for a dart at the gap; the most groups of crossings that are told apart, sides of a strand that are tried, and moves.
GAP, GROUPS, SIDES, MOVES = -1, 4, 4, 400


def strands(diagram: Diagram) -> Iterator[list[int]]:
    """The longest strands, by the darts on which they enter their crossings; the crossings before and behind one are none of its own."""
    for walk in diagram.walks:
        turn = next((at for at in range(len(walk)) if (walk[at] ^ walk[at - 1]) & 1), None)
        if turn is None:
            found = [([*walk[at + 1 :], *walk[:at]], walk[at], walk[at]) for at in range(len(walk))]
        else:
            runs = [list(run) for _, run in itertools.groupby(walk[turn:] + walk[:turn], key=lambda it: it & 1)]
            found = [(run, runs[at - 1][-1], runs[at + 1 - len(runs)][0]) for at, run in enumerate(runs)]
        for run, before, behind in found:
            yield from _cut(run, before >> 2, behind >> 2)


def _cut(run: list[int], before: int, behind: int) -> Iterator[list[int]]:
    """The parts of a strand between these crossings, cut where it comes to one of them."""
    places = [it >> 2 for it in run]
    end = next((it for it in (before, behind) if it in places), None)
    if end is not None:
        at = places.index(end)
        yield from _cut(run[:at], before, end)
        yield from _cut(run[at + 1 :], end, behind)
    elif run:
        yield run


def parts(diagram: Diagram) -> Iterator[Strand]:
    """All strands and their parts."""
    for run in strands(diagram):
        for begin, end in itertools.combinations(range(len(run) + 1), 2):
            yield Strand(diagram, run[begin:end])


class Strand:
    """A strand of a diagram, and what is left without it: where each arc goes, by the darts of its ends, and the regions."""

    def __init__(self, diagram: Diagram, passes: Sequence[int]) -> None:
        self.diagram, self.passes, self.is_over = diagram, passes, passes[0] & 1
        heads, tails = diagram.ends
        self.arcs = [diagram.arc(passes[0]), *(diagram.arc(turned(it, 2)) for it in passes)]
        self.kept = sorted({*range(len(diagram))}.difference(it >> 2 for it in passes))
        self.tail = tails[self.arcs[0]]
        self.onward = {tails[arc]: heads[arc] for arc in range(1, 2 * len(diagram) + 1) if arc not in self.arcs}
        self.onward.update({self.tail: GAP, GAP: heads[self.arcs[-1]]})
        self.is_odd, self.rings = dict.fromkeys(self.onward, False), 0
        self._join_what_it_crosses()
        self._join_regions()

    def _join_what_it_crosses(self) -> None:
        """What it crosses goes straight through; of each arc it is kept whether it was crossed an odd number of times."""
        back = {head: tail for tail, head in self.onward.items()}
        for dart in self.passes:
            enters = 4 * (dart >> 2) if self.is_over else turned(dart, 3 if self.diagram.positive[dart >> 2] else 1)
            leaves, tail = turned(enters, 2), back[enters]
            head, is_odd = self.onward.pop(leaves), self.is_odd.pop(leaves)
            if tail == leaves:
                self.rings += 1
                continue
            self.onward[tail], back[head] = head, tail
            self.is_odd[tail] ^= not is_odd

    def _join_regions(self) -> None:
        """Regions are faces, joined where the strand was between them."""
        heads, tails = self.diagram.ends
        self.regions = list(range(len(self.diagram.faces)))
        for arc in self.arcs:
            one, other = self.region(tails[arc]), self.region(heads[arc])
            self.regions = [one if it == other else it for it in self.regions]
        self.start, self.end = self.region(self.tail), self.region(tails[self.arcs[-1]])
        self.steps: dict[int, list[tuple[int, int]]] = {}
        for tail, head in self.onward.items():
            if GAP not in (tail, head) and self.region(tail) != self.region(head):
                self.steps.setdefault(self.region(tail), []).append((tail, self.region(head)))
                self.steps.setdefault(self.region(head), []).append((head, self.region(tail)))

    def region(self, dart: int) -> int:
        """The region at the left of who leaves along a dart."""
        return self.regions[self.diagram.face_of[dart]]

    def distances(self) -> dict[int, int]:
        """How many arcs lie between each region and the end."""
        found, waiting = {self.end: 0}, deque([self.end])
        while waiting:
            region = waiting.popleft()
            for _, other in self.steps.get(region, ()):
                if other not in found:
                    found[other] = found[region] + 1
                    waiting.append(other)
        return found

    def ways(self, most: int) -> Iterator[Way]:
        """All ways of at most so many steps that come to no region twice."""
        distances = self.distances()

        def onward(region: int, way: list[tuple[int, int]], seen: set[int]) -> Iterator[Way]:
            if region == self.end:
                yield way
                return
            for step in self.steps.get(region, ()):
                if step[1] not in seen and len(way) + 1 + distances.get(step[1], most) <= most:
                    yield from onward(step[1], [*way, step], {*seen, step[1]})

        if distances.get(self.start, most + 1) <= most:
            yield from onward(self.start, [], {self.start})

    def shortest(self) -> Way | None:
        """A way with the fewest steps, where it has fewer than the strand has crossings."""
        length = self.distances().get(self.start, len(self.passes))
        return next(self.ways(length), None) if length < len(self.passes) else None

    def laid(self, way: Way) -> Diagram:
        """The diagram with the strand along a way."""
        onward, positive = dict(self.onward), [self.diagram.positive[it] for it in self.kept]
        back, at = {head: tail for tail, head in onward.items()}, self.tail
        places = [*self.kept, *range(len(self.diagram), len(self.diagram) + len(way))]
        for place, (dart, _) in zip(places[len(self.kept) :], way):
            is_rightward = dart in onward
            tail = dart if is_rightward else back[dart]
            is_positive = is_rightward == bool(self.is_over)
            low, high = (4 * place, 4 * place + 2), (4 * place + (3 if is_positive else 1), 4 * place + (1 if is_positive else 3))
            mine, other = (high, low) if self.is_over else (low, high)
            onward[other[1]], onward[tail] = onward[tail], other[0]
            onward[at], at = mine[0], mine[1]
            positive.append(is_positive)
        onward[at] = onward.pop(GAP)
        arcs = {dart: number for number, ends in enumerate(onward.items()) for dart in ends}
        crossings = [(arcs[4 * it], arcs[4 * it + 1], arcs[4 * it + 2], arcs[4 * it + 3]) for it in places]
        return Diagram(renumbered(crossings, positive), positive, self.diagram.loops + self.rings)

    def between(self, way: Way) -> list[set[int]]:
        """The names of the crossings that may lie between the strand and a way, the fewest first."""
        crossed, met = {dart for dart, _ in way}, {self.start, *(region for _, region in way)}
        near: dict[int, list[tuple[int, bool]]] = {place: [] for place in self.kept}
        pairs = [(it >> 2, to >> 2, self.is_odd[it] ^ bool(crossed & {it, to})) for it, to in self.onward.items() if GAP not in (it, to)]
        for face in self.diagram.faces:
            corners = [it >> 2 for it in face if it >> 2 in near]
            pairs += [(one, other, False) for one, other in itertools.pairwise(corners) if self.region(face[0]) not in met]
        for one, other, is_across in pairs:
            near[one].append((other, is_across))
            near[other].append((one, is_across))
        groups, side = [], dict[int, bool]()
        for place in self.kept:
            group = [] if place in side else [place]
            side.setdefault(place, False)
            for it in group:
                new = {other: side[it] ^ is_across for other, is_across in near[it] if other not in side}
                side.update(new)
                group += new
            groups += [[{self.diagram.names[it] for it in group if side[it] == is_there} for is_there in (False, True)]] if group else []
        return sorted((set[int]().union(*them) for them in itertools.product(*groups[:GROUPS])), key=len)[:SIDES]

    def moved(self, way: Way, reached: Reached) -> Reached | None:
        """What is reached where moves lay the strand along a way; nothing where none were found. `reached` is its own diagram."""
        wanted = self.laid(way).key
        tries = (Sweep(self, reached, inside).done(wanted) for inside in self.between(way))
        return next(filter(None, tries), None)


class Sweep:
    """A strand under way to another place: what is reached, and the names of the crossings that it has still to be slid over."""

    def __init__(self, strand: Strand, reached: Reached, inside: set[int]) -> None:
        self.reached, self.inside, self.is_over, self.count = reached, set(inside), strand.is_over, len(strand.passes)
        # (the crossing before the strand, by its name, and the slot on which the strand leaves it)
        self.begin, self.is_held = (reached.diagram.names[strand.tail >> 2], strand.tail & 3), False

    def done(self, wanted: Key) -> Reached | None:
        """What is reached where the moves end at a diagram with this key."""
        for _ in range(MOVES):
            diagram = self.reached.diagram
            if not self.inside and diagram.key == wanted:
                return self.reached
            line = self.line() if self.begin[0] in diagram.names else None
            if line is None:
                return None
            self.reached = self.reached.by(line)
        return None

    def line(self) -> str | None:
        """The next move: a kink or a bigon of the strand is taken out, or it is slid over a crossing inside, or made longer for that."""
        diagram = self.reached.diagram
        leaves, passes = [4 * diagram.names.index(self.begin[0]) + self.begin[1]], list[int]()
        for _ in range(self.count):
            passes.append(diagram.partner[leaves[-1]])
            leaves.append(turned(passes[-1], 2))
        own = Counter(it >> 2 for it in passes)
        for (crossing,) in diagram.corners(1):
            if crossing - 1 in own:
                self.count -= own[crossing - 1]
                return line_of([crossing])
        for crossings in diagram.corners(3):
            others = [diagram.names[it - 1] for it in crossings if it - 1 not in own]
            if len(others) == 1 and others[0] in self.inside:
                self.inside.remove(others[0])
                self.is_held = False
                return line_of(crossings)
        for crossings in () if self.is_held else diagram.corners(2):
            if [own[it - 1] for it in crossings] == [1, 1]:
                self.count -= 2
                return line_of(crossings)
        if not self.inside or len(diagram) + 2 > CROSSINGS:
            return None
        # (the finger is not to be taken back at once)
        self.count, self.is_held = self.count + 2, True
        return self.finger({diagram.arc(it) for it in leaves}, set(own))

    def finger(self, arcs: set[int], own: set[int]) -> str | None:
        """A finger of the strand over an arc at one of the crossings inside, so that there is a triangle, or may be one soon."""
        diagram = self.reached.diagram
        inside = [place for place in range(len(diagram)) if diagram.names[place] in self.inside]
        darts = [4 * place + slot for place in inside for slot in range(4)]
        beside = []
        for dart in darts:
            other = diagram.partner[dart]
            if other >> 2 in own:
                near = sum(diagram.partner[turned(dart, it)] >> 2 in own for it in range(4))
                beside.append((-near, turned(other, 3), diagram.partner[turned(dart, 1)]))
                beside.append((-near, diagram.partner[turned(other, 1)], turned(dart, 3)))
        edges = [(dart, edge) for dart in darts for edge in (dart, diagram.partner[turned(dart, 1)])]
        far = ((0, mine, edge) for dart, edge in edges for mine in diagram.faces[diagram.face_of[dart]])
        for _, mine, edge in itertools.chain(sorted(beside, key=lambda it: it[0]), far):
            if diagram.arc(mine) in arcs and diagram.arc(edge) not in arcs:
                sides = diagram.side(mine), diagram.side(edge)
                return f"r2 add {' '.join(sides if self.is_over else sides[::-1])}"
        return None
