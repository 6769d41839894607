"""Diagrams as `kh edit` has them: its moves, with the numbers that come out of them, and one key for all that are the same on the sphere.

A dart is an end of an arc at a crossing, 4 * place + slot: places are from 0, slots go counterclockwise from the one on which the under
pass comes in. A face is the darts around it, each with the face at the left of who leaves the crossing along it. Nothing here is proved:
what is answered in the end `kh edit` has replayed.
"""
from __future__ import annotations

import itertools
from collections.abc import Iterator, Sequence
from functools import cached_property
from typing import NamedTuple

from ..links import Link

Slots = tuple[int, int, int, int]
Key = tuple[tuple[bytes, ...], int]
# The most crossings that `edit` takes, and how its lines begin that take one, two or three crossings.
CROSSINGS = 20
WORDS = ("", "r1 drop", "r2 drop", "r3")


def turned(dart: int, turn: int) -> int:
    """The dart so many slots further on at its crossing."""
    return dart & ~3 | (dart + turn) & 3


def line_of(crossings: Sequence[int]) -> str:
    """The line that takes a kink, a bigon or a triangle at these crossings, which are numbered from 1."""
    return " ".join([WORDS[len(crossings)], *map(str, crossings)])


def renumbered(crossings: Sequence[Slots], positive: Sequence[bool]) -> list[Slots]:
    """The crossings with their arcs numbered as `edit` does: components by their least arcs, each from that one on."""
    onward, over, number = {}, {}, dict[int, int]()
    for place, ((i, j, k, l), is_positive) in enumerate(zip(crossings, positive)):
        enters, leaves = (l, j) if is_positive else (j, l)
        onward[i], onward[enters], over[enters] = k, leaves, place
    for first in sorted(onward):
        arc, count = first, len(number)
        while arc not in number:
            number[arc] = len(number) + 1
            arc = onward[arc]
        other = onward[first]
        # (two arcs that both enter over their crossings: first is the one that enters the first of these)
        if len(number) == count + 2 and first in over and over.get(other, over[first]) < over[first]:
            number[first], number[other] = number[other], number[first]
    return [(number[i], number[j], number[k], number[l]) for i, j, k, l in crossings]


class Diagram:
    """A diagram: the arcs at each crossing, which crossings are positive, how many loops there are, and a name of each crossing, which
    stays in all moves that keep the crossing."""

    def __init__(self, crossings: Sequence[Slots], positive: Sequence[bool], loops: int = 0, names: Sequence[int] | None = None) -> None:
        self.crossings, self.positive, self.loops = list(crossings), list(positive), loops
        self.names = list(range(len(self.crossings)) if names is None else names)

    @classmethod
    def of(cls, link: Link) -> Diagram:
        """The diagram of a link."""
        return cls(link.pd, [it > 0 for it in link.signs], link.loops)

    def __len__(self) -> int:
        return len(self.crossings)

    @property
    def text(self) -> str:
        """The planar diagram, as `edit` writes it."""
        crossings = [f"X[{i}, {j}, {k}, {l}]" for i, j, k, l in self.crossings]
        return f"PD[{', '.join(crossings + [f'Loop[{2 * len(self) + loop + 1}]' for loop in range(self.loops)])}]"

    @cached_property
    def partner(self) -> list[int]:
        """The other dart of each dart's arc."""
        found, first = [0] * (4 * len(self)), dict[int, int]()
        for dart, arc in enumerate(itertools.chain.from_iterable(self.crossings)):
            other = first.setdefault(arc, dart)
            found[dart], found[other] = other, dart
        return found

    @cached_property
    def ends(self) -> tuple[list[int], list[int]]:
        """For each arc the dart on which it enters a crossing, and the one on which it leaves one."""
        heads, tails = [0] * (2 * len(self) + 1), [0] * (2 * len(self) + 1)
        for place, (slots, is_positive) in enumerate(zip(self.crossings, self.positive)):
            for slot, found in enumerate((heads, tails, tails, heads) if is_positive else (heads, heads, tails, tails)):
                found[slots[slot]] = 4 * place + slot
        return heads, tails

    @cached_property
    def walks(self) -> list[list[int]]:
        """The darts on which each component enters its crossings, in order."""
        heads, _ = self.ends
        found, seen = [], set[int]()
        for arc in range(1, 2 * len(self) + 1):
            walk = []
            while arc not in seen:
                seen.add(arc)
                walk.append(heads[arc])
                arc = self.arc(turned(heads[arc], 2))
            found += [walk] if walk else []
        return found

    @cached_property
    def faces(self) -> list[list[int]]:
        """The darts around each face."""
        found, seen = [], set[int]()
        for dart in range(4 * len(self)):
            face = []
            while dart not in seen:
                seen.add(dart)
                face.append(dart)
                dart = turned(self.partner[dart], 3)
            found += [face] if face else []
        return found

    @cached_property
    def face_of(self) -> list[int]:
        """The place of each dart's face."""
        places = {dart: place for place, face in enumerate(self.faces) for dart in face}
        return [places[dart] for dart in range(4 * len(self))]

    @cached_property
    def pieces(self) -> list[list[int]]:
        """The places of the crossings of each connected piece."""
        found, seen = [], set[int]()
        for place in range(len(self)):
            piece = [] if place in seen else [place]
            seen.update(piece)
            for it in piece:
                near = {self.partner[4 * it + slot] >> 2 for slot in range(4)} - seen
                seen |= near
                piece += sorted(near)
            found += [piece] if piece else []
        return found

    def arc(self, dart: int) -> int:
        """The arc of a dart."""
        return self.crossings[dart >> 2][dart & 3]

    def side(self, dart: int) -> str:
        """The arc of a dart and the side of it at which the dart's face lies, in the words of `r2 add`."""
        return f"{self.arc(dart)} {'left' if self.ends[1][self.arc(dart)] == dart else 'right'}"

    # what `edit` can do

    def corners(self, size: int) -> Iterator[tuple[int, ...]]:
        """The crossings, from 1, of the kinks, bigons or triangles that a move takes."""
        for face in self.faces:
            places = [it >> 2 for it in face]
            if len(face) == len(set(places)) == size and (size == 1 or len({it & 1 for it in face}) == 2):
                # (`r3` takes the first triangle, as seen from its first crossing)
                turns = [(*places[at:], *places[:at]) for at in range(size)]
                fit = (turn for at, turn in enumerate(turns) if size < 3 or self.triangle(turn) == face[at])
                yield from (tuple(it + 1 for it in turn) for turn in itertools.islice(fit, 1))

    def triangle(self, places: Sequence[int]) -> int:
        """The dart, at the first of these crossings, of the face that `r3` slides."""
        darts = (4 * places[0] + slot for slot in range(4))
        faces = ((dart, self.faces[self.face_of[dart]]) for dart in darts)
        return next(dart for dart, it in faces if sorted(at >> 2 for at in it) == sorted(places) and len({at & 1 for at in it}) == 2)

    def fingers(self) -> list[str]:
        """The lines that push an arc over another one at the same face."""
        pairs = (pair for face in self.faces for pair in itertools.permutations(face, 2)) if len(self) + 2 <= CROSSINGS else ()
        return [f"r2 add {self.side(one)} {self.side(other)}" for one, other in pairs if self.arc(one) != self.arc(other)]

    def moved(self, line: str) -> Diagram:
        """The diagram behind a line, which has to be one that can be carried out, and no `r1 add`."""
        word, *words = line.split()
        numbers = [int(it) for it in words if it.isdigit()]
        if word == "r3":
            return self._slid([it - 1 for it in numbers])
        if words[0] == "drop":
            return self._without([it - 1 for it in numbers])
        return self._with_finger(numbers[0], words[2] == "left", numbers[1], words[4] == "left")

    def _without(self, gone: Sequence[int]) -> Diagram:
        names = list(range(2 * len(self) + 1))
        for i, j, k, l in (self.crossings[place] for place in gone):
            for one, other in ((i, k), (j, l)):
                least, most = sorted((names[one], names[other]))
                names = [least if it == most else it for it in names]
        kept = [place for place in range(len(self)) if place not in gone]
        crossings = [(names[i], names[j], names[k], names[l]) for i, j, k, l in (self.crossings[place] for place in kept)]
        loops = len(set(names[1:]).difference(*crossings))
        positive = [self.positive[place] for place in kept]
        return Diagram(renumbered(crossings, positive), positive, self.loops + loops, [self.names[place] for place in kept])

    def _with_finger(self, over: int, at_left: bool, under: int, under_at_left: bool) -> Diagram:
        heads, _ = self.ends

        def opened(arc: int) -> int:
            return arc + 2 * (over < arc) + 2 * (under < arc)

        def renamed(dart: int) -> int:
            arc = self.arc(dart)
            return opened(arc) + 2 * (arc in (over, under) and heads[arc] == dart)

        crossings = [(renamed(it), renamed(it + 1), renamed(it + 2), renamed(it + 3)) for it in range(0, 4 * len(self), 4)]
        top, low, is_along = opened(over), opened(under), at_left != under_at_left
        for at, is_positive in enumerate((under_at_left, not under_at_left)):
            enters = low + (at if is_along else 1 - at)
            first, second = (top + at + 1, top + at) if is_positive else (top + at, top + at + 1)
            crossings.append((enters, first, enters + 1, second))
        name = max(self.names, default=-1) + 1
        return Diagram(crossings, [*self.positive, under_at_left, not under_at_left], self.loops, [*self.names, name, name + 1])

    def _slid(self, places: Sequence[int]) -> Diagram:
        face = self.faces[self.face_of[self.triangle(places)]]
        crossings = list(self.crossings)
        for at in range(3):
            here, onward, last = face[at], face[at - 2], face[at - 1]
            arcs = [self.arc(it) for it in (turned(onward, 3), turned(last, 2), turned(onward, 1), last)]
            i, j, k, l = (arcs[slot - here & 3] for slot in range(4))
            crossings[here >> 2] = i, j, k, l
        return Diagram(renumbered(crossings, self.positive), self.positive, self.loops, self.names)

    # what is the same

    @cached_property
    def key(self) -> Key:
        """The same for all diagrams that differ by numbers, by the order of crossings, or by the direction of all components."""
        return min(tuple(sorted(self._word(piece, turn) for piece in self.pieces)) for turn in (0, 2)), self.loops

    def _word(self, piece: Sequence[int], turn: int) -> bytes:
        """The least text of a piece, from one of the crossings whose surroundings are the rarest."""
        roots: dict[bytes, list[int]] = {}
        for place in piece:
            roots.setdefault(self._surroundings(place, turn), []).append(place)
        return min(self._text_from(root, turn) for root in roots[min(roots, key=lambda it: (len(roots[it]), it))])

    def _surroundings(self, place: int, turn: int) -> bytes:
        found = [int(self.positive[place])]
        for slot in range(4):
            dart = turned(4 * place + slot, turn)
            other = self.partner[dart]
            found += self.positive[other >> 2], (other + turn) & 3, len(self.faces[self.face_of[dart]])
        return bytes(found)

    def _text_from(self, root: int, turn: int) -> bytes:
        number, order, found = {root: 0}, [root], bytearray()
        for place in order:
            found.append(self.positive[place])
            for slot in range(4):
                other = self.partner[4 * place + (slot + turn & 3)]
                if other >> 2 not in number:
                    number[other >> 2] = len(order)
                    order.append(other >> 2)
                found.append(4 * number[other >> 2] + (other + turn & 3))
        return bytes(found)


class Reached(NamedTuple):
    """A diagram with the lines that have led to it."""

    diagram: Diagram
    lines: tuple[str, ...] = ()

    def by(self, line: str) -> Reached:
        """What one line more leads to."""
        return Reached(self.diagram.moved(line), (*self.lines, line))
