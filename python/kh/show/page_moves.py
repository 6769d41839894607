"""The moves that a diagram accepts, each tried by `kh edit`, and the diagrams that they make.

What may be a move is read off the code: kinks at each arc, crossings with a kink, faces with two and three sides, pairs of arcs at one face
or on two pieces. `edit` then says which of them are.
"""
import itertools
import re
from collections import Counter
from typing import Any, NamedTuple

from ..commands import Unreadable
from ..programs import ANSWERED, MOVE_REFUSED
from .asking import EDIT
from .planar import classes

# A line of a script that makes, undoes or redoes a move.
LINE = re.compile(
    r"r1 add \d{1,3} (under|over) (plus|minus)|r1 drop \d{1,3}|r2 add \d{1,3} (left|right) \d{1,3} (left|right)|r2 drop \d{1,3} \d{1,3}"
    r"|r3 \d{1,3} \d{1,3} \d{1,3}|undo|redo"
)
# The most fingers that are tried, and the most moves in a script (`edit` takes more, and keeps 256 changes).
MOST_FINGERS, MOST_LINES, MOST_CROSSINGS = 600, 250, 20
KINDS = {
    "kink": "Put a kink in (R1)", "unkink": "Take a kink out (R1)", "finger": "Push one arc over another (R2)",
    "bigon": "Take a bigon out (R2)", "slide": "Slide a strand over a crossing (R3)",
}


class Move(NamedTuple):
    """A move: the line of the script that makes it, its kind, the row of the list that it stands in, what its button has, what it does,
    where it is, and the code that it leads to."""

    line: str
    kind: str
    row: str
    button: str
    told: str
    arcs: tuple
    crossings: tuple
    code: str = ""


class Sides:
    """The arcs of a code as seen from its faces: each face is the arcs around it, with the side of each at which it lies."""

    def __init__(self, crossings, signs):
        self.crossings, places = crossings, {}
        for number, arcs in enumerate(crossings):
            for slot, arc in enumerate(arcs):
                places.setdefault(arc, []).append((number, slot))
        self.partner = {one: other for them in places.values() for one, other in (them, them[::-1])}
        # (the strand above goes out at the slot 1 of a positive crossing, and at the slot 3 of a negative one)
        self.leaving = {(number, slot) for number, sign in enumerate(signs) for slot in (2, 1 if sign > 0 else 3)}
        self.faces = list(self.walks())

    def walks(self):
        """The darts around each face, which has the face at the left of each."""
        seen = set()
        for start in self.partner:
            face, dart = [], start
            while dart not in seen:
                seen.add(dart)
                face.append(dart)
                number, slot = self.partner[dart]
                dart = number, (slot - 1) % 4
            if face:
                yield face

    def side(self, dart):
        """The arc of a dart, and the side at which the face of the dart lies."""
        number, slot = dart
        return self.crossings[number][slot], "left" if dart in self.leaving else "right"

    def pieces(self):
        """The arcs of each piece."""
        arcs = sorted({arc for them in self.crossings for arc in them})
        return classes(arcs, [(them[0], other) for them in self.crossings for other in them[1:]])


def kinks(count):
    """Kinks at each of so many arcs."""
    for first, sign in itertools.product(("under", "over"), ("plus", "minus")):
        row = f"a {'positive' if sign == 'plus' else 'negative'} crossing, passed {first} first, on the arc"
        for arc in range(1, count + 1):
            yield Move(f"r1 add {arc} {first} {sign}", "kink", row, str(arc), f"{row} {arc}", (arc,), ())


def unkinks(crossings):
    for number, arcs in enumerate(crossings, 1):
        if any(arcs[at - 1] == arcs[at] for at in range(4)):
            yield Move(f"r1 drop {number}", "unkink", "crossing", str(number), f"crossing {number}", (), (number,))


def corners(sides, size):
    """The faces with so many sides at as many crossings: the crossings, from 1, and the arcs."""
    found = {}
    for face in sides.faces:
        numbers = tuple(sorted({number + 1 for number, _ in face}))
        if len(face) == len(numbers) == size:
            found.setdefault(numbers, tuple(sides.side(dart)[0] for dart in face))
    return sorted(found.items())


def bigons(sides):
    for (one, other), arcs in corners(sides, 2):
        told = f"{one} and {other}"
        yield Move(f"r2 drop {one} {other}", "bigon", "crossings", told, f"crossings {told}", arcs, (one, other))


def slides(sides):
    for numbers, arcs in corners(sides, 3):
        one, other, third = numbers
        told, row = f"{one}, {other} and {third}", "the triangle at crossings"
        yield Move(f"r3 {one} {other} {third}", "slide", row, told, f"{row} {told}", arcs, numbers)


def fingers(sides):
    """Fingers of one arc over another one: at a face of both, and on two pieces at any."""
    pairs = [pair for face in sides.faces for pair in itertools.permutations(map(sides.side, face), 2)]
    for one, other in itertools.permutations(sides.pieces(), 2):
        pairs += itertools.product(itertools.product(one, ("left", "right")), itertools.product(other, ("left", "right")))
    chosen = sorted(pair for pair in set(pairs) if pair[0][0] != pair[1][0])[:MOST_FINGERS]
    times = Counter((one[0], other[0]) for one, other in chosen)
    for (arc, side), (below, its_side) in chosen:
        # (two arcs that meet at two faces are named with their sides)
        button = f"{below}" if times[arc, below] == 1 else f"{below} ({side}, {its_side})"
        told = f"arc {arc}, at its {side}, over arc {below}, at its {its_side}"
        yield Move(f"r2 add {arc} {side} {below} {its_side}", "finger", f"arc {arc} over arc", button, told, (arc, below), ())


def candidates(sheet):
    """What may be a move of a diagram."""
    count, sides = len(sheet.crossings), Sides(sheet.crossings, sheet.signs)
    found = [*slides(sides), *bigons(sides), *unkinks(sheet.crossings)]
    found += fingers(sides) if count + 2 <= MOST_CROSSINGS else []
    return found + [*(kinks(2 * count) if count + 1 <= MOST_CROSSINGS else [])]


def answers_of(kh, code, lines):
    """What `edit` answers to each line, as far as it comes; the last may be a refusal."""
    answer = kh.ask(EDIT, f"{code};\n" + "\n".join(lines) + "\n")
    if answer.status not in (ANSWERED, MOVE_REFUSED):
        raise Unreadable(answer.wrote.strip() or f"edit ended with {answer.status}")
    return [it.partition(" ")[2] for it in answer.wrote.splitlines()]


def accepted(kh: Any, sheet: Any) -> list[Any]:
    """The moves that `edit` makes, with the codes that they lead to: all are tried in a row, each taken back; one that is refused ends the
    script, which goes on behind it."""
    left, found = candidates(sheet), []
    while left:
        lines = [line for move in left for line in (move.line, "undo")]
        answers = answers_of(kh, sheet.code, lines)
        made = [it for it in answers[::2] if it.startswith("PD[")]
        found += [move._replace(code=code) for move, code in zip(left, made)]
        left = left[len(made) + 1 :]
    return found


def behind(kh, code, lines):
    """The diagram behind a script, or nothing, and the answer to its last line."""
    last = answers_of(kh, code, lines)[-1]
    return (last if last.startswith("PD[") else None), last
