"""A plain second reading of drawings: what `draw` writes of a diagram, by its rules, and what a drawing shows, from its text alone.

`slices_of` and `text_of` make the drawing of a code. `shown` reads a text without knowing any code: it finds the crossings, at each which
strand is over, how their four corners are joined, and the loops. `difference` compares that with a code: the corners of each crossing
have to stand for its slots, turning the same way, joined as the arcs join them, with the strand of the slots 1 and 3 over.
"""
import re
from typing import NamedTuple

from plain.diagrams import partners

OPEN, CLOSE, RIGHT, LEFT = "open", "close", "right", "left"
CELLS = {OPEN: "/\\", CLOSE: "\\/", RIGHT: "-/", LEFT: "\\-"}
LINE = re.compile(r"(open|close|right|left) ([1-9][0-9]*): ([-/\\| ]+)")

# The corners of a crossing on the page, counterclockwise.
UPPER_LEFT, LOWER_LEFT, LOWER_RIGHT, UPPER_RIGHT = range(4)


class Slice(NamedTuple):
    """A word, the place of its first strand, and for a crossing its number and the slot at its upper left."""

    word: str
    place: int
    crossing: int = 0
    slot: int = 0


def slices_of(code):
    """The drawing of a code, from the top of the page to the bottom."""
    partner, row, drawn = partners(code), [], []
    left = set(range(1, len(code.crossings) + 1))
    while left or row:
        far = [partner[dart] for dart in row]
        waiting = [at for at, (crossing, _) in enumerate(far) if crossing in left]
        if not row:
            crossing, slot = min(left), 0
            drawn += [Slice(OPEN, 1), Slice(OPEN, 3), crossed(2, crossing, slot)]
            row = [(crossing, at) for at in range(4)]
            left.remove(crossing)
        elif waiting:
            at = waiting[0]
            crossing, slot = far[at]
            drawn += [Slice(OPEN, at + 2), crossed(at + 1, crossing, slot)]
            row[at : at + 1] = [(crossing, (slot + turn) % 4) for turn in (1, 2, 3)]
            left.remove(crossing)
        else:
            at = next(at for at in range(len(row) - 1) if far[at] == row[at + 1])
            drawn.append(Slice(CLOSE, at + 1))
            del row[at : at + 2]
    return drawn + [Slice(OPEN, 1), Slice(CLOSE, 1)] * code.loops


def crossed(place, crossing, slot):
    return Slice(LEFT if slot % 2 else RIGHT, place, crossing, slot)


def text_of(slices):
    """The lines of slices: a cell for each strand that passes by, and one for the slice itself."""
    strands, lines = 0, []
    for word, place, *_ in slices:
        behind = strands - place + (1 if word == OPEN else -1)
        cells = ["|"] * (place - 1) + [CELLS[word]] + ["|"] * behind
        lines.append(f"{word} {place}: {' '.join(cells)}\n")
        strands += {OPEN: 2, CLOSE: -2}.get(word, 0)
    return "".join(lines)


def drawing(code):
    return text_of(slices_of(code))


class Shown(NamedTuple):
    """For each crossing from the top whether the strand from upper left to lower right is over; each corner's other end; the loops; and how
    many strands the widest row has.
    """

    falling_over: list
    far: dict
    loops: int
    widest: int


class Strands:
    """The strands of a page at some height, each by the curve that it belongs to; the two ends that each curve has had so far."""

    def __init__(self):
        self.row, self.ends, self.far, self.loops, self.widest = [], [], {}, 0, 0

    def curve(self, *ends):
        self.ends.append(list(ends))
        return len(self.ends) - 1

    def open(self, at):
        curve = self.curve()
        self.row[at:at] = [curve, curve]
        self.widest = max(self.widest, len(self.row))

    def end(self, curve, corner):
        """The curve ends at a corner; where it has two of them, these are joined."""
        self.ends[curve].append(corner)
        if len(self.ends[curve]) == 2:
            one, other = self.ends[curve]
            self.far[one], self.far[other] = other, one

    def close(self, at):
        """Two curves become one; where they are one already, it is a loop."""
        one, other = self.row[at : at + 2]
        del self.row[at : at + 2]
        if one == other:
            self.loops += 1
            return
        self.row = [one if curve == other else curve for curve in self.row]
        ends, self.ends[other] = self.ends[other], []
        for corner in ends:
            self.end(one, corner)

    def cross(self, at, number):
        self.end(self.row[at], (number, UPPER_LEFT))
        self.end(self.row[at + 1], (number, UPPER_RIGHT))
        self.row[at : at + 2] = [self.curve((number, LOWER_LEFT)), self.curve((number, LOWER_RIGHT))]


def shown(text):
    """What a drawing shows; a text that is none is a ValueError with the line."""
    strands, falling_over = Strands(), []
    for line in text.splitlines():
        found = LINE.fullmatch(line)
        if not found:
            raise ValueError(line)
        word, at = found.group(1), int(found.group(2)) - 1
        cells, count = found.group(3).split(" "), len(strands.row) + (1 if word == OPEN else -1)
        if cells[at : at + 1] != [CELLS[word]] or set(cells[:at] + cells[at + 1 :]) - {"|"} or len(cells) != count:
            raise ValueError(line)
        if word == OPEN:
            strands.open(at)
        elif word == CLOSE:
            strands.close(at)
        else:
            strands.cross(at, len(falling_over))
            falling_over.append(word == LEFT)
    if strands.row or not text.endswith("\n") * bool(text) and text:
        raise ValueError("its end")
    return Shown(falling_over, strands.far, strands.loops, strands.widest)


def difference(text, code):
    """What a drawing shows that a code has not, if anything.

    Pieces are drawn one after another, each from slot 0 of its least crossing, and of n crossings no row has more than 2n + 2 strands.
    """
    try:
        seen = shown(text)
    except ValueError as it:
        return f"no drawing: {it}"
    if (len(seen.falling_over), seen.loops) != (len(code.crossings), code.loops):
        return f"{len(seen.falling_over)} crossings and {seen.loops} loops"
    if seen.widest > 2 * len(code.crossings) + 2:
        return f"a row of {seen.widest} strands"
    partner, stands_for, left = partners(code), {}, set(range(1, len(code.crossings) + 1))
    for number in range(len(code.crossings)):
        if number not in stands_for:
            stands_for[number] = (min(left), 0)
        fault = spread(seen, partner, stands_for, left, number)
        if fault:
            return fault
    return None if not left else f"crossings {left} are not drawn"


def spread(seen, partner, stands_for, left, number):
    """Follows the strands from a crossing of the page that is known, and compares all that can be reached."""
    waiting = [number]
    while waiting:
        number = waiting.pop()
        crossing, slot = stands_for[number]
        if seen.falling_over[number] != bool(slot % 2):
            return f"at crossing {crossing} the other strand is over"
        left.discard(crossing)
        for turn in range(4):
            far_number, far_turn = seen.far[number, turn]
            far_crossing, far_slot = partner[crossing, (slot + turn) % 4]
            wanted = far_crossing, (far_slot - far_turn) % 4
            if far_number not in stands_for:
                stands_for[far_number] = wanted
                waiting.append(far_number)
            if stands_for[far_number] != wanted:
                return f"slot {(slot + turn) % 4} of crossing {crossing} is joined elsewhere"
    return None
