"""A plain second reading of Reidemeister's three moves, and of the scripts that make them and take them back.

It was written from their rules alone, and `edit_scripts.py` compares the program with it. A move rewrites directed passes, those of
`plain/diagrams.py`. What is refused is told in the words that the program writes.
"""
import re

from plain.diagrams import (
    CROSSINGS, Crossing, Diagram, Pass, Refused, arcs_of, classes, code_of, face_counts, faces, numbered, partners, printed, renamed,
    renumbered,
)

UNDO_DEPTH = 256
LINES = 4096
DONE, CODE_REFUSED, LIMIT, MOVE_REFUSED = 0, 1, 6, 7


def need(holds, why):
    if not holds:
        raise Refused(why)


def need_arcs(diagram, *arcs):
    for arc in arcs:
        need(1 <= arc <= 2 * len(diagram.crossings) + diagram.loops, f"no arc {arc}")


def need_crossings(diagram, *numbers):
    for number in numbers:
        need(1 <= number <= len(diagram.crossings), f"no crossing {number}")


def need_room(diagram, more):
    count = len(diagram.crossings) + more
    need(count <= CROSSINGS, f"crossings {count} of {CROSSINGS}")


def need_no_loops(diagram, *arcs):
    for arc in arcs:
        need(arc <= 2 * len(diagram.crossings), f"loop {arc}")


def cut(diagram, *arcs):
    """The crossings once each of these arcs is three arcs in a row: its tail keeps the first, its head gets the third."""

    def raised(arc):
        return arc + 2 * sum(it < arc for it in arcs)

    def raised_at_head(arc):
        return raised(arc) + 2 * (arc in arcs)

    return tuple(renamed(it, raised_at_head, raised) for it in diagram.crossings)


def two_passes(arc):
    """The passes between an arc, the next and the one after."""
    return Pass(arc, arc + 1), Pass(arc + 1, arc + 2)


def kink_add(diagram, arc, first_pass, sign):
    need_arcs(diagram, arc)
    need_room(diagram, 1)
    need_no_loops(diagram, arc)
    first, second = two_passes(arc)
    under, over = (first, second) if first_pass == "under" else (second, first)
    return Diagram((*cut(diagram, arc), Crossing(under, over, sign == "plus")), diagram.loops)


def kink_drop(diagram, crossing):
    need_crossings(diagram, crossing)
    slots = code_of(diagram).crossings[crossing - 1]
    need(any(slots[slot] == slots[slot - 1] for slot in range(4)), f"no kink at {crossing}")
    return without(diagram, crossing)


def finger_add(diagram, over, over_side, under, under_side):
    """The over arc passes over two new crossings; the under arc meets them in the same order exactly where the sides differ."""
    need_arcs(diagram, over, under)
    need_room(diagram, 2)
    need_no_loops(diagram, over, under)
    need(over != under, f"same arc {over}")
    overs = two_passes(over + 2 * (under < over))
    unders = two_passes(under + 2 * (over < under))
    positive = under_side == "left"
    pairs = zip(unders if over_side != under_side else unders[::-1], overs, (positive, not positive))
    result = Diagram((*cut(diagram, over, under), *(Crossing(*them) for them in pairs)), diagram.loops)
    found, wanted = face_counts(code_of(result))
    need(found == wanted, f"genus faces {found} wanted {wanted}")
    return result


def has_bigon(diagram, first, second):
    """Whether two sides join the crossings, from slot p to slot q+1 and from slot q to slot p+1, with p+q odd."""
    partner = partners(code_of(diagram))
    return first != second and any(
        partner[first, p] == (second, (q + 1) % 4) and partner[second, q] == (first, (p + 1) % 4) and (p + q) % 2
        for p in range(4)
        for q in range(4)
    )


def finger_drop(diagram, first, second):
    need_crossings(diagram, first, second)
    need(has_bigon(diagram, first, second), f"no bigon at {first} {second}")
    return without(diagram, first, second)


def triangles(diagram, *crossings):
    """The faces of three darts, one at each of these crossings, by their slots at the first."""
    found = [face for face in faces(code_of(diagram)) if len(face) == 3 and sorted(it for it, _ in face) == sorted(set(crossings))]
    return sorted(found, key=lambda face: dict(face)[crossings[0]])


def has_heights(triangle):
    """Whether one strand lies over the others and one below: the slots do not have one parity."""
    return len({slot % 2 for _, slot in triangle}) == 2


def slide(diagram, first, second, third):
    need_crossings(diagram, first, second, third)
    found = triangles(diagram, first, second, third)
    need(found, f"no triangle at {first} {second} {third}")
    high = [it for it in found if has_heights(it)]
    need(high, "heights")
    code = code_of(diagram)
    return renumbered(slid(diagram, [code.crossings[crossing - 1][slot] for crossing, slot in high[0]]))


def slid(diagram, sides):
    """The diagram where, along each of these arcs, the crossing behind it and the one before it have changed places."""
    passes = [it for crossing in diagram.crossings for it in crossing[:2]]
    changed = {it: it for it in passes}
    for side in sides:
        behind = next(it for it in passes if it.leaves == side)
        before = next(it for it in passes if it.enters == side)
        changed[behind], changed[before] = Pass(side, before.leaves), Pass(behind.enters, side)
    return Diagram(tuple(Crossing(changed[under], changed[over], sign) for under, over, sign in diagram.crossings), diagram.loops)


def without(diagram, *dropped):
    """The diagram once the passes of these crossings are joined straight through; what meets no crossing then is a loop."""
    kept = [it for number, it in numbered(diagram) if number not in dropped]
    joined = [it for number, crossing in numbered(diagram) if number in dropped for it in crossing[:2]]
    rings = classes(arcs_of(diagram), joined)
    name = {arc: ring[0] for ring in rings for arc in ring}
    met = {name[arc] for crossing in kept for it in crossing[:2] for arc in it}
    crossings = tuple(renamed(it, name.get, name.get) for it in kept)
    return renumbered(Diagram(crossings, diagram.loops + len(rings) - len(met)))


NUMBER = "([0-9]{1,3})"
SIDE = "(left|right)"
MOVES = (
    (re.compile(f"r1 add {NUMBER} (under|over) (plus|minus)"), kink_add),
    (re.compile(f"r1 drop {NUMBER}"), kink_drop),
    (re.compile(f"r2 add {NUMBER} {SIDE} {NUMBER} {SIDE}"), finger_add),
    (re.compile(f"r2 drop {NUMBER} {NUMBER}"), finger_drop),
    (re.compile(f"r3 {NUMBER} {NUMBER} {NUMBER}"), slide),
)


def understood(line):
    """What a line asks for: None for one without words, `undo`, `redo`, or the call of a move and what it is given. Others are refused."""
    words = " ".join(filter(None, re.split("[ \t\r]", line)))
    if words in ("", "undo", "redo"):
        return words or None
    for form, move in MOVES:
        found = form.fullmatch(words)
        if found:
            given = [int(it) if it[0].isdigit() else it for it in found.groups()]
            need(all(it <= 255 for it in given if isinstance(it, int)), line)
            return move, given
    raise Refused(line)


def moved(diagram, line):
    """The diagram after the move of a line; one that cannot be made is refused."""
    move, given = understood(line)
    return move(diagram, *given)


class Editor:
    """A diagram, those before it and those that were taken back."""

    def __init__(self, diagram):
        self.past, self.now, self.future = [], diagram, []

    def change(self, diagram):
        self.past = [*self.past, self.now][-UNDO_DEPTH:]
        self.now, self.future = diagram, []

    def undo(self):
        need(self.past, "nothing to undo")
        self.future = [self.now, *self.future]
        self.now = self.past.pop()

    def redo(self):
        need(self.future, "nothing to redo")
        self.past = [*self.past, self.now]
        self.now = self.future.pop(0)

    def carry_out(self, line):
        """Carries out a line that has words."""
        if understood(line) == "undo":
            self.undo()
        elif understood(line) == "redo":
            self.redo()
        else:
            self.change(moved(self.now, line))


def lines_of(script):
    """The lines of a script; behind its last line feed there is one only where that is not empty."""
    lines = script.split("\n")
    return lines if lines[-1] else lines[:-1]


def answer(diagram, script):
    """The status and what is written for a script on a diagram."""
    lines, editor, wrote = lines_of(script), Editor(diagram), []
    if len(lines) > LINES:
        return LIMIT, f"limit lines {len(lines)} of {LINES}\n"
    for number, line in enumerate(lines, 1):
        try:
            understood(line)
        except Refused:
            return CODE_REFUSED, f"refused line {number}\n"
    for number, line in enumerate(lines, 1):
        if not understood(line):
            continue
        try:
            editor.carry_out(line)
        except Refused as why:
            return MOVE_REFUSED, "".join(wrote) + f"{number} refused {why}\n"
        wrote.append(f"{number} {printed(code_of(editor.now))}\n")
    return DONE, "".join(wrote)
