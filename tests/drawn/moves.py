"""Lines and scripts of `edit`, and changed codes, that are drawn at random, for `edit_scripts.py`.

Each function is given a source of draws. What a line or a code comes to is not known here: the second reading says it.
"""
import plain.diagrams as codes
import plain.moves as moves

SIDES = ("left", "right")
STRANDS = ("under", "over")
SIGNS = ("plus", "minus")

# Lines that are no command.
BAD_LINES = (
    *("turn 1", "r1 add 1 under", "r1 add +1 under plus", "r1 drop 0001", "r1 drop 256", "r2 drop 1", "r3 1 2", "r3 1 2 3 4", "undo 1"),
    *("Redo", "r1drop 1", "r1 drop -1", "r2", "r2 add 1 left 2", "undo\fredo", "r1 add 1 plus under", "r2 add 1 Left 2 right", "undo undo"),
    *("r1 drop 1\rundo", "r1 drop \u0661", ";", "redo;", "r4 1", "r2 add 1 left 2 right 3", "1", "r1 add 1 under plus x", "undo\v"),
    *("\u00a0undo", "r1 add a under plus", "r1 add 1, under plus", "r3 1 2 1000", "r2 drop 1 2 3", "r1 drop", "r1 add", "look 1 0"),
)


def letters_of(draw, *choices):
    return " ".join(str(draw.choice(it)) for it in choices)


def arcs_beside(diagram):
    """For each face the arcs beside it, each with the side of it where the face lies: left at its tail, right at its head."""
    code = codes.code_of(diagram)
    positive = [crossing.positive for crossing in diagram.crossings]
    for face in codes.faces(code):
        leaves = [slot in (2, 1 if positive[crossing - 1] else 3) for crossing, slot in face]
        yield [(code.crossings[crossing - 1][slot], SIDES[not tail]) for (crossing, slot), tail in zip(face, leaves)]


def arcs_apart(draw, diagram):
    """Two arcs of different pieces, with any sides."""
    code = codes.code_of(diagram)
    one, other = draw.sample(codes.pieces(code), 2)
    return [(draw.choice(code.crossings[draw.choice(piece) - 1]), draw.choice(SIDES)) for piece in (one, other)]


def kink_adds(draw, diagram):
    return ["r1 add " + letters_of(draw, range(1, 2 * len(diagram.crossings) + 1), STRANDS, SIGNS)]


def kink_drops(draw, diagram):
    crossings = codes.numbered(codes.code_of(diagram))
    return [f"r1 drop {number}" for number, slots in crossings if len(set(slots)) < 4]


def finger_adds(draw, diagram):
    """Lines that push a finger across a face, or to another piece."""
    if len(codes.pieces(codes.code_of(diagram))) > 1 and draw.random() < 0.3:
        pairs = [arcs_apart(draw, diagram)]
    else:
        pairs = [draw.sample(them, 2) for them in arcs_beside(diagram) if len(them) > 1]
    return [f"r2 add {one} {side} {other} {far}" for (one, side), (other, far) in pairs if one != other]


def small_faces(draw, diagram, length):
    """The faces of so many darts, each with its darts in some order."""
    return [draw.sample(face, length) for face in codes.faces(codes.code_of(diagram)) if len(face) == length]


def finger_drops(draw, diagram):
    return [f"r2 drop {one} {other}" for (one, p), (other, q) in small_faces(draw, diagram, 2) if (p + q) % 2 and one != other]


def slides(draw, diagram):
    faces = [face for face in small_faces(draw, diagram, 3) if moves.has_heights(face) and len(dict(face)) == 3]
    return ["r3 {} {} {}".format(*dict(face)) for face in faces]


# All kinds of moves: each gives lines that are likely to be possible.
KINDS = (kink_adds, kink_drops, finger_adds, finger_drops, slides)


def faces_as_they_are(draw, diagram):
    """Lines that name the crossings of faces of two and of three darts, whatever lies over."""
    forms = ((2, "r2 drop {} {}"), (3, "r3 {} {} {}"))
    return [form.format(*(it for it, _ in face)) for length, form in forms for face in small_faces(draw, diagram, length)]


def good_line(draw, diagram):
    """A line with a move of some kind that is likely to be possible; where there are many crossings it is more often a drop."""
    count = len(diagram.crossings)
    adds = 4 if count < 4 else 2 if count < 9 else 1 if count < 13 else 0.2
    drops = 2 if count > 2 else 0.1
    kinds = {kink_adds: adds, finger_adds: adds, kink_drops: drops, finger_drops: 2 * drops, slides: 4}
    for kind in draw.choices(list(kinds), list(kinds.values()), k=10) if count else []:
        lines = kind(draw, diagram)
        if lines:
            return draw.choice(lines)
    return any_line(draw, diagram)


def any_line(draw, diagram):
    """A line with a move of some kind with any numbers, most of them of arcs and crossings that there are."""
    top = len(diagram.crossings) + draw.choice((0, 0, 0, 1))
    arcs, crossings = range(2 * top + diagram.loops + 2), range(min(top, 1), top + 1)
    forms = [
        "r1 add " + letters_of(draw, arcs, STRANDS, SIGNS),
        "r1 drop " + letters_of(draw, crossings),
        "r2 add " + letters_of(draw, arcs, SIDES, arcs, SIDES),
        "r2 add " + letters_of(draw, arcs, SIDES, arcs, SIDES),
        "r2 drop " + letters_of(draw, crossings, crossings),
        "r3 " + letters_of(draw, crossings, crossings, crossings),
    ]
    same = draw.choice(arcs)
    forms += [f"r2 add {same} left {same} {draw.choice(SIDES)}", "r1 drop " + letters_of(draw, range(256))]
    forms += ["r1 add " + letters_of(draw, range(256), STRANDS, SIGNS)]
    loops = range(2 * len(diagram.crossings) + 1, 2 * len(diagram.crossings) + diagram.loops + 1)
    if loops:
        forms += ["r1 add " + letters_of(draw, loops, STRANDS, SIGNS), "r2 add " + letters_of(draw, arcs, SIDES, loops, SIDES)]
    return draw.choice(forms + draw_some(draw, faces_as_they_are(draw, diagram), 3))


def draw_some(draw, them, most):
    return draw.sample(them, min(most, len(them)))


def next_line(draw, editor):
    """A line with a move, a step back or a step forth; seldom one that cannot be carried out."""
    if draw.random() < 0.02:
        return draw.choice(["undo", "redo", any_line(draw, editor.now)])
    steps = ["undo"] * 2 * bool(editor.past) + ["redo"] * 2 * bool(editor.future)
    return draw.choice([None] * 4 + steps) or good_line(draw, editor.now)


def many_lines(draw, editor):
    """Lines with more moves than are kept, and then steps back and forth."""
    for _ in range(draw.randint(257, 400)):
        yield good_line(draw, editor.now)
    for _ in range(3):
        yield from ["undo"] * min(draw.randint(200, 256), len(editor.past))
        yield from ["redo"] * min(draw.randint(0, 200), len(editor.future))
    if draw.random() < 0.5:
        yield from [draw.choice(["undo", "redo"])] * 257
    yield good_line(draw, editor.now)
    yield from ["undo", "redo", "redo"]


def carried_out(editor, lines):
    """These lines, each given once the editor has carried out the one before, if it can."""
    for line in lines:
        yield line
        try:
            editor.carry_out(line)
        except codes.Refused:
            pass


def dressed(draw, line):
    """The line with other blanks and with more digits, or with an empty line before."""
    words = [it.zfill(draw.randint(1, 3)) if it.isdigit() else it for it in line.split()]
    blanks = ["".join(draw.choices(" \t\r", k=draw.choice((1, 1, 1, 2)))) for _ in words]
    spaced = "".join(part for pair in zip(words, blanks) for part in pair)
    return draw.choice(("", "", "", "\n", " \t\r\n")) + draw.choice(("", " ", "\t")) + draw.choice((spaced, " ".join(words), spaced + "\r"))


def script_of(draw, lines):
    """A script of these lines: plain, with carriage returns, or with other blanks; some with a line that is no command."""
    if draw.random() < 0.04:
        lines.insert(draw.randrange(len(lines) + 1), draw.choice(BAD_LINES))
    elif draw.random() < 0.5:
        lines = [dressed(draw, line) for line in lines]
    end = draw.choice(("\n", "\n", "\r\n"))
    return end.join(lines) + draw.choice((end, end, "", "\n\n", "\n \t"))


def short_lines(draw, editor):
    for _ in range(draw.randint(10, 60)):
        yield next_line(draw, editor)


def changed(draw, crossings):
    """The crossings, lists of slots, with some other arcs at some slots."""
    one, other = draw.choice(crossings), draw.choice(crossings)
    slot, far_slot = draw.randrange(4), draw.randrange(4)
    kind = draw.choice(("turn", "turn", "flip", "exchange", "rename", "rename", "set"))
    if kind == "turn":
        one[:] = one[slot:] + one[:slot]
    elif kind == "flip":
        one[1], one[3] = one[3], one[1]
    elif kind == "exchange":
        one[slot], other[far_slot] = other[far_slot], one[slot]
    elif kind == "rename":
        new = {one[slot]: other[far_slot], other[far_slot]: one[slot]}
        crossings[:] = [[new.get(arc, arc) for arc in slots] for slots in crossings]
    else:
        one[slot] = draw.randrange(2 * len(crossings) + 2)


def changed_code(draw, code):
    """The code after a few changes, which may break it."""
    crossings = [list(slots) for slots in code.crossings]
    for _ in range(draw.choice((1, 1, 1, 2, 3))):
        changed(draw, crossings)
    return codes.Code(tuple(map(tuple, crossings)), code.loops)
