"""Tries the scripts of `show/` on stored outputs of `kh`: those of `tests/data`, and drawings made by `plain.drawing`.

`tests/program` runs these behind its rows, and then those of `pictures` and `move_states`. No program is run for them but those of this
repository.
"""
import itertools
import os
import re
import tempfile
import xml.etree.ElementTree

import plain.diagrams
import plain.drawing
from companions import move_states, pictures
from kh.show.layout import lines_of
from kh.show.slices import read_drawing
from rows.link import REDUCED_TREFOIL
from rows.texts import TREFOIL, TREFOIL_OVER_THREE, TREFOIL_TABLE
from shared import stored_links
from shared.places import TOP
from shared.running import ended, help_fault, silent_fault


TWO_FIELDS = TREFOIL_TABLE + TREFOIL_OVER_THREE
TWO_GRIDS = """\
over 2 elements              over 3 elements
j\\i | -3  -2  -1   0 |  χ    j\\i | -3  -2  -1   0 |  χ
----+----------------+---    ----+----------------+---
 -1 |              1 |  1     -1 |              1 |  1
 -3 |              1 |  1     -3 |              1 |  1
 -5 |      1         |  1     -5 |      1         |  1
 -7 |  1*  1*        |  0     -7 |  0*  0*        |  0
 -9 |  1             | -1     -9 |  1             | -1
* not the same over all these fields: torsion
"""
REDUCED_GRID = """\
over 2 elements, reduced at mark 1
j\\i | -3  -2  -1   0 |  χ
----+----------------+---
 -2 |              1 |  1
 -4 |                |  0
 -6 |      1         |  1
 -8 |  1             | -1
"""
TREFOIL_DRAWN = """\
╭───────────────────╮   ╭───╮
│                   ╰─╮ │   │
│           ╭───╮   ╭───╯   │
│           │   │   │ ╰─╮   │
╰─────╮     │   │   │   │   │
╭─────│─────╯   ╰───╯   │   │
│     ╰─────╮           │   │
│   ╭───╮   │           │   │
╰─╮ │   │   │           │   │
╭─│─╯   ╰───╯           │   │
│ ╰─╮                   │   │
│   ╰───────────────────╯   │
╰───────────────────────────╯
"""
POLYNOMIALS = "field 2\nq^-9 t^-3 + q^-7 t^-3 + q^-7 t^-2 + q^-5 t^-2 + q^-3 + q^-1\n"
POLYNOMIALS += "field 3\nq^-9 t^-3 + q^-5 t^-2 + q^-3 + q^-1\n"
AS_OTHERS_WRITE = "field 3\nq^(-3) + 1/q + 1/(q^5*t^2)+q^{-9}t^{-3}\n"

NINE = "PD[" + ", ".join(f"X[{arc}, {arc}, {arc + 1}, {arc + 1}]" for arc in range(1, 18, 2)) + "]"

# A script, its words, its input, its status, what it writes: all of it, or what the one line on standard error has.
ROWS = [
    ("two fields", "table", [], TWO_FIELDS, 0, TWO_GRIDS),
    ("a reduced table", "table", [], REDUCED_TREFOIL, 0, REDUCED_GRID),
    ("no table", "table", [], "", 1, "there is no table"),
    ("a refused code", "table", [], "refused genus faces 3 wanted 5\n", 1, "line 1 is no line of a table"),
    ("a wrong dimension", "table", [], TWO_FIELDS.replace("j -1 i 0 dim 1", "j -1 i 0 dim 2", 1), 1, "does not fit its Jones line"),
    ("two diagrams", "table", [], TWO_FIELDS + "table 2\nfield 5\nj 0 i 0 dim 1\njones 1*q^0\n", 1, "more than one diagram"),
    ("two fields", "polynomial", [], TWO_FIELDS, 0, POLYNOMIALS),
    ("two fields back", "polynomial", ["--table"], POLYNOMIALS, 0, TWO_FIELDS),
    ("as others write", "polynomial", ["--table"], AS_OTHERS_WRITE, 0, TWO_FIELDS[TWO_FIELDS.rindex("table 2") :]),
    ("no field", "polynomial", ["--table", "--field", "7"], "1\n", 0, "table 2\nfield 7\nj 0 i 0 dim 1\njones 1*q^0\n"),
    ("a reduced table back", "polynomial", ["--table"], "mark 1\nfield 2\nq^-8 t^-3 + q^-6 t^-2 + q^-2\n", 0, REDUCED_TREFOIL),
    ("another letter", "polynomial", ["--table"], "q + x\n", 1, "line 1: no polynomial in q and t goes on so: x"),
    ("a difference", "polynomial", ["--table"], "q - q^-1\n", 1, "is no dimension"),
    ("a sum below", "polynomial", ["--table"], "1/(q + t)\n", 1, "divides by a sum"),
    ("a trefoil", "drawing", [], plain.drawing.drawing(plain.diagrams.read(TREFOIL)), 0, TREFOIL_DRAWN),
    ("nothing drawn", "drawing", [], "", 0, ""),
    ("a loop", "drawing", [], "open 1: /\\\nclose 1: \\/\n", 0, "╭───╮\n╰───╯\n"),
    ("open strands", "drawing", [], "open 1: /\\\n", 1, "2 strands open"),
    ("other cells", "drawing", [], "open 1: /\\ |\n", 1, "line 1 is no slice below 0 strands"),
    ("a place too far", "drawing", [], "open 1: /\\\nleft 2: | \\-\n", 1, "line 2 is no slice below 2 strands"),
    ("nine crossings", "states", [], plain.drawing.drawing(plain.diagrams.read(NINE)), 1, "has 9 crossings, and the cube is drawn up to 8"),
]


def run(name, words, given):
    """The status of a script of `show/`, and what it wrote."""
    return ended([os.path.join(TOP, "show", name), *words], given, env=dict(os.environ, COLUMNS="100"))


def row_fault(name, words, given, status, wanted):
    came, wrote, errors = run(name, words, given)
    if status == 0:
        right = (came, wrote, errors) == (0, wanted, "")
    else:
        right = (came, wrote) == (status, "") and wanted in errors and errors.count("\n") == 1 and errors.startswith(f"{name}: ")
    return None if right else f"{(came, wrote, errors)} and not {(status, wanted)}"


def round_fault():
    """All stored tables, turned into polynomials and back, are themselves."""
    text = "".join(table for *_, table in stored_links.tables())
    polynomials = run("polynomial", [], text)
    back = run("polynomial", ["--table"], polynomials[1])
    return None if back == (0, text, "") and text.count("table 2") > 100 else f"{polynomials[0]}, {back[0]}, {back[2]}"


def least_turn(passes):
    """A closed sequence of passes at named crossings in its least form, over all beginnings and both directions."""
    forms = []
    for order in (passes, passes[::-1]):
        for start in range(len(order) or 1):
            names, turned = {}, order[start:] + order[:start]
            forms.append([(names.setdefault(crossing, len(names)), over) for crossing, over in turned])
    return min(forms)


# The ways that a sign leads: up, down, left, right.
UP, DOWN, LEFT, RIGHT = (-1, 0), (1, 0), (0, -1), (0, 1)
WAYS = {"│": (UP, DOWN), "─": (LEFT, RIGHT), "╭": (DOWN, RIGHT), "╮": (DOWN, LEFT), "╰": (UP, RIGHT), "╯": (UP, LEFT)}


def leads(page, place, way):
    """Whether the sign at a place has this way."""
    return way in WAYS.get(page.get(place), ())


def step(place, way):
    return place[0] + way[0], place[1] + way[1]


def opposite(way):
    return -way[0], -way[1]


def drawn_passes(text):
    """The passes of each closed curve of a drawing in the terminal, found by walking over its signs."""
    page = {(y, x): sign for y, line in enumerate(text.splitlines()) for x, sign in enumerate(line) if sign != " "}

    def is_crossing(place):
        return all(leads(page, step(place, way), opposite(way)) for way in (UP, DOWN, LEFT, RIGHT))

    crossings = {place for place in page if is_crossing(place)}
    todo = {(place, way) for place in page if place not in crossings for way in WAYS[page[place]]}
    while todo:
        start = place, way = min(todo)
        passes = []
        while True:
            todo.discard((place, way))
            place = step(place, way)
            if place in crossings:
                passes.append((place, way in WAYS[page[place]]))
                continue
            todo.discard((place, opposite(way)))
            way = next(it for it in WAYS[page[place]] if it != opposite(way))
            if (place, way) == start:
                break
        yield passes


def drawn_fault(code):
    """The drawing in the terminal has the passes of the code, component by component, as long as each component is taken alone."""
    wrote = "\n".join(lines_of(read_drawing(plain.drawing.drawing(code))))
    found = sorted(map(least_turn, drawn_passes(wrote)))
    wanted = sorted(map(least_turn, plain.diagrams.passes(code)))
    return None if found == wanted else f"{plain.diagrams.printed(code)}: {found} and not {wanted}"


def diagrams():
    """Codes of many kinds: the stored ones, and closed braids with curls and loops."""
    codes = ["PD[X[1,1,2,2],X[3,4,4,3],Loop[5],Loop[6]]", "PD[X[4,1,3,2],X[2,3,1,4]]", "PD[X[1,4,2,3],X[2,4,1,3]]", TREFOIL]
    stored = (stored_links.texts(name).values() for name in ("tables.txt", "polynomials.txt"))
    return [plain.diagrams.read(it) for it in itertools.chain(codes, *stored)]


def named_circles(code, state):
    """The circles of a state, by their least arcs, each a list of arcs, and each loop with its own number."""
    pairs = []
    for bit, (i, j, k, l) in zip(state, code.crossings):
        pairs += [(i, l), (j, k)] if bit else [(i, j), (k, l)]
    circles = [sorted(it) for it in plain.diagrams.classes(plain.diagrams.arcs_of(code), pairs)]
    first = 2 * len(code.crossings) + 1
    return sorted(circles + [[loop] for loop in range(first, first + code.loops)])


def states_fault(code):
    """The picture of the cube has each state with the number of its circles, classes of arcs and loops. Without the code the states may
    have the crossings in another order; with it the picture names the circles too."""
    drawing, caption = plain.drawing.drawing(code), r">([01]+|the one state)</tspan>: (\d+) circle"
    states = list(itertools.product((0, 1), repeat=len(code.crossings)))
    wanted = {"".join(map(str, state)) or "the one state": named_circles(code, state) for state in states}
    status, wrote, errors = run("states", [], drawing)
    found = sorted((text.count("1"), int(count)) for text, count in re.findall(caption, wrote))
    if (status, errors, found) != (0, "", sorted((text.count("1"), len(circles)) for text, circles in wanted.items())):
        return f"{found} and not {wanted}, {errors}"
    with tempfile.NamedTemporaryFile("w", encoding="utf-8") as file:
        file.write(plain.diagrams.printed(code) + "\n")
        file.flush()
        status, wrote, errors = run("states", ["--numbers", file.name], drawing)
    texts = re.findall(caption + r".*\n<text (.*)</text>", wrote)
    named = {text: [list(map(int, it.split(","))) for it in re.findall(r"{([\d,]+)}", names)] for text, _, names in texts}
    counts = {text: int(count) for text, count, _ in texts}
    right = (status, errors, named) == (0, "", wanted) and counts == {text: len(circles) for text, circles in wanted.items()}
    right = right and wrote.count('<path class="circle ') == sum(counts.values())
    return None if right else f"{named} and not {wanted}, {errors}"


def unknown_fault():
    """Without its code the picture of a link says which components have no arrow, and is drawn."""
    status, wrote, errors = run("drawing", ["--svg"], plain.drawing.drawing(plain.diagrams.read("PD[X[4,1,3,2],X[2,3,1,4]]")))
    right = (status, wrote.count('class="arrow'), errors.count("\n")) == (0, 1, 1) and "1 of 2 components without an arrow" in errors
    return None if right else f"{status}, {errors}"


def words_fault(words, given, status, wanted):
    """What is wrong with words of `show/drawing` on a trefoil, if anything is; CODE stands for a file with this code."""
    with tempfile.NamedTemporaryFile("w", encoding="utf-8") as file:
        file.write(given + "\n")
        file.flush()
        came = run("drawing", [it.replace("CODE", file.name) for it in words], plain.drawing.drawing(plain.diagrams.read(TREFOIL)))
    return None if came[0] == status and wanted in (came[2] if status else came[1]) and bool(came[2]) == bool(status) else f"{came}"


# Words, a code, the status, and what is written, or said where that is not 0.
WORDS = [
    ("numbers", ["--svg", "--numbers", "CODE"], TREFOIL, 0, ">6</text>"),
    ("a code", ["--svg", "--code", "CODE"], TREFOIL, 0, 'class="arrow ink"'),
    ("colours", ["--svg", "--colours"], TREFOIL, 0, 'class="strand colour0"'),
    ("a mark", ["--svg", "--code", "CODE", "--mark", "6"], TREFOIL, 0, "A dot marks arc 6."),
    ("another code", ["--svg", "--numbers", "CODE"], "PD[X[1,1,2,2]]", 1, "is not one of this planar diagram"),
    ("a mirror image", ["--svg", "--code", "CODE"], "PD[X[1,5,2,4], X[3,1,4,6], X[5,3,6,2]]", 1, "is not one of this planar diagram"),
    ("no code", ["--svg", "--numbers", "CODE"], "GaussCode[]", 1, "has no planar diagram"),
    ("no such mark", ["--svg", "--code", "CODE", "--mark", "7"], TREFOIL, 1, "the diagram has neither an arc 7 nor a loop 7"),
    ("a mark without a code", ["--svg", "--mark", "1"], TREFOIL, 2, "--code CODE"),
    ("colours in the terminal", ["--colours"], TREFOIL, 2, "only a picture has"),
]


def table_picture_fault(text, wanted):
    """The picture of tables has these texts, from the top to the bottom of each grid, and says the dimensions too."""
    status, wrote, errors = run("table", ["--svg"], text)
    root = xml.etree.ElementTree.fromstring(wrote or "<svg/>")
    found = [it.text for it in root.iter("{http://www.w3.org/2000/svg}text")]
    told = root.findtext("{http://www.w3.org/2000/svg}desc") or ""
    return None if (status, errors, found) == (0, "", wanted) and "1 at j -8 and i -3" in told else f"{found}, {told}, {errors}"


REDUCED_TEXTS = [
    *("over 2 elements, reduced at mark 1", "j \\ i", "-3", "-2", "-1", "0", "χ"),
    *("1", "-2", "1", "-4", "0", "1", "-6", "1", "1", "-8", "-1"),
]


def scripts():
    """All scripts that are run by hand, but for those of `tests/`, and `tools/kh-help`, which `./kh` runs."""
    for folder in ("show", "tools", "tabulate", "reference", "bench"):
        for name in sorted(os.listdir(os.path.join(TOP, folder))):
            path = os.path.join(TOP, folder, name)
            if os.path.isfile(path) and os.access(path, os.X_OK) and name != "kh-help":
                yield os.path.join(folder, name)


def faults(program=None):
    """The name of each test, and what is wrong, if anything is."""
    for what, name, words, given, status, wanted in ROWS:
        yield f"show/{name}: {what}", row_fault(name, words, given, status, wanted)
    for what, words, code, status, wanted in WORDS:
        yield f"show/drawing: {what}", words_fault(words, code, status, wanted)
    yield "show/drawing: a link without its code", unknown_fault()
    yield "show/table: a reduced table as a picture", table_picture_fault(REDUCED_TREFOIL, REDUCED_TEXTS)
    yield "show/polynomial: all stored tables and back", round_fault()
    for number, code in enumerate(diagrams()):
        yield f"show/drawing: diagram {number} in the terminal", drawn_fault(code)
    for number, code in enumerate(diagrams()[:4]):
        yield f"show/states: diagram {number}", states_fault(code)
    yield from pictures.faults()
    yield from move_states.faults()
    yield "show/pictures: the pictures of the pages", silent_fault(os.path.join(TOP, "show", "pictures"), "--test")
    for name in scripts():
        yield f"{name} --help", help_fault(name)
