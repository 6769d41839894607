"""The rows of the commands on links of `tests/program`: a name, words, an input, the status, what is written.

Worked by hand from the rules of these commands; where homology is compared, by the same table turned round.
"""
from rows.texts import CURL, TREFOIL, TREFOIL_IN_GAUSS, USAGE, links

TWO_ARCS = "PD[X[2,4,1,3], X[1,4,2,3]]"
MIRRORED_TREFOIL = "PD[X[4, 2, 5, 1], X[6, 4, 1, 3], X[2, 6, 3, 5]]"
REVERSED_TREFOIL = "PD[X[6, 3, 1, 4], X[4, 1, 5, 2], X[2, 5, 3, 6]]"
MIRRORED_TABLE = """\
table 2
field 2
j 1 i 0 dim 1
j 3 i 0 dim 1
j 5 i 2 dim 1
j 7 i 2 dim 1
j 7 i 3 dim 1
j 9 i 3 dim 1
jones 1*q^1 1*q^3 1*q^5 -1*q^9
"""


def line(text):
    """A text and a line feed."""
    return text + "\n"


def both(first, second):
    """An input of two codes."""
    return links(*first, "") + ";" + links(*second, "")


DRAWN_TREFOIL = r"""open 1: /\
open 3: | | /\
right 2: | -/ |
open 2: | /\ | | |
left 1: \- | | | |
open 2: | /\ | | | | |
left 1: \- | | | | | |
close 3: | | \/ | | | |
close 3: | | \/ | |
close 2: | \/ |
close 1: \/
"""
DRAWN_CURL = r"""open 1: /\
open 3: | | /\
right 2: | -/ |
close 1: \/ | |
close 1: \/
"""
DRAWN_LOOP = "open 1: /\\\nclose 1: \\/\n"

DRAWINGS = [
    ("a drawing", ["draw"], TREFOIL, 0, DRAWN_TREFOIL),
    ("a drawing of a Gauss code", ["draw", "--field", "7"], TREFOIL_IN_GAUSS, 0, DRAWN_TREFOIL),
    ("a drawing of a curl", ["draw"], CURL, 0, DRAWN_CURL),
    ("a drawing of curls and loops", ["draw"], links(3, 8), 0, 3 * DRAWN_CURL + 8 * DRAWN_LOOP),
    ("a drawing of a loop", ["draw"], "PD[Loop[1]]", 0, DRAWN_LOOP),
    ("a drawing of nothing", ["draw"], "PD[]", 0, ""),
    ("a drawing of twenty curls", ["draw"], links(20, 0), 0, 20 * DRAWN_CURL),
    ("a drawing of too many crossings", ["draw"], links(21, 0), 6, "limit crossings 21 of 20\n"),
    ("a drawing of a virtual code", ["draw"], "PD[X[1,2,1,2]]", 1, "refused checkerboard at arc 1\n"),
    ("a drawing of no code", ["draw"], "PD", 1, "refused text at 2\n"),
]

REDUCED = ["reduced", "--mark", "1"]
REDUCED_TREFOIL = """\
mark 1
table 2
field 2
j -8 i -3 dim 1
j -6 i -2 dim 1
j -2 i 0 dim 1
jones -1*q^-9 1*q^-5 1*q^-3 1*q^-1
"""
REDUCED_LOOP = "mark 1\ntable 2\nfield 2\nj 0 i 0 dim 1\njones 1*q^-1 1*q^1\n"

MARKS = [
    ("a marked arc", REDUCED, TREFOIL, 0, REDUCED_TREFOIL),
    ("a marked arc over three", REDUCED + ["--field", "3"], TREFOIL, 0, REDUCED_TREFOIL.replace("field 2", "field 3")),
    ("a marked arc over five", ["--field=5"] + REDUCED, TREFOIL, 0, REDUCED_TREFOIL.replace("field 2", "field 5")),
    ("a marked arc over seven", REDUCED + ["--field", "7", "--workers", "4"], TREFOIL, 0, REDUCED_TREFOIL.replace("field 2", "field 7")),
    ("the last arc marked", ["reduced", "--mark", "006"], TREFOIL, 0, REDUCED_TREFOIL.replace("mark 1", "mark 6")),
    ("a marked loop", REDUCED, "PD[Loop[1]]", 0, REDUCED_LOOP),
    ("no seventh arc", ["reduced", "--mark", "7"], TREFOIL, 1, "refused mark 7\n"),
    ("no arc 0", ["reduced", "--mark", "0"], TREFOIL, 1, "refused mark 0\n"),
    ("no arc 255", ["reduced", "--mark=255"], TREFOIL, 1, "refused mark 255\n"),
    ("no arc of nothing", REDUCED, "PD[]", 1, "refused mark 1\n"),
    ("a mark 256", ["reduced", "--mark", "256"], TREFOIL, 2, USAGE),
    ("a mark in four digits", ["reduced", "--mark", "0001"], TREFOIL, 2, USAGE),
    ("a mark with a sign", ["reduced", "--mark", "+1"], TREFOIL, 2, USAGE),
    ("a mark below 0", ["reduced", "--mark=-1"], TREFOIL, 2, USAGE),
    ("an empty mark", ["reduced", "--mark="], TREFOIL, 2, USAGE),
    ("two marks", REDUCED + ["--mark", "1"], TREFOIL, 2, USAGE),
    ("no mark", ["reduced"], TREFOIL, 2, USAGE),
    ("a mark for no command that needs one", ["jones", "--mark", "7"], "PD[Loop[1]]", 0, "jones 1*q^-1 1*q^1\n"),
    ("a wrong mark for no command that needs one", ["jones", "--mark", "256"], "PD[Loop[1]]", 2, USAGE),
    ("a wrong mark on a wrong code", ["reduced", "--mark", "0"], "PD[X[1,2,1,2]]", 1, "refused checkerboard at arc 1\n"),
    ("a wrong mark on a large cube", ["reduced", "--mark", "49"], links(20, 8), 1, "refused mark 49\n"),
    ("a mark on a large cube", ["reduced", "--mark", "48"], links(20, 8), 6, f"limit generators {6**20 * 2**8} of 4194304\n"),
]

MIRRORS = [
    ("a mirror", ["mirror"], TREFOIL, 0, line(MIRRORED_TREFOIL)),
    ("a mirror twice", ["mirror"], MIRRORED_TREFOIL, 0, "PD[X[1, 4, 2, 5], X[3, 6, 4, 1], X[5, 2, 6, 3]]\n"),
    ("the table of a mirror", ["homology"], MIRRORED_TREFOIL, 0, MIRRORED_TABLE),
    ("a mirror of a Gauss code", ["mirror"], TREFOIL_IN_GAUSS, 0, line(MIRRORED_TREFOIL)),
    ("a mirror of JSON", ["mirror", "--to", "gauss"], "[[1,4,2,5],[3,6,4,1],[5,2,6,3]]", 0, line(MIRRORED_TREFOIL)),
    ("a mirror over two arcs", ["mirror"], TWO_ARCS, 0, "PD[X[3, 1, 4, 2], X[4, 1, 3, 2]]\n"),
    ("a mirror of loops", ["mirror"], links(0, 8), 0, line(links(0, 8))),
    ("a mirror of nothing", ["mirror"], "PD[]", 0, "PD[]\n"),
    ("a mirror of twenty curls", ["mirror"], links(20, 8), 0,
     line("PD[" + ", ".join([f"X[{a + 1}, {a}, {a}, {a + 1}]" for a in range(1, 40, 2)] + [f"Loop[{k}]" for k in range(41, 49)]) + "]")),
    ("a mirror of no code", ["mirror"], "", 1, "refused text at 0\n"),
    ("a mirror of a virtual code", ["mirror"], "PD[X[1,2,1,2]]", 1, "refused checkerboard at arc 1\n"),
    ("a mirror of two codes", ["mirror"], CURL + ";" + CURL, 1, "refused text at 14\n"),
    ("a mirror of too many crossings", ["mirror"], links(21, 0), 6, "limit crossings 21 of 20\n"),
    ("a mirror of too many bytes", ["mirror"], " " * 65_537, 6, "limit bytes 65537 of 65536\n"),
    ("two mirrors", ["mirror", "mirror"], TREFOIL, 2, USAGE),
]

REVERSALS = [
    ("a reversal", ["reverse"], TREFOIL, 0, line(REVERSED_TREFOIL)),
    ("a reversal twice", ["reverse"], REVERSED_TREFOIL, 0, "PD[X[1, 4, 2, 5], X[3, 6, 4, 1], X[5, 2, 6, 3]]\n"),
    ("a reversal of loops", ["reverse"], links(0, 8), 0, line(links(0, 8))),
    ("a reversal of nothing", ["reverse"], "[]", 0, "PD[]\n"),
    ("a reversal of no code", ["reverse"], "PD[", 1, "refused text at 3\n"),
]

UNIONS = [
    ("a union", ["union"], "PD[X[1,1,2,2]];PD[X[4,1,3,2],X[2,3,1,4]]", 0, "PD[X[1, 1, 2, 2], X[6, 3, 5, 4], X[4, 5, 3, 6]]\n"),
    ("a union of forms", ["union"], "[[1,1,2,2]];GaussCode[{},{}]", 0, "PD[X[1, 1, 2, 2], Loop[3], Loop[4]]\n"),
    ("a union of other forms", ["union"], "GaussCode[{}];\n [[1,1,2,2]]\n", 0, "PD[X[1, 1, 2, 2], Loop[3]]\n"),
    ("a union with loops of both", ["union"], both((1, 2), (2, 1)), 0, line(links(3, 3))),
    ("a union with nothing", ["union"], CURL + ";PD[]", 0, "PD[X[1, 1, 2, 2]]\n"),
    ("a union of nothing", ["union"], "PD[];PD[]", 0, "PD[]\n"),
    ("a union with no second code", ["union"], "PD[]", 1, "second\nrefused text at 0\n"),
    ("a union with an empty second code", ["union"], "PD[];", 1, "second\nrefused text at 0\n"),
    ("a union with a blank second code", ["union"], "PD[];  ", 1, "second\nrefused text at 2\n"),
    ("a union with three codes", ["union"], "PD[];PD[];PD[]", 1, "second\nrefused text at 4\n"),
    ("a union with a wrong first code", ["union"], "PD[;PD[", 1, "refused text at 3\n"),
    ("a union with a virtual first code", ["union"], "PD[X[1,2,1,2]];PD[", 1, "refused checkerboard at arc 1\n"),
    ("a union with a virtual second code", ["union"], "PD[];PD[X[1,2,1,2]]", 1, "second\nrefused checkerboard at arc 1\n"),
    ("a union with a second code that is no JSON", ["union"], "PD[];[", 1, "second\nrefused json\n"),
    ("a union with a second code without signs", ["union"], "PD[];GaussCode[1,-1]", 1, "second\nrefused no signs\n"),
    ("a union with a large number", ["union"], "PD[]; PD]70000", 1, "second\nrefused number at 4\n"),
    ("a union with a first code over the limit", ["union"], both((21, 0), (21, 0)), 6, "limit crossings 21 of 20\n"),
    ("a union with a second code over the limit", ["union"], both((0, 0), (21, 9)), 6, "second\nlimit crossings 21 of 20\n"),
    ("a union with loops over the limit", ["union"], both((20, 8), (0, 9)), 6, "second\nlimit loops 9 of 8\n"),
    ("a union of twenty crossings", ["union"], both((10, 4), (10, 4)), 0, line(links(20, 8))),
    ("a union of twenty-one crossings", ["union"], both((10, 0), (11, 0)), 6, "limit crossings 21 of 20\n"),
    ("a union of nine loops", ["union"], both((1, 5), (1, 4)), 6, "limit loops 9 of 8\n"),
    ("a union of forty crossings and sixteen loops", ["union"], both((20, 8), (20, 8)), 6, "limit crossings 40 of 20\n"),
    ("a union of sixteen loops", ["union"], both((10, 8), (10, 8)), 6, "limit loops 16 of 8\n"),
    ("a union of too many bytes", ["union"], "PD[];" + " " * 65_532, 6, "limit bytes 65537 of 65536\n"),
    ("a union of many bytes", ["union"], "PD[];PD[]" + " " * 65_527, 0, "PD[]\n"),
]

ROWS = DRAWINGS + MARKS + MIRRORS + REVERSALS + UNIONS
