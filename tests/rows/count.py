"""The rows of `check` and `convert` of `tests/program`: a name, words, an input, the status, what is written."""
from rows.texts import CHECK, FIGURE_EIGHT, TREFOIL, TREFOIL_COUNTS, TREFOIL_IN_GAUSS, USAGE, counts, curls, loops, with_loops

CONVERT = ["convert"]
TO_GAUSS = ["convert", "--to", "gauss"]


def gauss_of_curls(count):
    """The Gauss code of so many curls that lie apart, as it is written."""
    groups, signs = ("{%d, %d}" % (-k, k) for k in range(1, count + 1)), ["1"] * count
    return "GaussCode[" + ", ".join(groups) + "] Signs[" + ", ".join(signs) + "]"


def kinks(count):
    """One component with so many kinks, each with a sign of 1: under at its first pass, over at its second."""
    last = 2 * count
    return "PD[" + ", ".join(f"X[{a},{a + 2 if a + 2 < last else 1},{a + 1},{a + 1}]" for a in range(1, last, 2)) + "]"


def gauss_of_kinks(count):
    """Its Gauss code, as it is written."""
    labels, signs = (f"{-k}, {k}" for k in range(1, count + 1)), ["1"] * count
    return "GaussCode[" + ", ".join(labels) + "] Signs[" + ", ".join(signs) + "]"


# A diagram, its planar diagram, its Gauss code, and its counts: crossings, plus, minus, components, pieces, faces, loops.
DIAGRAMS = [
    ("two loops", loops(2), "GaussCode[{}, {}] Signs[]", (0, 0, 0, 0, 0, 0, 2)),
    ("one loop", "PD[Loop[1]]", "GaussCode[{}] Signs[]", (0, 0, 0, 0, 0, 0, 1)),
    ("no link", "PD[]", "GaussCode[] Signs[]", (0, 0, 0, 0, 0, 0, 0)),
    ("a positive curl", "PD[X[1,1,2,2]]", "GaussCode[-1, 1] Signs[1]", (1, 1, 0, 1, 1, 3, 0)),
    ("a negative curl and three loops", "PD[X[2,1,1,2], Loop[1], Loop[2], Loop[3]]", "GaussCode[{1, -1}, {}, {}, {}] Signs[-1]",
     (1, 0, 1, 1, 1, 3, 3)),
    ("the mirror image of the Hopf link", "PD[X[1,3,2,4], X[3,1,4,2]]", "GaussCode[{-1, 2}, {-2, 1}] Signs[1, 1]", (2, 2, 0, 2, 1, 4, 0)),
    ("a circle over another", "PD[X[1,4,2,3], X[2,4,1,3]]", "GaussCode[{-1, -2}, {1, 2}] Signs[1, -1]", (2, 1, 1, 2, 1, 4, 0)),
    ("a circle over another, listed from the other crossing", "PD[X[2,4,1,3], X[1,4,2,3]]", "GaussCode[{-2, -1}, {1, 2}] Signs[1, -1]",
     (2, 1, 1, 2, 1, 4, 0)),
    ("the Hopf link with one component reversed", "PD[X[3,2,4,1], X[2,3,1,4]]", "GaussCode[{1, -2}, {-1, 2}] Signs[1, 1]",
     (2, 2, 0, 2, 1, 4, 0)),
    ("a Hopf link", "PD[X[4,1,3,2], X[2,3,1,4]]", "GaussCode[{1, -2}, {2, -1}] Signs[-1, -1]", (2, 0, 2, 2, 1, 4, 0)),
    ("a curl and a Hopf link apart", "PD[X[1,1,2,2], X[6,3,5,4], X[4,5,3,6]]", "GaussCode[{-1, 1}, {2, -3}, {3, -2}] Signs[1, -1, -1]",
     (3, 1, 2, 3, 2, 7, 0)),
    ("the trefoil", TREFOIL, TREFOIL_IN_GAUSS, (3, 0, 3, 1, 1, 5, 0)),
    ("the right-handed trefoil", "PD[X[4,2,5,1], X[6,4,1,3], X[2,6,3,5]]", "GaussCode[1, -3, 2, -1, 3, -2] Signs[1, 1, 1]",
     (3, 3, 0, 1, 1, 5, 0)),
    ("a Hopf link with a curl over first", "PD[X[5,2,6,1], X[3,3,4,2], X[4,5,1,6]]", "GaussCode[{1, 2, -2, -3}, {-1, 3}] Signs[1, 1, 1]",
     (3, 3, 0, 2, 1, 5, 0)),
    ("a Hopf link with a curl under first", "PD[X[6,3,5,2], X[4,2,1,1], X[3,6,4,5]]", "GaussCode[{2, 1, -3, -2}, {3, -1}] Signs[1, 1, 1]",
     (3, 3, 0, 2, 1, 5, 0)),
    ("a curl, a trefoil and a loop apart", "PD[X[1,1,2,2], X[3,6,4,7], X[5,8,6,3], X[7,4,8,5], Loop[1]]",
     "GaussCode[{-1, 1}, {-2, 4, -3, 2, -4, 3}, {}] Signs[1, -1, -1, -1]", (4, 1, 3, 2, 2, 8, 1)),
    ("the figure eight by another code", "PD[X[1,4,2,5], X[5,8,6,1], X[3,7,4,6], X[7,3,8,2]]",
     "GaussCode[-1, 4, -3, 1, -2, 3, -4, 2] Signs[-1, -1, 1, 1]", (4, 2, 2, 1, 1, 6, 0)),
    ("a Hopf link and its mirror image apart", "PD[X[4,1,3,2], X[2,3,1,4], X[5,7,6,8], X[7,5,8,6]]",
     "GaussCode[{1, -2}, {2, -1}, {-3, 4}, {-4, 3}] Signs[-1, -1, 1, 1]", (4, 2, 2, 4, 2, 8, 0)),
    ("the figure eight", FIGURE_EIGHT, "GaussCode[1, -4, 3, -1, 2, -3, 4, -2] Signs[1, 1, -1, -1]", (4, 2, 2, 1, 1, 6, 0)),
    ("five curls", curls(5), "GaussCode[{-1, 1}, {-2, 2}, {-3, 3}, {-4, 4}, {-5, 5}] Signs[1, 1, 1, 1, 1]", (5, 5, 0, 5, 5, 15, 0)),
    ("sixteen curls", curls(16), gauss_of_curls(16), (16, 16, 0, 16, 16, 48, 0)),
    ("twenty curls", curls(20), gauss_of_curls(20), (20, 20, 0, 20, 20, 60, 0)),
    ("twenty kinks", kinks(20), gauss_of_kinks(20), (20, 20, 0, 1, 1, 22, 0)),
]

# Codes that `check` refuses.
REFUSED = [
    ("a check of the virtual trefoil", CHECK, "PD[X[3,1,4,2], X[4,2,1,3]]", 1, "refused checkerboard at arc 2\n"),
    ("a check of the virtual trefoil in Gauss", CHECK, "GaussCode[1, 2, -1, -2] Signs[-1, -1]", 1, "refused checkerboard at arc 2\n"),
    ("a check of the virtual trefoil in JSON", CHECK, "[[3,1,4,2],[4,2,1,3]]", 1, "refused checkerboard at arc 2\n"),
    ("a check of a virtual crossing", CHECK, "PD[X[2,1,2,1]]", 1, "refused checkerboard at arc 1\n"),
    ("a check of a virtual crossing in Gauss", CHECK, "GaussCode[{1}, {-1}] Signs[1]", 1, "refused checkerboard at arc 1\n"),
    ("a check of a virtual crossing in JSON", CHECK, "[[2,1,2,1]]", 1, "refused checkerboard at arc 1\n"),
    ("a check of a trefoil in Gauss with a sign changed", CHECK, "GaussCode[-1, 3, -2, 1, -3, 2] Signs[1, -1, -1]", 1,
     "refused genus faces 3 wanted 5\n"),
    ("a check of a trefoil with a crossing turned by a slot", CHECK, "PD[X[5,1,4,2], X[3,6,4,1], X[5,2,6,3]]", 1,
     "refused under pass at crossing 1\n"),
    ("a check of a trefoil with two crossings listed clockwise", CHECK, "PD[X[4,1,5,2], X[6,3,1,4], X[5,2,6,3]]", 1,
     "refused genus faces 3 wanted 5\n"),
    ("a check of a trefoil listed from the outgoing under arcs", CHECK, "PD[X[6,3,5,2], X[4,1,3,6], X[2,5,1,4]]", 1,
     "refused under pass at crossing 1\n"),
    ("a check of no interval", CHECK, "PD[X[4,1,2,3], X[3,2,1,4]]", 1, "refused interval of arc 1\n"),
    ("a check of an arc that stands three times", CHECK, "PD[X[1,4,2,5], X[3,6,4,1], X[5,2,6,1]]", 1, "refused arc 1 times 3\n"),
    (
        "a check of a trefoil numbered from 0",
        CHECK,
        "PD[X[0,3,1,4], X[2,5,3,0], X[4,1,5,2]]",
        1,
        "refused arc range at crossing 1 slot 0\n",
    ),
    ("a check of a trefoil with a sign too few", CHECK, "GaussCode[-1, 3, -2, 1, -3, 2] Signs[-1, -1]", 1, "refused signs 2 wanted 3\n"),
    ("a check of a trefoil with a label above its crossings", CHECK, "GaussCode[-1, 4, -2, 1, -3, 2] Signs[-1, -1, -1]", 1,
     "refused label at 14\n"),
    ("a check of a trefoil with a label again", CHECK, "GaussCode[-1, 3, -2, 1, -3, 3] Signs[-1, -1, -1]", 1, "refused label at 28\n"),
    ("a check of a trefoil with a sign of 2", CHECK, "GaussCode[-1, 3, -2, 1, -3, 2] Signs[-1, -1, 2]", 1, "refused label at 45\n"),
    ("a check of two under passes one way", CHECK, "PD[X[1,4,2,3], X[1,4,2,3]]", 1, "refused two-arc component at crossing 2\n"),
]


def of_diagrams():
    """Three rows of each diagram: the counts of both codes, and the one that is made of the other."""
    for name, planar, gauss, numbers in DIAGRAMS:
        yield f"counts of {name}", CHECK, planar, 0, counts(*numbers)
        yield f"counts of {name} in Gauss", CHECK, gauss + "\n", 0, counts(*numbers)
        yield f"Gauss code of {name}", TO_GAUSS, planar, 0, gauss + "\n"


ROWS = [
    *of_diagrams(),
    *REFUSED,
    ("a conversion", CONVERT, TREFOIL, 0, "PD[X[1, 4, 2, 5], X[3, 6, 4, 1], X[5, 2, 6, 3]]\n"),
    ("a conversion with a form", ["convert", "--to", "pd"], "[[1,1,2,2]]", 0, "PD[X[1, 1, 2, 2]]\n"),
    ("a check with a field", CHECK + ["--field", "3"], TREFOIL, 0, TREFOIL_COUNTS),
    ("a check of 28 components and loops", CHECK, with_loops(curls(20), 8), 0, counts(20, 20, 0, 20, 20, 60, 8)),
    ("twenty curls and nine loops", CHECK, with_loops(curls(20), 9), 6, "limit loops 9 of 8\n"),
    ("a check of a torus code", CHECK, "PD[X[1,5,2,4], X[3,6,4,1], X[5,2,6,3]]", 1, "refused genus faces 3 wanted 5\n"),
    ("a conversion from Gauss", CONVERT, "GaussCode[{-1,-2},{2,1}]Signs[1,-1]", 0, "PD[X[1, 4, 2, 3], X[2, 4, 1, 3]]\n"),
    ("a conversion of groups", TO_GAUSS, "PD[X[2,1,1,2], Loop[1]]", 0, "GaussCode[{1, -1}, {}] Signs[-1]\n"),
    ("an unknown form", ["convert", "--to", "PD"], TREFOIL, 2, USAGE),
    ("a conversion of loops of any numbers", CONVERT, "PD[X[1,1,2,2],Loop[9],\n\tLoop[-1]]", 0, "PD[X[1, 1, 2, 2], Loop[3], Loop[4]]\n"),
    ("a conversion of no crossings in JSON", ["convert", "--to", "pd"], "[]", 0, "PD[]\n"),
    ("a check of JSON over three elements", ["check", "--field", "3"], "[[1,4,2,5],[3,6,4,1],[5,2,6,3]]", 0, TREFOIL_COUNTS),
    ("a conversion of nine loops", CONVERT, "PD[Loop[1],Loop[1],Loop[1],Loop[1],Loop[1],Loop[1],Loop[1],Loop[1],Loop[1]]", 6,
     "limit loops 9 of 8\n"),
    ("a conversion from Gauss between blanks, with a loop", CONVERT, "\r\n GaussCode[{-1,-2},{2,1},{}]\tSigns[1,-1]", 0,
     "PD[X[1, 4, 2, 3], X[2, 4, 1, 3], Loop[5]]\n"),
    ("a conversion of JSON between blanks", CONVERT, "\r\n\t [[1,1,2,2]] ", 0, "PD[X[1, 1, 2, 2]]\n"),
    ("a conversion of JSON that is cut off", CONVERT, "\n [[1,1,2,2],", 1, "refused json\n"),
    ("a conversion of blanks alone", CONVERT, "\t\n \r", 1, "refused text at 4\n"),
    ("a conversion of JSON behind a form feed", CONVERT, "\f[[1,1,2,2]]", 1, "refused text at 0\n"),
    ("a check of an empty Gauss text without signs", CHECK, "GaussCode[]", 0, counts(0, 0, 0, 0, 0, 0, 0)),
]
