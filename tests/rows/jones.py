"""The rows of `jones` of `tests/program`: a name, words, an input, the status, what is written."""
from rows.texts import JONES, TREFOIL, TREFOIL_IN_GAUSS, TREFOIL_JONES, curls, jones_of_loops, with_loops

ROWS = [
    ("the polynomial of the trefoil", JONES, TREFOIL, 0, TREFOIL_JONES),
    ("the polynomial of sixteen curls", JONES, curls(16), 0, jones_of_loops(16)),
    ("the polynomial of twenty curls", JONES, curls(20), 0, jones_of_loops(20)),
    ("the polynomial of 28 components and loops", JONES, with_loops(curls(20), 8), 0, jones_of_loops(28)),
    ("the polynomial of no crossings", JONES, "PD[]", 0, "jones 1*q^0\n"),
    ("the polynomial of a torus code", JONES, "PD[X[1,5,2,4], X[3,6,4,1], X[5,2,6,3]]", 1, "refused genus faces 3 wanted 5\n"),
    ("the polynomial of a Gauss code over seven elements", ["jones", "--field", "7"], TREFOIL_IN_GAUSS, 0, TREFOIL_JONES),
    ("the polynomial of a Hopf link with a curl over first", JONES, "PD[X[5,2,6,1], X[3,3,4,2], X[4,5,1,6]]", 0,
     "jones 1*q^0 1*q^2 1*q^4 1*q^6\n"),
    ("the polynomial of a Hopf link with a curl under first", JONES, "PD[X[6,3,5,2], X[4,2,1,1], X[3,6,4,5]]", 0,
     "jones 1*q^0 1*q^2 1*q^4 1*q^6\n"),
    ("the polynomial of eight loops", JONES, "PD[Loop[1], Loop[2], Loop[3], Loop[4], Loop[5], Loop[6], Loop[7], Loop[8]]", 0,
     "jones 1*q^-8 8*q^-6 28*q^-4 56*q^-2 70*q^0 56*q^2 28*q^4 8*q^6 1*q^8\n"),
    ("the polynomial of a virtual crossing", JONES, "PD[X[1,2,1,2]]", 1, "refused checkerboard at arc 1\n"),
]
