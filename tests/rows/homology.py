"""The rows of `homology` of `tests/program`: a name, words, an input, the status, what is written.

They are tables of links of at most four crossings, from a Python program that was written from the definition of the cube alone, with
ranks by row reduction; curls that lie apart have those of as many loops. `reference/make` takes the codes of these rows, and numbers them
as they first stand here.
"""
from rows.texts import (
    FIGURE_EIGHT, FIGURE_EIGHT_TABLE, HOMOLOGY, HOPF_TABLE, LOOP_TABLE, TREFOIL, TREFOIL_OVER_THREE, TREFOIL_TABLE, curls, curls_table,
)

MIRRORED_HOPF_TABLE = """\
table 2
field 2
j 0 i 0 dim 1
j 2 i 0 dim 1
j 4 i 2 dim 1
j 6 i 2 dim 1
jones 1*q^0 1*q^2 1*q^4 1*q^6
"""

ROWS = [
    ("the trefoil over five elements", ["homology", "--field", "5"], TREFOIL, 0,
     "table 2\nfield 5\nj -9 i -3 dim 1\nj -5 i -2 dim 1\nj -3 i 0 dim 1\nj -1 i 0 dim 1\njones -1*q^-9 1*q^-5 1*q^-3 1*q^-1\n"),
    ("the trefoil over seven elements", ["homology", "--field", "7"], TREFOIL, 0,
     "table 2\nfield 7\nj -9 i -3 dim 1\nj -5 i -2 dim 1\nj -3 i 0 dim 1\nj -1 i 0 dim 1\njones -1*q^-9 1*q^-5 1*q^-3 1*q^-1\n"),
    (
        "the trefoil over two elements, with a form that is not needed",
        ["homology", "--to", "pd", "--field", "2"],
        TREFOIL,
        0,
        TREFOIL_TABLE,
    ),
    ("three elements", HOMOLOGY + ["--field", "3"], TREFOIL, 0, TREFOIL_OVER_THREE),
    ("two loops", HOMOLOGY, "PD[Loop[1], Loop[2]]", 0, curls_table(2, 2)),
    ("five curls in a text without spaces", HOMOLOGY, "PD[X[1,1,2,2],X[3,3,4,4],X[5,5,6,6],X[7,7,8,8],X[9,9,10,10]]", 0, curls_table(5, 2)),
    ("a Hopf link", HOMOLOGY, "PD[X[4,1,3,2], X[2,3,1,4]]", 0, HOPF_TABLE),
    ("the figure eight", HOMOLOGY, FIGURE_EIGHT, 0, FIGURE_EIGHT_TABLE),
    (
        "the right-handed trefoil",
        HOMOLOGY,
        "PD[X[4,2,5,1], X[6,4,1,3], X[2,6,3,5]]",
        0,
        "table 2\nfield 2\nj 1 i 0 dim 1\nj 3 i 0 dim 1\nj 5 i 2 dim 1\nj 7 i 2 dim 1\nj 7 i 3 dim 1\nj 9 i 3 dim 1\n"
        "jones 1*q^1 1*q^3 1*q^5 -1*q^9\n",
    ),
    ("the mirror image of the Hopf link", HOMOLOGY, "PD[X[1,3,2,4], X[3,1,4,2]]", 0, MIRRORED_HOPF_TABLE),
    ("the Hopf link with one component reversed", HOMOLOGY, "PD[X[3,2,4,1], X[2,3,1,4]]", 0, MIRRORED_HOPF_TABLE),
    ("the mirror image of the Hopf link with one component reversed", HOMOLOGY, "PD[X[1,3,2,4], X[4,2,3,1]]", 0, HOPF_TABLE),
    ("the figure eight by another code", HOMOLOGY, "PD[X[1,4,2,5], X[5,8,6,1], X[3,7,4,6], X[7,3,8,2]]", 0, FIGURE_EIGHT_TABLE),
    ("the figure eight, numbered from another arc", HOMOLOGY, "PD[X[6,4,7,3], X[2,8,3,7], X[8,5,1,6], X[4,1,5,2]]", 0, FIGURE_EIGHT_TABLE),
    ("a curl, under first, positive", HOMOLOGY, "PD[X[1,1,2,2]]", 0, LOOP_TABLE),
    ("a curl, under first, negative", HOMOLOGY, "PD[X[1,2,2,1]]", 0, LOOP_TABLE),
    ("a curl, over first, negative", HOMOLOGY, "PD[X[2,1,1,2]]", 0, LOOP_TABLE),
    ("a curl, over first, positive", HOMOLOGY, "PD[X[2,2,1,1]]", 0, LOOP_TABLE),
    ("a curl with a positive curl under first", HOMOLOGY, "PD[X[3,1,4,4], X[1,3,2,2]]", 0, LOOP_TABLE),
    ("the Hopf link with a positive curl under first", HOMOLOGY, "PD[X[6,3,5,4], X[4,5,1,6], X[1,3,2,2]]", 0, HOPF_TABLE),
    ("a curl with a negative curl under first", HOMOLOGY, "PD[X[3,1,4,4], X[1,2,2,3]]", 0, LOOP_TABLE),
    ("the Hopf link with a negative curl under first", HOMOLOGY, "PD[X[6,3,5,4], X[4,5,1,6], X[1,2,2,3]]", 0, HOPF_TABLE),
    ("a curl with a positive curl over first", HOMOLOGY, "PD[X[3,1,4,4], X[2,2,3,1]]", 0, LOOP_TABLE),
    ("the Hopf link with a positive curl over first", HOMOLOGY, "PD[X[6,3,5,4], X[4,5,1,6], X[2,2,3,1]]", 0, HOPF_TABLE),
    ("a curl with a negative curl over first", HOMOLOGY, "PD[X[3,1,4,4], X[2,1,3,2]]", 0, LOOP_TABLE),
    ("the Hopf link with a negative curl over first", HOMOLOGY, "PD[X[6,3,5,4], X[4,5,1,6], X[2,1,3,2]]", 0, HOPF_TABLE),
    ("two curls apart", HOMOLOGY, curls(2), 0, curls_table(2, 2)),
    ("four curls apart", HOMOLOGY, curls(4), 0, curls_table(4, 2)),
    (
        "a curl and a Hopf link apart",
        HOMOLOGY,
        "PD[X[1,1,2,2], X[6,3,5,4], X[4,5,3,6]]",
        0,
        "table 2\nfield 2\nj -7 i -2 dim 1\nj -5 i -2 dim 2\nj -3 i -2 dim 1\nj -3 i 0 dim 1\nj -1 i 0 dim 2\nj 1 i 0 dim 1\n"
        "jones 1*q^-7 2*q^-5 2*q^-3 2*q^-1 1*q^1\n",
    ),
    (
        "two Hopf links apart",
        HOMOLOGY,
        "PD[X[4,1,3,2], X[2,3,1,4], X[8,5,7,6], X[6,7,5,8]]",
        0,
        "table 2\nfield 2\nj -12 i -4 dim 1\nj -10 i -4 dim 2\nj -8 i -4 dim 1\nj -8 i -2 dim 2\nj -6 i -2 dim 4\nj -4 i -2 dim 2\n"
        "j -4 i 0 dim 1\nj -2 i 0 dim 2\nj 0 i 0 dim 1\njones 1*q^-12 2*q^-10 3*q^-8 4*q^-6 3*q^-4 2*q^-2 1*q^0\n",
    ),
    (
        "a Hopf link and its mirror image apart",
        HOMOLOGY,
        "PD[X[4,1,3,2], X[2,3,1,4], X[5,7,6,8], X[7,5,8,6]]",
        0,
        "table 2\nfield 2\nj -6 i -2 dim 1\nj -4 i -2 dim 2\nj -2 i -2 dim 1\nj -2 i 0 dim 2\nj 0 i 0 dim 4\nj 2 i 0 dim 2\n"
        "j 2 i 2 dim 1\nj 4 i 2 dim 2\nj 6 i 2 dim 1\njones 1*q^-6 2*q^-4 3*q^-2 4*q^0 3*q^2 2*q^4 1*q^6\n",
    ),
    (
        "a curl and a trefoil apart",
        HOMOLOGY,
        "PD[X[1,1,2,2], X[3,6,4,7], X[5,8,6,3], X[7,4,8,5]]",
        0,
        "table 2\nfield 2\nj -10 i -3 dim 1\nj -8 i -3 dim 2\nj -8 i -2 dim 1\nj -6 i -3 dim 1\nj -6 i -2 dim 2\nj -4 i -2 dim 1\n"
        "j -4 i 0 dim 1\nj -2 i 0 dim 2\nj 0 i 0 dim 1\njones -1*q^-10 -1*q^-8 1*q^-6 2*q^-4 2*q^-2 1*q^0\n",
    ),
]
