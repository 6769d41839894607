"""Words, codes and written texts that rows of several tables of `tests/program` have, and those that are made by number.

Where the tables of homology are from is said in `rows/homology.py`.
"""
import math

HOMOLOGY = ["homology"]
CHECK = ["check"]
JONES = ["jones"]
SCHEDULE = ["schedule"]
CURL = "PD[X[1,1,2,2]]"
TREFOIL = "PD[X[1,4,2,5], X[3,6,4,1], X[5,2,6,3]]"
TREFOIL_IN_GAUSS = "GaussCode[-1, 3, -2, 1, -3, 2] Signs[-1, -1, -1]"
TREFOIL_TABLE = """\
table 2
field 2
j -9 i -3 dim 1
j -7 i -3 dim 1
j -7 i -2 dim 1
j -5 i -2 dim 1
j -3 i 0 dim 1
j -1 i 0 dim 1
jones -1*q^-9 1*q^-5 1*q^-3 1*q^-1
"""
TREFOIL_OVER_THREE = """\
table 2
field 3
j -9 i -3 dim 1
j -5 i -2 dim 1
j -3 i 0 dim 1
j -1 i 0 dim 1
jones -1*q^-9 1*q^-5 1*q^-3 1*q^-1
"""
LOOP_TABLE = "table 2\nfield 2\nj -1 i 0 dim 1\nj 1 i 0 dim 1\njones 1*q^-1 1*q^1\n"
EMPTY_TABLE = "table 2\nfield 2\nj 0 i 0 dim 1\njones 1*q^0\n"
FIGURE_EIGHT = "PD[X[4,2,5,1], X[8,6,1,5], X[6,3,7,4], X[2,7,3,8]]"
FIGURE_EIGHT_TABLE = """\
table 2
field 2
j -5 i -2 dim 1
j -3 i -2 dim 1
j -3 i -1 dim 1
j -1 i -1 dim 1
j -1 i 0 dim 1
j 1 i 0 dim 1
j 1 i 1 dim 1
j 3 i 1 dim 1
j 3 i 2 dim 1
j 5 i 2 dim 1
jones 1*q^-5 1*q^5
"""
HOPF = "PD[X[4,1,3,2],X[2,3,1,4]]"
HOPF_TABLE = """\
table 2
field 2
j -6 i -2 dim 1
j -4 i -2 dim 1
j -2 i 0 dim 1
j 0 i 0 dim 1
jones 1*q^-6 1*q^-4 1*q^-2 1*q^0
"""
USAGE = "usage: kh COMMAND [OPTIONS]\n"
TOO_MANY_BYTES = "limit bytes 65537 of 65536\n"
MANY_GENERATORS = "limit generators 3656158440062976 of 4194304\n"


def padded(text, size):
    """The text, and spaces up to this size."""
    return text + " " * (size - len(text))


def crossings(count, between=", "):
    """A text of so many crossings, whose code is accepted for one of them alone."""
    return "PD[" + between.join(["X[1,1,2,2]"] * count) + "]"


def curls(count):
    """A text of so many curls that lie apart."""
    return "PD[" + ", ".join(f"X[{a},{a},{a + 1},{a + 1}]" for a in range(1, 2 * count, 2)) + "]"


def links(count, loops=0, space=" "):
    """The text of so many curls that lie apart, and of loops, as the program writes it, or without blanks."""
    items = [f"X[{a},{space}{a},{space}{a + 1},{space}{a + 1}]" for a in range(1, 2 * count, 2)]
    return "PD[" + f",{space}".join(items + [f"Loop[{2 * count + 1 + k}]" for k in range(loops)]) + "]"


def loops(count):
    """A text of so many loops."""
    return "PD[" + ", ".join(["Loop[1]"] * count) + "]"


def with_loops(text, count):
    """The text with so many loops more."""
    return text[:-1] + "".join(", Loop[1]" for _ in range(count)) + "]"


def gauss_curls(count):
    """So many curls that lie apart, as a signed Gauss text."""
    groups, signs = ("{%d, %d}" % (k, -k) for k in range(1, count + 1)), ["1"] * count
    return "GaussCode[" + ", ".join(groups) + "] Signs[" + ", ".join(signs) + "]"


def jones_of_loops(count):
    """The Jones line of so many circles without crossings: q + q^-1 to the power of their number."""
    return "jones " + " ".join(f"{math.comb(count, k)}*q^{2 * k - count}" for k in range(count + 1)) + "\n"


def curls_table(count, field):
    """What `homology` writes of so many curls that lie apart, which is what it writes of as many loops."""
    rows = (f"j {2 * k - count} i 0 dim {math.comb(count, k)}\n" for k in range(count + 1))
    return f"table 2\nfield {field}\n" + "".join(rows) + jones_of_loops(count)


def counts(crossings, plus, minus, components, pieces, faces, of_loops):
    """The line of these counts."""
    return (
        f"accepted crossings {crossings} plus {plus} minus {minus} components {components}"
        f" pieces {pieces} faces {faces} loops {of_loops}\n"
    )


def lines(*each):
    """A text of these lines."""
    return "".join(line + "\n" for line in each)


TREFOIL_COUNTS = counts(3, 0, 3, 1, 1, 5, 0)
TREFOIL_JONES = TREFOIL_TABLE.splitlines()[-1] + "\n"
