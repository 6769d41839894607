"""The rows of `reference/compare`: a name, words, the table that it reads, the status, and what is written or said.

The dimensions of 3_1, 8_19, 4^2_1 and T(3,5) are those of the reference.
"""
AGREE = "the tables agree\n"
OTHER_HAND = "(the reference's 3_1 is the mirror image of the Knot Atlas's)\n"

MIRRORED = "nearest is the mirror image, with i and j negated:\n"
EXCHANGED = "nearest is the reference with i before j:\n"
NONE = ((-1, 0), (1, 0), (3, 0), (5, 2), (7, 0), (9, 3))
OTHERS = "".join(f"j {j} i {i}: {j in (-1, 7):d}, and {j not in (-1, 7):d} in the reference\n" for j, i in NONE)

# A table that is compared with that of the right-handed trefoil over three elements, the status, and what is written or said.
TREFOIL = [
    ("the same", "q + q^3 + q^5 t^2 + q^9 t^3", 0, AGREE),
    ("in rows", "1 0 1\n3, 0, 1\n5 2 1\n9 3 1\n", 0, AGREE),
    ("as kh writes it", "table 2\nfield 3\nj 1 i 0 dim 1\nj 3 i 0 dim 1\nj 5 i 2 dim 1\nj 9 i 3 dim 1\njones 1*q^1\n", 0, AGREE),
    ("a term less", "q + q^3 + q^9 t^3", 1, "j 5 i 2: 0, and 1 in the reference\n"),
    ("a term more", "q + q^3 + q^5 t^2 + q^9 t^3 + 2 q^7 t^2", 1, "j 7 i 2: 2, and 0 in the reference\n"),
    ("mirrored", "1/q + 1/q^3 + 1/(q^5 t^2) + 1/(q^9 t^3)", 1, "it is the table of the mirror image: i and j are negated\n" + OTHER_HAND),
    ("q turned", "1/q + 1/q^3 + t^2/q^5 + t^3/q^9", 1, "j is negated: q stands for the inverse of the reference's\n"),
    ("t turned", "q + q^3 + q^5/t^2 + q^9/t^3", 1, "i is negated: t stands for the inverse of the reference's\n"),
    ("i before j", "0 1 1\n0 3 1\n2 5 1\n3 9 1\n", 1, "the columns are exchanged: i stands before j\n"),
    ("mirrored, and a term more", "1/q + 1/q^3 + 1/(q^5 t^2) + 1/(q^9 t^3) + 1/(q^7 t^2)", 1, MIRRORED + "j -7 i -2: yours 1, the mirrored reference 0\n"),
    ("i before j, and another number", "0 1 1\n0 3 1\n2 5 1\n3 9 2\n", 1, EXCHANGED + "j 9 i 3: yours 2, the turned reference 1\n"),
    ("the table of no link", "1/q + q^7", 1, OTHERS),
    ("rows in one line", "1 0 1; 3 0 1; 5 2 1; 9 3 1", 0, AGREE),
    ("no table", "1 0 1\nnone\n", 1, "compare: line 2 is no row of a table, and the text no polynomial in q and t: none\n"),
    ("strokes", "1 0 1 / 3 0 1\n", 1, "compare: line 1 is no row of a table, and the text no polynomial in q and t: 1 0 1 / 3 0 1\n"),
    ("a row twice", "1 0 1\n3 0 1\n1 0 1\n", 1, "compare: line 3 gives j 1 i 0 a second time\n"),
    ("another field", "field 5\n1 0 1\n", 1, "compare: the table is over 5 elements, and --field names 3\n"),
    ("nothing", "\n", 1, "compare: the program wrote nothing\n"),
    ("no dimension", "1 0 0\n", 1, "compare: no dimension is above 0\n"),
    ("by nothing", "q/0\n", 1, "compare: the polynomial divides by 0\n"),
]

# A table over two elements that is tried alone, the status, and what is written.
LEFT = "table 2\nfield 2\nj -9 i -3 dim 1\nj -7 i -3 dim 1\nj -7 i -2 dim 1\nj -5 i -2 dim 1\nj -3 i 0 dim 1\nj -1 i 0 dim 1\n"
JONES = "jones -1*q^-9 1*q^-5 1*q^-3 1*q^-1\n"
OTHER_JONES = "its Jones line is another than its Euler characteristic\n"
NOT_DIVISIBLE = "its Euler characteristic is not divisible by q + q^-1, as that of a link is\n"
NO_PAIRS = "i -2 does not split into pairs j and j + 2, as each i over two elements does\n"
NO_COUNT = "its Euler characteristic at q = 1 is 1; of c components it is 2^c, with c even or odd as j is\n"
ODD_AND_EVEN = "some j are even and some are odd; of a link all are even or odd as the number of its components is\n"
ALONE = [
    ("the same", LEFT + JONES, 0, JONES + "nothing speaks against this table\n"),
    ("another Jones line", LEFT + "jones 1*q^-1\n", 1, JONES + OTHER_JONES),
    ("a pair less", LEFT.replace("j -7 i -3 dim 1\nj -7 i -2 dim 1\n", ""), 1, JONES + NO_PAIRS.replace("-2", "-3", 1) + NO_PAIRS),
    ("a row less", LEFT.replace("j -5 i -2 dim 1\n", ""), 1, "jones -1*q^-9 1*q^-3 1*q^-1\n" + NOT_DIVISIBLE + NO_COUNT + NO_PAIRS),
    ("odd and even", "0 0 1\n2 0 1\n1 0 1\n3 0 1\n", 1, "jones 1*q^0 1*q^1 1*q^2 1*q^3\n" + ODD_AND_EVEN),
]

# What is read of other programs.
KNOT = "q + q^3 + q^5 t^2 + q^9 t^3"
GROUPS = "{1: {0: Z}, 3: {0: Z, 1: 0}, 5: {2: Z}, 7: {2: 0, 3: C2}, 9: {3: Z}}"
HOPF = "{(0, 0): 1, (0, 2): 1, (2, 4): 1, (2, 6): 1}"
READ_IJ = "compare: pairs are read as i, j, since of one link all j are even or all are odd\n"
READ_JI = READ_IJ.replace("i, j,", "j, i,")
WHICH_ORDER = "compare: the numbers of a pair may be i, j or j, i: name their order, --order ij or --order ji\n"
INTEGRAL = "the tables agree over 2, 3, 5 and 7 elements\n"
MIRROR = "it is the table of the mirror image: i and j are negated\n"
NO_TORSION = "".join(f"over 2 elements j 7 i {i}: 0, and 1 in the reference\n" for i in (2, 3))
WHERE_DECIDED = "(the reference decides all but j 13 i 3 and j 13 i 4, where torsion at 3, 5 and 7 in one place would look the same)\n"
ONLY_TORSION = "(only torsion at 3, 5 and 7 in one place would explain this)\n"
INVERSES = "i and j are negated: q and t stand for the inverses of the reference's, and the link is not mirrored\n"
OF_HOMOLOGY = "the groups are homology: torsion stands at i - 1 where the reference, in cohomology, has it at i\n"
CUBE = "the same table, with j shifted by -4\nso are the degrees of the cube, without the numbers n+ and n- of crossings\n"
SIGNS = "the same table, with j shifted by -9 and i shifted by -3\nso it is where n+ and n- are exchanged, since the signs of all crossings "
SIGNS += "are the other ones\n"
TURNED = "the same table, with j shifted by -12 and i shifted by -4\nso it is where components are turned round that link the others\n"
OTHER_FIELD = "it is the table over 3, 5 and 7 elements"
LARGE = "q^5 + q^7 + q^9 t^2 + q^11 t^4 + q^13 t^3 + q^13 t^4 + q^15 t^5 + q^17 t^5"
INVERSE = "q^-5 + q^-7 + q^-9 t^-2 + q^-11 t^-4 + q^-13 t^-3 + q^-13 t^-4 + q^-15 t^-5 + q^-17 t^-5"
TORUS = "q^7 + q^9 + q^11 t^2 + q^13 t^4 + q^15 t^3 + q^15 t^4 + q^17 t^5 + q^17 t^6 + q^19 t^5 + q^21 t^7"
HALF = "q^2 + q^6 t^2 + q^8 t^3"
LESS = "".join(f"j 13 i {i}: 0, and 1 in the reference\n" for i in (3, 4)) + ONLY_TORSION
SPACE = "Vector space of dimension 1 over Rational Field"
NEAREST = "nearest is the reference, and j shifted by 2:\nj 11 i 3: yours 2, the shifted reference 1\n"
FINE = "jones 1*q^1 1*q^3 1*q^5 -1*q^9\nnothing speaks against this table\n"
FOR_T = "compare: T^2 is read as torsion, Z[2], and the text has no t: write t where T stands for it\n"
TOO_DEEP = "compare: no dictionary and no list goes on so: " + "{" * 80 + "\n"
FORMS = [
    ("torsion in brackets", "3_1", f"{KNOT} + q^7 t^3 Z[2]", 0, INTEGRAL),
    ("torsion as JavaKh", "3_1", "q^1*t^0*Z[0] + q^3*t^0*Z[0] + q^5*t^2*Z[0] + q^7*t^3*Z[2] + q^9*t^3*Z[0]", 0, INTEGRAL),
    ("torsion as KnotTheory", "3_1", f"{KNOT} + q^7 t^3 ZMod[2]", 0, INTEGRAL),
    ("torsion as KnotInfo", "3_1", "q+q^(3)+t^(2)q^(5)+t^(3)q^(7)T^(2)+t^(3)q^(9)", 0, INTEGRAL),
    ("torsion without brackets", "3_1", f"{KNOT} + q^7 t^3 Z2", 0, INTEGRAL),
    ("T for t", "3_1", "q + q^3 + q^5 T^2 + q^9 T^3", 1, FOR_T),
    ("torsion over a field", "3_1 --field 5", f"{KNOT} + q^7 t^3 Z[2]", 0, AGREE),
    ("two groups in a term", "3_1", "q Z[2] Z[3]", 1, "compare: a term of the polynomial has two groups\n"),
    ("groups in rows", "3_1", "1 0 Z\n3 0 Z\n5 2 Z\n7 3 Z/2\n9 3 Z\n", 0, INTEGRAL),
    ("groups in rows, i first", "3_1", "0 1 Z\n0 3 Z\n2 5 Z\n3 7 Z[2]\n3 9 Z\n", 1, "the columns are exchanged: i stands before j\n"),
    ("a dictionary of groups", "3_1", GROUPS, 0, INTEGRAL + READ_JI),
    ("spaces as SageMath", "3_1", GROUPS.replace("Z", SPACE).replace("C2", "0"), 0, AGREE + READ_JI),
    ("a dictionary of pairs", "3_1 --field 3", "{(0, 1): 1, (0, 3): 1, (2, 5): 1, (3, 9): 1}", 0, AGREE + READ_IJ),
    ("a counter", "3_1 --field 3", "Counter({(1, 0): 1, (3, 0): 1, (5, 2): 1, (9, 3): 1})", 0, AGREE + READ_JI),
    ("a dictionary of JSON", "3_1 --field 3", '{"1": {"0": 1}, "3": {"0": 1}, "5": {"2": 1}, "9": {"3": 1}}', 0, AGREE + READ_JI),
    ("pairs in either order", "Hopf --field 3", HOPF, 1, WHICH_ORDER),
    ("pairs in a named order", "Hopf --field 3 --order ij", HOPF, 0, AGREE),
    ("pairs in the other order", "Hopf --field 3 --order ji", HOPF, 1, "the columns are exchanged: i stands before j\n"),
    ("a pair twice", "3_1", "{(1, 0): 1, (1, 0): 2}", 1, "compare: (1, 0) stands twice in a dictionary\n"),
    ("no group", "3_1", "{(1, 0): x}", 1, "compare: x is no dimension and no group\n"),
    ("rows of JSON", "3_1 --field 3", "[[1, 0, 1], [3, 0, 1], [5, 2, 1], [9, 3, 1]]", 0, AGREE),
    ("an object", "3_1", '{"field": 3, "rows": [[1, 0, 1], [3, 0, 1], [5, 2, 1], [9, 3, 1]]}', 0, AGREE),
    ("an object with groups", "3_1", f'{{"field": "Z", "table": "{KNOT} + q^7 t^3 Z[2]"}}', 0, INTEGRAL),
    ("no row", "3_1", "[[1, 0, 1, 1]]", 1, "compare: [1, 0, 1, 1] is no row of a table\n"),
    ("deep brackets", "3_1", "{" * 9999, 1, TOO_DEEP),
    ("a long number", "3_1", "q^99999999", 1, "compare: no table has such a number: 99999999\n"),
]

# What is said of a table that is another one, or over the integers or the rational numbers.
SAID = [
    ("shifted", "3_1 --field 3", "q^3 + q^5 + q^7 t^2 + q^11 t^3", 1, "the same table, with j shifted by 2\n"),
    ("shifted twice", "3_1 --field 3", "t + q^2 t + q^4 t^3 + q^8 t^4", 1, "the same table, with j shifted by -1 and i shifted by 1\n"),
    ("mirrored and shifted", "3_1 --field 3", "1 + q^-2 + q^-4 t^-2 + q^-8 t^-3", 1, MIRROR[:-1] + ", with j shifted by 1\n" + OTHER_HAND),
    ("without crossings", "4^2_1 --field 3", "q^-2 + 1 + q^2 t^2 + q^6 t^3 + q^6 t^4 + q^8 t^4", 1, CUBE),
    ("signs exchanged", "3_1 --field 3", "q^-8 t^-3 + q^-6 t^-3 + q^-4 t^-1 + 1", 1, SIGNS),
    ("components turned", "4^2_1 --field 3", "q^-10 t^-4 + q^-8 t^-4 + q^-6 t^-2 + q^-2 t^-1 + q^-2 + 1", 1, TURNED),
    ("shifted, and another number", "3_1 --field 3", "q^3 + q^5 + q^7 t^2 + 2 q^11 t^3", 1, NEAREST),
    ("another name", "9_1 --field 3", LARGE, 1, "this is the table of 8_19 and of T(3,4)\n"),
    ("the other hand of another name", "9_1 --field 3", INVERSE, 1, "this is the table of the mirror image of 8_19 and of T(3,4)\n"),
    ("a name that is none", "12_1 --field 3", TORUS, 1, "compare: the reference has no 12_1; this is the table of T(3,5) and of 10_124\n"),
    ("a knot of ten crossings", "10_124 --field 3", TORUS, 0, AGREE),
    ("a rational table", "8_19 --field 0", LARGE, 0, AGREE + WHERE_DECIDED),
    ("a rational table, all decided", "3_1 --field Q", KNOT, 0, AGREE),
    ("a pair less", "8_19 --field 0", LARGE.replace(" + q^13 t^3 + q^13 t^4", ""), 1, LESS),
    ("no field named", "3_1", KNOT, 1, OTHER_FIELD + ", and not over 2, which is taken where --field names none\n"),
    ("another field named", "3_1 --field 2", KNOT, 1, OTHER_FIELD + "\n"),
    ("no torsion", "3_1 --field Z", KNOT, 1, NO_TORSION),
    ("the mirror image's groups", "3_1", "1/q + 1/q^3 + 1/(q^5 t^2) + Z[2]/(q^7 t^2) + 1/(q^9 t^3)", 1, MIRROR + OTHER_HAND),
    ("inverses", "3_1", "1/q + 1/q^3 + 1/(q^5 t^2) + Z[2]/(q^7 t^3) + 1/(q^9 t^3)", 1, INVERSES),
    ("homology", "3_1", f"{KNOT} + q^7 t^2 Z[2]", 1, OF_HOMOLOGY),
    ("a reduced table", "3_1 --field 3 --reduced", HALF, 0, AGREE),
    ("reduced groups", "3_1 --field Z --reduced", HALF, 0, INTEGRAL),
    ("reduced, with a mark", "3_1", "mark 1\nfield 3\nj 2 i 0 dim 1\nj 6 i 2 dim 1\nj 8 i 3 dim 1\n", 0, AGREE),
    ("reduced, shifted", "3_1 --field 2 --reduced", "q + q^5 t^2 + q^7 t^3", 1, "the same table, with j shifted by -1\n"),
    ("reduced, unsaid", "3_1 --field 3", HALF, 1, "it is the reduced table, which --reduced compares\n"),
    ("unreduced", "3_1 --field 3 --reduced", KNOT, 1, "it is the unreduced table\n"),
    ("alone, over the integers", "--alone", f"{KNOT} + q^7 t^3 Z[2]", 0, FINE),
    ("alone, reduced", "--alone --reduced", HALF, 0, FINE),
]

ROWS = [
    *((name, "3_1 --field 3", text, status, said) for name, text, status, said in TREFOIL),
    *((name, "--alone --field 2", text, status, said) for name, text, status, said in ALONE),
    *FORMS,
    *SAID,
]
