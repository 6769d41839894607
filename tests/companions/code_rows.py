"""Texts for `tools/kh-codes`, with what it has to write and say of them: rows for `code_forms`."""

TREFOIL = "PD[X[1, 4, 2, 5], X[3, 6, 4, 1], X[5, 2, 6, 3]]"
GOOD = "[[1,4,2,5],[3,6,4,1],[5,2,6,3]]"
OTHER = "PD[X[1, 5, 2, 4], X[3, 1, 4, 6], X[5, 3, 6, 2]]"
RIGHT = "PD[X[4, 2, 5, 1], X[2, 6, 3, 5], X[6, 4, 1, 3]]"
BY_DOWKER = "PD[X[4, 2, 5, 1], X[6, 4, 1, 3], X[2, 6, 3, 5]]"
FIGURE_EIGHT = "PD[X[4, 2, 5, 1], X[2, 7, 3, 8], X[8, 6, 1, 5], X[6, 3, 7, 4]]"
HOPF = "PD[X[4, 2, 3, 1], X[2, 4, 1, 3]]"
LEFT_FIVE = "PD[X[1, 6, 2, 7], X[7, 2, 8, 3], X[3, 8, 4, 9], X[9, 4, 10, 5], X[5, 10, 6, 1]]"
ON_THREE = "PD[X[4, 2, 5, 1], X[7, 3, 8, 2], X[8, 6, 1, 5], X[3, 7, 4, 6]]"
UNKNOT = "PD[Loop[1]]"


def told(what, name="code 1", line=1):
    """What is said of a code."""
    return f"input:{line}: {name}: {what}\n"


def pointing(what, text, column, line=1, name="code 1"):
    """What is said of a wrong code: the line and the column, its name, what is wrong, and what stands there, where that is not the name."""
    rest = " ".join(text.expandtabs(1)[column:].split())
    rest = f": {rest[:40]}.." if len(rest) > 40 else f": {rest}" if rest not in ("", name) else ""
    return f"input:{line}:{column + 1}: {name}: {what}{rest}\n"


def counted(right, wrong=0, fate="left out"):
    """What is said at the end."""
    return f"input: {right} code{'' if right == 1 else 's'} read{f', {wrong} wrong and {fate}' if wrong else ''}\n"


def on_strands(strands, name="code 1", line=1):
    return told(f"a braid word, closed on {strands} strand{'s' if strands > 1 else ''}", name, line)


def by_dowker(name="code 1", line=1):
    return told("a DT code: the mirror image has the same code; chosen is the diagram whose first crossing is positive", name, line)


def closed(name, braid, hand="", called=""):
    return told(f"the closed braid of {name}: {braid}{hand}", called or name)


FROM_ZERO = told("arcs from 0 numbered anew from 1 along each component")
TURNED = told("crossing 1 turned by a half: the first arc was the one on which the under pass goes out")
NO_SPHERE = told("it can be drawn on no sphere (3 faces, not 5), so kh will refuse it")
TURNED_HERE = "crossing 2 turned by a half: the first arc was the one on which the under pass goes out"
CLOCKWISE = told("read clockwise: the second and the fourth arc of each crossing exchanged")
PARTS = told("a DT code: each of its 2 parts may be mirrored; chosen is the diagram in which the first crossing of each is positive")
MIRRORED, AMPHICHEIRAL = "; the mirror image of the Knot Atlas's", "; its own mirror image"

# A name, an input of one code, the line that is written of it, what is said.
READ = [
    ("the Knot Atlas", TREFOIL, TREFOIL, ""),
    ("KnotTheory", "PD[Knot[3, 1]] = PD[X[1, 4, 2, 5],\n  X[3, 6, 4, 1], X[5, 2, 6, 3]]", TREFOIL, ""),
    ("KnotTheory with signs", "PD[Xm[1,4,2,5], Xm[3,6,4,1], Xm[5,2,6,3]]", TREFOIL, ""),
    ("KnotInfo", GOOD, TREFOIL, ""),
    ("braces and semicolons", "{{1, 4, 2, 5}; {3, 6, 4, 1}; {5, 2, 6, 3}}", TREFOIL, ""),
    ("a cell of a sheet", '"{{1, 4, 2, 5}, {3, 6, 4, 1}, {5, 2, 6, 3}}"', TREFOIL, ""),
    ("SnapPy", "[(0, 3, 1, 4), (2, 5, 3, 0), (4, 1, 5, 2)]", TREFOIL, FROM_ZERO),
    ("an under pass out first", "[[2,5,1,4],[3,6,4,1],[5,2,6,3]]", TREFOIL, TURNED),
    ("a code on no sphere", "[[1,5,2,4],[3,6,4,1],[5,2,6,3]]", "PD[X[1, 5, 2, 4], X[3, 6, 4, 1], X[5, 2, 6, 3]]", NO_SPHERE),
    ("a loop", "PD[Loop[7]]", UNKNOT, ""),
    # what stands round a code
    ("a mark of the order of bytes", "\ufeff" + TREFOIL, TREFOIL, ""),
    ("lines of another system", TREFOIL.replace(", X", ",\r\nX") + "\r\n", TREFOIL, ""),
    ("quotes", f"'{GOOD}'", TREFOIL, ""),
    ("typographic quotes", f"“{GOOD}”", TREFOIL, ""),
    ("a semicolon behind", TREFOIL + ";", TREFOIL, ""),
    ("a comma behind", f'"trefoil": {GOOD},', TREFOIL, ""),
    ("a comma behind the last crossing", "[[1,4,2,5],[3,6,4,1],[5,2,6,3],]", TREFOIL, ""),
    ("a full stop behind", "braid: 1 1 1.", RIGHT, on_strands(2)),
    ("a minus sign", "braid: 1 \u22122 1 \u22122", FIGURE_EIGHT, on_strands(3)),
    ("dashes", "braid: 1 \u20132 1 \u20142", FIGURE_EIGHT, on_strands(3)),
    ("tabs between crossings", "[[1,4,2,5],\t[3,6,4,1],\t[5,2,6,3]]", TREFOIL, ""),
    ("a crossing a line", "[\n[1,4,2,5],\n[3,6,4,1],\n[5,2,6,3]\n]\n", TREFOIL, ""),
    ("a list on a line of its own", f"Link(\n{GOOD}\n)\n", TREFOIL, ""),
    ("a comment within a code", TREFOIL.replace(", X[3", ", # one\n# two\n X[3"), TREFOIL, ""),
    ("signs on the next line", "GaussCode[\n{-1, 2},\n{1, -2}]\nSigns[-1, -1]", "PD[X[1, 3, 2, 4], X[4, 2, 3, 1]]", told("a Gauss code")),
    # braid words
    ("letters alone", "braid: 1 1 1", RIGHT, on_strands(2)),
    ("strands and letters", "braid 3: 1 -2 1 -2", FIGURE_EIGHT, on_strands(3)),
    ("letters in braces", "braid: {1,1,1}", RIGHT, on_strands(2)),
    ("strands and letters in braces", "braid: {2, {1,1,1}}", RIGHT, on_strands(2)),
    ("a power", "braid: 1^3", RIGHT, on_strands(2)),
    ("a power of a group", "braid: (1 2)^2", ON_THREE, on_strands(3)),
    ("a power of a group without a word", "(1 2)^2", ON_THREE, on_strands(3)),
    ("no letters", "braid 2:", "PD[Loop[1], Loop[2]]", on_strands(2)),
    # DT codes
    ("DTCode", "DTCode[4, 6, 2]", BY_DOWKER, by_dowker()),
    ("DT behind a name", "k: DT[4, 6, 2]", BY_DOWKER, by_dowker("k")),
    ("DT of SnapPy", "DT: [(4, 6, 2)]", BY_DOWKER, by_dowker()),
    ("DT of SnapPy without a colon", "DT[(4,6,2)]", BY_DOWKER, by_dowker()),
    ("DT in letters", "DT[cacbca]", BY_DOWKER, by_dowker()),
    ("DT of KnotInfo", "[4, 6, 2]", BY_DOWKER, by_dowker()),
    ("DT without brackets", "4 6 2", BY_DOWKER, by_dowker()),
    ("DT of a link", "DTCode[{4}, {2}]", HOPF, by_dowker()),
    ("DT of a link in letters", "DT[bbaaba]", HOPF, by_dowker()),
    ("DT of a link without a word", "[(4,), (2,)]", HOPF, by_dowker()),
    ("DT of two parts", "DT[2, 4]", "PD[X[2, 2, 3, 1], X[4, 4, 1, 3]]", PARTS),
    # names
    ("a name", "3_1", RIGHT, closed("3_1", "2 strands, 1 1 1", MIRRORED)),
    ("a name in TeX", "$3_{1}$", RIGHT, closed("3_1", "2 strands, 1 1 1", MIRRORED)),
    ("a name of KnotTheory", "Knot[3, 1]", RIGHT, closed("3_1", "2 strands, 1 1 1", MIRRORED)),
    ("a name in quotes", 'Knot["3_1"]', RIGHT, closed("3_1", "2 strands, 1 1 1", MIRRORED)),
    ("a knot that is its own mirror image", "Knot[4, 1]", FIGURE_EIGHT, closed("4_1", "3 strands, 1 -2 1 -2", AMPHICHEIRAL)),
    ("a torus knot", "k: T(2, 3)", RIGHT, closed("T(2,3)", "2 strands, 1 1 1", called="k")),
    ("a torus knot of KnotTheory", "TorusKnot[3, 2]", RIGHT, closed("T(3,2)", "2 strands, 1 1 1")),
    ("a torus knot in TeX", "$T_{2,3}$", RIGHT, closed("T(2,3)", "2 strands, 1 1 1")),
    ("a torus knot of the other hand", "T(2,\u22125)", LEFT_FIVE, closed("T(2,-5)", "2 strands, -1 -1 -1 -1 -1")),
    ("a torus knot on one strand", "T(1,5)", UNKNOT, closed("T(1,5)", "1 strand, no letters")),
    ("the unknot", "unknot", UNKNOT, told("the unknot, as a loop", "unknot")),
    ("loops", "3 loops", "PD[Loop[1], Loop[2], Loop[3]]", told("the reference's diagram of 3 loops", "3 loops")),
    ("a link of parts", "k: 3_1 and two loops", RIGHT.replace("]]", "], Loop[7], Loop[8]]"),
     told("the reference's diagram of 3_1 and two loops", "k")),
]

WHICH = (
    "a list of numbers does not say what it is: write braid: before a braid word, DT: before a DT code, "
    "GaussCode[..] Signs[..] for a Gauss code"
)
NO_LINK = (
    "the reference has no link of this name, but prime knots of up to 11 crossings (up to 10_165, K11a367 and K11n185), links of up to 7 "
    "by Rolfsen's names (7^2_1) and L2a1{0} to L6a2{1} by Thistlethwaite's, and torus links such as T(3,7): "
    "write a planar diagram, a DT code or a braid word"
)
LETTERS = "the first letters say how many crossings, components and entries of each there are, and here are others"
EVEN = "a DT code of 3 numbers has 2, 4, 6 once each, with or without a minus"
NO_DOWKER = "no diagram in the plane has this DT code, as shows at this crossing"
NO_GAUSS = "no diagram in the plane has this Gauss code"
NO_BRAID = "; before a braid word write braid:"
NO_SIGNS = "a Gauss code without signs does not say the hand: write "
OF_TREFOIL = NO_SIGNS + "GaussCode[1, -2, 3, -1, 2, -3] Signs[1, 1, 1], or Signs[-1, -1, -1] for the mirror image"
OF_HOPF = NO_SIGNS + "GaussCode[{1, -2}, {2, -1}] Signs[1, 1], or Signs[-1, -1] for the mirror image"
OF_CURLS = OF_HOPF.replace("{1, -2}, {2, -1}", "1, -2, 2, -1") + " (or others: each of its 2 parts may be mirrored)"
NOT_CLOSED = "this bracket is not closed"

# A name, an input of one line with one wrong code, what is said, and at which column; the name under which it is said, if it has one.
WRONG = [
    ("a missing comma", "PD[X[1,4,2,5] X[3,6,4,1]]", "a comma is missing before this", 14),
    ("an open bracket", "PD[X[1,4,2,5]", NOT_CLOSED, 2),
    ("an inner open bracket", "[[1,4,2,5],[3,6,4,1,[5,2,6,3]]", NOT_CLOSED + " before the next one opens", 11),
    ("another bracket", "[(1,4,2,5]]", "this bracket does not close the ( before it", 9),
    ("three arcs", "PD[X[1,1,2]]", "a crossing has four arcs, and this one has 3", 3),
    ("an arc once", "[[1,1,2,3]]", "each arc stands twice, and 2 stands once", 6),
    ("an arc three times", "[[1,1,1,2]]", "each arc stands twice, and 1 stands 3 times", 6),
    ("another sign", "[[1,1,2,2]]!", "no code has a '!' here", 11),
    ("something behind", "[[1,1,2,2]] 3", "the code has ended before this", 12),
    ("a number", "5", "a number is no code", 0),
    ("a large number", "[[1,1,2,22222222222]]", "no code has so large a number", 8),
    ("deep brackets", "[" * 21, "no code has so many brackets in one another", 20),
    ("a letter too far", "braid 2: 1 2", "a braid on 2 strands has the letters 1 to 1 and their inverses alone", 11),
    ("a word for a letter", "braid: 1 b", "a letter of a braid is a number", 9),
    ("no power", "braid: 1^", "a power of letters is a number", 9),
    ("a large power", "braid: (1 2)^501", "a braid word has at most 1000 letters here", 12),
    ("many strands", "braid: 1 1000", "a braid has 1 to 1000 strands here", 0),
    ("strands twice", "braid 3: {2, {1}}", "the number of strands stands before the colon already", 10),
    ("an open group", "braid: (1 2", NOT_CLOSED, 7),
    ("DT with an odd number", "DT[4, 6, 3]", EVEN, 9),
    ("DT with a number twice", "DT[4, -4, 2]", EVEN, 6),
    ("DT with a large number", "[4, 8, 2]", EVEN + NO_BRAID, 4),
    ("DT in no plane", "DT: [4, 6, 8, 10, 2]", NO_DOWKER, 14),
    ("even numbers in no plane", "[4, 6, 8, 10, 2]", NO_DOWKER + NO_BRAID, 10),
    ("DT of a link in no plane", "DT: [[4], [6, 8, 2]]", NO_DOWKER, 17),
    ("DT in letters, too few", "DT[cacbc]", LETTERS, 3),
    ("DT of one letter", "DT[a]", LETTERS, 3),
    ("DT in letters with flips", "DT[cacbca.001]", "what stands behind the dot is not read: leave it out", 9),
    ("a Gauss code without signs", "GaussCode[1,-2,3,-1,2,-3]", OF_TREFOIL, 25),
    ("a bare Gauss code", "1,-2,3,-1,2,-3", OF_TREFOIL + NO_BRAID, 0),
    ("a bare Gauss code in braces", "{1,-2,3,-1,2,-3}", OF_TREFOIL + NO_BRAID, 0),
    ("a bare Gauss code of other numbers", "[2, -4, 6, -2, 4, -6]", OF_TREFOIL + NO_BRAID, 0),
    ("a bare Gauss code of a link", "[[1,-2],[2,-1]]", OF_HOPF, 0),
    ("a bare Gauss code of two parts", "1 -2 2 -1", OF_CURLS + NO_BRAID, 0),
    ("a bare Gauss code in no plane", "1 -2 -1 2", NO_GAUSS + NO_BRAID, 0),
    ("a Gauss code in no plane", "GaussCode[1, -2, -1, 2]", NO_GAUSS, 23),
    ("a pass missing", "GaussCode[1,-2,2]", "each crossing, from 1 on, has one pass over and one under", 0),
    ("a wrong sign", "GaussCode[1,-1] Signs[2]", "each crossing has one sign, 1 or -1", 24),
    ("a list of numbers", "{1,1,1}", WHICH, 0),
    ("an unknown name", "10_166", NO_LINK, 0, "10_166"),
    ("an unknown name in TeX", "12_{1}", NO_LINK, 0, "12_1"),
    ("an unknown link", "L6a4", NO_LINK, 0, "L6a4"),
    ("a link without directions", "k: L6a1", "L6a1 has several directions: write L6a1{0} or L6a1{1}", 3, "k"),
    ("an unknown name of Dowker and Thistlethwaite", "11n_186", NO_LINK, 0, "11n_186"),
    ("an unknown name of KnotTheory", "k: Knot[10, NonAlternating, 124]", NO_LINK, 3, "k"),
    ("an unknown link of KnotTheory", "Link[5, Alternating, 1]", NO_LINK, 0, "Link[5,Alternating,1]"),
    ("a large torus link", "T(5,6)", "this torus link has 24 crossings in its least braid, and kh takes 20", 0, "T(5,6)"),
    ("an unknown name of words", "borromean rings", NO_LINK, 0, "borromean rings"),
    ("an unknown name of loops", "k: 40 loops", NO_LINK, 3, "k"),
    ("an unknown name behind a tab", "k\tHopf and 3_2 apart", NO_LINK, 2, "k"),
    ("a word before brackets", "a b [[1,1,2,2]]", "a bracket is missing before this", 2),
    ("something behind a tab", "k\tno code!", "no code has a '!' here", 9, "k"),
    ("something behind a colon", "my knot: ?", "no code has a '?' here", 9, "my knot"),
    ("a letter that is none", "braid: 1 0", "0 is no letter of a braid: letters are 1, 2 and so on, and -1, -2 for their inverses", 9),
    ("a torus link of nothing", "T(0,6)", "the numbers of a torus link are not 0", 0, "T(0,6)"),
]

OPEN = "[[1,5,2,4],[3,1,4,6],[5,3,6,2]"
MANY = """\
# three codes
first: PD[X[1,4,2,5],
         X[3,6,4,1], X[5,2,6,3]]   # over two lines
a wrong one = [[1,4,2 5],[3,6,4,1],[5,2,6,3]]

3_1\t[[1,5,2,4];[3,1,4,6];[5,3,6,2]]
"""
WRONG_ONE = "[[1,4,2 5],[3,6,4,1],[5,2,6,3]]"
MANY_SAID = pointing("a comma is missing before this", f"a wrong one = {WRONG_ONE}", 22, 4, "a wrong one")
TWO_WRONG = pointing("a number is no code", "5", 0) + pointing("a number is no code", "6", 0, 3, "code 2")
TWO_WRONG += counted(0, 2, "kept as they stand")
TABLE = """\
name,pd_notation,braid_notation
3_1,"[[1,5,2,4],[3,1,4,6],[5,3,6,2]]","{1,1,1}"
0_1,[],"{1,{}}"
4_1,,"{1,-2,1,-2}"
5_1,,
"""
TABLE_READ = ("3_1", OTHER), ("0_1", UNKNOT), ("4_1", FIGURE_EIGHT)
TABLE_SAID = (
    on_strands(1, "0_1", 3)
    + on_strands(3, "4_1", 4)
    + pointing("this row has no code in the columns that are read", "5_1,,", 0, 5, "5_1")
    + counted(3, 1)
)

# A name, options besides --names, an input, the status, the names and codes that are written, what is said.
MORE = [
    ("SageMath", ["--clockwise"], "Link([[1,5,2,4], [3,1,4,6], [5,3,6,2]])", 0, [("code 1", TREFOIL)], CLOCKWISE),
    ("nothing", [], "# nothing\n\n", 0, [], ""),
    ("a sum in a name", [], "3_1#3_1: PD[Loop[1]] # no sum", 0, [("3_1#3_1", UNKNOT)], ""),
    ("a name of KnotTheory as a name", [], "Knot[3, 1]", 0, [("3_1", RIGHT)], closed("3_1", "2 strands, 1 1 1", MIRRORED)),
    ("many codes", [], MANY, 1, [("first", TREFOIL), ("3_1", OTHER)], MANY_SAID + counted(2, 1)),
    ("many codes, all kept", ["--keep"], MANY, 1, [("first", TREFOIL), ("a wrong one", WRONG_ONE), ("3_1", OTHER)],
     MANY_SAID + counted(2, 1, "kept as it stands")),
    ("two codes, both read", [], f"{GOOD}\n{GOOD}\n", 0, [("code 1", TREFOIL), ("code 2", TREFOIL)], counted(2)),
    ("two codes, both wrong", ["--keep"], "5\n\n6\n", 1, [("code 1", "5"), ("code 2", "6")], TWO_WRONG),
    # a code whose brackets are open ends before the next
    ("an open bracket before names", [], f"a: {OPEN}\nb: {GOOD}\nc: {GOOD}\n", 1, [("b", TREFOIL), ("c", TREFOIL)],
     pointing(NOT_CLOSED, "a: " + OPEN, 3, 1, "a") + counted(2, 1)),
    ("an open bracket before a name and a tab", [], f"{OPEN}\nb\t{GOOD}\n", 1, [("b", TREFOIL)],
     pointing(NOT_CLOSED, OPEN, 0) + counted(1, 1)),
    ("an open bracket before lists", [], f"{OPEN}\n{GOOD}\n{GOOD}\n", 1, [("code 2", TREFOIL), ("code 3", TREFOIL)],
     pointing(NOT_CLOSED, OPEN, 0) + counted(2, 1)),
    ("an open bracket before PD", [], f"PD[X[1,4,2,5],\nX[3,6,4,1],\nX[5,2,6,3]\n{TREFOIL}\n", 1, [("code 2", TREFOIL)],
     pointing(NOT_CLOSED, "PD[X[1,4,2,5],", 2) + counted(1, 1)),
    ("an open bracket on the second line", [], f"PD[X[1,4,2,5],\nX[3,6,4,1,\nX[5,2,6,3]]\nk = {GOOD}\n", 1, [("k", TREFOIL)],
     pointing(NOT_CLOSED + " before the next one opens", "X[3,6,4,1,", 1, 2) + counted(1, 1)),
    ("an open bracket before a name", [], f"{OPEN}\nunknot\n", 1, [("unknot", UNKNOT)],
     pointing(NOT_CLOSED, OPEN, 0) + told("the unknot, as a loop", "unknot", 2) + counted(1, 1)),
    ("an open bracket before a DT code", [], "[4, 6, 2\n[4, 6, 2]\n", 1, [("code 2", BY_DOWKER)],
     pointing(NOT_CLOSED, "[4, 6, 2", 0) + by_dowker("code 2", 2) + counted(1, 1)),
    ("an open bracket before a braid", [], "{2, {1,1,1}\n{2, {1,1,1}}\n", 1, [("code 2", RIGHT)],
     pointing(NOT_CLOSED, "{2, {1,1,1}", 0) + on_strands(2, "code 2", 2) + counted(1, 1)),
    ("an open bracket before a name of no code", [], f"{OPEN}\nk: X1425\n", 1, [],
     pointing(NOT_CLOSED, OPEN, 0) + pointing(NO_LINK, "k: X1425", 3, 2, "k") + counted(0, 2)),
    ("an open bracket before a blank line", [], f"{OPEN},\n\n{GOOD}\n", 1, [("code 2", TREFOIL)],
     pointing(NOT_CLOSED, OPEN + ",", 0) + counted(1, 1)),
    ("an open bracket before a table", [], f"{OPEN}\nname;pd_notation\nk;{GOOD}\n", 1, [("k", TREFOIL)],
     pointing(NOT_CLOSED, OPEN, 0) + counted(1, 1)),
    # tables with a heading
    ("a table", [], TABLE, 1, TABLE_READ, TABLE_SAID),
    ("a table with strokes and titles", [], f"name|pd_notation\nName|PD Notation\n3_1|{GOOD}\n", 0, [("3_1", TREFOIL)], ""),
    ("a table without quotes", [], "name,dt_notation,x\n3_1,[4, 6, 2],y\n", 0, [("3_1", BY_DOWKER)], by_dowker("3_1", 2)),
    ("a table with quotes alone", [], 'name,braid_notation\n3_1,"1, 1, 1"\n', 0, [("3_1", RIGHT)], on_strands(2, "3_1", 2)),
    ("rows without a heading", [], f'3_1,"{GOOD}"\nk;[4, 6, 2]\n', 0, [("3_1", TREFOIL), ("k", BY_DOWKER)], by_dowker("k", 2) + counted(2)),
    ("a table with semicolons", [], "name;braid_notation\n3_1;{1;1;1}\n", 0, [("3_1", RIGHT)], on_strands(2, "3_1", 2)),
    ("a code behind a table", [], f"name\tpd_notation\n3_1\t{GOOD}\n\n{GOOD}\n", 0, [("3_1", TREFOIL), ("code 2", TREFOIL)], counted(2)),
    ("a wrong row", [], 'name,pd_notation\n3_1,"[[1,4,2,5],[3,6,4,1]]"\n', 1, [],
     pointing("each arc stands twice, and 2 stands once", '3_1,"[[1,4,2,5],[3,6,4,1]]"', 11, 2, "3_1") + counted(0, 1)),
    ("wrong ones under their names", ["--keep", "--quiet"], f"a\tno code!\nb\t{GOOD}\nc: no code?\nno such knot\nd\t[[1,4,2,5]\ne\t3?\n", 1,
     [("a", "no code!"), ("b", TREFOIL), ("c", "no code?"), ("no such knot", "no such knot"), ("d", "[[1,4,2,5]"), ("e", "3?")], ""),
    ("a line for a code", [], "[(0,3,1,4), (3,0,2,5), (4,1,5,2)]\n", 0, [("code 1", TREFOIL)],
     told(f"{TURNED_HERE}; arcs from 0 numbered anew from 1 along each component")),
    ("no UTF-8", [], "\udcff", 1, [], "kh-codes: 'utf-8' codec can't decode byte 0xff in position 0: invalid start byte\n"),
]
