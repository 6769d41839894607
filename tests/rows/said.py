"""Rows on what `./kh` says of a refusal or a limit, where it reads a file: a name, words, an input, what is written, what is said. Where a
row of a table has no words they are those of `check`.

In an input « and » are no bytes of it: they stand around what carets are shown below. A byte that is no text is a surrogate from dc80 to
dcff. What is said is one text or several, in any lines; a text that begins with `$` is a line of its own, a command.
"""
from faulty.cases import LOG
from rows.texts import CHECK, HOMOLOGY, JONES, MANY_GENERATORS, SCHEDULE, TOO_MANY_BYTES, crossings, curls, loops, padded

UNION, EDIT, VERIFY, MARKED = ["union"], ["edit"], ["verify"], ["reduced", "--mark", "9"]
PD_FORM = "it can not be read on from here; a planar diagram is written PD[X[1,4,2,5], X[3,6,4,1], X[5,2,6,3]]"
GAUSS_FORM = "it can not be read on from here; a signed Gauss code is written GaussCode[-1,3,-2,1,-3,2] Signs[-1,-1,-1]"
JSON_FORM = "JSON is a list of crossings, each a list of four numbers: [[1,4,2,5],[3,6,4,1],[5,2,6,3]]"
NO_FORM = "this is none of the forms that kh reads"
CUT_OFF = "the code is not complete: a bracket is open, or what comes next is missing"
NO_DRAWING = "no drawing on the plane has this code: it is that of a virtual link, or"
COLOURS = "Regions of a drawing can be coloured black and white by turns, and at this arc they can not (examples/README.md)"
READS_IT = ("tools/kh-codes reads it:", "$tools/kh-codes code | ./kh check")
TWO_ARCS = "there are two arcs for each crossing, here 1 to %d"
ONCE_EACH = "each crossing N is passed once over, as N, and once under, as -N"
TWICE = "from 1 to %d stands exactly twice"
TRACE = "the under pass comes in on the first arc of a crossing and goes out on the third"

# Where the text of a code can not be read.
TEXTS = [
    ("an empty input", "", "refused text at 0", "there is no code; a planar diagram is written PD[X[1,4,2,5], X[3,6,4,1],"),
    ("blanks alone", " \n\t\r", "refused text at 4", "there is no code"),
    ("a missing comma", "PD[X[1,4,2 «5»], X[3,6,4,1], X[5,2,6,3]]", "refused text at 11", PD_FORM),
    ("a missing comma of the second line", "PD[X[1,4,2,5],\r\n\tX[3,6,4 «1»],\r\n X[5,2,6,3]]", "refused text at 25", PD_FORM),
    ("an open bracket", "PD[X[1,4,2,5], X[3,6,4,1]«»", "refused text at 25", CUT_OFF),
    ("an open bracket before a line feed", "PD[X[1,1,2,2]«»\n", "refused text at 14", CUT_OFF),
    ("an open bracket of a Gauss code", "GaussCode[-1, 3, -2, 1«»", "refused text at 22", CUT_OFF),
    ("a missing comma of a Gauss code", "GaussCode[-1 «1»] Signs[1]", "refused text at 13", GAUSS_FORM),
    ("a sign that no code has", "PD[X[1,1,2,2]«!»]", "refused text at 13", "no code has the sign !"),
    ("a minus apart", "PD[Loop[«-» 2]]", "refused text at 8", "a minus stands directly before the digits of a number"),
    ("a bell and a colour", "PD[X[1,1,2«\a»\x1b[31m,2]]", "refused text at 10", "no code has the character U+0007, a control character"),
    ("a byte 0", "PD[«\0»]", "refused text at 3", "U+0000, a control character"),
    ("a Unicode minus", "PD[Loop[«\u2212»2]]", "refused text at 8", "no code has the character U+2212, minus sign"),
    ("a no-break space", "PD[«\u00a0»]", "refused text at 3", "U+00A0, no-break space"),
    ("a byte that is no text", "PD[X[1,1,2,«\udcff»2]]", "refused text at 11", "no code has the byte ff (hexadecimal), which is no text"),
    ("a number that is too large", "PD[X[1,1,2,«-65536»]]", "refused number at 11", "no number of a code is above 65535 in size"),
    ("a semicolon", "PD[X[1,1,2,2]] «;» undo", "refused text at 15", "behind it is for edit, schedule and union alone"),
    ("a log", "«l»og 1\nPD[]\nfield 3\n", "refused text at 0", ("it is a log, which ./kh verify reads:", "$./kh verify < code")),
]

# Where the labels and signs of a Gauss code, or the shape of JSON, are wrong.
LISTS = [
    ("the label 0", "GaussCode[1, «0»] Signs[1]", "refused label at 13", "N is at most 1, half of the number of labels"),
    ("a label that is too large", "GaussCode[1, -1, «-3», 2] Signs[1, 1]", "refused label at 17", "N is at most 2, half"),
    ("a label again", "GaussCode[{1, «1»}, {-1, -2}] Signs[1, 1]", "refused label at 14", ONCE_EACH),
    ("a sign of 3", "GaussCode[1, -1] Signs[«3»]", "refused label at 23", "a sign is 1 or -1"),
    ("no signs", "GaussCode[1, -1]", "refused no signs", "write Signs[..] behind it, with 1 or -1 for each crossing"),
    ("a sign too many", "GaussCode[1, -1] Signs[1, 1]", "refused signs 2 wanted 1", "Signs[..] has 1 or -1 for each crossing"),
    ("JSON that is cut off", "[[1,1,2,2]«»", "refused json", ("a reader of JSON stops here", JSON_FORM)),
    ("JSON with a line feed too few", '[[1,1,2,"«\n»"]]', "refused json", "a reader of JSON stops here"),
    ("JSON with a byte that is no text", '[["«\udcff»"]]', "refused json", "this byte is no text"),
    ("JSON of which Python reads more", "[[1,1,2,1e400]]", "refused json", JSON_FORM),
    ("JSON that nests deep", "[" * 3_000 + "]" * 3_000, "refused json", JSON_FORM),
    ("a slot too few", "[[1,1,2,2],\n [3, 3, 4«]»]", "refused shape at crossing 2 slot 3", JSON_FORM),
    ("a slot too many", "[[1,1,2,2, «3»]]", "refused shape at crossing 1 slot 4", JSON_FORM),
    ("a slot that is no number", '[[1,«"\u00e4"»,2,2]]', "refused shape at crossing 1 slot 1", JSON_FORM),
    ("a negative slot", "[[1,1,2,2],[«-3»,3,4,4]]", "refused shape at crossing 2 slot 0", "no number has a sign or a point"),
    ("a crossing that is no list", '[[1,1,2,2], «{"a": [1]}»]', "refused shape at crossing 2 slot 0", JSON_FORM),
]

# Where a code is read, and not accepted.
CODES = [
    ("arcs from 0", "PD[X[«0»,3,1,4], X[2,5,3,0], X[4,1,5,2]]", "refused arc range at crossing 1 slot 0", (TWO_ARCS % 6, *READS_IT)),
    ("an arc that is too large", "PD[Loop[9], X[1,1,2,2], X[3,3,4,«5»]]", "refused arc range at crossing 2 slot 3", TWO_ARCS % 4),
    ("an arc of JSON", "[[1,1,2,2],\n [3,3,4,«500»]]", "refused arc range at crossing 2 slot 3", TWO_ARCS % 4),
    ("an arc once", "PD[X[1,4,2,5], X[«3»,6,4,1], X[5,2,6,6]]", "refused arc 3 times 1", (TWICE % 6, "6 stands 3 times")),
    ("an arc four times", "PD[X[«1»,«1»,2,2], X[«1»,«1»,2,2]]", "refused arc 1 times 4", (TWICE % 4, "2 stands 4 times")),
    ("an arc of no crossing", "PD[X[2,2,2,2]]", "refused arc 1 times 0", 'docs/TUTORIAL.md, "The code", says how a code is written down'),
    ("an arc once in JSON", "[[1,4,2,5],\n[«3»,6,4,1],\n[5,2,6,6]]", "refused arc 3 times 1", "6 stands 3 times"),
    ("no interval", "PD[X[4,«1»,2,3], X[3,2,«1»,4]]", "refused interval of arc 1", ("the numbers of the arcs rise by 1", *READS_IT)),
    ("an under pass", "PD[«X[2,5,1,4]», X[3,6,4,1], X[5,2,6,3]]", "refused under pass at crossing 1", (TRACE, *READS_IT)),
    ("a third under pass", "PD[X[1,4,2,5], Loop[7], X[3,6,4,1], «X [6,2,5,3]»]", "refused under pass at crossing 3", (TRACE, *READS_IT)),
    ("an under pass in JSON", "[[1,4,2,5],[3,6,4,1],\n «[6,2,\n  5,3]»]", "refused under pass at crossing 3", (TRACE, *READS_IT)),
    ("an over pass", "PD[«X[1,1,2,3]», X[3,2,4,4]]", "refused over pass at crossing 1", "one of them is the next of the other"),
    ("two arcs", "PD[X[1,4,2,3], «X[1,4,2,3]»]", "refused two-arc component at crossing 2", ("passes under twice here", *READS_IT)),
    ("a virtual trefoil", "PD[X[3,1,4,«2»], X[4,«2»,1,3]]", "refused checkerboard at arc 2", (NO_DRAWING, COLOURS)),
    ("a virtual trefoil in Gauss", "GaussCode[1, «2», -1, -2] Signs[-1, -1]", "refused checkerboard at arc 2", (NO_DRAWING, COLOURS)),
    ("a component that is taken backwards", "GaussCode[{-2,2,-5,-6,1,-3},{6,«3»},{-1,4,5,-4}] Signs[1,1,-1,-1,1,1]",
     "refused checkerboard at arc 7", COLOURS),
    ("a crossing the other way round", "PD[«X[1,5,2,4]», X[3,6,4,1], X[5,2,6,3]]", "refused genus faces 3 wanted 5",
     (NO_DRAWING, "With the second and the fourth exchanged here it has one")),
    ("one of two the other way round", "PD[«X[1,3,2,4]», «X[2,4,1,3]»]", "refused genus faces 2 wanted 4", "at one of these crossings"),
    ("no drawing", "PD[X[3,7,4,6], X[7,1,8,2], X[8,2,9,1], X[4,10,5,9], X[5,10,6,3]]", "refused genus faces 3 wanted 7",
     (NO_DRAWING, "docs/TUTORIAL.md")),
    ("no drawing of a Gauss code", "GaussCode[{-1,-2},{1,2}] Signs[-1,-1]", "refused genus faces 2 wanted 4", "a sign is wrong"),
    ("a code of two lines", "a«:» PD[Loop[1]]\nb: PD[Loop[1]]", "refused text at 1", "tools/kh-codes reads 2 codes in it"),
]

# Where other commands refuse a code, a script or a log.
LINES = [
    ("no semicolon before a script", EDIT, "PD[X[1,1,2,2]]\n«u»ndo", "refused text at 15", "edit reads a code, then a ; and then"),
    ("no second code", UNION, "PD[X[1,1,2,2]]", "second\nrefused text at 0", "union reads a code, then a ; and then the second code"),
    ("a second code", UNION, "PD[Loop[1]];PD[X[1,1,2,«]»]", "second\nrefused text at 11", PD_FORM),
    ("a mark", MARKED, "PD[X[1,1,2,2], Loop[3]]", "refused mark 9", "--mark takes a number from 1 to 3"),
    ("a mark of a Gauss code", MARKED, "GaussCode[{1,-1},{},{}] Signs[1]", "refused mark 9", "--mark takes a number from 1 to 4"),
    ("a mark of nothing", MARKED, "PD[]", "refused mark 9", "the empty link has nothing that can be marked"),
    ("a second code in another form", UNION, "PD[Loop[1]];3«_»1", "second\nrefused text at 1", (NO_FORM, "reads this code")),
    ("a line of an edit", EDIT, "PD[X[1,1,2,2]]; r1 add 1 under plus\n «r1 add 2 under»\nundo\n", "refused line 2", "these: r1 add A"),
    ("the first line of an edit", EDIT, "PD[X[1,1,2,2]];\t«look 1 1»", "refused line 1", 'docs/FORMATS.md, "Scripts", explains them'),
    ("a line of a schedule", SCHEDULE, "PD[X[1,1,2,2]];\n\nlook 1 1\n«look 65 1»\n", "refused line 4", "one of these: look W J; commit W"),
    ("letters that are no ASCII", EDIT, "PD[X[1,1,2,2]]; «undo \u00e4\u20ac \t\x1b»", "refused line 1", "a line of edit is one of these"),
    ("a code as a log", VERIFY, "«PD[X[1,1,2,2]]»", "refused log line 1 text", ("makes the log of a code:", "$./kh certify < code")),
]


def log_row(number, line, cause, said):
    """A log with another line of this number."""
    lines = LOG.decode().splitlines()
    lines[number - 1 : number] = [f"«{line}»"] if line else []
    marked = "\n".join(lines) + "\n"
    if not line:
        marked = marked.replace(lines[number - 1], f"«{lines[number - 1]}»", 1)
    return f"a log: {cause}", VERIFY, marked, f"refused log line {number} {cause}", (said, "docs/LOG-FORMAT.md has the rules")


LOGS = [
    log_row(3, "field 4", "text", "a log has no such line there"),
    log_row(2, "PD[X[1,2,1,2]]", "diagram", "./kh check on that line alone says why"),
    log_row(5, "block 2", "block", "none is left out: another one is next"),
    log_row(6, "cancel 0 0 9", "entry", "so there is nothing to cancel"),
    log_row(6, None, "open", "a line that cancels it is missing"),
    log_row(12, "j 1 i 0 dim 2", "table", "the cancellations leave another table"),
    ("a log that is cut off", VERIFY, "log 1\nPD[]\n«»", "refused log line 3 text", "a log has no such line there"),
]

# The commands that have the limit on generators, and those that have it not; limits.
HAVE_IT = ("homology", "reduced", "schedule", "certify", "verify")
HAVE_IT_NOT = ("jones", "check", "convert", "draw", "mirror", "reverse", "union", "edit")
CUBE = f"{', '.join(HAVE_IT[:-1])} and {HAVE_IT[-1]} alone have this limit: "
CUBE += f"{', '.join(HAVE_IT_NOT[:-1])} and {HAVE_IT_NOT[-1]} answer"
FIT = 'docs/KNOTS.md, "Which diagrams fit", says more'
SCANNED = "$./kh-scan < code"
NINE_CURLS = "limit generators 10077696 of 4194304"
EVERY = "every command has this limit"
LIMITS = [
    ("generators of homology", HOMOLOGY, curls(9), NINE_CURLS, ("here are 2.4 times", CUBE, "$./kh jones < code", SCANNED, FIT)),
    ("generators of certify", ["certify"], curls(20), MANY_GENERATORS.strip(), (CUBE, "$./kh jones < code", FIT)),
    ("generators of reduced", MARKED, curls(9), NINE_CURLS, (CUBE, "$./kh jones < code", FIT)),
    ("generators of a schedule", SCHEDULE, curls(9) + ";look 1 1", NINE_CURLS, (CUBE, FIT)),
    ("generators of a log", VERIFY, f"log 1\n{curls(9)}\nfield 2\n", NINE_CURLS, (CUBE, FIT)),
    ("crossings", JONES, crossings(21), "limit crossings 21 of 20", (EVERY, "another diagram of the link may have fewer crossings", FIT)),
    ("crossings of two codes", UNION, f"{curls(11)};{curls(10)}", "limit crossings 21 of 20", f"{EVERY}, the two of union"),
    ("loops", CHECK, loops(9), "limit loops 9 of 8", ("on circles that meet no crossing", FIT)),
    ("loops of the second code", UNION, f"PD[];{loops(9)}", "second\nlimit loops 9 of 8", "on circles that meet no crossing"),
    ("bytes", CHECK, padded("PD[]", 70_000), TOO_MANY_BYTES.strip(), ("20 crossings need some hundred bytes", "docs/TABULATION.md")),
    ("bytes of a log", CHECK, padded("log 1\n", 70_000), TOO_MANY_BYTES.strip(), ("it is a log", "up to 64 MiB", "$./kh verify < code")),
    ("lines", EDIT, "PD[];" + "\n" * 4_096 + "undo", "limit lines 4097 of 4096", "and lines without words count"),
]
ROWS = [(name, CHECK, *rest) for name, *rest in TEXTS + LISTS + CODES] + LINES + LOGS + LIMITS

# Codes of other programs, which `tools/kh-codes` reads, and what it does not read.
FOREIGN = [
    *("3_1", "8_19", "7^2_1", "10_{124}", "10_124", "T(2,3)", "T(3,7)", "Knot[3, 1]", "TorusKnot[3, 4]", "unknot"),
    *("DT[4, 6, 2]", "DTCode[4, 6, 2]", "DT: [(4, 6, 2)]", "DT[cacbca]", "[4, 6, 2]"),
    *("{{1,5,2,4},{3,1,4,6},{5,3,6,2}}", "[[1,5,2,4];[3,1,4,6];[5,3,6,2]]", "[(0, 3, 1, 4), (2, 5, 3, 0), (4, 1, 5, 2)]"),
    *("[(1,5,2,4),(3,1,4,6),(5,3,6,2)]", "Link([[1, 5, 2, 4], [3, 1, 4, 6], [5, 3, 6, 2]])", "PD[Knot[3, 1]] = PD[Loop[1]]"),
    *("PD[Xm[1,4,2,5], Xm[3,6,4,1], Xm[5,2,6,3]]", "trefoil: PD[X[1,4,2,5], X[3,6,4,1], X[5,2,6,3]]", "# 3_1\nPD[Loop[1]]"),
    *("braid: 1 2 1", "braid 2: 1 1 1", "braid: (1 2)^5", "braid: \u22121 1", "BR[2, {1, 1, 1}]", "{3, {1, 2, 1, 2}}"),
    *("\ufeffPD[Loop[1]]", '"PD[Loop[1]]"', "PD[Loop[1]];", 'name,braid_notation\n3_1,"{1,1,1}"'),
]
NOT_READ = ["{1,1,1}", "-1,2,3,-1,-2,3", "a knot", "10_200", "[(1,5,2,4),(3,1,4,6)"]
