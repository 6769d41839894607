"""The rows of `kh-scan` alone: its words, and lists of codes.

A row on words has a name, words, the status, what is written of the trefoil. A row on lists has a name, words, a list, and of each frame
the number of its line, its field, its status and its text.
"""
from plain.frames import Frame, written
from rows.texts import EMPTY_TABLE, LOOP_TABLE, TOO_MANY_BYTES, TREFOIL, TREFOIL_IN_GAUSS, TREFOIL_OVER_THREE, TREFOIL_TABLE, padded

EACH = ["each"]
SCAN_USAGE = "usage: kh-scan [each] [--field FIELD]\n"
TREFOIL_IN_JSON = "[[1,4,2,5],[3,6,4,1],[5,2,6,3]]"
FULL, LONG = 65_536, 65_537


def over(field):
    """The table of the trefoil over a field of odd characteristic."""
    return TREFOIL_OVER_THREE.replace("field 3", f"field {field}")


def written_of(rows):
    """The text of these frames."""
    return b"".join(written([Frame(number, field, status, text.encode()) for number, field, status, text in rows])).decode()


def framed(*fields):
    """What is written of the trefoil as the only line of a list, over these fields."""
    return written_of([(1, it, 0, TREFOIL_TABLE if it == "2" else over(it)) for it in fields])


# Words that ask for the table of one diagram or for those of a list.
MEANT = [
    ("no words", [], 0, TREFOIL_TABLE),
    ("two dashes alone", ["--"], 0, TREFOIL_TABLE),
    ("a field", ["--field", "2"], 0, TREFOIL_TABLE),
    ("a field in the option's word", ["--field=3"], 0, TREFOIL_OVER_THREE),
    ("a field before two dashes", ["--field", "5", "--"], 0, over(5)),
    ("a field in the option's word before two dashes", ["--field=7", "--"], 0, over(7)),
    ("each", EACH, 0, framed("2")),
    ("each behind two dashes", ["--", "each"], 0, framed("2")),
    ("each before two dashes", ["each", "--"], 0, framed("2")),
    ("each before a field", ["each", "--field", "3"], 0, framed("3")),
    ("each behind a field", ["--field=7", "each"], 0, framed("7")),
    ("each behind a field and two dashes", ["--field", "5", "--", "each"], 0, framed("5")),
    ("each over all fields", ["each", "--field", "all"], 0, framed(*"2357")),
    ("each behind all fields", ["--field=all", "--", "each"], 0, framed(*"2357")),
]

# Words that ask for nothing: options of `kh`, its commands, other values, something twice, help, and what is no word of either.
NOT_MEANT = [line.split() for line in (
    "--workers 1", "--workers=2", "--mark 1", "--mark=1", "--to pd", "--to=gauss", "--number 7", "--number=0", "each --workers 2",
    "each --mark=1", "--to pd each", "--field 3 --workers 1", "homology", "homology --field 3", "--field 3 homology", "jones", "check",
    "reduced", "each homology", "--field all", "--field=all", "--field all --", "--field 4", "--field 0", "--field 11", "--field 03",
    "--field -3", "each --field 4", "each --field All", "each --field 2357", "each --field 2,3", "--field", "each --field", "--field=",
    "each --field=", "--field==3", "--field -- each", "--field each", "--field --field", "--field \u0663", "--field 2 --field 2",
    "--field=3 --field=5", "each --field all --field=all", "--field=2 each --field=2", "each each", "each -- each", "-- each each",
    "-- --", "each -- --", "-- each --", "-- --field 3", "-- --field=3", "each -- --field 3", "-h", "--help", "help", "each -h",
    "each --help", "--version", "-V", "version", "Each", "EACH", "eac", "eaches", "\ufeffeach", "all", "3", "trefoil.pd", "-", "each -",
    "---", "--each", "-each", "-f3", "-f 3", "-field 3", "--fiel 3", "--Field 3", "--fields=3", "--all", "each=all", "--=3",
)]  # fmt: skip
NOT_MEANT += [["--field", ""], ["--field", "3\n"], ["--field", "3" * 57], ["each", "--field", "all "], [""], ["each", ""], [" each"]]
NOT_MEANT += [["each "], ["each\n"], ["each" * 25_000], ["each"] * 5_000]
# Words that are no text, with which nothing is written.
NO_TEXT = [[b"\xff"], [b"each\xff"], ["each", b"\xc3"], [b"--field=\xff"], ["--field", b"\xed\xa0\x80"], ["each", b"--field=al\xfe"]]

WORDS = [
    *MEANT,
    *((f"the words {str(words)[:60]}", words, 2, SCAN_USAGE) for words in NOT_MEANT),
    *((f"the words {words}, which are no text", words, 2, "") for words in NO_TEXT),
]

DONE = (0, TREFOIL_TABLE)
CUT = (1, "refused text at 37\n")
NONE = (1, "refused text at 0\n")
EMPTY = (0, EMPTY_TABLE)
LIMIT = (6, TOO_MANY_BYTES)
ALL_THREE = "\n".join((TREFOIL, TREFOIL_IN_GAUSS, TREFOIL_IN_JSON))
LISTS = [
    ("an empty list", EACH, "", []),
    ("an empty list over all fields", ["each", "--field", "all"], "", []),
    ("a line feed", EACH, "\n", []),
    ("blank lines", EACH, "\n\n \n\t\r\n  \r\n\r", []),
    ("a code without a line feed", EACH, TREFOIL, [(1, "2", *DONE)]),
    ("a code with a line feed", EACH, TREFOIL + "\n", [(1, "2", *DONE)]),
    ("a code between blank lines", EACH, f"\n \r\n\n{TREFOIL}\n\n\t\n", [(4, "2", *DONE)]),
    ("a code of the line 12", EACH, "\r\n" * 11 + TREFOIL, [(12, "2", *DONE)]),
    ("blanks around a code", EACH, f" \t {TREFOIL} \t\n", [(1, "2", *DONE)]),
    ("lines that end with carriage returns", EACH, f"{TREFOIL}\r\nPD[]\r\n", [(1, "2", *DONE), (2, "2", *EMPTY)]),
    ("a carriage return alone ends no line", EACH, f"{TREFOIL}\rPD[]", [(1, "2", 1, "refused text at 39\n")]),
    ("the three forms", EACH, ALL_THREE, [(1, "2", *DONE), (2, "2", *DONE), (3, "2", *DONE)]),
    ("the three forms over three", ["each", "--field", "3"], ALL_THREE, [(it, "3", 0, over(3)) for it in (1, 2, 3)]),
    ("two codes of one line", EACH, f"{TREFOIL} PD[]\nPD[]", [(1, "2", 1, "refused text at 39\n"), (2, "2", *EMPTY)]),
    ("a code of two lines", EACH, "PD[Loop[1],\nLoop[2]]", [(1, "2", 1, "refused text at 11\n"), (2, "2", *NONE)]),
    ("a semicolon", EACH, "PD[];\nPD[]", [(1, "2", 1, "refused text at 4\n"), (2, "2", *EMPTY)]),
    ("a word of a line", EACH, "each\nPD[]\n", [(1, "2", *NONE), (2, "2", *EMPTY)]),
    ("form feeds are no blanks", EACH, "\f\n\v\nPD[]", [(1, "2", *NONE), (2, "2", *NONE), (3, "2", *EMPTY)]),
    ("bytes that are no text", EACH, b"\xff\n\0\nPD[]\n", [(1, "2", *NONE), (2, "2", *NONE), (3, "2", *EMPTY)]),
    ("a wrong line between two", EACH, f"{TREFOIL}\n{TREFOIL[:-1]}\n{TREFOIL}\n", [(1, "2", *DONE), (2, "2", *CUT), (3, "2", *DONE)]),
    ("a code and a wrong one over all fields", ["each", "--field=all"], f"PD[X[1,2,1,2]]\n{TREFOIL}",
     [(1, it, 1, "refused checkerboard at arc 1\n") for it in "2357"] + [(2, "2", *DONE), *((2, it, 0, over(it)) for it in "357")]),
    ("65,536 bytes of a line", EACH, padded(TREFOIL, FULL) + "\nPD[Loop[1]]", [(1, "2", *DONE), (2, "2", 0, LOOP_TABLE)]),
    ("65,536 bytes and no line feed", EACH, padded(TREFOIL, FULL), [(1, "2", *DONE)]),
    ("65,536 bytes with a carriage return", EACH, padded(TREFOIL, FULL - 1) + "\r\n", [(1, "2", *DONE)]),
    ("65,537 bytes with a carriage return", EACH, padded(TREFOIL, FULL) + "\r\n", [(1, "2", *LIMIT)]),
    ("65,537 bytes of a line", EACH, padded(TREFOIL, LONG) + "\nPD[Loop[1]]", [(1, "2", *LIMIT), (2, "2", 0, LOOP_TABLE)]),
    ("65,537 bytes and no line feed", EACH, padded(TREFOIL, LONG), [(1, "2", *LIMIT)]),
    ("a million bytes of a line", EACH, padded(TREFOIL, 1_000_000) + "\n\n" + TREFOIL, [(1, "2", *LIMIT), (3, "2", *DONE)]),
    ("two long lines and a code", EACH, ("x" * 70_000 + "\n") * 2 + TREFOIL, [(1, "2", *LIMIT), (2, "2", *LIMIT), (3, "2", *DONE)]),
    ("65,536 blanks and a code", EACH, " " * FULL + "\n" + TREFOIL, [(2, "2", *DONE)]),
    ("a million blanks and a code", EACH, " " * 1_000_000 + "\r\n" + TREFOIL, [(2, "2", *DONE)]),
    ("65,536 blanks before a code", EACH, " " * FULL + TREFOIL + "\nPD[]", [(1, "2", *LIMIT), (2, "2", *EMPTY)]),
    ("a million blanks before a sign", EACH, " " * 1_000_000 + "!\nPD[]", [(1, "2", *LIMIT), (2, "2", *EMPTY)]),
    ("blanks before a code of 65,536 bytes", EACH, " " * (FULL - len(TREFOIL)) + TREFOIL + "\n", [(1, "2", *DONE)]),
    ("a long line over all fields", ["each", "--field", "all"], "," * LONG + "\nPD[", [
        *((1, it, *LIMIT) for it in "2357"), *((2, it, 1, "refused text at 3\n") for it in "2357"),
    ]),
]
