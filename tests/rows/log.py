"""The rows of `certify` and `verify` of `tests/program`: a name, words, an input, the status, what is written.

Worked by hand from `docs/LOG-FORMAT.md`. What `certify` may write is free in its pivots, so the rows have it of diagrams that leave none to
choose; `tests/logs.py` judges the others.
"""
from faulty.cases import LOG
from rows.texts import USAGE, links
from shared.running import Long

CURL = LOG.decode()
REST = "field 2\nj -1 i 0 dim 1\nj 1 i 0 dim 1\n"
VERIFIED = "verified\ntable 2\n" + REST
NINE_CURLS, TWENTY_CURLS = (links(count, space="") for count in (9, 20))
TOO_LARGE = "limit generators 10077696 of 4194304\n"
LONGEST = 67_108_864
LOG_OF_NOTHING = "log 1\nPD[]\nfield %s\nblock 0\ntable 2\nfield %s\nj 0 i 0 dim 1\n"
LOG_OF_A_LOOP = "log 1\nPD[Loop[1]]\nfield 2\nblock -1\nblock 1\ntable 2\n" + REST


def edited_row(number, line):
    """The log of the curl with another line of this number, or without it."""
    lines = CURL.splitlines(True)
    lines[number - 1 : number] = [line + "\n"] if line is not None else []
    return "".join(lines)


def refused(line, cause):
    return f"refused log line {line} {cause}\n"


VERIFIED_LOGS = [
    ("the log of a curl", CURL, 0, VERIFIED),
    ("the log of a curl without its last line feed", CURL[:-1], 0, VERIFIED),
    ("another pivot of the block 1", edited_row(6, "cancel 0 1 0"), 0, VERIFIED),
    ("another pivot of the block 3", edited_row(8, "cancel 0 0 1"), 1, refused(8, "entry")),
    ("a log without a cancellation", edited_row(6, None), 1, refused(6, "open")),
    ("a log without its first block", edited_row(4, None), 1, refused(4, "block")),
    ("a log with another dimension", edited_row(12, "j 1 i 0 dim 2"), 1, refused(12, "table")),
    ("a log of a virtual code", edited_row(2, "PD[X[1,2,1,2]]"), 1, refused(2, "diagram")),
    ("no log", "", 1, refused(1, "text")),
    ("a line feed alone", "\n", 1, refused(1, "text")),
    ("a log of one line", "log 1\n", 1, refused(2, "text")),
    ("a log of one line without its line feed", "log 1", 1, refused(2, "text")),
    ("a log that ends behind its field", "".join(CURL.splitlines(True)[:3]), 1, refused(4, "text")),
    ("a log that ends behind a block", "".join(CURL.splitlines(True)[:5]), 1, refused(6, "text")),
    ("a log that ends before its table", "".join(CURL.splitlines(True)[:8]), 1, refused(9, "text")),
    ("a log with an empty line behind", CURL + "\n", 1, refused(13, "table")),
    ("a log without its last row", edited_row(12, None), 1, refused(12, "table")),
    ("a log with the row of no dimension", CURL + "j 3 i 1 dim 0\n", 1, refused(13, "table")),
    ("a log with a Jones line", CURL + "jones 1*q^-1 1*q^1\n", 1, refused(13, "table")),
    ("a log of JSON", edited_row(2, "[[1,1,2,2]]"), 1, refused(2, "diagram")),
    ("a log of a Gauss code", edited_row(2, "GaussCode[1, -1] Signs[1]"), 1, refused(2, "diagram")),
    ("a log of another spelling", edited_row(2, " PD[\tX[1,1,2,2]] \r"), 0, VERIFIED),
    ("a log with 65,536 bytes of diagram", edited_row(2, "PD[X[1,1,2,2]]".ljust(65_536)), 0, VERIFIED),
    ("a log with 65,537 bytes of diagram", edited_row(2, "PD[X[1,1,2,2]]".ljust(65_537)), 1, refused(2, "text")),
    ("a log with 65,537 bytes that are none", edited_row(2, "x" * 65_537), 1, refused(2, "text")),
    ("a log of version 01", edited_row(1, "log 01"), 1, refused(1, "text")),
    ("a log with a carriage return", edited_row(1, "log 1\r"), 1, refused(1, "text")),
    ("a log with a carriage return in its table", edited_row(12, "j 1 i 0 dim 1\r"), 1, refused(12, "table")),
    ("a log over four elements", edited_row(3, "field 4"), 1, refused(3, "text")),
    ("a log over two fields", edited_row(3, "field 3"), 1, refused(10, "table")),
    ("the log of a curl over seven elements", CURL.replace("field 2", "field 7"), 0, VERIFIED.replace("field 2", "field 7")),
    ("a pivot of a block without entries", edited_row(4, "block -1\ncancel 0 0 0"), 1, refused(5, "entry")),
    ("a pivot of a loop's block", LOG_OF_A_LOOP.replace("block -1\n", "block -1\ncancel 0 0 0\n"), 1, refused(5, "entry")),
    ("a log of no block", edited_row(4, "table 2"), 1, refused(4, "text")),
    ("a log that begins with a cancellation", edited_row(4, "cancel 0 0 0"), 1, refused(4, "text")),
    ("a block too many", edited_row(9, "block 5"), 1, refused(9, "block")),
    ("a block too early", edited_row(6, "block 3"), 1, refused(6, "open")),
    ("a block twice", edited_row(7, "block 1"), 1, refused(7, "block")),
    ("a cancellation too many", edited_row(9, "cancel 0 0 0"), 1, refused(9, "entry")),
    ("a block with a leading zero", edited_row(7, "block 03"), 1, refused(7, "text")),
    ("a block of four digits", edited_row(7, "block 1003"), 1, refused(7, "text")),
    ("a block of no generator", edited_row(7, "block -999"), 1, refused(7, "block")),
    ("a pivot of eight digits", edited_row(6, "cancel 0 0 12345678"), 1, refused(6, "text")),
    ("a pivot of seven digits", edited_row(6, "cancel 0 0 9999999"), 1, refused(6, "entry")),
    ("a pivot of the last degree", edited_row(6, "cancel 1 0 0"), 1, refused(6, "entry")),
    ("a pivot below the first degree", edited_row(6, "cancel -1 0 0"), 1, refused(6, "entry")),
    ("a pivot with a minus before 0", edited_row(6, "cancel -0 0 0"), 1, refused(6, "text")),
    ("a pivot with a plus", edited_row(6, "cancel 0 +0 0"), 1, refused(6, "text")),
    ("a pivot of two numbers", edited_row(6, "cancel 0 0"), 1, refused(6, "text")),
    ("a pivot with two spaces", edited_row(6, "cancel 0  0 0"), 1, refused(6, "text")),
    ("a log of nothing over three elements", LOG_OF_NOTHING % (3, 3), 0, "verified\ntable 2\nfield 3\nj 0 i 0 dim 1\n"),
    ("a log of a loop", LOG_OF_A_LOOP, 0, VERIFIED),
    ("a log of nine curls", f"log 1\n{NINE_CURLS}\nfield 2\n", 6, TOO_LARGE),
    ("a log of twenty curls", f"log 1\n{TWENTY_CURLS}\nfield 2\n", 6, "limit generators 3656158440062976 of 4194304\n"),
    ("a log of nine curls with a wrong line", f"log 1\n{NINE_CURLS}\nfield 2\nend\n", 6, TOO_LARGE),
    ("a log of nine curls over four elements", f"log 1\n{NINE_CURLS}\nfield 4\n", 1, refused(3, "text")),
    ("a log of nine curls without a field", f"log 1\n{NINE_CURLS}\n", 1, refused(3, "text")),
    ("a virtual log over four elements", "log 1\nPD[X[1,2,1,2]]\nfield 4\n", 1, refused(2, "diagram")),
    ("a log of nine loops", edited_row(2, "PD[" + ",".join(["Loop[1]"] * 9) + "]"), 1, refused(2, "diagram")),
    ("bytes that are no text", b"log 1\n\xff\n", 1, refused(2, "diagram")),
    ("67,108,864 bytes", Long(LONGEST, b"\n"), 1, refused(1, "text")),
    ("67,108,865 bytes", Long(LONGEST + 1, b"\n"), 6, "limit bytes 67108865 of 67108864\n"),
    ("a good log of 67,108,865 bytes", Long(LONGEST + 1, b" ", LOG), 6, "limit bytes 67108865 of 67108864\n"),
]

CERTIFIED = [
    ("no crossings", ["certify"], "PD[]", 0, LOG_OF_NOTHING % (2, 2)),
    ("no crossings over seven elements", ["certify", "--field", "7"], "[]", 0, LOG_OF_NOTHING % (7, 7)),
    ("no crossings by 64 workers", ["--workers=64", "certify"], "GaussCode[]", 0, LOG_OF_NOTHING % (2, 2)),
    ("a loop", ["certify"], "PD[Loop[9]]", 0, LOG_OF_A_LOOP),
    ("a loop as a Gauss code", ["certify", "--to", "gauss"], "GaussCode[{}]", 0, LOG_OF_A_LOOP),
    ("nine curls", ["certify"], NINE_CURLS, 6, TOO_LARGE),
    ("21 curls", ["certify"], "PD[" + ",".join(["X[1,1,2,2]"] * 21) + "]", 6, "limit crossings 21 of 20\n"),
    ("nine loops", ["certify"], "PD[" + ",".join(["Loop[1]"] * 9) + "]", 6, "limit loops 9 of 8\n"),
    ("65,537 bytes", ["certify"], "PD[]".ljust(65_537), 6, "limit bytes 65537 of 65536\n"),
    ("65,536 bytes", ["certify"], "PD[]".ljust(65_536), 0, LOG_OF_NOTHING % (2, 2)),
    ("a virtual code", ["certify"], "PD[X[1,2,1,2]]", 1, "refused checkerboard at arc 1\n"),
    ("no code", ["certify"], "", 1, "refused text at 0\n"),
    ("a log", ["certify"], CURL, 1, "refused text at 0\n"),
    ("a code and a script", ["certify"], "PD[];", 1, "refused text at 4\n"),
    ("a field of four elements", ["certify", "--field", "4"], "PD[]", 2, USAGE),
    ("two commands", ["certify", "verify"], "PD[]", 2, USAGE),
    ("another word", ["certificate"], "PD[]", 2, USAGE),
]

WORDS = [
    ("options that it does not need", ["verify", "--field=7", "--workers=64", "--to=gauss", "--number=0", "--mark=0"], CURL, 0, VERIFIED),
    ("two dashes", ["--", "verify"], CURL, 0, VERIFIED),
    ("a field of four elements", ["verify", "--field", "4"], CURL, 2, USAGE),
    ("the name of a file", ["verify", "log"], CURL, 2, USAGE),
    ("the word twice", ["verify", "verify"], CURL, 2, USAGE),
    ("a word in capitals", ["Verify"], CURL, 2, USAGE),
    ("a code", ["verify"], "PD[X[1,1,2,2]]", 1, refused(1, "text")),
    ("a code of 65,537 bytes", ["verify"], "PD[]".ljust(65_537), 1, refused(1, "text")),
]

ROWS = [(f"certify, {name}", *row) for name, *row in CERTIFIED]
ROWS += [(f"verify, {name}", ["verify"], *row) for name, *row in VERIFIED_LOGS] + [(f"verify, {name}", *row) for name, *row in WORDS]
