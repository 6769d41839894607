"""Runs whose calls, streams and limits `tests/faults` makes fail: words and an input for each command and each way that it ends."""
from typing import NamedTuple

from shared.places import example

TREFOIL = b"PD[X[1,4,2,5], X[3,6,4,1], X[5,2,6,3]]"
HOPF = b"PD[X[4,1,3,2],X[2,3,1,4]]"
CURL = b"PD[X[1,1,2,2]]"
FIGURE_EIGHT = b"PD[X[4,2,5,1], X[8,6,1,5], X[6,3,7,4], X[2,7,3,8]]"
GAUSS = b"GaussCode[-1, 3, -2, 1, -3, 2] Signs[-1, -1, -1]"
JSON = b'[[1,4,2,5],[3,6,4,1],[5,2,6,3]]'
NINE = range(1, 19, 2)
LOG = b"""\
log 1
PD[X[1, 1, 2, 2]]
field 2
block -1
block 1
cancel 0 0 0
block 3
cancel 0 0 0
table 2
field 2
j -1 i 0 dim 1
j 1 i 0 dim 1
"""


class Case(NamedTuple):
    """A run: a name, words and an input."""

    name: str
    words: list
    given: bytes


ALL = (
    Case("homology", ["homology"], TREFOIL),
    Case("homology over three", ["homology", "--field", "3"], TREFOIL),
    Case("homology by four workers", ["homology", "--workers", "4"], FIGURE_EIGHT),
    Case("homology by 64 workers", ["homology", "--workers", "64", "--field", "7"], HOPF),
    Case("homology of a Gauss text", ["homology"], GAUSS),
    Case("jones", ["jones"], FIGURE_EIGHT),
    Case("check", ["check"], GAUSS),
    Case("check of JSON", ["check"], JSON),
    Case("convert", ["convert"], GAUSS),
    Case("convert to Gauss", ["convert", "--to", "gauss"], JSON),
    Case("schedule", ["schedule"], HOPF + b";look 1 -2\nlook 2 -2\ncommit 1\ncommit 2\nlook 2 -2\ncommit 2\nforget 3\nlook 1 -2\n"),
    Case("edit", ["edit"], CURL + b";r2 add 1 left 2 right\nundo\nredo\nr1 add 1 under plus\nr1 drop 4\n"),
    Case("edit to a refused line", ["edit"], FIGURE_EIGHT + b";r1 add 1 over minus\nundo\nundo\n"),
    Case("bench", ["bench", "--number", "559240"], b""),
    Case("bench of too large a number", ["bench", "--number", "1048576"], b""),
    Case("draw", ["draw"], TREFOIL),
    Case("mirror", ["mirror"], TREFOIL),
    Case("reverse", ["reverse"], GAUSS),
    Case("union", ["union"], TREFOIL + b";" + JSON),
    Case("union with a bad second code", ["union"], TREFOIL + b";PD["),
    Case("reduced", ["reduced", "--mark", "1"], TREFOIL),
    Case("reduced at no mark", ["reduced", "--mark", "9"], TREFOIL),
    Case("certify", ["certify"], TREFOIL),
    Case("certify over three", ["certify", "--field", "3", "--workers", "4"], FIGURE_EIGHT),
    Case("certify of too many generators", ["certify"], b"PD[" + b",".join(b"X[%d,%d,%d,%d]" % (a, a, a + 1, a + 1) for a in NINE) + b"]"),
    Case("verify", ["verify"], LOG),
    Case("verify of a long log", ["verify"], LOG.replace(b"PD[", b" " * 65_000 + b"PD[")),
    Case("verify of another long log", ["verify"], LOG + b"j 3 i 1 dim 1\n" * 20_000),
    Case("verify of a bad log", ["verify"], LOG.replace(b"dim 1", b"dim 2")),
    Case("no command", ["--help"], TREFOIL),
    Case("no text", ["check"], b"PD[X[1,4,2,5], X[3,6"),
    Case("no JSON", ["check"], b"[[1,1,2,2],"),
    Case("no code", ["homology"], b"PD[X[1,2,1,2]]"),
    Case("no script", ["edit"], TREFOIL + b";undo\nturn 1\n"),
    Case("too many crossings", ["jones"], b"PD[" + b",".join([b"X[1,1,2,2]"] * 21) + b"]"),
    Case("too many bytes", ["check"], TREFOIL + b" " * 65_500),
)


def with_loops(text):
    """The text of a code that has no loops, with as many as a code may have."""
    last = 2 * text.count(b"X[")
    return text[:-1] + b"".join(b", Loop[%d]" % (last + loop) for loop in range(1, 9)) + b"]"


# Diagrams as large as they may be: of 20 crossings and 8 loops; and for cubes, which they are too large for, smaller ones with 8 loops.
LARGE = with_loops(example("braid-20").strip().encode())
SCANNED = (
    Case("a scan of 20 crossings and 8 loops", [], LARGE),
    Case("a list of 20 crossings and 8 loops", ["each", "--field", "all"], LARGE + b"\n" + LARGE),
)
WIDE = (
    *(Case(f"{word} of 20 crossings and 8 loops", [word], LARGE) for word in ("jones", "check", "draw", "mirror", "reverse")),
    Case("edit of 20 crossings and 8 loops", ["edit"], LARGE + b";undo\n"),
    Case("union of 8 crossings and 8 loops", ["union"], with_loops(FIGURE_EIGHT) + b";" + FIGURE_EIGHT),
    Case("homology with 8 loops", ["homology"], with_loops(FIGURE_EIGHT)),
    Case("homology with 8 loops by four workers", ["homology", "--workers", "4", "--field", "3"], with_loops(FIGURE_EIGHT)),
    Case("reduced homology with 8 loops", ["reduced", "--mark", "1"], with_loops(FIGURE_EIGHT)),
    Case("certify with 8 loops", ["certify"], with_loops(FIGURE_EIGHT)),
)

USAGE, READ_FAULT, WRITE_FAULT, NO_MEMORY = 2, 3, 4, 5


def named(*names):
    """The cases of these names."""
    return [case for case in ALL if case.name in names]


def known(commands):
    """The cases whose command the program knows."""
    return [case for case in ALL if case.words[0] in (*commands, "--help")]


def reads(case):
    """Whether the program has to read for a case."""
    return case.words[:1] not in (["bench"], ["--help"])
