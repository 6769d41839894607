"""Turns codes of knots and links, as other programs print them, into the planar diagrams that `kh` reads, a line each.

    tools/kh-codes FILE..              or from standard input
    tools/kh-codes --link 8_19         a link by its name
    tools/kh-codes --clockwise FILE    lists that go clockwise, as SageMath's do
    tools/kh-codes --names FILE        each line with its name and a tab before the code, as `tabulate/` reads them
    tools/kh-codes --names --keep FILE     a wrong code stays as it stands, on one line behind its name, for `kh` to refuse
    tools/kh-codes --quiet FILE        without a word on standard error

A file has one code or several, each with a name before it or none: `trefoil: braid: 1 1 1`, or with =, a tab, or before brackets a comma.
A code begins on a line of its own and may go on until its brackets are closed; where they are not, it ends before the next name or code.
# at the beginning of a line or behind a blank begins a comment. Quotes round a code and a comma, semicolon or full stop behind it do not
matter. The forms, each of them with a trefoil (or the unknot):

    PD[X[1,4,2,5], X[3,6,4,1], X[5,2,6,3]]         Knot Atlas, KnotTheory; X of a sign (Xp, Xm) and Loop[1] too
    [[1,5,2,4],[3,1,4,6],[5,3,6,2]]                KnotInfo
    {{1,5,2,4};{3,1,4,6};{5,3,6,2}}                KnotInfo, with semicolons
    [(0,3,1,4), (2,5,3,0), (4,1,5,2)]              SnapPy, Regina; arcs may begin with 0, and have any numbers
    braid 2: 1 1 1                                 a braid word, with its number of strands
    braid: 1 1 1                                   the same, on as many strands as its letters need
    braid: {1, 1, 1}                               the same, in brackets
    braid: (1 2)^2                                 powers of letters and of groups; of -1 the inverse
    BR[2, {1, 1, 1}]                               KnotTheory
    {2, {1, 1, 1}}                                 KnotTheory, LinkInfo
    GaussCode[-1,3,-2,1,-3,2] Signs[-1,-1,-1]      a signed Gauss code: passes positive over, negative under; signs of the crossings
    DTCode[4, 6, 2]                                KnotTheory; of several components DTCode[{4}, {2}]
    DT: [(4, 6, 2)]                                SnapPy
    DT[cacbca]                                     SnapPy, in letters
    [4, 6, 2]                                      KnotInfo: each even number once is a DT code
    3_1                                            a name of the reference: prime knots of up to 11 crossings (K11n34), links of up to 7
    3_{1}                                          the same in TeX
    Knot[3, 1]                                     KnotTheory
    T(2,3)                                         a torus link of up to 20 crossings, by its least braid
    TorusKnot[2, 3]                                KnotTheory
    unknot                                         a loop without crossings

A table has a heading that names a column `name` and some of `pd_notation`, `braid_notation` and `dt_notation`, as KnotInfo's have, and
ends with a blank line. Commas, semicolons, tabs or | separate its fields:

    name,braid_notation
    3_1,"{1,1,1}"

In a planar diagram each arc stands at two places, and a list begins with an arc of the under pass and goes on counterclockwise. A DT code
does not say the hand: one of two mirror images is chosen. Nor does a Gauss code without signs: it is not read, and what to write is said.
What was changed is said on standard error, a line for each code, and of a wrong code the line, the column and what stands there; the others
are still turned. At the end comes how many were read and how many were wrong, where there were several or one was wrong. The status is 1
where one was wrong.
"""
import sys
from typing import Any

from ..commands import reader
from . import turning


def convert(path: str, text: str, words: Any) -> int:
    """Writes the codes of a text, and says how many were wrong."""

    def say(said: str) -> None:
        if not words.quiet:
            print(said, file=sys.stderr)

    wrong = 0
    for it, line in turning.converted(path, text, say, words.clockwise, words.keep):
        wrong += bool(it.fault)
        if line:
            print(f"{it.name}\t{line}" if words.names else line)
    return wrong


def text_of(path):
    """The text of a file, or of standard input, without the mark of its order of bytes."""
    try:
        with open(0 if path == "-" else path, encoding="utf-8-sig", closefd=path != "-") as file:
            return file.read()
    except (OSError, UnicodeDecodeError) as fault:
        sys.exit(f"kh-codes: {fault}")


def main():
    parser = reader(__doc__, "kh-codes")
    parser.add_argument("--clockwise", action="store_true", help="lists go clockwise")
    parser.add_argument("--names", action="store_true", help="write names before codes")
    parser.add_argument("--keep", action="store_true", help="write a wrong code as it stands, behind its name with --names")
    parser.add_argument("--quiet", action="store_true", help="say nothing of codes on standard error")
    parser.add_argument("--link", action="append", default=[], metavar="NAME", help="a link by its name")
    parser.add_argument("files", nargs="*")
    words = parser.parse_args()
    wrong = convert("--link", "\n".join(words.link), words) if words.link else 0
    for path in words.files or ([] if words.link else ["-"]):
        wrong += convert("input" if path == "-" else path, text_of(path), words)
    sys.exit(1 if wrong else 0)
