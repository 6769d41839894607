"""The commands of `show/` on answers of `kh`: tables, polynomials and drawings."""
import shutil
import sys

from .. import polynomial_texts
from ..commands import Unreadable, command, given, reader
from ..tables import FIELD, FIELDS, MARK, Table
from .grids import refuse_other_links, svg_of as svg_of_tables, text_of


@command
def table():
    """Shows tables of `kh homology` or `kh reduced` as grids, as the Knot Atlas has them: j down from the greatest, i across.

        ./kh homology < examples/trefoil.pd | show/table
        for p in 2 3 5 7; do ./kh homology --field $p < examples/trefoil.pd; done | show/table
        ./kh homology < examples/trefoil.pd | show/table --svg > trefoil.svg

    The last column has the Euler characteristic of each row: the coefficient of q^j in the Jones line, in a reduced table in that line
    divided by q + q^-1. Of several tables, over several fields, the grids stand side by side, and a dimension that is not the same over all
    of them has a star: there is torsion. With --svg the grids become one picture.
    """
    parser = reader(table.__doc__)
    parser.add_argument("--svg", action="store_true", help="write a picture")
    parser.add_argument("files", nargs="*", help="instead of standard input")
    words = parser.parse_args()
    tables = Table.all_of(given(words.files))
    refuse_other_links(tables)
    print(svg_of_tables(tables) if words.svg else text_of(tables, shutil.get_terminal_size((100, 24)).columns), end="")


def polynomials(text):
    """The lines of the polynomials of all tables."""
    for it in Table.all_of(text):
        yield from [] if it.mark is None else [f"mark {it.mark}"]
        yield from (f"field {it.field}", str(it.poincare()))


def tables_of(text, field):
    """The texts of the tables of all polynomials."""
    mark = None
    for number, line in enumerate(text.splitlines(), 1):
        its_field, its_mark = FIELD.fullmatch(line.strip()), MARK.fullmatch(line.strip())
        if its_mark:
            mark = int(its_mark[1])
        elif its_field:
            field = int(its_field[1])
        elif line.strip():
            try:
                yield Table(polynomial_texts.dimensions(line), field=field, mark=mark).text
            except Unreadable as fault:
                raise Unreadable(f"line {number}: {fault}") from fault
            mark = None


@command
def polynomial():
    """Turns tables of `kh homology` or `kh reduced` into Poincaré polynomials in q and t, and back.

        ./kh homology < examples/trefoil.pd | show/polynomial
        echo 'field 3
        q^-3 + q^-1 + 1/(q^5 t^2) + 1/(q^9 t^3)' | show/polynomial --table

    The exponent of q is the quantum degree j, that of t the homological degree i. A polynomial stands in one line behind the line of its
    field, and in a reduced table behind the line of its mark. With --table such lines become what `kh` writes, to the byte; a polynomial
    without a line `field P` is one over the field that --field names, 2 where nothing names one. Products, quotients, powers and brackets
    are read as Mathematica and Python write them, and with TeX's braces in exponents.
    """
    parser = reader(polynomial.__doc__)
    parser.add_argument("--table", action="store_true", help="read polynomials and write tables")
    parser.add_argument("--field", type=int, choices=FIELDS, default=2, help="of polynomials without a line `field P`")
    parser.add_argument("files", nargs="*", help="instead of standard input")
    words = parser.parse_args()
    text = given(words.files)
    print("".join(tables_of(text, words.field)) if words.table else "\n".join([*polynomials(text), ""]), end="")


@command
def drawing():
    """Shows what `kh draw` writes: in the terminal, or as a picture with smooth strands, which have a gap where they pass under.

        ./kh draw < examples/trefoil.pd | show/drawing
        ./kh draw < examples/trefoil.pd | show/drawing --svg > trefoil.svg
        ./kh draw < examples/hopf.pd | show/drawing --svg --code examples/hopf.pd --colours > hopf.svg
        ./kh draw < examples/trefoil.pd | show/drawing --svg --numbers examples/trefoil.pd --mark 1 > trefoil.svg

    In the terminal each strand stands on a column from the cap where it begins to the cup where it ends. The picture has room between its
    strands and crosses them at right angles, as far as that goes; outside is a face with the most arcs. It has an arrow on each component
    whose direction is known: without a code that is the one that passes under at the first crossing of a piece, so all of a knot. CODE is a
    file with what `kh convert` writes of the same diagram: with it all components have arrows, and --numbers numbers the arcs and the
    crossings, and --mark puts a dot on the arc or loop of this number, as `kh reduced --mark` names them.
    """
    from .arcs import read_code
    from .figure import Diagram, svg_of
    from .layout import lines_of
    from .slices import read_drawing

    parser = reader(drawing.__doc__)
    parser.add_argument("--svg", action="store_true", help="write a picture")
    parser.add_argument("--code", metavar="CODE", help="take the directions of all components from this code")
    parser.add_argument("--numbers", metavar="CODE", help="do so, and number arcs and crossings")
    parser.add_argument("--mark", metavar="A", type=int, help="put a dot on the arc or loop A of the code")
    parser.add_argument("--colours", action="store_true", help="give each component a colour of its own")
    parser.add_argument("file", nargs="*", help="instead of standard input")
    words = parser.parse_args()
    code = words.numbers or words.code
    if not words.svg and (code or words.colours or words.mark is not None):
        parser.error("only a picture has numbers, marks, colours and arrows: --svg")
    if words.mark is not None and not code:
        parser.error("the arc of a mark is found in the code: --code CODE")
    slices = read_drawing(given(words.file))
    if words.svg:
        components = Diagram(slices).components
        unknown = 0 if code else sum(not it.is_directed for it in components)
        if unknown:
            told = f"{unknown} of {len(components)} components without an arrow; --code CODE says which way they go"
            print(f"drawing: {told}", file=sys.stderr)
        print(svg_of(slices, read_code(code) if code else None, bool(words.numbers), words.mark, words.colours), end="")
    else:
        print("".join(f"{line}\n" for line in lines_of(slices)), end="")
