"""Makes the pictures of `docs/pictures` and the pages of `docs/pages` anew, or compares them with what would be made."""
import os
import sys

from .. import programs
from ..commands import command, given, reader
from ..places import TOP
from ..tables import Table
from . import cubes, local_states, scan_pictures
from .arcs import read_code
from .asking import KH, Kh
from .figure import svg_of
from .grids import svg_of as svg_of_tables
from .page_html import page_of
from .sheet import sheet_of
from .slices import read_drawing

PAGES, PICTURES, EXAMPLES = (os.path.join(TOP, *it) for it in (("docs", "pages"), ("docs", "pictures"), ("examples",)))
TITLES = {
    "trefoil": "The left-handed trefoil", "figure-eight": "The figure eight knot", "hopf": "The Hopf link, with two negative crossings",
    "whitehead": "The Whitehead link", "8_19": "The knot 8_19, which is the torus knot T(3,4)",
}
# The ending of a text, and for each line of words of `kh` that it comes from those words.
TEXTS = {".drawing": [["draw"]], ".tables": [["homology"], ["homology", "--field", "3"]]}
# The moves whose states are drawn; the links whose components have colours, and the pictures that only some links have.
MOVES = ("kink", "bigon", "slide")
COLOURED = ("hopf", "whitehead")
ONLY = {"numbers": ("trefoil", "figure-eight"), "states": ("trefoil", "hopf"), "scan": ("trefoil",)}


def code_of(name):
    """The path of a code of `examples`."""
    return os.path.join(EXAMPLES, f"{name}.pd")


def stored(name):
    """A text that is stored beside the pictures."""
    return given([os.path.join(PICTURES, name)])


def pictures_of(name):
    """The ending and the text of each picture of a link, from the stored texts."""
    slices, code = read_drawing(stored(f"{name}.drawing")), read_code(code_of(name))
    yield ".svg", svg_of(slices, code, colours=name in COLOURED)
    yield "-table.svg", svg_of_tables(Table.all_of(stored(f"{name}.tables")))
    made = {
        "numbers": lambda: svg_of(slices, code, True, colours=name in COLOURED),
        "states": lambda: cubes.cube_of(slices, code),
        "scan": lambda: scan_pictures.picture_of(code, 2),
    }
    yield from ((f"-{kind}.svg", made[kind]()) for kind, names in ONLY.items() if name in names)


def all_pictures(program):
    """The path and the text of each file of `docs/pictures`, texts before pictures; texts where there is a program."""
    for name in TITLES if program else ():
        text = given([code_of(name)])
        for ending, calls in TEXTS.items():
            wrote = [programs.ran([program, *words], text.encode())[1].decode() for words in calls]
            yield os.path.join(PICTURES, name + ending), "".join(wrote)
    for name in TITLES:
        yield from ((os.path.join(PICTURES, name + ending), text) for ending, text in pictures_of(name))
    yield from ((os.path.join(PICTURES, f"{move}-states.svg"), local_states.picture_of(move)) for move in MOVES)


def all_pages(program):
    """The path and the text of each file of `docs/pages`."""
    kh = Kh(program or KH)
    for name, title in TITLES.items():
        yield os.path.join(PAGES, f"{name}.html"), page_of(sheet_of(kh, given([code_of(name)]), title))


def write(files, document):
    """Writes files that are made, or says which are not as stored."""
    parser = reader(document)
    parser.add_argument("--kh", metavar="PATH", help="the program")
    parser.add_argument("--test", action="store_true", help="compare")
    words = parser.parse_args()
    others = []
    for path, text in files(words.kh):
        if not words.test:
            with open(path, "w", encoding="utf-8") as file:
                file.write(text)
        elif not os.path.exists(path) or given([path]) != text:
            others.append(os.path.basename(path))
    if others:
        sys.exit(f"{sys.argv[0]}: not as stored: {', '.join(others)}")


@command
def pictures():
    """Makes the pictures of `docs/pictures` anew from what `kh` wrote, which is stored beside them.

        show/pictures             makes the pictures from the stored texts
        show/pictures --kh PATH   first stores what this program writes
        show/pictures --test      compares, and writes nothing; with --kh it compares the texts too

    For each of some codes of `examples` there are its drawing and its tables over two and over three elements. For each Reidemeister move
    there are its states, which need no text.
    """
    write(all_pictures, pictures.__doc__)


@command
def pages():
    """Makes the pages of `docs/pages` anew, each of a code of `examples`, as `show/page` makes them.

        show/pages             makes the pages
        show/pages --kh PATH   asks this program instead of ./kh
        show/pages --test      compares, and writes nothing
    """
    write(all_pages, pages.__doc__)
