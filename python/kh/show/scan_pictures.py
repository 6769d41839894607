"""Draws the scan of a planar diagram, step by step, from a file that `kh convert` wrote.

    show/scan_steps examples/trefoil.pd > scan.svg
    show/scan_steps --field 3 examples/trefoil.pd > scan.svg

Each row is the complex behind a crossing: its objects in columns by the homological degree r, each with its shift q. An object joins the
open arcs in pairs; where no arc is open it is its shift alone. An arrow is a map: 1 a number times the identity, S the saddle, a dot with
an arc the disc through that arc with a dot. What is eliminated is red, and the next row has what is left.
"""
import sys
from html import escape

from ..commands import Unreadable, command, reader
from .arcs import read_code
from .page import CLASSES, FONT, number_text as near, own_style
from .scan import steps
from .scan_rows import AHEAD, STEP, around, row_lines, text_at

MOST = 40
LEFT, TOP, GAP, EDGE = 170, 44, 30, 20
# The colour of each class, on a light and on a dark screen.
COLOURS = {name: CLASSES[name] for name in ("ground", "ink", "faint", "rule")}
COLOURS.update(gone=CLASSES["accent"], pair=CLASSES["colour0"])


def style():
    """The class and the style of the picture: texts, lines, and the colours, which are others on a dark screen."""
    light, dark = ("".join(f".{name}{{color:{pair[at]}}}" for name, pair in COLOURS.items()) for at in (0, 1))
    over = [f".over{{paint-order:stroke;stroke-width:6px;stroke:{it}}}" for it in COLOURS["ground"]]
    lines = "path,circle{fill:none;stroke:currentColor}.ground{fill:currentColor}"
    texts = f"text{{font-family:{FONT};font-size:12px;text-anchor:middle;fill:currentColor}}"
    more = ".start{text-anchor:start}.big{font-size:14px}"
    return own_style(f"{lines}{texts}{more}{light}{over[0]}@media(prefers-color-scheme:dark){{{dark}{over[1]}}}")


def rows_of(crossings, p):
    """For each row its title, its scan, the arcs around it, and what is eliminated."""
    for at, (whole, pivots, left) in enumerate(steps(p, crossings), 1):
        if len(whole.objects) > MOST:
            raise Unreadable(f"behind crossing {at} there are {len(whole.objects)} objects, and {MOST} are drawn")
        order = around(crossings[:at])
        yield f"crossing {at}", whole, order, pivots
        if pivots:
            yield "what is left", left, order, []


def picture_of(crossings, p):
    """The picture of all rows."""
    rows = list(rows_of(crossings, p))
    most = max((it.degree for _, scan, _, _ in rows for it in scan.objects.values()), default=0)
    width, top, lines = LEFT + STEP * most + 80 + EDGE, TOP, []
    for degree in range(most + 1):
        lines.append(text_at(LEFT + STEP * degree + AHEAD, 26, f"r = {degree}", "faint big"))
    for title, scan, order, pivots in rows:
        made, end = row_lines(scan, order, pivots, top + GAP / 2, LEFT)
        middle = (top + GAP / 2 + end) / 2
        count = f"{len(scan.objects)} object{'s' if len(scan.objects) != 1 else ''}"
        arcs = f"open: {' '.join(map(str, scan.opened))}" if order else "no arc is open"
        lines.append(f'<path class="rule" d="M{EDGE} {near(top)}H{near(width - EDGE)}"/>')
        lines += [text_at(EDGE, middle - 14, title, "start ink big"), text_at(EDGE, middle + 4, arcs, "start faint")]
        lines += [text_at(EDGE, middle + 20, count, "start faint"), *made]
        top = end + GAP
    told = "; ".join(f"{title}: {len(scan.objects)} objects, {len(scan.maps)} maps" for title, scan, _, _ in rows)
    size = f'width="{near(width)}" height="{near(top)}" viewBox="0 0 {near(width)} {near(top)}"'
    name, rules = style()
    texts = ["<title>The scan of a diagram, step by step</title>", f"<desc>{escape(told)}</desc>", rules]
    head = [f'<svg xmlns="http://www.w3.org/2000/svg" class="{name}" {size} role="img">', *texts]
    ground = f'<rect class="ground" width="{near(width)}" height="{near(top)}" rx="8"/>'
    return "\n".join([*head, ground, *lines, "</svg>"]) + "\n"


@command
def main():
    parser = reader(__doc__)
    parser.add_argument("file", help="a code as `kh convert` writes it")
    parser.add_argument("--field", type=int, choices=(2, 3, 5, 7), default=2, help="the number of elements")
    words = parser.parse_args()
    sys.stdout.write(picture_of(read_code(words.file), words.field))
