"""Puts a page together: one file of HTML with its style and its script, which asks nothing of any other place."""
import base64
import hashlib
import json
import os
from html import escape

from ..laurent import divided
from .generators import MOST_DRAWN, MOST_LISTED, edges_of
from .grids import euler, ranges
from .page import CLASSES, COLOURS
from .page_cells import cells_of, ranks_told
from .page_cube import cube_of
from .page_figure import SIGNS, Figure, crossing_view, drawing_of, smoothing_view
from .page_scan import scan_section
from .page_texts import (
    EDGES, circles_told, counts_told, fields_told, generators_told, knot_atlas_html, listed, polynomial_html, power, signed, state_link,
)
from .sheet import alike

# The columns from which on a grid is set in small letters.
BROAD = 12
# The parts of the script, and those that a served page has too.
SCRIPTS, SERVED = ("page_script.js", "page_steps.js", "page_quiz.js"), ("page_draw.js",)
HERE = os.path.dirname(os.path.abspath(__file__))


def file_text(name):
    with open(os.path.join(HERE, name), encoding="utf-8") as file:
        return file.read()


def style():
    """The style, with the colours of the classes on a light screen and on paper, and those on a dark screen."""
    light, dark = ("".join(f"--{name}:{pair[at]};" for name, pair in CLASSES.items()) for at in (0, 1))
    names = [*(f"colour{at}" for at in range(len(COLOURS))), "ink", "faint", "accent"]
    classes = "".join(f".{name}{{color:var(--{name})}}" for name in names)
    return f":root{{{light}}}@media screen and (prefers-color-scheme:dark){{:root{{{dark}}}}}{classes}\n{file_text('page_style.css')}"


def digest(text):
    """The name by which a page's own script is allowed."""
    return "sha256-" + base64.b64encode(hashlib.sha256(text.encode()).digest()).decode()


def policy(is_served=False):
    """What a page may do: run its own script, look as its own style says, and nothing with any other place."""
    return f"default-src 'none'; style-src 'unsafe-inline'; script-src '{digest(script(is_served))}'; img-src 'self' data:"


def script(is_served=False):
    return "\n".join(map(file_text, (*SCRIPTS, *(SERVED if is_served else ()))))


def data_of(sheet):
    """What the script needs of a diagram, as JSON that ends no element of the page."""
    degrees = sheet.degrees()
    data = {"crossings": sheet.crossings, "loops": sheet.loops, "plus": degrees.plus, "minus": degrees.minus, "colours": len(COLOURS)}
    return json.dumps(data).replace("<", "\\u003c")


class Grid:
    """The cells that tables have together: their degrees, from the greatest j, and where the fields differ."""

    def __init__(self, sheet):
        self.sheet, self.generators = sheet, sheet.generators()
        self.rows, self.columns = ranges(sheet.tables)

    def dimensions(self, pair):
        return [table[pair] for table in self.sheet.tables]

    def has_torsion(self, pair):
        return len(set(self.dimensions(pair))) > 1

    def is_told(self, pair):
        """Whether there is something to say of a cell: a dimension, or generators."""
        return any(self.dimensions(pair)) or pair in self.generators

    def name(self, pair):
        return "cell_{}_{}".format(*pair)

    def cell(self, table, pair):
        """A cell of a table's grid."""
        count, star = table[pair], self.has_torsion(pair)
        if not self.is_told(pair):
            return "<td></td>"
        shown = f"{count}*" if star else str(count) if count else "·"
        kind = "torsion" if star else "" if count else "none"
        told = f"j {pair[0]}, i {pair[1]}: dimension {count}{', torsion' if star else ''}"
        return f'<td class="{kind}"><a href="#{self.name(pair)}" aria-label="{told}">{shown}</a></td>'

    def table(self, fields, table):
        """The grid of a table, which is that of all these fields."""
        sums = euler(table)
        head = "".join(f'<th scope="col">{signed(it)}</th>' for it in self.columns)
        lines = [f'<table class="grid{many(self.columns)}"><caption>{fields_told(fields)}</caption>']
        lines.append(f'<thead><tr><th scope="col">j \\ i</th>{head}<th scope="col">χ</th></tr></thead><tbody>')
        for j in self.rows:
            cells = "".join(self.cell(table, (j, i)) for i in self.columns)
            lines.append(f'<tr><th scope="row">{signed(j)}</th>{cells}<td class="sum">{signed(sums.get(j, 0))}</td></tr>')
        return "\n".join([*lines, "</tbody></table>"])

    def told(self, pair):
        """What there is to say of a cell."""
        groups = {}
        for table, count in zip(self.sheet.tables, self.dimensions(pair)):
            groups.setdefault(count, []).append(table.field)
        dimensions = listed([f"{count} {fields_told(fields)}" for count, fields in groups.items()])
        torsion = " They differ, so there is torsion in the homology over the integers." if self.has_torsion(pair) else ""
        states = generators_told(self.generators.get(pair, [])) if self.sheet.states else "The states are too many to be counted here."
        return f"Dimension {dimensions}.{torsion} {states}"


def plain_grid(table, name):
    """The grid of a table alone."""
    rows, columns = ranges([table])
    head = "".join(f'<th scope="col">{signed(it)}</th>' for it in columns)
    lines = [f'<table class="grid{many(columns)}"><caption>{name}</caption>']
    lines.append(f'<thead><tr><th scope="col">j \\ i</th>{head}</tr></thead><tbody>')
    for j in rows:
        cells = "".join(f"<td>{table[j, i] or ''}</td>" for i in columns)
        lines.append(f'<tr><th scope="row">{signed(j)}</th>{cells}</tr>')
    return "\n".join([*lines, "</tbody></table>"])


def many(columns):
    """The class of a grid that is broad."""
    return " many" if len(columns) > BROAD else ""


def table_section(grid):
    """The tables as grids, those that are alike once."""
    sheet = grid.sheet
    if sheet.limit:
        return f'<p class="limit">There is no table: {escape(sheet.limit)}. So many generators are more than the program takes.</p>'
    groups = alike(sheet.tables)
    notes = [
        "A row is a quantum degree j, a column a homological degree i; χ is the sum of a row with signs, the coefficient of q<sup>j</sup> "
        "in the Jones polynomial. A dimension depends on the numbers that one counts with: a field of 2, 3, 5 or 7 elements; in that of 2 "
        "elements 1 + 1 = 0."
    ]
    if len(groups) > 1:
        notes.append("A coloured cell with a star has not the same dimension over all four fields: torsion.")
    if sheet.states:
        notes.append("A dot stands where there are generators, and nothing is left of them.")
    grids = "".join(f'<div class="scroll">{grid.table(fields, table)}</div>' for fields, table in groups)
    return f'<div class="grids">{grids}</div><p class="note">{" ".join(notes)}</p>'


def polynomial_section(sheet):
    """The Jones polynomial in its forms, and the Poincaré polynomials."""
    rows, quotient = [("Jones, unnormalised", polynomial_html(sheet.jones))], divided(sheet.jones)
    if quotient:
        rows.append((f"divided by {power('q', 1)} + {power('q', -1)}", polynomial_html(quotient)))
        rows.append((f"in t, with q = {signed('-')}t<sup>1/2</sup>", knot_atlas_html(quotient)))
    rows += [(f"Poincaré, {fields_told(fields)}", polynomial_html(table.poincare())) for fields, table in alike(sheet.tables)]
    lines = "".join(f"<dt>{name}</dt><dd>{text}</dd>" for name, text in rows)
    return f'<dl class="polynomials">{lines}</dl><p class="note">As <code>kh</code> writes it: <code>{escape(sheet.jones_line)}</code></p>'


def cube_section(figure, states):
    """The cube, with what it shows."""
    legend = (
        '<svg class="key" width="40" height="8"><path class="edge ink" d="M0 4H40"/></svg> two circles merge, '
        '<svg class="key" width="40" height="8"><path class="edge split accent" d="M0 4H40"/></svg> one circle splits.'
    )
    degrees = figure.sheet.degrees()
    note = (
        "A state chooses a smoothing at each crossing, in their order, and leaves circles; behind its choices stands how many. "
        "Choose one to see them on the drawing. A generator is a state with v+ or v− on each circle. It stands at "
        f"i = (number of ones) − n− and j = (number of v+) − (number of v−) + (number of ones) + n+ − 2n−, "
        f"where n+ = {degrees.plus} and n− = {degrees.minus} count the positive and the negative crossings."
    )
    scroll = f'<div class="scroll" tabindex="0" role="region" aria-label="the cube, which scrolls">{cube_of(figure, states)}</div>'
    return f'{scroll}<p class="note">{legend if figure.count else ""} {note}</p>{EDGES if figure.count else ""}'


def undrawn_section(count):
    """What stands instead of a cube that is not drawn."""
    return (
        f'<p class="note">{count} crossings: 2<sup>{count}</sup> = {2 ** count:,} states; cubes are drawn of up to {MOST_DRAWN} crossings. '
        "The buttons below the drawing, which need JavaScript, show one state at a time, with the edges out of it.</p>"
    )


def joins_told(one, other):
    """Which arcs a smoothing joins."""
    return f'<span class="joins">joins {one[0]} with {one[1]},<br>{other[0]} with {other[1]}</span>'


def crossing_section(figure):
    """Each crossing with its sign and its smoothings."""
    lines = ['<div class="scroll"><table class="list"><thead><tr><th scope="col">crossing</th><th scope="col">code</th>'
             '<th scope="col">sign</th><th scope="col">0-smoothing</th><th scope="col">1-smoothing</th></tr></thead><tbody>']
    for at, arcs in enumerate(figure.sheet.crossings):
        i, j, k, l = arcs
        sign = SIGNS[figure.sheet.signs[at]]
        lines.append(
            f'<tr id="crossing-{at + 1}"><th scope="row">{at + 1} {crossing_view(figure, at)}</th><td>X[{i}, {j}, {k}, {l}]</td>'
            f"<td>{sign}</td><td>{smoothing_view(figure, at, 0)} {joins_told((i, j), (k, l))}</td>"
            f"<td>{smoothing_view(figure, at, 1)} {joins_told((i, l), (j, k))}</td></tr>"
        )
    return "\n".join([*lines, "</tbody></table></div>"])


def state_section(sheet):
    """Each state with its circles, degrees and edges."""
    heads = ("state", "circles", "i", "generators at j", "edges out of it")
    lines = ['<div class="scroll"><table class="list"><thead><tr>', *(f'<th scope="col">{it}</th>' for it in heads), "</tr></thead><tbody>"]
    degrees, edges = sheet.degrees(), {}
    for edge in edges_of(sheet.states):
        edges.setdefault(edge.tail.bits, []).append(f"{edge.crossing + 1}: {edge.kind()} to {state_link(edge.head)}")
    for state in sheet.states:
        at = ", ".join(f"{count} at {signed(j)}" for j, count in degrees.of(state))
        lines.append(
            f'<tr data-state="{state.text()}"><th scope="row">{state_link(state)}</th>'
            f"<td>{len(state.circles)}: {circles_told(state.circles)}</td><td>{signed(degrees.homological(state))}</td>"
            f"<td>{at}</td><td>{', '.join(edges.get(state.bits, ['none']))}</td></tr>"
        )
    return "\n".join([*lines, "</tbody></table></div>"])


def cell_section(grid, figure):
    """Each cell of the grids with what there is to say of it."""
    lines, cells, ranks = ['<dl class="cells">'], cells_of(grid.sheet, figure), ranks_told(grid.sheet, grid.generators)
    for pair in ((j, i) for j in grid.rows for i in grid.columns):
        if grid.is_told(pair):
            states = " ".join(state.text() for state, _, _ in grid.generators.get(pair, []))
            head = f"j = {signed(pair[0])}, i = {signed(pair[1])}"
            data = f' data-states="{states}"' if len(grid.sheet.crossings) <= MOST_LISTED else ""
            work = cells.work(pair) if cells else f'<p class="brief">{ranks[pair]}</p>' if pair in ranks else ""
            told = f'<p class="brief">{grid.told(pair)}</p>{work}'
            lines.append(f'<div id="{grid.name(pair)}"{data}><dt>{head}</dt><dd>{told}</dd></div>')
    return "\n".join([*lines, "</dl>"])


def section(name, title, inside):
    return f'<section id="{name}" aria-labelledby="{name}-title">\n<h2 id="{name}-title">{title}</h2>\n{inside}\n</section>'


# Where what a chosen cell has stands beside the table.
CELL = '<section id="cell" class="screen" tabindex="-1" aria-label="the cell that is chosen" hidden></section>'
CHOSEN = (
    '<section id="chosen" aria-live="polite" aria-label="what is chosen"><div id="told"><p>Choose a crossing of the drawing, a cell of the '
    "table or a state.</p></div></section>"
)


def drawing_section(figure, listed_states, moves):
    """The drawing, the code and the counts, and what is chosen."""
    sheet = figure.sheet
    told = f'<p>{counts_told(sheet.counts)}.</p><p class="code"><code>{escape(sheet.code)}</code></p>'
    return f"{drawing_of(figure, listed_states, moves)}\n<div id=\"choices\"></div>\n{CHOSEN}\n{told}"


def page_of(sheet, before="", between="", head="", first="", figure=None, moves=()):
    """The page of a diagram. A server has more to say before it, and between the drawing and the table; a figure behind a move; and moves,
    each with the address of its picture."""
    figure, grid, count = figure or Figure(sheet), Grid(sheet), len(sheet.crossings)
    listed_states = sheet.states if count <= MOST_LISTED else []
    name = sheet.name or "A diagram"
    parts = [section("table", "Table", table_section(grid)), CELL, section("polynomials", "Polynomials", polynomial_section(sheet))]
    if count <= MOST_DRAWN:
        parts.append(section("cube", "Cube of states", cube_section(figure, sheet.states)))
        scan = scan_section(figure)
        parts += [section("scan", "The scan, step by step", scan)] if scan else []
    else:
        parts.append(section("cube", "Cube of states", undrawn_section(count)))
    lists = [section("crossings", "Crossings", crossing_section(figure))] if count else []
    if grid.rows:
        lists.append(section("cells", "Cells of the table", cell_section(grid, figure)))
    if listed_states:
        lists.append(section("states", "States", state_section(sheet)))
    left = section("diagram", "Drawing", drawing_section(figure, listed_states, moves))
    meta = head or f'<meta http-equiv="Content-Security-Policy" content="{policy()}">'
    return whole(name, meta, [
        f"<header>{first}<h1>{escape(name)}</h1>{before}</header>",
        f'<main>\n<div class="left">\n{left}\n</div>\n<div class="right">', between, *parts, *lists, "</div>\n</main>",
        f'<script type="application/json" id="data">{data_of(sheet)}</script>',
    ], bool(head))


def whole(title, meta, lines, is_served=False):
    """A file of HTML with this in its body."""
    return "\n".join([
        "<!DOCTYPE html>", '<html lang="en">', "<head>", '<meta charset="utf-8">', meta, '<link rel="icon" href="data:,">',
        '<meta name="viewport" content="width=device-width, initial-scale=1">', '<meta name="color-scheme" content="light dark">',
        f"<title>{escape(title)}</title>", f"<style>{style()}</style>", "</head>", "<body>", *lines,
        f"<footer>{FOOTER}</footer>", f"<script>{script(is_served)}</script>", "</body>", "</html>",
    ]) + "\n"


FOOTER = (
    "Counts and polynomials are as <code>kh</code> writes them, tables as <code>kh-scan</code> or <code>kh</code>; drawing, states and "
    "this page are beside them, tested and not proved."
)
