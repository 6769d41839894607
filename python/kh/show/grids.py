"""Tables as grids, as the Knot Atlas has them: j down from the greatest, i across; as text, as a picture and as a table of HTML."""
from __future__ import annotations

from collections.abc import Sequence
from typing import TYPE_CHECKING

from ..commands import Unreadable
from .page import picture, text_at, text_width

if TYPE_CHECKING:
    from ..tables import Table

BETWEEN = "    "
# The breadth and the height of a cell, where its text stands in it, the room around a grid, and the sizes of texts.
CELL, LINE, BASE, MARGIN, SIZE, NOTE = 36, 26, 18, 16, 14, 12
RULES = (
    f"text{{font-size:{SIZE}px;text-anchor:middle}}.title{{font-weight:bold}}.note{{font-size:{NOTE}px}}"
    ".fill{fill:currentColor}.line{fill:none;stroke:currentColor}"
)
STAR = "* not the same over all these fields: torsion"


def ranges(tables: Sequence[Table]) -> tuple[Sequence[int], Sequence[int]]:
    """The quantum degrees that the rows have, from the greatest, and the homological degrees of the columns."""
    degrees = [pair for table in tables for pair in table]
    if not degrees:
        return [], []
    high, low = max(j for j, _ in degrees), min(j for j, _ in degrees)
    return list(range(high, low - 1, -2)), list(range(min(i for _, i in degrees), max(i for _, i in degrees) + 1))


def differing(tables):
    """The pairs of degrees at which the tables have not all one dimension."""
    pairs = {pair for table in tables for pair in table}
    return {pair for pair in pairs if len({table[pair] for table in tables}) > 1}


def refuse_other_links(tables):
    """Refuses tables that stand side by side and can not be of one diagram."""
    if len({table.jones for table in tables}) > 1 or len({table.mark for table in tables}) > 1:
        raise Unreadable("these are tables of more than one diagram")
    if len({j % 2 for table in tables for j, _ in table}) > 1:
        raise Unreadable("the quantum degrees are even and odd")


def euler(table):
    """The Euler characteristic of each row other than 0."""
    return {j: count for (j, _), count in table.euler.terms.items()}


def title(table):
    return f"over {table.field} elements" + (f", reduced at mark {table.mark}" if table.mark is not None else "")


def cell(table, pair, stars):
    """What stands in a cell: the dimension above 0, or any that differs, and whether it does."""
    dimension = table[pair]
    return (str(dimension) if dimension or pair in stars else ""), pair in stars


def grid(table, tables):
    """The lines of the grid of a table that stands beside these."""
    rows, columns = ranges(tables)
    stars, sums = differing(tables), euler(table)
    shown = {(j, i): "".join((text, "*" if star else " ")) for j in rows for i in columns for text, star in [cell(table, (j, i), stars)]}
    width = max(map(len, [*shown.values(), *(f"{i} " for i in columns), "0 "])) + 1
    tail = max(map(len, (str(it) for it in [*sums.values(), 0]))) + 1
    head = max(map(len, (str(j) for j in [*rows, "j\\i"])))
    lines = [title(table)]
    lines.append(f"{'j' + chr(92) + 'i':>{head}} |" + "".join(f"{str(i) + ' ':>{width}}" for i in columns) + f"|{'χ':>{tail}}")
    lines.append("-" * (head + 1) + "+" + "-" * (width * len(columns)) + "+" + "-" * tail)
    for j in rows:
        lines.append(f"{j:>{head}} |" + "".join(f"{shown[j, i]:>{width}}" for i in columns) + f"|{sums.get(j, 0):>{tail}}")
    return lines


def beside(grids, width):
    """The lines of grids side by side, as many in a row as the width has room for."""
    lines, rest = [], grids
    while rest:
        count = 1
        while count < len(rest) and sum(max(map(len, it)) for it in rest[: count + 1]) + len(BETWEEN) * count <= width:
            count += 1
        widths = [max(map(len, it)) for it in rest[:count]]
        lines += [""] if lines else []
        for parts in zip(*rest[:count]):
            lines.append(BETWEEN.join(f"{part:<{wide}}" for part, wide in zip(parts, widths)).rstrip())
        rest = rest[count:]
    return lines


def text_of(tables: Sequence[Table], width: int) -> str:
    """The grids as text, with a line on stars where there is one."""
    lines = beside([grid(table, tables) for table in tables], width)
    return "\n".join(lines + ([STAR] if differing(tables) else [])) + "\n"


def note_of(tables):
    """What the coloured cells of a picture mean, where there are some."""
    return "coloured: not the same over these fields, so torsion" if differing(tables) else ""


def svg_grid(table, tables, left):
    """The lines of a picture of the grid of a table that begins at this x."""
    rows, columns = ranges(tables)
    stars, sums = differing(tables), euler(table)
    width, top = CELL * (len(columns) + 2), MARGIN + LINE
    bottom = top + LINE * (len(rows) + 1)
    lines = [f'<rect class="fill band" x="{left}" y="{top}" width="{width}" height="{LINE}"/>']
    lines.append(text_at(left + width / 2, MARGIN + 12, title(table), ' class="title ink"'))
    for place, head in enumerate(["j \\ i", *columns, "χ"]):
        lines.append(text_at(left + CELL * (place + 0.5), top + BASE, head, ' class="faint"'))
    for down, j in enumerate(rows, 1):
        y = top + LINE * down
        for across, i in enumerate(columns, 1):
            text, star = cell(table, (j, i), stars)
            if star:
                lines.append(f'<rect class="fill light" x="{left + CELL * across}" y="{y}" width="{CELL}" height="{LINE}"/>')
            if text:
                lines.append(text_at(left + CELL * (across + 0.5), y + BASE, text, ' class="ink"'))
        for x, text in ((left + CELL / 2, j), (left + width - CELL / 2, sums.get(j, 0))):
            lines.append(text_at(x, y + BASE, text, ' class="faint"'))
    across = [f"M{left} {top + LINE * down}H{left + width}" for down in range(len(rows) + 2)]
    down = [f"M{left + CELL * place} {top}V{bottom}" for place in (0, 1, len(columns) + 1, len(columns) + 2)]
    return [*lines, f'<path class="line rule" d="{"".join(across + down)}"/>']


def svg_of(tables):
    """The grids as one picture, each in the middle of its part."""
    rows, columns = ranges(tables)
    grid_width, note = CELL * (len(columns) + 2), note_of(tables)
    widest = max(text_width(title(table), SIZE) for table in tables)
    step = max(grid_width, widest, (text_width(note, NOTE) - 2 * MARGIN) / len(tables) - 2 * MARGIN) + 2 * MARGIN
    height = 2 * MARGIN + LINE * (len(rows) + 2 + bool(note))
    lines = []
    for place, table in enumerate(tables):
        lines += svg_grid(table, tables, round(step * (place + 0.5) - grid_width / 2))
    if note:
        lines.append(text_at(step * len(tables) / 2, height - MARGIN - 4, note, ' class="note faint"'))
    return picture([(0, 0), (step * len(tables), height)], 0, "Khovanov homology, j down and i across", told(tables), RULES, lines)


def told(tables):
    """What the picture shows, in words."""
    parts = []
    for table in tables:
        cells = [f"{dimension} at j {j} and i {i}" for j, i, dimension in table.rows]
        parts.append(f"Dimensions {title(table)}: {', '.join(cells) or 'none above 0'}.")
    return " ".join([*parts, *([f"Not the same over all fields at {pairs_told(tables)}."] if differing(tables) else [])])


def pairs_told(tables):
    return ", ".join(f"j {j} and i {i}" for j, i in sorted(differing(tables)))


def html_of(table: Table, tables: Sequence[Table]) -> str:
    """The grid of a table that stands beside these as a table of HTML, without a style; what is not the same over all fields is bold."""
    rows, columns = ranges(tables)
    stars, sums = differing(tables), euler(table)
    head = "".join(f"<th>{it}</th>" for it in ["j \\ i", *columns, "χ"])
    lines = [f"<table><caption>{title(table)}</caption><thead><tr>{head}</tr></thead><tbody>"]
    for j in rows:
        cells = [f"<b>{text}</b>" if star else text for text, star in (cell(table, (j, i), stars) for i in columns)]
        lines.append(f"<tr><th>{j}</th>{''.join(f'<td>{it}</td>' for it in cells)}<td>{sums.get(j, 0)}</td></tr>")
    return "\n".join([*lines, "</tbody></table>"])
