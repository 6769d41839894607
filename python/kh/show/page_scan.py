"""The scan of a diagram on a page, step by step: the crossing that comes, objects and maps, what is cancelled, and the count at the end."""
from collections import Counter

from ..commands import Unreadable
from .page import number_text
from .page_figure import box_text
from .page_texts import counted, fields_told, signed
from .scan import FIRST, steps
from .scan_rows import AHEAD, STEP, around, row_lines

# The most objects that are drawn.
MOST = 40
# The room around a step, and how large the drawing beside it is.
EDGE, SMALL = 16, 150


def picture(scan, order, pivots, told):
    """The picture of a step."""
    lines, height = row_lines(scan, order, pivots, EDGE, EDGE)
    most = max((it.degree for it in scan.objects.values()), default=0)
    heads = [
        f'<text class="faint" x="{EDGE + STEP * degree + AHEAD}" y="{number_text(height + EDGE + 8)}">r = {degree}</text>'
        for degree in range(most + 1)
    ]
    width, high = EDGE + STEP * most + 2 * AHEAD + EDGE, height + EDGE + 14
    size = f'width="{number_text(width)}" height="{number_text(high)}" viewBox="0 0 {number_text(width)} {number_text(high)}"'
    return f'<div class="scroll"><svg class="scan" {size} role="img" aria-label="{told}">{"".join([*lines, *heads])}</svg></div>'


def so_far(figure, count):
    """The drawing with the crossings that have come, and the one that comes now."""
    circles = []
    for at in range(count):
        x, y = figure.middle(at)
        circles.append(f'<circle class="came{" now" if at == count - 1 else ""}" cx="{number_text(x)}" cy="{number_text(y)}" r="20"/>')
    told = f"the drawing, with {counted(count, 'crossing')} that have come"
    return (
        f'<svg class="so-far" viewBox="{box_text(figure.edges())}" width="{SMALL}" height="{SMALL}" role="img" aria-label="{told}">'
        f'<use href="#strands"/>{"".join(circles)}</svg>'
    )


def count_of(sheet, scan):
    """What the objects that are left count: for each pair of degrees how many."""
    degrees = sheet.degrees()
    found = Counter((it.shift + it.degree + degrees.plus - 2 * degrees.minus, it.degree - degrees.minus) for it in scan.objects.values())
    for _ in range(sheet.loops):
        found = sum((Counter({(j + one, i): count for (j, i), count in found.items()}) for one in (1, -1)), Counter())
    return dict(found)


def last_told(sheet, scan):
    """The count at the end."""
    degrees = sheet.degrees()
    rows = sorted((it.degree, it.shift) for it in scan.objects.values())
    lines = ['<table class="list"><thead><tr>', *(f'<th scope="col">{it}</th>' for it in ("r", "q", "i", "j")), "</tr></thead><tbody>"]
    for r, q in rows:
        at = r - degrees.minus, q + r + degrees.plus - 2 * degrees.minus
        lines.append(f'<tr><th scope="row">{r}</th><td>{signed(q)}</td><td>{signed(at[0])}</td><td>{signed(at[1])}</td></tr>')
    loops = f" Each of {counted(sheet.loops, 'loop')} then makes two of one, at j + 1 and j − 1." if sheet.loops else ""
    return (
        f"<p>No map is left, so each object counts one: at i = r − n− = r − {degrees.minus} and "
        f"j = q + r + n+ − 2n− = q + r + {degrees.plus - 2 * degrees.minus}.{loops} They are the table.</p>"
        f'<div class="scroll">{"".join([*lines, "</tbody></table>"])}</div>'
    ).replace("+ -", "− ")


def items(figure, table):
    """The steps over a field, each with what is told of it; nothing where there are too many objects."""
    sheet, p, last, found = figure.sheet, table.field, FIRST, []
    for count, (whole, pivots, left) in enumerate(steps(p, sheet.crossings), 1):
        if len(whole.objects) > MOST:
            return None
        order, arcs = around(sheet.crossings[:count]), ", ".join(map(str, sheet.crossings[count - 1]))
        told = f"{counted(len(whole.objects), 'object')} and {counted(len(whole.maps), 'map')}"
        gone = " 1 map in red is a number times the identity: its two ends are cancelled." if pivots else ""
        if len(pivots) > 1:
            gone = f" {len(pivots)} maps in red are numbers times the identity: the two ends of each are cancelled."
        open_told = f" Open arcs: {', '.join(map(str, whole.opened))}." if whole.opened else " No arc is open any more."
        head = f"<h3>Crossing {count} comes: X[{arcs}]</h3><p>It makes of each object one for its 0-smoothing and one for its 1-smoothing, "
        head += f"and a circle that closes makes two of one: {told}.{open_told}{gone}</p>"
        found.append(f"{head}{so_far(figure, count)}{picture(whole, order, pivots, f'crossing {count}: {told}')}")
        if pivots:
            told = f"{counted(len(left.objects), 'object')} and {counted(len(left.maps), 'map')}"
            head = f"<h3>What is left of it</h3><p>{told}. A way through what was cancelled is added to the maps between the others.</p>"
            found.append(f"{head}{so_far(figure, count)}{picture(left, order, [], f'left behind crossing {count}: {told}')}")
        last = left
    if last.maps or table != count_of(sheet, last):
        raise Unreadable(f"the scan over {p} elements does not count what the table has")
    return [*found, f"<h3>The count</h3>{last_told(sheet, last)}"]


def scan_section(figure):
    """The scans over 2 elements, and over 3 where the table is another one; nothing where there is none to draw."""
    tables = {table.field: table for table in figure.sheet.tables}
    if not figure.count or not tables:
        return ""
    fields = [2] + ([3] if [*tables[2].rows] != tables[3].rows else [])
    lists = [(field, items(figure, tables[field])) for field in fields]
    if any(found is None for _, found in lists):
        return f'<p class="note">A step of the scan has more than {MOST} objects, and is not drawn.</p>'
    note = (
        '<p class="note">The scan takes one crossing after the other. An object joins the open arcs in pairs, at a homological degree r, '
        "which is its column, and with a shift q; an arrow is a map: 1 the identity, S the saddle, a dot with an arc the disc through that "
        "arc with a dot.</p>"
    )
    parts = []
    for field, found in lists:
        steps_of = "".join(f"<li>{it}</li>" for it in found)
        parts.append(f'<div class="scans" data-field="{field}"><h3>{fields_told([field]).capitalize()}</h3><ol>{steps_of}</ol></div>')
    return note + "".join(parts)
