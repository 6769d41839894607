"""What a served page has beside that of a file: the form for codes, the moves with their undo and redo, and what did not change."""
from html import escape

from ..tables import FIELDS
from .page_figure import Figure
from .page_html import page_of, plain_grid, section, whole
from .page_moves import KINDS
from .page_texts import counted

EXAMPLES = (
    ("the trefoil", "trefoil: PD[X[1,4,2,5], X[3,6,4,1], X[5,2,6,3]]"), ("the figure eight", "4_1"), ("a braid", "braid: 1 1 1"),
    ("the Hopf link", "2^2_1"), ("a torus knot", "T(3,4)"), ("the unknot", "unknot"),
)
TREFOIL = "PD[X[1, 4, 2, 5], X[3, 6, 4, 1], X[5, 2, 6, 3]]"
HOW = f"""<section id="how" aria-labelledby="how-title"><h2 id="how-title">The code of your own drawing</h2>
<img src="%s/example.svg" alt="the trefoil with its arcs and crossings numbered">
<ol><li>Draw the knot with a gap where a strand passes under.</li>
<li>Choose a point and a direction, walk along, and number the arcs from one crossing to the next: 1, 2, 3 and so on, until you are back. In a
link go on with the next component.</li>
<li>At each crossing write the four arcs around it. Begin with the one on which you come in below, and go on counterclockwise. At the crossing
1 of this drawing that is <code>X[1, 4, 2, 5]</code>.</li>
<li>All of them together are the code: <code>{TREFOIL}</code>. Its title may stand before it: <code>mine: PD[X[..], ..]</code>.</li></ol></section>"""
# The lists of moves that are open at first.
OPEN = ("slide", "bigon", "unkink")


def form(base, text="", fault=""):
    """The form for codes, with what was wrong with the last one."""
    told = f'<div class="fault" role="alert"><pre>{escape(fault)}</pre></div>' if fault else ""
    buttons = "".join(f'<button name="text" value="{escape(code)}" formnovalidate>{name}</button>' for name, code in EXAMPLES)
    return (
        f'<form class="screen codes" method="post" action="{base}/code"><label for="text">A code, a braid word or a name</label>'
        f'<textarea id="text" name="typed" rows="2" spellcheck="false" autocapitalize="off">{escape(text)}</textarea>'
        f'<p><button id="draw">Show it</button> <span class="note">or one of these:</span> {buttons}</p></form>{told}'
    )


def move_button(move, action, number):
    data = f'data-arcs="{" ".join(map(str, move.arcs))}" data-crossings="{" ".join(map(str, move.crossings))}"'
    more = f'data-preview="{action}/preview/{number}.svg" aria-label="{escape(move.told)}" title="{escape(move.line)}"'
    return f'<button name="line" value="{escape(move.line)}" {data} {more}>{escape(move.button)}</button>'


def rows_of(moves, action):
    """Moves in rows, each with what its buttons have in common before them."""
    rows = {}
    for number, move in moves:
        rows.setdefault(move.row, []).append(move_button(move, action, number))
    return "".join(f"<li><span>{escape(row)}</span> {''.join(buttons)}</li>" for row, buttons in rows.items())


def lists(moves, action):
    """The moves by kinds, each kind a list that opens."""
    parts = []
    for kind, title in KINDS.items():
        those = [(number, move) for number, move in enumerate(moves) if move.kind == kind]
        if those:
            head = f"<summary>{title}: {len(those)}</summary>"
            parts.append(f'<details{" open" if kind in OPEN else ""}>{head}<ul class="moves">{rows_of(those, action)}</ul></details>')
        else:
            parts.append(f'<p class="note">{title}: no such move here.</p>')
    return "".join(parts)


def table_told(before, now, base):
    """What became of the table."""
    if before.limit or now.limit:
        return f"The table is not computed: {escape(now.limit or before.limit)}."
    alike = all(one == other for one, other in zip(before.tables, now.tables))
    fields = ", ".join(map(str, FIELDS[:-1])) + f" and {FIELDS[-1]}"
    stays = f'The table stays: <a href="{base}/theorem">proved</a>. ' if alike else ""
    return f"{stays}The table over {fields} elements, computed anew, is {'the same' if alike else 'another one'}."


def two_tables(before, now):
    """Both tables over 2 elements, side by side."""
    if before.limit or now.limit:
        return ""
    both = "".join(f'<div class="scroll">{plain_grid(it.tables[0], name)}</div>' for it, name in ((before, "before"), (now, "now")))
    return f'<details open><summary>Both tables, over 2 elements</summary><div class="grids">{both}</div></details>'


def unchanged(before, now, lines, base):
    """What moves did not change, as `kh` answers of both diagrams."""
    same = "the same; that no move changes it is proved" if now.jones_line == before.jones_line else "another one"
    counts = [counted(it.counts["crossings"], "crossing") for it in (before, now)]
    changed = f"What changed: the drawing, from {counts[0]} to {counts[1]}, and with it the cube."
    if before.code == now.code:
        changed = "The diagram is the first one again, with all its numbers."
    parts = [table_told(before, now, base), f"The Jones polynomial is {same}: <code>{escape(now.jones_line)}</code>", changed]
    items = "".join(f"<li>{it}</li>" for it in parts)
    return f'<div id="unchanged"><p>After {counted(len(lines), "step")}:</p><ul>{items}</ul>{two_tables(before, now)}</div>'


def script_told(step):
    """The script so far, as `kh edit` reads it."""
    text = "\n".join([f"{step.start};", *step.lines])
    return f'<details><summary>The script, for <code>./kh edit</code></summary><pre id="script">{escape(text)}</pre></details>'


def moves_section(session, step, base, action, fault):
    """The moves of a diagram, its undo and redo, and other diagrams."""
    moves = session.moves_of(step.code)
    steps = "".join(
        f'<button name="line" value="{word}"{"" if session.can(step, word) else " disabled"}>{word}</button>' for word in ("undo", "redo")
    )
    told = f'<div class="fault" role="alert"><pre>{escape(fault)}</pre></div>' if fault else ""
    changed = unchanged(session.sheet(step.start), session.sheet(step.code), step.lines, base) if step.lines else ""
    turns = (
        f'<form class="screen inline" method="post" action="{action}/turn"><button name="word" value="mirror">mirror image</button> '
        '<button name="word" value="reverse">turn all directions</button></form>'
    )
    form_of = f'<form class="screen" method="post" action="{action}/move"><p class="steps">{steps}</p>{lists(moves, action)}</form>'
    told_of = (
        ', each tried by <code>kh edit</code>. <span class="scripted">Point at one to see on the drawing where it is and what it makes; '
        "press it to make it. Those that are marked on the drawing can be pressed there.</span>"
    )
    note = f'<p class="note">{counted(len(moves), "move")}{told_of if moves else "."}</p>'
    script = script_told(step) if step.lines else ""
    return section("moves", "Moves", f"{told}{changed}{note}{form_of}{script}{turns}")


def step_page(session, base, number, head, fault=""):
    """The page of a step."""
    step = session.steps[number]
    action = f"{base}/{number}"
    after = f", after {counted(len(step.lines), 'step')}" if step.lines else ""
    sheet = session.sheet(step.code, (step.name or "A diagram") + after)
    said = f'<p class="note said">{escape(step.said)}</p>' if step.said else ""
    save = f'<p class="screen note"><a href="{action}/page.html" download>Save this page as a file</a></p>'
    moves = [(move, f"{action}/preview/{at}.svg") for at, move in enumerate(session.moves_of(step.code))]
    section_of = moves_section(session, step, base, action, fault)
    return page_of(sheet, said + save, section_of, head, form(base, step.code), session.figure(number), moves)


def start_page(base, head, text="", fault=""):
    """The page before there is a diagram."""
    told = (
        "<h1>Knots and links, their states and tables</h1><p>Write a code of a knot or a link, or press one of the buttons. Forms that are "
        "read: planar diagrams (Knot Atlas, KnotInfo, SnapPy), Gauss and DT codes, braid words such as <code>braid: 1 1 1</code>, names "
        "such as <code>8_19</code> and <code>T(3,4)</code>.</p>"
    )
    return whole("kh", head, [f"<header>{told}{form(base, text, fault)}</header>", HOW % base], True)


def saved_page(session, number):
    """The page of a step as a file."""
    step = session.steps[number]
    sheet = session.sheet(step.code, step.name or "A diagram")
    return page_of(sheet, figure=Figure(sheet, drawn=session.figure(number).drawn))
