"""Tries in a browser what a lesson needs of pages: moves on the drawing, the matrices of a cell, the scan, exercises, and drawing by mouse.

`page_browser.py` runs these, with its browser.
"""
import math
import os
import re
import subprocess
import tempfile

import plain.cube
import plain.diagrams
import kh
from rows.texts import TREFOIL
from shared.places import TOP, write_text
from shared.running import PATIENCE
from shared.serving import Serving

PLACES = "Array.from(document.querySelectorAll('.target circle')).map((it) => [+it.getAttribute('cx'), +it.getAttribute('cy')])"
STRANDS = "Array.from(document.querySelectorAll('#strands .strand')).map((it) => it.getAttribute('d')).join()"
VISIBLE = "Array.from(document.querySelectorAll('%s')).filter((it) => getComputedStyle(it).display !== 'none').length"
WAIT = "new Promise((done) => setTimeout(done, %d))"
KINK = "r1 add 1 under plus"


def page_of(name):
    return "file://" + os.path.join(TOP, "docs", "pages", f"{name}.html")


def are_kept(before, behind):
    """Whether places are the same ones up to a scale and a shift."""
    size = math.dist(behind[0], behind[1]) / math.dist(before[0], before[1])
    shift = [behind[0][at] - size * before[0][at] for at in (0, 1)]
    return all(abs(size * one[at] + shift[at] - other[at]) < 1 for one, other in zip(before, behind) for at in (0, 1))


def pressed(tab, act):
    """Makes a move, and waits until its picture has come to rest."""
    tab.loaded(act)
    begun = tab.value("document.querySelector('#drawing').classList.contains('moving')")
    tab.value(WAIT % 800)
    return begun, tab.value("document.querySelector('#drawing').classList.contains('moving')")


def kink_faults(tab, serving):
    """A kink comes and goes, and all else stays at its place; motion is left out where it is not wanted."""
    tab.load(serving.address(serving.step(TREFOIL)))
    first, button = tab.value(PLACES), f'button[value="{KINK}"]'
    tab.value("document.querySelectorAll('details').forEach((it) => (it.open = true))")
    pressed(tab, lambda: tab.click(button))
    behind = tab.value(PLACES)
    yield "a kink: the crossings stay", None if are_kept(first, behind[:3]) and len(behind) == 4 else f"{first}, {behind}"
    told, typed = tab.text("#unchanged"), tab.value("document.querySelector('#text').value")
    tables = tab.value("document.querySelectorAll('#unchanged table').length")
    right = "The table stays: proved" in told and tables == 2 and typed == tab.text(".code code") and typed.count("X[") == 4
    yield "what stands beside a move", None if right else f"{told}, {tables}, {typed}"
    tab.click("#quiz button:nth-of-type(3)")
    hidden = tab.value("document.querySelector('#unchanged').innerText")
    tab.click("#quiz button:nth-of-type(6)")
    yield "the polynomial, asked behind a move", None if "jones" in told and "jones" not in hidden else hidden
    tab.value("document.querySelector('.move[data-line=\"r1 drop 4\"]').focus()")
    _, rests = pressed(tab, lambda: tab.press("Enter"))
    yield "a mark that Enter presses", None if are_kept(first, tab.value(PLACES)) and not rests else f"{tab.value(PLACES)}"
    yield "the link to the theorem", theorem_fault(tab)


def theorem_fault(tab):
    """The link beside a move leads to the page of the theorem, which has its three pictures, and nothing of Markdown's signs."""
    tab.loaded(lambda: tab.click("#unchanged li a"))
    found = tab.value("[document.querySelector('h1').textContent, Array.from(document.images).filter((it) => it.naturalWidth > 100).length]")
    left = re.search(r"\]\(|\*\*|^[#|-]|`", tab.value("document.body.innerText"), re.M)
    linked = tab.value("Array.from(document.querySelectorAll('.theorem a')).every((it) => document.querySelector(it.getAttribute('href')))")
    right = found == ["Invariance: moves keep the table", 3] and linked and not tab.faults()
    return None if right and not left else f"{found}, {left}, {tab.faults()}"


def slide_faults(tab, serving):
    """A slide is shown before it is made, in the drawing's frame, and turns the triangle over at its place."""
    tab.load(serving.address(serving.step("braid: 1 2 1")))
    first, strands, mark = tab.value(PLACES), tab.value(STRANDS), '.move[data-line="r3 1 2 3"]'
    script = f"document.querySelector('{mark}').dispatchEvent(new MouseEvent('mouseover', {{bubbles: true}}))"
    tab.value(script)
    tab.value(WAIT % 600)
    box = "(() => {const box = (it) => document.querySelector(it).getBoundingClientRect();"
    inside = tab.value(
        box + "const [a, b] = [box('#preview image'), box('#drawing')];"
        "return a.left >= b.left - 1 && a.right <= b.right + 1 && a.top >= b.top - 1 && a.bottom <= b.bottom + 1 && b.bottom < 900})()"
    )
    yield "the picture of a move stands in the drawing's frame", None if inside else "elsewhere"
    picture = tab.value("document.querySelector('#preview image').getAttribute('href')")
    shown = re.findall(r'<path class="strand[^>]* d="([^"]*)"', serving.get(picture.split("/", 2)[2]).text)
    begun, rests = pressed(tab, lambda: tab.click(mark + " circle"))
    same = ",".join(shown) == tab.value(STRANDS)
    yield "the picture that was shown is that of the move", None if shown and same else f"{shown} and not {tab.value(STRANDS)}"
    moved = strands != tab.value(STRANDS) and not are_kept(first, tab.value(PLACES))
    yield "a slide changes the picture", None if moved and not rests else f"{begun}, {rests}"
    tab.screen(1300, 900, still=True)
    begun, _ = pressed(tab, lambda: tab.click('button[value="undo"]'))
    right = not begun and are_kept(first, tab.value(PLACES))
    tab.screen(1300, 900)
    yield "undo without motion, where none is wanted", None if right else f"{begun}"


SLOW = """\
#!/bin/sh
[ "$1" != draw ] || [ ! -e "$0.slow" ] || { echo >> "$0.drawn"; sleep 2; }
exec "%s" "$@"
"""
POINT = "document.querySelectorAll('button[value^=\"r2 add\"]')[%d].dispatchEvent(new MouseEvent('mouseover', {bubbles: true}));"
SEEN = """new Promise((done) => {
  const look = () => {
    const it = document.querySelector('#preview image');
    if (it) it.addEventListener('load', () => done('seen'));
    else setTimeout(look, 20);
  };
  look();
  setTimeout(() => done('nothing'), 60000);
})"""


def pointed_fault(tab, program):
    """Where the mouse goes over moves faster than their pictures come, those of the moves between are not made."""
    with tempfile.TemporaryDirectory() as folder:
        path = os.path.join(folder, "kh")
        write_text(path, SLOW % program, 0o755)
        with Serving(path) as serving:
            tab.load(serving.address(serving.step(TREFOIL)))
            open(path + ".slow", "w", encoding="utf-8").close()
            for number in range(3):
                tab.value(POINT % number)
                tab.value(WAIT % 400)
            seen = tab.value(POINT % 3 + SEEN)
        with open(path + ".drawn", encoding="utf-8") as file:
            drawn = len(file.readlines())
    return None if (seen, drawn) == ("seen", 2) else f"{seen}, {drawn} pictures"


def cell_faults(tab):
    """A cell has its generators, its matrix, what is left of that, and the ranks over all fields; and is left again."""
    tab.load(page_of("trefoil"))
    tab.click('.grid a[href="#cell_-7_-2"]')
    cells = "(it) => Array.from(it.cells).map((one) => one.textContent)"
    rows = tab.value(f"Array.from(document.querySelectorAll('#cell .matrix tbody tr')).map({cells})")
    numbers = [list(map(int, (it.replace("\u2212", "-") for it in row[1:]))) for row in rows]
    told = tab.text("#cell")
    right = sorted(map(sorted, numbers)) == 3 * [[0, 1, 1]] and "1, 1, 2" in told and "3 − 0 − 2 = 1" in told and "3 − 0 − 3 = 0" in told
    drawn = tab.value("document.querySelectorAll('#cell .generators use').length")
    yield "the matrix of a cell", None if right and drawn == 6 and not tab.faults() else f"{numbers}, {drawn}, {told}"
    tab.press("Escape")
    yield "a cell that is left", None if tab.value("document.querySelector('#cell').hidden") else "still there"


def scan_faults(tab):
    """The scan shows one step, goes forward and back by buttons and keys, has what is cancelled in red, and ends with the count."""
    tab.load(page_of("trefoil"))
    shown, told = VISIBLE % ".scans li", "document.querySelector('#scan [role=status]').textContent.trim()"
    seen = []
    for _ in range(5):
        seen.append((tab.value(shown), tab.value(told)))
        tab.click("#scan .steps button:nth-of-type(2)")
    yield "the scan, forward", None if seen == [(1, f"step {at} of 6") for at in range(1, 6)] else f"{seen}"
    last = tab.value("document.querySelector('.scans li.now').innerText")
    rows = len(re.findall(r"^-?\d", last, re.M))
    yield "the count at the end", None if "each object counts one" in last and rows == 6 else last
    # (behind a frame, in which a button that is switched off loses the focus)
    tab.value("new Promise((done) => requestAnimationFrame(() => requestAnimationFrame(() => done(true))))")
    tab.press("ArrowLeft")
    tab.press("ArrowLeft")
    red = tab.value("document.querySelectorAll('.scans li.now .scan path.gone').length")
    yield "the scan, back by keys", None if tab.value(told) == "step 4 of 6" and red == 6 else f"{tab.value(told)}, {red}"
    tab.click("#scan .steps button:nth-of-type(4)")
    yield "over another field", None if tab.value("document.querySelector('.scans:not(.off)').dataset.field") == "3" else "the same"


def quiz_faults(tab):
    """Exercises say what is right and what is wrong, show the way, and leave the page as it was."""
    tab.load(page_of("trefoil") + "#cell_-7_-2")
    # (the page may still scroll to the cell)
    tab.value("document.querySelector('#quiz button:nth-of-type(1)').click()")
    told = tab.text("#told")
    yield "exercises, behind a cell that was chosen", None if told.startswith("Choose") and not tab.faults() else told
    tab.load(page_of("trefoil"))
    grid = "document.querySelector('#table .grid')"
    before = tab.value(f"{grid}.innerHTML")
    rights = tab.value(f"Array.from({grid}.querySelectorAll('td a')).map((it) => it.textContent.replace('\u00b7', '0').replace('*', ''))")
    fill = "document.querySelectorAll('.grid input').forEach((it, at) => (it.value = %s[at]))"
    button = "#quiz button:nth-of-type(%d)"
    tab.click(button % 1)
    tab.value(fill % rights)
    tab.click(button % 4)
    yield "exercises, all right", None if "All are right" in tab.text("#quiz") else tab.text("#quiz")
    tab.value(fill % ["7", *rights[1:]])
    tab.press("Enter")
    tab.click(button % 4)
    wrong = tab.value("document.querySelectorAll('.grid td.wrong').length")
    tab.click(button % 5)
    right = wrong == 1 and "generators less both ranks: 1 − 0 − 0 = 1" in tab.text("#quiz")
    yield "exercises, one wrong and its way", None if right else f"{wrong}, {tab.text('#quiz')}"
    tab.click(button % 2)
    column = tab.value("document.querySelectorAll('.grid input').length")
    hidden = tab.value(VISIBLE % "#cells, #polynomials, #table .grids > div:nth-child(2)")
    tab.click(button % 3)
    sums = tab.value("document.querySelectorAll('.grid .sum input').length")
    tab.click(button % 6)
    right = (column, hidden, sums) == (4, 0, 5) and tab.value(f"{grid}.innerHTML") == before
    yield "a column, the polynomial, and the page behind them", None if right and not tab.faults() else f"{column}, {hidden}, {sums}"


def drawn_curve(tab, turns=64):
    """Draws the trefoil's curve with the mouse."""
    tab.value("document.querySelector('#sketch').open = true")
    x, y, width, height = tab.value(
        "(() => {const it = document.querySelector('.sketch'); it.scrollIntoView({block: 'center', behavior: 'instant'});"
        "const at = it.getBoundingClientRect(); return [at.x, at.y, at.width, at.height]})()"
    )
    for at in range(turns + 1):
        angle, size = 2 * math.pi * min(at, turns - 1) / turns, 0.15 * height
        place = {
            "x": x + width / 2 + size * (math.sin(angle) + 2 * math.sin(2 * angle)),
            "y": y + height / 2 + size * (math.cos(angle) - 2 * math.cos(2 * angle)),
        }
        kind = "mousePressed" if not at else "mouseReleased" if at == turns else "mouseMoved"
        tab.call("Input.dispatchMouseEvent", type=kind, button="left", buttons=int(at < turns), clickCount=1, **place)


def drawing_faults(tab, serving):
    """A curve that is drawn has a code: a trefoil, and with a crossing turned over a knot that has the table of none."""
    tab.load(serving.address())
    drawn_curve(tab)
    typed = "document.querySelector('#text').value"
    trefoil = plain.diagrams.read(tab.value(typed))
    one, other = (plain.cube.table(plain.diagrams.accepted(it), 2) for it in (trefoil, plain.diagrams.read(TREFOIL)))
    yield "a curve that is drawn", None if one == other else tab.value(typed)
    tab.click(".sketch .turn")
    turned = plain.cube.table(plain.diagrams.accepted(plain.diagrams.read(tab.value(typed))), 2)
    yield "a crossing that is turned over", None if turned == "table 2\nfield 2\nj -1 i 0 dim 1\nj 1 i 0 dim 1\n" else turned
    tab.press("Enter")
    back = plain.diagrams.read(tab.value(typed))
    yield "and back, by Enter", None if back == trefoil and not tab.faults() else tab.value(typed)
    tab.loaded(lambda: tab.click("#draw"))
    yield "the page of a curve", None if tab.value("document.querySelectorAll('.target').length") == 3 else tab.text("body")


WIDE = """\
#!/bin/sh
cat "$0.$2"
"""


def wide_fault(tab, program):
    """A table of 21 columns with numbers of four digits stays on the screen of a laptop, and no number leaves its cell."""
    with tempfile.TemporaryDirectory() as folder:
        path = os.path.join(folder, "kh-scan")
        write_text(path, WIDE, 0o755)
        for field in (2, 3, 5, 7):
            dimensions = {(2 * i + shift, i): 1941 for i in range(-10, 11) for shift in (-1, 1)}
            write_text(f"{path}.{field}", kh.Table(dimensions, field=field).text)
        page = os.path.join(folder, "page.html")
        words = [os.path.join(TOP, "show", "page"), "--kh", program, "--scan", path, os.path.join(TOP, "examples", "braid-20.pd")]
        with open(page, "w", encoding="utf-8") as file:
            subprocess.run(words, stdout=file, timeout=PATIENCE, check=True)
        tab.screen(1300, 900)
        tab.load("file://" + page)
        right, out = tab.value(
            "(() => {const grid = document.querySelector('.grid'), cells = Array.from(grid.querySelectorAll('td'));"
            "return [grid.getBoundingClientRect().right, cells.filter((it) => it.scrollWidth > it.clientWidth).length]})()"
        )
    return None if right <= 1300 and out == 0 else f"to {right}, {out} cells"


def faults(tab, program):
    """The name of each test, and what is wrong, if anything is."""
    tab.screen(1300, 900)
    with Serving(program) as serving:
        yield from kink_faults(tab, serving)
        yield from slide_faults(tab, serving)
        yield from drawing_faults(tab, serving)
    yield "moves that the mouse goes over", pointed_fault(tab, os.path.abspath(program))
    yield from cell_faults(tab)
    yield from scan_faults(tab)
    yield from quiz_faults(tab)
    yield "a broad table", wide_fault(tab, program)
