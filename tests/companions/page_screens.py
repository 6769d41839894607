"""Tries pages on small screens and on paper: what a cell has is found there and is whole, as the scan is, and no paper is wasted.

`page_browser.py` runs these, with its browser.
"""
import base64
import re

from companions.page_lessons import WAIT, page_of

# A laptop, and two phones.
SIZES = ((1280, 720), (390, 844), (360, 740))
TORSION = '.grid a[href="#cell_-7_-2"]'
# How far to the right the table of ranks goes, and the panel that it stands in.
RIGHTS = "['#cell .ranks', '#cell'].map((it) => document.querySelector(it).getBoundingClientRect().right)"
# Whether nothing else is where the panel begins, and what has the focus.
LED = """(() => {
  const panel = document.querySelector('#cell'), box = panel.getBoundingClientRect();
  const [top, bottom] = [Math.max(0, box.top), Math.min(innerHeight, box.bottom)];
  const at = (deep) => panel.contains(document.elementFromPoint(box.left + 40, deep));
  return [document.activeElement.id, box.top < innerHeight / 2, at(top + 5) && at(bottom - 5), location.hash];
})()"""
# The most pages that the trefoil takes on paper.
MOST_PAGES = 14


def cell_faults(tab):
    """A click on a cell tells where its matrices are; the way there keeps the cell, and the ranks and sums are all on the screen."""
    for width, height in SIZES:
        tab.screen(width, height, still=True)
        tab.load(page_of("trefoil"))
        tab.click(TORSION)
        tab.click('#told a[href="#cell"]')
        tab.value(WAIT % 50)
        found, (right, end) = tab.value(LED), tab.value(RIGHTS)
        yield f"the way to the matrices, {width} broad", None if found == ["cell", True, True, "#cell_-7_-2"] else f"{found}"
        yield f"the ranks of a cell, {width} broad", None if right <= end <= width else f"{right}, {end}"
    tab.value("document.querySelector('#cell a[href=\"#edges\"]').click()")
    at, told = tab.value("[document.activeElement.id, document.querySelector('#edges').textContent]")
    right = at == "edges" and "v− and v− become 0" in told and tab.value("location.hash") == "#cell_-7_-2"
    yield "what edges make of labels", None if right else f"{at}, {told}"


def scan_fault(tab):
    """On a phone the buttons of the scan have one line each, and the drawing stands above the step."""
    tab.screen(*SIZES[-1])
    tab.load(page_of("trefoil"))
    high, left = tab.value(
        "[Math.max(...Array.from(document.querySelectorAll('#scan .steps button')).map((it) => it.offsetHeight)),"
        "getComputedStyle(document.querySelector('.so-far')).cssFloat]"
    )
    return None if high < 40 and left == "none" else f"{high}, {left}"


def paper_fault(tab):
    """On paper all cells of the trefoil have room."""
    tab.screen(1280, 720)
    tab.load(page_of("trefoil"))
    made = base64.b64decode(tab.call("Page.printToPDF", paperWidth=8.27, paperHeight=11.69)["data"])
    count = len(re.findall(rb"/Type\s*/Page\b", made))
    return None if 0 < count <= MOST_PAGES else f"{count} pages"


def faults(tab):
    """The name of each test, and what is wrong, if anything is."""
    yield from cell_faults(tab)
    yield "the scan on a phone", scan_fault(tab)
    yield "paper", paper_fault(tab)
    tab.screen(1300, 900)
