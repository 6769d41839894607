"""Tries pages in a browser: those of `docs/pages` as files, and those that `kh-page` serves.

Debian's `chromium` is driven without a window. Where it is not installed these tests are left out, and that is told; with
KH_BROWSER=install in the environment it is first installed by apt-get. `tests/program` runs these behind its rows.
"""
import json
import os
import re
import subprocess

from companions import page_lessons, page_screens
from rows.texts import TREFOIL
from shared import browser
from shared.places import TOP, read_text
from shared.running import PATIENCE
from shared.serving import Serving

LINKS = ("trefoil", "figure-eight", "hopf", "whitehead", "8_19")
# Sizes of screens: a phone, a tablet, a laptop.
SIZES = ((360, 740), (820, 1180), (1300, 900))
# What a mouse does to an element; what stands on a page, as its elements with their names and texts, without the places that change.
HAPPENS = "document.querySelector('%s').dispatchEvent(new MouseEvent('%s', {bubbles: true, cancelable: true}))"
OUTLINE = """(() => {
  const told = (it) => [it.tagName, it.id, it.getAttribute('class') || '', it.getAttribute('aria-label') || '',
    it.children.length ? '' : it.textContent.trim()].join('|');
  const skipped = '#told, #told *, #choices *, #shown *, #chosen > *, script, style';
  return Array.from(document.body.querySelectorAll('*')).filter((it) => !it.matches(skipped)).map(told).join('\\n');
})()"""
STATE = """(() => {
  const uses = (place) => Array.from(document.querySelectorAll(place + ' .circle'))
    .map((it) => [it.getAttribute('class'), Array.from(it.children).map((use) => use.getAttribute('href')).sort()]);
  const row = document.querySelector('tr[data-state="%s"]');
  return {shown: uses('#shown'), listed: uses('[id="state-%s"]'), told: document.querySelector('#told').textContent,
    cells: Array.from(row.cells).map((it) => it.textContent), out: Array.from(document.querySelectorAll('.edge.out'))
      .map((it) => it.dataset.head).sort(), heads: Array.from(row.cells[4].querySelectorAll('a')).map((it) => it.textContent).sort()};
})()"""


def address(name):
    return "file://" + os.path.join(TOP, "docs", "pages", f"{name}.html")


def outline_fault(tab, name):
    """After all has been chosen and left again a page is what it was when it was loaded."""
    tab.load(address(name))
    before = tab.value(OUTLINE)
    for link in tab.value("Array.from(document.querySelectorAll('.state, .target, .grid a')).map((it) => it.getAttribute('href'))"):
        tab.value(HAPPENS % (f'a[href=\"{link}\"]', "click"))
        if tab.value("location.hash") != link:
            return f"{link} is not chosen: {tab.value('location.hash')}"
    tab.press("Escape")
    after, told = tab.value(OUTLINE), tab.text("#told")
    return None if before == after and told.startswith("Choose") and not tab.faults() else f"another page: {told}, {tab.faults()}"


def states_fault(tab, name):
    """A state that is chosen shows its circles on the drawing, as they stand there for a browser without a script; the edges out of it; and
    the words of its row."""
    tab.load(address(name))
    states = tab.value("Array.from(document.querySelectorAll('.state')).map((it) => it.dataset.state)")
    for state in states:
        tab.value(f"location.hash = 'state-{state}'")
        tab.value("new Promise((done) => setTimeout(done, 0))")
        found = tab.value(STATE % (state, state))
        if found["shown"] != found["listed"] or not found["shown"] or found["out"] != found["heads"]:
            return f"{state}: {found}"
        circles, i, generators, edges = found["cells"][1:]
        told = " ".join(found["told"].split())
        wanted = [circles.partition(": ")[2], f"i = {i};", f"at j: {generators}", edges]
        if not all(" ".join(it.split()) in told for it in wanted):
            return f"{state}: {told} and not {wanted}"
    return None if states else "no states"


def click_faults(tab):
    """A click on a state, a cell and a crossing, and the keys."""
    tab.load(address("trefoil"))
    tab.click('.state[data-state="010"]')
    told, circles = tab.text("#told h3"), tab.value("document.querySelectorAll('#shown .circle').length")
    yield "a click on a state", None if (told, circles) == ("State 010", 2) else f"{told}, {circles}"
    tab.click('.grid a[href="#cell_-5_-2"]')
    told, lit = tab.text("#told"), tab.value("Array.from(document.querySelectorAll('.state.has')).map((it) => it.dataset.state).join()")
    right = "j = −5, i = −2" in told and "6 generators, in 3 states" in told and lit == "100,010,001"
    yield "a click on a cell", None if right else f"{told}, {lit}"
    tab.click('.target[href="#crossing-2"]')
    told = tab.text("#told")
    yield "a click on a crossing", None if "Crossing 2" in told and "X[3, 6, 4, 1], negative" in told else told
    tab.value("history.back()")
    tab.value("new Promise((done) => setTimeout(done, 200))")
    yield "the browser's way back", None if "j = −5" in tab.text("#told") else tab.text("#told")
    tab.click("#choices .choice:nth-of-type(4)")
    yield "a smoothing by its button", None if tab.text("#told h3") == "State 001" else tab.text("#told")
    tab.click("#choices .choice:nth-of-type(2)")
    yield "another smoothing", None if tab.text("#told h3") == "State 101" else tab.text("#told")
    tab.press("Escape")
    left = tab.value("document.querySelector('#shown').childElementCount")
    yield "Escape", None if left == 0 and tab.text("#told").startswith("Choose") else tab.text("#told")
    tab.load(address("8_19"))
    tab.click("#choices .choice:nth-of-type(9)")
    told, circles = tab.text("#told h3"), tab.value("document.querySelectorAll('#shown .circle').length")
    yield "a state that is not listed", None if told == "State 00000001" and circles == 2 else f"{told}, {circles}"
    tab.load(address("hopf") + "#state-10")
    yield "an address with a state", None if tab.text("#told h3") == "State 10" else tab.text("#told")
    tab.click(".grid a")
    pale = tab.value("getComputedStyle(document.querySelector('#strands')).opacity")
    yield "a cell behind an address with a state", None if pale == "1" and tab.text("#told h3").startswith("j =") else f"{pale}"
    for wrong in ("#state-1", "#state-xx", "#cell_9_9", "#crossing-9", "#%", "#data"):
        tab.load(address("hopf") + wrong)
        right = tab.text("#told").startswith("Choose") and not tab.faults()
        yield f"an address with {wrong}", None if right else f"{tab.text('#told')}, {tab.faults()}"


def keyboard_fault(tab):
    """All that can be chosen is reached by Tab, and chosen by Enter."""
    tab.load(address("hopf"))
    reached = []
    for _ in range(200):
        tab.press("Tab")
        at = tab.value("(() => {const it = document.activeElement; return [it.tagName, it.getAttribute('href') || it.textContent]})()")
        if at[0] == "BODY" or at[0] == "HTML":
            break
        reached.append(at[1])
        if at[1] == "#state-01" and at[0] == "a":
            tab.press("Enter")
            if tab.text("#told h3") != "State 01":
                return f"Enter: {tab.text('#told')}"
    wanted = ["#crossing-1", "#crossing-2", "#state-00", "#state-10", "#state-01", "#state-11", "#cell_0_0"]
    lacking = [it for it in wanted if it not in reached]
    return f"not reached: {lacking} of {reached}" if lacking else None


def plain_fault(tab):
    """Without a script a page has its lists, a state is shown by its address, and what needs a script is not there."""
    tab.screen(1300, 900, script=False)
    tab.load(address("trefoil") + "#state-011")
    tab.screen(1300, 900)
    seen = "(it) => Array.from(document.querySelectorAll(it)).filter((one) => getComputedStyle(one).display !== 'none').length"
    overlays, choices, chosen, rows = (tab.value(f"({seen})('{it}')") for it in (".overlay", "#choices", "#chosen", "#states tbody tr"))
    shown = tab.value("getComputedStyle(document.querySelector('[id=\"state-011\"]')).display")
    right = (overlays, choices, chosen, rows, shown) == (1, 0, 0, 8, "inline")
    return None if right else f"{(overlays, choices, chosen, rows, shown)}"


def size_faults(tab):
    """On no screen a page is broader than the screen, and the drawing is on it."""
    for (width, height), name in ((size, name) for size in SIZES for name in LINKS):
        tab.screen(width, height)
        tab.load(address(name))
        broad, left, right = tab.value(
            "(() => {const it = document.querySelector('#drawing').getBoundingClientRect();"
            "return [document.documentElement.scrollWidth, it.left, it.right]})()"
        )
        yield f"{name} on {width} by {height}", None if broad <= width and 0 <= left < right <= width else f"{broad}, {left} to {right}"
    tab.screen(1300, 900)


def scrolled_faults(tab):
    """However far a page is scrolled, the drawing with what stands below it covers nothing else."""
    script = """(() => {
      const box = (it) => it.getBoundingClientRect(), left = box(document.querySelector('.left'));
      return Array.from(document.querySelectorAll('main section')).filter((it) => !it.closest('.left') && box(it).left < left.right
        && box(it).top < left.bottom && box(it).bottom > left.top).map((it) => it.id).join();
    })()"""
    for name in LINKS:
        tab.load(address(name))
        for part in (0, 0.25, 0.5, 0.75, 1):
            tab.value(f"scrollTo({{top: {part} * document.documentElement.scrollHeight, behavior: 'instant'}})")
            covered = tab.value(f"new Promise((done) => requestAnimationFrame(() => done({script})))")
            yield f"{name}, scrolled by {part}", f"covered: {covered}" if covered else None


def colour_faults(tab):
    """A dark screen has other colours, and paper has those of a light one."""
    script = "['body', '.grid th', '.torsion'].map((it) => getComputedStyle(document.querySelector(it)).backgroundColor).join()"
    found = {}
    for name, words in (("light", {}), ("dark", {"dark": True}), ("paper", {"dark": True, "paper": True})):
        tab.screen(1300, 900, **words)
        tab.load(address("trefoil"))
        found[name] = tab.value(script)
    tab.screen(1300, 900)
    yield "a dark screen", None if found["dark"] != found["light"] == found["paper"] else f"{found}"


def press(tab, selector):
    tab.loaded(lambda: tab.click(selector))


def served_faults(tab, program):
    """A code is typed, a move is shown, made, undone and redone, a wrong code is shown with its place."""
    with Serving(program) as serving:
        tab.load(serving.address())
        tab.type("#text", TREFOIL)
        press(tab, "#draw")
        yield "a code that is typed", None if "3 crossings" in tab.text("#diagram") and not tab.faults() else f"{tab.faults()}"
        tab.value("document.querySelectorAll('details').forEach((it) => (it.open = true))")
        tab.value(HAPPENS % ('button[value=\"r2 add 1 left 3 left\"]', "mouseover"))
        marked = tab.value("Array.from(document.querySelectorAll('#marks use')).map((it) => it.getAttribute('href')).join()")
        yield "a move that is pointed at", None if marked == "#arc-1,#arc-3" else marked
        wide = tab.value(
            "new Promise((done) => {const look = () => {const it = document.querySelector('#preview image'); if (!it) setTimeout(look, 50);"
            "else {it.addEventListener('load', () => done(it.getBBox().width)); it.addEventListener('error', () => done(0));}}; look();"
            "setTimeout(() => done(-1), 60000)})"
        )
        yield "the picture of what it makes", None if wide > 100 else f"{wide}"
        press(tab, 'button[value="r2 add 1 left 3 left"]')
        told, count = tab.text("#unchanged"), tab.value("document.querySelectorAll('.target').length")
        right = "The Jones polynomial is the same" in told and "computed anew, is the same" in told and count == 5
        yield "a move that is made", None if right else f"{told}, {count}"
        tab.click('.state[data-state="00000"]')
        yield "a state behind a move", None if tab.text("#told h3") == "State 00000" else tab.text("#told")
        press(tab, 'button[value="undo"]')
        right = "The diagram is the first one again" in tab.text("#unchanged") and "3 crossings" in tab.text("#diagram")
        yield "a move that is undone", None if right else tab.text("#unchanged")
        press(tab, 'button[value="redo"]')
        yield "a move that is redone", None if "5 crossings" in tab.text("#diagram") else tab.text("#diagram")
        press(tab, 'button[value="mirror"]')
        yield "the mirror image", None if "5 crossings (4 positive, 1 negative)" in tab.text("#diagram") else tab.text("#diagram")
        for text, said in (("braid: 1 1 x", "  braid: 1 1 x\n             ^"), ("<b>8_77", "<b>8_77")):
            tab.type("#text", text)
            press(tab, "#draw")
            found = tab.text(".fault pre")
            right = said in found and tab.value("document.querySelector('#text').value") == text and not tab.text(".fault b")
            yield f"{text} is typed", None if right else json.dumps(found)
        yield "a move without a script", plain_move_fault(tab, serving)
        yield "another site can not", foreign_fault(tab, serving)


def plain_move_fault(tab, serving):
    """Without a script a kink is taken out by its button, and nothing is said of what only a script does."""
    tab.screen(1300, 900, script=False)
    tab.load(serving.address(serving.step("PD[X[1,1,2,2]]")))
    note = tab.value("document.querySelector('#moves > .note').innerText")
    if "kh edit" not in note or "Point" in note:
        return note
    press(tab, 'button[value="r1 drop 1"]')
    tab.screen(1300, 900)
    told = tab.text("#unchanged")
    return None if "The Jones polynomial is the same" in told and "1 loop" in tab.text("#diagram") else told


# The steps of the lessons: what is typed, what is pressed and leads to another page, what is clicked on the page.
KINK, FINGER = 'button[value="r1 add 1 under plus"]', 'button[value="r2 add 1 left 3 left"]'
FORWARD = "#scan .steps button:nth-of-type(2)"
LESSONS = [
    ("type", "PD[X[1,4,2,5], X[3,6,4,1], X[5,2,6]]"), ("press", "#draw"), ("type", TREFOIL), ("press", "#draw"),
    ("click", '.target[href="#crossing-1"]'), ("click", '.state[data-state="000"]'), ("click", "#choices .choice:nth-of-type(2)"),
    ("click", '.grid a[href="#cell_-5_-2"]'), ("click", '.grid a[href="#cell_-7_-3"]'), ("press", 'button[value^="trefoil"]'),
    ("press", KINK), ("click", '.state[data-state="0000"]'), ("press", 'button[value="undo"]'), ("press", 'button[value="redo"]'),
    ("press", '.move[data-line="r1 drop 4"] circle'), ("press", 'button[value^="trefoil"]'), ("press", FINGER), ("type", "braid: 1 2 1"),
    ("press", "#draw"), ("press", '.move[data-line="r3 1 2 3"] circle'),
    ("press", 'button[value="r1 drop 2"]'), ("press", 'button[value^="trefoil"]'), ("press", 'button[value="mirror"]'),
    ("click", '.state[data-state="111"]'), ("press", 'button[value^="trefoil"]'), ("click", '.grid a[href="#cell_-7_-2"]'),
    ("click", '.grid a[href="#cell_-7_-3"]'), *5 * [("click", FORWARD)], ("click", "#scan .steps button:nth-of-type(4)"),
    *3 * [("click", FORWARD)], ("draw", ""), ("press", "#draw"), *(("click", f"#quiz button:nth-of-type({at})") for at in (2, 4, 5, 3)),
]
QUOTED = re.compile(r'"([^"\n]*(?:\n[^"\n]+)*)"')


def lessons_fault(tab, program):
    """The steps of `docs/TEACHING.md` can be done, and what it quotes is then on the page."""
    seen = []
    quotes = [" ".join(it.split()) for it in QUOTED.findall(re.sub("```.*?```", "", read_text("docs", "TEACHING.md"), flags=re.S))]
    with Serving(program) as serving:
        tab.load(serving.address())
        for kind, what in LESSONS:
            if kind == "type":
                tab.type("#text", what)
            elif kind == "click":
                tab.click(what)
            elif kind == "draw":
                page_lessons.drawn_curve(tab)
            else:
                press(tab, what)
            tab.value("document.querySelectorAll('details').forEach((it) => (it.open = true))")
            seen.append(" ".join(tab.value("document.body.innerText").split()))
    lacking = [quote for quote in quotes if not any(quote in it for it in seen)]
    return f"on no page of the lessons: {lacking}" if lacking or len(quotes) < 30 else None


def foreign_fault(tab, serving):
    """A page of another place can neither read nor drive the session, though it knows the token."""
    step = serving.step(TREFOIL)
    tab.load(address("hopf"))
    wanted = json.dumps(serving.address(step))
    read = tab.value(f"fetch({wanted}).then((it) => it.text()).catch(() => 'nothing')")
    tab.load("about:blank")
    body = "document.body.innerHTML = `<form method=post action=${%s}/move><input name=line value='r1 add 1 under plus'></form>`" % wanted
    tab.loaded(lambda: tab.value(f"{body};document.forms[0].submit()"))
    told, made = tab.text("body"), serving.get(str(int(step) + 1)).status
    return None if read == "nothing" and "comes from another page" in told and made == 404 else f"{read[:60]}, {told[:60]}, {made}"


def installed():
    """Whether there is a browser, which is installed first where that is asked for; where there is none, that is told."""
    if not browser.path() and os.environ.get("KH_BROWSER") == "install":
        for words in (["update"], ["install", "-y", "--no-install-recommends", "chromium"]):
            subprocess.run(["apt-get", *words], stdin=subprocess.DEVNULL, capture_output=True, timeout=PATIENCE, check=False)
    if not browser.path():
        print("page_browser: not tried, since chromium is not installed (KH_BROWSER=install installs it)")
    return bool(browser.path())


def faults(program):
    """The name of each test, and what is wrong, if anything is."""
    if not installed():
        return
    with browser.Browser() as tab:
        tab.screen(1300, 900)
        for name in LINKS:
            yield f"{name}, all chosen and left", outline_fault(tab, name)
        for name in LINKS[:4]:
            yield f"{name}, its states", states_fault(tab, name)
        yield from click_faults(tab)
        yield "the keyboard", keyboard_fault(tab)
        yield "without a script", plain_fault(tab)
        yield from size_faults(tab)
        yield from scrolled_faults(tab)
        yield from colour_faults(tab)
        yield from served_faults(tab, program)
        yield from page_lessons.faults(tab, program)
        yield from page_screens.faults(tab)
        yield "the lessons", lessons_fault(tab, program)
