"""Tries `show/page`: what a page has is what the plain readings say, it leads nowhere else, and can be read without a script; and the moves
that `kh-page` lists are those that `kh edit` makes.

`tests/program` runs these behind its rows; `page_server.py` and `page_browser.py` try the server, and both in a browser.
"""
import itertools
import math
import os
import re
import tempfile

import plain.cube
import plain.diagrams
import plain.moves
from companions import page_moves as page_moves_drawn
from companions.page_cells import matrices_fault
from companions.show import help_fault, named_circles
from kh.show import asking, page_moves
from kh.show import sheet as sheets
from shared import documents, known_diagrams
from shared.places import TOP, example, read_text, write_text
from shared.running import ended, silent_fault
from shared.waiting import is_living, wait_for

PAGE = os.path.join(TOP, "show", "page")
FIELDS = (2, 3, 5, 7)
EXAMPLES = ("trefoil", "trefoil-right-handed", "figure-eight", "hopf", "curl", "empty")
OTHERS = {
    "a loop": "PD[Loop[1]]", "two curls and two loops": "PD[X[1,1,2,2], X[3,4,4,3], Loop[5], Loop[6]]",
    "a circle over another": "PD[X[1,4,2,3], X[2,4,1,3]]",
}
# What can not be a page, what is written of it, and what is said.
WRONG = [
    ("a virtual trefoil", "PD[X[3,1,4,2], X[4,2,1,3]]", "page: refused checkerboard at arc 2"),
    ("a code that is cut", "PD[X[1,4,2,5], X[3,6,4,1], X[5,2,6", "page: refused text at"),
    ("no code", "", "page: refused text at 0"),
    ("another's form", "braid: 1 1 1", "page: refused"),
]


def made(program, text, *words):
    """How `show/page` ends for a text, and what it wrote and said."""
    return ended([PAGE, "--kh", program, *words], text)


def codes():
    """The name and the text of each code of which a page is read."""
    for name in EXAMPLES:
        yield name, example(name)
    yield from OTHERS.items()


def form_fault(root):
    """A page has a language, a title, names that stand once, links and pieces that are there, and nothing of another place."""
    every = list(root.all())
    names = [it.attributes["id"] for it in every if "id" in it.attributes]
    if len(names) != len(set(names)):
        return f"names that stand twice: {sorted(it for it in set(names) if names.count(it) > 1)[:5]}"
    for it in every:
        for key in ("href", "src", "action"):
            to = it.attributes.get(key, "#")
            is_own = to == "data:," or to == "#" or to[0] == "#" and (to[1:] in names)
            if not is_own:
                return f"<{it.tag} {key}={to}> leads nowhere"
        for key in ("aria-labelledby", "aria-describedby"):
            if it.attributes.get(key, names[0]) not in names:
                return f"<{it.tag} {key}={it.attributes[key]}>"
    html, style = root.one("html"), root.one("style").text()
    if html.attributes.get("lang") != "en" or not root.one("head").one("title").text() or re.search(r"@import|url\(|https?:", style):
        return "no language, no title, or a style of another place"
    return None


def named_fault(root):
    """Every picture, link, button and table has a name for those who do not see it, and heads of tables say what they head."""
    for it in root.all("svg"):
        told = it.attributes.get("aria-label") or it.attributes.get("aria-labelledby") or "key" in it.attributes.get("class", "")
        if not told:
            return f"a picture without a name: {it.attributes}"
    for it in (*root.all("a"), *root.all("button")):
        if not (it.attributes.get("aria-label") or it.text()):
            return f"a link without a name: {it.attributes}"
    if any("scope" not in it.attributes for it in root.all("th")):
        return "the head of a table has no scope"
    levels = [int(it.tag[1]) for it in root.all() if re.fullmatch(r"h[1-6]", it.tag)]
    return None if levels[:1] == [1] and all(more <= one + 1 for one, more in zip(levels, levels[1:])) else f"headings {levels}"


def number(text):
    return int(text.replace("\u2212", "-").rstrip("*"))


def grids_fault(root, diagram):
    """The grids have the dimensions of the plain reading over each field, with stars exactly where the fields differ."""
    tables = {field: {pair: count for pair, count in plain.cube.dimensions(diagram, field).items() if count} for field in FIELDS}
    tables = {field: {tuple(pair): count for pair, count in table.items()} for field, table in tables.items()}
    seen = []
    for grid in root.all("table", class_="grid"):
        fields = list(map(int, re.findall(r"\d", grid.one("caption").text())))
        seen += fields
        columns = [number(it.text()) for it in list(grid.one("thead").all("th"))[1:-1]]
        shown, stars = {}, set()
        for row in grid.one("tbody").all("tr"):
            j, cells = number(row.one("th").text()), list(row.all("td"))
            for i, cell in zip(columns, cells):
                if cell.text() not in ("", "·"):
                    shown[j, i] = number(cell.text())
                    stars |= {(j, i)} if cell.text().endswith("*") else set()
            if number(cells[-1].text()) != sum((-1) ** i * shown.get((j, i), 0) for i in columns):
                return f"the sum of the row {j}"
        pairs = {pair for table in tables.values() for pair in table}
        differing = {pair for pair in pairs if len({table.get(pair, 0) for table in tables.values()}) > 1}
        for field in fields:
            if {pair: count for pair, count in shown.items() if count} != tables[field] or stars != differing:
                return f"over {field}: {shown}, {stars} and not {tables[field]}, {differing}"
    return None if sorted(seen) == list(FIELDS) else f"fields {seen}"


def generators_fault(root, diagram):
    """Each cell names the states whose generators stand there, with how many."""
    code = plain.diagrams.code_of(diagram)
    minus, count = plain.cube.minus_of(diagram), len(code.crossings)
    wanted = {}
    for state in itertools.product((0, 1), repeat=count):
        circles = len(named_circles(code, state))
        for minuses in range(circles + 1):
            j = circles - 2 * minuses + sum(state) + count - 3 * minus
            wanted.setdefault((j, sum(state) - minus), {})["".join(map(str, state)) or "the one state"] = math.comb(circles, minuses)
    for cell in (it for it in root.one("dl", class_="cells").all("div") if "id" in it.attributes):
        pair = tuple(map(int, cell.attributes["id"].split("_")[1:]))
        text = cell.one("dd").text()
        found = {name: int(many) for name, many in re.findall(r"([01]+|the one state) \((\d+) with \d", text)}
        total = re.search(r"(\d+) generators?, in", text)
        if found != wanted.get(pair, {}) or (total and int(total[1]) != sum(found.values())):
            return f"{pair}: {found} and not {wanted.get(pair)}"
    return None


def states_fault(root, code):
    """Each state has its circles, in its row, in the cube and on the drawing; pieces of a circle are the arcs of the plain reading."""
    for state in itertools.product((0, 1), repeat=len(code.crossings)):
        name, circles = "".join(map(str, state)), named_circles(code, state)
        row = root.one("tr", **{"data-state": name})
        told = [list(map(int, it.split(","))) for it in re.findall(r"{([\d,]+)}", list(row.all("td"))[0].text())]
        if told != circles:
            return f"{name}: {told} and not {circles}"
        places = [root.one("g", id=f"state-{name}"), root.one("a", class_="state", **{"data-state": name})]
        for place in places:
            used = [[it.attributes["href"] for it in circle.all("use")] for circle in place.all("g", class_="circle")]
            arcs = [sorted(int(it[5:]) for it in uses if it.startswith("#arm-")) for uses in used]
            turns = sorted(it for uses in used for it in uses if it.startswith("#turn-"))
            ends = [("12", "03") if bit else ("01", "23") for bit in state]
            if arcs != circles or turns != sorted(f"#turn-{at}-{pair}" for at, pairs in enumerate(ends, 1) for pair in pairs):
                return f"{name}: {used}"
    return None


def edges_fault(root, code):
    """The cube has its edges, each merging or splitting as the plain reading has it."""
    edges = [it.attributes for it in root.all("path", class_="edge") if "data-tail" in it.attributes]
    found = {(it["data-tail"], it["data-head"]): it["class"].split()[1] for it in edges}
    wanted = {}
    for state in itertools.product((0, 1), repeat=len(code.crossings)):
        for at in (at for at, bit in enumerate(state) if not bit):
            head = state[:at] + (1,) + state[at + 1 :]
            less = len(named_circles(code, head)) < len(named_circles(code, state))
            wanted["".join(map(str, state)), "".join(map(str, head))] = "merge" if less else "split"
    return None if found == wanted else f"{len(found)} edges of {len(wanted)}"


def crossings_fault(root, diagram):
    """Each crossing has its code, its sign, and what its smoothings join."""
    code = plain.diagrams.code_of(diagram)
    for at, (arcs, crossing) in enumerate(zip(code.crossings, diagram.crossings), 1):
        i, j, k, l = arcs
        cells = [it.text() for it in root.one("tr", id=f"crossing-{at}").all("td")]
        sign = "positive" if crossing.positive else "negative"
        wanted = [f"X[{i}, {j}, {k}, {l}]", sign, f"joins {i} with {j}, {k} with {l}", f"joins {i} with {l}, {j} with {k}"]
        if [" ".join(it.replace(",", ", ").split()) for it in cells] != [" ".join(it.replace(",", ", ").split()) for it in wanted]:
            return f"{cells} and not {wanted}"
    return None


def polynomials_fault(root, diagram):
    """The Jones line is the plain reading's, and the page has it."""
    line = plain.cube.jones_line(diagram).strip()
    return None if line in root.one("section", id="polynomials").text() else line


def page_faults(program, name, text):
    """What is wrong with the page of a code."""
    status, wrote, said = made(program, text)
    if (status, said) != (0, ""):
        yield name, f"{status}, {said}"
        return
    code = plain.diagrams.read(text.strip())
    diagram, root = plain.diagrams.accepted(code), documents.read(wrote)
    yield f"{name}, its form", form_fault(root)
    yield f"{name}, names", named_fault(root)
    yield f"{name}, grids", grids_fault(root, diagram)
    yield f"{name}, generators", generators_fault(root, diagram)
    yield f"{name}, matrices", matrices_fault(root, diagram)
    yield f"{name}, states", states_fault(root, code)
    yield f"{name}, edges", edges_fault(root, code)
    yield f"{name}, crossings", crossings_fault(root, diagram)
    yield f"{name}, polynomials", polynomials_fault(root, diagram)


def large_faults(program):
    """Larger diagrams: above six crossings no cube is drawn and states are counted, above the limit a line says that there is no table."""
    for name, crossings, words in (("8_19", 8, "generators, in"), ("braid-20", 20, BEYOND)):
        status, wrote, said = made(program, example(name), "--title", "<a & b>", "--scan", os.path.join(TOP, "no scan"))
        root = documents.read(wrote)
        right = (status, said) == (0, "") and not list(root.all("svg", class_="cube")) and words in root.one("main").text()
        right = right and root.one("head").one("title").text() == root.one("h1").text() == "<a & b>"
        right = right and len(list(root.all("a", class_="target"))) == crossings
        right = right and f"= {2 ** crossings:,} states" in root.one("section", id="cube").text()
        yield f"{name}", (form_fault(root) or named_fault(root)) if right else f"{status}, {said}"


def all_lines(diagram):
    """All lines of a script that name arcs and crossings of a diagram, each a move or not."""
    arcs, numbers = range(1, 2 * len(diagram.crossings) + diagram.loops + 1), range(1, len(diagram.crossings) + 1)
    sides = ("left", "right")
    yield from (f"r1 add {arc} {one} {two}" for arc in arcs for one in ("under", "over") for two in ("plus", "minus"))
    yield from (f"r1 drop {one}" for one in numbers)
    yield from (f"r2 add {a} {s} {b} {t}" for a, s, b, t in itertools.product(arcs, sides, arcs, sides))
    yield from (f"r2 drop {one} {two}" for one, two in itertools.combinations(numbers, 2))
    yield from (f"r3 {one} {two} {three}" for one, two, three in itertools.combinations(numbers, 3))


def moves_fault(program, code):
    """The moves that are listed are all that the plain reading makes, and lead to the same codes."""
    diagram = plain.diagrams.accepted(code)
    wanted = {}
    for line in all_lines(diagram):
        try:
            wanted[line] = plain.diagrams.printed(plain.diagrams.code_of(plain.moves.moved(diagram, line)))
        except plain.diagrams.Refused:
            continue
    kh = asking.Kh(program)
    found = {move.line: move.code for move in page_moves.accepted(kh, sheets.sheet_of(kh, plain.diagrams.printed(code)))}
    if found.keys() != wanted.keys():
        return f"{sorted(found.keys() ^ wanted.keys())[:9]}"
    return next((f"{line}: {found[line]} and not {wanted[line]}" for line in wanted if found[line] != wanted[line]), None)


def moved_codes():
    """The name and the code of each diagram whose moves are tried."""
    yield from ((name, plain.diagrams.read(text.strip())) for name, text in codes())
    yield "a braid with a triangle", plain.diagrams.code_of(known_diagrams.braid(3, [1, 2, 1, -2, -1]))
    trefoil = known_diagrams.diagram_of("PD[X[1,4,2,5], X[3,6,4,1], X[5,2,6,3]]")
    yield "a trefoil with a finger", plain.diagrams.code_of(plain.moves.moved(trefoil, "r2 add 1 left 3 left"))


def words_fault(program):
    """No other words are passed on."""
    kh = asking.Kh(program)
    for words in (("bench", "--number", "7"), ("homology", "--field", "4"), ("homology",), ["check"], ("check", "; true")):
        try:
            kh.ask(words, "PD[]")
            return f"{words} were passed on"
        except (ValueError, TypeError):
            continue
    return None


def slow_fault():
    """A run that takes too long is ended, and all that it began."""
    with tempfile.TemporaryDirectory() as folder:
        path = os.path.join(folder, "slow")
        write_text(path, "#!/bin/sh\nsleep 600 & echo $! > \"$0.pid\"; wait\n", 0o755)
        try:
            asking.Kh(path, 1).ask(asking.CHECK, "PD[]")
            return "it was waited for"
        except asking.Unreadable as fault:
            told = str(fault)
        child = int(read_text(path + ".pid"))
    # (the child is nobody's: the system removes it once it has ended)
    if not wait_for(lambda: not is_living(child)):
        return "what it began is still there"
    return None if "longer than 1 seconds" in told else told


BEYOND = "limit generators 35161506 of 4194304"
SCAN = """\
#!/bin/sh
echo "$*" >> "$0.words"
[ ! -e "$0.slow" ] || exec sleep 1000
for _ in $(seq 200); do [ $(($(wc -l < "$0.words") % 4)) -ne 0 ] || break; sleep 0.05; done
[ $(($(wc -l < "$0.words") % 4)) -eq 0 ] || exit 1
printf 'table 2\\nfield %s\\nj 0 i 0 dim 1\\njones 1*q^0\\n' "$2"
"""


def scan_fault(program):
    """The tables are those of `kh-scan`, where there is one and it ends in time, asked with the words for the field; else those of `kh`."""
    trefoil, large = map(example, ("trefoil", "braid-20"))
    with tempfile.TemporaryDirectory() as folder:
        kh = asking.Kh(program, scan=os.path.join(folder, "kh-scan"))
        alone, without = sheets.tables_of(kh, trefoil), sheets.tables_of(kh, large)
        write_text(kh.scan, SCAN, 0o755)
        first, (tables, limit) = sheets.tables_of(kh, trefoil), sheets.tables_of(kh, large)
        words = read_text(kh.scan + ".words").splitlines()
        status, page, said = made(program, large, "--scan", kh.scan)
        write_text(kh.scan + ".slow", "")
        late = sheets.tables_of(asking.Kh(program, 5, kh.scan), large)
    if (status, said) != (0, "") or list(documents.read(page).all("p", class_="limit")):
        return f"{status}, {said}"
    right = without == late == ([], BEYOND) and ([it.field for it in tables], limit) == (list(FIELDS), "")
    right = right and first == (tables, "") and len(alone[0][0].dimensions) == 6
    # (each of them waits until all four have begun)
    right = right and sorted(words) == sorted(2 * [f"--field {field}" for field in FIELDS])
    return None if right else f"{without}, {tables}, {limit}, {words}, {late}"


def faults(program):
    """The name of each test, and what is wrong, if anything is."""
    program = os.path.abspath(program)
    for name, text in codes():
        yield from page_faults(program, name, text)
    yield from large_faults(program)
    for name, text, wanted in WRONG:
        came = made(program, text)
        yield name, None if came[:2] == (1, "") and came[2].startswith(wanted) else f"{came}"
    for name, code in moved_codes():
        yield f"moves of {name}", moves_fault(program, code)
    yield from page_moves_drawn.faults()
    yield "no other words", words_fault(program)
    yield "a run that takes long", slow_fault()
    yield "tables of kh-scan", scan_fault(program)
    yield "docs/pages", silent_fault(os.path.join(TOP, "show", "pages"), "--test", "--kh", program)
    yield "kh-page --help", help_fault("kh-page")
